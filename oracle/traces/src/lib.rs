//! The loader's trace over a pool (document 02, No. 12), counted by plain Rust, and seeded traces.

pub mod count;
pub mod frame;
pub mod made;

//! Constant pools and bootstrap methods read by plain Rust (JVMS 4.4 and 4.7.23), their listing (document 02, No. 1), and seeded pools.

pub mod bytes;
pub mod class_file;
pub mod constant;
pub mod frame;
pub mod held;
pub mod hex_float;
pub mod listing;
pub mod made;
pub mod program;

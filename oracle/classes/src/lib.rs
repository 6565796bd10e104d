//! A class file around a pool (document 02, No. 7), written and read by plain Rust, and seeded parts, files and classes that a JVM takes.

pub mod file;
pub mod frame;
pub mod loadable;
pub mod made;

//! Krakatau's `cpool` module at commit 6929fd6e1b, unchanged, under a root of our own.
//!
//! Everything under `src/` is carried over byte for byte; everything under `root/` is new.

// The carried files keep their own layout and use only what the whole assembler needs.
#[rustfmt::skip]
#[path = "../src/lib/assemble"]
#[allow(dead_code, clippy::all)]
pub mod assemble {
    pub mod cpool;
    pub mod span;
    pub mod writer;
}

#[path = "mstr.rs"]
pub mod util;

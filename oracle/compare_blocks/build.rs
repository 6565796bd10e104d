//! Links the static library that `tools/library blocks` leaves in target/staticlib of the repository.

fn main() {
    let here = std::env::var("CARGO_MANIFEST_DIR").unwrap();
    println!("cargo::rustc-link-search=native={here}/../../target/staticlib");
    println!("cargo::rustc-link-lib=static=blocks");
    println!("cargo::rerun-if-changed={here}/../../target/staticlib/libblocks.a");
}

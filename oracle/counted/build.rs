//! Copies the carried module, applies `visits.patch` to the copy and writes a root that mounts it.

mod patch;

use patch::Patch;
use std::path::{Path, PathBuf};
use std::{env, fs};

const CARRIED: &str = "../krakatau";

fn main() {
    println!("cargo:rerun-if-changed=build.rs");
    println!("cargo:rerun-if-changed=patch.rs");
    println!("cargo:rerun-if-changed=visits.patch");
    println!("cargo:rerun-if-changed={CARRIED}/src");

    let out = PathBuf::from(env::var_os("OUT_DIR").unwrap());
    let text = fs::read_to_string("visits.patch").unwrap();
    let patch = Patch::parse(&text).unwrap_or_else(|why| panic!("visits.patch: {why}"));
    copy_folder(Path::new("src"), &out);
    let carried = fs::read_to_string(Path::new(CARRIED).join(patch.path)).unwrap();
    let patched = patch
        .apply(&carried)
        .unwrap_or_else(|why| panic!("visits.patch: {why}"));
    fs::write(out.join(patch.path), patched).unwrap();
    write_root(&out);
}

/// Copies a folder of the carried package to the same place under `out`.
fn copy_folder(folder: &Path, out: &Path) {
    fs::create_dir_all(out.join(folder)).unwrap();
    for item in fs::read_dir(Path::new(CARRIED).join(folder)).unwrap() {
        let item = item.unwrap();
        let path = folder.join(item.file_name());
        if item.file_type().unwrap().is_dir() {
            copy_folder(&path, out);
        } else {
            let bytes = fs::read(item.path()).unwrap();
            fs::write(out.join(path), bytes).unwrap();
        }
    }
}

/// A `#[path]` takes only a literal, so the root that names the copy's folder is generated.
fn write_root(out: &Path) {
    let folder = out.join("src/lib/assemble");
    let root = format!(
        "#[path = {:?}]\n#[allow(dead_code, clippy::all)]\npub mod assemble {{\n    \
         pub mod cpool;\n    pub mod span;\n    pub mod writer;\n}}\n",
        folder.to_str().unwrap()
    );
    fs::write(out.join("root.rs"), root).unwrap();
}

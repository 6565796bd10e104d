//! Links the proved libraries. `tools/library cpool blocks texts` writes them; ROTBLOSSOM_LIBRARY names another folder.

use std::env;
use std::path::Path;

fn main() {
    let beside = format!("{}/../../target/staticlib", env!("CARGO_MANIFEST_DIR"));
    let folder = env::var("ROTBLOSSOM_LIBRARY").unwrap_or(beside);
    println!("cargo:rerun-if-env-changed=ROTBLOSSOM_LIBRARY");
    println!("cargo:rustc-link-search=native={folder}");
    for name in ["cpool", "blocks", "texts"] {
        let archive = format!("{folder}/lib{name}.a");
        println!("cargo:rerun-if-changed={archive}");
        assert!(
            Path::new(&archive).exists(),
            "{archive} isn't there: `tools/library {name}` writes it"
        );
        println!("cargo:rustc-link-lib=static={name}");
    }
}

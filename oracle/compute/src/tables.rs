//! The modules of crates/definition whose theorems the checker computes: proofs/Lib.antt lists them.

use std::fs;
use std::io;
use std::path::Path;

pub struct Table {
    pub module: String,
    pub text: String,
}

/// All of them. `definition` is the folder crates/definition.
pub fn list(definition: &Path) -> io::Result<Vec<Table>> {
    let proofs = definition.join("proofs");
    let modules = fs::read_to_string(proofs.join("Lib.antt"))?;
    let modules = modules
        .lines()
        .filter_map(|line| line.strip_prefix("pub mod "));
    modules
        .map(|module| {
            Ok(Table {
                module: module.into(),
                text: fs::read_to_string(proofs.join(format!("{module}.antt")))?,
            })
        })
        .collect()
}

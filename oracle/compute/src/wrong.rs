//! Wrong versions of the definition: the must-fail edits of its crate, which the claims must notice too.

use std::fs;
use std::io;
use std::path::Path;

/// A place in a file of the definition, and what stands there instead.
#[derive(Debug, PartialEq, Eq)]
pub struct Edit {
    pub file: String,
    pub old: String,
    pub new: String,
}

pub struct Wrong {
    pub name: String,
    pub edits: Vec<Edit>,
}

/// The wrong versions by name. `definition` is the folder crates/definition.
pub fn list(definition: &Path) -> io::Result<Vec<Wrong>> {
    let mut versions = Vec::new();
    for entry in fs::read_dir(definition.join("must-fail"))? {
        let path = entry?.path();
        let name = path.file_stem().unwrap_or_default();
        versions.push(Wrong {
            name: name.to_string_lossy().into(),
            edits: edits(&fs::read_to_string(&path)?),
        });
    }
    versions.sort_by(|a, b| a.name.cmp(&b.name));
    Ok(versions)
}

/// A `file:` line holds for the pairs of `old:` and `new:` behind it; other lines are passed over.
fn edits(text: &str) -> Vec<Edit> {
    let (mut file, mut old, mut edits) = ("", "", Vec::new());
    for line in text.lines() {
        if let Some(rest) = line.strip_prefix("file: ") {
            file = rest;
        } else if let Some(rest) = line.strip_prefix("old: ") {
            old = rest;
        } else if let Some(rest) = line.strip_prefix("new:") {
            edits.push(Edit {
                file: file.into(),
                old: old.into(),
                new: rest.strip_prefix(' ').unwrap_or(rest).into(),
            });
        }
    }
    edits
}

#[cfg(test)]
mod tests {
    use super::*;

    fn edit(file: &str, old: &str, new: &str) -> Edit {
        Edit {
            file: file.into(),
            old: old.into(),
            new: new.into(),
        }
    }

    #[test]
    fn a_file_holds_for_the_pairs_behind_it() {
        let text = "# why\nfile: specs/A.antt\nold: a\nnew:  b\nold:  c = d\nnew:\nfile: specs/B.antt\nold: e\nnew: f";
        let expected = [
            edit("specs/A.antt", "a", " b"),
            edit("specs/A.antt", " c = d", ""),
            edit("specs/B.antt", "e", "f"),
        ];
        assert_eq!(edits(text), expected);
    }
}

//! Wrong builders as edits of the builder's sources, in the format of the crates' must-fail edits: a comment line that says
//! what is wrong, then `file:`, `old:` and `new:` lines. Each `old` stands in its file once.

use std::collections::{BTreeMap, BTreeSet};
use std::error::Error;
use std::fs;
use std::path::Path;

pub struct Edit {
    /// The file's name without its ending.
    pub name: String,
    /// What is wrong, in plain words.
    pub what: String,
    pub changes: Vec<Change>,
}

#[derive(Debug, PartialEq, Eq)]
pub struct Change {
    pub file: String,
    pub old: String,
    pub new: String,
}

/// The edits of a folder by name.
pub fn all_in(folder: &Path) -> Result<Vec<Edit>, Box<dyn Error>> {
    let mut edits = Vec::new();
    for entry in fs::read_dir(folder)? {
        let path = entry?.path();
        let name = path
            .file_stem()
            .ok_or("an edit without a name")?
            .to_string_lossy()
            .into_owned();
        let told = |error| format!("{name}: {error}");
        let (what, changes) = parse(&fs::read_to_string(&path)?).map_err(told)?;
        edits.push(Edit {
            name,
            what,
            changes,
        });
    }
    edits.sort_by(|a, b| a.name.cmp(&b.name));
    Ok(edits)
}

/// What is wrong, and the changes.
fn parse(text: &str) -> Result<(String, Vec<Change>), String> {
    let mut lines = text.lines();
    let what = lines.next().and_then(|line| line.strip_prefix("# "));
    let what = what.ok_or("no comment says what is wrong")?;
    let (mut file, mut old, mut changes) = (None, None, Vec::new());
    for line in lines.filter(|line| !line.starts_with('#')) {
        if let Some(name) = line.strip_prefix("file: ") {
            file = Some(name);
        } else if let Some(text) = line.strip_prefix("old: ") {
            old = Some(text);
        } else if let Some(new) = line.strip_prefix("new: ") {
            changes.push(Change {
                file: file.ok_or("a change of no file")?.into(),
                old: old.take().ok_or("a new text for no old one")?.into(),
                new: new.into(),
            });
        } else {
            return Err(format!("not a line of an edit: {line}"));
        }
    }
    match (old, changes.is_empty()) {
        (None, false) => Ok((what.into(), changes)),
        _ => Err("an old text without a new one, or no change".into()),
    }
}

impl Edit {
    /// The files that are changed, each once.
    pub fn files(&self) -> BTreeSet<&str> {
        self.changes.iter().map(|c| c.file.as_str()).collect()
    }

    /// The changed files of the sources under a folder, with their new texts.
    pub fn changed(&self, root: &Path) -> Result<BTreeMap<&str, String>, Box<dyn Error>> {
        let mut texts = BTreeMap::new();
        for change in &self.changes {
            let file = change.file.as_str();
            let text = match texts.remove(file) {
                Some(text) => text,
                None => fs::read_to_string(root.join(file)).map_err(|e| format!("{file}: {e}"))?,
            };
            if text.matches(&change.old).count() != 1 {
                return Err(format!("{file} has not exactly one: {}", change.old).into());
            }
            texts.insert(file, text.replace(&change.old, &change.new));
        }
        Ok(texts)
    }

    /// Changes the sources under a folder.
    pub fn apply(&self, root: &Path) -> Result<(), Box<dyn Error>> {
        for (file, text) in self.changed(root)? {
            fs::write(root.join(file), text)?;
        }
        Ok(())
    }
}

#[cfg(test)]
mod tests {
    use super::*;

    #[test]
    fn an_edit_may_change_several_places() {
        let text =
            "# wrong\nfile: a\nold: 1\nnew: 2\n# why\nold: 3\nnew: 4\nfile: b\nold: 5\nnew: 6\n";
        let change = |file: &str, old: &str, new: &str| Change {
            file: file.into(),
            old: old.into(),
            new: new.into(),
        };
        let changes = vec![
            change("a", "1", "2"),
            change("a", "3", "4"),
            change("b", "5", "6"),
        ];
        assert_eq!(parse(text), Ok(("wrong".into(), changes)));
    }

    #[test]
    fn what_is_no_edit_is_an_error() {
        for text in [
            "",
            "file: a\nold: 1\nnew: 2\n",
            "# wrong\n",
            "# wrong\nold: 1\nnew: 2\n",
            "# wrong\nfile: a\nnew: 2\n",
            "# wrong\nfile: a\nold: 1\n",
            "# wrong\nfile: a\nold: 1\nnew: 2\nmore\n",
        ] {
            assert!(parse(text).is_err(), "{text}");
        }
    }
}

//! Compiles wrong builders without proof, and says which jobs notice each.
//!
//! `wrong ROOT [NAME..]` takes the edits of ROOT/oracle/wrong/edits, or those whose name has a NAME in it. ROOT is the
//! repository. The builder itself goes first: it has to print the right lines. A wrong builder that no job notices fails
//! the run.

mod compare;
mod compile;
mod edit;
mod sets;

use compare::{Difference, End, difference};
use compile::Toolchain;
use edit::Edit;
use sets::Set;
use std::error::Error;
use std::fs;
use std::io;
use std::path::{Path, PathBuf};
use std::process::ExitCode;
use std::sync::atomic::{AtomicUsize, Ordering};
use std::thread;

const USAGE: &str = "usage: wrong ROOT [NAME..]";
/// How many are compiled and run at a time.
const WORKERS: usize = 2;
/// How many of the jobs that have a name are told by it.
const NAMES_TOLD: usize = 2;

/// What is said of a builder: its number in the list, and a line.
type Said = Result<Vec<(usize, Row)>, String>;

struct Row {
    text: String,
    is_noticed: bool,
}

fn main() -> ExitCode {
    let arguments: Vec<String> = std::env::args().skip(1).collect();
    let ended = match &arguments[..] {
        [root, names @ ..] => run(Path::new(root), names),
        _ => Err(USAGE.into()),
    };
    match ended {
        Ok(true) => ExitCode::SUCCESS,
        Ok(false) => ExitCode::FAILURE,
        Err(error) => {
            eprintln!("wrong: {error}");
            ExitCode::from(2)
        }
    }
}

/// A temporary folder, which goes when this does.
struct Folder(PathBuf);

impl Drop for Folder {
    fn drop(&mut self) {
        // What can't be removed stays: nothing depends on it.
        let _ = fs::remove_dir_all(&self.0);
    }
}

/// What every builder needs.
struct Bench<'a> {
    root: &'a Path,
    folder: &'a Path,
    toolchain: Toolchain,
    sets: Vec<Set>,
}

fn run(root: &Path, names: &[String]) -> Result<bool, Box<dyn Error>> {
    let edits = picked(root, names)?;
    let folder = Folder(std::env::temp_dir().join(format!("wrong-{}", std::process::id())));
    fs::create_dir_all(&folder.0)?;
    let bench = Bench {
        root,
        folder: &folder.0,
        toolchain: Toolchain::find()?,
        sets: sets::make_all(&folder.0)?,
    };
    for set in &bench.sets {
        println!("{}: {} jobs", set.kind, set.size);
    }
    let right = bench.differences("right", None)?;
    if right.iter().any(Difference::is_noticed) {
        return Err(format!("the builder itself differs: {}", told(&bench.sets, &right)).into());
    }
    let rows = bench.rows(&edits)?;
    rows.iter().for_each(|row| println!("{}", row.text));
    let unnoticed = rows.iter().filter(|row| !row.is_noticed).count();
    println!("{} wrong builders, {unnoticed} unnoticed", rows.len());
    Ok(unnoticed == 0)
}

/// The edits whose name has one of these in it, or all.
fn picked(root: &Path, names: &[String]) -> Result<Vec<Edit>, Box<dyn Error>> {
    let mut edits = edit::all_in(&root.join("oracle/wrong/edits"))?;
    let is_picked = |edit: &Edit| names.iter().any(|name| edit.name.contains(name));
    edits.retain(|edit| names.is_empty() || is_picked(edit));
    match edits.is_empty() {
        true => Err("no wrong builder has such a name".into()),
        false => Ok(edits),
    }
}

impl Bench<'_> {
    /// A row for each edit, in order.
    fn rows(&self, edits: &[Edit]) -> Result<Vec<Row>, Box<dyn Error>> {
        let next = AtomicUsize::new(0);
        let said: Vec<Said> = thread::scope(|scope| {
            let workers: Vec<_> = (0..WORKERS)
                .map(|_| scope.spawn(|| self.work(edits, &next)))
                .collect();
            let joined = workers.into_iter().map(|worker| worker.join());
            joined
                .map(|said| said.unwrap_or_else(|_| Err("a worker panicked".into())))
                .collect()
        });
        let mut rows: Vec<(usize, Row)> = Vec::new();
        for said in said {
            rows.extend(said?);
        }
        rows.sort_by_key(|(number, _)| *number);
        Ok(rows.into_iter().map(|(_, row)| row).collect())
    }

    /// Takes edits until none is left.
    fn work(&self, edits: &[Edit], next: &AtomicUsize) -> Said {
        let mut rows = Vec::new();
        loop {
            let number = next.fetch_add(1, Ordering::Relaxed);
            let Some(edit) = edits.get(number) else {
                return Ok(rows);
            };
            let row = self.row(edit);
            rows.push((number, row.map_err(|e| format!("{}: {e}", edit.name))?));
            eprintln!("{}", edit.name);
        }
    }

    fn row(&self, edit: &Edit) -> Result<Row, Box<dyn Error>> {
        let differences = self.differences(&edit.name, Some(edit))?;
        Ok(Row {
            text: format!(
                "| {} | {} | {} |",
                edit.what,
                Vec::from_iter(edit.files()).join(", "),
                told(&self.sets, &differences)
            ),
            is_noticed: differences.iter().any(Difference::is_noticed),
        })
    }

    /// Compiles a builder, changed or not, and runs it over all sets, up to one that takes it too long.
    fn differences(
        &self,
        name: &str,
        edit: Option<&Edit>,
    ) -> Result<Vec<Difference>, Box<dyn Error>> {
        let scratch = Folder(self.folder.join(name));
        copy_sources(self.root, &scratch.0)?;
        if let Some(edit) = edit {
            edit.apply(&scratch.0)?;
        }
        let program = self.toolchain.compile(&scratch.0)?;
        let mut differences = Vec::new();
        for set in &self.sets {
            let found = difference(&program, set)?;
            let is_over = found.end == End::RanTooLong;
            differences.push(found);
            if is_over {
                break;
            }
        }
        Ok(differences)
    }
}

/// Copies the list of crates and the sources of each.
fn copy_sources(root: &Path, to: &Path) -> io::Result<()> {
    fs::create_dir_all(to)?;
    fs::copy(root.join("crates.txt"), to.join("crates.txt"))?;
    for entry in fs::read_dir(root.join("crates"))? {
        let name = entry?.file_name();
        let place = Path::new("crates").join(name).join("src");
        fs::create_dir_all(to.join(&place))?;
        for file in fs::read_dir(root.join(&place))? {
            let file = file?;
            fs::copy(file.path(), to.join(&place).join(file.file_name()))?;
        }
    }
    Ok(())
}

/// The sets that notice, with how many of their jobs, the first ones by name where they have names.
fn told(sets: &[Set], differences: &[Difference]) -> String {
    let noticed = sets.iter().zip(differences).filter(|(_, d)| d.is_noticed());
    let texts: Vec<String> = noticed.map(|(set, d)| told_of_set(set, d)).collect();
    match texts.is_empty() {
        true => "nothing".into(),
        false => texts.join("; "),
    }
}

fn told_of_set(set: &Set, difference: &Difference) -> String {
    let mut text = format!("{} {}", set.kind, difference.places.len());
    let names: Vec<&str> = difference
        .places
        .iter()
        .filter_map(|place| sets::name_of(set.kind, *place))
        .collect();
    if !names.is_empty() && names.len() <= NAMES_TOLD {
        text.push_str(&format!(" ({})", names.join(", ")));
    }
    match difference.end {
        End::Whole => {}
        End::RanTooLong => text.push_str(", ran too long"),
        End::Died => text.push_str(", died"),
    }
    text
}

#[cfg(test)]
mod tests {
    use super::*;

    /// Each wrong builder is made of the sources as they are: no edit has lost its place.
    #[test]
    fn every_edit_fits_the_sources() {
        let root = Path::new(env!("CARGO_MANIFEST_DIR")).join("../..");
        let edits = picked(&root, &[]).unwrap();
        assert!(edits.len() >= 40);
        for edit in edits {
            let changed = edit.changed(&root);
            assert!(changed.is_ok(), "{}: {changed:?}", edit.name);
        }
    }
}

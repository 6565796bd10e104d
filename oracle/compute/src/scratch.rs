//! A scratch repository in a temporary folder, in which the checker computes claims about the definition.

use crate::tables::Table;
use std::collections::BTreeMap;
use std::error::Error;
use std::fs;
use std::io;
use std::ops::Range;
use std::path::{Path, PathBuf};
use std::process::Command;

pub const BATCH: usize = 60;

/// What the checker says where a claim takes too long to compute.
const STEP_LIMIT: &str = "stopped at the step limit";

const HEADER: &str = include_str!("header.txt");

pub struct Scratch {
    folder: PathBuf,
}

/// What the checker said of a claim.
#[derive(Clone, Copy, Debug, PartialEq, Eq)]
pub enum Verdict {
    /// It stands in a batch that the checker proved.
    Holds,
    Differs,
    /// It took the checker more steps than it has.
    TooLong,
}

/// By a claim's number.
pub type Verdicts = BTreeMap<usize, Verdict>;

/// The numbers of claims that are checked as one crate.
type Batch = Vec<usize>;

impl Scratch {
    /// A new folder that holds a copy of the definition without its computed theorems.
    pub fn new(definition: &Path, name: &str) -> io::Result<Self> {
        let folder = std::env::temp_dir().join(format!("compute-{}-{name}", std::process::id()));
        if folder.exists() {
            fs::remove_dir_all(&folder)?;
        }
        for part in ["src", "specs"] {
            copy_tree(
                &definition.join(part),
                &folder.join("crates/definition").join(part),
            )?;
        }
        Ok(Self { folder })
    }

    /// Replaces the one place of `old` in a file of the definition.
    pub fn edit(&self, file: &str, old: &str, new: &str) -> io::Result<()> {
        let path = self.folder.join("crates/definition").join(file);
        let text = fs::read_to_string(&path)?;
        if text.matches(old).count() != 1 {
            let message = format!("{file} has not exactly one place of: {old}");
            return Err(io::Error::new(io::ErrorKind::InvalidInput, message));
        }
        fs::write(path, text.replace(old, new))
    }

    /// Judges every claim of a range. A batch in which some get an error is checked again without these, until it is
    /// proved: what has no error of its own is in a proved batch. Those of `apart` have a batch each.
    pub fn judge(
        &self,
        claims: &[String],
        range: Range<usize>,
        apart: &[usize],
    ) -> Result<Verdicts, Box<dyn Error>> {
        let (alone, together): (Batch, Batch) =
            range.clone().partition(|number| apart.contains(number));
        let mut open: Vec<Batch> = together.chunks(BATCH).map(<[usize]>::to_vec).collect();
        open.extend(alone.into_iter().map(|number| vec![number]));
        let mut verdicts = Verdicts::new();
        while !open.is_empty() {
            let told = self.round(claims, &open)?;
            open.iter_mut()
                .for_each(|batch| batch.retain(|number| !told.contains_key(number)));
            open.retain(|batch| !batch.is_empty());
            verdicts.extend(told);
        }
        assert!(verdicts.keys().copied().eq(range), "a claim went unjudged");
        Ok(verdicts)
    }

    /// Has the checker go over some batches once; of a batch that isn't proved, only the claims with an error get a
    /// verdict. Any other end of the checker is an error.
    pub fn round(&self, claims: &[String], batches: &[Batch]) -> Result<Verdicts, Box<dyn Error>> {
        let mut list = String::from("definition:\n");
        for place in 0..batches.len() {
            list.push_str(&format!("batch{place}: definition\n"));
        }
        self.clear_batches()?;
        for (place, batch) in batches.iter().enumerate() {
            self.write_batch(place, batch, claims)?;
        }
        let said = self.check(&list)?;
        let mut told = Verdicts::new();
        for (place, batch) in batches.iter().enumerate() {
            let verdicts = batch_verdicts(&said, place, batch)
                .ok_or_else(|| format!("no verdict on batch {place}:\n{said}"))?;
            told.extend(verdicts);
        }
        Ok(told)
    }

    /// Whether the checker proves the definition with one module of computed theorems.
    pub fn table_holds(&self, table: &Table) -> Result<bool, Box<dyn Error>> {
        self.clear_batches()?;
        let proofs = self.folder.join("crates/definition/proofs");
        fs::create_dir(&proofs)?;
        fs::write(
            proofs.join("Lib.antt"),
            format!("pub mod {}\n", table.module),
        )?;
        let file = format!("proofs/{}.antt", table.module);
        fs::write(
            self.folder.join("crates/definition").join(&file),
            &table.text,
        )?;
        let said = self.check("definition:\n")?;
        fs::remove_dir_all(&proofs)?;
        table_verdict(&said, &file)
            .ok_or_else(|| format!("no verdict on {}:\n{said}", table.module).into())
    }

    /// What the checker says of the crates of a list.
    fn check(&self, list: &str) -> io::Result<String> {
        fs::write(self.folder.join("crates.txt"), list)?;
        let said = Command::new("rt")
            .args(["all", "check"])
            .current_dir(&self.folder)
            .output()?;
        Ok(format!(
            "{}{}{}",
            String::from_utf8_lossy(&said.stdout),
            String::from_utf8_lossy(&said.stderr),
            said.status
        ))
    }

    fn clear_batches(&self) -> io::Result<()> {
        for entry in fs::read_dir(self.folder.join("crates"))? {
            let entry = entry?;
            if entry.file_name() != "definition" {
                fs::remove_dir_all(entry.path())?;
            }
        }
        Ok(())
    }

    fn new_crate(&self, name: &str) -> io::Result<PathBuf> {
        let folder = self.folder.join("crates").join(name);
        fs::create_dir_all(folder.join("src"))?;
        fs::create_dir_all(folder.join("specs"))?;
        fs::write(folder.join("src/lib.rt"), "// claims only\n")?;
        Ok(folder)
    }

    fn write_batch(&self, place: usize, batch: &[usize], claims: &[String]) -> io::Result<()> {
        let folder = self.new_crate(&format!("batch{place}"))?;
        fs::write(folder.join("specs/Lib.antt"), "pub mod Claims\n")?;
        let mut text = String::from(HEADER);
        for number in batch {
            let (name, claim) = (format!("claim{number}"), &claims[*number]);
            text.push_str(&format!(
                "\n{name} : {claim}\nunfolding opened digit bytes empty_texts\n{name} = refl\n"
            ));
        }
        fs::write(folder.join("specs/Claims.antt"), text)
    }
}

/// What the checker's output says of a batch: all hold, or those with an error don't. Nothing, if it says neither.
fn batch_verdicts(output: &str, place: usize, batch: &[usize]) -> Option<Verdicts> {
    if is_proved(output, &format!("batch{place}"))? {
        return Some(
            batch
                .iter()
                .map(|number| (*number, Verdict::Holds))
                .collect(),
        );
    }
    let error = |number: &usize| {
        Some((
            *number,
            verdict(refusal(output, &format!("claim{number}"))?),
        ))
    };
    let told: Verdicts = batch.iter().filter_map(error).collect();
    (!told.is_empty()).then_some(told)
}

/// Whether a crate is proved; nothing, if the checker came to no verdict on it. It ends with 1 where it refuses, and with 3
/// where it can't tell.
fn is_proved(output: &str, name: &str) -> Option<bool> {
    let (_, summary) = output.split_once("\n== summary\n")?;
    let start = format!("{name}: ");
    match summary.lines().find_map(|line| line.strip_prefix(&start))? {
        "ok" => Some(true),
        "failed (1)" | "failed (3)" => Some(false),
        _ => None,
    }
}

fn verdict(refusal: &str) -> Verdict {
    if refusal.contains(STEP_LIMIT) {
        Verdict::TooLong
    } else {
        Verdict::Differs
    }
}

/// Whether the checker's output says that the definition is proved, or that a theorem of a file isn't true. Nothing, if it says
/// neither.
fn table_verdict(output: &str, file: &str) -> Option<bool> {
    if is_proved(output, "definition")? {
        return Some(true);
    }
    let place = format!("/{file}:");
    let errors: Vec<&str> = output
        .lines()
        .filter(|line| line.contains(": error: "))
        .collect();
    let differs = |line: &&str| line.contains(&place) && verdict(line) == Verdict::Differs;
    (!errors.is_empty() && errors.iter().all(differs)).then_some(false)
}

/// The line in which the checker refuses a declaration.
fn refusal<'a>(output: &'a str, name: &str) -> Option<&'a str> {
    let error = format!("error: `{name}`");
    output.lines().find(|line| line.contains(&error))
}

impl Drop for Scratch {
    fn drop(&mut self) {
        // A folder that can't be removed is only left behind in the temporary folder.
        let _ = fs::remove_dir_all(&self.folder);
    }
}

fn copy_tree(from: &Path, to: &Path) -> io::Result<()> {
    fs::create_dir_all(to)?;
    for entry in fs::read_dir(from)? {
        let entry = entry?;
        let target = to.join(entry.file_name());
        if entry.file_type()?.is_dir() {
            copy_tree(&entry.path(), &target)?;
        } else {
            fs::copy(entry.path(), target)?;
        }
    }
    Ok(())
}

#[cfg(test)]
mod tests {
    use super::*;

    const PROVED: &str =
        "== batch0\nlogic=proved\n== summary\ndefinition: ok\nbatch0: ok\n2 of 2 crates ok\n";

    /// An output that ends with what is said of a crate.
    fn ended(errors: &str, end: &str) -> String {
        format!("{errors}logic=not-proved\n== summary\n{end}\n")
    }

    fn said(output: &str) -> Option<Vec<(usize, Verdict)>> {
        batch_verdicts(output, 0, &[7, 8]).map(|verdicts| verdicts.into_iter().collect())
    }

    #[test]
    fn a_proved_batch_holds() {
        let hold = vec![(7, Verdict::Holds), (8, Verdict::Holds)];
        assert_eq!(said(PROVED), Some(hold));
    }

    #[test]
    fn only_claims_with_an_error_are_told_of_a_batch_not_proved() {
        let output = ended(
            "Claims.antt:9:1: error: `claim8`: the two types differ\n",
            "batch0: failed (1)",
        );
        assert_eq!(said(&output), Some(vec![(8, Verdict::Differs)]));
        let output = ended(
            "Claims.antt:9:1: error: `claim7`: stopped at the step limit\n\
             Claims.antt:9:1: error: `claim70`: the two types differ\n",
            "batch0: failed (3)",
        );
        assert_eq!(said(&output), Some(vec![(7, Verdict::TooLong)]));
    }

    #[test]
    fn any_other_end_is_no_verdict() {
        let error = "Claims.antt:9:1: error: `claim8`: the two types differ\n";
        for end in [
            "",
            "batch0: failed (2)",
            "batch0: failed (137)",
            "batch0: failed (-9)",
            "batch0: not run, since definition failed",
            "batch1: failed (1)",
            "batch1: ok",
        ] {
            assert_eq!(said(&ended(error, end)), None, "{end}");
        }
        assert_eq!(said(error), None);
        assert_eq!(said(&ended("", "batch0: failed (1)")), None);
        let other = "Claims.antt:1:1: error: `digit`: no such name\n";
        assert_eq!(said(&ended(other, "batch0: failed (1)")), None);
    }

    #[test]
    fn a_computed_theorem_fails_by_an_error_in_its_own_file_alone() {
        let refused = |errors: &str| ended(errors, "definition: failed (1)");
        let error = "./proofs/Starred.antt:9:1: error: `starred_hold`: expected\n";
        let told = |output: &str| table_verdict(output, "proofs/Starred.antt");
        assert_eq!(told(PROVED), Some(true));
        assert_eq!(told(&refused(error)), Some(false));
        assert_eq!(told(&refused("")), None);
        assert_eq!(told(error), None);
        let broken = "./specs/Slots.antt:9:1: error: no such name\n";
        assert_eq!(told(&refused(&format!("{broken}{error}"))), None);
        let long = error.replace("expected", STEP_LIMIT);
        assert_eq!(told(&refused(&long)), None);
    }
}

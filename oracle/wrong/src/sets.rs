//! The jobs that every builder is run on, and the lines that the right one prints of them.

use driver::end_of_definitions::{faults, first_number};
use driver::form::decode;
use driver::settings::JobWithSettings;
use driver::{Outcome, run_job};
use jobs::heavy;
use jobs::random::Random;
use jobs::record::Record;
use jobs::stream::{heavy_jobs, seeded};
use std::fs::File;
use std::io::{self, BufWriter, Write};
use std::path::{Path, PathBuf};

/// The seeded kinds of jobs, each with a seed and how often it is made.
const SEEDED: &[(&str, u64, usize)] = &[
    ("small", 7001, 10_000),
    ("damaged", 7002, 10_000),
    ("pairs", 7003, 1_000),
    ("orders", 7004, 1_000),
    ("ldcfull", 7005, 1_000),
    ("settings", 7006, 5_000),
    ("settings_damaged", 7007, 5_000),
    ("lowest", 7008, 5_000),
];

const HEAVY: &str = "heavy";

/// The longest part of a packed job.
const LONGEST_PART: usize = 65_535;

/// Where no number of a part grows.
const NO_PLACE: u16 = 65_535;

/// The jobs of a kind in two files: packed for crates/replay, and a line each.
pub struct Set {
    pub kind: &'static str,
    pub size: usize,
    pub jobs: PathBuf,
    pub lines: PathBuf,
}

/// Makes every kind's files in a folder.
pub fn make_all(folder: &Path) -> io::Result<Vec<Set>> {
    let mut sets = Vec::new();
    for &(kind, seed, count) in SEEDED {
        let step = seeded(kind).expect("the generators have this kind");
        let mut random = Random::new(seed);
        let jobs = (0..count).flat_map(|_| step(&mut random));
        sets.push(make_set(kind, jobs, folder)?);
    }
    sets.push(make_set(HEAVY, heavy_jobs(), folder)?);
    Ok(sets)
}

fn make_set(
    kind: &'static str,
    made: impl Iterator<Item = Vec<u8>>,
    folder: &Path,
) -> io::Result<Set> {
    let jobs = folder.join(format!("{kind}.jobs"));
    let lines = folder.join(format!("{kind}.lines"));
    let mut packed = BufWriter::new(File::create(&jobs)?);
    let mut told = BufWriter::new(File::create(&lines)?);
    let mut size = 0;
    for job in made {
        packed.write_all(&pack(&job))?;
        writeln!(told, "{}", right_line(&job))?;
        size += 1;
    }
    packed.flush()?;
    told.flush()?;
    Ok(Set {
        kind,
        size,
        jobs,
        lines,
    })
}

/// A job as crates/replay takes it, in parts that stand in it once, with the least work and gaps and all outputs.
fn pack(job: &[u8]) -> Vec<u8> {
    let parts = job.chunks(LONGEST_PART);
    let mut packed = vec![u8::try_from(parts.len()).expect("at most 17 parts")];
    let (work, gaps) = (6 * job.len() as u32 + 1024, job.len() as u32 / 5 + 2);
    for lent in [work, gaps, u32::MAX, u32::MAX, u32::MAX, u32::MAX] {
        packed.extend(lent.to_be_bytes());
    }
    for part in parts {
        packed.extend(1u32.to_be_bytes());
        for number in [part.len() as u16, NO_PLACE, NO_PLACE, 0] {
            packed.extend(number.to_be_bytes());
        }
        packed.extend(part);
    }
    packed
}

/// What the job at this place of a set is called, if it has a name.
pub fn name_of(kind: &str, place: usize) -> Option<&'static str> {
    (kind == HEAVY).then(|| heavy::LIST[place].0)
}

/// The Rust's line; but at record 50 the Rust takes raw definitions in a hash map's order, and document 01's order decides
/// which of the numbers that are possible there is right. Of jobs with records 47 to 49 the Rust says nothing: the line is the model's,
/// as is the place of a refusal met while building.
fn right_line(job: &[u8]) -> String {
    let of_model = model::run(job);
    let outcome = run_job(job);
    let is_the_rusts = of_model.clone().in_turn().to_string() == outcome.line();
    if is_the_rusts || JobWithSettings::of(job).is_some() {
        return of_model.to_string();
    }
    let at_end = match (&outcome, decode(job)) {
        (Outcome::Refused { code, place }, Ok(records))
            if records[*place] == Record::EndOfDefinitions =>
        {
            Some((*code, *place, records))
        }
        _ => None,
    };
    match at_end {
        Some((code, place, records)) => {
            let possible = faults(&records);
            let Some((code, _)) = first_number(code, &possible) else {
                panic!("{code} is none of {possible:?}");
            };
            Outcome::Refused { code, place }.line()
        }
        None => outcome.line(),
    }
}

#[cfg(test)]
mod tests {
    use super::*;

    /// Classes of x, which is undefined, and of y, which names its own Class, raw at these slots.
    fn with_slots(x: u8, y: u8) -> Vec<u8> {
        let mut job = vec![7, 2, 1, b'x', 7, 2, 1, b'y', 0x41, 1, b'y', 1, 0, 1];
        job.extend([0x43, 0, x, 0, 0, 0x43, 0, y, 0, 1]);
        job.extend([0x50, 0x60, 2, 0, 0, 0]);
        job
    }

    #[test]
    fn the_lower_slot_decides_at_record_50() {
        for _ in 0..20 {
            assert_eq!(right_line(&with_slots(1, 2)), "refused 12 5");
            assert_eq!(right_line(&with_slots(2, 1)), "refused 13 5");
        }
    }

    #[test]
    fn a_packed_job_is_its_parts() {
        let head = [2, 0, 6, 4, 0, 0, 0, 0x33, 0x35];
        let all = [0xff; 16];
        let first = [0, 0, 0, 1, 0xff, 0xff, 0xff, 0xff, 0xff, 0xff, 0, 0];
        let second = [0, 0, 0, 1, 0, 1, 0xff, 0xff, 0xff, 0xff, 0, 0, 7];
        let expected = [&head[..], &all, &first, &[7; 65_535], &second].concat();
        assert_eq!(pack(&[7; 65_536]), expected);
    }

    #[test]
    fn of_a_job_with_settings_it_is_the_models_line() {
        assert_eq!(right_line(&[0x48]), "refused 3 1");
        assert_eq!(right_line(&[0x49, 0, 0]), "refused 26 0");
    }

    #[test]
    fn everywhere_else_it_is_the_rusts_line() {
        assert_eq!(right_line(&[0x50]), "refused 3 1");
        let job = [0x50, 0x51, 0, 0, 9, 0x60, 2, 0, 0, 0];
        let line = "built answers 1 9 raw pool 2 0001 bootstraps 0 0 - name 0 class none visits 1";
        assert_eq!(right_line(&job), line);
    }
}

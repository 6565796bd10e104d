//! Instructions, counted by callgrind: this program is run under it, once a side, family and size.

use crate::figures::*;
use crate::sets::{self, SIZES};
use crate::sides::{self, Job, Memory};
use crate::stages::STAGES;
use jobs::large::KINDS;
use std::env;
use std::error::Error;
use std::fs;
use std::hint::black_box;
use std::process::{Command, Stdio};

/// What is counted: how `once` calls it, the function that callgrind looks into, and the figure's measure.
const COUNTED: [(&str, &str, &str); 6] = [
    ("ours", "measured_ours", OURS_COUNT),
    ("rust", "measured_rust", RUST_COUNT),
    ("clear", "measured_clear", CLEARING_COUNT),
    (FORMED_COUNT, "measured_ours", FORMED_COUNT),
    (DEFINED_COUNT, "measured_ours", DEFINED_COUNT),
    (LAID_OUT_COUNT, "measured_ours", LAID_OUT_COUNT),
];

/// The stages aren't counted of the small jobs.
const SIDES: usize = 3;

/// Memory is filled and copied by vector instructions: callgrind counts a `rep stosb` once for each byte.
const NO_REP: &str = "glibc.cpu.x86_rep_stosb_threshold=1073741824:\
                      glibc.cpu.x86_rep_movsb_threshold=1073741824";

/// Counts everything; callgrind's files stay in the folder.
pub fn all(figures: &mut Figures, folder: &str) -> Result<(), Box<dyn Error>> {
    fs::create_dir_all(folder)?;
    for (family, _) in KINDS {
        for size in SIZES {
            counted(figures, folder, family, &size.to_string(), &COUNTED)?;
        }
    }
    counted(figures, folder, "all", SMALL, &COUNTED[..SIDES])
}

fn counted(
    figures: &mut Figures,
    folder: &str,
    family: &str,
    size: &str,
    what: &[(&str, &str, &str)],
) -> Result<(), Box<dyn Error>> {
    for (side, function, measure) in what {
        eprintln!("callgrind {side} {family} {size}");
        let file = format!("{folder}/{side}.{family}.{size}");
        let status = Command::new("valgrind")
            .args(["--tool=callgrind", "--collect-atstart=no"])
            .arg(format!("--toggle-collect=*{function}*"))
            .arg(format!("--callgrind-out-file={file}"))
            .arg(env::current_exe()?)
            .args(["once", side, family, size])
            .env("GLIBC_TUNABLES", NO_REP)
            .stderr(Stdio::null())
            .status()?;
        if !status.success() {
            return Err(format!("valgrind failed on {side} {family} {size}").into());
        }
        figures.put(measure, family, size, total(&fs::read_to_string(&file)?)?);
    }
    Ok(())
}

/// The line `totals: N`, or `summary: N`, of callgrind's file.
fn total(file: &str) -> Result<String, Box<dyn Error>> {
    let line = |name| file.lines().find_map(|line| line.strip_prefix(name));
    let total = line("totals:").or_else(|| line("summary:"));
    let total = total.ok_or("callgrind told no total")?.trim();
    if total.parse::<u64>()? == 0 {
        return Err("callgrind saw nothing of the measured function".into());
    }
    Ok(total.into())
}

/// Runs a side once on a job, or on each small job: what callgrind looks at.
pub fn once(side: &str, family: &str, size: &str) -> Option<()> {
    let mut memory = Memory::default();
    if (family, size) == ("all", SMALL) {
        for (_, job) in sets::small() {
            run_side(side, &job, &mut memory)?;
        }
        return Some(());
    }
    let (kind, constants) = (sets::kind_named(family)?, size.parse().ok()?);
    if let Some((stage, _)) = STAGES.iter().find(|(_, name)| *name == side) {
        let (job, mut memory) = stage(kind, constants);
        assert!(sides::measured_ours(&job, &mut memory).is_err());
        return Some(());
    }
    run_side(side, &sets::large(kind, constants), &mut memory)
}

fn run_side(side: &str, job: &Job, memory: &mut Memory) -> Option<()> {
    memory.prepare(&job.bytes);
    match side {
        "ours" => drop(black_box(sides::measured_ours(&job.bytes, memory))),
        "rust" => drop(black_box(sides::measured_rust(sides::plan(job)))),
        "clear" => memory.measured_clear(job.bytes.len()),
        _ => return None,
    }
    Some(())
}

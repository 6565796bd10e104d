//! Times both sides on every family and size, and the parts of a run by themselves.

use crate::clock::{least, median, time};
use crate::figures::*;
use crate::sets::{self, SIZES};
use crate::sides::{self, Job, Memory};
use crate::stages::to_form;
use jobs::large::{KINDS, Large};
use std::collections::HashMap;
use std::hint::black_box;

const ROUNDS: usize = 41;
const SMALL_ROUNDS: usize = 5;

pub fn families(figures: &mut Figures) {
    for (family, kind) in KINDS {
        for size in SIZES {
            eprintln!("{family} {size}");
            whole(figures, family, *kind, size);
            form_pass(figures, family, *kind, size);
        }
    }
}

/// Both sides whole, and the clearing alone.
fn whole(figures: &mut Figures, family: &str, kind: Large, constants: usize) {
    let job = sets::large(kind, constants);
    let mut memory = Memory::default();
    memory.prepare(&job.bytes);
    assert!(sides::is_built(&job, &mut memory), "a large job is built");
    let times = sides::rounds(&job, &mut memory, ROUNDS);
    let size = constants.to_string();
    let mut put = |measure, value| figures.put_number(measure, family, &size, value);
    put(BYTES, job.bytes.len() as f64);
    put(OURS_LEAST, least(&times.ours));
    put(RUST_LEAST, least(&times.rust));
    put(OURS, median(times.ours));
    put(RUST, median(times.rust));
    put(BUILD, median_of(|| rotblossom::build(&job.bytes)));
    put(
        CLEARING,
        median_of(|| memory.measured_clear(job.bytes.len())),
    );
}

/// A run that the form pass refuses at the job's end, less its clearing, and a plain loop over the bytes.
fn form_pass(figures: &mut Figures, family: &str, kind: Large, constants: usize) {
    let (job, mut memory) = to_form(kind, constants);
    let refused = sides::measured_ours(&job, &mut memory).map_err(|refusal| refusal.code);
    assert_eq!(refused, Err(3), "the form pass refuses the job");
    let run = least_of(|| sides::measured_ours(&job, &mut memory));
    let clearing = least_of(|| memory.measured_clear(job.len()));
    let size = constants.to_string();
    figures.put_number(FORM, family, &size, run - clearing);
    figures.put_number(SUM, family, &size, least_of(|| sum(&job)));
}

fn rounds_of<T>(mut action: impl FnMut() -> T) -> Vec<f64> {
    (0..ROUNDS).map(|_| time(&mut action)).collect()
}

fn median_of<T>(action: impl FnMut() -> T) -> f64 {
    median(rounds_of(action))
}

/// For short loops, which other work on the machine would blur.
fn least_of<T>(action: impl FnMut() -> T) -> f64 {
    least(&rounds_of(action))
}

/// The plain loop: the sum of all bytes.
pub fn sum(bytes: &[u8]) -> u64 {
    black_box(bytes).iter().map(|b| u64::from(*b)).sum()
}

/// Ten thousand jobs, each timed by itself; the figures are sums over a family's jobs and over all.
pub fn small(figures: &mut Figures) {
    eprintln!("small");
    let mut memory = Memory::default();
    let mut sums: HashMap<(&str, &str), f64> = HashMap::new();
    for (family, job) in sets::small() {
        memory.prepare(&job.bytes);
        assert!(sides::is_built(&job, &mut memory), "so is a small one");
        let times = sides::rounds(&job, &mut memory, SMALL_ROUNDS);
        let clearing = (0..SMALL_ROUNDS).map(|_| clear_batch(&job, &mut memory));
        let measured = [
            (BYTES, job.bytes.len() as f64),
            (OURS_LEAST, least(&times.ours)),
            (RUST_LEAST, least(&times.rust)),
            (OURS, median(times.ours)),
            (RUST, median(times.rust)),
            (CLEARING, median(clearing.collect())),
        ];
        for (measure, value) in measured {
            *sums.entry((measure, family)).or_default() += value;
            *sums.entry((measure, "all")).or_default() += value;
        }
    }
    for ((measure, family), sum) in sums {
        figures.put_number(measure, family, SMALL, sum);
    }
}

fn clear_batch(job: &Job, memory: &mut Memory) -> f64 {
    const BATCH: usize = 64;
    let time = time(|| (0..BATCH).for_each(|_| memory.measured_clear(job.bytes.len())));
    time / BATCH as f64
}

/// Jobs that are made to be slow.
pub fn colliding(figures: &mut Figures) {
    let mut memory = Memory::default();
    for constants in sets::COLLIDING {
        eprintln!("colliding {constants}");
        let job = sets::colliding(constants);
        memory.prepare(&job.bytes);
        assert!(sides::is_built(&job, &mut memory), "such a job is built");
        let times = sides::rounds(&job, &mut memory, SMALL_ROUNDS);
        let mut put = |measure, value| {
            figures.put_number(measure, "colliding", &constants.to_string(), value)
        };
        put(OURS, median(times.ours));
        put(RUST, median(times.rust));
    }
}

/// The block file of the longest job, against loops over as many bytes.
pub fn blocks(figures: &mut Figures) {
    eprintln!("blocks");
    let job: Vec<u8> = (0..rotblossom::LONGEST_JOB)
        .map(|i| (i % 251) as u8)
        .collect();
    let mut file = rotblossom::write_blocks(&job).expect("the longest job has a block file");
    let mut back = vec![0; job.len()];
    let mut put = |measure, value| figures.put_number(measure, "blocks", "1048576", value);
    put(
        "write_ns",
        least_of(|| assert!(rotblossom::write_blocks_into(&job, &mut file).is_ok())),
    );
    put(
        "read_ns",
        least_of(|| assert!(rotblossom::read_blocks_into(&file, &mut back).is_ok())),
    );
    assert!(back == job, "the job comes back");
    put(SUM, least_of(|| sum(&job)));
    put("weighted_ns", least_of(|| weighted(&file)));
}

/// The checks of a file's blocks, as a plain loop.
fn weighted(file: &[u8]) -> u32 {
    let check = |block: &[u8]| -> u32 { (1..).zip(block).map(|(n, b)| n * u32::from(*b)).sum() };
    black_box(file)
        .chunks(512)
        .map(|block| check(&block[..508]))
        .fold(0, u32::wrapping_add)
}

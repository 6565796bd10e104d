//! The job on which ours is slowest beside the Rust, among those that the generators make.

use crate::clock::least;
use crate::figures::Figures;
use crate::sides::{self, Job, Memory};
use jobs::heavy;
use jobs::hex::hex;
use jobs::random::Random;
use jobs::stream::seeded;

const SEED: u64 = 61;
const STEPS: usize = 4_000;
const ROUNDS: usize = 5;

/// The slowest are timed again, with more rounds.
const TIMED_AGAIN: usize = 20;
const MORE_ROUNDS: usize = 25;

/// So many of the slowest are named.
const NAMED: usize = 5;

struct Timed {
    name: String,
    job: Job,
    built: bool,
    ours: f64,
    rust: f64,
}

impl Timed {
    fn ratio(&self) -> f64 {
        self.ours / self.rust
    }
}

/// The least time of several rounds, on both sides.
fn timed(name: String, job: Job, memory: &mut Memory, rounds: usize) -> Timed {
    memory.prepare(&job.bytes);
    let built = sides::is_built(&job, memory);
    let times = sides::rounds(&job, memory, rounds);
    Timed {
        name,
        job,
        built,
        ours: least(&times.ours),
        rust: least(&times.rust),
    }
}

pub const GENERATORS: [&str; 5] = ["small", "damaged", "ldcfull", "pairs", "orders"];

pub fn generators(figures: &mut Figures) {
    for name in GENERATORS {
        eprintln!("{name}");
        let make = seeded(name).expect("the generators have this kind");
        let mut random = Random::new(SEED);
        let jobs = (0..STEPS).flat_map(|step| {
            let made = make(&mut random).into_iter();
            made.map(move |job| (format!("step {step}"), job))
        });
        generator(figures, name, jobs);
    }
    eprintln!("heavy");
    let jobs = heavy::LIST
        .iter()
        .map(|(name, make)| (name.to_string(), make()));
    generator(figures, "heavy", jobs);
}

/// Times every job that reaches the module, the built ones and the refused ones apart.
fn generator(figures: &mut Figures, name: &str, jobs: impl Iterator<Item = (String, Vec<u8>)>) {
    let mut memory = Memory::default();
    let (built, refused) = jobs
        .filter_map(|(name, bytes)| Some((name, Job::new(bytes)?)))
        .map(|(name, job)| timed(name, job, &mut memory, ROUNDS))
        .partition(|timed| timed.built);
    for (end, all) in [("built", built), ("refused", refused)] {
        let all = slowest_first(all, &mut memory);
        group(figures, name, end, &all);
    }
}

/// The job with the highest ratio first; those that seemed so are timed again.
fn slowest_first(mut all: Vec<Timed>, memory: &mut Memory) -> Vec<Timed> {
    let order = |one: &Timed, other: &Timed| other.ratio().total_cmp(&one.ratio());
    all.sort_by(order);
    let others = all.split_off(TIMED_AGAIN.min(all.len()));
    let mut all: Vec<Timed> = all
        .into_iter()
        .map(|t| timed(t.name, t.job, memory, MORE_ROUNDS))
        .chain(others)
        .collect();
    all.sort_by(order);
    all
}

/// How many there are, how many are slower than the Rust, and which is slowest.
fn group(figures: &mut Figures, name: &str, end: &str, all: &[Timed]) {
    let Some(slowest) = all.first() else { return };
    let above = |limit: f64| all.iter().filter(|t| t.ratio() > limit).count();
    let mut put = |measure: &str, value: String| figures.put(measure, name, end, value);
    put("jobs", all.len().to_string());
    put("middle_ratio", format!("{:.3}", all[all.len() / 2].ratio()));
    put("above_1", above(1.0).to_string());
    put("above_0.2", above(0.2).to_string());
    put("slowest_ratio", format!("{:.2}", slowest.ratio()));
    put("slowest_ours_ns", format!("{:.0}", slowest.ours));
    put("slowest_rust_ns", format!("{:.0}", slowest.rust));
    let told = all.iter().take(NAMED);
    let told = told.map(|t| format!("{} {:.2}", t.name, t.ratio()));
    put("slowest_names", told.collect::<Vec<_>>().join("; "));
    put("slowest_job", told_job(&slowest.job.bytes));
}

/// A short job in hex.
fn told_job(bytes: &[u8]) -> String {
    const MOST: usize = 200;
    match bytes.len() {
        ..=MOST => hex(bytes),
        length => format!("{length} bytes"),
    }
}

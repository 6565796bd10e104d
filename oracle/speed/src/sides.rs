//! A job on both sides: the Rust's module with its plan made beforehand, and ours with memory lent beforehand.

use crate::clock;
use driver::form;
use driver::run::{plain, with_hex_names};
use jobs::record::Record;
use rotblossom::{Gap, Lent, Refusal, Told, least_gaps, least_work};
use std::hint::black_box;

/// A batch takes about this long, so that reading the clock (under 1,000 ns) doesn't show.
const BATCH_NANOSECONDS: f64 = 40_000.0;
const MOST_IN_BATCH: f64 = 64.0;

/// A well-formed job.
pub struct Job {
    pub bytes: Vec<u8>,
    records: Vec<Record>,
}

impl Job {
    /// None where the form pass refuses: the Rust has no such pass, and its module is never reached.
    pub fn new(bytes: Vec<u8>) -> Option<Job> {
        let records = with_hex_names(&form::decode(&bytes).ok()?);
        Some(Job { bytes, records })
    }
}

/// What is lent to ours, grown to what the jobs need. It is used again and again, so that no page of it is new.
#[derive(Default)]
pub struct Memory {
    work: Vec<u32>,
    gaps: Vec<Gap>,
    answers: Vec<u16>,
    marks: Vec<u8>,
    pool: Vec<u8>,
    bootstraps: Vec<u8>,
    class_name: Vec<u8>,
}

impl Memory {
    /// Room for a job, which is built once to see how much it needs.
    pub fn prepare(&mut self, job: &[u8]) {
        grow(&mut self.work, least_work(job.len()));
        grow(&mut self.gaps, least_gaps(job.len()));
        if let Ok(built) = rotblossom::build(job) {
            grow(&mut self.answers, built.answers.len());
            grow(&mut self.marks, built.marks.len());
            grow(&mut self.pool, built.pool.len());
            grow(&mut self.bootstraps, built.bootstraps.len());
            grow(
                &mut self.class_name,
                built.class_name.map_or(0, |n| n.len()),
            );
        }
    }

    /// Takes a byte of the pool's room away: the job for which the memory was prepared is then refused before it is written.
    pub fn shorten_pool(&mut self) {
        self.pool.pop();
    }

    /// Just the least work and gaps, which a run clears.
    fn lend(&mut self, job_bytes: usize) -> Lent<'_> {
        Lent {
            work: &mut self.work[..least_work(job_bytes)],
            gaps: &mut self.gaps[..least_gaps(job_bytes)],
            answers: &mut self.answers,
            marks: &mut self.marks,
            pool: &mut self.pool,
            bootstraps: &mut self.bootstraps,
            class_name: &mut self.class_name,
        }
    }

    /// What a run clears at its end, as a plain fill.
    #[inline(never)]
    pub fn measured_clear(&mut self, job_bytes: usize) {
        let lent = self.lend(job_bytes);
        black_box(lent.work).fill(0);
        black_box(lent.gaps).fill(Gap::default());
    }
}

fn grow<T: Clone + Default>(lent: &mut Vec<T>, length: usize) {
    if lent.len() < length {
        lent.resize(length, T::default());
    }
}

/// Ours, whole: form pass, building, outputs, clearing.
#[inline(never)]
pub fn measured_ours(job: &[u8], memory: &mut Memory) -> Result<Told, Refusal> {
    rotblossom::run(job, memory.lend(job.len()))
}

/// What the module came to; it is kept until the clock is read.
pub type Ended = Result<driver::Built, driver::run::Stop>;

/// The module alone: from `Pool::new` to `build`.
#[inline(never)]
pub fn measured_rust(plan: plain::Plan<'_>) -> Ended {
    plain::execute(plan)
}

pub fn plan(job: &Job) -> plain::Plan<'_> {
    plain::plan(&job.records)
}

/// Whether a job is built. Both sides must end alike, else the times would tell of different things.
pub fn is_built(job: &Job, memory: &mut Memory) -> bool {
    let (ours, rust) = (measured_ours(&job.bytes, memory), measured_rust(plan(job)));
    assert_eq!(ours.is_ok(), rust.is_ok(), "the sides end differently");
    ours.is_ok()
}

/// Nanoseconds of a run of ours, out of a batch.
pub fn time_ours(job: &Job, memory: &mut Memory, batch: usize) -> f64 {
    let time = clock::time(|| {
        for _ in 0..batch {
            let _ = black_box(measured_ours(&job.bytes, memory));
        }
    });
    time / batch as f64
}

/// Nanoseconds of a run of the Rust's, out of a batch.
pub fn time_rust(job: &Job, batch: usize) -> f64 {
    let plans: Vec<_> = (0..batch).map(|_| plan(job)).collect();
    let mut ended = Vec::with_capacity(batch);
    let time = clock::time(|| {
        ended.extend(plans.into_iter().map(measured_rust));
        ended
    });
    time / batch as f64
}

/// How many runs make a batch, of ours and of the Rust's.
pub struct Batches {
    ours: usize,
    rust: usize,
}

impl Batches {
    pub fn of(job: &Job, memory: &mut Memory) -> Batches {
        let size = |time: f64| (BATCH_NANOSECONDS / time).clamp(1.0, MOST_IN_BATCH) as usize;
        Batches {
            ours: size(time_ours(job, memory, 1)),
            rust: size(time_rust(job, 1)),
        }
    }
}

/// The times of several rounds, in each of which both sides run in turn.
pub struct Times {
    pub ours: Vec<f64>,
    pub rust: Vec<f64>,
}

pub fn rounds(job: &Job, memory: &mut Memory, count: usize) -> Times {
    let batches = Batches::of(job, memory);
    let mut times = Times {
        ours: vec![],
        rust: vec![],
    };
    for _ in 0..count {
        times.ours.push(time_ours(job, memory, batches.ours));
        times.rust.push(time_rust(job, batches.rust));
    }
    times
}

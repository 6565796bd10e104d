//! The jobs that are timed: the families of large jobs, and ten thousand small ones of the same families.

use crate::sides::Job;
use jobs::large::{KINDS, Large};
use jobs::make::{LONG, NAME_NEVER, ask, job, long};
use jobs::random::Random;
use jobs::record::{Record, Reference, encode};

pub const SIZES: [usize; 3] = [1_000, 10_000, 60_000];

/// So many constants have jobs that are made to collide.
pub const COLLIDING: [usize; 4] = [1_000, 2_000, 4_000, 8_000];

const SMALL_COUNT: usize = 10_000;
const SMALL_SEED: u64 = 20_261_115;

/// 20 to 200 constants.
const SMALL_LEAST: usize = 20;
const SMALL_MOST: usize = 200;

pub fn large(kind: Large, constants: usize) -> Job {
    Job::new(encode(&kind(constants))).expect("a large job is well formed")
}

/// The families, and all small jobs together.
pub fn families() -> impl Iterator<Item = &'static str> {
    KINDS.iter().map(|(name, _)| *name).chain(["all"])
}

pub fn kind_named(family: &str) -> Option<Large> {
    let (_, kind) = KINDS.iter().find(|(name, _)| *name == family)?;
    Some(*kind)
}

/// The job with a byte behind its build, which the form pass refuses at its end.
pub fn refused_by_form(kind: Large, constants: usize) -> Vec<u8> {
    let mut bytes = encode(&kind(constants));
    bytes.push(0);
    bytes
}

/// The job with an unknown name asked for first: it is refused when all definitions are resolved.
pub fn refused_when_defined(kind: Large, constants: usize) -> Vec<u8> {
    let mut records = kind(constants);
    let end = records.iter().position(|r| *r == Record::EndOfDefinitions);
    let unknown = Record::Ask(Reference::Name(b"?".to_vec()));
    records.insert(end.expect("definitions end") + 1, unknown);
    encode(&records)
}

/// Longs whose hashes are all the same in ours, whose hash has no key: a search among them looks at each.
pub fn colliding(constants: usize) -> Job {
    let longs = (0..constants as u32).map(|high| {
        // The hash of the low half is taken of its sum with the hash so far, and that sum is the same for all.
        let low = u32::MAX - mix(mix(LONG.into(), 8), high);
        long(u64::from(high) << 32 | u64::from(low))
    });
    let requests = (0..constants as u16).map(ask).collect();
    let records = job(longs.collect(), requests, NAME_NEVER);
    Job::new(encode(&records)).expect("the job is well formed")
}

/// One more number in a hash, as crates/store has it.
fn mix(hash: u32, number: u32) -> u32 {
    let product = (u64::from(hash) + u64::from(number)) * 0x5bd1_e995;
    ((product >> 32) as u32).wrapping_add(product as u32)
}

/// The families in turn, each job with its family's name.
pub fn small() -> Vec<(&'static str, Job)> {
    let mut random = Random::new(SMALL_SEED);
    (0..SMALL_COUNT)
        .map(|i| {
            let (name, kind) = KINDS[i % KINDS.len()];
            let constants = SMALL_LEAST + random.below(SMALL_MOST + 1 - SMALL_LEAST);
            (name, large(kind, constants))
        })
        .collect()
}

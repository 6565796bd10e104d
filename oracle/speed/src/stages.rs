//! How far a run of ours goes before it is refused, so that differences tell what each stage takes.

use crate::figures::*;
use crate::sets;
use crate::sides::Memory;
use jobs::large::Large;
use jobs::record::encode;

/// A job of a family that is refused at the end of a stage, and what is lent to it.
pub type Stage = fn(Large, usize) -> (Vec<u8>, Memory);

/// Each with the measure that is counted.
pub const STAGES: [(Stage, &str); 3] = [
    (to_form, FORMED_COUNT),
    (to_defined, DEFINED_COUNT),
    (to_laid_out, LAID_OUT_COUNT),
];

pub fn to_form(kind: Large, constants: usize) -> (Vec<u8>, Memory) {
    lent(sets::refused_by_form(kind, constants))
}

fn to_defined(kind: Large, constants: usize) -> (Vec<u8>, Memory) {
    lent(sets::refused_when_defined(kind, constants))
}

fn to_laid_out(kind: Large, constants: usize) -> (Vec<u8>, Memory) {
    let (job, mut memory) = lent(encode(&kind(constants)));
    memory.shorten_pool();
    (job, memory)
}

fn lent(job: Vec<u8>) -> (Vec<u8>, Memory) {
    let mut memory = Memory::default();
    memory.prepare(&job);
    (job, memory)
}

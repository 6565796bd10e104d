//! The constant-pool builder for Rust, over its proved static libraries: `build` takes a job and lends the memory itself
//! (`try_build` tells where it can't be had), `run` takes what the caller lends; `read_blocks` and `write_blocks` are the block
//! file, `units_of` and `text_of` texts and
//! their units.

mod blocks;
mod build;
mod library;
mod texts;

pub use blocks::{read_blocks, read_blocks_into, write_blocks, write_blocks_into};
pub use build::{Built, Unbuilt, build, try_build};
pub use texts::{text_of, text_of_into, units_of, units_of_into};

use std::error::Error;
use std::fmt;

/// The longest job; a longer one is refused with 1.
pub const LONGEST_JOB: usize = 1_048_576;

/// A free run of slots, its first and its last: what the gap table is made of.
#[repr(C)]
#[derive(Clone, Copy, Debug, Default, PartialEq, Eq)]
pub struct Gap {
    pub first: u16,
    pub last: u16,
}

/// How an answer was come by.
#[repr(u8)]
#[derive(Clone, Copy, Debug, PartialEq, Eq)]
pub enum Mark {
    /// The request leads to a raw number.
    Raw = 0,
    /// The constant was given its slot for this request.
    New = 1,
    /// An earlier request has the same constant.
    Old = 2,
}

impl Mark {
    /// The mark of a byte that a run wrote.
    pub fn of(byte: u8) -> Mark {
        match byte {
            0 => Mark::Raw,
            1 => Mark::New,
            _ => Mark::Old,
        }
    }
}

impl fmt::Display for Mark {
    fn fmt(&self, f: &mut fmt::Formatter<'_>) -> fmt::Result {
        f.write_str(match self {
            Mark::Raw => "raw",
            Mark::New => "new",
            Mark::Old => "old",
        })
    }
}

/// What a run is lent. `work` and `gaps` may hold anything, and are wholly zero after any end but 1 and 2, which leave them
/// alone. The outputs get a prefix each when the job is built, and are left alone when it is refused.
pub struct Lent<'a> {
    pub work: &'a mut [u32],
    pub gaps: &'a mut [Gap],
    pub answers: &'a mut [u16],
    /// How each answer was come by, as `Mark` numbers it.
    pub marks: &'a mut [u8],
    pub pool: &'a mut [u8],
    pub bootstraps: &'a mut [u8],
    pub class_name: &'a mut [u8],
}

/// How many words of work a job must be lent.
pub fn least_work(job_bytes: usize) -> usize {
    6 * job_bytes + 1024
}

/// How many gaps a job must be lent.
pub fn least_gaps(job_bytes: usize) -> usize {
    job_bytes / 5 + 2
}

/// Why there is no result: the number of document 01 or 02, and the record; for a block file's 19 the block, for a text 0.
#[derive(Clone, Copy, Debug, PartialEq, Eq)]
pub struct Refusal {
    pub code: u32,
    pub place: usize,
}

impl fmt::Display for Refusal {
    fn fmt(&self, f: &mut fmt::Formatter<'_>) -> fmt::Result {
        write!(f, "refused {} {}", self.code, self.place)
    }
}

impl Error for Refusal {}

/// How much of each output was written, and the other numbers of a built job.
#[derive(Clone, Copy, Debug, PartialEq, Eq)]
pub struct Told {
    /// Each has its mark.
    pub answers: usize,
    pub pool: usize,
    pub bootstrap_count: usize,
    pub bootstraps: usize,
    /// 0: there is none.
    pub name_slot: usize,
    pub class_name: Option<usize>,
    pub visits: usize,
}

/// Runs a job over what is lent: 2 if work or gaps are too short, 18 if an output is.
pub fn run(job: &[u8], lent: Lent<'_>) -> Result<Told, Refusal> {
    library::run(job, lent)
}

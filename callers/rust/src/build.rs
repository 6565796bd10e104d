//! A job built in memory of our own.

use crate::{Gap, LONGEST_JOB, Lent, Mark, Refusal, least_gaps, least_work, run};
use std::collections::TryReserveError;
use std::error::Error;
use std::fmt;
use std::hint::black_box;

/// 65,534 entries of a text of 65,535 bytes, behind the count.
const LONGEST_POOL: usize = 2 + 65_534 * 65_538;

/// 65,535 rows of 65,535 arguments.
const LONGEST_BOOTSTRAPS: usize = 65_535 * 131_074;

const LONGEST_CLASS_NAME: usize = 65_535;

/// A request has at least three bytes, and gives one answer.
const LEAST_REQUEST: usize = 3;

/// With as many bytes as the job has, this is room for most pools: for all in which no raw definition is repeated or far up.
const FIRST_ROOM: usize = 65_536;

const NO_ROOM: u32 = 18;

/// A built job.
#[derive(Clone, Debug, PartialEq, Eq)]
pub struct Built {
    /// The slot of each request.
    pub answers: Vec<u16>,
    /// How each answer was come by.
    pub marks: Vec<Mark>,
    pub pool: Vec<u8>,
    pub bootstrap_count: usize,
    pub bootstraps: Vec<u8>,
    /// The slot of the text "BootstrapMethods"; 0: there is none.
    pub name_slot: usize,
    pub class_name: Option<Vec<u8>>,
    pub visits: usize,
}

/// As oracle/'s driver prints it: `built answers N A MARK.. pool LENGTH HEX bootstraps COUNT LENGTH HEX name SLOT class LENGTH HEX visits V`, no
/// bytes as `-` and no class name as `class none`.
impl fmt::Display for Built {
    fn fmt(&self, f: &mut fmt::Formatter<'_>) -> fmt::Result {
        write!(f, "built answers {}", self.answers.len())?;
        for (answer, mark) in self.answers.iter().zip(&self.marks) {
            write!(f, " {answer} {mark}")?;
        }
        write!(f, " pool {}", CountedHex(&self.pool))?;
        let rows = CountedHex(&self.bootstraps);
        write!(f, " bootstraps {} {rows}", self.bootstrap_count)?;
        write!(f, " name {} class ", self.name_slot)?;
        match &self.class_name {
            Some(name) => CountedHex(name).fmt(f)?,
            None => f.write_str("none")?,
        }
        write!(f, " visits {}", self.visits)
    }
}

/// How many bytes there are, and their hex digits; in parts, since there can be gigabytes.
struct CountedHex<'a>(&'a [u8]);

impl fmt::Display for CountedHex<'_> {
    fn fmt(&self, f: &mut fmt::Formatter<'_>) -> fmt::Result {
        const DIGITS: &[u8; 16] = b"0123456789abcdef";
        write!(f, "{} ", self.0.len())?;
        if self.0.is_empty() {
            return f.write_str("-");
        }
        let mut digits = String::new();
        for part in self.0.chunks(4_096) {
            digits.clear();
            for byte in part {
                digits.push(char::from(DIGITS[usize::from(byte >> 4)]));
                digits.push(char::from(DIGITS[usize::from(byte & 15)]));
            }
            f.write_str(&digits)?;
        }
        Ok(())
    }
}

/// Why `try_build` gives no build.
#[derive(Clone, Debug, PartialEq, Eq)]
pub enum Unbuilt {
    Refused(Refusal),
    /// Memory that the job takes can't be had.
    NoMemory(TryReserveError),
}

impl fmt::Display for Unbuilt {
    fn fmt(&self, f: &mut fmt::Formatter<'_>) -> fmt::Result {
        match self {
            Unbuilt::Refused(refusal) => refusal.fmt(f),
            Unbuilt::NoMemory(error) => error.fmt(f),
        }
    }
}

impl Error for Unbuilt {}

impl From<Refusal> for Unbuilt {
    fn from(refusal: Refusal) -> Unbuilt {
        Unbuilt::Refused(refusal)
    }
}

impl From<TryReserveError> for Unbuilt {
    fn from(error: TryReserveError) -> Unbuilt {
        Unbuilt::NoMemory(error)
    }
}

/// Builds a job. 2 and 18, which tell of too little memory, are never the answer: what is lent grows until the outputs fit.
///
/// # Panics
///
/// Where the memory can't be had: a job of a megabyte can have a pool of 4 GB, or 8 GB of bootstraps. `try_build` tells it.
///
/// ```
/// // A text "A", a Class of it, and a request for the Class, whose name is asked for too.
/// let job = [1, 0, 1, b'A', 7, 1, 0, 0, 0x50, 0x51, 1, 0, 1, 0x60, 2, 1, 0, 0];
/// let built = rotblossom::build(&job)?;
/// assert_eq!(built.answers, [1]);
/// assert_eq!(built.marks, [rotblossom::Mark::New]);
/// assert_eq!(built.pool, [0, 3, 7, 0, 2, 1, 0, 1, b'A']);
/// assert_eq!(built.class_name, Some(b"A".to_vec()));
/// # Ok::<(), rotblossom::Refusal>(())
/// ```
pub fn build(job: &[u8]) -> Result<Built, Refusal> {
    match try_build(job) {
        Ok(built) => Ok(built),
        Err(Unbuilt::Refused(refusal)) => Err(refusal),
        Err(Unbuilt::NoMemory(error)) => panic!("no memory to build a job: {error}"),
    }
}

/// As `build`, for a caller that goes on where the memory can't be had. (A system that promises more memory than it has may
/// end the program all the same.)
pub fn try_build(job: &[u8]) -> Result<Built, Unbuilt> {
    let mut room = FIRST_ROOM + bytes_used(job);
    loop {
        match build_within(job, room) {
            Err(Unbuilt::Refused(refusal))
                if refusal.code == NO_ROOM && room < LONGEST_BOOTSTRAPS =>
            {
                room *= 8;
            }
            ended => return ended,
        }
    }
}

/// A job that is too long is refused before anything of it is read.
fn bytes_used(job: &[u8]) -> usize {
    job.len().min(LONGEST_JOB)
}

/// Builds a job with so much room for the pool and for the bootstraps, and enough of the rest.
fn build_within(job: &[u8], room: usize) -> Result<Built, Unbuilt> {
    let bytes = bytes_used(job);
    let mut answers = zeros(bytes / LEAST_REQUEST)?;
    let mut marks = zeros(bytes / LEAST_REQUEST)?;
    let mut pool = zeros(room.min(LONGEST_POOL))?;
    let mut bootstraps = zeros(room.min(LONGEST_BOOTSTRAPS))?;
    let mut class_name = zeros(LONGEST_CLASS_NAME)?;
    let lent = Lent {
        work: &mut zeros(least_work(bytes))?,
        gaps: &mut zeros::<Gap>(least_gaps(bytes))?,
        answers: &mut answers,
        marks: &mut marks,
        pool: &mut pool,
        bootstraps: &mut bootstraps,
        class_name: &mut class_name,
    };
    let told = run(job, lent)?;
    Ok(Built {
        answers: cut(answers, told.answers),
        marks: marks_of(&marks[..told.answers])?,
        pool: cut(pool, told.pool),
        bootstrap_count: told.bootstrap_count,
        bootstraps: cut(bootstraps, told.bootstraps),
        name_slot: told.name_slot,
        class_name: told.class_name.map(|length| cut(class_name, length)),
        visits: told.visits,
    })
}

/// Memory that the system gives only where it is written. std has no such vector that tells of too little: so as much is
/// asked for first, and given back. The optimiser may leave out memory that nobody sees.
fn zeros<T: Clone + Default>(length: usize) -> Result<Vec<T>, TryReserveError> {
    let mut asked = Vec::<T>::new();
    asked.try_reserve_exact(length)?;
    drop(black_box(asked));
    Ok(vec![T::default(); length])
}

fn marks_of(bytes: &[u8]) -> Result<Vec<Mark>, TryReserveError> {
    let mut marks = Vec::new();
    marks.try_reserve_exact(bytes.len())?;
    marks.extend(bytes.iter().copied().map(Mark::of));
    Ok(marks)
}

/// What was written of an output, with no memory behind it.
fn cut<T>(mut output: Vec<T>, written: usize) -> Vec<T> {
    output.truncate(written);
    output.shrink_to_fit();
    output
}

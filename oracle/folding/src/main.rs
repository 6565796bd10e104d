//! `folding JAVA-FILE SEED COUNT`: so many operations of record 46 (document 02, No. 3) by this machine's own numbers, by Java's, and
//! through the model, in jobs of many; with the feature `library` through the proved library too. The status is 1 if one differs.

mod blocks;
mod drawn;
mod operation;

use blocks::{Builder, job, values};
use drawn::{class, draw};
use jobs::random::Random;
use operation::Operation;
use std::collections::BTreeMap;
use std::error::Error;
use std::io::{BufReader, BufWriter, Read, Write};
use std::process::{Command, ExitCode, Stdio};
use std::thread;

/// Operations of a job; all fit the pool, as Longs take two slots.
const BLOCK: usize = 1_000;

/// One in so many of those that are refused 23 goes into a job.
const BY_ZERO: usize = 16;

const SHOWN: usize = 10;

const BUILDERS: &[(&str, Builder)] = &[
    ("model", blocks::of_model),
    #[cfg(feature = "library")]
    ("library", blocks::of_library),
];

fn main() -> ExitCode {
    let words: Vec<String> = std::env::args().skip(1).collect();
    match run(&words) {
        Ok(0) => ExitCode::SUCCESS,
        Ok(_) => ExitCode::FAILURE,
        Err(error) => {
            eprintln!("folding: {error}");
            ExitCode::from(2)
        }
    }
}

fn run(words: &[String]) -> Result<usize, Box<dyn Error>> {
    let [file, seed, count] = words else {
        return Err("usage: folding JAVA-FILE SEED COUNT".into());
    };
    let (seed, count): (u64, usize) = (seed.parse()?, count.parse()?);
    let mut java = Command::new("java")
        .arg(file)
        .stdin(Stdio::piped())
        .stdout(Stdio::piped())
        .spawn()?;
    let mut pipe = BufWriter::new(java.stdin.take().ok_or("no pipe")?);
    let feeder = thread::spawn(move || {
        operations(seed, count).try_for_each(|operation| pipe.write_all(&operation.framed()))?;
        pipe.flush()
    });
    let mut answers = BufReader::new(java.stdout.take().ok_or("no pipe")?);
    let mut held = Held::default();
    for operation in operations(seed, count) {
        held.hold(operation, next_answer(&mut answers)?);
    }
    held.build();
    feeder.join().map_err(|_| "the pipe's end")??;
    java.wait()?;
    held.tell(count);
    Ok(held.different)
}

/// The same operations for all.
fn operations(seed: u64, count: usize) -> impl Iterator<Item = Operation> {
    let mut random = Random::new(seed);
    (0..count).map(move |_| draw(&mut random))
}

fn next_answer(answers: &mut impl Read) -> std::io::Result<Option<u64>> {
    let mut known = [0];
    answers.read_exact(&mut known)?;
    if known == [0] {
        return Ok(None);
    }
    let mut bits = [0; 8];
    answers.read_exact(&mut bits)?;
    Ok(Some(u64::from_be_bytes(bits)))
}

/// What came out so far, and the block that is being filled.
#[derive(Default)]
struct Held {
    block: Vec<(Operation, u64)>,
    jobs: usize,
    by_zero: usize,
    by_zero_jobs: usize,
    /// Of operands and results of floats.
    operands: BTreeMap<&'static str, usize>,
    results: BTreeMap<&'static str, usize>,
    different: usize,
}

impl Held {
    fn hold(&mut self, operation: Operation, of_java: Option<u64>) {
        let of_machine = operation.of_machine();
        if of_machine != of_java {
            self.tell_difference(
                &operation,
                &format!("machine {of_machine:x?}, Java {of_java:x?}"),
            );
        }
        for bits in [operation.first, operation.second] {
            *self
                .operands
                .entry(class(operation.kind, bits))
                .or_default() += 1;
        }
        match of_machine {
            None => self.hold_by_zero(&operation),
            Some(value) => {
                *self
                    .results
                    .entry(class(operation.kind, value))
                    .or_default() += 1;
                self.block.push((operation, value));
                if self.block.len() == BLOCK {
                    self.build();
                }
            }
        }
    }

    /// 23, at the record of the first that is divided by zero.
    fn hold_by_zero(&mut self, operation: &Operation) {
        self.by_zero += 1;
        if !self.by_zero.is_multiple_of(BY_ZERO) {
            return;
        }
        self.by_zero_jobs += 1;
        for (name, build) in BUILDERS {
            let built = build(&job(&[*operation]));
            if built != Err((23, 0)) {
                self.tell_difference(operation, &format!("{name} gives {built:x?}"));
            }
        }
    }

    /// Runs the block that there is, and empties it.
    fn build(&mut self) {
        let block = std::mem::take(&mut self.block);
        let operations: Vec<Operation> = block.iter().map(|(operation, _)| *operation).collect();
        self.jobs += 1;
        for (name, build) in BUILDERS {
            let given = match build(&job(&operations)) {
                Ok(built) => values(&built),
                Err(refused) => {
                    self.different += 1;
                    println!("a block is refused {refused:?} by {name}");
                    continue;
                }
            };
            for ((operation, value), given) in block.iter().zip(given) {
                if given != Some((operation.kind, *value)) {
                    let text = format!("machine {value:x}, {name} {given:x?}");
                    self.tell_difference(operation, &text);
                }
            }
        }
    }

    fn tell_difference(&mut self, operation: &Operation, text: &str) {
        self.different += 1;
        if self.different <= SHOWN {
            println!("{operation:x?}: {text}");
        }
    }

    fn tell(&self, count: usize) {
        let names: Vec<&str> = BUILDERS.iter().map(|(name, _)| *name).collect();
        println!("operands: {:?}", self.operands);
        println!("results: {:?}", self.results);
        println!(
            "{count} operations by machine, Java and {}: {} jobs, {} divided by zero ({} of them in jobs), {} differ",
            names.join(" and "),
            self.jobs + self.by_zero_jobs,
            self.by_zero,
            self.by_zero_jobs,
            self.different
        );
    }
}

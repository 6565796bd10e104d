//! Writes framed jobs to standard output: a four-byte big-endian length, then the job's bytes.

use jobs::random::Random;
use jobs::record::encode;
use jobs::stream::{frame, heavy_jobs, seeded};
use jobs::{heavy, large};
use std::io::{self, BufWriter, Write};
use std::process::ExitCode;

const USAGE: &str = "usage: generate KIND SEED COUNT
       KIND is small, ldcfull, damaged, pairs, orders, settings, settings_damaged, settings_pairs, lowest, lowest_full, lowest_pairs,
       worked, worked_damaged, worked_pairs or worked_orders
       generate heavy [--names]
       generate large KIND N, N from 16 to 60000";

fn main() -> ExitCode {
    let arguments: Vec<String> = std::env::args().skip(1).collect();
    let arguments: Vec<&str> = arguments.iter().map(String::as_str).collect();
    let mut out = BufWriter::new(io::stdout().lock());
    match run(&arguments, &mut out).and_then(|()| out.flush().map_err(Trouble::Output)) {
        Ok(()) => ExitCode::SUCCESS,
        // A reader that needs no more jobs closes the pipe.
        Err(Trouble::Output(error)) if error.kind() == io::ErrorKind::BrokenPipe => {
            ExitCode::SUCCESS
        }
        Err(Trouble::Output(error)) => {
            eprintln!("generate: {error}");
            ExitCode::FAILURE
        }
        Err(Trouble::Arguments) => {
            eprintln!("{USAGE}");
            ExitCode::from(2)
        }
    }
}

enum Trouble {
    Arguments,
    Output(io::Error),
}

fn run(arguments: &[&str], out: &mut impl Write) -> Result<(), Trouble> {
    match arguments {
        ["heavy"] => heavy_jobs()
            .try_for_each(|job| frame(out, &job))
            .map_err(Trouble::Output),
        ["heavy", "--names"] => heavy_names(out).map_err(Trouble::Output),
        ["large", kind, count] => {
            let kind = large::KINDS
                .iter()
                .find(|(name, _)| name == kind)
                .ok_or(Trouble::Arguments)?;
            let count = usize::try_from(number(count)?)
                .ok()
                .filter(|n| large::SIZES.contains(n));
            let job = kind.1(count.ok_or(Trouble::Arguments)?);
            frame(out, &encode(&job)).map_err(Trouble::Output)
        }
        [kind, seed, count] => {
            let make = seeded(kind).ok_or(Trouble::Arguments)?;
            let (mut random, count) = (Random::new(number(seed)?), number(count)?);
            for _ in 0..count {
                for job in make(&mut random) {
                    frame(out, &job).map_err(Trouble::Output)?;
                }
            }
            Ok(())
        }
        _ => Err(Trouble::Arguments),
    }
}

fn number(argument: &str) -> Result<u64, Trouble> {
    argument.parse().map_err(|_| Trouble::Arguments)
}

fn heavy_names(out: &mut impl Write) -> io::Result<()> {
    heavy::LIST
        .iter()
        .try_for_each(|(name, _)| writeln!(out, "{name}"))
}

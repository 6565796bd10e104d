//! Framed jobs on standard input, one line a job on standard output.
//!
//! `driver` shows each job's outcome, `driver form` only what its form pass says, `driver tally` only counts,
//! `driver bench FILE [N]` times the module on the framed jobs of a file.

use driver::frames::next_frame;
use driver::tally::Tally;
use driver::{bench, form, run_job};
use std::env;
use std::error::Error;
use std::fs::File;
use std::io::{self, BufReader, BufWriter, Write};
use std::process::ExitCode;

const USAGE: &str = "usage: driver | driver form | driver tally | driver bench FILE [N]";
const DEFAULT_RUNS: usize = 9;

fn main() -> ExitCode {
    let arguments: Vec<String> = env::args().skip(1).collect();
    let arguments: Vec<&str> = arguments.iter().map(String::as_str).collect();
    let ended = match arguments[..] {
        [] => show_jobs(|job| run_job(job).line()),
        ["form"] => show_jobs(form::line),
        ["tally"] => tally_jobs(),
        ["bench", file] => bench_jobs(file, DEFAULT_RUNS),
        ["bench", file, runs] => match runs.parse() {
            Ok(runs @ 1..) => bench_jobs(file, runs),
            _ => Err(USAGE.into()),
        },
        _ => Err(USAGE.into()),
    };
    match ended {
        Ok(()) => ExitCode::SUCCESS,
        Err(error) => {
            eprintln!("driver: {error}");
            ExitCode::FAILURE
        }
    }
}

fn show_jobs(line: fn(&[u8]) -> String) -> Result<(), Box<dyn Error>> {
    let mut input = BufReader::new(io::stdin().lock());
    let mut output = BufWriter::new(io::stdout().lock());
    while let Some(job) = next_frame(&mut input)? {
        writeln!(output, "{}", line(&job))?;
    }
    output.flush()?;
    Ok(())
}

fn tally_jobs() -> Result<(), Box<dyn Error>> {
    let mut input = BufReader::new(io::stdin().lock());
    let mut tally = Tally::default();
    while let Some(job) = next_frame(&mut input)? {
        tally.add(&run_job(&job));
    }
    print!("{tally}");
    Ok(())
}

fn bench_jobs(file: &str, runs: usize) -> Result<(), Box<dyn Error>> {
    let mut input = BufReader::new(File::open(file)?);
    let mut index = 0;
    while let Some(job) = next_frame(&mut input)? {
        println!("{}", bench::line(index, &job, runs));
        index += 1;
    }
    Ok(())
}

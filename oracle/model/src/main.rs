//! Framed jobs on standard input, one line a job on standard output, as `driver` shows them. `model in_turn` tells a refusal that is met
//! while building at the build record, as the Rust does.
//!
//! `model hold KIND SEED COUNT` and `model hold heavy [NAME..]` hold the model to Krakatau's module instead.

mod hold;

use driver::frames::next_frame;
use std::error::Error;
use std::io::{self, BufReader, BufWriter, Write};
use std::process::ExitCode;

const USAGE: &str = "usage: model [in_turn] | model hold heavy [NAME..] | model hold KIND SEED COUNT
       KIND is small, damaged, pairs, orders, ldcfull, settings, settings_damaged, settings_pairs, lowest, lowest_full, lowest_pairs,
       worked, worked_damaged, worked_pairs or worked_orders";

fn main() -> ExitCode {
    let arguments: Vec<String> = std::env::args().skip(1).collect();
    let arguments: Vec<&str> = arguments.iter().map(String::as_str).collect();
    let ended = match &arguments[..] {
        [] => show_jobs(|told| told),
        ["in_turn"] => show_jobs(model::Outcome::in_turn),
        ["hold", part @ ..] => match hold::jobs(part) {
            Some(jobs) => hold::hold(&part.join(" "), jobs),
            None => Err(USAGE.into()),
        },
        _ => Err(USAGE.into()),
    };
    match ended {
        Ok(()) => ExitCode::SUCCESS,
        Err(error) => {
            eprintln!("model: {error}");
            ExitCode::FAILURE
        }
    }
}

fn show_jobs(shown: fn(model::Outcome) -> model::Outcome) -> Result<(), Box<dyn Error>> {
    let mut input = BufReader::new(io::stdin().lock());
    let mut output = BufWriter::new(io::stdout().lock());
    while let Some(job) = next_frame(&mut input)? {
        writeln!(output, "{}", shown(model::run(&job)))?;
    }
    output.flush()?;
    Ok(())
}

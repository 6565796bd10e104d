//! `traces count` reads frames and prints their lines, as `trace_run` does; `traces frames SEED COUNT` writes frames; `traces compare SEED
//! COUNT PROGRAM..` holds a program to the lines that are right.

use jobs::random::Random;
use pools::held::{Ends, Sent, hold};
use pools::program::{run_main, serve};
use std::error::Error;
use std::io::{self, BufWriter, Write};
use std::process::ExitCode;
use traces::frame::Frame;
use traces::made;

const USAGE: &str =
    "usage: traces count | traces frames SEED COUNT | traces compare SEED COUNT PROGRAM..";

fn main() -> ExitCode {
    run_main("traces", run)
}

fn run(arguments: &[String]) -> Result<bool, Box<dyn Error>> {
    let words: Vec<&str> = arguments.iter().map(String::as_str).collect();
    match words[..] {
        ["count"] => serve(|input| Ok(Frame::read(input)?.map(|f| f.answer().into())))?,
        ["frames", seed, number] => write_frames(frames(seed.parse()?, number.parse()?))?,
        ["compare", seed, number, _, ..] => {
            let (seed, number) = (seed.parse()?, number.parse()?);
            let tally = hold(&arguments[3..], Ends::Line, || {
                frames(seed, number).map(sent)
            })?;
            return Ok(tally.report("traces"));
        }
        _ => return Err(USAGE.into()),
    }
    Ok(true)
}

fn frames(seed: u64, number: usize) -> impl Iterator<Item = Frame> {
    let mut random = Random::new(seed);
    (0..number).map(move |_| made::next(&mut random))
}

fn write_frames(frames: impl Iterator<Item = Frame>) -> io::Result<()> {
    let mut output = BufWriter::new(io::stdout().lock());
    for frame in frames {
        frame.write(&mut output)?;
    }
    output.flush()
}

fn sent(frame: Frame) -> Sent {
    let answer = frame.answer();
    let counted = match answer.split(' ').collect::<Vec<_>>()[..] {
        ["refused", code, ..] => format!("refused {code}"),
        ["good", _, "failed", _, "rested", "0", ..] => "counted, none rested".into(),
        _ => "counted, some rested".into(),
    };
    Sent::new(|out| frame.write(out), answer, counted)
}

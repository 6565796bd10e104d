//! `pools list` reads frames and prints their listings, as `poollist` does; `pools frames WHAT` writes frames; `pools compare WHAT --
//! PROGRAM..` holds a program to the listings that are right; `pools cut FILE..` writes the frames of class files.
//! WHAT is `short`, `long`, or `damaged SEED COUNT`.

use jobs::random::Random;
use pools::class_file::cut_out;
use pools::frame::Frame;
use pools::held::{Ends, Sent, hold};
use pools::made::{self, Made};
use pools::program::{run_main, serve};
use std::error::Error;
use std::fs;
use std::io::{self, BufWriter, Write};
use std::process::ExitCode;

const USAGE: &str =
    "usage: pools list | pools cut FILE.. | pools frames WHAT | pools compare WHAT -- PROGRAM..
WHAT: short | long | damaged SEED COUNT";

fn main() -> ExitCode {
    run_main("pools", run)
}

fn run(arguments: &[String]) -> Result<bool, Box<dyn Error>> {
    let (command, rest) = arguments.split_first().ok_or(USAGE)?;
    match command.as_str() {
        "list" if rest.is_empty() => serve(|input| Ok(Frame::read(input)?.map(|f| f.answer())))?,
        "cut" => cut(rest)?,
        "frames" => write_frames(What::named(rest)?)?,
        "compare" => {
            let dashes = rest.iter().position(|word| word == "--").ok_or(USAGE)?;
            return compare(What::named(&rest[..dashes])?, &rest[dashes + 1..]);
        }
        _ => return Err(USAGE.into()),
    }
    Ok(true)
}

#[derive(Clone, Copy)]
enum What {
    Short,
    Long,
    Damaged { seed: u64, count: usize },
}

impl What {
    fn named(words: &[String]) -> Result<Self, Box<dyn Error>> {
        match words {
            [short] if short == "short" => Ok(What::Short),
            [long] if long == "long" => Ok(What::Long),
            [damaged, seed, count] if damaged == "damaged" => Ok(What::Damaged {
                seed: seed.parse()?,
                count: count.parse()?,
            }),
            _ => Err(USAGE.into()),
        }
    }

    fn frames(self) -> Box<dyn Iterator<Item = Made>> {
        match self {
            What::Short => Box::new(made::short()),
            What::Long => Box::new(made::too_long()),
            What::Damaged { seed, count } => {
                let mut random = Random::new(seed);
                Box::new((0..count).map(move |_| made::next(&mut random)))
            }
        }
    }
}

fn cut(files: &[String]) -> Result<(), Box<dyn Error>> {
    let mut output = BufWriter::new(io::stdout().lock());
    for file in files {
        let frame = cut_out(&fs::read(file)?).ok_or_else(|| format!("{file} is no class file"))?;
        frame.write(&mut output)?;
    }
    Ok(output.flush()?)
}

fn write_frames(what: What) -> io::Result<()> {
    let mut output = BufWriter::new(io::stdout().lock());
    for made in what.frames() {
        made.frame.write(&mut output)?;
    }
    output.flush()
}

fn sent(made: Made) -> Sent {
    let answer = made.frame.answer();
    let outcome = match answer.strip_prefix(b"refused ") {
        Some(code) => format!("refused {}", String::from_utf8_lossy(code).trim_end()),
        None => "listed".into(),
    };
    let counted = format!("{}: {outcome}", made.how);
    Sent::new(|out| made.frame.write(out), answer, counted)
}

fn compare(what: What, program: &[String]) -> Result<bool, Box<dyn Error>> {
    let tally = hold(program, Ends::EmptyLine, || what.frames().map(sent))?;
    Ok(tally.report(match what {
        What::Short => "short",
        What::Long => "long",
        What::Damaged { .. } => "damaged",
    }))
}

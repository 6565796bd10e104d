//! `classes serve` reads frames and prints their lines, as `class_file_run` does; `classes compare WHAT -- PROGRAM..` holds a program to the
//! lines that are right; `classes make SEED COUNT FOLDER -- PROGRAM..` has the program write class files, and says in FOLDER/made.txt what
//! they must be. WHAT is `seeded SEED COUNT`, or `damages SEED`: every damage of one file, and what is read of them written back.

use classes::file::Parts;
use classes::frame::{Frame, file_line};
use classes::loadable::{self, Loadable};
use classes::made;
use jobs::hex;
use jobs::random::Random;
use pools::held::{Ends, Sent, hold, start};
use pools::program::{run_main, serve};
use std::error::Error;
use std::fmt::Write as _;
use std::io::{self, Write};
use std::path::Path;
use std::process::ExitCode;
use std::{fs, thread};

const USAGE: &str = "usage: classes serve | classes compare WHAT -- PROGRAM.. | classes make SEED COUNT FOLDER -- PROGRAM..
WHAT: seeded SEED COUNT | damages SEED";

fn main() -> ExitCode {
    run_main("classes", run)
}

fn run(arguments: &[String]) -> Result<bool, Box<dyn Error>> {
    let dashes = arguments.iter().position(|word| word == "--");
    let (words, program) = match dashes {
        Some(at) => (&arguments[..at], &arguments[at + 1..]),
        None => (arguments, &[][..]),
    };
    let words: Vec<&str> = words.iter().map(String::as_str).collect();
    match words[..] {
        ["serve"] => {
            serve(|input| Ok(Frame::read(input)?.map(|f| f.answer().into())))?;
            Ok(true)
        }
        ["compare", "seeded", seed, count] => {
            compare_seeded(seed.parse()?, count.parse()?, program)
        }
        ["compare", "damages", seed] => compare_damages(seed.parse()?, program),
        ["make", seed, count, folder] => {
            make(seed.parse()?, count.parse()?, Path::new(folder), program)
        }
        _ => Err(USAGE.into()),
    }
}

fn sent(frame: &Frame, answer: String) -> Sent {
    let did = match frame {
        Frame::Write(_) => "write",
        Frame::Read(_) => "read",
    };
    let outcome = match answer.split_once(' ') {
        Some(("refused", code)) => format!("refused {}", code.trim_end()),
        _ => "good".into(),
    };
    Sent::new(|out| frame.write(out), answer, format!("{did}: {outcome}"))
}

fn compare_seeded(seed: u64, count: usize, program: &[String]) -> Result<bool, Box<dyn Error>> {
    let frames = || {
        let mut random = Random::new(seed);
        (0..count).map(move |_| {
            let frame = made::next(&mut random);
            sent(&frame, frame.answer())
        })
    };
    Ok(hold(program, Ends::Line, frames)?.report("seeded"))
}

/// The first of the seeded classes that has two bootstraps.
fn file_to_damage(seed: u64) -> Vec<u8> {
    let mut random = Random::new(seed);
    loop {
        let parts = loadable::next(&mut random, 0).parts;
        if parts.count >= 2 {
            return parts.write(usize::MAX).expect("parts that make a file");
        }
    }
}

fn compare_damages(seed: u64, program: &[String]) -> Result<bool, Box<dyn Error>> {
    let file = file_to_damage(seed);
    let read = || {
        made::all_damages(&file).map(|damaged| {
            let frame = Frame::Read(damaged);
            sent(&frame, frame.answer())
        })
    };
    let written = || {
        let files = made::all_damages(&file);
        let pairs = files.filter_map(|file| Parts::read(&file).map(|(parts, _)| (parts, file)));
        // what was read must give back the very file
        pairs.map(|(parts, file)| sent(&Frame::Write(parts), file_line(&file)))
    };
    println!("damages: of a file of {} bytes", file.len());
    let same_read = hold(program, Ends::Line, read)?.report("damages");
    let same_written = hold(program, Ends::Line, written)?.report("damages, written back");
    Ok(same_read && same_written)
}

fn make(
    seed: u64,
    count: usize,
    folder: &Path,
    program: &[String],
) -> Result<bool, Box<dyn Error>> {
    let mut random = Random::new(seed);
    let made: Vec<_> = (0..count).map(|n| loadable::next(&mut random, n)).collect();
    let mut input = Vec::new();
    for class in &made {
        Frame::Write(class.parts.clone()).write(&mut input)?;
    }
    let printed = printed_by(program, input)?;
    let lines: Vec<_> = printed.lines().collect();
    if lines.len() != count {
        return Err(format!("{} lines for {count} classes", lines.len()).into());
    }
    let mut told = String::new();
    for (n, (line, class)) in lines.iter().zip(&made).enumerate() {
        let file = line.strip_prefix("file ").and_then(hex::parse);
        let file = file.ok_or_else(|| format!("class {n}: {line}"))?;
        fs::write(folder.join(format!("{n}.class")), file)?;
        tell(&mut told, n, class)?;
    }
    fs::write(folder.join("made.txt"), told)?;
    Ok(true)
}

/// A line a class, with tabs between.
fn tell(told: &mut String, n: usize, class: &Loadable) -> std::fmt::Result {
    let Loadable {
        parts,
        class_name,
        super_name,
        defined,
    } = class;
    let slots = u16::from_be_bytes([parts.pool[0], parts.pool[1]]);
    let [numbers @ .., name, count] = parts.numbers();
    let numbers = numbers.into_iter().chain([slots, name, count]);
    write!(
        told,
        "{n}.class\t{class_name}\t{super_name}\t{}",
        u8::from(*defined)
    )?;
    for number in numbers {
        write!(told, "\t{number}")?;
    }
    writeln!(told)
}

fn printed_by(program: &[String], input: Vec<u8>) -> Result<String, Box<dyn Error>> {
    program.first().ok_or(USAGE)?;
    let (mut child, mut stdin, stdout) = start(program)?;
    let sender = thread::spawn(move || stdin.write_all(&input));
    let printed = io::read_to_string(stdout)?;
    child.wait()?;
    sender.join().map_err(|_| "sending failed")??;
    Ok(printed)
}

//! `texts JAVA-FILE SEED COUNT`: so many texts and rows of units through the proved part for texts and through Java's `readUTF` and
//! `writeUTF`. The status is 1 if one differs.
//!
//! Java reads a byte 00 as a unit, which request No. 8 refuses; and it writes no text above 65,535 bytes, which the part does.

mod made;

use jobs::random::Random;
use made::Given;
use std::error::Error;
use std::io::{BufReader, BufWriter, Read, Write};
use std::process::{Command, ExitCode, Stdio};
use std::thread;

/// What came out.
#[derive(Default)]
struct Tally {
    read: usize,
    refused: usize,
    zero_bytes: usize,
    written: usize,
    too_long_for_java: usize,
    different: usize,
}

fn main() -> ExitCode {
    let words: Vec<String> = std::env::args().skip(1).collect();
    match run(&words) {
        Ok(0) => ExitCode::SUCCESS,
        Ok(_) => ExitCode::FAILURE,
        Err(error) => {
            eprintln!("texts: {error}");
            ExitCode::from(2)
        }
    }
}

fn run(words: &[String]) -> Result<usize, Box<dyn Error>> {
    let [file, seed, count] = words else {
        return Err("usage: texts JAVA-FILE SEED COUNT".into());
    };
    let (seed, count): (u64, usize) = (seed.parse()?, count.parse()?);
    let mut java = Command::new("java")
        .arg(file)
        .stdin(Stdio::piped())
        .stdout(Stdio::piped())
        .spawn()?;
    let mut pipe = BufWriter::new(java.stdin.take().ok_or("no pipe")?);
    let feeder = thread::spawn(move || {
        given(seed, count).try_for_each(|given| pipe.write_all(&given.framed()))?;
        pipe.flush()
    });
    let mut answers = BufReader::new(java.stdout.take().ok_or("no pipe")?);
    let mut tally = Tally::default();
    for given in given(seed, count) {
        tally.hold(&given, next_answer(&mut answers)?);
    }
    feeder.join().map_err(|_| "the pipe's end")??;
    java.wait()?;
    println!(
        "{count} given: {} read, {} refused 25, {} of them for a byte 00 that Java reads; {} written, {} of them too long for Java; {} differ",
        tally.read,
        tally.refused,
        tally.zero_bytes,
        tally.written,
        tally.too_long_for_java,
        tally.different
    );
    Ok(tally.different)
}

/// The same texts and rows of units for both sides.
fn given(seed: u64, count: usize) -> impl Iterator<Item = Given> {
    let mut random = Random::new(seed);
    (0..count).map(move |_| made::given(&mut random))
}

fn next_answer(answers: &mut impl Read) -> std::io::Result<Option<Vec<u8>>> {
    let mut known = [0];
    answers.read_exact(&mut known)?;
    if known == [0] {
        return Ok(None);
    }
    let mut length = [0; 4];
    answers.read_exact(&mut length)?;
    let mut bytes = vec![0; u32::from_be_bytes(length) as usize];
    answers.read_exact(&mut bytes)?;
    Ok(Some(bytes))
}

impl Tally {
    fn hold(&mut self, given: &Given, java: Option<Vec<u8>>) {
        let same = match given {
            Given::Text(text) => self.hold_text(text, java),
            Given::Units(units) => self.hold_units(units, java),
        };
        if !same {
            self.different += 1;
            println!("differs: {given:?}");
        }
    }

    fn hold_text(&mut self, text: &[u8], java: Option<Vec<u8>>) -> bool {
        let Ok(units) = rotblossom::units_of(text) else {
            self.refused += 1;
            self.zero_bytes += usize::from(java.is_some());
            return java.is_none() || text.contains(&0);
        };
        self.read += 1;
        java.is_some_and(|java| java == made::bytes_of(&units)) && !text.contains(&0)
    }

    /// What is written is read back, too.
    fn hold_units(&mut self, units: &[u16], java: Option<Vec<u8>>) -> bool {
        let text = rotblossom::text_of(units);
        self.written += 1;
        let same = match java {
            Some(java) => java == text,
            None => {
                self.too_long_for_java += 1;
                text.len() > 65_535
            }
        };
        same && rotblossom::units_of(&text).as_deref() == Ok(units)
    }
}

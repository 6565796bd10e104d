//! Runs a compiled builder over a set of jobs and holds its lines to the right ones.

use crate::sets::Set;
use std::error::Error;
use std::fs::File;
use std::io::{BufRead, BufReader};
use std::path::Path;
use std::process::{Command, Stdio};

/// Seconds that a builder has for a set; the right one takes about one.
const TIME_LIMIT: &str = "60";
/// What `timeout` ends with where the time is up.
const TIME_IS_UP: i32 = 124;

/// Heavy jobs need a stack of 64 MB.
const RUN: &str = "ulimit -s 65536; exec timeout \"$1\" \"$0\"";

/// How a builder's lines of a set differ from the right ones.
#[derive(Debug, PartialEq, Eq)]
pub struct Difference {
    /// The places of the jobs whose line is another, or that have none.
    pub places: Vec<usize>,
    pub end: End,
}

#[derive(Clone, Copy, Debug, PartialEq, Eq)]
pub enum End {
    Whole,
    RanTooLong,
    Died,
}

impl Difference {
    pub fn is_noticed(&self) -> bool {
        !self.places.is_empty() || self.end != End::Whole
    }
}

pub fn difference(program: &Path, set: &Set) -> Result<Difference, Box<dyn Error>> {
    let mut child = Command::new("sh")
        .args(["-c", RUN])
        .arg(program)
        .arg(TIME_LIMIT)
        .stdin(File::open(&set.jobs)?)
        .stdout(Stdio::piped())
        .stderr(Stdio::null())
        .spawn()?;
    let given = BufReader::new(child.stdout.take().ok_or("no output to read")?);
    let right = BufReader::new(File::open(&set.lines)?);
    let places = different_places(given, right)?;
    let end = match child.wait()?.code() {
        Some(0) => End::Whole,
        Some(TIME_IS_UP) => End::RanTooLong,
        _ => End::Died,
    };
    Ok(Difference { places, end })
}

/// The places at which lines differ. Behind the last line that was given, only the first that lacks counts.
fn different_places(
    mut given: impl BufRead,
    mut right: impl BufRead,
) -> std::io::Result<Vec<usize>> {
    let mut places = Vec::new();
    let (mut line, mut right_line) = (Vec::new(), Vec::new());
    let mut place = 0;
    loop {
        line.clear();
        right_line.clear();
        given.read_until(b'\n', &mut line)?;
        right.read_until(b'\n', &mut right_line)?;
        if line != right_line {
            places.push(place);
        }
        if line.is_empty() || right_line.is_empty() {
            return Ok(places);
        }
        place += 1;
    }
}

#[cfg(test)]
mod tests {
    use super::*;

    fn places(given: &str, right: &str) -> Vec<usize> {
        different_places(given.as_bytes(), right.as_bytes()).unwrap()
    }

    #[test]
    fn equal_lines_have_no_places() {
        assert_eq!(places("", ""), []);
        assert_eq!(places("a\nb\n", "a\nb\n"), []);
    }

    #[test]
    fn other_lines_and_the_first_missing_one_have_places() {
        assert_eq!(places("a\nx\nc\ny\n", "a\nb\nc\nd\n"), [1, 3]);
        assert_eq!(places("a\n", "a\nb\nc\n"), [1]);
        assert_eq!(places("x\nb", "a\nb\nc\n"), [0, 1, 2]);
        assert_eq!(places("a\nb\n", "a\n"), [1]);
    }
}

//! A program that reads frames and prints an answer for each, held to the answers that are right.

use jobs::hex::hex;
use std::collections::BTreeMap;
use std::io::{self, BufRead, BufReader, BufWriter, Write};
use std::process::{Child, ChildStdin, ChildStdout, Command, Stdio};
use std::thread;

/// Differences that are shown in full.
const SHOWN: usize = 5;

/// What is sent: bytes, the answer wanted, and under which name it is counted.
pub struct Sent {
    pub bytes: Vec<u8>,
    pub answer: Vec<u8>,
    pub counted: String,
}

impl Sent {
    pub fn new(
        write: impl FnOnce(&mut Vec<u8>) -> io::Result<()>,
        answer: impl Into<Vec<u8>>,
        counted: String,
    ) -> Sent {
        let mut bytes = Vec::new();
        write(&mut bytes).expect("a vector takes all bytes");
        Sent {
            bytes,
            answer: answer.into(),
            counted,
        }
    }
}

/// Where an answer ends: behind its line, or behind the first empty one.
#[derive(Clone, Copy, PartialEq, Eq)]
pub enum Ends {
    Line,
    EmptyLine,
}

#[derive(Default)]
pub struct Tally {
    pub counts: BTreeMap<String, usize>,
    pub sent: usize,
    pub different: usize,
}

impl Tally {
    /// The counts a line each, and the sums; whether nothing differs.
    pub fn report(&self, what: &str) -> bool {
        for (name, count) in &self.counts {
            println!("{what}: {name}: {count}");
        }
        println!("{what}: {} sent, {} differ", self.sent, self.different);
        self.different == 0
    }
}

/// A program that is started, its input and its output.
pub fn start(program: &[String]) -> io::Result<(Child, ChildStdin, ChildStdout)> {
    let (name, arguments) = program.split_first().ok_or(io::ErrorKind::NotFound)?;
    let mut child = Command::new(name)
        .args(arguments)
        .stdin(Stdio::piped())
        .stdout(Stdio::piped())
        .stderr(Stdio::null())
        .spawn()?;
    let input = child.stdin.take().expect("the input is piped");
    let output = child.stdout.take().expect("the output is piped");
    Ok((child, input, output))
}

/// Starts the program and holds its answers to those wanted. `frames` is asked twice, for what is sent and for the comparison.
pub fn hold<I>(program: &[String], ends: Ends, frames: impl Fn() -> I + Sync) -> io::Result<Tally>
where
    I: Iterator<Item = Sent>,
{
    let (mut child, input, output) = start(program)?;
    let tally = thread::scope(|scope| {
        // a program that stops early closes its input: the comparison tells of it
        scope.spawn(|| _ = send(input, frames()));
        compare(BufReader::new(output), ends, frames())
    })?;
    child.wait()?;
    Ok(tally)
}

fn send(input: impl Write, frames: impl Iterator<Item = Sent>) -> io::Result<()> {
    let mut input = BufWriter::with_capacity(1 << 16, input);
    for sent in frames {
        input.write_all(&sent.bytes)?;
    }
    input.flush()
}

fn compare(
    mut output: impl BufRead,
    ends: Ends,
    frames: impl Iterator<Item = Sent>,
) -> io::Result<Tally> {
    let mut tally = Tally::default();
    for sent in frames {
        let answer = read_answer(&mut output, ends)?;
        if answer != sent.answer {
            if tally.different < SHOWN {
                show(tally.sent, &sent, &answer);
            }
            tally.different += 1;
        }
        tally.sent += 1;
        *tally.counts.entry(sent.counted).or_default() += 1;
    }
    let mut rest = Vec::new();
    output.read_to_end(&mut rest)?;
    if !rest.is_empty() {
        println!("{} bytes behind the last answer", rest.len());
        tally.different += 1;
    }
    Ok(tally)
}

fn read_answer(output: &mut impl BufRead, ends: Ends) -> io::Result<Vec<u8>> {
    let mut answer = Vec::new();
    loop {
        let before = answer.len();
        output.read_until(b'\n', &mut answer)?;
        let line = &answer[before..];
        if ends == Ends::Line || line == b"\n" || line.is_empty() {
            return Ok(answer);
        }
    }
}

fn show(number: usize, sent: &Sent, answer: &[u8]) {
    let length = sent.bytes.len();
    let front = hex(&sent.bytes[..length.min(4096)]);
    println!("frame {number} ({}), {length} bytes: {front}", sent.counted);
    println!("wanted:\n{}", String::from_utf8_lossy(&sent.answer));
    println!("printed:\n{}", String::from_utf8_lossy(answer));
}

#[cfg(test)]
mod tests {
    use super::*;

    fn line(text: &str) -> Sent {
        Sent {
            bytes: format!("{text}\n").into(),
            answer: format!("{text}\n").into(),
            counted: "line".into(),
        }
    }

    fn held(right: &[&str], printed: &str, ends: Ends) -> usize {
        let frames = right.iter().map(|text| line(text));
        compare(printed.as_bytes(), ends, frames).unwrap().different
    }

    #[test]
    fn a_difference_is_counted_where_it_stands() {
        assert_eq!(held(&["a", "b"], "a\nb\n", Ends::Line), 0);
        assert_eq!(held(&["a", "b", "c"], "a\nx\nc\n", Ends::Line), 1);
        assert_eq!(held(&["a", "b"], "a\n", Ends::Line), 1);
        assert_eq!(held(&["a"], "a\nb\n", Ends::Line), 1);
        assert_eq!(
            held(&["a\n", "b\nc\n"], "a\n\nb\nc\n\n", Ends::EmptyLine),
            0
        );
        // a line too many in the first answer, and the second is met again
        assert_eq!(held(&["a\n", "b\n"], "a\nx\n\nb\n\n", Ends::EmptyLine), 1);
    }
}

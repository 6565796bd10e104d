//! The program poolbatch: lines, statuses and messages.

mod common;

use common::*;
use rotblossom::LONGEST_JOB;
use std::fs::File;
use std::io::Write;
use std::process::{Command, Output, Stdio};
use std::thread;

const PROGRAM: &str = env!("CARGO_BIN_EXE_poolbatch");

const CASE_B_LINE: &str =
    "built answers 1 1 new pool 9 000307000201000141 bootstraps 0 0 - name 0 class 1 41 visits 4\n";

fn framed(job: &[u8]) -> Vec<u8> {
    let length = u32::try_from(job.len()).expect("a length of four bytes");
    [&length.to_be_bytes(), job].concat()
}

/// Runs a command on a stream.
fn run(mut command: Command, stream: Vec<u8>) -> Output {
    let mut child = command
        .stdin(Stdio::piped())
        .stderr(Stdio::piped())
        .spawn()
        .expect("it starts");
    let mut input = child.stdin.take().expect("an input");
    // A program that ends early doesn't read all.
    let writer = thread::spawn(move || input.write_all(&stream).is_ok());
    let output = child.wait_with_output().expect("it ends");
    writer.join().expect("the stream was offered");
    output
}

fn poolbatch(stream: Vec<u8>) -> Output {
    let mut command = Command::new(PROGRAM);
    command.stdout(Stdio::piped());
    run(command, stream)
}

/// Runs the program as the shell starts it by words that end in `exec "$0"`, and redirections.
fn by_shell(words: &str, stream: Vec<u8>) -> Output {
    let mut command = Command::new("sh");
    command.args(["-c", words, PROGRAM]);
    command.stdout(Stdio::piped());
    run(command, stream)
}

#[track_caller]
fn assert_ends(output: Output, status: i32, lines: &str, message: &str) {
    let text = |bytes| String::from_utf8(bytes).expect("text");
    assert_eq!(text(output.stdout), lines);
    let said = text(output.stderr);
    assert!(said.starts_with(message), "{said}");
    assert_eq!(said.is_empty(), message.is_empty(), "{said}");
    assert_eq!(output.status.code(), Some(status));
}

/// Takes so many bytes off the front.
fn take<'a>(rest: &mut &'a [u8], n: usize) -> &'a [u8] {
    let (front, behind) = rest.split_at(n);
    *rest = behind;
    front
}

fn number(bytes: &[u8], at: usize) -> u16 {
    u16::from_be_bytes([bytes[at], bytes[at + 1]])
}

/// A part of a job: a pattern so many times, two numbers of which grow.
fn unpacked_part(rest: &mut &[u8]) -> Vec<u8> {
    let head = take(rest, 12);
    let times = u32::from(number(head, 0)) << 16 | u32::from(number(head, 2));
    let mut pattern = take(rest, number(head, 4).into()).to_vec();
    let mut part = Vec::new();
    for _ in 0..times {
        part.extend_from_slice(&pattern);
        for place in [number(head, 6), number(head, 8)].map(usize::from) {
            if place != 65_535 {
                let grown = number(&pattern, place).wrapping_add(number(head, 10));
                pattern[place..place + 2].copy_from_slice(&grown.to_be_bytes());
            }
        }
    }
    part
}

/// The jobs that crates/replay stores, packed as its src/packed.rt says.
fn stored_jobs() -> Vec<Vec<u8>> {
    let mut rest = &include_bytes!("../../../crates/replay/stdin")[..];
    let mut jobs = Vec::new();
    while !rest.is_empty() {
        let parts = take(&mut rest, 25)[0];
        jobs.push((0..parts).flat_map(|_| unpacked_part(&mut rest)).collect());
    }
    jobs
}

/// The lines are oracle/'s driver's, but for 2 and 18, which tell of memory that is short there.
#[test]
fn stored_jobs_have_the_drivers_lines() {
    let stored = include_str!("../../../crates/replay/stdout").lines();
    let told_of_memory =
        |line: &&str| line.starts_with("refused 2 ") || line.starts_with("refused 18 ");
    let jobs = stored_jobs();
    assert_eq!(stored.clone().count(), jobs.len());
    let (stream, lines): (Vec<Vec<u8>>, Vec<&str>) = jobs
        .iter()
        .zip(stored)
        .filter(|(_, line)| !told_of_memory(line))
        .map(|(job, line)| (framed(job), line))
        .unzip();
    assert!(lines.len() > 4_000);
    let expected = lines.join("\n") + "\n";
    assert_ends(poolbatch(stream.concat()), 0, &expected, "");
}

#[test]
fn no_job_is_no_line() {
    assert_ends(poolbatch(vec![]), 0, "", "");
}

#[test]
fn a_frame_that_is_too_long_is_refused_and_skipped() {
    let mut stream = framed(&vec![0x50; LONGEST_JOB + 1]);
    stream.extend(framed(&bytes(CASE_B)));
    let lines = format!("refused 1 0\n{CASE_B_LINE}");
    assert_ends(poolbatch(stream), 0, &lines, "");
}

/// Sixteen texts, of which the first is asked for. It must be lent 25 MB.
#[test]
fn the_longest_job_runs_on_a_stack_of_256_kb() {
    let mut job: Vec<u8> = (0..15).flat_map(|i| long_text(65_535, b'a' + i)).collect();
    job.extend(long_text(65_493, b'z'));
    job.extend(bytes("50 51 01 0000 60 02 00 0000"));
    assert_eq!(job.len(), LONGEST_JOB);
    let output = by_shell("ulimit -s 256 && exec \"$0\"", framed(&job));
    let text = "61".repeat(65_535);
    let lines = format!(
        "built answers 1 1 new pool 65540 000201ffff{text} bootstraps 0 0 - name 0 class none visits 2\n"
    );
    assert_ends(output, 0, &lines, "");
}

/// Cut inside the second frame's length, inside its job, and inside one that is skipped.
#[test]
fn a_cut_frame_has_a_status_and_a_message() {
    let first = framed(&bytes(CASE_B));
    let too_long = framed(&vec![0; LONGEST_JOB + 1]);
    for cut in [&first[..3], &first[..first.len() - 1], &too_long[..9]] {
        let stream = [&first, cut].concat();
        let message = "poolbatch: cut frame behind 1 jobs";
        assert_ends(poolbatch(stream), 1, CASE_B_LINE, message);
    }
}

#[test]
fn an_output_that_cannot_be_written_has_a_status_and_a_message() {
    let full = File::options().write(true).open("/dev/full");
    let mut command = Command::new(PROGRAM);
    command.stdout(full.expect("a device that is full"));
    let output = run(command, framed(&bytes(CASE_B)));
    assert_ends(output, 2, "", "poolbatch: output failed behind 0 jobs");
}

/// Closed, open for reading only, and open for both, which can't be told from closed; then one that takes everything.
#[test]
fn an_output_that_is_closed_cannot_be_written() {
    for output in [">&-", "1< /dev/null", "1<> /dev/null"] {
        let output = by_shell(&format!("exec \"$0\" {output}"), framed(&bytes(CASE_B)));
        assert_ends(output, 2, "", "poolbatch: output failed behind 0 jobs");
    }
    let output = by_shell("exec \"$0\" > /dev/null", framed(&bytes(CASE_B)));
    assert_ends(output, 0, "", "");
}

/// Closed, open for writing only, a directory, and open for both; then an empty one.
#[test]
fn an_input_that_is_closed_cannot_be_read() {
    for input in ["<&-", "0> /dev/null", "< /", "<> /dev/null"] {
        let output = by_shell(&format!("exec \"$0\" {input}"), vec![]);
        assert_ends(output, 1, "", "poolbatch: cut frame behind 0 jobs");
    }
    assert_ends(by_shell("exec \"$0\" < /dev/null", vec![]), 0, "", "");
}

/// A text at 4,000 slots is a pool of 262 MB; the job behind it isn't run.
#[test]
fn a_job_whose_memory_cannot_be_had_has_a_status_and_a_message() {
    let mut job = long_text(65_535, b'x');
    job.extend(raw_definitions(0x43, 1..=4_000));
    job.extend(bytes("50 60 02 00 0000"));
    let first = framed(&bytes(CASE_B));
    let stream = [&first[..], &framed(&job), &first].concat();
    let output = by_shell("ulimit -v 200000 && exec \"$0\"", stream);
    assert_ends(output, 3, CASE_B_LINE, "poolbatch: no memory behind 1 jobs");
}

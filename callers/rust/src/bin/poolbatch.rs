//! Reads framed jobs (four-byte big-endian length, bytes) from standard input and prints a line for each, as oracle/'s driver does:
//! `refused CODE PLACE`, or what was built. A frame longer than any job is `refused 1 0`, and its bytes are skipped. Each line is
//! written out before the next frame is read.
//!
//! All memory is the heap's: any job runs on any stack, and its whole results are printed. The status is 0 if the whole stream was run
//! and written, 1 if it ends inside a frame or can't be read, 2 if a line can't be written, 3 if a job's memory can't be had; a message
//! says so.

use rotblossom::{LONGEST_JOB, Refusal, Unbuilt, try_build};
use std::collections::TryReserveError;
use std::fmt::Display;
use std::fs::{self, File};
use std::io::{self, BufReader, BufWriter, Read, Write};
use std::os::fd::{AsFd, AsRawFd, RawFd};
use std::path::Path;
use std::process::ExitCode;

/// How a stream ends that isn't run to its end.
enum Cut {
    Input(io::Error),
    Output(io::Error),
    Memory(TryReserveError),
}

fn main() -> ExitCode {
    let mut jobs = 0;
    let (message, status) = match run(&mut jobs) {
        Ok(()) => return ExitCode::SUCCESS,
        Err(Cut::Input(error)) => (format!("cut frame behind {jobs} jobs: {error}"), 1),
        Err(Cut::Output(error)) => (format!("output failed behind {jobs} jobs: {error}"), 2),
        Err(Cut::Memory(error)) => (format!("no memory behind {jobs} jobs: {error}"), 3),
    };
    // Where nobody takes the message the status still tells.
    let _ = writeln!(io::stderr(), "poolbatch: {message}");
    ExitCode::from(status)
}

fn run(jobs: &mut usize) -> Result<(), Cut> {
    let output = opened(io::stdout()).map_err(Cut::Output)?;
    let input = opened(io::stdin()).map_err(Cut::Input)?;
    run_stream(
        &mut BufReader::new(input),
        &mut BufWriter::new(output),
        jobs,
    )
}

/// A standard stream as a file: std's own handles pass over the failure of one that isn't open for what is asked.
fn opened(stream: impl AsFd + AsRawFd) -> io::Result<File> {
    if was_closed(stream.as_raw_fd()) {
        return Err(io::Error::other("it is closed"));
    }
    Ok(File::from(stream.as_fd().try_clone_to_owned()?))
}

/// Where a standard stream is closed std opens /dev/null at start, for reading and writing. Others open it for one of them, as a shell
/// does by `< /dev/null` and `> /dev/null`; who opens it for both (`<>`) has it taken for closed. Without /proc it can't be told.
fn was_closed(number: RawFd) -> bool {
    let path = fs::read_link(format!("/proc/self/fd/{number}"));
    let told = fs::read_to_string(format!("/proc/self/fdinfo/{number}"));
    path.is_ok_and(|path| path == Path::new("/dev/null"))
        && told.is_ok_and(|told| is_read_and_write(&told))
}

/// Linux tells the flags of a stream in octal; their last two bits are 2 where it is open for reading and writing.
fn is_read_and_write(told: &str) -> bool {
    let flags = told.lines().find_map(|line| line.strip_prefix("flags:"));
    let flags = flags.and_then(|flags| u32::from_str_radix(flags.trim(), 8).ok());
    flags.is_some_and(|flags| flags & 3 == 2)
}

/// Jobs in turn, counted.
fn run_stream(input: &mut impl Read, output: &mut impl Write, jobs: &mut usize) -> Result<(), Cut> {
    while let Some(length) = next_length(input).map_err(Cut::Input)? {
        answer(input, length, output)?;
        *jobs += 1;
    }
    Ok(())
}

/// The next frame's length, if there is a frame.
fn next_length(input: &mut impl Read) -> io::Result<Option<usize>> {
    let mut head = Vec::new();
    input.take(4).read_to_end(&mut head)?;
    match head[..] {
        [] => Ok(None),
        [a, b, c, d] => Ok(Some(u32::from_be_bytes([a, b, c, d]) as usize)),
        _ => Err(io::ErrorKind::UnexpectedEof.into()),
    }
}

/// Writes the line of the job that the next bytes are.
fn answer(input: &mut impl Read, length: usize, output: &mut impl Write) -> Result<(), Cut> {
    if length > LONGEST_JOB {
        skip(input, length as u64).map_err(Cut::Input)?;
        return write_line(output, Refusal { code: 1, place: 0 });
    }
    let mut job = Vec::new();
    job.try_reserve_exact(length).map_err(Cut::Memory)?;
    job.resize(length, 0);
    input.read_exact(&mut job).map_err(Cut::Input)?;
    match try_build(&job) {
        Ok(built) => write_line(output, built),
        Err(Unbuilt::Refused(refusal)) => write_line(output, refusal),
        Err(Unbuilt::NoMemory(error)) => Err(Cut::Memory(error)),
    }
}

/// Nothing of a line waits: what ends the program behind it can't take it away.
fn write_line(output: &mut impl Write, line: impl Display) -> Result<(), Cut> {
    let written = writeln!(output, "{line}").and_then(|()| output.flush());
    written.map_err(Cut::Output)
}

fn skip(input: &mut impl Read, length: u64) -> io::Result<()> {
    match io::copy(&mut input.take(length), &mut io::sink())? {
        skipped if skipped == length => Ok(()),
        _ => Err(io::ErrorKind::UnexpectedEof.into()),
    }
}

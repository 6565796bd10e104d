//! compare_blocks SEED COUNT: makes so many block files and holds the proved functions of crates/blocks, called through their static
//! library, to the independent reader and writer of blockfiles: number, place, length and every byte of the output lent.

mod proved;

use blockfiles::made::{Made, next};
use blockfiles::{Refused, read, write};
use jobs::random::Random;
use proved::{Answer, blocks_read, blocks_write, call};
use std::collections::BTreeMap;
use std::process::ExitCode;

/// What a call must answer, and what its output, of so many bytes that were all `before`, must hold.
fn wanted(result: &Result<Vec<u8>, Refused>, room: usize, before: u8) -> (Answer, Vec<u8>) {
    let mut out = vec![before; room];
    match result {
        Ok(bytes) => {
            out[..bytes.len()].copy_from_slice(bytes);
            ((0, 0, bytes.len()), out)
        }
        Err(refused) => ((refused.number, refused.place, 0), out),
    }
}

/// Room for so many bytes: just enough, one too little, none, or more.
fn room_for(random: &mut Random, size: usize) -> usize {
    match random.below(8) {
        0 => size.saturating_sub(1),
        1 => 0,
        2 => size + 1 + random.below(600),
        _ => size,
    }
}

/// Counts of files by what was done to them and by the answer, and of calls that differ.
#[derive(Default)]
struct Tally {
    read: BTreeMap<(&'static str, u32), usize>,
    written: BTreeMap<u32, usize>,
    different: usize,
}

fn compare(random: &mut Random, made: &Made, tally: &mut Tally) {
    let before = random.byte();
    let room = room_for(random, made.job.len());
    let (answer, bytes) = wanted(&read(&made.file, room), room, before);
    let mut out = vec![before; room];
    if call(blocks_read, &made.file, &mut out) != answer || out != bytes {
        println!(
            "read differs: {}, file of {} into {room}",
            made.kind,
            made.file.len()
        );
        tally.different += 1;
    }
    *tally.read.entry((made.kind, answer.0)).or_default() += 1;

    let room = room_for(random, blockfiles::blocks_of(&made.job).len());
    let (answer, bytes) = wanted(&write(&made.job, room), room, before);
    let mut out = vec![before; room];
    if call(blocks_write, &made.job, &mut out) != answer || out != bytes {
        println!("write differs: job of {} into {room}", made.job.len());
        tally.different += 1;
    }
    *tally.written.entry(answer.0).or_default() += 1;
}

fn report(seed: u64, count: usize, tally: &Tally) {
    for ((kind, number), files) in &tally.read {
        println!("read {kind}: {number}: {files}");
    }
    for (number, jobs) in &tally.written {
        println!("written: {number}: {jobs}");
    }
    println!(
        "seed {seed}: {count} files read and {count} jobs written, {} differ",
        tally.different
    );
}

fn main() -> ExitCode {
    let arguments: Vec<String> = std::env::args().skip(1).collect();
    let numbers: Vec<u64> = arguments.iter().filter_map(|a| a.parse().ok()).collect();
    let [seed, count] = numbers[..] else {
        eprintln!("compare_blocks SEED COUNT");
        return ExitCode::from(2);
    };
    let mut random = Random::new(seed);
    let mut tally = Tally::default();
    for _ in 0..count {
        let made = next(&mut random);
        compare(&mut random, &made, &mut tally);
    }
    report(seed, count as usize, &tally);
    if tally.different == 0 {
        ExitCode::SUCCESS
    } else {
        ExitCode::FAILURE
    }
}

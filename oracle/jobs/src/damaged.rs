//! Damaged copies of small jobs, and byte strings that never were jobs.

use crate::random::Random;
use crate::record::{ClassSlot, Record, Reference, encode};
use crate::small::small_job;

/// Bytes that mean something at the start of a record or of a reference.
const KNOWN: &[u8] = &[
    0, 1, 2, 3, 4, 5, 6, 7, 8, 9, 10, 11, 12, 15, 16, 17, 18, 19, 20, 0x40, 0x41, 0x42, 0x43, 0x44,
    0x50, 0x51, 0x52, 0x60, 0, 0, 1, 1, 2, 0x50, 0x60, 0x60,
];

/// Kinds next to the known ones.
const UNKNOWN_KINDS: &[u8] = &[
    0, 2, 13, 14, 21, 0x3f, 0x45, 0x46, 0x47, 0x48, 0x49, 0x4f, 0x53, 0x5f, 0x61, 0xff,
];

pub fn damaged_job(random: &mut Random) -> Vec<u8> {
    match random.below(20) {
        0 => {
            let length = random.below(24);
            random.bytes(length)
        }
        1 | 2 => known_bytes(random),
        _ => {
            let records = small_job(random);
            damaged_copy(records, random)
        }
    }
}

fn known_bytes(random: &mut Random) -> Vec<u8> {
    (0..random.below(48)).map(|_| *random.pick(KNOWN)).collect()
}

/// The job with something wrong in its records or its bytes.
pub fn damaged_copy(mut records: Vec<Record>, random: &mut Random) -> Vec<u8> {
    let on_records = random.chance(3, 5);
    if on_records {
        damage_records(&mut records, random);
    }
    let mut job = encode(&records);
    if !on_records || random.chance(1, 8) {
        damage_bytes(&mut job, &records, random);
    }
    job
}

fn damage_records(records: &mut Vec<Record>, random: &mut Random) {
    let at = random.below(records.len());
    let other = random.below(records.len());
    match random.below(7) {
        0 => records.swap(at, other),
        1 => records.insert(other, records[at].clone()),
        2 => _ = records.remove(at),
        3 => records.truncate(at),
        4 => {
            let moved = records.remove(at);
            records.insert(other.min(records.len()), moved);
        }
        _ => shift_number(records, random),
    }
}

/// Moves one entry or request number up or down by one.
pub fn shift_number(records: &mut [Record], random: &mut Random) {
    let mut numbers: Vec<&mut u16> = records.iter_mut().flat_map(cited_numbers).collect();
    if !numbers.is_empty() {
        let chosen = random.below(numbers.len());
        let number = &mut *numbers[chosen];
        *number = match random.chance(3, 4) {
            true => number.wrapping_add(1),
            false => number.wrapping_sub(1),
        };
    }
}

fn cited_numbers(record: &mut Record) -> Vec<&mut u16> {
    let references: Vec<&mut Reference> = match record {
        Record::Constant(c) => c.references.iter_mut().collect(),
        Record::Bootstrap { handle, arguments } => {
            std::iter::once(handle).chain(arguments).collect()
        }
        Record::NameConstant(_, r)
        | Record::NameBootstrap(_, r)
        | Record::Ask(r)
        | Record::AskLdc(r) => vec![r],
        Record::RawConstant { entry, .. } | Record::RawBootstrap { entry, .. } => {
            return vec![entry];
        }
        Record::Build {
            class: ClassSlot::Request(request),
            ..
        } => return vec![request],
        Record::Expression(_) => vec![],
        Record::Version(_) | Record::HoldTexts | Record::HighestSlot(_) => vec![],
        Record::Build { .. } | Record::EndOfDefinitions => vec![],
    };
    let number = |reference| match reference {
        &mut Reference::Entry(ref mut number) => Some(number),
        _ => None,
    };
    references.into_iter().filter_map(number).collect()
}

/// Damages the job's bytes; `records` are those it was made from, to find kinds and forms.
fn damage_bytes(job: &mut Vec<u8>, records: &[Record], random: &mut Random) {
    if job.is_empty() {
        job.push(random.byte());
        return;
    }
    let at = random.below(job.len());
    match random.below(10) {
        0 => job[at] ^= 1 << random.below(8),
        1 => job[at] = *random.pick(KNOWN),
        2 => job.truncate(at),
        3 => job.insert(at, *random.pick(KNOWN)),
        4 => _ = job.remove(at),
        5 => {
            let length = 1 + random.below(4);
            job.extend(random.bytes(length));
        }
        6 | 7 => replace_kind(job, records, random),
        _ => replace_form(job, records, random),
    }
}

fn replace_kind(job: &mut [u8], records: &[Record], random: &mut Random) {
    let starts = record_starts(records);
    let start = starts[random.below(records.len())];
    job[start] = match random.chance(1, 2) {
        true => *random.pick(UNKNOWN_KINDS),
        false => *random.pick(KNOWN),
    };
}

/// Puts 3 or more where a reference or the class slot says its form, or build its name byte.
fn replace_form(job: &mut [u8], records: &[Record], random: &mut Random) {
    let starts = record_starts(records);
    let mut forms = vec![];
    for (record, start) in records.iter().zip(starts) {
        forms.extend(
            form_offsets(record)
                .into_iter()
                .map(|offset| start + offset),
        );
    }
    if !forms.is_empty() {
        let form = *random.pick(&forms);
        job[form] = *random.pick(&[3, 3, 4, 255, 2, 1]);
    }
}

fn record_starts(records: &[Record]) -> Vec<usize> {
    let mut starts = vec![];
    let mut end = 0;
    for record in records {
        starts.push(end);
        end += encode(std::slice::from_ref(record)).len();
    }
    starts
}

/// Where a record's form bytes stand. A list of references cut before one of them gives a record as
/// long as that one's offset.
fn form_offsets(record: &Record) -> Vec<usize> {
    let length = |r: Record| encode(&[r]).len();
    match record {
        Record::Constant(c) => (0..c.references.len())
            .map(|i| {
                let mut cut = c.clone();
                cut.references.truncate(i);
                length(Record::Constant(cut))
            })
            .collect(),
        Record::Bootstrap { handle, arguments } => {
            let cut = |i| Record::Bootstrap {
                handle: handle.clone(),
                arguments: arguments[..i].to_vec(),
            };
            std::iter::once(1)
                .chain((0..arguments.len()).map(|i| length(cut(i))))
                .collect()
        }
        Record::NameConstant(name, _) | Record::NameBootstrap(name, _) => vec![2 + name.len()],
        Record::Ask(_) | Record::AskLdc(_) => vec![1],
        Record::Build { .. } => vec![1, 2],
        Record::RawConstant { .. } | Record::RawBootstrap { .. } => vec![],
        Record::Expression(_) => vec![],
        Record::Version(_) | Record::HoldTexts | Record::HighestSlot(_) => vec![],
        Record::EndOfDefinitions => vec![],
    }
}

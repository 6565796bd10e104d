//! Jobs with record 46 (document 02, No. 3): constants given as expressions, among the other records; damaged copies and pairs of them.

mod expressions;

use crate::damaged::damaged_copy;
use crate::lowest::lowest_job;
use crate::make::*;
use crate::pairs::{Pair, literal_pair, settings_pair};
use crate::random::Random;
use crate::record::{Constant, Record, Reference, encode};
use crate::settings::{constants, define_last, request, settings_job};
use crate::small::{ldc_full_job, small_job};
use expressions::{KINDS, commuted, faulty, giving, some_expression};

/// A job of another kind in which numbers are given as expressions of the same value, with more expressions behind its definitions. One
/// in five has an expression that is refused.
pub fn worked_job(random: &mut Random) -> Vec<Record> {
    let mut records = match random.below(24) {
        0..12 => small_job(random),
        12..21 => settings_job(random),
        21 | 22 => lowest_job(random),
        _ => ldc_full_job(random),
    };
    let places = numbers(&records);
    give_as_expressions(&mut records, &places, random);
    for _ in 0..1 + random.below(3) {
        add_expression(&mut records, random);
    }
    if random.chance(1, 5) {
        let bad = Record::Expression(faulty(random));
        let places = expressions_in(&records);
        records[*random.pick(&places)] = bad;
    }
    records
}

/// Two jobs with equal settings, alike but for their literals, which at the same records are given as expressions.
pub fn worked_pair(random: &mut Random) -> Pair {
    let (mut first, mut second) = match random.chance(1, 2) {
        true => literal_pair(random),
        false => settings_pair(random),
    };
    let mut places = numbers(&first);
    places.retain(|_| random.chance(2, 3));
    for records in [&mut first, &mut second] {
        for place in &places {
            give_as_expression(&mut records[*place], random);
        }
    }
    (first, second)
}

/// The places of the numbers among the definitions.
fn numbers(records: &[Record]) -> Vec<usize> {
    let is_number =
        |record: &Record| matches!(record, Record::Constant(c) if KINDS.contains(&c.tag));
    let all = records.iter().enumerate();
    all.filter(|(_, record)| is_number(record))
        .map(|(place, _)| place)
        .collect()
}

fn give_as_expressions(records: &mut [Record], places: &[usize], random: &mut Random) {
    let all = random.chance(1, 4);
    for place in places {
        if all || random.chance(1, 2) {
            give_as_expression(&mut records[*place], random);
        }
    }
}

fn give_as_expression(record: &mut Record, random: &mut Random) {
    if let Record::Constant(Constant { tag, literal, .. }) = record {
        *record = Record::Expression(giving(*tag, literal, random));
    }
}

fn expressions_in(records: &[Record]) -> Vec<usize> {
    let all = records.iter().enumerate();
    all.filter(|(_, record)| matches!(record, Record::Expression(_)))
        .map(|(place, _)| place)
        .collect()
}

/// An expression that is asked for, raw, a child or unused, often with one or a plain constant of the same value.
fn add_expression(records: &mut Vec<Record>, random: &mut Random) {
    let kind = *random.pick(KINDS);
    let (expression, value) = some_expression(kind, random);
    let entry = constants(records);
    define_last(records, Record::Expression(expression.clone()));
    match random.below(8) {
        0..3 => request(records, entry, random),
        3 => define_last(records, raw(1 + random.below(9) as u16, entry)),
        4 => {
            define_last(records, class(Reference::Entry(entry)));
            request(records, entry + 1, random);
        }
        5 | 6 => {
            let twin = match value {
                Some(value) if random.chance(2, 3) => constant(kind, &value, vec![]),
                _ => Record::Expression(commuted(&expression)),
            };
            define_last(records, twin);
            request(records, entry, random);
            request(records, entry + 1, random);
        }
        _ => {}
    }
}

/// Bytes at which an expression may be told from another.
const KNOWN: &[u8] = &[
    0, 0, 1, 2, 3, 3, 4, 5, 6, 7, 0x29, 0x2a, 0x2b, 0x2b, 0x2c, 0x2d, 0x2e, 0x2f, 0x2f, 0x30, 0x46,
    0x46, 0x48, 0x50, 0x60, 0x80, 0xff,
];

pub fn damaged_worked_job(random: &mut Random) -> Vec<u8> {
    if random.chance(1, 16) {
        let length = random.below(24);
        let mut bytes: Vec<u8> = (0..length).map(|_| *random.pick(KNOWN)).collect();
        if random.chance(1, 2) {
            bytes.insert(0, 0x46);
        }
        return bytes;
    }
    let mut records = worked_job(random);
    if random.chance(1, 4) {
        return damaged_copy(records, random);
    }
    damage_expression(&mut records, random);
    let mut job = encode(&records);
    match random.below(8) {
        0 => damaged_copy(records, random),
        1 => {
            job.truncate(random.below(job.len() + 1));
            job
        }
        2 => {
            let at = random.below(job.len());
            job[at] = *random.pick(KNOWN);
            job
        }
        _ => job,
    }
}

/// Something wrong with an expression, or with where it stands.
fn damage_expression(records: &mut Vec<Record>, random: &mut Random) {
    let places = expressions_in(records);
    let place = *random.pick(&places);
    let Record::Expression(bytes) = &mut records[place] else {
        unreachable!("an expression stands there");
    };
    let at = random.below(bytes.len());
    match random.below(10) {
        0..3 => bytes[at] = *random.pick(KNOWN),
        3 => bytes[0] = *random.pick(KNOWN),
        4 => bytes.insert(at, *random.pick(KNOWN)),
        5 => _ = bytes.remove(at),
        6 => bytes.truncate(at),
        7 => {
            // The job ends inside the expression, sometimes at a byte that is bad.
            bytes.truncate(at);
            if random.chance(1, 3) {
                bytes.push(*random.pick(KNOWN));
            }
            records.truncate(place + 1);
        }
        8 => {
            let moved = records.remove(place);
            records.insert(random.below(records.len() + 1), moved);
        }
        _ => {
            let twice = records[place].clone();
            records.insert(random.below(records.len() + 1), twice);
        }
    }
}

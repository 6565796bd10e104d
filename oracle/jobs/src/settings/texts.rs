//! Texts that JVMS 4.4.7 allows, and others.

use super::{define_last, request};
use crate::make::*;
use crate::random::Random;
use crate::record::{Constant, Record};

/// All forms at their ends, overlong ones, and surrogates, alone and in pairs.
const GOOD: &[&[u8]] = &[
    b"",
    b"A",
    b"foo",
    b"\x01",
    b"\x7f",
    b"\xc0\x80",
    b"\xc1\xbf",
    b"\xc3\xa9",
    b"\xdf\xbf",
    b"\xe0\x80\x80",
    b"\xe2\x82\xac",
    b"\xed\xa0\x80",
    b"\xed\xa0\x81\xed\xb0\x80",
    b"\xef\xbf\xbf",
    b"A\xc0\x80B\xe2\x82\xacC",
];

/// Zeros, bytes that are in no form, and forms that are cut or go on wrong.
const BAD: &[&[u8]] = &[
    b"\0",
    b"B\0",
    b"\x80",
    b"\xbf",
    b"A\x80",
    b"\xc0",
    b"A\xc3",
    b"\xc0\0",
    b"\xc0A",
    b"\xc0\x7f",
    b"\xc0\xc0\x80",
    b"\xdf\xbf\x80",
    b"\xe0",
    b"\xe0\x80",
    b"\xe0\x80A",
    b"\xe0A\x80",
    b"\xe0\xc0\x80",
    b"\xef\xbf\xbf\xbf",
    b"\xed\xa0",
    b"\xf0",
    b"\xf0\x80",
    b"\xf0\x80\x80",
    b"\xff\xbf\xbf",
    b"\xf0\x9f\x98\x80",
    b"\xf8\x80\x80\x80\x80",
    b"\xfe",
    b"A\xff",
    b"\xc3\xa9\0",
];

/// At the ends of what a byte may be in each place.
const BYTES: &[u8] = &[
    0, 1, 0x41, 0x7f, 0x80, 0x80, 0xbf, 0xbf, 0xc0, 0xdf, 0xe0, 0xef, 0xf0, 0xff,
];

pub fn bad(random: &mut Random) -> Vec<u8> {
    random.pick(BAD).to_vec()
}

fn good(random: &mut Random) -> Vec<u8> {
    random.pick(GOOD).to_vec()
}

/// Good, bad, or some bytes.
fn any(random: &mut Random) -> Vec<u8> {
    match random.below(3) {
        0 => good(random),
        1 => bad(random),
        _ => {
            let length = 1 + random.below(5);
            (0..length).map(|_| *random.pick(BYTES)).collect()
        }
    }
}

/// Puts other texts into the job. Where they are held, most jobs get good ones alone.
pub fn change(records: &mut Vec<Record>, held: bool, random: &mut Random) {
    if random.chance(1, 2) {
        let entry = super::constants(records);
        define_last(records, text(b"A"));
        if random.chance(1, 2) {
            request(records, entry, random);
        }
    }
    let all_good = held && random.chance(3, 4);
    for literal in records.iter_mut().filter_map(text_of) {
        let is_plain = literal.iter().all(|byte| (1..0x80).contains(byte));
        if all_good && (!is_plain || random.chance(1, 4)) {
            *literal = good(random);
        } else if !all_good && random.chance(1, 3) {
            *literal = any(random);
        }
    }
}

fn text_of(record: &mut Record) -> Option<&mut Vec<u8>> {
    match record {
        Record::Constant(Constant {
            tag: TEXT, literal, ..
        }) => Some(literal),
        _ => None,
    }
}

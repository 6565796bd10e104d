//! Many visits, requests and bytes, and constants that simple hashes put in one place.

use super::{ask_for, entry, number};
use crate::make::*;
use crate::record::{Record, Reference, encode};

pub fn one_wide_bootstrap() -> Vec<u8> {
    let mut definitions: Vec<Record> = (0..1_000).map(int).collect();
    let arguments = (0..65_535).map(|i| entry(i % 1_000)).collect();
    definitions.push(bootstrap(entry(0), arguments));
    definitions.push(dynamic(entry(0), Reference::Raw(1)));
    encode(&job(definitions, vec![ask(1_000)], NAME_IF_PRESENT))
}

/// Two of the five are equal.
pub fn five_wide_bootstraps() -> Vec<u8> {
    let mut definitions = vec![int(0), int(1), int(2)];
    for i in 0..5 {
        let arguments = (0..65_535)
            .map(|k| entry(if k < i % 4 { 1 } else { 2 }))
            .collect();
        definitions.push(bootstrap(entry(0), arguments));
    }
    definitions.extend((0..5).map(|i| dynamic(entry(i), Reference::Raw(1))));
    encode(&job(
        definitions,
        (3..8).map(ask).collect(),
        NAME_IF_PRESENT,
    ))
}

/// Bootstraps of 65,535 arguments that differ in the order of the last two, and in the last.
pub fn alike_wide_bootstraps() -> Vec<u8> {
    let mut definitions = vec![int(0), int(1), int(2)];
    for last_two in [[1, 2], [2, 1], [1, 1]] {
        let mut arguments = vec![entry(0); 65_533];
        arguments.extend(last_two.map(entry));
        definitions.push(bootstrap(entry(0), arguments));
    }
    definitions.extend((0..3).map(|i| dynamic(entry(i), Reference::Raw(1))));
    encode(&job(
        definitions,
        (3..6).map(ask).collect(),
        NAME_IF_PRESENT,
    ))
}

pub fn dynamics_over_wide_bootstrap() -> Vec<u8> {
    let mut definitions = vec![int(0), bootstrap(entry(0), vec![entry(0); 20_000])];
    definitions.extend((0..1_000).map(|i| dynamic(entry(0), Reference::Raw(i))));
    encode(&job(
        definitions,
        (1..=1_000).map(ask).collect(),
        NAME_IF_PRESENT,
    ))
}

/// Requests are not limited in number.
pub fn many_asks() -> Vec<u8> {
    let definitions = vec![int(0), class(entry(0))];
    let request = |i: usize| match i % 3 {
        0 => ask(1),
        1 => ask_ldc(0),
        _ => ask_for(Reference::Raw(number(i % 65_536))),
    };
    encode(&job(
        definitions,
        (0..262_000).map(request).collect(),
        NAME_NEVER,
    ))
}

pub fn repeated_text() -> Vec<u8> {
    let mut definitions = vec![text(&[b'x'; 1_000])];
    definitions.extend((1..=5_000).map(|slot| raw(2 * slot, 0)));
    encode(&job(definitions, vec![ask(0)], NAME_ALWAYS))
}

fn ask_each(definitions: Vec<Record>) -> Vec<u8> {
    let requests = (0..definitions.len()).map(|i| ask(number(i))).collect();
    encode(&job(definitions, requests, NAME_NEVER))
}

/// Texts of 65,535 bytes that differ in the last, and one that lacks it.
pub fn alike_texts() -> Vec<u8> {
    let ends: [&[u8]; 3] = [b"x", b"y", b""];
    let texts = ends.map(|end| text(&[&[b't'; 65_534][..], end].concat()));
    ask_each(texts.to_vec())
}

pub fn equal_low_halves() -> Vec<u8> {
    ask_each((0..40_000).map(|i| int(i << 16)).collect())
}

/// Texts whose bytes have the same sum.
pub fn equal_sums() -> Vec<u8> {
    let bytes = |i: u16| {
        let [a, b] = i.to_be_bytes();
        [a, !a, b, !b]
    };
    ask_each((0..30_000).map(|i| text(&bytes(i))).collect())
}

/// One constant through 60,000 entries.
pub fn equal_ints() -> Vec<u8> {
    ask_each(vec![int(5); 60_000])
}

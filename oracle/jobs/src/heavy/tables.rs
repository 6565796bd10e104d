//! Length, and tables of 65,536 entries.

use super::{ask_for, entry, named, number};
use crate::JOB_LIMIT;
use crate::make::*;
use crate::record::{Record, Reference, encode};

const FULL: usize = 65_536;

/// Texts fill the job up to its last byte: 15 of the longest, then one for what is left.
fn job_of_length(length: usize) -> Vec<u8> {
    let whole = vec![b'x'; 65_535];
    let with_last = |last: usize| {
        let mut definitions = vec![text(&whole); 15];
        definitions.push(text(&vec![b'y'; last]));
        encode(&job(definitions, vec![ask(0), ask(15)], NAME_NEVER))
    };
    let rest = length - with_last(0).len();
    with_last(rest)
}

pub fn longest() -> Vec<u8> {
    job_of_length(JOB_LIMIT)
}

pub fn too_long() -> Vec<u8> {
    job_of_length(JOB_LIMIT + 1)
}

/// The length is judged before anything in the job.
pub fn too_long_unknown_kind() -> Vec<u8> {
    vec![0xff; JOB_LIMIT + 1]
}

/// Classes of raw numbers are the shortest constants.
fn classes(count: usize) -> Vec<Record> {
    (0..count)
        .map(|i| class(Reference::Raw(i as u16)))
        .collect()
}

fn small_bootstraps(count: usize) -> Vec<Record> {
    (0..count)
        .map(|i| bootstrap(Reference::Raw(i as u16), vec![]))
        .collect()
}

pub fn constants_full() -> Vec<u8> {
    encode(&job(
        classes(FULL),
        vec![ask(65_535), ask(0), ask(65_535)],
        NAME_ALWAYS,
    ))
}

/// Number 65,535 in every kind of record that can cite a constant.
pub fn last_constant_cited() -> Vec<u8> {
    let mut definitions = classes(FULL);
    definitions.extend([
        bootstrap(entry(FULL - 1), vec![entry(FULL - 2), entry(FULL - 1)]),
        name(b"last", entry(FULL - 1)),
        raw(9, number(FULL - 1)),
        raw_bootstrap(1, 0),
    ]);
    let requests = vec![
        ask_for(named(b"last")),
        ask_ldc(number(FULL - 1)),
        ask(number(FULL - 2)),
    ];
    encode(&job(definitions, requests, NAME_IF_PRESENT))
}

pub fn constants_over() -> Vec<u8> {
    encode(&job(classes(FULL + 1), vec![ask(0)], NAME_NEVER))
}

pub fn constant_over_cut() -> Vec<u8> {
    let mut cut = encode(&classes(FULL + 1));
    cut.pop();
    cut
}

/// 5 comes before 4 within a record.
pub fn constant_over_cites_missing() -> Vec<u8> {
    let mut definitions = classes(FULL);
    definitions.push(dynamic(entry(0), Reference::Raw(1)));
    encode(&job(definitions, vec![], NAME_NEVER))
}

pub fn bootstraps_full() -> Vec<u8> {
    let mut definitions = small_bootstraps(FULL);
    definitions.push(dynamic(entry(65_535), Reference::Raw(1)));
    definitions.push(raw_bootstrap(3, 65_535));
    encode(&job(definitions, vec![ask(0)], NAME_IF_PRESENT))
}

/// Number 65,535 in every kind of record that can cite a bootstrap.
pub fn last_bootstrap_cited() -> Vec<u8> {
    let mut definitions = small_bootstraps(FULL);
    definitions.extend([
        Record::NameBootstrap(b"last".to_vec(), entry(FULL - 1)),
        dynamic(named(b"last"), Reference::Raw(1)),
        dynamic(entry(FULL - 1), Reference::Raw(2)),
        raw_bootstrap(1, number(FULL - 1)),
    ]);
    encode(&job(definitions, vec![ask(0), ask(1)], NAME_IF_PRESENT))
}

pub fn bootstraps_over() -> Vec<u8> {
    encode(&job(small_bootstraps(FULL + 1), vec![], NAME_NEVER))
}

pub fn bootstrap_over_cites_missing() -> Vec<u8> {
    let mut definitions = small_bootstraps(FULL);
    definitions.push(bootstrap(entry(0), vec![]));
    encode(&job(definitions, vec![], NAME_NEVER))
}

/// As many requests as the length allows.
pub fn both_full() -> Vec<u8> {
    let mut definitions = small_bootstraps(FULL);
    definitions.extend((0..FULL).map(|i| dynamic(entry(i), Reference::Raw(1))));
    let requests = (0..49_000).map(|i| ask(number(FULL - 1 - i))).collect();
    encode(&job(definitions, requests, NAME_IF_PRESENT))
}

//! Full pools, and full low slots.

use super::number;
use crate::make::*;
use crate::record::{Record, Reference, encode};

const SLOTS: u16 = 65_534;

/// The entries that stand before the raw definitions of this module.
const RAW_INT: u16 = 0;
const OTHER_INT: u16 = 1;
const LONG_ENTRY: u16 = 2;

/// Three constants and then the first of them at each of these slots.
fn raw_ints(slots: impl Iterator<Item = u16>) -> Vec<Record> {
    let mut definitions = vec![int(1), int(2), long(3)];
    definitions.extend(slots.map(|slot| raw(slot, RAW_INT)));
    definitions
}

fn all_raw(requests: Vec<Record>, name: u8) -> Vec<u8> {
    encode(&job(raw_ints(1..=SLOTS), requests, name))
}

pub fn all_raw_unasked() -> Vec<u8> {
    all_raw(vec![Record::Ask(Reference::Raw(SLOTS))], NAME_IF_PRESENT)
}

pub fn all_raw_ask() -> Vec<u8> {
    all_raw(vec![ask(OTHER_INT)], NAME_NEVER)
}

pub fn all_raw_ldc() -> Vec<u8> {
    all_raw(vec![ask_ldc(RAW_INT)], NAME_NEVER)
}

pub fn all_raw_ask_wide() -> Vec<u8> {
    all_raw(vec![ask(LONG_ENTRY)], NAME_NEVER)
}

pub fn all_raw_ldc_wide() -> Vec<u8> {
    all_raw(vec![ask_ldc(LONG_ENTRY)], NAME_NEVER)
}

pub fn all_raw_name() -> Vec<u8> {
    all_raw(vec![], NAME_ALWAYS)
}

pub fn all_raw_longs() -> Vec<u8> {
    let mut definitions = vec![long(1)];
    definitions.extend((1..SLOTS).step_by(2).map(|slot| raw(slot, 0)));
    encode(&job(definitions, vec![], NAME_NEVER))
}

/// A raw Class whose inline text needs the only slot left.
fn one_left(class_count: u16) -> Vec<u8> {
    let mut definitions = vec![int(1), text(b"A"), text(b"B")];
    definitions.extend([class(Reference::Entry(1)), class(Reference::Entry(2))]);
    definitions.extend((1..=class_count).map(|i| raw(i, 2 + i)));
    definitions.extend((class_count + 1..SLOTS).map(|slot| raw(slot, 0)));
    encode(&job(definitions, vec![], NAME_NEVER))
}

pub fn one_left_for_child() -> Vec<u8> {
    one_left(1)
}

pub fn one_left_for_two() -> Vec<u8> {
    one_left(2)
}

fn ints_asked(count: usize, name: u8) -> Vec<u8> {
    let definitions = (0..count).map(|i| int(i as u32)).collect();
    encode(&job(
        definitions,
        (0..count).map(|i| ask(number(i))).collect(),
        name,
    ))
}

pub fn full_by_asks() -> Vec<u8> {
    ints_asked(65_534, NAME_IF_PRESENT)
}

pub fn over_by_asks() -> Vec<u8> {
    ints_asked(65_535, NAME_NEVER)
}

pub fn full_with_name() -> Vec<u8> {
    ints_asked(65_533, NAME_ALWAYS)
}

pub fn full_name_refused() -> Vec<u8> {
    ints_asked(65_534, NAME_ALWAYS)
}

/// Longs after an Int that is asked for first or not at all.
fn longs_asked(count: usize, int_first: bool) -> Vec<u8> {
    let mut definitions = vec![int(1)];
    definitions.extend((0..count).map(|i| long(i as u64)));
    let first = usize::from(!int_first);
    encode(&job(
        definitions,
        (first..=count).map(|i| ask(number(i))).collect(),
        NAME_NEVER,
    ))
}

pub fn longs_fill() -> Vec<u8> {
    longs_asked(32_767, false)
}

pub fn longs_over() -> Vec<u8> {
    longs_asked(32_768, false)
}

/// One slot is left, which is not enough.
pub fn longs_over_after_int() -> Vec<u8> {
    longs_asked(32_767, true)
}

/// Raw Ints at every third slot, and `count` other constants asked for.
fn gaps_asked(count: usize, make: fn(u32) -> Record) -> Vec<u8> {
    let mut definitions = raw_ints((3..=SLOTS).step_by(3));
    definitions.extend((0..count).map(|i| make(i as u32)));
    encode(&job(
        definitions,
        (0..count).map(|i| ask(number(3 + i))).collect(),
        NAME_NEVER,
    ))
}

fn other_int(i: u32) -> Record {
    int(1_000_000 + i)
}

/// 21,844 raw ones leave 43,690 slots.
pub fn gaps_filled() -> Vec<u8> {
    gaps_asked(43_690, other_int)
}

pub fn gaps_over() -> Vec<u8> {
    gaps_asked(43_691, other_int)
}

/// Gaps of two slots each: a Long takes one, two Ints the next.
pub fn gaps_mixed_filled() -> Vec<u8> {
    gaps_asked(32_767, |i| {
        if i % 3 == 0 {
            long(i as u64)
        } else {
            other_int(i)
        }
    })
}

/// Raw Ints at every even slot leave single slots only.
fn singles(more: &[Record], requests: Vec<Record>) -> Vec<u8> {
    let mut definitions = raw_ints((2..=SLOTS).step_by(2));
    definitions.extend_from_slice(more);
    encode(&job(definitions, requests, NAME_NEVER))
}

pub fn singles_filled() -> Vec<u8> {
    let more: Vec<Record> = (0..32_767).map(other_int).collect();
    singles(&more, (0..32_767).map(|i| ask(3 + i)).collect())
}

pub fn singles_wide() -> Vec<u8> {
    singles(&[], vec![ask(OTHER_INT), ask(LONG_ENTRY)])
}

pub fn singles_ldc_wide() -> Vec<u8> {
    singles(&[], vec![ask(OTHER_INT), ask_ldc(LONG_ENTRY)])
}

/// Slots 65533 and 65534 are the only neighbours that are free.
pub fn last_pair_wide() -> Vec<u8> {
    let definitions = raw_ints((2..=65_532).step_by(2));
    encode(&job(
        definitions,
        vec![ask(LONG_ENTRY), ask_ldc(OTHER_INT)],
        NAME_ALWAYS,
    ))
}

fn low_raw(request: Record) -> Vec<u8> {
    encode(&job(
        raw_ints(1..=255),
        vec![ask(OTHER_INT), request],
        NAME_NEVER,
    ))
}

pub fn low_raw_ldc_int() -> Vec<u8> {
    low_raw(ask_ldc(RAW_INT))
}

pub fn low_raw_ldc_long() -> Vec<u8> {
    low_raw(ask_ldc(LONG_ENTRY))
}

pub fn low_raw_ldc_raw_255() -> Vec<u8> {
    low_raw(Record::AskLdc(Reference::Raw(255)))
}

pub fn low_raw_ldc_raw_256() -> Vec<u8> {
    low_raw(Record::AskLdc(Reference::Raw(256)))
}

/// The constant has slot 256 already, so this is 16 and not 15.
pub fn low_raw_ldc_of_high() -> Vec<u8> {
    low_raw(ask_ldc(OTHER_INT))
}

/// Single slots are free below 255, the first two neighbours above.
pub fn low_singles_ldc_long() -> Vec<u8> {
    let definitions = raw_ints((2..=256).step_by(2));
    encode(&job(
        definitions,
        vec![ask_ldc(OTHER_INT), ask_ldc(LONG_ENTRY)],
        NAME_NEVER,
    ))
}

fn low_asked(ldc_count: usize) -> Vec<u8> {
    let definitions = (0..300).map(int).collect();
    let mut requests: Vec<Record> = (0..254).map(|i| ask(number(i))).collect();
    requests.extend((254..254 + ldc_count).map(|i| ask_ldc(number(i))));
    encode(&job(definitions, requests, NAME_ALWAYS))
}

pub fn ldc_takes_255() -> Vec<u8> {
    low_asked(1)
}

pub fn ldc_after_255() -> Vec<u8> {
    low_asked(2)
}

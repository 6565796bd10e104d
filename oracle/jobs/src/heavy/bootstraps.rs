//! Full bootstrap tables.

use super::{entry, number};
use crate::make::*;
use crate::record::{Record, Reference, encode};

/// Indexes 0 to 65534 can be used.
const INDEXES: u16 = 65_535;
const MIDDLE: u16 = 300;

fn handle_of_raw(number: u16) -> Record {
    bootstrap(Reference::Raw(number), vec![])
}

/// Bootstrap 0 raw at all indexes but one, and a Dynamic over each of the other bootstraps.
fn raw_but(free: Option<u16>, inline: &[Record]) -> Vec<u8> {
    let mut definitions = vec![handle_of_raw(1)];
    definitions.extend_from_slice(inline);
    definitions.extend((0..inline.len()).map(|i| dynamic(entry(1 + i), Reference::Raw(number(i)))));
    definitions.extend(
        (0..INDEXES)
            .filter(|i| Some(*i) != free)
            .map(|i| raw_bootstrap(i, 0)),
    );
    let requests = (0..inline.len()).map(|i| ask(number(i))).collect();
    encode(&job(definitions, requests, NAME_IF_PRESENT))
}

pub fn all_raw_only() -> Vec<u8> {
    raw_but(None, &[])
}

/// Equal to the raw one, which does not share its index.
pub fn all_raw_inline() -> Vec<u8> {
    raw_but(None, &[handle_of_raw(1)])
}

pub fn last_free_inline() -> Vec<u8> {
    raw_but(Some(INDEXES - 1), &[handle_of_raw(2)])
}

pub fn middle_free_inline() -> Vec<u8> {
    raw_but(Some(MIDDLE), &[handle_of_raw(2)])
}

pub fn middle_free_shared() -> Vec<u8> {
    raw_but(Some(MIDDLE), &[handle_of_raw(2), handle_of_raw(2)])
}

pub fn middle_free_two() -> Vec<u8> {
    raw_but(Some(MIDDLE), &[handle_of_raw(2), handle_of_raw(3)])
}

/// Bootstrap 0 raw at all indexes but one, and inline ones with the handle's slot: the Int, which gets slot 1 as it is asked
/// for first, then these raw numbers. Equal entries are one bootstrap, so only numbers can be equal.
fn raw_but_handles(free: u16, raw_handles: &[u16]) -> Vec<u8> {
    let mut definitions = vec![int(1), handle_of_raw(9), bootstrap(entry(0), vec![])];
    definitions.extend(raw_handles.iter().map(|number| handle_of_raw(*number)));
    let inline_count = 1 + raw_handles.len();
    definitions.extend((1..=inline_count).map(|i| dynamic(entry(i), Reference::Raw(1))));
    definitions.extend(
        (0..INDEXES)
            .filter(|index| *index != free)
            .map(|index| raw_bootstrap(index, 0)),
    );
    let requests = (0..=inline_count).map(|i| ask(number(i))).collect();
    encode(&job(definitions, requests, NAME_IF_PRESENT))
}

pub fn last_free_equal_numbers() -> Vec<u8> {
    raw_but_handles(INDEXES - 1, &[1])
}

pub fn middle_free_equal_numbers() -> Vec<u8> {
    raw_but_handles(MIDDLE, &[1])
}

pub fn first_free_equal_numbers() -> Vec<u8> {
    raw_but_handles(0, &[1])
}

/// The Dynamic that was asked for last is built first: two share the last index, and a third is left without one.
pub fn last_free_equal_numbers_and_another() -> Vec<u8> {
    raw_but_handles(INDEXES - 1, &[2, 1])
}

/// No slot and no index is free; a raw Dynamic has an inline bootstrap with this handle.
fn nothing_left(handle: Reference) -> Vec<u8> {
    let mut definitions = vec![int(1), handle_of_raw(1), bootstrap(handle, vec![])];
    definitions.push(dynamic(entry(1), Reference::Raw(2)));
    definitions.push(raw(1, 1));
    definitions.extend((2..=65_534).map(|slot| raw(slot, 0)));
    definitions.extend((0..INDEXES).map(|i| raw_bootstrap(i, 0)));
    encode(&job(definitions, vec![], NAME_NEVER))
}

/// The handle's slot is looked for before the bootstrap's index.
pub fn nothing_left_inline_handle() -> Vec<u8> {
    nothing_left(entry(0))
}

pub fn nothing_left_raw_handle() -> Vec<u8> {
    nothing_left(Reference::Raw(5))
}

/// 65,534 Dynamics over as many bootstraps. They get their slots as arguments of one raw bootstrap,
/// since requests would make the job too long.
fn by_allocation(raw_count: u16) -> Vec<u8> {
    let count = 65_534;
    let mut definitions: Vec<Record> = (0..count).map(|i| handle_of_raw(number(i))).collect();
    definitions.extend((0..count).map(|i| dynamic(entry(i), Reference::Raw(1))));
    definitions.push(bootstrap(
        Reference::Raw(1),
        (0..count).map(entry).collect(),
    ));
    definitions.extend((0..raw_count).map(|i| raw_bootstrap(i, number(count))));
    encode(&job(definitions, vec![], NAME_NEVER))
}

pub fn full_by_allocation() -> Vec<u8> {
    by_allocation(1)
}

pub fn over_by_allocation() -> Vec<u8> {
    by_allocation(2)
}

/// One bootstrap of ten arguments, written 65,535 times.
pub fn last_index_alone() -> Vec<u8> {
    let definitions = vec![
        int(7),
        bootstrap(entry(0), vec![entry(0); 10]),
        raw_bootstrap(INDEXES - 1, 0),
    ];
    encode(&job(definitions, vec![], NAME_IF_PRESENT))
}

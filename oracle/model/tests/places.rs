//! The readings of No. 9 (document 02), each with its job: which record 14, 17 and 24 met while building are told at.

use jobs::hex::bytes;
use jobs::make::*;
use jobs::record::{Record, Reference, encode};
use model::{Outcome, Refusal, run};

/// "BootstrapMethods" in hex.
const NAME: &str = "426f6f7473747261704d6574686f6473";

fn is(job: &str, line: &str) {
    assert_eq!(run(&bytes(job)).to_string(), line, "{job}");
}

/// 9a: "the lowest record number among the resolved entries that became them".
#[test]
fn an_equal_entry_ahead_that_was_never_reached() {
    is(
        "49 0001 03 00000000 03 00000000 08 01 0001 50 51 01 0002 60 02 00 0000",
        "refused 14 2",
    );
}

/// 9b: "the lowest record number", not that of the first resolved.
#[test]
fn an_equal_entry_behind_that_was_resolved_first() {
    is(
        "49 0001 03 00000000 03 00000000 08 01 0001 08 01 0000 50 51 01 0002 51 01 0003 60 02 00 0000",
        "refused 14 1",
    );
}

/// 9c: a name is no entry.
#[test]
fn an_entry_reached_through_a_name() {
    is(
        "49 0001 03 00000000 41 00 01 0000 08 02 00 50 51 01 0001 60 02 00 0000",
        "refused 14 1",
    );
}

/// 9d: "for the BootstrapMethods name it stays the build record", though an equal text has a place.
#[test]
fn the_name_with_an_equal_text() {
    let job = format!("49 0001 01 0010 {NAME} 43 0001 0000 50 60 00 00 0000");
    is(&job, "refused 14 4");
}

/// 9e: "the BootstrapMethods name" is what the build record asks for.
#[test]
fn a_child_with_the_text_of_the_name() {
    let job = format!("49 0001 01 0010 {NAME} 07 01 0000 50 51 01 0001 60 02 00 0000");
    is(&job, "refused 14 1");
}

/// 9f, 9g: not the record 43; "equal constants become one".
#[test]
fn a_raw_constant_that_is_judged() {
    is(
        "47 0000 10 00 0000 43 0001 0000 50 60 02 00 0000",
        "refused 24 1",
    );
    is(
        "47 0000 10 00 0000 10 00 0000 43 0001 0001 50 51 01 0000 60 02 00 0000",
        "refused 24 1",
    );
}

/// 9h: it isn't "met while building".
#[test]
fn no_slot_at_a_request() {
    is(
        "49 0001 03 00000000 03 00000001 50 51 01 0000 51 01 0001 60 02 00 0000",
        "refused 14 5",
    );
}

/// 9i: "that of the constant without a slot".
#[test]
fn the_child_that_gets_no_slot() {
    is(
        "49 0001 03 00000000 08 01 0000 50 51 01 0001 60 02 00 0000",
        "refused 14 1",
    );
}

/// 9j: "a row of records numbered from 0".
#[test]
fn every_record_is_counted() {
    is("47 0000 47", "refused 3 1");
    is("47 0000", "refused 3 1");
}

fn of_raw(handle: u16) -> Record {
    bootstrap(Reference::Raw(handle), vec![])
}

/// A bootstrap raw at all indexes, with other definitions behind.
fn all_indexes_raw(others: Vec<Record>, requests: Vec<Record>) -> Outcome {
    let mut definitions = vec![of_raw(2)];
    definitions.extend((0..65_535).map(|index| raw_bootstrap(index, 0)));
    definitions.extend(others);
    run(&encode(&job(definitions, requests, NAME_NEVER)))
}

/// 17 at this record, met at the build record.
fn no_index(place: usize, build_record: usize) -> Outcome {
    Outcome::Refused(Refusal {
        code: 17,
        place,
        building: Some(build_record),
    })
}

/// 9k: equal numbers would share an index, but the stored bootstraps are apart. The Int gets slot 1.
#[test]
fn two_bootstraps_with_equal_numbers() {
    let others = vec![
        int(0),
        of_raw(1),
        bootstrap(Reference::Entry(0), vec![]),
        dynamic(Reference::Entry(1), Reference::Raw(1)),
        dynamic(Reference::Entry(2), Reference::Raw(1)),
    ];
    let requests = vec![ask(0), ask(1), ask(2)];
    assert_eq!(all_indexes_raw(others, requests), no_index(65_538, 65_545));
}

/// 9l: it and the raw one are one stored bootstrap.
#[test]
fn an_inline_bootstrap_equal_to_a_raw_one_ahead() {
    let others = vec![of_raw(2), dynamic(Reference::Entry(1), Reference::Raw(1))];
    assert_eq!(all_indexes_raw(others, vec![ask(0)]), no_index(0, 65_540));
}

/// The record in turn is kept beside the place.
#[test]
fn the_record_in_turn() {
    let both = |job: &str| {
        let told = run(&bytes(job));
        (told.to_string(), told.in_turn().to_string())
    };
    let refused = |told: &str, in_turn: &str| (told.to_string(), in_turn.to_string());
    assert_eq!(
        both("49 0001 03 00000000 08 01 0000 50 51 01 0001 60 02 00 0000"),
        refused("refused 14 1", "refused 14 5")
    );
    assert_eq!(
        both("50 51 02 01 78 60 02 00 0000"),
        refused("refused 12 1", "refused 12 1")
    );
}

//! Refusals that no known job and no decided point shows. Each expected result is worked out from
//! document 01's table and the order below it.

mod common;

use common::*;
use driver::{Outcome, run_job};
use jobs::record::{Record, Reference};

const LONG: &str = "05 0000000000000001";
const BUILD: &str = "50 60 02 00 0000";

/// 1,048,577 bytes are too long whatever they hold; one byte fewer is read: kind 0 is unknown.
#[test]
fn a_job_too_long_is_1() {
    assert_eq!(run_job(&vec![0; 1_048_577]), refused(1, 0));
    assert_eq!(run_job(&vec![0; 1_048_576]), refused(3, 0));
}

#[test]
fn an_entry_past_65536_is_5() {
    let mut records: Vec<Record> = (0..=65_536).map(|_| int(1)).collect();
    assert_eq!(outcome(&records), refused(5, 65_536));
    // The tables are apart: one bootstrap more is none too many.
    records[65_536] = bootstrap(Reference::Raw(1));
    records.extend([Record::EndOfDefinitions, build()]);
    assert!(matches!(outcome(&records), Outcome::Built { .. }));
    let many = vec![bootstrap(Reference::Raw(1)); 65_537];
    assert_eq!(outcome(&many), refused(5, 65_536));
}

#[test]
fn a_raw_constant_at_no_slot_is_6() {
    assert_eq!(
        line("03 00000001 43 0000 0000 50 60 02 00 0000"),
        "refused 6 1"
    );
    assert_eq!(
        line("03 00000001 43 ffff 0000 50 60 02 00 0000"),
        "refused 6 1"
    );
    for slot in ["0000", "fffe", "ffff"] {
        let job = format!("{LONG} 43 {slot} 0000 {BUILD}");
        assert_eq!(line(&job), "refused 6 1", "{slot}");
    }
}

/// 6 is tested before 7 and 8: the Int at 65534 is there already.
#[test]
fn a_wide_one_at_65534_is_6_even_if_taken() {
    let job = format!("03 00000001 {LONG} 43 fffe 0000 43 fffe 0001 {BUILD}");
    assert_eq!(line(&job), "refused 6 3");
}

/// A narrow one tests its slot alone: 8 where a constant starts, narrow or wide.
#[test]
fn a_narrow_duplicate_is_8() {
    let job = format!("03 00000001 43 0007 0000 43 0007 0000 {BUILD}");
    assert_eq!(line(&job), "refused 8 2");
    let job = format!("03 00000001 {LONG} 43 0007 0001 43 0007 0000 {BUILD}");
    assert_eq!(line(&job), "refused 8 3");
}

/// Slot n+1 taken by an Int is 7; so is slot n taken by a second half, with n+1 free.
#[test]
fn a_wide_conflict_is_7() {
    let job = format!("03 00000001 {LONG} 43 0008 0000 43 0007 0001 {BUILD}");
    assert_eq!(line(&job), "refused 7 3");
    let job = format!("{LONG} 43 0007 0000 43 0008 0000 {BUILD}");
    assert_eq!(line(&job), "refused 7 2");
    // Both slots taken: n+1 is tested first, so 7 and not 8.
    let job = format!("03 00000001 {LONG} 43 0007 0000 43 0008 0000 43 0007 0001 {BUILD}");
    assert_eq!(line(&job), "refused 7 4");
}

#[test]
fn raw_bootstrap_65535_is_9() {
    let job = format!("40 00 0001 0000 44 ffff 0000 {BUILD}");
    assert_eq!(line(&job), "refused 9 1");
}

#[test]
fn a_duplicate_raw_bootstrap_is_10() {
    let job = format!("40 00 0001 0000 44 fffe 0000 44 fffe 0000 {BUILD}");
    assert_eq!(line(&job), "refused 10 2");
}

#[test]
fn a_name_defined_twice_for_its_kind_is_11() {
    let job = format!("41 01 78 00 0001 42 01 78 00 0001 41 01 78 00 0001 {BUILD}");
    assert_eq!(line(&job), "refused 11 2");
    let job = format!("42 01 78 00 0001 41 01 78 00 0001 42 01 78 00 0001 {BUILD}");
    assert_eq!(line(&job), "refused 11 2");
}

/// Raw definitions are reached by record 50.
#[test]
fn record_50_resolves_raw_definitions() {
    let job = format!("07 02 01 78 43 0001 0000 {BUILD}");
    assert_eq!(line(&job), "refused 12 2");
    let job = format!("40 02 01 78 0000 44 0001 0000 {BUILD}");
    assert_eq!(line(&job), "refused 12 2");
    let job = format!("07 02 01 78 41 01 78 01 0000 43 0001 0000 {BUILD}");
    assert_eq!(line(&job), "refused 13 3");
}

/// With an unknown name at slot 1 and a circle at slot 2, a hash map's order decides; the driver
/// must give one of the two and must not take the copies' difference for a fault.
#[test]
fn several_faults_at_record_50() {
    let job = bytes(
        "07 02 01 78 08 02 01 79 41 01 79 02 01 79 43 0001 0000 43 0002 0001 50 60 02 00 0000",
    );
    for _ in 0..50 {
        let met = run_job(&job);
        assert!(
            met == refused(12, 5) || met == refused(13, 5),
            "{}",
            met.line()
        );
    }
}

/// A Class whose child is named for the Class itself, through a bootstrap too.
#[test]
fn an_entry_reached_while_being_resolved_is_13() {
    let job = "07 02 01 78 41 01 78 01 0000 50 51 01 0000 60 02 00 0000";
    assert_eq!(line(job), "refused 13 3");
    let job = "40 02 01 78 0000 11 01 0000 00 0001 41 01 78 01 0000 50 51 01 0000 60 02 00 0000";
    assert_eq!(line(job), "refused 13 4");
}

/// Children go left to right: the unknown name stands before the circle, and behind it.
#[test]
fn the_leftmost_fault_is_met() {
    let circle = "41 01 79 02 01 79";
    let job = format!("{circle} 0c 02 01 78 02 01 79 50 51 01 0000 60 02 00 0000");
    assert_eq!(line(&job), "refused 12 3");
    let job = format!("{circle} 0c 02 01 79 02 01 78 50 51 01 0000 60 02 00 0000");
    assert_eq!(line(&job), "refused 13 3");
}

/// Only 65,534 slots: the wide one finds no two neighbours while one slot is free.
#[test]
fn a_wide_one_without_two_neighbours_is_14() {
    let mut records = vec![int(1), long(2)];
    records.extend(raw_constants(1..=65_533, 0));
    records.extend([Record::EndOfDefinitions, ask(1), build()]);
    assert_eq!(outcome(&records), refused(14, 65_536));
    records[65_536] = ask_ldc(1);
    assert_eq!(outcome(&records), refused(15, 65_536));
    // The one free slot is 65534, used up by an Int; then the count is 65535.
    records[65_536] = ask(0);
    match outcome(&records) {
        Outcome::Built(built) => {
            assert_eq!(built.answers, [65_534]);
            assert_eq!(built.pool[..2], [0xff, 0xff]);
        }
        other => panic!("{}", other.line()),
    }
}

/// The name comes last, as an ordinary request.
#[test]
fn no_slot_for_the_name_is_14() {
    let mut records = vec![int(1)];
    records.extend(raw_constants(1..=65_534, 0));
    records.push(Record::EndOfDefinitions);
    let mut job = jobs::record::encode(&records);
    job.extend(bytes("60 00 00 0000"));
    assert_eq!(run_job(&job), refused(14, 65_536));
}

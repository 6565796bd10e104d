//! A job for each refusal that no known job shows, through `build`; 2 and 18 are in lent.rs. The numbers are document 01's.

mod common;

use common::*;
use rotblossom::{LONGEST_JOB, Unbuilt, try_build};

/// A byte too many is 1 whatever the job holds; one fewer is read, and kind 0 is unknown.
#[test]
fn a_job_too_long_is_1() {
    let longest = rotblossom::build(&vec![0; LONGEST_JOB]);
    assert_eq!(longest, Err(refusal(3, 0)));
    let too_long = rotblossom::build(&vec![0; LONGEST_JOB + 1]);
    assert_eq!(too_long, Err(refusal(1, 0)));
    let far_too_long = rotblossom::build(&vec![0; 10 * LONGEST_JOB]);
    assert_eq!(far_too_long, Err(refusal(1, 0)));
}

#[test]
fn form_is_3() {
    assert_eq!(build(""), Err(refusal(3, 0)), "no record");
    assert_eq!(build("50"), Err(refusal(3, 1)), "no build");
    assert_eq!(build("02"), Err(refusal(3, 0)), "an unknown kind");
    assert_eq!(build("07 03 0000"), Err(refusal(3, 0)), "a form byte");
    assert_eq!(build("50 60 02"), Err(refusal(3, 1)), "a cut record");
    assert_eq!(build("51 00 0001"), Err(refusal(3, 0)), "out of place");
    let behind = build("50 60 02 00 0000 00");
    assert_eq!(behind, Err(refusal(3, 2)), "a byte behind the build");
}

#[test]
fn a_number_that_is_not_there_is_4() {
    assert_eq!(build("07 01 0000"), Err(refusal(4, 0)), "itself");
    let request = build("50 60 02 01 0000");
    assert_eq!(request, Err(refusal(4, 1)), "request 0 of none");
}

#[test]
fn entry_65537_is_5() {
    let ints = bytes("03 00000001").repeat(65_537);
    assert_eq!(rotblossom::build(&ints), Err(refusal(5, 65_536)));
}

#[test]
fn a_raw_constant_at_0_or_65535_is_6() {
    for slot in ["0000", "ffff"] {
        let job = format!("03 00000001 43 {slot} 0000 50 60 02 00 0000");
        assert_eq!(build(&job), Err(refusal(6, 1)), "{slot}");
    }
}

#[test]
fn raw_bootstraps_out_of_range_or_doubled_are_9_and_10() {
    let out_of_range = build("40 00 0001 0000 44 ffff 0000 50 60 02 00 0000");
    assert_eq!(out_of_range, Err(refusal(9, 1)));
    let doubled = build("40 00 0001 0000 44 fffe 0000 44 fffe 0000 50 60 02 00 0000");
    assert_eq!(doubled, Err(refusal(10, 2)));
}

/// A name of each kind, then the first kind's again.
#[test]
fn a_name_defined_twice_is_11() {
    let job = "41 01 78 00 0001 42 01 78 00 0001 41 01 78 00 0001 50 60 02 00 0000";
    assert_eq!(build(job), Err(refusal(11, 2)));
}

#[test]
fn a_refusal_reads_as_poolrun_prints_it() {
    let refused = build("07 01 0000").unwrap_err();
    assert_eq!(refused.to_string(), "refused 4 0");
}

/// Where memory can be had, `try_build` gives what `build` gives.
#[test]
fn try_build_builds_and_refuses_as_build_does() {
    let job = bytes(CASE_B);
    assert_eq!(try_build(&job).ok(), rotblossom::build(&job).ok());
    assert_eq!(try_build(&job[1..]), Err(Unbuilt::Refused(refusal(3, 0))));
}

/// A record 48, a full table of texts, and then one that isn't a text: that there is no room for it is told first.
#[test]
fn a_bad_text_too_many_is_one_too_many() {
    let mut job = bytes("48");
    job.extend(bytes("01 0000").repeat(65_536));
    job.extend(bytes("01 0001 00  50 60 02 00 0000"));
    assert_eq!(rotblossom::build(&job), Err(refusal(5, 65_537)));
}

/// A full table of texts, and then a record 46 with a bad byte, or an Int divided by zero: 5 is told ahead of 22 and 23. A cut one is 3.
#[test]
fn an_expression_too_many_is_one_too_many() {
    for (expression, code) in [
        ("46 00", 5),
        ("46 2f 03 00000001 03 00000000", 5),
        ("46 03 00000001", 5),
        ("46 2b", 3),
    ] {
        let mut job = bytes("01 0000").repeat(65_536);
        job.extend(bytes(expression));
        let refused = Err(refusal(code, 65_536));
        assert_eq!(rotblossom::build(&job), refused, "{expression}");
    }
}

/// A bad byte, mixed kinds and more than 32 deep are 22, an integer divided by zero is 23, at the record 46 itself.
#[test]
fn expressions_are_refused_22_and_23() {
    let refused = |expression: &str| build(&format!("01 0000 46 {expression} 50 60 02 00 0000"));
    assert_eq!(refused("07"), Err(refusal(22, 1)));
    let mixed = "2f 2f 03 00000001 03 00000000 04 00000000";
    assert_eq!(refused(mixed), Err(refusal(22, 1)));
    let deep = format!("{} {}", "2b".repeat(32), "03 00000001".repeat(33));
    assert_eq!(refused(&deep), Err(refusal(22, 1)));
    let by_zero = "2f 05 0000000000000001 05 0000000000000000";
    assert_eq!(refused(by_zero), Err(refusal(23, 1)));
}

/// Records 47 to 49 are counted as any others.
#[test]
fn a_second_version_is_3_at_its_own_record() {
    assert_eq!(build("47 0000 47"), Err(refusal(3, 1)));
}

/// A bootstrap of raw slot 2, raw at all 65,535 indexes, and records behind it.
fn all_indexes_raw(behind: &str) -> Vec<u8> {
    let mut job = bytes("40 00 0002 0000");
    job.extend(raw_definitions(0x44, 0..=65_534));
    job.extend(bytes(behind));
    job
}

/// Two bootstraps that would share an index, had there been one: 17 at the one in turn, though the other stands ahead.
#[test]
fn no_index_is_17_at_the_bootstrap_in_turn() {
    let job = all_indexes_raw(
        "03 00000000 40 00 0001 0000 40 01 0000 0000 11 01 0001 00 0001 11 01 0002 00 0001
         50 51 01 0000 51 01 0001 51 01 0002 60 02 00 0000",
    );
    assert_eq!(rotblossom::build(&job), Err(refusal(17, 65_538)));
}

/// An inline bootstrap that equals a raw one's entry ahead: 17 at the lowest record of the two.
#[test]
fn no_index_is_17_at_the_lowest_of_equal_bootstraps() {
    let job = all_indexes_raw(
        "40 00 0002 0000 11 01 0001 00 0001
         50 51 01 0000 60 02 00 0000",
    );
    assert_eq!(rotblossom::build(&job), Err(refusal(17, 0)));
}

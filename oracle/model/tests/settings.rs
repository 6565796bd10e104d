//! The readings of No. 5, 8 and 10 (document 02), each with its job.

use jobs::hex::bytes;
use jobs::make::{NAME_NEVER, job, text};
use jobs::record::encode;
use model::{Outcome, Refusal, run};

const NOTHING: &str = "built answers 0 pool 2 0001 bootstraps 0 0 - name 0 class none visits 0";

fn is(job: &str, line: &str) {
    assert_eq!(run(&bytes(job)).to_string(), line, "{job}");
}

/// 5a: "names a two-byte major version", any two bytes.
#[test]
fn any_version_is_taken() {
    for version in ["0000", "0031", "0038", "ffff"] {
        is(&format!("47 {version} 50 60 02 00 0000"), NOTHING);
    }
    is("47 0000", "refused 3 1");
}

/// The least version of each kind, and one less: "15, 16 and 18 need 51, kinds 19 and 20 need 53, and kind 17 needs 55".
#[test]
fn kinds_and_versions() {
    let constants = [
        (15, "0f 06 00 0001", 51),
        (16, "10 00 0001", 51),
        (18, "12 00 0000 00 0001", 51),
        (19, "13 00 0001", 53),
        (20, "14 00 0001", 53),
        (17, "11 00 0000 00 0001", 55),
    ];
    for (kind, constant, least) in constants {
        let ends = |version: u16| {
            run(&bytes(&format!(
                "47 {version:04x} {constant} 50 51 01 0000 60 02 00 0000"
            )))
        };
        assert_eq!(ends(least - 1).to_string(), "refused 24 1", "{kind}");
        assert!(matches!(ends(least), Outcome::Built(_)), "{kind}");
    }
    for (constant, pool) in [
        ("07 00 0001", "070001"),
        ("0c 00 0001 00 0001", "0c00010001"),
    ] {
        let job = format!("47 0000 {constant} 50 51 01 0000 60 02 00 0000");
        let line = run(&bytes(&job)).to_string();
        assert!(line.contains(pool), "{line}");
    }
}

/// 5b to 5f. 14 and 24 that are met while building stand at the constant's record (No. 9).
#[test]
fn too_new_in_its_turn() {
    // 5b: before the constant's own child, which has no slot.
    is(
        "49 0001 47 0000 01 0000 10 01 0000 50 51 01 0001 60 02 00 0000",
        "refused 24 3",
    );
    // 5c: raw bootstraps' children get slots before any constant comes off the stack.
    is(
        "49 0001 47 0000 10 00 0000 40 01 0000 0000 43 0001 0000 44 0000 0000 50 60 02 00 0000",
        "refused 14 2",
    );
    // 5d: the one asked last comes off first.
    is(
        "47 0000 10 00 0000 10 00 0001 50 51 01 0000 51 01 0001 60 02 00 0000",
        "refused 24 2",
    );
    // 5e: a raw constant that nobody asks for is in the pool.
    is(
        "47 0000 10 00 0000 43 0001 0000 50 60 02 00 0000",
        "refused 24 1",
    );
    // 5f: the name gets its slot last.
    is(
        "49 0001 47 0000 10 00 0000 43 0001 0000 50 60 00 00 0000",
        "refused 24 2",
    );
}

/// "A constant that is never put in the pool isn't judged."
#[test]
fn a_constant_that_is_never_put_in_the_pool() {
    is("47 0000 10 00 0000 50 60 02 00 0000", NOTHING);
}

/// A child is judged when it comes off in its turn, too.
#[test]
fn a_child_that_is_too_new() {
    is(
        "47 0032 10 00 0001 08 01 0000 50 51 01 0001 60 02 00 0000",
        "refused 24 1",
    );
}

/// "A second record 47 is 3", and one behind 50 is out of place; 9j: records 47 to 49 are counted.
#[test]
fn record_47_out_of_place() {
    is("47 0000 47", "refused 3 1");
    is("47 0000 47 0000 50 60 02 00 0000", "refused 3 1");
    is("50 47 0000 60 02 00 0000", "refused 3 1");
    is("47 00", "refused 3 0");
}

/// 8a to 8f: which of a text's fault and another is told.
#[test]
fn record_48_and_other_faults() {
    is("01 0001 00 48 50 60 02 00 0000", "refused 25 0");
    is("01 0001 00 48", "refused 25 0");
    is("01 0001 00 07 01 0001 48", "refused 4 1");
    is("01 0001 00 50 48", "refused 3 2");
    is("01 0001 00 48 48", "refused 25 0");
    // 22 and 23 are "other" faults too.
    is("01 0001 00 46 00 48", "refused 22 1");
    is(
        "01 0001 00 46 2f 03 00000000 03 00000000 48",
        "refused 23 1",
    );
    is("01 0001 00 48 46 00", "refused 25 0");
    is("48 48", "refused 3 1");
    // The fault stands ahead of the bad text.
    is("48 07 01 0000 01 0001 00", "refused 4 1");
    is("01 0001 00 50 60 02 00 0000", NOTHING);
}

/// 8g: names are any bytes.
#[test]
fn names_are_not_held() {
    is("48 41 01 00 00 0000 50 60 02 00 0000", NOTHING);
    is("48 41 01 00", "refused 3 1");
    is("48 50 51 02 01 00 60 02 00 0000", "refused 12 2");
}

/// 8h, 8j, 8k.
#[test]
fn texts_that_are_held() {
    is("48 01 0002 00", "refused 3 1");
    is("48 01 0003 eda080 50 60 02 00 0000", NOTHING);
    is("48 01 0003 eda080", "refused 3 2");
    is("48 01 0001 00 50 60 02 00 0000", "refused 25 1");
    is("48 01 0001 00", "refused 25 1");
    is("48 01 0001 41 01 0002 c3 c3 01 0001 00", "refused 25 2");
}

/// 8i: "after 5 and before 4". An earlier bad text is told before the 5.
#[test]
fn the_65537th_constant_is_a_bad_text() {
    let ends = |first: &[u8]| {
        let mut definitions = vec![text(first)];
        definitions.resize(65_536, text(b""));
        definitions.push(text(b"\0"));
        let mut bytes = vec![0x48];
        bytes.extend(encode(&job(definitions, vec![], NAME_NEVER)));
        run(&bytes)
    };
    let refused = |code, place| Outcome::Refused(Refusal::at(code, place));
    assert_eq!(ends(b""), refused(5, 65_537));
    assert_eq!(ends(b"\0"), refused(25, 1));
}

/// 10a to 10c: 26 at the first record, 3 anywhere else.
#[test]
fn record_49_in_the_form_pass() {
    is("49 0000", "refused 26 0");
    is("49 ffff 50 60 02 00 0000", "refused 26 0");
    is("48 49 0000", "refused 3 1");
    is("48 49 0001 50 60 02 00 0000", "refused 3 1");
    is("49 0001 49 0001 50 60 02 00 0000", "refused 3 1");
    is("50 49 0001 60 02 00 0000", "refused 3 1");
    is("49 00", "refused 3 0");
    is("49 0001 50 60 02 00 0000", NOTHING);
    is("49 fffe 48 47 0000 50 60 02 00 0000", NOTHING);
}

/// 10d, 10e: "a request by raw number isn't limited", nor is a child.
#[test]
fn raw_numbers_above_the_highest_slot() {
    is(
        "49 0001 50 51 00 0002 60 02 00 0000",
        "built answers 1 2 raw pool 2 0001 bootstraps 0 0 - name 0 class none visits 1",
    );
    is(
        "49 0001 07 00 0002 50 51 01 0000 60 02 00 0000",
        "built answers 1 1 new pool 5 0002070002 bootstraps 0 0 - name 0 class none visits 3",
    );
}

/// 10f: "a slot at or past the count counts as empty text".
#[test]
fn a_class_of_a_slot_above_the_highest() {
    is(
        "49 0001 07 00 0002 50 51 01 0000 60 02 01 0000",
        "built answers 1 1 new pool 5 0002070002 bootstraps 0 0 - name 0 class 0 - visits 3",
    );
    is("49 0001 50 60 02 00 0002", NOTHING);
}

/// 10g: "every 65535 for the pool count one more" than the highest slot.
#[test]
fn the_count_of_a_full_pool() {
    is(
        "49 0001 03 00000000 43 0001 0000 50 60 02 00 0000",
        "built answers 0 pool 7 00020300000000 bootstraps 0 0 - name 0 class none visits 2",
    );
    is(
        "49 0001 03 00000000 50 51 01 0000 60 02 00 0000",
        "built answers 1 1 new pool 7 00020300000000 bootstraps 0 0 - name 0 class none visits 2",
    );
}

/// 10h, 10i: 6 when the record is run, for the second half too.
#[test]
fn raw_constants_above_the_highest_slot() {
    is(
        "49 0001 05 0000000000000000 43 0001 0000 50 60 02 00 0000",
        "refused 6 2",
    );
    is(
        "49 0002 05 0000000000000000 43 0001 0000 50 60 02 00 0000",
        "built answers 0 pool 11 0003050000000000000000 bootstraps 0 0 - name 0 class none visits 2",
    );
    is("49 0001 03 00000000 43 0002 0000", "refused 3 3");
    is("49 0001 43 0002 0000", "refused 4 1");
    is(
        "49 0001 03 00000000 43 0002 0000 50 60 02 00 0000",
        "refused 6 2",
    );
}

/// 10j: bootstrap indexes are no slots.
#[test]
fn bootstrap_indexes_above_the_highest_slot() {
    is(
        "49 0001 40 00 0000 0000 44 0002 0000 50 60 02 00 0000",
        "built answers 0 pool 2 0001 bootstraps 3 12 000000000000000000000000 name 0 class none visits 3",
    );
}

/// 10k: the name gets a slot like any other.
#[test]
fn no_slot_for_the_name() {
    is(
        "49 0001 03 00000000 43 0001 0000 50 60 00 00 0000",
        "refused 14 4",
    );
}

/// No free slot is left: 14, ldc 15; a wide one needs two neighbours.
#[test]
fn requests_above_the_highest_slot() {
    let two = "03 00000000 03 00000001";
    is(
        &format!("49 0001 {two} 50 51 01 0000 51 01 0001 60 02 00 0000"),
        "refused 14 5",
    );
    is(
        &format!("49 0001 {two} 50 51 01 0000 52 01 0001 60 02 00 0000"),
        "refused 15 5",
    );
    is(
        "49 0001 05 0000000000000000 50 52 01 0000 60 02 00 0000",
        "refused 15 3",
    );
}

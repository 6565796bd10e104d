//! The readings of No. 3 (document 02), each with its job: constants given as expressions.

use jobs::hex::{bytes, hex};
use model::{Outcome, Refusal, run};

fn is(job: &str, line: &str) {
    assert_eq!(run(&bytes(job)).to_string(), line, "{job}");
}

/// The pool of a job that asks for the one constant given by this expression, but for the count.
fn pool_of(expression: &str) -> String {
    let job = format!("46 {expression} 50 51 01 0000 60 02 00 0000");
    match run(&bytes(&job)) {
        Outcome::Built(built) => hex(&built.pool[2..]),
        Outcome::Refused(Refusal { code, place, .. }) => format!("refused {code} {place}"),
    }
}

fn gives(expression: &str, entry: &str) {
    assert_eq!(pool_of(expression), hex(&bytes(entry)), "{expression}");
}

fn is_refused(expression: &str, code: u8) {
    assert_eq!(
        pool_of(expression),
        format!("refused {code} 0"),
        "{expression}"
    );
}

/// So many signs in one another, each with a leaf as its second part.
fn nested(signs: usize) -> String {
    format!(
        "{} {}",
        "2b ".repeat(signs),
        "03 00000001 ".repeat(signs + 1)
    )
}

/// 3a, 3b: a sign or a leaf tag is no bad byte, wherever it stands.
#[test]
fn a_cut_expression_that_is_too_deep_or_mixed() {
    for signs in [1, 31, 32, 33, 100] {
        is(&format!("46 {}", "2b".repeat(signs)), "refused 3 0");
    }
    is("46 2b 03 00000000 04", "refused 3 0");
    is("46 2b 03 00000000 04 000000", "refused 3 0");
    is("46", "refused 3 0");
    is("46 05 00000000000000", "refused 3 0");
}

/// 3c: "3 covers a cut one if no bad byte comes before the cut".
#[test]
fn a_bad_byte_with_parts_missing() {
    is("46 00", "refused 22 0");
    is("46 2b 00", "refused 22 0");
    is("46 2b 03 00000000 07", "refused 22 0");
    for byte in 0..=u8::MAX {
        let code = match byte {
            3..=6 | 0x2a | 0x2b | 0x2d | 0x2f => 3,
            _ => 22,
        };
        is(&format!("46 {byte:02x}"), &format!("refused {code} 0"));
    }
}

/// 3d: 22 and 23 "in that order", and 22 for a bad byte too.
#[test]
fn mixed_kinds_and_a_division_by_zero() {
    is_refused("2b 2f 03 00000000 03 00000000 04 00000000", 22);
    is_refused("2b 2f 03 00000000 03 00000000 09", 22);
    is_refused("2f 03 00000000 03 00000000", 23);
    is_refused("2f 05 0000000000000001 05 0000000000000000", 23);
    is_refused("2f 03 00000000 04 00000000", 22);
}

fn behind_65536_texts(last: &str) -> Outcome {
    let mut job = bytes("01 0000").repeat(65_536);
    job.extend(bytes(last));
    run(&job)
}

/// 3e, 3f: 3, then 5, then 22 and 23.
#[test]
fn the_65537th_constant_is_an_expression() {
    let refused = |code| Outcome::Refused(Refusal::at(code, 65_536));
    assert_eq!(behind_65536_texts("46 00"), refused(5));
    let by_zero = "46 2f 03 00000000 03 00000000";
    assert_eq!(behind_65536_texts(by_zero), refused(5));
    assert_eq!(behind_65536_texts("46 2b"), refused(3));
}

/// 3g: "the value goes on with its kind, one of the four".
#[test]
fn a_plain_constant_of_the_same_kind_and_bits() {
    is(
        "46 03 00000000 03 00000000 50 51 01 0000 51 01 0001 60 02 00 0000",
        "built answers 2 1 new 1 old pool 7 00020300000000 bootstraps 0 0 - name 0 class none visits 4",
    );
    is(
        "03 00000005 46 2b 03 00000002 03 00000003 04 00000005 50 51 01 0000 51 01 0001 51 01 0002 60 02 00 0000",
        "built answers 3 1 new 1 old 2 new pool 12 000303000000050400000005 bootstraps 0 0 - name 0 class none visits 6",
    );
}

/// 3h: "Record 46 hex adds a constant", numbered in the order of records.
#[test]
fn a_number_among_the_constants() {
    is(
        "46 03 00000000 03 00000001 50 51 01 0000 60 02 00 0000",
        "built answers 1 1 new pool 7 00020300000000 bootstraps 0 0 - name 0 class none visits 2",
    );
    is("46 03 00000000 50 51 01 0001 60 02 00 0000", "refused 4 2");
}

/// 3i, 3j: a computed NaN is one pattern, "a lone leaf keeps its bits".
#[test]
fn nans() {
    for sign in ["2a", "2b", "2d", "2f"] {
        for nan in ["7fc00001", "ffc00000", "7f800001", "ffffffff"] {
            gives(&format!("{sign} 04 {nan} 04 00000000"), "04 7fc00000");
            gives(&format!("{sign} 04 00000000 04 {nan}"), "04 7fc00000");
        }
        let nan = "06 fff0000000000001";
        gives(
            &format!("{sign} 06 0000000000000000 {nan}"),
            "06 7ff8000000000000",
        );
    }
    gives("2d 04 7f800000 04 7f800000", "04 7fc00000");
    gives(
        "2f 06 0000000000000000 06 8000000000000000",
        "06 7ff8000000000000",
    );
    for nan in ["04 7f800001", "04 ffffffff", "06 7ff0000000000001"] {
        gives(nan, nan);
    }
}

/// 3k: "23 for an integer divided by zero", whatever becomes of the quotient.
#[test]
fn a_division_by_zero_that_can_not_matter() {
    is_refused("2a 03 00000000 2f 03 00000000 03 00000000", 23);
    is_refused(
        "2b 03 00000001 2f 03 00000007 2d 03 00000001 03 00000001",
        23,
    );
    gives("2f 04 3f800000 04 80000000", "04 ff800000");
}

/// 3l: 3 for "record out of place" is first within a record.
#[test]
fn out_of_place_with_a_bad_byte() {
    is("50 46 00", "refused 3 1");
    is("50 46 03 00000000", "refused 3 1");
    is("50 60 02 00 0000 46 00", "refused 3 2");
}

/// 3m: "a lone leaf being depth 1", so that at most 31 signs nest.
#[test]
fn thirty_two_deep() {
    gives(&nested(31), "03 00000020");
    is_refused(&nested(32), 22);
    // The other way: each sign is the second part of the one ahead.
    gives(
        &format!("{} 03 00000001", "2b 03 00000001 ".repeat(31)),
        "03 00000020",
    );
    is_refused(&format!("{} 03 00000001", "2b 03 00000001 ".repeat(32)), 22);
    // 22 for the depth ahead of 23.
    is_refused(&format!("2f {} 03 00000000", nested(31)), 22);
}

/// 8f: 22 and 23 are faults behind which a 48 doesn't count; one ahead of them does.
#[test]
fn with_record_48() {
    is("01 0001 00 46 00 48", "refused 22 1");
    is("48 01 0001 00 46 00", "refused 25 1");
    is("48 46 00 01 0001 00", "refused 22 1");
}

/// "Int and Long wrap, division cuts toward zero, and the lowest value divided by -1 is itself."
#[test]
fn integers() {
    gives("2b 03 7fffffff 03 00000001", "03 80000000");
    gives("2d 03 80000000 03 00000001", "03 7fffffff");
    gives("2a 03 00010001 03 00010001", "03 00020001");
    gives("2f 03 fffffff9 03 00000002", "03 fffffffd");
    gives("2f 03 00000007 03 fffffffe", "03 fffffffd");
    gives("2f 03 80000000 03 ffffffff", "03 80000000");
    gives(
        "2f 05 8000000000000000 05 ffffffffffffffff",
        "05 8000000000000000",
    );
    gives(
        "2d 05 0000000000000000 05 0000000000000001",
        "05 ffffffffffffffff",
    );
    // The first part is the one ahead: 7 - (5 - 2).
    gives("2d 03 00000007 2d 03 00000005 03 00000002", "03 00000004");
    gives("2d 2d 03 00000007 03 00000005 03 00000002", "03 00000000");
}

/// "Round once at each operation, to nearest with ties to even."
#[test]
fn floats() {
    gives("2f 04 3f800000 04 40400000", "04 3eaaaaab");
    gives(
        "2f 06 3ff0000000000000 06 4008000000000000",
        "06 3fd5555555555555",
    );
    // 1 + 2^-24 is a tie, and 1 + 3 x 2^-24 one that goes up.
    gives("2b 04 3f800000 04 33800000", "04 3f800000");
    gives("2b 04 3f800001 04 33800000", "04 3f800002");
    // Half of the least one is a tie with zero, whose sign stays.
    gives("2a 04 80000001 04 3f000000", "04 80000000");
    gives("2a 04 00000003 04 3f000000", "04 00000002");
    gives("2b 04 7f7fffff 04 7f7fffff", "04 7f800000");
    gives("2d 04 00000000 04 00000000", "04 00000000");
    gives("2b 04 80000000 04 80000000", "04 80000000");
}

/// No call for each sign: a megabyte of them, cut, and with leaves behind.
#[test]
fn a_megabyte_of_signs() {
    let mut job = vec![b'+'; 1_048_576];
    job[0] = 0x46;
    assert_eq!(run(&job).to_string(), "refused 3 0");
    job[1_048_575] = 0;
    assert_eq!(run(&job).to_string(), "refused 22 0");
    let signs = 170_000;
    let mut whole = vec![0x46];
    whole.extend(vec![b'+'; signs]);
    whole.extend(bytes("03 00000001").repeat(signs + 1));
    assert_eq!(run(&whole).to_string(), "refused 22 0");
}

/// With settings ahead, raw, named and as a child.
#[test]
fn among_other_records() {
    is(
        "49 0003 47 0000 46 2b 05 0000000000000001 05 0000000000000002 43 0002 0000 50 51 01 0000 60 02 00 0000",
        "refused 14 5",
    );
    is(
        "46 2d 03 00000001 03 00000002 41 01 78 01 0000 08 02 01 78 50 51 01 0001 60 02 00 0000",
        "built answers 1 1 new pool 10 000308000203ffffffff bootstraps 0 0 - name 0 class none visits 4",
    );
    is(
        "46 2d 05 0000000000000001 05 0000000000000002 43 fffe 0000 50 60 02 00 0000",
        "refused 6 1",
    );
}

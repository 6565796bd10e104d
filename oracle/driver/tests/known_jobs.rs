//! The jobs of document 01 with known results, cases a to k. Each expected result is worked out
//! from the document's words.

mod common;

use common::*;
use driver::Outcome;
use jobs::record::{Record, Reference};

/// Nothing asked: count 1, no answers, and slot 0 is nothing, so there is no class name.
#[test]
fn a_the_empty_build() {
    assert_eq!(
        line("50 60 02 00 0000"),
        "built answers 0 pool 2 0001 bootstraps 0 0 - name 0 class none visits 0"
    );
}

/// The name takes slot 1: count 2, then tag 1, length 16 and the text, 21 bytes. It is given its
/// slot without `resolve`, so it costs no visit.
#[test]
fn a_with_the_name_always() {
    let expected = format!(
        "built answers 0 pool 21 0002010010{NAME} bootstraps 0 0 - name 1 class none visits 0"
    );
    assert_eq!(line("50 60 00 00 0000"), expected);
}

/// As the document prints it, on one line.
#[test]
fn b_a_class_and_its_text() {
    assert_eq!(
        line("01 0001 41 07 01 0000 50 51 01 0001 60 02 01 0000"),
        "built answers 1 1 new pool 9 000307000201000141 bootstraps 0 0 - name 0 class 1 41 visits 4"
    );
}

/// Gaps 1 to 4 and 6 to 65534: the second is the odd one, so the Class gets 6 and the text, when
/// no odd gap is left, 1. Slots 2 to 4 hold the empty text. Visits: the raw text is entered and
/// left (2); the Class and its own text are entered and left (4).
#[test]
fn c_a_raw_text_is_not_shared() {
    let job = "01 0003 666f6f 43 0005 0000 01 0003 666f6f 07 01 0001 \
               50 51 01 0002 60 02 01 0000";
    let pool = "0007 010003666f6f 010000 010000 010000 010003666f6f 070001".replace(' ', "");
    let expected = format!(
        "built answers 1 6 new pool 26 {pool} bootstraps 0 0 - name 0 class 3 666f6f visits 6"
    );
    assert_eq!(line(job), expected);
}

/// Gaps 1 and 3 to 65534: the Long needs two neighbours, so 3; the Int takes the odd gap, 1.
/// Three constants entered and left: 6 visits.
#[test]
fn d_a_long_then_an_int_around_a_raw_int() {
    let job = "03 00000001 05 0000000000000002 03 00000003 43 0002 0000 \
               50 51 01 0001 51 01 0002 60 02 00 0000";
    let pool = "0005 0300000003 0300000001 050000000000000002".replace(' ', "");
    let expected = format!(
        "built answers 2 3 new 1 new pool 21 {pool} bootstraps 0 0 - name 0 class none visits 6"
    );
    assert_eq!(line(job), expected);
}

/// Slot 8 is tested first, and the first Long's second half is there.
#[test]
fn e_a_long_at_7_twice() {
    let job = "05 0000000000000001 43 0007 0000 43 0007 0000 50 60 02 00 0000";
    assert_eq!(line(job), "refused 7 2");
}

/// Slot 8 is free; at 7 a constant starts.
#[test]
fn e_an_int_then_a_long_at_7() {
    let job = "03 00000001 05 0000000000000001 43 0007 0000 43 0007 0001 50 60 02 00 0000";
    assert_eq!(line(job), "refused 8 3");
}

/// At 8 lies the second half of a wide constant.
#[test]
fn e_a_long_at_7_then_an_int_at_8() {
    let job = "05 0000000000000001 03 00000001 43 0007 0000 43 0008 0001 50 60 02 00 0000";
    assert_eq!(line(job), "refused 7 3");
}

const X_IS_Y_AND_Y_IS_X: &str = "41 01 78 02 01 79 41 01 79 02 01 78";

/// Only what is reached is resolved: also a Class of an unknown name is accepted while unused.
#[test]
fn f_names_for_each_other_unused() {
    let built = "built answers 0 pool 2 0001 bootstraps 0 0 - name 0 class none visits 0";
    let job = format!("{X_IS_Y_AND_Y_IS_X} 50 60 02 00 0000");
    assert_eq!(line(&job), built);
    assert_eq!(line("07 02 01 78 50 60 02 00 0000"), built);
}

#[test]
fn f_names_for_each_other_asked() {
    let job = format!("{X_IS_Y_AND_Y_IS_X} 50 51 02 01 78 60 02 00 0000");
    assert_eq!(line(&job), "refused 13 3");
}

#[test]
fn f_an_unknown_name_asked() {
    assert_eq!(line("50 51 02 01 78 60 02 00 0000"), "refused 12 1");
}

/// Holes 0 and 1 repeat the raw bootstrap above them. Visits: the bootstrap entered, its raw
/// handle entered, the bootstrap left.
#[test]
fn g_raw_bootstrap_2_alone() {
    let copies = "00090000".repeat(3);
    let expected =
        format!("built answers 0 pool 2 0001 bootstraps 3 12 {copies} name 0 class none visits 3");
    let job = "40 00 0009 0000 44 0002 0000 50 60 02 00 0000";
    assert_eq!(line(job), expected);
}

/// Slot 0 is nothing. Visits: the Class entered, its raw child entered, the Class left.
#[test]
fn h_a_class_of_raw_0_has_no_name() {
    assert_eq!(
        line("07 00 0000 50 51 01 0000 60 02 01 0000"),
        "built answers 1 1 new pool 5 0002070000 bootstraps 0 0 - name 0 class none visits 3"
    );
}

/// A slot past the count counts as the empty text.
#[test]
fn h_a_class_of_raw_9_has_the_empty_name() {
    assert_eq!(
        line("07 00 0009 50 51 01 0000 60 02 01 0000"),
        "built answers 1 1 new pool 5 0002070009 bootstraps 0 0 - name 0 class 0 - visits 3"
    );
}

/// A raw reference is its own answer and gets no slot.
#[test]
fn i_ldc_of_raw_255() {
    assert_eq!(
        line("50 52 00 00ff 60 02 00 0000"),
        "built answers 1 255 raw pool 2 0001 bootstraps 0 0 - name 0 class none visits 1"
    );
}

#[test]
fn i_ldc_of_raw_256() {
    assert_eq!(line("50 52 00 0100 60 02 00 0000"), "refused 16 1");
}

/// Records: the Int 0, the asked constant 1, raw definitions 2 to 256, 50 at 257, the ldc at 258.
fn ldc_with_slots_to_255_raw(asked: Record) -> Outcome {
    let mut records = vec![int(1), asked];
    records.extend(raw_constants(1..=255, 0));
    records.extend([Record::EndOfDefinitions, ask_ldc(1), build()]);
    outcome(&records)
}

#[test]
fn j_ldc_of_an_int_with_slots_to_255_raw() {
    assert_eq!(ldc_with_slots_to_255_raw(int(2)), refused(15, 258));
}

/// A wide constant takes two slots, ldc or not: 256, and that is above 255.
#[test]
fn j_ldc_of_a_long_with_slots_to_255_raw() {
    assert_eq!(ldc_with_slots_to_255_raw(long(2)), refused(16, 258));
}

/// No gap ends at 65534, so the count is 65535: 65,532 empty texts, then the Long, whose second
/// half 65534 writes nothing. One constant entered and left.
#[test]
fn k_a_long_at_65533() {
    let mut pool = bytes("ffff");
    pool.extend(bytes("010000").repeat(65_532));
    pool.extend(bytes("05 0000000000000001"));
    let expected = built_pool(vec![], pool, 2);
    let job = "05 0000000000000001 43 fffd 0000 50 60 02 00 0000";
    assert!(driver::run_job(&bytes(job)) == expected);
}

#[test]
fn k_a_long_at_65534() {
    let job = "05 0000000000000001 43 fffe 0000 50 60 02 00 0000";
    assert_eq!(line(job), "refused 6 1");
}

/// Records: an Int, 65,534 raw definitions, 50 at 65535, what comes behind.
fn all_slots_raw(behind: &[Record]) -> Outcome {
    let mut records = vec![int(1)];
    records.extend(raw_constants(1..=65_534, 0));
    records.push(Record::EndOfDefinitions);
    records.extend_from_slice(behind);
    outcome(&records)
}

/// Each raw definition enters the Int, which is left once.
#[test]
fn k_all_slots_raw_and_nothing_asked() {
    let mut pool = bytes("ffff");
    pool.extend(bytes("03 00000001").repeat(65_534));
    let expected = built_pool(vec![], pool, 65_535);
    assert!(all_slots_raw(&[build()]) == expected);
}

/// A raw definition is never reused, so even the equal inline Int finds no slot.
#[test]
fn k_all_slots_raw_and_one_asked() {
    assert_eq!(all_slots_raw(&[ask(0), build()]), refused(14, 65_536));
    assert_eq!(all_slots_raw(&[ask_ldc(0), build()]), refused(15, 65_536));
}

/// Records: the bootstrap 0, a Dynamic of it 1, raw bootstraps 2 to 65536, 50, the request, the
/// build at 65539. The inline bootstrap equals only raw ones, so it shares no index.
#[test]
fn k_raw_bootstraps_0_to_65534_and_an_inline() {
    let mut records = vec![bootstrap(Reference::Raw(9)), dynamic(0, 2)];
    records.extend(raw_bootstraps(0..=65_534, 0));
    records.extend([Record::EndOfDefinitions, ask(0), build()]);
    assert_eq!(outcome(&records), refused(17, 65_539));
}

//! The points that document 01 leaves open, as the design decides them: the smallest jobs that
//! show each. Every expected result is worked out from document 01 and the decision.

mod common;

use common::*;
use driver::{Built, Mark, Outcome};
use jobs::record::{Record, Reference};

// Point 1: the first faulty record wins; within a record 3, then 5, then 4; all of 60 counts
// before what is behind it.

/// Record 0 cites itself, before the unknown kind ff of record 1.
#[test]
fn point_1_the_first_faulty_record_wins() {
    assert_eq!(line("07010000ff"), "refused 4 0");
}

/// Entry 7 is missing and form byte 03 unknown, in one record.
#[test]
fn point_1_3_before_4_in_a_record() {
    assert_eq!(line("0901000703"), "refused 3 0");
}

/// Request 0 is missing, and a byte follows.
#[test]
fn point_1_the_build_before_what_is_behind_it() {
    assert_eq!(line("50600201000000"), "refused 4 1");
}

/// 65,536 Ints and then `last`, which would be constant 65,536.
fn behind_a_full_table(last: &str) -> String {
    let mut job = bytes("03 00000000").repeat(65_536);
    job.extend(bytes(last));
    driver::run_job(&job).line()
}

/// One constant too many that also cites a bootstrap which is missing; and one that is also cut.
#[test]
fn point_1_3_before_5_before_4_in_a_record() {
    assert_eq!(behind_a_full_table("11 01 0000 00 0001"), "refused 5 65536");
    assert_eq!(behind_a_full_table("11 01 0000 00 00"), "refused 3 65536");
    assert_eq!(behind_a_full_table("11 01 0000 03"), "refused 3 65536");
}

// Point 2: where a missing, cut or misplaced record and bytes after 60 are refused.

#[test]
fn point_2_a_missing_record_has_the_number_it_would_have() {
    assert_eq!(line(""), "refused 3 0");
    assert_eq!(line("50"), "refused 3 1");
    assert_eq!(line("03 00000001"), "refused 3 1");
    assert_eq!(line("50 51 00 0001"), "refused 3 2");
}

#[test]
fn point_2_a_cut_record_has_its_own_number() {
    assert_eq!(line("506002"), "refused 3 1");
    assert_eq!(line("03 000000"), "refused 3 0");
    assert_eq!(line("01 0002 41"), "refused 3 0");
    assert_eq!(line("03 00000001 41 02 78"), "refused 3 1");
    // A bootstrap that announces two arguments and has one.
    assert_eq!(line("40 00 0001 0002 00 0001"), "refused 3 0");
}

/// A request before 50, a second 50, a definition of each kind behind 50, a build before 50.
#[test]
fn point_2_a_record_out_of_place_has_its_own_number() {
    assert_eq!(line("51 00 0001 50 60 02 00 0000"), "refused 3 0");
    assert_eq!(line("52 00 0001 50 60 02 00 0000"), "refused 3 0");
    assert_eq!(line("60 02 00 0000"), "refused 3 0");
    assert_eq!(line("50 50 60 02 00 0000"), "refused 3 1");
    for definition in [
        "03 00000001",
        "40 00 0001 0000",
        "41 01 78 00 0001",
        "42 01 78 00 0001",
        "43 0001 0000",
        "44 0001 0000",
    ] {
        let job = format!("50 {definition} 60 02 00 0000");
        assert_eq!(line(&job), "refused 3 1", "{definition}");
    }
}

#[test]
fn point_2_bytes_after_60_have_the_next_number() {
    assert_eq!(line("50600200000000"), "refused 3 2");
    // Even if they would be a record.
    assert_eq!(line("50 60 02 00 0000 51 00 0001"), "refused 3 2");
}

// Point 3: tags are decimal, kinds from 40 on are hex.

/// Each tag with its fields, and the entry that it becomes when asked: the same bytes without the
/// references' form bytes. Visits: entered and left, and a visit for each raw reference.
#[test]
fn point_3_every_tag_is_decimal() {
    let by_tag = [
        ("01 0002 4142", "01 0002 4142", "0002", 2),
        ("03 80000001", "03 80000001", "0002", 2),
        ("04 7fc00001", "04 7fc00001", "0002", 2),
        ("05 8000000000000001", "05 8000000000000001", "0003", 2),
        ("06 7ff8000000000001", "06 7ff8000000000001", "0003", 2),
        ("07 00 0102", "07 0102", "0002", 3),
        ("08 00 0102", "08 0102", "0002", 3),
        ("09 00 0102 00 0304", "09 0102 0304", "0002", 4),
        ("0a 00 0102 00 0304", "0a 0102 0304", "0002", 4),
        ("0b 00 0102 00 0304", "0b 0102 0304", "0002", 4),
        ("0c 00 0102 00 0304", "0c 0102 0304", "0002", 4),
        ("0f ff 00 0102", "0f ff 0102", "0002", 3),
        ("10 00 0102", "10 0102", "0002", 3),
        ("11 00 0102 00 0304", "11 0102 0304", "0002", 4),
        ("12 00 0102 00 0304", "12 0102 0304", "0002", 4),
        ("13 00 0102", "13 0102", "0002", 3),
        ("14 00 0102", "14 0102", "0002", 3),
    ];
    for (record, entry, count, visits) in by_tag {
        let job = format!("{record} 50 51 01 0000 60 02 00 0000");
        let pool = bytes(&format!("{count} {entry}"));
        let expected = built_pool(vec![1], pool, visits);
        assert_eq!(driver::run_job(&bytes(&job)), expected, "{record}");
    }
}

/// Bytes beside the tags, the kinds read as decimal (28 to 3c), and bytes beside the kinds.
#[test]
fn point_3_every_other_kind_is_unknown() {
    // 46 is a record of document 02 that the driver works out.
    let known = [
        1, 0x40, 0x41, 0x42, 0x43, 0x44, 0x46, 0x50, 0x51, 0x52, 0x60,
    ];
    for kind in 0..=255u8 {
        let is_known = known.contains(&kind) || matches!(kind, 3..=12 | 15..=20);
        if !is_known {
            let job = format!("{kind:02x} {} ", "00".repeat(40));
            assert_eq!(line(&job), "refused 3 0", "kind {kind}");
        }
    }
}

#[test]
fn point_3_unknown_form_bytes() {
    assert_eq!(line("07 03 0001"), "refused 3 0");
    assert_eq!(line("50 60 03 00 0000"), "refused 3 1");
    assert_eq!(line("50 60 02 02 0000"), "refused 3 1");
}

// Point 4: what a number counts, and what a name is. That names and kind bytes are no literals
// concerns demand 3 alone and shows in no single run.

#[test]
fn point_4_a_record_does_not_cite_itself() {
    assert_eq!(line("07 01 0000"), "refused 4 0");
    assert_eq!(line("0c 00 0001 01 0000"), "refused 4 0");
    // A bootstrap has no number among the constants, so this handle is missing too.
    assert_eq!(line("40 01 0000 0000"), "refused 4 0");
    assert_eq!(line("50 60 02 01 0000"), "refused 4 1");
}

/// One bootstrap and no constant: number 0 is there only where bootstraps are numbered.
#[test]
fn point_4_numbers_of_bootstraps() {
    let bootstrap = "40 00 0001 0000";
    for record in ["42 01 78 01 0000", "44 0000 0000", "11 01 0000 00 0001"] {
        let job = format!("{bootstrap} {record} ff");
        assert_eq!(line(&job), "refused 3 2", "{record}");
    }
    for record in [
        "41 01 78 01 0000",
        "43 0001 0000",
        "07 01 0000",
        "11 00 0001 01 0000",
        "40 01 0000 0000",
        "40 00 0001 0001 01 0000",
    ] {
        let job = format!("{bootstrap} {record} ff");
        assert_eq!(line(&job), "refused 4 1", "{record}");
    }
    assert_eq!(line(&format!("{bootstrap} 50 51 01 0000")), "refused 4 2");
    assert_eq!(line(&format!("{bootstrap} 50 52 01 0000")), "refused 4 2");
}

/// One constant and no bootstrap, the other way round.
#[test]
fn point_4_numbers_of_constants() {
    let constant = "03 00000001";
    for record in [
        "41 01 78 01 0000",
        "43 0001 0000",
        "07 01 0000",
        "11 00 0001 01 0000",
        "12 00 0001 01 0000",
        "40 01 0000 0001 01 0000",
    ] {
        let job = format!("{constant} {record} ff");
        assert_eq!(line(&job), "refused 3 2", "{record}");
    }
    for record in [
        "42 01 78 01 0000",
        "44 0000 0000",
        "11 01 0000 00 0001",
        "12 01 0000 00 0001",
    ] {
        let job = format!("{constant} {record} ff");
        assert_eq!(line(&job), "refused 4 1", "{record}");
    }
}

/// Every request counts, by ldc or not: request 1 is there behind two, request 2 is not.
#[test]
fn point_14_requests_are_counted_from_0() {
    let requests = "50 51 00 0001 52 00 0002";
    assert_eq!(
        line(&format!("{requests} 60 02 01 0001")),
        "built answers 2 1 raw 2 raw pool 2 0001 bootstraps 0 0 - name 0 class none visits 2"
    );
    assert_eq!(line(&format!("{requests} 60 02 01 0002")), "refused 4 3");
}

/// The name of no bytes leads to raw slot 5.
#[test]
fn point_4_an_empty_name_is_a_name() {
    assert_eq!(
        line("41 00 00 0005 50 51 02 00 60 02 00 0000"),
        "built answers 1 5 raw pool 2 0001 bootstraps 0 0 - name 0 class none visits 1"
    );
    assert_eq!(line("50 51 02 00 60 02 00 0000"), "refused 12 1");
}

/// x names raw slot 5 and raw bootstrap 3; the Dynamic's first reference is the bootstrap's.
#[test]
fn point_4_names_of_both_kinds_are_apart() {
    let both = "41 01 78 00 0005 42 01 78 00 0003";
    let job = format!("{both} 11 02 01 78 02 01 78 50 51 01 0000 60 02 00 0000");
    let pool = "00021100030005";
    let expected =
        format!("built answers 1 1 new pool 7 {pool} bootstraps 0 0 - name 0 class none visits 4");
    assert_eq!(line(&job), expected);
    // A name of one kind is unknown to the other.
    let job = "42 01 78 00 0003 50 51 02 01 78 60 02 00 0000";
    assert_eq!(line(job), "refused 12 2");
}

/// Bytes that are no text, and bytes that read like the hex text of others.
#[test]
fn point_4_names_are_any_bytes() {
    let job = "41 01 ff 00 0005 41 02 6666 00 0006 41 01 00 00 0007 \
               50 51 02 01 ff 51 02 02 6666 51 02 01 00 60 02 00 0000";
    assert_eq!(
        line(job),
        "built answers 3 5 raw 6 raw 7 raw pool 2 0001 bootstraps 0 0 - name 0 class none visits 3"
    );
}

// Point 5: a raw reference asked for costs one visit, looking up again on leaving none.

#[test]
fn point_5_a_raw_reference_asked() {
    assert_eq!(
        line("50 51 00 0007 51 00 0007 60 02 00 0000"),
        "built answers 2 7 raw 7 raw pool 2 0001 bootstraps 0 0 - name 0 class none visits 2"
    );
}

/// The Class entered, its named text entered and left, the Class left: 4, though the name is
/// looked up again on leaving. Asked once more it is only entered: 5.
#[test]
fn point_5_leaving_looks_up_for_nothing() {
    let job = "01 0001 41 41 01 78 01 0000 07 02 01 78 50 51 01 0001 51 01 0001 60 02 00 0000";
    assert_eq!(
        line(job),
        "built answers 2 1 new 1 old pool 9 000307000201000141 bootstraps 0 0 - name 0 class none visits 5"
    );
}

/// Following x to y to the Int costs nothing on top of the Int's two.
#[test]
fn point_5_names_cost_nothing() {
    let job = "03 00000001 41 01 78 02 01 79 41 01 79 01 0000 50 51 02 01 78 60 02 00 0000";
    assert_eq!(
        line(job),
        "built answers 1 1 new pool 7 00020300000001 bootstraps 0 0 - name 0 class none visits 2"
    );
}

// Point 6: a slot above 255 that a constant has already gives 16 to ldc, not 15.

/// Records: three constants, raw definitions 3 to 257, 50 at 258, then the requests.
fn with_slots_to_255_raw(requests: &[Record]) -> Outcome {
    let mut records = vec![int(1), int(2), long(3)];
    records.extend(raw_constants(1..=255, 0));
    records.push(Record::EndOfDefinitions);
    records.extend_from_slice(requests);
    records.push(build());
    outcome(&records)
}

/// The only gap is 256 to 65534, so the Int asked for first has 256.
#[test]
fn point_6_a_slot_above_255_is_16_for_ldc() {
    let met = with_slots_to_255_raw(&[ask(1), ask_ldc(1)]);
    assert_eq!(met, refused(16, 260));
    // Without a slot yet it is 15.
    assert_eq!(with_slots_to_255_raw(&[ask_ldc(1)]), refused(15, 259));
    // The first answer is indeed 256.
    match with_slots_to_255_raw(&[ask(1)]) {
        Outcome::Built(built) => assert_eq!(built.answers, [256]),
        other => panic!("{}", other.line()),
    }
}

/// A wide one is given 256 and 257 even for ldc; asked for before or not, it is 16.
#[test]
fn point_6_a_wide_one_given_such_a_slot_is_16() {
    assert_eq!(with_slots_to_255_raw(&[ask_ldc(2)]), refused(16, 259));
    let met = with_slots_to_255_raw(&[ask(2), ask_ldc(2)]);
    assert_eq!(met, refused(16, 260));
}

// Point 7: children get slots before an index is looked for; sharing is looked for before raw
// bootstraps are written; an inline bootstrap equal only to a raw one does not share.

/// All slots and all bootstrap indexes raw, and at slot 1 a Dynamic of an inline bootstrap with
/// the given handle. Records: five, raw constants 5 to 65537, raw bootstraps 65538 to 131072, 50
/// at 131073, the build at 131074.
fn everything_full(inline_handle: Reference) -> Outcome {
    let mut records = vec![
        int(1),
        bootstrap(Reference::Raw(9)),
        bootstrap(inline_handle),
        dynamic(1, 2),
        Record::RawConstant { slot: 1, entry: 1 },
    ];
    records.extend(raw_constants(2..=65_534, 0));
    records.extend(raw_bootstraps(0..=65_534, 0));
    records.extend([Record::EndOfDefinitions, build()]);
    outcome(&records)
}

/// The inline handle finds no slot before the bootstrap can find no index.
#[test]
fn point_7_14_before_17() {
    assert_eq!(everything_full(Reference::Entry(0)), refused(14, 131_074));
    assert_eq!(everything_full(Reference::Raw(8)), refused(17, 131_074));
}

/// Raw bootstraps 1 to 65534, and two Dynamics asked for: of bootstrap 1 and of the given one.
fn two_dynamics_and_one_free_index(second_bootstrap: u16) -> Outcome {
    let mut records = vec![
        bootstrap(Reference::Raw(9)),
        bootstrap(Reference::Raw(8)),
        bootstrap(Reference::Raw(7)),
        dynamic(1, 1),
        dynamic(second_bootstrap, 2),
    ];
    records.extend(raw_bootstraps(1..=65_534, 0));
    records.extend([Record::EndOfDefinitions, ask(0), ask(1), build()]);
    outcome(&records)
}

/// One takes index 0, the other shares it though all indexes are used by then. Visits: raw
/// bootstraps 65,534 entries, one handle, one leaving; the first Dynamic 6 (itself and the
/// bootstrap entered and left, two raw ones), the second 4 (its bootstrap is done).
#[test]
fn point_7_sharing_before_raw_ones_are_written() {
    let mut bootstraps = bytes("0008 0000");
    bootstraps.extend(bytes("0009 0000").repeat(65_534));
    let expected = Outcome::Built(Built {
        answers: vec![1, 2],
        marks: vec![Mark::New; 2],
        pool: bytes("0003 11 0000 0001 11 0000 0002"),
        bootstrap_count: 65_535,
        bootstraps,
        name_slot: 0,
        class_name: None,
        visits: 65_546,
    });
    assert!(two_dynamics_and_one_free_index(1) == expected);
    // 65,539 definitions, 50, two requests: the build is record 65542.
    assert_eq!(two_dynamics_and_one_free_index(2), refused(17, 65_542));
}

/// The raw bootstrap 0 is written first, the equal inline one gets 1. Visits: the bootstrap and
/// its handle 3, the Dynamic 4.
#[test]
fn point_7_an_inline_bootstrap_does_not_share_with_a_raw_one() {
    let job = "40 00 0009 0000 44 0000 0000 11 01 0000 00 0001 50 51 01 0000 60 02 00 0000";
    assert_eq!(
        line(job),
        "built answers 1 1 new pool 7 00021100010001 bootstraps 2 8 0009000000090000 \
         name 0 class none visits 7"
    );
}

/// Sharing goes by numbers: a raw handle 1 and an inline handle given slot 1 are one bootstrap.
/// Visits: the Int 2, each Dynamic 6.
#[test]
fn point_7_equal_numbers_share() {
    let job = "03 00000001 40 00 0001 0000 40 01 0000 0000 11 01 0000 00 0007 11 01 0001 00 0008 \
               50 51 01 0000 51 01 0001 51 01 0002 60 02 00 0000";
    let pool = "0004 0300000001 1100000007 1100000008".replace(' ', "");
    let expected = format!(
        "built answers 3 1 new 2 new 3 new pool 17 {pool} bootstraps 1 4 00010000 name 0 class none visits 14"
    );
    assert_eq!(line(job), expected);
}

// Point 8: "if present" counts bootstraps after the holes are filled.

/// A Dynamic of raw bootstrap 5 makes no bootstrap: count 0 and no name.
#[test]
fn point_8_a_dynamic_of_a_raw_bootstrap_is_no_bootstrap() {
    assert_eq!(
        line("11 00 0005 00 0001 50 51 01 0000 60 01 00 0000"),
        "built answers 1 1 new pool 7 00021100050001 bootstraps 0 0 - name 0 class none visits 4"
    );
}

/// A raw bootstrap 2 alone counts as three, so the name is there.
#[test]
fn point_8_filled_holes_are_present() {
    let copies = "00090000".repeat(3);
    let expected = format!(
        "built answers 0 pool 21 0002010010{NAME} bootstraps 3 12 {copies} \
         name 1 class none visits 3"
    );
    let job = "40 00 0009 0000 44 0002 0000 50 60 01 00 0000";
    assert_eq!(line(job), expected);
}

// Point 9: the class name is read after the name has its slot.

/// The Class at 1 points to raw slot 2, which the name takes.
#[test]
fn point_9_the_name_can_be_the_class_name() {
    let expected = format!(
        "built answers 1 1 new pool 24 0003070002010010{NAME} bootstraps 0 0 - name 2 \
         class 16 {NAME} visits 3"
    );
    assert_eq!(line("0700000250510100006000010000"), expected);
}

/// An equal text that has a slot lends it to the name.
#[test]
fn point_9_the_name_shares_with_an_equal_text() {
    let job = format!("01 0010 {NAME} 50 51 01 0000 60 00 00 0000");
    let expected = format!(
        "built answers 1 1 new pool 21 0002010010{NAME} bootstraps 0 0 - name 1 class none visits 2"
    );
    assert_eq!(line(&job), expected);
}

// Point 10: slot 65535 counts as unowned; the second half of a wide constant holds nothing.

#[test]
fn point_10_slot_65535_counts_as_unowned() {
    assert_eq!(
        line("50 60 02 00 ffff"),
        "built answers 0 pool 2 0001 bootstraps 0 0 - name 0 class none visits 0"
    );
    assert_eq!(
        line("07 00 ffff 50 51 01 0000 60 02 01 0000"),
        "built answers 1 1 new pool 5 000207ffff bootstraps 0 0 - name 0 class 0 - visits 3"
    );
}

/// A Long raw at 1 and a Class of raw 2 at 3. Neither that Class nor slot 2 itself has a name.
#[test]
fn point_10_a_second_half_holds_nothing() {
    let expected = "built answers 1 3 new pool 14 0004050000000000000001070002 bootstraps 0 0 - \
                    name 0 class none visits 5";
    for class in ["01 0000", "00 0003", "00 0002"] {
        let job =
            format!("05 0000000000000001 43 0001 0000 07 00 0002 50 51 01 0001 60 02 {class}");
        assert_eq!(line(&job), expected, "{class}");
    }
}

// Point 11 (poolrun's limit and newlines) belongs to the program poolrun, and point 12 ("wholly
// zero", room for no bytes) to lent memory. The Rust has neither, so no job shows them here.

// Point 13: pools and bootstraps longer than 16 bits count, and more constants than slots.

/// Two texts of 65,535 bytes: 2 + 2 x (3 + 65,535) bytes.
#[test]
fn point_13_a_pool_longer_than_65535_bytes() {
    let texts = [vec![b'a'; 65_535], vec![b'b'; 65_535]];
    let records = [
        constant(1, &texts[0], vec![]),
        constant(1, &texts[1], vec![]),
        Record::EndOfDefinitions,
        ask(0),
        ask(1),
        build(),
    ];
    let mut pool = bytes("0003");
    for text in texts {
        pool.extend(bytes("01 ffff"));
        pool.extend(text);
    }
    assert_eq!(pool.len(), 131_078);
    assert!(outcome(&records) == built_pool(vec![1, 2], pool, 4));
}

/// Both tables take entry 65,535, and what is not asked for gets no slot.
#[test]
fn point_13_65536_distinct_constants_of_which_one_is_asked() {
    let mut records: Vec<Record> = (0..65_536).map(int).collect();
    records.extend([Record::EndOfDefinitions, ask(65_535), build()]);
    let pool = bytes("0002 03 0000ffff");
    assert_eq!(outcome(&records), built_pool(vec![1], pool, 2));
}

/// A bootstrap of 65,535 arguments at index 1 and so twice: 2 x (4 + 2 x 65,535) bytes. Visits:
/// the bootstrap entered and left, and 65,536 raw references.
#[test]
fn point_13_bootstraps_longer_than_65535_bytes() {
    let records = [
        Record::Bootstrap {
            handle: Reference::Raw(9),
            arguments: vec![Reference::Raw(7); 65_535],
        },
        Record::RawBootstrap { index: 1, entry: 0 },
        Record::EndOfDefinitions,
        build(),
    ];
    let mut copy = bytes("0009 ffff");
    copy.extend(bytes("0007").repeat(65_535));
    let expected = Outcome::Built(Built {
        answers: vec![],
        marks: vec![],
        pool: bytes("0001"),
        bootstrap_count: 2,
        bootstraps: copy.repeat(2),
        name_slot: 0,
        class_name: None,
        visits: 65_538,
    });
    assert!(outcome(&records) == expected);
}

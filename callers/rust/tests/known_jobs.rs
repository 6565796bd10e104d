//! The jobs of document 01 with known results, cases a to k, through `build`. Each expected result is worked out from the
//! document's words.

mod common;

use common::*;
use rotblossom::{Built, Mark};

const ATTRIBUTE: &[u8] = b"BootstrapMethods";

#[test]
fn a_nothing_asked() {
    assert_eq!(build("50 60 02 00 0000"), Ok(plain(&[], bytes("0001"), 0)));
}

/// The name takes slot 1: count 2, then tag 1, length 16 and the text, 21 bytes.
#[test]
fn a_with_the_name_always() {
    let mut pool = bytes("0002 01 0010");
    pool.extend_from_slice(ATTRIBUTE);
    assert_eq!(pool.len(), 21);
    let expected = Built {
        name_slot: 1,
        ..plain(&[], pool, 0)
    };
    assert_eq!(build("50 60 00 00 0000"), Ok(expected));
}

/// As the document prints it.
#[test]
fn b_a_class_and_its_text() {
    let expected = Built {
        class_name: Some(b"A".to_vec()),
        ..plain(&[1], bytes("000307000201000141"), 4)
    };
    assert_eq!(build(CASE_B), Ok(expected));
}

/// Gaps 1 to 4 and 6 to 65534: the second is the odd one, so the Class gets 6; its own text gets 1. Six visits: three
/// constants are entered and left.
#[test]
fn c_a_raw_text_is_not_shared() {
    let job = "01 0003 666f6f 43 0005 0000 01 0003 666f6f 07 01 0001 50 51 01 0002 60 02 01 0000";
    let pool = bytes("0007 010003666f6f 010000 010000 010000 010003666f6f 070001");
    assert_eq!(pool.len(), 26);
    let expected = Built {
        class_name: Some(b"foo".to_vec()),
        ..plain(&[6], pool, 6)
    };
    assert_eq!(build(job), Ok(expected));
}

/// Gaps 1 and 3 to 65534: the Long needs two neighbours, 3; the Int takes the odd gap, 1.
#[test]
fn d_a_long_then_an_int_around_a_raw_int() {
    let job = "03 00000001 05 0000000000000002 03 00000003 43 0002 0000 \
               50 51 01 0001 51 01 0002 60 02 00 0000";
    let pool = bytes("0005 0300000003 0300000001 050000000000000002");
    assert_eq!(build(job), Ok(plain(&[3, 1], pool, 6)));
}

#[test]
fn e_raw_constants_in_each_others_way() {
    let long = "05 0000000000000001";
    let int = "03 00000001";
    let end = "50 60 02 00 0000";
    let twice = format!("{long} 43 0007 0000 43 0007 0000 {end}");
    assert_eq!(build(&twice), Err(refusal(7, 2)));
    let int_then_long = format!("{int} {long} 43 0007 0000 43 0007 0001 {end}");
    assert_eq!(build(&int_then_long), Err(refusal(8, 3)));
    let long_then_int = format!("{long} {int} 43 0007 0000 43 0008 0001 {end}");
    assert_eq!(build(&long_then_int), Err(refusal(7, 3)));
}

#[test]
fn f_names_for_each_other() {
    let circle = "41 01 78 02 01 79 41 01 79 02 01 78";
    let unused = format!("{circle} 50 60 02 00 0000");
    assert_eq!(build(&unused), Ok(plain(&[], bytes("0001"), 0)));
    let asked = format!("{circle} 50 51 02 01 78 60 02 00 0000");
    assert_eq!(build(&asked), Err(refusal(13, 3)));
    assert_eq!(build("50 51 02 01 78 60 02 00 0000"), Err(refusal(12, 1)));
}

/// Holes 0 and 1 repeat the raw bootstrap above them.
#[test]
fn g_raw_bootstrap_2_alone() {
    let expected = Built {
        bootstrap_count: 3,
        bootstraps: bytes("00090000 00090000 00090000"),
        ..plain(&[], bytes("0001"), 3)
    };
    let job = "40 00 0009 0000 44 0002 0000 50 60 02 00 0000";
    assert_eq!(build(job), Ok(expected));
}

#[test]
fn h_a_class_of_a_raw_slot() {
    let of_0 = build("07 00 0000 50 51 01 0000 60 02 01 0000");
    assert_eq!(of_0, Ok(plain(&[1], bytes("0002 070000"), 3)));
    let of_9 = build("07 00 0009 50 51 01 0000 60 02 01 0000");
    let expected = Built {
        class_name: Some(vec![]),
        ..plain(&[1], bytes("0002 070009"), 3)
    };
    assert_eq!(of_9, Ok(expected));
}

#[test]
fn i_ldc_of_a_raw_slot() {
    let of_255 = build("50 52 00 00ff 60 02 00 0000");
    let expected = Built {
        marks: vec![Mark::Raw],
        ..plain(&[255], bytes("0001"), 1)
    };
    assert_eq!(of_255, Ok(expected));
    assert_eq!(build("50 52 00 0100 60 02 00 0000"), Err(refusal(16, 1)));
}

/// Records: the Int 0, what is asked 1, raw definitions 2 to 256, 50 at 257, the ldc request at 258.
#[test]
fn j_ldc_with_slots_1_to_255_raw() {
    let with = |asked: &str| {
        let mut job = bytes("03 00000001");
        job.extend(bytes(asked));
        job.extend(raw_definitions(0x43, 1..=255));
        job.extend(bytes("50 52 01 0001 60 02 00 0000"));
        rotblossom::build(&job)
    };
    assert_eq!(with("03 00000002"), Err(refusal(15, 258)));
    assert_eq!(with("05 0000000000000002"), Err(refusal(16, 258)));
}

/// No gap ends at 65534: 65,532 empty texts stand before the Long, whose second half writes nothing.
#[test]
fn k_a_long_at_the_top() {
    let at = |slot: &str| {
        build(&format!(
            "05 0000000000000001 43 {slot} 0000 50 60 02 00 0000"
        ))
    };
    let mut pool = bytes("ffff");
    pool.extend(bytes("010000").repeat(65_532));
    pool.extend(bytes("05 0000000000000001"));
    assert!(at("fffd") == Ok(plain(&[], pool, 2)));
    assert_eq!(at("fffe"), Err(refusal(6, 1)));
}

/// Records: the Int, 65,534 raw definitions, 50 at 65535, the request at 65536. A raw definition isn't reused for an equal
/// inline constant.
#[test]
fn k_all_slots_raw() {
    let with = |request: &str| {
        let mut job = bytes("03 00000001");
        job.extend(raw_definitions(0x43, 1..=65_534));
        job.extend(bytes(&format!("50 {request} 01 0000 60 02 00 0000")));
        rotblossom::build(&job)
    };
    assert_eq!(with("51"), Err(refusal(14, 65_536)));
    assert_eq!(with("52"), Err(refusal(15, 65_536)));
}

/// Records: the bootstrap, the Dynamic, raw definitions 2 to 65536, 50, the request, the build, which tells the bootstrap's.
#[test]
fn k_all_indexes_raw_and_an_inline_bootstrap() {
    let mut job = bytes("40 00 0001 0000 11 01 0000 00 0001");
    job.extend(raw_definitions(0x44, 0..=65_534));
    job.extend(bytes("50 51 01 0000 60 02 00 0000"));
    assert_eq!(rotblossom::build(&job), Err(refusal(17, 0)));
}

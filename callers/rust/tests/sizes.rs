//! Jobs whose outputs are longer than what `build` lends at first, which is 65,536 bytes more than the job has.

mod common;

use common::*;
use rotblossom::{Built, Mark};

const NO_REQUEST: &str = "50 60 02 00 0000";

/// A text of 65,535 bytes raw at slots 1 to `last`.
fn repeated_text(last: u16) -> Vec<u8> {
    let mut job = long_text(65_535, b'x');
    job.extend(raw_definitions(0x43, 1..=last));
    job.extend(bytes(NO_REQUEST));
    job
}

/// Its build: each entry is the text's record again. Every raw definition enters the text, the first leaves it too.
fn repeated_text_built(last: u16) -> Built {
    let mut pool = (last + 1).to_be_bytes().to_vec();
    pool.extend(long_text(65_535, b'x').repeat(last.into()));
    plain(&[], pool, usize::from(last) + 1)
}

/// A bootstrap whose references are raw, at index 65534.
fn last_row(arguments: u16) -> Vec<u8> {
    let mut job = bytes("40 00 0009");
    job.extend(arguments.to_be_bytes());
    job.extend(bytes("00 0007").repeat(arguments.into()));
    job.extend(bytes("44 fffe 0000"));
    job.extend(bytes(NO_REQUEST));
    job
}

/// The row that stands 65,535 times in its build, since the holes below repeat it.
fn row(arguments: u16) -> Vec<u8> {
    let mut row = bytes("0009");
    row.extend(arguments.to_be_bytes());
    row.extend(bytes("0007").repeat(arguments.into()));
    row
}

/// The bootstrap is entered and left, and each reference is entered.
fn last_row_built(arguments: u16) -> Built {
    Built {
        bootstrap_count: 65_535,
        bootstraps: row(arguments).repeat(65_535),
        ..plain(&[], bytes("0001"), 3 + usize::from(arguments))
    }
}

fn builds(job: &[u8], expected: Built) {
    // Not assert_eq, which would print megabytes.
    assert!(rotblossom::build(job) == Ok(expected));
}

/// Three texts asked for, in a pool of 180,011 bytes.
#[test]
fn long_texts_asked_for() {
    let mut job = vec![];
    let mut pool = bytes("0004");
    for byte in [b'a', b'b', b'c'] {
        let text = long_text(60_000, byte);
        job.extend_from_slice(&text);
        pool.extend_from_slice(&text);
    }
    job.extend(bytes("50 51 01 0000 51 01 0001 51 01 0002 60 02 00 0000"));
    assert_eq!(pool.len(), 180_011);
    builds(&job, plain(&[1, 2, 3], pool, 6));
}

/// 1,048,610 bytes of pool from a job of 65,624: more than is lent at first, less than what is lent next.
#[test]
fn a_long_text_at_16_slots() {
    let (job, expected) = (repeated_text(16), repeated_text_built(16));
    assert_eq!((job.len(), expected.pool.len()), (65_624, 1_048_610));
    builds(&job, expected);
}

/// 65,538,002 bytes of pool.
#[test]
fn a_long_text_at_1000_slots() {
    let expected = repeated_text_built(1000);
    assert_eq!(expected.pool.len(), 65_538_002);
    builds(&repeated_text(1000), expected);
}

/// The empty name leads to raw slot 5, and a request for it has three bytes, the fewest: 30,000 answers, a visit each.
#[test]
fn as_many_answers_as_a_job_can_have() {
    let mut job = bytes("41 00 00 0005 50");
    job.extend(bytes("51 02 00").repeat(30_000));
    job.extend(bytes("60 02 00 0000"));
    let expected = Built {
        marks: vec![Mark::Raw; 30_000],
        ..plain(&[5; 30_000], bytes("0001"), 30_000)
    };
    builds(&job, expected);
}

/// Case b with a text of 65,535 bytes.
#[test]
fn the_longest_class_name() {
    let text = long_text(65_535, b'n');
    let mut job = text.clone();
    job.extend(bytes("07 01 0000 50 51 01 0001 60 02 01 0000"));
    let mut pool = bytes("0003 070002");
    pool.extend_from_slice(&text);
    let expected = Built {
        class_name: Some(vec![b'n'; 65_535]),
        ..plain(&[1], pool, 4)
    };
    builds(&job, expected);
}

/// A sum of 131,072 ones, each half of it a sum of two halves: 18 deep, 786,431 bytes.
#[test]
fn a_long_expression() {
    let mut sum = bytes("03 00000001");
    for _ in 0..17 {
        sum = [b"+", &sum[..], &sum[..]].concat();
    }
    assert_eq!(sum.len(), 786_431);
    let mut job = vec![0x46];
    job.extend(sum);
    job.extend(bytes("50 51 01 0000 60 02 00 0000"));
    builds(&job, plain(&[1], bytes("0002 03 00020000"), 2));
}

/// 262,140 bytes of bootstraps, and 13,369,140.
#[test]
fn a_bootstrap_at_every_index() {
    for (arguments, length) in [(0, 262_140), (100, 13_369_140)] {
        let expected = last_row_built(arguments);
        assert_eq!(expected.bootstraps.len(), length);
        builds(&last_row(arguments), expected);
    }
}

#[test]
#[ignore = "the longest pool that there is takes 4.3 GB of memory"]
fn a_long_text_at_every_slot() {
    let pool = rotblossom::build(&repeated_text(65_534)).unwrap().pool;
    assert_eq!(pool.len(), 4_294_967_294);
    assert_eq!(pool[..2], [0xff, 0xff]);
    let text = long_text(65_535, b'x');
    assert!(pool[2..].chunks(65_538).all(|entry| entry == text));
}

#[test]
#[ignore = "the longest bootstraps that there are take 8.6 GB of memory"]
fn the_longest_row_at_every_index() {
    let built = rotblossom::build(&last_row(65_535)).unwrap();
    assert_eq!(built.bootstraps.len(), 8_589_934_590);
    let row = row(65_535);
    assert!(
        built
            .bootstraps
            .chunks(131_074)
            .all(|written| written == row)
    );
}

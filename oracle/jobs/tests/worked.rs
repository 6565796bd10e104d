//! Jobs with record 46.

mod common;

use common::well_formed;
use jobs::random::Random;
use jobs::record::Record;
use jobs::worked::{worked_job, worked_pair};
use std::collections::BTreeSet;

const COUNT: usize = 3_000;

fn expressions(records: &[Record]) -> Vec<&[u8]> {
    let all = records.iter().filter_map(|record| match record {
        Record::Expression(bytes) => Some(&bytes[..]),
        _ => None,
    });
    all.collect()
}

/// Leaves and signs on the longest path, where all bytes are such.
fn depth(bytes: &[u8]) -> Option<usize> {
    let (mut at, mut deepest, mut above) = (0, 0, vec![0]);
    while let Some(signs) = above.pop() {
        deepest = deepest.max(signs + 1);
        at += match bytes.get(at)? {
            3 | 4 => 5,
            5 | 6 => 9,
            b'+' | b'-' | b'*' | b'/' => {
                above.extend([signs + 1; 2]);
                1
            }
            _ => return None,
        };
    }
    Some(deepest)
}

/// All kinds and signs, every depth up to 33, with settings and without.
#[test]
fn expressions_are_many() {
    let mut random = Random::new(19);
    let (mut first_bytes, mut depths, mut with_settings) = (BTreeSet::new(), BTreeSet::new(), 0);
    for _ in 0..COUNT {
        let records = worked_job(&mut random);
        assert!(well_formed(&records), "{records:?}");
        let expressions = expressions(&records);
        assert!(!expressions.is_empty());
        first_bytes.extend(expressions.iter().map(|bytes| bytes[0]));
        depths.extend(expressions.into_iter().filter_map(depth));
        with_settings += usize::from(records.iter().any(Record::is_setting));
    }
    assert!(first_bytes.is_superset(&[3, 4, 5, 6, b'+', b'-', b'*', b'/'].into()));
    let wanted: BTreeSet<usize> = [1, 2, 3, 4, 5, 6, 7, 8, 16, 31, 32, 33].into();
    assert!(depths.is_superset(&wanted), "{depths:?}");
    assert!(with_settings > COUNT / 4 && with_settings < COUNT / 2);
}

/// At the same records, and of the same kinds.
#[test]
fn pairs_have_expressions_at_the_same_records() {
    let mut random = Random::new(20);
    let mut found = 0;
    for _ in 0..COUNT {
        let (first, second) = worked_pair(&mut random);
        assert!(well_formed(&second));
        assert_eq!(first.len(), second.len());
        let places = |records: &[Record]| -> Vec<(usize, Option<u8>)> {
            let all = records.iter().enumerate();
            all.filter_map(|(place, record)| match record {
                Record::Expression(bytes) => Some((place, kind(bytes))),
                _ => None,
            })
            .collect()
        };
        assert_eq!(places(&first), places(&second));
        found += expressions(&first).len();
    }
    assert!(found > COUNT);
}

/// That of the first leaf.
fn kind(bytes: &[u8]) -> Option<u8> {
    bytes.iter().copied().find(|byte| *byte < 7)
}

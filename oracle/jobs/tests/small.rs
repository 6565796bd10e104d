//! Small jobs, and pairs made from them.

mod common;

use common::well_formed;
use jobs::pairs::{literal_pair, order_pair, worked_order_pair};
use jobs::random::Random;
use jobs::record::{Constant, Record, encode};
use jobs::small::{LDC_FULL_LIMIT, SMALL_LIMIT, ldc_full_job, small_job};

const COUNT: usize = 3_000;

#[test]
fn small_jobs_are_well_formed_and_short() {
    let mut random = Random::new(11);
    let mut short = 0;
    for _ in 0..COUNT {
        let records = small_job(&mut random);
        assert!(well_formed(&records), "{records:?}");
        let length = encode(&records).len();
        assert!(length <= SMALL_LIMIT);
        short += usize::from(length <= 300);
    }
    assert!(short > COUNT * 9 / 10);
}

#[test]
fn jobs_with_full_low_slots_are_well_formed_and_short() {
    let mut random = Random::new(12);
    for _ in 0..COUNT / 10 {
        let records = ldc_full_job(&mut random);
        assert!(well_formed(&records), "{records:?}");
        assert!(encode(&records).len() <= LDC_FULL_LIMIT);
    }
}

/// The constants that hold a text or a number.
fn literals(records: &[Record]) -> Vec<&Constant> {
    let constants = records.iter().filter_map(|r| match r {
        Record::Constant(c) => Some(c),
        _ => None,
    });
    constants
        .filter(|c| [1, 3, 4, 5, 6].contains(&c.tag))
        .collect()
}

fn without_literals(records: &[Record]) -> Vec<Record> {
    let mut bare = records.to_vec();
    for record in &mut bare {
        if let Record::Constant(c) = record
            && [1, 3, 4, 5, 6].contains(&c.tag)
        {
            c.literal.clear();
        }
    }
    bare
}

#[test]
fn pairs_differ_in_literals_alone() {
    let mut random = Random::new(13);
    let mut different = 0;
    for _ in 0..COUNT {
        let (first, second) = literal_pair(&mut random);
        assert!(well_formed(&first) && well_formed(&second));
        assert_eq!(without_literals(&first), without_literals(&second));
        assert_equal_alike(&literals(&first), &literals(&second));
        different += usize::from(first != second);
    }
    assert!(different > COUNT * 3 / 4);
}

/// Demand 3's premises about two jobs' literals.
fn assert_equal_alike(first: &[&Constant], second: &[&Constant]) {
    for i in 0..first.len() {
        let tag = first[i].tag;
        let is_name = |c: &Constant| tag == 1 && c.literal == b"BootstrapMethods";
        assert_eq!(is_name(first[i]), is_name(second[i]));
        assert!(tag == 1 || first[i].literal.len() == second[i].literal.len());
        for j in (0..i).filter(|&j| first[j].tag == tag) {
            let (equal, equal_too) = (
                first[i].literal == first[j].literal,
                second[i].literal == second[j].literal,
            );
            assert_eq!(equal, equal_too);
        }
    }
}

fn is_41_to_44(record: &Record) -> bool {
    (0x41..=0x44).contains(&encode(std::slice::from_ref(record))[0])
}

#[test]
fn orders_move_names_and_raw_definitions_alone() {
    let mut random = Random::new(14);
    let mut different = 0;
    for _ in 0..COUNT {
        let (first, second) = order_pair(&mut random);
        // That entries stand ahead of what cites them is part of being well formed.
        assert!(well_formed(&first) && well_formed(&second));
        assert_moved(&first, &second);
        different += usize::from(first != second);
    }
    assert!(different > COUNT * 3 / 4);
}

#[test]
fn orders_of_every_kind_of_record_move_these_alone() {
    let mut random = Random::new(15);
    let mut different = 0;
    for _ in 0..COUNT {
        let (first, second) = worked_order_pair(&mut random);
        assert_moved(&first, &second);
        different += usize::from(first != second);
    }
    assert!(different > COUNT * 3 / 4);
}

fn assert_moved(first: &[Record], second: &[Record]) {
    let split = |records: &[Record]| -> (Vec<Record>, Vec<Record>) {
        records.iter().cloned().partition(is_41_to_44)
    };
    let ((mut moved, kept), (mut moved_too, kept_too)) = (split(first), split(second));
    assert_eq!(kept, kept_too);
    let by_bytes = |record: &Record| encode(std::slice::from_ref(record));
    moved.sort_by_key(by_bytes);
    moved_too.sort_by_key(by_bytes);
    assert_eq!(moved, moved_too);
}

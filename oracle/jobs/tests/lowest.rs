//! Jobs that are often refused while building.

mod common;

use common::well_formed;
use jobs::JOB_LIMIT;
use jobs::lowest::{lowest_full_job, lowest_job};
use jobs::random::Random;
use jobs::record::{Record, Reference, encode};
use std::collections::BTreeSet;

const COUNT: usize = 3_000;

fn entries(records: &[Record]) -> Vec<&Record> {
    let is_entry = |r: &&Record| matches!(r, Record::Constant(_) | Record::Bootstrap { .. });
    records.iter().filter(is_entry).collect()
}

fn references(record: &Record) -> Vec<&Reference> {
    match record {
        Record::Constant(constant) => constant.references.iter().collect(),
        Record::Bootstrap { handle, arguments } => [handle].into_iter().chain(arguments).collect(),
        _ => vec![],
    }
}

/// In most of them an entry is written twice, and in most one is cited by name.
#[test]
fn entries_are_repeated_and_cited_ahead() {
    let mut random = Random::new(19);
    let (mut repeated, mut named) = (0, 0);
    for _ in 0..COUNT {
        let records = lowest_job(&mut random);
        assert!(well_formed(&records), "{records:?}");
        let entries = entries(&records);
        let texts: BTreeSet<Vec<u8>> = entries
            .iter()
            .map(|r| encode(std::slice::from_ref(*r)))
            .collect();
        repeated += usize::from(texts.len() < entries.len());
        let mut cited = entries.iter().flat_map(|r| references(r));
        named += usize::from(cited.any(|r| matches!(r, Reference::Name(_))));
    }
    assert!(
        repeated > COUNT / 2 && named > COUNT / 2,
        "{repeated} {named}"
    );
}

/// Full are the slots or the indexes, but for a few.
#[test]
fn full_jobs_are_full_and_fit() {
    let mut random = Random::new(20);
    let (mut slots, mut indexes) = (0, 0);
    for _ in 0..40 {
        let records = lowest_full_job(&mut random);
        assert!(well_formed(&records));
        assert!(encode(&records).len() <= JOB_LIMIT);
        let count = |is: fn(&Record) -> bool| records.iter().filter(|r| is(r)).count();
        let full_slots = count(|r| matches!(r, Record::RawConstant { .. })) > 65_500;
        let full_indexes = count(|r| matches!(r, Record::RawBootstrap { .. })) > 65_500;
        assert!(full_slots || full_indexes);
        slots += usize::from(full_slots);
        indexes += usize::from(full_indexes);
    }
    assert!(slots > 9 && indexes > 9, "{slots} {indexes}");
}

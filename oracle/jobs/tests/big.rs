//! Heavy and large jobs.

mod common;

use common::well_formed;
use jobs::record::{Record, encode};
use jobs::{JOB_LIMIT, heavy, large};
use std::collections::BTreeSet;

#[test]
fn heavy_jobs_fit_but_for_those_meant_to_be_too_long() {
    for (name, make) in heavy::LIST {
        let meant_too_long = name.ends_with("refusal_1");
        assert_eq!(make().len() > JOB_LIMIT, meant_too_long, "{name}");
    }
}

#[test]
fn heavy_names_are_distinct() {
    let names: BTreeSet<&str> = heavy::LIST.iter().map(|(name, _)| *name).collect();
    assert_eq!(names.len(), heavy::LIST.len());
}

#[test]
fn large_jobs_fit_and_ask_for_as_many_distinct_constants_as_said() {
    for (kind, make) in large::KINDS {
        for n in [16, 23, 1_000, 1_001, 10_000, *large::SIZES.end()] {
            let records = make(n);
            assert!(well_formed(&records), "{kind} {n}");
            assert!(encode(&records).len() <= JOB_LIMIT, "{kind} {n}");
            let constants = records.iter().filter(|r| matches!(r, Record::Constant(_)));
            // Children are cited by number and distinct, so distinct records are distinct constants.
            let constants: BTreeSet<Vec<u8>> =
                constants.map(|r| encode(std::slice::from_ref(r))).collect();
            assert_eq!(constants.len(), n, "{kind} {n}");
            let asked: Vec<Vec<u8>> = records
                .iter()
                .filter(|r| matches!(r, Record::Ask(_)))
                .map(bytes)
                .collect();
            assert_eq!(asked.len(), n, "{kind} {n}");
            assert_eq!(
                asked.into_iter().collect::<BTreeSet<_>>().len(),
                n,
                "{kind} {n}"
            );
        }
    }
}

fn bytes(record: &Record) -> Vec<u8> {
    encode(std::slice::from_ref(record))
}

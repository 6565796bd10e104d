//! Generated jobs: the module answers every one of them, and pairs agree as the request says.

use driver::end_of_definitions::faults;
use driver::{Outcome, run_job};
use jobs::random::Random;
use jobs::record::{Record, encode};
use jobs::{damaged, heavy, pairs, small};
use std::collections::BTreeSet;

/// The refusal number, or 0 for a built job. A panic or an unknown message fails the test.
fn code(job: &[u8]) -> u8 {
    match run_job(job) {
        Outcome::Built { .. } => 0,
        Outcome::Refused { code, .. } => code,
        other => panic!("{}", other.line()),
    }
}

fn codes(count: usize, mut next: impl FnMut() -> Vec<u8>) -> BTreeSet<u8> {
    (0..count).map(|_| code(&next())).collect()
}

#[test]
fn small_jobs_are_well_formed_and_meet_the_refusals_of_small_jobs() {
    let mut random = Random::new(1);
    let met = codes(4_000, || encode(&small::small_job(&mut random)));
    assert_eq!(met, BTreeSet::from([0, 6, 7, 8, 9, 10, 11, 12, 13, 16]));
}

/// Small jobs in which 12 and 13 are both possible at record 50, with either as the first by document 01's order.
#[test]
fn small_jobs_have_several_faults_at_record_50() {
    let mut random = Random::new(5);
    let mut first_of_both = vec![];
    for _ in 0..4_000 {
        let records = small::small_job(&mut random);
        let Outcome::Refused { place, .. } = run_job(&encode(&records)) else {
            continue;
        };
        if records[place] == Record::EndOfDefinitions {
            let possible = faults(&records);
            if [12, 13].iter().all(|number| possible.contains(number)) {
                first_of_both.push(possible[0]);
            }
        }
    }
    for number in [12, 13] {
        assert!(
            first_of_both
                .iter()
                .filter(|first| **first == number)
                .count()
                >= 10
        );
    }
}

#[test]
fn damaged_jobs_meet_the_refusals_of_form() {
    let mut random = Random::new(2);
    let met = codes(4_000, || damaged::damaged_job(&mut random));
    assert!(met.is_superset(&BTreeSet::from([0, 3, 4])));
}

#[test]
fn heavy_jobs_meet_the_refusals_of_full_tables() {
    let met: BTreeSet<u8> = heavy::LIST.iter().map(|(_, make)| code(&make())).collect();
    assert!(met.is_superset(&BTreeSet::from([0, 1, 5, 14, 15, 16, 17])));
}

/// Demand 3 on what the module gives: answers, marks, counts, bootstrap bytes and name slot don't depend on literals.
#[test]
fn layout_depends_on_shape_alone() {
    let mut random = Random::new(3);
    for _ in 0..1_000 {
        let (first, second) = pairs::literal_pair(&mut random);
        assert_eq!(shape(&first), shape(&second), "{first:?}\n{second:?}");
    }
}

/// What two jobs alike but for their literals share; several faults at record 50 share only the place.
fn shape(records: &[Record]) -> String {
    match run_job(&encode(records)) {
        Outcome::Refused {
            code: 12 | 13,
            place,
        } if records[place] == Record::EndOfDefinitions => {
            format!("unresolved at {place}")
        }
        Outcome::Built(b) => format!(
            "{:?} {:?} {:?} {} {:?} {} {} {}",
            b.answers,
            b.marks,
            &b.pool[..2],
            b.bootstrap_count,
            b.bootstraps,
            b.name_slot,
            b.class_name.is_some(),
            b.visits
        ),
        other => other.line(),
    }
}

/// Request No. 11 on what the module gives: accepted alike, with equal results.
#[test]
fn the_order_of_names_and_raw_definitions_changes_nothing() {
    let mut random = Random::new(4);
    for _ in 0..1_000 {
        let (first, second) = pairs::order_pair(&mut random);
        assert_eq!(accepted(&first), accepted(&second), "{first:?}\n{second:?}");
    }
}

fn accepted(records: &[Record]) -> Option<String> {
    let outcome = run_job(&encode(records));
    matches!(outcome, Outcome::Built { .. }).then(|| outcome.line())
}

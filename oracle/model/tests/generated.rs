//! Generated jobs with records 46 to 49, and those refused while building: which refusals they meet, and what two of a pair share.

use jobs::stream::endless;
use model::{Outcome, Refusal, run};
use std::collections::{BTreeMap, BTreeSet};

/// The refusal numbers that so many jobs of a kind meet, with 0 for a built one.
fn codes(kind: &str, count: usize) -> BTreeSet<u8> {
    let jobs = endless(kind, 9).unwrap().take(count);
    jobs.map(|job| match run(&job) {
        Outcome::Built(_) => 0,
        Outcome::Refused(refusal) => refusal.code,
    })
    .collect()
}

#[test]
fn settings_meet_their_refusals() {
    let met = codes("settings", 4_000);
    let wanted = [0, 6, 7, 8, 9, 10, 11, 12, 13, 14, 15, 16, 24, 25];
    assert_eq!(met, BTreeSet::from(wanted));
    let met = codes("settings_damaged", 4_000);
    // A byte 46 brings 22.
    let wanted = [
        0, 3, 4, 6, 7, 8, 9, 10, 11, 12, 13, 14, 15, 16, 22, 24, 25, 26,
    ];
    assert_eq!(met, BTreeSet::from(wanted));
}

#[test]
fn expressions_meet_their_refusals() {
    let met = codes("worked", 4_000);
    let wanted = [0, 6, 7, 8, 9, 10, 11, 12, 13, 14, 15, 16, 22, 23, 24, 25];
    assert_eq!(met, BTreeSet::from(wanted));
    let met = codes("worked_damaged", 4_000);
    assert!(met.is_superset(&[0, 3, 4, 22, 23, 24, 25].into()));
    assert!(!codes("worked_pairs", 4_000).contains(&22));
    assert!(!codes("worked_pairs", 4_000).contains(&23));
}

/// The numbers of refusals met while building, each with how many jobs of a kind are told at another record than the build.
fn met_while_building(kind: &str, count: usize) -> BTreeMap<u8, usize> {
    let mut met = BTreeMap::new();
    for job in endless(kind, 11).unwrap().take(count) {
        if let Outcome::Refused(Refusal {
            code,
            place,
            building: Some(build_record),
        }) = run(&job)
        {
            *met.entry(code).or_default() += usize::from(place != build_record);
        }
    }
    met
}

#[test]
fn pools_without_a_slot_more_are_refused_while_building() {
    let met = met_while_building("lowest", 4_000);
    assert_eq!(met.keys().copied().collect::<Vec<_>>(), [14, 24]);
    assert!(met[&14] > 1_000 && met[&24] > 300, "{met:?}");
    let met = met_while_building("lowest_full", 40);
    assert!(met[&14] > 2 && met[&17] > 5, "{met:?}");
}

/// Demand 3 "holds for two jobs with the same highest slot", and "has the premise that neither job is refused 25". Places of refusals
/// met while building are equal too (No. 9).
#[test]
fn layout_depends_on_shape_and_settings_alone() {
    equal_layouts("settings_pairs");
    equal_layouts("lowest_pairs");
    equal_layouts("worked_pairs");
}

fn equal_layouts(kind: &str) {
    let jobs: Vec<Vec<u8>> = endless(kind, 10).unwrap().take(4_000).collect();
    let mut equal = 0;
    for pair in jobs.chunks(2) {
        let (first, second) = (run(&pair[0]), run(&pair[1]));
        if !is_bad_text(&first) && !is_bad_text(&second) {
            assert_eq!(shape(&first), shape(&second), "{pair:02x?}");
            equal += 1;
        }
    }
    assert!(equal > 1_500, "{equal}");
}

fn is_bad_text(outcome: &Outcome) -> bool {
    matches!(outcome, Outcome::Refused(refusal) if refusal.code == 25)
}

/// What two jobs alike but for their literals share.
fn shape(outcome: &Outcome) -> String {
    match outcome {
        Outcome::Built(b) => format!(
            "{:?} {:?} {} {:?} {} {} {}",
            b.answers,
            &b.pool[..2],
            b.bootstrap_count,
            b.bootstraps,
            b.name_slot,
            b.class_name.is_some(),
            b.visits
        ),
        refused => refused.to_string(),
    }
}

/// Definitions in another order (document 02, No. 11): both are built, with one outcome, or neither is.
#[test]
fn names_and_raw_definitions_stand_in_any_order() {
    for kind in ["orders", "worked_orders"] {
        let jobs: Vec<Vec<u8>> = endless(kind, 11).unwrap().take(4_000).collect();
        let mut built = 0;
        for pair in jobs.chunks(2) {
            let (first, second) = (run(&pair[0]), run(&pair[1]));
            match first {
                Outcome::Built(_) => assert_eq!(first, second, "{pair:02x?}"),
                Outcome::Refused(_) => assert!(matches!(second, Outcome::Refused(_))),
            }
            built += usize::from(matches!(first, Outcome::Built(_)));
        }
        assert!(built > 500, "{built}");
    }
}

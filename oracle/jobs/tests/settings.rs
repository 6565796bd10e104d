//! Jobs with records 47 to 49.

mod common;

use common::well_formed;
use jobs::pairs::settings_pair;
use jobs::random::Random;
use jobs::record::Record;
use jobs::settings::settings_job;
use std::collections::BTreeSet;

const COUNT: usize = 3_000;

fn highest(records: &[Record]) -> Option<u16> {
    match records[0] {
        Record::HighestSlot(highest) => Some(highest),
        _ => None,
    }
}

fn version(records: &[Record]) -> Option<u16> {
    records.iter().find_map(|record| match record {
        Record::Version(version) => Some(*version),
        _ => None,
    })
}

#[test]
fn settings_stand_once_and_in_place() {
    let mut random = Random::new(16);
    for _ in 0..COUNT {
        let records = settings_job(&mut random);
        // That none stands behind 50 is part of being well formed.
        assert!(well_formed(&records), "{records:?}");
        let count = |is: fn(&Record) -> bool| records.iter().filter(|r| is(r)).count();
        let versions = count(|r| matches!(r, Record::Version(_)));
        let holds = count(|r| *r == Record::HoldTexts);
        let highest_slots = count(|r| matches!(r, Record::HighestSlot(_)));
        assert!(versions <= 1 && holds <= 1);
        assert_eq!(highest_slots, usize::from(highest(&records).is_some()));
        assert!((1..=3).contains(&(versions + holds + highest_slots)));
    }
}

#[test]
fn versions_and_highest_slots_are_many() {
    let mut random = Random::new(17);
    let (mut versions, mut all_highest) = (BTreeSet::new(), BTreeSet::new());
    for _ in 0..COUNT {
        let records = settings_job(&mut random);
        versions.extend(version(&records));
        all_highest.extend(highest(&records));
    }
    let wanted: BTreeSet<u16> = (44..=56).chain([0, 65535]).collect();
    assert_eq!(versions, wanted);
    let wanted: BTreeSet<u16> = (1..=40).chain([255, 256, 65533, 65534]).collect();
    assert!(all_highest.is_superset(&wanted), "{all_highest:?}");
}

#[test]
fn pairs_have_the_same_settings() {
    let mut random = Random::new(18);
    let settings = |records: &[Record]| -> Vec<(usize, Record)> {
        let all = records.iter().cloned().enumerate();
        all.filter(|(_, record)| record.is_setting()).collect()
    };
    for _ in 0..COUNT {
        let (first, second) = settings_pair(&mut random);
        assert!(well_formed(&second));
        assert_eq!(settings(&first), settings(&second));
    }
}

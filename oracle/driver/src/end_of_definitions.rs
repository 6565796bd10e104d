//! What the module can refuse at record 50, where it takes raw definitions in a hash map's order.

use crate::Outcome;
use crate::run::refusal_of_definitions;
use jobs::record::Record;

/// Whether record 50 refused a job.
#[derive(Clone, Copy, Debug, PartialEq, Eq)]
pub enum AtEndOfDefinitions {
    No,
    /// Only this number was possible.
    OneNumber,
    /// 12 and 13 both were: the first one in document 01's order must be given.
    SeveralNumbers,
}

/// The number that record 50 must refuse with, the first of those possible; none if the module's own isn't one of them.
pub fn first_number(own: u8, possible: &[u8]) -> Option<(u8, AtEndOfDefinitions)> {
    let first = *possible.first()?;
    let at_end = match possible.iter().all(|number| *number == first) {
        true => AtEndOfDefinitions::OneNumber,
        false => AtEndOfDefinitions::SeveralNumbers,
    };
    possible.contains(&own).then_some((first, at_end))
}

/// The numbers of the faults that record 50 can meet: of the raw constants by rising slot, or, where none of them fails,
/// of the raw bootstraps by rising index. The module takes all raw constants first, too. What was resolved before a fault
/// has none, so each raw definition fails as it does alone in the job.
pub fn faults(records: &[Record]) -> Vec<u8> {
    let constants = faults_of(records, |record| match record {
        Record::RawConstant { slot, .. } => Some(*slot),
        _ => None,
    });
    if constants.is_empty() {
        faults_of(records, |record| match record {
            Record::RawBootstrap { index, .. } => Some(*index),
            _ => None,
        })
    } else {
        constants
    }
}

/// The faults of the raw definitions that have a key, by rising key.
fn faults_of(records: &[Record], key: fn(&Record) -> Option<u16>) -> Vec<u8> {
    let mut keys: Vec<(u16, usize)> = records
        .iter()
        .enumerate()
        .filter_map(|(place, record)| Some((key(record)?, place)))
        .collect();
    keys.sort_unstable();
    keys.into_iter()
        .filter_map(|(_, place)| fault_of(&with_one_raw(records, place)))
        .collect()
}

/// The number that a job with one raw definition is refused with at record 50.
fn fault_of(records: &[Record]) -> Option<u8> {
    match refusal_of_definitions(records)? {
        Outcome::Refused { code, place } if records[place] == Record::EndOfDefinitions => {
            Some(code)
        }
        _ => None,
    }
}

/// The job without the raw definitions but the one at this place.
fn with_one_raw(records: &[Record], place: usize) -> Vec<Record> {
    let is_raw = |record: &Record| {
        matches!(
            record,
            Record::RawConstant { .. } | Record::RawBootstrap { .. }
        )
    };
    let kept = records
        .iter()
        .enumerate()
        .filter(|(at, record)| *at == place || !is_raw(record));
    kept.map(|(_, record)| record.clone()).collect()
}

#[cfg(test)]
mod tests {
    use super::*;
    use crate::form::decode;
    use jobs::hex::bytes;

    /// Two bootstraps and two Classes: the first of each has an undefined name x, the second leads to itself by y.
    const ENTRIES: &str = "07020178 07020179 410179010001 40020178 0000 40010001 0000";

    fn faults_with(raws: &str) -> Vec<u8> {
        let job = bytes(&format!("{ENTRIES} {raws} 50 600200 0000"));
        faults(&decode(&job).expect("the job is well formed"))
    }

    #[test]
    fn faults_come_by_rising_slot_or_index() {
        assert_eq!(faults_with("4300010000 4300020001"), [12, 13]);
        assert_eq!(faults_with("4300020000 4300010001"), [13, 12]);
        assert_eq!(faults_with("4400050000 4400030001"), [13, 12]);
    }

    #[test]
    fn bootstraps_fail_only_where_no_constant_does() {
        assert_eq!(faults_with("4400000000 4300090001"), [13]);
        assert_eq!(faults_with("4400000000"), [12]);
        assert_eq!(faults_with(""), []);
    }
}

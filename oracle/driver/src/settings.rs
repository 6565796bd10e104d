//! Jobs with records 47 to 49 (document 02), which the module doesn't know.

use crate::expected::{Expected, expected};
use crate::form::{Fault, decode_with_settings};
use crate::outcome::Outcome;
use jobs::record::{Record, encode};

/// With this highest slot record 49 changes nothing.
const HIGHEST_SLOT: u16 = 65_534;

pub struct JobWithSettings {
    /// Those ahead of the first fault that is none of these records' own; a record 46 is the constant that it is worked out to.
    records: Vec<Record>,
    fault: Option<Fault>,
}

impl JobWithSettings {
    /// None for a job that document 01 speaks of: no record 47, 48 or 49 stands among the definitions ahead of the first fault.
    pub fn of(job: &[u8]) -> Option<Self> {
        let (records, fault) = decode_with_settings(job);
        let has_some = records.iter().any(Record::is_setting);
        has_some.then_some(JobWithSettings { records, fault })
    }

    /// The number of the build record, in a job that is built.
    pub fn last_record(&self) -> usize {
        self.records.len() - 1
    }

    /// What the module says of the job when 47 to 49 are left out, with the record numbers of the whole job. None if the job isn't well
    /// formed, or has another highest slot than the module's.
    pub fn expected_without(&self, both_copies: bool) -> Option<Result<Expected, String>> {
        let differs =
            |record: &Record| matches!(record, Record::HighestSlot(h) if *h != HIGHEST_SLOT);
        if self.fault.is_some() || self.records.iter().any(differs) {
            return None;
        }
        let kept = self.records.iter().enumerate();
        let kept = kept.filter(|(_, record)| !record.is_setting());
        let (places, kept): (Vec<usize>, Vec<Record>) =
            kept.map(|(place, record)| (place, record.clone())).unzip();
        let without = expected(&encode(&kept), both_copies);
        Some(without.map(|expected| moved(expected, &places)))
    }
}

/// Whether document 01 has the number and it isn't of the form pass: so a job ends with or without 47 and 48.
pub fn is_of_the_module(code: u32) -> bool {
    (6..=17).contains(&code)
}

/// The same with the places that the records have in the whole job.
fn moved(mut expected: Expected, places: &[usize]) -> Expected {
    expected.build_record = places[expected.build_record];
    if let Outcome::Refused { place, .. } = &mut expected.outcome {
        *place = places[*place];
    }
    expected
}

#[cfg(test)]
mod tests {
    use super::*;
    use crate::form::{Fault, decode};
    use jobs::hex::bytes;

    fn without(hex: &str) -> Option<String> {
        let expected = JobWithSettings::of(&bytes(hex))?.expected_without(true)?;
        Some(expected.unwrap().outcome.line())
    }

    fn has_settings(hex: &str) -> bool {
        JobWithSettings::of(&bytes(hex)).is_some()
    }

    #[test]
    fn document_01_has_none_of_them() {
        for (job, place) in [("47 0000", 0), ("01 0000 48 ff", 1), ("50 49 0001", 1)] {
            let fault = Fault { code: 3, place };
            assert_eq!(decode(&bytes(job)), Err(fault), "{job}");
        }
        assert!(has_settings("47 0000"));
        assert!(has_settings("01 0000 48 ff"));
        // Out of place or cut, so that 3 is told whether they are known or not.
        assert!(!has_settings("50 48"));
        assert!(!has_settings("47 00"));
        assert!(!has_settings("07 01 0000 48"));
    }

    #[test]
    fn the_rest_is_run_with_the_numbers_of_the_whole() {
        let nothing = "built answers 0 pool 2 0001 bootstraps 0 0 - name 0 class none visits 0";
        for settings in ["47 0000 48", "49 fffe", "49 fffe 48"] {
            let job = format!("{settings} 50 60 02 00 0000");
            assert_eq!(without(&job).as_deref(), Some(nothing), "{job}");
        }
        let name_unknown = "48 01 0000 47 0000 50 51 02 01 78 60 02 00 0000";
        assert_eq!(without(name_unknown).as_deref(), Some("refused 12 4"));
        let job = JobWithSettings::of(&bytes("48 47 0000 50 60 02 00 0000")).unwrap();
        let built = job.expected_without(false).unwrap().unwrap();
        assert_eq!((built.build_record, job.last_record()), (3, 3));
    }

    #[test]
    fn other_jobs_have_no_rest_to_run() {
        assert_eq!(without("49 0001 50 60 02 00 0000"), None);
        assert_eq!(without("48 50"), None);
    }
}

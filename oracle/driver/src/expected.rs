//! What the Rust says of a job, with document 01's number at record 50, where the Rust's own may change from run to run.

use crate::end_of_definitions::{AtEndOfDefinitions, faults, first_number};
use crate::{Outcome, form, run};
use jobs::record::Record;

pub struct Expected {
    pub outcome: Outcome,
    /// The number of the build record, in a job that is built.
    pub build_record: usize,
    pub at_end_of_definitions: AtEndOfDefinitions,
}

/// Runs the job through one copy of the module, or through both. The error says which number was impossible at record 50.
pub fn expected(job: &[u8], both_copies: bool) -> Result<Expected, String> {
    let records = match form::decode(job) {
        Ok(records) => records,
        Err(form::Fault { code, place }) => return Ok(elsewhere(refused(code, place), 0)),
    };
    let outcome = match both_copies {
        true => run::run(&records),
        false => run::run_counted(&records),
    };
    match outcome {
        Outcome::Refused { code, place } if records[place] == Record::EndOfDefinitions => {
            refused_by_raw_definitions(code, place, &faults(&records))
        }
        Outcome::Refused { .. } => Ok(elsewhere(outcome, 0)),
        outcome => Ok(elsewhere(outcome, records.len() - 1)),
    }
}

fn refused(code: u8, place: usize) -> Outcome {
    Outcome::Refused { code, place }
}

/// An outcome that isn't a refusal at record 50.
fn elsewhere(outcome: Outcome, build_record: usize) -> Expected {
    Expected {
        outcome,
        build_record,
        at_end_of_definitions: AtEndOfDefinitions::No,
    }
}

/// The Rust's own number must be one of those that are possible; the first of them is expected.
fn refused_by_raw_definitions(code: u8, place: usize, possible: &[u8]) -> Result<Expected, String> {
    let (first, at_end_of_definitions) = first_number(code, possible)
        .ok_or_else(|| format!("refused {code} {place}, and possible are {possible:?}"))?;
    Ok(Expected {
        at_end_of_definitions,
        ..elsewhere(refused(first, place), 0)
    })
}

#[cfg(test)]
mod tests {
    use super::*;

    fn given(code: u8, possible: &[u8]) -> Option<(u8, AtEndOfDefinitions)> {
        let expected = refused_by_raw_definitions(code, 5, possible).ok()?;
        match expected.outcome {
            Outcome::Refused { code, place: 5 } => Some((code, expected.at_end_of_definitions)),
            _ => None,
        }
    }

    #[test]
    fn the_first_possible_number_is_expected() {
        let several = AtEndOfDefinitions::SeveralNumbers;
        assert_eq!(given(12, &[13, 12]), Some((13, several)));
        assert_eq!(given(13, &[13, 12]), Some((13, several)));
        assert_eq!(given(12, &[12, 13, 12]), Some((12, several)));
        let one = AtEndOfDefinitions::OneNumber;
        assert_eq!(given(12, &[12, 12]), Some((12, one)));
    }

    #[test]
    fn an_impossible_number_of_the_rust_is_an_error() {
        assert_eq!(given(12, &[13]), None);
        assert_eq!(given(12, &[]), None);
    }
}

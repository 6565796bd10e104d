//! How each answer was come by, from the records and the module's answers: the module itself doesn't tell.

use crate::outcome::Mark;
use jobs::record::{Record, Reference};
use std::collections::{HashMap, HashSet};

/// The marks of a built job's answers. A request that leads to a raw number is raw. Any other leads to a constant, and constants that are
/// equal share one slot, which no other has: the slot is new the first time that such a request is answered with it.
pub fn marks(records: &[Record], answers: &[u16]) -> Vec<Mark> {
    let names = names(records);
    let mut known = HashMap::new();
    let mut given = HashSet::new();
    let asked = records.iter().filter_map(|record| match record {
        Record::Ask(r) | Record::AskLdc(r) => Some(r),
        _ => None,
    });
    asked
        .zip(answers)
        .map(
            |(reference, answer)| match leads_to_raw(reference, &names, &mut known) {
                true => Mark::Raw,
                false if given.insert(answer) => Mark::New,
                false => Mark::Old,
            },
        )
        .collect()
}

fn names(records: &[Record]) -> HashMap<&[u8], &Reference> {
    let named = records.iter().filter_map(|record| match record {
        Record::NameConstant(name, to) => Some((&name[..], to)),
        _ => None,
    });
    named.collect()
}

/// In a job that is built a name that is asked for is known and leads somewhere. Where it does is kept for each name passed: many requests
/// may go over one long chain.
fn leads_to_raw<'a>(
    reference: &'a Reference,
    names: &HashMap<&'a [u8], &'a Reference>,
    known: &mut HashMap<&'a [u8], bool>,
) -> bool {
    let mut passed = Vec::new();
    let mut at = reference;
    let is_raw = loop {
        match at {
            Reference::Raw(_) => break true,
            Reference::Entry(_) => break false,
            Reference::Name(name) => match known.get(&name[..]) {
                Some(is_raw) => break *is_raw,
                None => {
                    passed.push(&name[..]);
                    at = names[&name[..]];
                }
            },
        }
    };
    known.extend(passed.into_iter().map(|name| (name, is_raw)));
    is_raw
}

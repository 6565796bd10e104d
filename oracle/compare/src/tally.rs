//! What a part of the comparison came to.

use crate::check::Calls;
use crate::expected::{End, Expected};
use crate::parts::Part;
use driver::end_of_definitions::AtEndOfDefinitions;
use driver::tally::grouped;

const LAST_REFUSAL: usize = 26;
const DIFFERENCES_SHOWN: usize = 5;

#[derive(Default)]
pub struct Tally {
    pub jobs: u64,
    built: u64,
    refused: [u64; LAST_REFUSAL + 1],
    one_number: u64,
    several_numbers: u64,
    /// Refused while building: 14, 17 or 24.
    pub building: u64,
    pub different: u64,
    /// The first of them, told in full.
    pub differences: Vec<String>,
    calls: Calls,
}

impl Tally {
    pub fn add_end(&mut self, expected: &Expected, is_building: bool) {
        self.building += u64::from(is_building);
        match &expected.end {
            End::Built(_) => self.built += 1,
            End::Refused(refusal) => self.refused[refusal.code as usize] += 1,
        }
        match expected.at_end_of_definitions {
            AtEndOfDefinitions::No => {}
            AtEndOfDefinitions::OneNumber => self.one_number += 1,
            AtEndOfDefinitions::SeveralNumbers => self.several_numbers += 1,
        }
    }

    pub fn add_difference(&mut self, text: String) {
        self.different += 1;
        if self.differences.len() < DIFFERENCES_SHOWN {
            self.differences.push(text);
        }
    }

    pub fn add_calls(&mut self, calls: Calls) {
        self.calls.plain += calls.plain;
        self.calls.leftovers += calls.leftovers;
        self.calls.output_short += calls.output_short;
        self.calls.memory_short += calls.memory_short;
    }

    /// Adds what one worker counted.
    pub fn add(&mut self, other: Tally) {
        self.jobs += other.jobs;
        self.built += other.built;
        for (sum, count) in self.refused.iter_mut().zip(other.refused) {
            *sum += count;
        }
        self.one_number += other.one_number;
        self.several_numbers += other.several_numbers;
        self.building += other.building;
        self.different += other.different;
        let room = DIFFERENCES_SHOWN - self.differences.len();
        self.differences
            .extend(other.differences.into_iter().take(room));
        self.add_calls(other.calls);
    }
}

pub const HEAD: &str = "\
| Kind | Seed | Jobs | Equal | Built | Refused, number: how often | Record 50 | Building | Runs | Different |
|---|---|---|---|---|---|---|---|---|---|";

/// A row of the table under `HEAD`. At record 50 there was one number possible, or several; so many were refused while building; runs
/// were plain, with leftovers, with an output short, and with work or gaps short.
pub fn row(part: &Part, tally: &Tally) -> String {
    let refused: Vec<String> = tally
        .refused
        .iter()
        .enumerate()
        .filter(|(_, count)| **count > 0)
        .map(|(number, count)| format!("{number}: {}", grouped(*count)))
        .collect();
    let calls = &tally.calls;
    let cells = [
        part.kind.clone(),
        part.drawn
            .map_or("all".into(), |(seed, _)| seed.to_string()),
        grouped(tally.jobs),
        grouped(tally.jobs - tally.different),
        grouped(tally.built),
        refused.join(", "),
        format!(
            "{} / {}",
            grouped(tally.one_number),
            grouped(tally.several_numbers)
        ),
        grouped(tally.building),
        [
            calls.plain,
            calls.leftovers,
            calls.output_short,
            calls.memory_short,
        ]
        .map(grouped)
        .join(" / "),
        grouped(tally.different),
    ];
    format!("| {} |", cells.join(" | "))
}

#[cfg(test)]
mod tests {
    use super::*;

    #[test]
    fn sums_keep_every_difference_and_tell_the_first() {
        let mut sum = Tally::default();
        for worker in 0..3 {
            let mut tally = Tally::default();
            (0..3).for_each(|job| tally.add_difference(format!("{worker}{job}")));
            sum.add(tally);
        }
        assert_eq!(sum.different, 9);
        assert_eq!(sum.differences, ["00", "01", "02", "10", "11"]);
    }
}

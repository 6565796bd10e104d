//! Counts of outcomes, for judging what a set of jobs reaches, and how tables show counts.

use crate::outcome::Outcome;
use std::fmt::{self, Display};

const LAST_REFUSAL: usize = 17;

#[derive(Default)]
pub struct Tally {
    jobs: u64,
    built: u64,
    panics: u64,
    unknown_messages: u64,
    refused: [u64; LAST_REFUSAL + 1],
}

impl Tally {
    pub fn add(&mut self, outcome: &Outcome) {
        self.jobs += 1;
        match outcome {
            Outcome::Built { .. } => self.built += 1,
            Outcome::Panicked(_) => self.panics += 1,
            Outcome::UnknownMessage { .. } => self.unknown_messages += 1,
            Outcome::Refused { code, .. } => self.refused[usize::from(*code)] += 1,
        }
    }
}

impl Display for Tally {
    fn fmt(&self, f: &mut fmt::Formatter<'_>) -> fmt::Result {
        writeln!(f, "jobs {}", self.jobs)?;
        writeln!(f, "built {}", self.built)?;
        writeln!(f, "panics {}", self.panics)?;
        writeln!(f, "unknown {}", self.unknown_messages)?;
        for (code, count) in self.refused.iter().enumerate().skip(1) {
            writeln!(f, "refused {code} {count}")?;
        }
        Ok(())
    }
}

/// A number without its fraction, with a comma before every three digits.
pub fn grouped(number: impl Display) -> String {
    let digits = format!("{number:.0}");
    let mut text = String::new();
    for (place, digit) in digits.chars().enumerate() {
        if place > 0 && (digits.len() - place).is_multiple_of(3) {
            text.push(',');
        }
        text.push(digit);
    }
    text
}

#[cfg(test)]
mod tests {
    use super::*;

    #[test]
    fn numbers_are_grouped_by_three() {
        assert_eq!(grouped(0), "0");
        assert_eq!(grouped(999), "999");
        assert_eq!(grouped(1_000), "1,000");
        assert_eq!(grouped(10_000_000), "10,000,000");
    }

    #[test]
    fn fractions_are_rounded_away() {
        assert_eq!(grouped(7.4), "7");
        assert_eq!(grouped(999.0), "999");
        assert_eq!(grouped(1_000.0), "1,000");
        assert_eq!(grouped(12_345_678.0), "12,345,678");
    }
}

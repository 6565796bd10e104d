//! Holds the model to Krakatau's module, which tells the record in turn where No. 9 (document 02) has another.

use driver::expected::expected;
use driver::settings::{JobWithSettings, is_of_the_module};
use driver::tally::grouped;
use driver::{Outcome, outcome};
use jobs::heavy::{Heavy, LIST};
use jobs::hex::hex;
use jobs::stream::{endless, heavy_jobs};
use model::{Built, Mark, Refusal};
use std::error::Error;
use std::time::Instant;

const DIFFERENCES_SHOWN: u64 = 5;

pub type Jobs = Box<dyn Iterator<Item = Vec<u8>>>;

/// The jobs of `heavy`, of `heavy NAME..` or of `KIND SEED COUNT`, a pair counted as two.
pub fn jobs(part: &[&str]) -> Option<Jobs> {
    match part {
        ["heavy"] => Some(Box::new(heavy_jobs())),
        ["heavy", names @ ..] => {
            let makers: Option<Vec<Heavy>> = names.iter().map(|name| heavy(name)).collect();
            Some(Box::new(makers?.into_iter().map(|make| make())))
        }
        [kind, seed, count] => {
            let count = count.parse().ok()?;
            Some(Box::new(endless(kind, seed.parse().ok()?)?.take(count)))
        }
        _ => None,
    }
}

fn heavy(name: &str) -> Option<Heavy> {
    let named = LIST.iter().find(|(known, _)| *known == name);
    named.map(|(_, make)| *make)
}

/// Prints the first differences and a line of counts; the error says that there were some.
pub fn hold(part: &str, jobs: Jobs) -> Result<(), Box<dyn Error>> {
    let start = Instant::now();
    let (mut all, mut built, mut unheld, mut different) = (0, 0, 0, 0);
    for job in jobs {
        all += 1;
        let ours = model::run(&job).in_turn();
        built += u64::from(matches!(ours, model::Outcome::Built(_)));
        let Some(theirs) = of_module(&job, &ours) else {
            unheld += 1;
            continue;
        };
        if theirs.as_ref() != Ok(&ours) {
            different += 1;
            if different <= DIFFERENCES_SHOWN {
                println!(
                    "{}\n  model: {ours}\n  module: {}",
                    hex(&job),
                    shown(theirs)
                );
            }
        }
    }
    println!(
        "{part}: {} jobs, {} built, {} of which the module says nothing, {} different, {} s",
        grouped(all),
        grouped(built),
        grouped(unheld),
        grouped(different),
        start.elapsed().as_secs()
    );
    match different {
        0 => Ok(()),
        _ => Err("the model and the module differ".into()),
    }
}

/// What the module says, if it has a say: of a job with records 47 and 48 where these don't end it, and without 49.
fn of_module(job: &[u8], ours: &model::Outcome) -> Option<Result<model::Outcome, String>> {
    let expected = match JobWithSettings::of(job) {
        None => expected(job, false),
        Some(with_settings) => match ours {
            model::Outcome::Refused(refusal) if !is_of_the_module(refusal.code.into()) => {
                return None;
            }
            _ => with_settings.expected_without(false)?,
        },
    };
    Some(expected.and_then(|expected| as_ours(expected.outcome)))
}

fn shown(theirs: Result<model::Outcome, String>) -> String {
    theirs.map_or_else(|text| text, |outcome| outcome.to_string())
}

/// The module's outcome as the model has it. A panic or an unknown message is an error.
fn as_ours(outcome: Outcome) -> Result<model::Outcome, String> {
    match outcome {
        Outcome::Refused { code, place } => Ok(model::Outcome::Refused(Refusal::at(code, place))),
        Outcome::Built(built) => Ok(model::Outcome::Built(Built {
            answers: built.answers.into_iter().zip(marks(built.marks)).collect(),
            pool: built.pool,
            bootstrap_count: built.bootstrap_count.into(),
            bootstraps: built.bootstraps,
            name_slot: built.name_slot,
            class_name: built.class_name,
            visits: built.visits,
        })),
        other => Err(other.line()),
    }
}

fn marks(marks: Vec<outcome::Mark>) -> impl Iterator<Item = Mark> {
    marks.into_iter().map(|mark| match mark {
        outcome::Mark::Raw => Mark::Raw,
        outcome::Mark::New => Mark::New,
        outcome::Mark::Old => Mark::Old,
    })
}

#[cfg(test)]
mod tests {
    use super::*;

    /// Case b of document 01, as the module has it and with one thing changed.
    #[test]
    fn one_thing_changed_is_a_difference() {
        let job = jobs::hex::bytes("01 0001 41 07 01 0000 50 51 01 0001 60 02 01 0000");
        let Outcome::Built(built) = driver::run_job(&job) else {
            panic!("case b is built");
        };
        let ours = Ok(model::run(&job));
        assert_eq!(as_ours(Outcome::Built(built.clone())), ours);
        let changes: [fn(&mut driver::Built); 8] = [
            |built| built.answers[0] += 1,
            |built| built.marks[0] = outcome::Mark::Old,
            |built| built.pool[8] += 1,
            |built| built.bootstrap_count += 1,
            |built| built.bootstraps.push(0),
            |built| built.name_slot += 1,
            |built| built.class_name = None,
            |built| built.visits += 1,
        ];
        for change in changes {
            let mut changed = built.clone();
            change(&mut changed);
            assert_ne!(as_ours(Outcome::Built(changed)), ours);
        }
    }

    #[test]
    fn a_panic_is_an_error() {
        assert!(as_ours(Outcome::Panicked("told".into())).is_err());
    }
}

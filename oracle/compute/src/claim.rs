//! A job and the Rust's answer, or the model's where the Rust has none, as a claim about the definition, in antt.

use driver::end_of_definitions::{AtEndOfDefinitions, faults, first_number};
use driver::form::{decode, decode_with_settings};
use driver::settings::JobWithSettings;
use driver::{Built, Mark, Outcome, run_job};
use jobs::hex::hex;
use jobs::record::Record;
use std::fmt::Display;

/// The lengths that a caller lends; document 01, "Lent memory".
#[derive(Clone, Copy)]
struct Lent {
    work: usize,
    gaps: usize,
    outputs: [usize; 5],
}

/// What is lent: plenty, just enough, or one too little of something.
#[derive(Clone, Copy, Debug, PartialEq, Eq)]
pub enum Lending {
    Plenty,
    JustEnough,
    ShortWork,
    ShortGaps,
    /// The output of this number is one short, if it needs anything.
    ShortOutput(usize),
}

/// Half of the claims lend plenty, the others go through the rest in turn.
pub fn lending(index: usize) -> Lending {
    match index % 14 {
        1 | 3 | 5 => Lending::JustEnough,
        7 => Lending::ShortWork,
        9 => Lending::ShortGaps,
        11 => Lending::ShortOutput(index / 14 % 5),
        13 => Lending::ShortOutput(2),
        _ => Lending::Plenty,
    }
}

/// What `run` is of a job.
pub struct Claim {
    pub text: String,
    pub at_end: AtEndOfDefinitions,
}

/// What the Rust says of the job, or the model if it has records 47 to 49. A refusal met while building, which the Rust tells at the
/// build record, is told where the model has it (document 02, No. 9).
pub fn outcome(job: &[u8]) -> Outcome {
    let of_model = model::run(job);
    if JobWithSettings::of(job).is_some() {
        return as_outcome(of_model);
    }
    let of_rust = run_job(job);
    match as_outcome(of_model.clone().in_turn()) == of_rust {
        true => as_outcome(of_model),
        false => of_rust,
    }
}

fn as_outcome(of_model: model::Outcome) -> Outcome {
    match of_model {
        model::Outcome::Refused(model::Refusal { code, place, .. }) => {
            Outcome::Refused { code, place }
        }
        model::Outcome::Built(built) => Outcome::Built(Built {
            answers: built.answers.iter().map(|(slot, _)| *slot).collect(),
            marks: built
                .answers
                .iter()
                .map(|(_, mark)| as_mark(*mark))
                .collect(),
            pool: built.pool,
            bootstrap_count: u16::try_from(built.bootstrap_count).expect("at most 65,535"),
            bootstraps: built.bootstraps,
            name_slot: built.name_slot,
            class_name: built.class_name,
            visits: built.visits,
        }),
    }
}

fn as_mark(mark: model::Mark) -> Mark {
    match mark {
        model::Mark::Raw => Mark::Raw,
        model::Mark::New => Mark::New,
        model::Mark::Old => Mark::Old,
    }
}

pub fn claim(job: &[u8], lending: Lending) -> Claim {
    let outcome = outcome(job);
    let lent = lent(job, &outcome, lending);
    let run = format!("run {} ({})", lent_text(&lent), packed(job));
    let (answer, at_end) = match refused_for_room(job, &outcome, lending) {
        Some((code, place)) => (refused(code, place), AtEndOfDefinitions::No),
        None => answer(job, &outcome),
    };
    let text = format!("{run} ≡ {answer}");
    Claim { text, at_end }
}

fn needs(outcome: &Outcome) -> [usize; 5] {
    match outcome {
        Outcome::Built(built) => [
            built.answers.len(),
            built.marks.len(),
            built.pool.len(),
            built.bootstraps.len(),
            built.class_name.as_ref().map_or(0, Vec::len),
        ],
        _ => [0; 5],
    }
}

fn lent(job: &[u8], outcome: &Outcome, lending: Lending) -> Lent {
    let least = Lent {
        work: 6 * job.len() + 1024,
        gaps: job.len() / 5 + 2,
        outputs: needs(outcome),
    };
    match lending {
        Lending::Plenty => Lent {
            work: least.work + 5,
            gaps: least.gaps + 5,
            outputs: [1 << 20; 5],
        },
        Lending::JustEnough => least,
        Lending::ShortWork => Lent {
            work: least.work - 1,
            ..least
        },
        Lending::ShortGaps => Lent {
            gaps: least.gaps - 1,
            ..least
        },
        Lending::ShortOutput(at) => {
            let mut outputs = least.outputs;
            outputs[at] = outputs[at].saturating_sub(1);
            Lent { outputs, ..least }
        }
    }
}

/// Refusals 2 and 18, which the Rust lacks, as document 01 orders them.
fn refused_for_room(job: &[u8], outcome: &Outcome, lending: Lending) -> Option<(u8, usize)> {
    let too_long = matches!(outcome, Outcome::Refused { code: 1, .. });
    match (lending, outcome) {
        (Lending::ShortWork | Lending::ShortGaps, _) if !too_long => Some((2, 0)),
        (Lending::ShortOutput(at), Outcome::Built { .. }) if needs(outcome)[at] > 0 => {
            Some((18, records(job).len() - 1))
        }
        _ => None,
    }
}

/// All of them, in a job that is built.
fn records(job: &[u8]) -> Vec<Record> {
    decode_with_settings(job).0
}

fn answer(job: &[u8], outcome: &Outcome) -> (String, AtEndOfDefinitions) {
    match outcome {
        Outcome::Refused { code, place } => {
            let (code, at_end) = number(job, *code, *place);
            (refused(code, *place), at_end)
        }
        Outcome::Built(it) => (built(it), AtEndOfDefinitions::No),
        _ => panic!("the Rust has no answer: {}", outcome.line()),
    }
}

/// The refusal's number. Which of several faults at record 50 is met first is a hash map's choice in the Rust; where they
/// have different numbers, it is the first's by document 01's order.
fn number(job: &[u8], code: u8, place: usize) -> (u8, AtEndOfDefinitions) {
    let records = match decode(job) {
        Ok(records) if records[place] == Record::EndOfDefinitions => records,
        _ => return (code, AtEndOfDefinitions::No),
    };
    let faults = faults(&records);
    first_number(code, &faults).unwrap_or_else(|| panic!("{code} is none of {faults:?}"))
}

fn refused(code: u8, place: usize) -> String {
    format!("bad (record {{ code = {code}; place = {place} }})")
}

fn built(built: &Built) -> String {
    let class = built
        .class_name
        .as_ref()
        .map_or("none".into(), |name| format!("some ({})", packed(name)));
    format!(
        "good (record {{ answers = {}; marks = {}; pool = {}; bootstrap_count = {}; bootstraps = {}; \
         name = {}; class = {class}; visits = {} }})",
        numbers(built.answers.iter()),
        numbers(built.marks.iter().map(|mark| *mark as u8)),
        packed(&built.pool),
        built.bootstrap_count,
        packed(&built.bootstraps),
        built.name_slot,
        built.visits,
    )
}

fn lent_text(lent: &Lent) -> String {
    let [answers, marks, pool, bootstraps, class] = lent.outputs;
    format!(
        "(record {{ work = {}; gaps = {}; answers = {answers}; marks = {marks}; pool = {pool}; bootstraps = {bootstraps}; \
         class = {class} }})",
        lent.work, lent.gaps
    )
}

fn numbers<N: Display>(numbers: impl Iterator<Item = N>) -> String {
    let mut text: String = numbers.map(|n| format!("{n} ∷ ")).collect();
    text.push_str("[]");
    text
}

/// Bytes as hex texts, with long runs of empty texts (unowned slots) as a count.
fn packed(bytes: &[u8]) -> String {
    const LEAST_RUN: usize = 40;
    let mut parts = Vec::new();
    let (mut from, mut at) = (0, 0);
    while at < bytes.len() {
        let run = bytes[at..]
            .chunks(3)
            .take_while(|c| *c == [1, 0, 0])
            .count();
        if run < LEAST_RUN {
            at += 1;
            continue;
        }
        parts.push(texts(&bytes[from..at]));
        parts.push(format!("empty_texts {run}"));
        at += 3 * run;
        from = at;
    }
    parts.push(texts(&bytes[from..]));
    format!("concat ({} ∷ [])", parts.join(" ∷ "))
}

/// Hex texts of at most 64 bytes each: a long text is slow to take apart.
fn texts(bytes: &[u8]) -> String {
    let texts: Vec<String> = bytes
        .chunks(64)
        .map(|chunk| format!("bytes \"{}\"", hex(chunk)))
        .collect();
    if texts.is_empty() {
        "[]".into()
    } else {
        texts.join(" ∷ ")
    }
}

#[cfg(test)]
mod tests {
    use super::*;
    use crate::directed::BOTH_NUMBERS;
    use jobs::hex::bytes;

    #[test]
    fn with_both_numbers_possible_the_lower_slot_decides() {
        for (job, code, place) in BOTH_NUMBERS {
            let claim = claim(&bytes(job), Lending::Plenty);
            assert_eq!(claim.at_end, AtEndOfDefinitions::SeveralNumbers);
            let answer = format!("≡ {}", refused(*code, *place));
            assert!(claim.text.ends_with(&answer), "{}", claim.text);
        }
    }

    #[test]
    fn of_a_job_with_settings_it_is_the_models() {
        let ends = |job: &str, lending, code, place| {
            let claim = claim(&bytes(job), lending);
            assert!(
                claim.text.ends_with(&refused(code, place)),
                "{}",
                claim.text
            );
        };
        ends("49 0000", Lending::Plenty, 26, 0);
        ends("48 01 0001 00", Lending::JustEnough, 25, 1);
        ends(
            "47 0000 48 50 60 02 00 0000",
            Lending::ShortOutput(2),
            18,
            3,
        );
    }

    /// All slots are raw, and a String at the first of them has a child of its own.
    #[test]
    fn met_while_building_it_is_told_where_the_model_has_it() {
        let mut job = bytes("03 00000000 08 01 0000 43 0001 0001");
        job.extend((2..=65_534u16).flat_map(|slot| {
            let [high, low] = slot.to_be_bytes();
            [0x43, high, low, 0, 0]
        }));
        job.extend(bytes("50 60 02 00 0000"));
        let refused = |place| Outcome::Refused { code: 14, place };
        assert_eq!(run_job(&job), refused(65_537));
        assert_eq!(outcome(&job), refused(0));
    }

    #[test]
    fn with_one_number_possible_it_is_the_rusts() {
        let job = bytes("07020178 07020179 4300010000 4300020001 50 600200 0000");
        let claim = claim(&job, Lending::Plenty);
        assert_eq!(claim.at_end, AtEndOfDefinitions::OneNumber);
        assert!(claim.text.ends_with(&refused(12, 4)), "{}", claim.text);
    }
}

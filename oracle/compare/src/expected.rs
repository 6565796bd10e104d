//! What the library must say of a job: what the Rust says, and where that says nothing what the model does. Of a refusal met while
//! building the Rust tells the build record, and so its place is the model's (document 02, No. 9).

use crate::check::line;
use driver::end_of_definitions::AtEndOfDefinitions;
use driver::settings::{JobWithSettings, is_of_the_module};
use driver::{Outcome, outcome};
use rotblossom::{Built, Mark, Refusal};

/// How a run must end.
#[derive(Clone, PartialEq)]
pub enum End {
    Built(Built),
    Refused(Refusal),
}

/// How the model ends.
#[derive(Clone, PartialEq)]
pub struct OfModel {
    pub end: End,
    /// The build record, if the job is refused while building.
    pub building: Option<usize>,
}

impl OfModel {
    /// With the record in turn as a refusal's place, as the Rust has it.
    fn in_turn(&self) -> End {
        match (&self.end, self.building) {
            (End::Refused(Refusal { code, .. }), Some(place)) => {
                let code = *code;
                End::Refused(Refusal { code, place })
            }
            (end, _) => end.clone(),
        }
    }
}

pub struct Expected {
    pub end: End,
    /// The number of the build record, in a job that is built.
    pub build_record: usize,
    pub at_end_of_definitions: AtEndOfDefinitions,
}

/// Runs the job through one copy of the module, or through both. The error says what document 01 has no number for, or that the model
/// ends otherwise than the module.
pub fn expected(job: &[u8], of_model: &OfModel, both_copies: bool) -> Result<Expected, String> {
    match JobWithSettings::of(job) {
        None => hold_model(of_model, driver::expected::expected(job, both_copies)?),
        Some(with_settings) => with_model(&with_settings, of_model, both_copies),
    }
}

/// The model's end. Where the records 47 to 49 change nothing, it must be the module's without them.
fn with_model(
    job: &JobWithSettings,
    of_model: &OfModel,
    both_copies: bool,
) -> Result<Expected, String> {
    let theirs = match has_say(&of_model.end) {
        true => job.expected_without(both_copies),
        false => None,
    };
    match theirs {
        Some(theirs) => hold_model(of_model, theirs?),
        None => Ok(Expected {
            end: of_model.end.clone(),
            build_record: job.last_record(),
            at_end_of_definitions: AtEndOfDefinitions::No,
        }),
    }
}

/// Whether the module can end a job in this way.
fn has_say(end: &End) -> bool {
    match end {
        End::Built(_) => true,
        End::Refused(refusal) => is_of_the_module(refusal.code),
    }
}

/// The model's end, which must be the module's. The error tells both, where they differ.
fn hold_model(of_model: &OfModel, theirs: driver::expected::Expected) -> Result<Expected, String> {
    let end = end(theirs.outcome)?;
    let in_turn = of_model.in_turn();
    if in_turn != end {
        return Err(format!("{}\n  model: {}", line(&end), line(&in_turn)));
    }
    Ok(Expected {
        end: of_model.end.clone(),
        build_record: theirs.build_record,
        at_end_of_definitions: theirs.at_end_of_definitions,
    })
}

fn refused(code: u8, place: usize) -> End {
    let code = code.into();
    End::Refused(Refusal { code, place })
}

fn end(outcome: Outcome) -> Result<End, String> {
    match outcome {
        Outcome::Refused { code, place } => Ok(refused(code, place)),
        Outcome::Built(built) => Ok(End::Built(Built {
            answers: built.answers,
            marks: built.marks.into_iter().map(mark).collect(),
            pool: built.pool,
            bootstrap_count: built.bootstrap_count.into(),
            bootstraps: built.bootstraps,
            name_slot: built.name_slot.into(),
            class_name: built.class_name,
            visits: built.visits as usize,
        })),
        other => Err(other.line()),
    }
}

fn mark(mark: outcome::Mark) -> Mark {
    match mark {
        outcome::Mark::Raw => Mark::Raw,
        outcome::Mark::New => Mark::New,
        outcome::Mark::Old => Mark::Old,
    }
}

pub fn of_model(job: &[u8]) -> OfModel {
    match model::run(job) {
        model::Outcome::Refused(refusal) => OfModel {
            end: refused(refusal.code, refusal.place),
            building: refusal.building,
        },
        model::Outcome::Built(built) => OfModel {
            end: End::Built(built_by_model(built)),
            building: None,
        },
    }
}

fn built_by_model(built: model::Built) -> Built {
    let marks = built.answers.iter().map(|answer| model_mark(answer.1));
    Built {
        answers: built.answers.iter().map(|answer| answer.0).collect(),
        marks: marks.collect(),
        pool: built.pool,
        bootstrap_count: built.bootstrap_count,
        bootstraps: built.bootstraps,
        name_slot: built.name_slot.into(),
        class_name: built.class_name,
        visits: built.visits as usize,
    }
}

fn model_mark(mark: model::Mark) -> Mark {
    match mark {
        model::Mark::Raw => Mark::Raw,
        model::Mark::New => Mark::New,
        model::Mark::Old => Mark::Old,
    }
}

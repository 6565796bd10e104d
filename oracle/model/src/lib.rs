//! A slow and plain model of the pool builder, written from document 01 and requests No. 3, 5, 6, 8, 9 and 10 of document 02 alone.
//!
//! It shares no code with the module or the proved builder, and uses nothing but std. Lent memory, and so 2 and 18, isn't modelled.

mod bootstraps;
mod build;
mod definitions;
mod expression;
mod form;
mod given;
mod job;
mod outcome;
mod pool;
mod refusal;
mod resolve;
mod run;
mod settings;
mod slots;
mod store;
mod text;

pub use outcome::{Built, Mark, Outcome};
pub use refusal::Refusal;

/// What the documents give for any byte string offered as a job.
pub fn run(job: &[u8]) -> Outcome {
    match form::records(job).and_then(|records| run::in_turn(&records)) {
        Ok(built) => Outcome::Built(built),
        Err(refusal) => Outcome::Refused(refusal),
    }
}

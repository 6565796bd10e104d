//! Runs jobs of document 01 through Krakatau's `cpool` module and shows what it answered. Record 46 (document 02) is given to it as its value.

pub mod bench;
pub mod end_of_definitions;
pub mod expected;
pub mod expression;
pub mod form;
pub mod frames;
mod marks;
pub mod outcome;
pub mod run;
pub mod settings;
pub mod tally;

pub use outcome::{Built, Mark, Outcome};

/// The form pass, then the module.
pub fn run_job(job: &[u8]) -> Outcome {
    match form::decode(job) {
        Ok(records) => run::run(&records),
        Err(form::Fault { code, place }) => Outcome::Refused { code, place },
    }
}

//! What the tests share: jobs from hex text or from records, and ranges of raw definitions.

// Each test file uses only some of these.
#![allow(dead_code, unused_imports)]

use driver::{Built, Mark, Outcome, run_job};
pub use jobs::hex::bytes;
pub use jobs::make::{ask, ask_ldc, constant, int, long};
use jobs::record::{ClassSlot, Record, Reference, encode};
use std::ops::RangeInclusive;

/// "BootstrapMethods" in hex.
pub const NAME: &str = "426f6f7473747261704d6574686f6473";

/// The line of a job in hex.
pub fn line(hex: &str) -> String {
    run_job(&bytes(hex)).line()
}

/// The outcome of a job of records.
pub fn outcome(records: &[Record]) -> Outcome {
    run_job(&encode(records))
}

pub fn refused(code: u8, place: usize) -> Outcome {
    Outcome::Refused { code, place }
}

/// A build of nothing but pool bytes, whose answers are all new.
pub fn built_pool(answers: Vec<u16>, pool: Vec<u8>, visits: u64) -> Outcome {
    Outcome::Built(Built {
        marks: vec![Mark::New; answers.len()],
        answers,
        pool,
        bootstrap_count: 0,
        bootstraps: vec![],
        name_slot: 0,
        class_name: None,
        visits,
    })
}

pub fn dynamic(bootstrap: u16, raw_name_and_type: u16) -> Record {
    let references = vec![
        Reference::Entry(bootstrap),
        Reference::Raw(raw_name_and_type),
    ];
    constant(17, &[], references)
}

/// A bootstrap without arguments.
pub fn bootstrap(handle: Reference) -> Record {
    Record::Bootstrap {
        handle,
        arguments: vec![],
    }
}

pub fn raw_constants(slots: RangeInclusive<u16>, entry: u16) -> impl Iterator<Item = Record> {
    slots.map(move |slot| Record::RawConstant { slot, entry })
}

pub fn raw_bootstraps(indexes: RangeInclusive<u16>, entry: u16) -> impl Iterator<Item = Record> {
    indexes.map(move |index| Record::RawBootstrap { index, entry })
}

/// A build without the name and with class slot 0.
pub fn build() -> Record {
    Record::Build {
        name: 2,
        class: ClassSlot::Slot(0),
    }
}

//! Jobs as hex text, and what they come to.

#![allow(dead_code)] // each test file uses a part

use rotblossom::{Built, Mark, Refusal};

/// Case b of document 01: a text "A", a Class of it, and a request for the Class.
pub const CASE_B: &str = "01 0001 41 07 01 0000 50 51 01 0001 60 02 01 0000";

/// Bytes from hex digits; blanks don't count.
pub fn bytes(hex: &str) -> Vec<u8> {
    let digits: Vec<u8> = hex
        .bytes()
        .filter(|b| !b.is_ascii_whitespace())
        .map(|b| (b as char).to_digit(16).expect("a hex digit") as u8)
        .collect();
    assert!(digits.len().is_multiple_of(2), "a digit is missing: {hex}");
    digits.chunks(2).map(|two| two[0] << 4 | two[1]).collect()
}

pub fn refusal(code: u32, place: usize) -> Refusal {
    Refusal { code, place }
}

/// `build` of a job in hex.
pub fn build(job: &str) -> Result<Built, Refusal> {
    rotblossom::build(&bytes(job))
}

/// A built job with no bootstraps, no name and no class name, whose answers are all new.
pub fn plain(answers: &[u16], pool: Vec<u8>, visits: usize) -> Built {
    Built {
        answers: answers.to_vec(),
        marks: vec![Mark::New; answers.len()],
        pool,
        bootstrap_count: 0,
        bootstraps: vec![],
        name_slot: 0,
        class_name: None,
        visits,
    }
}

/// Raw definitions (kind 43 hex, or 44 for bootstraps) of entry 0 at each of the slots.
pub fn raw_definitions(kind: u8, slots: std::ops::RangeInclusive<u16>) -> Vec<u8> {
    slots
        .flat_map(|slot| [kind, (slot >> 8) as u8, slot as u8, 0, 0])
        .collect()
}

/// A text of so many bytes, as a record.
pub fn long_text(length: u16, byte: u8) -> Vec<u8> {
    let mut record = vec![1, (length >> 8) as u8, length as u8];
    record.resize(3 + usize::from(length), byte);
    record
}

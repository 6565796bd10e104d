//! The bootstrap table: which index an inline bootstrap takes, and the bytes.

use crate::definitions::BOOTSTRAP_INDEXES;
use std::collections::{BTreeMap, HashMap};

/// The slots of a bootstrap's handle and arguments.
pub type Numbers = Vec<u16>;

pub struct Bootstraps {
    /// Raw bootstraps that aren't written yet.
    raw: BTreeMap<u16, Numbers>,
    inline: HashMap<Numbers, u16>,
    /// How many are written, and so the next index.
    pub count: u16,
    pub bytes: Vec<u8>,
}

impl Bootstraps {
    pub fn new(raw: BTreeMap<u16, Numbers>) -> Self {
        Bootstraps {
            raw,
            inline: HashMap::new(),
            count: 0,
            bytes: vec![],
        }
    }

    /// "An inline bootstrap with the same numbers as an earlier inline one shares its index; else raw entries at the next index are
    /// written, then it takes the next." None where all indexes are used.
    pub fn index(&mut self, numbers: Numbers) -> Option<u16> {
        if let Some(index) = self.inline.get(&numbers) {
            return Some(*index);
        }
        while let Some(raw) = self.raw.remove(&self.count) {
            self.write(&raw);
        }
        let index = self.count;
        if index == BOOTSTRAP_INDEXES {
            return None;
        }
        self.write(&numbers);
        self.inline.insert(numbers, index);
        Some(index)
    }

    /// "At the end each hole in the bootstrap table repeats the next raw bootstrap above it."
    pub fn finish(&mut self) {
        while let Some((index, numbers)) = self.raw.pop_first() {
            while self.count <= index {
                self.write(&numbers);
            }
        }
    }

    /// JVMS 4.7.23: the handle's slot, the number of arguments, their slots.
    fn write(&mut self, numbers: &[u16]) {
        let arguments = u16::try_from(numbers.len() - 1).expect("a job's count has two bytes");
        self.bytes.extend(numbers[0].to_be_bytes());
        self.bytes.extend(arguments.to_be_bytes());
        let slots = numbers[1..].iter().flat_map(|slot| slot.to_be_bytes());
        self.bytes.extend(slots);
        self.count += 1;
    }
}

//! The definitions, in turn: settings, entries, names (11), raw constants (6, 7, 8) and raw bootstraps (9, 10).

use crate::job::{Entry, Kind, Record, Reference, is_wide};
use crate::refusal::*;
use crate::settings::Settings;
use std::collections::{BTreeMap, HashMap};

/// 65,535 indexes, from 0.
pub const BOOTSTRAP_INDEXES: u16 = 65_535;

#[derive(Default)]
pub struct Definitions<'a> {
    pub settings: Settings,
    /// Entries, each with its record's number.
    pub constants: Vec<(usize, &'a Entry<'a>)>,
    pub bootstraps: Vec<(usize, &'a Entry<'a>)>,
    pub names: HashMap<(Kind, &'a [u8]), Reference<'a>>,
    /// Raw slots and raw indexes, rising, each with its entry number.
    pub raw_constants: BTreeMap<u16, u16>,
    pub raw_bootstraps: BTreeMap<u16, u16>,
}

impl<'a> Definitions<'a> {
    pub fn entry(&self, kind: Kind, number: u16) -> &'a Entry<'a> {
        self.numbered(kind, number).1
    }

    /// The number of an entry's record.
    pub fn record_of(&self, kind: Kind, number: u16) -> usize {
        self.numbered(kind, number).0
    }

    fn numbered(&self, kind: Kind, number: u16) -> (usize, &'a Entry<'a>) {
        let number = usize::from(number);
        match kind {
            Kind::Constant => self.constants[number],
            Kind::Bootstrap => self.bootstraps[number],
        }
    }

    /// Takes the definition that is the record of this number. The error is a refusal number.
    pub fn take(&mut self, place: usize, record: &'a Record<'a>) -> Result<(), u8> {
        match record {
            Record::Entry(entry) => match entry.kind() {
                Kind::Constant => self.constants.push((place, entry)),
                Kind::Bootstrap => self.bootstraps.push((place, entry)),
            },
            Record::Name(name, to) => {
                let earlier = self.names.insert((to.kind, name), to.reference);
                return earlier.map_or(Ok(()), |_| Err(NAME_TWICE));
            }
            Record::Raw { kind, at, entry } => match kind {
                Kind::Constant => return self.raw_constant(*at, *entry),
                Kind::Bootstrap => return self.raw_bootstrap(*at, *entry),
            },
            Record::Version(version) => self.settings.version = *version,
            Record::HighestSlot(highest) => self.settings.highest = *highest,
            // The form pass held the texts.
            Record::HoldTexts => {}
            Record::BadExpression(_)
            | Record::EndOfDefinitions
            | Record::Ask { .. }
            | Record::Build { .. } => {
                unreachable!("the form pass leaves none among the definitions")
            }
        }
        Ok(())
    }

    /// "6 is tested before 7 and 8. For a wide raw constant at n, slot n+1 is tested first."
    fn raw_constant(&mut self, slot: u16, entry: u16) -> Result<(), u8> {
        let wide = self.is_wide(entry);
        let last = u32::from(slot) + u32::from(wide);
        if slot == 0 || last > u32::from(self.settings.highest) {
            return Err(RAW_OUTSIDE);
        }
        if wide && (self.starts_at(slot + 1) || self.second_half_at(slot + 1)) {
            return Err(RAW_CONFLICT);
        }
        if self.starts_at(slot) {
            return Err(RAW_TWICE);
        }
        if self.second_half_at(slot) {
            return Err(RAW_CONFLICT);
        }
        self.raw_constants.insert(slot, entry);
        Ok(())
    }

    fn raw_bootstrap(&mut self, index: u16, entry: u16) -> Result<(), u8> {
        if index == BOOTSTRAP_INDEXES {
            return Err(RAW_BOOTSTRAP_OUTSIDE);
        }
        let earlier = self.raw_bootstraps.insert(index, entry);
        earlier.map_or(Ok(()), |_| Err(RAW_BOOTSTRAP_TWICE))
    }

    fn is_wide(&self, entry: u16) -> bool {
        is_wide(self.entry(Kind::Constant, entry).tag)
    }

    fn starts_at(&self, slot: u16) -> bool {
        self.raw_constants.contains_key(&slot)
    }

    fn second_half_at(&self, slot: u16) -> bool {
        let before = self.raw_constants.get(&(slot - 1));
        before.is_some_and(|entry| self.is_wide(*entry))
    }

    /// First and last slot of each raw constant, rising.
    pub fn raw_held(&self) -> Vec<(u16, u16)> {
        let held = self.raw_constants.iter();
        held.map(|(slot, entry)| (*slot, slot + u16::from(self.is_wide(*entry))))
            .collect()
    }
}

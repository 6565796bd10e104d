//! Slots given to constants, and the stack from which building takes them.

use crate::job::is_wide;
use crate::outcome::Mark;
use crate::slots::Slots;
use crate::store::{Id, Store};
use std::collections::{BTreeMap, HashMap};

pub struct Given {
    slots: Slots,
    /// "A raw definition is never reused for an equal inline constant", so none of them is here.
    of: HashMap<Id, u16>,
    /// "Raw ones lie by rising slot and allocated ones on top as they came."
    pub stack: Vec<(u16, Id)>,
}

impl Given {
    pub fn new(slots: Slots, raw_constants: BTreeMap<u16, Id>) -> Self {
        Given {
            slots,
            of: HashMap::new(),
            stack: raw_constants.into_iter().collect(),
        }
    }

    /// The slot of a constant, fresh or given earlier; none where no slot can be given.
    pub fn slot(&mut self, store: &Store, id: Id, ldc: bool) -> Option<(u16, Mark)> {
        if let Some(slot) = self.of.get(&id) {
            return Some((*slot, Mark::Old));
        }
        let slot = self.slots.give(is_wide(store.get(id).tag), ldc)?;
        self.of.insert(id, slot);
        self.stack.push((slot, id));
        Some((slot, Mark::New))
    }

    pub fn count(&self) -> u16 {
        self.slots.count()
    }
}

//! Equal constants become one, and bootstraps likewise.

use crate::job::BOOTSTRAP;
use std::collections::HashMap;

/// What a reference comes to: "a raw child equals only the same raw number".
#[derive(Clone, Copy, Debug, PartialEq, Eq, Hash)]
pub enum Resolved {
    Raw(u16),
    Stored(Id),
}

#[derive(Clone, Copy, Debug, PartialEq, Eq, Hash)]
pub struct Id(usize);

/// Equal are those with the same tag, literal or kind byte, and children.
#[derive(Clone, Debug, PartialEq, Eq, Hash)]
pub struct Stored<'a> {
    pub tag: u8,
    pub literal: &'a [u8],
    pub children: Vec<Resolved>,
}

impl Stored<'_> {
    pub fn is_bootstrap(&self) -> bool {
        self.tag == BOOTSTRAP
    }
}

#[derive(Default)]
pub struct Store<'a> {
    all: Vec<Stored<'a>>,
    ids: HashMap<Stored<'a>, Id>,
    /// "The lowest record number among the resolved entries that became them." The BootstrapMethods name comes of no entry.
    lowest: HashMap<Id, usize>,
}

impl<'a> Store<'a> {
    pub fn put(&mut self, stored: Stored<'a>) -> Id {
        if let Some(id) = self.ids.get(&stored) {
            return *id;
        }
        let id = Id(self.all.len());
        self.all.push(stored.clone());
        self.ids.insert(stored, id);
        id
    }

    /// Puts what the entry of this record became.
    pub fn put_entry(&mut self, stored: Stored<'a>, record: usize) -> Id {
        let id = self.put(stored);
        let lowest = self.lowest.entry(id).or_insert(record);
        *lowest = record.min(*lowest);
        id
    }

    /// The lowest record number of what entries became.
    pub fn lowest(&self, id: Id) -> usize {
        self.lowest[&id]
    }

    pub fn get(&self, id: Id) -> &Stored<'a> {
        &self.all[id.0]
    }
}

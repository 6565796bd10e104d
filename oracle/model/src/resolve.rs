//! Resolving: "only what is reached is resolved", with 12 and 13, and the visits.

use crate::definitions::Definitions;
use crate::job::{Citation, Kind, Reference};
use crate::refusal::{CIRCULAR, UNDEFINED_NAME};
use crate::store::{Resolved, Store, Stored};
use std::collections::{HashMap, HashSet};

/// An entry: its kind and its number.
type Number = (Kind, u16);

/// An item on the stack of `resolve`.
enum Item<'a> {
    Enter(Citation<'a>),
    Leave(Number),
}

/// An entry that was reached.
enum State {
    BeingResolved,
    Done(Resolved),
}

/// Where a reference leads when its names are followed.
#[derive(Clone, Copy)]
enum End {
    Raw(u16),
    Entry(u16),
}

pub struct Resolver<'a> {
    definitions: Definitions<'a>,
    states: HashMap<Number, State>,
    /// Ends of names that were followed, so that long chains are walked once.
    ends: HashMap<(Kind, &'a [u8]), End>,
    pub store: Store<'a>,
    /// "The number of items taken from the stack of `resolve`, entering and leaving, over the run."
    pub visits: u64,
}

impl<'a> Resolver<'a> {
    pub fn new(definitions: Definitions<'a>) -> Self {
        Resolver {
            definitions,
            states: HashMap::new(),
            ends: HashMap::new(),
            store: Store::default(),
            visits: 0,
        }
    }

    pub fn resolve(&mut self, citation: Citation<'a>) -> Result<Resolved, u8> {
        let mut stack = vec![Item::Enter(citation)];
        while let Some(item) = stack.pop() {
            self.visits += 1;
            match item {
                Item::Enter(citation) => self.enter(citation, &mut stack)?,
                Item::Leave(number) => self.leave(number)?,
            }
        }
        self.resolved(citation)
    }

    /// Opens an entry that wasn't reached before; its children go left to right, and then it is left.
    fn enter(&mut self, citation: Citation<'a>, stack: &mut Vec<Item<'a>>) -> Result<(), u8> {
        let End::Entry(entry) = self.end(citation)? else {
            return Ok(());
        };
        let number = (citation.kind, entry);
        match self.states.get(&number) {
            Some(State::Done(_)) => Ok(()),
            Some(State::BeingResolved) => Err(CIRCULAR),
            None => {
                self.states.insert(number, State::BeingResolved);
                stack.push(Item::Leave(number));
                let children = &self.definitions.entry(citation.kind, entry).children;
                stack.extend(children.iter().rev().copied().map(Item::Enter));
                Ok(())
            }
        }
    }

    /// All children of the entry are resolved by now.
    fn leave(&mut self, number: Number) -> Result<(), u8> {
        let entry = self.definitions.entry(number.0, number.1);
        let children = entry.children.iter().map(|child| self.resolved(*child));
        let stored = Stored {
            tag: entry.tag,
            literal: &entry.literal,
            children: children.collect::<Result<_, _>>()?,
        };
        let record = self.definitions.record_of(number.0, number.1);
        let id = self.store.put_entry(stored, record);
        let done = State::Done(Resolved::Stored(id));
        self.states.insert(number, done);
        Ok(())
    }

    /// What a citation that was entered came to.
    fn resolved(&mut self, citation: Citation<'a>) -> Result<Resolved, u8> {
        match self.end(citation)? {
            End::Raw(slot) => Ok(Resolved::Raw(slot)),
            End::Entry(entry) => match self.states.get(&(citation.kind, entry)) {
                Some(State::Done(resolved)) => Ok(*resolved),
                _ => unreachable!("children are left before their parent"),
            },
        }
    }

    /// Follows names. "Following a name to a raw slot ends there"; a name met again is still being resolved.
    fn end(&mut self, citation: Citation<'a>) -> Result<End, u8> {
        let mut walked = HashSet::new();
        let mut reference = citation.reference;
        let end = loop {
            let name = match reference {
                Reference::Raw(slot) => break End::Raw(slot),
                Reference::Entry(entry) => break End::Entry(entry),
                Reference::Name(name) => (citation.kind, name),
            };
            if let Some(end) = self.ends.get(&name) {
                break *end;
            }
            if !walked.insert(name) {
                return Err(CIRCULAR);
            }
            reference = *self.definitions.names.get(&name).ok_or(UNDEFINED_NAME)?;
        };
        self.ends.extend(walked.into_iter().map(|name| (name, end)));
        Ok(end)
    }
}

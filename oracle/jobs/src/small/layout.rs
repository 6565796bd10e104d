//! From a plan to records: entries get an order and numbers, references become numbers or names,
//! and the definitions of names and raw ones fall anywhere behind the entry they cite.

use super::plan::{ClassWish, Node, Plan, Shape, Target, cites_bootstrap};
use crate::random::Random;
use crate::record::{ClassSlot, Constant, Record, Reference};

/// The same few names serve both kinds, so that one name often means a constant and a bootstrap.
const NAMES: &[&[u8]] = &[
    b"a",
    b"b",
    b"c",
    b"x",
    b"ab",
    b"",
    b"\0",
    b"\xff",
    b"a\0",
    b"\xc3\xa9",
];

/// What stands behind the first 254 bytes of a long name, which are all the same.
const LAST_BYTES: &[&[u8]] = &[b"", b"x", b"y", b"z"];

fn long_name(random: &mut Random) -> Vec<u8> {
    let mut name = vec![b'n'; 254];
    name.extend_from_slice(*random.pick(LAST_BYTES));
    name
}

struct Definition {
    name: Vec<u8>,
    /// What the name leads to in the end.
    leads_to: Target,
    reference: Reference,
    /// The entry that the reference cites by number.
    cites: Option<usize>,
}

#[derive(Default)]
struct Names {
    defined: Vec<Definition>,
    kept_undefined: Vec<Vec<u8>>,
}

struct Layout<'a> {
    plan: &'a Plan,
    random: &'a mut Random,
    /// Each node's place among all entries, and its number among those of its kind.
    places: Vec<usize>,
    numbers: Vec<u16>,
    /// Names of constants, then of bootstraps.
    names: [Names; 2],
}

pub fn records(plan: &Plan, random: &mut Random) -> Vec<Record> {
    let order = entry_order(plan.nodes.len(), random);
    let mut layout = Layout {
        places: places(&order),
        numbers: numbers(plan, &order),
        plan,
        random,
        names: Default::default(),
    };
    let entries: Vec<Record> = order.iter().map(|&node| layout.entry(node)).collect();
    let requests = layout.requests();
    let build = layout.build();
    layout.idle_names();
    layout.doubled_names();
    let mut records = layout.definitions(entries);
    records.push(Record::EndOfDefinitions);
    records.extend(requests);
    records.push(build);
    records
}

/// Half of the time some entries change places, so that names have to point forward.
fn entry_order(count: usize, random: &mut Random) -> Vec<usize> {
    let mut order: Vec<usize> = (0..count).collect();
    if count > 1 && random.chance(1, 2) {
        for _ in 0..1 + random.below(3) {
            order.swap(random.below(count), random.below(count));
        }
    }
    order
}

fn places(order: &[usize]) -> Vec<usize> {
    let mut places = vec![0; order.len()];
    for (place, &node) in order.iter().enumerate() {
        places[node] = place;
    }
    places
}

fn numbers(plan: &Plan, order: &[usize]) -> Vec<u16> {
    let mut numbers = vec![0; order.len()];
    let (mut constants, mut bootstraps) = (0, 0);
    for &node in order {
        let count = match plan.nodes[node].shape {
            Shape::Constant { .. } => &mut constants,
            Shape::Bootstrap => &mut bootstraps,
        };
        numbers[node] = *count;
        *count += 1;
    }
    numbers
}

impl Layout<'_> {
    fn entry(&mut self, node: usize) -> Record {
        let plan = self.plan;
        let Node {
            shape, children, ..
        } = &plan.nodes[node];
        let place = self.places[node];
        let mut references = vec![];
        for (i, child) in children.iter().enumerate() {
            references.push(self.reference(cites_bootstrap(shape, i), child, place));
        }
        match shape {
            Shape::Constant { tag, literal } => Record::Constant(Constant {
                tag: *tag,
                literal: literal.clone(),
                references,
            }),
            Shape::Bootstrap => Record::Bootstrap {
                handle: references.remove(0),
                arguments: references,
            },
        }
    }

    /// A reference from the entry at `place`; entries from there on can be reached by name only.
    fn reference(&mut self, bootstrap: bool, target: &Target, place: usize) -> Reference {
        let numbered = if self.plan.long_names { 1 } else { 2 };
        match *target {
            Target::Raw(number) if self.random.chance(5, 6) => Reference::Raw(number),
            Target::Node(n) if self.places[n] < place && self.random.chance(numbered, 3) => {
                Reference::Entry(self.numbers[n])
            }
            _ => Reference::Name(self.name_for(bootstrap, target)),
        }
    }

    fn name_for(&mut self, bootstrap: bool, target: &Target) -> Vec<u8> {
        let there = self.names[bootstrap as usize]
            .defined
            .iter()
            .filter(|d| d.leads_to == *target);
        let there: Vec<Vec<u8>> = there.map(|d| d.name.clone()).collect();
        if !there.is_empty() && self.random.chance(2, 3) {
            return self.random.pick(&there).clone();
        }
        match target {
            Target::Missing if self.random.chance(3, 4) => self.missing_name(bootstrap),
            Target::Circle if self.random.chance(3, 4) => self.circle(bootstrap),
            _ => self.defined_name(bootstrap, target),
        }
    }

    /// A new name for the target, often at the head of a chain of names.
    fn defined_name(&mut self, bootstrap: bool, target: &Target) -> Vec<u8> {
        let chained = self.random.chance(1, 3);
        let (reference, cites) = match *target {
            Target::Raw(number) if !chained => (Reference::Raw(number), None),
            Target::Node(n) if !chained => (Reference::Entry(self.numbers[n]), Some(n)),
            _ => (Reference::Name(self.name_for(bootstrap, target)), None),
        };
        let name = self.fresh_name(bootstrap);
        self.define(bootstrap, &name, target.clone(), reference, cites);
        name
    }

    fn define(
        &mut self,
        bootstrap: bool,
        name: &[u8],
        leads_to: Target,
        reference: Reference,
        cites: Option<usize>,
    ) {
        self.names[bootstrap as usize].defined.push(Definition {
            name: name.to_vec(),
            leads_to,
            reference,
            cites,
        });
    }

    /// A name that stays undefined for this kind, best one that the other kind defines.
    fn missing_name(&mut self, bootstrap: bool) -> Vec<u8> {
        let others = &self.names[!bootstrap as usize].defined;
        let others = others
            .iter()
            .map(|d| d.name.clone())
            .filter(|name| !self.is_taken(bootstrap, name));
        let others: Vec<Vec<u8>> = others.collect();
        let name = if others.is_empty() || self.random.chance(1, 4) {
            self.fresh_name(bootstrap)
        } else {
            self.random.pick(&others).clone()
        };
        self.names[bootstrap as usize]
            .kept_undefined
            .push(name.clone());
        name
    }

    /// One to three names in a ring.
    fn circle(&mut self, bootstrap: bool) -> Vec<u8> {
        let first = self.fresh_name(bootstrap);
        self.names[bootstrap as usize]
            .kept_undefined
            .push(first.clone());
        let mut to = first.clone();
        for _ in 0..self.random.below(3) {
            let name = self.fresh_name(bootstrap);
            self.define(bootstrap, &name, Target::Circle, Reference::Name(to), None);
            to = name;
        }
        self.define(bootstrap, &first, Target::Circle, Reference::Name(to), None);
        first
    }

    fn is_taken(&self, bootstrap: bool, name: &[u8]) -> bool {
        let names = &self.names[bootstrap as usize];
        names.defined.iter().any(|d| d.name == name)
            || names.kept_undefined.iter().any(|n| n == name)
    }

    fn fresh_name(&mut self, bootstrap: bool) -> Vec<u8> {
        for _ in 0..8 {
            let name = match self.plan.long_names && self.random.chance(1, 2) {
                true => long_name(self.random),
                false => self.random.pick(NAMES).to_vec(),
            };
            if !self.is_taken(bootstrap, &name) {
                return name;
            }
        }
        loop {
            let name = self.random.bytes(2);
            if !self.is_taken(bootstrap, &name) {
                return name;
            }
        }
    }

    fn requests(&mut self) -> Vec<Record> {
        let behind_all = self.places.len();
        let mut requests = vec![];
        for request in &self.plan.requests {
            let reference = self.reference(false, &request.target, behind_all);
            requests.push(match request.ldc {
                true => Record::AskLdc(reference),
                false => Record::Ask(reference),
            });
        }
        requests
    }

    fn build(&self) -> Record {
        let class = match self.plan.class {
            ClassWish::Slot(slot) => ClassSlot::Slot(slot),
            ClassWish::Node(node) => {
                let asked = |r: &super::plan::Request| r.target == Target::Node(node);
                let request = self.plan.requests.iter().rposition(asked);
                request.map_or(ClassSlot::Slot(1), |r| ClassSlot::Request(r as u16))
            }
        };
        Record::Build {
            name: self.plan.name_byte,
            class,
        }
    }

    fn idle_names(&mut self) {
        for (bootstrap, target) in &self.plan.idle_names {
            self.defined_name(*bootstrap, target);
        }
    }

    /// Gives names a second definition: the same once more, or another.
    fn doubled_names(&mut self) {
        for _ in 0..self.plan.doubled_names {
            let bootstrap = self.random.chance(1, 3);
            let other = Reference::Raw(self.random.below(3) as u16);
            let defined = &self.names[bootstrap as usize].defined;
            let (name, reference, cites) = match defined.len() {
                0 => (self.defined_name(bootstrap, &Target::Raw(1)), other, None),
                count => {
                    let first = &defined[self.random.below(count)];
                    match self.random.chance(1, 2) {
                        true => (first.name.clone(), other, None),
                        false => (first.name.clone(), first.reference.clone(), first.cites),
                    }
                }
            };
            self.define(bootstrap, &name, Target::Missing, reference, cites);
        }
    }

    /// Entries in order, every other definition somewhere behind the entry that it cites.
    fn definitions(&mut self, entries: Vec<Record>) -> Vec<Record> {
        let mut behind: Vec<Vec<Record>> = vec![vec![]; entries.len() + 1];
        for (first, record) in self.movable() {
            let place = match self.random.below(3) {
                0 => first,
                1 => entries.len(),
                _ => first + self.random.below(entries.len() + 1 - first),
            };
            behind[place].push(record);
        }
        let mut records = vec![];
        let mut entries = entries.into_iter();
        for mut others in behind {
            self.random.shuffle(&mut others);
            records.extend(others);
            records.extend(entries.next());
        }
        records
    }

    /// The definitions of names and raw ones, each with the number of entries that must stand before
    /// it.
    fn movable(&self) -> Vec<(usize, Record)> {
        let mut movable = vec![];
        let behind = |node: usize| self.places[node] + 1;
        for (names, record) in self
            .names
            .iter()
            .zip([Record::NameConstant, Record::NameBootstrap])
        {
            for d in &names.defined {
                movable.push((
                    d.cites.map_or(0, behind),
                    record(d.name.clone(), d.reference.clone()),
                ));
            }
        }
        for &(slot, node) in &self.plan.raw_constants {
            let entry = self.numbers[node];
            movable.push((behind(node), Record::RawConstant { slot, entry }));
        }
        for &(index, node) in &self.plan.raw_bootstraps {
            let entry = self.numbers[node];
            movable.push((behind(node), Record::RawBootstrap { index, entry }));
        }
        movable
    }
}

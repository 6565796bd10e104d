//! Jobs that are often refused while building (document 02, No. 9): constants and bootstraps that several entries become, written in
//! another order than they are resolved in, some never reached, in pools with hardly a slot more than is asked for.

mod nodes;
mod written;

use crate::make::*;
use crate::random::Random;
use crate::record::Record;
use nodes::{Nodes, leaf};
use std::collections::BTreeMap;
use written::Written;

const LAST_SLOT: u16 = 65_534;
const INDEXES: u16 = 65_535;

/// Versions that lack some of the kinds 15 to 20, or none.
const VERSIONS: &[u16] = &[0, 50, 50, 51, 52, 53, 54, 55];

/// What is made of the nodes. A key is a raw slot or index.
struct Plan {
    nodes: Nodes,
    asked: Vec<usize>,
    raw_constants: BTreeMap<u16, usize>,
    raw_bootstraps: BTreeMap<u16, usize>,
    highest: u16,
}

impl Plan {
    /// Some constants are asked for and some are raw; what is left of the slots is hardly enough for their children.
    fn some(random: &mut Random) -> Self {
        let nodes = Nodes::some(4 + random.below(10), random);
        let mut plan = Plan {
            nodes,
            asked: vec![],
            raw_constants: BTreeMap::new(),
            raw_bootstraps: BTreeMap::new(),
            highest: 0,
        };
        plan.asked = plan.parents(1 + random.below(3), random);
        let raw = plan.parents(random.below(3), random);
        let mut held = plan.asked.clone();
        held.sort_unstable_by_key(|at| plan.nodes.first[*at]);
        held.dedup_by_key(|at| plan.nodes.first[*at]);
        let held = held.iter().chain(&raw);
        let held: u16 = held.map(|at| plan.nodes.all[*at].slots()).sum();
        let more = *random.weighted(&[(6, 0), (4, 1), (2, 2), (1, 4)]);
        plan.highest = (held + more).max(1);
        raw.into_iter().for_each(|at| plan.hold(at, random));
        for at in plan.nodes.of_kind(true) {
            if random.chance(1, 3) {
                plan.raw_bootstraps.insert(random.below(6) as u16, at);
            }
        }
        plan
    }

    /// Constants, most of them with children.
    fn parents(&self, count: usize, random: &mut Random) -> Vec<usize> {
        let constants = self.nodes.of_kind(false);
        let is_parent = |at: &usize| !self.nodes.all[*at].children.is_empty();
        let parents: Vec<usize> = constants.iter().copied().filter(is_parent).collect();
        let mut picked = vec![];
        for _ in 0..count {
            let from = match parents.is_empty() || random.chance(1, 8) {
                true => &constants,
                false => &parents,
            };
            picked.extend((!from.is_empty()).then(|| *random.pick(from)));
        }
        picked
    }

    /// A raw constant somewhere, if there is room.
    fn hold(&mut self, node: usize, random: &mut Random) {
        let slots = self.nodes.all[node].slots();
        let free = |first: &u16| (*first..first + slots).all(|slot| !self.is_held(slot));
        let firsts: Vec<u16> = (1..=self.highest + 1 - slots).filter(free).collect();
        if !firsts.is_empty() {
            self.raw_constants.insert(*random.pick(&firsts), node);
        }
    }

    fn is_held(&self, slot: u16) -> bool {
        let held = |first: u16, slots: u16| {
            let node = self.raw_constants.get(&first);
            node.is_some_and(|at| self.nodes.all[*at].slots() >= slots)
        };
        held(slot, 1) || slot > 0 && held(slot - 1, 2)
    }

    /// All slots that aren't left to be asked for hold a narrow constant.
    fn fill_slots(&mut self, random: &mut Random) {
        let left = self.highest - self.raw_constants.len() as u16;
        self.highest = LAST_SLOT;
        let number = random.below(3) as u8;
        self.nodes.add(leaf(INT, &[0, 0, 0, number]));
        let filler = self.nodes.all.len() - 1;
        let first = 1 + random.below(usize::from(LAST_SLOT - 2 * left)) as u16;
        for slot in (1..=LAST_SLOT).filter(|slot| !(first..first + left).contains(slot)) {
            if !self.is_held(slot) {
                self.raw_constants.insert(slot, filler);
            }
        }
    }

    /// All indexes but a few hold a raw bootstrap. Dynamics are asked for.
    fn fill_indexes(&mut self, random: &mut Random) {
        for _ in 0..1 + random.below(3) {
            self.nodes.add_bootstrap(random);
        }
        for _ in 0..1 + random.below(4) {
            self.nodes.add_dynamic(random);
            self.asked.push(self.nodes.all.len() - 1);
            self.highest += 1;
        }
        let bootstraps = self.nodes.of_kind(true);
        let free: Vec<u16> = (0..*random.weighted(&[(3, 0), (2, 1), (1, 2)]))
            .map(|_| random.below(INDEXES.into()) as u16)
            .collect();
        let most = *random.pick(&bootstraps);
        for index in (0..INDEXES).filter(|index| !free.contains(index)) {
            self.raw_bootstraps.entry(index).or_insert(most);
        }
    }

    /// Names and raw definitions stand anywhere behind the entries that they cite.
    fn records(&self, random: &mut Random) -> Vec<Record> {
        let written = Written::new(&self.nodes, random);
        let (mut records, mut waiting) = (vec![], vec![]);
        for node in &written.order {
            records.push(written.entry(*node, random));
            let entry = written.number[*node];
            waiting.extend(written.name(*node));
            match self.nodes.all[*node].is_bootstrap() {
                true => waiting.extend(keys(&self.raw_bootstraps, *node, entry, raw_bootstrap)),
                false => waiting.extend(keys(&self.raw_constants, *node, entry, raw)),
            }
            if random.chance(1, 2) {
                random.shuffle(&mut waiting);
                records.append(&mut waiting);
            }
        }
        random.shuffle(&mut waiting);
        records.append(&mut waiting);
        let asked = self.asked.iter();
        let requests = asked.map(|node| request(&written, *node, random)).collect();
        let name = *random.pick(&[NAME_ALWAYS, NAME_IF_PRESENT, NAME_NEVER, NAME_NEVER]);
        job(records, requests, name)
    }
}

fn request(written: &Written, node: usize, random: &mut Random) -> Record {
    let of = written.cited(node, usize::MAX, random);
    match random.chance(1, 10) {
        true => Record::AskLdc(of),
        false => Record::Ask(of),
    }
}

/// The raw definitions of a node.
fn keys(
    held: &BTreeMap<u16, usize>,
    node: usize,
    entry: u16,
    record: fn(u16, u16) -> Record,
) -> Vec<Record> {
    let of_node = held.iter().filter(|(_, at)| **at == node);
    of_node.map(|(key, _)| record(*key, entry)).collect()
}

/// A job whose pool ends about where its last constant stands.
pub fn lowest_job(random: &mut Random) -> Vec<Record> {
    let plan = Plan::some(random);
    let mut records = plan.records(random);
    let limited = random.chance(9, 10);
    if limited {
        records.insert(0, Record::HighestSlot(plan.highest));
    }
    insert_settings(&mut records, limited.into(), random);
    records
}

/// The same with all 65,534 slots full but for those, or all 65,535 indexes but for a few, or both.
pub fn lowest_full_job(random: &mut Random) -> Vec<Record> {
    let mut plan = Plan::some(random);
    let (slots, indexes) =
        *random.pick(&[(true, false), (false, true), (false, true), (true, true)]);
    if indexes {
        plan.fill_indexes(random);
    }
    if slots {
        plan.fill_slots(random);
    }
    let mut records = plan.records(random);
    if random.chance(1, 4) {
        insert_settings(&mut records, 0, random);
    }
    records
}

/// Records 47 and 48 somewhere among the definitions.
fn insert_settings(records: &mut Vec<Record>, first: usize, random: &mut Random) {
    let end = records.iter().position(|r| *r == Record::EndOfDefinitions);
    let end = end.expect("a well-formed job has a record 50");
    if random.chance(1, 8) {
        records.insert(first + random.below(end + 1 - first), Record::HoldTexts);
    }
    if random.chance(1, 3) {
        let version = Record::Version(*random.pick(VERSIONS));
        records.insert(first + random.below(end + 1 - first), version);
    }
}

//! Pairs of jobs: alike but for their literals (demand 3), with and without records 47 to 49, and alike but for the order of records
//! 41 to 44 (request No. 11).

use crate::lowest::lowest_job;
use crate::make::{NAME_TEXT, TEXT, has_literal};
use crate::random::Random;
use crate::record::{Record, Reference};
use crate::settings::settings_job;
use crate::small::small_job;
use crate::worked::worked_job;
use std::collections::{BTreeMap, BTreeSet};

pub type Pair = (Vec<Record>, Vec<Record>);

/// Two small jobs, the second with other literals in the place of the first's.
pub fn literal_pair(random: &mut Random) -> Pair {
    let first = small_job(random);
    with_other_literals(first, some_text, random)
}

/// The same with equal settings. Where texts are held, the second's are letters.
pub fn settings_pair(random: &mut Random) -> Pair {
    let first = settings_job(random);
    let text = match first.contains(&Record::HoldTexts) {
        true => letters,
        false => some_text,
    };
    with_other_literals(first, text, random)
}

/// The same of jobs that are often refused while building.
pub fn lowest_pair(random: &mut Random) -> Pair {
    let first = lowest_job(random);
    with_other_literals(first, letters, random)
}

type Text = fn(&mut Random) -> Vec<u8>;

fn with_other_literals(first: Vec<Record>, text: Text, random: &mut Random) -> Pair {
    let mut second = first.clone();
    let labels = new_literals(&first, text, random);
    for record in &mut second {
        if let Record::Constant(c) = record
            && has_literal(c.tag)
        {
            c.literal = labels[&(c.tag, c.literal.clone())].clone();
        }
    }
    (first, second)
}

type Labels = BTreeMap<(u8, Vec<u8>), Vec<u8>>;

/// A new literal for each one in the job, no two of a kind alike.
fn new_literals(records: &[Record], text: Text, random: &mut Random) -> Labels {
    let mut labels = Labels::new();
    let mut taken = BTreeSet::new();
    for record in records {
        let Record::Constant(c) = record else {
            continue;
        };
        let old = (c.tag, c.literal.clone());
        if !has_literal(c.tag) || labels.contains_key(&old) {
            continue;
        }
        let new = match c.literal == NAME_TEXT && c.tag == TEXT {
            true => NAME_TEXT.to_vec(),
            false => unused_literal(c.tag, c.literal.len(), &taken, text, random),
        };
        taken.insert((c.tag, new.clone()));
        labels.insert(old, new);
    }
    labels
}

fn unused_literal(
    tag: u8,
    length: usize,
    taken: &BTreeSet<(u8, Vec<u8>)>,
    text: Text,
    random: &mut Random,
) -> Vec<u8> {
    loop {
        let new = match tag {
            TEXT => text(random),
            _ => some_number(length, random),
        };
        let is_name = tag == TEXT && new == NAME_TEXT;
        if !is_name && !taken.contains(&(tag, new.clone())) {
            return new;
        }
    }
}

/// Texts of other lengths, and often ones that small jobs use, so that literals change places.
fn some_text(random: &mut Random) -> Vec<u8> {
    let length = match random.below(8) {
        0 => 0,
        1 => 4,
        2 => 16,
        3 => return b"foo".to_vec(),
        4 => return b"A".to_vec(),
        5 => return b"1234".to_vec(),
        6 => 100 + random.below(200),
        _ => 1 + random.below(6),
    };
    random.bytes(length)
}

fn letters(random: &mut Random) -> Vec<u8> {
    let length = random.below(8);
    let bytes = random.bytes(length);
    bytes.into_iter().map(|byte| b'a' + byte % 26).collect()
}

fn some_number(length: usize, random: &mut Random) -> Vec<u8> {
    let mut number = vec![0; length];
    match random.below(4) {
        0 => number[length - 1] = random.below(3) as u8,
        1 => number.copy_from_slice(&b"12345678"[..length]),
        _ => number = random.bytes(length),
    }
    number
}

/// A small job twice, in the second its names and raw definitions in another order.
pub fn order_pair(random: &mut Random) -> Pair {
    in_two_orders(small_job, random)
}

/// The same of jobs with every kind of record.
pub fn worked_order_pair(random: &mut Random) -> Pair {
    in_two_orders(worked_job, random)
}

fn in_two_orders(job: fn(&mut Random) -> Vec<Record>, random: &mut Random) -> Pair {
    loop {
        let first = job(random);
        if first.iter().filter(|r| is_movable(r)).count() >= 2 {
            let second = reordered(&first, random);
            return (first, second);
        }
    }
}

fn is_movable(record: &Record) -> bool {
    matches!(
        record,
        Record::NameConstant(..)
            | Record::NameBootstrap(..)
            | Record::RawConstant { .. }
            | Record::RawBootstrap { .. }
    )
}

fn reordered(records: &[Record], random: &mut Random) -> Vec<Record> {
    let end = records
        .iter()
        .position(|r| *r == Record::EndOfDefinitions)
        .unwrap();
    let (definitions, rest) = records.split_at(end);
    let (mut movable, entries): (Vec<Record>, Vec<Record>) =
        definitions.iter().cloned().partition(is_movable);
    random.shuffle(&mut movable);
    let mut behind: Vec<Vec<Record>> = vec![vec![]; entries.len() + 1];
    for record in movable {
        let first = entries_needed(&record, &entries);
        let place = first + random.below(entries.len() + 1 - first);
        behind[place].push(record);
    }
    let mut moved = vec![];
    let mut entries = entries.into_iter();
    for others in behind {
        moved.extend(others);
        moved.extend(entries.next());
    }
    moved.extend_from_slice(rest);
    moved
}

/// How many of the records that stay have to stand before a movable one: those up to the entry that it cites, and a 49.
fn entries_needed(record: &Record, entries: &[Record]) -> usize {
    let first = usize::from(matches!(entries.first(), Some(Record::HighestSlot(_))));
    let (of_bootstraps, number) = match record {
        Record::NameConstant(_, Reference::Entry(number)) => (false, *number),
        Record::NameBootstrap(_, Reference::Entry(number)) => (true, *number),
        Record::RawConstant { entry, .. } => (false, *entry),
        Record::RawBootstrap { entry, .. } => (true, *entry),
        _ => return first,
    };
    let same_kind = |(_, r): &(usize, &Record)| match r {
        Record::Bootstrap { .. } => of_bootstraps,
        Record::Constant(_) | Record::Expression(_) => !of_bootstraps,
        _ => false,
    };
    let cited = entries
        .iter()
        .enumerate()
        .filter(same_kind)
        .nth(number as usize);
    cited.unwrap().0 + 1
}

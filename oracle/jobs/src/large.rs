//! Large jobs of `n` distinct constants, each asked for, so that all of them have slots.
//!
//! Every kind reaches 60,000 constants within 1,048,576 bytes and 65,534 slots. A raw constant has
//! its slot already and an inline request for it would take a second one, so `raw`, `gaps` and
//! `mixed` ask for their raw constants by slot number.

use crate::make::*;
use crate::record::{Record, Reference};

pub type Large = fn(usize) -> Vec<Record>;

pub const KINDS: &[(&str, Large)] = &[
    ("ints", ints),
    ("texts_and_classes", texts_and_classes),
    ("fields", fields),
    ("raw", raw_everywhere),
    ("names", names),
    ("dynamics", dynamics),
    ("gaps", gaps),
    ("mixed", mixed),
];

/// The most constants that every kind has room for, and the fewest with which `fields` has no two
/// alike.
pub const SIZES: std::ops::RangeInclusive<usize> = 16..=60_000;

fn number(i: usize) -> u16 {
    u16::try_from(i).expect("entry numbers and slots fit two bytes")
}

fn entry(i: usize) -> Reference {
    Reference::Entry(number(i))
}

fn ask_all(definitions: Vec<Record>, n: usize) -> Vec<Record> {
    let requests = (0..n).map(|i| ask(number(i))).collect();
    job(definitions, requests, NAME_IF_PRESENT)
}

fn ints(n: usize) -> Vec<Record> {
    ask_all((0..n).map(|i| int(i as u32)).collect(), n)
}

fn texts_and_classes(n: usize) -> Vec<Record> {
    let texts = n.div_ceil(2);
    let mut definitions: Vec<Record> = (0..texts)
        .map(|i| text(format!("pkg/Class{i:05}").as_bytes()))
        .collect();
    definitions.extend((0..n - texts).map(|i| class(entry(i))));
    ask_all(definitions, n)
}

/// An eighth texts, an eighth classes, a quarter names and types, and half members of classes.
fn fields(n: usize) -> Vec<Record> {
    let classes = n / 8;
    let (kinds, members) = (2 * classes, 4 * classes);
    let texts = n - classes - kinds - members;
    let mut definitions: Vec<Record> = (0..texts)
        .map(|i| text(format!("name{i:05}").as_bytes()))
        .collect();
    definitions.extend((0..classes).map(|i| class(entry(i))));
    // With the first part given, the second moves on in each round, so no two pairs are alike.
    let pair =
        |i: usize, first: usize, second: usize| (i % first, (i % first + i / first) % second);
    for i in 0..kinds {
        let (name, kind) = pair(i, texts, texts);
        definitions.push(constant(NAME_AND_TYPE, &[], vec![entry(name), entry(kind)]));
    }
    for i in 0..members {
        let (of, kind) = pair(i, classes, kinds);
        let references = vec![entry(texts + of), entry(texts + classes + kind)];
        definitions.push(constant(FIELD + (i % 3) as u8, &[], references));
    }
    ask_all(definitions, n)
}

/// Every constant raw, the slots coming from both ends in turn.
fn raw_everywhere(n: usize) -> Vec<Record> {
    let mut definitions = vec![];
    let mut requests = vec![];
    for i in 0..n {
        let slot = number(if i % 2 == 0 { 1 + i / 2 } else { n - i / 2 });
        definitions.push(int_or_class(i));
        definitions.push(raw(slot, number(i)));
        requests.push(Record::Ask(Reference::Raw(slot)));
    }
    job(definitions, requests, NAME_IF_PRESENT)
}

fn int_or_class(i: usize) -> Record {
    match i % 2 {
        0 => int(i as u32),
        _ => class(Reference::Raw(number(i))),
    }
}

/// Every request goes through a name of two bytes; each sixtieth through a chain of six names.
fn names(n: usize) -> Vec<Record> {
    let name_of = |i: usize| number(i).to_be_bytes();
    let mut definitions: Vec<Record> = (0..n).map(int_or_class).collect();
    let mut next_alias = n;
    for i in 0..n {
        let mut head = i;
        let links = if i % 60 == 0 { 5 } else { 0 };
        for _ in 0..links {
            definitions.push(name(
                &name_of(head),
                Reference::Name(name_of(next_alias).to_vec()),
            ));
            head = next_alias;
            next_alias += 1;
        }
        definitions.push(name(&name_of(head), entry(i)));
    }
    let requests = (0..n)
        .map(|i| Record::Ask(Reference::Name(name_of(i).to_vec())))
        .collect();
    job(definitions, requests, NAME_IF_PRESENT)
}

/// A third handles, as many bootstraps over them, and dynamic constants over those.
fn dynamics(n: usize) -> Vec<Record> {
    let groups = n.div_ceil(3);
    let mut definitions = vec![];
    for i in 0..groups {
        definitions.push(handle(1 + (i % 9) as u8, Reference::Raw(number(i))));
        definitions.push(bootstrap(entry(i), vec![entry(i / 2)]));
    }
    for i in 0..n - groups {
        let references = vec![entry(i % groups), Reference::Raw(1)];
        definitions.push(constant(DYNAMIC + (i / groups) as u8, &[], references));
    }
    ask_all(definitions, n)
}

/// A third raw, at about every third slot, which leaves gaps of one to three slots; wide ones among
/// the rest.
fn gaps(n: usize) -> Vec<Record> {
    let raws = n / 3;
    let mut definitions = vec![];
    let mut requests = vec![];
    for i in 0..raws {
        let slot = number(3 * (i + 1) + usize::from(i % 3 == 2));
        definitions.push(int(i as u32));
        definitions.push(raw(slot, number(i)));
        requests.push(Record::Ask(Reference::Raw(slot)));
    }
    for i in raws..n {
        definitions.push(if i % 16 == 0 {
            long(i as u64)
        } else {
            int(i as u32)
        });
        requests.push(ask(number(i)));
    }
    job(definitions, requests, NAME_IF_PRESENT)
}

/// Groups of eight: a number, text, class, name and type, field, handle, dynamic, and a raw float.
fn mixed(n: usize) -> Vec<Record> {
    let mut definitions = vec![];
    let mut requests = vec![];
    for group in 0..n / 8 {
        mixed_group(group, &mut definitions, &mut requests);
    }
    for i in n / 8 * 8..n {
        definitions.push(int(!(i as u32)));
        requests.push(ask(number(i)));
    }
    job(definitions, requests, NAME_IF_PRESENT)
}

fn mixed_group(group: usize, definitions: &mut Vec<Record>, requests: &mut Vec<Record>) {
    let at = |i: usize| entry(8 * group + i);
    let field_name = [b'f', (group >> 8) as u8, group as u8];
    let slot = number(8 * (group + 1));
    definitions.extend([
        if group.is_multiple_of(4) {
            long(group as u64)
        } else {
            int(group as u32)
        },
        text(format!("text{group:04}").as_bytes()),
        class(at(1)),
        constant(NAME_AND_TYPE, &[], vec![at(1), at(1)]),
        constant(FIELD, &[], vec![at(2), at(3)]),
        handle(1, Reference::Name(field_name.to_vec())),
        bootstrap(at(5), vec![at(0)]),
        dynamic(entry(group), at(3)),
        constant(FLOAT, &(group as u32).to_be_bytes(), vec![]),
        raw(slot, number(8 * group + 7)),
        name(&field_name, at(4)),
    ]);
    requests.extend((0..7).map(|i| match i {
        4 => Record::Ask(Reference::Name(field_name.to_vec())),
        _ => Record::Ask(at(i)),
    }));
    requests.push(Record::Ask(Reference::Raw(slot)));
}

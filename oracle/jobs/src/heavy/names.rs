//! Long chains of names.

use super::{ask_for, entry, named};
use crate::make::*;
use crate::record::{Record, Reference, encode};

const LONG_CHAIN: usize = 60_000;

fn name_of(i: usize) -> [u8; 2] {
    super::number(i).to_be_bytes()
}

/// Names 0 to `count - 1`, each for the one before; name 0 leads to `end`.
fn chain(count: usize, end: Reference) -> Vec<Record> {
    let link = |i: usize| match i {
        0 => name(&name_of(0), end.clone()),
        _ => name(&name_of(i), named(&name_of(i - 1))),
    };
    (0..count).map(link).collect()
}

fn ask_name(i: usize) -> Record {
    ask_for(named(&name_of(i)))
}

fn with_constant(links: Vec<Record>, requests: Vec<Record>) -> Vec<u8> {
    let mut definitions = vec![int(1), class(named(&name_of(LONG_CHAIN - 1)))];
    definitions.extend(links);
    encode(&job(definitions, requests, NAME_NEVER))
}

pub fn chain_forward() -> Vec<u8> {
    let requests = vec![
        ask_name(LONG_CHAIN - 1),
        ask(1),
        ask_name(0),
        ask_name(LONG_CHAIN / 2),
    ];
    with_constant(chain(LONG_CHAIN, entry(0)), requests)
}

/// Every name points to one that is defined later.
pub fn chain_backward() -> Vec<u8> {
    let links = chain(LONG_CHAIN, entry(0)).into_iter().rev().collect();
    with_constant(links, vec![ask(1), ask_name(LONG_CHAIN - 1)])
}

/// The longest chain that fits, with names of three bytes.
pub fn chain_longest() -> Vec<u8> {
    let name_of = |i: u32| i.to_be_bytes()[1..].to_vec();
    let mut definitions = vec![int(1), name(&name_of(0), entry(0))];
    definitions.extend((1..104_000).map(|i| name(&name_of(i), Reference::Name(name_of(i - 1)))));
    encode(&job(
        definitions,
        vec![ask_for(Reference::Name(name_of(103_999)))],
        NAME_NEVER,
    ))
}

/// From the far end on, so that each request but the first ends after one step.
pub fn chain_asked_everywhere() -> Vec<u8> {
    let mut definitions = vec![int(1)];
    definitions.extend(chain(40_000, entry(0)));
    let requests = (0..40_000).rev().map(ask_name).collect();
    encode(&job(definitions, requests, NAME_NEVER))
}

pub fn chain_undefined() -> Vec<u8> {
    with_constant(chain(LONG_CHAIN, named(b"nobody")), vec![ask(0), ask(1)])
}

fn circle(requests: Vec<Record>) -> Vec<u8> {
    with_constant(chain(LONG_CHAIN, named(&name_of(LONG_CHAIN - 1))), requests)
}

pub fn circle_unused() -> Vec<u8> {
    circle(vec![ask(0)])
}

pub fn circle_asked() -> Vec<u8> {
    circle(vec![ask(0), ask_name(5)])
}

pub fn bootstrap_chain() -> Vec<u8> {
    let mut definitions = vec![int(1), bootstrap(entry(0), vec![])];
    for link in chain(LONG_CHAIN, entry(0)) {
        let Record::NameConstant(name, to) = link else {
            continue;
        };
        definitions.push(Record::NameBootstrap(name, to));
    }
    for head in [0, 1, 30_000, LONG_CHAIN - 1] {
        definitions.push(dynamic(named(&name_of(head)), Reference::Raw(1)));
    }
    encode(&job(
        definitions,
        (1..=4).map(ask).collect(),
        NAME_IF_PRESENT,
    ))
}

pub fn first_doubled() -> Vec<u8> {
    let mut links = chain(LONG_CHAIN, entry(0));
    links.push(links[0].clone());
    with_constant(links, vec![])
}

/// Names whose bytes have the same sum, for tables that would put them all in one place.
pub fn equal_sums() -> Vec<u8> {
    let name_of = |i: u16| {
        let [a, b] = i.to_be_bytes();
        [a, !a, b, !b]
    };
    let mut definitions: Vec<Record> = (0..10_000).map(int).collect();
    definitions.extend((0..10_000).map(|i| name(&name_of(i), entry(i as usize))));
    let requests = (0..10_000).map(|i| ask_for(named(&name_of(i)))).collect();
    encode(&job(definitions, requests, NAME_NEVER))
}

/// Names of 255 bytes that differ in their last two alone.
pub fn alike_to_the_end() -> Vec<u8> {
    let name_of = |i: u16| [&[b'n'; 253][..], &i.to_be_bytes()].concat();
    let mut definitions: Vec<Record> = (0..1_500).map(int).collect();
    definitions.extend((0..1_500).map(|i| name(&name_of(i), entry(i as usize))));
    let requests = (0..1_500).map(|i| ask_for(named(&name_of(i)))).collect();
    encode(&job(definitions, requests, NAME_NEVER))
}

//! Constants nested tens of thousands deep.

use super::{entry, named, number};
use crate::make::*;
use crate::record::{Record, Reference, encode};

/// Constant 0 is `bottom`, every other cites the one before; the last is asked for.
fn tower(height: usize, bottom: Record, level: fn(Reference) -> Record) -> Vec<Record> {
    let mut definitions = vec![bottom];
    definitions.extend((1..height).map(|i| level(entry(i - 1))));
    definitions
}

fn ask_top(definitions: Vec<Record>, height: usize) -> Vec<u8> {
    encode(&job(definitions, vec![ask(number(height - 1))], NAME_NEVER))
}

/// Takes every slot.
pub fn classes_full() -> Vec<u8> {
    ask_top(tower(65_534, text(b"A"), class), 65_534)
}

pub fn classes_over() -> Vec<u8> {
    ask_top(tower(65_535, text(b"A"), class), 65_535)
}

/// The lowest cites the topmost through a name.
pub fn classes_circular() -> Vec<u8> {
    let mut definitions = tower(60_000, class(named(b"top")), class);
    definitions.push(name(b"top", entry(59_999)));
    ask_top(definitions, 60_000)
}

pub fn handles() -> Vec<u8> {
    ask_top(tower(60_000, int(1), |below| handle(6, below)), 60_000)
}

/// Each Dynamic's bootstrap has the Dynamic below as its handle.
pub fn dynamics() -> Vec<u8> {
    let mut definitions = vec![int(1)];
    for i in 0..50_000 {
        definitions.push(bootstrap(entry(i), vec![]));
        definitions.push(dynamic(entry(i), Reference::Raw(1)));
    }
    encode(&job(definitions, vec![ask(50_000)], NAME_IF_PRESENT))
}

/// Each constant cites the next one by name, so resolving goes down through 60,000 forward names.
pub fn named_forward() -> Vec<u8> {
    let name_of = |i: usize| number(i).to_be_bytes();
    let mut definitions: Vec<Record> = (1..60_000).map(|i| class(named(&name_of(i)))).collect();
    definitions.push(text(b"A"));
    definitions.extend((1..60_000).map(|i| name(&name_of(i), entry(i))));
    encode(&job(definitions, vec![ask(0)], NAME_NEVER))
}

/// Two towers alike become one.
pub fn twins() -> Vec<u8> {
    let height = 30_000;
    let mut definitions = tower(height, text(b"A"), class);
    definitions.push(text(b"A"));
    definitions.extend((1..height).map(|i| class(entry(height + i - 1))));
    let requests = vec![
        ask(number(height - 1)),
        ask(number(2 * height - 1)),
        ask(number(height)),
    ];
    encode(&job(definitions, requests, NAME_NEVER))
}

//! Small jobs hold entries and names that a comparison which leaves something out would take for equal.

use jobs::random::Random;
use jobs::record::{Constant, Record, Reference};
use jobs::small::small_job;

const COUNT: usize = 3_000;

/// In how many jobs two of the things are alike, but not equal.
fn jobs_with<T: PartialEq>(things: fn(&[Record]) -> Vec<T>, alike: fn(&T, &T) -> bool) -> usize {
    let mut random = Random::new(15);
    let is_met = |things: Vec<T>| {
        let mut pairs = things
            .iter()
            .enumerate()
            .flat_map(|(at, one)| things[..at].iter().map(move |other| (one, other)));
        pairs.any(|(one, other)| one != other && alike(one, other))
    };
    (0..COUNT)
        .filter(|_| is_met(things(&small_job(&mut random))))
        .count()
}

fn constants(records: &[Record]) -> Vec<Constant> {
    let constants = records.iter().filter_map(|record| match record {
        Record::Constant(c) => Some(c.clone()),
        _ => None,
    });
    constants.collect()
}

fn bootstraps(records: &[Record]) -> Vec<(Reference, Vec<Reference>)> {
    let bootstraps = records.iter().filter_map(|record| match record {
        Record::Bootstrap { handle, arguments } => Some((handle.clone(), arguments.clone())),
        _ => None,
    });
    bootstraps.collect()
}

/// The names of constants that are defined or asked for.
fn names(records: &[Record]) -> Vec<Vec<u8>> {
    let names = records.iter().filter_map(|record| match record {
        Record::NameConstant(name, _)
        | Record::Ask(Reference::Name(name))
        | Record::AskLdc(Reference::Name(name)) => Some(name.clone()),
        _ => None,
    });
    names.collect()
}

fn begin_alike(one: &[u8], other: &[u8], size: usize) -> bool {
    one.len() >= size && other.len() >= size && one[..size] == other[..size]
}

#[test]
fn names_are_alike_in_254_bytes() {
    assert!(jobs_with(names, |a, b| begin_alike(a, b, 254)) >= 10);
    let as_long = |a: &Vec<u8>, b: &Vec<u8>| a.len() == b.len() && begin_alike(a, b, 254);
    assert!(jobs_with(names, as_long) >= 5);
}

#[test]
fn texts_are_alike_in_16_bytes() {
    let alike = |a: &Constant, b: &Constant| {
        a.tag == 1 && b.tag == 1 && begin_alike(&a.literal, &b.literal, 16)
    };
    assert!(jobs_with(constants, alike) >= 50);
}

#[test]
fn zeros_have_both_signs() {
    fn alike(a: &Constant, b: &Constant, tag: u8) -> bool {
        let is_zero =
            |literal: &[u8]| literal[0] % 128 == 0 && literal[1..].iter().all(|b| *b == 0);
        a.tag == tag && b.tag == tag && is_zero(&a.literal) && is_zero(&b.literal)
    }
    assert!(jobs_with(constants, |a, b| alike(a, b, 6)) >= 10);
    assert!(jobs_with(constants, |a, b| alike(a, b, 4)) >= 10);
}

#[test]
fn kind_bytes_differ_in_their_high_bits_alone() {
    let alike = |a: &Constant, b: &Constant| {
        a.tag == 15
            && b.tag == 15
            && a.literal[0] % 16 == b.literal[0] % 16
            && a.references == b.references
    };
    assert!(jobs_with(constants, alike) >= 50);
}

#[test]
fn different_tags_have_the_same_children() {
    fn alike(a: &Constant, b: &Constant, tags: [u8; 2]) -> bool {
        ([a.tag, b.tag] == tags || [b.tag, a.tag] == tags) && a.references == b.references
    }
    assert!(jobs_with(constants, |a, b| alike(a, b, [9, 10])) >= 10);
    assert!(jobs_with(constants, |a, b| alike(a, b, [9, 12])) >= 10);
    assert!(jobs_with(constants, |a, b| alike(a, b, [10, 11])) >= 10);
}

#[test]
fn bootstraps_have_the_same_arguments_in_another_order() {
    let alike = |a: &(Reference, Vec<Reference>), b: &(Reference, Vec<Reference>)| {
        let sorted = |references: &[Reference]| {
            let mut texts: Vec<String> = references.iter().map(|r| format!("{r:?}")).collect();
            texts.sort();
            texts
        };
        a.0 == b.0 && sorted(&a.1) == sorted(&b.1)
    };
    assert!(jobs_with(bootstraps, alike) >= 5);
}

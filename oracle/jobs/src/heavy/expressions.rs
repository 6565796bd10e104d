//! Record 46 (document 02, No. 3): the longest and deepest expressions, many of them, and one past the table's end.

use super::{entry, number};
use crate::JOB_LIMIT;
use crate::make::*;
use crate::random::Random;
use crate::record::{Record, Reference, encode};

const FULL: usize = 65_536;

/// What the tests of a tree look at: its leaves and signs, in the order of its bytes.
type Leaf = fn(&mut Random) -> Vec<u8>;

fn int_leaf(value: u32) -> Vec<u8> {
    [&[INT][..], &value.to_be_bytes()].concat()
}

/// A tree of so many leaves, halved at each sign.
fn tree(leaves: usize, signs: &[u8], leaf: Leaf, random: &mut Random, out: &mut Vec<u8>) {
    if leaves == 1 {
        return out.extend(leaf(random));
    }
    out.push(*random.pick(signs));
    tree(leaves / 2, signs, leaf, random, out);
    tree(leaves - leaves / 2, signs, leaf, random, out);
}

fn whole_tree(leaves: usize, signs: &[u8], leaf: Leaf) -> Vec<u8> {
    let mut out = vec![];
    tree(leaves, signs, leaf, &mut Random::new(46), &mut out);
    out
}

/// The job that asks for this one constant.
fn asked(expression: Vec<u8>) -> Vec<u8> {
    let definitions = vec![Record::Expression(expression)];
    encode(&job(definitions, vec![ask(0)], NAME_NEVER))
}

/// As many leaves of such a length as a job that asks for the constant has room for.
fn most_leaves(length: usize) -> usize {
    (JOB_LIMIT - asked(vec![]).len() + 1) / (length + 1)
}

pub fn ints() -> Vec<u8> {
    let leaf: Leaf = |random| int_leaf(random.bits() as u32);
    asked(whole_tree(most_leaves(5), b"+-*", leaf))
}

/// About one, so that sums, products and quotients stay numbers and nearly each of them rounds.
pub fn floats() -> Vec<u8> {
    let leaf: Leaf = |random| {
        let bits = 0x3f80_0000 | (random.bits() as u32 & 0x007f_ffff);
        [&[FLOAT][..], &bits.to_be_bytes()].concat()
    };
    asked(whole_tree(most_leaves(5), b"+++-*/", leaf))
}

pub fn doubles() -> Vec<u8> {
    let leaf: Leaf = |random| {
        let bits = 0x3ff0_0000_0000_0000 | (random.bits() & 0x000f_ffff_ffff_ffff);
        [&[DOUBLE][..], &bits.to_be_bytes()].concat()
    };
    asked(whole_tree(most_leaves(9), b"+++-*/", leaf))
}

pub fn longs() -> Vec<u8> {
    let leaf: Leaf = |random| [&[LONG][..], &random.bits().to_be_bytes()].concat();
    asked(whole_tree(most_leaves(9), b"+-*", leaf))
}

/// A sum of 150,000 ones and of another part, which comes last.
fn ones_and(last: &[u8]) -> Vec<u8> {
    let mut expression = vec![b'+'];
    expression.extend(whole_tree(150_000, b"+", |_| int_leaf(1)));
    expression.extend(last);
    asked(expression)
}

pub fn divided_at_the_end() -> Vec<u8> {
    ones_and(&[&b"/"[..], &int_leaf(1), &int_leaf(0)].concat())
}

pub fn mixed_at_the_end() -> Vec<u8> {
    ones_and(&[FLOAT, 0, 0, 0, 0])
}

pub fn deep_at_the_end() -> Vec<u8> {
    ones_and(&nested(32))
}

pub fn deepest_at_the_end() -> Vec<u8> {
    ones_and(&nested(31))
}

/// So deep, with a leaf behind each sign.
fn nested(depth: usize) -> Vec<u8> {
    let mut expression = vec![b'+'; depth - 1];
    expression.extend(int_leaf(1).repeat(depth));
    expression
}

/// Nothing but signs, up to the last byte of the longest job.
pub fn signs() -> Vec<u8> {
    let mut job = vec![b'+'; JOB_LIMIT];
    job[0] = 0x46;
    job
}

pub fn signs_and_a_bad_byte() -> Vec<u8> {
    let mut job = signs();
    job[JOB_LIMIT - 1] = 0;
    job
}

/// Whole, though far too deep.
pub fn deep() -> Vec<u8> {
    asked(nested(170_000))
}

/// An expression of 500,000 bytes, and 60,000 constants of the same value: 52,000 plain ones and 8,000 sums. A bootstrap has them all.
pub fn equal_to_a_long_one() -> Vec<u8> {
    const LEAVES: u32 = 83_333;
    let long = whole_tree(LEAVES as usize, b"+", |_| int_leaf(1));
    let mut definitions = vec![Record::Expression(long)];
    definitions.extend((0..60_000).map(|i| match i % 15 {
        7 | 14 => sum(i, LEAVES.wrapping_sub(i)),
        _ => int(LEAVES),
    }));
    let arguments = (0..=60_000).map(entry).collect();
    definitions.push(bootstrap(entry(0), arguments));
    definitions.push(dynamic(entry(0), Reference::Raw(1)));
    encode(&job(
        definitions,
        vec![ask(60_001), ask(60_000), ask(0)],
        NAME_IF_PRESENT,
    ))
}

fn sum(first: u32, second: u32) -> Record {
    Record::Expression([&b"+"[..], &int_leaf(first), &int_leaf(second)].concat())
}

fn ask_each(definitions: Vec<Record>) -> Vec<u8> {
    let requests = (0..definitions.len()).map(|i| ask(number(i))).collect();
    encode(&job(definitions, requests, NAME_NEVER))
}

pub fn sums_of_their_own() -> Vec<u8> {
    ask_each((0..60_000).map(|i| sum(i, i << 16)).collect())
}

pub fn sums_of_one_value() -> Vec<u8> {
    ask_each((0..60_000).map(|i| sum(i, 5u32.wrapping_sub(i))).collect())
}

fn texts(count: usize) -> Vec<u8> {
    encode(&vec![text(b""); count])
}

pub fn last_of_the_table() -> Vec<u8> {
    let mut definitions = vec![text(b""); FULL - 1];
    definitions.push(sum(2, 3));
    encode(&job(definitions, vec![ask(65_535)], NAME_NEVER))
}

/// 5 comes before 22.
pub fn over_with_a_bad_byte() -> Vec<u8> {
    [&texts(FULL)[..], &[0x46, 0]].concat()
}

/// And before 23.
pub fn over_divided_by_zero() -> Vec<u8> {
    let divided = [&b"\x46/"[..], &int_leaf(1), &int_leaf(0)].concat();
    [texts(FULL), divided].concat()
}

pub fn over_and_cut() -> Vec<u8> {
    [&texts(FULL)[..], b"\x46+"].concat()
}

//! Expressions: of a value that is wanted, of any value, and such as are refused.

use crate::make::{DOUBLE, FLOAT, INT, LONG};
use crate::random::Random;

pub const KINDS: &[u8] = &[INT, FLOAT, LONG, DOUBLE];

const SIGNS: &[u8] = b"+-*/";

/// Zeros, ones, the least and the greatest of each class of numbers, ties, infinities and NaNs.
const FLOATS: &[u32] = &[
    0,
    0x8000_0000,
    1,
    0x8000_0001,
    2,
    3,
    0x007f_ffff,
    0x807f_ffff,
    0x0080_0000,
    0x8080_0000,
    0x0080_0001,
    0x3300_0000,
    0x3380_0000,
    0x3380_0001,
    0x3400_0000,
    0x3eaa_aaab,
    0x3f00_0000,
    0x3f7f_ffff,
    0x3f80_0000,
    0x3f80_0001,
    0xbf80_0000,
    0x3f80_0002,
    0x4000_0000,
    0x4040_0000,
    0x4b00_0000,
    0x4b7f_ffff,
    0x4b80_0000,
    0x4b80_0001,
    0x7f00_0000,
    0x7f7f_ffff,
    0xff7f_ffff,
    0x7f80_0000,
    0xff80_0000,
    0x7f80_0001,
    0x7fc0_0000,
    0x7fc0_0001,
    0xffc0_0000,
    0xffff_ffff,
    0x1a80_0000,
    0x1a80_0001,
    0x2000_0000,
    0x6000_0000,
];

const DOUBLES: &[u64] = &[
    0,
    1 << 63,
    1,
    (1 << 63) | 1,
    2,
    3,
    0x000f_ffff_ffff_ffff,
    0x800f_ffff_ffff_ffff,
    0x0010_0000_0000_0000,
    0x8010_0000_0000_0000,
    0x0010_0000_0000_0001,
    0x3c90_0000_0000_0000,
    0x3ca0_0000_0000_0000,
    0x3ca0_0000_0000_0001,
    0x3cb0_0000_0000_0000,
    0x3fd5_5555_5555_5555,
    0x3fe0_0000_0000_0000,
    0x3fef_ffff_ffff_ffff,
    0x3ff0_0000_0000_0000,
    0x3ff0_0000_0000_0001,
    0xbff0_0000_0000_0000,
    0x3ff0_0000_0000_0002,
    0x4000_0000_0000_0000,
    0x4008_0000_0000_0000,
    0x4330_0000_0000_0000,
    0x433f_ffff_ffff_ffff,
    0x4340_0000_0000_0000,
    0x4340_0000_0000_0001,
    0x7fe0_0000_0000_0000,
    0x7fef_ffff_ffff_ffff,
    0xffef_ffff_ffff_ffff,
    0x7ff0_0000_0000_0000,
    0xfff0_0000_0000_0000,
    0x7ff0_0000_0000_0001,
    0x7ff8_0000_0000_0000,
    0x7ff8_0000_0000_0001,
    0xfff8_0000_0000_0000,
    u64::MAX,
    0x1e60_0000_0000_0000,
    0x5fe0_0000_0000_0000,
];

/// About the ends and the halves of the two widths.
const INTEGERS: &[i64] = &[
    0,
    0,
    1,
    -1,
    2,
    -2,
    3,
    7,
    -7,
    10,
    255,
    256,
    65_535,
    65_536,
    65_537,
    -65_536,
    46_341,
    i32::MAX as i64,
    i32::MIN as i64,
    i32::MAX as i64 - 1,
    i32::MIN as i64 + 1,
    u32::MAX as i64,
    1 << 32,
    3_037_000_500,
    i64::MAX,
    i64::MIN,
    i64::MAX - 1,
    i64::MIN + 1,
];

fn is_four(kind: u8) -> bool {
    matches!(kind, INT | FLOAT)
}

fn is_float(kind: u8) -> bool {
    matches!(kind, FLOAT | DOUBLE)
}

/// The bits as a literal of that kind.
fn literal(kind: u8, bits: u64) -> Vec<u8> {
    match is_four(kind) {
        true => (bits as u32).to_be_bytes().to_vec(),
        false => bits.to_be_bytes().to_vec(),
    }
}

fn bits(literal: &[u8]) -> u64 {
    literal
        .iter()
        .fold(0, |bits, byte| bits << 8 | u64::from(*byte))
}

/// Bits of any number of that kind, most of them telling ones.
pub fn some_bits(kind: u8, random: &mut Random) -> u64 {
    let any = random.bits();
    match (kind, random.below(8)) {
        (INT | LONG, 0..5) => *random.pick(INTEGERS) as u64,
        (INT | LONG, 5 | 6) => ((any as i64) >> random.below(64)) as u64,
        (FLOAT, 0..5) => (*random.pick(FLOATS)).into(),
        // The numbers about one, so that a sum or quotient rounds.
        (FLOAT, 5 | 6) => 0x3f80_0000 ^ (any & 0x83ff_ffff),
        (DOUBLE, 0..5) => *random.pick(DOUBLES),
        (DOUBLE, 5 | 6) => 0x3ff0_0000_0000_0000 ^ (any & 0x807f_ffff_ffff_ffff),
        _ => any,
    }
}

fn leaf(kind: u8, bits: u64) -> Vec<u8> {
    let mut bytes = vec![kind];
    bytes.extend(literal(kind, bits));
    bytes
}

fn signed(sign: u8, first: &[u8], second: &[u8]) -> Vec<u8> {
    [&[sign][..], first, second].concat()
}

/// An expression with exactly this value: a leaf, or operations that come back to it.
pub fn giving(kind: u8, value: &[u8], random: &mut Random) -> Vec<u8> {
    let wanted = bits(value);
    let mut expression = leaf(kind, wanted);
    if is_float(kind) && is_nan(kind, wanted) && value != literal(kind, nan(kind)) {
        return expression;
    }
    for _ in 0..*random.weighted(&[(2, 0), (4, 1), (3, 2), (1, 6), (1, 31)]) {
        expression = match is_float(kind) {
            true => unchanged(kind, &expression, random),
            false => changed_back(kind, &expression, wanted, random),
        };
    }
    expression
}

/// v + -0, v - 0, v * 1, 1 * v or v / 1, which are v for every number v.
fn unchanged(kind: u8, expression: &[u8], random: &mut Random) -> Vec<u8> {
    let (one, minus_zero) = match kind {
        FLOAT => (0x3f80_0000, 0x8000_0000),
        _ => (0x3ff0_0000_0000_0000, 1 << 63),
    };
    match random.below(5) {
        0 => signed(b'+', expression, &leaf(kind, minus_zero)),
        1 => signed(b'-', expression, &leaf(kind, 0)),
        2 => signed(b'*', expression, &leaf(kind, one)),
        3 => signed(b'*', &leaf(kind, one), expression),
        _ => signed(b'/', expression, &leaf(kind, one)),
    }
}

/// The same with other operands for an integer: 0 and 1, or v = (v - a) + a as one leaf against another. Only the outermost may start anew.
fn changed_back(kind: u8, expression: &[u8], wanted: u64, random: &mut Random) -> Vec<u8> {
    let other = some_bits(kind, random);
    match random.below(6) {
        0 => signed(b'+', expression, &leaf(kind, 0)),
        1 => signed(b'-', expression, &leaf(kind, 0)),
        2 => signed(b'*', expression, &leaf(kind, 1)),
        3 => signed(b'/', expression, &leaf(kind, 1)),
        4 => signed(
            b'+',
            &leaf(kind, wanted.wrapping_sub(other)),
            &leaf(kind, other),
        ),
        _ => signed(
            b'-',
            &leaf(kind, wanted.wrapping_add(other)),
            &leaf(kind, other),
        ),
    }
}

/// An expression and its value, if it has one.
pub fn some_expression(kind: u8, random: &mut Random) -> (Vec<u8>, Option<Vec<u8>>) {
    let tree = match random.below(8) {
        0 if kind == INT || kind == LONG => lowest_over_minus_one(kind),
        0 => Tree::leaf(kind, random),
        1..4 => Tree::leaf(kind, random).and_leaf(kind, random),
        4..6 => bushy(kind, 1 + random.below(5), random),
        _ => {
            let depth = *random.pick(&[3, 8, 16, 31, 32, 32]);
            spine(kind, depth, random)
        }
    };
    (tree.bytes, tree.value.map(|value| literal(kind, value)))
}

struct Tree {
    bytes: Vec<u8>,
    /// None where an integer is divided by zero.
    value: Option<u64>,
}

impl Tree {
    fn leaf(kind: u8, random: &mut Random) -> Tree {
        let bits = some_bits(kind, random);
        Tree {
            bytes: leaf(kind, bits),
            value: Some(bits),
        }
    }

    fn of(kind: u8, first: Tree, second: Tree, random: &mut Random) -> Tree {
        let mut sign = *random.pick(SIGNS);
        if sign == b'/' && !is_float(kind) && random.chance(7, 8) {
            let is_zero = second.value.is_none_or(|v| bits(&literal(kind, v)) == 0);
            sign = if is_zero { b'-' } else { b'/' };
        }
        let values = first.value.zip(second.value);
        Tree {
            bytes: signed(sign, &first.bytes, &second.bytes),
            value: values.and_then(|(first, second)| result(kind, sign, first, second)),
        }
    }

    fn and_leaf(self, kind: u8, random: &mut Random) -> Tree {
        let leaf = Tree::leaf(kind, random);
        match random.chance(1, 2) {
            true => Tree::of(kind, self, leaf, random),
            false => Tree::of(kind, leaf, self, random),
        }
    }
}

/// The one quotient that is out of range.
fn lowest_over_minus_one(kind: u8) -> Tree {
    let lowest = match kind {
        INT => 1 << 31,
        _ => 1 << 63,
    };
    Tree {
        bytes: signed(b'/', &leaf(kind, lowest), &leaf(kind, u64::MAX)),
        value: Some(lowest),
    }
}

/// At most so deep, and often so.
fn bushy(kind: u8, depth: usize, random: &mut Random) -> Tree {
    if depth == 1 || random.chance(1, 8) {
        return Tree::leaf(kind, random);
    }
    let first = bushy(kind, depth - 1, random);
    let second = bushy(kind, depth - 1, random);
    Tree::of(kind, first, second, random)
}

/// Exactly so deep, with a leaf at each sign.
fn spine(kind: u8, depth: usize, random: &mut Random) -> Tree {
    (1..depth).fold(Tree::leaf(kind, random), |tree, _| {
        tree.and_leaf(kind, random)
    })
}

/// Mixed kinds, too deep, a byte that is neither, or an integer over zero.
pub fn faulty(random: &mut Random) -> Vec<u8> {
    let kind = *random.pick(KINDS);
    let narrow = |random: &mut Random| spine(kind, 1 + random.below(3), random).bytes;
    match random.below(8) {
        0 | 1 => spine(kind, *random.pick(&[33, 33, 34, 40]), random).bytes,
        2 | 3 => {
            let other = *random.pick(KINDS);
            let (first, second) = (narrow(random), spine(other, 1 + random.below(3), random));
            signed(*random.pick(SIGNS), &first, &second.bytes)
        }
        4 => {
            let bad = *random.pick(&[0, 1, 2, 7, 8, 0x29, 0x2c, 0x2e, 0x30, 0x46, 0x50, 0xff]);
            match random.chance(1, 2) {
                true => signed(*random.pick(SIGNS), &narrow(random), &[bad]),
                false => vec![bad],
            }
        }
        _ => {
            let kind = *random.pick(&[INT, INT, LONG, FLOAT]);
            let some = leaf(kind, some_bits(kind, random));
            let zero = match random.chance(1, 2) {
                true => leaf(kind, 0),
                false => signed(b'-', &some, &some),
            };
            let divided = signed(b'/', &some, &zero);
            match random.below(4) {
                0 => signed(b'*', &leaf(kind, 0), &divided),
                // Mixed as well.
                1 => signed(b'+', &divided, &leaf(*random.pick(KINDS), 0)),
                _ => divided,
            }
        }
    }
}

/// The same with the first sign's parts exchanged, if it is + or *: an equal value.
pub fn commuted(expression: &[u8]) -> Vec<u8> {
    let (sign, parts) = (expression[0], &expression[1..]);
    if sign != b'+' && sign != b'*' {
        return expression.to_vec();
    }
    let (first, second) = parts.split_at(part_length(parts));
    signed(sign, second, first)
}

/// The bytes of the whole part at the front.
fn part_length(bytes: &[u8]) -> usize {
    let (mut at, mut missing) = (0, 1);
    while missing > 0 {
        let byte = bytes[at];
        (at, missing) = match KINDS.contains(&byte) {
            true => (at + if is_four(byte) { 5 } else { 9 }, missing - 1),
            false => (at + 1, missing + 1),
        };
    }
    at
}

fn is_nan(kind: u8, bits: u64) -> bool {
    match kind {
        FLOAT => f32::from_bits(bits as u32).is_nan(),
        _ => f64::from_bits(bits).is_nan(),
    }
}

fn nan(kind: u8) -> u64 {
    match kind {
        FLOAT => 0x7fc0_0000,
        _ => 0x7ff8_0000_0000_0000,
    }
}

/// One operation on bits, so that a plain constant can be put beside its value. None for an integer divided by zero.
fn result(kind: u8, sign: u8, first: u64, second: u64) -> Option<u64> {
    let number = match kind {
        INT => {
            let (a, b) = (first as i32, second as i32);
            (match sign {
                b'+' => a.wrapping_add(b),
                b'-' => a.wrapping_sub(b),
                b'*' => a.wrapping_mul(b),
                _ if b == 0 => return None,
                _ => a.wrapping_div(b),
            }) as u32 as u64
        }
        LONG => {
            let (a, b) = (first as i64, second as i64);
            (match sign {
                b'+' => a.wrapping_add(b),
                b'-' => a.wrapping_sub(b),
                b'*' => a.wrapping_mul(b),
                _ if b == 0 => return None,
                _ => a.wrapping_div(b),
            }) as u64
        }
        FLOAT => {
            let (a, b) = (f32::from_bits(first as u32), f32::from_bits(second as u32));
            f32::to_bits(match sign {
                b'+' => a + b,
                b'-' => a - b,
                b'*' => a * b,
                _ => a / b,
            })
            .into()
        }
        _ => {
            let (a, b) = (f64::from_bits(first), f64::from_bits(second));
            f64::to_bits(match sign {
                b'+' => a + b,
                b'-' => a - b,
                b'*' => a * b,
                _ => a / b,
            })
        }
    };
    match is_float(kind) && is_nan(kind, number) {
        true => Some(nan(kind)),
        false => Some(number),
    }
}

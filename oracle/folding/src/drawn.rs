//! Seeded operations, whose operands are of every class of numbers and whose results lie about every bound.

use crate::operation::{DOUBLE, FLOAT, INT, KINDS, LONG, Operation, SIGNS};
use jobs::random::Random;

/// How a kind of float lies in its bits.
#[derive(Clone, Copy)]
pub struct Layout {
    /// Bits of the fraction.
    pub fraction: u32,
    /// The exponent of infinities and NaNs, all ones.
    pub top: u64,
}

pub fn layout(kind: u8) -> Layout {
    match kind {
        FLOAT => Layout {
            fraction: 23,
            top: 255,
        },
        _ => Layout {
            fraction: 52,
            top: 2047,
        },
    }
}

impl Layout {
    fn bits(self, negative: bool, exponent: u64, fraction: u64) -> u64 {
        let sign = u64::from(negative) * (self.top + 1);
        ((sign | exponent) << self.fraction) | (fraction & self.mask())
    }

    pub fn mask(self) -> u64 {
        (1 << self.fraction) - 1
    }

    /// The exponent of 1.
    fn one(self) -> i64 {
        (self.top / 2) as i64
    }
}

pub fn draw(random: &mut Random) -> Operation {
    let kind = *random.pick(&KINDS);
    let sign = *random.pick(&SIGNS);
    let (first, second) = match kind {
        INT | LONG => integers(kind, random),
        _ => floats(kind, sign, random),
    };
    let (first, second) = match random.chance(1, 2) || sign == b'/' {
        true => (first, second),
        false => (second, first),
    };
    Operation {
        kind,
        sign,
        first,
        second,
    }
}

fn integers(kind: u8, random: &mut Random) -> (u64, u64) {
    let pair = (integer(kind, random), integer(kind, random));
    match kind {
        INT => (pair.0 as u32 as u64, pair.1 as u32 as u64),
        _ => pair,
    }
}

/// Random ones of every length, those about powers of two, of both signs, and the ends.
fn integer(kind: u8, random: &mut Random) -> u64 {
    let width = if kind == INT { 32 } else { 64 };
    let length = random.below(width + 1);
    if random.chance(1, 8) {
        let lowest = u64::MAX << (width - 1);
        return *random.pick(&[0, 1, u64::MAX, lowest, !lowest]);
    }
    let positive = match random.below(4) {
        0 => random.bits(),
        1 | 2 => random.bits().checked_shr(64 - length as u32).unwrap_or(0),
        _ => {
            let power = 1u64.checked_shl(length as u32).unwrap_or(0);
            power.wrapping_add(random.below(5) as u64).wrapping_sub(2)
        }
    };
    match random.chance(1, 2) {
        true => positive,
        false => positive.wrapping_neg(),
    }
}

fn floats(kind: u8, sign: u8, random: &mut Random) -> (u64, u64) {
    let layout = layout(kind);
    match random.below(8) {
        0 => (any(layout, random), any(layout, random)),
        1 => (special(layout, random), special(layout, random)),
        2 => (special(layout, random), any(layout, random)),
        3 => (any(layout, random), special(layout, random)),
        4 | 5 => near(layout, sign, random),
        _ => at_a_bound(layout, sign, random),
    }
}

fn any(layout: Layout, random: &mut Random) -> u64 {
    let exponent = random.below(layout.top as usize + 1) as u64;
    layout.bits(random.chance(1, 2), exponent, random.bits())
}

/// Zeros, subnormals, the least and greatest normals, ones and halves, infinities and NaNs of both forms.
fn special(layout: Layout, random: &mut Random) -> u64 {
    let one = layout.one() as u64;
    let top = layout.top;
    let negative = random.chance(1, 2);
    let fraction = few_bits(layout, random);
    let (exponent, fraction) = match random.below(13) {
        0 | 1 => (0, 0),
        2 => (0, 1 + random.below(3) as u64),
        3 => (0, layout.mask() - random.below(3) as u64),
        4 => (0, random.bits()),
        5 => (1, random.below(3) as u64),
        6 => (top - 1, layout.mask() - random.below(3) as u64),
        7 => (top - 1, fraction),
        8 => (top, 0),
        // A NaN, quiet or signalling, with a payload.
        9 => (top, random.bits() | 1),
        10 => (one, 0),
        11 => (one - 1 + random.below(3) as u64, random.below(3) as u64),
        _ => (one, fraction),
    };
    layout.bits(negative, exponent, fraction)
}

/// A fraction with its bits near the top, so that sums and products end in exact halves.
fn few_bits(layout: Layout, random: &mut Random) -> u64 {
    let length = random.below(layout.fraction as usize / 2 + 2) as u32;
    let low = layout.fraction.saturating_sub(length);
    (random.bits() >> (64 - layout.fraction)) >> low << low
}

/// Of like exponents, or so far apart that the smaller is about half of the greater's last bit.
fn near(layout: Layout, sign: u8, random: &mut Random) -> (u64, u64) {
    let fraction = |random: &mut Random| match random.below(4) {
        0 => random.bits(),
        1 => random.below(4) as u64,
        2 => layout.mask() - random.below(4) as u64,
        _ => few_bits(layout, random),
    };
    let apart = match sign {
        b'+' | b'-' if random.chance(1, 2) => {
            i64::from(layout.fraction) + random.below(4) as i64 - 1
        }
        _ => random.below(4) as i64,
    };
    let exponent = 1 + random.below(layout.top as usize - 1) as i64;
    let other = (exponent - apart).max(0);
    let first = layout.bits(random.chance(1, 2), exponent as u64, fraction(random));
    let second = layout.bits(random.chance(1, 2), other as u64, fraction(random));
    (first, second)
}

/// Exponents whose sum, or difference for a quotient, is about that of the least subnormal, the least normal or the greatest number.
fn at_a_bound(layout: Layout, sign: u8, random: &mut Random) -> (u64, u64) {
    let one = layout.one();
    let bound = *random.pick(&[-i64::from(layout.fraction), 0, 1, layout.top as i64 - 1]);
    let bound = bound + random.below(5) as i64 - 2;
    let exponent = 1 + random.below(layout.top as usize - 1) as i64;
    let other = match sign {
        b'/' => exponent + one - bound,
        b'*' => bound + one - exponent,
        _ => bound,
    };
    let other = other.clamp(0, layout.top as i64 - 1) as u64;
    let exponent = match sign {
        b'*' | b'/' => exponent as u64,
        _ => bound.clamp(0, layout.top as i64 - 1) as u64,
    };
    let fraction = |random: &mut Random| match random.chance(1, 2) {
        true => random.bits(),
        false => few_bits(layout, random),
    };
    (
        layout.bits(random.chance(1, 2), exponent, fraction(random)),
        layout.bits(random.chance(1, 2), other, fraction(random)),
    )
}

/// What class a float's bits are of.
pub fn class(kind: u8, bits: u64) -> &'static str {
    if kind != FLOAT && kind != DOUBLE {
        return if kind == LONG { "long" } else { "int" };
    }
    let layout = layout(kind);
    let exponent = (bits >> layout.fraction) & layout.top;
    match (exponent, bits & layout.mask()) {
        (0, 0) => "zero",
        (0, _) => "subnormal",
        (top, 0) if top == layout.top => "infinity",
        (top, _) if top == layout.top => "NaN",
        _ => "normal",
    }
}

#[cfg(test)]
mod tests {
    use super::*;
    use std::collections::BTreeSet;

    fn some() -> impl Iterator<Item = Operation> {
        let mut random = Random::new(3);
        (0..200_000).map(move |_| draw(&mut random))
    }

    /// Every sign with every class of a first and of a second operand, for each kind of float.
    #[test]
    fn operands_are_of_every_class() {
        let met: BTreeSet<_> = some()
            .map(|o| {
                (
                    o.kind,
                    o.sign,
                    class(o.kind, o.first),
                    class(o.kind, o.second),
                )
            })
            .collect();
        assert_eq!(met.len(), 2 * 4 + 2 * 4 * 5 * 5);
    }

    /// And results.
    #[test]
    fn results_are_of_every_class() {
        let met: BTreeSet<_> = some()
            .filter_map(|o| Some((o.kind, o.sign, class(o.kind, o.of_machine()?))))
            .collect();
        assert_eq!(met.len(), 2 * 4 + 2 * 4 * 5);
    }

    /// Sums and products of Floats that lie just between two Floats, told by Doubles, which hold them exactly.
    #[test]
    fn many_results_are_ties() {
        let mut ties = [0, 0];
        for operation in some().filter(|o| o.kind == FLOAT) {
            let [a, b] =
                [operation.first, operation.second].map(|bits| f32::from_bits(bits as u32));
            let (exact, is_product) = match operation.sign {
                b'*' => (f64::from(a) * f64::from(b), true),
                b'+' => (f64::from(a) + f64::from(b), false),
                _ => continue,
            };
            ties[usize::from(is_product)] += usize::from(is_tie(exact));
        }
        assert!(ties[0] > 500 && ties[1] > 100, "{ties:?}");
    }

    /// Whether the neighbours among the Floats are equally far.
    fn is_tie(exact: f64) -> bool {
        let rounded = exact as f32;
        let other = match exact > f64::from(rounded) {
            true => rounded.next_up(),
            false => rounded.next_down(),
        };
        let is_number = rounded.is_finite() && other.is_finite() && exact != f64::from(rounded);
        is_number && (exact - f64::from(rounded)).abs() == (exact - f64::from(other)).abs()
    }
}

//! A constant given as an expression (document 02, No. 3).

mod value;

use crate::refusal::{BAD_EXPRESSION, DIVIDED_BY_ZERO};
use value::{Sign, Value};

/// "Nested at most 32 deep, a lone leaf being depth 1."
const DEEPEST: usize = 32;

#[derive(Clone, Copy)]
enum Part {
    Leaf(Value),
    Sign(Sign),
}

/// What stands behind a byte 46.
pub enum Read {
    /// Tag and bits of the finished value.
    Worked(u8, Vec<u8>),
    /// 22 or 23.
    Refused(u8),
}

/// Reads an expression from the front of the bytes, and what stands behind it. None stands for refusal 3, which "covers a cut one if no bad
/// byte comes before the cut".
pub fn read(mut rest: &[u8]) -> Option<(Read, &[u8])> {
    let mut parts = vec![];
    let mut missing: usize = 1;
    while missing > 0 {
        let (first, behind) = rest.split_first()?;
        let part = if let Some(sign) = Sign::of(*first) {
            rest = behind;
            missing += 2;
            Part::Sign(sign)
        } else if let Some(length) = value::length(*first) {
            let (bits, behind) = behind.split_at_checked(length)?;
            rest = behind;
            Part::Leaf(Value::of(*first, bits))
        } else {
            return Some((Read::Refused(BAD_EXPRESSION), behind));
        };
        missing -= 1;
        parts.push(part);
    }
    Some((worked_out(&parts), rest))
}

/// 22, then 23, whichever would be met first.
fn worked_out(parts: &[Part]) -> Read {
    if depth(parts) > DEEPEST || !is_of_one_kind(parts) {
        return Read::Refused(BAD_EXPRESSION);
    }
    match value(parts) {
        Some(value) => Read::Worked(value.tag(), value.bits()),
        None => Read::Refused(DIVIDED_BY_ZERO),
    }
}

/// Leaves and signs on the longest path.
fn depth(parts: &[Part]) -> usize {
    let mut deepest = 0;
    // Of each part that is still to come, how many signs are above it.
    let mut above = vec![0];
    for part in parts {
        let signs = above
            .pop()
            .expect("a whole expression has no part too many");
        deepest = deepest.max(signs + 1);
        if let Part::Sign(_) = part {
            above.extend([signs + 1; 2]);
        }
    }
    deepest
}

/// Parts are "of the same kind" under each sign exactly if all leaves are.
fn is_of_one_kind(parts: &[Part]) -> bool {
    let mut tags = parts.iter().filter_map(|part| match part {
        Part::Leaf(value) => Some(value.tag()),
        Part::Sign(_) => None,
    });
    let first = tags.next();
    tags.all(|tag| Some(tag) == first)
}

/// From the last part to the first, so that both parts of a sign are worked out when it comes. None if an integer is divided by zero
/// anywhere.
fn value(parts: &[Part]) -> Option<Value> {
    let mut values = vec![];
    for part in parts.iter().rev() {
        let value = match part {
            Part::Leaf(value) => *value,
            Part::Sign(sign) => {
                let left = values.pop().expect("a sign has a first part");
                let right = values.pop().expect("a sign has a second part");
                value::worked_out(*sign, left, right)?
            }
        };
        values.push(value);
    }
    values.pop()
}

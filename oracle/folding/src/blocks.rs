//! Many operations as one job of records 46, each asked for, and their values read from the pool.

use crate::operation::{Operation, is_four};

/// Answers and pool, or the refusal's number and place.
pub type Built = Result<(Vec<u16>, Vec<u8>), (u32, usize)>;

/// What builds jobs.
pub type Builder = fn(&[u8]) -> Built;

pub fn of_model(job: &[u8]) -> Built {
    match model::run(job) {
        model::Outcome::Built(built) => {
            let answers = built.answers.iter().map(|answer| answer.0);
            Ok((answers.collect(), built.pool))
        }
        model::Outcome::Refused(refusal) => Err((refusal.code.into(), refusal.place)),
    }
}

#[cfg(feature = "library")]
pub fn of_library(job: &[u8]) -> Built {
    match rotblossom::build(job) {
        Ok(built) => Ok((built.answers, built.pool)),
        Err(refusal) => Err((refusal.code, refusal.place)),
    }
}

/// The job of a block: its records 46, a request for each, and the build.
pub fn job(operations: &[Operation]) -> Vec<u8> {
    let mut job = vec![];
    operations.iter().for_each(|o| o.record(&mut job));
    job.push(0x50);
    for number in 0..operations.len() {
        job.extend([0x51, 1, (number >> 8) as u8, number as u8]);
    }
    job.extend([0x60, 2, 0, 0, 0]);
    job
}

/// The tag and bits at each answer's slot, as the pool has them.
pub fn values((answers, pool): &(Vec<u16>, Vec<u8>)) -> Vec<Option<(u8, u64)>> {
    let mut at_slot = vec![None; 65_536];
    let (mut slot, mut rest) = (1, &pool[2..]);
    while let [tag, behind @ ..] = rest {
        let length = if is_four(*tag) { 4 } else { 8 };
        let (bits, behind) = behind.split_at(length);
        let bits = bits.iter().fold(0, |sum, byte| sum << 8 | u64::from(*byte));
        at_slot[slot] = Some((*tag, bits));
        slot += length / 4;
        rest = behind;
    }
    answers
        .iter()
        .map(|slot| at_slot[usize::from(*slot)])
        .collect()
}

#[cfg(test)]
mod tests {
    use super::*;

    fn operation(kind: u8, sign: u8, first: u64, second: u64) -> Operation {
        Operation {
            kind,
            sign,
            first,
            second,
        }
    }

    /// Equal ones share a slot, and a wide one takes two.
    #[test]
    fn values_are_read_at_their_slots() {
        let block = [
            operation(5, b'+', 1, 2),
            operation(3, b'-', 1, 2),
            operation(6, b'/', 0x3ff0 << 48, 0x4000 << 48),
            operation(5, b'*', 3, 1),
            operation(4, b'+', 0x7f80_0001, 0),
        ];
        let built = of_model(&job(&block)).expect("no integer is divided by zero");
        let wanted = [
            (5, 3),
            (3, 0xffff_ffff),
            (6, 0x3fe0 << 48),
            (5, 3),
            (4, 0x7fc0_0000),
        ];
        assert_eq!(values(&built), wanted.map(Some));
        for (operation, value) in block.iter().zip(wanted) {
            assert_eq!(operation.of_machine(), Some(value.1));
        }
    }

    #[test]
    fn divided_by_zero() {
        let block = [operation(3, b'+', 1, 0), operation(3, b'/', 1, 0)];
        assert_eq!(of_model(&job(&block)), Err((23, 1)));
        assert_eq!(block[1].of_machine(), None);
    }
}

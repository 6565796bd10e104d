//! A trace run step by step. What rested on the flags from the start is found by its meaning: the trace is run once more with all flags
//! clear, and a look-up that then fails rested on them.

use pools::constant::Pool;

pub const FLAGS: usize = 65_536;
const LOOK_UP: u8 = 0;
const CLEAR: u8 = 1;
const STEP: usize = 4;

#[derive(Clone, Copy, Debug, PartialEq, Eq)]
pub enum Refused {
    NoPool = 21,
    NoTrace = 28,
}

#[derive(Clone, Copy, Debug, PartialEq, Eq)]
pub struct Counts {
    pub good: usize,
    pub failed: usize,
    pub rested: usize,
}

/// Runs a trace over a pool, and leaves the flags as it ends; a refusal leaves them as they were.
pub fn count(pool: &[u8], trace: &[u8], flags: &mut [u8]) -> Result<Counts, Refused> {
    let pool = Pool::read(pool).ok_or(Refused::NoPool)?;
    let (steps, cut) = trace.as_chunks::<STEP>();
    let known = steps.iter().all(|step| step[0] <= CLEAR);
    if !cut.is_empty() || !known || flags.len() != FLAGS {
        return Err(Refused::NoTrace);
    }
    let with_flags = successes(&pool, steps, flags);
    let without = successes(&pool, steps, &mut vec![0; FLAGS]);
    let good = with_flags.iter().filter(|good| **good).count();
    let both = with_flags.iter().zip(&without);
    Ok(Counts {
        good,
        failed: with_flags.len() - good,
        rested: both.filter(|(with, without)| **with && !**without).count(),
    })
}

/// For each look-up whether it succeeds.
fn successes(pool: &Pool, steps: &[[u8; STEP]], flags: &mut [u8]) -> Vec<bool> {
    let mut found = Vec::new();
    for [action, tag, high, low] in steps {
        let slot = u16::from_be_bytes([*high, *low]);
        let flag = &mut flags[usize::from(slot)];
        if *action == LOOK_UP {
            let holds = pool
                .get(slot)
                .is_some_and(|constant| constant.tag() == *tag);
            found.push(*flag != 0 || holds);
            if *flag == 0 && holds {
                *flag = 1;
            }
        } else {
            *flag = 0;
        }
    }
    found
}

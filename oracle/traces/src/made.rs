//! Seeded traces over seeded pools: few slots, so that flags matter; most tags right; some traces, tables and pools that are refused.

use crate::count::FLAGS;
use crate::frame::Frame;
use jobs::random::Random;
use pools::constant::{Pool, TAGS};
use pools::made;

const VALUES: &[u8] = &[0, 1, 7, 255];

pub fn next(random: &mut Random) -> Frame {
    let pool = if random.chance(1, 12) {
        made::next(random).frame.pool
    } else {
        made::whole(random).pool
    };
    let slots = few_slots(random, &pool);
    let mut frame = Frame {
        trace: trace(random, &slots),
        length: FLAGS as u32,
        set: start(random, &slots),
        pool,
    };
    if random.chance(1, 8) {
        damage(random, &mut frame);
    }
    frame
}

/// Slots with the tags that they hold: of the pool, and outside it.
fn few_slots(random: &mut Random, pool: &[u8]) -> Vec<(u16, u8)> {
    let held: Vec<(u16, u8)> = Pool::read(pool)
        .iter()
        .flat_map(|pool| pool.constants().map(|(slot, c)| (slot, c.tag())))
        .collect();
    (0..1 + random.below(6))
        .map(|_| match random.below(8) {
            0 => (*random.pick(&[0, 1, 2, 65_535, 65_534, 256, 40]), 1),
            1 => {
                let (slot, tag) = *held.last().unwrap_or(&(0, 1));
                (slot + 1, tag)
            }
            _ if held.is_empty() => (random.below(4) as u16, 7),
            _ => *random.pick(&held),
        })
        .collect()
}

fn trace(random: &mut Random, slots: &[(u16, u8)]) -> Vec<u8> {
    let steps = if random.chance(1, 50) { 400 } else { 24 };
    let mut trace = Vec::new();
    for _ in 0..random.below(steps) {
        let (slot, right) = *random.pick(slots);
        let tag = match random.below(8) {
            0 => random.byte(),
            1 | 2 => *random.pick(&TAGS),
            _ => right,
        };
        trace.extend([u8::from(random.chance(1, 4)), tag]);
        trace.extend(slot.to_be_bytes());
    }
    trace
}

/// Flags from the start: of the trace's slots and of others; now and then of very many.
fn start(random: &mut Random, slots: &[(u16, u8)]) -> Vec<(u16, u8)> {
    if random.chance(1, 6) {
        return Vec::new();
    }
    let mut set = Vec::new();
    for (slot, _) in slots {
        if random.chance(1, 2) {
            set.push((*slot, *random.pick(VALUES)));
        }
    }
    let others = if random.chance(1, 2000) { 60_000 } else { 4 };
    for _ in 0..random.below(others) {
        set.push((random.bits() as u16, *random.pick(VALUES)));
    }
    set
}

fn damage(random: &mut Random, frame: &mut Frame) {
    let length = frame.trace.len();
    match random.below(5) {
        0 => frame.trace.truncate(random.below(length + 1)),
        1 => {
            let more = 1 + random.below(4);
            frame.trace.extend(vec![0; more]);
        }
        2 | 3 if length > 0 => {
            let step = 4 * random.below(length / 4);
            frame.trace[step] = *random.pick(&[2, 3, 128, 255]);
        }
        _ => {
            frame.length = *random.pick(&[0, 1, 255, 65_280, 65_535, 65_537, 65_600]);
            frame
                .set
                .retain(|(slot, _)| u32::from(*slot) < frame.length);
        }
    }
}

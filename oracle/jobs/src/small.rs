//! Small well-formed jobs, full of what document 01 calls easy to get wrong.

mod alike;
mod faults;
mod layout;
mod plan;
mod scenes;

use crate::make::*;
use crate::random::Random;
use crate::record::{Record, encode};
use faults::FAULTS;
use plan::{ClassWish, Plan, Target};
use scenes::SCENES;

/// No small job is longer than this: names of 255 bytes make few of them long.
pub const SMALL_LIMIT: usize = 1_200;
/// No job with full low slots is longer than this.
pub const LDC_FULL_LIMIT: usize = 2048;

pub fn small_job(random: &mut Random) -> Vec<Record> {
    within(SMALL_LIMIT, random, |random| {
        let mut plan = Plan::new();
        choose_build(&mut plan, random);
        for _ in 0..*random.weighted(&[(4, 1), (4, 2), (3, 3), (1, 4)]) {
            random.weighted(SCENES)(&mut plan, random);
        }
        for _ in 0..*random.weighted(&[(14, 0), (5, 1), (1, 2)]) {
            random.weighted(FAULTS)(&mut plan, random);
        }
        if random.chance(1, 4) {
            random.shuffle(&mut plan.requests);
        }
        plan
    })
}

/// A job whose slots up to 255 are raw but for a few, with requests that want low ones.
pub fn ldc_full_job(random: &mut Random) -> Vec<Record> {
    within(LDC_FULL_LIMIT, random, |random| {
        let mut plan = Plan::new();
        choose_build(&mut plan, random);
        fill_low_slots(&mut plan, random);
        for _ in 0..1 + random.below(5) {
            ask_for_low_slot(&mut plan, random);
        }
        plan
    })
}

/// Makes plans until one gives a job that is short enough.
fn within(limit: usize, random: &mut Random, make: fn(&mut Random) -> Plan) -> Vec<Record> {
    loop {
        let plan = make(random);
        let records = layout::records(&plan, random);
        if encode(&records).len() <= limit {
            return records;
        }
    }
}

fn choose_build(plan: &mut Plan, random: &mut Random) {
    plan.name_byte = *random.weighted(&[(2, NAME_ALWAYS), (3, NAME_IF_PRESENT), (2, NAME_NEVER)]);
    plan.class = ClassWish::Slot(*random.weighted(&[
        (4, 0),
        (4, 1),
        (1, 2),
        (1, 255),
        (1, 65534),
        (1, 65535),
    ]));
}

/// Raw constants from 1 up to about 255; none, single slots or a pair stay free.
fn fill_low_slots(plan: &mut Plan, random: &mut Random) {
    let narrow = plan.leaf(*random.pick(&[INT, FLOAT, TEXT]), random);
    let wide = plan.leaf(*random.pick(&[LONG, DOUBLE]), random);
    let top = *random.weighted(&[(6, 255), (2, 254), (2, 256), (1, 257)]);
    let free_count = *random.weighted(&[(4, 0), (3, 1), (2, 2), (1, 4)]);
    let free: Vec<u16> = (0..free_count)
        .map(|_| 1 + random.below(255) as u16)
        .collect();
    let wide_share = *random.pick(&[0, 0, 1, 9]);
    for slot in 1..=top {
        let chosen = if random.chance(wide_share, 10) {
            wide
        } else {
            narrow
        };
        let last = if chosen == wide { slot + 1 } else { slot };
        if free.iter().all(|f| !(slot..=last).contains(f)) && last <= top {
            plan.place(slot, chosen);
        }
    }
}

fn ask_for_low_slot(plan: &mut Plan, random: &mut Random) {
    let target = match random.below(10) {
        0 => Target::Raw(*random.pick(&[254, 255, 255, 256])),
        1..3 if !plan.requests.is_empty() => plan.requests[random.below(plan.requests.len())]
            .target
            .clone(),
        3..5 => Target::Node(plan.leaf(*random.pick(&[LONG, DOUBLE]), random)),
        _ => Target::Node(plan.any_constant(random)),
    };
    plan.ask(random.chance(1, 3), target);
}

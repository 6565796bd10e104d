//! Faults: each leads a plan to one of the refusals 6 to 13 and 16.

use super::plan::{Plan, Request, Target};
use crate::make::*;
use crate::random::Random;

pub type Fault = fn(&mut Plan, &mut Random);

pub const FAULTS: &[(usize, Fault)] = &[
    (3, slot_not_allowed),
    (4, conflict_with_wide),
    (3, duplicate_slot),
    (2, bootstrap_65535),
    (3, duplicate_index),
    (3, doubled_name),
    (5, undefined_reached),
    (6, circle_reached),
    (2, two_bad_children),
    (4, ldc_above_255),
    (6, several_at_the_end),
    (2, almost_defined),
];

/// Refusal 6, also where the slot is taken.
fn slot_not_allowed(plan: &mut Plan, random: &mut Random) {
    let node = plan.any_constant(random);
    let wide = plan.leaf(*random.pick(&[LONG, DOUBLE]), random);
    let narrow = plan.leaf(INT, random);
    if random.chance(1, 3) {
        plan.place(65534, narrow);
    }
    plan.raw_constants.push(match random.below(4) {
        0 => (0, node),
        1 => (65535, node),
        2 => (65535, wide),
        _ => (65534, wide),
    });
}

/// Refusal 7, or 8 where a wide one meets the start of another.
fn conflict_with_wide(plan: &mut Plan, random: &mut Random) {
    let wide = plan.leaf(*random.pick(&[LONG, DOUBLE]), random);
    let other = plan.leaf(*random.pick(&[INT, TEXT, LONG]), random);
    let slot = *random.pick(&[1, 2, 5, 7, 254, 255, 65533]);
    plan.raw_constants.push((slot, wide));
    let beside = *random.pick(&[slot + 1, slot + 1, slot, slot - 1]);
    plan.raw_constants
        .push((beside, if beside < slot { wide } else { other }));
}

/// Refusal 8.
fn duplicate_slot(plan: &mut Plan, random: &mut Random) {
    let first = plan.leaf(*random.pick(&[INT, TEXT]), random);
    let second = if random.chance(1, 3) {
        first
    } else {
        plan.any_constant(random)
    };
    let slot = *random.pick(&[1, 2, 5, 255, 65534]);
    plan.raw_constants.push((slot, first));
    plan.raw_constants.push((slot, second));
}

/// Refusal 9.
fn bootstrap_65535(plan: &mut Plan, random: &mut Random) {
    let node = plan.new_bootstrap(0, random);
    plan.raw_bootstraps.push((65535, node));
}

/// Refusal 10.
fn duplicate_index(plan: &mut Plan, random: &mut Random) {
    let first = plan.new_bootstrap(0, random);
    let second = if random.chance(1, 2) {
        first
    } else {
        plan.new_bootstrap(0, random)
    };
    let index = *random.pick(&[0, 1, 5, 65534]);
    plan.raw_bootstraps.push((index, first));
    plan.raw_bootstraps.push((index, second));
}

/// Refusal 11.
fn doubled_name(plan: &mut Plan, _: &mut Random) {
    plan.doubled_names += 1;
}

/// Refusal 12.
fn undefined_reached(plan: &mut Plan, random: &mut Random) {
    if random.chance(1, 4) {
        plan.ask(random.chance(1, 4), Target::Missing);
    } else {
        let node = plan.unsound(Target::Missing, random);
        reach(plan, node, random);
    }
}

/// Refusal 13, through names alone or through entries.
fn circle_reached(plan: &mut Plan, random: &mut Random) {
    match random.below(4) {
        0 => plan.ask(random.chance(1, 4), Target::Circle),
        1 => {
            let node = plan.unsound(Target::Circle, random);
            reach(plan, node, random);
        }
        _ => {
            let node = plan.ring(random);
            reach(plan, node, random);
        }
    }
}

/// Refusal 12 or 13, whichever child comes first.
fn two_bad_children(plan: &mut Plan, random: &mut Random) {
    let mut bad = [Target::Missing, Target::Circle];
    random.shuffle(&mut bad);
    let node = match random.below(3) {
        0 => plan.add_bootstrap(bad[0].clone(), vec![bad[1].clone()]),
        1 => plan.add_constant(DYNAMIC, &[], bad.to_vec()),
        _ => plan.add_constant(NAME_AND_TYPE, &[], bad.to_vec()),
    };
    plan.nodes[node].sound = false;
    reach(plan, node, random);
}

/// Reaches an entry by a request, a raw definition, or through another constant.
fn reach(plan: &mut Plan, node: usize, random: &mut Random) {
    if plan.nodes[node].tag().is_none() {
        if random.chance(1, 2) {
            plan.raw_bootstraps.push((*random.pick(&[0, 1, 5]), node));
        } else {
            let dynamic = plan.add_constant(DYNAMIC, &[], vec![Target::Node(node), Target::Raw(1)]);
            plan.nodes[dynamic].sound = false;
            plan.ask(false, Target::Node(dynamic));
        }
    } else if random.chance(1, 3) {
        plan.place(*random.pick(&[3, 11, 12]), node);
    } else {
        plan.ask(random.chance(1, 4), Target::Node(node));
    }
}

/// Refusal 16: a raw number, or a constant that an ordinary request put above 255.
fn ldc_above_255(plan: &mut Plan, random: &mut Random) {
    if random.chance(1, 2) {
        let number = *random.pick(&[256, 256, 257, 65534, 65535]);
        plan.ask(true, Target::Raw(number));
        return;
    }
    let node = plan.leaf(INT, random);
    plan.place(301, node);
    plan.place(303, node);
    let target = Target::Node(plan.leaf(*random.pick(&[FLOAT, TEXT]), random));
    let ordinary = Request {
        ldc: false,
        target: target.clone(),
    };
    plan.requests.insert(0, ordinary);
    plan.ask(true, target);
}

/// Refusal 12 or 13 at record 50, where several raw definitions fail: the lowest slot decides, or, where no raw constant
/// fails, the lowest index.
fn several_at_the_end(plan: &mut Plan, random: &mut Random) {
    for _ in 0..2 + random.below(3) {
        let bad = random.pick(&[Target::Missing, Target::Circle]).clone();
        let node = match random.below(4) {
            0 => plan.ring(random),
            1 => plan.unsound_bootstrap(bad, random),
            _ => plan.unsound(bad, random),
        };
        if plan.nodes[node].tag().is_none() {
            plan.place_bootstrap(*random.pick(&[0, 1, 2, 5, 65534]), node);
        } else {
            plan.place(*random.pick(&[1, 2, 3, 5, 7, 254, 300, 65534]), node);
        }
    }
}

/// Refusal 12: a name of 254 or 255 bytes that another one is alike to but for the last.
fn almost_defined(plan: &mut Plan, random: &mut Random) {
    plan.long_names = true;
    let node = plan.leaf(INT, random);
    plan.idle_names.push((false, Target::Node(node)));
    plan.ask(random.chance(1, 4), Target::Missing);
}

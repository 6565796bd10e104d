//! Scenes of entries that are almost equal: each is there for a comparison that leaves something out.

use super::plan::{Plan, Target};
use super::scenes::ask_leaves;
use crate::make::*;
use crate::random::Random;

/// Texts of one beginning of 16, 32 or 48 bytes, with and without a byte behind it.
pub fn alike_texts(plan: &mut Plan, random: &mut Random) {
    let beginnings: [&[u8]; 2] = [NAME_TEXT, b"0123456789abcdef"];
    let times = *random.pick(&[1, 1, 2, 3]);
    let beginning = random.pick(&beginnings).repeat(times);
    let ends: [&[u8]; 4] = [b"", b"A", b"B", b"\0"];
    let texts = ends.map(|end| [&beginning, end].concat());
    let constants = texts.each_ref().map(|text| (TEXT, &text[..]));
    ask_leaves(plan, &constants, random);
}

/// Zeros of both signs, and NaNs that differ in their sign or in their last bit.
const ALIKE_FOURS: [&[u8]; 5] = [
    &[0; 4],
    &[0x80, 0, 0, 0],
    &[0x7f, 0xc0, 0, 0],
    &[0xff, 0xc0, 0, 0],
    &[0x7f, 0xc0, 0, 1],
];

const ALIKE_EIGHTS: [&[u8]; 5] = [
    &[0; 8],
    &[0x80, 0, 0, 0, 0, 0, 0, 0],
    &[0x7f, 0xf8, 0, 0, 0, 0, 0, 0],
    &[0xff, 0xf8, 0, 0, 0, 0, 0, 0],
    &[0x7f, 0xf8, 0, 0, 0, 0, 0, 1],
];

/// Numbers of one tag that are equal or alike by value and differ in their bits.
pub fn alike_numbers(plan: &mut Plan, random: &mut Random) {
    let tag = *random.weighted(&[(3, DOUBLE), (3, FLOAT), (1, LONG), (1, INT)]);
    let numbers = if is_wide(tag) {
        ALIKE_EIGHTS
    } else {
        ALIKE_FOURS
    };
    ask_leaves(plan, &numbers.map(|number| (tag, number)), random);
}

/// Method handles of one member whose kind bytes differ in the high four bits alone.
pub fn alike_handles(plan: &mut Plan, random: &mut Random) {
    let of = plan.child(&[FIELD, 10, 11], 1, random);
    let low = *random.pick(&[0, 1, 5, 6, 9, 15]);
    for high in [0, 0x10, 0x80, 0xf0] {
        if random.chance(2, 3) {
            let handle = plan.add_constant(METHOD_HANDLE, &[high | low], vec![of.clone()]);
            plan.ask(random.chance(1, 6), Target::Node(handle));
        }
    }
}

/// Constants of different tags over the same children: one, two in either order, or a bootstrap and one.
pub fn same_children(plan: &mut Plan, random: &mut Random) {
    let first = plan.child(&[TEXT, CLASS], 0, random);
    let second = plan.child(&[TEXT, NAME_AND_TYPE], 0, random);
    let (tags, children): (&[u8], _) = match random.below(4) {
        0 => (&[CLASS, 8, 16, 19, 20], vec![first]),
        1 => (
            &[DYNAMIC, INVOKE_DYNAMIC],
            vec![plan.bootstrap_child(0, random), second],
        ),
        _ => (&[FIELD, 10, 11, NAME_AND_TYPE], vec![first, second]),
    };
    for &tag in tags {
        if random.chance(2, 3) {
            ask_for_new(plan, tag, children.clone(), random);
        }
        if !is_dynamic(tag) && children.len() == 2 && random.chance(1, 5) {
            let exchanged = children.iter().rev().cloned().collect();
            ask_for_new(plan, tag, exchanged, random);
        }
    }
}

fn is_dynamic(tag: u8) -> bool {
    tag == DYNAMIC || tag == INVOKE_DYNAMIC
}

fn ask_for_new(plan: &mut Plan, tag: u8, children: Vec<Target>, random: &mut Random) {
    let node = plan.add_constant(tag, &[], children);
    plan.ask(random.chance(1, 8), Target::Node(node));
}

/// Bootstraps with the same arguments in other orders, now and then with the handle among them.
pub fn argument_orders(plan: &mut Plan, random: &mut Random) {
    let handle = plan.child(&[METHOD_HANDLE], 0, random);
    let mut children = vec![handle];
    for _ in 0..2 + random.below(2) {
        children.push(plan.child(&[TEXT, INT, CLASS], 0, random));
    }
    let about = Target::Raw(random.below(3) as u16);
    for _ in 0..2 + random.below(2) {
        let over = plan.add_bootstrap(children[0].clone(), children[1..].to_vec());
        let dynamic = plan.add_constant(DYNAMIC, &[], vec![Target::Node(over), about.clone()]);
        plan.ask(random.chance(1, 8), Target::Node(dynamic));
        if random.chance(1, 6) {
            plan.place_bootstrap(*random.pick(&[0, 1, 2, 5]), over);
        }
        let from = if random.chance(1, 4) { 0 } else { 1 };
        random.shuffle(&mut children[from..]);
    }
}

/// Names of 254 and 255 bytes that are alike but for the last: two are defined, and used or not.
pub fn long_names(plan: &mut Plan, random: &mut Random) {
    plan.long_names = true;
    if random.chance(1, 3) {
        let for_bootstraps = [5, 6].map(|number| (true, Target::Raw(number)));
        plan.idle_names.extend(for_bootstraps);
        return;
    }
    for _ in 0..2 {
        let target = Target::Node(plan.leaf(*random.pick(&[INT, TEXT]), random));
        match random.chance(1, 2) {
            true => plan.idle_names.push((false, target)),
            false => plan.ask(false, target),
        }
    }
}

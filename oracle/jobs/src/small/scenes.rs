//! Scenes: things that are easy to get wrong, each added to a plan without a fault.

use super::alike::*;
use super::plan::{ClassWish, Plan, Target};
use crate::make::*;
use crate::random::Random;

pub type Scene = fn(&mut Plan, &mut Random);

pub const SCENES: &[(usize, Scene)] = &[
    (6, background),
    (5, gaps),
    (2, high_slots),
    (3, shared),
    (4, dynamics),
    (3, equal_by_numbers),
    (2, raw_bootstraps),
    (4, class_slots),
    (2, odd_gap_around_255),
    (3, ldc_asks),
    (2, odd_requests),
    (2, bootstrap_methods_text),
    (2, equal_bits),
    (3, unreached),
    (2, alike_texts),
    (2, alike_numbers),
    (2, alike_handles),
    (3, same_children),
    (2, argument_orders),
    (2, long_names),
];

/// A few constants of any tag, most of them asked for.
fn background(plan: &mut Plan, random: &mut Random) {
    for _ in 0..1 + random.below(4) {
        let node = plan.any_constant(random);
        if random.chance(3, 4) {
            plan.ask(random.chance(1, 5), Target::Node(node));
        }
    }
}

/// Raw constants close together, so that gaps of odd and even lengths arise, wide beside narrow.
fn gaps(plan: &mut Plan, random: &mut Random) {
    let start = *random.weighted(&[
        (5, 1),
        (4, 2),
        (3, 3),
        (2, 5),
        (2, 6),
        (1, 250),
        (1, 253),
        (1, 254),
    ]);
    let mut slot: u16 = start;
    let nodes: Vec<usize> = (0..2).map(|_| plan.any_constant(random)).collect();
    for _ in 0..1 + random.below(5) {
        let node = *random.pick(&nodes);
        plan.place(slot, node);
        slot += if plan.is_wide(node) { 2 } else { 1 } + *random.pick(&[0, 0, 1, 1, 2, 3, 4]);
    }
    ask_narrow_and_wide(plan, random);
}

fn ask_narrow_and_wide(plan: &mut Plan, random: &mut Random) {
    for _ in 0..1 + random.below(5) {
        let tag = *random.pick(&[INT, FLOAT, TEXT, LONG, DOUBLE, LONG]);
        let node = plan.leaf(tag, random);
        plan.ask(random.chance(1, 4), Target::Node(node));
    }
}

/// Raw constants at the upper end. Such pools have 65,535 slots, so they are few.
fn high_slots(plan: &mut Plan, random: &mut Random) {
    let tag = *random.pick(&[INT, LONG, TEXT, CLASS]);
    let node = plan.constant_of(tag, 1, random);
    if random.chance(1, 3) {
        plan.place(*random.pick(&[65533, 65533, 65534]), node);
    } else {
        plan.place(*random.pick(&[254, 255, 256, 257, 300]), node);
    }
    background(plan, random);
}

/// Equal constants and bootstraps through entries of their own.
fn shared(plan: &mut Plan, random: &mut Random) {
    let node = plan.any_constant(random);
    let twin = plan.twin(node, random);
    plan.ask(random.chance(1, 6), Target::Node(node));
    plan.ask(random.chance(1, 6), Target::Node(twin));
    if random.chance(1, 3) {
        plan.place(*random.pick(&[1, 2, 5, 7]), node);
    }
    if random.chance(1, 3) {
        plan.ask(false, Target::Node(node));
    }
}

/// Dynamic constants over new, shared, equal and raw bootstraps, some as arguments of others.
fn dynamics(plan: &mut Plan, random: &mut Random) {
    let mut bootstraps = vec![plan.new_bootstrap(1, random)];
    for _ in 0..1 + random.below(3) {
        let last = bootstraps[bootstraps.len() - 1];
        let over = match random.below(6) {
            0 => plan.bootstrap_child(0, random),
            1 => Target::Node(plan.twin(last, random)),
            _ => Target::Node(*random.pick(&bootstraps)),
        };
        let about = plan.child(&[NAME_AND_TYPE], 0, random);
        let tag = *random.pick(&[DYNAMIC, INVOKE_DYNAMIC]);
        let dynamic = plan.add_constant(tag, &[], vec![over, about]);
        plan.ask(random.chance(1, 6), Target::Node(dynamic));
        if random.chance(1, 3) {
            let handle = plan.child(&[METHOD_HANDLE], 0, random);
            bootstraps.push(plan.add_bootstrap(handle, vec![Target::Node(dynamic)]));
        }
    }
    if random.chance(1, 4) {
        let last = bootstraps[bootstraps.len() - 1];
        plan.place_bootstrap(*random.pick(&[0, 1, 2, 5]), last);
    }
}

/// A raw number and an inline constant that may get that slot: bootstraps equal by their numbers.
fn equal_by_numbers(plan: &mut Plan, random: &mut Random) {
    let constant = plan.leaf(INT, random);
    if random.chance(2, 3) {
        plan.ask(false, Target::Node(constant));
    }
    let number = *random.pick(&[1, 1, 1, 2, 2, 3]);
    let arguments = if random.chance(1, 2) {
        vec![Target::Raw(7)]
    } else {
        vec![]
    };
    let inline = plan.add_bootstrap(Target::Node(constant), arguments.clone());
    let raw = plan.add_bootstrap(Target::Raw(number), arguments);
    for over in [inline, raw] {
        let about = Target::Raw(random.below(3) as u16);
        let dynamic = plan.add_constant(DYNAMIC, &[], vec![Target::Node(over), about]);
        plan.ask(false, Target::Node(dynamic));
        if random.chance(1, 4) {
            plan.place_bootstrap(*random.pick(&[0, 1, 2]), over);
        }
    }
}

/// Raw bootstraps with holes; index 65534 repeats one 65,535 times, so it is rare.
fn raw_bootstraps(plan: &mut Plan, random: &mut Random) {
    for _ in 0..1 + random.below(3) {
        let index = *random.weighted(&[(8, 0), (8, 1), (8, 2), (8, 5), (4, 9), (1, 65534)]);
        let node = match (plan.bootstraps().as_slice(), random.chance(1, 2)) {
            ([_, ..], true) => *random.pick(&plan.bootstraps()),
            _ => plan.new_bootstrap(1, random),
        };
        plan.place_bootstrap(index, node);
    }
    let about = plan.child(&[NAME_AND_TYPE], 0, random);
    let over = plan.bootstrap_child(0, random);
    let dynamic = plan.add_constant(INVOKE_DYNAMIC, &[], vec![over, about]);
    if random.chance(2, 3) {
        plan.ask(false, Target::Node(dynamic));
    }
    plan.name_byte = *random.pick(&[NAME_ALWAYS, NAME_IF_PRESENT, NAME_IF_PRESENT, NAME_NEVER]);
}

/// Every kind of class slot.
fn class_slots(plan: &mut Plan, random: &mut Random) {
    let text = plan.leaf(TEXT, random);
    let slot = *random.pick(&[1, 2, 3, 6, 8]);
    let of = match random.below(8) {
        0..3 => Target::Node(text),
        3 => raw_text(plan, slot, text),
        4 => second_half(plan, slot, random),
        5 => Target::Raw(*random.pick(&[0, 9, 65535])),
        6 => slot_of_the_name(plan, random),
        _ => plan.child(&[], 0, random),
    };
    let class = plan.add_constant(CLASS, &[], vec![of]);
    plan.class = match random.below(10) {
        0..4 => asked_class(plan, class, random),
        4..6 => raw_class(plan, class, random),
        6 => asked_class(plan, text, random),
        7 => ClassWish::Slot(*random.pick(&[0, 65535])),
        _ => ClassWish::Slot(*random.pick(&[1, 2, 3, 4, 5, 6, 7, 8, 9, 255, 65534])),
    };
}

fn raw_text(plan: &mut Plan, slot: u16, text: usize) -> Target {
    plan.place(slot, text);
    Target::Raw(slot)
}

fn second_half(plan: &mut Plan, slot: u16, random: &mut Random) -> Target {
    let wide = plan.leaf(*random.pick(&[LONG, DOUBLE]), random);
    plan.place(slot, wide);
    Target::Raw(slot + 1)
}

/// A low slot that the name may get, which has its slot before the class name is read.
fn slot_of_the_name(plan: &mut Plan, random: &mut Random) -> Target {
    plan.name_byte = *random.pick(&[NAME_ALWAYS, NAME_ALWAYS, NAME_IF_PRESENT, NAME_NEVER]);
    Target::Raw(*random.pick(&[1, 2, 3, 4]))
}

fn asked_class(plan: &mut Plan, node: usize, random: &mut Random) -> ClassWish {
    plan.ask(random.chance(1, 5), Target::Node(node));
    ClassWish::Node(node)
}

fn raw_class(plan: &mut Plan, node: usize, random: &mut Random) -> ClassWish {
    let slot = *random.pick(&[1, 4, 5, 10, 255, 256]);
    plan.place(slot, node);
    ClassWish::Slot(slot)
}

/// The first odd gap starts at 255 or above it: ordinary requests go there, ldc ones only at 255.
fn odd_gap_around_255(plan: &mut Plan, random: &mut Random) {
    let (slot, tag) = *random.pick(&[
        (253, LONG),
        (255, INT),
        (255, TEXT),
        (257, FLOAT),
        (301, INT),
    ]);
    let below = plan.leaf(tag, random);
    plan.place(slot, below);
    let gap = slot + if plan.is_wide(below) { 2 } else { 1 };
    let above = plan.leaf(INT, random);
    plan.place(gap + *random.pick(&[1, 1, 3]), above);
    for _ in 0..2 + random.below(3) {
        let asked = plan.leaf(*random.pick(&[INT, FLOAT, TEXT, LONG]), random);
        plan.ask(random.chance(1, 3), Target::Node(asked));
    }
}

/// Requests for ldc that can be met: raw numbers stay at 255 and below.
fn ldc_asks(plan: &mut Plan, random: &mut Random) {
    for _ in 0..1 + random.below(3) {
        let target = match random.below(6) {
            0 => Target::Raw(*random.pick(&[0, 1, 9, 254, 255])),
            _ => plan.child(&[INT, FLOAT, LONG, DOUBLE, CLASS, 8], 1, random),
        };
        if !matches!(target, Target::Raw(256..)) {
            plan.ask(true, target);
        }
    }
}

/// Requests by raw number, and requests made before.
fn odd_requests(plan: &mut Plan, random: &mut Random) {
    for _ in 0..1 + random.below(3) {
        let target = match plan.requests.len() {
            0 => Target::Raw(*random.pick(&[0, 9, 65535])),
            count if random.chance(1, 2) => plan.requests[random.below(count)].target.clone(),
            _ => Target::Raw(*random.pick(&[0, 1, 9, 256, 65535])),
        };
        plan.ask(false, target);
    }
}

/// The text that the name may share, asked for, under another constant, raw, or not used at all.
fn bootstrap_methods_text(plan: &mut Plan, random: &mut Random) {
    let text = plan.add_constant(TEXT, NAME_TEXT, vec![]);
    match random.below(4) {
        0 => plan.ask(random.chance(1, 3), Target::Node(text)),
        1 => {
            let class = plan.add_constant(CLASS, &[], vec![Target::Node(text)]);
            plan.class = asked_class(plan, class, random);
        }
        2 => plan.place(*random.pick(&[1, 2, 3]), text),
        _ => {}
    }
    plan.name_byte = *random.pick(&[NAME_ALWAYS, NAME_ALWAYS, NAME_IF_PRESENT, NAME_NEVER]);
}

/// The same bits under different tags.
fn equal_bits(plan: &mut Plan, random: &mut Random) {
    let constants: [(u8, &[u8]); 5] = [
        (INT, b"1234"),
        (FLOAT, b"1234"),
        (TEXT, b"1234"),
        (LONG, b"12345678"),
        (DOUBLE, b"12345678"),
    ];
    ask_leaves(plan, &constants, random);
}

/// Asks for most of these constants, each of a tag and a literal.
pub fn ask_leaves(plan: &mut Plan, constants: &[(u8, &[u8])], random: &mut Random) {
    for (tag, literal) in constants {
        if random.chance(2, 3) {
            let node = plan.add_constant(*tag, literal, vec![]);
            plan.ask(random.chance(1, 5), Target::Node(node));
        }
    }
}

/// Undefined names, circles of names and circular entries that nothing reaches.
fn unreached(plan: &mut Plan, random: &mut Random) {
    for _ in 0..1 + random.below(2) {
        let bad = random.pick(&[Target::Missing, Target::Circle]).clone();
        match random.below(4) {
            0 => plan.idle_names.push((random.chance(1, 3), bad)),
            1 => _ = plan.unsound(bad, random),
            2 => _ = plan.ring(random),
            _ => plan.idle_names.push((random.chance(1, 3), Target::Raw(5))),
        }
    }
}

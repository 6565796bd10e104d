//! Seeded parts and files: right ones and such as are refused, and all damages of one file.

use crate::file::Parts;
use crate::frame::{Frame, ROOM};
use jobs::random::Random;
use pools::constant::{Constant, Pool, pool_of};
use pools::made as pools_made;

/// Texts that aren't the attribute's name, but nearly.
const NEARLY: &[&[u8]] = &[
    b"BootstrapMethod",
    b"BootstrapMethods\0",
    b"bootstrapMethods",
    b"BootstrapMethodt",
    b"cootstrapMethods",
    b"",
];

const NAME: &[u8] = b"BootstrapMethods";

pub fn next(random: &mut Random) -> Frame {
    if random.chance(1, 2000) {
        return Frame::Write(long_parts(random));
    }
    let mut parts = proper_parts(random);
    if random.chance(1, 2) {
        if random.chance(2, 3) {
            spoil(random, &mut parts);
        }
        return Frame::Write(parts);
    }
    let mut file = parts.write(usize::MAX).expect("proper parts");
    if random.chance(3, 4) {
        damage(random, &mut file, parts.pool.len());
    }
    Frame::Read(file)
}

/// Any pool with the name in it or not, and bootstraps only if it is.
pub fn proper_parts(random: &mut Random) -> Parts {
    let made = pools_made::whole(random);
    let mut constants = constants_of(&made.pool);
    let named = random.chance(3, 4);
    if named {
        let at = random.below(constants.len() + 1);
        constants.insert(at, Constant::Text(NAME.to_vec()));
    }
    if random.chance(1, 3) {
        let nearly = *random.pick(NEARLY);
        constants.push(Constant::Text(nearly.to_vec()));
    }
    let pool = pool_of(&constants);
    let name = if named { slot_of(&pool, NAME) } else { 0 };
    Parts {
        minor: random.bits() as u16,
        major: 45 + random.below(20) as u16,
        pool,
        access: random.bits() as u16,
        this_class: random.below(12) as u16,
        super_class: random.bits() as u16,
        name,
        count: if named { made.count } else { 0 },
        bootstraps: if named { made.bootstraps } else { Vec::new() },
    }
}

fn constants_of(pool: &[u8]) -> Vec<Constant> {
    let pool = Pool::read(pool).expect("a whole pool");
    pool.constants().map(|(_, c)| c.clone()).collect()
}

/// The first slot that holds a text.
fn slot_of(pool: &[u8], text: &[u8]) -> u16 {
    let pool = Pool::read(pool).expect("a whole pool");
    let wanted = Constant::Text(text.to_vec());
    let (slot, _) = pool
        .constants()
        .find(|(_, c)| **c == wanted)
        .expect("the text was put in");
    slot
}

/// A file of just the room, or a byte shorter or longer, with an attribute or without.
fn long_parts(random: &mut Random) -> Parts {
    let named = random.chance(1, 2);
    let mut constants = vec![
        Constant::Text(NAME.to_vec()),
        Constant::Text(vec![b'x'; 65_535]),
    ];
    constants.push(constants[1].clone());
    let mut parts = Parts {
        minor: 0,
        major: 52,
        pool: pool_of(&constants),
        access: 0,
        this_class: 0,
        super_class: 0,
        name: u16::from(named),
        count: u16::from(named),
        bootstraps: if named { vec![0; 4] } else { Vec::new() },
    };
    let unfilled = parts.write(ROOM).expect("it leaves room").len();
    let text_of_none = 3;
    let wanted = ROOM - 1 + random.below(3);
    constants.push(Constant::Text(vec![b'y'; wanted - unfilled - text_of_none]));
    parts.pool = pool_of(&constants);
    parts
}

/// One of the parts off; by chance they may still make a file.
fn spoil(random: &mut Random, parts: &mut Parts) {
    match random.below(9) {
        0 => parts.name = 0,
        1 => parts.name = random.below(16) as u16,
        2 => parts.name = random.bits() as u16,
        3 => parts.count = parts.count.wrapping_add(1),
        4 => parts.count = parts.count.wrapping_sub(1),
        5 => parts.bootstraps.push(0),
        6 => _ = parts.bootstraps.pop(),
        7 => {
            let frame = pools_made::next(random).frame;
            parts.pool = frame.pool;
        }
        _ => {
            let at = random.below(parts.pool.len());
            parts.pool[at] = random.byte();
        }
    }
}

fn damage(random: &mut Random, file: &mut Vec<u8>, pool: usize) {
    let behind_pool = 8 + pool;
    match random.below(8) {
        0 => file.truncate(random.below(file.len())),
        1 => file.push(random.byte()),
        2 => file[random.below(4)] ^= 1 << random.below(8),
        // the three counts of what there is none of, the attribute's count, its name slot and its length
        3 => file[behind_pool + 6 + random.below(6)] = random.below(3) as u8,
        4 => file[behind_pool + 12 + random.below(2)] = random.below(3) as u8,
        5 if file.len() > behind_pool + 14 => {
            let at = behind_pool + 14 + random.below(8);
            file[at] = file[at].wrapping_add(*random.pick(&[1, 255]));
        }
        _ => {
            let at = random.below(file.len());
            file[at] = random.byte();
        }
    }
}

/// Every cut of a file, every other value of each of its bytes, and every byte behind it.
pub fn all_damages(file: &[u8]) -> impl Iterator<Item = Vec<u8>> {
    let cuts = (0..file.len()).map(move |end| file[..end].to_vec());
    let longer = (0..=255).map(move |byte| [file, &[byte]].concat());
    let changes = (0..file.len()).flat_map(move |at| {
        (1..=255).map(move |by| {
            let mut changed = file.to_vec();
            changed[at] ^= by;
            changed
        })
    });
    cuts.chain(longer).chain(changes)
}

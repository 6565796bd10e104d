//! Texts, good and broken, and rows of units.

use jobs::random::Random;

#[derive(Debug)]
pub enum Given {
    Text(Vec<u8>),
    Units(Vec<u16>),
}

impl Given {
    /// As Utf.java reads it.
    pub fn framed(&self) -> Vec<u8> {
        let (kind, count, bytes) = match self {
            Given::Text(text) => (b'r', text.len(), text.clone()),
            Given::Units(units) => (b'w', units.len(), bytes_of(units)),
        };
        let count = u16::try_from(count).expect("none is longer");
        [&[kind], &count.to_be_bytes()[..], &bytes].concat()
    }
}

pub fn bytes_of(units: &[u16]) -> Vec<u8> {
    units.iter().flat_map(|unit| unit.to_be_bytes()).collect()
}

pub fn given(random: &mut Random) -> Given {
    let most = *random.weighted(&[(900, 12), (99, 300), (1, 40_000)]);
    let length = random.below(most + 1);
    if random.chance(1, 3) {
        return Given::Units((0..length).map(|_| unit(random)).collect());
    }
    let mut text = match random.chance(1, 4) {
        true => random.bytes(length),
        false => forms(random, length),
    };
    if random.chance(1, 2) {
        damage(random, &mut text);
    }
    text.truncate(65_535);
    Given::Text(text)
}

/// A unit about where its form changes, half of a pair, or any.
fn unit(random: &mut Random) -> u16 {
    const EDGES: [u16; 14] = [
        0, 1, 0x41, 0x7e, 0x7f, 0x80, 0x7fe, 0x7ff, 0x800, 0xd7ff, 0xd800, 0xdc00, 0xfffe, 0xffff,
    ];
    match random.chance(1, 2) {
        true => *random.pick(&EDGES),
        false => random.bits() as u16,
    }
}

/// Complete forms, overlong ones among them.
fn forms(random: &mut Random, count: usize) -> Vec<u8> {
    let follow = |random: &mut Random| 0x80 | (random.byte() & 0x3f);
    let mut text = Vec::new();
    for _ in 0..count {
        match random.below(4) {
            0 | 1 => text.push(1 + random.below(0x7f) as u8),
            2 => text.extend([0xc0 | (random.byte() & 0x1f), follow(random)]),
            _ => text.extend([
                0xe0 | (random.byte() & 0x0f),
                follow(random),
                follow(random),
            ]),
        }
    }
    text
}

/// A byte changed, dropped or put in, or the end cut.
fn damage(random: &mut Random, text: &mut Vec<u8>) {
    const BYTES: [u8; 10] = [0, 1, 0x7f, 0x80, 0xbf, 0xc0, 0xdf, 0xe0, 0xef, 0xf0];
    let byte = match random.chance(3, 4) {
        true => *random.pick(&BYTES),
        false => random.byte(),
    };
    let at = random.below(text.len() + 1);
    match random.below(4) {
        0 => text.insert(at, byte),
        1 => text.truncate(at),
        2 if at < text.len() => drop(text.remove(at)),
        _ if at < text.len() => text[at] = byte,
        _ => text.push(byte),
    }
}

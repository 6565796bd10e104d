//! Seeded block files: correct ones, and damaged ones most of which have the right check again.

use crate::{BLOCK, CONTENT, blocks_of, seal, used};
use jobs::JOB_LIMIT;
use jobs::random::Random;

/// A file, what was done to it, and the job that it was made of.
pub struct Made {
    pub kind: &'static str,
    pub file: Vec<u8>,
    pub job: Vec<u8>,
}

type Damage = (&'static str, fn(&mut Random, &mut Vec<u8>));

const DAMAGES: [Damage; 13] = [
    ("a byte changed", change_byte),
    ("a byte changed, with its check", change_checked),
    ("cut", cut),
    ("bytes behind it", lengthen),
    ("two blocks exchanged", exchange),
    (
        "two blocks exchanged, with their numbers",
        exchange_numbered,
    ),
    ("a use changed", change_use),
    ("a number changed", change_number),
    ("a byte of padding", old_byte),
    ("padding full of old memory", old_memory),
    ("a block left out", leave_out),
    ("a block twice", double),
    ("an empty block behind it", add_empty),
];

/// A length with the edges of a block as likely as any other.
fn length(random: &mut Random) -> usize {
    match random.below(20) {
        0 => 0,
        1 => 1,
        2..=7 => CONTENT * (1 + random.below(4)) - 1 + random.below(3),
        8..=12 => random.below(CONTENT),
        _ => random.below(5 * CONTENT),
    }
}

/// The longest job, one byte more, and blocks that are too many: each is a megabyte.
fn long(random: &mut Random) -> Made {
    let size = *random.pick(&[JOB_LIMIT, JOB_LIMIT + 1, 2081 * CONTENT, 2081 * CONTENT + 1]);
    let job = random.bytes(size);
    let mut file = blocks_of(&job);
    if random.chance(1, 4) {
        change_byte(random, &mut file);
    }
    Made {
        kind: "long",
        file,
        job,
    }
}

/// The next file: one in 200 is long, of the others two in five are correct.
pub fn next(random: &mut Random) -> Made {
    if random.chance(1, 200) {
        return long(random);
    }
    let size = length(random);
    let job = random.bytes(size);
    let mut file = blocks_of(&job);
    let mut kind = "correct";
    if random.chance(3, 5) {
        let (name, damage) = *random.pick(&DAMAGES);
        damage(random, &mut file);
        kind = name;
        if random.chance(1, 5) {
            random.pick(&DAMAGES).1(random, &mut file);
            kind = "two of these";
        }
    }
    if file == blocks_of(&job) {
        kind = "correct";
    }
    Made { kind, file, job }
}

/// A block of a file; none where no whole block is left.
fn any_block<'a>(random: &mut Random, file: &'a mut [u8]) -> Option<&'a mut [u8]> {
    let count = file.len() / BLOCK;
    if count == 0 {
        return None;
    }
    let start = BLOCK * random.below(count);
    Some(&mut file[start..start + BLOCK])
}

fn change_byte(random: &mut Random, file: &mut Vec<u8>) {
    if !file.is_empty() {
        let at = random.below(file.len());
        file[at] = random.byte();
    }
}

fn change_checked(random: &mut Random, file: &mut Vec<u8>) {
    let at = random.below(BLOCK - 4);
    let byte = random.byte();
    if let Some(block) = any_block(random, file) {
        block[at] = byte;
        seal(block);
    }
}

fn cut(random: &mut Random, file: &mut Vec<u8>) {
    let whole = BLOCK * random.below(file.len() / BLOCK + 1);
    let any = random.below(file.len() + 1);
    file.truncate(if random.chance(1, 2) { whole } else { any });
}

fn lengthen(random: &mut Random, file: &mut Vec<u8>) {
    let more = *random.pick(&[1, BLOCK - 1, BLOCK, BLOCK + 1]);
    let tail = if random.chance(1, 2) {
        vec![0; more]
    } else {
        random.bytes(more)
    };
    file.extend_from_slice(&tail);
}

/// The starts of two blocks.
fn two_blocks(random: &mut Random, file: &[u8]) -> Option<(usize, usize)> {
    let count = file.len() / BLOCK;
    (count > 1).then(|| (BLOCK * random.below(count), BLOCK * random.below(count)))
}

fn exchange(random: &mut Random, file: &mut Vec<u8>) {
    if let Some((a, b)) = two_blocks(random, file) {
        for i in 0..BLOCK {
            file.swap(a + i, b + i);
        }
    }
}

fn exchange_numbered(random: &mut Random, file: &mut Vec<u8>) {
    if let Some((a, b)) = two_blocks(random, file) {
        for i in 2..BLOCK {
            file.swap(a + i, b + i);
        }
        seal(&mut file[a..a + BLOCK]);
        seal(&mut file[b..b + BLOCK]);
    }
}

fn change_use(random: &mut Random, file: &mut Vec<u8>) {
    let nearby = random.below(3);
    let far = *random.pick(&[0, 1, 255, 256, 503, 504, 505, 508, 512, 65535]);
    let near = random.chance(1, 2);
    if let Some(block) = any_block(random, file) {
        let new = if near {
            (used(block) + nearby).saturating_sub(1) as u16
        } else {
            far
        };
        block[2..4].copy_from_slice(&new.to_be_bytes());
        seal(block);
    }
}

fn change_number(random: &mut Random, file: &mut Vec<u8>) {
    let below = *random.pick(&[6, 65536]);
    let number = random.below(below) as u16;
    if let Some(block) = any_block(random, file) {
        block[..2].copy_from_slice(&number.to_be_bytes());
        seal(block);
    }
}

/// The padding of a file's last block.
fn padding(file: &mut [u8]) -> Option<&mut [u8]> {
    let start = file.len().checked_sub(BLOCK)?;
    let block = &mut file[start..];
    let from = 4 + used(block).min(CONTENT);
    Some(&mut block[from..BLOCK - 4])
}

fn seal_last(file: &mut [u8]) {
    let start = file.len() - BLOCK;
    seal(&mut file[start..]);
}

/// Its first byte, its last or any.
fn old_byte(random: &mut Random, file: &mut Vec<u8>) {
    if let Some(padding) = padding(file)
        && !padding.is_empty()
    {
        let any = random.below(padding.len());
        let at = *random.pick(&[0, padding.len() - 1, any]);
        padding[at] = random.byte();
        seal_last(file);
    }
}

fn old_memory(random: &mut Random, file: &mut Vec<u8>) {
    if let Some(padding) = padding(file) {
        padding.fill_with(|| random.byte());
        seal_last(file);
    }
}

fn leave_out(random: &mut Random, file: &mut Vec<u8>) {
    if let Some((a, _)) = two_blocks(random, file) {
        file.drain(a..a + BLOCK);
    }
}

fn double(random: &mut Random, file: &mut Vec<u8>) {
    if let Some((a, _)) = two_blocks(random, file) {
        let block = file[a..a + BLOCK].to_vec();
        file.splice(a..a, block);
    }
}

/// A block of its own number that uses nothing: right but for its use, where the one before it is full.
fn add_empty(_: &mut Random, file: &mut Vec<u8>) {
    let mut block = [0; BLOCK];
    block[..2].copy_from_slice(&((file.len() / BLOCK) as u16).to_be_bytes());
    seal(&mut block);
    file.extend_from_slice(&block);
}

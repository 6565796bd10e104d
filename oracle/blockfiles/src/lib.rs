//! The block file of document 01 with request No. 2, read and written by plain Rust that shares nothing with crates/blocks, and
//! seeded generators of block files.

pub mod made;

use jobs::JOB_LIMIT;

pub const BLOCK: usize = 512;
pub const CONTENT: usize = 504;
pub const MOST_BLOCKS: usize = 2081;

/// A refusal's number and its place.
#[derive(Clone, Copy, Debug, PartialEq, Eq, PartialOrd, Ord)]
pub struct Refused {
    pub number: u32,
    pub place: usize,
}

fn refused<T>(number: u32, place: usize) -> Result<T, Refused> {
    Err(Refused { number, place })
}

/// The sum over bytes 0 to 507 of (position + 1) x byte.
pub fn check(block: &[u8]) -> u32 {
    (1..)
        .zip(&block[..BLOCK - 4])
        .map(|(weight, byte)| weight * u32::from(*byte))
        .sum()
}

/// Puts the check behind the bytes that it is over.
pub fn seal(block: &mut [u8]) {
    let sum = check(block);
    block[BLOCK - 4..].copy_from_slice(&sum.to_be_bytes());
}

/// How many bytes a block says that it uses.
pub fn used(block: &[u8]) -> usize {
    usize::from(u16::from_be_bytes([block[2], block[3]]))
}

/// The used bytes of block k of `count`, if the block is right.
fn content(block: &[u8], k: usize, count: usize) -> Option<&[u8]> {
    let used = used(block);
    let use_is_right = if k + 1 < count {
        used == CONTENT
    } else if count == 1 {
        used <= CONTENT
    } else {
        (1..=CONTENT).contains(&used)
    };
    let number = usize::from(u16::from_be_bytes([block[0], block[1]]));
    if block[BLOCK - 4..] != check(block).to_be_bytes() || number != k || !use_is_right {
        return None;
    }
    let (data, padding) = block[4..BLOCK - 4].split_at(used);
    padding.iter().all(|byte| *byte == 0).then_some(data)
}

/// The job of a file, for an output of so many bytes.
pub fn read(file: &[u8], room: usize) -> Result<Vec<u8>, Refused> {
    if file.is_empty() || file.len() % BLOCK != 0 {
        return refused(20, 0);
    }
    let count = file.len() / BLOCK;
    if count > MOST_BLOCKS {
        return refused(1, 0);
    }
    let mut job = Vec::new();
    for (k, block) in file.chunks(BLOCK).enumerate() {
        match content(block, k, count) {
            Some(data) => job.extend_from_slice(data),
            None => return refused(19, k),
        }
    }
    if job.len() > JOB_LIMIT {
        return refused(1, 0);
    }
    if job.len() > room {
        return refused(18, 0);
    }
    Ok(job)
}

/// A job's blocks, however long it is.
pub fn blocks_of(job: &[u8]) -> Vec<u8> {
    let parts: Vec<&[u8]> = if job.is_empty() {
        vec![job]
    } else {
        job.chunks(CONTENT).collect()
    };
    let mut file = Vec::new();
    for (k, part) in parts.iter().enumerate() {
        let mut block = [0; BLOCK];
        block[..2].copy_from_slice(&(k as u16).to_be_bytes());
        block[2..4].copy_from_slice(&(part.len() as u16).to_be_bytes());
        block[4..4 + part.len()].copy_from_slice(part);
        seal(&mut block);
        file.extend_from_slice(&block);
    }
    file
}

/// The file of a job, for an output of so many bytes.
pub fn write(job: &[u8], room: usize) -> Result<Vec<u8>, Refused> {
    if job.len() > JOB_LIMIT {
        return refused(1, 0);
    }
    let file = blocks_of(job);
    if file.len() > room {
        return refused(18, 0);
    }
    Ok(file)
}

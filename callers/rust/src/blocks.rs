//! The block file: a job in blocks of 512 bytes, each with a check.

use crate::{Refusal, library};

const BLOCK: usize = 512;
const CONTENT: usize = 504;

/// The job in a block file: 20 if it isn't whole blocks, 1 if it or its job is too long, 19 with the first wrong block.
pub fn read_blocks(file: &[u8]) -> Result<Vec<u8>, Refusal> {
    let mut job = vec![0; file.len() / BLOCK * CONTENT];
    let length = read_blocks_into(file, &mut job)?;
    job.truncate(length);
    Ok(job)
}

/// The block file of a job: 1 if the job is too long.
pub fn write_blocks(job: &[u8]) -> Result<Vec<u8>, Refusal> {
    let mut file = vec![0; job.len().div_ceil(CONTENT).max(1) * BLOCK];
    let length = write_blocks_into(job, &mut file)?;
    file.truncate(length);
    Ok(file)
}

/// As `read_blocks`, to a prefix of `job`, whose length is the answer; 18 if it doesn't fit. A refusal writes nothing.
pub fn read_blocks_into(file: &[u8], job: &mut [u8]) -> Result<usize, Refusal> {
    library::read_blocks(file, job)
}

/// As `write_blocks`, to a prefix of `file`, whose length is the answer; 18 if it doesn't fit. A refusal writes nothing.
pub fn write_blocks_into(job: &[u8], file: &mut [u8]) -> Result<usize, Refusal> {
    library::write_blocks(job, file)
}

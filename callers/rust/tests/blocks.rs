//! The block file, both ways. Checks are summed here as document 01 words it.

mod common;

use common::*;
use rotblossom::{LONGEST_JOB, read_blocks, read_blocks_into, write_blocks, write_blocks_into};

/// A block with the check that belongs to it.
fn block(number: u16, used: u16, content: &[u8]) -> Vec<u8> {
    let mut block = number.to_be_bytes().to_vec();
    block.extend(used.to_be_bytes());
    block.extend_from_slice(content);
    block.resize(508, 0);
    let check: u32 = (1..).zip(&block).map(|(n, b)| n * u32::from(*b)).sum();
    block.extend(check.to_be_bytes());
    block
}

/// Bytes that tell their place.
fn counted(length: usize) -> Vec<u8> {
    (0..length).map(|i| (i % 251) as u8).collect()
}

#[test]
fn case_b_in_one_block() {
    let job = bytes(CASE_B);
    let file = write_blocks(&job).unwrap();
    assert_eq!(file.len(), 512);
    assert_eq!(file[..4], [0, 0, 0, 18]);
    assert_eq!(file[4..22], job);
    assert_eq!(file[22..508], [0; 486]);
    assert_eq!(file[508..], [0, 0, 0x12, 0x3d]);
    assert_eq!(read_blocks(&file), Ok(job));
}

#[test]
fn an_empty_job_has_one_block_that_uses_nothing() {
    assert_eq!(write_blocks(&[]), Ok(vec![0; 512]));
    assert_eq!(read_blocks(&[0; 512]), Ok(vec![]));
}

#[test]
fn jobs_of_several_blocks_come_back() {
    for length in [1, 503, 504, 505, 1_008, 1_009, LONGEST_JOB] {
        let job = counted(length);
        let file = write_blocks(&job).unwrap();
        let blocks: Vec<u8> = job
            .chunks(504)
            .enumerate()
            .flat_map(|(n, content)| block(n as u16, content.len() as u16, content))
            .collect();
        assert!(file == blocks, "{length}");
        assert!(read_blocks(&file) == Ok(job), "{length}");
    }
}

/// Bytes behind the used ones must be zero.
#[test]
fn padding_that_holds_something_is_19() {
    let file = block(0, 2, &[3, 4]);
    assert_eq!(read_blocks(&file), Ok(vec![3, 4]));
    let old_memory = block(0, 2, &[3, 4, 0, 6]);
    assert_eq!(read_blocks(&old_memory), Err(refusal(19, 0)));
}

#[test]
fn what_is_not_whole_blocks_is_20() {
    for length in [0, 1, 511, 513] {
        assert_eq!(read_blocks(&vec![0; length]), Err(refusal(20, 0)));
    }
}

/// The place is the first wrong block: here a check, a number, and uses.
#[test]
fn a_wrong_block_is_19() {
    let full = block(0, 504, &counted(504));
    let behind = |second: Vec<u8>| [full.clone(), second].concat();
    let mut flipped = block(1, 3, b"end");
    assert_eq!(read_blocks(&behind(flipped.clone())).unwrap().len(), 507);
    flipped[511] ^= 1;
    assert_eq!(read_blocks(&behind(flipped)), Err(refusal(19, 1)));
    let misnumbered = behind(block(0, 3, b"end"));
    assert_eq!(read_blocks(&misnumbered), Err(refusal(19, 1)));
    let overfull = behind(block(1, 505, b"end"));
    assert_eq!(read_blocks(&overfull), Err(refusal(19, 1)));
    let unused = behind(block(1, 0, b""));
    assert_eq!(read_blocks(&unused), Err(refusal(19, 1)));
    let mut first_not_full = block(0, 503, &counted(503));
    first_not_full.extend(block(1, 3, b"end"));
    assert_eq!(read_blocks(&first_not_full), Err(refusal(19, 0)));
}

/// 2,082 blocks are too many whatever they hold; 2,081 full ones are right blocks, of a job too long.
#[test]
fn too_long_is_1() {
    assert_eq!(read_blocks(&vec![9; 2_082 * 512]), Err(refusal(1, 0)));
    let full: Vec<u8> = (0..2_081)
        .flat_map(|n| block(n, 504, &counted(504)))
        .collect();
    assert_eq!(read_blocks(&full), Err(refusal(1, 0)));
    assert_eq!(write_blocks(&vec![0; LONGEST_JOB + 1]), Err(refusal(1, 0)));
}

#[test]
fn a_prefix_is_written_and_nothing_behind_it() {
    let job = bytes(CASE_B);
    let mut file = [0xaa; 600];
    assert_eq!(write_blocks_into(&job, &mut file), Ok(512));
    assert_eq!(file[512..], [0xaa; 88]);
    let mut back = [0xbb; 20];
    assert_eq!(read_blocks_into(&file[..512], &mut back), Ok(18));
    assert_eq!(back[..18], job);
    assert_eq!(back[18..], [0xbb; 2]);
}

#[test]
fn no_room_is_18_and_refusals_write_nothing() {
    let job = bytes(CASE_B);
    let mut file = write_blocks(&job).unwrap();
    let mut short = [0xcc; 511];
    assert_eq!(write_blocks_into(&job, &mut short), Err(refusal(18, 0)));
    assert_eq!(
        read_blocks_into(&file, &mut short[..17]),
        Err(refusal(18, 0))
    );
    assert_eq!(
        read_blocks_into(&file[..511], &mut short),
        Err(refusal(20, 0))
    );
    file[511] ^= 1;
    assert_eq!(read_blocks_into(&file, &mut short), Err(refusal(19, 0)));
    assert_eq!(short, [0xcc; 511]);
}

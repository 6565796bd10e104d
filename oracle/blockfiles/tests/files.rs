//! The independent reader and writer on cases that document 01 and request No. 2 settle by themselves.

use blockfiles::made::next;
use blockfiles::{Refused, read, seal, write};
use jobs::random::Random;

const CASE_B: [u8; 18] = [
    1, 0, 1, 0x41, 7, 1, 0, 0, 0x50, 0x51, 1, 0, 1, 0x60, 2, 1, 0, 0,
];

fn refused(number: u32, place: usize) -> Result<Vec<u8>, Refused> {
    Err(Refused { number, place })
}

#[test]
fn case_b_is_one_block_with_the_check_of_document_01() {
    let file = write(&CASE_B, 512).unwrap();
    assert_eq!(file.len(), 512);
    assert_eq!(file[..4], [0, 0, 0, 18]);
    assert_eq!(file[4..22], CASE_B);
    assert!(file[22..508].iter().all(|byte| *byte == 0));
    assert_eq!(file[508..], [0, 0, 0x12, 0x3d]);
    assert_eq!(read(&file, 18), Ok(CASE_B.to_vec()));
}

#[test]
fn refusals_come_in_document_01s_order() {
    assert_eq!(read(&[], 0), refused(20, 0));
    assert_eq!(read(&[0; 513], 0), refused(20, 0));
    assert_eq!(read(&vec![9; 512 * 2082], 0), refused(1, 0));
    let file = write(&[7; 505], 1024).unwrap();
    let mut wrong = file.clone();
    wrong[1023] ^= 1;
    assert_eq!(read(&wrong, 0), refused(19, 1));
    assert_eq!(read(&file, 504), refused(18, 0));
    let job = vec![7; 1_048_577];
    assert_eq!(read(&blockfiles::blocks_of(&job), 0), refused(1, 0));
    assert_eq!(write(&job, 0), refused(1, 0));
    assert_eq!(write(&[7; 505], 1023), refused(18, 0));
}

#[test]
fn a_byte_of_padding_is_refused_at_its_block() {
    let file = write(&[7; 505], 1024).unwrap();
    for place in 512 + 5..512 + 508 {
        let mut old = file.clone();
        old[place] = 1;
        seal(&mut old[512..]);
        assert_eq!(read(&old, 1000), refused(19, 1));
    }
}

#[test]
fn what_is_read_is_what_is_written() {
    let mut random = Random::new(1);
    let mut accepted = 0;
    for _ in 0..2000 {
        let made = next(&mut random);
        if made.kind == "correct" {
            assert_eq!(read(&made.file, made.job.len()), Ok(made.job));
        }
        if let Ok(job) = read(&made.file, usize::MAX) {
            accepted += 1;
            assert_eq!(write(&job, made.file.len()), Ok(made.file));
        }
    }
    assert!(accepted > 700, "only {accepted} files were accepted");
}

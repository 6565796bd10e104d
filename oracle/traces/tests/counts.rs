//! Traces put together by hand from document 02, No. 12, and laws that hold for all.

use jobs::random::Random;
use pools::constant::{Constant, pool_of};
use traces::count::{Counts, FLAGS, Refused, count};
use traces::frame::Frame;
use traces::made;

const LOOK_UP: u8 = 0;
const CLEAR: u8 = 1;

/// A class at slot 1, a long at 2 and 3, a text at 4.
fn pool() -> Vec<u8> {
    pool_of(&[
        Constant::One(7, 4),
        Constant::Long(5),
        Constant::Text(b"A".to_vec()),
    ])
}

fn counted(start: &[(u16, u8)], steps: &[[u8; 3]]) -> ([usize; 3], Vec<(u16, u8)>) {
    let trace: Vec<u8> = steps
        .iter()
        .flat_map(|[action, tag, slot]| [*action, *tag, 0, *slot])
        .collect();
    let mut flags = vec![0; FLAGS];
    start
        .iter()
        .for_each(|(slot, value)| flags[usize::from(*slot)] = *value);
    let Counts {
        good,
        failed,
        rested,
    } = count(&pool(), &trace, &mut flags).unwrap();
    let left = (0..=u16::MAX).zip(flags).filter(|(_, value)| *value != 0);
    ([good, failed, rested], left.collect())
}

#[test]
fn a_look_up_needs_an_entry_of_the_tag_to_begin_there() {
    let steps = [
        [LOOK_UP, 7, 1],
        [LOOK_UP, 5, 3],
        [LOOK_UP, 1, 2],
        [LOOK_UP, 1, 9],
        [LOOK_UP, 0, 0],
    ];
    assert_eq!(counted(&[], &steps), ([1, 4, 0], vec![(1, 1)]));
}

#[test]
fn a_set_flag_is_enough_and_stays_as_it_is() {
    let steps = [[LOOK_UP, 7, 1], [LOOK_UP, 99, 1]];
    assert_eq!(counted(&[], &steps), ([2, 0, 0], vec![(1, 1)]));
    let steps = [[LOOK_UP, 99, 9], [LOOK_UP, 1, 4]];
    assert_eq!(
        counted(&[(9, 7), (4, 255)], &steps),
        ([2, 0, 1], vec![(4, 255), (9, 7)])
    );
}

#[test]
fn what_the_trace_set_itself_does_not_rest_on_the_start() {
    // the wrong tag first rests on the start; once the right one was looked up, it no longer does
    let steps = [[LOOK_UP, 8, 1], [LOOK_UP, 7, 1], [LOOK_UP, 8, 1]];
    assert_eq!(counted(&[(1, 1)], &steps), ([3, 0, 1], vec![(1, 1)]));
    // a flag that was cleared and set again is the trace's own
    let steps = [
        [CLEAR, 0, 1],
        [LOOK_UP, 8, 1],
        [LOOK_UP, 7, 1],
        [LOOK_UP, 8, 1],
        [CLEAR, 200, 1],
    ];
    assert_eq!(counted(&[(1, 255)], &steps), ([2, 1, 0], vec![]));
}

#[test]
fn refusals_come_in_order_and_leave_the_flags() {
    let mut flags = vec![3; FLAGS];
    let mut refused = |pool: &[u8], trace: &[u8], length: usize| {
        let code = count(pool, trace, &mut flags[..length]).unwrap_err();
        assert!(flags.iter().all(|flag| *flag == 3));
        code
    };
    let good = [1, 0, 0, 1];
    assert_eq!(refused(&[0, 0], &[9], 5), Refused::NoPool);
    assert_eq!(refused(&pool(), &good[..3], FLAGS), Refused::NoTrace);
    assert_eq!(
        refused(&pool(), &[1, 0, 0, 1, 2, 0, 0, 1], FLAGS),
        Refused::NoTrace
    );
    assert_eq!(refused(&pool(), &good, FLAGS - 1), Refused::NoTrace);
}

#[test]
fn laws_of_all_traces() {
    let mut random = Random::new(3);
    let mut rested = 0;
    for _ in 0..3000 {
        let frame = made::next(&mut random);
        let mut flags = frame.flags();
        let look_ups = frame
            .trace
            .chunks(4)
            .filter(|step| step[0] == LOOK_UP)
            .count();
        if let Ok(counts) = count(&frame.pool, &frame.trace, &mut flags) {
            assert_eq!(counts.good + counts.failed, look_ups);
            assert!(counts.rested <= counts.good);
            rested += counts.rested;
            // run again from clear flags nothing rests on them
            let clear = count(&frame.pool, &frame.trace, &mut vec![0; FLAGS]).unwrap();
            assert_eq!(clear.rested, 0);
            assert_eq!(clear.good, counts.good - counts.rested);
        } else {
            assert_eq!(flags, frame.flags());
        }
        let mut stream = Vec::new();
        frame.write(&mut stream).unwrap();
        assert_eq!(Frame::read(&mut &stream[..]).unwrap(), Some(frame));
    }
    assert!(rested > 1000, "{rested}");
}

#[test]
fn a_line_has_the_flags_that_are_set() {
    let frame = Frame {
        pool: pool(),
        trace: vec![0, 7, 0, 1, 0, 7, 0, 12, 0, 8, 0, 2],
        length: FLAGS as u32,
        set: vec![(12, 9), (65_535, 1), (12, 7)],
    };
    assert_eq!(
        frame.answer(),
        "good 2 failed 1 rested 1 flags 1=1 12=7 65535=1\n"
    );
    let cut = Frame {
        trace: vec![0],
        ..frame
    };
    assert_eq!(cut.answer(), "refused 28 flags 12=7 65535=1\n");
}

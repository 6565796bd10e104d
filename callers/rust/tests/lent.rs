//! `run` over memory that the caller lends: what is in it before and after, and refusals 2 and 18.

mod common;

use common::*;
use rotblossom::{Gap, Lent, Mark, Refusal, Told, least_gaps, least_work};

const LEFTOVER: Gap = Gap { first: 7, last: 9 };
const NO_GAP: Gap = Gap { first: 0, last: 0 };

/// What a caller lends, with leftovers in work and gaps and marks in the outputs.
struct Memory {
    work: Vec<u32>,
    gaps: Vec<Gap>,
    answers: Vec<u16>,
    marks: Vec<u8>,
    pool: Vec<u8>,
    bootstraps: Vec<u8>,
    class_name: Vec<u8>,
}

impl Memory {
    /// The least work and gaps for a job, and some room for the outputs.
    fn least(job: &[u8]) -> Memory {
        Memory {
            work: vec![0xdead_beef; least_work(job.len())],
            gaps: vec![LEFTOVER; least_gaps(job.len())],
            answers: vec![0xaaaa; 2],
            marks: vec![0xaa; 2],
            pool: vec![0xaa; 12],
            bootstraps: vec![0xaa; 14],
            class_name: vec![0xaa; 4],
        }
    }

    fn run(&mut self, job: &[u8]) -> Result<Told, Refusal> {
        rotblossom::run(
            job,
            Lent {
                work: &mut self.work,
                gaps: &mut self.gaps,
                answers: &mut self.answers,
                marks: &mut self.marks,
                pool: &mut self.pool,
                bootstraps: &mut self.bootstraps,
                class_name: &mut self.class_name,
            },
        )
    }

    fn is_cleared(&self) -> bool {
        self.work.iter().all(|word| *word == 0) && self.gaps.iter().all(|gap| *gap == NO_GAP)
    }

    fn work_is_untouched(&self) -> bool {
        self.work.iter().all(|word| *word == 0xdead_beef)
            && self.gaps.iter().all(|gap| *gap == LEFTOVER)
    }

    fn outputs_are_untouched(&self) -> bool {
        self.answers.iter().all(|answer| *answer == 0xaaaa)
            && [&self.marks, &self.pool, &self.bootstraps, &self.class_name]
                .iter()
                .all(|output| output.iter().all(|byte| *byte == 0xaa))
    }
}

/// Case g of document 01: three rows of four bytes.
const CASE_G: &str = "40 00 0009 0000 44 0002 0000 50 60 02 00 0000";

#[test]
fn the_least_sizes_are_document_01s() {
    assert_eq!((least_work(0), least_gaps(0)), (1_024, 2));
    assert_eq!((least_work(18), least_gaps(18)), (1_132, 5));
    assert_eq!(least_work(1_048_576), 6_292_480);
    assert_eq!(least_gaps(1_048_576), 209_717);
}

#[test]
fn success_writes_a_prefix_of_each_output() {
    let job = bytes(CASE_B);
    let mut memory = Memory::least(&job);
    let told = Told {
        answers: 1,
        pool: 9,
        bootstrap_count: 0,
        bootstraps: 0,
        name_slot: 0,
        class_name: Some(1),
        visits: 4,
    };
    assert_eq!(memory.run(&job), Ok(told));
    assert_eq!(memory.answers, [1, 0xaaaa]);
    assert_eq!(memory.marks, [Mark::New as u8, 0xaa]);
    assert_eq!(memory.pool, bytes("000307000201000141 aaaaaa"));
    assert_eq!(memory.bootstraps, [0xaa; 14]);
    assert_eq!(memory.class_name, bytes("41 aaaaaa"));
    assert!(memory.is_cleared());
}

#[test]
fn bootstraps_are_a_prefix_too() {
    let job = bytes(CASE_G);
    let mut memory = Memory::least(&job);
    let told = memory.run(&job).unwrap();
    assert_eq!((told.bootstrap_count, told.bootstraps), (3, 12));
    assert_eq!(memory.bootstraps, bytes("00090000 00090000 00090000 aaaa"));
    assert_eq!(told.class_name, None);
    assert_eq!(memory.class_name, [0xaa; 4]);
    assert!(memory.is_cleared());
}

/// All that is lent is cleared, also behind the least sizes.
#[test]
fn more_than_the_least_is_cleared_whole() {
    let job = bytes(CASE_B);
    let mut memory = Memory::least(&job);
    memory.work.resize(5_000, 0xdead_beef);
    memory.gaps.resize(100, LEFTOVER);
    assert_eq!(memory.run(&job).map(|told| told.pool), Ok(9));
    assert_eq!(memory.answers[0], 1);
    assert!(memory.is_cleared());
}

#[test]
fn a_refusal_clears_and_writes_nothing() {
    for (job, refused) in [
        ("ff", refusal(3, 0)),
        ("07 01 0000", refusal(4, 0)),
        ("03 00000001 43 0000 0000 50 60 02 00 0000", refusal(6, 1)),
        ("50 51 02 01 78 60 02 00 0000", refusal(12, 1)),
        ("50 52 00 0100 60 02 00 0000", refusal(16, 1)),
    ] {
        let job = bytes(job);
        let mut memory = Memory::least(&job);
        assert_eq!(memory.run(&job), Err(refused));
        assert!(memory.is_cleared() && memory.outputs_are_untouched());
    }
}

/// One word or one gap too few, also for a job that isn't well formed.
#[test]
fn short_work_or_gaps_are_2_and_nothing_is_touched() {
    for job in [CASE_B, "ff"] {
        let job = bytes(job);
        let shorten: [fn(&mut Memory); 2] = [
            |memory| memory.work.truncate(memory.work.len() - 1),
            |memory| memory.gaps.truncate(memory.gaps.len() - 1),
        ];
        for shorten in shorten {
            let mut memory = Memory::least(&job);
            shorten(&mut memory);
            assert_eq!(memory.run(&job), Err(refusal(2, 0)));
            assert!(memory.work_is_untouched() && memory.outputs_are_untouched());
        }
    }
}

/// 1 comes before 2, and touches nothing either.
#[test]
fn a_job_too_long_is_1_whatever_is_lent() {
    let mut memory = Memory::least(&[]);
    let job = vec![0; 1_048_577];
    assert_eq!(memory.run(&job), Err(refusal(1, 0)));
    assert!(memory.work_is_untouched() && memory.outputs_are_untouched());
}

/// Case b needs one answer and its mark, nine bytes of pool and one of the class name, case g twelve bytes of bootstraps: with one fewer
/// it is 18 at the build record, with just so much it is built.
#[test]
fn an_output_one_short_is_18_and_nothing_is_written() {
    let outputs: [(&str, usize, fn(&mut Memory, usize)); 5] = [
        (CASE_B, 1, |memory, n| memory.answers.truncate(n)),
        (CASE_B, 1, |memory, n| memory.marks.truncate(n)),
        (CASE_B, 9, |memory, n| memory.pool.truncate(n)),
        (CASE_B, 1, |memory, n| memory.class_name.truncate(n)),
        (CASE_G, 12, |memory, n| memory.bootstraps.truncate(n)),
    ];
    for (job, needed, keep) in outputs {
        let build_record = if job == CASE_B { 4 } else { 3 };
        let job = bytes(job);
        let mut short = Memory::least(&job);
        keep(&mut short, needed - 1);
        assert_eq!(short.run(&job), Err(refusal(18, build_record)));
        assert!(short.is_cleared() && short.outputs_are_untouched());

        let mut enough = Memory::least(&job);
        keep(&mut enough, needed);
        assert!(enough.run(&job).is_ok());
        assert!(enough.is_cleared());
    }
}

/// Nothing is kept from one run to the next: the same memory serves a refused job and then a good one.
#[test]
fn memory_can_be_lent_again() {
    let job = bytes(CASE_B);
    let mut memory = Memory::least(&job);
    let circle = bytes("41 00 02 00 50 51 02 00 60 02 00 0000");
    assert_eq!(memory.run(&circle), Err(refusal(13, 2)));
    for _ in 0..2 {
        memory.pool.fill(0xaa);
        assert_eq!(memory.run(&job).map(|told| told.visits), Ok(4));
        assert_eq!(memory.pool, bytes("000307000201000141 aaaaaa"));
    }
}

/// The functions share nothing: builds at the same time don't disturb each other.
#[test]
fn threads_build_at_the_same_time() {
    let build_ints = |number: u8| {
        for _ in 0..2_000 {
            let job = [3, 0, 0, 0, number, 0x50, 0x51, 1, 0, 0, 0x60, 2, 0, 0, 0];
            let built = rotblossom::build(&job).unwrap();
            assert_eq!(built.pool, [0, 2, 3, 0, 0, 0, number]);
        }
    };
    std::thread::scope(|scope| {
        for number in 0..4 {
            scope.spawn(move || build_ints(number));
        }
    });
}

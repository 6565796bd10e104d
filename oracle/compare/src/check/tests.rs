//! Wrong libraries: the true one, and then one thing changed. Each must be seen.

use super::*;
use crate::expected::{expected, of_model};
use jobs::hex::bytes;

/// Case b of document 01: one answer, nine bytes of pool, a class name.
const BUILT: &str = "01 0001 41  07 01 0000  50  51 01 0001  60 02 01 0000";
/// Case g: raw bootstrap 2 alone, so three copies of four bytes.
const BOOTSTRAPS: &str = "40 00 0001 0000  44 0002 0000  50  60 02 00 0000";
/// Record 50 meets an undefined name at slot 1 and a circle at slot 2: 12 in document 01's order.
const UNDEFINED_FIRST: &str =
    "07 02 01 78  07 02 01 79  41 01 79 01 0001  43 0001 0000  43 0002 0001  50  60 02 00 0000";
/// The same with the slots the other way about: 13.
const CIRCLE_FIRST: &str =
    "07 02 01 78  07 02 01 79  41 01 79 01 0001  43 0002 0000  43 0001 0001  50  60 02 00 0000";
/// The circle alone.
const CIRCLE: &str = "07 02 01 79  41 01 79 01 0000  43 0001 0000  50  60 02 00 0000";
/// An unknown kind.
const BAD_FORM: &str = "00";

/// All that is checked of a job, several times since memory differs from run to run.
fn checked(hex: &str, library: Library) -> Result<(), String> {
    let job = bytes(hex);
    let mut checker = Checker::new(library, 1);
    for _ in 0..8 {
        let expected = expected(&job, &of_model(&job), true)?;
        checker.check(&job, &expected)?;
        checker.check_short_memory(&job)?;
    }
    Ok(())
}

/// Calls the true library, then changes what it told or left.
fn doctored(
    job: &[u8],
    lent: Lent<'_>,
    change: impl FnOnce(&mut Result<Told, Refusal>, Lent<'_>),
) -> Result<Told, Refusal> {
    let mut told = rotblossom::run(
        job,
        Lent {
            work: &mut *lent.work,
            gaps: &mut *lent.gaps,
            answers: &mut *lent.answers,
            marks: &mut *lent.marks,
            pool: &mut *lent.pool,
            bootstraps: &mut *lent.bootstraps,
            class_name: &mut *lent.class_name,
        },
    );
    change(&mut told, lent);
    told
}

fn assert_seen(hex: &str, wrong: Library, seen: &str) {
    let text = checked(hex, wrong).expect_err(seen);
    assert!(text.starts_with(seen), "{text} for {seen}");
}

#[test]
fn the_true_library_passes() {
    for job in [
        BUILT,
        BOOTSTRAPS,
        UNDEFINED_FIRST,
        CIRCLE_FIRST,
        CIRCLE,
        BAD_FORM,
        "",
    ] {
        assert_eq!(checked(job, rotblossom::run), Ok(()), "{job}");
    }
}

#[test]
fn wrong_contents_are_seen() {
    let answer: Library = |job, lent| {
        doctored(job, lent, |told, lent| {
            if told.is_ok() {
                lent.answers[0] += 1;
            }
        })
    };
    assert_seen(BUILT, answer, "lent exactly enough: wrong are answers;");
    let mark: Library = |job, lent| {
        doctored(job, lent, |told, lent| {
            if told.is_ok() {
                lent.marks[0] += 1;
            }
        })
    };
    assert_seen(BUILT, mark, "lent exactly enough: wrong are marks;");
    let pool: Library = |job, lent| {
        doctored(job, lent, |told, lent| {
            if let Ok(told) = told {
                lent.pool[told.pool - 1] ^= 1;
            }
        })
    };
    assert_seen(BUILT, pool, "lent exactly enough: wrong are pool;");
    let bootstraps: Library = |job, lent| {
        doctored(job, lent, |told, lent| {
            if told.is_ok() {
                lent.bootstraps[5] ^= 1;
            }
        })
    };
    assert_seen(
        BOOTSTRAPS,
        bootstraps,
        "lent exactly enough: wrong are bootstraps;",
    );
    let class_name: Library = |job, lent| {
        doctored(job, lent, |told, lent| {
            if told.is_ok() {
                lent.class_name[0] ^= 1;
            }
        })
    };
    assert_seen(
        BUILT,
        class_name,
        "lent exactly enough: wrong are class name;",
    );
}

#[test]
fn wrong_numbers_are_seen() {
    let wrong: [fn(&mut Told); 7] = [
        |told| told.answers -= 1,
        |told| told.pool -= 1,
        |told| told.bootstrap_count += 1,
        |told| told.bootstraps += 1,
        |told| told.name_slot += 1,
        |told| told.class_name = None,
        |told| told.visits += 1,
    ];
    for change in wrong {
        let mut told = Ok(numbers_of(&built()));
        let memory = after_built();
        assert!(wrong_places(&memory, &told, &End::Built(built())).is_empty());
        told.as_mut().map(change).unwrap();
        assert_eq!(
            wrong_places(&memory, &told, &End::Built(built())),
            ["numbers"]
        );
    }
}

fn built() -> Built {
    match of_model(&bytes(BUILT)).end {
        End::Built(built) => built,
        _ => panic!("case b is built"),
    }
}

/// Memory as the true library leaves it.
fn after_built() -> Memory {
    let mut memory = Memory::new(1);
    let job = bytes(BUILT);
    memory.lend(&for_refused(&job));
    rotblossom::run(&job, memory.lent()).expect("case b is built");
    memory
}

#[test]
fn bytes_behind_the_prefix_are_seen() {
    let pool: Library = |job, lent| {
        doctored(job, lent, |told, lent| {
            if let Ok(told) = told
                && let Some(behind) = lent.pool.get_mut(told.pool)
            {
                *behind ^= 1;
            }
        })
    };
    assert_seen(BUILT, pool, "lent more, with leftovers: wrong are pool;");
    let answers: Library = |job, lent| {
        doctored(job, lent, |told, lent| {
            if told.is_ok()
                && let Some(behind) = lent.answers.get_mut(1)
            {
                *behind ^= 1;
            }
        })
    };
    assert_seen(
        BUILT,
        answers,
        "lent more, with leftovers: wrong are answers;",
    );
}

#[test]
fn work_and_gaps_that_are_not_zero_are_seen() {
    let word: Library = |job, lent| doctored(job, lent, |_, lent| lent.work[7] = 1);
    assert_seen(BUILT, word, "lent exactly enough: wrong are work;");
    assert_seen(CIRCLE, word, "lent enough, with leftovers: wrong are work;");
    let gap: Library =
        |job, lent| doctored(job, lent, |_, lent| lent.gaps.last_mut().unwrap().last = 1);
    assert_seen(BUILT, gap, "lent exactly enough: wrong are gaps;");
    // Only the least that must be lent is cleared.
    let behind: Library = |job, lent| {
        doctored(job, lent, |_, lent| {
            lent.work[least_work(job.len())..].fill(9)
        })
    };
    assert_seen(BUILT, behind, "lent more, with leftovers: wrong are work;");
}

#[test]
fn wrong_refusals_are_seen() {
    let exchanged: Library = |job, lent| {
        doctored(job, lent, |told, _| {
            if let Err(refusal) = told {
                refusal.code = match refusal.code {
                    12 => 13,
                    13 => 12,
                    code => code,
                };
            }
        })
    };
    for job in [UNDEFINED_FIRST, CIRCLE_FIRST, CIRCLE] {
        let seen = "lent enough, with leftovers: wrong are numbers;";
        assert_seen(job, exchanged, seen);
    }
    let later: Library = |job, lent| {
        doctored(job, lent, |told, _| {
            if let Err(refusal) = told {
                refusal.place += 1;
            }
        })
    };
    assert_seen(
        CIRCLE,
        later,
        "lent enough, with leftovers: wrong are numbers;",
    );
    assert_seen(BUILT, later, "answers one short: wrong are numbers;");
    let all_refused: Library = |_, _| Err(Refusal { code: 3, place: 0 });
    assert_seen(BUILT, all_refused, "lent exactly enough: wrong are numbers");
}

#[test]
fn writing_and_refusing_is_seen() {
    let written: Library = |job, lent| {
        doctored(job, lent, |told, lent| {
            if told.is_err() {
                lent.pool[0] ^= 1;
            }
        })
    };
    assert_seen(
        CIRCLE,
        written,
        "lent enough, with leftovers: wrong are pool;",
    );
    assert_seen(BUILT, written, "answers one short: wrong are pool;");
}

#[test]
fn short_memory_that_is_touched_or_taken_is_seen() {
    let cleared: Library = |job, lent| {
        doctored(job, lent, |told, lent| {
            if matches!(told, Err(Refusal { code: 2, .. })) {
                lent.work.fill(0);
            }
        })
    };
    assert_seen(BUILT, cleared, "work one short: wrong are work;");
    assert_seen(BAD_FORM, cleared, "work one short: wrong are work;");
    let form_first: Library = |job, lent| {
        doctored(job, lent, |told, _| {
            if job == [0] {
                *told = Err(Refusal { code: 3, place: 0 });
            }
        })
    };
    assert_seen(BAD_FORM, form_first, "work one short: wrong are numbers;");
}

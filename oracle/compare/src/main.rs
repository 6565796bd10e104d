//! Holds the proved library and the model to Krakatau's module: the same jobs through all three, in one process. Of jobs with records 47 to
//! 49 the module has the last word where these change nothing, and else the model, as it has of the place of a refusal met while building.
//! Of a record 46 the module is given the value that the driver works out; 22 and 23 are told by model and driver alone.
//!
//! `compare` takes the whole, `compare KIND SEED COUNT`, `compare heavy`, `heavy_settings` or `short` a part; `--threads N` comes first.

mod check;
mod expected;
mod memory;
mod parts;
mod tally;

use check::{Checker, hex, line};
use driver::tally::grouped;
use expected::{expected, of_model};
use parts::{Jobs, Part};
use std::process::ExitCode;
use std::sync::Mutex;
use std::thread;
use std::time::{Duration, Instant};
use tally::{HEAD, Tally, row};

const USAGE: &str = "usage: compare [--threads N] [heavy | heavy_settings | short | KIND SEED COUNT]
       KIND is small, damaged, pairs, orders, ldcfull, settings, settings_damaged, settings_pairs, lowest, lowest_full, lowest_pairs,
       worked, worked_damaged, worked_pairs or worked_orders";

/// So many jobs are taken by a thread at once.
const BATCH: usize = 16;

/// One generated job of so many is chosen.
const EVERY: usize = 16;

const BETWEEN_LINES: Duration = Duration::from_secs(30);

fn main() -> ExitCode {
    let arguments: Vec<String> = std::env::args().skip(1).collect();
    let arguments: Vec<&str> = arguments.iter().map(String::as_str).collect();
    let Some((threads, parts)) = wanted(&arguments) else {
        eprintln!("{USAGE}");
        return ExitCode::from(2);
    };
    let start = Instant::now();
    let mut rows = vec![HEAD.to_string()];
    let mut different = 0;
    for part in &parts {
        let tally = compare(part, threads, start);
        tally.differences.iter().for_each(|text| println!("{text}"));
        let row = row(part, &tally);
        println!("{row}");
        rows.push(row);
        different += tally.different;
    }
    println!("{}", rows.join("\n"));
    println!(
        "{different} differences, {threads} threads, {} s",
        start.elapsed().as_secs()
    );
    match different {
        0 => ExitCode::SUCCESS,
        _ => ExitCode::FAILURE,
    }
}

fn wanted(arguments: &[&str]) -> Option<(usize, Vec<Part>)> {
    let (threads, rest) = match arguments {
        ["--threads", threads, rest @ ..] => (threads.parse().ok().filter(|n| *n > 0)?, rest),
        rest => (thread::available_parallelism().map_or(1, usize::from), rest),
    };
    let parts = match rest {
        [] => parts::whole(),
        rest => vec![Part::of(rest)?],
    };
    Some((threads, parts))
}

/// The jobs that are left of a part, and what those that are done came to.
struct Shared {
    jobs: Mutex<std::iter::Enumerate<Jobs>>,
    done: Mutex<(Tally, Instant)>,
}

fn compare(part: &Part, threads: usize, start: Instant) -> Tally {
    let jobs = part.jobs().expect("the part is known");
    let shared = Shared {
        jobs: Mutex::new(jobs.enumerate()),
        done: Mutex::new((Tally::default(), Instant::now())),
    };
    thread::scope(|scope| {
        for seed in 0..threads {
            let shared = &shared;
            scope.spawn(move || work(part, shared, seed as u64, start));
        }
    });
    shared.done.into_inner().unwrap().0
}

/// Takes batches of jobs until none is left.
fn work(part: &Part, shared: &Shared, seed: u64, start: Instant) {
    let mut checker = Checker::new(rotblossom::run, seed);
    loop {
        let batch: Vec<(usize, Vec<u8>)> =
            shared.jobs.lock().unwrap().by_ref().take(BATCH).collect();
        if batch.is_empty() {
            return;
        }
        let mut tally = Tally::default();
        for (number, job) in &batch {
            let is_chosen = part.is_heavy() || number.is_multiple_of(EVERY);
            if let Err(text) = compare_job(&mut checker, job, is_chosen, &mut tally) {
                let kind = &part.kind;
                tally.add_difference(format!("{kind} job {number}: {}\n  {text}", hex(job)));
            }
        }
        tally.add_calls(std::mem::take(&mut checker.calls));
        let (sum, told) = &mut *shared.done.lock().unwrap();
        sum.add(tally);
        if told.elapsed() >= BETWEEN_LINES {
            *told = Instant::now();
            tell(part, sum, start);
        }
    }
}

/// A job that is chosen runs through both copies of the module, and is lent too little work and gaps as well. The error tells
/// what was expected, and what the model or the library gave.
fn compare_job(
    checker: &mut Checker,
    job: &[u8],
    is_chosen: bool,
    tally: &mut Tally,
) -> Result<(), String> {
    tally.jobs += 1;
    let of_model = of_model(job);
    let expected =
        expected(job, &of_model, is_chosen).map_err(|text| format!("the Rust: {text}"))?;
    tally.add_end(&expected, of_model.building.is_some());
    let mut checked = checker.check(job, &expected);
    if checked.is_ok() && is_chosen {
        checked = checker.check_short_memory(job);
    }
    checked.map_err(|text| format!("expected: {}\n  {text}", line(&expected.end)))
}

fn tell(part: &Part, tally: &Tally, start: Instant) {
    println!(
        "{}: {} jobs, {} different, {} s",
        part.kind,
        grouped(tally.jobs),
        tally.different,
        start.elapsed().as_secs()
    );
}

#[cfg(test)]
mod tests {
    use super::*;
    use expected::{End, OfModel};

    /// Among them are those that need more memory than a stack has: all 65,535 bootstrap indexes used (17), the longest job and the longest
    /// expressions.
    #[test]
    fn every_heavy_job_ends_as_in_the_module() {
        let part = Part::of(&["heavy"]).unwrap();
        let threads = thread::available_parallelism().map_or(1, usize::from);
        let tally = compare(&part, threads, Instant::now());
        assert_eq!(tally.differences, Vec::<String>::new());
        assert_eq!((tally.jobs, tally.different), (105, 0));
    }

    /// Case a of document 01: the model builds it, and another end is a difference.
    #[test]
    fn a_model_that_differs_is_told() {
        let job = jobs::hex::bytes("50 60 02 00 0000");
        let of_model = of_model(&job);
        assert!(expected(&job, &of_model, false).is_ok());
        let told = expected(&job, &with_another_visit(of_model), false).err();
        let told = told.expect("they differ");
        assert!(told.contains("model: built"), "{told}");
    }

    fn with_another_visit(mut of_model: OfModel) -> OfModel {
        match &mut of_model.end {
            End::Built(built) => built.visits += 1,
            End::Refused(_) => panic!("the job is built"),
        }
        of_model
    }

    /// All slots are raw, and the String at the first of them has a child: 14 at the child's record. The module has a say in the number
    /// and in that it is met at the build record.
    #[test]
    fn a_refusal_met_while_building_is_told_where_the_model_has_it() {
        let mut job = jobs::hex::bytes("03 00000000 08 01 0000 43 0001 0001");
        let raw = |slot: u16| [0x43, (slot >> 8) as u8, slot as u8, 0, 0];
        job.extend((2..=65_534).flat_map(raw));
        job.extend(jobs::hex::bytes("50 60 02 00 0000"));
        let told = of_model(&job);
        let with = |of_model: OfModel| expected(&job, &of_model, true).map(|e| line(&e.end));
        assert_eq!(with(told.clone()), Ok("refused 14 0".into()));
        let at_a_request = OfModel {
            building: None,
            ..told.clone()
        };
        assert!(with(at_a_request).is_err());
        let another = OfModel {
            end: End::Refused(rotblossom::Refusal { code: 17, place: 0 }),
            ..told
        };
        assert!(with(another).is_err());
    }

    /// A model that differs from the module is told of a job with 47 and 48 too, but not of one with 49.
    #[test]
    fn the_module_has_a_say_where_the_settings_change_nothing() {
        let differs = |job: &str| {
            let job = jobs::hex::bytes(job);
            let of_model = with_another_visit(of_model(&job));
            expected(&job, &of_model, true).is_err()
        };
        assert!(differs("48 47 0000 50 60 02 00 0000"));
        assert!(differs("49 fffe 50 60 02 00 0000"));
        assert!(!differs("49 0001 50 60 02 00 0000"));
    }

    fn none_different(kind: &str, count: &str) -> Tally {
        let part = Part::of(&[kind, "1", count]).unwrap();
        let tally = compare(&part, 1, Instant::now());
        assert_eq!(tally.differences, Vec::<String>::new(), "{kind}");
        tally
    }

    /// Jobs with records 47 to 49, under every loan.
    #[test]
    fn jobs_with_settings_end_as_in_the_model() {
        for kind in ["settings", "settings_damaged", "settings_pairs"] {
            none_different(kind, "2000");
        }
    }

    /// Jobs with record 46, refused 22 and 23 too.
    #[test]
    fn jobs_with_expressions_end_as_in_model_and_module() {
        for kind in ["worked", "worked_damaged", "worked_pairs", "worked_orders"] {
            none_different(kind, "2000");
        }
    }

    /// A model that differs from the module is told of a job with a record 46.
    #[test]
    fn the_module_has_a_say_in_jobs_with_expressions() {
        let job = jobs::hex::bytes("46 2b 03 00000001 03 00000002 50 51 01 0000 60 02 00 0000");
        let of_model = of_model(&job);
        assert!(expected(&job, &of_model, true).is_ok());
        assert!(expected(&job, &with_another_visit(of_model), true).is_err());
    }

    /// About half of them are, of small pools and of full ones.
    #[test]
    fn jobs_refused_while_building_tell_the_models_record() {
        assert!(none_different("lowest", "4000").building > 1_600);
        assert!(none_different("lowest_pairs", "2000").building > 800);
        assert!(none_different("lowest_full", "20").building > 4);
    }
}

//! Has the checker compute the definition on generated jobs and holds it to the Rust's answers.
//!
//! `compute agree DEFINITION [KIND [BATCH]]` computes every set of `AGREE`, or that of one kind, or one batch of it;
//! `compute wrong DEFINITION [NAME..]` tells how many claims, and which of the definition's computed theorems, fail under each
//! of its must-fail edits, or those whose name has a NAME in it, and sees that one does; `compute tables DEFINITION [NAME..]`
//! tells of the theorems alone. DEFINITION is the folder crates/definition.

mod claim;
mod directed;
mod scratch;
mod tables;
mod wrong;

use claim::{Claim, Lending};
use driver::Outcome;
use driver::end_of_definitions::AtEndOfDefinitions;
use jobs::random::Random;
use jobs::stream::seeded;
use scratch::{BATCH, Scratch, Verdict};
use std::error::Error;
use std::io;
use std::ops::Range;
use std::path::Path;
use std::process::ExitCode;
use tables::Table;
use wrong::Wrong;

const USAGE: &str = "usage: compute agree DEFINITION [KIND [BATCH]] | compute wrong DEFINITION [NAME..] | \
                     compute tables DEFINITION [NAME..]";

/// A kind of job, a seed, how many times to make it, how much the n-th claim lends, and the numbers of the claims that
/// take the checker more steps than it has.
struct Set {
    kind: &'static str,
    seed: u64,
    count: usize,
    lending: fn(usize) -> Lending,
    too_long: &'static [usize],
}

const fn set(kind: &'static str, seed: u64, count: usize) -> Set {
    Set {
        kind,
        seed,
        count,
        lending: claim::lending,
        too_long: &[],
    }
}

/// Each of these is there for one point, so nothing may be short.
const DIRECTED: Set = Set {
    kind: "directed",
    seed: 0,
    count: 1,
    lending: |_| Lending::Plenty,
    too_long: &[],
};

/// Slots near 65534 are owned in these, so that a pool has as many entries.
const SMALL_TOO_LONG: &[usize] = &[610];

const AGREE: &[Set] = &[
    DIRECTED,
    Set {
        too_long: SMALL_TOO_LONG,
        ..set("small", 101, 1700)
    },
    set("damaged", 102, 1000),
    set("pairs", 103, 250),
    set("orders", 104, 100),
    set("ldcfull", 105, 10),
    set("lowest", 106, 600),
];

const NOTICE: &[Set] = &[DIRECTED, set("small", 201, 200), set("damaged", 202, 60)];

/// Pools longer than this take the checker some 20 s each.
const QUICK_POOL: usize = 5_000;

fn main() -> ExitCode {
    let arguments: Vec<String> = std::env::args().skip(1).collect();
    let arguments: Vec<&str> = arguments.iter().map(String::as_str).collect();
    let ended = match arguments[..] {
        ["agree", definition] => agree(Path::new(definition), None, None),
        ["agree", definition, kind] => agree(Path::new(definition), Some(kind), None),
        ["agree", definition, kind, batch] => match batch.parse() {
            Ok(batch) => agree(Path::new(definition), Some(kind), Some(batch)),
            Err(_) => Err(USAGE.into()),
        },
        ["wrong", definition, ref names @ ..] => all_noticed(Path::new(definition), names),
        ["tables", definition, ref names @ ..] => tables_told(Path::new(definition), names),
        _ => Err(USAGE.into()),
    };
    match ended {
        Ok(true) => ExitCode::SUCCESS,
        Ok(false) => ExitCode::FAILURE,
        Err(error) => {
            eprintln!("compute: {error}");
            ExitCode::from(2)
        }
    }
}

/// Every set agrees with the Rust, or those of a kind, or one batch of these.
fn agree(
    definition: &Path,
    kind: Option<&str>,
    batch: Option<usize>,
) -> Result<bool, Box<dyn Error>> {
    let is_picked = |set: &&Set| kind.is_none_or(|kind| kind == set.kind);
    let picked: Vec<&Set> = AGREE.iter().filter(is_picked).collect();
    if picked.is_empty() {
        return Err("there is no set of this kind".into());
    }
    let mut all = true;
    for set in picked {
        all &= set_agrees(definition, set, batch)?;
    }
    Ok(all)
}

/// Every claim holds but those that are listed as taking too long, and these do.
fn set_agrees(definition: &Path, set: &Set, batch: Option<usize>) -> Result<bool, Box<dyn Error>> {
    let claims = claims(set, |_| true);
    let texts: Vec<String> = claims.iter().map(|claim| claim.text.clone()).collect();
    let range = batch.map_or(0..claims.len(), |batch| part(batch, claims.len()));
    if range.is_empty() {
        return Err("there is no such batch".into());
    }
    let verdicts =
        Scratch::new(definition, set.kind)?.judge(&texts, range.clone(), set.too_long)?;
    let count = |verdict| verdicts.values().filter(|v| **v == verdict).count();
    let ended = |at_end| {
        claims[range.clone()]
            .iter()
            .filter(|c| c.at_end == at_end)
            .count()
    };
    println!(
        "{} seed {}: {} claims, {} hold, {} differ, {} took too long to compute; {} refused at record 50, and {} where \
         both 12 and 13 are possible",
        set.kind,
        set.seed,
        verdicts.len(),
        count(Verdict::Holds),
        count(Verdict::Differs),
        count(Verdict::TooLong),
        ended(AtEndOfDefinitions::OneNumber),
        ended(AtEndOfDefinitions::SeveralNumbers),
    );
    let mut all = true;
    for (number, verdict) in verdicts {
        let expected = if set.too_long.contains(&number) {
            Verdict::TooLong
        } else {
            Verdict::Holds
        };
        if verdict != expected {
            println!(
                "  claim {number}: {verdict:?}, not {expected:?}: {}",
                texts[number]
            );
            all = false;
        }
    }
    Ok(all)
}

/// The numbers of a batch's claims, of so many in all.
fn part(batch: usize, count: usize) -> Range<usize> {
    let end = |batch: usize| count.min(batch.saturating_mul(BATCH));
    end(batch)..end(batch.saturating_add(1))
}

/// Every wrong version fails a claim that the definition meets, or a computed theorem.
fn all_noticed(definition: &Path, names: &[&str]) -> Result<bool, Box<dyn Error>> {
    let picked = wrong_versions(definition, names)?;
    let claims: Vec<String> = NOTICE
        .iter()
        .flat_map(|set| claims(set, is_quick))
        .map(|claim| claim.text)
        .collect();
    let batches: Vec<Vec<usize>> = (0..claims.len().div_ceil(BATCH))
        .map(|batch| part(batch, claims.len()).collect())
        .collect();
    let right = Scratch::new(definition, "right")?.judge(&claims, 0..claims.len(), &[])?;
    if right.values().any(|verdict| *verdict != Verdict::Holds) {
        return Err("the definition itself fails a claim".into());
    }
    let tables = tables_that_hold(definition)?;
    let mut all = true;
    for wrong in picked {
        let scratch = edited(definition, &wrong)?;
        let named = |error| format!("{}: {error}", wrong.name);
        let verdicts = scratch.round(&claims, &batches).map_err(named)?;
        let failed = verdicts
            .values()
            .filter(|verdict| **verdict == Verdict::Differs)
            .count();
        let failing = failing(&scratch, &tables).map_err(named)?;
        println!(
            "{}: {failed} of {} claims fail, {}",
            wrong.name,
            claims.len(),
            told(&failing)
        );
        all &= failed > 0 || !failing.is_empty();
    }
    Ok(all)
}

/// Every wrong version fails a computed theorem.
fn tables_told(definition: &Path, names: &[&str]) -> Result<bool, Box<dyn Error>> {
    let picked = wrong_versions(definition, names)?;
    let tables = tables_that_hold(definition)?;
    let mut all = true;
    for wrong in picked {
        let scratch = edited(definition, &wrong)?;
        let failing =
            failing(&scratch, &tables).map_err(|error| format!("{}: {error}", wrong.name))?;
        println!("{}: {}", wrong.name, told(&failing));
        all &= !failing.is_empty();
    }
    Ok(all)
}

/// The wrong versions whose name has one of these in it, or all.
fn wrong_versions(definition: &Path, names: &[&str]) -> Result<Vec<Wrong>, Box<dyn Error>> {
    let is_picked = |w: &Wrong| names.is_empty() || names.iter().any(|name| w.name.contains(name));
    let picked: Vec<Wrong> = wrong::list(definition)?
        .into_iter()
        .filter(is_picked)
        .collect();
    if picked.is_empty() {
        return Err("no wrong version has such a name".into());
    }
    Ok(picked)
}

/// A scratch repository with a wrong version of the definition.
fn edited(definition: &Path, wrong: &Wrong) -> io::Result<Scratch> {
    let scratch = Scratch::new(definition, "wrong")?;
    for edit in &wrong.edits {
        scratch.edit(&edit.file, &edit.old, &edit.new)?;
    }
    Ok(scratch)
}

/// The computed theorems, all of which the definition itself meets.
fn tables_that_hold(definition: &Path) -> Result<Vec<Table>, Box<dyn Error>> {
    let right = Scratch::new(definition, "right")?;
    let tables = tables::list(definition)?;
    match failing(&right, &tables)?[..] {
        [] => Ok(tables),
        [module, ..] => Err(format!("the definition itself fails {module}").into()),
    }
}

/// The modules of which a theorem fails.
fn failing<'a>(scratch: &Scratch, tables: &'a [Table]) -> Result<Vec<&'a str>, Box<dyn Error>> {
    let mut modules = Vec::new();
    for table in tables {
        if !scratch.table_holds(table)? {
            modules.push(table.module.as_str());
        }
    }
    Ok(modules)
}

fn told(failing: &[&str]) -> String {
    match failing {
        [] => "every theorem holds".into(),
        modules => format!("theorems fail in {}", modules.join(", ")),
    }
}

/// The claims of a set, for those jobs that pass.
fn claims(set: &Set, passes: fn(&[u8]) -> bool) -> Vec<Claim> {
    let jobs = jobs_of(set)
        .into_iter()
        .filter(|job| passes(job))
        .enumerate();
    jobs.map(|(index, job)| claim::claim(&job, (set.lending)(index)))
        .collect()
}

fn is_quick(job: &[u8]) -> bool {
    !matches!(claim::outcome(job), Outcome::Built(built) if built.pool.len() > QUICK_POOL)
}

fn jobs_of(set: &Set) -> Vec<Vec<u8>> {
    if set.kind == DIRECTED.kind {
        return directed::jobs();
    }
    let step = seeded(set.kind).expect("the generators have this kind");
    let mut random = Random::new(set.seed);
    (0..set.count).flat_map(|_| step(&mut random)).collect()
}

//! Runs the library on a job under several loans, and holds it to what is expected.

#[cfg(test)]
mod tests;

use crate::expected::{End, Expected};
use crate::memory::{After, Memory, Sizes};
use rotblossom::{Built, LONGEST_JOB, Lent, Mark, Refusal, Told, least_gaps, least_work};

/// `rotblossom::run`, or a wrong one in the tests.
pub type Library = fn(&[u8], Lent<'_>) -> Result<Told, Refusal>;

const TOO_LONG: u32 = 1;
const MEMORY_SHORT: u32 = 2;
const OUTPUT_SHORT: u32 = 18;

/// How often the library was called, by what was lent.
#[derive(Clone, Copy, Default)]
pub struct Calls {
    pub plain: u64,
    pub leftovers: u64,
    pub output_short: u64,
    pub memory_short: u64,
}

pub struct Checker {
    pub library: Library,
    pub memory: Memory,
    pub calls: Calls,
}

impl Checker {
    pub fn new(library: Library, seed: u64) -> Self {
        Checker {
            library,
            memory: Memory::new(seed),
            calls: Calls::default(),
        }
    }

    /// The error says under which loan the library did what.
    pub fn check(&mut self, job: &[u8], expected: &Expected) -> Result<(), String> {
        match &expected.end {
            End::Built(built) => self.check_built(job, expected, built),
            End::Refused(_) => self.check_refused(job, &expected.end),
        }
    }

    fn check_built(
        &mut self,
        job: &[u8],
        expected: &Expected,
        built: &Built,
    ) -> Result<(), String> {
        let exact = Sizes {
            work: least_work(job.len()),
            gaps: least_gaps(job.len()),
            answers: built.answers.len(),
            marks: built.marks.len(),
            pool: built.pool.len(),
            bootstraps: built.bootstraps.len(),
            class_name: built.class_name.as_ref().map_or(0, Vec::len),
        };
        self.calls.plain += 1;
        self.memory.lend(&exact);
        self.memory.clear_work_and_gaps();
        self.run(job, &expected.end, "lent exactly enough")?;

        let more = self.more(&exact);
        self.calls.leftovers += 1;
        self.memory.lend(&more);
        self.run(job, &expected.end, "lent more, with leftovers")?;

        for (sizes, what) in one_short(&exact) {
            self.calls.output_short += 1;
            self.memory.lend(&sizes);
            let (code, place) = (OUTPUT_SHORT, expected.build_record);
            self.run(job, &End::Refused(Refusal { code, place }), what)?;
        }
        Ok(())
    }

    fn more(&mut self, least: &Sizes) -> Sizes {
        let memory = &mut self.memory;
        Sizes {
            work: memory.more(least.work),
            gaps: memory.more(least.gaps),
            answers: memory.more(least.answers),
            marks: memory.more(least.marks),
            pool: memory.more(least.pool),
            bootstraps: memory.more(least.bootstraps),
            class_name: memory.more(least.class_name),
        }
    }

    fn check_refused(&mut self, job: &[u8], end: &End) -> Result<(), String> {
        self.calls.plain += 1;
        self.memory.lend(&for_refused(job));
        self.run(job, end, "lent enough, with leftovers")
    }

    /// Work one word short, then gaps one short: 2 unless the job is too long, which is 1.
    pub fn check_short_memory(&mut self, job: &[u8]) -> Result<(), String> {
        let code = match job.len() > LONGEST_JOB {
            true => TOO_LONG,
            false => MEMORY_SHORT,
        };
        let end = End::Refused(Refusal { code, place: 0 });
        let enough = for_refused(job);
        let (mut work_short, mut gaps_short) = (enough, enough);
        work_short.work -= 1;
        gaps_short.gaps -= 1;
        for (sizes, what) in [
            (work_short, "work one short"),
            (gaps_short, "gaps one short"),
        ] {
            self.calls.memory_short += 1;
            self.memory.lend(&sizes);
            self.run(job, &end, what)?;
        }
        Ok(())
    }

    /// Calls the library with what is lent and holds everything after it to the end.
    fn run(&mut self, job: &[u8], end: &End, loan: &str) -> Result<(), String> {
        let told = (self.library)(job, self.memory.lent());
        let wrong = wrong_places(&self.memory, &told, end);
        let text = (!wrong.is_empty()).then(|| {
            let wrong = wrong.join(", ");
            format!(
                "{loan}: wrong are {wrong}; ours: {}",
                shown(&self.memory, &told)
            )
        });
        let all_as_before = text.is_none() && matches!(end, End::Refused(_));
        if !all_as_before {
            self.memory.restore_outputs();
        }
        self.memory.restore_work_and_gaps();
        text.map_or(Ok(()), Err)
    }
}

/// Least work and gaps, and room for what a wrong builder might write.
fn for_refused(job: &[u8]) -> Sizes {
    let room = 4096 + 2 * job.len();
    Sizes {
        work: least_work(job.len()),
        gaps: least_gaps(job.len()),
        answers: room,
        marks: room,
        pool: room,
        bootstraps: room,
        class_name: room,
    }
}

type SizeOf = fn(&mut Sizes) -> &mut usize;

/// For each output that isn't empty, the sizes with it one short.
fn one_short(exact: &Sizes) -> Vec<(Sizes, &'static str)> {
    let outputs: [(SizeOf, _); 5] = [
        (|sizes| &mut sizes.answers, "answers one short"),
        (|sizes| &mut sizes.marks, "marks one short"),
        (|sizes| &mut sizes.pool, "pool one short"),
        (|sizes| &mut sizes.bootstraps, "bootstraps one short"),
        (|sizes| &mut sizes.class_name, "class name one short"),
    ];
    let mut all = Vec::new();
    for (output, what) in outputs {
        let mut sizes = *exact;
        if *output(&mut sizes) > 0 {
            *output(&mut sizes) -= 1;
            all.push((sizes, what));
        }
    }
    all
}

/// The names of all that isn't as it must be.
fn wrong_places(memory: &Memory, told: &Result<Told, Refusal>, end: &End) -> Vec<&'static str> {
    let as_told = match end {
        End::Built(built) => *told == Ok(numbers_of(built)),
        End::Refused(refusal) => *told == Err(*refusal),
    };
    let kept_out = matches!(end, End::Refused(r) if r.code == TOO_LONG || r.code == MEMORY_SHORT);
    let (work, gaps) = match kept_out {
        true => (After::Untouched, After::Untouched),
        false => (After::Zero, After::Zero),
    };
    let expected_marks = match end {
        End::Built(built) => mark_bytes(built),
        End::Refused(_) => vec![],
    };
    let (answers, marks, pool, bootstraps, class_name) = match end {
        End::Built(built) => (
            After::Begins(&built.answers[..]),
            After::Begins(&expected_marks[..]),
            After::Begins(&built.pool[..]),
            After::Begins(&built.bootstraps[..]),
            After::Begins(built.class_name.as_deref().unwrap_or(&[])),
        ),
        End::Refused(_) => (
            After::Untouched,
            After::Untouched,
            After::Untouched,
            After::Untouched,
            After::Untouched,
        ),
    };
    let places = [
        (as_told, "numbers"),
        (memory.work.is(work), "work"),
        (memory.gaps.is(gaps), "gaps"),
        (memory.answers.is(answers), "answers"),
        (memory.marks.is(marks), "marks"),
        (memory.pool.is(pool), "pool"),
        (memory.bootstraps.is(bootstraps), "bootstraps"),
        (memory.class_name.is(class_name), "class name"),
    ];
    let wrong = places.into_iter().filter(|(good, _)| !good);
    wrong.map(|(_, place)| place).collect()
}

fn mark_bytes(built: &Built) -> Vec<u8> {
    built.marks.iter().map(|mark| *mark as u8).collect()
}

fn numbers_of(built: &Built) -> Told {
    Told {
        answers: built.answers.len(),
        pool: built.pool.len(),
        bootstrap_count: built.bootstrap_count,
        bootstraps: built.bootstraps.len(),
        name_slot: built.name_slot,
        class_name: built.class_name.as_ref().map(Vec::len),
        visits: built.visits,
    }
}

/// What the library gave.
fn shown(memory: &Memory, told: &Result<Told, Refusal>) -> String {
    match told {
        Err(refusal) => line(&End::Refused(*refusal)),
        Ok(told) => line(&End::Built(Built {
            answers: memory.answers.front(told.answers).to_vec(),
            marks: marks_in(memory, told.answers),
            pool: memory.pool.front(told.pool).to_vec(),
            bootstrap_count: told.bootstrap_count,
            bootstraps: memory.bootstraps.front(told.bootstraps).to_vec(),
            name_slot: told.name_slot,
            class_name: told
                .class_name
                .map(|length| memory.class_name.front(length).to_vec()),
            visits: told.visits,
        })),
    }
}

fn marks_in(memory: &Memory, count: usize) -> Vec<Mark> {
    let bytes = memory.marks.front(count);
    bytes.iter().copied().map(Mark::of).collect()
}

/// An end in one line.
pub fn line(end: &End) -> String {
    match end {
        End::Refused(Refusal { code, place }) => format!("refused {code} {place}"),
        End::Built(built) => format!(
            "built answers {:?} {:?} pool {} {} bootstraps {} {} {} name {} class {} visits {}",
            built.answers,
            built.marks,
            built.pool.len(),
            hex(&built.pool),
            built.bootstrap_count,
            built.bootstraps.len(),
            hex(&built.bootstraps),
            built.name_slot,
            built.class_name.as_deref().map_or("none".into(), hex),
            built.visits
        ),
    }
}

/// Bytes in hex, cut where they would fill a screen.
pub fn hex(bytes: &[u8]) -> String {
    const SHOWN: usize = 2048;
    let mut text = jobs::hex::hex(&bytes[..bytes.len().min(SHOWN)]);
    if bytes.len() > SHOWN {
        text.push_str("...");
    }
    text
}

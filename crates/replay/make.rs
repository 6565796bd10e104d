//! Makes the stored files of crates/replay: packed jobs in `stdin`, the Rust's lines for them in `stdout`.
//!
//! `make GENERATE DRIVER MODEL FOLDER`, where the first three are oracle/'s programs. Jobs come from the generators with fixed seeds, and
//! a few are made here. Lines come from the driver, but for jobs with records 47 to 49, which the Rust doesn't know: these have the
//! model's, as all others do too, but for the place of a refusal met while building, which the Rust tells at the build record: that is
//! the model's alone. Of a record 46 the driver gives the Rust the value, and tells 22 and 23 itself. Nor does the Rust know refusals 2
//! and 18: there document 01 says what the line is. A job is left out if its line is long, if it is long itself but not too long for any memory, or if it is
//! refused with 12 or 13 at record 50 and has several raw definitions, where the Rust's number can change from run to run.

use std::error::Error;
use std::fs;
use std::io::Write;
use std::process::{Command, Stdio};
use std::thread;

type Trouble = Box<dyn Error>;

/// Kind, seed, how many are generated, and how many are stored at most.
const SEEDED: &[(&str, &str, &str, usize)] = &[
    ("small", "7101", "4000", 2000),
    ("damaged", "7102", "1200", 1000),
    ("pairs", "7103", "500", 600),
    ("orders", "7104", "500", 600),
    ("ldcfull", "7105", "100", 60),
    ("settings", "7106", "500", 300),
    ("settings_damaged", "7107", "300", 200),
    ("lowest", "7108", "300", 200),
    ("worked", "7109", "500", 300),
    ("worked_damaged", "7110", "300", 200),
    ("worked_pairs", "7111", "50", 80),
];

/// The longest lines and the longest packed job that are stored.
const LINE: usize = 2_000;
const LDC_LINE: usize = 12_000;
const HEAVY_LINE: usize = 100_000;
const PACKED: usize = 4_000;

/// How many built jobs, and how many refused ones, are run again with less memory.
const AGAIN: usize = 12;

const LONGEST_JOB: usize = 1_048_576;

/// The longest job that the program has room to unpack, and the longest that it has work for.
const ROOM: usize = 1_114_112;
const LONGEST_RUN: usize = 200_000;

const NO_PLACE: usize = 0xffff;

fn main() -> Result<(), Trouble> {
    let words: Vec<String> = std::env::args().skip(1).collect();
    let [generate, driver, model, folder] = &words[..] else {
        return Err("usage: make GENERATE DRIVER MODEL FOLDER".into());
    };
    let answered = |jobs| answered(driver, model, jobs);
    let mut store = Store::default();
    for (kind, seed, count, most) in SEEDED {
        let jobs = frames(&output(generate, &[kind, seed, count], &[])?)?;
        let line = if *kind == "ldcfull" { LDC_LINE } else { LINE };
        store.add(answered(jobs)?, line, *most);
    }
    store.add(
        answered(frames(&output(generate, &["heavy"], &[])?)?)?,
        HEAVY_LINE,
        82,
    );
    store.add(answered(own_jobs())?, LINE, 4);
    store.add_lent()?;
    store.tell();
    fs::write(format!("{folder}/stdin"), &store.jobs)?;
    fs::write(format!("{folder}/stdout"), &store.lines)?;
    Ok(())
}

/// Jobs that are too long, of other lengths than the heavy ones, and one with an empty text too many.
fn own_jobs() -> Vec<Vec<u8>> {
    const END: [u8; 6] = [0x50, 0x60, 2, 0, 0, 0];
    let mut built = [&[3, 0, 0, 0, 1], &END[..]].concat();
    built.resize(LONGEST_JOB + 2, 0);
    let full = [[1, 0, 0].repeat(65_537), END.to_vec()].concat();
    vec![vec![0; ROOM], vec![0x50; LONGEST_JOB + 1], built, full]
}

/// A job with what the driver says of it and of its form.
struct Answered {
    job: Vec<u8>,
    line: String,
    form: String,
}

fn answered(driver: &str, model: &str, jobs: Vec<Vec<u8>>) -> Result<Vec<Answered>, Trouble> {
    let stream: Vec<u8> = jobs.iter().flat_map(|job| framed(job)).collect();
    let said = |program: &str, words: &[&str]| -> Result<Vec<String>, Trouble> {
        let text = String::from_utf8(output(program, words, &stream)?)?;
        let lines: Vec<String> = text.lines().map(String::from).collect();
        match lines.len() == jobs.len() {
            true => Ok(lines),
            false => Err(format!("{program} has another number of lines").into()),
        }
    };
    let (lines, forms) = (said(driver, &[])?, said(driver, &["form"])?);
    let models = said(model, &[])?
        .into_iter()
        .zip(said(model, &["in_turn"])?);
    let all = jobs.into_iter().zip(lines).zip(forms).zip(models);
    all.map(|(((job, line), form), model)| Answered { job, line, form }.held_to(model))
        .collect()
}

impl Answered {
    /// With the model's line, which may be another only where the Rust's own changes, or where a record can be one of 47 to 49. Of a
    /// refusal the Rust tells the record in turn.
    fn held_to(self, (model, in_turn): (String, String)) -> Result<Answered, Trouble> {
        let may_set = self.job.iter().any(|byte| (0x47..=0x49).contains(byte));
        if self.line != in_turn && !self.varies() && !may_set {
            return Err(format!("the driver says {}, the model {in_turn}", self.line).into());
        }
        let is_the_models = may_set || self.line == in_turn;
        let line = if is_the_models { model } else { self.line };
        Ok(Answered { line, ..self })
    }

    /// The counts of a well-formed job: definitions, constants, bootstraps, references, names, raw constants, raw bootstraps,
    /// requests.
    fn counts(&self) -> Option<Vec<usize>> {
        let rest = self.form.strip_prefix("formed ")?;
        rest.split(' ').map(|n| n.parse().ok()).collect()
    }

    /// Whether another run of the Rust might give another number: several raw definitions, and a fault at record 50.
    fn varies(&self) -> bool {
        let Some(counts) = self.counts() else {
            return false;
        };
        let at_50 = |code: &str| self.line == format!("refused {code} {}", counts[0]);
        (at_50("12") || at_50("13")) && counts[5] + counts[6] > 1
    }

    fn number_behind(&self, word: &str, skip: usize) -> usize {
        let mut words = self.line.split(' ').skip_while(|w| *w != word);
        words
            .nth(1 + skip)
            .and_then(|n| n.parse().ok())
            .unwrap_or(0)
    }

    fn build_record(&self) -> Result<usize, Trouble> {
        let counts = self.counts().ok_or("a built job is well formed")?;
        Ok(counts[0] + 1 + counts[7])
    }

    /// Whether the program has room to run it, or to see that it is too long.
    fn has_room(&self) -> bool {
        let n = self.job.len();
        n <= LONGEST_RUN || (LONGEST_JOB < n && n <= ROOM)
    }

    /// All memory that the job needs and no more: work, gaps, answers, pool, bootstraps, class name. A job that is too long or
    /// refused needs no outputs, one that is too long needs nothing.
    fn needs(&self) -> [usize; 6] {
        let n = self.job.len();
        if n > LONGEST_JOB {
            return [0; 6];
        }
        let mut lent = [6 * n + 1024, n / 5 + 2, 0, 0, 0, 0];
        if self.line.starts_with("built ") {
            lent[2] = self.number_behind("answers", 0);
            lent[3] = self.number_behind("pool", 0);
            lent[4] = self.number_behind("bootstraps", 1);
            lent[5] = self.number_behind("class", 0);
        }
        lent
    }
}

#[derive(Default)]
struct Store {
    jobs: Vec<u8>,
    lines: String,
    /// Jobs that are run again with less memory.
    again: Vec<Answered>,
    left_out: usize,
}

impl Store {
    fn put(&mut self, packed: &[u8], line: &str) {
        self.jobs.extend(packed);
        self.lines.push_str(line);
        self.lines.push('\n');
    }

    fn add(&mut self, jobs: Vec<Answered>, longest_line: usize, most: usize) {
        let mut stored = 0;
        for answered in jobs {
            let bytes = packed(&answered.job, answered.needs());
            let fits = stored < most
                && answered.line.len() <= longest_line
                && answered.has_room()
                && !answered.varies();
            let Some(bytes) = bytes.filter(|b| fits && b.len() <= PACKED) else {
                self.left_out += 1;
                continue;
            };
            self.put(&bytes, &answered.line);
            stored += 1;
            self.keep_for_less(answered);
        }
    }

    /// The first jobs that are built with something in each output, and the first that are refused.
    fn keep_for_less(&mut self, answered: Answered) {
        let built = answered.line.starts_with("built ");
        let kept = self
            .again
            .iter()
            .filter(|a| a.line.starts_with("built ") == built);
        if kept.count() < AGAIN && (!built || answered.needs().iter().all(|n| *n > 0)) {
            self.again.push(answered);
        }
    }

    /// Each memory one short: 2 at record 0 for work and gaps, whatever else is wrong, and 18 at the build record for an output.
    /// More of each than the job needs changes nothing.
    fn add_lent(&mut self) -> Result<(), Trouble> {
        for answered in std::mem::take(&mut self.again) {
            let needs = answered.needs();
            let again = |lent| packed(&answered.job, lent).ok_or("it was packed before");
            for memory in (0..6).filter(|m| needs[*m] > 0) {
                let mut lent = needs;
                lent[memory] -= 1;
                let line = if memory < 2 {
                    "refused 2 0".to_string()
                } else {
                    format!("refused 18 {}", answered.build_record()?)
                };
                self.put(&again(lent)?, &line);
            }
            self.put(&again(needs.map(|n| n + 7))?, &answered.line);
        }
        Ok(())
    }

    fn tell(&self) {
        let count = |code: String| {
            let start = format!("refused {code} ");
            self.lines.lines().filter(|l| l.starts_with(&start)).count()
        };
        let built = self
            .lines
            .lines()
            .filter(|l| l.starts_with("built "))
            .count();
        let (all, out) = (self.lines.lines().count(), self.left_out);
        println!("{all} jobs stored, {out} left out; built {built}");
        for code in (1..=18).chain(22..=26) {
            println!("refused {code}: {}", count(code.to_string()));
        }
        println!(
            "stdin {} bytes, stdout {} bytes",
            self.jobs.len(),
            self.lines.len()
        );
    }
}

struct Part {
    times: usize,
    places: [usize; 2],
    step: usize,
    pattern: Vec<u8>,
}

fn number_at(s: &[u8], at: usize) -> usize {
    usize::from(s[at]) * 256 + usize::from(s[at + 1])
}

impl Part {
    fn once(pattern: &[u8]) -> Part {
        Part {
            times: 1,
            places: [NO_PLACE; 2],
            step: 0,
            pattern: pattern.to_vec(),
        }
    }

    fn expand(&self, job: &mut Vec<u8>) {
        for i in 0..self.times {
            let start = job.len();
            job.extend_from_slice(&self.pattern);
            for place in self.places.into_iter().filter(|p| *p != NO_PLACE) {
                let n = number_at(&self.pattern, place) + i * self.step;
                job[start + place] = (n >> 8) as u8;
                job[start + place + 1] = n as u8;
            }
        }
    }

    /// The longest run that begins with this pattern, if its next copy has at most two numbers that grew by one step.
    fn run(rest: &[u8], size: usize) -> Option<Part> {
        let (pattern, next) = (rest.get(..size)?, rest.get(size..2 * size)?);
        let mut part = Part::once(pattern);
        let mut found = 0;
        let mut at = 0;
        while at < size {
            if pattern[at] == next[at] {
                at += 1;
                continue;
            }
            // A number whose low byte differs first is told by that byte.
            let place = if found < 2 && at > 0 {
                at - 1
            } else {
                return None;
            };
            let grown = (number_at(next, place) + 65_536 - number_at(pattern, place)) % 65_536;
            let far = (256..=65_280).contains(&grown);
            if far || (found == 1 && grown != part.step) {
                return None;
            }
            part.step = grown;
            part.places[found] = place;
            found += 1;
            at += 1;
        }
        part.times = 2;
        while part.stands_at(rest, part.times) {
            part.times += 1;
        }
        Some(part)
    }

    /// Whether this is also the pattern's copy of that number.
    fn stands_at(&self, rest: &[u8], i: usize) -> bool {
        let size = self.pattern.len();
        let Some(copy) = rest.get(i * size..(i + 1) * size) else {
            return false;
        };
        let mut grown = self.pattern.clone();
        for place in self.places.into_iter().filter(|p| *p != NO_PLACE) {
            let n = number_at(&self.pattern, place) + i * self.step;
            grown[place] = (n >> 8) as u8;
            grown[place + 1] = n as u8;
        }
        copy == grown
    }

    fn bytes(&self) -> Vec<u8> {
        let mut out = (self.times as u32).to_be_bytes().to_vec();
        for n in [
            self.pattern.len(),
            self.places[0],
            self.places[1],
            self.step,
        ] {
            out.extend((n as u16).to_be_bytes());
        }
        out.extend(&self.pattern);
        out
    }
}

/// Runs that save much, and what stands between them.
fn parts(job: &[u8]) -> Vec<Part> {
    let (mut parts, mut plain, mut at) = (Vec::new(), 0, 0);
    while at < job.len() {
        let runs = (1..=24).filter_map(|size| Part::run(&job[at..], size));
        let best = runs.max_by_key(|run| run.times * run.pattern.len());
        let saves = |run: &Part| (run.times - 1) * run.pattern.len() > 64;
        match best.filter(saves) {
            Some(run) => {
                if plain < at {
                    parts.push(Part::once(&job[plain..at]));
                }
                at += run.times * run.pattern.len();
                plain = at;
                parts.push(run);
            }
            None => at += 1,
        }
        if at - plain == 65_535 {
            parts.push(Part::once(&job[plain..at]));
            plain = at;
        }
    }
    if plain < at {
        parts.push(Part::once(&job[plain..]));
    }
    parts
}

/// A job as crates/replay/src/main.rt reads it, if it has few parts.
fn packed(job: &[u8], lent: [usize; 6]) -> Option<Vec<u8>> {
    let parts = parts(job);
    let mut whole = Vec::new();
    parts.iter().for_each(|part| part.expand(&mut whole));
    assert!(whole == job, "a packed job must unpack to itself");
    let mut out = vec![u8::try_from(parts.len()).ok()?];
    lent.iter()
        .for_each(|n| out.extend((*n as u32).to_be_bytes()));
    parts.iter().for_each(|part| out.extend(part.bytes()));
    Some(out)
}

fn framed(job: &[u8]) -> Vec<u8> {
    let mut out = (job.len() as u32).to_be_bytes().to_vec();
    out.extend(job);
    out
}

fn frames(stream: &[u8]) -> Result<Vec<Vec<u8>>, Trouble> {
    let (mut jobs, mut rest) = (Vec::new(), stream);
    while let Some((head, behind)) = rest.split_first_chunk::<4>() {
        let size = u32::from_be_bytes(*head) as usize;
        jobs.push(behind.get(..size).ok_or("a cut frame")?.to_vec());
        rest = &behind[size..];
    }
    Ok(jobs)
}

/// What a program writes when it reads this.
fn output(program: &str, words: &[&str], input: &[u8]) -> Result<Vec<u8>, Trouble> {
    let mut child = Command::new(program)
        .args(words)
        .stdin(Stdio::piped())
        .stdout(Stdio::piped())
        .spawn()?;
    let mut pipe = child.stdin.take().ok_or("no pipe")?;
    let input = input.to_vec();
    let feeder = thread::spawn(move || pipe.write_all(&input));
    let out = child.wait_with_output()?;
    feeder.join().map_err(|_| "the pipe's end")??;
    if !out.status.success() {
        return Err(format!("{program} failed").into());
    }
    Ok(out.stdout)
}

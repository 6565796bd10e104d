//! The form pass: 1, then over the whole job 3, 5, 25, 4, 22 and 23 within each record, and 26 behind 3.

mod read;

use crate::job::{ClassSlot, Entry, Kind, Record, Reference, TEXT};
use crate::refusal::{BAD_HIGHEST_SLOT, BAD_TEXT, FORM, NOT_THERE, Refusal, TABLE_FULL, TOO_LONG};
use crate::settings::is_highest_slot;
use crate::text::is_text;
use read::Reader;

/// "A job is at most 1,048,576 bytes."
const LONGEST_JOB: usize = 1_048_576;

/// "Constant table and bootstrap table take 65,536 entries each."
const TABLE_ENTRIES: usize = 65_536;

/// The records of a well-formed job, or its first fault.
pub fn records(job: &[u8]) -> Result<Vec<Record<'_>>, Refusal> {
    if job.len() > LONGEST_JOB {
        return Err(Refusal::at(TOO_LONG, 0));
    }
    let (records, fault) = up_to_a_fault(job);
    // Record 48 may follow the text, "but one behind the job's first other form fault doesn't count".
    let held = records.contains(&Record::HoldTexts);
    if let Some(place) = records.iter().position(is_bad_text).filter(|_| held) {
        return Err(Refusal::at(BAD_TEXT, place));
    }
    fault.map_or(Ok(records), Err)
}

/// The records ahead of the first fault other than 25, and that fault.
fn up_to_a_fault(job: &[u8]) -> (Vec<Record<'_>>, Option<Refusal>) {
    let mut reader = Reader::new(job);
    let mut seen = Seen::new();
    let mut records = vec![];
    while seen.part != Part::Over || !reader.is_at_end() {
        match seen.next(&mut reader) {
            Ok(record) => records.push(record),
            Err(code) => {
                // For a missing record or bytes after 60, this is the number the next record would have.
                let place = records.len();
                return (records, Some(Refusal::at(code, place)));
            }
        }
    }
    (records, None)
}

fn is_bad_text(record: &Record) -> bool {
    matches!(record, Record::Entry(Entry { tag: TEXT, literal, .. }) if !is_text(literal))
}

/// "Definitions stand before 50, requests between 50 and 60, nothing after 60."
#[derive(Clone, Copy, PartialEq, Eq)]
enum Part {
    Definitions,
    Requests,
    Over,
}

/// What the records so far hold.
struct Seen {
    part: Part,
    records: usize,
    version: bool,
    hold_texts: bool,
    constants: usize,
    bootstraps: usize,
    requests: usize,
}

impl Seen {
    fn new() -> Self {
        Seen {
            part: Part::Definitions,
            records: 0,
            version: false,
            hold_texts: false,
            constants: 0,
            bootstraps: 0,
            requests: 0,
        }
    }

    fn next<'a>(&mut self, reader: &mut Reader<'a>) -> Result<Record<'a>, u8> {
        let record = reader.record().filter(|record| self.is_in_place(record));
        let record = record.ok_or(FORM)?;
        if matches!(record, Record::HighestSlot(highest) if !is_highest_slot(highest)) {
            return Err(BAD_HIGHEST_SLOT);
        }
        if !self.has_room(&record) {
            return Err(TABLE_FULL);
        }
        if !self.has_cited(&record) {
            return Err(NOT_THERE);
        }
        if let Record::BadExpression(code) = record {
            return Err(code);
        }
        self.add(&record);
        Ok(record)
    }

    fn is_in_place(&self, record: &Record) -> bool {
        let part = match record {
            Record::Ask { .. } | Record::Build { .. } => Part::Requests,
            _ => Part::Definitions,
        };
        self.part == part && self.may_come_now(record)
    }

    /// 47 and 48 come "at most once", 49 "at most once, as the first record".
    fn may_come_now(&self, record: &Record) -> bool {
        match record {
            Record::Version(_) => !self.version,
            Record::HoldTexts => !self.hold_texts,
            Record::HighestSlot(_) => self.records == 0,
            _ => true,
        }
    }

    fn entries(&self, kind: Kind) -> usize {
        match kind {
            Kind::Constant => self.constants,
            Kind::Bootstrap => self.bootstraps,
        }
    }

    fn has_room(&self, record: &Record) -> bool {
        match record {
            Record::Entry(entry) => self.entries(entry.kind()) < TABLE_ENTRIES,
            Record::BadExpression(_) => self.constants < TABLE_ENTRIES,
            _ => true,
        }
    }

    /// "Every record may cite only earlier entries by number", and the build only an earlier request.
    fn has_cited(&self, record: &Record) -> bool {
        if let Record::Build {
            class: ClassSlot::Request(request),
            ..
        } = record
        {
            return usize::from(*request) < self.requests;
        }
        let mut citations = record.citations().into_iter();
        citations.all(|citation| match citation.reference {
            Reference::Entry(number) => usize::from(number) < self.entries(citation.kind),
            Reference::Raw(_) | Reference::Name(_) => true,
        })
    }

    fn add(&mut self, record: &Record) {
        self.records += 1;
        match record {
            Record::Version(_) => self.version = true,
            Record::HoldTexts => self.hold_texts = true,
            Record::Entry(entry) => match entry.kind() {
                Kind::Constant => self.constants += 1,
                Kind::Bootstrap => self.bootstraps += 1,
            },
            Record::EndOfDefinitions => self.part = Part::Requests,
            Record::Ask { .. } => self.requests += 1,
            Record::Build { .. } => self.part = Part::Over,
            Record::HighestSlot(_) | Record::Name(..) | Record::Raw { .. } => {}
            Record::BadExpression(_) => unreachable!("its number is told first"),
        }
    }
}

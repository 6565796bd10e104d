//! The form pass of document 01 ("A job"), with record 46 of document 02: bytes to records, or refusal 1, 3, 5, 4, 22 or 23. A record 46
//! becomes the plain constant that it is worked out to.

use crate::expression;
use jobs::record::{ClassSlot, Constant, Record, Reference};

const LONGEST_JOB: usize = 1_048_576;
const TABLE_ENTRIES: usize = 65_536;

const TOO_LONG: u8 = 1;
const BAD_FORM: u8 = 3;
const NOT_THERE: u8 = 4;
const TABLE_FULL: u8 = 5;

#[derive(Clone, Copy, Debug, PartialEq, Eq)]
pub struct Fault {
    pub code: u8,
    pub place: usize,
}

/// The records of a well-formed job. The first faulty record decides the fault; 47 to 49 are kinds that document 01 doesn't know.
pub fn decode(job: &[u8]) -> Result<Vec<Record>, Fault> {
    let (records, fault) = decode_with_settings(job);
    match records.iter().position(Record::is_setting) {
        Some(place) => Err(Fault {
            code: BAD_FORM,
            place,
        }),
        None => fault.map_or(Ok(records), Err),
    }
}

/// The records ahead of the first fault, and that fault, where records 47 to 49 may stand anywhere among the definitions.
pub fn decode_with_settings(job: &[u8]) -> (Vec<Record>, Option<Fault>) {
    if job.len() > LONGEST_JOB {
        let (code, place) = (TOO_LONG, 0);
        return (vec![], Some(Fault { code, place }));
    }
    let mut reader = Reader { rest: job };
    let mut seen = Seen::default();
    let mut records = Vec::new();
    while seen.phase != Phase::Finished || !reader.rest.is_empty() {
        match seen.next(&mut reader) {
            Ok(record) => records.push(record),
            Err(code) => {
                let place = records.len();
                return (records, Some(Fault { code, place }));
            }
        }
    }
    (records, None)
}

/// What the form pass says of a job: its refusal, or how many there are of definitions, constants, bootstraps, references
/// in both, names, raw constants, raw bootstraps and requests.
pub fn line(job: &[u8]) -> String {
    let records = match decode(job) {
        Ok(records) => records,
        Err(Fault { code, place }) => return format!("refused {code} {place}"),
    };
    let count = |is: fn(&Record) -> bool| records.iter().filter(|record| is(record)).count();
    let requests = count(|r| matches!(r, Record::Ask(_) | Record::AskLdc(_)));
    let numbers = [
        records.len() - requests - 2,
        count(|r| matches!(r, Record::Constant(_))),
        count(|r| matches!(r, Record::Bootstrap { .. })),
        records.iter().map(references).sum(),
        count(|r| matches!(r, Record::NameConstant(..) | Record::NameBootstrap(..))),
        count(|r| matches!(r, Record::RawConstant { .. })),
        count(|r| matches!(r, Record::RawBootstrap { .. })),
        requests,
    ];
    let texts: Vec<String> = numbers.iter().map(usize::to_string).collect();
    format!("formed {}", texts.join(" "))
}

fn references(record: &Record) -> usize {
    match record {
        Record::Constant(c) => c.references.len(),
        Record::Bootstrap { arguments, .. } => 1 + arguments.len(),
        _ => 0,
    }
}

/// Reads fields from the front; `None` means cut or an unknown byte.
struct Reader<'a> {
    rest: &'a [u8],
}

impl Reader<'_> {
    fn bytes(&mut self, count: usize) -> Option<Vec<u8>> {
        let (front, rest) = self.rest.split_at_checked(count)?;
        self.rest = rest;
        Some(front.to_vec())
    }

    fn byte(&mut self) -> Option<u8> {
        let (&front, rest) = self.rest.split_first()?;
        self.rest = rest;
        Some(front)
    }

    fn number(&mut self) -> Option<u16> {
        Some(u16::from_be_bytes([self.byte()?, self.byte()?]))
    }

    fn name(&mut self) -> Option<Vec<u8>> {
        let length = self.byte()?;
        self.bytes(length.into())
    }

    fn reference(&mut self) -> Option<Reference> {
        match self.byte()? {
            0 => Some(Reference::Raw(self.number()?)),
            1 => Some(Reference::Entry(self.number()?)),
            2 => Some(Reference::Name(self.name()?)),
            _ => None,
        }
    }

    fn references(&mut self, count: usize) -> Option<Vec<Reference>> {
        (0..count).map(|_| self.reference()).collect()
    }

    fn record(&mut self) -> Option<Record> {
        match self.byte()? {
            tag @ (1 | 3..=12 | 15..=20) => self.constant(tag),
            0x40 => self.bootstrap(),
            0x41 => Some(Record::NameConstant(self.name()?, self.reference()?)),
            0x42 => Some(Record::NameBootstrap(self.name()?, self.reference()?)),
            0x43 => Some(Record::RawConstant {
                slot: self.number()?,
                entry: self.number()?,
            }),
            0x44 => Some(Record::RawBootstrap {
                index: self.number()?,
                entry: self.number()?,
            }),
            0x46 => {
                let length = expression::length(self.rest)?;
                Some(Record::Expression(self.bytes(length)?))
            }
            0x47 => Some(Record::Version(self.number()?)),
            0x48 => Some(Record::HoldTexts),
            0x49 => Some(Record::HighestSlot(self.number()?)),
            0x50 => Some(Record::EndOfDefinitions),
            0x51 => Some(Record::Ask(self.reference()?)),
            0x52 => Some(Record::AskLdc(self.reference()?)),
            0x60 => self.build(),
            _ => None,
        }
    }

    /// The fields in the order of `FlatConst`: a literal or a kind byte, then references.
    fn constant(&mut self, tag: u8) -> Option<Record> {
        let (literal_length, reference_count) = match tag {
            1 => (self.number()?.into(), 0),
            3 | 4 => (4, 0),
            5 | 6 => (8, 0),
            7 | 8 | 16 | 19 | 20 => (0, 1),
            15 => (1, 1),
            _ => (0, 2),
        };
        Some(Record::Constant(Constant {
            tag,
            literal: self.bytes(literal_length)?,
            references: self.references(reference_count)?,
        }))
    }

    fn bootstrap(&mut self) -> Option<Record> {
        let handle = self.reference()?;
        let count = self.number()?;
        let arguments = self.references(count.into())?;
        Some(Record::Bootstrap { handle, arguments })
    }

    fn build(&mut self) -> Option<Record> {
        let name = self.byte().filter(|name| *name <= 2)?;
        let class = match self.byte()? {
            0 => ClassSlot::Slot(self.number()?),
            1 => ClassSlot::Request(self.number()?),
            _ => return None,
        };
        Some(Record::Build { name, class })
    }
}

#[derive(Clone, Copy, Default, PartialEq, Eq)]
enum Phase {
    #[default]
    Definitions,
    Requests,
    Finished,
}

/// What the records so far leave to cite, and what may come next.
#[derive(Default)]
struct Seen {
    phase: Phase,
    constants: usize,
    bootstraps: usize,
    requests: usize,
}

impl Seen {
    /// The next record, if it may stand here. A cut record, an unknown byte and a missing record are all `None` to the reader.
    fn next(&mut self, reader: &mut Reader) -> Result<Record, u8> {
        let record = reader.record().ok_or(BAD_FORM)?;
        self.check(&record)?;
        self.add(&record);
        match record {
            Record::Expression(bytes) => expression::worked_out(&bytes).map(Record::Constant),
            record => Ok(record),
        }
    }

    /// 3, then 5, then 4: the order within a record, ahead of 22 and 23.
    fn check(&self, record: &Record) -> Result<(), u8> {
        if place_of(record) != self.phase {
            Err(BAD_FORM)
        } else if self.table_is_full(record) {
            Err(TABLE_FULL)
        } else if !self.has_all_cited(record) {
            Err(NOT_THERE)
        } else {
            Ok(())
        }
    }

    fn table_is_full(&self, record: &Record) -> bool {
        match record {
            Record::Constant(_) | Record::Expression(_) => self.constants >= TABLE_ENTRIES,
            Record::Bootstrap { .. } => self.bootstraps >= TABLE_ENTRIES,
            _ => false,
        }
    }

    fn has_all_cited(&self, record: &Record) -> bool {
        match record {
            Record::Constant(c) => match &c.references[..] {
                [first, second] if matches!(c.tag, 17 | 18) => {
                    self.has_bootstrap(first) && self.has_constant(second)
                }
                references => references.iter().all(|r| self.has_constant(r)),
            },
            Record::Bootstrap { handle, arguments } => {
                self.has_constant(handle) && arguments.iter().all(|r| self.has_constant(r))
            }
            Record::NameConstant(_, to) | Record::Ask(to) | Record::AskLdc(to) => {
                self.has_constant(to)
            }
            Record::NameBootstrap(_, to) => self.has_bootstrap(to),
            Record::RawConstant { entry, .. } => usize::from(*entry) < self.constants,
            Record::RawBootstrap { entry, .. } => usize::from(*entry) < self.bootstraps,
            Record::Build { class, .. } => match class {
                ClassSlot::Slot(_) => true,
                ClassSlot::Request(request) => usize::from(*request) < self.requests,
            },
            _ => true,
        }
    }

    fn has_constant(&self, reference: &Reference) -> bool {
        is_there(reference, self.constants)
    }

    fn has_bootstrap(&self, reference: &Reference) -> bool {
        is_there(reference, self.bootstraps)
    }

    fn add(&mut self, record: &Record) {
        match record {
            Record::Constant(_) | Record::Expression(_) => self.constants += 1,
            Record::Bootstrap { .. } => self.bootstraps += 1,
            Record::Ask(_) | Record::AskLdc(_) => self.requests += 1,
            Record::EndOfDefinitions => self.phase = Phase::Requests,
            Record::Build { .. } => self.phase = Phase::Finished,
            _ => {}
        }
    }
}

/// Raw slots and names need not be there: only an entry number can be missing.
fn is_there(reference: &Reference, entries: usize) -> bool {
    match reference {
        Reference::Entry(number) => usize::from(*number) < entries,
        Reference::Raw(_) | Reference::Name(_) => true,
    }
}

/// Requests and the build stand behind 50, everything else (50 too) before it.
fn place_of(record: &Record) -> Phase {
    match record {
        Record::Ask(_) | Record::AskLdc(_) | Record::Build { .. } => Phase::Requests,
        _ => Phase::Definitions,
    }
}

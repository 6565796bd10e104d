//! Rules of a well-formed job, read off its records without the generators' help.

use jobs::record::{ClassSlot, Record, Reference};

#[derive(Default)]
struct Seen {
    constants: usize,
    bootstraps: usize,
    requests: usize,
    ended: bool,
    built: bool,
}

/// Whether every record is in place and cites only what stands before it.
pub fn well_formed(records: &[Record]) -> bool {
    let mut seen = Seen::default();
    records.iter().all(|record| seen.accepts(record)) && seen.built
}

impl Seen {
    fn accepts(&mut self, record: &Record) -> bool {
        let in_place = match record {
            Record::Ask(_) | Record::AskLdc(_) | Record::Build { .. } => self.ended && !self.built,
            _ => !self.ended,
        };
        let cites = self.cites_only_earlier(record);
        self.count(record);
        in_place && cites && self.constants <= 65_536 && self.bootstraps <= 65_536
    }

    fn constant(&self, r: &Reference) -> bool {
        !matches!(r, Reference::Entry(n) if *n as usize >= self.constants)
    }

    fn bootstrap(&self, r: &Reference) -> bool {
        !matches!(r, Reference::Entry(n) if *n as usize >= self.bootstraps)
    }

    fn cites_only_earlier(&self, record: &Record) -> bool {
        match record {
            Record::Constant(c) if matches!(c.tag, 17 | 18) => {
                self.bootstrap(&c.references[0]) && self.constant(&c.references[1])
            }
            Record::Constant(c) => c.references.iter().all(|r| self.constant(r)),
            Record::Bootstrap { handle, arguments } => {
                self.constant(handle) && arguments.iter().all(|r| self.constant(r))
            }
            Record::NameConstant(_, r) | Record::Ask(r) | Record::AskLdc(r) => self.constant(r),
            Record::NameBootstrap(_, r) => self.bootstrap(r),
            Record::RawConstant { entry, .. } => self.constant(&Reference::Entry(*entry)),
            Record::RawBootstrap { entry, .. } => self.bootstrap(&Reference::Entry(*entry)),
            Record::Build { name, class } => {
                *name <= 2
                    && !matches!(class, ClassSlot::Request(n) if *n as usize >= self.requests)
            }
            _ => true,
        }
    }

    fn count(&mut self, record: &Record) {
        match record {
            Record::Constant(_) | Record::Expression(_) => self.constants += 1,
            Record::Bootstrap { .. } => self.bootstraps += 1,
            Record::Ask(_) | Record::AskLdc(_) => self.requests += 1,
            Record::EndOfDefinitions => self.ended = true,
            Record::Build { .. } => self.built = true,
            _ => {}
        }
    }
}

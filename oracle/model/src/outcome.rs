//! What a job comes to, and its line.

use crate::refusal::Refusal;
use std::fmt::{self, Display, Formatter};

#[derive(Clone, Debug, PartialEq, Eq)]
pub enum Outcome {
    Built(Built),
    Refused(Refusal),
}

/// How an answer was come by (document 02, No. 6).
#[derive(Clone, Copy, Debug, PartialEq, Eq)]
pub enum Mark {
    /// The answer to a raw reference, or to a name that leads to one.
    Raw,
    /// A fresh slot.
    New,
    /// A slot given earlier.
    Old,
}

#[derive(Clone, Debug, PartialEq, Eq)]
pub struct Built {
    pub answers: Vec<(u16, Mark)>,
    pub pool: Vec<u8>,
    pub bootstrap_count: usize,
    pub bootstraps: Vec<u8>,
    /// 0 means none.
    pub name_slot: u16,
    pub class_name: Option<Vec<u8>>,
    pub visits: u64,
}

impl Outcome {
    /// The same with the record in turn as a refusal's place: what document 01 has without No. 9 (document 02).
    pub fn in_turn(self) -> Self {
        match self {
            Outcome::Refused(Refusal {
                code,
                place,
                building,
            }) => Outcome::Refused(Refusal::at(code, building.unwrap_or(place))),
            built => built,
        }
    }
}

impl Display for Outcome {
    fn fmt(&self, f: &mut Formatter<'_>) -> fmt::Result {
        match self {
            Outcome::Built(built) => built.fmt(f),
            Outcome::Refused(Refusal { code, place, .. }) => write!(f, "refused {code} {place}"),
        }
    }
}

impl Display for Built {
    fn fmt(&self, f: &mut Formatter<'_>) -> fmt::Result {
        write!(f, "built answers {}", self.answers.len())?;
        for (slot, mark) in &self.answers {
            write!(f, " {slot} {mark}")?;
        }
        write!(f, " pool {}", Bytes(&self.pool))?;
        let bootstraps = Bytes(&self.bootstraps);
        write!(f, " bootstraps {} {bootstraps}", self.bootstrap_count)?;
        write!(f, " name {}", self.name_slot)?;
        match &self.class_name {
            Some(name) => write!(f, " class {}", Bytes(name))?,
            None => write!(f, " class none")?,
        }
        write!(f, " visits {}", self.visits)
    }
}

impl Display for Mark {
    fn fmt(&self, f: &mut Formatter<'_>) -> fmt::Result {
        f.write_str(match self {
            Mark::Raw => "raw",
            Mark::New => "new",
            Mark::Old => "old",
        })
    }
}

/// A length and hex, with `-` for no bytes.
struct Bytes<'a>(&'a [u8]);

impl Display for Bytes<'_> {
    fn fmt(&self, f: &mut Formatter<'_>) -> fmt::Result {
        match self.0 {
            [] => f.write_str("0 -"),
            bytes => {
                write!(f, "{} ", bytes.len())?;
                bytes.iter().try_for_each(|byte| write!(f, "{byte:02x}"))
            }
        }
    }
}

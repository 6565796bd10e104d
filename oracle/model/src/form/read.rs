//! Reads records from bytes. None stands for refusal 3, for an unknown kind or form byte, or a cut record.

use crate::expression::{self, Read};
use crate::job::{
    BOOTSTRAP, Citation, ClassSlot, DOUBLE, Entry, FLOAT, INT, Kind, LONG, NameWish, Record,
    Reference, TEXT,
};

pub struct Reader<'a> {
    rest: &'a [u8],
}

impl<'a> Reader<'a> {
    pub fn new(job: &'a [u8]) -> Self {
        Reader { rest: job }
    }

    pub fn is_at_end(&self) -> bool {
        self.rest.is_empty()
    }

    pub fn record(&mut self) -> Option<Record<'a>> {
        Some(match self.byte()? {
            BOOTSTRAP => Record::Entry(self.bootstrap()?),
            0x41 => self.name(Kind::Constant)?,
            0x42 => self.name(Kind::Bootstrap)?,
            0x43 => self.raw(Kind::Constant)?,
            0x44 => self.raw(Kind::Bootstrap)?,
            0x46 => self.expression()?,
            0x47 => Record::Version(self.number()?),
            0x48 => Record::HoldTexts,
            0x49 => Record::HighestSlot(self.number()?),
            0x50 => Record::EndOfDefinitions,
            0x51 => self.ask(false)?,
            0x52 => self.ask(true)?,
            0x60 => self.build()?,
            tag => Record::Entry(self.constant(tag)?),
        })
    }

    /// A constant's fields, in the order in which JVMS 4.4 has them too.
    fn constant(&mut self, tag: u8) -> Option<Entry<'a>> {
        let literal = match tag {
            TEXT => {
                let length = self.number()?;
                self.take(length.into())?
            }
            INT | FLOAT => self.take(4)?,
            LONG | DOUBLE => self.take(8)?,
            15 => self.take(1)?,
            _ => &[],
        };
        let kinds: &[Kind] = match tag {
            TEXT | INT | FLOAT | LONG | DOUBLE => &[],
            7 | 8 | 15 | 16 | 19 | 20 => &[Kind::Constant],
            9..=12 => &[Kind::Constant, Kind::Constant],
            17 | 18 => &[Kind::Bootstrap, Kind::Constant],
            _ => return None,
        };
        let children = kinds.iter().map(|kind| self.citation(*kind));
        Some(Entry {
            tag,
            literal: literal.into(),
            children: children.collect::<Option<_>>()?,
        })
    }

    fn expression(&mut self) -> Option<Record<'a>> {
        let (read, rest) = expression::read(self.rest)?;
        self.rest = rest;
        Some(match read {
            Read::Refused(code) => Record::BadExpression(code),
            Read::Worked(tag, bits) => Record::Entry(Entry {
                tag,
                literal: bits.into(),
                children: vec![],
            }),
        })
    }

    /// "Handle reference, two-byte count, that many constant references."
    fn bootstrap(&mut self) -> Option<Entry<'a>> {
        let mut children = vec![self.citation(Kind::Constant)?];
        for _ in 0..self.number()? {
            children.push(self.citation(Kind::Constant)?);
        }
        Some(Entry {
            tag: BOOTSTRAP,
            literal: (&[]).into(),
            children,
        })
    }

    fn name(&mut self, kind: Kind) -> Option<Record<'a>> {
        Some(Record::Name(self.short_text()?, self.citation(kind)?))
    }

    fn raw(&mut self, kind: Kind) -> Option<Record<'a>> {
        Some(Record::Raw {
            kind,
            at: self.number()?,
            entry: self.number()?,
        })
    }

    fn ask(&mut self, ldc: bool) -> Option<Record<'a>> {
        let citation = self.citation(Kind::Constant)?;
        Some(Record::Ask { citation, ldc })
    }

    fn build(&mut self) -> Option<Record<'a>> {
        let name = match self.byte()? {
            0 => NameWish::Always,
            1 => NameWish::IfPresent,
            2 => NameWish::Never,
            _ => return None,
        };
        let class = match self.byte()? {
            0 => ClassSlot::Slot(self.number()?),
            1 => ClassSlot::Request(self.number()?),
            _ => return None,
        };
        Some(Record::Build { name, class })
    }

    fn citation(&mut self, kind: Kind) -> Option<Citation<'a>> {
        let reference = match self.byte()? {
            0 => Reference::Raw(self.number()?),
            1 => Reference::Entry(self.number()?),
            2 => Reference::Name(self.short_text()?),
            _ => return None,
        };
        Some(Citation { kind, reference })
    }

    /// One-byte length, name.
    fn short_text(&mut self) -> Option<&'a [u8]> {
        let length = self.byte()?;
        self.take(length.into())
    }

    fn byte(&mut self) -> Option<u8> {
        Some(self.take(1)?[0])
    }

    /// "Slot and number take two bytes", and "numbers are big-endian".
    fn number(&mut self) -> Option<u16> {
        let bytes = self.take(2)?;
        Some(u16::from_be_bytes([bytes[0], bytes[1]]))
    }

    fn take(&mut self, count: usize) -> Option<&'a [u8]> {
        let (taken, rest) = self.rest.split_at_checked(count)?;
        self.rest = rest;
        Some(taken)
    }
}

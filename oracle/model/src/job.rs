//! A job (document 01, "A job"): a row of records numbered from 0, those of document 02 (46 to 49) among them.

use std::borrow::Cow;

/// Constants and bootstraps are numbered, and named, apart.
#[derive(Clone, Copy, Debug, PartialEq, Eq, Hash)]
pub enum Kind {
    Constant,
    Bootstrap,
}

pub const TEXT: u8 = 1;
pub const INT: u8 = 3;
pub const FLOAT: u8 = 4;
pub const LONG: u8 = 5;
pub const DOUBLE: u8 = 6;
pub const CLASS: u8 = 7;

/// A bootstrap's record kind, which stands where a constant has its JVMS tag.
pub const BOOTSTRAP: u8 = 0x40;

/// A raw slot, an entry number or a name.
#[derive(Clone, Copy, Debug, PartialEq, Eq)]
pub enum Reference<'a> {
    Raw(u16),
    Entry(u16),
    Name(&'a [u8]),
}

/// A reference, and whether it is to a constant or to a bootstrap.
#[derive(Clone, Copy, Debug, PartialEq, Eq)]
pub struct Citation<'a> {
    pub kind: Kind,
    pub reference: Reference<'a>,
}

/// A constant or a bootstrap. The literal is a text's bytes, a number's bits, read or worked
/// out, or tag 15's kind byte.
#[derive(Clone, Debug, PartialEq, Eq)]
pub struct Entry<'a> {
    pub tag: u8,
    pub literal: Cow<'a, [u8]>,
    pub children: Vec<Citation<'a>>,
}

impl Entry<'_> {
    pub fn kind(&self) -> Kind {
        match self.tag {
            BOOTSTRAP => Kind::Bootstrap,
            _ => Kind::Constant,
        }
    }
}

/// Long and Double are wide: they take two slots.
pub fn is_wide(tag: u8) -> bool {
    tag == LONG || tag == DOUBLE
}

/// Whether the name "BootstrapMethods" is wanted.
#[derive(Clone, Copy, Debug, PartialEq, Eq)]
pub enum NameWish {
    Always,
    IfPresent,
    Never,
}

#[derive(Clone, Copy, Debug, PartialEq, Eq)]
pub enum ClassSlot {
    Slot(u16),
    Request(u16),
}

#[derive(Clone, Debug, PartialEq, Eq)]
pub enum Record<'a> {
    /// A constant, one given as an expression too (46; document 02, No. 3), or a bootstrap.
    Entry(Entry<'a>),
    /// 46 with an expression that is refused with this number, 22 or 23.
    BadExpression(u8),
    /// 41, 42: the name is for a thing of the citation's kind.
    Name(&'a [u8], Citation<'a>),
    /// 43, 44: a raw constant or bootstrap, at a slot or index.
    Raw {
        kind: Kind,
        at: u16,
        entry: u16,
    },
    /// 47: the class version for which the pool is built (document 02, No. 5).
    Version(u16),
    /// 48: every text is held to JVMS 4.4.7 (No. 8).
    HoldTexts,
    /// 49: the highest slot (No. 10).
    HighestSlot(u16),
    EndOfDefinitions,
    Ask {
        citation: Citation<'a>,
        ldc: bool,
    },
    Build {
        name: NameWish,
        class: ClassSlot,
    },
}

impl<'a> Record<'a> {
    /// All that the record cites of the two tables.
    pub fn citations(&self) -> Vec<Citation<'a>> {
        match self {
            Record::Entry(entry) => entry.children.clone(),
            Record::Name(_, citation) | Record::Ask { citation, .. } => vec![*citation],
            Record::Raw { kind, entry, .. } => vec![Citation {
                kind: *kind,
                reference: Reference::Entry(*entry),
            }],
            Record::BadExpression(_) => vec![],
            Record::Version(_) | Record::HoldTexts | Record::HighestSlot(_) => vec![],
            Record::EndOfDefinitions | Record::Build { .. } => vec![],
        }
    }
}

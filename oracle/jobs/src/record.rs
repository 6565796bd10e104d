//! The records of a job (document 01, "A job", and 46 to 49 of document 02) and their bytes.

/// A reference: byte 0 and a raw slot, 1 and an entry number, or 2 and a name.
#[derive(Clone, Debug, PartialEq, Eq)]
pub enum Reference {
    Raw(u16),
    Entry(u16),
    Name(Vec<u8>),
}

/// A constant: its JVMS tag, its literal and its references in field order.
/// The literal is a text's bytes, a number's four or eight bytes, tag 15's kind byte, or nothing.
#[derive(Clone, Debug, PartialEq, Eq)]
pub struct Constant {
    pub tag: u8,
    pub literal: Vec<u8>,
    pub references: Vec<Reference>,
}

#[derive(Clone, Copy, Debug, PartialEq, Eq)]
pub enum ClassSlot {
    Slot(u16),
    Request(u16),
}

#[derive(Clone, Debug, PartialEq, Eq)]
pub enum Record {
    Constant(Constant),
    Bootstrap {
        handle: Reference,
        arguments: Vec<Reference>,
    },
    NameConstant(Vec<u8>, Reference),
    NameBootstrap(Vec<u8>, Reference),
    RawConstant {
        slot: u16,
        entry: u16,
    },
    RawBootstrap {
        index: u16,
        entry: u16,
    },
    /// 46: a constant given as an expression, whose bytes these are (document 02, No. 3).
    Expression(Vec<u8>),
    /// 47: the class version (No. 5).
    Version(u16),
    /// 48: every text is held to JVMS 4.4.7 (No. 8).
    HoldTexts,
    /// 49: the highest slot (No. 10).
    HighestSlot(u16),
    EndOfDefinitions,
    Ask(Reference),
    AskLdc(Reference),
    Build {
        name: u8,
        class: ClassSlot,
    },
}

impl Reference {
    fn encode(&self, out: &mut Vec<u8>) {
        match self {
            Reference::Raw(slot) => tagged_number(out, 0, *slot),
            Reference::Entry(number) => tagged_number(out, 1, *number),
            Reference::Name(name) => {
                out.push(2);
                short_text(out, name);
            }
        }
    }
}

impl Record {
    /// Whether this is one of the records 47 to 49, which document 01 doesn't have.
    pub fn is_setting(&self) -> bool {
        matches!(
            self,
            Record::Version(_) | Record::HoldTexts | Record::HighestSlot(_)
        )
    }

    /// Appends the record's bytes. Names longer than 255 bytes and texts longer than 65,535 panic.
    pub fn encode(&self, out: &mut Vec<u8>) {
        match self {
            Record::Constant(c) => {
                out.push(c.tag);
                if c.tag == 1 {
                    number(out, c.literal.len().try_into().unwrap());
                }
                out.extend_from_slice(&c.literal);
                c.references.iter().for_each(|r| r.encode(out));
            }
            Record::Bootstrap { handle, arguments } => {
                out.push(0x40);
                handle.encode(out);
                number(out, arguments.len().try_into().unwrap());
                arguments.iter().for_each(|r| r.encode(out));
            }
            Record::NameConstant(name, to) => named(out, 0x41, name, to),
            Record::NameBootstrap(name, to) => named(out, 0x42, name, to),
            Record::RawConstant { slot, entry } => {
                tagged_number(out, 0x43, *slot);
                number(out, *entry);
            }
            Record::RawBootstrap { index, entry } => {
                tagged_number(out, 0x44, *index);
                number(out, *entry);
            }
            Record::Expression(bytes) => {
                out.push(0x46);
                out.extend_from_slice(bytes);
            }
            Record::Version(version) => tagged_number(out, 0x47, *version),
            Record::HoldTexts => out.push(0x48),
            Record::HighestSlot(highest) => tagged_number(out, 0x49, *highest),
            Record::EndOfDefinitions => out.push(0x50),
            Record::Ask(r) => {
                out.push(0x51);
                r.encode(out);
            }
            Record::AskLdc(r) => {
                out.push(0x52);
                r.encode(out);
            }
            Record::Build { name, class } => {
                out.extend_from_slice(&[0x60, *name]);
                match class {
                    ClassSlot::Slot(slot) => tagged_number(out, 0, *slot),
                    ClassSlot::Request(request) => tagged_number(out, 1, *request),
                }
            }
        }
    }
}

/// A job's bytes.
pub fn encode(records: &[Record]) -> Vec<u8> {
    let mut out = Vec::new();
    records.iter().for_each(|r| r.encode(&mut out));
    out
}

fn number(out: &mut Vec<u8>, v: u16) {
    out.extend_from_slice(&v.to_be_bytes());
}

fn tagged_number(out: &mut Vec<u8>, tag: u8, v: u16) {
    out.push(tag);
    number(out, v);
}

fn short_text(out: &mut Vec<u8>, text: &[u8]) {
    out.push(text.len().try_into().unwrap());
    out.extend_from_slice(text);
}

fn named(out: &mut Vec<u8>, kind: u8, name: &[u8], to: &Reference) {
    out.push(kind);
    short_text(out, name);
    to.encode(out);
}

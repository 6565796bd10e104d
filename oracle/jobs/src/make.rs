//! Short ways of writing records.

use crate::record::{ClassSlot, Constant, Record, Reference};

pub const TEXT: u8 = 1;
pub const INT: u8 = 3;
pub const FLOAT: u8 = 4;
pub const LONG: u8 = 5;
pub const DOUBLE: u8 = 6;
pub const CLASS: u8 = 7;
pub const FIELD: u8 = 9;
pub const NAME_AND_TYPE: u8 = 12;
pub const METHOD_HANDLE: u8 = 15;
pub const DYNAMIC: u8 = 17;
pub const INVOKE_DYNAMIC: u8 = 18;

/// Build's first byte: the name always, if bootstraps are present, never.
pub const NAME_ALWAYS: u8 = 0;
pub const NAME_IF_PRESENT: u8 = 1;
pub const NAME_NEVER: u8 = 2;

pub const NAME_TEXT: &[u8] = b"BootstrapMethods";

/// Long and Double take two slots.
pub fn is_wide(tag: u8) -> bool {
    tag == LONG || tag == DOUBLE
}

/// Text and the four kinds of number carry a literal; tag 15's kind byte is none.
pub fn has_literal(tag: u8) -> bool {
    matches!(tag, TEXT | INT | FLOAT | LONG | DOUBLE)
}

pub fn constant(tag: u8, literal: &[u8], references: Vec<Reference>) -> Record {
    Record::Constant(Constant {
        tag,
        literal: literal.to_vec(),
        references,
    })
}

pub fn text(bytes: &[u8]) -> Record {
    constant(TEXT, bytes, vec![])
}

pub fn int(bits: u32) -> Record {
    constant(INT, &bits.to_be_bytes(), vec![])
}

pub fn long(bits: u64) -> Record {
    constant(LONG, &bits.to_be_bytes(), vec![])
}

pub fn class(of: Reference) -> Record {
    constant(CLASS, &[], vec![of])
}

pub fn handle(kind: u8, of: Reference) -> Record {
    constant(METHOD_HANDLE, &[kind], vec![of])
}

pub fn dynamic(bootstrap: Reference, name_and_type: Reference) -> Record {
    constant(DYNAMIC, &[], vec![bootstrap, name_and_type])
}

pub fn bootstrap(handle: Reference, arguments: Vec<Reference>) -> Record {
    Record::Bootstrap { handle, arguments }
}

pub fn raw(slot: u16, entry: u16) -> Record {
    Record::RawConstant { slot, entry }
}

pub fn raw_bootstrap(index: u16, entry: u16) -> Record {
    Record::RawBootstrap { index, entry }
}

pub fn name(name: &[u8], to: Reference) -> Record {
    Record::NameConstant(name.to_vec(), to)
}

pub fn ask(entry: u16) -> Record {
    Record::Ask(Reference::Entry(entry))
}

pub fn ask_ldc(entry: u16) -> Record {
    Record::AskLdc(Reference::Entry(entry))
}

/// Definitions, 50, requests, and a build that looks at class slot 0.
pub fn job(definitions: Vec<Record>, requests: Vec<Record>, name: u8) -> Vec<Record> {
    let mut records = definitions;
    records.push(Record::EndOfDefinitions);
    records.extend(requests);
    records.push(Record::Build {
        name,
        class: ClassSlot::Slot(0),
    });
    records
}

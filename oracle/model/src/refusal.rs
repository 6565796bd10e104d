//! Refusal numbers, in the words of document 01's table and of document 02.

/// A refusal number, which comes with a record number.
#[derive(Clone, Copy, Debug, PartialEq, Eq)]
pub struct Refusal {
    pub code: u8,
    pub place: usize,
    /// The build record, if it was met while building: there the place can be another (document 02, No. 9).
    pub building: Option<usize>,
}

impl Refusal {
    /// "A refusal giving the number of the record in turn."
    pub fn at(code: u8, place: usize) -> Self {
        let building = None;
        Refusal {
            code,
            place,
            building,
        }
    }
}

/// Job too long (record 0).
pub const TOO_LONG: u8 = 1;
/// Unknown kind or form byte, cut record, record out of place, none where one must come, bytes after 60.
pub const FORM: u8 = 3;
/// Entry or request number not there.
pub const NOT_THERE: u8 = 4;
/// Entry past 65,536 in a table.
pub const TABLE_FULL: u8 = 5;
/// Raw constant at 0 or 65535, or a wide one at 65534; "also covers a raw constant, or second half, above" the highest slot.
pub const RAW_OUTSIDE: u8 = 6;
/// Conflicting raw constant.
pub const RAW_CONFLICT: u8 = 7;
/// Duplicate raw constant.
pub const RAW_TWICE: u8 = 8;
/// Raw bootstrap 65535.
pub const RAW_BOOTSTRAP_OUTSIDE: u8 = 9;
/// Duplicate raw bootstrap.
pub const RAW_BOOTSTRAP_TWICE: u8 = 10;
/// Name defined twice for its kind.
pub const NAME_TWICE: u8 = 11;
/// Undefined name reached.
pub const UNDEFINED_NAME: u8 = 12;
/// Circular definition reached.
pub const CIRCULAR: u8 = 13;
/// No slot, ordinary request.
pub const NO_SLOT: u8 = 14;
/// No slot, ldc request.
pub const NO_LDC_SLOT: u8 = 15;
/// Ldc answer above 255.
pub const LDC_ABOVE_255: u8 = 16;
/// An inline bootstrap that shares no index, with all 65,535 indexes used, raw ones included.
pub const NO_INDEX: u8 = 17;
/// An expression of mixed kinds or too deep, or a byte in it that is neither leaf tag nor sign.
pub const BAD_EXPRESSION: u8 = 22;
/// An integer divided by zero.
pub const DIVIDED_BY_ZERO: u8 = 23;
/// A constant of a kind that the class version doesn't have, "met when a constant comes off the building stack, before its children".
pub const TOO_NEW: u8 = 24;
/// A text that JVMS 4.4.7 doesn't allow, in a job with record 48.
pub const BAD_TEXT: u8 = 25;
/// "A highest slot of 0 or 65535, in the form pass."
pub const BAD_HIGHEST_SLOT: u8 = 26;

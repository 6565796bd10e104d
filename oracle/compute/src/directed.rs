//! Jobs in hex for points that generated ones meet too seldom.

use jobs::hex::bytes;

const JOBS: &[&str] = &[
    // The form pass: which fault wins, and at which record.
    "",
    "50",
    "07010000ff",
    "0901000703",
    "50600201000000",
    "506002",
    "50600200000000",
    "5060020000000000",
    "07010000 50 60020000 00",
    // 6 before 7: a Long at 0, where slot 1 is taken.
    "0300000001 050000000000000002 4300010000 4300000001 50 600200 0000",
    // n + 1 before n: a Long at 7, where 7 and 8 are taken.
    "0300000001 050000000000000002 4300070000 4300080000 4300070001 50 600200 0000",
    // A Long at 65533 is accepted, and at 65534 is 6; the undefined name ends the run before a long pool is built.
    "050000000000000002 43fffd0000 50 51020178 600200 0000",
    "050000000000000002 43fffe0000 50 51020178 600200 0000",
    // Raw bootstrap 65534 is accepted, and 65535 is 9.
    "4000000 90000 44fffe0000 50 51020178 600200 0000",
    "4000000 90000 44ffff0000 50 51020178 600200 0000",
    // A raw reference asked: one visit.
    "50 51000007 600200 0000",
    "50 520000ff 600200 0000",
    "50 52000100 600200 0000",
    // The class name is read after the name has its slot; "if present" counts once the holes are filled.
    "07000002 50 51010000 6000010000",
    "4000000 90000 4400020000 50 600100 0000",
    "12000005000009 50 51010000 600100 0000",
    // Slot 0 holds nothing; slot 9, which nobody owns, the empty text.
    "07000000 50 51010000 6002010000",
    "07000009 50 51010000 6002010000",
    // A raw number and an inline constant given that slot make equal bootstraps.
    "0300000001 40000001 0000 40010000 0000 12010000000009 12010001000009 50 51010000 51010001 51010002 600200 0000",
    // An inline bootstrap that equals only a raw one doesn't share.
    "4000000 90000 4400000000 12010000000009 50 51010000 600200 0000",
    // Two raw bootstraps whose children get slots by falling index.
    "0300000001 0300000002 40010000 0000 40010001 0000 4400000000 4400010001 50 600200 0000",
    // Two handles that differ in their kind byte alone.
    "0f05000009 0f06000009 50 51010000 51010001 600200 0000",
    // Two undefined or circular names in one constant: the left one is met first.
    "410161020161 0902017802 0161 50 51010000 600200 0000",
    "410161020161 0902016102 0178 50 51010000 600200 0000",
    X_BEFORE_Y,
    Y_BEFORE_X,
];

/// Jobs whose raw constants fail at record 50, one with 12 and one with 13, and the answer by document 01's order: the
/// lower slot's.
#[cfg(test)]
pub const BOTH_NUMBERS: &[(&str, u8, usize)] = &[(X_BEFORE_Y, 12, 5), (Y_BEFORE_X, 13, 5)];

/// A Class of x, which nothing has for its name, and a Class of y, which is the name of that Class; raw at 1 and 2.
const X_BEFORE_Y: &str = "07020178 07020179 410179010001 4300010000 4300020001 50 600200 0000";
const Y_BEFORE_X: &str = "07020178 07020179 410179010001 4300020000 4300010001 50 600200 0000";

pub fn jobs() -> Vec<Vec<u8>> {
    JOBS.iter().map(|text| bytes(text)).collect()
}

//! The jobs of document 01 with known results, cases a to k. What is expected is worked out from the document's words.

use jobs::hex::bytes;
use jobs::make::*;
use jobs::record::{Record, Reference, encode};
use model::{Built, Mark, Outcome, Refusal, run};
use std::ops::RangeInclusive;

const BUILD: &str = "60 02 00 0000";
const INT_1: &str = "03 00000001";
const LONG_1: &str = "05 0000000000000001";

fn line(hex: &str) -> String {
    run(&bytes(hex)).to_string()
}

fn built(job: &[u8]) -> Built {
    match run(job) {
        Outcome::Built(built) => built,
        refused => panic!("{refused}"),
    }
}

fn refused(code: u8, place: usize) -> Outcome {
    Outcome::Refused(Refusal::at(code, place))
}

fn outcome(definitions: Vec<Record>, requests: Vec<Record>) -> Outcome {
    run(&encode(&job(definitions, requests, NAME_NEVER)))
}

fn raw_constants(slots: RangeInclusive<u16>) -> impl Iterator<Item = Record> {
    slots.map(|slot| raw(slot, 0))
}

/// "Pool `00 01`. With first build byte 00: name slot 1, pool 21 bytes."
#[test]
fn a() {
    let nothing = "built answers 0 pool 2 0001 bootstraps 0 0 - name 0 class none visits 0";
    assert_eq!(line("50 60 02 00 00 00"), nothing);
    let with_name = built(&bytes("50 60 00 00 00 00"));
    assert_eq!(with_name.name_slot, 1);
    assert_eq!(with_name.pool.len(), 21);
    assert_eq!(with_name.pool[..5], [0, 2, TEXT, 0, 16]);
    assert_eq!(&with_name.pool[5..], NAME_TEXT);
}

/// What the document prints, with No. 6's mark, on one line.
#[test]
fn b() {
    assert_eq!(
        line("01 00 01 41 07 01 00 00 50 51 01 00 01 60 02 01 00 00"),
        "built answers 1 1 new pool 9 000307000201000141 bootstraps 0 0 - name 0 class 1 41 visits 4"
    );
}

/// "Class at 6 (the odd gap), second text at 1, count 7, 26 pool bytes."
#[test]
fn c() {
    let foo = "01 0003 666f6f";
    let job = format!("{foo} 43 0005 0000 {foo} 07 01 0001 50 51 01 0002 60 02 01 0000");
    let built = built(&bytes(&job));
    assert_eq!(built.answers, [(6, Mark::New)]);
    let empty = "010000";
    let pool = format!("0007 {foo} {empty} {empty} {empty} {foo} 07 0001");
    assert_eq!(built.pool, bytes(&pool));
    assert_eq!(built.pool.len(), 26);
    assert_eq!(built.class_name.as_deref(), Some(&b"foo"[..]));
}

/// "Raw Int at 2, then Long, then another Int asked: 3 and 1."
#[test]
fn d() {
    let job = format!("{INT_1} {LONG_1} 03 00000002 43 0002 0000 50 51 01 0001 51 01 0002 {BUILD}");
    let built = built(&bytes(&job));
    assert_eq!(built.answers, [(3, Mark::New), (1, Mark::New)]);
    let pool = format!("0005 03 00000002 {INT_1} {LONG_1}");
    assert_eq!(built.pool, bytes(&pool));
}

/// "Long at 7 twice: 7. Int at 7 then Long at 7: 8. Long at 7 then Int at 8: 7."
#[test]
fn e() {
    let at = |slots: &str| line(&format!("{INT_1} {LONG_1} {slots} 50 {BUILD}"));
    assert_eq!(at("43 0007 0001 43 0007 0001"), "refused 7 3");
    assert_eq!(at("43 0007 0000 43 0007 0001"), "refused 8 3");
    assert_eq!(at("43 0007 0001 43 0008 0000"), "refused 7 3");
}

/// "Two names for each other: accepted unused, 13 if asked. x unknown: 12."
#[test]
fn f() {
    let circle = "41 01 78 02 01 79 41 01 79 02 01 78 50";
    let unused = line(&format!("{circle} {BUILD}"));
    assert!(unused.starts_with("built answers 0 "), "{unused}");
    let asked = line(&format!("{circle} 51 02 01 78 {BUILD}"));
    assert_eq!(asked, "refused 13 3");
    let unknown = line(&format!("50 51 02 01 78 {BUILD}"));
    assert_eq!(unknown, "refused 12 1");
}

/// "Raw bootstrap 2 alone: count 3, three copies."
#[test]
fn g() {
    let built = built(&bytes(&format!("40 00 0009 0000 44 0002 0000 50 {BUILD}")));
    assert_eq!(built.bootstrap_count, 3);
    assert_eq!(built.bootstraps, bytes("0009 0000").repeat(3));
}

/// "Class of raw 0: no name. Class of raw 9, unused: a name of no bytes."
#[test]
fn h() {
    let of = |slot: &str| built(&bytes(&format!("07 00 {slot} 50 51 01 0000 60 02 01 0000")));
    assert_eq!(of("0000").class_name, None);
    assert_eq!(of("0009").class_name, Some(vec![]));
}

/// "ldc of raw 255: 255; of raw 256: 16."
#[test]
fn i() {
    let low = built(&bytes(&format!("50 52 00 00ff {BUILD}")));
    assert_eq!(low.answers, [(255, Mark::Raw)]);
    assert_eq!(line(&format!("50 52 00 0100 {BUILD}")), "refused 16 1");
}

/// "Slots 1 to 255 raw: ldc Int 15; ldc Long 16." The request is record 258.
#[test]
fn j() {
    let asked = |constant: Record| {
        let mut definitions = vec![int(1), constant];
        definitions.extend(raw_constants(1..=255));
        outcome(definitions, vec![ask_ldc(1)])
    };
    assert_eq!(asked(int(2)), refused(15, 258));
    assert_eq!(asked(long(2)), refused(16, 258));
}

/// "Long raw at 65533: accepted, count 65535; at 65534: 6." All slots but two hold the empty text.
#[test]
fn k_a_long_at_the_end() {
    let job = |slot: &str| bytes(&format!("{LONG_1} 43 {slot} 0000 50 {BUILD}"));
    let mut pool = bytes("ffff");
    pool.extend(bytes("010000").repeat(65_532));
    pool.extend(bytes(LONG_1));
    assert!(built(&job("fffd")).pool == pool);
    assert_eq!(run(&job("fffe")), refused(6, 1));
}

/// "All slots raw: 14, ldc 15." The request is record 65536.
#[test]
fn k_all_slots_raw() {
    let mut definitions = vec![int(1)];
    definitions.extend(raw_constants(1..=65_534));
    let ordinary = outcome(definitions.clone(), vec![ask(0)]);
    assert_eq!(ordinary, refused(14, 65_536));
    assert_eq!(outcome(definitions, vec![ask_ldc(0)]), refused(15, 65_536));
}

/// "Raw bootstraps 0 to 65534 and an inline: 17", at the build record, and told at the bootstrap's (document 02, No. 9).
#[test]
fn k_all_indexes_raw() {
    let inline = dynamic(Reference::Entry(0), Reference::Raw(2));
    let mut definitions = vec![bootstrap(Reference::Raw(9), vec![]), inline];
    definitions.extend((0..=65_534).map(|index| raw_bootstrap(index, 0)));
    let ended = outcome(definitions, vec![ask(0)]);
    assert_eq!(ended.to_string(), "refused 17 0");
    assert_eq!(ended.in_turn(), refused(17, 65_539));
}

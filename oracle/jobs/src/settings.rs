//! Jobs with records 47, 48 and 49 (document 02, No. 5, 8 and 10), and damaged copies of them.

mod texts;

use crate::damaged::{damaged_copy, shift_number};
use crate::make::*;
use crate::random::Random;
use crate::record::{ClassSlot, Record, Reference, encode};
use crate::small::{ldc_full_job, small_job};
use crate::stream::heavy_jobs;

/// Versions about those that the kinds 15 to 20 need.
const VERSIONS: &[u16] = &[
    0, 44, 45, 46, 47, 48, 49, 50, 50, 51, 51, 52, 52, 53, 53, 54, 54, 55, 55, 56, 65535,
];

const NEW_KINDS: &[u8] = &[METHOD_HANDLE, 16, DYNAMIC, INVOKE_DYNAMIC, 19, 20];

/// The highest slot of a pool that may be filled slot by slot.
const SMALL: usize = 40;

/// About the last slot that ldc reaches.
const ABOUT_255: &[u16] = &[253, 254, 255, 255, 256, 256, 257];

/// A small job, or one whose slots up to 255 are nearly full, with one to three of the records, each where it may stand.
pub fn settings_job(random: &mut Random) -> Vec<Record> {
    let low_slots_full = random.chance(1, 24);
    let mut records = match low_slots_full {
        true => ldc_full_job(random),
        false => small_job(random),
    };
    let (version, texts, highest) = *random.pick(&[
        (true, false, false),
        (false, true, false),
        (false, false, true),
        (false, false, true),
        (true, true, false),
        (true, false, true),
        (false, true, true),
        (true, true, true),
    ]);
    if random.chance(2, 3) {
        add_new_kinds(&mut records, random);
    }
    texts::change(&mut records, texts, random);
    let highest = highest.then(|| match low_slots_full {
        true => *random.pick(ABOUT_255),
        false => some_highest(random),
    });
    if let Some(highest) = highest {
        fit(&mut records, highest, random);
        if random.chance(1, 4) {
            look_about(&mut records, highest, random);
        }
        records.insert(0, Record::HighestSlot(highest));
    }
    let first = usize::from(highest.is_some());
    if version {
        let version = Record::Version(*random.pick(VERSIONS));
        insert_definition(&mut records, first, version, random);
    }
    if texts {
        insert_definition(&mut records, first, Record::HoldTexts, random);
    }
    records
}

fn some_highest(random: &mut Random) -> u16 {
    match random.below(16) {
        0..6 => 1 + random.below(12) as u16,
        6..13 => 1 + random.below(SMALL) as u16,
        13 | 14 => *random.pick(ABOUT_255),
        _ => *random.pick(&[65532, 65533, 65533, 65534, 65534]),
    }
}

fn end_of_definitions(records: &[Record]) -> usize {
    let end = records.iter().position(|r| *r == Record::EndOfDefinitions);
    end.expect("a well-formed job has a record 50")
}

fn insert_definition(records: &mut Vec<Record>, first: usize, record: Record, random: &mut Random) {
    let end = end_of_definitions(records);
    records.insert(first + random.below(end + 1 - first), record);
}

/// Behind all other definitions, so that every entry may be cited.
pub fn define_last(records: &mut Vec<Record>, record: Record) {
    records.insert(end_of_definitions(records), record);
}

pub fn constants(records: &[Record]) -> u16 {
    let constants = records
        .iter()
        .filter(|r| matches!(r, Record::Constant(_) | Record::Expression(_)));
    constants.count() as u16
}

fn bootstraps(records: &[Record]) -> u16 {
    let bootstraps = records.iter();
    let bootstraps = bootstraps.filter(|r| matches!(r, Record::Bootstrap { .. }));
    bootstraps.count() as u16
}

/// Constants of the kinds 15 to 20: asked for, raw, children of others, or unused.
fn add_new_kinds(records: &mut Vec<Record>, random: &mut Random) {
    for _ in 0..1 + random.below(3) {
        let entry = constants(records);
        let kind = *random.pick(NEW_KINDS);
        let of = a_reference(entry, random);
        let new = match kind {
            METHOD_HANDLE => handle(1 + random.below(9) as u8, of),
            DYNAMIC | INVOKE_DYNAMIC => {
                let bootstrap = a_reference(bootstraps(records), random);
                constant(kind, &[], vec![bootstrap, of])
            }
            _ => constant(kind, &[], vec![of]),
        };
        define_last(records, new);
        match random.below(8) {
            0..4 => request(records, entry, random),
            4 | 5 => define_last(records, raw(1 + random.below(9) as u16, entry)),
            6 => {
                define_last(records, class(Reference::Entry(entry)));
                request(records, entry + 1, random);
            }
            _ => {}
        }
    }
}

fn a_reference(entries: u16, random: &mut Random) -> Reference {
    match entries > 0 && random.chance(4, 5) {
        true => Reference::Entry(random.below(entries.into()) as u16),
        false => Reference::Raw(random.below(6) as u16),
    }
}

/// Anywhere among the requests.
pub fn request(records: &mut Vec<Record>, entry: u16, random: &mut Random) {
    let first = end_of_definitions(records) + 1;
    let place = first + random.below(records.len() - first);
    let record = match random.chance(1, 6) {
        true => ask_ldc(entry),
        false => ask(entry),
    };
    records.insert(place, record);
}

/// Brings most raw constants under the highest slot, and some about it.
fn fit(records: &mut Vec<Record>, highest: u16, random: &mut Random) {
    if usize::from(highest) <= SMALL && random.chance(1, 3) {
        return fill(records, highest, random);
    }
    for place in (0..records.len()).rev() {
        match &mut records[place] {
            Record::RawConstant { slot, .. } if *slot > highest => match random.below(8) {
                0 => {}
                1..4 => *slot = about(highest, random),
                _ => _ = records.remove(place),
            },
            _ => {}
        }
    }
    let entries = constants(records);
    let is_large = usize::from(highest) > SMALL;
    if entries > 0 && random.chance(1, if is_large { 3 } else { 2 }) {
        let entry = random.below(entries.into()) as u16;
        define_last(records, raw(about(highest, random), entry));
    }
}

/// Has the build look about the highest slot: at a slot there, or at a Class of one.
fn look_about(records: &mut Vec<Record>, highest: u16, random: &mut Random) {
    let mut looked_at = ClassSlot::Slot(about(highest, random));
    if random.chance(1, 2) {
        let entry = constants(records);
        define_last(records, class(Reference::Raw(about(highest, random))));
        records.insert(end_of_definitions(records) + 1, ask(entry));
        looked_at = ClassSlot::Request(0);
    }
    if let Some(Record::Build { class, .. }) = records.last_mut() {
        *class = looked_at;
    }
}

/// Mostly at the highest slot or below it.
fn about(highest: u16, random: &mut Random) -> u16 {
    match random.below(16) {
        0..6 => highest,
        6..11 => highest.saturating_sub(1).max(1),
        11..14 => highest.saturating_sub(2).max(1),
        14 => highest + 1,
        _ => highest.saturating_add(2),
    }
}

/// Raw constants at every slot but a few, in the place of all others.
fn fill(records: &mut Vec<Record>, highest: u16, random: &mut Random) {
    records.retain(|record| !matches!(record, Record::RawConstant { .. }));
    let narrow = constants(records);
    define_last(records, int(random.below(3) as u32));
    define_last(records, long(random.below(3) as u64));
    let free: Vec<u16> = (0..random.below(6))
        .map(|_| 1 + random.below(highest.into()) as u16)
        .collect();
    let mut slot = 1;
    while slot <= highest {
        let wide = u16::from(random.chance(1, 6));
        if !(slot..=slot + wide).any(|slot| free.contains(&slot)) && slot + wide <= highest {
            define_last(records, raw(slot, narrow + wide));
            slot += wide;
        }
        slot += 1;
    }
}

/// Every heavy job twice: with settings that change nothing, and with half of the slots, texts held, and a version without Dynamic.
pub fn heavy_settings() -> impl Iterator<Item = Vec<u8>> {
    let nothing = encode(&[Record::HighestSlot(65_534), Record::Version(u16::MAX)]);
    let half = [
        Record::HighestSlot(32_767),
        Record::HoldTexts,
        Record::Version(54),
    ];
    let ahead = [nothing, encode(&half)];
    heavy_jobs().flat_map(move |job| ahead.clone().map(|ahead| [ahead, job.clone()].concat()))
}

/// Bytes at which such a job may be told from another.
const KNOWN: &[u8] = &[
    0, 0, 0, 1, 1, 2, 3, 7, 16, 0x41, 0x43, 0x46, 0x47, 0x47, 0x48, 0x48, 0x49, 0x49, 0x50, 0x50,
    0x51, 0x60, 0x80, 0xc0, 0xe0, 0xf0, 0xff,
];

pub fn damaged_settings_job(random: &mut Random) -> Vec<u8> {
    if random.chance(1, 16) {
        let length = random.below(24);
        return (0..length).map(|_| *random.pick(KNOWN)).collect();
    }
    let mut records = settings_job(random);
    if random.chance(1, 3) {
        return damaged_copy(records, random);
    }
    damage_settings(&mut records, random);
    match random.below(8) {
        0 => damaged_copy(records, random),
        1 => {
            let mut job = encode(&records);
            job.truncate(random.below(job.len() + 1));
            job
        }
        2 => {
            let mut job = encode(&records);
            let at = random.below(job.len());
            job[at] = *random.pick(KNOWN);
            job
        }
        _ => encode(&records),
    }
}

/// Something wrong with the records 47 to 49, or with what they speak of.
fn damage_settings(records: &mut Vec<Record>, random: &mut Random) {
    let anywhere = random.below(records.len() + 1);
    match random.below(10) {
        0 => records.insert(anywhere, Record::Version(*random.pick(VERSIONS))),
        1 => records.insert(anywhere, Record::HoldTexts),
        2 => records.insert(anywhere, Record::HighestSlot(some_highest(random))),
        3 => {
            records.retain(|record| !matches!(record, Record::HighestSlot(_)));
            let highest = Record::HighestSlot(*random.pick(&[0, 65535]));
            let place = if random.chance(1, 6) {
                random.below(4)
            } else {
                0
            };
            records.insert(place.min(records.len()), highest);
        }
        4 => {
            let place = a_setting(records, random);
            let moved = records.remove(place);
            records.insert(anywhere.min(records.len()), moved);
        }
        5 => _ = records.remove(a_setting(records, random)),
        6 => {
            let number = random.below(usize::from(u16::MAX) + 1) as u16;
            let place = a_setting(records, random);
            match &mut records[place] {
                Record::Version(version) => *version = number,
                Record::HighestSlot(highest) => *highest = number,
                _ => {}
            }
        }
        7 => {
            let other = anywhere.min(records.len() - 1);
            records.swap(0, other);
        }
        _ => hold_bad_texts(records, random),
    }
}

fn a_setting(records: &[Record], random: &mut Random) -> usize {
    let places: Vec<usize> = (0..records.len())
        .filter(|place| records[*place].is_setting())
        .collect();
    *random.pick(&places)
}

/// A bad text, a record 48 somewhere, and often another fault about them.
fn hold_bad_texts(records: &mut Vec<Record>, random: &mut Random) {
    if !records.contains(&Record::HoldTexts) {
        records.insert(random.below(records.len() + 1), Record::HoldTexts);
    }
    let bad = texts::bad(random);
    records.insert(random.below(records.len() + 1), text(&bad));
    match random.below(4) {
        0 => shift_number(records, random),
        1 => records.truncate(1 + random.below(records.len())),
        _ => {}
    }
}

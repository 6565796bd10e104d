//! Classes that a JVM takes: jobs of document 01 with valid names and descriptors, built by Krakatau's module, and the parts around them.

use crate::file::Parts;
use driver::{Outcome, run_job};
use jobs::make;
use jobs::random::Random;
use jobs::record::{ClassSlot, Record, Reference, encode};

/// A class, and what a JVM must say of it.
pub struct Loadable {
    pub parts: Parts,
    pub class_name: String,
    pub super_name: &'static str,
    /// A file with Module or Package constants is for a module's only: javap takes it, and no loader.
    pub defined: bool,
}

const SUPERS: &[&str] = &[
    "java/lang/Object",
    "java/lang/Object",
    "java/util/ArrayList",
    "java/lang/Exception",
];

const OBJECT: &str = SUPERS[0];

/// Flags of classes, and from here on of interfaces, whose super class is Object.
const ACCESS: &[u16] = &[
    0x21, 0x20, 0x31, 0x421, 0x1021, 0x4031, 0x601, 0x600, 0x2601,
];
const FIRST_INTERFACE: usize = 6;

const PACKAGES: &[&str] = &["", "made/", "made/deep/er/", "größe/Ω/"];

const FIELD_TYPES: &[&str] = &["I", "J", "[D", "Ljava/lang/String;", "[[Lmade/Other;", "Z"];

const METHOD_TYPES: &[&str] = &[
    "()V",
    "(IJ)D",
    "([Ljava/lang/Object;)Ljava/lang/Object;",
    "(Z[[B)I",
];

const NAMES: &[&str] = &["a", "value", "ñandú", "with space", "x-y", "λ", "$1", "run"];

/// Texts in modified UTF-8: a zero as two bytes, and a pair of surrogates as three bytes each.
const TEXTS: &[&[u8]] = &[
    b"",
    b"plain",
    b"BootstrapMethods",
    b"\xc0\x80",
    "ä€".as_bytes(),
    b"\xed\xa0\xbd\xed\xb8\x80",
    b"\"quoted\"\n",
];

pub fn next(random: &mut Random, number: usize) -> Loadable {
    loop {
        // most jobs are built; one whose slots are chosen twice is not
        if let Some(made) = attempt(random, number) {
            return made;
        }
    }
}

fn attempt(random: &mut Random, number: usize) -> Option<Loadable> {
    let access = random.below(ACCESS.len());
    let class_name = format!("{}C{number}", random.pick(PACKAGES));
    let super_name = if access < FIRST_INTERFACE {
        *random.pick(SUPERS)
    } else {
        OBJECT
    };
    let mut job = Job::default();
    let this_class = job.class(&class_name);
    let super_class = job.class(super_name);
    let mut asked = vec![this_class, super_class];
    for _ in 0..random.below(14) {
        let constant = job.constant(random);
        asked.push(constant);
    }
    let defined = random.chance(4, 5);
    if !defined {
        let name = job.text(b"some.name");
        asked.push(job.add(19, &[], &[name]));
        asked.push(job.add(20, &[], &[name]));
    }
    let records = job.finish(random, asked);
    Some(Loadable {
        parts: parts_of(random, &records, ACCESS[access])?,
        class_name,
        super_name,
        defined,
    })
}

/// The parts around what the module builds; this and super class are the first two answers.
fn parts_of(random: &mut Random, records: &[Record], access: u16) -> Option<Parts> {
    let Outcome::Built(built) = run_job(&encode(records)) else {
        return None;
    };
    let major = 55 + random.below(7) as u16;
    // from 56 on the minor version has a meaning
    let minor = if major == 55 { random.below(4) } else { 0 };
    Some(Parts {
        minor: minor as u16,
        major,
        pool: built.pool,
        access,
        this_class: built.answers[0],
        super_class: built.answers[1],
        name: built.name_slot,
        count: built.bootstrap_count,
        bootstraps: built.bootstraps,
    })
}

/// The definitions of a job, whose constants and bootstraps are numbered apart from 0.
#[derive(Default)]
struct Job {
    definitions: Vec<Record>,
    constants: u16,
    bootstraps: u16,
    /// Constants that an argument of a bootstrap may be.
    arguments: Vec<u16>,
}

impl Job {
    fn add(&mut self, tag: u8, literal: &[u8], of: &[u16]) -> u16 {
        let references = of.iter().map(|n| Reference::Entry(*n)).collect();
        self.definitions
            .push(make::constant(tag, literal, references));
        self.constants += 1;
        self.constants - 1
    }

    fn text(&mut self, text: &[u8]) -> u16 {
        self.add(make::TEXT, text, &[])
    }

    fn class(&mut self, name: &str) -> u16 {
        let name = self.text(name.as_bytes());
        self.add(make::CLASS, &[], &[name])
    }

    fn name_and_type(&mut self, name: &str, of: &str) -> u16 {
        let name = self.text(name.as_bytes());
        let of = self.text(of.as_bytes());
        self.add(make::NAME_AND_TYPE, &[], &[name, of])
    }

    fn member(&mut self, tag: u8, name: &str, of: &str) -> u16 {
        let class = self.class("made/Other");
        let name_and_type = self.name_and_type(name, of);
        self.add(tag, &[], &[class, name_and_type])
    }

    /// A constant of any kind but a module's, with all that it needs.
    fn constant(&mut self, random: &mut Random) -> u16 {
        let loadable = match random.below(12) {
            0 => self.add(make::INT, &random.bytes(4), &[]),
            1 => self.add(make::FLOAT, &random.bytes(4), &[]),
            2 => self.add(make::LONG, &random.bytes(8), &[]),
            3 => self.add(make::DOUBLE, &random.bytes(8), &[]),
            4 => self.class(*random.pick(&["[I", "made/Other", "[[Ljava/lang/String;"])),
            5 | 6 => {
                let text = self.text(*random.pick(TEXTS));
                self.add(8, &[], &[text])
            }
            7 => {
                let text = self.text(random.pick(METHOD_TYPES).as_bytes());
                self.add(16, &[], &[text])
            }
            8 => self.handle(random),
            9 => self.dynamic(random, make::DYNAMIC, FIELD_TYPES),
            // these two can't be loaded, so they are no arguments
            10 => return self.dynamic(random, make::INVOKE_DYNAMIC, METHOD_TYPES),
            _ => return self.any_member(random),
        };
        self.arguments.push(loadable);
        loadable
    }

    fn any_member(&mut self, random: &mut Random) -> u16 {
        let tag = *random.pick(&[9, 10, 11]);
        let of = if tag == 9 { FIELD_TYPES } else { METHOD_TYPES };
        self.member(tag, *random.pick(NAMES), *random.pick(of))
    }

    /// A handle whose kind fits what it refers to (JVMS 4.4.8).
    fn handle(&mut self, random: &mut Random) -> u16 {
        let kind = 1 + random.below(9) as u8;
        let member = match kind {
            1..=4 => self.member(9, *random.pick(NAMES), *random.pick(FIELD_TYPES)),
            8 => self.member(10, "<init>", "(I)V"),
            9 => self.member(11, *random.pick(NAMES), *random.pick(METHOD_TYPES)),
            6 | 7 => self.member(10 + random.below(2) as u8, *random.pick(NAMES), "()V"),
            _ => self.member(10, *random.pick(NAMES), *random.pick(METHOD_TYPES)),
        };
        self.add(make::METHOD_HANDLE, &[kind], &[member])
    }

    /// A dynamic constant with a bootstrap of its own or an earlier one.
    fn dynamic(&mut self, random: &mut Random, tag: u8, types: &[&str]) -> u16 {
        let name_and_type = self.name_and_type(*random.pick(NAMES), *random.pick(types));
        if self.bootstraps == 0 || random.chance(2, 3) {
            let handle = self.handle(random);
            let arguments = (0..random.below(4)).filter_map(|_| {
                let known = &self.arguments;
                (!known.is_empty()).then(|| Reference::Entry(*random.pick(known)))
            });
            let arguments = arguments.collect();
            self.definitions
                .push(make::bootstrap(Reference::Entry(handle), arguments));
            self.bootstraps += 1;
        }
        let bootstrap = Reference::Entry(random.below(self.bootstraps.into()) as u16);
        let references = vec![bootstrap, Reference::Entry(name_and_type)];
        self.definitions.push(make::constant(tag, &[], references));
        self.constants += 1;
        self.constants - 1
    }

    /// Some of the constants at slots of their choice, all asked for, and the build.
    fn finish(mut self, random: &mut Random, asked: Vec<u16>) -> Vec<Record> {
        if random.chance(1, 3) {
            for _ in 0..1 + random.below(3) {
                let entry = *random.pick(&asked);
                self.definitions
                    .push(make::raw(1 + random.below(60) as u16, entry));
            }
        }
        if self.bootstraps > 0 && random.chance(1, 6) {
            self.definitions
                .push(make::raw_bootstrap(random.below(4) as u16, 0));
        }
        let mut records = self.definitions;
        records.push(Record::EndOfDefinitions);
        records.extend(asked.into_iter().map(make::ask));
        records.push(Record::Build {
            name: *random.pick(&[
                make::NAME_ALWAYS,
                make::NAME_IF_PRESENT,
                make::NAME_IF_PRESENT,
            ]),
            class: ClassSlot::Request(0),
        });
        records
    }
}

//! Drives both copies of the module, the plain and the counted, through a job's records.

use crate::end_of_definitions::faults;
use crate::marks::marks;
use crate::outcome::{Built, Outcome};
use jobs::hex::hex;
use jobs::record::{ClassSlot, Constant, Record, Reference};
use std::cell::Cell;
use std::panic::{self, AssertUnwindSafe};
use std::sync::Once;

/// Every span is this whole text: where an error points is not compared.
const SOURCE: &str = "job";

const UNDEFINED: u8 = 12;
const CIRCULAR: u8 = 13;

/// An error of the module: its text, and the record in turn.
pub struct Stop {
    place: usize,
    message: String,
}

/// A run's end; the outer error is a panic's message.
type Ending<T> = Result<Result<T, Stop>, String>;

/// The driver of one copy. The copies' types differ, so the one text is made for each.
macro_rules! driver_of {
    ($name:ident, $copy:ident) => {
        pub mod $name {
            use super::{Built, ClassSlot, Constant, Record, Reference, SOURCE, Stop};
            use $copy::assemble::cpool::{
                BsAttrNameNeeded, FlatConst, Pool, PoolResolver, RefType, UnresolvedConst,
            };
            use $copy::assemble::span::{Error, ErrorMaker, Span};
            use $copy::assemble::writer::BufWriter;
            use $copy::util::mstr;

            const SPAN: Span<'static> = Span(SOURCE);

            enum Definition<'a> {
                Constant(UnresolvedConst<'a>),
                Bootstrap(RefType<'a>, Vec<RefType<'a>>),
                NameConstant(&'a str, RefType<'a>),
                NameBootstrap(&'a str, RefType<'a>),
                RawConstant(u16, u32),
                RawBootstrap(u16, u32),
            }

            /// A job in the module's own types, so that running it is nothing but calls.
            pub struct Plan<'a> {
                definitions: Vec<Definition<'a>>,
                /// With whether ldc asks.
                requests: Vec<(RefType<'a>, bool)>,
                name: u8,
                class: ClassSlot,
            }

            /// The records are a well-formed job's, with names as text.
            pub fn plan(records: &[Record]) -> Plan<'_> {
                let mut plan = Plan {
                    definitions: Vec::new(),
                    requests: Vec::new(),
                    name: 2,
                    class: ClassSlot::Slot(0),
                };
                for record in records {
                    match record {
                        Record::EndOfDefinitions => {}
                        Record::Ask(r) => plan.requests.push((reference(r), false)),
                        Record::AskLdc(r) => plan.requests.push((reference(r), true)),
                        Record::Build { name, class } => (plan.name, plan.class) = (*name, *class),
                        other => plan.definitions.push(definition(other)),
                    }
                }
                plan
            }

            fn definition(record: &Record) -> Definition<'_> {
                match record {
                    Record::Constant(c) => Definition::Constant(constant(c)),
                    Record::Bootstrap { handle, arguments } => Definition::Bootstrap(
                        reference(handle),
                        arguments.iter().map(reference).collect(),
                    ),
                    Record::NameConstant(name, to) => {
                        Definition::NameConstant(text(name), reference(to))
                    }
                    Record::NameBootstrap(name, to) => {
                        Definition::NameBootstrap(text(name), reference(to))
                    }
                    Record::RawConstant { slot, entry } => {
                        Definition::RawConstant(*slot, (*entry).into())
                    }
                    Record::RawBootstrap { index, entry } => {
                        Definition::RawBootstrap(*index, (*entry).into())
                    }
                    other => unreachable!("{other:?} defines nothing"),
                }
            }

            fn text(name: &[u8]) -> &str {
                std::str::from_utf8(name).expect("names are hex text")
            }

            fn reference(reference: &Reference) -> RefType<'_> {
                match reference {
                    Reference::Raw(slot) => RefType::Raw(*slot),
                    Reference::Entry(number) => RefType::Index((*number).into()),
                    Reference::Name(name) => RefType::Sym(SPAN.of(text(name))),
                }
            }

            fn constant(c: &Constant) -> UnresolvedConst<'_> {
                let child = |place: usize| reference(&c.references[place]);
                let four = || u32::from_be_bytes(c.literal[..].try_into().unwrap());
                let eight = || u64::from_be_bytes(c.literal[..].try_into().unwrap());
                match c.tag {
                    1 => FlatConst::Utf8(mstr::new(&c.literal)),
                    3 => FlatConst::Int(four()),
                    4 => FlatConst::Float(four()),
                    5 => FlatConst::Long(eight()),
                    6 => FlatConst::Double(eight()),
                    7 => FlatConst::Class(child(0)),
                    8 => FlatConst::Str(child(0)),
                    9 => FlatConst::Field(child(0), child(1)),
                    10 => FlatConst::Method(child(0), child(1)),
                    11 => FlatConst::InterfaceMethod(child(0), child(1)),
                    12 => FlatConst::NameAndType(child(0), child(1)),
                    15 => FlatConst::MethodHandle(c.literal[0], child(0)),
                    16 => FlatConst::MethodType(child(0)),
                    17 => FlatConst::Dynamic(child(0), child(1)),
                    18 => FlatConst::InvokeDynamic(child(0), child(1)),
                    19 => FlatConst::Module(child(0)),
                    20 => FlatConst::Package(child(0)),
                    tag => unreachable!("the form pass refuses tag {tag}"),
                }
            }

            /// Runs the records in turn, from `Pool::new` to `build`.
            pub fn execute(plan: Plan<'_>) -> Result<Built, Stop> {
                let end_of_definitions = plan.definitions.len();
                let build = end_of_definitions + 1 + plan.requests.len();
                let mut resolver = define(plan.definitions)?;
                let mut answers = Vec::with_capacity(plan.requests.len());
                for (number, (asked, is_ldc)) in plan.requests.into_iter().enumerate() {
                    let answer = answer(&mut resolver, asked, is_ldc);
                    answers.push(answer.map_err(stop(end_of_definitions + 1 + number))?);
                }
                let class_slot = match plan.class {
                    ClassSlot::Slot(slot) => slot,
                    ClassSlot::Request(number) => answers[usize::from(number)],
                };
                finish(resolver, plan.name, class_slot, answers).map_err(stop(build))
            }

            /// Runs the definitions and record 50 alone.
            pub fn execute_definitions(plan: Plan<'_>) -> Result<(), Stop> {
                define(plan.definitions).map(|_| ())
            }

            fn stop(place: usize) -> impl Fn(Error) -> Stop {
                move |error| Stop {
                    place,
                    message: error.to_string(),
                }
            }

            fn define(definitions: Vec<Definition<'_>>) -> Result<PoolResolver<'_>, Stop> {
                let end_of_definitions = definitions.len();
                let mut pool = Pool::new(ErrorMaker::new(SOURCE));
                for (place, definition) in definitions.into_iter().enumerate() {
                    add(&mut pool, definition).map_err(stop(place))?;
                }
                pool.finish_defs().map_err(stop(end_of_definitions))
            }

            fn add<'a>(pool: &mut Pool<'a>, definition: Definition<'a>) -> Result<(), Error> {
                match definition {
                    Definition::Constant(c) => {
                        pool.add_const(SPAN, c);
                        Ok(())
                    }
                    Definition::Bootstrap(handle, arguments) => {
                        pool.add_bs(SPAN, handle, arguments);
                        Ok(())
                    }
                    Definition::NameConstant(name, to) => pool.add_sym_def(SPAN.of(name), to),
                    Definition::NameBootstrap(name, to) => pool.add_bs_sym_def(SPAN.of(name), to),
                    Definition::RawConstant(slot, entry) => pool.add_raw_def(slot, SPAN, entry),
                    Definition::RawBootstrap(index, entry) => {
                        pool.add_bs_raw_def(index, SPAN, entry)
                    }
                }
            }

            fn answer<'a>(
                resolver: &mut PoolResolver<'a>,
                asked: RefType<'a>,
                is_ldc: bool,
            ) -> Result<u16, Error> {
                if is_ldc {
                    resolver.resolve_ldc(asked, SPAN).map(u16::from)
                } else {
                    resolver.resolve(asked)
                }
            }

            fn finish(
                resolver: PoolResolver<'_>,
                name: u8,
                class_slot: u16,
                answers: Vec<u16>,
            ) -> Result<Built, Error> {
                let name_needed = match name {
                    0 => BsAttrNameNeeded::Always(SPAN),
                    1 => BsAttrNameNeeded::IfPresent(SPAN),
                    _ => BsAttrNameNeeded::Never,
                };
                let mut pool = BufWriter::default();
                let builder = resolver.end();
                let (bootstraps, class_name) = builder.build(&mut pool, name_needed, class_slot)?;
                Ok(Built {
                    answers,
                    // the module doesn't tell
                    marks: vec![],
                    pool: pool.into_buf(),
                    bootstrap_count: bootstraps.num_bs,
                    bootstraps: bootstraps.buf,
                    name_slot: bootstraps.name.unwrap_or(0),
                    class_name: class_name.map(|name| name.as_bytes().to_vec()),
                    // only the counted copy knows, beside its result
                    visits: 0,
                })
            }
        }
    };
}

driver_of!(plain, krakatau);
driver_of!(with_count, counted);

/// Runs a well-formed job's records through both copies, which must agree.
pub fn run(records: &[Record]) -> Outcome {
    let named = with_hex_names(records);
    // Planned outside of `caught`, so that only the module's own panics are caught.
    let plan = plain::plan(&named);
    let plain_ending = caught(|| plain::execute(plan));
    let (counted_ending, visits) = counted_run(&named);
    let outcome = settled(plain_ending, visits, records);
    let counted_outcome = settled(counted_ending, visits, records);
    assert!(
        agree(&outcome, &counted_outcome, records),
        "the counted copy differs: {} and {}",
        outcome.line(),
        counted_outcome.line()
    );
    outcome
}

/// The outcome of the counted copy alone: `run` in less time.
pub fn run_counted(records: &[Record]) -> Outcome {
    let (ending, visits) = counted_run(&with_hex_names(records));
    settled(ending, visits, records)
}

fn counted_run(named: &[Record]) -> (Ending<Built>, u64) {
    let plan = with_count::plan(named);
    counted::reset_visits();
    let ending = caught(|| with_count::execute(plan));
    (ending, counted::visits())
}

/// The refusal, if the plain copy gives one up to record 50.
pub fn refusal_of_definitions(records: &[Record]) -> Option<Outcome> {
    let named = with_hex_names(records);
    let plan = plain::plan(&named);
    match caught(|| plain::execute_definitions(plan)) {
        Ok(Ok(())) => None,
        Ok(Err(stop)) => Some(stopped(stop)),
        Err(message) => Some(Outcome::Panicked(message)),
    }
}

/// Record 50 resolves in a hash map's order, which differs from run to run: with several faults
/// there, either may be met first.
fn agree(one: &Outcome, other: &Outcome, records: &[Record]) -> bool {
    let at_end = |outcome: &Outcome| match outcome {
        Outcome::Refused { code, place } if records[*place] == Record::EndOfDefinitions => {
            Some(*code)
        }
        _ => None,
    };
    one == other
        || match (at_end(one), at_end(other)) {
            (Some(one), Some(other)) => {
                let possible = faults(records);
                possible.contains(&one) && possible.contains(&other)
            }
            _ => false,
        }
}

/// The records with every name as lower-case hex text: the module takes names as text.
pub fn with_hex_names(records: &[Record]) -> Vec<Record> {
    records.iter().map(with_hex_name).collect()
}

fn with_hex_name(record: &Record) -> Record {
    let all = |references: &[Reference]| references.iter().map(hex_reference).collect();
    match record {
        Record::Constant(c) => Record::Constant(Constant {
            tag: c.tag,
            literal: c.literal.clone(),
            references: all(&c.references),
        }),
        Record::Bootstrap { handle, arguments } => Record::Bootstrap {
            handle: hex_reference(handle),
            arguments: all(arguments),
        },
        Record::NameConstant(name, to) => Record::NameConstant(hex_name(name), hex_reference(to)),
        Record::NameBootstrap(name, to) => Record::NameBootstrap(hex_name(name), hex_reference(to)),
        Record::Ask(r) => Record::Ask(hex_reference(r)),
        Record::AskLdc(r) => Record::AskLdc(hex_reference(r)),
        Record::RawConstant { .. }
        | Record::RawBootstrap { .. }
        | Record::Expression(_)
        | Record::Version(_)
        | Record::HoldTexts
        | Record::HighestSlot(_)
        | Record::EndOfDefinitions
        | Record::Build { .. } => record.clone(),
    }
}

fn hex_reference(reference: &Reference) -> Reference {
    match reference {
        Reference::Name(name) => Reference::Name(hex_name(name)),
        other => other.clone(),
    }
}

fn hex_name(name: &[u8]) -> Vec<u8> {
    hex(name).into_bytes()
}

thread_local! {
    static PANICS_ARE_CAUGHT: Cell<bool> = const { Cell::new(false) };
}

/// Keeps the module's panics off the error output; others are reported as ever.
fn quiet_caught_panics() {
    static ONCE: Once = Once::new();
    ONCE.call_once(|| {
        let usual = panic::take_hook();
        panic::set_hook(Box::new(move |info| {
            if !PANICS_ARE_CAUGHT.get() {
                usual(info);
            }
        }));
    });
}

/// Runs the module, turning a panic into its message.
pub fn caught<T>(execute: impl FnOnce() -> Result<T, Stop>) -> Ending<T> {
    quiet_caught_panics();
    PANICS_ARE_CAUGHT.set(true);
    let ending = panic::catch_unwind(AssertUnwindSafe(execute));
    PANICS_ARE_CAUGHT.set(false);
    ending.map_err(|payload| {
        let text = payload.downcast_ref::<&str>().map(|text| text.to_string());
        let text = text.or_else(|| payload.downcast_ref::<String>().cloned());
        text.unwrap_or_else(|| "without a message".into())
    })
}

fn settled(ending: Ending<Built>, visits: u64, records: &[Record]) -> Outcome {
    match ending {
        Ok(Ok(built)) => Outcome::Built(Built {
            marks: marks(records, &built.answers),
            visits,
            ..built
        }),
        Ok(Err(stop)) => stopped(stop),
        Err(message) => Outcome::Panicked(message),
    }
}

fn stopped(Stop { place, message }: Stop) -> Outcome {
    match refusal_number(&message) {
        Some(code) => Outcome::Refused { code, place },
        None => Outcome::UnknownMessage { message, place },
    }
}

/// The document's number for a message; the lines behind the first are notes.
fn refusal_number(message: &str) -> Option<u8> {
    let first_line = message.lines().next()?;
    match first_line {
        "Invalid constant pool index" => Some(6),
        "Conflicting raw const definition" => Some(7),
        "Duplicate raw const definition" => Some(8),
        "Bootstrap method index must be <= 65534." => Some(9),
        "Duplicate raw bootstrap definition" => Some(10),
        "Error: Duplicate definition of symbolic ref" => Some(11),
        "Undefined symbolic reference" => Some(UNDEFINED),
        "Circular definition of symbolic reference" => Some(CIRCULAR),
        "Constant does not fit in constant pool (max 65534 constants per class)." => Some(14),
        "Constant does not fit in constant pool. Consider using ldc_w instead of ldc." => Some(15),
        "ldc constant index must be <= 255. Try using ldc_w instead." => Some(16),
        "Exceeded maximum 65535 bootstrap methods per class" => Some(17),
        _ => None,
    }
}

#[cfg(test)]
mod tests {
    use super::*;

    fn refused(code: u8, place: usize) -> Outcome {
        Outcome::Refused { code, place }
    }

    #[test]
    fn a_panic_becomes_its_message() {
        let fixed = settled(caught(|| panic!("fixed text")), 0, &[]);
        assert_eq!(fixed.line(), "panic fixed text");
        let made = settled(caught(|| panic!("number {}", 7)), 0, &[]);
        assert_eq!(made.line(), "panic number 7");
    }

    #[test]
    fn an_unmapped_message_gets_no_number() {
        let stop = |message: &str| Stop {
            place: 4,
            message: message.into(),
        };
        let unknown = settled(Ok(Err(stop("Something else"))), 0, &[]);
        assert_eq!(unknown.line(), "unknown message at 4: Something else");
        // A known text counts only as the whole first line.
        assert_eq!(refusal_number("Invalid constant pool index 7"), None);
        assert_eq!(refusal_number("Note\nInvalid constant pool index"), None);
        assert_eq!(refusal_number(""), None);
    }

    #[test]
    fn the_copies_may_differ_only_in_faults_that_are_possible_at_record_50() {
        let name = |name: &[u8]| Reference::Name(name.to_vec());
        let class = |of: &[u8]| {
            Record::Constant(Constant {
                tag: 7,
                literal: vec![],
                references: vec![name(of)],
            })
        };
        let raw = |slot, entry| Record::RawConstant { slot, entry };
        // y names the Class of y, and nothing is named x.
        let mut records = vec![
            class(b"x"),
            class(b"y"),
            Record::NameConstant(b"y".to_vec(), Reference::Entry(1)),
            raw(1, 0),
            raw(2, 1),
            Record::EndOfDefinitions,
        ];
        records.push(Record::Build {
            name: 2,
            class: ClassSlot::Slot(0),
        });
        assert!(agree(&refused(12, 5), &refused(12, 5), &records));
        assert!(agree(&refused(12, 5), &refused(13, 5), &records));
        assert!(!agree(&refused(12, 6), &refused(13, 6), &records));
        assert!(!agree(&refused(12, 5), &refused(14, 5), &records));
        assert!(!agree(&refused(12, 5), &refused(12, 6), &records));
        let panicked = Outcome::Panicked("text".into());
        assert!(!agree(&refused(12, 5), &panicked, &records));
        // With 13 alone possible, 12 isn't passed.
        records[3] = raw(1, 1);
        assert!(!agree(&refused(12, 5), &refused(13, 5), &records));
    }
}

//! The records of a well-formed job in turn: "a refusal giving the number of the record in turn", but for some met while building.

use crate::build::{Met, Wish, build};
use crate::definitions::Definitions;
use crate::given::Given;
use crate::job::{Citation, ClassSlot, Kind, Record, Reference};
use crate::outcome::{Built, Mark};
use crate::refusal::{LDC_ABOVE_255, NO_LDC_SLOT, NO_SLOT, Refusal};
use crate::resolve::Resolver;
use crate::settings::Settings;
use crate::slots::{HIGHEST_LDC_SLOT, Slots};
use crate::store::{Id, Resolved};
use std::collections::BTreeMap;

pub fn in_turn<'a>(records: &'a [Record<'a>]) -> Result<Built, Refusal> {
    let last = records.len() - 1;
    let end = records
        .iter()
        .position(|record| *record == Record::EndOfDefinitions)
        .expect("the form pass sees to record 50");
    let at = |place| move |code| Refusal::at(code, place);

    let mut definitions = Definitions::default();
    for (place, record) in records.iter().enumerate().take(end) {
        definitions.take(place, record).map_err(at(place))?;
    }
    let mut run = Run::end_of_definitions(definitions).map_err(at(end))?;
    for (place, record) in records.iter().enumerate().take(last).skip(end + 1) {
        run.ask(record).map_err(at(place))?;
    }
    run.build(&records[last], last)
}

/// What a run is after record 50.
struct Run<'a> {
    settings: Settings,
    resolver: Resolver<'a>,
    raw_bootstraps: BTreeMap<u16, Id>,
    given: Given,
    answers: Vec<(u16, Mark)>,
}

impl<'a> Run<'a> {
    /// "Record 50 resolves raw constants by rising slot, then raw bootstraps by rising index."
    fn end_of_definitions(definitions: Definitions<'a>) -> Result<Self, u8> {
        let settings = definitions.settings;
        let slots = Slots::between(&definitions.raw_held(), settings.highest);
        let raw_constants = definitions.raw_constants.clone();
        let raw_bootstraps = definitions.raw_bootstraps.clone();
        let mut resolver = Resolver::new(definitions);
        let raw_constants = resolve_raw(&mut resolver, Kind::Constant, raw_constants)?;
        let raw_bootstraps = resolve_raw(&mut resolver, Kind::Bootstrap, raw_bootstraps)?;
        Ok(Run {
            settings,
            resolver,
            raw_bootstraps,
            given: Given::new(slots, raw_constants),
            answers: vec![],
        })
    }

    /// 12 and 13, then 14 or 15, then 16.
    fn ask(&mut self, record: &Record<'a>) -> Result<(), u8> {
        let Record::Ask { citation, ldc } = *record else {
            unreachable!("the form pass leaves only requests between 50 and 60");
        };
        let (slot, mark) = match self.resolver.resolve(citation)? {
            Resolved::Raw(slot) => (slot, Mark::Raw),
            Resolved::Stored(id) => {
                let given = self.given.slot(&self.resolver.store, id, ldc);
                given.ok_or(if ldc { NO_LDC_SLOT } else { NO_SLOT })?
            }
        };
        if ldc && slot > HIGHEST_LDC_SLOT {
            return Err(LDC_ABOVE_255);
        }
        self.answers.push((slot, mark));
        Ok(())
    }

    /// 14, 17 and 24 give the lowest record number of what they are of, and the build record for the name.
    fn build(mut self, record: &Record<'a>, place: usize) -> Result<Built, Refusal> {
        let Record::Build { name, class } = *record else {
            unreachable!("the form pass leaves 60 as the last record");
        };
        let class_slot = match class {
            ClassSlot::Slot(slot) => slot,
            ClassSlot::Request(request) => self.answers[usize::from(request)].0,
        };
        let wish = Wish {
            settings: self.settings,
            name,
            class_slot,
        };
        let store = &mut self.resolver.store;
        let made = build(store, self.given, &self.raw_bootstraps, wish);
        let made = made.map_err(|Met { code, of }| Refusal {
            code,
            place: of.map_or(place, |id| self.resolver.store.lowest(id)),
            building: Some(place),
        })?;
        Ok(Built {
            answers: self.answers,
            pool: made.pool,
            bootstrap_count: made.bootstrap_count,
            bootstraps: made.bootstraps,
            name_slot: made.name_slot,
            class_name: made.class_name,
            visits: self.resolver.visits,
        })
    }
}

/// Resolves the entries of raw definitions, rising.
fn resolve_raw(
    resolver: &mut Resolver,
    kind: Kind,
    raw: BTreeMap<u16, u16>,
) -> Result<BTreeMap<u16, Id>, u8> {
    let mut resolved = BTreeMap::new();
    for (at, entry) in raw {
        let reference = Reference::Entry(entry);
        match resolver.resolve(Citation { kind, reference })? {
            Resolved::Stored(id) => _ = resolved.insert(at, id),
            Resolved::Raw(_) => unreachable!("an entry is no raw number"),
        }
    }
    Ok(resolved)
}

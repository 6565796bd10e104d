//! Building (document 01, "Building"), with 14, 17 and 24.

use crate::bootstraps::{Bootstraps, Numbers};
use crate::given::Given;
use crate::job::{NameWish, TEXT};
use crate::pool::{Pool, PoolEntry};
use crate::refusal::{NO_INDEX, NO_SLOT, TOO_NEW};
use crate::settings::Settings;
use crate::store::{Id, Resolved, Store, Stored};
use std::collections::BTreeMap;

const NAME: &[u8] = b"BootstrapMethods";

/// What is built for, and what the build record asks.
pub struct Wish {
    pub settings: Settings,
    pub name: NameWish,
    pub class_slot: u16,
}

/// A refusal number that is met, and what it is of: the constant without a slot, the bootstrap without an index or the constant
/// judged. Without any it is the name.
pub struct Met {
    pub code: u8,
    pub of: Option<Id>,
}

impl Met {
    fn of(id: Id, code: u8) -> Self {
        let of = Some(id);
        Met { code, of }
    }
}

pub struct Made {
    pub pool: Vec<u8>,
    pub bootstrap_count: usize,
    pub bootstraps: Vec<u8>,
    pub name_slot: u16,
    pub class_name: Option<Vec<u8>>,
}

pub fn build<'a>(
    store: &mut Store<'a>,
    mut given: Given,
    raw_bootstraps: &BTreeMap<u16, Id>,
    wish: Wish,
) -> Result<Made, Met> {
    let raw = raw_numbers(store, &mut given, raw_bootstraps)?;
    let mut bootstraps = Bootstraps::new(raw);
    let mut entries = BTreeMap::new();
    while let Some((slot, id)) = given.stack.pop() {
        if !wish.settings.has_kind(store.get(id).tag) {
            return Err(Met::of(id, TOO_NEW));
        }
        let entry = pool_entry(store, &mut given, &mut bootstraps, id)?;
        entries.insert(slot, entry);
    }
    bootstraps.finish();
    let wanted = match wish.name {
        NameWish::Always => true,
        NameWish::IfPresent => bootstraps.count > 0,
        NameWish::Never => false,
    };
    let name_slot = match wanted {
        true => give_name(store, &mut given, &mut entries)?,
        false => 0,
    };
    let pool = Pool {
        count: given.count(),
        entries,
    };
    Ok(Made {
        pool: pool.bytes(),
        bootstrap_count: bootstraps.count.into(),
        bootstraps: bootstraps.bytes,
        name_slot,
        class_name: pool.class_name(wish.class_slot),
    })
}

/// "Raw bootstraps get their children's slots by falling index, handle first, then arguments."
fn raw_numbers(
    store: &Store,
    given: &mut Given,
    raw_bootstraps: &BTreeMap<u16, Id>,
) -> Result<BTreeMap<u16, Numbers>, Met> {
    let falling = raw_bootstraps.iter().rev();
    falling
        .map(|(index, id)| Ok((*index, slots(store, given, *id)?)))
        .collect()
}

/// The slots of a bootstrap's children, each by an ordinary request.
fn slots(store: &Store, given: &mut Given, bootstrap: Id) -> Result<Numbers, Met> {
    let children = store.get(bootstrap).children.iter();
    children.map(|child| slot(store, given, *child)).collect()
}

fn slot(store: &Store, given: &mut Given, child: Resolved) -> Result<u16, Met> {
    match child {
        Resolved::Raw(slot) => Ok(slot),
        Resolved::Stored(id) => {
            let given = given.slot(store, id, false);
            given.map_or(Err(Met::of(id, NO_SLOT)), |(slot, _)| Ok(slot))
        }
    }
}

/// A constant from the stack, which "resolves its children in field order".
fn pool_entry<'a>(
    store: &Store<'a>,
    given: &mut Given,
    bootstraps: &mut Bootstraps,
    id: Id,
) -> Result<PoolEntry<'a>, Met> {
    let constant = store.get(id);
    let mut numbers = vec![];
    for child in &constant.children {
        numbers.push(match child {
            Resolved::Stored(id) if store.get(*id).is_bootstrap() => {
                let slots = slots(store, given, *id)?;
                let index = bootstraps.index(slots);
                index.ok_or(Met::of(*id, NO_INDEX))?
            }
            child => slot(store, given, *child)?,
        });
    }
    Ok(PoolEntry {
        tag: constant.tag,
        literal: constant.literal,
        numbers,
    })
}

/// "The name, if wanted, gets a slot last, as an ordinary request." For it the place "stays the build record".
fn give_name<'a>(
    store: &mut Store<'a>,
    given: &mut Given,
    entries: &mut BTreeMap<u16, PoolEntry<'a>>,
) -> Result<u16, Met> {
    let id = store.put(Stored {
        tag: TEXT,
        literal: NAME,
        children: vec![],
    });
    let none = Met {
        code: NO_SLOT,
        of: None,
    };
    let (slot, _) = given.slot(store, id, false).ok_or(none)?;
    let entry = PoolEntry {
        tag: TEXT,
        literal: NAME,
        numbers: vec![],
    };
    entries.insert(slot, entry);
    Ok(slot)
}

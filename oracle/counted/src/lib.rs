//! The module of package `krakatau` with one line added by `visits.patch`: it counts the items
//! that the loop of `resolve` takes from its stack.

use std::cell::Cell;

include!(concat!(env!("OUT_DIR"), "/root.rs"));

#[path = "../../krakatau/root/mstr.rs"]
pub mod util;

thread_local! {
    static VISITS: Cell<u64> = const { Cell::new(0) };
}

/// Called by the added line.
pub(crate) fn visit() {
    VISITS.set(VISITS.get() + 1);
}

pub fn reset_visits() {
    VISITS.set(0);
}

/// Items taken since the last reset on this thread.
pub fn visits() -> u64 {
    VISITS.get()
}

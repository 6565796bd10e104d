//! What records 47 and 49 of document 02 say of a job.

/// Without record 49.
pub const HIGHEST_SLOT: u16 = 65_534;

/// Without record 47: a version that has every kind.
const NEWEST: u16 = u16::MAX;

#[derive(Clone, Copy)]
pub struct Settings {
    /// "Every 65534 in the slot rules becomes that number."
    pub highest: u16,
    pub version: u16,
}

impl Default for Settings {
    fn default() -> Self {
        Settings {
            highest: HIGHEST_SLOT,
            version: NEWEST,
        }
    }
}

impl Settings {
    /// Whether the version has constants of this tag.
    pub fn has_kind(&self, tag: u8) -> bool {
        self.version >= first_version(tag)
    }
}

/// "Kinds 15, 16 and 18 need 51, kinds 19 and 20 need 53, and kind 17 needs 55."
fn first_version(tag: u8) -> u16 {
    match tag {
        15 | 16 | 18 => 51,
        19 | 20 => 53,
        17 => 55,
        _ => 0,
    }
}

/// 26: it must be from 1 to 65534.
pub fn is_highest_slot(highest: u16) -> bool {
    (1..=HIGHEST_SLOT).contains(&highest)
}

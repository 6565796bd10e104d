//! Texts as JVMS 4.4.7 has them, and their sixteen-bit units.

use crate::{Refusal, library};

/// No form of a unit is longer.
const LONGEST_FORM: usize = 3;

/// The units of a text: 25 if it doesn't pass JVMS 4.4.7.
pub fn units_of(text: &[u8]) -> Result<Vec<u16>, Refusal> {
    let mut units = vec![0; text.len()];
    let count = units_of_into(text, &mut units)?;
    units.truncate(count);
    Ok(units)
}

/// Any row of units as a text, in the form that JVMS 4.4.7 lays down for each.
pub fn text_of(units: &[u16]) -> Vec<u8> {
    let mut text = vec![0; LONGEST_FORM * units.len()];
    let length = text_of_into(units, &mut text).expect("there is room for every form");
    text.truncate(length);
    text
}

/// As `units_of`, to a prefix of `units`, whose length is the answer; 18 if they don't fit. A refusal writes nothing.
pub fn units_of_into(text: &[u8], units: &mut [u16]) -> Result<usize, Refusal> {
    library::read_text(text, units)
}

/// As `text_of`, to a prefix of `text`, whose length is the answer; 18 if it doesn't fit. A refusal writes nothing.
pub fn text_of_into(units: &[u16], text: &mut [u8]) -> Result<usize, Refusal> {
    library::write_text(units, text)
}

//! The finished pool: its bytes, and the class name that is read from it.

use crate::job::{CLASS, TEXT, is_wide};
use std::collections::BTreeMap;

/// A constant with the slots and the index that its children got.
pub struct PoolEntry<'a> {
    pub tag: u8,
    pub literal: &'a [u8],
    pub numbers: Vec<u16>,
}

pub struct Pool<'a> {
    pub count: u16,
    pub entries: BTreeMap<u16, PoolEntry<'a>>,
}

/// "Slots nobody owns hold the empty text."
static UNOWNED: PoolEntry = PoolEntry {
    tag: TEXT,
    literal: &[],
    numbers: vec![],
};

impl<'a> Pool<'a> {
    /// "The pool is that count, then the entries below it."
    pub fn bytes(&self) -> Vec<u8> {
        let mut bytes = self.count.to_be_bytes().to_vec();
        for slot in 1..self.count {
            if let Some(entry) = self.held(slot) {
                entry.write(&mut bytes);
            }
        }
        bytes
    }

    /// "A slot at or past the count counts as empty text, slot 0 as nothing." The second half of a wide constant holds nothing either.
    fn held(&self, slot: u16) -> Option<&PoolEntry<'a>> {
        if let Some(entry) = self.entries.get(&slot) {
            return Some(entry);
        }
        let before = self.entries.get(&slot.checked_sub(1)?);
        let owned = before.is_some_and(|entry| is_wide(entry.tag));
        (!owned).then_some(&UNOWNED)
    }

    /// "A class name is given if the class slot holds a Class whose slot holds a text."
    pub fn class_name(&self, class_slot: u16) -> Option<Vec<u8>> {
        let class = self.held(class_slot).filter(|entry| entry.tag == CLASS)?;
        let text = self.held(class.numbers[0]);
        let text = text.filter(|entry| entry.tag == TEXT)?;
        Some(text.literal.to_vec())
    }
}

impl PoolEntry<'_> {
    /// JVMS 4.4: the tag, a text's length, the literal or kind byte, the numbers.
    fn write(&self, bytes: &mut Vec<u8>) {
        bytes.push(self.tag);
        if self.tag == TEXT {
            let length = u16::try_from(self.literal.len()).expect("a text's length has two bytes");
            bytes.extend(length.to_be_bytes());
        }
        bytes.extend(self.literal);
        for number in &self.numbers {
            bytes.extend(number.to_be_bytes());
        }
    }
}

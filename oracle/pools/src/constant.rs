//! The entries of a constant pool (JVMS 4.4) and the bootstrap methods (JVMS 4.7.23). Only their form is judged.

use crate::bytes::Bytes;

pub const TAGS: [u8; 17] = [1, 3, 4, 5, 6, 7, 8, 9, 10, 11, 12, 15, 16, 17, 18, 19, 20];

#[derive(Clone, Debug, PartialEq, Eq)]
pub enum Constant {
    Text(Vec<u8>),
    Int(i32),
    Float(u32),
    Long(i64),
    Double(u64),
    Handle {
        kind: u8,
        reference: u16,
    },
    /// Class, String, MethodType, Module, Package: a tag and a slot.
    One(u8, u16),
    /// The members, NameAndType, Dynamic, InvokeDynamic: a tag and two numbers.
    Two(u8, u16, u16),
}

#[derive(Clone, Debug, PartialEq, Eq)]
pub struct Bootstrap {
    pub handle: u16,
    pub arguments: Vec<u16>,
}

impl Constant {
    pub fn tag(&self) -> u8 {
        match self {
            Constant::Text(_) => 1,
            Constant::Int(_) => 3,
            Constant::Float(_) => 4,
            Constant::Long(_) => 5,
            Constant::Double(_) => 6,
            Constant::Handle { .. } => 15,
            Constant::One(tag, _) | Constant::Two(tag, _, _) => *tag,
        }
    }

    pub fn is_wide(&self) -> bool {
        matches!(self, Constant::Long(_) | Constant::Double(_))
    }

    fn read(from: &mut Bytes) -> Option<Self> {
        Some(match from.u1()? {
            1 => {
                let length = from.u2()?;
                Constant::Text(from.take(length.into())?.to_vec())
            }
            3 => Constant::Int(i32::from_be_bytes(from.array()?)),
            4 => Constant::Float(from.u4()?),
            5 => Constant::Long(i64::from_be_bytes(from.array()?)),
            6 => Constant::Double(u64::from_be_bytes(from.array()?)),
            tag @ (7 | 8 | 16 | 19 | 20) => Constant::One(tag, from.u2()?),
            tag @ (9..=12 | 17 | 18) => Constant::Two(tag, from.u2()?, from.u2()?),
            15 => Constant::Handle {
                kind: from.u1()?,
                reference: from.u2()?,
            },
            _ => return None,
        })
    }

    /// Appends the entry. A text longer than 65,535 panics.
    pub fn write(&self, out: &mut Vec<u8>) {
        out.push(self.tag());
        match self {
            Constant::Text(text) => {
                number(out, text.len().try_into().expect("a text fits its length"));
                out.extend_from_slice(text);
            }
            Constant::Int(value) => out.extend(value.to_be_bytes()),
            Constant::Float(bits) => out.extend(bits.to_be_bytes()),
            Constant::Long(value) => out.extend(value.to_be_bytes()),
            Constant::Double(bits) => out.extend(bits.to_be_bytes()),
            Constant::Handle { kind, reference } => {
                out.push(*kind);
                number(out, *reference);
            }
            Constant::One(_, slot) => number(out, *slot),
            Constant::Two(_, first, second) => {
                number(out, *first);
                number(out, *second);
            }
        }
    }
}

fn number(out: &mut Vec<u8>, value: u16) {
    out.extend(value.to_be_bytes());
}

/// The slots of a pool: slot 0 and the second slot of a wide constant hold none.
#[derive(Clone, Debug, PartialEq, Eq)]
pub struct Pool {
    slots: Vec<Option<Constant>>,
}

impl Pool {
    /// The pool at the front of `from`, which goes on behind it.
    pub fn read_front(from: &mut Bytes) -> Option<Self> {
        let count = usize::from(from.u2()?);
        let mut slots = vec![None];
        while slots.len() < count {
            let constant = Constant::read(from)?;
            let wide = constant.is_wide();
            slots.push(Some(constant));
            if wide {
                slots.push(None);
            }
        }
        // a count of 0, or a wide constant that begins in the last slot
        (slots.len() == count).then_some(Self { slots })
    }

    /// The pool that the bytes are, all of them.
    pub fn read(bytes: &[u8]) -> Option<Self> {
        let mut from = Bytes::new(bytes);
        let pool = Self::read_front(&mut from)?;
        (from.left() == 0).then_some(pool)
    }

    pub fn get(&self, slot: u16) -> Option<&Constant> {
        self.slots.get(usize::from(slot))?.as_ref()
    }

    pub fn constants(&self) -> impl Iterator<Item = (u16, &Constant)> {
        let numbered = (0..=u16::MAX).zip(&self.slots);
        numbered.filter_map(|(slot, constant)| Some((slot, constant.as_ref()?)))
    }
}

/// The bytes of a pool of these constants, in a row from slot 1.
pub fn pool_of(constants: &[Constant]) -> Vec<u8> {
    let slots: usize = constants.iter().map(|c| 1 + usize::from(c.is_wide())).sum();
    let mut out = Vec::new();
    number(
        &mut out,
        (1 + slots).try_into().expect("a pool fits its count"),
    );
    constants.iter().for_each(|c| c.write(&mut out));
    out
}

/// So many bootstrap methods, and nothing behind them.
pub fn read_bootstraps(count: u16, bytes: &[u8]) -> Option<Vec<Bootstrap>> {
    let mut from = Bytes::new(bytes);
    let mut methods = Vec::new();
    for _ in 0..count {
        let handle = from.u2()?;
        let arguments = from.u2()?;
        let arguments = (0..arguments).map(|_| from.u2()).collect::<Option<_>>()?;
        methods.push(Bootstrap { handle, arguments });
    }
    (from.left() == 0).then_some(methods)
}

pub fn bootstraps_of(methods: &[Bootstrap]) -> Vec<u8> {
    let mut out = Vec::new();
    for method in methods {
        number(&mut out, method.handle);
        number(
            &mut out,
            method
                .arguments
                .len()
                .try_into()
                .expect("arguments fit their count"),
        );
        method.arguments.iter().for_each(|a| number(&mut out, *a));
    }
    out
}

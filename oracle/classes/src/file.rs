//! The frame of JVMS 4.1 with no interfaces, fields and methods, and with BootstrapMethods (4.7.23) as its one attribute, if any.

use pools::bytes::Bytes;
use pools::constant::{Constant, Pool, read_bootstraps};

const MAGIC: [u8; 4] = [0xca, 0xfe, 0xba, 0xbe];
const NAME: &[u8] = b"BootstrapMethods";
/// The attribute's length has four bytes, and counts two more than these.
const MOST_BOOTSTRAP_BYTES: usize = u32::MAX as usize - 2;

#[derive(Clone, Debug, PartialEq, Eq)]
pub struct Parts {
    pub minor: u16,
    pub major: u16,
    pub pool: Vec<u8>,
    pub access: u16,
    pub this_class: u16,
    pub super_class: u16,
    /// The slot of the attribute's name, 0 if there is no attribute.
    pub name: u16,
    pub count: u16,
    pub bootstraps: Vec<u8>,
}

#[derive(Clone, Copy, Debug, PartialEq, Eq)]
pub enum Refused {
    OutsideTheFrame = 27,
    TooLong = 18,
}

impl Parts {
    /// All but the pool and the bootstraps.
    pub fn numbers(&self) -> [u16; 7] {
        [
            self.minor,
            self.major,
            self.access,
            self.this_class,
            self.super_class,
            self.name,
            self.count,
        ]
    }

    fn make_a_file(&self) -> bool {
        let Some(pool) = Pool::read(&self.pool) else {
            return false;
        };
        let named = match self.name {
            0 => self.count == 0 && self.bootstraps.is_empty(),
            slot => pool.get(slot) == Some(&Constant::Text(NAME.to_vec())),
        };
        named
            && read_bootstraps(self.count, &self.bootstraps).is_some()
            && self.bootstraps.len() <= MOST_BOOTSTRAP_BYTES
    }

    /// The file for a room of so many bytes.
    pub fn write(&self, room: usize) -> Result<Vec<u8>, Refused> {
        if !self.make_a_file() {
            return Err(Refused::OutsideTheFrame);
        }
        let mut file = MAGIC.to_vec();
        let numbers = |file: &mut Vec<u8>, all: &[u16]| {
            all.iter().for_each(|n| file.extend(n.to_be_bytes()));
        };
        numbers(&mut file, &[self.minor, self.major]);
        file.extend(&self.pool);
        numbers(&mut file, &[self.access, self.this_class, self.super_class]);
        numbers(&mut file, &[0, 0, 0, u16::from(self.name != 0)]);
        if self.name != 0 {
            numbers(&mut file, &[self.name]);
            file.extend((self.bootstraps.len() as u32 + 2).to_be_bytes());
            numbers(&mut file, &[self.count]);
            file.extend(&self.bootstraps);
        }
        if file.len() <= room {
            Ok(file)
        } else {
            Err(Refused::TooLong)
        }
    }

    /// The parts of a file, and where its pool ends.
    pub fn read(file: &[u8]) -> Option<(Self, usize)> {
        let mut from = Bytes::new(file);
        if from.array()? != MAGIC {
            return None;
        }
        let [minor, major] = [from.u2()?, from.u2()?];
        Pool::read_front(&mut from)?;
        let pool_end = file.len() - from.left();
        let [access, this_class, super_class] = [from.u2()?, from.u2()?, from.u2()?];
        let none_of_each = [from.u2()?, from.u2()?, from.u2()?] == [0; 3];
        let mut parts = Self {
            minor,
            major,
            pool: file[8..pool_end].to_vec(),
            access,
            this_class,
            super_class,
            name: 0,
            count: 0,
            bootstraps: Vec::new(),
        };
        let attributes = from.u2()?;
        if attributes > 0 {
            parts.name = from.u2()?;
            let length = from.u4()? as usize;
            if length != from.left() {
                return None;
            }
            parts.count = from.u2()?;
            parts.bootstraps = from.take(from.left())?.to_vec();
        }
        let whole = from.left() == 0 && attributes == u16::from(parts.name != 0);
        (none_of_each && whole && parts.make_a_file()).then_some((parts, pool_end))
    }
}

//! Big-endian numbers taken from the front of bytes, as the tables of JVMS 4 have them.

pub struct Bytes<'a> {
    left: &'a [u8],
}

impl<'a> Bytes<'a> {
    pub fn new(all: &'a [u8]) -> Self {
        Self { left: all }
    }

    pub fn left(&self) -> usize {
        self.left.len()
    }

    pub fn take(&mut self, count: usize) -> Option<&'a [u8]> {
        let (first, rest) = self.left.split_at_checked(count)?;
        self.left = rest;
        Some(first)
    }

    pub fn array<const N: usize>(&mut self) -> Option<[u8; N]> {
        self.take(N)?.try_into().ok()
    }

    pub fn u1(&mut self) -> Option<u8> {
        self.array().map(u8::from_be_bytes)
    }

    pub fn u2(&mut self) -> Option<u16> {
        self.array().map(u16::from_be_bytes)
    }

    pub fn u4(&mut self) -> Option<u32> {
        self.array().map(u32::from_be_bytes)
    }
}

//! The frames that the program `trace_run` reads, and the line that it must print for one.

use crate::count::count;
use pools::frame::{next_part, read_array, read_part, write_part};
use std::fmt::Write as _;
use std::io::{self, Read, Write};

/// A pool, a trace, and a table of flags: its length and what is written into its zeros.
#[derive(Clone, Debug, PartialEq, Eq)]
pub struct Frame {
    pub pool: Vec<u8>,
    pub trace: Vec<u8>,
    pub length: u32,
    pub set: Vec<(u16, u8)>,
}

impl Frame {
    pub fn write(&self, out: &mut impl Write) -> io::Result<()> {
        write_part(out, &self.pool)?;
        write_part(out, &self.trace)?;
        out.write_all(&self.length.to_be_bytes())?;
        let number = u16::try_from(self.set.len()).expect("their number fits two bytes");
        out.write_all(&number.to_be_bytes())?;
        for (slot, value) in &self.set {
            out.write_all(&slot.to_be_bytes())?;
            out.write_all(&[*value])?;
        }
        Ok(())
    }

    /// The next frame, or none where the input ends.
    pub fn read(input: &mut impl Read) -> io::Result<Option<Self>> {
        let Some(pool) = next_part(input)? else {
            return Ok(None);
        };
        let trace = read_part(input)?;
        let [a, b, c, d, high, low] = read_array(input)?;
        let set = (0..u16::from_be_bytes([high, low])).map(|_| {
            let [high, low, value] = read_array(input)?;
            Ok((u16::from_be_bytes([high, low]), value))
        });
        let set = set.collect::<io::Result<_>>()?;
        Ok(Some(Self {
            pool,
            trace,
            length: u32::from_be_bytes([a, b, c, d]),
            set,
        }))
    }

    pub fn flags(&self) -> Vec<u8> {
        let mut flags = vec![0; self.length as usize];
        for (slot, value) in &self.set {
            flags[usize::from(*slot)] = *value;
        }
        flags
    }

    /// The counts or the refusal, then every flag that isn't 0 at the end.
    pub fn answer(&self) -> String {
        let mut flags = self.flags();
        let mut line = match count(&self.pool, &self.trace, &mut flags) {
            Ok(c) => format!("good {} failed {} rested {}", c.good, c.failed, c.rested),
            Err(code) => format!("refused {}", code as u8),
        };
        line.push_str(" flags");
        for (slot, value) in flags.iter().enumerate().filter(|(_, value)| **value != 0) {
            write!(line, " {slot}={value}").expect("a string takes all text");
        }
        line.push('\n');
        line
    }
}

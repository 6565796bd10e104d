//! The frames that the program `poollist` reads, and what it must print for one: the lines or a refusal, and an empty line.

use crate::listing::{self, Refused};
use jobs::stream::read_frame;
use std::io::{self, Read, Write};

/// A part of a frame is written as a job is.
pub use jobs::stream::frame as write_part;

/// The room that `poollist` has for a pool, for its bootstrap methods, and for a text.
pub const POOL_ROOM: usize = 1 << 20;
pub const BOOTSTRAPS_ROOM: usize = 1 << 17;
pub const ROOM: usize = 1 << 22;

/// A pool, the count of bootstrap methods and their bytes, with their lengths before them.
#[derive(Clone, Debug, PartialEq, Eq)]
pub struct Frame {
    pub pool: Vec<u8>,
    pub count: u16,
    pub bootstraps: Vec<u8>,
}

impl Frame {
    pub fn write(&self, out: &mut impl Write) -> io::Result<()> {
        write_part(out, &self.pool)?;
        out.write_all(&self.count.to_be_bytes())?;
        write_part(out, &self.bootstraps)
    }

    /// The next frame, or none where the input ends.
    pub fn read(input: &mut impl Read) -> io::Result<Option<Self>> {
        let Some(pool) = next_part(input)? else {
            return Ok(None);
        };
        Ok(Some(Self {
            pool,
            count: u16::from_be_bytes(read_array(input)?),
            bootstraps: read_part(input)?,
        }))
    }

    pub fn answer(&self) -> Vec<u8> {
        let listed = self.list();
        let mut answer = listed.unwrap_or_else(|code| format!("refused {}\n", code as u8).into());
        answer.push(b'\n');
        answer
    }

    /// What has no room isn't read, whatever it is.
    fn list(&self) -> Result<Vec<u8>, Refused> {
        if self.pool.len() > POOL_ROOM || self.bootstraps.len() > BOOTSTRAPS_ROOM {
            return Err(Refused::TooLong);
        }
        listing::list(ROOM, &self.pool, self.count, &self.bootstraps)
    }
}

/// A part, or none where the input ends before it.
pub fn next_part(input: &mut impl Read) -> io::Result<Option<Vec<u8>>> {
    read_frame(input, u32::MAX)
}

pub fn read_part(input: &mut impl Read) -> io::Result<Vec<u8>> {
    next_part(input)?.ok_or(io::ErrorKind::UnexpectedEof.into())
}

pub fn read_array<const N: usize>(input: &mut impl Read) -> io::Result<[u8; N]> {
    let mut bytes = [0; N];
    input.read_exact(&mut bytes)?;
    Ok(bytes)
}

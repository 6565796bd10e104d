//! The frames that the program `class_file_run` reads, and the line that it must print for one.

use crate::file::Parts;
use jobs::hex::hex;
use pools::frame::{read_array, read_part, write_part};
use std::io::{self, Read, Write};

/// The room that `class_file_run` lends for a file.
pub const ROOM: usize = 196_608;

const WRITE: u8 = 0;
const READ: u8 = 1;

#[derive(Clone, Debug, PartialEq, Eq)]
pub enum Frame {
    Write(Parts),
    Read(Vec<u8>),
}

impl Frame {
    pub fn write(&self, out: &mut impl Write) -> io::Result<()> {
        match self {
            Frame::Write(parts) => {
                out.write_all(&[WRITE])?;
                for number in parts.numbers() {
                    out.write_all(&number.to_be_bytes())?;
                }
                write_part(out, &parts.pool)?;
                write_part(out, &parts.bootstraps)
            }
            Frame::Read(file) => {
                out.write_all(&[READ])?;
                write_part(out, file)
            }
        }
    }

    /// The next frame, or none where the input ends.
    pub fn read(input: &mut impl Read) -> io::Result<Option<Self>> {
        let mut kind = [0];
        if input.read(&mut kind)? == 0 {
            return Ok(None);
        }
        if kind == [READ] {
            return Ok(Some(Frame::Read(read_part(input)?)));
        }
        let mut number = || read_array(input).map(u16::from_be_bytes);
        // in the order of `numbers`
        Ok(Some(Frame::Write(Parts {
            minor: number()?,
            major: number()?,
            access: number()?,
            this_class: number()?,
            super_class: number()?,
            name: number()?,
            count: number()?,
            pool: read_part(input)?,
            bootstraps: read_part(input)?,
        })))
    }

    pub fn answer(&self) -> String {
        match self {
            Frame::Write(parts) => match parts.write(ROOM) {
                Ok(file) => file_line(&file),
                Err(code) => format!("refused {}\n", code as u8),
            },
            Frame::Read(file) => match Parts::read(file) {
                Some((parts, pool_end)) => parts_line(&parts, pool_end, file.len()),
                None => "refused 27\n".into(),
            },
        }
    }
}

pub fn file_line(file: &[u8]) -> String {
    format!("file {}\n", hex(file))
}

/// The numbers, with the places where the pool ends and the bootstraps begin.
fn parts_line(parts: &Parts, pool_end: usize, length: usize) -> String {
    let [minor, major, access, this_class, super_class, name, count] = parts.numbers();
    let at = length - parts.bootstraps.len();
    format!(
        "parts {minor} {major} {pool_end} {access} {this_class} {super_class} {name} {count} {at}\n"
    )
}

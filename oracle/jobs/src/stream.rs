//! Streams of framed jobs: a four-byte big-endian length, then the job's bytes.

use crate::random::Random;
use crate::record::encode;
use crate::{damaged, heavy, lowest, pairs, settings, small, worked};
use std::io::{self, ErrorKind, Read, Write};
use std::iter;

/// One step of a seeded kind: a job, or two that belong together.
pub type Step = fn(&mut Random) -> Vec<Vec<u8>>;

pub fn seeded(kind: &str) -> Option<Step> {
    Some(match kind {
        "small" => |random| vec![encode(&small::small_job(random))],
        "ldcfull" => |random| vec![encode(&small::ldc_full_job(random))],
        "damaged" => |random| vec![damaged::damaged_job(random)],
        "pairs" => |random| both(pairs::literal_pair(random)),
        "settings" => |random| vec![encode(&settings::settings_job(random))],
        "settings_damaged" => |random| vec![settings::damaged_settings_job(random)],
        "settings_pairs" => |random| both(pairs::settings_pair(random)),
        "lowest" => |random| vec![encode(&lowest::lowest_job(random))],
        "lowest_full" => |random| vec![encode(&lowest::lowest_full_job(random))],
        "lowest_pairs" => |random| both(pairs::lowest_pair(random)),
        "worked" => |random| vec![encode(&worked::worked_job(random))],
        "worked_damaged" => |random| vec![worked::damaged_worked_job(random)],
        "worked_pairs" => |random| both(worked::worked_pair(random)),
        "orders" => |random| both(pairs::order_pair(random)),
        "worked_orders" => |random| both(pairs::worked_order_pair(random)),
        _ => return None,
    })
}

/// The jobs of `generate KIND SEED`, without end.
pub fn endless(kind: &str, seed: u64) -> Option<impl Iterator<Item = Vec<u8>> + Send + use<>> {
    let step = seeded(kind)?;
    let mut random = Random::new(seed);
    Some(iter::repeat_with(move || step(&mut random)).flatten())
}

fn both((first, second): pairs::Pair) -> Vec<Vec<u8>> {
    vec![encode(&first), encode(&second)]
}

pub fn heavy_jobs() -> impl Iterator<Item = Vec<u8>> {
    heavy::LIST.iter().map(|(_, make)| make())
}

pub fn frame(out: &mut impl Write, job: &[u8]) -> io::Result<()> {
    let length = u32::try_from(job.len()).expect("a job's length fits four bytes");
    out.write_all(&length.to_be_bytes())?;
    out.write_all(job)
}

/// The next frame, or none where the input ends between frames.
pub fn read_frame(input: &mut impl Read, longest: u32) -> io::Result<Option<Vec<u8>>> {
    let mut length = Vec::new();
    input.by_ref().take(4).read_to_end(&mut length)?;
    if length.is_empty() {
        return Ok(None);
    }
    let length = length.try_into().map_err(|_| ErrorKind::UnexpectedEof)?;
    let length = u32::from_be_bytes(length);
    if length > longest {
        let text = format!("a frame of {length} bytes is over {longest}");
        return Err(io::Error::new(ErrorKind::InvalidData, text));
    }
    let mut frame = Vec::new();
    input.by_ref().take(length.into()).read_to_end(&mut frame)?;
    if frame.len() == length as usize {
        Ok(Some(frame))
    } else {
        Err(ErrorKind::UnexpectedEof.into())
    }
}

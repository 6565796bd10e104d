//! Framed jobs: four big-endian bytes of length, then so many bytes.

use jobs::stream::read_frame;
use std::io::{self, ErrorKind, Read};

const LONGEST_FRAME: u32 = 64 << 20;

/// The next frame, or `None` where the input ends between frames.
pub fn next_frame(input: &mut impl Read) -> io::Result<Option<Vec<u8>>> {
    read_frame(input, LONGEST_FRAME).map_err(|error| match error.kind() {
        kind @ ErrorKind::UnexpectedEof => io::Error::new(kind, "the last frame is cut"),
        _ => error,
    })
}

#[cfg(test)]
mod tests {
    use super::*;

    #[test]
    fn frames_come_one_by_one() {
        let mut input = &[0, 0, 0, 2, 7, 8, 0, 0, 0, 0][..];
        assert_eq!(next_frame(&mut input).unwrap(), Some(vec![7, 8]));
        assert_eq!(next_frame(&mut input).unwrap(), Some(vec![]));
        assert_eq!(next_frame(&mut input).unwrap(), None);
    }

    #[test]
    fn a_cut_frame_is_an_error() {
        for input in [&[0, 0, 0][..], &[0, 0, 0, 2, 7][..]] {
            let error = next_frame(&mut &*input).unwrap_err();
            assert_eq!(error.kind(), ErrorKind::UnexpectedEof);
        }
    }

    #[test]
    fn a_frame_over_64_mib_is_an_error() {
        let error = next_frame(&mut &[4, 0, 0, 1][..]).unwrap_err();
        assert_eq!(error.kind(), ErrorKind::InvalidData);
        // Exactly 64 MiB is allowed, so this one is only cut.
        let error = next_frame(&mut &[4, 0, 0, 0][..]).unwrap_err();
        assert_eq!(error.kind(), ErrorKind::UnexpectedEof);
    }
}

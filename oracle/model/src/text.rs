//! JVMS 4.4.7: which bytes are a text.

/// "No byte 00, none from F0 to FF, all in complete one-, two- or three-byte forms, overlong ones included."
pub fn is_text(mut bytes: &[u8]) -> bool {
    while let [first, rest @ ..] = bytes {
        let behind = match first {
            0x01..=0x7f => 0,
            0xc0..=0xdf => 1,
            0xe0..=0xef => 2,
            _ => return false,
        };
        let Some((others, rest)) = rest.split_at_checked(behind) else {
            return false;
        };
        if !others.iter().all(|byte| (0x80..=0xbf).contains(byte)) {
            return false;
        }
        bytes = rest;
    }
    true
}

#[cfg(test)]
mod tests {
    use super::is_text;

    #[test]
    fn every_text_of_one_byte() {
        for byte in 0..=u8::MAX {
            assert_eq!(is_text(&[byte]), (1..0x80).contains(&byte), "{byte:02x}");
        }
    }

    #[test]
    fn complete_forms_pass() {
        for good in [
            &[][..],
            b"BootstrapMethods",
            &[0xc0, 0x80],
            &[0xc1, 0xbf],
            &[0xdf, 0xbf, 0x7f],
            &[0xe0, 0x80, 0x80],
            &[0xed, 0xa0, 0x80],
            &[0xed, 0xa0, 0x81, 0xed, 0xb0, 0x80],
            &[0x41, 0xef, 0xbf, 0xbf, 0xc3, 0xa9],
        ] {
            assert!(is_text(good), "{good:02x?}");
        }
    }

    #[test]
    fn cut_forms_and_other_bytes_do_not() {
        for bad in [
            &[0x41, 0x00][..],
            &[0x80],
            &[0xc0],
            &[0xc0, 0x7f],
            &[0xc0, 0xc0],
            &[0xdf, 0xbf, 0x80],
            &[0xe0, 0x80],
            &[0xe0, 0x80, 0x41],
            &[0xe0, 0x41, 0x80],
            &[0xf0, 0x9f, 0x98, 0x80],
            &[0x41, 0xff],
        ] {
            assert!(!is_text(bad), "{bad:02x?}");
        }
    }
}

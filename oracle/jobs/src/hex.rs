//! Bytes as hex text, and back.

pub fn hex(bytes: &[u8]) -> String {
    const DIGITS: &[u8; 16] = b"0123456789abcdef";
    let mut text = String::with_capacity(2 * bytes.len());
    for byte in bytes {
        text.push(DIGITS[usize::from(byte >> 4)].into());
        text.push(DIGITS[usize::from(byte & 15)].into());
    }
    text
}

/// The bytes of a text that is nothing but whole bytes in hex.
pub fn parse(text: &str) -> Option<Vec<u8>> {
    let digit = |byte: u8| char::from(byte).to_digit(16);
    let (pairs, odd) = text.as_bytes().as_chunks::<2>();
    let byte = |[high, low]: &[u8; 2]| Some((16 * digit(*high)? + digit(*low)?) as u8);
    odd.is_empty().then(|| pairs.iter().map(byte).collect())?
}

/// The bytes of a text in hex of our own, with spaces anywhere.
pub fn bytes(text: &str) -> Vec<u8> {
    parse(&text.replace(' ', "")).unwrap_or_else(|| panic!("not whole bytes in hex: {text:?}"))
}

#[cfg(test)]
mod tests {
    use super::*;

    #[test]
    fn hex_is_read_back() {
        let all: Vec<u8> = (0..=255).collect();
        assert_eq!(parse(&hex(&all)), Some(all));
        assert_eq!(hex(&[0, 0xaf]), "00af");
        assert_eq!(bytes("0 0 AF"), [0, 0xaf]);
        for wrong in ["0", "0g", "00 af", "ä"] {
            assert_eq!(parse(wrong), None, "{wrong}");
        }
    }
}

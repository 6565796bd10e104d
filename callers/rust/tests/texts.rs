//! Texts and their units, both ways. Forms are put together here from bits, as JVMS 4.4.7 draws them.

mod common;

use common::*;
use rotblossom::{text_of, text_of_into, units_of, units_of_into};

/// The form of a unit, in the fewest bytes but for 0, which takes two.
fn form(unit: u16) -> Vec<u8> {
    let low = |shift: u32| 0x80 | (unit >> shift & 0x3f) as u8;
    match unit {
        0x0001..=0x007f => vec![unit as u8],
        0x0000 | 0x0080..=0x07ff => vec![0xc0 | (unit >> 6) as u8, low(0)],
        0x0800..=0xffff => vec![0xe0 | (unit >> 12) as u8, low(6), low(0)],
    }
}

#[test]
fn each_unit_has_its_form_and_comes_back() {
    for unit in 0..=u16::MAX {
        let text = text_of(&[unit]);
        assert_eq!(text, form(unit), "{unit:04x}");
        assert_eq!(units_of(&text), Ok(vec![unit]), "{unit:04x}");
    }
}

#[test]
fn rows_of_units_come_back() {
    let every: Vec<u16> = (0..=u16::MAX).rev().collect();
    let text = text_of(&every);
    assert_eq!(text.len(), 127 + 2 * 1_921 + 3 * 63_488);
    assert!(units_of(&text) == Ok(every));
    assert_eq!(text_of(&[]), []);
    assert_eq!(units_of(&[]), Ok(vec![]));
}

/// Halves of pairs are read alone or together.
#[test]
fn overlong_forms_and_halves_of_pairs_are_read() {
    for (text, units) in [
        (&b"\xc0\x80"[..], vec![0]),
        (b"\xc1\x81", vec![0x41]),
        (b"\xe0\x80\x80", vec![0]),
        (b"\xe0\x9f\xbf", vec![0x7ff]),
        (b"\xed\xa0\xbd", vec![0xd83d]),
        (b"\xed\xa0\xbd\xed\xb8\x80", vec![0xd83d, 0xde00]),
    ] {
        assert_eq!(units_of(text), Ok(units), "{text:02x?}");
    }
}

#[test]
fn what_is_no_text_is_25() {
    for bytes in [
        &b"\x00"[..],
        b"A\x00A",
        b"\x80",
        b"\xbfA",
        b"A\xc3",
        b"\xc3(",
        b"\xc3\xc3",
        b"\xe2\x82",
        b"\xe2\x82(",
        b"\xe2(\x82",
        b"\xf0\x9f\x98\x80",
        b"\xff",
    ] {
        assert_eq!(units_of(bytes), Err(refusal(25, 0)), "{bytes:02x?}");
    }
}

/// Which first bytes begin a form of one byte, of two and of three.
#[test]
fn each_first_byte_tells_how_long_its_form_is() {
    for first in 0..=u8::MAX {
        let alone = (0x01..=0x7f).contains(&first);
        assert_eq!(units_of(&[first]).is_ok(), alone, "{first:02x}");
        let of_two = (0xc0..=0xdf).contains(&first);
        assert_eq!(units_of(&[first, 0x80]).is_ok(), of_two, "{first:02x}");
        let of_three = (0xe0..=0xef).contains(&first);
        assert_eq!(
            units_of(&[first, 0x80, 0xbf]).is_ok(),
            of_three,
            "{first:02x}"
        );
    }
}

#[test]
fn a_prefix_is_written_and_nothing_behind_it() {
    let mut units = [0xaaaa; 4];
    assert_eq!(units_of_into(b"A\xc2\x80", &mut units), Ok(2));
    assert_eq!(units, [0x41, 0x80, 0xaaaa, 0xaaaa]);
    let mut text = [0xbb; 5];
    assert_eq!(text_of_into(&units[..2], &mut text), Ok(3));
    assert_eq!(text, [0x41, 0xc2, 0x80, 0xbb, 0xbb]);
}

#[test]
fn no_room_is_18_behind_25_and_refusals_write_nothing() {
    let mut units = [0xcccc; 2];
    assert_eq!(units_of_into(b"ABC", &mut units), Err(refusal(18, 0)));
    assert_eq!(units_of_into(b"ABC\x00", &mut units), Err(refusal(25, 0)));
    assert_eq!(units, [0xcccc; 2]);
    let mut text = [0xdd; 4];
    assert_eq!(
        text_of_into(&[0x41, 0, 0x41, 0x80], &mut text),
        Err(refusal(18, 0))
    );
    assert_eq!(text, [0xdd; 4]);
    assert_eq!(text_of_into(&[0x41, 0, 0x41], &mut text), Ok(4));
    assert_eq!(text, [0x41, 0xc0, 0x80, 0x41]);
}

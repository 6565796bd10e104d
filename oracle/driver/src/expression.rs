//! A constant given as an expression (record 46; document 02, No. 3), worked out with Rust's own numbers: the module is given the value.

use jobs::make::{DOUBLE, FLOAT, INT, LONG};
use jobs::record::Constant;

const BAD_EXPRESSION: u8 = 22;
const DIVIDED_BY_ZERO: u8 = 23;

/// So many signs may stand above a leaf.
const SIGNS_ABOVE: usize = 31;

/// How many bytes at the front are an expression, or lead up to its first bad byte, with that. None if it is cut ahead of one.
pub fn length(bytes: &[u8]) -> Option<usize> {
    let (mut at, mut wanted) = (0, 1usize);
    while wanted > 0 {
        match *bytes.get(at)? {
            b'+' | b'-' | b'*' | b'/' => (at, wanted) = (at + 1, wanted + 1),
            tag => match bits(tag) {
                Some(bits) => (at, wanted) = (at + 1 + bits, wanted - 1),
                None => return Some(at + 1),
            },
        }
    }
    (at <= bytes.len()).then_some(at)
}

/// The bytes of a leaf's bits.
fn bits(tag: u8) -> Option<usize> {
    match tag {
        INT | FLOAT => Some(4),
        LONG | DOUBLE => Some(8),
        _ => None,
    }
}

#[derive(Clone, Copy)]
enum Number {
    Int(i32),
    Float(f32),
    Long(i64),
    Double(f64),
}

/// A sign whose parts aren't both there: it waits for the first, or has it and waits for the second.
struct Waiting {
    sign: u8,
    first: Option<Number>,
}

/// The value of such bytes as a plain constant; the error is 22 or 23.
pub fn worked_out(bytes: &[u8]) -> Result<Constant, u8> {
    let mut rest = bytes;
    let mut waiting: Vec<Waiting> = vec![];
    let (mut is_bad, mut is_by_zero, mut last) = (false, false, None);
    while let Some((&byte, behind)) = rest.split_first() {
        let Some(bits) = bits(byte) else {
            let first = None;
            is_bad |= !b"+-*/".contains(&byte);
            waiting.push(Waiting { sign: byte, first });
            rest = behind;
            continue;
        };
        is_bad |= waiting.len() > SIGNS_ABOVE;
        let (bits, behind) = behind.split_at(bits);
        rest = behind;
        let mut value = leaf(byte, bits);
        // Every sign that this completes, and then the one that takes the value as its first part.
        while let Some(top) = waiting.last_mut() {
            let Some(first) = top.first else {
                top.first = Some(value);
                break;
            };
            value = match of_one_kind(top.sign, first, value) {
                Ok(value) => value,
                Err(code) => {
                    is_bad |= code == BAD_EXPRESSION;
                    is_by_zero |= code == DIVIDED_BY_ZERO;
                    value
                }
            };
            waiting.pop();
        }
        last = Some(value);
    }
    match last.filter(|_| !is_bad) {
        None => Err(BAD_EXPRESSION),
        Some(_) if is_by_zero => Err(DIVIDED_BY_ZERO),
        // A lone leaf keeps its bits.
        Some(_) if bits(bytes[0]).is_some() => Ok(plain(bytes[0], &bytes[1..])),
        Some(Number::Int(value)) => Ok(plain(INT, &value.to_be_bytes())),
        Some(Number::Float(value)) => Ok(plain(FLOAT, &float_bits(value).to_be_bytes())),
        Some(Number::Long(value)) => Ok(plain(LONG, &value.to_be_bytes())),
        Some(Number::Double(value)) => Ok(plain(DOUBLE, &double_bits(value).to_be_bytes())),
    }
}

fn plain(tag: u8, literal: &[u8]) -> Constant {
    Constant {
        tag,
        literal: literal.to_vec(),
        references: vec![],
    }
}

fn leaf(tag: u8, bits: &[u8]) -> Number {
    let high = u32::from_be_bytes(bits[..4].try_into().expect("four bytes"));
    let eight = || u64::from_be_bytes(bits.try_into().expect("eight bytes"));
    match tag {
        INT => Number::Int(high as i32),
        FLOAT => Number::Float(f32::from_bits(high)),
        LONG => Number::Long(eight() as i64),
        _ => Number::Double(f64::from_bits(eight())),
    }
}

/// What a NaN that is computed has for bits isn't Rust's to say.
fn float_bits(value: f32) -> u32 {
    if value.is_nan() {
        0x7fc0_0000
    } else {
        value.to_bits()
    }
}

fn double_bits(value: f64) -> u64 {
    if value.is_nan() {
        0x7ff8_0000_0000_0000
    } else {
        value.to_bits()
    }
}

/// The four operations, on the integers of one width or on floats of one.
macro_rules! integer {
    ($sign:expr, $a:expr, $b:expr) => {
        match $sign {
            b'+' => Ok($a.wrapping_add($b)),
            b'-' => Ok($a.wrapping_sub($b)),
            b'*' => Ok($a.wrapping_mul($b)),
            _ if $b == 0 => Err(DIVIDED_BY_ZERO),
            _ => Ok($a.wrapping_div($b)),
        }
    };
}
macro_rules! float {
    ($sign:expr, $a:expr, $b:expr) => {
        match $sign {
            b'+' => $a + $b,
            b'-' => $a - $b,
            b'*' => $a * $b,
            _ => $a / $b,
        }
    };
}

fn of_one_kind(sign: u8, first: Number, second: Number) -> Result<Number, u8> {
    match (first, second) {
        (Number::Int(a), Number::Int(b)) => integer!(sign, a, b).map(Number::Int),
        (Number::Long(a), Number::Long(b)) => integer!(sign, a, b).map(Number::Long),
        (Number::Float(a), Number::Float(b)) => Ok(Number::Float(float!(sign, a, b))),
        (Number::Double(a), Number::Double(b)) => Ok(Number::Double(float!(sign, a, b))),
        _ => Err(BAD_EXPRESSION),
    }
}

#[cfg(test)]
mod tests {
    use super::*;
    use jobs::hex::{bytes, hex};

    fn given(expression: &str) -> Result<String, u8> {
        let bytes = bytes(expression);
        assert_eq!(length(&bytes), Some(bytes.len()), "{expression}");
        let worked = worked_out(&bytes)?;
        Ok(format!("{} {}", worked.tag, hex(&worked.literal)))
    }

    #[test]
    fn values() {
        for (expression, value) in [
            ("2d 03 00000007 2d 03 00000005 03 00000002", "3 00000004"),
            ("2d 2d 03 00000007 03 00000005 03 00000002", "3 00000000"),
            ("2f 03 80000000 03 ffffffff", "3 80000000"),
            ("2f 03 fffffff9 03 00000002", "3 fffffffd"),
            ("2f 04 3f800000 04 40400000", "4 3eaaaaab"),
            ("2d 04 7f800000 04 7f800000", "4 7fc00000"),
            ("2b 04 ffc00001 04 00000000", "4 7fc00000"),
            (
                "2f 06 3ff0000000000000 06 4008000000000000",
                "6 3fd5555555555555",
            ),
            (
                "2a 05 7fffffffffffffff 05 0000000000000002",
                "5 fffffffffffffffe",
            ),
        ] {
            assert_eq!(given(expression).as_deref(), Ok(value), "{expression}");
        }
        for leaf in ["04 7f800001", "04 ffffffff", "06 7ff0000000000001"] {
            assert_eq!(given(leaf), Ok(format!("{}{}", &leaf[1..3], &leaf[3..])));
        }
    }

    #[test]
    fn refusals() {
        assert_eq!(given("2f 03 00000000 03 00000000"), Err(23));
        assert_eq!(given("2a 03 00000000 2f 03 00000000 03 00000000"), Err(23));
        assert_eq!(
            given("2b 2f 03 00000000 03 00000000 04 00000000"),
            Err(22),
            "mixed"
        );
        assert_eq!(given("2b 03 00000000 07"), Err(22));
        assert_eq!(given("00"), Err(22));
        let nested = |signs: usize| {
            let leaves = "03 00000001".repeat(signs + 1);
            given(&format!("{}{leaves}", "2b".repeat(signs)))
        };
        assert_eq!(nested(31), Ok("3 00000020".into()));
        assert_eq!(nested(32), Err(22));
    }

    #[test]
    fn cut_ones() {
        for cut in ["", "2b", "03 000000", "2b 03 00000000", "2b 03 00000000 04"] {
            assert_eq!(length(&bytes(cut)), None, "{cut}");
        }
        assert_eq!(length(&vec![b'+'; 1_048_575]), None);
        assert_eq!(length(&bytes("03 00000000 50")), Some(5));
    }
}

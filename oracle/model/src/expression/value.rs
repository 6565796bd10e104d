//! Values of the four kinds, and the four operations on two of one kind.

use crate::job::{DOUBLE, FLOAT, INT, LONG};

#[derive(Clone, Copy)]
pub enum Sign {
    Plus,
    Minus,
    Times,
    Over,
}

impl Sign {
    pub fn of(byte: u8) -> Option<Self> {
        Some(match byte {
            b'+' => Sign::Plus,
            b'-' => Sign::Minus,
            b'*' => Sign::Times,
            b'/' => Sign::Over,
            _ => return None,
        })
    }
}

/// A value, or a leaf's bits: those of a float stay as they are until it is reckoned with.
#[derive(Clone, Copy)]
pub enum Value {
    Int(i32),
    Float(u32),
    Long(i64),
    Double(u64),
}

/// How many bytes of bits stand behind a leaf's tag.
pub fn length(tag: u8) -> Option<usize> {
    match tag {
        INT | FLOAT => Some(4),
        LONG | DOUBLE => Some(8),
        _ => None,
    }
}

impl Value {
    /// The leaf with this tag, and as many bytes as it takes.
    pub fn of(tag: u8, bits: &[u8]) -> Self {
        let four = || bits.try_into().expect("four bytes");
        let eight = || bits.try_into().expect("eight bytes");
        match tag {
            INT => Value::Int(i32::from_be_bytes(four())),
            FLOAT => Value::Float(u32::from_be_bytes(four())),
            LONG => Value::Long(i64::from_be_bytes(eight())),
            DOUBLE => Value::Double(u64::from_be_bytes(eight())),
            _ => unreachable!("a leaf has one of the four tags"),
        }
    }

    pub fn tag(self) -> u8 {
        match self {
            Value::Int(_) => INT,
            Value::Float(_) => FLOAT,
            Value::Long(_) => LONG,
            Value::Double(_) => DOUBLE,
        }
    }

    pub fn bits(self) -> Vec<u8> {
        match self {
            Value::Int(value) => value.to_be_bytes().to_vec(),
            Value::Float(bits) => bits.to_be_bytes().to_vec(),
            Value::Long(value) => value.to_be_bytes().to_vec(),
            Value::Double(bits) => bits.to_be_bytes().to_vec(),
        }
    }
}

/// One operation on two values of one kind. None if an integer is divided by zero.
pub fn worked_out(sign: Sign, left: Value, right: Value) -> Option<Value> {
    Some(match (left, right) {
        (Value::Int(left), Value::Int(right)) => Value::Int(int(sign, left, right)?),
        (Value::Long(left), Value::Long(right)) => Value::Long(long(sign, left, right)?),
        (Value::Float(left), Value::Float(right)) => Value::Float(float(sign, left, right)),
        (Value::Double(left), Value::Double(right)) => Value::Double(double(sign, left, right)),
        _ => unreachable!("all leaves are of one kind"),
    })
}

/// "Int and Long wrap, division cuts toward zero, and the lowest value divided by -1 is itself."
fn int(sign: Sign, left: i32, right: i32) -> Option<i32> {
    match sign {
        Sign::Plus => Some(left.wrapping_add(right)),
        Sign::Minus => Some(left.wrapping_sub(right)),
        Sign::Times => Some(left.wrapping_mul(right)),
        Sign::Over if right == 0 => None,
        Sign::Over => Some(left.wrapping_div(right)),
    }
}

fn long(sign: Sign, left: i64, right: i64) -> Option<i64> {
    match sign {
        Sign::Plus => Some(left.wrapping_add(right)),
        Sign::Minus => Some(left.wrapping_sub(right)),
        Sign::Times => Some(left.wrapping_mul(right)),
        Sign::Over if right == 0 => None,
        Sign::Over => Some(left.wrapping_div(right)),
    }
}

/// "A computed NaN is written 7FC00000 or 7FF8000000000000", whatever NaN went in.
fn float(sign: Sign, left: u32, right: u32) -> u32 {
    let (left, right) = (f32::from_bits(left), f32::from_bits(right));
    let value = match sign {
        Sign::Plus => left + right,
        Sign::Minus => left - right,
        Sign::Times => left * right,
        Sign::Over => left / right,
    };
    match value.is_nan() {
        true => 0x7fc0_0000,
        false => value.to_bits(),
    }
}

fn double(sign: Sign, left: u64, right: u64) -> u64 {
    let (left, right) = (f64::from_bits(left), f64::from_bits(right));
    let value = match sign {
        Sign::Plus => left + right,
        Sign::Minus => left - right,
        Sign::Times => left * right,
        Sign::Over => left / right,
    };
    match value.is_nan() {
        true => 0x7ff8_0000_0000_0000,
        false => value.to_bits(),
    }
}

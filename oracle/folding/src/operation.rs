//! One operation on bits: a kind, a sign and two operands, and what this machine makes of it.

pub const INT: u8 = 3;
pub const FLOAT: u8 = 4;
pub const LONG: u8 = 5;
pub const DOUBLE: u8 = 6;
pub const KINDS: [u8; 4] = [INT, FLOAT, LONG, DOUBLE];
pub const SIGNS: [u8; 4] = *b"+-*/";

#[derive(Clone, Copy, Debug)]
pub struct Operation {
    pub kind: u8,
    pub sign: u8,
    /// In the low 32 bits for Int and Float.
    pub first: u64,
    pub second: u64,
}

pub fn is_four(kind: u8) -> bool {
    kind == INT || kind == FLOAT
}

impl Operation {
    /// As Java reads it.
    pub fn framed(&self) -> [u8; 18] {
        let mut frame = [0; 18];
        frame[0] = self.kind;
        frame[1] = self.sign;
        frame[2..10].copy_from_slice(&self.first.to_be_bytes());
        frame[10..].copy_from_slice(&self.second.to_be_bytes());
        frame
    }

    /// A record 46.
    pub fn record(&self, out: &mut Vec<u8>) {
        out.extend([0x46, self.sign]);
        for bits in [self.first, self.second] {
            out.push(self.kind);
            out.extend(self.bytes(bits));
        }
    }

    fn bytes(&self, bits: u64) -> Vec<u8> {
        match is_four(self.kind) {
            true => (bits as u32).to_be_bytes().to_vec(),
            false => bits.to_be_bytes().to_vec(),
        }
    }

    /// What the machine's own numbers give, a NaN as the request has it; none for an integer divided by zero.
    pub fn of_machine(&self) -> Option<u64> {
        let (a, b) = (self.first, self.second);
        match self.kind {
            INT => int(self.sign, a as i32, b as i32).map(|value| (value as u32).into()),
            LONG => long(self.sign, a as i64, b as i64).map(|value| value as u64),
            FLOAT => {
                let (a, b) = (f32::from_bits(a as u32), f32::from_bits(b as u32));
                let value = match self.sign {
                    b'+' => a + b,
                    b'-' => a - b,
                    b'*' => a * b,
                    _ => a / b,
                };
                Some(
                    if value.is_nan() {
                        0x7fc0_0000
                    } else {
                        value.to_bits()
                    }
                    .into(),
                )
            }
            _ => {
                let (a, b) = (f64::from_bits(a), f64::from_bits(b));
                let value = match self.sign {
                    b'+' => a + b,
                    b'-' => a - b,
                    b'*' => a * b,
                    _ => a / b,
                };
                Some(if value.is_nan() {
                    0x7ff8 << 48
                } else {
                    value.to_bits()
                })
            }
        }
    }
}

fn int(sign: u8, a: i32, b: i32) -> Option<i32> {
    match sign {
        b'+' => Some(a.wrapping_add(b)),
        b'-' => Some(a.wrapping_sub(b)),
        b'*' => Some(a.wrapping_mul(b)),
        _ if b == 0 => None,
        _ => Some(a.wrapping_div(b)),
    }
}

fn long(sign: u8, a: i64, b: i64) -> Option<i64> {
    match sign {
        b'+' => Some(a.wrapping_add(b)),
        b'-' => Some(a.wrapping_sub(b)),
        b'*' => Some(a.wrapping_mul(b)),
        _ if b == 0 => None,
        _ => Some(a.wrapping_div(b)),
    }
}

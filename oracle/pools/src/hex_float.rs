//! Floating-point numbers as `Double.toHexString` and `Float.toHexString` of the Java library are documented to write them.

const FRACTION_BITS: u32 = 52;

pub fn of_double(bits: u64) -> String {
    let value = f64::from_bits(bits);
    let sign = if value.is_sign_negative() { "-" } else { "" };
    if value.is_nan() {
        "NaN".into()
    } else if value.is_infinite() {
        format!("{sign}Infinity")
    } else if value == 0.0 {
        format!("{sign}0x0.0p0")
    } else {
        let leading = u8::from(value.is_normal());
        // a subnormal number is written with the exponent of the least normal one
        let exponent = value.abs().max(f64::MIN_POSITIVE).to_bits() >> FRACTION_BITS;
        let digits = format!("{:013x}", bits & ((1 << FRACTION_BITS) - 1));
        let trimmed = digits.trim_end_matches('0');
        let digits = if trimmed.is_empty() { "0" } else { trimmed };
        format!("{sign}0x{leading}.{digits}p{}", exponent as i64 - 1023)
    }
}

/// A normal float is written as the double of its value; a subnormal one as a subnormal double, but for the exponent.
pub fn of_float(bits: u32) -> String {
    let value = f32::from_bits(bits);
    if !value.is_subnormal() {
        return of_double(f64::from(value).to_bits());
    }
    let between = f64::from_bits((1023 - (1022 - 126)) << FRACTION_BITS);
    let text = of_double((f64::from(value) * between).to_bits());
    text.replace("p-1022", "p-126")
}

#[cfg(test)]
mod tests {
    use super::*;

    /// The value that such a text stands for, by arithmetic alone.
    fn value(text: &str) -> f64 {
        let (text, sign) = match text.strip_prefix('-') {
            Some(rest) => (rest, -1.0),
            None => (text, 1.0),
        };
        let (digits, exponent) = text.strip_prefix("0x").unwrap().split_once('p').unwrap();
        let (leading, fraction) = digits.split_once('.').unwrap();
        let mut sum = f64::from(leading.parse::<u8>().unwrap());
        let mut unit = 1.0;
        for digit in fraction.chars() {
            unit /= 16.0;
            sum += unit * f64::from(digit.to_digit(16).unwrap());
        }
        let exponent: i32 = exponent.parse().unwrap();
        // in two steps, since the power of a subnormal number is none itself
        sign * sum * 2f64.powi(exponent / 2) * 2f64.powi(exponent - exponent / 2)
    }

    #[test]
    fn the_table_of_the_documentation() {
        // the examples in the documentation of the two methods
        let doubles = [
            (1.0, "0x1.0p0"),
            (-1.0, "-0x1.0p0"),
            (2.0, "0x1.0p1"),
            (3.0, "0x1.8p1"),
            (0.5, "0x1.0p-1"),
            (0.25, "0x1.0p-2"),
            (f64::MAX, "0x1.fffffffffffffp1023"),
            (f64::MIN_POSITIVE, "0x1.0p-1022"),
            (f64::MIN_POSITIVE.next_down(), "0x0.fffffffffffffp-1022"),
            (f64::from_bits(1), "0x0.0000000000001p-1022"),
            (f64::NEG_INFINITY, "-Infinity"),
            (-0.0, "-0x0.0p0"),
        ];
        for (value, text) in doubles {
            assert_eq!(of_double(value.to_bits()), text);
        }
        let floats = [
            (1.0, "0x1.0p0"),
            (f32::MAX, "0x1.fffffep127"),
            (f32::MIN_POSITIVE, "0x1.0p-126"),
            (f32::MIN_POSITIVE.next_down(), "0x0.fffffep-126"),
            (f32::from_bits(1), "0x0.000002p-126"),
            (f32::INFINITY, "Infinity"),
            (0.0, "0x0.0p0"),
        ];
        for (value, text) in floats {
            assert_eq!(of_float(value.to_bits()), text);
        }
        assert_eq!(of_double(0xfff0_0000_0000_0001), "NaN");
        assert_eq!(of_float(0xffc0_0000), "NaN");
    }

    #[test]
    fn a_text_has_the_value() {
        let mut random = jobs::random::Random::new(7);
        for _ in 0..20_000 {
            let mut bits = random.bits();
            if random.chance(1, 3) {
                bits &= !(0x7ff << 52);
            }
            let double = f64::from_bits(bits);
            if double.is_finite() {
                assert_eq!(value(&of_double(bits)), double, "{bits:016x}");
            }
            let mut bits = random.bits() as u32;
            if random.chance(1, 3) {
                bits &= !(0xff << 23);
            }
            let float = f32::from_bits(bits);
            if float.is_finite() {
                assert_eq!(value(&of_float(bits)), f64::from(float), "{bits:08x}");
            }
        }
    }
}

//! Exact decimals: what a number field says, and the count of digits beside it.

use std::fmt;
use std::str::FromStr;

/// "The value is (negative, coefficient, power of ten), the coefficient not divisible by ten. Zero is (no, 0, 0),
/// however signed." Readings are normal in this sense; a decimal that is to be written need not be.
///
/// Equality compares the three parts, so two decimals that are both normal are equal exactly when their values are.
#[derive(Clone, Copy, Debug, PartialEq, Eq, Hash)]
pub struct Decimal {
    /// Whether the value is below zero.
    pub negative: bool,
    /// The digits.
    pub coefficient: u64,
    /// The power of ten that they are multiplied by.
    pub power: i32,
}

/// What a value field says. "`0.0` and blank held to be equal" is a reading that only looks right.
#[derive(Clone, Copy, Debug, PartialEq, Eq, Hash)]
pub enum Value {
    /// Eleven blanks.
    Blank,
    /// A number.
    Number(Decimal),
}

/// What the number reader tells of a field: its value, and "the count of digits from the first non-zero one to the last
/// written (0 for zero)" (document 02, M-104). `0.140` and `0.14` have one value; their counts are 3 and 2.
///
/// The count is no part of the value: the canonical copy has the same values, and may have other counts.
#[derive(Clone, Copy, Debug, PartialEq, Eq, Hash)]
pub struct FieldRead {
    /// What the field says.
    pub value: Value,
    /// The digits written before and behind the point, none of the exponent: 0 for zero and for a blank, at most 10.
    pub digits: u32,
}

impl FieldRead {
    /// A blank field.
    pub const BLANK: FieldRead = FieldRead { value: Value::Blank, digits: 0 };
}

/// Digits beyond which a decimal is shown with a power of ten: enough for every field within 1E-38 to 9.999E+38.
const PLAIN_DIGITS: i64 = 50;

impl Decimal {
    /// Zero as readings give it.
    pub const ZERO: Decimal = Decimal { negative: false, coefficient: 0, power: 0 };

    /// The same value with a coefficient that ten does not divide; none if the power then leaves 32 bits.
    pub fn normal(self) -> Option<Decimal> {
        if self.coefficient == 0 {
            return Some(Decimal::ZERO);
        }
        let (mut coefficient, mut power) = (self.coefficient, i64::from(self.power));
        while coefficient % 10 == 0 {
            coefficient /= 10;
            power += 1;
        }
        Some(Decimal { negative: self.negative, coefficient, power: i32::try_from(power).ok()? })
    }

    /// The double nearest to the value, if it is a normal one or the value is zero.
    pub fn to_double(self) -> Option<f64> {
        let sign = if self.negative { "-" } else { "" };
        let double: f64 = format!("{sign}{}e{}", self.coefficient, self.power).parse().ok()?;
        (double.is_normal() || self.coefficient == 0).then_some(double)
    }
}

/// Exact and plain: `0.145`, `-2500`, `0`. No digit is added behind the last one that counts, and a point stands only
/// where digits follow it, so a value has one text. Where plain digits would be more than fifty, the coefficient and
/// the power of ten stand instead: `1E-100000000`.
impl fmt::Display for Decimal {
    fn fmt(&self, f: &mut fmt::Formatter<'_>) -> fmt::Result {
        let sign = if self.negative { "-" } else { "" };
        let digits = self.coefficient.to_string();
        let (count, power) = (digits.len() as i64, i64::from(self.power));
        let text = if power >= 0 && count + power <= PLAIN_DIGITS {
            digits + &"0".repeat(power as usize)
        } else if power < 0 && count.max(1 - power) <= PLAIN_DIGITS {
            let padded = format!("{digits:0>width$}", width = (1 - power) as usize);
            let (whole, part) = padded.split_at(padded.len() - power.unsigned_abs() as usize);
            format!("{whole}.{part}")
        } else {
            format!("{digits}E{power}")
        };
        write!(f, "{sign}{text}")
    }
}

/// What is wrong with a text that should be a decimal.
#[derive(Clone, Copy, Debug, PartialEq, Eq)]
pub struct NotADecimal;

impl fmt::Display for NotADecimal {
    fn fmt(&self, f: &mut fmt::Formatter<'_>) -> fmt::Result {
        f.write_str("not a decimal, or one of more digits than 64 bits hold")
    }
}

impl std::error::Error for NotADecimal {}

/// Reads what programs write into tables: `0.145`, `1.45E-1`, `+2.5d+01`, `14`. This is no number field of an entry:
/// for those there is [`crate::library::read_number`].
impl FromStr for Decimal {
    type Err = NotADecimal;

    fn from_str(text: &str) -> Result<Decimal, NotADecimal> {
        let text = text.trim();
        let (negative, text) = match text.strip_prefix('-') {
            Some(rest) => (true, rest),
            None => (false, text.strip_prefix('+').unwrap_or(text)),
        };
        let (mantissa, exponent) = match text.find(['E', 'e', 'D', 'd']) {
            Some(at) => (&text[..at], text[at + 1..].parse::<i32>().map_err(|_| NotADecimal)?),
            None => (text, 0),
        };
        let (whole, part) = mantissa.split_once('.').unwrap_or((mantissa, ""));
        let digits = format!("{whole}{part}");
        if digits.is_empty() || !digits.bytes().all(|byte| byte.is_ascii_digit()) {
            return Err(NotADecimal);
        }
        let power = i64::from(exponent) - part.len() as i64;
        let (digits, trailing) = match digits.trim_end_matches('0') {
            "" => return Ok(Decimal::ZERO),
            kept => (kept, digits.len() - kept.len()),
        };
        let coefficient = digits.parse().map_err(|_| NotADecimal)?;
        let power = i32::try_from(power + trailing as i64).map_err(|_| NotADecimal)?;
        Ok(Decimal { negative, coefficient, power })
    }
}

#[cfg(test)]
mod tests {
    use super::*;

    fn decimal(negative: bool, coefficient: u64, power: i32) -> Decimal {
        Decimal { negative, coefficient, power }
    }

    #[test]
    fn a_decimal_is_shown_exactly() {
        for (value, text) in [
            (decimal(false, 145, -3), "0.145"),
            (decimal(false, 14, -1), "1.4"),
            (decimal(true, 25, 2), "-2500"),
            (decimal(false, 1, 0), "1"),
            (Decimal::ZERO, "0"),
            (decimal(false, 1, 49), "10000000000000000000000000000000000000000000000000"),
            (decimal(false, 1, 50), "1E50"),
            (decimal(true, 1, -49), "-0.0000000000000000000000000000000000000000000000001"),
            (decimal(false, 1, -50), "1E-50"),
            (decimal(false, 1, -100_000_000), "1E-100000000"),
        ] {
            assert_eq!(value.to_string(), text);
            assert_eq!(text.parse(), Ok(value));
        }
    }

    #[test]
    fn texts_of_other_programs_are_read() {
        for (text, value) in [
            ("  1.4500000000000000E-001", decimal(false, 145, -3)),
            ("+2.50d+01", decimal(false, 25, 0)),
            ("100", decimal(false, 1, 2)),
            ("-0.0", Decimal::ZERO),
            (".5", decimal(false, 5, -1)),
        ] {
            assert_eq!(text.parse(), Ok(value), "{text}");
        }
        for text in ["", ".", "1.2.3", "1e", "NaN", "Infinity", "1 2", "--1", "123456789012345678901.5"] {
            assert_eq!(text.parse::<Decimal>(), Err(NotADecimal), "{text}");
        }
    }

    #[test]
    fn a_coefficient_gives_its_zeros_to_the_power() {
        assert_eq!(decimal(false, 1400, -4).normal(), Some(decimal(false, 14, -2)));
        assert_eq!(decimal(true, 0, 7).normal(), Some(Decimal::ZERO));
        assert_eq!(decimal(false, 10, i32::MAX).normal(), None);
    }

    #[test]
    fn doubles_are_the_nearest_and_never_made_up() {
        assert_eq!(decimal(false, 145, -3).to_double(), Some(0.145));
        assert_eq!(decimal(true, 1, 100).to_double(), Some(-1e100));
        assert_eq!(Decimal::ZERO.to_double(), Some(0.0));
        assert_eq!(decimal(false, 1, -100_000_000).to_double(), None);
        assert_eq!(decimal(false, 1, 99_999_999).to_double(), None);
    }
}

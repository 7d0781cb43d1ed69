//! Values as doubles (M-107): blank, a double, or a decimal that is outside the simple range.
//!
//! ```
//! use glockenbeacon::double::{DoubleRead, Simple};
//! use glockenbeacon::{library, Decimal, DATA};
//!
//! let entry = std::fs::read("data/sample.x4")?;
//! let read = library::double(&entry, 2, DATA, 1, 2)?; // 1.45-1
//! assert_eq!(read, DoubleRead { value: Simple::Double(0.145), digits: 3 });
//! let doubles: Vec<Simple> = library::values(&entry, 2, DATA)?.map(|placed| placed.double()).collect();
//! assert_eq!(doubles[..3], [Simple::Double(10.0), Simple::Double(0.145), Simple::Blank]);
//! let outside = Decimal { negative: false, coefficient: 1, power: 23 };
//! assert_eq!(library::as_double(outside), Simple::Outside(outside));
//! # Ok::<(), Box<dyn std::error::Error>>(())
//! ```

use crate::Decimal;

/// What a value is to a program that computes with doubles. Simple is a decimal of ten digits at the most whose power of
/// ten is -22 to 22. Every number field has such digits, so that of a field the power decides.
///
/// Two doubles are equal where their bits are, so 0.0 and -0.0 are not.
#[derive(Clone, Copy, Debug)]
pub enum Simple {
    /// Eleven blanks.
    Blank,
    /// The double nearest to the value, of two the even one: exactly the value where it is a whole number below 2 to the
    /// 53rd in size. Zero is 0.0 however it was signed.
    Double(f64),
    /// A decimal that is outside the simple range, as it is.
    Outside(Decimal),
}

impl PartialEq for Simple {
    fn eq(&self, other: &Simple) -> bool {
        match (self, other) {
            (Simple::Blank, Simple::Blank) => true,
            (Simple::Double(one), Simple::Double(other)) => one.to_bits() == other.to_bits(),
            (Simple::Outside(one), Simple::Outside(other)) => one == other,
            _ => false,
        }
    }
}

impl Eq for Simple {}

impl Simple {
    /// The double, if it is one.
    pub fn double(self) -> Option<f64> {
        match self {
            Simple::Double(double) => Some(double),
            Simple::Blank | Simple::Outside(_) => None,
        }
    }

    /// Which of the three it is, as the archives number them: 0 blank, 1 a double, 2 a decimal outside.
    pub fn kind(self) -> u64 {
        match self {
            Simple::Blank => 0,
            Simple::Double(_) => 1,
            Simple::Outside(_) => 2,
        }
    }
}

/// A value as a double, and its count of digits (M-104): [`crate::FieldRead`] with another value.
#[derive(Clone, Copy, Debug, PartialEq, Eq)]
pub struct DoubleRead {
    /// Which of the three it is.
    pub value: Simple,
    /// The digits written before and behind the point, none of the exponent: 0 for zero and for a blank, at most 10.
    pub digits: u32,
}

/// A double as text that reads back to it: the fewest digits that do, plain, or with an exponent where that is shorter.
pub fn text(double: f64) -> String {
    let (plain, exponent) = (double.to_string(), format!("{double:e}"));
    if exponent.len() < plain.len() {
        exponent
    } else {
        plain
    }
}

#[cfg(test)]
mod tests {
    use super::*;

    #[test]
    fn a_double_is_shown_shortly() {
        for (double, shown) in [
            (0.0, "0"),
            (0.145, "0.145"),
            (14.0, "14"),
            (100.0, "100"),
            (1000.0, "1e3"),
            (-25e6, "-2.5e7"),
            (0.01, "0.01"),
            (0.001, "1e-3"),
            (0.1, "0.1"),
            (1e22, "1e22"),
            (9999999999.0, "9999999999"),
            (-1.234567891e-22, "-1.234567891e-22"),
        ] {
            assert_eq!(text(double), shown);
            assert_eq!(shown.parse::<f64>().map(f64::to_bits), Ok(double.to_bits()));
        }
    }

    #[test]
    fn doubles_are_equal_by_their_bits() {
        assert_ne!(Simple::Double(0.0), Simple::Double(-0.0));
        assert_eq!(Simple::Double(0.5), Simple::Double(0.5));
        assert_ne!(Simple::Double(0.0), Simple::Blank);
        assert_ne!(Simple::Outside(Decimal::ZERO), Simple::Double(0.0));
    }
}

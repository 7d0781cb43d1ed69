//! Values as doubles (M-107), by whole numbers alone: the decimal is a fraction, a division says which two doubles it lies
//! between, and the rest which of them is nearer.

use super::index::index_value;
use super::number::read_number;
use super::questions::value;
use crate::double::{DoubleRead, Simple};
use crate::{Decimal, FieldRead, NoAnswer, Value};
use std::cmp::Ordering;

/// "Simple means the power lies in -22 to 22"
const SIMPLE: std::ops::RangeInclusive<i32> = -22..=22;

/// "the ten-digit coefficient": with more digits a decimal is none of a field, and is given as it is.
const TEN_DIGITS: u64 = 9_999_999_999;

/// A double has so many bits behind its first.
const BITS: u32 = 52;

/// "the double is the coefficient times, or divided by, the exact power of ten, rounded once by that one operation, negated
/// where negative"
pub fn as_double(decimal: Decimal) -> Simple {
    let Decimal { negative, coefficient, power } = decimal;
    // "Zero is (no, 0, 0), however signed"
    let below = negative && coefficient != 0;
    if coefficient > TEN_DIGITS || !SIMPLE.contains(&power) {
        return Simple::Outside(Decimal { negative: below, ..decimal });
    }
    let (digits, ten) = (u128::from(coefficient), 10_u128.pow(power.unsigned_abs()));
    let size = if power < 0 { nearest(digits, ten) } else { nearest(digits * ten, 1) };
    Simple::Double(f64::from_bits(u64::from(below) << 63 | size))
}

/// The bits of the double nearest to a fraction, of two as near the even one. The double is a whole number of 53 bits times
/// a power of two.
fn nearest(over: u128, under: u128) -> u64 {
    if over == 0 {
        return 0;
    }
    let scaled = |power: i32| match power < 0 {
        true => (over << -power, under),
        false => (over, under << power),
    };
    // By the first bits of both the power of two is this one, or one less.
    let guess = over.ilog2() as i32 - under.ilog2() as i32 - BITS as i32;
    let (first, second) = scaled(guess);
    let power = if first / second < 1 << BITS { guess - 1 } else { guess };
    let (over, under) = scaled(power);
    let (whole, rest) = (over / under, over % under);
    let up = match (2 * rest).cmp(&under) {
        Ordering::Less => 0,
        Ordering::Equal => whole & 1,
        Ordering::Greater => 1,
    };
    // Rounded up to 54 bits, it carries into the power, which stands above.
    (((power + 1075) as u64) << BITS) + (whole + up) as u64 - (1 << BITS)
}

/// "Give each value as blank, a double, or a decimal that is outside the simple range"; the count of digits goes on.
fn doubled(read: FieldRead) -> DoubleRead {
    let value = match read.value {
        Value::Blank => Simple::Blank,
        Value::Number(decimal) => as_double(decimal),
    };
    DoubleRead { value, digits: read.digits }
}

/// The value question: "Refusals: as for the value question".
pub fn double(entry: &[u8], number: u32, section: u32, line: u32, column: u32) -> Result<DoubleRead, NoAnswer> {
    value(entry, number, section, line, column).map(doubled)
}

/// The value question by an index.
pub fn index_double(
    entry: &[u8],
    index: &[u32],
    number: u32,
    section: u32,
    line: u32,
    column: u32,
) -> Result<DoubleRead, NoAnswer> {
    index_value(entry, index, number, section, line, column).map(doubled)
}

/// A number field.
pub fn read_double(field: &[u8]) -> Result<DoubleRead, NoAnswer> {
    read_number(field).map(doubled)
}

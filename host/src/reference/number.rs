//! Number fields as text: taken apart by slicing, and found by trying.

use super::record::digits;
use crate::{Decimal, FieldRead, NoAnswer, Value};

/// What some columns say, at most 19 of them.
#[derive(Clone, Copy, Debug, PartialEq, Eq)]
pub enum Reading {
    /// Blanks only.
    Blank,
    /// A number.
    Number(Decimal),
    /// Neither.
    Malformed,
}

/// Reads a field of any such width: "Blanks; optional + or -; digits with exactly one point, at least one digit; then
/// either blanks to the end, or an exponent whose last digit is in column 11."
pub fn read(field: &[u8]) -> Reading {
    debug_assert!(field.len() <= 19, "more digits than 64 bits hold");
    match without_blanks_before(field) {
        [] => Reading::Blank,
        text => number(text).map_or(Reading::Malformed, Reading::Number),
    }
}

/// What is left from the first column that is not blank.
fn without_blanks_before(text: &[u8]) -> &[u8] {
    let blanks = text.iter().take_while(|&&byte| byte == b' ').count();
    &text[blanks..]
}

/// The value of a text that does not begin with a blank.
fn number(text: &[u8]) -> Option<Decimal> {
    let (negative, text) = match text {
        [b'-', rest @ ..] => (true, rest),
        [b'+', rest @ ..] => (false, rest),
        _ => (false, text),
    };
    let end = text.iter().position(|byte| !byte.is_ascii_digit() && *byte != b'.').unwrap_or(text.len());
    let (mantissa, tail) = text.split_at(end);
    let point = mantissa.iter().position(|&byte| byte == b'.')?;
    let (before, after) = (&mantissa[..point], &mantissa[point + 1..]);
    if after.contains(&b'.') || mantissa.len() < 2 {
        return None;
    }
    let exponent = match without_blanks_before(tail) {
        [] => 0,
        text => exponent(text)?,
    };
    value(negative, before, after, exponent)
}

/// "An exponent is: a sign and digits; E, a sign and digits; or E, any blanks and digits. No blank after a sign."
fn exponent(text: &[u8]) -> Option<i64> {
    let (sign, figures) = match text {
        [b'+', figures @ ..] | [b'E', b'+', figures @ ..] => (1, figures),
        [b'-', figures @ ..] | [b'E', b'-', figures @ ..] => (-1, figures),
        [b'E', rest @ ..] => (1, without_blanks_before(rest)),
        _ => return None,
    };
    if figures.is_empty() || !digits(figures) {
        return None;
    }
    Some(sign * figures.iter().fold(0, |sum, digit| 10 * sum + i64::from(digit - b'0')))
}

/// "The value is (negative, coefficient, power of ten), the coefficient not divisible by ten. Zero is (no, 0, 0)."
/// Zeros behind the last figure that counts are cut off as text: first those after the point, then those before it.
fn value(negative: bool, before: &[u8], after: &[u8], exponent: i64) -> Option<Decimal> {
    let after = without_zeros_behind(after);
    let kept = if after.is_empty() { without_zeros_behind(before) } else { before };
    let power = exponent - after.len() as i64 + (before.len() - kept.len()) as i64;
    let figures = kept.iter().chain(after);
    let coefficient = figures.fold(0, |sum, digit| 10 * sum + u64::from(digit - b'0'));
    if coefficient == 0 {
        return Some(Decimal::ZERO);
    }
    Some(Decimal { negative, coefficient, power: i32::try_from(power).ok()? })
}

/// Digits without the zeros at their end.
fn without_zeros_behind(digits: &[u8]) -> &[u8] {
    let kept = digits.iter().rposition(|&digit| digit != b'0').map_or(0, |last| last + 1);
    &digits[..kept]
}

/// "The count of digits from the first non-zero one to the last written (0 for zero)" (M-104): of a field that is a
/// number, by its characters. Digits and point end where the exponent or a blank begins: "1.+2 gives 1".
fn digits_written(field: &[u8]) -> u32 {
    let blank_or_sign = |byte: &&u8| matches!(byte, b' ' | b'+' | b'-');
    let digits_and_point = field.iter().skip_while(blank_or_sign).take_while(|byte| matches!(byte, b'0'..=b'9' | b'.'));
    digits_and_point.filter(|&&byte| byte != b'.').skip_while(|&&digit| digit == b'0').count() as u32
}

/// Reads one number field: "40 not eleven bytes, 15 malformed; blank is said as blank". "The number reader shall also
/// tell the count of digits"; beside a blank it is 0.
pub fn read_number(field: &[u8]) -> Result<FieldRead, NoAnswer> {
    if field.len() != 11 {
        return Err(NoAnswer::numbered(40));
    }
    read_columns(field).ok_or(NoAnswer::numbered(15))
}

/// The same of any columns, none where they are malformed: the last of them is the one that an exponent ends in.
pub fn read_columns(columns: &[u8]) -> Option<FieldRead> {
    match read(columns) {
        Reading::Blank => Some(FieldRead::BLANK),
        Reading::Number(decimal) => Some(FieldRead { value: Value::Number(decimal), digits: digits_written(columns) }),
        Reading::Malformed => None,
    }
}

/// How the exponent of a shape is written.
#[derive(Clone, Copy, PartialEq, Eq)]
enum Style {
    /// No exponent.
    Plain,
    /// A sign and digits.
    Signed,
    /// E, a sign and digits; or E and digits.
    WithE,
}

/// The canonical field without the blanks before it, at most `width` columns; none if no such field reads to the value.
///
/// "Of all fields reading to the value: the one with fewest columns from first to last non-blank; among equals,
/// without exponent; then without E; then with most digits before the point." The loops try the shapes in this very
/// order. A plus sign and blanks inside are not tried: leaving them out is shorter and reads the same.
pub fn canonical_text(decimal: Decimal, width: usize) -> Option<String> {
    let value = Whole::of(decimal);
    for columns in 2..=width {
        for style in [Style::Plain, Style::Signed, Style::WithE] {
            for before in (0..columns).rev() {
                if let Some(text) = value.shaped(columns, style, before) {
                    return Some(text);
                }
            }
        }
    }
    None
}

/// A value to be written: its digits as text, without zeros behind, and a power that no sum below can overflow.
struct Whole {
    negative: bool,
    digits: String,
    power: i64,
}

impl Whole {
    fn of(decimal: Decimal) -> Whole {
        let written = decimal.coefficient.to_string();
        let digits = written.trim_end_matches('0');
        if digits.is_empty() {
            return Whole { negative: false, digits: written, power: 0 };
        }
        let power = i64::from(decimal.power) + (written.len() - digits.len()) as i64;
        Whole { negative: decimal.negative, digits: digits.to_string(), power }
    }

    /// A text of so many columns in this style, with so many digits before the point, that reads to the value.
    fn shaped(&self, columns: usize, style: Style, before: usize) -> Option<String> {
        let room = columns.checked_sub(usize::from(self.negative) + 1 + before)?;
        // Columns of the exponent; what is left of the room are digits behind the point.
        let mut exponents = if style == Style::Plain { 0..=0 } else { 2..=room };
        exponents.find_map(|taken| self.laid_out(style, before, room - taken, taken))
    }

    /// The digits and the exponent in their places, if the value has them.
    fn laid_out(&self, style: Style, before: usize, after: usize, taken: usize) -> Option<String> {
        let figures = before + after;
        // The digits may be followed by zeros, as long as there is room for them.
        let mut zeros = 0..=figures.checked_sub(self.digits.len())?;
        zeros.find_map(|zeros| {
            let exponent = self.power - zeros as i64 + after as i64;
            let tail = match style {
                Style::Plain => (exponent == 0 || self.digits == "0").then(String::new),
                Style::Signed => signed(exponent, taken),
                Style::WithE => with_e(exponent, taken),
            };
            let tail = tail?;
            let text = format!("{:0>figures$}", format!("{}{}", self.digits, "0".repeat(zeros)));
            let sign = if self.negative { "-" } else { "" };
            Some(format!("{sign}{}.{}{tail}", &text[..before], &text[before..]))
        })
    }
}

/// A sign and digits in exactly so many columns.
fn signed(exponent: i64, columns: usize) -> Option<String> {
    fits(exponent, columns.checked_sub(1)?).then(|| format!("{exponent:+0columns$}"))
}

/// E and digits, or E, a sign and digits, in exactly so many columns.
fn with_e(exponent: i64, columns: usize) -> Option<String> {
    let width = columns.checked_sub(1)?;
    if exponent >= 0 && fits(exponent, width) {
        return Some(format!("E{exponent:0width$}"));
    }
    signed(exponent, width).map(|text| format!("E{text}"))
}

/// Whether the digits of an exponent fit into so many columns, at least one.
fn fits(exponent: i64, columns: usize) -> bool {
    columns >= 1 && exponent.unsigned_abs() < 10_u64.pow(columns as u32)
}

/// Writes the canonical field: "40 buffer not eleven bytes, 41 no field reads to the value". Refused, it stores
/// nothing.
pub fn write_number(decimal: Decimal, buffer: &mut [u8]) -> Result<(), NoAnswer> {
    if buffer.len() != 11 {
        return Err(NoAnswer::numbered(40));
    }
    let text = canonical_text(decimal, 11).ok_or(NoAnswer::numbered(41))?;
    buffer.copy_from_slice(format!("{text:>11}").as_bytes());
    Ok(())
}

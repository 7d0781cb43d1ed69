//! Number fields in every spelling, fields that are nearly numbers, and decimals to write.

use super::Random;
use crate::Decimal;

/// Eleven columns that read to some number, in any of the spellings that the paper allows.
pub fn spelling(random: &mut Random) -> [u8; 11] {
    let sign = random.one(&["", "", "", "+", "-"]);
    let tail = tail(random);
    laid_out(random, sign, tail)
}

/// The same in seven columns, where an exponent is short.
pub fn narrow_spelling(random: &mut Random) -> [u8; 7] {
    let sign = random.one(&["", "", "", "+", "-"]);
    loop {
        let (tail, gap, inner) = tail(random);
        if sign.len() + tail.len() + gap + inner <= 5 {
            return laid_out(random, sign, (tail, gap, inner));
        }
    }
}

/// Columns with a number that has this sign and this exponent.
fn laid_out<const N: usize>(random: &mut Random, sign: &str, (tail, gap, inner): (String, usize, usize)) -> [u8; N] {
    // Sign, point, tail and its blanks take their columns; the digits take some of the rest.
    let room = N - sign.len() - 1 - tail.len() - gap - inner;
    let digits = random.within(1, room);
    let before = random.within(0, digits);
    let mut text: String = (0..digits).map(|_| random.one(&['0', '0', '1', '2', '5', '9', '7'])).collect();
    text.insert(before, '.');
    let figures = match tail.strip_prefix('E').filter(|_| inner > 0) {
        Some(rest) => format!("E{}{rest}", " ".repeat(inner)),
        None => tail.clone(),
    };
    let field = if tail.is_empty() {
        let lead = random.within(0, room - digits);
        format!("{:lead$}{sign}{text}{:rest$}", "", "", rest = room - digits - lead)
    } else {
        format!("{:lead$}{sign}{text}{:gap$}{figures}", "", "", lead = room - digits)
    };
    field.into_bytes().try_into().expect("so many columns")
}

/// Eleven columns with a number as tables have it: one to six digits, in five spellings, at either end of the field.
pub fn usual_spelling(random: &mut Random) -> [u8; 11] {
    let digits = random.within(1, 6);
    let mut text: String = (0..digits).map(|_| char::from(b'0' + random.below(10) as u8)).collect();
    text.insert(random.within(0, digits), '.');
    if random.once_in(8) {
        text.insert(0, '-');
    }
    let short = text.len() < 7;
    let exponent = match random.below(5) {
        0 => format!("-{}", random.below(30)),
        1 => format!("+{}", random.below(20)),
        2 if short => format!("E {:02}", random.below(20)),
        3 if short => format!(" E-{}", random.below(9)),
        _ => String::new(),
    };
    let left = exponent.is_empty() && random.once_in(2);
    let field = if left { format!("{text:<11}") } else { format!("{:>11}", text + &exponent) };
    field.into_bytes().try_into().expect("eleven columns")
}

/// An exponent or nothing, the blanks before it, and the blanks behind its E.
fn tail(random: &mut Random) -> (String, usize, usize) {
    let style = random.below(5);
    if style < 2 {
        return (String::new(), 0, 0);
    }
    let length = random.one(&[1, 1, 2, 2, 2, 3, 5]);
    let digits: String = (0..length).map(|_| random.one(&['0', '0', '1', '2', '9'])).collect();
    let sign = random.one(&["+", "-"]);
    let gap = if random.once_in(3) { 1 } else { 0 };
    match style {
        2 => (format!("{sign}{digits}"), gap, 0),
        3 => (format!("E{sign}{digits}"), gap, 0),
        _ => (format!("E{digits}"), gap, random.below(2)),
    }
}

/// Eleven columns: a number, a number with one or two columns changed, letters of numbers at random, or blanks.
pub fn number_field(random: &mut Random) -> [u8; 11] {
    field(random, spelling)
}

/// The same in seven columns.
pub fn narrow_field(random: &mut Random) -> [u8; 7] {
    field(random, narrow_spelling)
}

fn field<const N: usize>(random: &mut Random, spelling: fn(&mut Random) -> [u8; N]) -> [u8; N] {
    const LETTERS: &[u8] = b"  +-..E0123456789";
    const OTHERS: &[u8] = b" +-.E0159eDdNX,:/#\t\n\xB0";
    let mut field = match random.below(20) {
        0 => [b' '; N],
        1..=3 => std::array::from_fn(|_| random.one(LETTERS)),
        _ => spelling(random),
    };
    for _ in 0..random.one(&[0, 0, 1, 1, 2]) {
        let among = if random.once_in(3) { OTHERS } else { LETTERS };
        field[random.below(N)] = random.one(among);
    }
    field
}

/// A decimal to write: short and long, with and without zeros behind, near the edges where a writer may slip.
pub fn decimal(random: &mut Random) -> Decimal {
    let coefficient = match random.below(8) {
        0 => random.bits(),
        1 => random.one(&[0, 1, 9, 10, 99, 100, 9_999_999_999, 10_000_000_000, u64::MAX]),
        2 => 10_u64.pow(random.below(20) as u32),
        _ => random.bits() % 10_u64.pow(random.within(1, 11) as u32),
    };
    let power = match random.below(8) {
        0 => random.bits() as i32,
        1 => random.one(&[i32::MIN, i32::MAX, -100_000_000, 99_999_999, 100_000_000, -100_000_001, 0]),
        2 | 3 => {
            // A power of ten and its neighbours: there the exponent grows by a digit.
            let edge = 10_i32.pow(random.within(1, 8) as u32) - 12 + random.below(24) as i32;
            if random.once_in(2) {
                edge
            } else {
                -edge
            }
        }
        _ => random.below(40) as i32 - 20,
    };
    Decimal { negative: random.once_in(3), coefficient, power }
}

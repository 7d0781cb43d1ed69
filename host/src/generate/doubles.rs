//! Number fields and decimals whose doubles (M-107) are easily mistaken: at the ends of the simple range, halfway between
//! two doubles, zeros, and coefficients with many digits.

use super::{number_field, Random};
use crate::Decimal;

/// The powers on both sides of each end, and any between.
fn power(random: &mut Random) -> i32 {
    match random.below(4) {
        0 => random.one(&[-24, -23, -22, -21]),
        1 => random.one(&[21, 22, 23, 24]),
        _ => random.below(49) as i32 - 24,
    }
}

/// A decimal halfway between two doubles: an odd number of 54 bits times a power of two.
pub fn halfway(random: &mut Random) -> Decimal {
    let power = random.within(9, 22) as u32;
    let (least, most) = ((1 << 53) / 5_u64.pow(power) + 1, (1 << 54) / 5_u64.pow(power));
    let coefficient = (least + random.bits() % (most - least)) | 1;
    Decimal { negative: random.once_in(3), coefficient, power: power as i32 }
}

/// A decimal in hand, normal or not.
pub fn decimal_in_hand(random: &mut Random) -> Decimal {
    const TEN_DIGITS: u64 = 9_999_999_999;
    if random.once_in(4) {
        return halfway(random);
    }
    let coefficient = match random.below(8) {
        0 => random.one(&[0, 1, 5, 9, 10, 100, TEN_DIGITS - 1, TEN_DIGITS, TEN_DIGITS + 1, u64::MAX]),
        1 => (1 << random.within(0, 63)) + random.below(3) as u64 - 1,
        2 => random.bits(),
        _ => random.bits() % 10_u64.pow(random.within(1, 10) as u32),
    };
    let power = match random.below(12) {
        0 => random.one(&[i32::MIN, i32::MIN + 22, -100_000_000, 99_999_999, i32::MAX - 22, i32::MAX]),
        1 => random.bits() as i32,
        _ => power(random),
    };
    Decimal { negative: random.once_in(3), coefficient, power }
}

/// A decimal in eleven columns, its coefficient with a point somewhere and perhaps with zeros around it; none where it does
/// not fit.
fn written(random: &mut Random, decimal: Decimal) -> Option<[u8; 11]> {
    let sign = if decimal.negative { "-" } else { random.one(&["", "", "+"]) };
    let zeros = random.one(&[0, 0, 0, 1, 2]);
    let mut digits = format!("{}{}{}", random.one(&["", "", "0"]), decimal.coefficient, "0".repeat(zeros));
    let point = random.within(0, digits.len());
    let exponent = decimal.power - zeros as i32 + (digits.len() - point) as i32;
    digits.insert(point, '.');
    let tail = match (exponent, random.below(4)) {
        (0, 0..=2) => String::new(),
        (0.., 3) => format!("E{exponent}"),
        (_, 0) => format!("E{exponent:+}"),
        _ => format!("{exponent:+}"),
    };
    format!("{:>11}", sign.to_string() + &digits + &tail).into_bytes().try_into().ok()
}

/// Eleven columns: near the ends of the range, halfway between doubles, a whole number, a zero; or as other fields are.
pub fn double_field(random: &mut Random) -> [u8; 11] {
    let decimal = match random.below(6) {
        0 | 1 => return number_field(random),
        2 => halfway(random),
        3 => Decimal { negative: random.once_in(2), coefficient: 0, power: power(random) },
        4 => Decimal {
            negative: random.once_in(3),
            coefficient: random.bits() % 10_000_000_000,
            power: -(random.below(11) as i32),
        },
        _ => Decimal {
            negative: random.once_in(3),
            coefficient: random.bits() % 10_u64.pow(random.within(1, 7) as u32),
            power: power(random),
        },
    };
    (0..8).find_map(|_| written(random, decimal)).unwrap_or_else(|| number_field(random))
}

//! Slips in doubles (M-107) planted on purpose, to see that the comparison of `differ` would find them.

mod common;

use common::{none, ENTRIES, SEED};
use glockenbeacon::differ::{Difference, Implementation, Pair, Reference};
use glockenbeacon::library::DoubleCalls;
use glockenbeacon::{reference, Decimal, DoubleRead, FieldRead, NoAnswer, Simple, Value};

/// Readings taken as doubles in another way, in every question alike: what the value is, by its reading.
struct ReadSlip(fn(Value) -> Simple);

impl ReadSlip {
    fn doubled(&self, read: FieldRead) -> DoubleRead {
        DoubleRead { value: (self.0)(read.value), digits: read.digits }
    }
}

impl Implementation for ReadSlip {
    fn double(&self, entry: &[u8], [n, section, line, column]: [u32; 4]) -> Result<DoubleRead, NoAnswer> {
        reference::value(entry, n, section, line, column).map(|read| self.doubled(read))
    }
    fn index_double(
        &self,
        entry: &[u8],
        index: &[u32],
        [n, section, line, column]: [u32; 4],
    ) -> Result<DoubleRead, NoAnswer> {
        reference::index_value(entry, index, n, section, line, column).map(|read| self.doubled(read))
    }
    fn read_double(&self, field: &[u8]) -> Result<DoubleRead, NoAnswer> {
        reference::read_number(field).map(|read| self.doubled(read))
    }
    fn as_double(&self, decimal: Decimal) -> Simple {
        (self.0)(Value::Number(decimal))
    }
}

/// The true double of a reading.
fn due(value: Value) -> Simple {
    match value {
        Value::Blank => Simple::Blank,
        Value::Number(decimal) => reference::as_double(decimal),
    }
}

/// A decimal by Rust's own reader, whatever its power.
fn parsed(Decimal { negative, coefficient, power }: Decimal) -> Simple {
    let sign = if negative && coefficient != 0 { "-" } else { "" };
    Simple::Double(format!("{sign}{coefficient}e{power}").parse().expect("a number"))
}

/// The double where the reading is simple, made in another way.
fn made(value: Value, make: impl Fn(Decimal) -> f64) -> Simple {
    match (value, due(value)) {
        (Value::Number(decimal), Simple::Double(_)) => Simple::Double(make(decimal)),
        (_, due) => due,
    }
}

/// Size and sign of a double.
fn signed(decimal: Decimal, size: f64) -> f64 {
    if decimal.negative {
        -size
    } else {
        size
    }
}

fn ten(power: i32) -> f64 {
    10_f64.powi(power.abs())
}

/// What is asked: fields, decimals in hand, and entries.
type Asked = fn(&mut Pair) -> Result<(), Difference>;

const ASKED: [Asked; 3] = [
    |pair| pair.double_fields(SEED, 20_000),
    |pair| pair.double_decimals(SEED, 20_000),
    |pair| pair.doubles(SEED, ENTRIES),
];

/// The words of the difference by which a slip is found; none where it goes unseen.
fn found(slip: &dyn Implementation, asked: Asked) -> Option<String> {
    asked(&mut Pair::new(slip, &Reference)).err().map(|difference| difference.words)
}

/// Found by fields, by decimals in hand and by entries, where these have such values.
#[test]
fn slips_in_the_conversion_are_found() {
    let slips: [(&str, ReadSlip, [bool; 3]); 17] = [
        (
            "23 in",
            ReadSlip(|value| match value {
                Value::Number(decimal @ Decimal { power: 23, .. }) => parsed(decimal),
                _ => due(value),
            }),
            [true, true, false],
        ),
        (
            "-23 in",
            ReadSlip(|value| match value {
                Value::Number(decimal @ Decimal { power: -23, .. }) => parsed(decimal),
                _ => due(value),
            }),
            [true, true, false],
        ),
        (
            "22 out",
            ReadSlip(|value| match value {
                Value::Number(decimal @ Decimal { power: 22, .. }) => Simple::Outside(decimal),
                _ => due(value),
            }),
            [true, true, false],
        ),
        (
            "-22 out",
            ReadSlip(|value| match value {
                Value::Number(decimal @ Decimal { power: -22, .. }) => Simple::Outside(decimal),
                _ => due(value),
            }),
            [true, true, false],
        ),
        ("sign dropped", ReadSlip(|value| made(value, |d| parsed_double(d).abs())), [true, true, true]),
        (
            "-0.0 for zero",
            ReadSlip(|value| made(value, |d| if d.coefficient == 0 { -0.0 } else { parsed_double(d) })),
            [true, true, true],
        ),
        (
            "divided as times the reciprocal",
            ReadSlip(|value| {
                made(value, |d| match d.power < 0 {
                    true => signed(d, d.coefficient as f64 * (1.0 / ten(d.power))),
                    false => parsed_double(d),
                })
            }),
            [true, true, true],
        ),
        (
            "rounded twice",
            ReadSlip(|value| {
                made(value, |d| match d.power > 1 {
                    true => signed(d, d.coefficient as f64 * ten(d.power - 1) * 10.0),
                    false => parsed_double(d),
                })
            }),
            [true, true, false],
        ),
        (
            "times for divided",
            ReadSlip(|value| made(value, |d| signed(d, d.coefficient as f64 * ten(d.power)))),
            [true, true, true],
        ),
        (
            "a half rounded up",
            ReadSlip(|value| made(value, |d| if is_half(d) { away(parsed_double(d), d) } else { parsed_double(d) })),
            [true, true, false],
        ),
        (
            "rounded down",
            ReadSlip(|value| made(value, |d| if d.power > 0 { down(parsed_double(d), d) } else { parsed_double(d) })),
            [true, true, false],
        ),
        ("single precision", ReadSlip(|value| made(value, |d| f64::from(parsed_double(d) as f32))), [true, true, true]),
        (
            "blank as zero",
            ReadSlip(|value| match value {
                Value::Blank => Simple::Double(0.0),
                _ => due(value),
            }),
            [true, false, true],
        ),
        (
            "a decimal outside as zero",
            ReadSlip(|value| match due(value) {
                Simple::Outside(_) => Simple::Double(0.0),
                due => due,
            }),
            [true, true, true],
        ),
        (
            "a decimal outside as its nearest double",
            ReadSlip(|value| match (value, due(value)) {
                (Value::Number(decimal), Simple::Outside(_)) => parsed(decimal),
                (_, due) => due,
            }),
            [true, true, true],
        ),
        (
            "eleven digits in",
            ReadSlip(|value| match value {
                Value::Number(decimal) if (-22..=22).contains(&decimal.power) => parsed(decimal),
                _ => due(value),
            }),
            [false, true, false],
        ),
        (
            "made normal first",
            ReadSlip(|value| match value {
                Value::Number(decimal) => decimal.normal().map_or(Simple::Outside(decimal), reference::as_double),
                Value::Blank => Simple::Blank,
            }),
            [false, true, false],
        ),
    ];
    for (name, slip, by) in slips {
        for (turn, asked) in ASKED.into_iter().enumerate().filter(|(turn, _)| by[*turn]) {
            assert!(found(&slip, asked).is_some(), "{name}: goes unseen by {turn}");
        }
    }
}

/// By Rust's own reader.
fn parsed_double(decimal: Decimal) -> f64 {
    parsed(decimal).double().unwrap_or(0.0)
}

/// The whole number of a decimal, if it is one that 128 bits hold.
fn whole(decimal: Decimal) -> u128 {
    u128::from(decimal.coefficient) * 10_u128.pow(decimal.power.max(0) as u32)
}

/// Whether a decimal lies halfway between two doubles.
fn is_half(decimal: Decimal) -> bool {
    let double = parsed_double(decimal).abs() as u128;
    decimal.power > 0 && double > 0 && 2 * double.abs_diff(whole(decimal)) == 1 << double.ilog2().saturating_sub(52)
}

/// The other of two doubles around a decimal that is a half, if it is the larger.
fn away(double: f64, decimal: Decimal) -> f64 {
    match (double.abs() as u128) < whole(decimal) {
        true => f64::from_bits(double.to_bits() + 1),
        false => double,
    }
}

/// The double below a decimal in size.
fn down(double: f64, decimal: Decimal) -> f64 {
    match double.abs() as u128 > whole(decimal) {
        true => f64::from_bits(double.to_bits() - 1),
        false => double,
    }
}

/// "the power" taken as the exponent that is written: a field's own slip.
struct ExponentForPower;

impl Implementation for ExponentForPower {
    fn read_double(&self, field: &[u8]) -> Result<DoubleRead, NoAnswer> {
        let read = reference::read_double(field)?;
        let Value::Number(decimal) = reference::read_number(field)?.value else { return Ok(read) };
        let text = String::from_utf8_lossy(field).replace([' ', 'E'], "");
        let sign = text.get(1..).and_then(|rest| rest.rfind(['+', '-'])).map(|at| at + 1);
        let exponent = sign.and_then(|at| text[at..].parse::<i64>().ok()).unwrap_or(0);
        let value = if (-22..=22).contains(&exponent) { parsed(decimal) } else { Simple::Outside(decimal) };
        Ok(DoubleRead { value, ..read })
    }
}

/// Answers that are otherwise than they should be, by who is asked.
struct AnswerSlip(fn(DoubleCalls, Result<DoubleRead, NoAnswer>) -> Result<DoubleRead, NoAnswer>);

impl Implementation for AnswerSlip {
    fn double(&self, entry: &[u8], place: [u32; 4]) -> Result<DoubleRead, NoAnswer> {
        (self.0)(DoubleCalls::InFull(entry, place), Reference.double(entry, place))
    }
    fn index_double(&self, entry: &[u8], index: &[u32], place: [u32; 4]) -> Result<DoubleRead, NoAnswer> {
        (self.0)(DoubleCalls::ByIndex(entry, index, place), Reference.index_double(entry, index, place))
    }
    fn read_double(&self, field: &[u8]) -> Result<DoubleRead, NoAnswer> {
        (self.0)(DoubleCalls::Field(field), Reference.read_double(field))
    }
}

/// The words that are handed back, otherwise than they should be.
struct CallSlip(fn(u64, u64) -> (u64, u64));

impl Implementation for CallSlip {
    fn double_calls(&self, calls: DoubleCalls) -> (u64, u64) {
        let (bits, word) = Reference.double_calls(calls);
        (self.0)(bits, word)
    }
}

/// A refused value as a blank.
const BLANK: DoubleRead = DoubleRead { value: Simple::Blank, digits: 0 };

#[test]
fn slips_in_answers_are_found() {
    let slips: [(&str, &dyn Implementation, &str); 12] = [
        ("the exponent for the power", &ExponentForPower, "read_double\n"),
        ("a malformed field as blank", &AnswerSlip(|_, a| a.or(Ok(BLANK))), "read_double\n"),
        ("40 as 15", &AnswerSlip(|_, a| a.map_err(|_| none(15))), "read_double\n"),
        ("31 with zeros beside it", &AnswerSlip(|_, a| a.map_err(|no| none(no.number))), "double\n"),
        (
            "no line as a blank",
            &AnswerSlip(|_, a| a.or_else(|no| if no.number == 34 { Ok(BLANK) } else { Err(no) })),
            "double\n",
        ),
        ("39 as 31", &AnswerSlip(|_, a| a.map_err(|no| if no.number == 39 { none(31) } else { no })), "index_double\n"),
        (
            "digits of the coefficient",
            &AnswerSlip(|calls, a| match (calls, a) {
                (DoubleCalls::Field(field), Ok(read)) if read.digits > 0 => {
                    let Ok(FieldRead { value: Value::Number(decimal), .. }) = reference::read_number(field) else {
                        return Ok(read);
                    };
                    Ok(DoubleRead { digits: decimal.coefficient.to_string().len() as u32, ..read })
                }
                (_, a) => a,
            }),
            "read_double\n",
        ),
        (
            "no digits in the word",
            &CallSlip(|bits, word| (bits, word & !(0xff << 56))),
            "read_double: as it is called\n",
        ),
        ("no kind in the word", &CallSlip(|bits, word| (bits, word & !(0xff << 48))), "read_double: as it is called\n"),
        (
            "refused as a decimal outside",
            &CallSlip(|bits, word| (bits, if word & 0xff > 0 { word | 2 << 48 } else { word })),
            "read_double: as it is called\n",
        ),
        (
            "not a number where there is no double",
            &CallSlip(|bits, word| (if word >> 48 & 0xff == 1 { bits } else { f64::NAN.to_bits() }, word)),
            "read_double: as it is called\n",
        ),
        (
            "the record left out",
            &CallSlip(|bits, word| (bits, if word & 0xff == 31 { word & 0xff_ffff } else { word })),
            "double: as it is called\n",
        ),
    ];
    for (name, slip, words) in slips {
        let said = ASKED.into_iter().find_map(|asked| found(slip, asked));
        let said = said.unwrap_or_else(|| panic!("{name}: goes unseen"));
        assert!(said.starts_with(words), "{name}: {said}");
    }
}

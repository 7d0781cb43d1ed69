//! Values as doubles (M-107): the readings of its words, one by one, on the sample, on fields and on decimals in hand; the
//! library and the reference.

mod common;

use common::{changed, entry, flags, none, sample, say, wide, BOTH, SAMPLE};
use glockenbeacon::differ::Implementation;
use glockenbeacon::generate::{self, Random};
use glockenbeacon::library::{self, DoubleCalls, Index};
use glockenbeacon::{words, Decimal, DoubleRead, FieldRead, NoAnswer, Simple, Value, COMMON, DATA, RECORD};

/// "Simple means the power lies in -22 to 22"
const SIMPLE: std::ops::RangeInclusive<i32> = -22..=22;

/// The largest coefficient of a field.
const TEN_DIGITS: u64 = 9_999_999_999;

fn decimal(negative: bool, coefficient: u64, power: i32) -> Decimal {
    Decimal { negative, coefficient, power }
}

/// A double by its bits.
fn bits(bits: u64) -> Simple {
    Simple::Double(f64::from_bits(bits))
}

fn outside(negative: bool, coefficient: u64, power: i32) -> Simple {
    Simple::Outside(decimal(negative, coefficient, power))
}

/// A text at the end of eleven columns, as a double.
fn read(by: &dyn Implementation, text: &str) -> Result<DoubleRead, NoAnswer> {
    by.read_double(format!("{text:>11}").as_bytes())
}

/// What Rust's own reader makes of the decimal's text: rounded once, too.
fn parsed(Decimal { negative, coefficient, power }: Decimal) -> f64 {
    let sign = if negative && coefficient != 0 { "-" } else { "" };
    format!("{sign}{coefficient}e{power}").parse().expect("a number")
}

/// The values of the sample, in COMMON and DATA.
#[test]
fn the_sample() {
    let due = [
        (1, COMMON, 1, 1, bits(0x402c_0000_0000_0000), 2),
        (2, DATA, 1, 1, bits(0x4024_0000_0000_0000), 2),
        (2, DATA, 1, 2, bits(0x3fc2_8f5c_28f5_c28f), 3),
        (2, DATA, 1, 3, Simple::Blank, 0),
        (2, DATA, 2, 1, bits(0x4034_0000_0000_0000), 2),
        (2, DATA, 2, 2, bits(0x3fc1_eb85_1eb8_51ec), 2),
        (2, DATA, 2, 3, bits(0x4039_0000_0000_0000), 2),
    ];
    let index = Index::of(&sample()).unwrap();
    for (subentry, section, line, column, value, digits) in due {
        for by in BOTH {
            let place = [subentry, section, line, column];
            assert_eq!(by.double(&sample(), place), Ok(DoubleRead { value, digits }));
            assert_eq!(by.index_double(&sample(), index.numbers(), place), Ok(DoubleRead { value, digits }));
        }
        let read = Ok(DoubleRead { value, digits });
        assert_eq!(index.double(&sample(), subentry, section, line, column), read);
        assert_eq!(index.row(subentry).unwrap().double(&sample(), section, line, column), read);
    }
    for by in BOTH {
        assert_eq!(by.double(&sample(), [9, DATA, 1, 1]), Err(none(32)));
    }
}

/// Fields with the bits of their doubles, worked out by whole numbers; eight of them are in the table of host/README.md.
#[test]
fn fields_with_their_bits() {
    for (text, value, digits) in [
        ("1.45-1", bits(0x3fc2_8f5c_28f5_c28f), 3),
        ("0.1", bits(0x3fb9_9999_9999_999a), 1),
        ("1.+22", bits(0x4480_f0cf_064d_d592), 1),
        ("-1.+22", bits(0xc480_f0cf_064d_d592), 1),
        ("1.+23", outside(false, 1, 23), 1),
        ("-1.+23", outside(true, 1, 23), 1),
        ("1.-22", bits(0x3b5e_3920_1017_5ee6), 1),
        (".1-22", outside(false, 1, -23), 1),
        ("9999999999.", bits(0x4202_a05f_1ff8_0000), 10),
        ("-.0", bits(0), 0),
        ("", Simple::Blank, 0),
        (".1-99999999", outside(false, 1, -100_000_000), 1),
        ("10.+9999999", outside(false, 1, 10_000_000), 2),
    ] {
        for by in BOTH {
            assert_eq!(read(by, text), Ok(DoubleRead { value, digits }), "{text}");
        }
    }
}

/// "the power" of a field is that of its value, whose coefficient ten does not divide, not the exponent that is written.
#[test]
fn the_power_is_that_of_the_value() {
    for (text, value) in [
        ("10.+22", outside(false, 1, 23)),
        ("1.0+22", bits(0x4480_f0cf_064d_d592)),
        (".1+23", bits(0x4480_f0cf_064d_d592)),
        (".001+25", bits(0x4480_f0cf_064d_d592)),
        ("0.10+23", bits(0x4480_f0cf_064d_d592)),
        ("100.-24", bits(0x3b5e_3920_1017_5ee6)),
        ("10.-24", outside(false, 1, -23)),
        ("1.5-22", outside(false, 15, -23)),
        ("1.5-21", Simple::Double(1.5e-21)),
        ("15.+22", Simple::Double(15e22)),
        ("1.5+23", Simple::Double(1.5e23)),
        ("1.5+24", outside(false, 15, 23)),
        ("5.125+25", Simple::Double(5.125e25)),
    ] {
        for by in BOTH {
            assert_eq!(read(by, text).map(|read| read.value), Ok(value), "{text}");
        }
    }
}

/// Both ends are in, and what lies behind them is given as it is; the same of the tenth and the eleventh digit.
#[test]
fn the_ends_of_the_range() {
    let powers = (-30..=30).chain([i32::MIN, i32::MIN + 1, -100_000_000, 99_999_999, i32::MAX - 1, i32::MAX]);
    let (mut doubles, mut decimals) = (0, 0);
    for power in powers {
        for coefficient in [0, 1, 10, TEN_DIGITS - 1, TEN_DIGITS, TEN_DIGITS + 1, 1 << 53, u64::MAX] {
            for negative in [false, true] {
                let decimal = decimal(negative, coefficient, power);
                let simple = SIMPLE.contains(&power) && coefficient <= TEN_DIGITS;
                let due = match simple {
                    true => Simple::Double(parsed(decimal)),
                    false => outside(negative && coefficient != 0, coefficient, power),
                };
                for by in BOTH {
                    assert_eq!(by.as_double(decimal), due, "{decimal:?}");
                    let (double, kind) = by.double_calls(DoubleCalls::InHand(decimal));
                    assert_eq!((double, kind), (due.double().unwrap_or(0.0).to_bits(), due.kind()), "{decimal:?}");
                }
                (doubles, decimals) = if simple { (doubles + 1, decimals) } else { (doubles, decimals + 1) };
            }
        }
    }
    assert_eq!((doubles, decimals), (45 * 5 * 2, (67 * 8 - 45 * 5) * 2));
    // The power of a decimal in hand is the one handed over: 10 at 22 is in, and 1 at 23, the same value, is not.
    for by in BOTH {
        assert_eq!(by.as_double(decimal(false, 10, 22)), Simple::Double(1e23));
        assert_eq!(by.as_double(decimal(false, 1, 23)), outside(false, 1, 23));
        assert_eq!(by.as_double(decimal(false, 10, -23)), outside(false, 10, -23));
        assert_eq!(by.as_double(decimal(false, 1, -22)), Simple::Double(1e-22));
    }
    say(&format!("decimals at the ends of the range: {doubles} doubles, {decimals} outside"));
}

/// "Prove the ten-digit coefficient loses nothing on its way": ten digits with the point in each place.
#[test]
fn ten_digits_at_each_place_of_the_point() {
    let mut random = Random::seeded(107);
    let mut numbers = vec![TEN_DIGITS, 1_234_567_891, 9_007_199_255, 1_000_000_001, 8_589_934_593, 4_294_967_297];
    numbers.extend((0..500).map(|_| 1_000_000_000 + random.bits() % 9_000_000_000));
    for number in &numbers {
        for point in 0..=10 {
            let mut text = number.to_string();
            text.insert(point, '.');
            let due = text.parse::<f64>().unwrap();
            for by in BOTH {
                assert_eq!(read(by, &text), Ok(DoubleRead { value: Simple::Double(due), digits: 10 }), "{text}");
            }
        }
        // The coefficient comes back from its double.
        for by in BOTH {
            let double = by.as_double(decimal(false, *number, 0)).double().unwrap();
            assert_eq!((double as u64, double.fract()), (*number, 0.0));
        }
    }
    say(&format!("ten digits with the point in each place: {} fields", 11 * numbers.len()));
}

/// "Where the value is a whole number below 2 to the 53rd in size, the double is exactly it", and near it.
#[test]
fn whole_numbers_are_exact() {
    let mut random = Random::seeded(1_070);
    let (mut exact, mut above) = (0, 0);
    let mut check = |decimal: Decimal, whole: u128| {
        for by in BOTH {
            let double = by.as_double(decimal).double().expect("it is simple");
            if whole < 1 << 53 {
                assert_eq!((double.abs() as u128, double.fract()), (whole, 0.0), "{decimal:?}");
                assert_eq!(double.is_sign_negative(), decimal.negative);
            }
            assert_eq!(double.to_bits(), parsed(decimal).to_bits(), "{decimal:?}");
        }
        (exact, above) = if whole < 1 << 53 { (exact + 1, above) } else { (exact, above + 1) };
    };
    for power in 0..=22_u32 {
        let ten = 10_u128.pow(power);
        // On both sides of 2 to the 53rd, and any below it.
        let limit = ((1 << 53) / ten) as u64;
        let near = (limit.saturating_sub(20)..=limit + 20).filter(|&coefficient| coefficient <= TEN_DIGITS);
        let any: Vec<u64> = (0..2_000).map(|_| random.bits() % limit.clamp(10, TEN_DIGITS)).collect();
        for coefficient in near.chain(any) {
            let negative = coefficient % 3 == 0 && coefficient > 0;
            check(decimal(negative, coefficient, power as i32), u128::from(coefficient) * ten);
        }
    }
    assert!(exact > 20_000 && above > 1_000, "{exact}, {above}");
    say(&format!("whole numbers: {exact} below 2 to the 53rd, {above} above"));
    for (text, whole) in [
        ("9007199.+9", 9_007_199_000_000_000_u64),
        ("90071992.+8", 9_007_199_200_000_000),
        ("4503599627.", 4_503_599_627),
        ("9.007199+15", 9_007_199_000_000_000),
    ] {
        for by in BOTH {
            assert_eq!(read(by, text).map(|read| read.value), Ok(Simple::Double(whole as f64)), "{text}");
        }
    }
}

/// Zero is 0.0 however its field is signed and scaled. In hand the sign says nothing, and the power is the one handed over.
#[test]
fn zeros() {
    for text in
        ["0.", "-0.", "+0.", "-.0", ".0", "0.0", "-0.-9999999", "0.-99999999", "0.+99999999", "-0.E+23", "00.00"]
    {
        for by in BOTH {
            assert_eq!(read(by, text), Ok(DoubleRead { value: bits(0), digits: 0 }), "{text}");
            let (double, word) = by.double_calls(DoubleCalls::Field(format!("{text:>11}").as_bytes()));
            assert_eq!((double, word), (0, 1 << 48), "{text}");
        }
    }
    for by in BOTH {
        let entry = changed(22, 12, "       -0.0");
        assert_eq!(by.double(&entry, [2, DATA, 1, 2]), Ok(DoubleRead { value: bits(0), digits: 0 }));
        for power in SIMPLE {
            assert_eq!(by.as_double(decimal(false, 0, power)), bits(0));
            assert_eq!(by.as_double(decimal(true, 0, power)), bits(0), "however signed");
        }
        assert_eq!(by.as_double(decimal(false, 0, 23)), outside(false, 0, 23));
        assert_eq!(by.as_double(decimal(false, 0, -23)), outside(false, 0, -23));
        assert_eq!(by.as_double(decimal(true, 0, 23)), outside(false, 0, 23), "however signed");
    }
}

/// Halfway between two doubles the even one is taken.
#[test]
fn ties_go_to_the_even_one() {
    // 5 at 22 is 11920928955078125 times 2 to the 22nd: an odd number of 54 bits, so half of it lies between two of 53.
    for (coefficient, power, even) in [
        (5, 22, 5_960_464_477_539_062_u64),
        (7, 22, 8_344_650_268_554_688),
        (19, 21, 4_529_953_002_929_688),
        (21, 21, 5_006_790_161_132_812),
    ] {
        let due = (even as f64 * 2_f64.powi(power + 1)).to_bits();
        for by in BOTH {
            assert_eq!(by.as_double(decimal(false, coefficient, power)), bits(due), "{coefficient} at {power}");
            assert_eq!(
                by.as_double(decimal(true, coefficient, power)),
                bits(due | 1 << 63),
                "{coefficient} at {power}"
            );
            let read = read(by, &format!("{coefficient}.+{power}"));
            assert_eq!(read.map(|read| read.value), Ok(bits(due)));
        }
    }
    let mut random = Random::seeded(107);
    for _ in 0..20_000 {
        let decimal = generate::halfway(&mut random);
        let whole = u128::from(decimal.coefficient) * 10_u128.pow(decimal.power as u32);
        for by in BOTH {
            let double = by.as_double(decimal).double().expect("it is simple");
            let (size, apart) = (double.abs() as u128, (double.abs() as u128).abs_diff(whole));
            let unit = 1_u128 << (size.ilog2() - 52);
            assert_eq!((2 * apart, double.to_bits() & 1), (unit, 0), "{decimal:?}");
        }
    }
}

/// Every power of the range, with coefficients of every length: the bits are those of Rust's own reader of numbers.
#[test]
fn every_power_as_text_is_read() {
    let mut random = Random::seeded(1);
    let mut count = 0;
    for power in SIMPLE {
        for turn in 0..5_000_u32 {
            let coefficient = match turn {
                0..=9 => u64::from(turn),
                10..=19 => TEN_DIGITS - u64::from(turn - 10),
                _ => random.bits() % 10_u64.pow(turn % 10 + 1),
            };
            let decimal = decimal(random.once_in(2), coefficient, power);
            let due = Simple::Double(parsed(decimal));
            for by in BOTH {
                assert_eq!(by.as_double(decimal), due, "{decimal:?}");
            }
            count += 1;
        }
    }
    assert!(count >= 200_000);
    say(&format!("decimals held against str::parse: {count}, over all 45 powers"));
}

/// The same of fields in all spellings: the double of the decimal that the reader says, with its digits.
#[test]
fn fields_are_the_doubles_of_their_decimals() {
    let mut random = Random::seeded(11);
    let (mut doubles, mut decimals, mut others) = (0, 0, 0);
    for _ in 0..100_000 {
        let field = generate::double_field(&mut random);
        for by in BOTH {
            let double = by.read_double(&field);
            let due = by.read_number(&field).map(|read| DoubleRead { value: due_of(read), digits: read.digits });
            assert_eq!(double, due, "{}", String::from_utf8_lossy(&field));
            assert_eq!(by.double_calls(DoubleCalls::Field(&field)), packed(due));
        }
        match library::read_double(&field).map(|read| read.value) {
            Ok(Simple::Double(_)) => doubles += 1,
            Ok(Simple::Outside(_)) => decimals += 1,
            _ => others += 1,
        }
    }
    assert!(doubles > 10_000 && decimals > 5_000 && others > 5_000, "{doubles}, {decimals}, {others}");
    say(&format!("fields as doubles: {doubles} doubles, {decimals} decimals outside, {others} blank or malformed"));
}

/// What a reading should be as a double, by Rust's own reader.
fn due_of(read: FieldRead) -> Simple {
    match read.value {
        Value::Blank => Simple::Blank,
        Value::Number(decimal) if SIMPLE.contains(&decimal.power) => Simple::Double(parsed(decimal)),
        Value::Number(decimal) => Simple::Outside(decimal),
    }
}

/// The bits and the word of an answer.
fn packed(answer: Result<DoubleRead, NoAnswer>) -> (u64, u64) {
    let (double, word) = words::double_calls(answer);
    (double.to_bits(), word)
}

/// Fields that are refused: 40 for the length, 15 for the form; 0.0 and the number alone.
#[test]
fn refused_fields() {
    for (field, number) in
        [("", 40), ("1.", 40), ("1.         2", 40), ("      1.5E ", 15), ("          1", 15), ("    1.2.3  ", 15)]
    {
        for by in BOTH {
            assert_eq!(by.read_double(field.as_bytes()), Err(none(number)), "{field:?}");
            assert_eq!(by.double_calls(DoubleCalls::Field(field.as_bytes())), (0, number.into()), "{field:?}");
        }
    }
}

/// Every place around the tables of some entries: "Refusals: as for the value question", by an index too, and the calls
/// say the same as one question for the value and the call for a decimal in hand.
#[test]
fn refused_as_the_value_is() {
    let open = SAMPLE.find("ENDENTRY").unwrap();
    let gaps = entry(&format!("{}NOSUBENT      90001003   20240105\nENDENTRY             3\n", &SAMPLE[..open]));
    let far = changed(22, 12, "      1.-30");
    let entries = [
        sample(),
        gaps,
        far,
        changed(22, 12, "       1.5E"),
        sample()[..25 * RECORD].to_vec(),
        sample()[1..].to_vec(),
        Vec::new(),
    ];
    let mut given = [0; 40];
    let numbers: &[u32] = &[1, 2, 3, 7, 0, 2, 13, 14, 0, 19];
    for entry in &entries {
        for place in places() {
            for by in BOTH {
                let (double, value) = (by.double(entry, place), by.value(entry, place));
                assert_eq!(double, value.map(|read| DoubleRead { value: due_of(read), digits: read.digits }));
                assert_eq!(by.double_calls(DoubleCalls::InFull(entry, place)), packed(double), "{place:?}");
                given[double.err().map_or(0, |no| no.number) as usize] += 1;
                for index in [numbers, &numbers[..9], &numbers[5..], &[]] {
                    let (double, value) = (by.index_double(entry, index, place), by.index_value(entry, index, place));
                    assert_eq!(double, value.map(|read| DoubleRead { value: due_of(read), digits: read.digits }));
                    assert_eq!(by.double_calls(DoubleCalls::ByIndex(entry, index, place)), packed(double));
                    given[double.err().map_or(0, |no| no.number) as usize] += 1;
                }
            }
        }
    }
    assert!([0, 31, 32, 33, 34, 35, 38, 39].iter().all(|&number| given[number] >= 20), "{given:?}");
    let times: Vec<String> = (0..40).filter(|&n| given[n] > 0).map(|n| format!("{n}: {}", given[n] / 2)).collect();
    say(&format!("questions for doubles, by number: {}", times.join(", ")));
}

/// Inside the sample's tables and around them.
fn places() -> Vec<[u32; 4]> {
    let mut places = vec![[u32::MAX; 4], [999, DATA, 1, 1], [2, u32::MAX, 1, 1], [2, 0, 1, 1]];
    places.extend([[2, DATA, u32::MAX, 1], [2, DATA, 1, u32::MAX]]);
    for (n, section) in (0..4).flat_map(|n| [COMMON, DATA, 3].map(|section| (n, section))) {
        places.extend((0..4).flat_map(|line| (0..5).map(move |column| [n, section, line, column])));
    }
    places
}

/// A table gone through: each value of the walk as a double is the answer in full, and by the index.
#[test]
fn walks_give_the_same_doubles() {
    let mut random = Random::seeded(1_071);
    let mut entries = vec![sample(), flags(&[]), wide(18)];
    entries.extend((0..100).map(|_| generate::entry(&mut random).bytes));
    let mut kinds = [0; 3];
    for entry in &entries {
        let index = Index::of(entry).unwrap();
        for (row, section) in index.rows().flat_map(|row| [COMMON, DATA].map(|section| (row, section))) {
            let Ok(values) = library::values(entry, row.subentry, section) else { continue };
            for placed in values {
                let (line, column) = (placed.line, placed.column);
                let due = due_of(placed.read);
                assert_eq!(placed.double(), due);
                let read = Ok(DoubleRead { value: due, digits: placed.read.digits });
                assert_eq!(row.double(entry, section, line, column), read);
                kinds[due.kind() as usize] += 1;
                if random.once_in(4) {
                    assert_eq!(library::double(entry, row.subentry, section, line, column), read);
                }
            }
        }
    }
    assert!(kinds.iter().all(|&times| times > 50), "{kinds:?}");
    let [blanks, doubles, decimals] = kinds;
    say(&format!("walks: {blanks} blanks, {doubles} doubles, {decimals} decimals outside"));
}

/// The canonical copy has the same doubles; only the digits beside them may be others.
#[test]
fn copies_have_the_same_doubles() {
    let mut random = Random::seeded(1_072);
    for entry in (0..60).map(|_| generate::entry(&mut random).bytes) {
        let mut copy = vec![0; entry.len()];
        library::canonical_copy(&entry, &mut copy).unwrap();
        for row in Index::of(&entry).unwrap().rows() {
            for section in [COMMON, DATA] {
                let Ok(values) = library::values(&entry, row.subentry, section) else { continue };
                let copied = library::values(&copy, row.subentry, section).unwrap();
                assert!(values.map(|placed| placed.double()).eq(copied.map(|placed| placed.double())));
            }
        }
    }
}

//! Values as doubles (M-107) asked from C, by `include/x4.h`, and from Fortran, by `fortran/x4.f90`. What is due is worked
//! out here from document 01's value by the reference: its text, read by `str::parse`, which rounds once as M-107 does.

mod common;

use common::{compiled, flags, put, refused_said, sample, say, wide, C};
use glockenbeacon::generate::{self, large, Random, Shape};
use glockenbeacon::{reference, Decimal, FieldRead, NoAnswer, Value, RECORD};
use std::path::Path;
use std::process::Command;

/// "Simple means the power lies in -22 to 22", and ten digits: the double, if it is simple.
fn simple(Decimal { negative, coefficient, power }: Decimal) -> Option<f64> {
    let sign = if negative && coefficient != 0 { "-" } else { "" };
    let within = coefficient <= 9_999_999_999 && (-22..=22).contains(&power);
    within.then(|| format!("{sign}{coefficient}e{power}").parse().expect("a number"))
}

/// A decimal in hand, with so many digits.
fn decimal_said(decimal: Decimal, digits: u32) -> String {
    match simple(decimal) {
        Some(double) => format!("double {:016X} digits {digits}", double.to_bits()),
        None => format!("decimal digits {digits}"),
    }
}

/// What both programs print of a value.
fn said(answer: Result<FieldRead, NoAnswer>) -> String {
    answer.map_or_else(refused_said, |FieldRead { value, digits }| match value {
        Value::Blank => format!("blank digits {digits}"),
        Value::Number(decimal) => decimal_said(decimal, digits),
    })
}

/// A table: every value with its place.
fn table(entry: &[u8], n: u32, section: u32) -> String {
    let mut due = String::new();
    let mut walk = reference::walk(entry, n, section).unwrap_or_else(|no| {
        due = refused_said(no) + "\n";
        [0; 5]
    });
    while let Some((line, column, read)) = reference::walk_next(entry, &mut walk) {
        // each judges, so a long entry is not asked
        if entry.len() <= 100 * RECORD {
            assert_eq!(read, reference::value(entry, n, section, line, column), "the full question");
        }
        due += &format!("{line} {column} {}\n", said(read));
    }
    due + "done"
}

/// Fields on both sides of each limit of the simple range, and zeros.
const LIMITS: [&str; 36] = [
    "1.+22",
    "1.+23",
    "-1.+22",
    "-1.+23",
    "1.-22",
    "1.-23",
    "-1.-22",
    "-1.-23",
    ".1+23",
    ".1+24",
    ".1-21",
    ".1-22",
    "10.+21",
    "10.+22",
    "10.-23",
    "10.-24",
    "1.1+23",
    "1.1+24",
    "1.1-21",
    "1.1-22",
    "9999999999.",
    "-999999999.",
    ".9999999999",
    "-.123456789",
    "9007199.+09",
    "1.000000-22",
    "1234567.+22",
    "1234567.-22",
    "-.0",
    "0.",
    "0.+99999999",
    "0.-99999999",
    "1.+99999999",
    ".1-99999999",
    "-.00 E 99",
    "",
];

/// A table of two lines with these 36 fields.
fn limits() -> Vec<u8> {
    let mut entry = wide(18);
    for (place, field) in LIMITS.iter().enumerate() {
        put(&mut entry, 26 + place / 6, 1 + 11 * (place % 6), &format!("{field:>11}"));
    }
    entry
}

/// A field with up to seven digits and an exponent that often leaves the range, by little.
fn near_field(random: &mut Random) -> String {
    let count = random.within(1, 6);
    let mut text: String = (0..count).map(|_| random.one(&['0', '1', '3', '5', '9'])).collect();
    text.insert(random.within(0, count), '.');
    let power = random.within(0, 60) as i32 - 30;
    format!("{:>11}", format!("{}{text}{power:+}", random.one(&["", "", "-"])))
}

/// A decimal in hand, most of them simple; Fortran has no coefficients of 64 bits.
fn near_decimal(random: &mut Random) -> Decimal {
    let coefficient = match random.below(6) {
        0 => random.one(&[0, 1, 10, 9_999_999_999, 10_000_000_000, 1 << 53, i64::MAX as u64]),
        1 => random.bits() >> 1,
        _ => random.bits() % 10u64.pow(random.within(1, 11) as u32),
    };
    let power = if random.once_in(8) { random.bits() as i32 } else { random.within(0, 50) as i32 - 25 };
    Decimal { negative: random.once_in(3), coefficient, power }
}

/// The lines that the programs read about one entry and one index, and what they are to print.
fn lines(random: &mut Random, entry: &[u8], index: &[u32]) -> Vec<(String, String)> {
    let letter = |byte: u8| if (32..127).contains(&byte) { char::from(byte) } else { '?' };
    let mut lines = Vec::new();
    for n in generate::index_of(entry).chunks(5).map(|row| row[0]).chain([0, 998, u32::MAX]).take(40) {
        lines.extend([1, 2, 3].map(|section| (format!("table {n} {section}"), table(entry, n, section))));
    }
    for _ in 0..40 {
        let own = if index.is_empty() { 1 } else { index[5 * random.below(index.len().div_ceil(5))] };
        let n = if random.once_in(12) { random.one(&[0, 1, 998, 999, u32::MAX]) } else { own };
        let section = if random.once_in(12) { random.one(&[0, 3, u32::MAX]) } else { random.one(&[1, 2, 2]) };
        let line = random.one(&[0, 1, 1, 1, 1, 2, 3, 20_000, u32::MAX]);
        let column = random.one(&[0, 1, 1, 1, 1, 2, 2, 3, 6, 7, 18, 19, u32::MAX]);
        let place = format!("{n} {section} {line} {column}");
        lines.push((format!("value {place}"), said(reference::value(entry, n, section, line, column))));
        lines.push((format!("index {place}"), said(reference::index_value(entry, index, n, section, line, column))));
        let field = match random.below(3) {
            0 => near_field(random),
            1 => String::from_utf8_lossy(&generate::spelling(random)).to_string(),
            _ => generate::number_field(random).map(letter).iter().collect(),
        };
        let field = if random.once_in(12) { field[..random.below(11)].to_string() } else { field };
        let due = said(reference::read_number(field.as_bytes()));
        lines.push((format!("field {field}"), due));
        let decimal = near_decimal(random);
        let Decimal { negative, coefficient, power } = decimal;
        let negative = if negative { random.one(&[1, 2, 256, u32::MAX]) } else { 0 };
        lines.push((format!("decimal {negative} {coefficient} {power}"), decimal_said(decimal, 0)));
    }
    lines
}

/// Entries with indexes: their own, altered ones, none; entries changed since.
fn pairs() -> Vec<(Vec<u8>, Vec<u32>)> {
    let own = |entry: Vec<u8>| (entry.clone(), generate::index_of(&entry));
    let mut pairs = vec![own(sample()), own(limits()), own(flags(&[])), own(wide(18)), (sample(), Vec::new())];
    pairs.push((Vec::new(), generate::index_of(&sample())));
    pairs.push(own(large(&mut Random::seeded(1), Shape::Table, 1_000)));
    for seed in 0..60 {
        let mut random = Random::seeded(10_700 + seed);
        let mut entry = generate::entry(&mut random).bytes;
        let mut index = generate::index_of(&entry);
        if seed % 3 == 1 {
            generate::alter_index(&mut random, &mut index);
        }
        if seed % 3 == 2 {
            generate::alter_entry(&mut random, &mut entry, &index);
        }
        pairs.push((entry, index));
    }
    pairs
}

/// What a line asks.
const KINDS: [&str; 5] = ["table ", "value ", "index ", "field ", "decimal "];

fn agree(program: &Path, name: &str) {
    let room = Path::new(env!("CARGO_TARGET_TMPDIR"));
    let [file, numbers, list] = ["x4", "idx", "txt"].map(|kind| room.join(format!("{name}.{kind}")));
    let mut printed = String::new();
    let mut kinds = [0; 5];
    for (turn, (entry, index)) in pairs().iter().enumerate() {
        let lines = lines(&mut Random::seeded(turn as u64), entry, index);
        std::fs::write(&file, entry).unwrap();
        std::fs::write(&numbers, index.iter().map(|number| format!("{number}\n")).collect::<String>()).unwrap();
        std::fs::write(&list, lines.iter().map(|(line, _)| format!("{line}\n")).collect::<String>()).unwrap();
        let output = Command::new(program).args([&file, &numbers, &list]).output().unwrap();
        let text = String::from_utf8(output.stdout).unwrap();
        assert!(output.status.success(), "pair {turn}: {}\n{text}", output.status);
        let mut answers = text.lines();
        for (line, due) in &lines {
            for due in due.lines() {
                assert_eq!(answers.next(), Some(due), "pair {turn}, {line:?}");
            }
            let kind = KINDS.iter().position(|kind| line.starts_with(*kind)).expect("one of the five");
            kinds[kind] += due.lines().count();
        }
        assert_eq!(answers.next(), None, "pair {turn}");
        printed += &text;
    }
    let times = |words: &str| printed.lines().filter(|line| line.contains(words)).count();
    let all = [15, 31, 32, 33, 34, 35, 38, 39, 40].map(|number| format!("refused {number} "));
    assert!(all.iter().all(|words| times(words) > 20), "{:?}", all.map(|words| times(&words)));
    let three = ["double ", "decimal ", "blank "].map(times);
    assert!(three.iter().all(|&times| times > 200), "{three:?}");
    let [table, value, index, field, decimal] = kinds;
    say(&format!(
        "{name}: {table} lines of tables, {value} values, {index} by an index, {field} fields, {decimal} decimals: \
         {} doubles, {} decimals, {} blanks, {} refused",
        three[0],
        three[1],
        three[2],
        times("refused ")
    ));
}

/// The entry of the limits is accepted, and each of the three stands in it.
#[test]
fn the_limits_are_an_entry() {
    let entry = limits();
    assert_eq!(reference::judge(&entry).numbers()[0], 0);
    let kinds = table(&entry, 2, 2);
    let times = |words: &str| kinds.lines().filter(|line| line.contains(words)).count();
    assert_eq!((times(" double "), times(" decimal "), times(" blank ")), (23, 12, 1), "{kinds}");
}

#[test]
fn c_programs_get_the_same_doubles() {
    if let Some(program) = compiled("gcc", "doubles-c", &C, &["tests/c/doubles.c"]) {
        agree(&program, "doubles-c");
    }
}

#[test]
fn fortran_programs_get_the_same_doubles() {
    let modules = concat!(env!("CARGO_TARGET_TMPDIR"), "/doubles");
    std::fs::create_dir_all(modules).unwrap();
    let arguments = ["-std=f2008", "-O2", "-Wall", "-Werror", "-J", modules];
    let sources = ["fortran/x4.f90", "fortran/in_words.f90", "fortran/doubles.f90"];
    if let Some(program) = compiled("gfortran", "doubles-f", &arguments, &sources) {
        agree(&program, "doubles-f");
    }
}

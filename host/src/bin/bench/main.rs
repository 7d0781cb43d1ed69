//! Times the library beside the reference and beside other readers of numbers: same process, same input, medians.
//!
//!     cargo run --release --bin bench [-- --plot FILE | --index | --walk | --doubles | --lines | --peer FILE [--samples N] | --help]
//!
//! Each line has the time of one field, value or record: the median, its ratio to the library's, and the least, which
//! says more where the machine had other work. `--plot` draws the times of judging, by the number of records, as SVG.
//! `--index` times the index and the questions by it alone, `--walk` tables that are gone through value by value,
//! `--doubles` fields that are read as doubles, `--lines` lines in the CINDA2001 layout.
//! `--peer` times the library beside a reader written by hand instead: see `beside.rs`.

#![forbid(unsafe_code)]

mod beside;
mod lines;
#[cfg(test)]
mod peer;
#[cfg(test)]
mod ratios;

use glockenbeacon::generate::{self, Random, Shape, SHAPES};
use glockenbeacon::plot::{Line, Plot};
use glockenbeacon::tables::{tables, to_csv, Shown};
use glockenbeacon::{boundary, library, reference, Decimal, FieldRead, Index, Value, DATA, RECORD};
use std::ffi::CString;
use std::hint::black_box;
use std::io::Write;
use std::process::Command;
use std::time::{Duration, Instant};

/// How often each group is timed; fewer times where one run takes long.
const RUNS: usize = 41;
const FEW_RUNS: usize = 5;
const LONG: Duration = Duration::from_millis(100);

/// How many things are timed at once: so few that the machine's other work mostly falls between two groups.
const GROUP: usize = 100;

/// The time of one thing in nanoseconds: the mean over the groups of each group's median, and of each group's least.
#[derive(Clone, Copy)]
struct Time {
    median: f64,
    least: f64,
}

impl Time {
    /// Of the runs of each group of so many things.
    fn of(groups: &mut [Vec<f64>], things: usize) -> Time {
        groups.iter_mut().for_each(|runs| runs.sort_by(f64::total_cmp));
        let mean = |place: &dyn Fn(&Vec<f64>) -> f64| groups.iter().map(place).sum::<f64>() / things as f64;
        Time { median: mean(&|runs| runs[runs.len() / 2]), least: mean(&|runs| runs[0]) }
    }

    /// The time of one of so many parts of a thing.
    fn part(self, parts: usize) -> Time {
        Time { median: self.median / parts as f64, least: self.least / parts as f64 }
    }
}

fn timed<T, A>(things: &[T], mut run: impl FnMut(&T) -> A) -> Time {
    let mut groups = vec![Vec::with_capacity(RUNS); things.len().div_ceil(GROUP)];
    let begin = Instant::now();
    for turn in 0..=RUNS {
        for (group, runs) in things.chunks(GROUP).zip(&mut groups) {
            let start = Instant::now();
            for thing in group {
                black_box(run(black_box(thing)));
            }
            runs.push(start.elapsed().as_nanos() as f64);
        }
        if turn >= FEW_RUNS && begin.elapsed() > LONG * FEW_RUNS as u32 {
            break;
        }
    }
    Time::of(&mut groups, things.len())
}

/// Prints rows of one table: median, its ratio to the first row's, and the least.
fn table(title: &str, rows: &[(&str, Time)]) {
    println!("\n{title}");
    for (name, time) in rows {
        let Time { median, least } = time;
        println!("  {name:<44} {median:>9.1} ns {:>7.2}   least {least:>9.1} ns", median / rows[0].1.median);
    }
}

/// A reader by hand: one pass with counters, as one would write it for speed.
fn by_hand(field: &[u8; 11]) -> Option<FieldRead> {
    let mut at = 0;
    while at < 11 && field[at] == b' ' {
        at += 1;
    }
    if at == 11 {
        return Some(FieldRead::BLANK);
    }
    let negative = field[at] == b'-';
    if negative || field[at] == b'+' {
        at += 1;
    }
    let (mut number, mut digits, mut places, mut point, mut any) = (0_u64, 0, 0, false, false);
    while at < 11 {
        match field[at] {
            digit @ b'0'..=b'9' => {
                number = number * 10 + u64::from(digit - b'0');
                digits += u32::from(number != 0);
                places += i32::from(point);
                any = true;
            }
            b'.' if !point => point = true,
            _ => break,
        }
        at += 1;
    }
    if !point || !any {
        return None;
    }
    while at < 11 && field[at] == b' ' {
        at += 1;
    }
    let exponent = if at == 11 { 0 } else { exponent_by_hand(field, at)? };
    if number == 0 {
        return Some(FieldRead { value: Value::Number(Decimal::ZERO), digits });
    }
    let mut power = exponent - places;
    while number % 10 == 0 {
        number /= 10;
        power += 1;
    }
    Some(FieldRead { value: Value::Number(Decimal { negative, coefficient: number, power }), digits })
}

/// The exponent that begins at a column.
fn exponent_by_hand(field: &[u8; 11], mut at: usize) -> Option<i32> {
    let marked = field[at] == b'E';
    at += usize::from(marked);
    let below = at < 11 && field[at] == b'-';
    if below || (at < 11 && field[at] == b'+') {
        at += 1;
    } else if marked {
        while at < 11 && field[at] == b' ' {
            at += 1;
        }
    } else {
        return None;
    }
    if at == 11 {
        return None;
    }
    let mut size = 0;
    while at < 11 {
        match field[at] {
            digit @ b'0'..=b'9' => size = size * 10 + i32::from(digit - b'0'),
            _ => return None,
        }
        at += 1;
    }
    Some(if below { -size } else { size })
}

/// A valid field as text that Rust's and C's readers take: no blanks, and an E before each exponent.
fn plain_text(field: &[u8; 11]) -> CString {
    let mut text = String::from_utf8_lossy(field).replace(' ', "");
    if let Some(at) = text.rfind(['+', '-']).filter(|&at| at > 0 && !text.contains('E')) {
        text.insert(at, 'E');
    }
    CString::new(text).expect("no zero byte")
}

/// The value of a field, if a double can hold it: beyond that, other readers do other work.
fn value_of(field: &[u8; 11]) -> Option<Decimal> {
    match library::read_number(field).ok()?.value {
        Value::Number(decimal) => decimal.to_double().map(|_| decimal),
        Value::Blank => None,
    }
}

fn numbers() {
    let mut random = Random::seeded(1);
    let fields: Vec<[u8; 11]> = std::iter::repeat_with(|| generate::spelling(&mut random))
        .filter(|field| value_of(field).is_some())
        .take(20_000)
        .collect();
    let texts: Vec<CString> = fields.iter().map(plain_text).collect();
    let words: Vec<&str> = texts.iter().map(|text| text.to_str().expect("plain")).collect();
    let values: Vec<Decimal> = fields.iter().filter_map(value_of).collect();
    assert!(fields.iter().all(|field| by_hand(field) == library::read_number(field).ok()));
    assert!(texts.iter().zip(&values).all(|(text, value)| Some(boundary::c_read(text)) == value.to_double()));
    let mut rows = vec![
        ("library::read_number", timed(&fields, |field| library::read_number(field))),
        ("exact reader by hand", timed(&fields, by_hand)),
        ("reference::read_number", timed(&fields, |field| reference::read_number(field))),
        ("str::parse::<f64>, of the field made plain", timed(&words, |text| text.parse::<f64>())),
        ("C's strtod, of the field made plain", timed(&texts, |text| boundary::c_read(text))),
    ];
    match fortran(&fields) {
        Some(time) => rows.push(("Fortran formatted read, a process of its own", time)),
        None => println!("gfortran is not installed: its read was not timed"),
    }
    table("Reading a number field (20,000 valid fields in all spellings)", &rows);

    let mut out = [0; 11];
    let library_write = timed(&values, |value| library::write_number(*value, black_box(&mut out)));
    let reference_write = timed(&values, |value| reference::write_number(*value, black_box(&mut out)));
    let mut line = Vec::with_capacity(64);
    let printed = timed(&values, |value| {
        line.clear();
        write!(line, "{}e{}", value.coefficient, value.power)
    });
    table(
        "Writing the canonical field (the 20,000 values of these fields)",
        &[
            ("library::write_number", library_write),
            ("reference::write_number", reference_write),
            ("write!(\"{}e{}\"), coefficient and power only", printed),
        ],
    );
}

/// The same of the Fortran program, which prints the times of its groups, run by run; none if it cannot be compiled.
fn fortran(fields: &[[u8; 11]]) -> Option<Time> {
    let room = std::env::temp_dir().join(format!("x4-bench-{}", std::process::id()));
    std::fs::create_dir_all(&room).ok()?;
    let (program, file) = (room.join("time_read"), room.join("fields"));
    let source = concat!(env!("CARGO_MANIFEST_DIR"), "/fortran/time_read.f90");
    let done = Command::new("gfortran").args(["-O2", "-o"]).arg(&program).arg(source).status().ok()?;
    let lines: Vec<u8> = fields.iter().flat_map(|field| [field.as_slice(), b"\n"].concat()).collect();
    std::fs::write(&file, lines).ok()?;
    let output = Command::new(&program).arg(&file).output().ok().filter(|_| done.success())?;
    let _ = std::fs::remove_dir_all(&room);
    let times: Vec<f64> =
        String::from_utf8_lossy(&output.stdout).lines().filter_map(|line| line.parse().ok()).collect();
    let count = fields.len() / GROUP;
    let mut groups: Vec<Vec<f64>> =
        (0..count).map(|group| times[group..].iter().step_by(count).copied().collect()).collect();
    Some(Time::of(&mut groups, fields.len()))
}

/// How many records the large entries have, nearly.
const SIZES: [usize; 3] = [1_000, 5_000, 20_000];

/// Times judging, and gives what a plot shows: for each shape and judge the median time of a record by their number.
fn judging() -> Plot {
    let mut lines = Vec::new();
    for shape in SHAPES {
        let (mut proved, mut second) = (Vec::new(), Vec::new());
        for records in SIZES {
            let entry = generate::large(&mut Random::seeded(1), shape, records);
            let n = entry.len() / RECORD;
            assert_eq!(library::judge(&entry).numbers()[0], 0);
            let rows = [
                ("library::judge", timed(&[&entry], |entry| library::judge(entry)).part(n)),
                ("reference::judge", timed(&[&entry], |entry| reference::judge(entry)).part(n)),
            ];
            table(&format!("Judging, {shape:?}, {n} records: time of a record"), &rows);
            proved.push((n as f64, rows[0].1.median));
            second.push((n as f64, rows[1].1.median));
        }
        lines.push(Line { name: format!("{shape:?}"), dashed: false, points: proved });
        lines.push(Line { name: format!("{shape:?}, reference"), dashed: true, points: second });
    }
    Plot { across: "records of the entry".into(), up: "nanoseconds a record".into(), lines }
}

/// How many records the entries of a transmission have, nearly.
const ENTRY_SIZES: [usize; 3] = [100, 2_000, 19_999];

/// A transmission of entries of one size, as many as 200,000 records hold.
fn full_transmission(entry: &[u8]) -> Vec<u8> {
    let record = |text: String| format!("{text:80}\n").into_bytes();
    let count = (200_000 - 2) * RECORD / entry.len();
    let first = record("TRANS             X001   20240105".into());
    [first, entry.repeat(count), record(format!("ENDTRANS   {count:>11}"))].concat()
}

/// Times a transmission judged at once beside its entries judged one by one, which are found in it, too; and its copy.
fn transmissions() {
    for shape in [Shape::Text, Shape::Table] {
        for records in ENTRY_SIZES {
            let file = full_transmission(&generate::large(&mut Random::seeded(1), shape, records));
            let (n, count) = (file.len() / RECORD, library::entries(&file).count());
            assert_eq!((library::judge_file(&file).numbers()[0], count > 0), (0, true));
            let one_by_one = |file: &Vec<u8>| library::entries(file).map(|(_, entry)| library::judge(entry)).last();
            let found = |file: &Vec<u8>| library::entries(file).count();
            let mut out = vec![0; file.len()];
            let rows = [
                ("its entries one by one", timed(&[&file], |file| one_by_one(file)).part(n)),
                ("library::judge_file", timed(&[&file], |file| library::judge_file(file)).part(n)),
                ("library::entries, found alone", timed(&[&file], |file| found(file)).part(n)),
                ("library::copy_file", timed(&[&file], |file| library::copy_file(file, black_box(&mut out))).part(n)),
            ];
            table(&format!("A transmission of {count} entries, {shape:?}, {n} records: time of a record"), &rows);
        }
    }
}

/// Times a value asked for in the last line of a table, and the copy of the whole entry. A question judges its entry.
fn asking() {
    for records in SIZES {
        let entry = generate::large(&mut Random::seeded(1), SHAPES[1], records);
        let n = entry.len() / RECORD;
        let last = (1..=n as u32 / 3).rev().find(|&line| library::value(&entry, 2, DATA, line, 18).is_ok());
        let last = last.expect("a table has a line");
        let rows = [
            ("library::value", timed(&[&entry], |entry| library::value(entry, 2, DATA, last, 18)).part(n)),
            ("reference::value", timed(&[&entry], |entry| reference::value(entry, 2, DATA, last, 18)).part(n)),
        ];
        table(&format!("A value in the last of {last} lines, {n} records: time of a record"), &rows);
        let mut out = vec![0; entry.len()];
        let copied = timed(&[&entry], |entry| library::canonical_copy(entry, black_box(&mut out)));
        let second = timed(&[&entry], |entry| reference::canonical_copy(entry, black_box(&mut out)));
        table(
            &format!("The canonical copy, {n} records: time of a record"),
            &[("library::canonical_copy", copied.part(n)), ("reference::canonical_copy", second.part(n))],
        );
    }
}

/// How many times the same thing, so that a call is timed with others around it.
const AGAIN: [(); GROUP] = [(); GROUP];

/// Times values by an index (M-102): in tables of some sizes, and in the last of as many subentries as there may be, where
/// the search for the row shows. The full question judges the entry.
fn by_index() {
    for records in SIZES {
        let entry = generate::large(&mut Random::seeded(1), Shape::Table, records);
        let (n, index) = (entry.len() / RECORD, Index::of(&entry).expect("it is accepted"));
        let row = index.row(2).expect("a table has a subentry");
        let last = (1..=n as u32 / 3).rev().find(|&line| row.value(&entry, DATA, line, 18).is_ok());
        let last = last.expect("a table has a line");
        let full = library::value(&entry, 2, DATA, last, 18);
        assert_eq!((index.value(&entry, 2, DATA, last, 18), row.value(&entry, DATA, last, 18)), (full, full));
        let numbers = row.numbers();
        let rows = [
            ("library::index_value", timed(&AGAIN, |()| index.value(black_box(&entry), 2, DATA, last, 18))),
            ("the same by its row alone", timed(&AGAIN, |()| row.value(black_box(&entry), DATA, last, 18))),
            ("library::index_heading", timed(&AGAIN, |()| index.heading(black_box(&entry), 2, DATA, 18))),
            ("library::index_unit", timed(&AGAIN, |()| index.unit(black_box(&entry), 2, DATA, 18))),
            (
                "reference::index_value",
                timed(&AGAIN, |()| reference::index_value(black_box(&entry), &numbers, 2, DATA, last, 18)),
            ),
            ("library::value, which judges", timed(&[&entry], |entry| library::value(entry, 2, DATA, last, 18))),
        ];
        table(&format!("A value by its index, in the last of {last} lines, {n} records: time of a value"), &rows);
        making(&entry);
    }
    let entry = generate::large(&mut Random::seeded(1), Shape::Subentries, 20_000);
    let index = Index::of(&entry).expect("it is accepted");
    let rows = index.rows().len();
    let (first, last) = (2, rows as u32);
    let row = index.row(last).expect("the last subentry");
    let times = [
        ("in the second subentry", timed(&AGAIN, |()| index.value(black_box(&entry), first, DATA, 1, 3))),
        ("in the last subentry", timed(&AGAIN, |()| index.value(black_box(&entry), last, DATA, 1, 3))),
        ("the same by its row alone", timed(&AGAIN, |()| row.value(black_box(&entry), DATA, 1, 3))),
        ("library::index_row of the last", timed(&AGAIN, |()| index.row(black_box(last)))),
    ];
    table(&format!("A value by its index, {rows} subentries: time of a value"), &times);
    let searched = |place: &dyn Fn(&Time) -> f64| (place(&times[1].1) - place(&times[0].1)) / (rows - 2) as f64;
    let (median, least) = (searched(&|time| time.median), searched(&|time| time.least));
    println!("  a row searched: {median:.2} ns, by the least times {least:.2} ns");
    making(&entry);
    let n = entry.len() / RECORD;
    let written = |entry: &&Vec<u8>| tables(entry).map(|tables| to_csv(&tables, Shown::default()));
    assert_eq!(written(&&entry).map(|text| text.lines().count() > rows), Ok(true));
    let times = [
        ("library::judge", timed(&[&entry], |entry| library::judge(entry)).part(n)),
        ("tables::tables", timed(&[&entry], |entry| tables(entry)).part(n)),
        ("tables::tables, and as text", timed(&[&entry], written).part(n)),
    ];
    table(&format!("The tables of {rows} subentries, {n} records: time of a record"), &times);
}

/// Times making an index beside judging the entry.
fn making(entry: &Vec<u8>) {
    let (n, mut numbers) = (entry.len() / RECORD, vec![0; 4990]);
    let rows = [
        ("library::judge", timed(&[entry], |entry| library::judge(entry)).part(n)),
        ("library::make_index", timed(&[entry], |entry| library::make_index(entry, black_box(&mut numbers))).part(n)),
    ];
    table(&format!("Making an index beside judging, {n} records: time of a record"), &rows);
}

/// Times these by turns, by the processor's clock of the thread, so that a slow spell of the machine meets all alike: of
/// one of so many parts.
fn by_turns<const N: usize>(parts: usize, mut runs: [&mut dyn FnMut(); N]) -> [Time; N] {
    let mut samples = vec![vec![]; N];
    for _ in 0..=RUNS {
        for (run, samples) in runs.iter_mut().zip(&mut samples) {
            let start = boundary::processor_time();
            run();
            samples.push(boundary::processor_time() - start);
        }
    }
    std::array::from_fn(|run| Time::of(&mut samples[run..=run], parts))
}

/// Times tables that are gone through by a walk (M-112), beside one judging and the reading of their fields one by one.
fn walking() {
    for columns in [18, 3] {
        let entry = generate::large_table(&mut Random::seeded(1), columns, 20_000);
        let values = library::values(&entry, 2, DATA).expect("it is accepted");
        let (first, count, k) = (values.walk(), values.len(), columns.div_ceil(6));
        let records: Vec<&[u8]> = entry.chunks_exact(RECORD).skip(first[0] as usize + 2 * k).collect();
        let line = |records: &[&[u8]]| -> Vec<[u8; 11]> {
            let fields = records.iter().flat_map(|record| record[..66].chunks_exact(11)).take(columns);
            fields.map(|field| field.try_into().expect("eleven bytes")).collect()
        };
        let fields: Vec<[u8; 11]> = records.chunks(k).take(values.lines() as usize).flat_map(line).collect();
        let read = fields.iter().map(|field| library::read_number(field).expect("in form"));
        assert!(values.map(|placed| placed.read).eq(read) && fields.len() == count);
        let judge = || {
            black_box(library::judge(black_box(&entry)));
        };
        let read = || {
            for field in &fields {
                let _ = black_box(library::read_number(black_box(field)));
            }
        };
        let begin = || {
            let _ = black_box(library::walk(black_box(&entry), 2, DATA));
        };
        let values = || {
            for placed in library::values(black_box(&entry), 2, DATA).expect("it is accepted") {
                black_box(placed);
            }
        };
        let steps = || {
            let mut walk = black_box(first);
            while let Some(given) = library::walk_next(black_box(&entry), &mut walk) {
                let _ = black_box(given);
            }
        };
        let [both, gone, alone, stepped, judged, begun] = by_turns(
            count,
            [
                &mut || {
                    judge();
                    read();
                },
                &mut || values(),
                &mut || read(),
                &mut || steps(),
                &mut || judge(),
                &mut || begin(),
            ],
        );
        let rows = [
            ("judging, and library::read_number", both),
            ("library::values, all of them", gone),
            ("library::read_number alone", alone),
            ("library::walk_next alone", stepped),
            ("library::judge alone", judged),
            ("library::walk alone", begun),
        ];
        let n = entry.len() / RECORD;
        table(&format!("A table of {columns} columns gone through, {n} records: time of a value, of {count}"), &rows);
        for (name, one, other) in [
            ("gone through, beside judging and reading", gone, both),
            ("a step beside a reading", stepped, alone),
            ("begun beside judged", begun, judged),
        ] {
            let (median, least) = (one.median / other.median, one.least / other.least);
            println!("  {name}: {median:.2}, by the least times {least:.2}");
        }
    }
}

/// Times fields read as doubles (M-107), beside the same as decimals, and beside Rust's and C's readers of text, by turns.
/// The fields are simple, so that all do the same work: in all spellings, and as tables have them.
fn doubles() {
    type Make = fn(&mut Random) -> [u8; 11];
    let kinds: [(&str, Make); 2] =
        [("in all spellings", generate::spelling), ("as tables have them", generate::usual_spelling)];
    for (kind, make) in kinds {
        let mut random = Random::seeded(1);
        let simple = |field: &[u8; 11]| library::read_double(field).ok()?.value.double();
        let fields: Vec<[u8; 11]> =
            std::iter::repeat_with(|| make(&mut random)).filter(|field| simple(field).is_some()).take(4_096).collect();
        let texts: Vec<CString> = fields.iter().map(plain_text).collect();
        let words: Vec<&str> = texts.iter().map(|text| text.to_str().expect("plain")).collect();
        let numbers: Vec<Decimal> = fields.iter().filter_map(value_of).collect();
        for ((field, text), decimal) in fields.iter().zip(&words).zip(&numbers) {
            let due = simple(field).map(|double| double + 0.0);
            assert_eq!(text.parse::<f64>().ok().map(|double| double + 0.0), due);
            assert_eq!(library::as_double(*decimal).double(), simple(field));
        }
        let [double, number, made, parse, strtod] = by_turns(
            fields.len(),
            [
                &mut || {
                    for field in &fields {
                        let _ = black_box(library::read_double(black_box(field)));
                    }
                },
                &mut || {
                    for field in &fields {
                        let _ = black_box(library::read_number(black_box(field)));
                    }
                },
                &mut || {
                    for decimal in &numbers {
                        black_box(library::as_double(*black_box(decimal)));
                    }
                },
                &mut || {
                    for text in &words {
                        let _ = black_box(black_box(text).parse::<f64>());
                    }
                },
                &mut || {
                    for text in &texts {
                        black_box(boundary::c_read(black_box(text)));
                    }
                },
            ],
        );
        let rows = [
            ("library::read_double", double),
            ("library::read_number", number),
            ("library::as_double, of the decimal in hand", made),
            ("str::parse::<f64>, of the field made plain", parse),
            ("C's strtod, of the field made plain", strtod),
        ];
        table(&format!("Reading a number field as a double ({} simple fields {kind})", fields.len()), &rows);
        for (name, other) in [("read_number", number), ("str::parse::<f64>", parse), ("strtod", strtod)] {
            let (median, least) = (double.median / other.median, double.least / other.least);
            println!("  read_double beside {name}: {median:.2}, by the least times {least:.2}");
        }
    }
}

const HELP: &str = "\
bench                              times the library beside the reference and other readers of numbers
bench --plot FILE                  the same, and draws the times of judging as SVG
bench --index                      times the index, the questions by it and the tables alone
bench --walk                       times tables gone through value by value, beside judging and reading, alone
bench --doubles                    times fields read as doubles, beside other readers, alone
bench --lines                      times lines in the CINDA2001 layout, beside a checker by hand, alone
bench --peer FILE [--samples N]    times the library beside the reader in FILE, and prints ratios

FILE is a module in Rust without dependencies. It is compiled with this program's sources, in target/peer, and has to
offer these names (src/bin/bench/peer.rs is such a file); E may be any type:

    pub struct Number { pub negative: bool, pub coefficient: u64, pub power: i32 }
    pub enum Field { Blank, Number(Number) }
    pub struct Verdict { pub refusal: u32, pub record: u32, pub column: u32,
                         pub subentries: u32, pub keywords: u32, pub lines: u32, pub numbers: u32 }
    pub fn judge(entry: &[u8]) -> Verdict
    pub fn value(entry: &[u8], subentry: u32, section: u32, line: u32, column: u32) -> Result<Field, E>
    pub fn copy(entry: &[u8], buffer: &mut [u8]) -> Result<(), E>
    pub fn read_number(field: &[u8]) -> Result<Field, E>
    pub fn write_number(negative: bool, coefficient: u64, power: i32, buffer: &mut [u8]) -> u32    0: written

Answers are compared before anything is timed, but for the counts of digits: the library counts them in each reading and
value, FILE need not. N is 41.";

fn help() -> std::io::Result<()> {
    println!("{HELP}");
    Ok(())
}

/// The tables of times; the plot goes into a file, if one is named.
fn times(plot_file: Option<&str>) -> std::io::Result<()> {
    println!("answered {}", library::who_answers());
    numbers();
    if !is_proved() {
        return Ok(());
    }
    let plot = judging();
    asking();
    by_index();
    walking();
    doubles();
    transmissions();
    lines::lines();
    plot_file.map_or(Ok(()), |file| std::fs::write(file, plot.svg()))
}

/// Whether there is a proved judge; if not, says so.
fn is_proved() -> bool {
    let proved = library::proved().contains(&"judge");
    if !proved {
        println!("\njudging is not timed: no proved judge is linked");
    }
    proved
}

/// Some tables of times alone.
fn alone(times: fn()) -> std::io::Result<()> {
    println!("answered {}", library::who_answers());
    if is_proved() {
        times();
    }
    Ok(())
}

fn main() -> std::io::Result<()> {
    let arguments: Vec<String> = std::env::args().skip(1).collect();
    let words: Vec<&str> = arguments.iter().map(String::as_str).collect();
    match words[..] {
        [] => times(None),
        ["--plot", file] => times(Some(file)),
        ["--index"] => alone(by_index),
        ["--walk"] => alone(walking),
        ["--doubles"] => alone(doubles),
        ["--lines"] => alone(lines::lines),
        ["--peer", file] => beside::run(file, RUNS),
        ["--peer", file, "--samples", samples] => match samples.parse() {
            Ok(0) | Err(_) => help(),
            Ok(samples) => beside::run(file, samples),
        },
        _ => help(),
    }
}

//! Values in order (M-112): the readings of its words, one by one, on the sample and on other entries; the library and the
//! reference. Then its calls from C, by `include/x4.h`, and from Fortran, by `fortran/x4.f90`.

mod common;

use common::{changed, compiled, entry, flags, replaced, sample, say, wide, BOTH, C, SAMPLE};
use glockenbeacon::differ::Implementation;
use glockenbeacon::generate::{self, large, Random, Shape};
use glockenbeacon::library::{self, Index, Placed};
use glockenbeacon::tables::tables;
use glockenbeacon::walk::{Given, Walk};
use glockenbeacon::{reference, FieldRead, NoAnswer, Refusal, Value, COMMON, DATA, RECORD};
use std::path::Path;
use std::process::Command;

/// The most values that a walk of any numbers gives.
const MOST: usize = 18 * 20_000;

/// A refused answer with zeros beside it.
fn no<T>(number: u32) -> Result<T, NoAnswer> {
    Err(NoAnswer { number, entry: None })
}

/// Line, column, and coefficient and power of a number; none of a blank.
type Told = (u32, u32, Option<(u64, i32)>);

fn told((line, column, read): Given) -> Told {
    let number = match read.expect("not malformed").value {
        Value::Blank => None,
        Value::Number(decimal) => Some((decimal.coefficient, decimal.power)),
    };
    (line, column, number)
}

/// All that is left of a walk; then it is done a hundred times, and stays where it is.
fn rest(by: &dyn Implementation, entry: &[u8], walk: &mut Walk) -> Vec<Given> {
    let mut given = Vec::new();
    while let Some(next) = by.walk_next(entry, walk) {
        given.push(next);
        assert!(given.len() <= MOST, "it ends: {walk:?}");
    }
    let end = *walk;
    for _ in 0..100 {
        assert_eq!((by.walk_next(entry, walk), *walk), (None, end), "done, and staying so");
    }
    given
}

/// A whole walk over a section.
fn whole(by: &dyn Implementation, entry: &[u8], subentry: u32, section: u32) -> Result<Vec<Given>, NoAnswer> {
    by.walk(entry, subentry, section).map(|mut walk| rest(by, entry, &mut walk))
}

/// "giving the next value with line and column, left to right and line by line"
#[test]
fn the_sample_in_order() {
    let due = [
        (1, 1, Some((1, 1))),
        (1, 2, Some((145, -3))),
        (1, 3, None),
        (2, 1, Some((2, 1))),
        (2, 2, Some((14, -2))),
        (2, 3, Some((25, 0))),
    ];
    for by in BOTH {
        assert_eq!(by.walk(&sample(), 2, DATA), Ok([19, 3, 2, 1, 1]));
        let given = whole(by, &sample(), 2, DATA).unwrap();
        assert_eq!(given.into_iter().map(told).collect::<Vec<_>>(), due);
        // The walk stands behind what it gave, and behind the last line when it is done.
        let (mut walk, mut stands) = ([19, 3, 2, 1, 1], Vec::new());
        while by.walk_next(&sample(), &mut walk).is_some() {
            stands.push([walk[3], walk[4]]);
        }
        assert_eq!(stands, [[1, 2], [1, 3], [2, 1], [2, 2], [2, 3], [3, 1]]);
        assert_eq!(walk, [19, 3, 2, 3, 1]);
    }
}

/// COMMON has line 1 only.
#[test]
fn common_is_one_line() {
    let seven = "COMMON               7          6\nA          B          C          D          E          F\nG\n\
                 X          X          X          X          X          X\nX\n\
                 1.         2.         3.         4.         5.         6.0\n7.0\nENDCOMMON            6\n\
                 ENDSUBENT           12\n";
    let one = "COMMON               1          3\nEN\nMEV\n14.\nENDCOMMON            3\nENDSUBENT            9\n";
    for by in BOTH {
        assert_eq!(by.walk(&sample(), 1, COMMON), Ok([7, 1, 1, 1, 1]));
        let given = whole(by, &sample(), 1, COMMON).unwrap();
        assert_eq!(given.into_iter().map(told).collect::<Vec<_>>(), [(1, 1, Some((14, 0)))]);
        let given = whole(by, &replaced(one, seven), 1, COMMON).unwrap();
        let due: Vec<Told> = (1..=7).map(|column| (1, column, Some((column.into(), 0)))).collect();
        assert_eq!(given.iter().map(|g| g.2.unwrap().digits).collect::<Vec<_>>(), [1, 1, 1, 1, 1, 2, 2]);
        assert_eq!(given.into_iter().map(told).collect::<Vec<_>>(), due);
    }
}

/// "Refusals: 31 to 33 when it is made", in this order, with the verdict beside 31.
#[test]
fn refusals() {
    let open = SAMPLE.find("ENDENTRY").unwrap();
    let gaps = entry(&format!(
        "{}NOSUBENT      90001003   20240105\nSUBENT        90001005   20240105\nNOBIB\nNOCOMMON\nNODATA\n\
         ENDSUBENT            3\nENDENTRY             4\n",
        &SAMPLE[..open]
    ));
    for by in BOTH {
        for (subentry, section, number) in [
            (2, COMMON, 33),
            (1, DATA, 33),
            (2, 0, 33),
            (2, 3, 33),
            (2, u32::MAX, 33),
            (3, DATA, 32),
            (3, 9, 32),
            (4, DATA, 32),
            (5, COMMON, 33),
            (5, DATA, 33),
            (0, DATA, 32),
            (999, DATA, 32),
            (1002, DATA, 32),
            (u32::MAX, 9, 32),
        ] {
            assert_eq!(by.walk(&gaps, subentry, section), no(number), "{subentry} {section}");
        }
        for (entry, refusal) in [
            (changed(22, 12, "       1.5E"), Refusal::new(15, 22, 12)),
            (sample()[..25 * RECORD].to_vec(), Refusal::new(16, 26, 0)),
            (sample()[1..].to_vec(), Refusal::new(1, 0, 0)),
            (Vec::new(), Refusal::new(1, 0, 0)),
        ] {
            for (subentry, section) in [(2, DATA), (9, DATA), (2, 9)] {
                let refused = NoAnswer { number: 31, entry: Some(refusal) };
                assert_eq!(by.walk(&entry, subentry, section), Err(refused));
                assert_eq!(library::values(&entry, subentry, section).map(|_| ()), Err(refused));
            }
        }
        // Five zeros are done; walkers that are refused are in the program `answers`.
        assert_eq!(by.walk_next(&sample(), &mut [0; 5]), None);
    }
}

/// A program that takes five zeros for a refusal that it does not look at: its loop ends at once, over any entry.
#[test]
fn a_refusal_that_is_not_looked_at() {
    let (mut refused, mut values) = ([0; 40], 0);
    for entry in entries() {
        for (n, section) in [0, 1, 2, 3, 999].iter().flat_map(|&n| (0..4).map(move |section| (n, section))) {
            for by in BOTH {
                let begun = by.walk(&entry, n, section);
                // zeros for a refusal, as C and Fortran begin
                let mut walk: Walk = begun.unwrap_or_default();
                let given = rest(by, &entry, &mut walk).len();
                match begun {
                    Ok([_, columns, lines, ..]) => assert_eq!(given as u32, columns * lines),
                    Err(no) => {
                        assert_eq!((given, walk), (0, [0; 5]), "{no:?}");
                        refused[no.number as usize] += 1;
                    }
                }
                values += given;
            }
        }
    }
    assert!([31, 32, 33].iter().all(|&number| refused[number] > 100) && values > 1_000, "{refused:?}, {values}");
    let times = [31, 32, 33].map(|number| refused[number] / BOTH.len());
    say(&format!("refused walks that were gone on with: {times:?} by 31, 32 and 33"));
}

/// With seven columns the eighth value is line 2, column 1: lines of one, two and three records.
#[test]
fn lines_of_several_records() {
    for columns in [1, 5, 6, 7, 11, 12, 13, 17, 18] {
        let entry = wide(columns);
        for by in BOTH {
            let given = whole(by, &entry, 2, DATA).unwrap();
            let places = (1..=2).flat_map(|line| (1..=columns as u32).map(move |column| (line, column)));
            let due: Vec<FieldRead> = places
                .clone()
                .map(|(line, column)| by.value(&entry, [2, DATA, line, column]).expect("a value there"))
                .collect();
            let due: Vec<Given> = places.zip(due).map(|((line, column), read)| (line, column, Ok(read))).collect();
            assert_eq!(given, due, "{columns} columns");
            assert!(given.iter().all(|given| given.2.unwrap().digits == 3));
        }
    }
}

/// "each place of one table once, equal to the value question there": every table of the samples and of generated entries,
/// and then done.
#[test]
fn every_place_once() {
    let mut random = Random::seeded(112);
    let (mut walks, mut values, mut blanks, mut refused) = (0, 0, 0, [0; 40]);
    let mut entries = vec![sample(), flags(&[]), wide(18)];
    entries.extend((0..150).map(|_| generate::entry(&mut random).bytes));
    for (number, entry) in entries.iter().enumerate() {
        let index = Index::of(entry).expect("it is accepted");
        let mut subentries: Vec<u32> = index.rows().map(|row| row.subentry).collect();
        subentries.extend([0, 999]);
        for (subentry, section) in subentries.iter().flat_map(|&n| (0..4).map(move |section| (n, section))) {
            let [one, other] = BOTH.map(|by| whole(by, entry, subentry, section));
            assert_eq!(one, other, "entry {number}");
            let given = match one {
                Ok(given) => given,
                Err(no) => {
                    refused[no.number as usize] += 1;
                    // The value question is refused likewise, whatever the place.
                    assert_eq!(library::value(entry, subentry, section, 1, 1), Err(no));
                    continue;
                }
            };
            // All places at which the full question is answered, by 34 and 35 behind the last.
            let mut due = Vec::new();
            for line in 1.. {
                let asked = |column| (line, column, library::value(entry, subentry, section, line, column));
                let answered: Vec<Given> = (1..).map(asked).take_while(|given| given.2.is_ok()).collect();
                if answered.is_empty() {
                    break;
                }
                due.extend(answered);
            }
            assert_eq!(given, due, "entry {number}, {subentry}, {section}");
            walks += 1;
            values += given.len();
            blanks += given.iter().filter(|given| given.2 == Ok(FieldRead::BLANK)).count();
        }
    }
    assert!(walks > 300 && values > 2_000 && blanks > 200, "{walks}, {values}, {blanks}");
    assert!(refused[32] > 300 && refused[33] > 300, "{refused:?}");
    let [no_subentry, no_section] = [32, 33].map(|number| refused[number]);
    say(&format!("{walks} walks over whole tables: {values} values, {blanks} of them blank"));
    say(&format!("refused as the value is: {no_subentry} by 32, {no_section} by 33"));
}

/// The iterator is the walk; it knows how many are left, and stays done.
#[test]
fn the_iterator() {
    let entry = wide(7);
    let mut values = library::values(&entry, 2, DATA).unwrap();
    assert_eq!((values.columns(), values.lines(), values.walk()), (7, 2, [19, 7, 2, 1, 1]));
    let mut walk = library::walk(&entry, 2, DATA).unwrap();
    for left in (1..=14).rev() {
        assert_eq!((values.len(), values.size_hint(), values.walk()), (left, (left, Some(left)), walk));
        let (line, column, read) = library::walk_next(&entry, &mut walk).unwrap();
        assert_eq!(values.next(), Some(Placed { line, column, read: read.unwrap() }));
    }
    for _ in 0..100 {
        assert_eq!((values.next(), values.len(), values.walk()), (None, 0, [19, 7, 2, 3, 1]));
    }
    assert_eq!(library::values(&entry, 2, DATA).unwrap().map(|placed| placed.read.digits).sum::<u32>(), 3 * 14);
    assert_eq!(library::values(&entry, 3, DATA).map(|values| values.len()), no(32));
}

/// Every table that is printed has these values.
#[test]
fn tables_have_the_values_of_walks() {
    let mut random = Random::seeded(1_120);
    for entry in (0..40).map(|_| generate::entry(&mut random).bytes) {
        for table in tables(&entry).unwrap() {
            let section = if table.section == "DATA" { DATA } else { COMMON };
            let values = library::values(&entry, table.subentry[5..].parse().unwrap(), section).unwrap();
            assert_eq!((values.columns() as usize, values.lines() as usize), (table.columns.len(), table.lines.len()));
            assert_eq!(values.map(|placed| placed.read).collect::<Vec<_>>(), table.lines.concat());
        }
    }
}

/// Two walks over one entry in turn, over one table and over two.
#[test]
fn walks_in_turn() {
    let entry = wide(13);
    for by in BOTH {
        let alone = whole(by, &entry, 2, DATA).unwrap();
        let (mut first, mut second) = (by.walk(&entry, 2, DATA).unwrap(), by.walk(&entry, 2, DATA).unwrap());
        let mut common = by.walk(&entry, 1, COMMON).unwrap();
        let (mut one, mut other) = (Vec::new(), Vec::new());
        assert!(by.walk_next(&entry, &mut common).is_some());
        while let Some(given) = by.walk_next(&entry, &mut first) {
            one.push(given);
            if one.len() % 2 == 0 {
                other.extend(by.walk_next(&entry, &mut second));
            }
            assert_eq!(by.walk_next(&entry, &mut common), None);
        }
        other.extend(rest(by, &entry, &mut second));
        assert_eq!((&one, &other), (&alone, &alone));
    }
}

/// A walk put together by hand: one that stands at no place of a table as large as a table can be is done.
#[test]
fn any_five_numbers() {
    // The limits, and one more.
    for (walk, given) in [
        ([0, 1, 1, 1, 1], true),
        ([20_000, 18, 20_000, 20_000, 18], true),
        ([20_001, 18, 20_000, 20_000, 18], false),
        ([20_000, 19, 20_000, 20_000, 18], false),
        ([20_000, 18, 20_001, 20_000, 18], false),
        ([20_000, 18, 20_000, 20_001, 18], false),
        ([20_000, 18, 20_000, 20_000, 19], false),
        ([19, 3, 2, 0, 1], false),
        ([19, 3, 2, 1, 0], false),
        ([19, 3, 2, 3, 1], false),
        ([19, 3, 2, 1, 4], false),
        ([19, 0, 2, 1, 1], false),
        ([19, 3, 0, 1, 1], false),
        ([u32::MAX, 3, 2, 1, 1], false),
        ([19, u32::MAX, 2, 1, 1], false),
        ([19, 3, u32::MAX, 1, 1], false),
        ([u32::MAX; 5], false),
        ([0; 5], false),
    ] {
        for (entry, by) in [sample(), Vec::new()].iter().flat_map(|entry| BOTH.map(|by| (entry, by))) {
            let mut stands = walk;
            assert_eq!(by.walk_next(entry, &mut stands).is_some(), given, "{walk:?}");
            assert_eq!(stands == walk, !given, "{walk:?}");
        }
    }
    // From the middle on, and by another shape: six columns, of which the sample fills three.
    for by in BOTH {
        let from = |mut walk: Walk| rest(by, &sample(), &mut walk).into_iter().map(told).collect::<Vec<_>>();
        assert_eq!(from([19, 3, 2, 2, 2]), [(2, 2, Some((14, -2))), (2, 3, Some((25, 0)))]);
        assert_eq!(from([19, 6, 1, 1, 3]), [(1, 3, None), (1, 4, None), (1, 5, None), (1, 6, None)]);
        assert_eq!(from([20, 1, 1, 1, 1]), [(1, 1, Some((2, 1)))]);
        assert_eq!(from([26, 2, 1, 1, 1]), [(1, 1, None), (1, 2, None)]); // outside the entry
    }
    // The largest walk of all ends, and so does each over no bytes.
    for by in BOTH {
        assert_eq!(rest(by, &sample(), &mut [20_000, 18, 20_000, 1, 1]).len(), MOST);
        let blanks = |place: u32| (place / 18 + 1, place % 18 + 1, Ok(FieldRead::BLANK));
        assert_eq!(rest(by, &[], &mut [1, 18, 20, 1, 1]), (0..360).map(blanks).collect::<Vec<Given>>());
    }
}

/// 15 refuses a malformed field alone: it is given with its place, and the walk goes on behind it.
#[test]
fn other_bytes() {
    for by in BOTH {
        let malformed = no(15);
        let mut walk = [19, 3, 2, 1, 1];
        let given = rest(by, &changed(22, 12, "       1.5E"), &mut walk);
        assert_eq!((given.len(), given[1]), (6, (1, 2, malformed)));
        assert!(given.iter().filter(|given| given.2.is_ok()).count() == 5);
        // The record of ENDENTRY as a line: its name and counts are no numbers.
        let given = rest(by, &sample(), &mut [23, 3, 1, 1, 1]);
        assert_eq!(given, [(1, 1, no(15)), (1, 2, no(15)), (1, 3, Ok(FieldRead::BLANK))]);
        // Nothing but the field itself is read: neither the section's record nor the line feed.
        let mut other = changed(19, 1, "XXXX");
        other[22 * RECORD - 1] = b'#';
        assert_eq!(rest(by, &other, &mut [19, 3, 2, 1, 1]), whole(by, &sample(), 2, DATA).unwrap());
        // What is cut off is blank, and so is a record that is not whole.
        for (cut, filled) in [(23 * RECORD, 5), (23 * RECORD - 1, 2), (22 * RECORD, 2), (22 * RECORD - 1, 0), (0, 0)] {
            let given = rest(by, &sample()[..cut], &mut [19, 3, 2, 1, 1]);
            let numbers = given.iter().filter(|given| given.2 != Ok(FieldRead::BLANK)).count();
            assert_eq!((given.len(), numbers), (6, filled), "{cut}");
        }
    }
    // Records behind the 20,000th are read where there are such bytes.
    let blank = [&[b' '; RECORD - 1][..], b"\n"].concat();
    let mut long = blank.repeat(20_010);
    long[20_004 * RECORD..20_004 * RECORD + 2].copy_from_slice(b"7.");
    for by in BOTH {
        assert_eq!(told(by.walk_next(&long, &mut [20_000, 1, 20_000, 3, 1]).unwrap()), (3, 1, Some((7, 0))));
    }
}

/// Any numbers over entries of every kind: the two agree at every step.
#[test]
fn any_walk_over_any_bytes() {
    let mut random = Random::seeded(1_121);
    let (mut values, mut malformed, mut done) = (0, 0, 0);
    for _ in 0..2_000 {
        let mut entry = generate::entry(&mut random).bytes;
        let index = generate::index_of(&entry);
        for _ in 0..random.below(3) {
            generate::alter_entry(&mut random, &mut entry, &index);
        }
        let walk = generate::walk(&mut random, &entry);
        let [mut one, mut other] = [walk; 2];
        for _ in 0..60 {
            let given = library::walk_next(&entry, &mut one);
            assert_eq!((given, one), (reference::walk_next(&entry, &mut other), other), "{walk:?}");
            match given {
                None => done += 1,
                Some((.., Err(no))) => malformed += i32::from(no == NoAnswer { number: 15, entry: None }),
                Some(_) => values += 1,
            }
        }
    }
    assert!(values > 10_000 && malformed > 1_000 && done > 10_000, "{values}, {malformed}, {done}");
    say(&format!("walks of any numbers: {values} values, {malformed} malformed, {done} times done"));
}

/// Tables as large as an entry holds.
#[test]
fn large_tables() {
    for (shape, subentry) in [(Shape::Table, 2), (Shape::Subentries, 998)] {
        let entry = large(&mut Random::seeded(1), shape, 20_000);
        let index = Index::of(&entry).unwrap();
        let row = index.row(subentry).unwrap();
        let [one, other] = BOTH.map(|by| whole(by, &entry, subentry, DATA).unwrap());
        assert_eq!(one, other);
        for &(line, column, read) in &one {
            assert_eq!(row.value(&entry, DATA, line, column), read);
        }
        let (line, column, _) = one[one.len() - 1];
        assert_eq!(one.len() as u32, line * column);
        assert_eq!(row.value(&entry, DATA, line + 1, 1).map_err(|no| no.number), Err(34));
        assert_eq!(row.value(&entry, DATA, 1, column + 1).map_err(|no| no.number), Err(35));
        say(&format!("a large table: {line} lines of {column} columns"));
    }
}

// ---- from C and Fortran

/// The lines that the programs read about one entry, and what they are to print: what the reference gives.
fn lines(random: &mut Random, entry: &[u8]) -> Vec<(String, String)> {
    let index = generate::index_of(entry);
    let mut lines = Vec::new();
    for _ in 0..12 {
        let own = if index.is_empty() { 1 } else { index[5 * random.below(index.len() / 5)] };
        let n = if random.once_in(6) { random.one(&[0, 1, 998, 999, u32::MAX]) } else { own };
        let section = if random.once_in(8) { random.one(&[0, 3, u32::MAX]) } else { random.one(&[1, 2, 2]) };
        let said = match reference::walk(entry, n, section) {
            Ok(mut walk) => steps(entry, &mut walk, MOST + 1),
            Err(no) => {
                let [refusal, record, column] =
                    no.entry.map_or([0; 3], |entry| [entry.number, entry.record, entry.column]);
                format!("refused {} {refusal} {record} {column}\ndone\n", no.number)
            }
        };
        lines.push((format!("table {n} {section}"), said));
        lines.push((format!("forgotten {n} {section}"), format!("{} values\n", forgotten(entry, n, section))));
        let mut walk = generate::walk(random, entry);
        let numbers = walk.map(|number| number.to_string()).join(" ");
        lines.push((format!("from {numbers}"), steps(entry, &mut walk, 50)));
    }
    lines
}

/// How many values the loop of a program gives that begins with five zeros and does not look at the refusal.
fn forgotten(entry: &[u8], n: u32, section: u32) -> usize {
    let mut walk = reference::walk(entry, n, section).unwrap_or_default();
    std::iter::from_fn(|| reference::walk_next(entry, &mut walk)).take(1_000).count()
}

/// So many values at the most, and that it is done where it is.
fn steps(entry: &[u8], walk: &mut Walk, most: usize) -> String {
    let mut said = String::new();
    for _ in 0..most {
        let Some((line, column, read)) = reference::walk_next(entry, walk) else { return said + "done\n" };
        let value = match read {
            Err(no) => format!("refused {}", no.number),
            Ok(FieldRead { value: Value::Blank, digits }) => format!("blank digits {digits}"),
            Ok(FieldRead { value: Value::Number(d), digits }) => {
                format!("{}{}E{} digits {digits}", if d.negative { "-" } else { "" }, d.coefficient, d.power)
            }
        };
        said += &format!("{line} {column} {value}\n");
    }
    said
}

/// Entries of every kind: accepted, changed, none.
fn entries() -> Vec<Vec<u8>> {
    let mut entries = vec![sample(), wide(18), Vec::new(), large(&mut Random::seeded(1), Shape::Table, 2_000)];
    for seed in 0..60 {
        let mut random = Random::seeded(seed);
        let mut entry = generate::entry(&mut random).bytes;
        if seed % 3 == 2 {
            let index = generate::index_of(&entry);
            generate::alter_entry(&mut random, &mut entry, &index);
        }
        entries.push(entry);
    }
    entries
}

fn agree(program: &Path, name: &str) {
    let room = Path::new(env!("CARGO_TARGET_TMPDIR"));
    let [file, list] = ["x4", "txt"].map(|kind| room.join(format!("{name}.{kind}")));
    let mut printed = String::new();
    for (turn, entry) in entries().iter().enumerate() {
        let lines = lines(&mut Random::seeded(turn as u64), entry);
        std::fs::write(&file, entry).unwrap();
        std::fs::write(&list, lines.iter().map(|(line, _)| format!("{line}\n")).collect::<String>()).unwrap();
        let output = Command::new(program).args([&file, &list]).output().unwrap();
        let text = String::from_utf8(output.stdout).unwrap();
        assert!(output.status.success(), "entry {turn}: {}\n{text}", output.status);
        let due: String = lines.iter().map(|(_, due)| due.as_str()).collect();
        for (number, (said, due)) in text.lines().zip(due.lines()).enumerate() {
            assert_eq!(said, due, "entry {turn}, line {number}");
        }
        assert_eq!(text.len(), due.len(), "entry {turn}");
        printed += &text;
    }
    let times = |words: &str| printed.lines().filter(|line| line.contains(words)).count();
    let refusals = ["refused 31 ", "refused 32 ", "refused 33 ", "refused 15", "blank digits 0", "done"];
    assert!(refusals.iter().all(|words| times(words) > 20), "{:?}", refusals.map(times));
    let unseen = printed.lines().filter(|line| *line == "0 values").count();
    assert!(unseen > 100, "{unseen}");
    say(&format!(
        "{name}: {} values, {} malformed, {} walks done, {unseen} refusals not looked at",
        times(" digits "),
        times("refused 15"),
        times("done")
    ));
}

#[test]
fn c_programs_get_the_same_values() {
    if let Some(program) = compiled("gcc", "walk-c", &C, &["tests/c/walk.c"]) {
        agree(&program, "walk-c");
    }
}

#[test]
fn fortran_programs_get_the_same_values() {
    let modules = concat!(env!("CARGO_TARGET_TMPDIR"), "/walk");
    std::fs::create_dir_all(modules).unwrap();
    let arguments = ["-std=f2008", "-O2", "-Wall", "-Werror", "-J", modules];
    if let Some(program) = compiled("gfortran", "walk-f", &arguments, &["fortran/x4.f90", "fortran/walk.f90"]) {
        agree(&program, "walk-f");
    }
}

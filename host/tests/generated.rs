//! Generated inputs: entries made valid are accepted, an entry damaged by a known cause gets the refusal that the paper
//! gives for it, and canonical copies have the properties that the paper asks for.

use glockenbeacon::explain::{explain, shown};
use glockenbeacon::generate::{self, damage, damaged, damaged_file, Kind, Random, Shape, CAUSES, FILE_CAUSES, SHAPES};
use glockenbeacon::library::{self, entries, judge_file};
use glockenbeacon::library::{canonical_copy, copy_file, heading, judge, read_number, unit, value, write_number};
use glockenbeacon::reference::flags::{Codes, FlagHeading};
use glockenbeacon::reference::number::{canonical_text, read, Reading};
use glockenbeacon::reference::tree::{Cell, Subentry, Tree};
use glockenbeacon::tables::tables;
use glockenbeacon::{Decimal, FieldRead, Reason, Refusal, Totals, Value, Verdict, COMMON, DATA, RECORD};
use std::collections::{BTreeMap, BTreeSet};
use std::ops::Range;

const SEED: u64 = 20_240_105;

#[test]
fn valid_entries_are_accepted_and_copied() {
    let mut random = Random::seeded(SEED);
    for number in 0..1_000 {
        let sheet = generate::entry(&mut random);
        let entry = &sheet.bytes;
        let verdict = judge(entry);
        assert!(matches!(verdict, Verdict::Accepted(_)), "entry {number} of seed {SEED}: {verdict}");
        let mut buffer = vec![b'#'; entry.len() + 7];
        canonical_copy(entry, &mut buffer).expect("an accepted entry is copied");
        let (copy, tail) = buffer.split_at(entry.len());
        assert_eq!(tail, b"#######", "bytes past the entry's length stay");
        assert_eq!(judge(copy), verdict, "the copy is accepted, with the same totals");
        let mut again = copy.to_vec();
        canonical_copy(copy, &mut again).expect("a copy is copied");
        assert_eq!(again, copy, "a copy is its own copy");
        let mut due = entry.clone();
        for number in number_fields(entry) {
            let Ok(FieldRead { value: Value::Number(decimal), .. }) = read_number(&entry[number.clone()]) else {
                continue;
            };
            write_number(decimal, &mut due[number]).expect("a number that was read is written");
        }
        assert!(
            copy == due,
            "canonical fields in the number fields, all else as it was: entry {number} of seed {SEED}"
        );
    }
}

/// The places of the number fields of a valid entry: the values of COMMON and DATA, save those under FLAG and
/// DECAY-FLAG, which "demand 3 treats as bytes outside number fields" (M-105).
fn number_fields(entry: &[u8]) -> Vec<Range<usize>> {
    let tree = Tree::of(entry);
    let mut places = Vec::new();
    for table in tree.subentries.iter().flat_map(Subentry::tables) {
        let headings: Vec<Cell> = table.headings(&tree).collect();
        let flag = |cell: &Cell| {
            let word = String::from_utf8_lossy(headings[cell.column - 1].word()).to_string();
            ["FLAG", "DECAY-FLAG"].contains(&word.trim_end())
        };
        for cell in (2..2 + table.lines).flat_map(|row| table.cells(&tree, row)).filter(|cell| cell.used) {
            let first = cell.record * RECORD + 11 * cell.field;
            if !flag(&cell) {
                places.push(first..first + 11);
            }
        }
    }
    places
}

/// Every system record occurs, tables of one to eighteen columns in 001's COMMON, in other COMMONs and in DATA,
/// pointers on headings, and blanks among values.
#[test]
fn every_shape_is_made() {
    let mut random = Random::seeded(SEED + 9);
    let (mut names, mut tables, mut pointers, mut blanks) = (BTreeSet::new(), BTreeSet::new(), 0, 0);
    for _ in 0..2_000 {
        let sheet = generate::entry(&mut random);
        for (at, kind) in sheet.kinds.iter().enumerate() {
            match kind {
                Kind::System(name) => {
                    names.insert(*name);
                    if matches!(*name, "COMMON" | "DATA") {
                        let columns: usize = String::from_utf8_lossy(sheet.columns(at, 12, 22)).trim().parse().unwrap();
                        tables.insert((*name, sheet.columns(at, 72, 74) == b"001", columns));
                    }
                }
                Kind::Heading { section: "DATA", .. } => {
                    pointers += (1..=6).filter(|field| sheet.columns(at, 11 * field, 11 * field) != b" ").count();
                }
                Kind::Values { section: "DATA", .. } => blanks += usize::from(sheet.columns(at, 1, 11) == [b' '; 11]),
                _ => {}
            }
        }
    }
    assert_eq!(names.len(), 14, "{names:?}");
    assert_eq!(tables.len(), 3 * 18, "{tables:?}");
    assert!(pointers > 500 && blanks > 500, "{pointers} pointers, {blanks} blanks");
}

/// Headings repeat in 001's COMMON, in other COMMONs and in DATA, on one record and across two, with and without a
/// pointer.
#[test]
fn headings_repeat_in_every_way() {
    let mut random = Random::seeded(SEED + 10);
    let (mut ways, mut words) = (BTreeSet::new(), BTreeSet::new());
    for _ in 0..2_000 {
        let entry = generate::entry(&mut random).bytes;
        let tree = Tree::of(&entry);
        for (subentry, table) in tree.subentries.iter().flat_map(|own| own.tables().map(move |table| (own, table))) {
            let headings: Vec<Cell> = table.headings(&tree).collect();
            for run in headings.chunk_by(|one, next| one.bytes == next.bytes).filter(|run| run.len() > 1) {
                let across = run[0].record != run[run.len() - 1].record;
                ways.insert((table.name, subentry.opening == 1, across, run[0].eleventh() != b' '));
                words.insert((table.name, run[0].word().to_vec()));
            }
        }
    }
    assert_eq!(ways.len(), 3 * 2 * 2, "{ways:?}");
    assert_eq!(words.len(), 11 + 16, "words in COMMON, and words in DATA");
}

/// Flags stand in 001's COMMON, in other COMMONs and in DATA, on each of the three records of a line, with and without a
/// pointer, over numbers and over blanks, and have their codes in the same subentry or in 001.
#[test]
fn flags_are_made_in_every_way() {
    let mut random = Random::seeded(SEED + 11);
    let (mut ways, mut hang) = (BTreeMap::new(), BTreeMap::new());
    for _ in 0..10_000 {
        let entry = generate::entry(&mut random).bytes;
        let tree = Tree::of(&entry);
        for (subentry, table) in tree.subentries.iter().flat_map(|own| own.tables().map(move |table| (own, table))) {
            let first = subentry.opening == 1;
            let headings: Vec<Cell> = table.headings(&tree).collect();
            for cell in (2..2 + table.lines).flat_map(|row| table.cells(&tree, row)).filter(|cell| cell.used) {
                let heading = headings[cell.column - 1];
                let Some(flag) = FlagHeading::of(&heading) else { continue };
                let blank = cell.bytes == [b' '; 11];
                let way = (flag, table.name, first, (cell.column - 1) / 6, heading.eleventh() != b' ', blank);
                *ways.entry(way).or_insert(0) += 1;
                if flag == FlagHeading::Flag && !blank {
                    // Of a subentry alone its own codes can be asked, with no other before it.
                    let alone = |from: &Subentry| {
                        let own = Tree { subentries: vec![from.clone()], ..Tree::of(&entry) };
                        Codes::of(&own, from).fault(flag, cell.bytes).is_none()
                    };
                    *hang.entry((table.name, alone(subentry), alone(&tree.subentries[0]))).or_insert(0) += 1;
                }
            }
        }
    }
    // Two headings, columns 1-6, 7-12 or 13-18, with a pointer or not: in 001's COMMON and other COMMONs, which have no
    // blanks, and in DATA over numbers and over blanks.
    assert_eq!(ways.len(), 2 * 3 * 2 * (1 + 1 + 2), "{ways:?}");
    assert!(ways.values().all(|&times: &i32| times >= 10), "{ways:?}");
    // Codes of its own, of 001, of both; in COMMON also of 001 itself, whose own is the first.
    assert_eq!(hang.len(), 3 + 3, "{hang:?}");
    assert!(hang.values().all(|&times: &i32| times >= 20), "{hang:?}");
}

#[test]
fn every_cause_gets_its_refusal() {
    let mut random = Random::seeded(SEED + 1);
    let mut seen: BTreeMap<&str, usize> = BTreeMap::new();
    let mut numbers = [0; 18];
    for round in 0..100 {
        for cause in 0..CAUSES.len() {
            let (sheet, Some(done)) = damaged(&mut random, cause) else { continue };
            let verdict = judge(&sheet.bytes);
            let text = String::from_utf8_lossy(&sheet.bytes).to_string();
            assert_eq!(verdict, Verdict::Refused(done.due), "{} (round {round}):\n{text}", done.cause);
            *seen.entry(done.cause).or_default() += 1;
            numbers[done.due.number as usize] += 1;
        }
    }
    assert!(CAUSES.iter().all(|(cause, _)| seen.get(cause).is_some_and(|&times| times >= 10)), "{seen:?}");
    assert!(numbers[1..].iter().all(|&times| times >= 50), "{numbers:?}");
}

/// Valid transmissions are accepted with the totals of their entries, whatever the order of these; the entries are
/// their parts, and the copy is the copies in place.
#[test]
fn valid_transmissions_are_accepted_and_copied() {
    let mut random = Random::seeded(SEED + 20);
    let mut sizes = [0; 7];
    for _ in 0..200 {
        let mut parts = generate::transmission(&mut random);
        let file = parts.bytes();
        let mut sums = [0; 7];
        for sheet in &parts.entries {
            sums.iter_mut().zip(judge(&sheet.bytes).numbers()).for_each(|(sum, number)| *sum += number);
        }
        let verdict = judge_file(&file);
        assert_eq!((verdict.numbers(), verdict.ordinal()), (sums, 0));
        let own: Vec<&[u8]> = parts.entries.iter().map(|sheet| sheet.bytes.as_slice()).collect();
        assert_eq!(entries(&file).map(|(_, entry)| entry).collect::<Vec<_>>(), own);
        let mut copy = vec![b'#'; file.len() + 3];
        copy_file(&file, &mut copy).expect("an accepted transmission is copied");
        let mut due = parts.trans.clone();
        for entry in own {
            let mut one = entry.to_vec();
            canonical_copy(entry, &mut one).expect("an accepted entry is copied");
            due.extend(one);
        }
        assert!(copy == [&due[..], &parts.end, b"###"].concat(), "the copies in place");
        assert_eq!(judge_file(&copy[..file.len()]), verdict, "the copy is accepted, with the same totals");
        parts.entries.reverse();
        assert_eq!(judge_file(&parts.bytes()), verdict, "the order of entries plays no part");
        sizes[parts.entries.len()] += 1;
    }
    assert!([1, 2, 3, 4, 6].iter().all(|&entries| sizes[entries] >= 10), "{sizes:?}");
}

#[test]
fn every_cause_in_a_transmission_gets_its_refusal() {
    let mut random = Random::seeded(SEED + 21);
    let (mut seen, mut numbers, mut ordinals) = (vec![0; FILE_CAUSES.len()], [0; 18], BTreeMap::new());
    for round in 0..2_000 {
        // Damage to an entry has many causes of its own.
        let cause = if round % 2 == 0 { FILE_CAUSES.len() - 1 } else { round / 2 % FILE_CAUSES.len() };
        let (parts, Some(due)) = damaged_file(&mut random, cause) else { continue };
        let file = parts.bytes();
        let text = String::from_utf8_lossy(&file).to_string();
        assert_eq!(judge_file(&file), Verdict::Refused(due), "{} (round {round}):\n{text}", FILE_CAUSES[cause].0);
        let mut copy = vec![b'#'; file.len()];
        let answer = copy_file(&file, &mut copy).expect_err("a refused transmission has no copy");
        assert_eq!((answer.number, answer.entry), (31, Some(due)));
        assert!(copy.iter().all(|&byte| byte == b'#'), "a refused call stores nothing");
        seen[cause] += 1;
        numbers[due.number as usize] += 1;
        *ordinals.entry(due.ordinal).or_insert(0) += 1;
    }
    assert!(seen.iter().all(|&times| times >= 30), "{seen:?}");
    assert!(numbers[1..].iter().all(|&times| times >= 5), "{numbers:?}");
    assert!((0..=6).all(|ordinal| ordinals.get(&ordinal).is_some_and(|&times| times >= 5)), "{ordinals:?}");
}

#[test]
fn refused_entries_are_not_copied() {
    let mut random = Random::seeded(SEED + 2);
    for _ in 0..500 {
        let mut sheet = generate::entry(&mut random);
        generate::noise(&mut random, &mut sheet);
        let mut buffer = vec![b'#'; sheet.bytes.len()];
        let copied = canonical_copy(&sheet.bytes, &mut buffer);
        match judge(&sheet.bytes) {
            Verdict::Accepted(_) => assert_eq!(copied, Ok(())),
            Verdict::Refused(refusal) => {
                let answer = copied.expect_err("a refused entry has no copy");
                assert_eq!((answer.number, answer.entry), (31, Some(refusal)));
                assert!(buffer.iter().all(|&byte| byte == b'#'), "a refused call stores nothing");
                assert_eq!(value(&sheet.bytes, 1, 1, 1, 1), Err(answer));
            }
        }
    }
}

#[test]
fn random_bytes_are_refused() {
    let mut random = Random::seeded(SEED + 3);
    for _ in 0..5_000 {
        let bytes = generate::random_bytes(&mut random);
        let whole = !bytes.is_empty() && bytes.len() % 81 == 0;
        match judge(&bytes) {
            Verdict::Refused(Refusal { number: 1, record: 0, column: 0, ordinal: 0 }) => assert!(!whole),
            Verdict::Refused(refusal) => assert!(whole && refusal.record >= 1),
            Verdict::Accepted(_) => panic!("accepted: {bytes:?}"),
        }
    }
}

#[test]
fn a_number_field_and_its_canonical_field_read_alike() {
    let mut random = Random::seeded(SEED + 4);
    for _ in 0..100_000 {
        let field = generate::spelling(&mut random);
        let text = String::from_utf8_lossy(&field).to_string();
        let read = read_number(&field).unwrap_or_else(|refused| panic!("{text:?}: {refused}"));
        let Value::Number(decimal) = read.value else { panic!("{text:?} is no number") };
        let mut canonical = [0; 11];
        write_number(decimal, &mut canonical).unwrap_or_else(|refused| panic!("{text:?}: {refused}"));
        // the claim leaves the count of digits out
        assert_eq!(read_number(&canonical).map(|read| read.value), Ok(read.value), "{text:?}");
        let columns = |field: &[u8]| String::from_utf8_lossy(field).trim().len();
        assert!(columns(&canonical) <= columns(&field), "{text:?}");
    }
}

#[test]
fn a_decimal_is_written_or_refused() {
    let mut random = Random::seeded(SEED + 5);
    let mut refused = 0;
    for _ in 0..100_000 {
        let decimal = generate::decimal(&mut random);
        let mut field = [b'#'; 11];
        match write_number(decimal, &mut field) {
            Ok(()) => {
                let read = read_number(&field).ok().map(|read| read.value);
                assert_eq!(read, decimal.normal().map(Value::Number), "{decimal:?}");
            }
            Err(answer) => {
                refused += 1;
                assert_eq!((answer.number, field), (41, [b'#'; 11]), "{decimal:?}");
            }
        }
    }
    assert!((10_000..90_000).contains(&refused), "{refused} refused");
}

/// Large entries, up to the limits of the paper: the totals follow from the shape.
#[test]
fn large_entries_are_accepted() {
    let mut random = Random::seeded(SEED + 8);
    for records in [1_000, 5_000, 20_000] {
        for shape in SHAPES {
            let entry = generate::large(&mut random, shape, records);
            let had = (entry.len() / 81) as u32;
            assert!(had <= records as u32 && had + 1_000 > records as u32, "{shape:?}: {had} records");
            let Verdict::Accepted(totals) = judge(&entry) else { panic!("{shape:?}: {}", judge(&entry)) };
            let expected = match shape {
                Shape::Text => Totals { subentries: 1, keywords: (had - 7).div_ceil(500), lines: 0, numbers: 0 },
                Shape::Keywords => Totals { subentries: 1, keywords: had - 7, lines: 0, numbers: 0 },
                Shape::Table => {
                    let lines = (had - 18) / 3;
                    Totals { subentries: 2, keywords: 0, lines, numbers: 18 * lines }
                }
                Shape::Subentries => {
                    let lines = had - 6 - 8 * (totals.subentries - 1);
                    Totals { subentries: totals.subentries, keywords: 0, lines, numbers: 4 * lines }
                }
            };
            assert_eq!(totals, expected, "{shape:?}, {had} records");
        }
    }
    let entry = generate::large(&mut random, Shape::Subentries, 20_000);
    assert_eq!(judge(&entry).numbers()[3], 998, "as many subentries as there may be");
}

/// The tables of an entry say what its questions answer.
#[test]
fn tables_and_questions_agree() {
    let mut random = Random::seeded(SEED + 6);
    for _ in 0..60 {
        let entry = generate::entry(&mut random).bytes;
        let all = tables(&entry).expect("a valid entry has tables");
        let filled = |read: &&FieldRead| !matches!(read.value, Value::Blank);
        let numbers = all.iter().flat_map(|table| &table.lines).flatten().filter(filled).count();
        let lines: usize = all.iter().filter(|table| table.section == "DATA").map(|table| table.lines.len()).sum();
        assert_eq!(judge(&entry).numbers()[5..], [lines as u32, numbers as u32], "the totals are those of the tables");
        for table in all {
            let subentry: u32 = table.subentry[5..].parse().unwrap();
            let section = if table.section == "COMMON" { COMMON } else { DATA };
            for (index, column) in table.columns.iter().enumerate() {
                let number = index as u32 + 1;
                let heading = heading(&entry, subentry, section, number).unwrap();
                let unit = unit(&entry, subentry, section, number).unwrap();
                assert_eq!(heading.of(&entry), format!("{:10}", column.heading).as_bytes());
                assert_eq!(unit.of(&entry), format!("{:10}", column.unit).as_bytes());
                assert_eq!(char::from(heading.pointer), column.pointer.unwrap_or(' '));
                for (line, values) in table.lines.iter().enumerate() {
                    assert_eq!(value(&entry, subentry, section, line as u32 + 1, number), Ok(values[index]));
                }
            }
        }
    }
}

/// Every refusal has words, and its record can be shown.
#[test]
fn refusals_are_explained() {
    let mut random = Random::seeded(SEED + 7);
    for round in 0..4_000 {
        let mut sheet = generate::entry(&mut random);
        match round % 2 {
            0 => _ = damage(&mut random, &mut sheet, round / 2 % CAUSES.len()),
            _ => generate::noise(&mut random, &mut sheet),
        }
        let explained = library::explain(&sheet.bytes);
        if let Verdict::Refused(refusal) = explained.verdict {
            let words = explain(&sheet.bytes, &refusal, explained.reason);
            assert!(!words.expected.is_empty() && !words.found.is_empty(), "{refusal}: {words:?}");
            assert!(!words.expected.starts_with("not this: "), "{refusal}: {words:?}");
            assert_eq!(shown(&sheet.bytes, &refusal).is_some(), !matches!(refusal.number, 1 | 16));
        }
    }
}

/// A refusal that the reference does not see has words, too, whatever its reason.
#[test]
fn an_expectation_is_never_empty() {
    let entry = include_bytes!("../data/flags.x4");
    let reasons = [
        Reason::Alone,
        Reason::Count { announced: 1, due: 2 },
        Reason::Range { least: 1, greatest: 0 },
        Reason::Range { least: 1, greatest: 18 },
        Reason::Previous(0),
        Reason::Equal { record: 0, column: 0 },
        Reason::Equal { record: 200_000, column: 56 },
        Reason::Pointer(b' '),
        Reason::Expected(*b"        "),
    ];
    for number in (5..=15).chain([17]) {
        for record in 1..=30 {
            for (column, reason) in [1, 12, 23, 34, 45, 56].into_iter().flat_map(|column| reasons.map(|r| (column, r)))
            {
                let words = explain(entry, &Refusal::new(number, record, column), reason);
                assert!(!words.expected.is_empty(), "{number} on record {record}, column {column}, {reason:?}");
            }
        }
    }
}

/// "Of all fields reading to the value": at widths where all strings can be tried, they are.
#[test]
fn the_canonical_field_is_the_best_of_all() {
    const LETTERS: &[u8; 15] = b" +-.E0123456789";
    for width in 1..=5 {
        let mut best: BTreeMap<(bool, u64, i32), Vec<Vec<u8>>> = BTreeMap::new();
        for code in 0..15_usize.pow(width as u32) {
            let field: Vec<u8> = (0..width).map(|place| LETTERS[code / 15_usize.pow(place as u32) % 15]).collect();
            if let Reading::Number(Decimal { negative, coefficient, power }) = read(&field) {
                best.entry((negative, coefficient, power)).or_default().push(field);
            }
        }
        for ((negative, coefficient, power), mut fields) in best {
            let rank = |field: &Vec<u8>| {
                let text = String::from_utf8_lossy(field).to_string();
                let shown = text.trim();
                let body = shown.trim_start_matches(['+', '-']);
                let exponent = body.contains(['+', '-', 'E', ' ']);
                let before = body.find('.').expect("a point");
                (shown.len(), exponent, shown.contains('E'), usize::MAX - before, usize::MAX - text.trim_end().len())
            };
            fields.sort_by_key(rank);
            let winner = String::from_utf8_lossy(&fields[0]).to_string();
            assert!(fields.len() == 1 || rank(&fields[0]) < rank(&fields[1]), "{winner} is not alone");
            let written = canonical_text(Decimal { negative, coefficient, power }, width).expect("a field reads to it");
            assert_eq!(format!("{written:>width$}"), winner);
        }
    }
}

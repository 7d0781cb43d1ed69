//! Verdicts, reasons, answers, indexes, walks, doubles, copies, entries of transmissions, counts of digits, CINDA lines, codes
//! under DECAY-DATA, and merges that others worked out from the papers, where their tables are beside the project: in `../shared/vectors/02`. The library and the reference are
//! held against them.

mod common;

use common::{copied, say, sha256, BOTH};
use glockenbeacon::cinda::{Line, LinesRefusal, Mass, Pieces, LINE};
use glockenbeacon::decay::{Code, CodeRefusal, NumberRead};
use glockenbeacon::differ::Implementation;
use glockenbeacon::json;
use glockenbeacon::library::DoubleCalls;
use glockenbeacon::revisions::RevisionRefusal;
use glockenbeacon::{
    library, reference, words, Decimal, DoubleRead, Explained, FieldRead, NoAnswer, Part, Simple, Value,
};
use glockenbeacon::{Verdict, RECORD};
use std::collections::BTreeMap;
use std::path::PathBuf;

/// The lines of a table without its head line, each split at its tabs; none, which is said, where it is not there.
fn table(name: &str) -> Option<Vec<Vec<String>>> {
    let Ok(text) = std::fs::read_to_string(folder().join(name)) else {
        say(&format!("no shared/vectors/02/{name} beside the project: it was not compared"));
        return None;
    };
    Some(text.lines().skip(1).map(|line| line.split('\t').map(str::to_string).collect()).collect())
}

fn folder() -> PathBuf {
    PathBuf::from(env!("CARGO_MANIFEST_DIR")).join("../../shared/vectors/02")
}

fn bytes(hex: &str) -> Vec<u8> {
    let pairs = hex.as_bytes().chunks(2).map(|pair| std::str::from_utf8(pair).expect("hex"));
    pairs.map(|pair| u8::from_str_radix(pair, 16).expect("hex")).collect()
}

/// What the reader tells of a field: `blank`, `number` or the refusal; negative, coefficient, power; digits.
fn told(read: Result<FieldRead, NoAnswer>) -> [String; 5] {
    let none = Decimal::ZERO;
    let (kind, Decimal { negative, coefficient, power }) = match read.map(|read| read.value) {
        Ok(Value::Blank) => ("blank".to_string(), none),
        Ok(Value::Number(decimal)) => ("number".to_string(), decimal),
        Err(refused) => (refused.number.to_string(), none),
    };
    let digits = read.map_or(0, |read| read.digits);
    [kind, u32::from(negative).to_string(), coefficient.to_string(), power.to_string(), digits.to_string()]
}

#[test]
fn counts_written_by_hand() {
    let Some(rows) = table("hand/digits.tsv") else { return };
    for row in &rows {
        let [hex, digits] = &row[..] else { panic!("{row:?}") };
        let field = bytes(hex);
        for read in [library::read_number(&field), reference::read_number(&field)] {
            assert_eq!(&told(read)[4], digits, "{}", String::from_utf8_lossy(&field));
        }
    }
    say(&format!("hand/digits.tsv: {} fields", rows.len()));
}

#[test]
fn fields_that_others_read() {
    let Some(rows) = table("numbers_read.tsv") else { return };
    for row in &rows {
        let field = bytes(&row[0]);
        for read in [library::read_number(&field), reference::read_number(&field)] {
            assert_eq!(told(read), row[1..6], "{:?}", String::from_utf8_lossy(&field));
        }
    }
    say(&format!("numbers_read.tsv: {} fields", rows.len()));
}

/// An entry of one of the folders.
fn entry(of: &str, file: &str) -> Vec<u8> {
    std::fs::read(folder().join(of).join(file)).expect("a file that a table names")
}

/// The seven numbers of a verdict, as a table has them.
fn same_verdict(of: &str, file: &str, numbers: &[String], how: &str) {
    for by in BOTH {
        let judged = by.judge(&entry(of, file)).numbers().map(|number| number.to_string());
        assert_eq!(judged, numbers, "{of}/{file}: {how}");
    }
}

/// The rows that hold with M-105, the last request that they know.
#[test]
fn entries_written_by_hand() {
    let Some(rows) = table("hand/index.tsv") else { return };
    let with = |rules: &str| rows.iter().filter(|row| row[1] == rules).cloned().collect::<Vec<_>>();
    let (base, before, now) = (with("base"), with("101"), with("105"));
    let files = |rows: &[Vec<String>]| rows.iter().map(|row| row[0].clone()).collect::<Vec<_>>();
    assert!(files(&base) == files(&now) && files(&before) == files(&now), "the same entries, in the same order");
    for row in &now {
        same_verdict("hand", &row[0], &row[2..9], &row[9]);
    }
    let changed = |from: &[Vec<String>], to: &[Vec<String>]| {
        let changed = from.iter().zip(to).filter(|(one, other)| one[2..9] != other[2..9]).count();
        assert!(changed > 0, "a request changes none of {}", to.len());
        changed
    };
    let (first, second) = (changed(&base, &before), changed(&before, &now));
    say(&format!("hand/index.tsv: {} entries, {first} judged otherwise by M-101 and {second} by M-105", now.len()));
}

/// The canonical copy of an accepted entry.
fn copy(by: &dyn Implementation, entry: &[u8], file: &str) -> Vec<u8> {
    let mut copy = vec![b'#'; entry.len()];
    assert_eq!(by.canonical_copy(entry, &mut copy), Ok(()), "{file}");
    copy
}

/// Columns 1-66 of records of a copy; every other byte of these records and all other records are as they were.
#[test]
fn copies_written_by_hand() {
    let Some(rows) = table("hand/copies.tsv") else { return };
    for group in rows.chunk_by(|one, next| one[0] == next[0]) {
        let mut due = entry("hand", &group[0][0]);
        for row in group {
            let first = (row[1].parse::<usize>().expect("a record") - 1) * RECORD;
            due[first..first + 66].copy_from_slice(row[2].as_bytes());
        }
        for by in BOTH {
            let copy = copy(by, &entry("hand", &group[0][0]), &group[0][0]);
            assert_eq!(String::from_utf8_lossy(&copy), String::from_utf8_lossy(&due), "{}", group[0][0]);
        }
    }
    say(&format!("hand/copies.tsv: {} records", rows.len()));
}

/// The first bytes of the headings FLAG and DECAY-FLAG, with any pointer or none, in the tables of an entry.
fn flag_headings(bytes: &[u8]) -> Vec<usize> {
    let records: Vec<&[u8]> = bytes.chunks_exact(RECORD).collect();
    let opens = |record: &[u8]| record.starts_with(b"COMMON     ") || record.starts_with(b"DATA       ");
    let mut places = Vec::new();
    for at in (0..records.len()).filter(|&at| opens(records[at])) {
        // As many records of headings as the count of columns asks for.
        let columns = String::from_utf8_lossy(&records[at][11..22]).trim().parse::<usize>().unwrap_or(0);
        let headings = (at + 1..records.len()).take(columns.div_ceil(6));
        let fields = headings.flat_map(|record| (0..6).map(move |field| RECORD * record + 11 * field));
        places.extend(fields.filter(|&first| matches!(&bytes[first..first + 10], b"FLAG      " | b"DECAY-FLAG")));
    }
    places
}

/// Whether M-105 has anything to say of an entry: FLAG or DECAY-FLAG is a heading of one of its tables. The entries of
/// `r101` are judged without that request.
fn flagged(of: &str, file: &str) -> bool {
    !flag_headings(&entry(of, file)).is_empty()
}

/// Whether M-100 refuses an entry of a folder that is judged without it: by 4, at a record that is TRANS or ENDTRANS,
/// where the table has no refusal on a record before it.
fn identified(of: &str, file: &str, numbers: &[String]) -> bool {
    let bytes = entry(of, file);
    let Some(refusal) = reference::judge(&bytes).refusal().filter(|refusal| refusal.number == 4) else { return false };
    let record = &bytes[(refusal.record as usize - 1) * RECORD..];
    let before = numbers[1].parse::<u32>().expect("a record");
    let named = record.starts_with(b"TRANS      ") || record.starts_with(b"ENDTRANS   ");
    let other = numbers[0] != "4" || refusal.record != before;
    named && other && (numbers[0] == "0" || refusal.record <= before)
}

/// The rows that M-100 leaves as they are; at those that it refuses the library refuses them, too.
fn without_transmissions(of: &str, rows: &mut Vec<Vec<String>>, verdict: impl Fn(&[String]) -> Vec<String>) {
    let all = rows.len();
    rows.retain(|row| {
        let refused = identified(of, &row[0], &verdict(row));
        let bytes = entry(of, &row[0]);
        assert!(!refused || library::judge(&bytes) == reference::judge(&bytes), "{of}/{}", row[0]);
        !refused
    });
    say(&format!("{of}: {} of {all} rows are about an entry that TRANS or ENDTRANS refuses", all - rows.len()));
}

/// Verdicts, and the copies of what is accepted.
fn same_verdicts_and_copies(of: &str, known: impl Fn(&str) -> bool) {
    let Some(mut rows) = table(&format!("{of}/index.tsv")) else { return };
    rows.retain(|row| known(&row[0]));
    without_transmissions(of, &mut rows, |row| row[1..8].to_vec());
    let mut copies = 0;
    for row in &rows {
        same_verdict(of, &row[0], &row[1..8], &row[9]);
        if row[1] != "0" {
            continue;
        }
        let (own, due) = (entry(of, &row[0]), entry(of, &row[0].replace(".x4", ".copy")));
        for by in BOTH {
            assert!(copy(by, &own, &row[0]) == due, "{of}/{}: the copy", row[0]);
        }
        copies += 1;
    }
    let flags = rows.iter().filter(|row| row[1] == "17").count();
    say(&format!("{of}/index.tsv: {} entries, {copies} of them copied, {flags} refused by 17", rows.len()));
}

/// Generated with repeated headings, and with flags.
#[test]
fn entries_that_others_made() {
    same_verdicts_and_copies("r101", |file| !flagged("r101", file));
    same_verdicts_and_copies("r105", |_| true);
}

/// M-111, for one input: it has the first records of a case. They end with the case's refused record, and the input has
/// its whole verdict; or they are all of an accepted case, and the one record behind them is refused by 2, 3 or 4. Says
/// whether the case is accepted.
fn as_above(row: &[String], case: &[String]) -> bool {
    let (input, whole) = (entry("r105", &row[0]), entry("r105", &row[1]));
    let records: usize = row[2].parse().expect("a count of records");
    let shared = records * RECORD;
    assert!(shared > 0 && shared <= whole.len() && input.starts_with(&whole[..shared]), "{row:?}: other records");
    let (due, at) = (&row[4..11], (records + 1).to_string());
    if case[0] == "0" {
        assert_eq!((whole.len(), input.len()), (shared, shared + RECORD), "{row:?}: not one record behind it");
        assert!(["2", "3", "4"].contains(&due[0].as_str()) && due[1] == at, "{row:?}: not refused behind it");
        return true;
    }
    assert!(!["1", "16"].contains(&case[0].as_str()), "{row:?}: a refusal by 1 or 16");
    assert_eq!((&case[1], due), (&row[2], case), "{row:?}: not the case's refusal at the last shared record");
    false
}

/// Inputs that agree with an entry of `r105` in its first records.
#[test]
fn entries_that_others_changed_below() {
    let (Some(mut rows), Some(cases)) = (table("r105/prefix.tsv"), table("r105/index.tsv")) else { return };
    without_transmissions("r105", &mut rows, |row| row[4..11].to_vec());
    let verdicts: BTreeMap<&str, &[String]> = cases.iter().map(|row| (row[0].as_str(), &row[1..8])).collect();
    let mut behind = 0;
    for row in &rows {
        same_verdict("r105", &row[0], &row[4..11], &row[3]);
        behind += usize::from(as_above(row, verdicts[row[1].as_str()]));
    }
    assert!(behind > 0 && behind < rows.len(), "{behind} of {} behind an accepted entry", rows.len());
    let below = rows.len() - behind;
    say(&format!("r105/prefix.tsv: {below} inputs changed below a refusal, {behind} behind an accepted entry"));
}

/// The hash is that of the standard: its own two examples.
#[test]
fn copies_are_told_by_their_hash() {
    assert_eq!(sha256(b"abc"), "ba7816bf8f01cfea414140de5dae2223b00361a396177a9cb410ff61f20015ad");
    let two_blocks = b"abcdbcdecdefdefgefghfghighijhijkijkljklmklmnlmnomnopnopq";
    assert_eq!(sha256(two_blocks), "248d6a61d20638b8e5c026930c3e6039a33ce45964ff2167f6ecedd419db06c1");
}

/// The reason's line, or `-`; the verdict beside it is that of judging.
fn reason(explained: &Explained, verdict: Verdict) -> String {
    assert_eq!(explained.verdict, verdict);
    explained.line().unwrap_or("-".into())
}

/// How many rows have a reason, and of which refusals: each of these is among them.
fn with_reasons(rows: &[Vec<String>], column: usize, numbers: &[&str]) -> usize {
    let given: Vec<&str> = rows.iter().filter(|row| row[column] != "-").map(|row| row[1].as_str()).collect();
    assert!(numbers.iter().all(|number| given.contains(number)), "{given:?}");
    given.len()
}

/// Single entries, many of them with TRANS or ENDTRANS inside (M-100), and why they are refused (M-108).
#[test]
fn entries_beside_transmissions() {
    let Some(rows) = table("files/entries.tsv") else { return };
    for row in &rows {
        same_verdict("files", &row[0], &row[1..8], &row[11]);
        let entry = entry("files", &row[0]);
        for by in BOTH {
            assert_eq!(reason(&by.explain(&entry), by.judge(&entry)), row[8], "{row:?}");
        }
    }
    let given = with_reasons(&rows, 8, &["5", "6", "8", "9", "13", "14"]);
    say(&format!("files/entries.tsv: {} entries, {given} of them with a reason", rows.len()));
}

/// The entries of a transmission as a table has them: first byte and length of each, one behind the other.
fn parts(by: &dyn Implementation, file: &[u8]) -> String {
    let (mut at, mut parts) = (RECORD, Vec::new());
    loop {
        match by.entry_length(file, at) {
            0 => return parts.join(","),
            length => parts.push(format!("{at}:{length}")),
        }
        at += by.entry_length(file, at);
    }
}

/// Verdicts on transmissions with their ordinals and reasons, and of those that are accepted the entries and the copy.
#[test]
fn transmissions_that_others_made() {
    let Some(rows) = table("files/files.tsv") else { return };
    let mut accepted = 0;
    for row in &rows {
        let file = entry("files", &row[0]);
        for by in BOTH {
            let verdict = by.judge_file(&file);
            let judged = verdict.numbers().map(|number| number.to_string());
            assert_eq!((&judged[..], verdict.ordinal().to_string()), (&row[1..8], row[8].clone()), "{row:?}");
            assert_eq!(reason(&by.explain_file(&file), verdict), row[9], "{row:?}");
            if row[1] == "0" {
                assert_eq!(
                    (parts(by, &file), sha256(&copied(by, &file))),
                    (row[10].clone(), row[11].clone()),
                    "{row:?}"
                );
            }
        }
        accepted += usize::from(row[1] == "0");
    }
    let ordinals = rows.iter().filter(|row| row[8] != "0").count();
    let given = with_reasons(&rows, 9, &["5", "6", "8", "13"]);
    let words =
        format!("{accepted} of them accepted and copied, {ordinals} refused inside an entry, {given} with a reason");
    say(&format!("files/files.tsv: {} transmissions, {words}", rows.len()));
}

/// The number of a refused question, and the three beside 31.
fn refused(answer: Option<&NoAnswer>) -> String {
    let number = answer.map_or(0, |answer| answer.number);
    let entry =
        answer.and_then(|answer| answer.entry).map_or([0; 3], |entry| [entry.number, entry.record, entry.column]);
    format!("{number} {} {} {}", entry[0], entry[1], entry[2])
}

/// A part as its offset and length; a refused one is empty, with a blank for its pointer.
fn part(answer: Result<Part, NoAnswer>, pointed: bool) -> String {
    let Part { offset, length, pointer } = answer.unwrap_or(Part { offset: 0, length: 0, pointer: b' ' });
    let pointer = if pointed { format!(" {pointer}") } else { String::new() };
    format!("{} {offset} {length}{pointer}", refused(answer.as_ref().err()))
}

/// The answer to a question, as a table has it.
fn answered(by: &dyn Implementation, entry: &[u8], question: &str, asked: &[&str]) -> String {
    let number = |place: usize| asked[place].parse().expect("a number");
    match question {
        "value" => {
            let answer = by.value(entry, [number(0), number(1), number(2), number(3)]);
            format!("{} {}", refused(answer.as_ref().err()), told(answer.or(Ok(FieldRead::BLANK))).join(" "))
        }
        "heading" => part(by.heading(entry, [number(0), number(1), number(2)]), true),
        "unit" => part(by.unit(entry, [number(0), number(1), number(2)]), true),
        "passage" => part(by.passage(entry, number(0), &bytes(asked[1]), number(2) as u8), false),
        other => panic!("no question {other}"),
    }
}

/// Questions with their whole answers.
fn same_answers(of: &str, known: impl Fn(&str) -> bool) {
    let Some(mut rows) = table(&format!("{of}/questions.tsv")) else { return };
    let Some(cases) = table(&format!("{of}/index.tsv")) else { return };
    let verdicts: BTreeMap<&str, &[String]> = cases.iter().map(|row| (row[0].as_str(), &row[1..8])).collect();
    rows.retain(|row| known(&row[0]));
    without_transmissions(of, &mut rows, |row| verdicts[row[0].as_str()].to_vec());
    for row in &rows {
        let asked: Vec<&str> = row[2].split(' ').collect();
        for by in BOTH {
            assert_eq!(answered(by, &entry(of, &row[0]), &row[1], &asked), row[3], "{row:?}");
        }
    }
    let given = rows.iter().filter(|row| row[3].starts_with("0 ")).count();
    say(&format!("{of}/questions.tsv: {} questions, {given} of them with an answer", rows.len()));
}

/// The answer to a question by an index, as a table has it: a value without its count of digits.
fn answered_by(by: &dyn Implementation, entry: &[u8], index: &[u32], question: &str, asked: &[&str]) -> String {
    let number = |place: usize| asked[place].parse().expect("a number");
    match question {
        "value" => {
            let answer = by.index_value(entry, index, [number(0), number(1), number(2), number(3)]);
            format!("{} {}", refused(answer.as_ref().err()), told(answer.or(Ok(FieldRead::BLANK)))[..4].join(" "))
        }
        "heading" => part(by.index_heading(entry, index, [number(0), number(1), number(2)]), true),
        "unit" => part(by.index_unit(entry, index, [number(0), number(1), number(2)]), true),
        "passage" => part(by.index_passage(entry, index, number(0), &bytes(asked[1]), number(2) as u8), false),
        other => panic!("no question {other}"),
    }
}

/// How many rows have each number in a column, in words; each of these numbers is among them.
fn by_number(rows: &[Vec<String>], column: usize, due: &[&str]) -> String {
    let mut counts: BTreeMap<&str, usize> = BTreeMap::new();
    rows.iter().for_each(|row| *counts.entry(row[column].split(' ').next().unwrap_or_default()).or_default() += 1);
    assert!(due.iter().all(|number| counts.contains_key(number)), "{counts:?}");
    counts.iter().map(|(number, count)| format!(" {number}:{count}")).collect()
}

/// Questions by indexes, honest and altered, to entries, whole and altered (M-102). Nothing is judged, so M-101, M-105 and
/// M-100 change none.
#[test]
fn questions_by_indexes_that_others_answered() {
    let Some(rows) = table("lookup/ask.tsv") else { return };
    for row in &rows {
        let [file, numbers, question, asked, due, ..] = &row[..] else { panic!("{row:?}") };
        let text = String::from_utf8(entry("lookup", numbers)).expect("numbers, one to a line");
        let index: Vec<u32> = text.lines().map(|line| line.parse().expect("a number")).collect();
        let asked: Vec<&str> = asked.split(' ').collect();
        for by in BOTH {
            assert_eq!(&answered_by(by, &entry("lookup", file), &index, question, &asked), due, "{row:?}");
        }
    }
    let counts = by_number(&rows, 4, &["0", "32", "33", "34", "35", "36", "38", "39"]);
    say(&format!("lookup/ask.tsv: {} questions, by number{counts}", rows.len()));
}

/// Each number of the sample's index replaced in turn, every question asked.
#[test]
fn the_index_of_the_sample_swept_by_others() {
    let Some(rows) = table("lookup/sample_sweep.tsv") else { return };
    let sample = entry("lookup", "sample.x4");
    assert_eq!(sample, common::sample());
    for row in &rows {
        let [numbers, question, asked, due, ..] = &row[..] else { panic!("{row:?}") };
        let index: Vec<u32> = numbers.split(',').map(|number| number.parse().expect("a number")).collect();
        let asked: Vec<&str> = asked.split(' ').collect();
        for by in BOTH {
            assert_eq!(&answered_by(by, &sample, &index, question, &asked), due, "{row:?}");
        }
    }
    let counts = by_number(&rows, 3, &["0", "32", "33", "34", "35", "36", "39"]);
    say(&format!("lookup/sample_sweep.tsv: {} questions, by number{counts}", rows.len()));
}

/// Indexes made in slices of some lengths, every number 7 before: the verdict beside 31, the rows that the entry has, and
/// the slice afterwards. The table judges by document 01 alone, so that where 17 refuses an entry since M-105, its headings
/// FLAG and DECAY-FLAG get another letter first.
#[test]
fn indexes_that_others_made() {
    let Some(mut rows) = table("lookup/make.tsv") else { return };
    without_transmissions("lookup", &mut rows, |row| row[3..6].to_vec());
    let mut renamed = 0;
    for row in &rows {
        let room: usize = row[1].parse().expect("a length");
        let mut entry = entry("lookup", &row[0]);
        if reference::judge(&entry).numbers()[0] == 17 {
            let mut given = vec![9; room];
            assert_eq!(library::make_index(&entry, &mut given), reference::make_index(&entry, &mut given));
            flag_headings(&entry).into_iter().for_each(|first| entry[first + 1] = b'Q');
            renamed += 1;
        }
        for by in BOTH {
            let mut slice = vec![7; room];
            let made = by.make_index(&entry, &mut slice);
            assert_eq!(refused(made.as_ref().err()), row[2..6].join(" "), "{row:?}");
            // A refused call does not say how many rows there are; judging does.
            let subentries = by.judge(&entry).numbers()[3] as usize;
            assert_eq!(
                (made.unwrap_or(subentries).to_string(), subentries.to_string()),
                (row[6].clone(), row[6].clone())
            );
            let numbers = slice.iter().map(|number| number.to_string()).collect::<Vec<_>>().join(" ");
            assert_eq!(numbers, row[7], "{row:?}");
        }
    }
    let counts = by_number(&rows, 2, &["0", "31", "38"]);
    say(&format!("lookup/make.tsv: {} indexes, {renamed} without flags, by number{counts}", rows.len()));
}

/// All that a walk gives, a value to a line as a table has it; then it is done, and stays so.
fn walked(by: &dyn Implementation, entry: &[u8], subentry: u32, section: u32) -> Result<Vec<String>, NoAnswer> {
    let mut walk = by.walk(entry, subentry, section)?;
    let step = || {
        by.walk_next(entry, &mut walk).map(|(line, column, read)| format!("{line} {column} {}", told(read).join(" ")))
    };
    let said = std::iter::from_fn(step).collect();
    assert!((0..3).all(|_| by.walk_next(entry, &mut walk).is_none()));
    Ok(said)
}

/// Walks over tables (M-112): the refusal, how many values there are, the first ten and the last. As with the indexes, the
/// headings FLAG and DECAY-FLAG get another letter where 17 refuses the entry.
#[test]
fn walks_that_others_took() {
    let Some(mut rows) = table("lookup/walk.tsv") else { return };
    without_transmissions("lookup", &mut rows, |row| row[4..7].to_vec());
    let (mut renamed, mut values) = (0, 0);
    for row in &rows {
        let (subentry, section) = (row[1].parse().expect("a number"), row[2].parse().expect("a number"));
        let mut entry = entry("lookup", &row[0]);
        if reference::judge(&entry).numbers()[0] == 17 {
            assert_eq!(library::walk(&entry, subentry, section), reference::walk(&entry, subentry, section));
            flag_headings(&entry).into_iter().for_each(|first| entry[first + 1] = b'Q');
            renamed += 1;
        }
        for by in BOTH {
            let given = walked(by, &entry, subentry, section);
            assert_eq!(refused(given.as_ref().err()), row[3..7].join(" "), "{row:?}");
            let given = given.unwrap_or_default();
            let none = || "-".to_string();
            let first = if given.is_empty() { none() } else { given[..given.len().min(10)].join(" | ") };
            let last = given.last().cloned().unwrap_or_else(none);
            assert_eq!([given.len().to_string(), first, last], row[7..10], "{row:?}");
            values += given.len();
        }
    }
    let counts = by_number(&rows, 3, &["0", "31", "32", "33"]);
    let (all, values) = (rows.len(), values / 2);
    say(&format!("lookup/walk.tsv: {all} walks with {values} values, {renamed} without flags, by number{counts}"));
}

/// Whole walks, each in a file that is named after the entry, the subentry and the section.
#[test]
fn whole_walks_that_others_took() {
    let Ok(files) = std::fs::read_dir(folder().join("lookup/walks")) else { return };
    let (mut walks, mut values) = (0, 0);
    for file in files {
        let file = file.expect("a file").file_name().into_string().expect("a name");
        let parts: Vec<&str> = file.trim_end_matches(".tsv").rsplitn(3, '_').collect();
        let [section, subentry, name] = parts[..] else { panic!("{file}") };
        let text = String::from_utf8(entry("lookup/walks", &file)).expect("lines");
        let due: Vec<String> = text.lines().map(|line| line.replace('\t', " ")).collect();
        let mut entry = entry("lookup", name);
        if reference::judge(&entry).numbers()[0] == 17 {
            flag_headings(&entry).into_iter().for_each(|first| entry[first + 1] = b'Q');
        }
        for by in BOTH {
            let given = walked(by, &entry, subentry.parse().expect("a number"), section.parse().expect("a number"));
            assert_eq!(given.as_ref(), Ok(&due), "{file}");
        }
        walks += 1;
        values += due.len();
    }
    assert!(walks > 0 && values > 0);
    say(&format!("lookup/walks: {walks} whole walks, {values} values"));
}

/// What is told of a double: `blank`, `double`, `decimal` or the refusal, and the double's bits or `-`.
fn told_double(double: Result<DoubleRead, NoAnswer>) -> [String; 2] {
    let none = "-".to_string();
    match double.map(|read| read.value) {
        Ok(Simple::Blank) => ["blank".into(), none],
        Ok(Simple::Double(double)) => ["double".into(), format!("{:016x}", double.to_bits())],
        Ok(Simple::Outside(_)) => ["decimal".into(), none],
        Err(refused) => [refused.number.to_string(), none],
    }
}

/// A decimal outside is the one that the number reader says.
fn same_outside(double: Result<DoubleRead, NoAnswer>, read: Result<FieldRead, NoAnswer>) {
    if let Ok(DoubleRead { value: Simple::Outside(decimal), .. }) = double {
        assert_eq!(read.map(|read| read.value), Ok(Value::Number(decimal)));
    }
}

/// The calls for a double say what its answer says.
fn same_calls(by: &dyn Implementation, calls: DoubleCalls, answer: Result<DoubleRead, NoAnswer>) {
    let (double, word) = words::double_calls(answer);
    assert_eq!(by.double_calls(calls), (double.to_bits(), word));
}

/// Fields as doubles (M-107): which of the three, the bits, the decimal and the digits.
#[test]
fn fields_that_others_made_doubles() {
    let Some(rows) = table("lookup/doubles.tsv") else { return };
    for row in &rows {
        // No bytes are a dash.
        let field = bytes(row[0].trim_end_matches('-'));
        for by in BOTH {
            let (double, read) = (by.read_double(&field), by.read_number(&field));
            assert_eq!(told_double(double), row[1..3], "{row:?}");
            assert_eq!(told(read)[1..], row[3..7], "{row:?}");
            assert_eq!(double.map_or(0, |read| read.digits).to_string(), row[6], "{row:?}");
            same_outside(double, read);
            same_calls(by, DoubleCalls::Field(&field), double);
            if let Ok(FieldRead { value: Value::Number(decimal), .. }) = read {
                assert_eq!(Ok(by.as_double(decimal)), double.map(|read| read.value), "{row:?}");
            }
        }
    }
    let counts = by_number(&rows, 1, &["blank", "double", "decimal", "15", "40"]);
    say(&format!("lookup/doubles.tsv: {} fields{counts}", rows.len()));
}

/// Questions for doubles: the refusal, which of the three, the bits and the decimal. As with the indexes, the headings FLAG
/// and DECAY-FLAG get another letter where 17 refuses the entry.
#[test]
fn doubles_that_others_answered() {
    let Some(mut rows) = table("lookup/double_ask.tsv") else { return };
    without_transmissions("lookup", &mut rows, |row| row[3..6].to_vec());
    let mut renamed = 0;
    for row in &rows {
        let asked: Vec<u32> = row[1].split(' ').map(|number| number.parse().expect("a number")).collect();
        let place: [u32; 4] = asked.try_into().expect("four numbers");
        let mut entry = entry("lookup", &row[0]);
        if reference::judge(&entry).numbers()[0] == 17 {
            assert_eq!(BOTH[0].double(&entry, place), BOTH[1].double(&entry, place));
            flag_headings(&entry).into_iter().for_each(|first| entry[first + 1] = b'Q');
            renamed += 1;
        }
        for by in BOTH {
            let (double, value) = (by.double(&entry, place), by.value(&entry, place));
            assert_eq!(refused(double.as_ref().err()), row[2..6].join(" "), "{row:?}");
            let blank = DoubleRead { value: Simple::Blank, digits: 0 };
            assert_eq!(told_double(double.or(Ok(blank))), row[6..8], "{row:?}");
            assert_eq!(told(value.or(Ok(FieldRead::BLANK)))[1..4], row[8..11], "{row:?}");
            same_outside(double, value);
            same_calls(by, DoubleCalls::InFull(&entry, place), double);
            // Where the entry is accepted, its index gives the same.
            let mut index = vec![0; 5 * entry.len() / RECORD];
            if let Ok(made) = by.make_index(&entry, &mut index) {
                let by_index = by.index_double(&entry, &index[..5 * made], place);
                assert_eq!(by_index, double, "{row:?}");
                same_calls(by, DoubleCalls::ByIndex(&entry, &index[..5 * made], place), by_index);
            }
        }
    }
    let counts = by_number(&rows, 2, &["0", "31", "32", "33", "34", "35"]);
    let kinds = by_number(&rows, 6, &["blank", "double", "decimal"]);
    say(&format!(
        "lookup/double_ask.tsv: {} questions, {renamed} without flags, by number{counts}, {kinds}",
        rows.len()
    ));
}

#[test]
fn questions_that_others_answered() {
    same_answers("r101", |file| !flagged("r101", file));
    same_answers("r105", |_| true);
}

/// The three numbers of an answer about lines, as a table has them.
fn lines_told<T>(answer: &Result<T, LinesRefusal>) -> [String; 3] {
    answer.as_ref().err().map_or([0; 3], |refusal| refusal.numbers()).map(|number| number.to_string())
}

/// The lines of the request's page: their verdicts, and the copies of the good ones.
#[test]
fn lines_written_by_hand() {
    let Some(rows) = table("codes/cinda.tsv") else { return };
    let mut good = 0;
    for row in &rows {
        let line = bytes(&row[0]);
        for by in BOTH {
            let mut copy = vec![b'#'; LINE];
            let answer = by.cinda_back(&line, &mut copy);
            assert_eq!(
                (lines_told(&answer), lines_told(&by.cinda_check(&line))),
                (row[1..4].to_vec().try_into().unwrap(), lines_told(&answer)),
                "{row:?}"
            );
            let due = if answer.is_ok() { bytes(&row[4]) } else { vec![b'#'; LINE] };
            assert_eq!(copy, due, "{row:?}");
        }
        good += usize::from(row[1] == "0");
    }
    say(&format!("codes/cinda.tsv: {} lines, {good} of them good", rows.len()));
}

/// A file of lines, read once for all rows about it.
fn each_file(rows: &[Vec<String>], each: impl Fn(&[u8], &[String])) {
    for group in rows.chunk_by(|one, next| one[0] == next[0]) {
        let lines = entry("codes/cinda", &group[0][0]);
        group.iter().for_each(|row| each(&lines, row));
    }
}

#[test]
fn lines_that_others_judged() {
    let Some(rows) = table("codes/cinda/judge.tsv") else { return };
    each_file(&rows, |lines, row| {
        BOTH.iter().for_each(|by| assert_eq!(lines_told(&by.cinda_check(lines)), row[1..4], "{row:?}"))
    });
    let counts = by_number(&rows, 1, &["0", "70", "71", "72", "73", "74", "75", "76", "77"]);
    say(&format!("codes/cinda/judge.tsv: {} files, by number{counts}", rows.len()));
}

/// A line as the table has it: its fields as an object, energies as sign, coefficient and power, or none.
fn line_object(lines: &[u8], line: &Line, pieces: &Pieces) -> String {
    let letter = |byte: u8| json::text(&char::from(byte).to_string());
    let number = |number: u32| number.to_string();
    let part = |piece: glockenbeacon::cinda::Piece| json::text(&String::from_utf8_lossy(piece.of(lines)));
    let energy = |read: FieldRead| match read.value {
        Value::Blank => "null".to_string(),
        Value::Number(Decimal { negative, coefficient, power }) => {
            format!("[{},{coefficient},{power}]", u32::from(negative))
        }
    };
    let mass = match line.mass {
        Mass::Number(a) => a.to_string(),
        Mass::Many => "null".into(),
    };
    json::object(&[
        ("operation", letter(line.operation)),
        ("z", number(line.z)),
        ("mass", mass),
        ("isomer", letter(line.isomer)),
        ("reaction", part(pieces.reaction)),
        ("quantity", part(pieces.quantity)),
        ("institute", part(pieces.institute)),
        ("area", letter(line.area)),
        ("block", number(line.block)),
        ("sequence", number(line.sequence)),
        ("work", letter(line.work)),
        ("reader", letter(line.reader)),
        ("least", energy(line.least)),
        ("greatest", energy(line.greatest)),
        ("hierarchy", letter(line.hierarchy)),
        ("kind", letter(line.kind)),
        ("reference", part(pieces.reference)),
        ("year", number(line.year)),
        ("month", number(line.month)),
        ("comment", part(pieces.comment)),
    ])
}

#[test]
fn lines_that_others_took_apart() {
    let Some(rows) = table("codes/cinda/lines.tsv") else { return };
    each_file(&rows, |lines, row| {
        let asked = row[1].parse().expect("a number");
        for by in BOTH {
            let (line, pieces) = (by.cinda_line(lines, asked), by.cinda_pieces(lines, asked));
            assert_eq!(lines_told(&line), row[2..5], "{row:?}");
            assert_eq!(lines_told(&pieces), row[2..5], "{row:?}");
            if let (Ok(line), Ok(pieces)) = (line, pieces) {
                assert_eq!(line_object(lines, &line, &pieces), row[5], "{row:?}");
                assert_eq!((pieces.whole.offset, pieces.whole.length), (LINE * (asked as usize - 1), LINE));
            }
        }
    });
    let counts = by_number(&rows, 2, &["0", "34", "70", "71", "72", "73", "74", "75", "76", "77"]);
    say(&format!("codes/cinda/lines.tsv: {} questions, by number{counts}", rows.len()));
}

/// Copies in buffers of some lengths, all bytes of which have a hash.
#[test]
fn lines_that_others_wrote_back() {
    let Some(rows) = table("codes/cinda/copies.tsv") else { return };
    each_file(&rows, |lines, row| {
        let room: usize = row[1].parse().expect("a number");
        let made = BOTH.map(|by| {
            let mut out = vec![b'#'; room];
            assert_eq!(lines_told(&by.cinda_back(lines, &mut out)), row[2..5], "{row:?}");
            out
        });
        assert!(made[0] == made[1], "{row:?}");
        assert_eq!(sha256(&made[0]), row[5], "{row:?}");
    });
    let counts = by_number(&rows, 2, &["0", "37", "70", "71", "72", "73", "74", "75", "76", "77"]);
    say(&format!("codes/cinda/copies.tsv: {} copies, by number{counts}", rows.len()));
}

/// Energy fields: what each says, and its canonical field; a malformed one is its own row's bytes.
#[test]
fn energies_that_others_read() {
    let Some(rows) = table("codes/cinda/fields.tsv") else { return };
    let made = bytes(&table("codes/cinda.tsv").expect("the lines beside it")[0][0]);
    for row in &rows {
        let field = bytes(&row[0]);
        for (first, by) in [41, 48].into_iter().flat_map(|first| BOTH.map(|by| (first, by))) {
            let mut line = made.clone();
            line[first..first + 7].copy_from_slice(&field);
            let mut copy = vec![b'#'; LINE];
            let (taken, copied) = (by.cinda_line(&line, 1), by.cinda_back(&line, &mut copy));
            if row[1] == "76" {
                assert!(taken.is_err() && copied.is_err(), "{row:?}");
                let due = match field.iter().position(|byte| !reference::record::permitted(*byte)) {
                    Some(column) => [72, 1, first + column + 1],
                    None => [76, 1, first + 1],
                };
                assert_eq!(lines_told(&taken), due.map(|number| number.to_string()), "{row:?}");
                continue;
            }
            let read = taken.map(|line| if first == 41 { line.least } else { line.greatest }).expect("a good line");
            assert_eq!(told(Ok(read))[..4], row[1..5], "{row:?}");
            assert_eq!(copy[first..first + 7], bytes(&row[5]), "{row:?}");
        }
    }
    say(&format!("codes/cinda/fields.tsv: {} fields{}", rows.len(), by_number(&rows, 1, &["blank", "number", "76"])));
}

/// A decimal as the tables of codes have it.
fn number_object(Decimal { negative, coefficient, power }: Decimal) -> String {
    format!("[{},{coefficient},{power}]", u32::from(negative))
}

/// A run taken apart by one of the two, as the tables have it: the flag with its point, texts, numbers, groups.
fn fields_object(by: &dyn Implementation, run: &[u8]) -> String {
    let head = by.decay_head(run).expect("a run is a code");
    let part = |place: glockenbeacon::decay::Place| String::from_utf8_lossy(place.of(run)).into_owned();
    let or_null = |read: Option<NumberRead>| read.map_or("null".into(), |read| number_object(read.value));
    let groups = (1..=head.groups as u32).map(|k| {
        let group = by.decay_group(run, k).expect("a group");
        let types = (1..=group.types as u32).map(|at| by.decay_type(run, k, at).expect("a type"));
        let energies = (1..=group.energies as u32).map(|at| by.decay_energy(run, k, at).expect("an energy"));
        for (count, k) in [(group.types, k), (0, 0), (0, head.groups as u32 + 1)] {
            assert_eq!(by.decay_type(run, k, count as u32 + 1), None);
        }
        assert_eq!((by.decay_type(run, k, 0), by.decay_energy(run, k, 0)), (None, None));
        assert_eq!(by.decay_energy(run, k, group.energies as u32 + 1), None);
        let types = json::array(types.map(|place| json::text(&part(place))));
        let energies = json::array(energies.map(|read| number_object(read.value)));
        format!("[{types},{energies},{}]", or_null(group.abundance))
    });
    let groups = json::array(groups);
    assert_eq!((by.decay_group(run, 0), by.decay_group(run, head.groups as u32 + 1)), (None, None));
    let text = |place: Option<glockenbeacon::decay::Place>| json::text(&place.map_or(String::new(), part));
    json::object(&[
        ("flag", json::text(&head.flag.map_or(String::new(), part))),
        ("z", text(Some(head.z))),
        ("s", text(Some(head.symbol))),
        ("a", text(Some(head.a))),
        ("x", text(head.isomer)),
        ("half", or_null(head.half_life.map(|(number, _)| number))),
        ("unit", text(head.half_life.map(|(_, unit)| unit))),
        ("groups", groups),
    ])
}

/// The same of a code as the library's user takes it apart, group by group.
fn code_object(run: &[u8]) -> String {
    let code = Code::of_run(run).expect("a run is a code");
    let number = |number: glockenbeacon::decay::Number| number_object(number.value);
    let groups = json::array(code.groups().map(|group| {
        let types = json::array(group.types.iter().map(|one| json::text(one)));
        let energies = json::array(group.energies.iter().map(|one| number(*one)));
        format!("[{types},{energies},{}]", group.abundance.map_or("null".into(), number))
    }));
    json::object(&[
        ("flag", json::text(code.flag().unwrap_or_default())),
        ("z", json::text(&code.z().to_string())),
        ("s", json::text(code.symbol())),
        ("a", json::text(&code.a().to_string())),
        ("x", json::text(code.isomer().unwrap_or_default())),
        ("half", code.half_life().map_or("null".into(), |half_life| number(half_life.number))),
        ("unit", json::text(code.half_life().map_or("", |half_life| half_life.unit))),
        ("groups", groups),
    ])
}

/// A text in one record of a passage, from column 12 on, if it fits.
fn one_record(text: &str) -> Option<Vec<u8>> {
    let front = format!("DECAY-DATA {text}");
    (front.len() <= 66).then(|| format!("{front:66}9000100200002 \n").into_bytes())
}

/// A text by one of the two: where it closes, where it is refused, the run and its fields.
fn same_text(by: &dyn Implementation, row: &[String]) {
    let text = row[0].as_bytes();
    let closed: usize = row[1].parse().expect("a number");
    let stop = match row[2].as_str() {
        "-" if closed > 0 => closed,
        "-" => text.len(),
        fault => fault.parse().expect("a number"),
    };
    // The bytes are a code where it closes behind the last; else the first character behind is one too many.
    let whole = closed > 0 && closed == text.len();
    match by.decay_head(text) {
        Ok(_) => assert!(whole, "{row:?}"),
        Err(no) => assert_eq!((no.at, whole), (stop, false), "{row:?}"),
    }
    let mut out = vec![b'#'; 200];
    if let Some(passage) = one_record(&row[0]) {
        let answer = by.decay_in(&passage, 1, &mut out);
        if closed > 0 {
            assert_eq!(answer, Ok(row[3].len()), "{row:?}");
            assert_eq!(&out[..row[3].len()], row[3].as_bytes(), "{row:?}");
        } else if text.first() == Some(&b'(') {
            let filled = row[0].trim_end().len();
            let refusal = answer.expect_err("no code");
            let due = if stop < filled { (50, 1, stop as u32 + 12) } else { (51, 1, filled as u32 + 11) };
            let due = if stop >= filled && row[0].trim_end().ends_with(',') { (50, 2, 0) } else { due };
            assert_eq!((refusal.number, refusal.record, refusal.column), due, "{row:?}");
        } else {
            assert_eq!(answer.expect_err("no code").number, 36, "{row:?}");
        }
    }
    if closed > 0 {
        assert_eq!(fields_object(by, &text[..closed]), row[4], "{row:?}");
        assert_eq!(fields_object(by, row[3].as_bytes()), row[4], "{row:?}");
        assert_eq!(code_object(&text[..closed]), row[4], "{row:?}");
    }
}

#[test]
fn codes_written_by_hand() {
    for name in ["codes/codes.tsv", "codes/decay/codes.tsv"] {
        let Some(rows) = table(name) else { continue };
        for row in &rows {
            BOTH.iter().for_each(|by| same_text(*by, row));
        }
        let good = rows.iter().filter(|row| row[1] != "0").count();
        say(&format!("{name}: {} texts, {good} of them closed", rows.len()));
    }
}

/// Refusal, the entry's own, record and column, as the table has them.
fn code_told(answer: &Result<usize, CodeRefusal>) -> [String; 4] {
    let numbers = answer.as_ref().err().map_or([0; 4], |refusal| match refusal.entry {
        Some(entry) => [refusal.number, entry.number, entry.record, entry.column],
        None => [refusal.number, 0, refusal.record, refusal.column],
    });
    numbers.map(|number| number.to_string())
}

/// Codes of entries: the refusal, the run, its fields; the same from the passage in hand, by the full question and by an index.
#[test]
fn codes_that_others_answered() {
    let Some(rows) = table("codes/decay/decay.tsv") else { return };
    for group in rows.chunk_by(|one, next| one[0] == next[0]) {
        let entry = entry("codes/decay", &group[0][0]);
        for row in group {
            let [subentry, code, room] = [1, 3, 4].map(|at| row[at].parse::<u32>().expect("a number"));
            let pointer = u8::from_str_radix(&row[2], 16).expect("a byte in hex");
            let room = room as usize;
            for by in BOTH {
                let mut out = vec![b'#'; room];
                let answer = by.decay(&entry, (subentry, pointer, code), &mut out);
                assert_eq!(code_told(&answer), row[5..9], "{row:?}");
                let length: usize = row[9].parse().expect("a number");
                assert_eq!(answer.unwrap_or(0), length, "{row:?}");
                assert_eq!(&out[..length], row[10].as_bytes(), "{row:?}");
                assert!(out[length..].iter().all(|&byte| byte == b'#'), "{row:?}");
                if answer.is_ok() {
                    assert_eq!(fields_object(by, &out[..length]), row[11], "{row:?}");
                    assert_eq!(code_object(&out[..length]), row[11], "{row:?}");
                }
                in_hand(by, &entry, (subentry, pointer, code), (answer, &out), row);
            }
        }
    }
    let counts = by_number(&rows, 5, &["0", "31", "32", "33", "36", "50", "51", "52"]);
    say(&format!("codes/decay/decay.tsv: {} questions, by number{counts}", rows.len()));
}

/// The passage in hand gives the same, its records counted from its own first.
fn in_hand(
    by: &dyn Implementation,
    entry: &[u8],
    (subentry, pointer, code): (u32, u8, u32),
    (answer, stored): (Result<usize, CodeRefusal>, &[u8]),
    row: &[String],
) {
    let passage = by.passage(entry, subentry, b"DECAY-DATA", pointer);
    let Ok(part) = passage else {
        assert_eq!(answer, Err(passage.expect_err("refused").into()), "{row:?}");
        return;
    };
    let mut out = vec![b'#'; stored.len()];
    let own = by.decay_in(part.of(entry), code, &mut out).map_err(|refusal| match refusal.record {
        0 => refusal,
        record => CodeRefusal { record: record + (part.offset / RECORD) as u32, ..refusal },
    });
    assert_eq!((own, &out[..]), (answer, stored), "{row:?}");
}

/// The two entries of a pair.
fn pair(name: &str) -> (Vec<u8>, Vec<u8>) {
    let read = |kind: &str| {
        let path = folder().join("files").join(format!("{name}.{kind}"));
        std::fs::read(&path).unwrap_or_else(|error| panic!("{}: {error}", path.display()))
    };
    (read("held"), read("revision"))
}

/// Number, entry, refusal, record and column of an answer about two entries, as a table has them.
fn revision_told<T>(answer: &Result<T, RevisionRefusal>) -> [String; 5] {
    let told = answer.as_ref().err().map_or([0; 5], |refused| {
        let [refusal, record, column] = refused.refusal.map_or([0; 3], |own| [own.number, own.record, own.column]);
        [refused.number, refused.which.map_or(0, |which| which as u32 + 1), refusal, record, column]
    });
    told.map(|number| number.to_string())
}

/// Merges in buffers of some lengths: the answer, the merge's bytes by their hash, and every byte behind them.
#[test]
fn entries_that_others_merged() {
    let Some(rows) = table("files/merges.tsv") else { return };
    for row in &rows {
        let (held, revision) = pair(&row[0]);
        let room: usize = row[1].parse().expect("a number");
        for by in BOTH {
            let mut out = vec![b'#'; room];
            let answer = by.merge(&held, &revision, &mut out);
            assert_eq!(revision_told(&answer), row[2..7], "{row:?}");
            let length = answer.unwrap_or_else(|refused| refused.length);
            assert_eq!(length.to_string(), row[7], "{row:?}");
            assert!(out[length..].iter().all(|&byte| byte == b'#'), "{row:?}");
            match row[8].as_str() {
                "-" => assert_eq!(length, 0, "{row:?}"),
                hash => assert_eq!(sha256(&out[..length]), hash, "{row:?}"),
            }
        }
    }
    let counts = by_number(&rows, 2, &["0", "37", "60", "61", "63"]);
    say(&format!("files/merges.tsv: {} merges, by number{counts}", rows.len()));
}

/// Subentries: which of the two holds each, and where.
#[test]
fn subentries_that_others_picked() {
    let Some(rows) = table("files/picked.tsv") else { return };
    for row in &rows {
        let (held, revision) = pair(&row[0]);
        let number = row[1].parse().expect("a number");
        for by in BOTH {
            let answer = by.subentry(&held, &revision, number);
            assert_eq!(revision_told(&answer), row[2..7], "{row:?}");
            let place = answer.map_or([0; 3], words::chosen_stored).map(|number| number.to_string());
            assert_eq!(place, row[7..10], "{row:?}");
        }
    }
    let counts = by_number(&rows, 2, &["0", "32", "60", "61", "62"]);
    say(&format!("files/picked.tsv: {} subentries, by number{counts}", rows.len()));
}

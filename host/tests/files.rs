//! Transmissions (M-100): the readings of its words, one by one, and the limits; the library and the reference.

mod common;

use common::{changed, copied, end_trans, put, record, sample, trans, transmission, BOTH};
use glockenbeacon::explain::{explain_file, shown};
use glockenbeacon::generate::{damaged_file, large, with_below, Random, Shape, BELOW, BLANK, FILE_CAUSES};
use glockenbeacon::transmission::{accession, is_transmission};
use glockenbeacon::{library, NoAnswer, Refusal, Verdict, RECORD};

/// Both give these seven numbers and this ordinal.
#[track_caller]
fn judged(file: &[u8], numbers: [u32; 7], ordinal: u32) {
    for by in BOTH {
        let verdict = by.judge_file(file);
        assert_eq!((verdict.numbers(), verdict.ordinal()), (numbers, ordinal));
    }
}

/// Both refuse it: number, record, column, and the entry's ordinal.
#[track_caller]
fn refused(file: &[u8], number: u32, at: u32, column: u32, ordinal: u32) {
    judged(file, [number, at, column, 0, 0, 0, 0], ordinal);
}

#[track_caller]
fn accepted(file: &[u8], totals: [u32; 4]) {
    let [subentries, keywords, lines, numbers] = totals;
    judged(file, [0, 0, 0, subentries, keywords, lines, numbers], 0);
}

/// The sample without one of its records, from 1.
fn without(at: usize) -> Vec<u8> {
    let sample = sample();
    [&sample[..(at - 1) * RECORD], &sample[at * RECORD..]].concat()
}

/// The sample once or twice between TRANS and ENDTRANS, with changes: record, column, text.
fn once(changes: &[(usize, usize, &str)]) -> Vec<u8> {
    with(transmission(&[&sample()]), changes)
}

fn twice(changes: &[(usize, usize, &str)]) -> Vec<u8> {
    with(transmission(&[&sample(), &sample()]), changes)
}

fn with(mut file: Vec<u8>, changes: &[(usize, usize, &str)]) -> Vec<u8> {
    for (at, column, text) in changes {
        put(&mut file, *at, *column, text);
    }
    file
}

#[test]
fn one_entry_or_more() {
    accepted(&once(&[]), [2, 3, 2, 6]);
    accepted(&twice(&[]), [4, 6, 4, 12]);
    for count in [0, 1] {
        refused(&[trans(), end_trans(count)].concat(), 4, 2, 1, 0);
    }
    // Nothing is said of accessions and dates of several entries, nor of their order.
    let other = common::entry(&common::SAMPLE.replace("90001", "80001").replace("20240105", "19700101"));
    for entries in [[&sample()[..], &other], [&other, &sample()]] {
        accepted(&transmission(&entries), [4, 6, 4, 12]);
    }
}

/// "16 also for a missing ENDTRANS"
#[test]
fn records_that_end_early() {
    refused(&trans(), 16, 2, 0, 0);
    refused(&[trans(), sample()].concat(), 16, 28, 0, 0);
    refused(&[trans(), without(26)].concat(), 16, 27, 0, 0);
    refused(&[trans(), sample(), sample()].concat(), 16, 54, 0, 0);
    let whole = once(&[]);
    for records in 1..28 {
        refused(&whole[..records * RECORD], 16, records as u32 + 1, 0, 0);
    }
}

#[test]
fn records_that_are_not_due() {
    // Without its ENDENTRY an entry goes on, and has what stands there.
    refused(&transmission(&[&without(26)]), 4, 27, 1, 1);
    refused(&transmission(&[&without(26), &sample()]), 4, 27, 1, 1);
    refused(&transmission(&[&sample(), &without(26), &sample()]), 4, 53, 1, 2);
    refused(&[trans(), without(26), trans()].concat(), 4, 27, 1, 1);
    // Without ENTRY none begins.
    refused(&transmission(&[&without(1)]), 4, 2, 1, 0);
    refused(&transmission(&[&sample(), &without(1)]), 4, 28, 1, 0);
    refused(&[trans(), sample(), trans(), sample(), end_trans(2)].concat(), 4, 28, 1, 0);
    refused(&[trans(), trans(), sample(), end_trans(1)].concat(), 4, 2, 1, 0);
    refused(&transmission(&[&sample(), &sample()[25 * RECORD..]]), 4, 28, 1, 0);
    refused(&transmission(&[&sample(), &BLANK]), 4, 28, 1, 0);
    refused(&[trans(), sample(), BLANK.to_vec(), sample(), end_trans(2)].concat(), 4, 28, 1, 0);
    // TRANS is the first record, and nothing else is.
    refused(&[sample(), end_trans(1)].concat(), 4, 1, 1, 0);
    refused(&sample(), 4, 1, 1, 0);
    refused(&end_trans(0), 4, 1, 1, 0);
    for name in ["TRANZ", " TRANS", "TRANS     1", "trans"] {
        refused(&once(&[(1, 1, &format!("{name:11}"))]), 4, 1, 1, 0);
    }
    // "anything after ENDTRANS"
    refused(&[once(&[]), BLANK.to_vec()].concat(), 4, 29, 1, 0);
    refused(&[once(&[]), end_trans(1)].concat(), 4, 29, 1, 0);
    refused(&[once(&[]), once(&[])].concat(), 4, 29, 1, 0);
    refused(&[once(&[]), sample()].concat(), 4, 29, 1, 0);
    refused(&with([once(&[]), BLANK.to_vec()].concat(), &[(29, 5, "#")]), 3, 29, 5, 0);
    refused(&with([once(&[]), BLANK.to_vec()].concat(), &[(29, 5, "#"), (29, 81, "X")]), 2, 29, 81, 0);
    refused(&with([once(&[]), sample()].concat(), &[(29, 40, "#")]), 3, 29, 40, 0);
}

/// A refusal inside an entry has its ordinal, and the record of the whole transmission.
#[test]
fn refusals_inside_entries() {
    refused(&twice(&[(28, 26, "X")]), 7, 28, 23, 2);
    refused(&twice(&[(28, 67, "8")]), 5, 28, 67, 2);
    refused(&twice(&[(27, 22, "3")]), 8, 27, 12, 1);
    refused(&twice(&[(27, 81, "X")]), 2, 27, 81, 1);
    refused(&twice(&[(49, 12, "       1.5E")]), 15, 49, 12, 2);
    refused(&twice(&[(23, 12, "       1.5E")]), 15, 23, 12, 1);
    // Before an entry has begun it is told by its first eleven columns whether this is ENTRY.
    refused(&twice(&[(28, 40, "#")]), 3, 28, 40, 2);
    refused(&twice(&[(28, 81, "X")]), 2, 28, 81, 2);
    refused(&twice(&[(28, 1, "#")]), 3, 28, 1, 0);
    refused(&twice(&[(28, 1, "X")]), 4, 28, 1, 0);
    refused(&twice(&[(28, 1, "X"), (28, 81, "X")]), 2, 28, 81, 0);
    refused(&twice(&[(2, 40, "#")]), 3, 2, 40, 1);
    refused(&twice(&[(2, 11, "1")]), 4, 2, 1, 0);
    refused(&twice(&[(54, 40, "#")]), 3, 54, 40, 0);
}

#[test]
fn the_records_trans_and_endtrans() {
    for (column, text, due) in [
        (18, "X", Some(12)),
        (12, "1", Some(12)),
        (19, "a", Some(12)),
        (22, " ", Some(12)),
        (19, "0000", None),
        (19, "ZZZZ", None),
        (19, "9A9A", None),
        (30, "13", Some(23)),
        (32, "32", Some(23)),
        (32, "00", Some(23)),
        (25, "1", Some(23)),
        (32, "31", None),
        (34, "ANYTHING, UP TO COLUMN 66", None),
        (67, "SOMEWHERE ELS", None),
        (80, "X", None),
    ] {
        match due {
            Some(due) => refused(&once(&[(1, column, text)]), 7, 1, due, 0),
            None => accepted(&once(&[(1, column, text)]), [2, 3, 2, 6]),
        }
    }
    refused(&once(&[(1, 12, "1"), (1, 23, "1")]), 7, 1, 12, 0);
    refused(&once(&[(1, 12, "1"), (1, 70, "#")]), 3, 1, 70, 0);
    for (text, due) in [
        ("           ", Some(7)),
        ("         1.", Some(7)),
        ("1          ", Some(7)),
        ("          2", Some(8)),
        ("          0", Some(8)),
        ("99999999999", Some(8)),
        ("00000000001", None),
        ("         01", None),
    ] {
        match due {
            Some(due) => refused(&once(&[(28, 12, text)]), due, 28, 12, 0),
            None => accepted(&once(&[(28, 12, text)]), [2, 3, 2, 6]),
        }
    }
    accepted(&once(&[(28, 23, "NO DATE"), (28, 67, "9000199999999"), (28, 80, "X")]), [2, 3, 2, 6]);
    refused(&once(&[(28, 12, "          2"), (28, 67, "#")]), 3, 28, 67, 0);
    refused(&once(&[(28, 1, "ENDTRANZ")]), 4, 28, 1, 0);
}

/// "both now system identifiers everywhere": in single entries, too.
#[test]
fn two_more_identifiers() {
    let entry = |entry: Vec<u8>, due: [u32; 3]| {
        for by in BOTH {
            assert_eq!(by.judge(&entry).numbers()[..3], due);
        }
    };
    for name in ["TRANS", "ENDTRANS"] {
        // In BIB both are refused, unless a pointer stands in column 11.
        entry(changed(5, 1, &format!("{name:11}")), [4, 5, 1]);
        entry(changed(5, 1, &format!("{name:10}1")), [0, 0, 0]);
        // Where another record is due, too.
        for at in [1, 2, 3, 6, 26] {
            entry(changed(at, 1, &format!("{name:11}")), [4, at as u32, 1]);
        }
    }
    for at in [20, 21, 22] {
        entry(changed(at, 1, "ENDTRANS   "), [4, at as u32, 1]);
    }
    entry(changed(20, 1, "ENDTRANS  1"), [0, 0, 0]);
    entry(changed(20, 1, "TRANS      "), [0, 0, 0]);
    entry(changed(21, 1, "TRANS      "), [0, 0, 0]);
    entry(changed(22, 1, "TRANS      "), [15, 22, 1]);
    entry(changed(20, 12, "ENDTRANS  1"), [0, 0, 0]);
    entry(transmission(&[&sample()]), [4, 1, 1]);
}

/// "1 with the new length"
#[test]
fn lengths_that_are_refused() {
    refused(b"", 1, 0, 0, 0);
    for length in [1, 80, 82, 28 * RECORD - 1, 28 * RECORD + 1] {
        let mut file = once(&[]);
        file.resize(length, b'\n');
        refused(&file, 1, 0, 0, 0);
    }
}

/// An entry of exactly so many records.
fn entry_of(records: usize) -> Vec<u8> {
    let entry = large(&mut Random::seeded(1), Shape::Text, records);
    assert_eq!(entry.len(), records * RECORD);
    entry
}

/// "A file may have 200,000 records, an entry still 20,000."
#[test]
fn two_hundred_thousand_records() {
    let full = entry_of(20_000);
    let last = entry_of(19_998);
    let body = [full.repeat(9), last].concat();
    let file = [trans(), body.clone(), end_trans(10)].concat();
    assert_eq!(file.len(), 200_000 * RECORD);
    let keywords = 9 * 40 + 40;
    accepted(&file, [10, keywords, 0, 0]);
    refused(&[file.clone(), BLANK.to_vec()].concat(), 1, 0, 0, 0);
    refused(&[trans(), body, record("")].concat(), 4, 200_000, 1, 0);
    refused(&file[..199_999 * RECORD], 16, 200_000, 0, 0);
    let mut wrong = file.clone();
    put(&mut wrong, 199_999, 22, "2");
    refused(&wrong, 8, 199_999, 12, 10);
    assert_eq!(library::entries(&file).count(), 10);
    for by in BOTH {
        let copy = copied(by, &file);
        assert!(copy == file, "text is copied as it is");
    }
}

/// "4 .. for an entry's 20,001st record"
#[test]
fn an_entry_of_twenty_thousand_records() {
    let (full, more) = (entry_of(20_000), entry_of(20_001));
    accepted(&transmission(&[&full]), [1, 40, 0, 0]);
    accepted(&transmission(&[&sample(), &full, &sample()]), [5, 46, 4, 12]);
    refused(&transmission(&[&more]), 4, 20_002, 1, 1);
    refused(&with(transmission(&[&more]), &[(20_002, 81, "X")]), 2, 20_002, 81, 1);
    refused(&with(transmission(&[&more]), &[(20_002, 7, "#")]), 3, 20_002, 7, 1);
    refused(&with(transmission(&[&more]), &[(20_001, 81, "X")]), 2, 20_001, 81, 1);
    refused(&transmission(&[&sample(), &more, &sample()]), 4, 20_028, 1, 2);
    // Cut behind its 20,000th record the file ends early, and what stands in the place of the next is not due.
    let cut = [trans(), more[..20_000 * RECORD].to_vec()].concat();
    refused(&cut, 16, 20_002, 0, 0);
    refused(&[cut.clone(), end_trans(1)].concat(), 4, 20_002, 1, 1);
    refused(&[cut.clone(), BLANK.to_vec()].concat(), 4, 20_002, 1, 1);
    refused(&[cut, sample()].concat(), 4, 20_002, 1, 1);
    // The part that begins there has no end within its 20,000 records.
    for by in BOTH {
        assert_eq!(by.entry_length(&transmission(&[&full]), RECORD), 20_000 * RECORD);
        assert_eq!(by.entry_length(&transmission(&[&more]), RECORD), 0);
    }
}

#[test]
fn entries_are_parts_of_the_file() {
    let file = twice(&[]);
    let parts: Vec<(usize, &[u8])> = library::entries(&file).collect();
    assert_eq!(parts, [(81, &file[81..27 * 81]), (27 * 81, &file[27 * 81..53 * 81])]);
    assert!(parts.iter().all(|(first, entry)| std::ptr::eq(&file[*first], &entry[0])), "nothing is copied");
    assert_eq!(accession(parts[1].1), Some("90001"));
    assert!(is_transmission(&file) && !is_transmission(&sample()) && !is_transmission(b"TRANS"));
    for by in BOTH {
        for at in 0..file.len() + 200 {
            let due = if at == 81 || at == 27 * 81 { 26 * 81 } else { 0 };
            assert_eq!(by.entry_length(&file, at), due, "byte {at}");
        }
        assert_eq!(by.entry_length(&file, usize::MAX), 0);
        assert_eq!(by.entry_length(b"", 0), 0);
        // No rule is made: an entry begins at any byte, and goes up to the first ENDENTRY, whatever stands between.
        let odd =
            [b"###".to_vec(), record("ENTRY"), record("#"), record("ENTRY"), record("ENDENTRY"), sample()].concat();
        let due = [0, 0, 0, 4 * 81, 0];
        assert_eq!([0, 1, 2, 3, 4].map(|at| by.entry_length(&odd, at)), due);
        assert_eq!([3 + 81, 3 + 2 * 81, 3 + 4 * 81].map(|at| by.entry_length(&odd, at)), [0, 2 * 81, 26 * 81]);
        // A record that is not whole ends none, and a name is told by all eleven columns.
        assert_eq!(by.entry_length(&odd[..3 + 4 * 81 - 1], 3), 0);
        assert_eq!(by.entry_length(&[record("ENTRY     1"), record("ENDENTRY")].concat(), 0), 0);
        assert_eq!(by.entry_length(&[record("ENTRY"), record("ENDENTRY  1"), record("ENDENTRY")].concat(), 0), 3 * 81);
        assert_eq!(by.entry_length(b"ENTRY      ", 0), 0);
    }
}

/// Questions go to an entry by its part of the file, and an empty part is refused by 1.
#[test]
fn entries_of_a_file_are_asked() {
    let file = transmission(&[&sample(), &changed(22, 12, "       2.45")]);
    let (_, second) = library::entries(&file).nth(1).expect("two entries");
    for by in BOTH {
        let read = by.value(second, [2, 2, 1, 2]).expect("a value");
        assert_eq!(read.digits, 3);
        let none = by.value(&file[..0], [2, 2, 1, 2]);
        assert_eq!(none, Err(NoAnswer { number: 31, entry: Some(Refusal::new(1, 0, 0)) }));
    }
}

/// "The canonical copy of a file is the copies in place."
#[test]
fn copies_in_place() {
    let file = with(twice(&[]), &[(1, 34, "1.500"), (54, 34, "0.140"), (54, 12, "00000000002")]);
    let mut copy_of_sample = sample();
    for by in BOTH {
        by.canonical_copy(&sample(), &mut copy_of_sample).expect("the sample is copied");
        let due = [&file[..81], &copy_of_sample, &copy_of_sample, &file[53 * 81..]].concat();
        assert!(copied(by, &file) == due && due != file);
        let mut longer = vec![b'#'; file.len() + 7];
        assert_eq!(by.copy_file(&file, &mut longer), Ok(()));
        assert!(longer == [&due[..], b"#######"].concat(), "bytes past the file stay");
        assert!(copied(by, &due) == due && by.judge_file(&due) == by.judge_file(&file));
        let mut short = vec![b'#'; file.len() - 1];
        assert_eq!(by.copy_file(&file, &mut short).map_err(|refused| (refused.number, refused.entry)), Err((37, None)));
        let bad = twice(&[(28, 26, "X")]);
        let due = Refusal { number: 7, record: 28, column: 23, ordinal: 2 };
        // 31 comes before 37.
        for room in [bad.len(), 3] {
            let mut out = vec![b'#'; room];
            assert_eq!(by.copy_file(&bad, &mut out), Err(NoAnswer { number: 31, entry: Some(due) }));
            assert!(out.iter().all(|&byte| byte == b'#'), "a refused call stores nothing");
        }
        assert!(short.iter().all(|&byte| byte == b'#'), "a refused call stores nothing");
    }
}

/// A refusal says which entry, where it is in one.
#[test]
fn refusals_in_words() {
    let Verdict::Refused(inside) = library::judge_file(&twice(&[(28, 26, "X")])) else { panic!("it is refused") };
    assert_eq!(inside.to_string(), "refusal 7, entry 2, record 28, column 23: the system field is not in its form");
    let Verdict::Refused(outside) = library::judge_file(&twice(&[(1, 26, "X")])) else { panic!("it is refused") };
    assert_eq!(outside.to_string(), "refusal 7, record 1, column 23: the system field is not in its form");
}

/// Every cut of a refused transmission above its refusal is refused by its end, or is accepted right before it.
#[test]
fn cuts_above_a_refusal() {
    for (file, at) in [
        (twice(&[(49, 12, "       1.5E")]), 49),
        (transmission(&[&sample(), &without(26)]), 53),
        ([twice(&[]), BLANK.to_vec()].concat(), 55),
        (twice(&[(54, 22, "3")]), 54),
    ] {
        for records in 1..at {
            let above = &file[..records * RECORD];
            match library::judge_file(above) {
                Verdict::Refused(refusal) => assert_eq!(refusal, Refusal::new(16, records as u32 + 1, 0)),
                Verdict::Accepted(_) => assert_eq!((records, at), (54, 55)),
            }
        }
    }
}

/// The transmission in `data` is the sample, and the sample with flags under another accession.
#[test]
fn the_transmission_that_is_kept() {
    let second = common::entry(&common::FLAGS.replace("90001", "90002"));
    let kept = include_bytes!("../data/transmission.x4");
    assert!(transmission(&[&sample(), &second]) == kept);
    let (one, other) = (library::judge(&sample()).numbers(), library::judge(&second).numbers());
    judged(kept, std::array::from_fn(|number| one[number] + other[number]), 0);
}

/// What M-111 says of entries holds of transmissions: nothing below a refused record changes its refusal. Nor does it
/// change the words that explain it, which are never empty.
#[test]
fn a_refusal_depends_on_nothing_below() {
    let mut random = Random::seeded(20_240_100);
    for cause in (0..4).flat_map(|_| 0..FILE_CAUSES.len()) {
        let (parts, Some(due)) = damaged_file(&mut random, cause) else { continue };
        let file = parts.bytes();
        let words = |file: &[u8]| (explain_file(file, &due, library::explain_file(file).reason), shown(file, &due));
        let whole = words(&file);
        assert!(!whole.0.expected.is_empty() && !whole.0.found.is_empty(), "{due}");
        assert!(!whole.0.expected.starts_with("not this: "), "{due}");
        if !due.at_record() {
            continue;
        }
        for below in BELOW {
            let input = with_below(&mut random, &file, due.record as usize, below);
            for by in BOTH {
                assert_eq!(by.judge_file(&input), Verdict::Refused(due), "{below:?} below {}", FILE_CAUSES[cause].0);
            }
            assert_eq!(words(&input), whole, "{below:?} below {due}");
        }
    }
}

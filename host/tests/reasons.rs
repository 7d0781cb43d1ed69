//! Why an entry or a transmission is refused (M-108): the readings on the sample, and what holds of every reason.

mod common;

use common::{changed, end_trans, put, replaced, sample, transmission, BOTH};
use glockenbeacon::differ::Implementation;
use glockenbeacon::generate::{self, damaged, damaged_file, Kind, Random, Sheet, CAUSES, FILE_CAUSES};
use glockenbeacon::{Explained, Reason, Refusal, Verdict, RECORD};
use std::collections::BTreeMap;

const SEED: u64 = 20_240_108;

/// Both give this refusal, with this line below it or none.
#[track_caller]
fn explained(input: &[u8], [number, record, column]: [u32; 3], line: &str) {
    for by in BOTH {
        let said = by.explain(input);
        assert_eq!(said.verdict, Verdict::Refused(Refusal::new(number, record, column)));
        assert_eq!(said.line().unwrap_or_default(), line, "{:?}", said.reason);
    }
}

/// The same of a transmission, with the ordinal.
#[track_caller]
fn explained_file(file: &[u8], [number, record, column, ordinal]: [u32; 4], line: &str) {
    for by in BOTH {
        let said = by.explain_file(file);
        assert_eq!(said.verdict, Verdict::Refused(Refusal { number, record, column, ordinal }));
        assert_eq!(said.line().unwrap_or_default(), line, "{:?}", said.reason);
    }
}

/// The sample with several changes: record, column, text.
fn altered(changes: &[(usize, usize, &str)]) -> Vec<u8> {
    let mut entry = sample();
    changes.iter().for_each(|(record, column, text)| put(&mut entry, *record, *column, text));
    entry
}

#[test]
fn counts_that_are_untrue() {
    explained(&changed(6, 22, "1"), [8, 6, 12], "1 2");
    explained(&changed(11, 22, "4"), [8, 11, 12], "4 3");
    explained(&changed(12, 22, "8"), [8, 12, 12], "8 9");
    explained(&changed(24, 12, "99999999999"), [8, 24, 12], "99999999999 4");
    explained(&changed(26, 22, "3"), [8, 26, 12], "3 2");
    // COMMON has exactly 3k records
    explained(&changed(7, 33, "4"), [8, 7, 23], "4 3");
    explained(&altered(&[(7, 12, "         18"), (7, 33, "8")]), [8, 7, 23], "8 9");
}

/// "on ENDBIB its own before the keywords"
#[test]
fn counts_on_end_bib() {
    explained(&changed(14, 22, "2"), [8, 17, 12], "2 1");
    explained(&altered(&[(14, 22, "2"), (17, 22, "7")]), [8, 17, 12], "7 2");
    explained(&changed(17, 22, "1"), [8, 17, 12], "1 2");
}

/// "least and greatest, 0 for no greatest"
#[test]
fn counts_out_of_range() {
    explained(&changed(3, 22, "0"), [8, 3, 12], "1 0");
    explained(&changed(3, 33, "1"), [8, 3, 23], "2 0");
    explained(&changed(3, 12, "99999999999"), [8, 3, 23], "99999999999 0");
    explained(&changed(7, 21, "19"), [8, 7, 12], "1 18");
    explained(&changed(19, 21, "19"), [8, 19, 12], "1 18");
    explained(&changed(19, 22, "0"), [8, 19, 12], "1 18");
    explained(&changed(19, 33, "0"), [8, 19, 23], "1 20000");
    explained(&changed(19, 29, "20001"), [8, 19, 23], "1 20000");
}

/// "the previous subentry number (000 if none)", whatever is wrong with this one
#[test]
fn subentry_numbers() {
    let numbered = |record, digits| altered(&[(record, 20, digits), (record, 72, digits)]);
    explained(&numbered(2, "002"), [9, 2, 12], "000");
    explained(&altered(&[(2, 19, "2"), (2, 71, "2")]), [9, 2, 12], "000");
    for digits in ["001", "000", "999"] {
        explained(&numbered(13, digits), [9, 13, 12], "001");
    }
    explained(&altered(&[(13, 19, "2"), (13, 71, "2")]), [9, 13, 12], "001");
    // NOSUBENT 003 behind 002, and another 002
    let third = |digits: &str| {
        replaced("ENDENTRY             2", &format!("NOSUBENT      90001{digits}   20240105\nENDENTRY             3"))
    };
    assert!(matches!(BOTH[0].judge(&third("003")), Verdict::Accepted(_)));
    explained(&third("002"), [9, 26, 12], "002");
}

#[test]
fn equal_headings() {
    explained(&changed(20, 1, "EN "), [13, 20, 1], "8 1");
    explained(&changed(20, 33, "1"), [13, 20, 23], "20 12");
    // Three side by side may be equal; of a fourth that stands apart the first is named, not the nearest.
    let table = "DATA                 5          1\nEN-RES     EN-RES     EN-RES     DATA      1EN-RES\n\
                 MEV        MEV        MEV        MB/SR      MEV\n1.         2.         3.         4.         5.\n\
                 ENDDATA              3\nENDSUBENT           10\n";
    let (start, end) =
        (common::SAMPLE.find("DATA                 3").unwrap(), common::SAMPLE.find("ENDENTRY").unwrap());
    explained(&replaced(&common::SAMPLE[start..end], table), [13, 20, 45], "20 1");
    // On the second record of headings: column 12 of 18 is the sixth field there, column 7 the first.
    let mut wide = common::wide(18);
    put(&mut wide, 22, 12, "H12");
    explained(&wide, [13, 22, 12], "21 56");
    put(&mut wide, 22, 12, "H7 ");
    explained(&wide, [13, 22, 12], "21 1");
}

#[test]
fn pointers_that_are_not_found() {
    explained(&changed(20, 33, "3"), [14, 20, 23], "3");
    explained(&changed(20, 22, "Z"), [14, 20, 12], "Z");
}

#[test]
fn expected_characters() {
    explained(&changed(1, 67, "8"), [5, 1, 67], "90001000");
    // On ENTRY and SUBENT they are those of the record's own N1, as they are.
    explained(&changed(1, 18, " "), [5, 1, 67], " 0001000");
    explained(&changed(13, 15, "a(  .001"), [5, 13, 67], "a(  .001");
    explained(&changed(13, 22, " "), [5, 13, 67], "9000100 ");
    explained(&changed(20, 72, "001"), [5, 20, 67], "90001002");
    explained(&changed(26, 72, "002"), [5, 26, 67], "90001999");
    explained(&changed(20, 79, "9"), [6, 20, 75], "00008");
    explained(&changed(1, 75, "     "), [6, 1, 75], "00001");
    explained(&changed(25, 75, "00013"), [6, 25, 75], "99999");
}

/// "for the other refusals the verdict alone"
#[test]
fn other_refusals_have_no_reason() {
    explained(&[], [1, 0, 0], "");
    explained(&changed(3, 81, "\r"), [2, 3, 81], "");
    explained(&changed(3, 40, "#"), [3, 3, 40], "");
    explained(&changed(2, 1, "BIB    "), [4, 2, 1], "");
    explained(&changed(3, 22, "x"), [7, 3, 12], "");
    explained(&changed(5, 1, "TITLE "), [10, 5, 1], "");
    explained(&changed(16, 11, "1"), [11, 16, 11], "");
    explained(&changed(20, 1, " ANG"), [12, 20, 1], "");
    explained(&changed(22, 12, "       1.5E"), [15, 22, 12], "");
    explained(&sample()[..25 * RECORD], [16, 26, 0], "");
    explained(&common::flags(&[(25, 34, "4.")]), [17, 25, 34], "");
    for by in BOTH {
        let none = Explained { verdict: by.judge(&sample()), reason: Reason::Alone };
        assert_eq!((by.explain(&sample()), none.line()), (none, None));
    }
}

/// In a transmission records count from TRANS, in the verdict and for 13.
#[test]
fn transmissions() {
    let two = |entry: &[u8]| transmission(&[&sample(), entry]);
    explained_file(&two(&changed(20, 1, "EN ")), [13, 47, 1, 2], "35 1");
    explained_file(&two(&changed(6, 22, "1")), [8, 33, 12, 2], "1 2");
    explained_file(&two(&changed(1, 67, "8")), [5, 28, 67, 2], "90001000");
    explained_file(&two(&altered(&[(2, 22, "2"), (2, 74, "2")])), [9, 29, 12, 2], "000");
    let one = [common::trans(), sample()].concat();
    explained_file(&[&one[..], &end_trans(3)].concat(), [8, 28, 12, 0], "3 1");
    explained_file(&[&one[..], &end_trans(0)].concat(), [8, 28, 12, 0], "0 1");
    explained_file(&[common::trans(), end_trans(0)].concat(), [4, 2, 1, 0], "");
    explained_file(&one, [16, 28, 0, 0], "");
    explained_file(&[], [1, 0, 0, 0], "");
}

/// Of a good entry with other characters in 67-79 of one record, those that stood there are expected.
#[test]
fn what_stood_there_is_expected() {
    let mut random = Random::seeded(SEED);
    let mut kinds = BTreeMap::new();
    for _ in 0..60 {
        let sheet = generate::entry(&mut random);
        for (at, kind) in sheet.kinds.iter().enumerate() {
            for (number, first, past) in [(5, 66, 74), (6, 74, 79)] {
                let mut entry = sheet.bytes.clone();
                let (place, columns) =
                    (RECORD * at + random.within(first, past - 1), RECORD * at + first..RECORD * at + past);
                entry[place] = if entry[place] == b'X' { b'0' } else { b'X' };
                let refusal = Refusal::new(number, at as u32 + 1, first as u32 + 1);
                for by in BOTH {
                    let said = by.explain(&entry);
                    assert_eq!(said.verdict, Verdict::Refused(refusal));
                    assert_eq!(said.reason.expected(number), Some(&sheet.bytes[columns.clone()]), "{refusal}");
                }
            }
            let name = if let Kind::System(name) = kind { name } else { "within a section" };
            *kinds.entry(name).or_insert(0) += 1;
        }
    }
    assert!(kinds.len() == 15 && kinds.values().all(|&times| times >= 5), "{kinds:?}");
}

/// One implementation, asked about entries or about transmissions.
struct Asked<'b> {
    by: &'b dyn Implementation,
    file: bool,
}

/// The order of judging: record, number, column.
fn place(refusal: &Refusal) -> [u32; 3] {
    [refusal.record, refusal.number, refusal.column]
}

/// The first byte of a refused record.
fn first_byte(refusal: &Refusal) -> usize {
    (refusal.record as usize - 1) * RECORD
}

/// A field as a count says it, if it is one.
fn said(field: &[u8]) -> Option<u64> {
    String::from_utf8_lossy(field).trim_start().parse().ok()
}

/// The nearest record above a byte that begins with a name.
fn above(input: &[u8], at: usize, name: &str) -> usize {
    let named = |&at: &usize| input[at..].starts_with(format!("{name:11}").as_bytes());
    (0..at).step_by(RECORD).rev().find(named).expect("it is above")
}

impl Asked<'_> {
    fn explain(&self, input: &[u8]) -> Explained {
        match self.file {
            true => self.by.explain_file(input),
            false => self.by.explain(input),
        }
    }

    /// The refusal with a text put into the input at a byte.
    fn with(&self, input: &[u8], at: usize, text: &str) -> Option<Refusal> {
        let mut mended = input.to_vec();
        mended[at..at + text.len()].copy_from_slice(text.as_bytes());
        self.explain(&mended).verdict.refusal()
    }

    /// That the refusal is gone with this text, and that none before it has come.
    fn mended(&self, input: &[u8], refusal: &Refusal, at: usize, text: &str) {
        if let Some(left) = self.with(input, at, text) {
            assert!(place(&left) > place(refusal), "{refusal}, with {text:?}: {left}");
        }
    }

    /// What a reason says of its input holds. Its kind is handed back.
    fn holds(&self, input: &[u8]) -> (u32, u64) {
        let Explained { verdict, reason } = self.explain(input);
        let Some(refusal) = verdict.refusal() else {
            assert_eq!(reason, Reason::Alone);
            return (0, 0);
        };
        match (refusal.number, reason) {
            (5 | 6, Reason::Expected(_)) => self.expected(input, &refusal, &reason),
            (8, Reason::Count { announced, due }) => self.count(input, &refusal, announced, due),
            (8, Reason::Range { least, greatest }) => self.range(input, &refusal, least, greatest),
            (9, Reason::Previous(number)) => self.previous(input, &refusal, number),
            (13, Reason::Equal { record, column }) => equal(input, &refusal, record, column),
            (14, Reason::Pointer(pointer)) => self.pointer(input, &refusal, pointer),
            (5 | 6 | 8 | 9 | 13 | 14, _) => panic!("{refusal}: {reason:?}"),
            _ => assert_eq!(reason, Reason::Alone, "{refusal}"),
        }
        (refusal.number, reason.facts()[0])
    }

    /// 5 and 6: with the expected characters in their place that check holds.
    fn expected(&self, input: &[u8], refusal: &Refusal, reason: &Reason) {
        let text = String::from_utf8_lossy(reason.expected(refusal.number).expect("characters")).to_string();
        assert_eq!(text.len(), if refusal.number == 5 { 8 } else { 5 });
        assert!(refusal.number == 5 || reason.characters()[5..] == *b"   ");
        self.mended(input, refusal, first_byte(refusal) + refusal.column as usize - 1, &text);
    }

    /// 8: with the true count in the place of the one announced.
    fn count(&self, input: &[u8], refusal: &Refusal, announced: u64, due: u64) {
        assert_ne!(announced, due, "{refusal}");
        let record = first_byte(refusal);
        let own = record + refusal.column as usize - 1;
        let text = format!("{due:>11}");
        if !input[record..].starts_with(b"ENDBIB     ") {
            assert_eq!(said(&input[own..own + 11]), Some(announced), "{refusal}");
            return self.mended(input, refusal, own, &text);
        }
        let bib = above(input, record, "BIB");
        if said(&input[own..own + 11]) == Some(((record - bib) / RECORD - 1) as u64) {
            // Its own is true, so the keywords that BIB announces are not.
            assert_eq!(said(&input[bib + 11..bib + 22]), Some(announced), "{refusal}");
            return self.mended(input, refusal, bib + 11, &text);
        }
        assert_eq!(said(&input[own..own + 11]), Some(announced), "{refusal}");
        let mut mended = input.to_vec();
        mended[own..own + 11].copy_from_slice(text.as_bytes());
        match self.explain(&mended).verdict.refusal() {
            Some(left) if place(&left) == place(refusal) => _ = self.holds(&mended),
            _ => self.mended(input, refusal, own, &text),
        }
    }

    /// 8 out of range: the least is not, nor is the greatest or any that a count can say, and those beside them are.
    fn range(&self, input: &[u8], refusal: &Refusal, least: u64, greatest: u64) {
        let at = first_byte(refusal) + refusal.column as usize - 1;
        let most = if greatest == 0 { 99_999_999_999 } else { greatest };
        for inside in [least, most] {
            self.mended(input, refusal, at, &format!("{inside:>11}"));
        }
        for outside in [least - 1, most + 1].into_iter().filter(|&count| count <= 99_999_999_999) {
            assert_eq!(self.with(input, at, &format!("{outside:>11}")), Some(*refusal));
        }
    }

    /// 9: with the next number and the entry's accession it is gone, with the same number again it is not.
    fn previous(&self, input: &[u8], refusal: &Refusal, before: u32) {
        let record = first_byte(refusal);
        let entry = above(input, record, "ENTRY");
        let owned = |number: u32| {
            let mut record = input[record..record + RECORD].to_vec();
            let own = format!("{}{number:03}", String::from_utf8_lossy(&input[entry + 17..entry + 22]));
            record[14..22].copy_from_slice(own.as_bytes());
            record[66..74].copy_from_slice(own.as_bytes());
            String::from_utf8(record).expect("characters that are permitted")
        };
        assert_eq!(self.with(input, record, &owned(before)), Some(*refusal));
        if before < 998 {
            self.mended(input, refusal, record, &owned(before + 1));
        }
    }

    /// 14: it stands in the heading's eleventh column, and without it the refusal is gone.
    fn pointer(&self, input: &[u8], refusal: &Refusal, pointer: u8) {
        let at = first_byte(refusal) + refusal.column as usize + 9;
        assert_eq!(input[at], pointer, "{refusal}");
        assert_ne!(self.with(input, at, " "), Some(*refusal));
    }
}

/// 13: the named place has the same eleven columns, and it stands before the refused one.
fn equal(input: &[u8], refusal: &Refusal, record: u32, column: u32) {
    let heading = |record: u32, column: u32| {
        let first = (record as usize - 1) * RECORD + column as usize - 1;
        &input[first..first + 11]
    };
    assert!((record, column) < (refusal.record, refusal.column), "{refusal}: record {record}, column {column}");
    assert_eq!(heading(record, column), heading(refusal.record, refusal.column), "{refusal}");
}

/// How often each number had each kind of reason.
type Met = BTreeMap<(u32, u64), u32>;

/// That every refusal with a reason was met, 8 with both of its kinds.
fn all_met(met: &Met) {
    for of in [(5, 6), (6, 6), (8, 1), (8, 2), (9, 3), (13, 4), (14, 5)] {
        assert!(met.get(&of).is_some_and(|&times| times >= 10), "{of:?}: {met:?}");
    }
}

#[test]
fn reasons_of_entries_hold() {
    for by in BOTH {
        let (asked, mut random, mut met) = (Asked { by, file: false }, Random::seeded(SEED + 1), Met::new());
        for cause in (0..40).flat_map(|_| 0..CAUSES.len()) {
            *met.entry(asked.holds(&damaged(&mut random, cause).0.bytes)).or_default() += 1;
        }
        for _ in 0..2_000 {
            let mut sheet = generate::entry(&mut random);
            generate::noise(&mut random, &mut sheet);
            *met.entry(asked.holds(&sheet.bytes)).or_default() += 1;
        }
        all_met(&met);
    }
}

#[test]
fn reasons_of_transmissions_hold() {
    for by in BOTH {
        let (asked, mut random, mut met) = (Asked { by, file: true }, Random::seeded(SEED + 2), Met::new());
        for cause in (0..20).flat_map(|_| 0..FILE_CAUSES.len()) {
            *met.entry(asked.holds(&damaged_file(&mut random, cause).0.bytes())).or_default() += 1;
        }
        // Every cause of an entry's refusal, in the second of three.
        for cause in (0..20).flat_map(|_| 0..CAUSES.len()) {
            let good = generate::entry(&mut random).bytes;
            let entry = damaged(&mut random, cause).0.bytes;
            *met.entry(asked.holds(&transmission(&[&good, &entry, &good]))).or_default() += 1;
        }
        all_met(&met);
    }
}

/// Inside an entry the reason is that of the entry alone, and the record of 13 is raised like the verdict's.
#[test]
fn entries_in_transmissions_have_their_own_reasons() {
    let (mut random, mut raised, mut same) = (Random::seeded(SEED + 3), 0, 0);
    for cause in (0..10).flat_map(|_| 0..CAUSES.len()) {
        let good = generate::entry(&mut random).bytes;
        let entry = damaged(&mut random, cause).0.bytes;
        let raise = (RECORD + good.len()) as u32 / RECORD as u32;
        let file = transmission(&[&good, &entry]);
        for by in BOTH {
            let (alone, inside) = (by.explain(&entry), by.explain_file(&file));
            if inside.verdict.ordinal() != 2 || matches!(alone.verdict, Verdict::Accepted(_)) {
                continue;
            }
            let due = match alone.reason {
                Reason::Equal { record, column } => Reason::Equal { record: record + raise, column },
                reason => reason,
            };
            assert_eq!(inside.reason, due, "{}", inside.verdict);
            *if due == alone.reason { &mut same } else { &mut raised } += 1;
        }
    }
    assert!(raised >= 50 && same >= 500, "{raised} raised, {same} the same");
}

/// The headings of a sheet up to a record: place and eleven columns, those of 001 and of the last subentry.
fn headings(sheet: &Sheet, last: usize) -> Vec<([usize; 2], &[u8])> {
    let subents = sheet.find(|kind| matches!(kind, Kind::System("SUBENT" | "NOSUBENT")));
    let own = subents.iter().copied().filter(|&at| at <= last).max().unwrap_or(0);
    let second = subents.get(1).copied().unwrap_or(usize::MAX);
    let mut found = Vec::new();
    for at in (0..=last).filter(|&at| at < second || at > own) {
        if let Kind::Heading { used, .. } = sheet.kinds[at] {
            let fields = (0..used).map(|field| 11 * field + 1);
            found.extend(fields.map(|column| ([at + 1, column], sheet.columns(at, column, column + 10))));
        }
    }
    found
}

/// 13: "record and column of the first equal heading", by what the records were made as.
#[test]
fn the_first_equal_heading_is_named() {
    let mut random = Random::seeded(SEED + 4);
    let (mut kinds, mut nearer) = ([0; 2], 0);
    let causes = (0..CAUSES.len()).filter(|&cause| CAUSES[cause].0.starts_with("13 "));
    for cause in (0..200).flat_map(|_| causes.clone()) {
        let (sheet, Some(done)) = damaged(&mut random, cause) else { continue };
        let refused = [done.due.record as usize, done.due.column as usize];
        let before: Vec<_> = headings(&sheet, refused[0] - 1).into_iter().filter(|(at, _)| *at <= refused).collect();
        let own = before.last().expect("the refused one").1;
        let mut equal = before.iter().filter(|(at, heading)| *at < refused && *heading == own).map(|(at, _)| *at);
        let first = equal.next().expect("an equal one");
        nearer += usize::from(equal.next().is_some());
        kinds[usize::from(first[0] == refused[0])] += 1;
        for by in BOTH {
            let due = Reason::Equal { record: first[0] as u32, column: first[1] as u32 };
            assert_eq!(by.explain(&sheet.bytes).reason, due, "{}", done.due);
        }
    }
    assert!(kinds.iter().all(|&times| times >= 100) && nearer >= 20, "{kinds:?}, {nearer} with others between");
}

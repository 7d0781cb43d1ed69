//! The library beside the reference; and slips planted on purpose, to see that they would be found.

mod common;

use common::{end_trans, flags, none, sample, transmission, ENTRIES, SEED};
use glockenbeacon::differ::{Implementation, Library, Pair, Reference};
use glockenbeacon::generate::{self, Random};
use glockenbeacon::reference::may_repeat;
use glockenbeacon::reference::record::{permitted, Name};
use glockenbeacon::reference::tree::{Cell, Role, Subentry, Tree};
use glockenbeacon::{
    reference, Decimal, Explained, FieldRead, NoAnswer, Part, Reason, Refusal, Totals, Value, Verdict,
};

/// Of transmissions there are fewer.
const FILES: u64 = 1_000;

#[test]
fn the_library_and_the_reference_agree() {
    let mut pair = Pair::new(&Library, &Reference);
    let outcome = pair.fields(SEED, 100_000).and_then(|()| pair.decimals(SEED, 100_000));
    let outcome = outcome.and_then(|()| pair.entries(SEED, ENTRIES));
    let outcome = outcome.and_then(|()| pair.double_fields(SEED, 100_000));
    let outcome = outcome.and_then(|()| pair.double_decimals(SEED, 100_000));
    let outcome = outcome.and_then(|()| pair.bytes(include_bytes!("../data/sample.x4"), b" 01A.E\n#"));
    outcome.unwrap_or_else(|difference| panic!("{difference}"));
    let counts = pair.counts;
    assert!((0..=17).all(|number| counts.verdicts.of(number) >= 5), "every refusal occurs:\n{counts}");
    let at_record = |number: &u32| Refusal::new(*number, 1, 1).at_record();
    assert!((1..=17).filter(at_record).all(|number| counts.below.of(number) >= 5), "with others below:\n{counts}");
    assert!((0..=6).all(|kind| counts.reasons.of(kind) >= 20), "every kind of reason occurs:\n{counts}");
    for number in [0, 31, 32, 33, 34, 35, 36, 37] {
        assert!(counts.answers.of(number) >= 100, "every answer occurs:\n{counts}");
    }
    assert!([0, 31, 38].iter().all(|&number| counts.made.of(number) >= 500), "{counts}");
    assert!([0, 32, 38].iter().all(|&number| counts.rows.of(number) >= 500), "{counts}");
    assert!([0, 32, 33, 34, 35, 36].iter().all(|&number| counts.by_own.of(number) >= 100), "{counts}");
    for number in [0, 32, 33, 34, 35, 36, 38, 39] {
        assert!(counts.by_any.of(number) >= 500, "every answer by an index occurs:\n{counts}");
    }
    let (own, any) = (&counts.by_own, &counts.by_any);
    assert_eq!([own.of(31), own.of(38), own.of(39), any.of(31)], [0; 4], "{counts}");
    assert!([0, 31, 32, 33].iter().all(|&number| counts.walks.of(number) >= 100), "{counts}");
    assert!(counts.walked.of(0) >= 5_000 && counts.walked.of(15) == 0, "{counts}");
    assert!([0, 15].iter().all(|&number| counts.walked_any.of(number) >= 1_000), "{counts}");
    assert!(counts.done.iter().all(|&times| times >= 1_000), "{counts}");
    assert!([0, 15, 40].iter().all(|&number| counts.readings.of(number) >= 1_000), "{counts}");
    assert!([0, 40, 41].iter().all(|&number| counts.writings.of(number) >= 1_000), "{counts}");
    assert!([0, 31, 32, 33, 34, 35].iter().all(|&number| counts.doubles.of(number) >= 100), "{counts}");
    for number in [0, 32, 33, 34, 35, 38, 39] {
        assert!(counts.doubles_by_index.of(number) >= 100, "{counts}");
    }
    assert_eq!(counts.doubles_by_index.of(31), 0, "{counts}");
    assert!([0, 15, 40].iter().all(|&number| counts.double_fields.of(number) >= 1_000), "{counts}");
    assert!(counts.simple.iter().all(|&times| times >= 1_000), "{counts}");
}

/// Transmissions: generated ones, those at the limits, and each byte of TRANS and ENDTRANS changed.
#[test]
fn the_library_and_the_reference_agree_on_transmissions() {
    let mut pair = Pair::new(&Library, &Reference);
    let file = generate::transmission(&mut Random::seeded(SEED)).bytes();
    let outcome = pair.files(SEED, FILES).and_then(|()| pair.given_files(&generate::file_limits()));
    let outcome = outcome.and_then(|()| pair.file_bytes(&file, b" 019AZa.-\n#"));
    let outcome = outcome.and_then(|()| pair.file_bytes(&transmission(&[&sample()]), b" 019AZa.-\n#"));
    outcome.unwrap_or_else(|difference| panic!("{difference}"));
    let counts = pair.counts;
    assert!([0, 1, 2, 3, 4, 7, 8, 16].iter().all(|&number| counts.files.of(number) >= 20), "{counts}");
    assert!([2, 3, 4, 5, 6, 7, 8, 9].iter().all(|&number| counts.inside.of(number) >= 1), "{counts}");
    assert!((2..=4).all(|number| counts.files_below.of(number) >= 20), "{counts}");
    assert!((0..=6).all(|kind| counts.file_reasons.of(kind) >= 3), "every kind of reason occurs:\n{counts}");
    assert!([0, 31, 37].iter().all(|&number| counts.file_copies.of(number) >= 20), "{counts}");
    assert!(counts.begins.iter().all(|&times| times >= 1_000), "{counts}");
}

/// The bytes that stand in the place of each byte of the sample with flags.
const FOR_FLAGS: &[u8; 13] = b" 0124+-.()EFX";

/// How often changed bytes of an entry are refused by 17, where the library and the reference agree.
fn seventeens(entry: &[u8]) -> u64 {
    let mut pair = Pair::new(&Library, &Reference);
    pair.bytes(entry, FOR_FLAGS).unwrap_or_else(|difference| panic!("{difference}"));
    pair.counts.verdicts.of(17)
}

/// Each byte of the sample with flags changed: its headings, codes and flags among them.
#[test]
fn changed_bytes_reach_flags() {
    // One flag or more hangs on each code, so each change of a code is refused: 4 bytes of (1.) and of (2.), 5 of (10.)
    // and of (03.), by the 12 that differ from them. Other changes come on top.
    assert!(seventeens(&flags(&[])) > (4 + 4 + 5 + 5) * 12);
    // DECAY-FLAG alone, over 2.510 at the end of its field: +, - or E in the place of 5 or 1 makes an exponent.
    let decay = flags(&[(23, 23, "X-FLAG"), (23, 34, "DECAY-FLAG"), (25, 34, "      2.510")]);
    assert_eq!(seventeens(&decay), 2 * 3);
    for entry in [flags(&[]), decay] {
        assert!(Pair::new(&WrongColumn(17), &Reference).bytes(&entry, FOR_FLAGS).is_err(), "goes unseen");
    }
}

/// A slip is found by the same short run.
fn found(slip: &dyn Implementation) -> bool {
    let mut pair = Pair::new(slip, &Reference);
    let outcome = pair.fields(SEED, 20_000).and_then(|()| pair.decimals(SEED, 20_000));
    outcome.and_then(|()| pair.entries(SEED, ENTRIES)).is_err()
}

/// "`1.45-1` taken as 1.45": the exponent overlooked.
struct ExponentLost;

impl Implementation for ExponentLost {
    fn read_number(&self, field: &[u8]) -> Result<FieldRead, NoAnswer> {
        let answer = reference::read_number(field);
        let text = String::from_utf8_lossy(field).to_string();
        match text.trim_start().get(1..).and_then(|rest| rest.find(['+', '-', 'E'])) {
            Some(at) if answer.is_ok() => {
                let start = text.len() - text.trim_start().len();
                reference::read_number(format!("{:11}", &text[..start + 1 + at]).as_bytes())
            }
            _ => answer,
        }
    }
}

/// "With seven columns, the second record of a line taken as a new point."
struct RecordsAsLines;

impl Implementation for RecordsAsLines {
    fn value(&self, entry: &[u8], place: [u32; 4]) -> Result<FieldRead, NoAnswer> {
        let [subentry, section, line, column] = place;
        match reference::value(entry, subentry, section, line, column) {
            Ok(_) if column > 6 => reference::value(entry, subentry, section, line, column - 6),
            answer => answer,
        }
    }
}

/// "ENDBIB searched for, so a false N2 passes."
struct EndSearched;

impl Implementation for EndSearched {
    fn judge(&self, entry: &[u8]) -> Verdict {
        match reference::judge(entry) {
            Verdict::Refused(Refusal { number: 4, record, .. })
                if entry[81 * (record as usize - 1)..].starts_with(b"ENDBIB ") =>
            {
                Verdict::Accepted(Totals::default())
            }
            verdict => verdict,
        }
    }
}

/// "`0.0` and blank held to be equal."
struct ZeroAsBlank;

impl Implementation for ZeroAsBlank {
    fn value(&self, entry: &[u8], place: [u32; 4]) -> Result<FieldRead, NoAnswer> {
        let [subentry, section, line, column] = place;
        match reference::value(entry, subentry, section, line, column) {
            Ok(FieldRead { value: Value::Number(Decimal::ZERO), .. }) => Ok(FieldRead::BLANK),
            answer => answer,
        }
    }
}

/// "A pointer carried past the next keyword."
struct PointerCarried;

impl Implementation for PointerCarried {
    fn passage(&self, entry: &[u8], subentry: u32, keyword: &[u8], pointer: u8) -> Result<Part, NoAnswer> {
        let answer = reference::passage(entry, subentry, keyword, pointer);
        match answer {
            Err(NoAnswer { number: 36, .. }) => reference::passage(entry, subentry, keyword, b' ').or(answer),
            _ => answer,
        }
    }
}

/// A refusal that is right but for its place.
struct WrongColumn(u32);

impl Implementation for WrongColumn {
    fn judge(&self, entry: &[u8]) -> Verdict {
        match reference::judge(entry) {
            Verdict::Refused(refusal) if refusal.number == self.0 => {
                Verdict::Refused(Refusal { column: refusal.column + 11, ..refusal })
            }
            verdict => verdict,
        }
    }
}

/// Totals that are made up.
struct TotalsMadeUp;

impl Implementation for TotalsMadeUp {
    fn judge(&self, entry: &[u8]) -> Verdict {
        match reference::judge(entry) {
            Verdict::Accepted(totals) => Verdict::Accepted(Totals { lines: totals.numbers, ..totals }),
            verdict => verdict,
        }
    }
}

/// The unit's own eleventh column, which is blank, in place of its heading's pointer.
struct UnitWithoutPointer;

impl Implementation for UnitWithoutPointer {
    fn unit(&self, entry: &[u8], [subentry, section, column]: [u32; 3]) -> Result<Part, NoAnswer> {
        reference::unit(entry, subentry, section, column).map(|part| Part { pointer: b' ', ..part })
    }
}

/// A copy that is a plain duplicate.
struct PlainDuplicate;

impl Implementation for PlainDuplicate {
    fn canonical_copy(&self, entry: &[u8], buffer: &mut [u8]) -> Result<(), NoAnswer> {
        reference::canonical_copy(entry, buffer)?;
        buffer[..entry.len()].copy_from_slice(entry);
        Ok(())
    }
}

/// A copy that stores before it refuses.
struct StoresFirst;

impl Implementation for StoresFirst {
    fn canonical_copy(&self, entry: &[u8], buffer: &mut [u8]) -> Result<(), NoAnswer> {
        let common = entry.len().min(buffer.len());
        let answer = reference::canonical_copy(entry, buffer);
        if answer.is_err() {
            buffer[..common].copy_from_slice(&entry[..common]);
        }
        answer
    }
}

/// `0.14` written for `.14`: not the fewest columns.
struct NotShortest;

impl Implementation for NotShortest {
    fn write_number(&self, decimal: Decimal, buffer: &mut [u8]) -> Result<(), NoAnswer> {
        reference::write_number(decimal, buffer)?;
        if let Some(at) = buffer.windows(2).position(|pair| pair == b" .") {
            buffer[at] = b'0';
        }
        Ok(())
    }
}

/// `1.+100` written for `10.+99`: as short, but with fewer digits before the point.
struct FewerDigitsBefore;

impl Implementation for FewerDigitsBefore {
    fn write_number(&self, decimal: Decimal, buffer: &mut [u8]) -> Result<(), NoAnswer> {
        reference::write_number(decimal, buffer)?;
        let text = String::from_utf8_lossy(buffer).to_string();
        for nines in ["9", "99", "999", "9999"] {
            if let Some(front) = text.trim().strip_suffix(&format!("0.+{nines}")) {
                let power = nines.len();
                buffer.copy_from_slice(format!("{:>11}", format!("{front}.+1{:0>power$}", "")).as_bytes());
            }
        }
        Ok(())
    }
}

/// "100. gives 3": the coefficient's digits counted, after its zeros went to the power.
struct ZerosUncounted;

impl Implementation for ZerosUncounted {
    fn read_number(&self, field: &[u8]) -> Result<FieldRead, NoAnswer> {
        let read = reference::read_number(field)?;
        match read.value {
            Value::Number(decimal) if decimal != Decimal::ZERO => {
                Ok(FieldRead { digits: decimal.coefficient.to_string().len() as u32, ..read })
            }
            _ => Ok(read),
        }
    }
}

/// "1.+2 gives 1": the exponent's digits counted too.
struct ExponentCounted;

impl Implementation for ExponentCounted {
    fn read_number(&self, field: &[u8]) -> Result<FieldRead, NoAnswer> {
        let read = reference::read_number(field)?;
        let digits = field.iter().filter(|byte| byte.is_ascii_digit()).skip_while(|&&digit| digit == b'0').count();
        Ok(FieldRead { digits: digits as u32, ..read })
    }
}

/// "0 for zero": the zeros of `0.00` counted.
struct ZeroCounted;

impl Implementation for ZeroCounted {
    fn read_number(&self, field: &[u8]) -> Result<FieldRead, NoAnswer> {
        let read = reference::read_number(field)?;
        match read.value {
            Value::Number(Decimal::ZERO) => Ok(FieldRead { digits: 1, ..read }),
            _ => Ok(read),
        }
    }
}

/// "Value lookup passes it on": the count of the canonical copy passed on in its place.
struct CountOfTheCopy;

impl Implementation for CountOfTheCopy {
    fn value(&self, entry: &[u8], [subentry, section, line, column]: [u32; 4]) -> Result<FieldRead, NoAnswer> {
        let mut copy = entry.to_vec();
        reference::canonical_copy(entry, &mut copy)?;
        reference::value(&copy, subentry, section, line, column)
    }
}

/// The headings of each table of an entry.
fn headings(entry: &[u8]) -> Vec<(Name, Vec<Cell<'_>>)> {
    let tree = Tree::of(entry);
    let mut tables = Vec::new();
    for table in tree.subentries.iter().flat_map(Subentry::tables) {
        tables.push((table.name, table.headings(&tree).collect()));
    }
    tables
}

/// Where the nearest heading stands that is equal to one that is refused: right before it, before it in the same
/// section, or in another.
#[derive(PartialEq)]
enum Equal {
    Beside,
    Apart,
    Elsewhere,
}

/// M-101 read too widely: some headings that 13 refuses pass, by their section, their word and where their equal stands.
struct TooWide(fn(Name, &str, Equal) -> bool);

impl TooWide {
    /// Whether the heading that a refusal names passes.
    fn passes(&self, entry: &[u8], refusal: &Refusal) -> bool {
        let at = (refusal.record as usize - 1, refusal.column as usize);
        headings(entry).into_iter().any(|(section, all)| {
            let place = all.iter().position(|cell| (cell.record, cell.first_column()) == at);
            place.is_some_and(|place| {
                let equal = match all[..place].iter().rposition(|cell| cell.bytes == all[place].bytes) {
                    Some(before) if before + 1 == place => Equal::Beside,
                    Some(_) => Equal::Apart,
                    None => Equal::Elsewhere,
                };
                (self.0)(section, String::from_utf8_lossy(all[place].word()).trim_end(), equal)
            })
        })
    }
}

impl Implementation for TooWide {
    fn judge(&self, entry: &[u8]) -> Verdict {
        match reference::judge(entry) {
            Verdict::Refused(refusal) if refusal.number == 13 && self.passes(entry, &refusal) => {
                Verdict::Accepted(Totals::default())
            }
            verdict => verdict,
        }
    }
}

/// Whether a word may repeat in a section.
fn listed(word: &str, section: Name) -> bool {
    may_repeat(word.as_bytes(), section)
}

/// M-101 read too narrowly: some headings beside their equals are refused, by their section and field.
struct TooNarrow(fn(Name, usize) -> bool);

impl Implementation for TooNarrow {
    fn judge(&self, entry: &[u8]) -> Verdict {
        let verdict = reference::judge(entry);
        let refused = headings(entry).into_iter().find_map(|(section, all)| {
            let equal = |pair: &&[Cell]| pair[0].bytes == pair[1].bytes && (self.0)(section, pair[1].field);
            all.windows(2).find(equal).map(|pair| (pair[1].record as u32 + 1, pair[1].first_column() as u32))
        });
        match (verdict, refused) {
            (Verdict::Accepted(_), Some((record, column))) => Verdict::Refused(Refusal::new(13, record, column)),
            _ => verdict,
        }
    }
}

#[test]
fn repetitions_read_otherwise_are_found() {
    use Equal::{Apart, Beside, Elsewhere};
    let slips: [(&str, &dyn Implementation); 9] = [
        ("none repeats", &TooNarrow(|_, _| true)),
        ("columns 6 and 7 are no neighbours", &TooNarrow(|_, field| field == 0)),
        ("in DATA only, all of them", &TooNarrow(|section, _| section == Name::Common)),
        ("apart", &TooWide(|section, word, equal| equal == Apart && listed(word, section))),
        ("in two sections", &TooWide(|section, word, equal| equal == Elsewhere && listed(word, section))),
        (
            "FLAG and HL in COMMON",
            &TooWide(|section, word, equal| {
                equal == Beside && section == Name::Common && (word == "FLAG" || word.starts_with("HL"))
            }),
        ),
        (
            "ERR without its dash",
            &TooWide(|_, word, equal| equal == Beside && word.ends_with("ERR") && !word.ends_with("-ERR")),
        ),
        (
            "E-LVL1, EN-RES1, FLAG1",
            &TooWide(|_, word, equal| equal == Beside && ["E-LVL1", "EN-RES1", "FLAG1"].contains(&word)),
        ),
        (
            "small letters",
            &TooWide(|section, word, equal| {
                let small = word.contains(|letter: char| letter.is_ascii_lowercase());
                equal == Beside && small && listed(&word.to_uppercase(), section)
            }),
        ),
    ];
    for (name, slip) in slips {
        assert!(Pair::new(slip, &Reference).entries(SEED, 10_000).is_err(), "{name}: goes unseen");
    }
}

/// All line feeds looked at before anything else.
struct LineFeedsFirst;

impl Implementation for LineFeedsFirst {
    fn judge(&self, entry: &[u8]) -> Verdict {
        let verdict = reference::judge(entry);
        let missing = entry.chunks(81).position(|record| record.last() != Some(&b'\n'));
        match (verdict, missing) {
            (Verdict::Refused(Refusal { number: 2..=17, .. }), Some(at)) => {
                Verdict::Refused(Refusal::new(2, at as u32 + 1, 81))
            }
            _ => verdict,
        }
    }
}

/// The end looked at before anything else: without ENDENTRY on some record the records end early.
struct EndFirst;

impl Implementation for EndFirst {
    fn judge(&self, entry: &[u8]) -> Verdict {
        let verdict = reference::judge(entry);
        let ends = entry.chunks(81).any(|record| record.starts_with(b"ENDENTRY   "));
        match verdict {
            Verdict::Refused(refusal) if refusal.at_record() && !ends => {
                Verdict::Refused(Refusal::new(16, (entry.len() / 81) as u32 + 1, 0))
            }
            _ => verdict,
        }
    }
}

/// The last fault in place of the first, where it is a character that is not permitted.
struct LastFault;

impl Implementation for LastFault {
    fn judge(&self, entry: &[u8]) -> Verdict {
        let verdict = reference::judge(entry);
        let Some(refusal) = verdict.refusal().filter(Refusal::at_record) else { return verdict };
        let wrong = |&at: &usize| at % 81 < 80 && !permitted(entry[at]);
        match (81 * refusal.record as usize..entry.len()).rfind(wrong) {
            Some(at) => Verdict::Refused(Refusal::new(3, at as u32 / 81 + 1, at as u32 % 81 + 1)),
            None => verdict,
        }
    }
}

/// What stands behind ENDENTRY passed over.
struct EndsThere;

impl Implementation for EndsThere {
    fn judge(&self, entry: &[u8]) -> Verdict {
        let verdict = reference::judge(entry);
        let Some(refusal) = verdict.refusal().filter(Refusal::at_record) else { return verdict };
        match reference::judge(&entry[..81 * (refusal.record as usize - 1)]) {
            accepted @ Verdict::Accepted(_) => accepted,
            Verdict::Refused(_) => verdict,
        }
    }
}

/// M-111 read otherwise: found by other records below the refused one, or by one behind an accepted entry.
#[test]
fn what_stands_below_finds_slips() {
    let slips: [(&str, &dyn Implementation); 4] = [
        ("LineFeedsFirst", &LineFeedsFirst),
        ("EndFirst", &EndFirst),
        ("LastFault", &LastFault),
        ("EndsThere", &EndsThere),
    ];
    for (name, slip) in slips {
        let outcome = Pair::new(slip, &Reference).entries(SEED, ENTRIES);
        let difference = outcome.expect_err(name);
        assert!(difference.words.starts_with("judge with other records below\n"), "{name}: {difference}");
        // Two that slip alike differ from what is due.
        let outcome = Pair::new(slip, slip).entries(SEED, ENTRIES);
        let words = outcome.expect_err(name).words;
        assert!(words.starts_with("judge with other records below: both, and what is due\n"), "{name}: {words}");
    }
}

/// A verdict on a transmission that is otherwise than it should be.
struct FileSlip(fn(&[u8], Verdict) -> Verdict);

impl Implementation for FileSlip {
    fn judge_file(&self, file: &[u8]) -> Verdict {
        (self.0)(file, reference::judge_file(file))
    }
}

/// The record of a refusal, from its first byte on.
fn at<'f>(file: &'f [u8], refusal: &Refusal) -> &'f [u8] {
    file.get(81 * (refusal.record.max(1) as usize - 1)..).unwrap_or_default()
}

/// How many records stand before an entry of a transmission, and how many entries before a record.
fn before(file: &[u8], ordinal: u32) -> u32 {
    let mut first = 81;
    (1..ordinal).for_each(|_| first += reference::entry_length(file, first));
    first as u32 / 81
}

fn entries_before(file: &[u8], record: u32) -> u32 {
    (1..)
        .take_while(|&ordinal| before(file, ordinal) < record && before(file, ordinal) < before(file, ordinal + 1))
        .count() as u32
}

/// Changes a refusal, where it is one.
fn refusing(verdict: Verdict, change: impl Fn(Refusal) -> Refusal) -> Verdict {
    match verdict {
        Verdict::Refused(refusal) => Verdict::Refused(change(refusal)),
        accepted => accepted,
    }
}

/// Accepts what is refused in some way.
fn accepting(verdict: Verdict, wrong: impl Fn(&Refusal) -> bool) -> Verdict {
    match verdict {
        Verdict::Refused(refusal) if wrong(&refusal) => Verdict::Accepted(Totals::default()),
        verdict => verdict,
    }
}

/// Whether a refusal is the one of an entry's 20,001st record.
fn too_long(file: &[u8], refusal: &Refusal) -> bool {
    refusal.ordinal > 0 && refusal.record == before(file, refusal.ordinal) + 20_001
}

/// Whether a refusal inside an entry is at its first record.
fn at_entry(file: &[u8], refusal: &Refusal) -> bool {
    refusal.ordinal > 0 && refusal.record == before(file, refusal.ordinal) + 1
}

/// The readings of M-100 taken otherwise, each found among transmissions.
#[test]
fn slips_in_transmissions_are_found() {
    let slips: [(&str, FileSlip); 17] = [
        (
            "ordinal one too many",
            FileSlip(|_, v| refusing(v, |r| Refusal { ordinal: r.ordinal + r.ordinal.min(1), ..r })),
        ),
        ("ordinal from 0", FileSlip(|_, v| refusing(v, |r| Refusal { ordinal: r.ordinal.saturating_sub(1), ..r }))),
        (
            "record from the entry's start",
            FileSlip(|file, v| {
                refusing(v, |r| Refusal {
                    record: r.record - if r.ordinal > 0 { before(file, r.ordinal) } else { 0 },
                    ..r
                })
            }),
        ),
        (
            "totals of the last entry only",
            FileSlip(|file, v| match v {
                Verdict::Accepted(_) => {
                    let last = (1..).take_while(|&n| before(file, n) < before(file, n + 1)).last().unwrap_or(1);
                    let first = 81 * before(file, last) as usize;
                    reference::judge(&file[first..first + reference::entry_length(file, first)])
                }
                refused => refused,
            }),
        ),
        ("20,001st record passed over", FileSlip(|file, v| accepting(v, |r| r.number == 4 && too_long(file, r)))),
        (
            "20,001st record by 4 before 2 and 3, or without ordinal",
            FileSlip(|file, v| refusing(v, |r| if too_long(file, &r) { Refusal { ordinal: 0, ..r } } else { r })),
        ),
        (
            "20,000th record refused",
            FileSlip(|file, v| match (v, reference::entry_length(file, 81)) {
                (Verdict::Accepted(_), 1_620_000) => {
                    Verdict::Refused(Refusal { number: 4, record: 20_001, column: 1, ordinal: 1 })
                }
                _ => v,
            }),
        ),
        (
            "a record between entries with the ordinal of the next",
            FileSlip(|file, v| {
                refusing(v, |r| match (r.number, r.ordinal) {
                    (2..=4, 0) if r.record > 1 => Refusal { ordinal: entries_before(file, r.record) + 1, ..r },
                    _ => r,
                })
            }),
        ),
        (
            "2 and 3 on ENTRY without ordinal",
            FileSlip(|file, v| {
                refusing(v, |r| match r.number {
                    2 | 3 if at_entry(file, &r) => Refusal { ordinal: 0, ..r },
                    _ => r,
                })
            }),
        ),
        (
            "7 on ENTRY without ordinal",
            FileSlip(|file, v| {
                refusing(v, |r| match r.number {
                    5..=7 if at_entry(file, &r) => Refusal { ordinal: 0, ..r },
                    _ => r,
                })
            }),
        ),
        (
            "ENTRY or ENDTRANS in an open entry without ordinal",
            FileSlip(|file, v| {
                let named = |r: &Refusal| [b"ENTRY   ", b"ENDTRANS"].iter().any(|name| at(file, r).starts_with(*name));
                refusing(v, |r| if r.number == 4 && named(&r) { Refusal { ordinal: 0, ..r } } else { r })
            }),
        ),
        (
            "ordinal beside 16",
            FileSlip(|file, v| {
                refusing(v, |r| match r.number {
                    16 => Refusal { ordinal: entries_before(file, r.record), ..r },
                    _ => r,
                })
            }),
        ),
        (
            "count of ENDTRANS not looked at",
            FileSlip(|file, v| accepting(v, |r| r.number == 8 && at(file, r).starts_with(b"ENDTRANS"))),
        ),
        (
            "records behind ENDTRANS passed over",
            FileSlip(|file, v| {
                let end = |r: &Refusal| {
                    r.record > 1 && at(file, &Refusal { record: r.record - 1, ..*r }).starts_with(b"ENDTRANS")
                };
                accepting(v, |r| r.number == 4 && r.ordinal == 0 && end(r))
            }),
        ),
        (
            "a file without entries",
            FileSlip(|file, v| {
                accepting(v, |r| r.number == 4 && r.record == 2 && at(file, r).starts_with(b"ENDTRANS   "))
            }),
        ),
        (
            "columns 67-79 of TRANS judged",
            FileSlip(|file, v| match v {
                Verdict::Accepted(_) if file[66..79] != *b"             " => Verdict::Refused(Refusal::new(5, 1, 67)),
                _ => v,
            }),
        ),
        (
            "1,620,000 bytes for a file, too",
            FileSlip(|file, v| match file.len() {
                0..=1_620_000 => v,
                _ => Verdict::Refused(Refusal::new(1, 0, 0)),
            }),
        ),
    ];
    let limits = generate::file_limits();
    for (name, slip) in &slips {
        let mut pair = Pair::new(slip, &Reference);
        let outcome = pair.files(SEED, FILES).and_then(|()| pair.given_files(&limits));
        assert!(outcome.is_err(), "{name}: goes unseen");
    }
}

/// Parts and copies of a transmission that are otherwise than they should be.
struct PartSlip(fn(&[u8], usize) -> usize);

impl Implementation for PartSlip {
    fn entry_length(&self, file: &[u8], at: usize) -> usize {
        (self.0)(file, at)
    }
}

struct CopySlip(fn(&[u8], &mut [u8]) -> Result<(), NoAnswer>);

impl Implementation for CopySlip {
    fn copy_file(&self, file: &[u8], buffer: &mut [u8]) -> Result<(), NoAnswer> {
        (self.0)(file, buffer)
    }
}

/// Where a record with this name begins, from a byte on.
fn next(file: &[u8], at: usize, name: &str) -> Option<usize> {
    (at..file.len()).step_by(81).find(|&at| file[at..].starts_with(format!("{name:11}").as_bytes()))
}

#[test]
fn slips_in_parts_and_copies_are_found() {
    let slips: [(&str, &dyn Implementation); 8] = [
        (
            "an entry up to the next ENTRY or ENDTRANS",
            &PartSlip(|file, at| match reference::entry_length(file, at) {
                0 => 0,
                _ => next(file, at + 81, "ENTRY").or(next(file, at, "ENDTRANS")).unwrap_or(at) - at,
            }),
        ),
        (
            "an entry without its end",
            &PartSlip(|file, at| match (reference::entry_length(file, at), file.get(at..)) {
                (0, Some(rest)) if rest.starts_with(b"ENTRY      ") => rest.len() / 81 * 81,
                (length, _) => length,
            }),
        ),
        (
            "more than 20,000 records",
            &PartSlip(|file, at| match (reference::entry_length(file, at), file.get(at..)) {
                (0, Some(rest)) if rest.starts_with(b"ENTRY      ") => {
                    next(file, at, "ENDENTRY").map_or(0, |last| last + 81 - at)
                }
                (length, _) => length,
            }),
        ),
        ("the last record left out", &PartSlip(|file, at| reference::entry_length(file, at).saturating_sub(81))),
        ("TRANS is no entry", &PartSlip(|file, at| reference::entry_length(file, at.max(81)))),
        (
            "a plain duplicate",
            &CopySlip(|file, buffer| {
                reference::copy_file(file, buffer)?;
                buffer[..file.len()].copy_from_slice(file);
                Ok(())
            }),
        ),
        (
            "the count of ENDTRANS without its zeros",
            &CopySlip(|file, buffer| {
                reference::copy_file(file, buffer)?;
                let first = file.len() - 70;
                let digits = file[first..first + 11].iter().position(|&byte| byte != b' ' && byte != b'0').unwrap_or(0);
                buffer[first..first + digits].fill(b' ');
                Ok(())
            }),
        ),
        (
            "stored before it is refused",
            &CopySlip(|file, buffer| {
                let common = file.len().min(buffer.len());
                let answer = reference::copy_file(file, buffer);
                if answer.is_err() {
                    buffer[..common].copy_from_slice(&file[..common]);
                }
                answer
            }),
        ),
    ];
    let limits = generate::file_limits();
    for (name, slip) in slips {
        let mut pair = Pair::new(slip, &Reference);
        assert!(pair.files(SEED, FILES).and_then(|()| pair.given_files(&limits)).is_err(), "{name}: goes unseen");
    }
}

/// A reason that is otherwise than it should be, of entries and of transmissions.
struct ReasonSlip(fn(&[u8], &Refusal, Reason) -> Reason);

impl ReasonSlip {
    fn slipped(&self, input: &[u8], explained: Explained) -> Explained {
        let Some(refusal) = explained.verdict.refusal() else { return explained };
        Explained { reason: (self.0)(input, &refusal, explained.reason), ..explained }
    }
}

impl Implementation for ReasonSlip {
    fn explain(&self, entry: &[u8]) -> Explained {
        self.slipped(entry, reference::explain(entry))
    }
    fn explain_file(&self, file: &[u8]) -> Explained {
        self.slipped(file, reference::explain_file(file))
    }
}

fn count(announced: u64, due: u64) -> Reason {
    Reason::Count { announced, due }
}

/// Another count, where the reason is one.
fn counting(reason: Reason, change: impl Fn(u64, u64) -> Reason) -> Reason {
    match reason {
        Reason::Count { announced, due } => change(announced, due),
        other => other,
    }
}

/// Another range, where the reason is one.
fn ranging(reason: Reason, change: impl Fn(u64, u64) -> (u64, u64)) -> Reason {
    match reason {
        Reason::Range { least, greatest } => {
            let (least, greatest) = change(least, greatest);
            Reason::Range { least, greatest }
        }
        other => other,
    }
}

/// Another place of an equal heading, where the reason is one.
fn placing(reason: Reason, change: impl Fn(u32, u32) -> (u32, u32)) -> Reason {
    match reason {
        Reason::Equal { record, column } => {
            let (record, column) = change(record, column);
            Reason::Equal { record, column }
        }
        other => other,
    }
}

/// Other characters of a refusal with this number, where the reason is such.
fn expecting(refusal: &Refusal, reason: Reason, number: u32, change: impl Fn(&mut [u8; 8])) -> Reason {
    match reason {
        Reason::Expected(mut characters) if refusal.number == number => {
            change(&mut characters);
            Reason::Expected(characters)
        }
        other => other,
    }
}

/// What is left to say of an entry with the true count in the place of the one announced: on ENDBIB the keywords.
fn keywords_first(entry: &[u8], refusal: &Refusal, reason: Reason) -> Reason {
    if !at(entry, refusal).starts_with(b"ENDBIB") {
        return reason;
    }
    counting(reason, |_, due| {
        let (mut mended, first) = (entry.to_vec(), 81 * refusal.record as usize - 70);
        mended[first..first + 11].copy_from_slice(format!("{due:>11}").as_bytes());
        let left = reference::explain(&mended);
        if left.verdict == Verdict::Refused(*refusal) {
            left.reason
        } else {
            reason
        }
    })
}

/// The nearest equal heading on the refused record, where there is one.
fn nearest(input: &[u8], refusal: &Refusal, reason: Reason) -> Reason {
    let headings: Vec<&[u8]> = at(input, refusal).chunks(11).take(6).collect();
    let own = refusal.column as usize / 11;
    placing(reason, |record, column| match (0..own).rfind(|&field| headings[field] == headings[own]) {
        Some(field) => (refusal.record, 11 * field as u32 + 1),
        None => (record, column),
    })
}

/// Each is found by the same entries.
fn reasons_found(slips: &[(&str, ReasonSlip)]) {
    for (name, slip) in slips {
        let words = Pair::new(slip, &Reference).verdicts(SEED, ENTRIES).expect_err(name).words;
        assert!(words.starts_with("explain\n"), "{name}: {words}");
    }
}

/// The readings of 8 taken otherwise.
#[test]
fn slips_in_counts_are_found() {
    reasons_found(&[
        ("true before announced", ReasonSlip(|_, _, r| counting(r, |announced, due| count(due, announced)))),
        ("the keywords before ENDBIB's own", ReasonSlip(keywords_first)),
        (
            "2k records of COMMON",
            ReasonSlip(|input, refusal, r| match at(input, refusal).starts_with(b"COMMON") {
                true => counting(r, |announced, due| count(announced, due / 3 * 2)),
                false => r,
            }),
        ),
        (
            "COMMON's records as a range",
            ReasonSlip(|input, refusal, r| match at(input, refusal).starts_with(b"COMMON") {
                true => counting(r, |_, due| Reason::Range { least: due, greatest: due }),
                false => r,
            }),
        ),
        ("18 at the most on BIB", ReasonSlip(|_, _, r| ranging(r, |least, most| (least, most.max(18))))),
        ("one record of BIB is enough", ReasonSlip(|_, _, r| ranging(r, |_, most| (1, most)))),
        ("from 0 on", ReasonSlip(|_, _, r| ranging(r, |least, most| (least.saturating_sub(1), most)))),
        ("19,999 lines at the most", ReasonSlip(|_, _, r| ranging(r, |least, most| (least, most.min(19_999))))),
        ("counts of 32 bits", ReasonSlip(|_, _, r| counting(r, |said, due| count(u64::from(said as u32), due)))),
        (
            "ENDSUBENT with its own record",
            ReasonSlip(|input, refusal, r| match at(input, refusal).starts_with(b"ENDSUBENT") {
                true => counting(r, |announced, due| count(announced, due + 1)),
                false => r,
            }),
        ),
    ]);
}

/// Those of 9, 13 and 14, and of what has no reason.
#[test]
fn slips_in_reasons_are_found() {
    reasons_found(&[
        (
            "the number of the refused subentry",
            ReasonSlip(|input, refusal, r| match r {
                Reason::Previous(_) => {
                    Reason::Previous(String::from_utf8_lossy(&at(input, refusal)[19..22]).parse().unwrap_or(0))
                }
                _ => r,
            }),
        ),
        (
            "the least number that is due",
            ReasonSlip(|_, _, r| if let Reason::Previous(before) = r { Reason::Previous(before + 1) } else { r }),
        ),
        ("the nearest equal heading", ReasonSlip(nearest)),
        ("the equal heading on the refused record", ReasonSlip(|_, f, r| placing(r, |_, column| (f.record, column)))),
        ("the column of the table", ReasonSlip(|_, _, r| placing(r, |record, column| (record, column / 11 + 1)))),
        ("records from 0", ReasonSlip(|_, _, r| placing(r, |record, column| (record - 1, column)))),
        (
            "the pointer of the first heading",
            ReasonSlip(|input, refusal, r| match r {
                Reason::Pointer(_) => Reason::Pointer(at(input, refusal)[10]),
                _ => r,
            }),
        ),
        (
            "a reason for 7",
            ReasonSlip(|_, refusal, r| if refusal.number == 7 { Reason::Expected(*b"        ") } else { r }),
        ),
    ]);
}

/// Those of 5 and 6.
#[test]
fn slips_in_expected_characters_are_found() {
    reasons_found(&[
        (
            "no zeros before a sequence number",
            ReasonSlip(|_, f, r| {
                expecting(f, r, 6, |c| {
                    let zeros = c.iter().position(|&byte| byte != b'0').unwrap_or(0);
                    c[..zeros].fill(b' ');
                })
            }),
        ),
        (
            "what stands there",
            ReasonSlip(|input, f, r| expecting(f, r, 5, |c| c.copy_from_slice(&at(input, f)[66..74]))),
        ),
        (
            "the entry's accession on SUBENT",
            ReasonSlip(|input, f, r| expecting(f, r, 5, |c| c[..5].copy_from_slice(&input[17..22]))),
        ),
        (
            "000 on ENDENTRY",
            ReasonSlip(|input, f, r| {
                let end = at(input, f).starts_with(b"ENDENTRY");
                expecting(f, r, 5, |c| {
                    if end {
                        c[5..].copy_from_slice(b"000")
                    }
                })
            }),
        ),
    ]);
}

/// Those of transmissions.
#[test]
fn slips_in_reasons_of_transmissions_are_found() {
    let slips = [
        (
            "13 counted from ENTRY",
            ReasonSlip(|file, refusal, r| {
                placing(r, |record, column| (record - before(file, refusal.ordinal), column))
            }),
        ),
        (
            "no reason on ENDTRANS",
            ReasonSlip(|file, refusal, r| if at(file, refusal).starts_with(b"ENDTRANS") { Reason::Alone } else { r }),
        ),
        (
            "one entry too few",
            ReasonSlip(|file, refusal, r| match at(file, refusal).starts_with(b"ENDTRANS") {
                true => counting(r, |announced, due| count(announced, due - 1)),
                false => r,
            }),
        ),
        ("no reason inside an entry", ReasonSlip(|_, refusal, r| if refusal.ordinal > 0 { Reason::Alone } else { r })),
    ];
    for (name, slip) in &slips {
        let words = Pair::new(slip, &Reference).files(SEED, FILES).expect_err(name).words;
        assert!(words.starts_with("explain_file\n"), "{name}: {words}");
    }
}

/// A reason that hangs on what stands below: found by other records there.
#[test]
fn a_reason_from_below_is_found() {
    let slip = ReasonSlip(|input, refusal, r| {
        let last = input.len() / 81 == refusal.record as usize;
        counting(r, |announced, due| if last { count(announced, due + 1) } else { r })
    });
    let words = Pair::new(&slip, &slip).entries(SEED, ENTRIES).expect_err("it goes unseen").words;
    assert!(words.starts_with("explain with other records below: both, and what is due\n"), "{words}");
    let words = Pair::new(&slip, &slip).files(SEED, FILES).expect_err("it goes unseen").words;
    assert!(words.starts_with("explain_file with other records below: both, and what is due\n"), "{words}");
}

/// An index that is made otherwise than it should be.
struct MakeSlip(fn(&[u8], &mut [u32]) -> Result<usize, NoAnswer>);

impl Implementation for MakeSlip {
    fn make_index(&self, entry: &[u8], index: &mut [u32]) -> Result<usize, NoAnswer> {
        (self.0)(entry, index)
    }
}

/// The true index, changed before it is stored.
fn making(entry: &[u8], index: &mut [u32], change: impl Fn(&mut Vec<u32>)) -> Result<usize, NoAnswer> {
    let mut own = vec![7; 4990];
    let rows = reference::make_index(entry, &mut own)?;
    own.truncate(5 * rows);
    change(&mut own);
    index.get_mut(..own.len()).ok_or(none(38))?.copy_from_slice(&own);
    Ok(own.len() / 5)
}

/// The true index with each record one lower.
fn records_from_0(entry: &[u8], index: &mut [u32]) -> Result<usize, NoAnswer> {
    making(entry, index, |own| {
        let records = own.chunks_mut(5).flat_map(|row| &mut row[1..]);
        records.for_each(|record| *record = record.saturating_sub(1));
    })
}

/// Each is found by the same entries, in what is said first.
fn indexes_found(slips: &[(&str, &dyn Implementation)], words: &str) {
    for (name, slip) in slips {
        let said = Pair::new(*slip, &Reference).indexes(SEED, ENTRIES).expect_err(name).words;
        assert!(said.starts_with(words), "{name}: {said}");
    }
}

#[test]
fn slips_in_making_are_found() {
    let slips: [(&str, &dyn Implementation); 9] = [
        (
            "what fits is stored before 38",
            &MakeSlip(|entry, index| {
                let answer = reference::make_index(entry, index);
                if answer == Err(none(38)) {
                    let mut whole = vec![0; 4990];
                    let _ = reference::make_index(entry, &mut whole);
                    index.copy_from_slice(&whole[..index.len()]);
                }
                answer
            }),
        ),
        (
            "NOSUBENT left out",
            &MakeSlip(|entry, index| {
                making(entry, index, |own| {
                    let nosubent = |row: &&[u32]| entry[81 * (row[1] as usize - 1)..].starts_with(b"NOSUBENT");
                    *own = own.chunks(5).filter(|row| !nosubent(row)).flatten().copied().collect();
                })
            }),
        ),
        ("records from 0", &MakeSlip(records_from_0)),
        (
            "numbers past the rows cleared",
            &MakeSlip(|entry, index| {
                let rows = reference::make_index(entry, index)?;
                index[5 * rows..].fill(0);
                Ok(rows)
            }),
        ),
        (
            "one number too many asked for",
            &MakeSlip(|entry, index| match generate::index_of(entry).len() == index.len() {
                true => reference::make_index(entry, &mut vec![0; 4990]).and(Err(none(38))),
                false => reference::make_index(entry, index),
            }),
        ),
        (
            "38 before 31",
            &MakeSlip(|entry, index| match index.len() {
                0..5 => Err(none(38)),
                _ => reference::make_index(entry, index),
            }),
        ),
        (
            "31 with zeros beside it",
            &MakeSlip(|entry, index| reference::make_index(entry, index).map_err(|refused| none(refused.number))),
        ),
        (
            "NOBIB for BIB",
            &MakeSlip(|entry, index| {
                making(entry, index, |own| {
                    for row in own.chunks_mut(5) {
                        if row[2] == 0 && entry[81 * row[1] as usize..].starts_with(b"NOBIB") {
                            row[2] = row[1] + 1;
                        }
                    }
                })
            }),
        ),
        (
            "DATA before COMMON",
            &MakeSlip(|entry, index| making(entry, index, |own| own.chunks_mut(5).for_each(|row| row.swap(3, 4)))),
        ),
    ];
    indexes_found(&slips, "make_index in ");
}

/// A row that is looked for otherwise.
struct RowSlip(fn(&[u32], u32) -> Result<usize, NoAnswer>);

impl Implementation for RowSlip {
    fn index_row(&self, index: &[u32], subentry: u32) -> Result<usize, NoAnswer> {
        (self.0)(index, subentry)
    }
}

#[test]
fn slips_in_rows_are_found() {
    let slips: [(&str, &dyn Implementation); 5] = [
        (
            "the last row",
            &RowSlip(|index, n| {
                reference::index_row(index, n)?;
                index.chunks(5).rposition(|row| row[0] == n).ok_or(none(32))
            }),
        ),
        (
            "numbers behind the rows passed over",
            &RowSlip(|index, n| reference::index_row(&index[..index.len() / 5 * 5], n)),
        ),
        (
            "any number of the row",
            &RowSlip(|index, n| {
                let answer = reference::index_row(index, n);
                answer.or_else(|refused| {
                    index.chunks(5).position(|row| refused.number == 32 && row.contains(&n)).ok_or(refused)
                })
            }),
        ),
        (
            "by halves",
            &RowSlip(|index, n| {
                reference::index_row(index, n)?;
                let rows: Vec<&[u32]> = index.chunks(5).collect();
                rows.binary_search_by_key(&n, |row| row[0]).map_err(|_| none(32))
            }),
        ),
        ("the place of its number", &RowSlip(|index, n| reference::index_row(index, n).map(|before| 5 * before))),
    ];
    indexes_found(&slips, "index_row ");
}

/// Questions by an index that the reference answers of other bytes or numbers: what is not looked at is made good.
struct Unread(fn(&mut Vec<u8>, &mut Vec<u32>, Row));

/// The row of a question, as far as there is one.
type Row = [u32; 5];

impl Unread {
    fn made_good(&self, entry: &[u8], index: &[u32], subentry: u32) -> (Vec<u8>, Vec<u32>) {
        let (mut entry, mut index) = (entry.to_vec(), index.to_vec());
        let before = reference::index_row(&index, subentry);
        let row = before.map_or([0; 5], |before| std::array::from_fn(|place| index[5 * before + place]));
        (self.0)(&mut entry, &mut index, row);
        (entry, index)
    }
}

impl Implementation for Unread {
    fn index_value(
        &self,
        entry: &[u8],
        index: &[u32],
        [n, section, line, column]: [u32; 4],
    ) -> Result<FieldRead, NoAnswer> {
        let (entry, index) = self.made_good(entry, index, n);
        reference::index_value(&entry, &index, n, section, line, column)
    }
    fn index_heading(&self, entry: &[u8], index: &[u32], [n, section, column]: [u32; 3]) -> Result<Part, NoAnswer> {
        let (entry, index) = self.made_good(entry, index, n);
        reference::index_heading(&entry, &index, n, section, column)
    }
    fn index_unit(&self, entry: &[u8], index: &[u32], [n, section, column]: [u32; 3]) -> Result<Part, NoAnswer> {
        let (entry, index) = self.made_good(entry, index, n);
        reference::index_unit(&entry, &index, n, section, column)
    }
    fn index_passage(
        &self,
        entry: &[u8],
        index: &[u32],
        n: u32,
        keyword: &[u8],
        pointer: u8,
    ) -> Result<Part, NoAnswer> {
        let (entry, index) = self.made_good(entry, index, n);
        reference::index_passage(&entry, &index, n, keyword, pointer)
    }
}

/// Columns of a record, if there is such a record; both count from 1.
fn columns(entry: &mut [u8], record: u32, first: usize, last: usize) -> Option<&mut [u8]> {
    let from = 81 * (record as usize).checked_sub(1)?;
    entry.get_mut(from..from + 81).map(|record| &mut record[first - 1..last])
}

/// Puts a text where another stands, if it does.
fn swap(entry: &mut [u8], record: u32, first: usize, from: &str, to: &str) {
    if let Some(place) = columns(entry, record, first, first + from.len() - 1).filter(|place| *place == from.as_bytes())
    {
        place.copy_from_slice(to.as_bytes());
    }
}

/// The count in eleven columns of a record.
fn counted(entry: &mut [u8], record: u32, first: usize) -> u64 {
    let place = columns(entry, record, first, first + 10).map(|place| String::from_utf8_lossy(place).trim().parse());
    place.and_then(Result::ok).unwrap_or(0)
}

fn put_count(entry: &mut [u8], record: u32, first: usize, count: u64) {
    if let Some(place) = columns(entry, record, first, first + 10) {
        place.copy_from_slice(format!("{count:>11}").as_bytes());
    }
}

/// What is read and not looked at, by the readings of M-102.
#[test]
fn what_is_not_looked_at_is_found() {
    let slips: [(&str, &dyn Implementation); 11] = [
        ("38 is not given", &Unread(|_, index, _| index.truncate(index.len() / 5 * 5))),
        (
            "the number of SUBENT",
            &Unread(|entry, _, row| {
                if let Some(number) =
                    columns(entry, row[1], 20, 22).filter(|number| number.iter().all(u8::is_ascii_digit))
                {
                    number.copy_from_slice(format!("{:03}", row[0] % 1000).as_bytes());
                }
            }),
        ),
        (
            "the accession of SUBENT",
            &Unread(|entry, _, row| {
                if let Some(place) = columns(entry, row[1], 12, 19) {
                    place.copy_from_slice(b"   90001");
                }
            }),
        ),
        ("NOSUBENT", &Unread(|entry, _, row| swap(entry, row[1], 1, "NOSUBENT", "SUBENT  "))),
        (
            "the identifier SUBENT",
            &Unread(|entry, _, row| {
                if let Some(place) = columns(entry, row[1], 1, 11).filter(|place| !place.starts_with(b"NOSUBENT")) {
                    place.copy_from_slice(b"SUBENT     ");
                }
            }),
        ),
        (
            "the identifier of the section",
            &Unread(|entry, _, row| {
                for (record, name) in row[2..].iter().zip(["BIB", "COMMON", "DATA"]) {
                    if let Some(place) = columns(entry, *record, 1, 11) {
                        place.copy_from_slice(format!("{name:11}").as_bytes());
                    }
                }
            }),
        ),
        ("eighteen columns", &Unread(|entry, _, row| swap(entry, row[4], 12, "         19", "         18"))),
        (
            "the records of COMMON",
            &Unread(|entry, _, row| {
                let columns = counted(entry, row[3], 12);
                put_count(entry, row[3], 23, 3 * columns.div_ceil(6));
            }),
        ),
        ("the keywords of BIB", &Unread(|entry, _, row| put_count(entry, row[2], 12, 1))),
        (
            "the records of BIB beside its keywords",
            &Unread(|entry, _, row| {
                let texts = counted(entry, row[2], 23);
                if texts < counted(entry, row[2], 12) {
                    put_count(entry, row[2], 12, texts);
                }
            }),
        ),
        (
            "whether the last record is whole",
            &Unread(|entry, _, _| entry.resize(entry.len().next_multiple_of(81), b' ')),
        ),
    ];
    indexes_found(&slips, "by an index: ");
}

/// The first byte of the field that is asked for, in a row of its table (0 headings, 1 units, 1 + n line n), by the counts
/// that stand there.
fn field_at(entry: &[u8], index: &[u32], [n, section, row, column]: [u32; 4]) -> Option<usize> {
    let before = reference::index_row(index, n).ok()?;
    let record = index[5 * before + 2 + section.clamp(1, 2) as usize];
    let k = counted(&mut entry.to_vec(), record, 12).div_ceil(6) as usize;
    let column = (column as usize).checked_sub(1)?;
    let at = (record as usize + row as usize * k + column / 6) * 81 + 11 * (column % 6);
    (at + 81 <= entry.len()).then_some(at)
}

/// A value, and a part, or why there is none.
type Asked = Result<FieldRead, NoAnswer>;
type Found = Result<Part, NoAnswer>;

/// Answers by an index that are changed, by what was asked and by the true answer.
struct ValueSlip(fn(&[u8], &[u32], [u32; 4], Asked) -> Asked);

impl Implementation for ValueSlip {
    fn index_value(&self, entry: &[u8], index: &[u32], place: [u32; 4]) -> Result<FieldRead, NoAnswer> {
        let [n, section, line, column] = place;
        (self.0)(entry, index, place, reference::index_value(entry, index, n, section, line, column))
    }
}

/// Another number where one is given, by the true one.
fn renumbered(answer: Result<FieldRead, NoAnswer>, from: u32, to: u32) -> Result<FieldRead, NoAnswer> {
    answer.map_err(|refused| if refused.number == from { none(to) } else { refused })
}

#[test]
fn slips_in_values_by_an_index_are_found() {
    let slips: [(&str, &dyn Implementation); 10] = [
        (
            "the entry is judged",
            &ValueSlip(|entry, _, _, answer| match reference::judge(entry) {
                Verdict::Accepted(_) => answer,
                Verdict::Refused(refusal) => Err(NoAnswer { number: 31, entry: Some(refusal) }),
            }),
        ),
        ("39 always", &ValueSlip(|_, _, _, answer| answer.map_err(|_| none(39)))),
        (
            "malformed is blank",
            &ValueSlip(|_, _, _, answer| {
                answer.or_else(|refused| match refused.number {
                    39 => Ok(FieldRead::BLANK),
                    _ => Err(refused),
                })
            }),
        ),
        (
            "a blank in COMMON",
            &ValueSlip(|entry, index, [n, section, line, column], answer| {
                let field = field_at(entry, index, [n, section, 2, column]).map(|at| &entry[at..at + 11]);
                let blank = section == 1 && line == 1 && field == Some(&[b' '; 11]);
                // Where the heading can be read, the subentry's record and the section's can.
                let read = blank && reference::index_heading(entry, index, n, section, column).is_ok();
                if read {
                    Ok(FieldRead::BLANK)
                } else {
                    answer
                }
            }),
        ),
        ("15 for 39", &ValueSlip(|_, _, _, answer| renumbered(answer, 39, 15))),
        ("no digits", &ValueSlip(|_, _, _, answer| answer.map(|read| FieldRead { digits: 0, ..read }))),
        (
            "33 before the first record",
            &ValueSlip(|_, index, [n, section, ..], answer| match reference::index_row(index, n) {
                Ok(_) if !(1..=2).contains(&section) => Err(none(33)),
                _ => answer,
            }),
        ),
        (
            "35 before 34",
            &ValueSlip(|entry, index, [n, section, _, column], answer| {
                let first = reference::index_value(entry, index, n, section, 1, column);
                if first == Err(none(35)) {
                    first
                } else {
                    answer
                }
            }),
        ),
        (
            "the heading is read, too",
            &ValueSlip(|entry, index, [n, section, _, column], answer| {
                let heading = reference::index_heading(entry, index, n, section, column);
                answer.and_then(|read| heading.map(|_| read))
            }),
        ),
        (
            "all columns of the line are read",
            &ValueSlip(|entry, index, [n, section, line, _], answer| {
                let others = (1..=18).map(|column| reference::index_value(entry, index, n, section, line, column));
                let wrong = others.into_iter().any(|other| other == Err(none(39)));
                answer.and_then(|read| if wrong { Err(none(39)) } else { Ok(read) })
            }),
        ),
    ];
    indexes_found(&slips, "by ");
}

/// Headings and units, and passages, that are changed likewise.
struct WordSlip(fn(&[u8], &[u32], [u32; 3], Words) -> Words);

/// A heading and its unit.
type Words = [Found; 2];

impl WordSlip {
    fn both(&self, entry: &[u8], index: &[u32], place: [u32; 3]) -> Words {
        let [n, section, column] = place;
        let heading = reference::index_heading(entry, index, n, section, column);
        (self.0)(entry, index, place, [heading, reference::index_unit(entry, index, n, section, column)])
    }
}

impl Implementation for WordSlip {
    fn index_heading(&self, entry: &[u8], index: &[u32], place: [u32; 3]) -> Result<Part, NoAnswer> {
        self.both(entry, index, place)[0]
    }
    fn index_unit(&self, entry: &[u8], index: &[u32], place: [u32; 3]) -> Result<Part, NoAnswer> {
        self.both(entry, index, place)[1]
    }
}

struct PassageSlip(fn(&[u8], &[u32], u32, Key, Found) -> Found);

/// A keyword and a pointer.
type Key<'k> = (&'k [u8], u8);

impl Implementation for PassageSlip {
    fn index_passage(
        &self,
        entry: &[u8],
        index: &[u32],
        n: u32,
        keyword: &[u8],
        pointer: u8,
    ) -> Result<Part, NoAnswer> {
        let answer = reference::index_passage(entry, index, n, keyword, pointer);
        (self.0)(entry, index, n, (keyword, pointer), answer)
    }
}

/// BIB's record and the count of its text in the row of a subentry.
fn bib_of(entry: &[u8], index: &[u32], n: u32) -> (usize, usize) {
    let before = reference::index_row(index, n).unwrap_or(0);
    let record = index[5 * before + 2];
    (record as usize, counted(&mut entry.to_vec(), record, 23) as usize)
}

#[test]
fn slips_in_parts_by_an_index_are_found() {
    let slips: [(&str, &dyn Implementation); 9] = [
        (
            "a unit without its heading",
            &WordSlip(|entry, index, [n, section, column], [heading, unit]| {
                // With a good heading in its place the unit is answered.
                let mut good = entry.to_vec();
                if let Some(at) = field_at(entry, index, [n, section, 0, column]) {
                    good[at..at + 11].copy_from_slice(b"HEADING    ");
                }
                let other = reference::index_unit(&good, index, n, section, column);
                [heading, if heading == Err(none(39)) { other } else { unit }]
            }),
        ),
        (
            "the unit's own pointer",
            &WordSlip(|_, _, _, [heading, unit]| [heading, unit.map(|part| Part { pointer: b' ', ..part })]),
        ),
        (
            "a heading of eleven columns",
            &WordSlip(|_, _, _, [heading, unit]| [heading.map(|part| Part { length: 11, ..part }), unit]),
        ),
        ("the unit for its heading", &WordSlip(|_, _, _, [heading, unit]| [heading.and(unit), unit])),
        (
            "34 for a heading",
            &WordSlip(|_, _, _, both| {
                both.map(|part| {
                    part.map_err(|refused| match refused.number {
                        35 => none(34),
                        _ => refused,
                    })
                })
            }),
        ),
        (
            "up to the end of BIB",
            &PassageSlip(|entry, index, n, _, answer| {
                answer.map(|part| {
                    let (bib, texts) = bib_of(entry, index, n);
                    Part { length: ((bib + texts) * 81).saturating_sub(part.offset).max(81), ..part }
                })
            }),
        ),
        (
            "all of BIB's records are inside",
            &PassageSlip(|entry, index, n, _, answer| {
                answer.and_then(|part| {
                    let (bib, texts) = bib_of(entry, index, n);
                    if (bib + texts) * 81 > entry.len() {
                        Err(none(39))
                    } else {
                        Ok(part)
                    }
                })
            }),
        ),
        (
            "36 where the records end",
            &PassageSlip(|entry, index, n, _, answer| {
                if answer != Err(none(39)) {
                    return answer;
                }
                let (bib, texts) = bib_of(entry, index, n);
                let record = bib.checked_sub(1).and_then(|before| entry.get(81 * before..));
                match record.is_some_and(|record| record.starts_with(b"BIB        "))
                    && (bib + texts) * 81 > entry.len()
                {
                    true => Err(none(36)),
                    false => answer,
                }
            }),
        ),
        (
            "keywords by their words",
            &PassageSlip(|entry, index, n, (keyword, pointer), answer| match keyword.len() {
                10 => answer,
                _ => {
                    let whole = format!("{:10}", String::from_utf8_lossy(keyword).trim_end());
                    reference::index_passage(entry, index, n, whole.as_bytes(), pointer)
                }
            }),
        ),
    ];
    indexes_found(&slips, "by ");
}

/// Both slip alike: then the full answer is due, and the row alone says another.
#[test]
fn slips_of_two_are_found_by_the_full_answer() {
    let slips: [(&str, &dyn Implementation, &str); 3] = [
        (
            "39 by its own index",
            &ValueSlip(|_, _, _, answer| answer.and(Err(none(39)))),
            "by its own index: both, and the full answer: ",
        ),
        ("records from 0", &MakeSlip(records_from_0), "by its own index: both, and the full answer: "),
        (
            "the second row of two",
            &ValueSlip(|entry, index, [n, section, line, column], answer| match index.get(5..) {
                Some(rest) if reference::index_row(rest, n).is_ok() => {
                    reference::index_value(entry, rest, n, section, line, column)
                }
                _ => answer,
            }),
            "by an index, and by its row alone: ",
        ),
    ];
    for (name, slip, words) in slips {
        let said = Pair::new(slip, slip).indexes(SEED, ENTRIES).expect_err(name).words;
        assert!(said.starts_with(words), "{name}: {said}");
    }
}

/// A verdict that judging and explaining do not share.
struct OtherVerdict;

impl Implementation for OtherVerdict {
    fn explain(&self, entry: &[u8]) -> Explained {
        let explained = reference::explain(entry);
        Explained { verdict: refusing(explained.verdict, |r| Refusal { column: r.column + 1, ..r }), ..explained }
    }
    fn explain_file(&self, file: &[u8]) -> Explained {
        let explained = reference::explain_file(file);
        Explained { verdict: refusing(explained.verdict, |r| Refusal { ordinal: 0, ..r }), ..explained }
    }
}

#[test]
fn another_verdict_is_found() {
    let words = Pair::new(&OtherVerdict, &OtherVerdict).entries(SEED, ENTRIES).expect_err("it goes unseen").words;
    assert!(words.starts_with("judge, and explain\n"), "{words}");
    let words = Pair::new(&OtherVerdict, &OtherVerdict).files(SEED, FILES).expect_err("it goes unseen").words;
    assert!(words.starts_with("judge_file, and explain_file\n"), "{words}");
}

/// TRANS and ENDTRANS taken for keywords in BIB, and ENDTRANS for a heading, a unit or a value.
struct FourteenNames(fn(Role) -> bool);

impl Implementation for FourteenNames {
    fn judge(&self, entry: &[u8]) -> Verdict {
        accepting(reference::judge(entry), |refusal| {
            let named = refusal.number == 4
                && [&b"TRANS      "[..], b"ENDTRANS   "].iter().any(|name| at(entry, refusal).starts_with(name));
            named && Tree::of(entry).roles.get(refusal.record as usize - 1).is_some_and(|&role| (self.0)(role))
        })
    }
}

#[test]
fn two_names_overlooked_are_found() {
    let slips = [
        FourteenNames(|role| role == Role::Text),
        FourteenNames(|role| matches!(role, Role::Heading(_))),
        FourteenNames(|role| matches!(role, Role::Unit(_))),
        FourteenNames(|role| matches!(role, Role::Values(_))),
    ];
    for (place, slip) in slips.iter().enumerate() {
        assert!(Pair::new(slip, &Reference).entries(SEED, ENTRIES).is_err(), "{place}: goes unseen");
    }
    // A transmission without entries is one of the limits, too.
    assert_eq!(reference::judge_file(&[common::trans(), end_trans(0)].concat()).numbers()[..3], [4, 2, 1]);
}

#[test]
fn planted_slips_are_found() {
    let slips: [(&str, &dyn Implementation); 17] = [
        ("ExponentLost", &ExponentLost),
        ("RecordsAsLines", &RecordsAsLines),
        ("EndSearched", &EndSearched),
        ("ZeroAsBlank", &ZeroAsBlank),
        ("PointerCarried", &PointerCarried),
        ("WrongColumn 9", &WrongColumn(9)),
        ("WrongColumn 14", &WrongColumn(14)),
        ("TotalsMadeUp", &TotalsMadeUp),
        ("UnitWithoutPointer", &UnitWithoutPointer),
        ("PlainDuplicate", &PlainDuplicate),
        ("StoresFirst", &StoresFirst),
        ("NotShortest", &NotShortest),
        ("FewerDigitsBefore", &FewerDigitsBefore),
        ("ZerosUncounted", &ZerosUncounted),
        ("ExponentCounted", &ExponentCounted),
        ("ZeroCounted", &ZeroCounted),
        ("CountOfTheCopy", &CountOfTheCopy),
    ];
    for (name, slip) in slips {
        assert!(found(slip), "{name} goes unseen");
    }
}

//! Damage to a valid entry: one for each cause in the paper's table of refusals, where the refusal that is due follows
//! from the paper by hand, and noise, where it does not.

use super::sheet::{identifier, repeats, single, word, FILLED, IDENTIFIERS, POINTERS};
use super::{entry, flags, number_field, Kind, Random, Sheet};
use crate::{Refusal, RECORD};

/// What was done, and the refusal that the paper gives for it.
#[derive(Clone, Copy, Debug)]
pub struct Damage {
    /// In words.
    pub cause: &'static str,
    /// The first fault of the damaged entry.
    pub due: Refusal,
}

/// Number, record from 0, column.
pub(super) type Fault = (u32, usize, usize);

/// Damages the entry and says what is due; none if the entry has no place for it.
type Act = fn(&mut Random, &mut Sheet) -> Option<Fault>;

/// Every cause, with what does it.
pub const CAUSES: &[(&str, Act)] = &[
    ("1 empty", empty),
    ("1 cut inside a record", cut_inside),
    ("1 bytes too many", extended),
    ("2 no line feed", no_line_feed),
    ("3 character not permitted", bad_character),
    ("4 record dropped", dropped),
    ("4 END record or other doubled", doubled),
    ("4 BIB N2 too large", bib_n2_large),
    ("4 BIB N2 too small", bib_n2_small),
    ("4 DATA lines too many", lines_large),
    ("4 DATA lines too few", lines_small),
    ("4 identifier inside BIB", identifier_in_bib),
    ("4 END identifier inside a table", end_in_table),
    ("4 TRANS or ENDTRANS inside BIB", transmission_in_bib),
    ("4 ENDTRANS inside a table", end_trans_in_table),
    ("4 NOSUBENT or ENDENTRY before a SUBENT", early_end),
    ("4 record after ENDENTRY", after_end),
    ("4 identifier misspelled", misspelled),
    ("4 NODATA or DATA in 001", data_in_first),
    ("5 accession or subentry changed", wrong_owner),
    ("5 N1 changed alone", wrong_n1),
    ("6 sequence changed", wrong_sequence),
    ("7 blanks before the accession filled", filled_before_accession),
    ("7 accession not in its form", bad_accession),
    ("7 subentry number not in its form", bad_subentry_digits),
    ("7 date not in its form", bad_date),
    ("7 N1 no count", bad_n1),
    ("7 N2 no count", bad_n2),
    ("8 BIB N1 is 0", bib_n1_zero),
    ("8 BIB N2 below N1", bib_n2_below),
    ("8 columns out of range", columns_range),
    ("8 COMMON N2 not 3k", common_n2),
    ("8 lines out of range", lines_range),
    ("8 END count untrue", end_count),
    ("8 keyword total untrue", keyword_total),
    ("8 keyword total and count of ENDBIB untrue", both_on_end_bib),
    ("9 other accession", other_accession),
    ("9 first not 001", first_not_001),
    ("9 not rising", not_rising),
    ("9 000 or 999", forbidden_number),
    ("10 keyword missing", keyword_missing),
    ("10 keyword malformed", keyword_malformed),
    ("10 keyword repeated", keyword_repeated),
    ("11 bad pointer in BIB", bib_pointer_bad),
    ("11 pointer repeated", bib_pointer_repeated),
    ("11 bad pointer on a heading", heading_pointer_bad),
    ("12 heading no word", heading_no_word),
    ("12 unit no word", unit_no_word),
    ("12 unit's eleventh column filled", unit_eleventh),
    ("12 unused field filled", unused_word),
    ("13 heading repeated in its section", repeated_inside),
    ("13 heading repeated beside itself", repeated_beside),
    ("13 heading that may repeat, apart", repeated_apart),
    ("13 heading repeated from COMMON", repeated_across),
    ("14 pointer not found", lost_pointer),
    ("15 value malformed", bad_value),
    ("15 COMMON value blank", common_blank),
    ("15 unused field filled", unused_value),
    ("15 line blank", blank_line),
    ("15 value malformed beside a flag without code", flags::malformed_beside),
    ("16 records end early", ends_early),
    ("17 flag with an exponent", flags::flag_raised),
    ("17 DECAY-FLAG with an exponent", flags::decay_flag_raised),
    ("17 flag without code", flags::code_missing),
    ("17 flag without code past the sixth column", flags::missing_past_the_sixth),
    ("17 flag without code past the twelfth column", flags::missing_past_the_twelfth),
    ("17 code in another subentry", flags::code_elsewhere),
    ("17 code not in its form", flags::code_malformed),
    ("17 code not in its place", flags::code_misplaced),
    ("17 code without digits", flags::code_without_digits),
    ("17 code too large by a power of two or ten", flags::code_too_large),
    ("17 code under another keyword", flags::code_under_another_keyword),
    ("17 flag below zero", flags::flag_below_zero),
    ("17 flag with a fraction", flags::flag_with_fraction),
];

/// Damages an entry by one cause, if it has a place for it.
pub fn damage(random: &mut Random, sheet: &mut Sheet, cause: usize) -> Option<Damage> {
    let (cause, act) = CAUSES[cause];
    let (number, record, column) = act(random, sheet)?;
    let record = if number == 1 { 0 } else { record as u32 + 1 };
    Some(Damage { cause, due: Refusal::new(number, record, column as u32) })
}

/// An entry damaged by one cause: the first of at most twenty that has a place for it. If none has, the last as it is.
pub fn damaged(random: &mut Random, cause: usize) -> (Sheet, Option<Damage>) {
    let mut sheet = entry(random);
    let mut done = damage(random, &mut sheet, cause);
    for _ in 1..20 {
        if done.is_some() {
            break;
        }
        sheet = entry(random);
        done = damage(random, &mut sheet, cause);
    }
    (sheet, done)
}

/// Changes an entry at random, in one place or several. What is due is not known.
pub fn noise(random: &mut Random, sheet: &mut Sheet) {
    for _ in 0..random.one(&[1, 1, 1, 2, 3, 8]) {
        let records = sheet.kinds.len();
        if records < 2 {
            return;
        }
        let at = random.below(records);
        let column = random.within(1, 81);
        match random.below(13) {
            0 => sheet.remove(at),
            1 => {
                let (record, kind) = (sheet.record(at).to_vec(), sheet.kinds[at]);
                sheet.insert(random.below(records), &record, kind);
            }
            2 => {
                let (first, second) = (sheet.record(at).to_vec(), random.below(records));
                let other = sheet.record(second).to_vec();
                sheet.put(at, 1, &other);
                sheet.put(second, 1, &first);
            }
            3 => {
                let field = number_field(random);
                sheet.put(at, 11 * random.below(6) + 1, &field);
            }
            4 => sheet.put(at, 1, format!("{:11}", random.one(&IDENTIFIERS)).as_bytes()),
            5 => sheet.put(at, 11 * random.within(1, 2) + 1, format!("{:>11}", random.below(30)).as_bytes()),
            6 => sheet.put(at, column.min(80), b" "),
            7 => sheet.put(at, column, &[random.bits() as u8]),
            8 => copy_heading(random, sheet),
            9 | 10 => flags::noise(random, sheet),
            _ => sheet.put(at, column.min(80), &[random.one(FILLED)]),
        }
    }
}

/// Copies a field of a heading record to a field of one: the same record or another, beside itself or apart.
fn copy_heading(random: &mut Random, sheet: &mut Sheet) {
    let places = sheet.find(|kind| matches!(kind, Kind::Heading { .. }));
    let Some(from) = pick(random, &places) else { return };
    let to = if random.once_in(4) { random.one(&places) } else { from };
    let field = 11 * random.below(6) + 1;
    let heading = sheet.columns(from, field, field + 10).to_vec();
    let beside = if field < 56 && random.once_in(2) { field + 11 } else { 11 * random.below(6) + 1 };
    sheet.put(to, beside, &heading);
}

/// Bytes without any rule, or of permitted characters in records.
pub fn random_bytes(random: &mut Random) -> Vec<u8> {
    let records = random.below(6);
    let length = if random.once_in(4) { random.below(400) } else { records * RECORD };
    let wild = random.once_in(2);
    (0..length)
        .map(|at| match (wild, at % RECORD) {
            (true, _) => random.bits() as u8,
            (false, 80) => b'\n',
            (false, _) => random.one(b"ENTRY SUBENT00190001  ."),
        })
        .collect()
}

/// One of some places, if there is any.
pub(super) fn pick(random: &mut Random, places: &[usize]) -> Option<usize> {
    if places.is_empty() {
        None
    } else {
        Some(random.one(places))
    }
}

/// A system record with one of these identifiers.
fn system(random: &mut Random, sheet: &Sheet, names: &[&str]) -> Option<usize> {
    let places = sheet.find(|kind| matches!(kind, Kind::System(name) if names.contains(&name)));
    pick(random, &places)
}

/// The number in N1 (field 1) or N2 (field 2).
fn number(sheet: &Sheet, at: usize, field: usize) -> u64 {
    let text = String::from_utf8_lossy(sheet.columns(at, 11 * field + 1, 11 * field + 11)).trim().to_string();
    text.parse().expect("a count")
}

/// Writes a count.
fn set(sheet: &mut Sheet, at: usize, field: usize, count: u64) {
    sheet.put(at, 11 * field + 1, format!("{count:>11}").as_bytes());
}

/// A character that differs from the one that stands there.
fn change(random: &mut Random, sheet: &mut Sheet, at: usize, column: usize, among: &[u8]) {
    let old = sheet.columns(at, column, column)[0];
    let others: Vec<u8> = among.iter().copied().filter(|&byte| byte != old).collect();
    let new = random.one(&others);
    sheet.put(at, column, &[new]);
}

fn empty(_: &mut Random, sheet: &mut Sheet) -> Option<Fault> {
    sheet.bytes.clear();
    Some((1, 0, 0))
}

fn cut_inside(random: &mut Random, sheet: &mut Sheet) -> Option<Fault> {
    let whole = random.below(sheet.kinds.len());
    sheet.bytes.truncate(whole * RECORD + random.within(1, 80));
    Some((1, 0, 0))
}

fn extended(random: &mut Random, sheet: &mut Sheet) -> Option<Fault> {
    let extra = random.within(1, 80);
    sheet.bytes.extend((0..extra).map(|_| random.one(b"\n  X")));
    Some((1, 0, 0))
}

fn no_line_feed(random: &mut Random, sheet: &mut Sheet) -> Option<Fault> {
    let at = random.below(sheet.kinds.len());
    change(random, sheet, at, 81, b"\n \rA\0");
    Some((2, at, 81))
}

fn bad_character(random: &mut Random, sheet: &mut Sheet) -> Option<Fault> {
    let (at, column) = (random.below(sheet.kinds.len()), random.within(1, 80));
    change(random, sheet, at, column, b"#\"$@[]_^|~`{}\\\t\n\r\0\x7F\x80\xB5\xFF");
    Some((3, at, column))
}

fn dropped(random: &mut Random, sheet: &mut Sheet) -> Option<Fault> {
    let places = sheet.find(|kind| matches!(kind, Kind::System(name) if name != "NOSUBENT" && name != "ENDENTRY"));
    let at = pick(random, &places)?;
    // A heading may be spelled like the section that was dropped; then more is due than the missing record.
    if matches!(sheet.kinds[at + 1], Kind::Heading { .. }) && identifier(sheet.columns(at + 1, 1, 11)) {
        return None;
    }
    sheet.remove(at);
    Some((4, at, 1))
}

fn doubled(random: &mut Random, sheet: &mut Sheet) -> Option<Fault> {
    let at = pick(random, &sheet.find(|kind| matches!(kind, Kind::System(_))))?;
    let (record, kind) = (sheet.record(at).to_vec(), sheet.kinds[at]);
    sheet.insert(at, &record, kind);
    Some(match kind {
        // The second is due, but does not rise.
        Kind::System("NOSUBENT") => (9, at + 1, 12),
        // The second stands in the place of headings, out of sequence.
        Kind::System("COMMON" | "DATA") => (6, at + 1, 75),
        _ => (4, at + 1, 1),
    })
}

fn bib_n2_large(random: &mut Random, sheet: &mut Sheet) -> Option<Fault> {
    let at = system(random, sheet, &["BIB"])?;
    let more = random.one(&[1, 1, 2, 20_000, 99_999_000_000]);
    let count = number(sheet, at, 2) + more;
    set(sheet, at, 2, count);
    Some((4, sheet.next(at, "ENDBIB")?, 1))
}

fn bib_n2_small(random: &mut Random, sheet: &mut Sheet) -> Option<Fault> {
    let at = system(random, sheet, &["BIB"])?;
    let (keywords, records) = (number(sheet, at, 1), number(sheet, at, 2));
    if records == keywords {
        return None;
    }
    set(sheet, at, 2, records - 1);
    Some((4, sheet.next(at, "ENDBIB")? - 1, 1))
}

fn lines_large(random: &mut Random, sheet: &mut Sheet) -> Option<Fault> {
    let at = system(random, sheet, &["DATA"])?;
    let lines = number(sheet, at, 2);
    set(sheet, at, 2, random.one(&[lines + 1, lines + 1, lines + 9, 20_000]));
    Some((4, sheet.next(at, "ENDDATA")?, 1))
}

fn lines_small(random: &mut Random, sheet: &mut Sheet) -> Option<Fault> {
    let at = system(random, sheet, &["DATA"])?;
    let (columns, lines) = (number(sheet, at, 1) as usize, number(sheet, at, 2));
    if lines == 1 {
        return None;
    }
    set(sheet, at, 2, lines - 1);
    Some((4, sheet.next(at, "ENDDATA")? - columns.div_ceil(6), 1))
}

fn identifier_in_bib(random: &mut Random, sheet: &mut Sheet) -> Option<Fault> {
    let at = pick(random, &sheet.find(|kind| matches!(kind, Kind::Text { .. })))?;
    sheet.put(at, 1, format!("{:11}", random.one(&IDENTIFIERS)).as_bytes());
    Some((4, at, 1))
}

fn end_in_table(random: &mut Random, sheet: &mut Sheet) -> Option<Fault> {
    let at = pick(random, &sheet.find(|kind| !matches!(kind, Kind::System(_) | Kind::Text { .. })))?;
    let name = random.one(&["ENDBIB", "ENDCOMMON", "ENDDATA", "ENDSUBENT", "ENDENTRY"]);
    sheet.put(at, 1, format!("{name:11}").as_bytes());
    Some((4, at, 1))
}

fn transmission_in_bib(random: &mut Random, sheet: &mut Sheet) -> Option<Fault> {
    let at = pick(random, &sheet.find(|kind| matches!(kind, Kind::Text { .. })))?;
    sheet.put(at, 1, format!("{:11}", random.one(&["TRANS", "ENDTRANS"])).as_bytes());
    Some((4, at, 1))
}

fn end_trans_in_table(random: &mut Random, sheet: &mut Sheet) -> Option<Fault> {
    let at = pick(random, &sheet.find(|kind| !matches!(kind, Kind::System(_) | Kind::Text { .. })))?;
    sheet.put(at, 1, b"ENDTRANS   ");
    Some((4, at, 1))
}

fn early_end(random: &mut Random, sheet: &mut Sheet) -> Option<Fault> {
    sheet.put(1, 1, format!("{:11}", random.one(&["NOSUBENT", "ENDENTRY"])).as_bytes());
    Some((4, 1, 1))
}

fn after_end(random: &mut Random, sheet: &mut Sheet) -> Option<Fault> {
    let records = sheet.kinds.len();
    let at = random.below(records);
    let (record, kind) = (sheet.record(at).to_vec(), sheet.kinds[at]);
    sheet.insert(records, &record, kind);
    Some((4, records, 1))
}

fn misspelled(random: &mut Random, sheet: &mut Sheet) -> Option<Fault> {
    let at = pick(random, &sheet.find(|kind| matches!(kind, Kind::System(_))))?;
    let name = String::from_utf8_lossy(sheet.columns(at, 1, 11)).trim().to_string();
    let wrong = match random.below(4) {
        0 => name.to_lowercase(),
        1 => format!(" {name}"),
        2 => format!("{name:10}{}", char::from(random.one(FILLED))),
        _ => format!("{name}X"),
    };
    sheet.put(at, 1, format!("{wrong:11}").as_bytes());
    Some((4, at, 1))
}

fn data_in_first(random: &mut Random, sheet: &mut Sheet) -> Option<Fault> {
    let at = sheet.next(0, "ENDSUBENT")?;
    let record = sheet.record(at).to_vec();
    sheet.insert(at, &record, Kind::System("NODATA"));
    sheet.put(at, 1, format!("{:11}", random.one(&["DATA", "NODATA"])).as_bytes());
    Some((4, at, 1))
}

fn wrong_owner(random: &mut Random, sheet: &mut Sheet) -> Option<Fault> {
    let (at, column) = (random.below(sheet.kinds.len()), random.within(67, 74));
    change(random, sheet, at, column, FILLED);
    Some((5, at, 67))
}

fn wrong_n1(random: &mut Random, sheet: &mut Sheet) -> Option<Fault> {
    let at = system(random, sheet, &["ENTRY", "SUBENT", "NOSUBENT"])?;
    let column = random.within(if at == 0 { 18 } else { 15 }, 22);
    change(random, sheet, at, column, FILLED);
    Some((5, at, 67))
}

fn wrong_sequence(random: &mut Random, sheet: &mut Sheet) -> Option<Fault> {
    let (at, column) = (random.below(sheet.kinds.len()), random.within(75, 79));
    change(random, sheet, at, column, b" 0123456789A");
    Some((6, at, 75))
}

fn filled_before_accession(random: &mut Random, sheet: &mut Sheet) -> Option<Fault> {
    let at = system(random, sheet, &["ENTRY", "SUBENT", "NOSUBENT"])?;
    let column = random.within(12, if at == 0 { 17 } else { 14 });
    sheet.put(at, column, &[random.one(FILLED)]);
    Some((7, at, 12))
}

/// Puts the same character into N1 and into the identification, so that only the form is wrong.
fn both(sheet: &mut Sheet, at: usize, column: usize, byte: u8) {
    sheet.put(at, column, &[byte]);
    let shift = if at == 0 { 67 - 18 } else { 67 - 15 };
    sheet.put(at, column + shift, &[byte]);
}

fn bad_accession(random: &mut Random, sheet: &mut Sheet) -> Option<Fault> {
    let at = system(random, sheet, &["ENTRY", "SUBENT", "NOSUBENT"])?;
    let first = if at == 0 { 18 } else { 15 };
    match random.below(5) {
        0 => both(sheet, at, first, random.one(b"az(. ")),
        place => both(sheet, at, first + place, random.one(b"AZa-. ")),
    }
    Some((7, at, 12))
}

fn bad_subentry_digits(random: &mut Random, sheet: &mut Sheet) -> Option<Fault> {
    let at = system(random, sheet, &["SUBENT", "NOSUBENT"])?;
    both(sheet, at, random.within(20, 22), random.one(b"AOl. "));
    Some((7, at, 12))
}

fn bad_date(random: &mut Random, sheet: &mut Sheet) -> Option<Fault> {
    let at = system(random, sheet, &["ENTRY", "SUBENT", "NOSUBENT"])?;
    let dates = [
        "",
        "   20241301",
        "   20240001",
        "   20240132",
        "   20240100",
        "  x20240105",
        "    2024105",
        "   2024 105",
        "      240105",
        "20240105   ",
        "   2O240105",
        "  020240105",
    ];
    sheet.put(at, 23, &format!("{:11}", random.one(&dates)).as_bytes()[..11]);
    Some((7, at, 23))
}

/// A field that is no count.
fn no_count(random: &mut Random) -> Vec<u8> {
    let fields = ["", "+2", "-1", "2.", "1 2", "X", "0x2", "1E1", "2 "];
    format!("{:>11}", random.one(&fields)).into_bytes()
}

fn bad_n1(random: &mut Random, sheet: &mut Sheet) -> Option<Fault> {
    let names = ["BIB", "COMMON", "DATA", "ENDBIB", "ENDCOMMON", "ENDDATA", "ENDSUBENT", "ENDENTRY"];
    let at = system(random, sheet, &names)?;
    let field = no_count(random);
    sheet.put(at, 12, &field);
    Some((7, at, 12))
}

fn bad_n2(random: &mut Random, sheet: &mut Sheet) -> Option<Fault> {
    let at = system(random, sheet, &["BIB", "COMMON", "DATA"])?;
    let field = no_count(random);
    sheet.put(at, 23, &field);
    // The form comes before the range, even where the range lies to the left.
    if random.once_in(4) {
        set(sheet, at, 1, 0);
    }
    Some((7, at, 23))
}

fn bib_n1_zero(random: &mut Random, sheet: &mut Sheet) -> Option<Fault> {
    let at = system(random, sheet, &["BIB"])?;
    set(sheet, at, 1, 0);
    Some((8, at, 12))
}

fn bib_n2_below(random: &mut Random, sheet: &mut Sheet) -> Option<Fault> {
    let at = system(random, sheet, &["BIB"])?;
    if random.once_in(2) {
        set(sheet, at, 1, 99_999_999_999);
    } else {
        let below = number(sheet, at, 1) - 1;
        set(sheet, at, 2, below);
    }
    Some((8, at, 23))
}

fn columns_range(random: &mut Random, sheet: &mut Sheet) -> Option<Fault> {
    let at = system(random, sheet, &["COMMON", "DATA"])?;
    set(sheet, at, 1, random.one(&[0, 19, 20, 4_294_967_297, 99_999_999_999]));
    Some((8, at, 12))
}

fn common_n2(random: &mut Random, sheet: &mut Sheet) -> Option<Fault> {
    let at = system(random, sheet, &["COMMON"])?;
    let true_count = number(sheet, at, 2);
    set(sheet, at, 2, random.one(&[true_count + 1, true_count - 1, 0, true_count + 3, true_count + 4_294_967_296]));
    Some((8, at, 23))
}

fn lines_range(random: &mut Random, sheet: &mut Sheet) -> Option<Fault> {
    let at = system(random, sheet, &["DATA"])?;
    set(sheet, at, 2, random.one(&[0, 20_001, 4_294_967_297, 99_999_999_999]));
    Some((8, at, 23))
}

fn end_count(random: &mut Random, sheet: &mut Sheet) -> Option<Fault> {
    let at = system(random, sheet, &["ENDBIB", "ENDCOMMON", "ENDDATA", "ENDSUBENT", "ENDENTRY"])?;
    Some(untrue(random, sheet, at))
}

/// Another count on an END record.
fn untrue(random: &mut Random, sheet: &mut Sheet, at: usize) -> Fault {
    let count = number(sheet, at, 1);
    set(sheet, at, 1, random.one(&[count + 1, count - 1, count + 4_294_967_296, count * 10]));
    (8, at, 12)
}

fn keyword_total(random: &mut Random, sheet: &mut Sheet) -> Option<Fault> {
    let at = system(random, sheet, &["BIB"])?;
    let (keywords, records) = (number(sheet, at, 1), number(sheet, at, 2));
    let wrong = if keywords > 1 && random.once_in(2) { keywords - 1 } else { keywords + 1 };
    if wrong > records {
        return None;
    }
    set(sheet, at, 1, wrong);
    Some((8, sheet.next(at, "ENDBIB")?, 12))
}

fn both_on_end_bib(random: &mut Random, sheet: &mut Sheet) -> Option<Fault> {
    let (_, at, _) = keyword_total(random, sheet)?;
    Some(untrue(random, sheet, at))
}

fn other_accession(random: &mut Random, sheet: &mut Sheet) -> Option<Fault> {
    let at = system(random, sheet, &["SUBENT", "NOSUBENT"])?;
    let column = random.within(15, 19);
    change(random, sheet, at, column, b"0123456789");
    let byte = sheet.columns(at, column, column)[0];
    both(sheet, at, column, byte);
    Some((9, at, 12))
}

/// Gives a subentry another number, in N1 and in the identification.
fn renumber(sheet: &mut Sheet, at: usize, number: usize) {
    for (place, byte) in format!("{number:03}").bytes().enumerate() {
        both(sheet, at, 20 + place, byte);
    }
}

fn first_not_001(random: &mut Random, sheet: &mut Sheet) -> Option<Fault> {
    renumber(sheet, 1, random.one(&[0, 2, 5, 100, 998, 999]));
    Some((9, 1, 12))
}

/// The subentry's number.
fn subentry_number(sheet: &Sheet, at: usize) -> usize {
    String::from_utf8_lossy(sheet.columns(at, 20, 22)).parse().expect("three digits")
}

fn not_rising(random: &mut Random, sheet: &mut Sheet) -> Option<Fault> {
    let places = sheet.find(|kind| matches!(kind, Kind::System("SUBENT" | "NOSUBENT")));
    let later = random.within(1, places.len().max(2) - 1);
    let (&before, &at) = (places.get(later - 1)?, places.get(later)?);
    let least = subentry_number(sheet, before);
    renumber(sheet, at, random.within(1, least));
    Some((9, at, 12))
}

fn forbidden_number(random: &mut Random, sheet: &mut Sheet) -> Option<Fault> {
    let at = system(random, sheet, &["SUBENT", "NOSUBENT"])?;
    renumber(sheet, at, random.one(&[0, 999]));
    Some((9, at, 12))
}

fn keyword_missing(random: &mut Random, sheet: &mut Sheet) -> Option<Fault> {
    let at = pick(random, &sheet.find(|kind| matches!(kind, Kind::Text { first: true })))?;
    sheet.put(at, 1, b"          ");
    Some((10, at, 1))
}

fn keyword_malformed(random: &mut Random, sheet: &mut Sheet) -> Option<Fault> {
    let at = pick(random, &sheet.find(|kind| matches!(kind, Kind::Text { .. })))?;
    let keyword = random.one(&[" TITLE", "A B", "         X", "A        B", " DATA"]);
    sheet.put(at, 1, format!("{keyword:10}").as_bytes());
    Some((10, at, 1))
}

/// The text records of one BIB section.
fn section_text(random: &mut Random, sheet: &Sheet) -> Option<std::ops::Range<usize>> {
    let at = system(random, sheet, &["BIB"])?;
    Some(at + 1..sheet.next(at, "ENDBIB")?)
}

/// Whether a text record begins with blanks.
fn continued(sheet: &Sheet, at: usize) -> bool {
    sheet.columns(at, 1, 10) == b"          "
}

fn keyword_repeated(random: &mut Random, sheet: &mut Sheet) -> Option<Fault> {
    let text = section_text(random, sheet)?;
    let keywords: Vec<usize> = text.clone().filter(|&at| !continued(sheet, at)).collect();
    let earlier = random.one(&keywords);
    let later: Vec<usize> = (earlier + 1..text.end).collect();
    let at = pick(random, &later)?;
    let keyword = sheet.columns(earlier, 1, 10).to_vec();
    sheet.put(at, 1, &keyword);
    // Without the pointer that it had, a keyword may be an identifier.
    Some((if identifier(sheet.columns(at, 1, 11)) { 4 } else { 10 }, at, 1))
}

fn bib_pointer_bad(random: &mut Random, sheet: &mut Sheet) -> Option<Fault> {
    let at = pick(random, &sheet.find(|kind| matches!(kind, Kind::Text { .. })))?;
    sheet.put(at, 11, &[random.one(b"0az(.-+")]);
    Some((11, at, 11))
}

fn bib_pointer_repeated(random: &mut Random, sheet: &mut Sheet) -> Option<Fault> {
    let text = section_text(random, sheet)?;
    let pointed: Vec<usize> = text.clone().filter(|&at| sheet.columns(at, 11, 11) != b" ").collect();
    let earlier = pick(random, &pointed)?;
    let later: Vec<usize> = (earlier + 1..text.end).take_while(|&at| continued(sheet, at)).collect();
    let at = pick(random, &later)?;
    let pointer = sheet.columns(earlier, 11, 11).to_vec();
    sheet.put(at, 11, &pointer);
    Some((11, at, 11))
}

/// A heading record and one of its used fields.
fn heading(random: &mut Random, sheet: &Sheet, only: Option<&str>) -> Option<(usize, usize)> {
    let wanted = |section: &str| only.is_none_or(|only| only == section);
    let places = sheet.find(|kind| matches!(kind, Kind::Heading { section, .. } if wanted(section)));
    let at = pick(random, &places)?;
    match sheet.kinds[at] {
        Kind::Heading { used, .. } => Some((at, random.below(used))),
        _ => None,
    }
}

fn heading_pointer_bad(random: &mut Random, sheet: &mut Sheet) -> Option<Fault> {
    let (at, field) = heading(random, sheet, None)?;
    sheet.put(at, 11 * field + 11, &[random.one(b"0az(.-+")]);
    Some((11, at, 11 * field + 11))
}

/// Ten columns that are no word.
fn no_word(random: &mut Random) -> Vec<u8> {
    format!("{:10}", random.one(&["", " EN", "E N", "         X"])).into_bytes()
}

fn heading_no_word(random: &mut Random, sheet: &mut Sheet) -> Option<Fault> {
    let (at, field) = heading(random, sheet, None)?;
    let place = no_word(random);
    sheet.put(at, 11 * field + 1, &place);
    Some((12, at, 11 * field + 1))
}

/// A unit record and one of its used fields.
fn unit(random: &mut Random, sheet: &Sheet) -> Option<(usize, usize)> {
    let at = pick(random, &sheet.find(|kind| matches!(kind, Kind::Unit { .. })))?;
    match sheet.kinds[at] {
        Kind::Unit { used } => Some((at, random.below(used))),
        _ => None,
    }
}

fn unit_no_word(random: &mut Random, sheet: &mut Sheet) -> Option<Fault> {
    let (at, field) = unit(random, sheet)?;
    let place = no_word(random);
    sheet.put(at, 11 * field + 1, &place);
    Some((12, at, 11 * field + 1))
}

fn unit_eleventh(random: &mut Random, sheet: &mut Sheet) -> Option<Fault> {
    let (at, field) = unit(random, sheet)?;
    sheet.put(at, 11 * field + 11, &[random.one(FILLED)]);
    Some((12, at, 11 * field + 1))
}

/// A record with an unused field, and that field.
fn unused(random: &mut Random, sheet: &Sheet, values: bool) -> Option<(usize, usize)> {
    let places = sheet.find(|kind| match kind {
        Kind::Heading { used, .. } | Kind::Unit { used } => !values && used < 6,
        Kind::Values { used, .. } => values && used < 6,
        _ => false,
    });
    let at = pick(random, &places)?;
    match sheet.kinds[at] {
        Kind::Heading { used, .. } | Kind::Unit { used } | Kind::Values { used, .. } => {
            Some((at, random.within(used, 5)))
        }
        _ => None,
    }
}

fn unused_word(random: &mut Random, sheet: &mut Sheet) -> Option<Fault> {
    let (at, field) = unused(random, sheet, false)?;
    sheet.put(at, 11 * field + random.within(1, 11), &[random.one(FILLED)]);
    Some((12, at, 11 * field + 1))
}

/// Copies a heading with its pointer to another place.
fn repeat(sheet: &mut Sheet, from: (usize, usize), to: (usize, usize)) -> Option<Fault> {
    let heading = sheet.columns(from.0, 11 * from.1 + 1, 11 * from.1 + 11).to_vec();
    sheet.put(to.0, 11 * to.1 + 1, &heading);
    let ends = to.1 == 0 && identifier(&heading) && heading.starts_with(b"END");
    Some((if ends { 4 } else { 13 }, to.0, 11 * to.1 + 1))
}

/// A table: its section, its first heading record and its headings.
pub(super) struct Headings {
    section: &'static str,
    at: usize,
    pub(super) headings: Vec<Vec<u8>>,
}

impl Headings {
    /// Those of the table that a COMMON or DATA record opens.
    pub(super) fn of(sheet: &Sheet, opening: usize) -> Headings {
        let section = if sheet.kinds[opening] == Kind::System("DATA") { "DATA" } else { "COMMON" };
        let columns = number(sheet, opening, 1) as usize;
        let own = Headings { section, at: opening + 1, headings: Vec::new() };
        let places = (0..columns).map(|column| own.place(column));
        let headings = places.map(|(at, field)| sheet.columns(at, 11 * field + 1, 11 * field + 11).to_vec()).collect();
        Headings { headings, ..own }
    }

    /// Record and field of a column, all from 0.
    fn place(&self, column: usize) -> (usize, usize) {
        (self.at + column / 6, column % 6)
    }

    /// Whether the heading of a column may stand on several here, where that can be told.
    fn repeats(&self, column: usize) -> Option<bool> {
        repeats(String::from_utf8_lossy(&self.headings[column][..10]).trim_end(), self.section)
    }
}

/// A table with so many columns or more.
fn table(random: &mut Random, sheet: &Sheet, columns: u64) -> Option<Headings> {
    let mut places = sheet.find(|kind| matches!(kind, Kind::System("COMMON" | "DATA")));
    places.retain(|&at| number(sheet, at, 1) >= columns);
    Some(Headings::of(sheet, pick(random, &places)?))
}

/// A heading that may not repeat, on a later column. What stands to the right of that is not met.
fn repeated_inside(random: &mut Random, sheet: &mut Sheet) -> Option<Fault> {
    let table = table(random, sheet, 2)?;
    let later = random.within(1, table.headings.len() - 1);
    let single: Vec<usize> = (0..later).filter(|&column| table.repeats(column) == Some(false)).collect();
    let earlier = pick(random, &single)?;
    repeat(sheet, table.place(earlier), table.place(later))
}

/// A new word that may not repeat, on two columns side by side.
fn repeated_beside(random: &mut Random, sheet: &mut Sheet) -> Option<Fault> {
    let table = table(random, sheet, 2)?;
    let heading = format!("{:11}", single(random, table.section)).into_bytes();
    // It is new in all sections, so that the second is the first at fault.
    let met = |at: usize| sheet.columns(at, 1, 66).chunks(11).any(|field| field == heading);
    if sheet.find(|kind| matches!(kind, Kind::Heading { .. })).into_iter().any(met) {
        return None;
    }
    let left = random.below(table.headings.len() - 1);
    let (at, field) = table.place(left);
    sheet.put(at, 11 * field + 1, &heading);
    repeat(sheet, (at, field), table.place(left + 1))
}

/// A heading that may repeat, on a later column that is no neighbour of the others.
fn repeated_apart(random: &mut Random, sheet: &mut Sheet) -> Option<Fault> {
    let table = table(random, sheet, 3)?;
    let later = random.within(2, table.headings.len() - 1);
    let apart =
        |&column: &usize| table.repeats(column) == Some(true) && table.headings[column] != table.headings[later - 1];
    let earlier = pick(random, &(0..later).filter(apart).collect::<Vec<_>>())?;
    repeat(sheet, table.place(earlier), table.place(later))
}

/// A heading of COMMON in DATA, or of the COMMON of 001 in another, whether it may repeat or not.
fn repeated_across(random: &mut Random, sheet: &mut Sheet) -> Option<Fault> {
    let (at, field) = heading(random, sheet, None)?;
    let own = (0..at).rev().find(|&at| sheet.kinds[at] == Kind::System("SUBENT"))?;
    let section = (own..at).rev().find(|&at| matches!(sheet.kinds[at], Kind::System(_)))?;
    let second = sheet.find(|kind| kind == Kind::System("ENDSUBENT"))[0];
    let seen = |place: usize| (place < second && own > second) || (own < place && place < section);
    let commons = sheet.find(|kind| matches!(kind, Kind::Heading { section: "COMMON", .. }));
    let commons: Vec<usize> = commons.into_iter().filter(|&place| seen(place)).collect();
    let from = pick(random, &commons)?;
    match sheet.kinds[from] {
        Kind::Heading { used, .. } => repeat(sheet, (from, random.below(used)), (at, field)),
        _ => None,
    }
}

fn lost_pointer(random: &mut Random, sheet: &mut Sheet) -> Option<Fault> {
    let (at, field) = heading(random, sheet, Some("DATA"))?;
    let own = (0..at).rev().find(|&at| sheet.kinds[at] == Kind::System("SUBENT"))?;
    let data = (0..at).rev().find(|&at| sheet.kinds[at] == Kind::System("DATA"))?;
    let end = sheet.find(|kind| kind == Kind::System("ENDSUBENT"))[0];
    let mut lost = POINTERS.to_vec();
    for place in (0..end).chain(own..data) {
        let known: Vec<u8> = match sheet.kinds[place] {
            Kind::Text { .. } => sheet.columns(place, 11, 11).to_vec(),
            Kind::Heading { .. } => (1..=6).map(|field| sheet.columns(place, 11 * field, 11 * field)[0]).collect(),
            _ => Vec::new(),
        };
        lost.retain(|pointer| !known.contains(pointer));
    }
    let pointer = lost.get(random.below(lost.len().max(1)))?;
    let table = Headings::of(sheet, data);
    let column = 6 * (at - table.at) + field;
    sheet.put(at, 11 * field + 11, &[*pointer]);
    // Between two equal headings of its record it parts them, and 13 comes before 14.
    let beside = |near: usize| table.headings.get(near) == Some(&table.headings[column]);
    if field < 5 && column > 0 && beside(column - 1) && beside(column + 1) {
        return Some((13, at, 11 * field + 12));
    }
    Some((14, at, 11 * field + 1))
}

/// A value record and one of its used fields.
fn value(random: &mut Random, sheet: &Sheet, only: Option<&str>) -> Option<(usize, usize)> {
    let wanted = |section: &str| only.is_none_or(|only| only == section);
    let places = sheet.find(|kind| matches!(kind, Kind::Values { section, .. } if wanted(section)));
    let at = pick(random, &places)?;
    match sheet.kinds[at] {
        Kind::Values { used, .. } => Some((at, random.below(used))),
        _ => None,
    }
}

/// Fields that are no numbers, each for its own reason.
pub(super) const NO_NUMBERS: [&str; 24] = [
    "14", ".", "+.", "+ 1.", "- 1.", "1.4-1 ", "1.5E", "1. 5", "1.2.3", "E5", "1.E+", "1.+", "1.4e1", "1.4D1",
    "1.4E -1", "1.- 3", "1.E+ 3", "--1.", "1.5E1 ", "1.4-1 5", "NaN", "1,5", "DATA", "1.5EE1",
];

fn bad_value(random: &mut Random, sheet: &mut Sheet) -> Option<Fault> {
    let (at, field) = value(random, sheet, None)?;
    sheet.put(at, 11 * field + 1, format!("{:>11}", random.one(&NO_NUMBERS)).as_bytes());
    Some((15, at, 11 * field + 1))
}

fn common_blank(random: &mut Random, sheet: &mut Sheet) -> Option<Fault> {
    let (at, field) = value(random, sheet, Some("COMMON"))?;
    sheet.put(at, 11 * field + 1, b"           ");
    Some((15, at, 11 * field + 1))
}

fn unused_value(random: &mut Random, sheet: &mut Sheet) -> Option<Fault> {
    let (at, field) = unused(random, sheet, true)?;
    let text = if random.once_in(2) { "         1.".to_string() } else { format!("{:>11}", word(random)) };
    sheet.put(at, 11 * field + 1, text.as_bytes());
    Some((15, at, 11 * field + 1))
}

fn blank_line(random: &mut Random, sheet: &mut Sheet) -> Option<Fault> {
    let (at, _) = value(random, sheet, Some("DATA"))?;
    let Kind::Values { part, parts, .. } = sheet.kinds[at] else { return None };
    for record in at - part..at - part + parts {
        sheet.put(record, 1, &[b' '; 66]);
    }
    let last = at - part + parts - 1;
    // An unused field that is filled as well stands further to the right.
    if random.once_in(4) {
        if let Kind::Values { used: 0..=5, .. } = sheet.kinds[last] {
            sheet.put(last, 66, b".");
        }
    }
    Some((15, last, 1))
}

fn ends_early(random: &mut Random, sheet: &mut Sheet) -> Option<Fault> {
    let kept = random.within(1, sheet.kinds.len() - 1);
    sheet.bytes.truncate(kept * RECORD);
    sheet.kinds.truncate(kept);
    Some((16, kept, 0))
}

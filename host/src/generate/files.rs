//! Transmissions (M-100): valid ones, ones damaged by a known cause, where the refusal that is due follows from the
//! paper by hand, ones changed at random, and those at the limits.

use super::below::{added, BLANK};
use super::damage::{damage, noise, random_bytes, CAUSES};
use super::sheet::FILLED;
use super::{entry, large, Kind, Random, Shape, Sheet};
use crate::{Refusal, RECORD};

/// A transmission in its parts. Damage may put other records before an entry or behind it.
#[derive(Clone, Debug)]
pub struct Parts {
    /// The TRANS record.
    pub trans: Vec<u8>,
    /// The entries.
    pub entries: Vec<Sheet>,
    /// The ENDTRANS record.
    pub end: Vec<u8>,
    /// What stands behind it.
    pub tail: Vec<u8>,
    /// So many bytes are left of all.
    pub cut: Option<usize>,
}

impl Parts {
    /// The bytes of all.
    pub fn bytes(&self) -> Vec<u8> {
        let entries = self.entries.iter().map(|sheet| sheet.bytes.as_slice()).collect::<Vec<_>>().concat();
        let mut bytes = [&self.trans, &entries, &self.end, &self.tail].map(|part| part.as_slice()).concat();
        bytes.truncate(self.cut.unwrap_or(bytes.len()));
        bytes
    }

    /// How many records stand before an entry, counted from 0; before ENDTRANS, where it is one past the last.
    fn before(&self, index: usize) -> usize {
        1 + self.entries[..index].iter().map(|sheet| sheet.bytes.len() / RECORD).sum::<usize>()
    }

    /// How many records stand before ENDTRANS.
    fn last(&self) -> usize {
        self.before(self.entries.len())
    }

    /// All as one sheet, its records with what they were made as.
    fn sheet(&self) -> Sheet {
        let kinds = self.entries.iter().flat_map(|sheet| sheet.kinds.iter().copied());
        let kinds = [Kind::System("TRANS")].into_iter().chain(kinds).chain([Kind::System("ENDTRANS")]);
        Sheet { bytes: self.bytes(), kinds: kinds.collect() }
    }
}

/// A record of columns 1-33; the others are free on TRANS and ENDTRANS.
fn record(random: &mut Random, busy: bool, text: &str) -> Vec<u8> {
    let mut record = format!("{text:80}\n").into_bytes();
    if busy {
        record[text.len()..RECORD - 1].iter_mut().for_each(|byte| *byte = random.one(FILLED));
    }
    record
}

/// A valid transmission of one to six entries.
pub fn transmission(random: &mut Random) -> Parts {
    let busy = random.once_in(2);
    let identifier: String = (0..4).map(|_| char::from(random.one(b"ABCXYZ0123456789"))).collect();
    let (year, month, day) = (random.within(1960, 2030), random.within(1, 12), random.within(1, 31));
    let trans = record(random, busy, &format!("TRANS{:13}{identifier}   {year}{month:02}{day:02}", ""));
    let entries: Vec<Sheet> = (0..random.one(&[1, 1, 2, 2, 3, 4, 6])).map(|_| entry(random)).collect();
    let count = if random.once_in(8) { format!("{:05}", entries.len()) } else { entries.len().to_string() };
    let end = record(random, busy, &format!("ENDTRANS   {count:>11}"));
    Parts { trans, entries, end, tail: Vec::new(), cut: None }
}

/// Number, record from 0, column, ordinal.
type Due = (u32, usize, usize, usize);

/// Damages a transmission and says what is due; none if it has no place for it.
type Act = fn(&mut Random, &mut Parts) -> Option<Due>;

/// Every cause, with what does it.
pub const FILE_CAUSES: &[(&str, Act)] = &[
    ("1 empty", empty),
    ("1 cut inside a record", cut_inside),
    ("1 bytes too many", extended),
    ("2 no line feed on TRANS or ENDTRANS", no_line_feed),
    ("3 character not permitted on TRANS or ENDTRANS", bad_character),
    ("4 TRANS missing", no_trans),
    ("4 TRANS misspelled", trans_misspelled),
    ("4 ENDTRANS misspelled", end_misspelled),
    ("4 no entry", no_entry),
    ("4 record between entries", between),
    ("4 ENTRY missing", entry_missing),
    ("4 ENDENTRY missing", end_missing),
    ("4 ENDTRANS before an entry", early_end),
    ("4 another transmission behind", another_behind),
    ("4 record behind ENDTRANS", behind),
    ("7 file identifier not in its form", bad_identifier),
    ("7 date not in its form", bad_date),
    ("7 N1 of ENDTRANS no count", bad_count),
    ("8 number of entries untrue", wrong_count),
    ("8 entry dropped", dropped),
    ("8 entry doubled", doubled),
    ("16 ENDTRANS missing", no_end),
    ("16 records end early", ends_early),
    ("2 or 3 on ENTRY", bad_entry_record),
    ("2 to 17 entry damaged", entry_damaged),
];

/// A transmission damaged by one cause: the first of at most twenty that has a place for it, and what is due.
pub fn damaged_file(random: &mut Random, cause: usize) -> (Parts, Option<Refusal>) {
    for _ in 1..20 {
        let mut parts = transmission(random);
        if let Some((number, record, column, ordinal)) = FILE_CAUSES[cause].1(random, &mut parts) {
            let record = if number == 1 { 0 } else { record as u32 + 1 };
            return (parts, Some(Refusal { number, record, column: column as u32, ordinal: ordinal as u32 }));
        }
    }
    (transmission(random), None)
}

/// A transmission: valid, damaged by a cause, changed at random in its records or in its parts, or bytes.
pub fn file_input(random: &mut Random) -> Vec<u8> {
    match random.below(16) {
        0..=3 => transmission(random).bytes(),
        4..=8 => {
            let cause = random.below(FILE_CAUSES.len());
            damaged_file(random, cause).0.bytes()
        }
        // Of damaged entries there are many kinds.
        9..=11 => damaged_file(random, FILE_CAUSES.len() - 1).0.bytes(),
        12 | 13 => {
            let mut sheet = transmission(random).sheet();
            noise(random, &mut sheet);
            sheet.bytes
        }
        14 => {
            let mut parts = transmission(random);
            shuffled(random, &mut parts);
            parts.bytes()
        }
        _ => random_bytes(random),
    }
}

/// Changes the parts at random: entries cut, doubled, dropped, out of order, and any byte of TRANS and ENDTRANS.
fn shuffled(random: &mut Random, parts: &mut Parts) {
    for _ in 0..random.one(&[1, 1, 2, 3]) {
        let count = parts.entries.len();
        match random.below(6) {
            0 if count > 0 => drop(parts.entries.remove(random.below(count))),
            1 if count > 0 => {
                let copy = parts.entries[random.below(count)].clone();
                parts.entries.insert(random.below(count + 1), copy);
            }
            2 if count > 1 => parts.entries.swap(0, random.within(1, count - 1)),
            3 if count > 0 => {
                let sheet = &mut parts.entries[random.below(count)];
                // An entry that was cut before may have no record.
                let kept = random.below(sheet.kinds.len() + 1);
                sheet.bytes.truncate(kept * RECORD);
                sheet.kinds.truncate(kept);
            }
            4 => parts.trans[random.below(RECORD)] = random.one(b" 0A1-#\nX"),
            _ => parts.end[random.below(RECORD)] = random.one(b" 0A1-#\nX"),
        }
    }
}

fn empty(_: &mut Random, parts: &mut Parts) -> Option<Due> {
    parts.cut = Some(0);
    Some((1, 0, 0, 0))
}

fn cut_inside(random: &mut Random, parts: &mut Parts) -> Option<Due> {
    let whole = random.below(parts.bytes().len() / RECORD);
    parts.cut = Some(whole * RECORD + random.within(1, 80));
    Some((1, 0, 0, 0))
}

fn extended(random: &mut Random, parts: &mut Parts) -> Option<Due> {
    let extra = random.within(1, 80);
    parts.tail = (0..extra).map(|_| random.one(b"\n  X")).collect();
    Some((1, 0, 0, 0))
}

/// TRANS or ENDTRANS, and how many records stand before it.
fn either<'p>(random: &mut Random, parts: &'p mut Parts) -> (&'p mut Vec<u8>, usize) {
    let last = parts.last();
    match random.once_in(2) {
        true => (&mut parts.trans, 0),
        false => (&mut parts.end, last),
    }
}

fn no_line_feed(random: &mut Random, parts: &mut Parts) -> Option<Due> {
    let byte = random.one(b" \rA\0");
    let (record, at) = either(random, parts);
    record[RECORD - 1] = byte;
    Some((2, at, 81, 0))
}

fn bad_character(random: &mut Random, parts: &mut Parts) -> Option<Due> {
    let (byte, column) = (random.one(b"#\"$@[]_^|~`{}\\\t\n\r\0\x7F\x80\xB5\xFF"), random.within(1, 80));
    let (record, at) = either(random, parts);
    record[column - 1] = byte;
    Some((3, at, column, 0))
}

fn no_trans(_: &mut Random, parts: &mut Parts) -> Option<Due> {
    parts.trans.clear();
    Some((4, 0, 1, 0))
}

/// A name spelled otherwise in eleven columns.
fn misspelled(random: &mut Random, name: &str) -> Vec<u8> {
    let wrong = match random.below(5) {
        0 => name.to_lowercase(),
        1 => format!(" {name}"),
        2 => format!("{name:10}{}", char::from(random.one(FILLED))),
        3 => format!("{name}X"),
        _ => random.one(&["ENTRY", "ENDENTRY", "SUBENT", "", "ENDTRAN"]).to_string(),
    };
    format!("{wrong:11}").into_bytes()
}

fn trans_misspelled(random: &mut Random, parts: &mut Parts) -> Option<Due> {
    parts.trans[..11].copy_from_slice(&misspelled(random, "TRANS"));
    Some((4, 0, 1, 0))
}

/// Not as ENTRY, which would begin an entry.
fn end_misspelled(random: &mut Random, parts: &mut Parts) -> Option<Due> {
    let name = misspelled(random, "ENDTRANS");
    parts.end[..11].copy_from_slice(&name);
    (name != b"ENTRY      ").then(|| (4, parts.last(), 1, 0))
}

fn no_entry(random: &mut Random, parts: &mut Parts) -> Option<Due> {
    parts.entries.clear();
    let count = random.below(2);
    parts.end = record(random, false, &format!("ENDTRANS   {count:>11}"));
    Some((4, 1, 1, 0))
}

/// Any record but ENTRY and ENDTRANS, before an entry or before ENDTRANS.
fn between(random: &mut Random, parts: &mut Parts) -> Option<Due> {
    let index = random.below(parts.entries.len() + 1);
    let from = &parts.entries[random.below(parts.entries.len())];
    let record = match random.below(4) {
        0 => BLANK.to_vec(),
        1 => parts.trans.clone(),
        2 => from.record(from.kinds.len() - 1).to_vec(),
        _ => from.record(random.within(1, from.kinds.len() - 1)).to_vec(),
    };
    // A heading may be spelled like one of the two.
    if record.starts_with(b"ENTRY      ") || record.starts_with(b"ENDTRANS   ") {
        return None;
    }
    let at = parts.before(index);
    match parts.entries.get_mut(index) {
        Some(sheet) => sheet.insert(0, &record, Kind::System("BIB")),
        None => parts.end = [record, std::mem::take(&mut parts.end)].concat(),
    }
    Some((4, at, 1, 0))
}

fn entry_missing(random: &mut Random, parts: &mut Parts) -> Option<Due> {
    let index = random.below(parts.entries.len());
    parts.entries[index].remove(0);
    Some((4, parts.before(index), 1, 0))
}

/// The entry is still open where the next one or ENDTRANS stands.
fn end_missing(random: &mut Random, parts: &mut Parts) -> Option<Due> {
    let index = random.below(parts.entries.len());
    let sheet = &mut parts.entries[index];
    sheet.remove(sheet.kinds.len() - 1);
    Some((4, parts.before(index + 1), 1, index + 1))
}

/// Its number is that of the entries before it, so that only what stands behind it is not due.
fn early_end(random: &mut Random, parts: &mut Parts) -> Option<Due> {
    if parts.entries.len() < 2 {
        return None;
    }
    let index = random.within(1, parts.entries.len() - 1);
    let at = parts.before(index);
    let early = record(random, false, &format!("ENDTRANS   {index:>11}"));
    parts.entries[index].insert(0, &early, Kind::System("ENDTRANS"));
    Some((4, at + 1, 1, 0))
}

fn another_behind(random: &mut Random, parts: &mut Parts) -> Option<Due> {
    parts.tail = transmission(random).bytes();
    Some((4, parts.last() + 1, 1, 0))
}

/// Of any bytes: the first character that is not permitted, or the line feed, comes before 4.
fn behind(random: &mut Random, parts: &mut Parts) -> Option<Due> {
    parts.tail = added(random, &parts.bytes());
    let permitted = |byte: &u8| FILLED.contains(byte) || *byte == b' ';
    let wrong = parts.tail[..RECORD - 1].iter().position(|byte| !permitted(byte));
    let (number, column) = match (parts.tail[RECORD - 1], wrong) {
        (b'\n', None) => (4, 1),
        (b'\n', Some(at)) => (3, at + 1),
        _ => (2, RECORD),
    };
    Some((number, parts.last() + 1, column, 0))
}

fn bad_identifier(random: &mut Random, parts: &mut Parts) -> Option<Due> {
    match random.once_in(2) {
        true => parts.trans[random.within(11, 17)] = random.one(FILLED),
        false => parts.trans[random.within(18, 21)] = random.one(b" abz+-.("),
    }
    // 12 is the column also where the date is wrong as well.
    if random.once_in(4) {
        parts.trans[22..33].copy_from_slice(b"           ");
    }
    Some((7, 0, 12, 0))
}

fn bad_date(random: &mut Random, parts: &mut Parts) -> Option<Due> {
    let date = random.one(&["", "20240100", "20240132", "20241301", "20240001", "2024010", "2024010X", "1 20240105"]);
    parts.trans[22..33].copy_from_slice(format!("{date:>11}").as_bytes());
    Some((7, 0, 23, 0))
}

fn bad_count(random: &mut Random, parts: &mut Parts) -> Option<Due> {
    let text = random.one(&["", "1.", "+1", "X", "1 ", "1 1", "-1", "1E0"]);
    parts.end[11..22].copy_from_slice(format!("{text:>11}").as_bytes());
    Some((7, parts.last(), 12, 0))
}

fn wrong_count(random: &mut Random, parts: &mut Parts) -> Option<Due> {
    let own = parts.entries.len() as u64;
    let count = random.one(&[own + 1, own - 1, 0, own + 10, own + (1 << 32), 99_999_999_999]);
    parts.end[11..22].copy_from_slice(format!("{count:>11}").as_bytes());
    Some((8, parts.last(), 12, 0))
}

fn dropped(random: &mut Random, parts: &mut Parts) -> Option<Due> {
    if parts.entries.len() < 2 {
        return None;
    }
    parts.entries.remove(random.below(parts.entries.len()));
    Some((8, parts.last(), 12, 0))
}

fn doubled(random: &mut Random, parts: &mut Parts) -> Option<Due> {
    let copy = parts.entries[random.below(parts.entries.len())].clone();
    parts.entries.insert(random.below(parts.entries.len()), copy);
    Some((8, parts.last(), 12, 0))
}

fn no_end(_: &mut Random, parts: &mut Parts) -> Option<Due> {
    parts.end.clear();
    Some((16, parts.last(), 0, 0))
}

fn ends_early(random: &mut Random, parts: &mut Parts) -> Option<Due> {
    let kept = random.within(1, parts.last());
    parts.cut = Some(kept * RECORD);
    Some((16, kept, 0, 0))
}

/// Where columns 1-11 are still ENTRY, it has begun.
fn bad_entry_record(random: &mut Random, parts: &mut Parts) -> Option<Due> {
    let index = random.below(parts.entries.len());
    let (at, column) = (parts.before(index), random.one(&[1, 5, 11, 12, 40, 67, 80, 81]));
    parts.entries[index].put(0, column, &[random.one(b"#\"\0\xFF\r")]);
    let number = if column == RECORD { 2 } else { 3 };
    Some((number, at, column, if column > 11 { index + 1 } else { 0 }))
}

/// One entry damaged as an entry alone: the record is counted from the transmission's start. 1 and 16 are about all
/// bytes.
fn entry_damaged(random: &mut Random, parts: &mut Parts) -> Option<Due> {
    let index = random.below(parts.entries.len());
    let cause = random.below(CAUSES.len());
    let sheet = &mut parts.entries[index];
    let due = damage(random, sheet, cause)?.due;
    if matches!(due.number, 1 | 16) {
        return None;
    }
    let at = due.record as usize - 1;
    let named = |at: usize, name: &str| sheet.columns(at, 1, 11) == format!("{name:11}").as_bytes();
    let end = (0..sheet.bytes.len() / RECORD).find(|&at| named(at, "ENDENTRY"));
    let past = end.is_some_and(|end| at > end);
    // Behind its end another entry may begin.
    if past && (named(at, "ENTRY") || named(at, "ENDTRANS")) {
        return None;
    }
    let outside = past || (at == 0 && !named(at, "ENTRY"));
    Some((due.number, parts.before(index) + at, due.column as usize, if outside { 0 } else { index + 1 }))
}

/// Transmissions at the limits: an entry of 20,000 records and one of 20,001, alone and among others, with and without
/// its end; and 200,000 records and 200,001.
pub fn file_limits() -> Vec<Vec<u8>> {
    let mut random = Random::seeded(1);
    let Parts { trans, entries, .. } = transmission(&mut random);
    let small = entries[0].bytes.clone();
    let mut full = |records| large(&mut random, Shape::Text, records);
    let (most, more, rest) = (full(20_000), full(20_001), full(19_998));
    let whole = |entries: &[&[u8]]| {
        let end = format!("{:80}\n", format!("ENDTRANS   {:>11}", entries.len()));
        [&trans, entries.concat().as_slice(), end.as_bytes()].concat()
    };
    let open = &more[..20_000 * RECORD];
    let ten: Vec<&[u8]> = [[most.as_slice(); 9].as_slice(), &[&rest]].concat();
    let large = whole(&ten);
    let past = [large.as_slice(), &BLANK].concat();
    let files = [whole(&[&most]), whole(&[&more]), whole(&[&small, &most, &small]), whole(&[&small, &more, &small])];
    let cut = [[&trans, open].concat(), whole(&[open]), whole(&[&small, open, &small]), whole(&[&open[RECORD..]])];
    files.into_iter().chain(cut).chain([large, past]).collect()
}

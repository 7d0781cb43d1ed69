//! A refusal in words: what was expected in that place, what stands there, and the record with a mark under it.
//!
//! The number, record and column come from judging, and for 5, 6, 8, 9, 13 and 14 the facts come from the same call, as
//! the reason (M-108). The words are made here, with what else they say from the entry laid out by the reference. Like
//! the refusal they depend on nothing below its record (M-111). Three look at all the input: the words for 1, the note
//! on an input that holds several entries, and the count of the records below. In a transmission (M-100) the words on a
//! refusal inside an entry are those of that entry, with its records counted from the start of the transmission.

use crate::answers::counted;
use crate::reference::flags::{codes, without_zeros_before, Codes, FlagFault, FlagHeading};
use crate::reference::may_repeat;
use crate::reference::record::{blank, count, is_pointer, is_word, Name, Record};
use crate::reference::tree::{Cell, Role, Stop, Subentry, Table, Tree};
use crate::transmission::Place;
use crate::{Reason, Refusal, RECORD};
use std::collections::BTreeSet;

/// What can be said of a refusal.
#[derive(Clone, Debug, PartialEq, Eq)]
pub struct Explanation {
    /// What should stand there.
    pub expected: String,
    /// What stands there.
    pub found: String,
    /// What may be behind it, where that can be told.
    pub note: Option<String>,
}

/// Puts a refusal into words, where it and its reason are what [`crate::library::explain`] says of this very entry.
pub fn explain(entry: &[u8], refusal: &Refusal, reason: Reason) -> Explanation {
    match refusal.number {
        1 => wrong_length(entry, "20,000"),
        _ => explain_behind(entry, refusal, reason, 0),
    }
}

/// Puts the refusal of a transmission into words, where it and its reason are what [`crate::library::explain_file`]
/// says of this very transmission.
pub fn explain_file(file: &[u8], refusal: &Refusal, reason: Reason) -> Explanation {
    if refusal.number == 1 {
        return wrong_length(file, "200,000");
    }
    let place = Place::of(file, refusal);
    let own = Refusal::new(refusal.number, place.record as u32, refusal.column);
    let Some(entry) = place.entry else { return explain_outside(file, &own, reason, &place) };
    let mut words = explain_behind(entry, &own, reason, place.before);
    if (own.number, own.record) == (4, 20_001) {
        words.expected = "nothing: an entry has 20,000 records at the most".into();
        return words;
    }
    words.note = words.note.or_else(|| not_ended(entry, &own, &place));
    words
}

/// That an entry has not ended, where the input ends or a record stands that is in no entry.
fn not_ended(entry: &[u8], refusal: &Refusal, place: &Place) -> Option<String> {
    let name = entry.chunks_exact(RECORD).nth(place.record - 1).and_then(|record| Name::of(Record(record)));
    let open = matches!(name, Some(Name::Entry | Name::Trans | Name::EndTrans));
    let told = refusal.number == 16 || (refusal.number == 4 && open);
    let words = format!("{} begins on record {} and has no ENDENTRY yet", place.entry_in_words()?, place.before + 1);
    told.then_some(words)
}

/// Explains the refusal of a record that is in no entry: TRANS, ENDTRANS, one between entries or one behind ENDTRANS.
fn explain_outside(file: &[u8], refusal: &Refusal, reason: Reason, place: &Place) -> Explanation {
    let seen = &file[..((place.before + place.record) * RECORD).min(file.len())];
    let tree = Tree::of(&seen[(seen.len() - RECORD)..]);
    let case = Case { tree: &tree, at: 0, column: refusal.column as usize, before: 0, reason };
    let due = match (place.before, place.record, place.entries) {
        (0, ..) => "TRANS",
        (_, 1, 0) => "ENTRY",
        (_, 1, _) => "ENTRY or ENDTRANS",
        _ => "nothing: a transmission ends with ENDTRANS",
    };
    let (expected, found) = match refusal.number {
        2 | 3 => case.characters(refusal.number),
        4 => (due.into(), case.columns(1, 11)),
        7 if place.before > 0 => (COUNT.into(), case.field()),
        7 if refusal.column == 12 => ("7 blanks and the file identifier: 4 capitals or digits".into(), case.field()),
        7 => (DATE.into(), case.field()),
        8 => (case.count(), case.field()),
        _ => (due.into(), "the end of the input".into()),
    };
    let empty = refusal.number == 4 && due == "ENTRY" && Name::of(case.record()) == Some(Name::EndTrans);
    let empty = empty.then(|| "a transmission has one entry at least".into());
    Explanation { expected: or_meaning(expected, refusal), found, note: empty.or_else(|| note(seen, refusal, 0)) }
}

/// Where the input is laid out otherwise than judging took it, or the reason is another's, the refusal's own words are
/// left.
fn or_meaning(expected: String, refusal: &Refusal) -> String {
    match expected.is_empty() {
        true => format!("not this: {}", refusal.meaning()),
        false => expected,
    }
}

/// Explains a refusal in an entry that so many records stand before, which do not belong to it.
fn explain_behind(entry: &[u8], refusal: &Refusal, reason: Reason, before: usize) -> Explanation {
    // The records up to the refused one, which with 16 is one past the last.
    let seen = &entry[..(refusal.record as usize).min(entry.len() / RECORD) * RECORD];
    let tree = Tree::of(seen);
    let at = refusal.record as usize - 1;
    let case = Case { tree: &tree, at, column: refusal.column as usize, before, reason };
    let (expected, found) = match refusal.number {
        2 | 3 => case.characters(refusal.number),
        4 => (case.due_record(), case.columns(1, 11)),
        5 => (case.identification(5), case.columns(67, 74)),
        6 => (case.identification(6), case.columns(75, 79)),
        7 => (case.form().into(), case.field()),
        8 => (case.count(), case.field()),
        9 => (case.subentry_number(), case.field()),
        10 => (case.keyword(), case.columns(1, 10)),
        11 => (case.pointer(), case.character()),
        12 => (case.word(), case.field()),
        13 => (case.other_heading(), case.field()),
        14 => (case.known_pointer(), case.field()),
        15 => (case.value(), case.field()),
        17 => (case.flag(), case.field()),
        _ => (case.due_record(), "the end of the input".into()),
    };
    let note = case.flag_note(refusal).or_else(|| note(seen, refusal, before));
    Explanation { expected: or_meaning(expected, refusal), found, note }
}

/// The record of a refusal as compilers of programs show a line: its number, its text, and a mark under the column.
/// There is none where the refusal names no record of the entry.
pub fn shown(entry: &[u8], refusal: &Refusal) -> Option<String> {
    let record = entry.get((refusal.record as usize).checked_sub(1)? * RECORD..)?.get(..RECORD)?;
    let width = match refusal.number {
        2 | 3 | 11 => 1,
        5 => 8,
        6 => 5,
        10 => 10,
        _ => 11,
    };
    Some(marked(&record[..80], refusal.record, refusal.column as usize, width))
}

/// A line with its number, and a mark under so many columns.
pub(crate) fn marked(line: &[u8], number: u32, column: usize, width: usize) -> String {
    let text: String = line.iter().map(|&byte| printable(byte)).collect();
    let margin = " ".repeat(number.to_string().len());
    let before = " ".repeat(column - 1);
    format!("  {number} | {}\n  {margin} | {before}^{}\n", text.trim_end(), "~".repeat(width - 1))
}

/// A byte as one character of a line.
fn printable(byte: u8) -> char {
    if byte.is_ascii_graphic() || byte == b' ' {
        char::from(byte)
    } else {
        '?'
    }
}

/// Bytes between quotation marks.
pub(crate) fn quoted(bytes: &[u8]) -> String {
    if !bytes.is_empty() && blank(bytes) {
        return "blanks".into();
    }
    let text: String = bytes.iter().map(|&byte| printable(byte)).collect();
    format!("'{text}'")
}

/// One byte in words.
pub(crate) fn named(byte: u8) -> String {
    match byte {
        b'\n' => "a line feed".into(),
        b'\r' => "a carriage return".into(),
        b'\t' => "a tab".into(),
        b' ' => "a blank".into(),
        _ if byte.is_ascii_graphic() => format!("'{}'", char::from(byte)),
        _ => format!("byte {byte}"),
    }
}

/// Identifiers one of which is due.
fn either(names: &[Name]) -> String {
    let names: Vec<&str> = names.iter().map(|name| name.spelling()).collect();
    names.join(" or ")
}

/// What is due in a field beyond the table's columns.
fn unused(table: &Table, cell: &Cell) -> String {
    let columns = counted(table.columns, "column", "columns");
    format!("blanks, as the table has {columns} and this would be column {}", cell.column)
}

/// The characters that are permitted.
pub(crate) const PERMITTED: &str = "a blank, a letter, a digit or one of + - . ) ( * / = ' , % < > : ; ! ? &";

/// The form of a date.
const DATE: &str = "3 blanks and a date YYYYMMDD, month 01-12, day 01-31";

/// The form of a count.
const COUNT: &str = "a count: blanks, then digits up to the last column";

/// One refused place in an entry that is laid out.
struct Case<'t, 'a> {
    tree: &'t Tree<'a>,
    at: usize,
    column: usize,
    /// How many records of a transmission stand before the entry.
    before: usize,
    /// The facts of the refusal.
    reason: Reason,
}

impl<'t, 'a> Case<'t, 'a> {
    fn record(&self) -> Record<'a> {
        self.tree.records[self.at]
    }

    fn columns(&self, first: usize, last: usize) -> String {
        quoted(self.record().columns(first, last))
    }

    /// How a record of the entry is counted, from 1 at the start of all.
    fn counted(&self, at: usize) -> usize {
        self.before + at + 1
    }

    /// A table as its first record announces it.
    fn announced(&self, table: &Table) -> String {
        let columns = counted(table.columns, "column", "columns");
        let shape = match table.name {
            Name::Common => columns,
            _ => format!("{columns}, {}", counted(table.lines, "line", "lines")),
        };
        format!("{} on record {} ({shape})", table.name.spelling(), self.counted(table.opening))
    }

    /// Refusals 2 and 3: the line feed, or what is permitted, and the character that stands there.
    fn characters(&self, number: u32) -> (String, String) {
        let expected = match number {
            2 => "a line feed in byte 81",
            _ => PERMITTED,
        };
        (expected.into(), self.character())
    }

    /// The eleven columns from the refused one on.
    fn field(&self) -> String {
        self.columns(self.column, (self.column + 10).min(66))
    }

    fn character(&self) -> String {
        named(self.record().0[self.column - 1])
    }

    /// The subentry that the record lies in or opens.
    fn subentry(&self) -> Option<&'t Subentry> {
        self.tree.subentries.iter().rev().find(|subentry| subentry.opening <= self.at)
    }

    /// Refusals 5 and 6: the owner, or the sequence.
    fn identification(&self, number: u32) -> String {
        self.reason.expected(number).map_or(String::new(), quoted)
    }

    /// The table that the record lies in.
    fn table(&self) -> Option<&'t Table> {
        self.subentry()?.tables().find(|table| (table.opening..=table.opening + table.records()).contains(&self.at))
    }

    /// The refused field of a table.
    fn cell(&self) -> Option<Cell<'a>> {
        let table = self.table()?;
        let row = self.at.checked_sub(table.opening + 1)? / table.records_per_line();
        let mut cells = table.cells(self.tree, row);
        cells.find(|cell| cell.record == self.at && cell.field == (self.column - 1) / 11)
    }

    fn name(&self) -> Option<Name> {
        match self.tree.roles.get(self.at) {
            Some(Role::System(name)) => Some(*name),
            _ => None,
        }
    }

    /// Refusals 4 and 16: what the record should have been.
    fn due_record(&self) -> String {
        match (&self.tree.stop, self.tree.roles.get(self.at)) {
            (_, Some(_)) => self.due_in_section(),
            (Stop::NotDue(_, due), _) if due.is_empty() => "nothing: an entry ends with ENDENTRY".into(),
            (Stop::NotDue(_, due) | Stop::RanOut(due), _) if !due.is_empty() => either(due) + &self.because(due),
            _ => self.due_in_section(),
        }
    }

    /// Why an END record is due.
    fn because(&self, due: &[Name]) -> String {
        let Some(subentry) = self.subentry() else { return String::new() };
        let table = match due {
            [Name::EndCommon] => subentry.common.as_ref(),
            [Name::EndData] => subentry.data.as_ref(),
            _ => None,
        };
        match (table, &subentry.bib) {
            (Some(table), _) => format!(", as the {} records of {} end here", table.records(), self.announced(table)),
            (None, Some(bib)) if due == [Name::EndBib] => {
                format!(", as the {} records of BIB on record {} end here", bib.text.len(), self.counted(bib.opening))
            }
            _ => String::new(),
        }
    }

    /// What is due inside a section.
    fn due_in_section(&self) -> String {
        if let Some(table) = self.table() {
            let place = self.at - table.opening;
            return format!("record {place} of the {} that {} announces", table.records(), self.announced(table));
        }
        match self.subentry().and_then(|subentry| subentry.bib.as_ref()) {
            Some(bib) => {
                let records = String::from_utf8_lossy(self.tree.records[bib.opening].n2()).trim().to_string();
                let place = self.at - bib.opening;
                format!("record {place} of the {records} that BIB on record {} announces", self.counted(bib.opening))
            }
            None => "ENTRY".into(),
        }
    }

    /// Refusal 7: the form of the field.
    fn form(&self) -> &'static str {
        match (self.name(), self.column) {
            (Some(Name::Entry), 12) => "6 blanks and the accession: a capital or digit, then 4 digits",
            (Some(Name::Subent | Name::NoSubent), 12) => {
                "3 blanks, the accession (a capital or digit, 4 digits), 3 digits"
            }
            (Some(Name::Entry | Name::Subent | Name::NoSubent), _) => DATE,
            _ => COUNT,
        }
    }

    /// Refusal 8: the range, or the true count.
    fn count(&self) -> String {
        match self.reason {
            Reason::Range { least, greatest: 0 } => match self.column {
                12 => format!("at least {}", counted(least, "keyword", "keywords")),
                _ => format!("at least {}, one for each keyword", counted(least, "record", "records")),
            },
            Reason::Range { least, greatest } => {
                format!("{least} to {greatest} {}", if self.column == 12 { "columns" } else { "lines" })
            }
            Reason::Count { announced, due } => self.true_count(announced, due),
            _ => String::new(),
        }
    }

    /// What it is that was counted.
    fn true_count(&self, announced: u64, due: u64) -> String {
        match Name::of(self.record()) {
            Some(Name::Common) => {
                let columns = count(self.record().n1()).unwrap_or(0);
                format!("{due} records for {}", counted(columns, "column", "columns"))
            }
            Some(Name::EndBib) => self.end_bib(announced, due),
            Some(Name::EndEntry) => format!("{due}, the subentries"),
            Some(Name::EndTrans) => format!("{due}, the entries"),
            _ => format!("{due}, the records between"),
        }
    }

    /// On ENDBIB its own count is judged, and then the keyword total that BIB announced.
    fn end_bib(&self, announced: u64, due: u64) -> String {
        let bib = self.subentry().and_then(|subentry| subentry.bib.as_ref());
        let says = count(self.record().n1());
        match bib.filter(|bib| says == Some(bib.text.len() as u64)) {
            None => format!("{due}, the records between"),
            Some(bib) => {
                let total = counted(due, "keyword", "keywords");
                format!("{total} in N1 of BIB on record {}, which says {announced}", self.counted(bib.opening))
            }
        }
    }

    /// Refusal 9.
    fn subentry_number(&self) -> String {
        let accession = quoted(self.tree.records[0].columns(18, 22));
        match self.reason {
            Reason::Previous(0) => format!("accession {accession} and number 001, as this is the first subentry"),
            Reason::Previous(before) => format!("accession {accession} and a number above {before:03}, at most 998"),
            _ => String::new(),
        }
    }

    /// Refusal 10.
    fn keyword(&self) -> String {
        let keyword = self.record().keyword();
        let Some(bib) = self.subentry().and_then(|subentry| subentry.bib.as_ref()) else { return String::new() };
        if blank(keyword) {
            return "a keyword, as this is the first record of BIB".into();
        }
        if !is_word(keyword) {
            return "a keyword: a word from column 1, blanks behind it; or ten blanks".into();
        }
        let first = bib.text.clone().find(|&at| self.tree.records[at].keyword() == keyword).unwrap_or(self.at);
        format!("a keyword that this BIB does not have yet; record {} has this one", self.counted(first))
    }

    /// Refusal 11.
    fn pointer(&self) -> String {
        let byte = self.record().0[self.column - 1];
        let bib = self.subentry().and_then(|subentry| subentry.bib.as_ref());
        let bib = bib.filter(|bib| is_pointer(byte) && bib.text.contains(&self.at));
        let Some(bib) = bib else { return "a pointer, 1-9 or A-Z, or a blank".into() };
        let earlier = (bib.text.start..self.at).rev().find(|&at| self.tree.records[at].pointer() == byte);
        let earlier = self.counted(earlier.unwrap_or(self.at));
        format!("a pointer that is new under its keyword; record {earlier} has this one")
    }

    /// Refusal 12.
    fn word(&self) -> String {
        let Some(table) = self.table() else { return String::new() };
        match (self.cell(), self.tree.roles[self.at]) {
            (Some(cell), _) if !cell.used => unused(table, &cell),
            (Some(cell), Role::Unit(_)) if is_word(cell.word()) => "a blank in the unit's eleventh column".into(),
            (_, Role::Unit(_)) => "a unit: a word of at most ten columns".into(),
            _ => "a heading: a word of at most ten columns".into(),
        }
    }

    /// Refusal 13: in another section, not a word that may repeat, or apart from the others.
    fn other_heading(&self) -> String {
        let Reason::Equal { record, column } = self.reason else { return String::new() };
        let (Some(subentry), Some(table), Some(own)) = (self.subentry(), self.table(), self.cell()) else {
            return String::new();
        };
        let at = (record as usize).saturating_sub(self.before + 1);
        let wanted = if at < subentry.opening {
            "a heading that COMMON of 001 does not have".into()
        } else if at < table.opening {
            "a heading that COMMON does not have".into()
        } else if may_repeat(own.word(), table.name) {
            "a heading that is new here, or one beside its equals".into()
        } else {
            format!("a heading that is new here, as this one may not repeat in {}", table.name.spelling())
        };
        format!("{wanted}; record {record}, column {column} has this one")
    }

    /// Refusal 14: the pointer, and those that there are.
    fn known_pointer(&self) -> String {
        let Reason::Pointer(pointer) = self.reason else { return String::new() };
        let first = self.tree.subentries.first();
        let mut known = BTreeSet::new();
        for place in first.into_iter().chain(self.subentry()) {
            if let Some(bib) = &place.bib {
                known.extend(self.tree.records[bib.text.clone()].iter().map(|record| record.pointer()));
            }
            known.extend(place.common.iter().flat_map(|table| table.headings(self.tree)).map(|cell| cell.eleventh()));
        }
        let known: Vec<String> = known.into_iter().filter(|&byte| byte != b' ').map(|byte| quoted(&[byte])).collect();
        let known = if known.is_empty() { "there is none".into() } else { format!("there are {}", known.join(" ")) };
        format!("a pointer of BIB or COMMON, in this subentry or 001 ({known}), not {}", quoted(&[pointer]))
    }

    /// Refusal 15.
    fn value(&self) -> String {
        let (Some(table), Some(cell)) = (self.table(), self.cell()) else { return String::new() };
        if !cell.used {
            return unused(table, &cell);
        }
        match (blank(cell.bytes), table.name) {
            (true, Name::Common) => "a number: COMMON values are never blank".into(),
            (true, _) => "at least one number on the line that ends here".into(),
            _ => "a number: blanks, a sign or none, digits with one point; then blanks, or an exponent that ends the \
                  field: a sign and digits, or E and digits"
                .into(),
        }
    }

    /// The flag heading over the refused number, and what is wrong with the number.
    fn flag_fault(&self) -> Option<(FlagHeading, FlagFault)> {
        let (subentry, table, cell) = (self.subentry()?, self.table()?, self.cell()?);
        let heading = FlagHeading::of(&table.headings(self.tree).nth(cell.column - 1)?)?;
        Some((heading, Codes::of(self.tree, subentry).fault(heading, cell.bytes)?))
    }

    /// Refusal 17.
    fn flag(&self) -> String {
        match self.flag_fault() {
            Some((_, FlagFault::Exponent)) => "a number without exponent".into(),
            Some((_, FlagFault::NoCode)) => self.coded(),
            None => String::new(),
        }
    }

    /// Where no code is equal: the codes that there are, equal ones once, the first twelve of them.
    fn coded(&self) -> String {
        let mut codes = self.subentry().map(|subentry| codes(self.tree, subentry)).unwrap_or_default();
        let mut met = BTreeSet::new();
        codes.retain(|digits| met.insert(without_zeros_before(digits)));
        let listed = codes.iter().take(12).map(|digits| code_text(digits)).collect::<Vec<_>>().join(", ");
        match codes.len() {
            0 => "a number that equals a code under FLAG; there is none".into(),
            1 => format!("a number that equals the code under FLAG: {listed}"),
            2..=12 => format!("a number that equals one of the codes under FLAG: {listed}"),
            many => format!("a number that equals one of the codes under FLAG: {listed} and {} more", many - 12),
        }
    }

    /// The rule that a flag breaks.
    fn flag_note(&self, refusal: &Refusal) -> Option<String> {
        if refusal.number != 17 {
            return None;
        }
        let (heading, fault) = self.flag_fault()?;
        Some(match fault {
            FlagFault::Exponent => format!("a number under {} has no exponent", heading.spelling()),
            FlagFault::NoCode => CODE.into(),
        })
    }
}

/// How a code is written.
const CODE: &str =
    "a code is ( in column 12, one digit at least, a point and ), as in (2.), under the keyword FLAG of \
                    this subentry or of 001";

/// A code, and of one of more than twenty digits the first and last eight.
fn code_text(digits: &[u8]) -> String {
    let text = String::from_utf8_lossy(digits);
    match text.len() {
        0..=20 => format!("({text}.)"),
        length => format!("({}..{}.)", &text[..8], &text[length - 8..]),
    }
}

/// Refusal 1, where so many records are the most.
fn wrong_length(entry: &[u8], most: &str) -> Explanation {
    let (records, rest) = (entry.len() / RECORD, entry.len() % RECORD);
    let bytes = |count: usize| counted(count, "byte", "bytes");
    let found = match (entry.len(), counted(records, "record", "records")) {
        (0, _) => "no bytes".into(),
        (length, records) if rest != 0 => format!("{}: {records} and {}", bytes(length), bytes(rest)),
        (length, records) => format!("{}: {records}", bytes(length)),
    };
    let expected = format!("1 to {most} records of 81 bytes each, 80 columns and a line feed");
    Explanation { expected, found, note: odd_line(entry, false, 0) }
}

/// The headings that may repeat.
const REPEATING: &str =
    "E-LVL, EN-RES, ..-ERR, ..-RSL and ANG.. may repeat, and in DATA FLAG and HL..; all equal ones \
                         side by side in one section";

/// What may be behind a refusal: a heading thought to repeat, or a line that is not 80 columns long.
fn note(seen: &[u8], refusal: &Refusal, before: usize) -> Option<String> {
    match refusal.number {
        13 => Some(REPEATING.into()),
        2 | 3 => odd_line(seen, true, before),
        _ => None,
    }
}

/// The first line that is not 80 columns long, with so many before the first. Where the bytes are cut off behind a
/// record, the last line may go on.
fn odd_line(bytes: &[u8], cut: bool, before: usize) -> Option<String> {
    odd_line_of("record", RECORD - 1, bytes, cut, before)
}

/// The same of lines with another number of columns, and another name.
pub(crate) fn odd_line_of(name: &str, columns: usize, bytes: &[u8], cut: bool, before: usize) -> Option<String> {
    if bytes.is_empty() {
        return None;
    }
    let lines = bytes.strip_suffix(b"\n").unwrap_or(bytes).split(|&byte| byte == b'\n');
    let (number, line) = lines.enumerate().find(|(_, line)| line.len() != columns)?;
    let ending = match (line.get(columns..), cut) {
        (Some(b"\r"), true) => format!("has a carriage return in column {}", columns + 1),
        (Some(b"\r"), false) => "ends with a carriage return".into(),
        (Some(_), true) => format!("has more than {columns} columns"),
        _ => format!("has {}", counted(line.len(), "column", "columns")),
    };
    Some(format!("line {} {ending}; a {name} has {columns} columns and a line feed", before + number + 1))
}

/// The records below a refused one of an entry or a transmission, which its refusal does not depend on (M-111), if
/// there are any.
pub fn below(entry: &[u8], refusal: &Refusal) -> Option<String> {
    let below = (entry.len() / RECORD).checked_sub(refusal.record as usize)?;
    let told = refusal.at_record() && below > 0;
    told.then(|| format!("{}, which cannot change this refusal", counted(below, "record", "records")))
}

/// The note on a refusal: that the input holds several entries, or else what its words note.
pub fn note_on(entry: &[u8], refusal: &Refusal, words: &Explanation) -> Option<String> {
    several_entries(entry, refusal).or_else(|| words.note.clone())
}

/// Whether an input that is refused by 1 or 4 goes on after its first entry, and is no transmission. This is said of
/// all the input, also of what stands below the refused record.
fn several_entries(bytes: &[u8], refusal: &Refusal) -> Option<String> {
    if !matches!(refusal.number, 1 | 4) {
        return None;
    }
    let begins = |record: &&[u8], name: &str| record.get(..11) == Some(format!("{name:11}").as_bytes());
    let mut records = bytes.chunks(RECORD);
    records.find(|record| begins(record, "ENDENTRY"))?;
    let more = records.filter(|record| begins(record, "ENTRY")).count();
    let how = "one entry is judged, or a transmission, with TRANS before its entries and ENDTRANS behind them";
    (more > 0).then(|| format!("the input holds {} entries; {how}", more + 1))
}

//! Valid entries, laid out record by record.

use super::{flags, spelling, Random};
use crate::RECORD;
use std::collections::BTreeSet;

/// What a record of a sheet is.
#[derive(Clone, Copy, Debug, PartialEq, Eq)]
pub enum Kind {
    /// A system record, by its identifier.
    System(&'static str),
    /// A record of BIB.
    Text {
        /// The first of its section.
        first: bool,
    },
    /// A heading record.
    Heading {
        /// COMMON or DATA.
        section: &'static str,
        /// How many of its six fields are used.
        used: usize,
    },
    /// A unit record.
    Unit {
        /// How many of its six fields are used.
        used: usize,
    },
    /// A value record.
    Values {
        /// COMMON or DATA.
        section: &'static str,
        /// How many of its six fields are used.
        used: usize,
        /// Which record of its line it is, from 0.
        part: usize,
        /// How many records its line has.
        parts: usize,
    },
}

/// The bytes of an entry, and what each of its records was made as.
#[derive(Clone, Debug)]
pub struct Sheet {
    /// The bytes.
    pub bytes: Vec<u8>,
    /// One kind for each record.
    pub kinds: Vec<Kind>,
}

impl Sheet {
    /// The bytes of a record, counted from 0.
    pub fn record(&self, at: usize) -> &[u8] {
        &self.bytes[at * RECORD..(at + 1) * RECORD]
    }

    /// Columns of a record, both counted from 1.
    pub fn columns(&self, at: usize, first: usize, last: usize) -> &[u8] {
        &self.record(at)[first - 1..last]
    }

    /// Writes into a record from a column on.
    pub fn put(&mut self, at: usize, column: usize, text: &[u8]) {
        let first = at * RECORD + column - 1;
        self.bytes[first..first + text.len()].copy_from_slice(text);
    }

    /// Puts a record in before the record `at`.
    pub fn insert(&mut self, at: usize, record: &[u8], kind: Kind) {
        self.bytes.splice(at * RECORD..at * RECORD, record.iter().copied());
        self.kinds.insert(at, kind);
    }

    /// Takes a record out.
    pub fn remove(&mut self, at: usize) {
        self.bytes.drain(at * RECORD..(at + 1) * RECORD);
        self.kinds.remove(at);
    }

    /// The records for which something holds.
    pub fn find(&self, good: impl Fn(Kind) -> bool) -> Vec<usize> {
        (0..self.kinds.len()).filter(|&at| good(self.kinds[at])).collect()
    }

    /// The next record with an identifier, from `at` on.
    pub fn next(&self, at: usize, name: &str) -> Option<usize> {
        (at..self.kinds.len()).find(|&at| matches!(self.kinds[at], Kind::System(found) if found == name))
    }
}

/// The identifiers of system records, those of a transmission among them.
pub(super) const IDENTIFIERS: [&str; 16] = [
    "ENTRY",
    "SUBENT",
    "BIB",
    "COMMON",
    "DATA",
    "NOBIB",
    "NOCOMMON",
    "NODATA",
    "NOSUBENT",
    "ENDBIB",
    "ENDCOMMON",
    "ENDDATA",
    "ENDSUBENT",
    "ENDENTRY",
    "TRANS",
    "ENDTRANS",
];

/// All characters that may stand in a record but blank.
pub(super) const FILLED: &[u8] = b"ABCDEFGHIJKLMNOPQRSTUVWXYZabcdefghijklmnopqrstuvwxyz0123456789+-.)(*/=',%<>:;!?&";

/// All pointers.
pub(super) const POINTERS: &[u8] = b"123456789ABCDEFGHIJKLMNOPQRSTUVWXYZ";

/// Words as compilers use them, and some that look like identifiers.
const WORDS: [&str; 21] = [
    "TITLE",
    "AUTHOR",
    "REFERENCE",
    "REACTION",
    "STATUS",
    "HISTORY",
    "ERR-ANALYS",
    "METHOD",
    "EN",
    "ANG",
    "DATA",
    "DATA-ERR",
    "E-LVL",
    "MONIT",
    "MISC",
    "NO-DIM",
    "MEV",
    "TRANS",
    "ENDTRANS",
    "SUBENT",
    "ENDX",
];

/// Words that may stand on several columns side by side (M-101), and whether in DATA only.
const REPEATING: [(&str, bool); 16] = [
    ("E-LVL", false),
    ("EN-RES", false),
    ("DATA-ERR", false),
    ("MONIT1-ERR", false),
    ("-ERR", false),
    ("EN-RSL", false),
    ("EN-RSL-RSL", false),
    ("ANG", false),
    ("ANG-CM", false),
    ("ANGULAR-DI", false),
    ("HL-ERR", false),
    ("FLAG", true),
    ("HL", true),
    ("HL1", true),
    ("HL-MONITOR", true),
    ("HLX", true),
];

/// Words that may not, most of them much like those.
const SINGLE: [&str; 18] = [
    "E-LVL1",
    "E-LV",
    "EN-RES1",
    "FLAG1",
    "DECAY-FLAG",
    "ERR",
    "RSL",
    "X-ERR1",
    "EN-RSL-",
    "EN-err",
    "ang",
    "AN",
    "X-ANG",
    "H",
    "X-HL",
    "hl",
    "MASS",
    "DATA",
];

/// Whether a word may repeat in a section, where that can be told by looking: it is one of the words above, or has none
/// of A, H and -, while every word of M-101's list has.
pub(super) fn repeats(word: &str, section: &str) -> Option<bool> {
    if let Some((_, data_only)) = REPEATING.iter().find(|(listed, _)| *listed == word) {
        return Some(section == "DATA" || !data_only);
    }
    let known = SINGLE.contains(&word) || WORDS.contains(&word) || !word.contains(['A', 'H', '-']);
    known.then_some(false)
}

/// A word that may not repeat in a section; now and then one that may in another.
pub(super) fn single(random: &mut Random, section: &str) -> &'static str {
    let elsewhere: Vec<&str> =
        REPEATING.iter().map(|(word, _)| *word).filter(|word| repeats(word, section) == Some(false)).collect();
    if elsewhere.is_empty() || random.once_in(2) {
        return random.one(&SINGLE);
    }
    random.one(&elsewhere)
}

/// A word of at most ten columns.
pub(super) fn word(random: &mut Random) -> String {
    if random.once_in(3) {
        let length = random.within(1, 10);
        return (0..length).map(|_| char::from(random.one(FILLED))).collect();
    }
    random.one(&WORDS).to_string()
}

/// Whether eleven columns are an identifier.
pub(super) fn identifier(place: &[u8]) -> bool {
    IDENTIFIERS.iter().any(|name| format!("{name:11}").as_bytes() == place)
}

/// Lays out records with their identification.
struct Writer<'r> {
    random: &'r mut Random,
    sheet: Sheet,
    accession: String,
    subentry: usize,
    sequence: usize,
    /// Pointers and headings that DATA may refer to: of 001, and of the subentry being written.
    shared: Known,
    own: Known,
    /// Whether free columns are filled.
    busy: bool,
}

/// What a subentry's later sections look back at.
#[derive(Clone, Default)]
struct Known {
    pointers: BTreeSet<u8>,
    headings: BTreeSet<Vec<u8>>,
    /// The numbers of codes under the keyword FLAG, those that fit a number field.
    codes: Vec<String>,
}

/// A valid entry. Its shape is left to chance: one to seven subentries, with and without each section, tables of one to
/// eighteen columns, headings that repeat where they may, pointers, numbers in every spelling, and flags with codes.
pub fn entry(random: &mut Random) -> Sheet {
    let first = random.one(b"ABCXYZ0123456789") as char;
    let accession = format!("{first}{:04}", random.below(10_000));
    let busy = random.once_in(2);
    let sheet = Sheet { bytes: Vec::new(), kinds: Vec::new() };
    let (shared, own) = (Known::default(), Known::default());
    let mut writer = Writer { random, sheet, accession, subentry: 0, sequence: 0, shared, own, busy };
    writer.entry();
    writer.sheet
}

impl Writer<'_> {
    /// Adds a record: columns 1-66, then the identification.
    fn record(&mut self, text: &str, kind: Kind) {
        self.sequence += 1;
        let (subentry, sequence) = match kind {
            Kind::System("ENDENTRY") => (999, 99_999),
            Kind::System("ENDSUBENT") => (self.subentry, 99_999),
            _ => (self.subentry, self.sequence),
        };
        let flag = if self.busy { char::from(self.random.one(FILLED)) } else { ' ' };
        let line = format!("{text:66}{}{subentry:03}{sequence:05}{flag}\n", self.accession);
        debug_assert_eq!(line.len(), RECORD);
        self.sheet.bytes.extend_from_slice(line.as_bytes());
        self.sheet.kinds.push(kind);
    }

    /// Characters for columns that are free.
    fn free(&mut self, columns: usize) -> String {
        let busy = self.busy;
        (0..columns).map(|_| if busy { char::from(self.random.one(FILLED)) } else { ' ' }).collect()
    }

    /// A system record. A field that is not given is free.
    fn system(&mut self, name: &'static str, n1: Option<String>, n2: Option<String>) {
        let n1 = n1.unwrap_or_else(|| self.free(11));
        let n2 = n2.unwrap_or_else(|| self.free(11));
        let rest = self.free(33);
        self.record(&format!("{name:11}{n1:>11}{n2:>11}{rest}"), Kind::System(name));
    }

    /// A count, now and then with zeros before it.
    fn count(&mut self, count: usize) -> Option<String> {
        Some(if self.random.once_in(8) { format!("{count:05}") } else { count.to_string() })
    }

    /// A date.
    fn date(&mut self) -> Option<String> {
        let (year, month, day) = (self.random.within(1960, 2030), self.random.within(1, 12), self.random.within(1, 31));
        Some(format!("{year}{month:02}{day:02}"))
    }

    fn entry(&mut self) {
        let (accession, date) = (self.accession.clone(), self.date());
        self.system("ENTRY", Some(accession), date);
        let subentries = self.random.one(&[1, 1, 2, 2, 3, 4, 7]);
        for index in 1..=subentries {
            self.subentry += if index == 1 || !self.random.once_in(5) { 1 } else { self.random.within(2, 90) };
            self.sequence = 0;
            self.own = Known::default();
            let (name, date) = (format!("{}{:03}", self.accession, self.subentry), self.date());
            if index > 1 && self.random.once_in(6) {
                self.system("NOSUBENT", Some(name), date);
                continue;
            }
            self.system("SUBENT", Some(name), date);
            self.sections(index == 1);
        }
        let count = self.count(subentries);
        self.system("ENDENTRY", count, None);
    }

    /// The sections of a subentry, and its ENDSUBENT.
    fn sections(&mut self, first: bool) {
        if self.random.once_in(6) {
            self.system("NOBIB", None, None);
        } else {
            self.bib();
        }
        if self.random.once_in(2) {
            self.system("NOCOMMON", None, None);
        } else {
            self.table("COMMON");
        }
        if first {
            self.shared = self.own.clone();
        } else if self.random.once_in(6) {
            self.system("NODATA", None, None);
        } else {
            self.table("DATA");
        }
        let count = self.count(self.sequence - 1);
        self.system("ENDSUBENT", count, None);
    }

    fn bib(&mut self) {
        let mut lines: Vec<(String, char, String)> = Vec::new();
        let keywords = self.random.within(1, 5);
        let flags = if self.random.once_in(3) { keywords } else { self.random.below(keywords) };
        let mut met = BTreeSet::new();
        while met.len() < keywords {
            let flags = met.len() == flags;
            let keyword = if flags { "FLAG".to_string() } else { word(self.random) };
            let mut pointers = POINTERS.to_vec();
            let mut pointer = |random: &mut Random, of: usize| match random.once_in(of) {
                true => char::from(pointers.swap_remove(random.below(pointers.len()))),
                false => ' ',
            };
            let own = pointer(self.random, 3);
            let other_flag = keyword == "FLAG" && !flags;
            if other_flag || identifier(format!("{keyword:10}{own}").as_bytes()) || !met.insert(keyword.clone()) {
                continue;
            }
            let text = self.text(flags);
            lines.push((keyword, own, text));
            for _ in 0..self.random.below(if flags { 6 } else { 4 }) {
                let (pointer, text) = (pointer(self.random, 2), self.text(flags));
                lines.push((String::new(), pointer, text));
            }
        }
        let (n1, n2) = (self.count(keywords), self.count(lines.len()));
        self.system("BIB", n1, n2);
        let records = lines.len();
        for (index, (keyword, pointer, text)) in lines.into_iter().enumerate() {
            if pointer != ' ' {
                self.own.pointers.insert(pointer as u8);
            }
            self.record(&format!("{keyword:10}{pointer}{text}"), Kind::Text { first: index == 0 });
        }
        let count = self.count(records);
        self.system("ENDBIB", count, None);
    }

    /// The text of a record: under FLAG most are codes, and elsewhere now and then one that is not.
    fn text(&mut self, flags: bool) -> String {
        if flags && !self.random.once_in(3) {
            let (text, number) = flags::code(self.random);
            if number.len() <= 10 {
                self.own.codes.push(number);
            }
            return text;
        }
        if self.random.once_in(12) {
            return flags::code(self.random).0;
        }
        flags::no_code(self.random)
    }

    /// A word with a pointer that the section may use, or none.
    fn pointed(&mut self, word: &str, section: &str) -> Vec<u8> {
        let mut pointers: Vec<u8> = match section {
            "COMMON" => POINTERS.to_vec(),
            _ => self.shared.pointers.union(&self.own.pointers).copied().collect(),
        };
        pointers.push(b' ');
        let pointer = if self.random.once_in(2) { b' ' } else { self.random.one(&pointers) };
        format!("{word:10}{}", char::from(pointer)).into_bytes()
    }

    /// Whether a heading has not been met yet; from then on it has.
    fn new_heading(&mut self, heading: &[u8]) -> bool {
        !self.shared.headings.contains(heading) && self.own.headings.insert(heading.to_vec())
    }

    /// Codes that numbers under FLAG may have.
    fn codes(&self) -> Vec<&str> {
        self.shared.codes.iter().chain(&self.own.codes).map(String::as_str).collect()
    }

    /// Whether a heading may stand on a column, from 0: without codes FLAG only where its values may be blank and the
    /// line still has a number.
    fn may_stand(&self, heading: &[u8], section: &str, column: usize) -> bool {
        let ends = column % 6 == 0 && identifier(heading) && heading.starts_with(b"END");
        let blank = section == "DATA" && column > 0;
        !ends && (!is_flag(heading) || blank || !self.codes().is_empty())
    }

    /// A heading that has not been met yet, with its pointer.
    fn heading(&mut self, section: &str, column: usize) -> Vec<u8> {
        loop {
            let word = match self.random.below(8) {
                0 => self.random.one(&SINGLE).into(),
                1 => self.random.one(&["FLAG", "FLAG", "DECAY-FLAG"]).into(),
                _ => word(self.random),
            };
            let heading = self.pointed(&word, section);
            if self.may_stand(&heading, section, column) && self.new_heading(&heading) {
                return heading;
            }
        }
    }

    /// The headings of a table, all new; now and then one that may repeat stands on several columns.
    fn headings(&mut self, section: &str, columns: usize) -> Vec<Vec<u8>> {
        let mut headings = Vec::new();
        while headings.len() < columns {
            let listed = self.random.one(&REPEATING).0;
            if self.random.once_in(4) && repeats(listed, section) == Some(true) {
                let heading = self.pointed(listed, section);
                if self.may_stand(&heading, section, headings.len()) && self.new_heading(&heading) {
                    let times = self.random.one(&[2, 2, 3, 4, 8]);
                    headings.extend(std::iter::repeat_n(heading, times));
                    continue;
                }
            }
            headings.push(self.heading(section, headings.len()));
        }
        headings.truncate(columns);
        headings
    }

    /// A row of a table, six fields to a record.
    fn row(&mut self, fields: &[Vec<u8>], kind: impl Fn(usize, usize, usize) -> Kind) {
        let parts = fields.len().div_ceil(6);
        for (part, group) in fields.chunks(6).enumerate() {
            let text = String::from_utf8(group.concat()).expect("permitted characters");
            self.record(&text, kind(group.len(), part, parts));
        }
    }

    fn table(&mut self, section: &'static str) {
        let columns = if self.random.once_in(3) { self.random.within(7, 18) } else { self.random.within(1, 6) };
        let lines = if section == "COMMON" { 1 } else { self.random.one(&[1, 1, 2, 3, 5]) };
        let k = columns.div_ceil(6);
        let n1 = self.count(columns);
        let n2 = self.count(if section == "COMMON" { 3 * k } else { lines });
        self.system(section, n1, n2);
        let headings = self.headings(section, columns);
        self.row(&headings, |used, _, _| Kind::Heading { section, used });
        if section == "COMMON" {
            self.own.pointers.extend(headings.iter().map(|heading| heading[10]).filter(|&byte| byte != b' '));
        }
        let units: Vec<Vec<u8>> = (0..columns).map(|column| self.unit(column % 6 == 0)).collect();
        self.row(&units, |used, _, _| Kind::Unit { used });
        for _ in 0..lines {
            let values = self.line(section, &headings);
            self.row(&values, |used, part, parts| Kind::Values { section, used, part, parts });
        }
        let name = if section == "COMMON" { "ENDCOMMON" } else { "ENDDATA" };
        let count = self.count((2 + lines) * k);
        self.system(name, count, None);
    }

    fn unit(&mut self, first: bool) -> Vec<u8> {
        loop {
            let unit = format!("{:11}", word(self.random)).into_bytes();
            if !(first && identifier(&unit) && unit.starts_with(b"END")) {
                return unit;
            }
        }
    }

    /// The values of a line; one at least is a number, and in COMMON all are.
    fn line(&mut self, section: &str, headings: &[Vec<u8>]) -> Vec<Vec<u8>> {
        let no_codes = self.codes().is_empty();
        let numbers: Vec<usize> =
            (0..headings.len()).filter(|&column| !(no_codes && is_flag(&headings[column]))).collect();
        let sure = self.random.one(&numbers);
        let sparse = self.random.one(&[2, 4, 1000]);
        let columns = headings.iter().enumerate();
        columns
            .map(|(column, heading)| {
                let blank = section == "DATA" && column != sure && self.random.once_in(sparse);
                if blank || !numbers.contains(&column) {
                    b"           ".to_vec()
                } else {
                    self.value(heading).to_vec()
                }
            })
            .collect()
    }

    /// A number that may stand under a heading.
    fn value(&mut self, heading: &[u8]) -> [u8; 11] {
        if is_flag(heading) {
            let codes: Vec<String> = self.codes().into_iter().map(String::from).collect();
            let code = self.random.below(codes.len());
            return flags::flag_spelling(self.random, &codes[code]);
        }
        if heading.starts_with(b"DECAY-FLAG") {
            return flags::plain_spelling(self.random);
        }
        spelling(self.random)
    }
}

/// Whether a heading is FLAG, with any pointer or none.
fn is_flag(heading: &[u8]) -> bool {
    heading.starts_with(b"FLAG      ")
}

//! One record: its places, and the words that stand in them.

use crate::RECORD;

/// One record of an entry: 81 bytes.
#[derive(Clone, Copy)]
pub struct Record<'a>(pub &'a [u8]);

impl<'a> Record<'a> {
    /// The bytes of the columns `first` to `last`, both counted from 1.
    pub fn columns(self, first: usize, last: usize) -> &'a [u8] {
        &self.0[first - 1..last]
    }

    /// One of the "six fields of eleven columns", counted from 0.
    pub fn field(self, index: usize) -> &'a [u8] {
        self.columns(11 * index + 1, 11 * index + 11)
    }

    /// N1: columns 12-22.
    pub fn n1(self) -> &'a [u8] {
        self.field(1)
    }

    /// N2: columns 23-33.
    pub fn n2(self) -> &'a [u8] {
        self.field(2)
    }

    /// The keyword place of a BIB record.
    pub fn keyword(self) -> &'a [u8] {
        self.columns(1, 10)
    }

    /// The pointer column of a BIB record.
    pub fn pointer(self) -> u8 {
        self.0[10]
    }
}

/// The records of bytes whose length is a multiple of 81.
pub fn records(bytes: &[u8]) -> Vec<Record<'_>> {
    bytes.chunks_exact(RECORD).map(Record).collect()
}

/// The system identifiers: document 01's fourteen, and TRANS and ENDTRANS, "both now system identifiers everywhere"
/// (M-100).
#[derive(Clone, Copy, Debug, PartialEq, Eq, PartialOrd, Ord)]
#[allow(missing_docs)]
pub enum Name {
    Entry,
    EndEntry,
    Subent,
    NoSubent,
    EndSubent,
    Bib,
    NoBib,
    EndBib,
    Common,
    NoCommon,
    EndCommon,
    Data,
    NoData,
    EndData,
    Trans,
    EndTrans,
}

/// Each identifier beside its spelling.
const NAMES: [(&str, Name); 16] = [
    ("ENTRY", Name::Entry),
    ("ENDENTRY", Name::EndEntry),
    ("SUBENT", Name::Subent),
    ("NOSUBENT", Name::NoSubent),
    ("ENDSUBENT", Name::EndSubent),
    ("BIB", Name::Bib),
    ("NOBIB", Name::NoBib),
    ("ENDBIB", Name::EndBib),
    ("COMMON", Name::Common),
    ("NOCOMMON", Name::NoCommon),
    ("ENDCOMMON", Name::EndCommon),
    ("DATA", Name::Data),
    ("NODATA", Name::NoData),
    ("ENDDATA", Name::EndData),
    ("TRANS", Name::Trans),
    ("ENDTRANS", Name::EndTrans),
];

impl Name {
    /// The identifier that a record bears: "one fills columns 1-11, blanks behind".
    pub fn of(record: Record) -> Option<Name> {
        let place = record.field(0);
        let filled = place.iter().rposition(|&byte| byte != b' ')? + 1;
        NAMES.iter().find(|(spelling, _)| spelling.as_bytes() == &place[..filled]).map(|&(_, name)| name)
    }

    /// How it is spelled.
    pub fn spelling(self) -> &'static str {
        NAMES.iter().find(|(_, name)| *name == self).map_or("", |&(spelling, _)| spelling)
    }

    /// "one beginning with END"
    pub fn is_end(self) -> bool {
        self.spelling().starts_with("END")
    }
}

/// Whether a character is permitted: "blank, A-Z, a-z, 0-9 and `+ - . ) ( * / = ' , % < > : ; ! ? &`".
pub fn permitted(byte: u8) -> bool {
    let special = matches!(
        byte,
        b'+' | b'-'
            | b'.'
            | b')'
            | b'('
            | b'*'
            | b'/'
            | b'='
            | b'\''
            | b','
            | b'%'
            | b'<'
            | b'>'
            | b':'
            | b';'
            | b'!'
            | b'?'
            | b'&'
    );
    byte == b' ' || byte.is_ascii_alphanumeric() || special
}

/// Whether a place holds blanks only.
pub fn blank(place: &[u8]) -> bool {
    place.iter().all(|&byte| byte == b' ')
}

/// "A word starts in the first column of its place, has no blank inside and is followed by blanks only."
pub fn is_word(place: &[u8]) -> bool {
    let mut pieces = place.split(|&byte| byte == b' ');
    pieces.next().is_some_and(|first| !first.is_empty()) && pieces.all(<[u8]>::is_empty)
}

/// "A pointer is one of 1-9, A-Z."
pub fn is_pointer(byte: u8) -> bool {
    b"123456789ABCDEFGHIJKLMNOPQRSTUVWXYZ".contains(&byte)
}

/// "A count is blanks, then digits up to the last column."
pub fn count(field: &[u8]) -> Option<u64> {
    let text = std::str::from_utf8(field).ok()?.trim_start_matches(' ');
    if text.is_empty() || !digits(text.as_bytes()) {
        return None;
    }
    text.parse().ok()
}

/// Whether all bytes are digits.
pub fn digits(bytes: &[u8]) -> bool {
    bytes.iter().all(u8::is_ascii_digit)
}

/// Accession: "capital or digit, then 4 digits".
pub fn is_accession(bytes: &[u8]) -> bool {
    bytes.len() == 5 && (bytes[0].is_ascii_uppercase() || bytes[0].is_ascii_digit()) && digits(&bytes[1..])
}

/// "Date: 3 blanks and YYYYMMDD, month 01-12, day 01-31."
pub fn is_date(field: &[u8]) -> bool {
    let (front, date) = field.split_at(3);
    let (month, day) = (&date[4..6], &date[6..8]);
    blank(front)
        && digits(date)
        && (b"01".as_slice()..=b"12".as_slice()).contains(&month)
        && (b"01".as_slice()..=b"31".as_slice()).contains(&day)
}

//! What judging and asking hand back.

use std::fmt;

/// So many of something, in words.
pub(crate) fn counted(count: impl TryInto<u64>, one: &str, several: &str) -> String {
    let count = count.try_into().unwrap_or(u64::MAX);
    format!("{count} {}", if count == 1 { one } else { several })
}

/// The four totals of an accepted entry, or of all entries of an accepted transmission.
#[derive(Clone, Copy, Debug, Default, PartialEq, Eq, Hash)]
pub struct Totals {
    /// Subentries, NOSUBENT included.
    pub subentries: u32,
    /// Keywords of all BIB sections.
    pub keywords: u32,
    /// Lines of all DATA sections; a line may take several records.
    pub lines: u32,
    /// Number fields of COMMON and DATA that are not blank.
    pub numbers: u32,
}

impl fmt::Display for Totals {
    fn fmt(&self, f: &mut fmt::Formatter<'_>) -> fmt::Result {
        let subentries = counted(self.subentries, "subentry", "subentries");
        let keywords = counted(self.keywords, "keyword", "keywords");
        let lines = counted(self.lines, "DATA line", "DATA lines");
        write!(f, "{subentries}, {keywords}, {lines}, {}", counted(self.numbers, "number", "numbers"))
    }
}

/// Why an entry or a transmission is not accepted, and where: the paper's number, record and column, and in a
/// transmission the entry.
#[derive(Clone, Copy, Debug, PartialEq, Eq, Hash)]
pub struct Refusal {
    /// 1 to 17, from the paper's table of refusals.
    pub number: u32,
    /// The record, from 1 at the start of what was judged. It is 0 with number 1, and one past the last with number 16.
    pub record: u32,
    /// The column, from 1. It is 0 with numbers 1 and 16.
    pub column: u32,
    /// Which entry of a transmission it is in, from 1 (M-100). It is 0 for a single entry, with numbers 1 and 16, and
    /// outside ENTRY to ENDENTRY.
    pub ordinal: u32,
}

impl Refusal {
    /// A refusal of a single entry.
    pub fn new(number: u32, record: u32, column: u32) -> Refusal {
        Refusal { number, record, column, ordinal: 0 }
    }

    /// Whether it depends on nothing below its record: 2 to 15 and 17 (M-111). 1 goes by the length, and 16 by where the
    /// records end.
    pub fn at_record(&self) -> bool {
        matches!(self.number, 2..=15 | 17)
    }

    /// What the number stands for, in the words of the paper's table.
    pub fn meaning(&self) -> &'static str {
        match self.number {
            1 => "the length is 0, not a multiple of 81, or over 1,620,000 (of a transmission 16,200,000)",
            2 => "byte 81 of the record is not a line feed",
            3 => "the character is not permitted",
            4 => "the record is not due here by nesting or counts",
            5 => "wrong accession or subentry in columns 67-74",
            6 => "wrong sequence in columns 75-79",
            7 => "the system field is not in its form",
            8 => "the count is out of range or untrue",
            9 => "the subentry is of another accession, not the first 001, or does not rise",
            10 => "the keyword is missing, malformed or repeated",
            11 => "the pointer is no pointer, or repeated under its keyword",
            12 => "the heading or unit is no word, or an unused field is filled",
            13 => "the heading is repeated where it may not be",
            14 => "the pointer of the DATA heading is not found",
            15 => "the value is malformed, or blank where it may not be",
            16 => "the records end before ENDENTRY (a transmission's before ENDTRANS)",
            17 => "the number under FLAG or DECAY-FLAG has an exponent, or that under FLAG equals no code",
            _ => "the paper has no such refusal",
        }
    }
}

impl fmt::Display for Refusal {
    fn fmt(&self, f: &mut fmt::Formatter<'_>) -> fmt::Result {
        write!(f, "refusal {}", self.number)?;
        if self.ordinal > 0 {
            write!(f, ", entry {}", self.ordinal)?;
        }
        if self.record > 0 {
            write!(f, ", record {}", self.record)?;
        }
        if self.column > 0 {
            write!(f, ", column {}", self.column)?;
        }
        write!(f, ": {}", self.meaning())
    }
}

/// What judging says of a string of bytes.
#[derive(Clone, Copy, Debug, PartialEq, Eq, Hash)]
pub enum Verdict {
    /// The bytes are one entry, or one transmission, that keeps every rule.
    Accepted(Totals),
    /// The first fault: "records in order; within one record the lowest number; within that the leftmost column".
    Refused(Refusal),
}

impl Verdict {
    /// The seven numbers as the judging program prints them: refusal, record, column, subentries, keywords, lines,
    /// numbers. "Accepted is 0 0 0 with four totals. On refusal the totals are 0."
    pub fn numbers(&self) -> [u32; 7] {
        match self {
            Verdict::Accepted(t) => [0, 0, 0, t.subentries, t.keywords, t.lines, t.numbers],
            Verdict::Refused(r) => [r.number, r.record, r.column, 0, 0, 0, 0],
        }
    }

    /// The entry of a transmission that is refused, from 1; 0 where it is accepted or the refusal is in none.
    pub fn ordinal(&self) -> u32 {
        self.refusal().map_or(0, |refusal| refusal.ordinal)
    }

    /// The refusal, if it is one.
    pub fn refusal(&self) -> Option<Refusal> {
        match self {
            Verdict::Accepted(_) => None,
            Verdict::Refused(refusal) => Some(*refusal),
        }
    }
}

impl fmt::Display for Verdict {
    fn fmt(&self, f: &mut fmt::Formatter<'_>) -> fmt::Result {
        match self {
            Verdict::Accepted(totals) => write!(f, "accepted: {totals}"),
            Verdict::Refused(refusal) => refusal.fmt(f),
        }
    }
}

/// The facts of a refusal (M-108). Records and columns count as in the verdict.
#[derive(Clone, Copy, Debug, Default, PartialEq, Eq, Hash)]
pub enum Reason {
    /// Nothing more is said: what is accepted, and a refusal other than 5, 6, 8, 9, 13 and 14.
    #[default]
    Alone,
    /// 8: a count that is announced, and the true one.
    Count {
        /// What the record says; where ENDBIB itself is true, N1 of BIB.
        announced: u64,
        /// What it should say.
        due: u64,
    },
    /// 8: a count out of its range.
    Range {
        /// The least.
        least: u64,
        /// The greatest; 0 for none.
        greatest: u64,
    },
    /// 9: the number of the subentry before; 0 if there is none.
    Previous(u32),
    /// 13: where the first equal heading stands.
    Equal {
        /// Its record.
        record: u32,
        /// The first column of its field.
        column: u32,
    },
    /// 14: the pointer that is not found.
    Pointer(u8),
    /// 5 and 6: the expected characters. With 5 they are eight, with 6 five and three blanks.
    Expected([u8; 8]),
}

impl Reason {
    /// The three numbers that the archives store for it: the kind, and its values.
    pub fn facts(&self) -> [u64; 3] {
        match *self {
            Reason::Alone => [0, 0, 0],
            Reason::Count { announced, due } => [1, announced, due],
            Reason::Range { least, greatest } => [2, least, greatest],
            Reason::Previous(number) => [3, number.into(), 0],
            Reason::Equal { record, column } => [4, record.into(), column.into()],
            Reason::Pointer(pointer) => [5, pointer.into(), 0],
            Reason::Expected(_) => [6, 0, 0],
        }
    }

    /// The eight characters that they store beside them: blanks, where none are expected.
    pub fn characters(&self) -> [u8; 8] {
        match *self {
            Reason::Expected(characters) => characters,
            _ => [b' '; 8],
        }
    }

    /// The expected characters as they are printed, if there are any, of a refusal with this number: with 6 five.
    pub fn expected(&self, number: u32) -> Option<&[u8]> {
        match self {
            Reason::Expected(characters) if number == 6 => Some(&characters[..5]),
            Reason::Expected(characters) => Some(characters),
            _ => None,
        }
    }
}

/// A verdict with its reason (M-108).
#[derive(Clone, Copy, Debug, PartialEq, Eq, Hash)]
pub struct Explained {
    /// What judging says.
    pub verdict: Verdict,
    /// The facts of its refusal.
    pub reason: Reason,
}

impl Explained {
    /// The line that stands below the verdict, if there is one: the facts alone, as the program `why` prints them.
    pub fn line(&self) -> Option<String> {
        let number = self.verdict.refusal()?.number;
        match self.reason {
            Reason::Alone => None,
            Reason::Count { announced: one, due: other } | Reason::Range { least: one, greatest: other } => {
                Some(format!("{one} {other}"))
            }
            Reason::Previous(number) => Some(format!("{number:03}")),
            Reason::Equal { record, column } => Some(format!("{record} {column}")),
            Reason::Pointer(pointer) => Some(char::from(pointer).to_string()),
            Reason::Expected(_) => self.reason.expected(number).map(|text| String::from_utf8_lossy(text).into_owned()),
        }
    }
}

/// Why a question, a copy, a reading or a writing has no answer.
#[derive(Clone, Copy, Debug, PartialEq, Eq, Hash)]
pub struct NoAnswer {
    /// The paper's number: 31 to 39 for questions, copies, indexes and walks; 40, 41 and 15 for number fields.
    pub number: u32,
    /// With 31, why the entry or the transmission is refused. With any other number there is none.
    pub entry: Option<Refusal>,
}

impl NoAnswer {
    /// A number that stands alone.
    pub(crate) fn numbered(number: u32) -> NoAnswer {
        NoAnswer { number, entry: None }
    }

    /// What the number stands for, in the paper's words.
    pub fn meaning(&self) -> &'static str {
        match self.number {
            15 => "the number field is malformed",
            31 => "the entry or transmission is refused",
            32 => "no such subentry, or NOSUBENT",
            33 => "no such section",
            34 => "no such line",
            35 => "no such column",
            36 => "no passage with that keyword place and pointer",
            37 => "the buffer is shorter than what is copied",
            38 => "the index is no whole rows of five numbers, or the slice for it is too short",
            39 => {
                "the entry is not what the index says: a record that is read lies outside or is another, or a count or \
                 the asked field is not in form or range"
            }
            40 => "a number field is eleven bytes",
            41 => "no field reads to the value",
            _ => "the paper has no such refusal",
        }
    }
}

impl fmt::Display for NoAnswer {
    fn fmt(&self, f: &mut fmt::Formatter<'_>) -> fmt::Result {
        write!(f, "refusal {}: {}", self.number, self.meaning())?;
        match self.entry {
            Some(refusal) => write!(f, " ({refusal})"),
            None => Ok(()),
        }
    }
}

impl std::error::Error for NoAnswer {}

/// A part of the caller's entry: ten columns of a heading or unit, or the whole records of a passage.
#[derive(Clone, Copy, Debug, PartialEq, Eq, Hash)]
pub struct Part {
    /// The first byte, counted from 0.
    pub offset: usize,
    /// How many bytes.
    pub length: usize,
    /// The pointer beside it; blank means none. Beside a unit stands its heading's pointer.
    pub pointer: u8,
}

impl Part {
    /// The bytes themselves, where `entry` is the entry that was asked about.
    pub fn of<'a>(&self, entry: &'a [u8]) -> &'a [u8] {
        &entry[self.offset..self.offset + self.length]
    }
}

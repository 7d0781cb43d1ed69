//! Codes under DECAY-DATA (M-106), taken apart into fields: flag, nuclide, half-life, and groups of types of radiation,
//! energies and an abundance.
//!
//! ```
//! use glockenbeacon::decay::Code;
//!
//! let entry = std::fs::read("data/decay.x4")?;
//! let code = Code::of_entry(&entry, 2, b' ', 2)?; // the second code under DECAY-DATA of subentry 002, without a pointer
//! assert_eq!(code.run(), "(60-ND-139-G,30.MIN,B+,,.257,DG,405.,.055)");
//! assert_eq!((code.z(), code.symbol(), code.a(), code.isomer()), (60, "ND", 139, Some("G")));
//! let half_life = code.half_life().expect("it has one");
//! assert_eq!((half_life.number.value.to_string(), half_life.unit), ("30".into(), "MIN"));
//! for group in code.groups() {
//!     println!("{:?} {:?} {:?}", group.types, group.energies, group.abundance);
//! }
//! // All codes of an entry: it is judged once.
//! for found in glockenbeacon::codes::codes(&entry)? {
//!     match found.code {
//!         Ok(code) => println!("record {}: {} groups", found.record, code.groups().len()),
//!         Err(refusal) => println!("record {}: {refusal}", found.record),
//!     }
//! }
//! # Ok::<(), Box<dyn std::error::Error>>(())
//! ```

use crate::{library, Decimal, NoAnswer, Refusal, RECORD};
use std::fmt;
use std::ops::Range;

/// The keyword place that codes stand under.
pub const KEYWORD: &[u8; 10] = b"DECAY-DATA";

/// Why a code is not given, and where.
#[derive(Clone, Copy, Debug, PartialEq, Eq, Hash)]
pub struct CodeRefusal {
    /// 31, 32, 33 or 36; 50 or 51; or 52.
    pub number: u32,
    /// With 50 and 51 the record, from 1: in the entry, or in the passage where that was handed over. Else 0.
    pub record: u32,
    /// With 50 and 51 the column, from 1; 0 where the passage ended. Else 0.
    pub column: u32,
    /// With 31, why the entry is refused.
    pub entry: Option<Refusal>,
}

impl CodeRefusal {
    /// A refusal that names no record.
    pub(crate) fn numbered(number: u32) -> CodeRefusal {
        CodeRefusal { number, record: 0, column: 0, entry: None }
    }

    /// What the number stands for, in the words of M-106.
    pub fn meaning(&self) -> &'static str {
        match self.number {
            36 => "no passage under DECAY-DATA with that pointer, or no such code in it",
            50 if self.column == 0 => "the passage ended within the code",
            50 => "a character that no code can have there",
            51 => "the code breaks after no comma",
            52 => "the slice is shorter than the run",
            _ => NoAnswer::numbered(self.number).meaning(),
        }
    }
}

impl fmt::Display for CodeRefusal {
    fn fmt(&self, f: &mut fmt::Formatter<'_>) -> fmt::Result {
        write!(f, "refusal {}", self.number)?;
        if self.record > 0 {
            write!(f, ", record {}", self.record)?;
        }
        if self.column > 0 {
            write!(f, ", column {}", self.column)?;
        }
        write!(f, ": {}", self.meaning())?;
        match self.entry {
            Some(refusal) => write!(f, " ({refusal})"),
            None => Ok(()),
        }
    }
}

impl std::error::Error for CodeRefusal {}

impl From<NoAnswer> for CodeRefusal {
    fn from(NoAnswer { number, entry }: NoAnswer) -> CodeRefusal {
        CodeRefusal { entry, ..CodeRefusal::numbered(number) }
    }
}

/// Bytes that are no code: how many characters stand before the first that no code has there, or all, where a code
/// would go on.
#[derive(Clone, Copy, Debug, PartialEq, Eq, Hash)]
pub struct NoCode {
    /// So many.
    pub at: usize,
}

impl fmt::Display for NoCode {
    fn fmt(&self, f: &mut fmt::Formatter<'_>) -> fmt::Result {
        write!(f, "refusal 50: no code has the character behind the first {}", self.at)
    }
}

impl std::error::Error for NoCode {}

/// A part of a run.
#[derive(Clone, Copy, Debug, PartialEq, Eq, Hash)]
pub struct Place {
    /// The first character, counted from 0.
    pub first: usize,
    /// How many.
    pub length: usize,
}

impl Place {
    /// The characters themselves, where `run` is the run that was asked about.
    pub fn of<'r>(&self, run: &'r [u8]) -> &'r [u8] {
        &run[self.range()]
    }

    fn range(&self) -> Range<usize> {
        self.first..self.first + self.length
    }
}

/// A number of a run: where it stands, and its value.
#[derive(Clone, Copy, Debug, PartialEq, Eq, Hash)]
pub struct NumberRead {
    /// Where it stands.
    pub place: Place,
    /// What it says.
    pub value: Decimal,
}

/// The fields of a run before its groups, as parts of it.
#[derive(Clone, Copy, Debug, PartialEq, Eq, Hash)]
pub struct HeadRead {
    /// The flag: its digits and its point.
    pub flag: Option<Place>,
    /// Z of the nuclide.
    pub z: Place,
    /// Its symbol.
    pub symbol: Place,
    /// Its A.
    pub a: Place,
    /// G, M, M1 or M2, without the hyphen.
    pub isomer: Option<Place>,
    /// The half-life and its unit.
    pub half_life: Option<(NumberRead, Place)>,
    /// How many groups there are.
    pub groups: usize,
}

/// A group of a run.
#[derive(Clone, Copy, Debug, PartialEq, Eq, Hash)]
pub struct GroupRead {
    /// How many types.
    pub types: usize,
    /// How many energies.
    pub energies: usize,
    /// The abundance.
    pub abundance: Option<NumberRead>,
}

/// A code: its run, which is one text without breaks, numbers but the flag in their shortest spelling. What is asked of
/// it looks at its own fields alone.
#[derive(Clone, Debug, PartialEq, Eq, Hash)]
pub struct Code {
    run: String,
    head: HeadRead,
}

/// A number of a code: its characters, and its value.
#[derive(Clone, Copy, Debug, PartialEq, Eq, Hash)]
pub struct Number<'c> {
    /// As it stands in the run.
    pub text: &'c str,
    /// What it says.
    pub value: Decimal,
}

/// A half-life.
#[derive(Clone, Copy, Debug, PartialEq, Eq, Hash)]
pub struct HalfLife<'c> {
    /// So much of the unit.
    pub number: Number<'c>,
    /// One to ten capitals, such as `MIN`.
    pub unit: &'c str,
}

/// A group: what is not given is empty.
#[derive(Clone, Debug, PartialEq, Eq, Hash)]
pub struct Group<'c> {
    /// Types of radiation, such as `B+` and `EC`.
    pub types: Vec<&'c str>,
    /// Energies.
    pub energies: Vec<Number<'c>>,
    /// The abundance.
    pub abundance: Option<Number<'c>>,
}

impl Code {
    /// The code that a text is, such as one that was kept.
    pub fn of_run(run: &[u8]) -> Result<Code, NoCode> {
        let head = library::decay_head(run)?;
        let run = String::from_utf8(run.to_vec()).expect("a code has no other characters");
        Ok(Code { run, head })
    }

    /// A code of an entry, counted from 1 under its pointer (blank for none). The entry is judged; for many codes there
    /// is [`crate::codes`].
    pub fn of_entry(entry: &[u8], subentry: u32, pointer: u8, code: u32) -> Result<Code, CodeRefusal> {
        // A run is never longer than its records.
        let mut out = vec![0; entry.len()];
        let length = library::decay(entry, subentry, pointer, code, &mut out)?;
        Ok(Code::answered(&out[..length]))
    }

    /// A code of a passage in hand, counted from 1. Records of a refusal count in the passage.
    pub fn of_passage(passage: &[u8], code: u32) -> Result<Code, CodeRefusal> {
        let mut out = vec![0; passage.len()];
        let length = library::decay_in(passage, code, &mut out)?;
        Ok(Code::answered(&out[..length]))
    }

    /// A run that was answered.
    fn answered(run: &[u8]) -> Code {
        Code::of_run(run).expect("a run is a code")
    }

    fn text(&self, place: Place) -> &str {
        &self.run[place.range()]
    }

    fn number(&self, read: NumberRead) -> Number<'_> {
        Number { text: self.text(read.place), value: read.value }
    }

    fn count(&self, place: Place) -> u32 {
        self.text(place).parse().expect("at most three digits")
    }

    /// The whole code as one text.
    pub fn run(&self) -> &str {
        &self.run
    }

    /// Where its fields stand in the run.
    pub fn head(&self) -> &HeadRead {
        &self.head
    }

    /// Its flag, digits and a point, such as `1.`.
    pub fn flag(&self) -> Option<&str> {
        self.head.flag.map(|place| self.text(place))
    }

    /// The nuclide as it is written, such as `60-ND-139-G`.
    pub fn nuclide(&self) -> &str {
        let last = self.head.isomer.unwrap_or(self.head.a);
        &self.run[self.head.z.first..last.range().end]
    }

    /// Z of the nuclide.
    pub fn z(&self) -> u32 {
        self.count(self.head.z)
    }

    /// Its symbol, in capitals.
    pub fn symbol(&self) -> &str {
        self.text(self.head.symbol)
    }

    /// Its A; 0 is the natural element.
    pub fn a(&self) -> u32 {
        self.count(self.head.a)
    }

    /// G, M, M1 or M2.
    pub fn isomer(&self) -> Option<&str> {
        self.head.isomer.map(|place| self.text(place))
    }

    /// The half-life.
    pub fn half_life(&self) -> Option<HalfLife<'_>> {
        self.head.half_life.map(|(number, unit)| HalfLife { number: self.number(number), unit: self.text(unit) })
    }

    /// Its groups, in order.
    pub fn groups(&self) -> Groups<'_> {
        // No field has a comma, and the groups stand behind the second.
        let mut commas = self.run.bytes().enumerate().filter(|(_, byte)| *byte == b',').map(|(at, _)| at);
        let at = commas.nth(1).map_or(self.run.len(), |comma| comma + 1);
        Groups { code: self, at, left: self.head.groups }
    }
}

/// What a group is put behind to be a code by itself.
const ALONE: &[u8] = b"(0-N-0,,";

/// The groups of a code. Each is asked for as the only group of a code, so that all of them together are read once.
#[derive(Clone, Debug)]
pub struct Groups<'c> {
    code: &'c Code,
    at: usize,
    left: usize,
}

impl<'c> Groups<'c> {
    /// The places of the next group's subfields, without the commas and blanks behind the last that is filled.
    fn cut(&mut self) -> Range<usize> {
        let rest = &self.code.run.as_bytes()[self.at..self.code.run.len() - 1];
        let third = rest.iter().enumerate().filter(|(_, byte)| **byte == b',').nth(2);
        let length = third.map_or(rest.len(), |(comma, _)| comma);
        let filled = rest[..length].iter().rposition(|byte| !b", ".contains(byte)).map_or(0, |last| last + 1);
        let cut = self.at..self.at + filled;
        self.at += length + 1;
        cut
    }
}

impl<'c> Iterator for Groups<'c> {
    type Item = Group<'c>;

    fn next(&mut self) -> Option<Group<'c>> {
        self.left = self.left.checked_sub(1)?;
        let cut = self.cut();
        let run = &self.code.run;
        let alone = [ALONE, &run.as_bytes()[cut.clone()], b")"].concat();
        let text = |place: Place| &run[cut.start + place.first - ALONE.len()..][..place.length];
        let number = |read: NumberRead| Number { text: text(read.place), value: read.value };
        let GroupRead { types, energies, abundance } = library::decay_group(&alone, 1)?;
        let each = |count: usize| 1..=count as u32;
        Some(Group {
            types: each(types).filter_map(|at| library::decay_type(&alone, 1, at)).map(text).collect(),
            energies: each(energies).filter_map(|at| library::decay_energy(&alone, 1, at)).map(number).collect(),
            abundance: abundance.map(number),
        })
    }

    fn size_hint(&self) -> (usize, Option<usize>) {
        (self.left, Some(self.left))
    }
}

impl ExactSizeIterator for Groups<'_> {}

/// The codes of a passage in hand, in order: the record that each begins with, counted in the passage from 1, and the
/// code or why it is refused. Each record is looked at once or twice, however many codes there are.
pub fn codes_in(passage: &[u8]) -> impl Iterator<Item = (u32, Result<Code, CodeRefusal>)> + '_ {
    let mut out = vec![0; passage.len()];
    let records = passage.chunks_exact(RECORD).enumerate().filter(|(_, record)| record[11] == b'(');
    records.map(move |(before, _)| {
        // From its own record on it is the first.
        let answer = library::decay_in(&passage[RECORD * before..], 1, &mut out);
        let code = answer.map(|length| Code::answered(&out[..length]));
        (before as u32 + 1, code.map_err(|refusal| shifted(refusal, before)))
    })
}

/// A refusal whose record counts with so many more before it.
pub(crate) fn shifted(refusal: CodeRefusal, before: usize) -> CodeRefusal {
    let more = if refusal.record > 0 { before as u32 } else { 0 };
    CodeRefusal { record: refusal.record + more, ..refusal }
}

//! Lines in the CINDA2001 layout (M-113). The manual's table of formats is kept as it is printed, A for characters, I for
//! integers and E for numbers; a line is cut into the pieces that it lists, each piece is read by its format, and the
//! fault is the least of all that the pieces have.

use super::number::{canonical_text, read_columns};
use super::record::{count, digits, permitted};
use crate::cinda::{Line, LinesRefusal, Mass, Piece, Pieces};
use crate::{FieldRead, Value};

/// "125 columns and a line feed"
const BYTES: usize = 126;

/// "up to 20,000 lines"
const MOST: usize = 20_000;

/// The manual's table (000, 10.3), one row for each piece: what it is, and how many columns its format has.
const FORMATS: [(What, usize); 19] = [
    (What::Operation, 1),
    (What::Z, 3),
    (What::A, 3),
    (What::Isomer, 1),
    (What::Reaction, 15),
    (What::Quantity, 4),
    (What::Institute, 6),
    (What::Area, 1),
    (What::Block, 3),
    (What::Sequence, 2),
    (What::Work, 1),
    (What::Reader, 1),
    (What::Least, 7),
    (What::Greatest, 7),
    (What::Hierarchy, 1),
    (What::Kind, 1),
    (What::Reference, 22),
    (What::Date, 6),
    (What::Comment, 40),
];

/// What stands in a piece.
#[derive(Clone, Copy, PartialEq, Eq, Debug)]
enum What {
    Operation,
    Z,
    A,
    Isomer,
    Reaction,
    Quantity,
    Institute,
    Area,
    Block,
    Sequence,
    Work,
    Reader,
    Least,
    Greatest,
    Hierarchy,
    Kind,
    Reference,
    Date,
    Comment,
}

/// Where a piece stands in its line, counted from 0: behind all that the table has before it.
fn place(what: What) -> std::ops::Range<usize> {
    let before = FORMATS.iter().take_while(|(other, _)| *other != what);
    let first = before.map(|(_, columns)| columns).sum();
    let columns = FORMATS.iter().find(|(other, _)| *other == what).map_or(0, |(_, columns)| *columns);
    first..first + columns
}

/// A line of 126 bytes.
#[derive(Clone, Copy)]
struct Cut<'l>(&'l [u8]);

/// A fault: its number and its column.
type Fault = (u32, u32);

impl<'l> Cut<'l> {
    fn piece(self, what: What) -> &'l [u8] {
        &self.0[place(what)]
    }

    fn byte(self, what: What) -> u8 {
        self.0[place(what).start]
    }

    /// "integers are right-adjusted with blanks in front"
    fn integer(self, what: What) -> Option<u32> {
        count(self.piece(what)).map(|number| number as u32)
    }

    /// "columns 2-4 are 999 where 5-7 hold MNY"
    fn mass(self) -> Option<Mass> {
        match self.piece(What::A) {
            b"MNY" => Some(Mass::Many),
            _ => self.integer(What::A).map(Mass::Number),
        }
    }

    fn z(self) -> Option<u32> {
        let z = self.integer(What::Z)?;
        (self.mass() != Some(Mass::Many) || self.piece(What::Z) == b"999").then_some(z)
    }

    /// "Energies follow the number rules with column 7 as the last, or are blank"
    fn energy(self, what: What) -> Option<FieldRead> {
        read_columns(self.piece(what))
    }

    /// "YYYYMM, month 01-12"
    fn date(self) -> Option<(u32, u32)> {
        let date = self.piece(What::Date);
        let [year, month] = [&date[..4], &date[4..]].map(|part| digits(part).then(|| count(part)).flatten());
        month.filter(|month| (1..=12).contains(month)).zip(year).map(|(month, year)| (year as u32, month as u32))
    }

    /// Every fault of the line, in no order.
    fn faults(self) -> Vec<Fault> {
        let capital_or_digit = |byte: u8| byte.is_ascii_uppercase() || byte.is_ascii_digit();
        let isomer = self.byte(What::Isomer);
        let block = capital_or_digit(self.byte(What::Area)) && self.integer(What::Block).is_some();
        let judged = [
            (73, What::Operation, b"ADM".contains(&self.byte(What::Operation))),
            (74, What::Z, self.z().is_some()),
            (74, What::A, self.mass().is_some()),
            (74, What::Isomer, isomer == b' ' || isomer.is_ascii_digit()),
            (75, What::Area, block),
            (75, What::Sequence, self.integer(What::Sequence).is_some()),
            (76, What::Least, self.energy(What::Least).is_some()),
            (76, What::Greatest, self.energy(What::Greatest).is_some()),
            (77, What::Date, self.date().is_some()),
        ];
        let pieces = judged.iter().filter(|(.., good)| !good).map(|(n, what, _)| (*n, place(*what).start as u32 + 1));
        let (columns, end) = self.0.split_at(BYTES - 1);
        let characters = (1..).zip(columns).filter(|(_, byte)| !permitted(**byte)).map(|(column, _)| (72, column));
        let unended = (end != b"\n").then_some((71, BYTES as u32));
        pieces.chain(characters).chain(unended).collect()
    }

    /// Its numbers and characters, where it has no fault.
    fn apart(self) -> Option<Line> {
        let (year, month) = self.date()?;
        Some(Line {
            operation: self.byte(What::Operation),
            z: self.z()?,
            mass: self.mass()?,
            isomer: self.byte(What::Isomer),
            area: self.byte(What::Area),
            block: self.integer(What::Block)?,
            sequence: self.integer(What::Sequence)?,
            work: self.byte(What::Work),
            reader: self.byte(What::Reader),
            least: self.energy(What::Least)?,
            greatest: self.energy(What::Greatest)?,
            hierarchy: self.byte(What::Hierarchy),
            kind: self.byte(What::Kind),
            year,
            month,
        })
    }

    /// "writing back puts their canonical field and keeps every other byte"
    fn back(self) -> Vec<u8> {
        let mut line = self.0.to_vec();
        for what in [What::Least, What::Greatest] {
            let place = place(what);
            if let Some(FieldRead { value: Value::Number(decimal), .. }) = self.energy(what) {
                let text = canonical_text(decimal, place.len()).expect("the field itself reads to the value");
                let width = place.len();
                line[place].copy_from_slice(format!("{text:>width$}").as_bytes());
            }
        }
        line
    }
}

/// "70 length (none, not whole lines, too many)": the lines, each cut off behind its 126 bytes.
fn cut(lines: &[u8]) -> Option<Vec<Cut<'_>>> {
    let cut = lines.chunks(BYTES).map(Cut).collect::<Vec<_>>();
    ((1..=MOST).contains(&cut.len()) && cut.iter().all(|line| line.0.len() == BYTES)).then_some(cut)
}

/// "70 first, then line by line, lowest number, then leftmost column, named with the line": the lines, where all are good.
fn judged(lines: &[u8]) -> Result<Vec<Cut<'_>>, LinesRefusal> {
    let cut = cut(lines).ok_or(LinesRefusal::numbered(70))?;
    let faults = cut.iter().map(|line| line.faults().into_iter().min());
    match (1..).zip(faults).find_map(|(line, fault)| fault.map(|fault| (line, fault))) {
        Some((line, (number, column))) => Err(LinesRefusal { number, line, column }),
        None => Ok(cut),
    }
}

/// "then 34 no such line": a line of good ones, and how many bytes stand before it.
fn asked(lines: &[u8], line: u32) -> Result<(usize, Cut<'_>), LinesRefusal> {
    let all = judged(lines)?;
    let before = (line as usize).checked_sub(1).filter(|before| *before < all.len());
    before.map(|before| (BYTES * before, all[before])).ok_or(LinesRefusal::numbered(34))
}

/// Checks lines.
pub fn cinda_check(lines: &[u8]) -> Result<(), LinesRefusal> {
    judged(lines).map(drop)
}

/// The numbers and characters of a line.
pub fn cinda_line(lines: &[u8], line: u32) -> Result<Line, LinesRefusal> {
    asked(lines, line).map(|(_, cut)| cut.apart().expect("a line without a fault"))
}

/// A line and its texts, as parts of all lines.
pub fn cinda_pieces(lines: &[u8], line: u32) -> Result<Pieces, LinesRefusal> {
    let (before, _) = asked(lines, line)?;
    let piece = |what| {
        let place = place(what);
        Piece { offset: before + place.start, length: place.len() }
    };
    Ok(Pieces {
        whole: Piece { offset: before, length: BYTES },
        reaction: piece(What::Reaction),
        quantity: piece(What::Quantity),
        institute: piece(What::Institute),
        reference: piece(What::Reference),
        comment: piece(What::Comment),
    })
}

/// Writes lines back; "then 37 buffer shorter than the lines". Refused, it stores nothing.
pub fn cinda_back(lines: &[u8], buffer: &mut [u8]) -> Result<(), LinesRefusal> {
    let all = judged(lines)?;
    let front = buffer.get_mut(..lines.len()).ok_or(LinesRefusal::numbered(37))?;
    front.copy_from_slice(&all.into_iter().flat_map(Cut::back).collect::<Vec<_>>());
    Ok(())
}

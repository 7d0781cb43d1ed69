//! Lines in the CINDA2001 layout (M-113): 125 columns and a line feed. They are checked, taken apart and written back.
//!
//! ```
//! use glockenbeacon::cinda::{Lines, Mass};
//!
//! let file = std::fs::read("data/sample.cinda")?;
//! let lines = Lines::of(&file)?; // checks all of them, once
//! let first = lines.line(1)?;
//! assert_eq!((first.z, first.mass, first.year), (92, Mass::Number(235), 1994));
//! for taken in lines.iter() {
//!     println!("{}: {:?}, {}", taken.number, taken.line.least.value, taken.text(taken.pieces.reaction));
//! }
//! assert!(lines.written_back().starts_with(&file[..42])); // only the energies may be spelled otherwise
//! # Ok::<(), Box<dyn std::error::Error>>(())
//! ```

use crate::answers::counted;
use crate::explain::{marked, named, odd_line_of, quoted, Explanation, PERMITTED};
use crate::json::{array, object, text};
use crate::{library, FieldRead, Simple, Value};
use std::fmt;

/// "125 columns and a line feed"
pub const LINE: usize = 126;

/// "up to 20,000 lines"
pub const MOST_LINES: usize = 20_000;

/// Why a call about lines is refused, and where.
#[derive(Clone, Copy, Debug, PartialEq, Eq, Hash)]
pub struct LinesRefusal {
    /// 70 to 77; or 34 no such line, 37 buffer shorter than the lines.
    pub number: u32,
    /// The line, from 1. It is 0 with 70, 34 and 37.
    pub line: u32,
    /// The column, from 1. It is 0 with 70, 34 and 37.
    pub column: u32,
}

impl LinesRefusal {
    /// A refusal that names no line.
    pub(crate) fn numbered(number: u32) -> LinesRefusal {
        LinesRefusal { number, line: 0, column: 0 }
    }

    /// The three numbers of a verdict.
    pub fn numbers(&self) -> [u32; 3] {
        [self.number, self.line, self.column]
    }

    /// What the number stands for, in the words of M-113.
    pub fn meaning(&self) -> &'static str {
        match self.number {
            34 => "no such line",
            37 => "the buffer is shorter than the lines",
            70 => "the length is none, not whole lines of 126 bytes, or more than 20,000 lines",
            71 => "byte 126 of the line is not a line feed",
            72 => "the character is not permitted",
            73 => "the operation is not A, D or M",
            74 => "the target is not in its form",
            75 => "the block or the sequence is not in its form, or missing",
            76 => "the energy is neither a number nor blank",
            77 => "the reference date is not YYYYMM, month 01-12",
            _ => "the paper has no such refusal",
        }
    }
}

impl fmt::Display for LinesRefusal {
    fn fmt(&self, f: &mut fmt::Formatter<'_>) -> fmt::Result {
        write!(f, "refusal {}", self.number)?;
        if self.line > 0 {
            write!(f, ", line {}", self.line)?;
        }
        if self.column > 0 {
            write!(f, ", column {}", self.column)?;
        }
        write!(f, ": {}", self.meaning())
    }
}

impl std::error::Error for LinesRefusal {}

/// Columns 5-7 of a line.
#[derive(Clone, Copy, Debug, PartialEq, Eq, Hash)]
pub enum Mass {
    /// A of the target; 0 is the natural element.
    Number(u32),
    /// `MNY`: many nuclei, and Z is 999.
    Many,
}

/// The numbers and the single characters of a good line. Characters are bytes as they stand, blanks too.
#[derive(Clone, Copy, Debug, PartialEq, Eq, Hash)]
pub struct Line {
    /// Column 1: A add, D delete, M modify.
    pub operation: u8,
    /// Columns 2-4: Z of the target.
    pub z: u32,
    /// Columns 5-7.
    pub mass: Mass,
    /// Column 8: the isomeric state, a blank or a digit.
    pub isomer: u8,
    /// Column 34: the area code of the block, a capital or a digit.
    pub area: u8,
    /// Columns 35-37: the number of the block.
    pub block: u32,
    /// Columns 38-39: the sequence within the block.
    pub sequence: u32,
    /// Column 40: the work type.
    pub work: u8,
    /// Column 41: the reader code.
    pub reader: u8,
    /// Columns 42-48: the least energy, and its count of digits.
    pub least: FieldRead,
    /// Columns 49-55: the greatest energy, and its count of digits.
    pub greatest: FieldRead,
    /// Column 56: the hierarchy code.
    pub hierarchy: u8,
    /// Column 57: the reference type.
    pub kind: u8,
    /// Columns 80-83 of the reference date.
    pub year: u32,
    /// Columns 84-85 of the reference date, 1 to 12.
    pub month: u32,
}

/// A part of the caller's lines.
#[derive(Clone, Copy, Debug, PartialEq, Eq, Hash)]
pub struct Piece {
    /// The first byte, counted from 0.
    pub offset: usize,
    /// How many bytes.
    pub length: usize,
}

impl Piece {
    /// The bytes themselves, where `lines` are those that were asked about.
    pub fn of<'l>(&self, lines: &'l [u8]) -> &'l [u8] {
        &lines[self.offset..self.offset + self.length]
    }
}

/// A line and its five texts, as parts of the caller's lines.
#[derive(Clone, Copy, Debug, PartialEq, Eq, Hash)]
pub struct Pieces {
    /// The line: 125 columns and the line feed.
    pub whole: Piece,
    /// Columns 9-23.
    pub reaction: Piece,
    /// Columns 24-27.
    pub quantity: Piece,
    /// Columns 28-33.
    pub institute: Piece,
    /// Columns 58-79: the reference code.
    pub reference: Piece,
    /// Columns 86-125.
    pub comment: Piece,
}

impl Pieces {
    /// The six, in the order in which the archives store them.
    pub fn all(&self) -> [Piece; 6] {
        [self.whole, self.reaction, self.quantity, self.institute, self.reference, self.comment]
    }
}

/// Checks lines: how many there are, or the first fault.
pub fn check(lines: &[u8]) -> Result<usize, LinesRefusal> {
    library::cinda_check(lines).map(|()| lines.len() / LINE)
}

/// Good lines. They are checked once; what is asked of them then looks at one line.
#[derive(Clone, Copy, Debug)]
pub struct Lines<'l>(&'l [u8]);

impl<'l> Lines<'l> {
    /// These lines, if all of them are good.
    pub fn of(lines: &'l [u8]) -> Result<Lines<'l>, LinesRefusal> {
        check(lines).map(|_| Lines(lines))
    }

    /// How many there are.
    pub fn len(&self) -> usize {
        self.0.len() / LINE
    }

    /// Good lines are one at least.
    pub fn is_empty(&self) -> bool {
        false
    }

    /// All bytes.
    pub fn bytes(&self) -> &'l [u8] {
        self.0
    }

    /// A line taken apart, counted from 1; 34 where there is none.
    pub fn line(&self, number: u32) -> Result<Line, LinesRefusal> {
        // A line alone is lines, too: of many each is looked at once.
        library::cinda_line(self.alone(number)?, 1)
    }

    /// A line and its texts as parts of all bytes; 34 where there is none.
    pub fn pieces(&self, number: u32) -> Result<Pieces, LinesRefusal> {
        let before = LINE * (number.max(1) as usize - 1);
        let Pieces { whole, reaction, quantity, institute, reference, comment } =
            library::cinda_pieces(self.alone(number)?, 1)?;
        let [whole, reaction, quantity, institute, reference, comment] =
            [whole, reaction, quantity, institute, reference, comment]
                .map(|piece| Piece { offset: before + piece.offset, ..piece });
        Ok(Pieces { whole, reaction, quantity, institute, reference, comment })
    }

    /// The bytes of one line.
    fn alone(&self, number: u32) -> Result<&'l [u8], LinesRefusal> {
        let line = (number as usize).checked_sub(1).and_then(|before| self.0.chunks_exact(LINE).nth(before));
        line.ok_or(LinesRefusal::numbered(34))
    }

    /// All lines in order.
    pub fn iter(&self) -> impl ExactSizeIterator<Item = Taken<'l>> + 'l {
        let lines = *self;
        (0..self.len() as u32).map(move |before| {
            let number = before + 1;
            let line = lines.line(number).expect("the lines are good");
            let pieces = lines.pieces(number).expect("the lines are good");
            Taken { number, line, pieces, lines: lines.0 }
        })
    }

    /// Writes them to the front of a buffer, energies in their canonical fields; 37 where it is shorter.
    pub fn write_back(&self, buffer: &mut [u8]) -> Result<(), LinesRefusal> {
        library::cinda_back(self.0, buffer)
    }

    /// The same in a buffer that is as long.
    pub fn written_back(&self) -> Vec<u8> {
        let mut buffer = vec![0; self.0.len()];
        self.write_back(&mut buffer).expect("the lines are good, and the buffer is as long");
        buffer
    }
}

/// A line taken apart.
#[derive(Clone, Copy, Debug)]
pub struct Taken<'l> {
    /// Its number, from 1.
    pub number: u32,
    /// Its numbers and characters.
    pub line: Line,
    /// Its texts, as parts of all lines.
    pub pieces: Pieces,
    lines: &'l [u8],
}

impl Taken<'_> {
    /// A text without the blanks behind it.
    pub fn text(&self, piece: Piece) -> String {
        String::from_utf8_lossy(piece.of(self.lines)).trim_end().to_string()
    }
}

// ---- refusals in words

/// One place of a line, and what is expected in it.
struct Place {
    first: usize,
    last: usize,
    expected: &'static str,
}

/// The places that a refusal can name by their first column.
const PLACES: [Place; 10] = [
    Place { first: 1, last: 1, expected: "the operation: A, D or M" },
    Place { first: 2, last: 4, expected: "Z of the target: blanks, then digits up to column 4" },
    Place { first: 5, last: 7, expected: "A of the target: blanks, then digits up to column 7; or MNY" },
    Place { first: 8, last: 8, expected: "the isomeric state: a blank or a digit" },
    Place {
        first: 34,
        last: 37,
        expected: "the block: a capital or digit, then a number: blanks, then digits up to column 37",
    },
    Place { first: 38, last: 39, expected: "the sequence: blanks, then digits up to column 39" },
    Place { first: 42, last: 48, expected: "the least energy: blanks, or a number" },
    Place { first: 49, last: 55, expected: "the greatest energy: blanks, or a number" },
    Place { first: 80, last: 85, expected: "the reference date: YYYYMM, month 01-12" },
    Place { first: 126, last: 126, expected: "a line feed in byte 126" },
];

/// How a number is spelled in an energy field.
const NUMBER: &str =
    "blanks, a sign or none, digits with one point; then blanks, or an exponent that ends the field: a \
                      sign and digits, or E and digits";

/// The line that a refusal names, if the bytes have it.
fn refused_line<'l>(lines: &'l [u8], refusal: &LinesRefusal) -> Option<&'l [u8]> {
    lines.chunks_exact(LINE).nth((refusal.line as usize).checked_sub(1)?)
}

/// Puts a refusal into words, where it is what [`check`] says of these very bytes.
pub fn explain(lines: &[u8], refusal: &LinesRefusal) -> Explanation {
    let Some(line) = refused_line(lines, refusal) else { return without_line(lines, refusal) };
    let seen = &lines[..LINE * refusal.line as usize];
    if refusal.number == 72 {
        let found = named(line[refusal.column as usize - 1]);
        return Explanation { expected: PERMITTED.into(), found, note: odd_line(seen, true) };
    }
    let Some(place) = PLACES.iter().find(|place| place.first == refusal.column as usize) else {
        return without_line(lines, refusal);
    };
    let bytes = &line[place.first - 1..place.last];
    match refusal.number {
        71 => Explanation { expected: place.expected.into(), found: named(bytes[0]), note: odd_line(seen, true) },
        74 if place.first == 2 && &line[4..7] == b"MNY" => {
            let expected = "Z of the target: 999, as columns 5-7 hold MNY".into();
            Explanation { expected, found: quoted(bytes), note: None }
        }
        76 => {
            let expected = format!("{}: {NUMBER}", place.expected);
            Explanation { expected, found: quoted(bytes), note: in_the_manual(refusal, bytes) }
        }
        _ => {
            let note = in_the_manual(refusal, bytes);
            Explanation { expected: place.expected.into(), found: quoted(bytes), note }
        }
    }
}

/// A refusal that names no line of these bytes: 70, or one that is another's.
fn without_line(lines: &[u8], refusal: &LinesRefusal) -> Explanation {
    match refusal.number {
        70 => wrong_length(lines),
        _ => Explanation { expected: format!("not this: {}", refusal.meaning()), found: length(lines), note: None },
    }
}

/// The first line that is not 125 columns long.
fn odd_line(lines: &[u8], cut: bool) -> Option<String> {
    odd_line_of("line", LINE - 1, lines, cut, 0)
}

/// Where the manual has more than is judged here.
fn in_the_manual(refusal: &LinesRefusal, bytes: &[u8]) -> Option<String> {
    let blank = bytes.iter().all(|&byte| byte == b' ');
    let letters = bytes.iter().any(u8::is_ascii_alphabetic);
    let said = match (refusal.number, refusal.column) {
        (74, 2 | 5) if blank => "a blank is no integer; A of a natural element is 0",
        (74, 5) if letters => "the manual's codes of compounds and of fission products are not taken here",
        (75, _) if blank => "the manual's reader files may leave this out; here it is required",
        (76, _) if letters && !bytes.contains(&b'.') => "the manual's codes for an energy are not taken here",
        (76, _) if !bytes.contains(&b'.') => "the manual's exponent alone is not taken here; a number has a point",
        (77, _) if blank || bytes.ends_with(b"  ") => {
            "the manual may leave out the date or its month; here both are required"
        }
        _ => return None,
    };
    Some(said.into())
}

/// How long the bytes are, in words.
fn length(lines: &[u8]) -> String {
    let (whole, rest) = (lines.len() / LINE, lines.len() % LINE);
    let bytes = |count: usize| counted(count, "byte", "bytes");
    match (lines.len(), counted(whole, "line", "lines")) {
        (0, _) => "no bytes".into(),
        (all, lines) if rest == 0 => format!("{}: {lines}", bytes(all)),
        (all, lines) => format!("{}: {lines} and {}", bytes(all), bytes(rest)),
    }
}

/// Refusal 70.
fn wrong_length(lines: &[u8]) -> Explanation {
    let expected = "1 to 20,000 lines of 126 bytes each, 125 columns and a line feed".into();
    let unended = lines.len() % LINE == LINE - 1 && !lines.ends_with(b"\n");
    let note = if lines.starts_with(b"CINDA ") {
        Some("the header record of an exchange file is no line".into())
    } else if unended && odd_line(lines, false).is_none() {
        Some("the last line has no line feed".into())
    } else {
        odd_line(lines, false)
    };
    Explanation { expected, found: length(lines), note }
}

/// The line of a refusal with a mark under its column; none where it names no line.
pub fn shown(lines: &[u8], refusal: &LinesRefusal) -> Option<String> {
    let line = refused_line(lines, refusal)?;
    let column = refusal.column as usize;
    let place = PLACES.iter().find(|place| place.first == column && refusal.number != 72);
    let width = place.map_or(1, |place| place.last + 1 - place.first);
    Some(marked(&line[..LINE - 1], refusal.line, column, width))
}

// ---- as text

/// The names of the columns of a table.
pub const NAMES: [&str; 21] = [
    "line",
    "operation",
    "z",
    "a",
    "isomer",
    "reaction",
    "quantity",
    "institute",
    "area",
    "block",
    "sequence",
    "work",
    "reader",
    "least",
    "greatest",
    "hierarchy",
    "type",
    "reference",
    "year",
    "month",
    "comment",
];

/// One field of a table: a number is written as it is, a text is quoted where it has to be.
enum Cell {
    Whole(u32),
    Energy(FieldRead),
    Text(String),
}

/// How energies are shown.
#[derive(Clone, Copy, Debug, Default, PartialEq, Eq)]
pub struct Shown {
    /// With the count of digits behind each.
    pub digits: bool,
    /// As doubles.
    pub doubles: bool,
}

/// The fields of one line under their names.
fn cells(taken: &Taken) -> [Cell; 21] {
    let (line, pieces) = (&taken.line, &taken.pieces);
    let letter = |byte: u8| Cell::Text(char::from(byte).to_string().trim_end().to_string());
    let part = |piece: Piece| Cell::Text(taken.text(piece));
    let mass = match line.mass {
        Mass::Number(a) => Cell::Whole(a),
        Mass::Many => Cell::Text("MNY".into()),
    };
    [
        Cell::Whole(taken.number),
        letter(line.operation),
        Cell::Whole(line.z),
        mass,
        letter(line.isomer),
        part(pieces.reaction),
        part(pieces.quantity),
        part(pieces.institute),
        letter(line.area),
        Cell::Whole(line.block),
        Cell::Whole(line.sequence),
        letter(line.work),
        letter(line.reader),
        Cell::Energy(line.least),
        Cell::Energy(line.greatest),
        letter(line.hierarchy),
        letter(line.kind),
        part(pieces.reference),
        Cell::Whole(line.year),
        Cell::Whole(line.month),
        part(pieces.comment),
    ]
}

/// An energy as text, empty where it is blank; and whether it is written as a double.
fn energy(read: FieldRead, shown: Shown) -> (String, bool) {
    match (read.value, shown.doubles) {
        (Value::Blank, _) => (String::new(), false),
        (Value::Number(decimal), false) => (decimal.to_string(), false),
        (Value::Number(_), true) => match library::doubled(read).value {
            Simple::Double(double) => (crate::double::text(double), true),
            Simple::Outside(decimal) => (decimal.to_string(), false),
            Simple::Blank => (String::new(), false),
        },
    }
}

/// A text between quotation marks where a comma or a quotation mark stands in it.
fn comma_separated(text: &str) -> String {
    match text.contains([',', '"']) {
        true => format!("\"{}\"", text.replace('"', "\"\"")),
        false => text.to_string(),
    }
}

/// The lines as comma-separated values, with a head line: numbers exact, texts without the blanks behind them.
pub fn to_csv(lines: Lines, shown: Shown) -> String {
    let names = NAMES.iter().flat_map(|name| {
        let digits = shown.digits && matches!(*name, "least" | "greatest");
        [Some(name.to_string()), digits.then(|| format!("{name} digits"))].into_iter().flatten()
    });
    let mut csv = names.collect::<Vec<_>>().join(",") + "\n";
    for taken in lines.iter() {
        let mut fields = Vec::new();
        for cell in cells(&taken) {
            match cell {
                Cell::Whole(number) => fields.push(number.to_string()),
                Cell::Text(text) => fields.push(comma_separated(&text)),
                Cell::Energy(read) => {
                    fields.push(energy(read, shown).0);
                    fields.extend(shown.digits.then(|| read.digits.to_string()));
                }
            }
        }
        csv += &(fields.join(",") + "\n");
    }
    csv
}

/// The lines as an array of objects: energies are texts, or numbers where they are doubles, and null where they are blank.
pub fn to_json(lines: Lines, shown: Shown) -> String {
    let value = |cell: Cell| match cell {
        Cell::Whole(number) => number.to_string(),
        Cell::Text(content) => text(&content),
        Cell::Energy(read) => {
            let value = match energy(read, shown) {
                (content, _) if content.is_empty() => "null".into(),
                (content, true) => content,
                (content, false) => text(&content),
            };
            match shown.digits {
                true => object(&[("value", value), ("digits", read.digits.to_string())]),
                false => value,
            }
        }
    };
    let objects = lines.iter().map(|taken| {
        let members: Vec<(&str, String)> = NAMES.into_iter().zip(cells(&taken).map(value)).collect();
        object(&members)
    });
    array(objects)
}

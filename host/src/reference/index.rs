//! The subentry index (M-102): made from the tree, and asked with nothing but the records that a question reads.
//!
//! "Keep an index beside the entry, in a lent slice of 32-bit numbers, five to a subentry in entry order, NOSUBENT too:
//! its number, first record, and the records BIB, COMMON and DATA, 0 where none." A question by an index knows no tree
//! and no verdict. It reads one record after another, each read refuses by itself, and the first that does gives the
//! number; so the entry may be any bytes and the index any numbers.

use super::number::read_number;
use super::questions::{accepted, within};
use super::record::{blank, count, is_pointer, is_word, Name, Record};
use super::rules::n1_good;
use super::tree::{Subentry, Table, Tree};
use super::MOST_RECORDS;
use crate::{FieldRead, NoAnswer, Part, Value, COMMON, DATA, RECORD};

/// "five to a subentry"
const ROW: usize = 5;

/// "39 meets the first read that lies outside the entry or has not its identifier, number, counts or asked field in form
/// and range."
const UNREADABLE: NoAnswer = NoAnswer { number: 39, entry: None };

/// The row of a subentry; the tree counts records from 0.
fn row(tree: &Tree, subentry: &Subentry) -> [u32; ROW] {
    let number = tree.number(subentry).iter().fold(0, |number, digit| 10 * number + u32::from(digit - b'0'));
    let opening = |section: Option<usize>| section.map_or(0, |record| record as u32 + 1);
    let table = |table: &Option<Table>| opening(table.as_ref().map(|table| table.opening));
    let bib = opening(subentry.bib.as_ref().map(|bib| bib.opening));
    [number, opening(Some(subentry.opening)), bib, table(&subentry.common), table(&subentry.data)]
}

/// Makes the index in the front of a slice, and says how many rows it has: "31, then 38 slice too short for the rows
/// (numbers past them stay)".
pub fn make_index(entry: &[u8], index: &mut [u32]) -> Result<usize, NoAnswer> {
    let tree = accepted(entry)?;
    let rows: Vec<[u32; ROW]> = tree.subentries.iter().map(|subentry| row(&tree, subentry)).collect();
    let front = index.get_mut(..ROW * rows.len()).ok_or(NoAnswer::numbered(38))?;
    front.copy_from_slice(rows.as_flattened());
    Ok(rows.len())
}

/// How many rows stand before "the first row with that number": "38 not whole rows", 32 where none has it.
pub fn index_row(index: &[u32], subentry: u32) -> Result<usize, NoAnswer> {
    if index.len() % ROW != 0 {
        return Err(NoAnswer::numbered(38));
    }
    let mut numbers = index.iter().step_by(ROW);
    numbers.position(|&number| number == subentry).ok_or(NoAnswer::numbered(32))
}

/// An entry of any bytes, and a row of any numbers.
struct Reader<'a> {
    entry: &'a [u8],
    row: [u32; ROW],
}

impl<'a> Reader<'a> {
    /// The row is found, and "the subentry's first record (NOSUBENT gives 32)" is read.
    fn of(entry: &'a [u8], index: &[u32], subentry: u32) -> Result<Reader<'a>, NoAnswer> {
        let before = index_row(index, subentry)?;
        let row = std::array::from_fn(|place| index[ROW * before + place]);
        let reader = Reader { entry, row };
        let first = reader.record(row[1] as usize)?;
        match Name::of(first) {
            Some(Name::NoSubent) => Err(NoAnswer::numbered(32)),
            Some(Name::Subent) if bears(first, subentry) => Ok(reader),
            _ => Err(UNREADABLE),
        }
    }

    /// A record by its number, from 1. An entry has whole records, 20,000 at the most.
    fn record(&self, number: usize) -> Result<Record<'a>, NoAnswer> {
        let mut records = self.entry.chunks_exact(RECORD).take(MOST_RECORDS);
        let index = number.checked_sub(1).ok_or(UNREADABLE)?;
        records.nth(index).map(Record).ok_or(UNREADABLE)
    }

    /// The record of a section of this name, which has its place in the row, and both its counts: 33 where the row has
    /// none.
    fn section(&self, name: Name) -> Result<(usize, [u64; 2]), NoAnswer> {
        let place = match name {
            Name::Bib => 2,
            Name::Common => 3,
            _ => 4,
        };
        let number = match self.row[place] {
            0 => return Err(NoAnswer::numbered(33)),
            number => number as usize,
        };
        let record = Some(self.record(number)?).filter(|&record| Name::of(record) == Some(name)).ok_or(UNREADABLE)?;
        let counts = [count(record.n1()).ok_or(UNREADABLE)?, count(record.n2()).ok_or(UNREADABLE)?];
        in_range(name, counts).then_some((number, counts)).ok_or(UNREADABLE)
    }

    /// "33 no such section (1 COMMON, 2 DATA, else 33)"; its record, and the shape that its counts give.
    fn table(&self, section: u32) -> Result<Table, NoAnswer> {
        let name = match section {
            COMMON => Name::Common,
            DATA => Name::Data,
            _ => return Err(NoAnswer::numbered(33)),
        };
        let (number, [columns, second]) = self.section(name)?;
        let lines = if name == Name::Data { second as usize } else { 1 };
        Ok(Table { name, opening: number - 1, columns: columns as usize, lines, end: None })
    }

    /// The field of a column, from 1, in a row of a table: where it begins, and its eleven bytes. Of a row that takes
    /// several records the one with the field is read, and no other.
    fn field(&self, table: &Table, row: usize, column: usize) -> Result<(usize, &'a [u8]), NoAnswer> {
        let (record, field) = (table.row(row).start + (column - 1) / 6, (column - 1) % 6);
        let bytes = self.record(record + 1)?.field(field);
        Ok((record * RECORD + 11 * field, bytes))
    }

    /// The heading of a column in its form: where it stands, and its pointer.
    fn heading(&self, table: &Table, column: usize) -> Result<(usize, u8), NoAnswer> {
        let (offset, field) = self.field(table, 0, column)?;
        let (word, pointer) = (&field[..10], field[10]);
        let good = is_word(word) && (pointer == b' ' || is_pointer(pointer));
        good.then_some((offset, pointer)).ok_or(UNREADABLE)
    }
}

/// Whether SUBENT has its N1 in form, with this number: 001 to 998.
fn bears(first: Record, subentry: u32) -> bool {
    let three = &first.n1()[8..];
    n1_good(Name::Subent, first.n1()) && count(three) == Some(subentry.into()) && (1..=998).contains(&subentry)
}

/// Whether the counts are in the range that each has by this record alone.
fn in_range(name: Name, [n1, n2]: [u64; 2]) -> bool {
    match name {
        Name::Bib => (1..=n2).contains(&n1),
        Name::Common => (1..=18).contains(&n1) && n2 == 3 * n1.div_ceil(6),
        _ => (1..=18).contains(&n1) && (1..=20_000).contains(&n2),
    }
}

/// The value in a column of a line, by an index.
pub fn index_value(
    entry: &[u8],
    index: &[u32],
    subentry: u32,
    section: u32,
    line: u32,
    column: u32,
) -> Result<FieldRead, NoAnswer> {
    let reader = Reader::of(entry, index, subentry)?;
    let table = reader.table(section)?;
    let line = within(line, table.lines, 34)?;
    let column = within(column, table.columns, 35)?;
    let (_, field) = reader.field(&table, 1 + line, column)?;
    let read = read_number(field).map_err(|_| UNREADABLE)?;
    // "COMMON values are never blank. DATA values may be"
    let good = table.name == Name::Data || read.value != Value::Blank;
    good.then_some(read).ok_or(UNREADABLE)
}

/// The heading of a column, by an index.
pub fn index_heading(entry: &[u8], index: &[u32], subentry: u32, section: u32, column: u32) -> Result<Part, NoAnswer> {
    let reader = Reader::of(entry, index, subentry)?;
    let table = reader.table(section)?;
    let column = within(column, table.columns, 35)?;
    let (offset, pointer) = reader.heading(&table, column)?;
    Ok(Part { offset, length: 10, pointer })
}

/// The unit of a column, by an index. Beside it stands the heading's pointer, so the heading is read, too.
pub fn index_unit(entry: &[u8], index: &[u32], subentry: u32, section: u32, column: u32) -> Result<Part, NoAnswer> {
    let reader = Reader::of(entry, index, subentry)?;
    let table = reader.table(section)?;
    let column = within(column, table.columns, 35)?;
    let (_, pointer) = reader.heading(&table, column)?;
    let (offset, field) = reader.field(&table, 1, column)?;
    let good = is_word(&field[..10]) && field[10] == b' ';
    good.then_some(Part { offset, length: 10, pointer }).ok_or(UNREADABLE)
}

/// The passage under a keyword and a pointer, by an index: "BIB's counted records up to its end". They are read one by
/// one and compared as bytes. Under a keyword stands what follows it up to the next; before the first, nothing.
pub fn index_passage(
    entry: &[u8],
    index: &[u32],
    subentry: u32,
    keyword: &[u8],
    pointer: u8,
) -> Result<Part, NoAnswer> {
    let reader = Reader::of(entry, index, subentry)?;
    let (bib, [_, texts]) = reader.section(Name::Bib)?;
    let part = |from: usize, past: usize| Part { offset: (from - 1) * RECORD, length: (past - from) * RECORD, pointer };
    let (mut under, mut begun) = (false, None);
    // A count that the entry cannot hold ends at a read outside.
    let past = bib + 1 + usize::try_from(texts).unwrap_or(MOST_RECORDS).min(MOST_RECORDS);
    for number in bib + 1..past {
        let record = reader.record(number)?;
        let named = !blank(record.keyword());
        if named || record.pointer() != b' ' {
            if let Some(from) = begun {
                return Ok(part(from, number));
            }
            under = if named { record.keyword() == keyword } else { under };
            begun = (under && record.pointer() == pointer).then_some(number);
        }
    }
    begun.map(|from| part(from, past)).ok_or(NoAnswer::numbered(36))
}

//! Questions and the canonical copy, answered from the tree.

use super::flags::flag_headings;
use super::judge;
use super::number::{read_number, write_number};
use super::record::blank;
use super::tree::{Subentry, Table, Tree};
use crate::{FieldRead, NoAnswer, Part, Value, Verdict, COMMON, DATA, RECORD};
use std::collections::BTreeMap;

/// "31 entry refused (its refusal, record and column beside it)": the tree of an accepted entry.
pub(super) fn accepted(entry: &[u8]) -> Result<Tree<'_>, NoAnswer> {
    match judge(entry) {
        Verdict::Accepted(_) => Ok(Tree::of(entry)),
        Verdict::Refused(refusal) => Err(NoAnswer { number: 31, entry: Some(refusal) }),
    }
}

/// "32 no such subentry, or NOSUBENT"
pub(super) fn subentry<'t>(tree: &'t Tree, number: u32) -> Result<&'t Subentry, NoAnswer> {
    let digits = format!("{number:03}");
    let found = tree.subentries.iter().find(|subentry| tree.number(subentry) == digits.as_bytes());
    found.filter(|subentry| !subentry.absent).ok_or(NoAnswer::numbered(32))
}

/// "33 no such section (1 COMMON, 2 DATA, else 33)"
pub(super) fn table(subentry: &Subentry, section: u32) -> Result<&Table, NoAnswer> {
    let found = match section {
        COMMON => subentry.common.as_ref(),
        DATA => subentry.data.as_ref(),
        _ => None,
    };
    found.ok_or(NoAnswer::numbered(33))
}

/// A number counted from 1, if it is at most `most`.
pub(super) fn within(number: u32, most: usize, refusal: u32) -> Result<usize, NoAnswer> {
    let number = number as usize;
    if (1..=most).contains(&number) {
        Ok(number)
    } else {
        Err(NoAnswer::numbered(refusal))
    }
}

/// The value in a column of a line: blank, or a number. "Value lookup passes it on": the count of digits, too.
pub fn value(entry: &[u8], number: u32, section: u32, line: u32, column: u32) -> Result<FieldRead, NoAnswer> {
    let tree = accepted(entry)?;
    let table = table(subentry(&tree, number)?, section)?;
    let line = within(line, table.lines, 34)?;
    let column = within(column, table.columns, 35)?;
    // The records of the line side by side, so that a column is eleven bytes of one long line.
    let long: Vec<u8> =
        tree.records[table.row(1 + line)].iter().flat_map(|record| record.columns(1, 66)).copied().collect();
    read_number(&long[11 * (column - 1)..11 * column])
}

/// The ten columns of a heading (row 0) or unit (row 1), with the heading's pointer beside it.
fn word(entry: &[u8], number: u32, section: u32, column: u32, row: usize) -> Result<Part, NoAnswer> {
    let tree = accepted(entry)?;
    let table = table(subentry(&tree, number)?, section)?;
    let column = within(column, table.columns, 35)?;
    let cell = |row| table.cells(&tree, row).nth(column - 1).expect("the column is there");
    let (heading, cell) = (cell(0), cell(row));
    let offset = cell.record * RECORD + 11 * cell.field;
    Ok(Part { offset, length: 10, pointer: heading.eleventh() })
}

/// The heading of a column.
pub fn heading(entry: &[u8], number: u32, section: u32, column: u32) -> Result<Part, NoAnswer> {
    word(entry, number, section, column, 0)
}

/// The unit of a column.
pub fn unit(entry: &[u8], number: u32, section: u32, column: u32) -> Result<Part, NoAnswer> {
    word(entry, number, section, column, 1)
}

/// "A passage is the run of records from a keyword (pointer of that record, or none) or from a pointer, up to the next
/// pointer or keyword."
pub fn passage(entry: &[u8], number: u32, keyword: &[u8], pointer: u8) -> Result<Part, NoAnswer> {
    let tree = accepted(entry)?;
    let bib = subentry(&tree, number)?.bib.as_ref().ok_or(NoAnswer::numbered(33))?;
    let mut passages: BTreeMap<(&[u8], u8), std::ops::Range<usize>> = BTreeMap::new();
    let mut current: (&[u8], u8) = (b"", b' ');
    for at in bib.text.clone() {
        let record = tree.records[at];
        if !blank(record.keyword()) {
            current = (record.keyword(), record.pointer());
        } else if record.pointer() != b' ' {
            current.1 = record.pointer();
        }
        passages.entry(current).or_insert(at..at).end = at + 1;
    }
    let records = passages.get(&(keyword, pointer)).ok_or(NoAnswer::numbered(36))?;
    Ok(Part { offset: records.start * RECORD, length: records.len() * RECORD, pointer })
}

/// "The canonical copy replaces each non-blank value field of COMMON and DATA by its canonical field and keeps every
/// other byte." "The copy leaves both kinds of column unaltered", those under FLAG and under DECAY-FLAG (M-105). 31, then
/// "37 buffer shorter than the entry; bytes past the entry's length stay".
pub fn canonical_copy(entry: &[u8], buffer: &mut [u8]) -> Result<(), NoAnswer> {
    let tree = accepted(entry)?;
    let copy = buffer.get_mut(..entry.len()).ok_or(NoAnswer::numbered(37))?;
    copy.copy_from_slice(entry);
    for table in tree.subentries.iter().flat_map(Subentry::tables) {
        let headings = flag_headings(&tree, table);
        let cells = (2..2 + table.lines).flat_map(|row| table.cells(&tree, row));
        for cell in cells.filter(|cell| cell.used && headings[cell.column - 1].is_none()) {
            if let Value::Number(decimal) = read_number(cell.bytes)?.value {
                let place = cell.record * RECORD + 11 * cell.field;
                write_number(decimal, &mut copy[place..place + 11])?;
            }
        }
    }
    Ok(())
}

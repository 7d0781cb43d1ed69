//! Values in order (M-112): the tree says where a table begins and how large it is; from there on five numbers say what
//! comes next, and the entry may be any bytes.

use super::number::read_number;
use super::questions::{accepted, subentry, table};
use super::record::Record;
use super::MOST_RECORDS;
use crate::walk::{Given, Walk};
use crate::{NoAnswer, RECORD};

/// "Refusals: 31 to 33 when it is made": the section's record, its columns and lines, and the first place.
pub fn walk(entry: &[u8], number: u32, section: u32) -> Result<Walk, NoAnswer> {
    let tree = accepted(entry)?;
    let table = table(subentry(&tree, number)?, section)?;
    Ok([table.opening as u32 + 1, table.columns as u32, table.lines as u32, 1, 1])
}

/// "the next value with line and column, left to right and line by line, then saying it is done and staying so". The
/// numbers may be any: those that are no place in a table of a possible size are done. A field of no record of the entry is
/// blank.
pub fn walk_next(entry: &[u8], walk: &mut Walk) -> Option<Given> {
    let [record, columns, lines, line, column] = walk.map(|number| number as usize);
    let possible = record <= MOST_RECORDS && columns <= 18 && lines <= 20_000;
    if !possible || !(1..=lines).contains(&line) || !(1..=columns).contains(&column) {
        return None;
    }
    // "k heading records, k unit records, then value records, k to a line", all behind the section's own
    let k = columns.div_ceil(6);
    let mut behind = entry.chunks_exact(RECORD).skip(record);
    let found = behind.nth((1 + line) * k + (column - 1) / 6);
    let field = found.map_or(&[b' '; 11][..], |record| Record(record).field((column - 1) % 6));
    let given = (walk[3], walk[4], read_number(field));
    // Counted from 0, the next one has so many before it.
    let before = (line - 1) * columns + column;
    [walk[3], walk[4]] = [before / columns + 1, before % columns + 1].map(|number| number as u32);
    Some(given)
}

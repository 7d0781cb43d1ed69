//! Indexes of subentries (M-102), true and altered.

use super::Random;
use crate::reference::record::{records, Name};
use crate::RECORD;

/// The index of an entry by the identifiers that its records bear, whether it is accepted or not. Of an accepted one it is
/// nearly the true one: a text that is an identifier would be taken for a section.
pub fn index_of(entry: &[u8]) -> Vec<u32> {
    let mut rows: Vec<[u32; 5]> = Vec::new();
    for (record, number) in records(entry).into_iter().zip(1..) {
        let place = match Name::of(record) {
            Some(Name::Subent | Name::NoSubent) => {
                let digits = String::from_utf8_lossy(record.columns(20, 22)).into_owned();
                rows.push([digits.parse().unwrap_or(0), number, 0, 0, 0]);
                continue;
            }
            Some(Name::Bib) => 2,
            Some(Name::Common) => 3,
            Some(Name::Data) => 4,
            _ => continue,
        };
        if let Some(row) = rows.last_mut().filter(|row| row[place] == 0) {
            row[place] = number;
        }
    }
    rows.concat()
}

/// A number that may stand for another: near it, of another place, at a limit, or any.
fn other_number(random: &mut Random, index: &[u32], number: u32) -> u32 {
    match random.below(8) {
        0 => 0,
        1 => number.wrapping_add(1),
        2 => number.wrapping_sub(1),
        3 | 4 if !index.is_empty() => random.one(index),
        5 => random.one(&[998, 999, 1_000, 20_000, 20_001, u32::MAX]),
        6 => random.below(60) as u32,
        _ => random.bits() as u32,
    }
}

/// Changes an index: some numbers, whole rows, or its length.
pub fn alter_index(random: &mut Random, index: &mut Vec<u32>) {
    let rows = index.len() / 5;
    let kind = random.below(if rows == 0 { 3 } else { 10 });
    match kind {
        0 => index.extend(std::iter::repeat_n(0, random.one(&[1, 2, 4, 5, 6]))),
        1 => index.truncate(random.below(index.len() + 1)),
        2 => *index = (0..5 * random.within(1, 3)).map(|_| random.below(40) as u32).collect(),
        3 => {
            let (one, other) = (5 * random.below(rows), 5 * random.below(rows));
            (0..5).for_each(|place| index.swap(one + place, other + place));
        }
        4 => {
            let one = 5 * random.below(rows);
            let row = index[one..one + 5].to_vec();
            let at = 5 * random.within(0, rows);
            drop(index.splice(at..at, row));
        }
        5 => {
            let one = 5 * random.below(rows);
            drop(index.drain(one..one + 5));
        }
        _ => {
            for _ in 0..random.within(1, 3) {
                let place = random.below(index.len());
                index[place] = other_number(random, index, index[place]);
            }
        }
    }
}

/// Changes an entry after its index was made, in a record that a question by it may read, or by a record or the end.
pub fn alter_entry(random: &mut Random, entry: &mut Vec<u8>, index: &[u32]) {
    const FIELDS: [&str; 14] = [
        "SUBENT     ",
        "NOSUBENT   ",
        "BIB        ",
        "COMMON     ",
        "DATA       ",
        "           ",
        "          1",
        "         19",
        "      20000",
        "99999999999",
        "   90001002",
        "     1.45-1",
        "       1.5E",
        " AB        ",
    ];
    let count = entry.len() / RECORD;
    if count == 0 {
        return;
    }
    // A record that the index names or one soon behind it, or any.
    let named = if index.is_empty() || random.once_in(3) { 0 } else { random.one(index) as usize };
    let at = match named {
        number if (1..=count).contains(&number) => (number - 1 + random.below(5)).min(count - 1),
        _ => random.below(count),
    };
    let first = at * RECORD;
    match random.below(8) {
        0..=2 => {
            let field = first + 11 * random.below(3);
            entry[field..field + 11].copy_from_slice(random.one(&FIELDS).as_bytes());
        }
        3 | 4 => entry[first + random.below(RECORD)] = random.one(b" 019.-EA(\n#"),
        5 => drop(entry.drain(first..first + RECORD)),
        6 => {
            let record = entry[first..first + RECORD].to_vec();
            drop(entry.splice(first..first, record));
        }
        _ => entry.truncate(if random.once_in(2) { first } else { random.below(entry.len() + 1) }),
    }
}

//! An index of an entry's subentries (M-102), kept beside the entry: a question then judges nothing and reads a few records.
//!
//! ```
//! use glockenbeacon::{library, DATA};
//!
//! let entry = std::fs::read("data/sample.x4")?;
//! let index = library::Index::of(&entry)?; // judges once
//! assert_eq!(index.numbers(), [1, 2, 3, 7, 0, 2, 13, 14, 0, 19]);
//! assert_eq!(index.value(&entry, 2, DATA, 1, 2), library::value(&entry, 2, DATA, 1, 2));
//! let row = index.row(2)?; // searched once for a whole table
//! assert_eq!(row.value(&entry, DATA, 1, 2), library::value(&entry, 2, DATA, 1, 2));
//! # Ok::<(), Box<dyn std::error::Error>>(())
//! ```

use crate::json::{array, object, text};
use crate::transmission::of_entries;
use crate::{library, DoubleRead, FieldRead, NoAnswer, Part, RECORD};

/// How many numbers a row has.
pub const ROW: usize = 5;

/// The most subentries of an entry: 001 to 998.
pub const MOST_ROWS: usize = 998;

/// An index that owns its numbers. Asked about the accepted entry that it was made for, it gives the answers of the full
/// questions. Asked about any other bytes it answers, too, often by 32, 33 or 39.
#[derive(Clone, Debug, PartialEq, Eq, Hash)]
pub struct Index {
    numbers: Vec<u32>,
}

impl Index {
    /// The index of an entry, which is judged for it: 31 where it is refused.
    pub fn of(entry: &[u8]) -> Result<Index, NoAnswer> {
        // A subentry has a record at least, so this is room enough.
        let mut numbers = vec![0; ROW * MOST_ROWS.min(entry.len() / RECORD)];
        let rows = library::make_index(entry, &mut numbers)?;
        numbers.truncate(ROW * rows);
        Ok(Index { numbers })
    }

    /// An index of numbers that were kept elsewhere, whatever they are. Where they are no whole rows, every question is
    /// refused by 38.
    pub fn from_numbers(numbers: Vec<u32>) -> Index {
        Index { numbers }
    }

    /// Its numbers: five to a row.
    pub fn numbers(&self) -> &[u32] {
        &self.numbers
    }

    /// Its rows, in their order.
    pub fn rows(&self) -> impl ExactSizeIterator<Item = Row> + '_ {
        self.numbers.chunks_exact(ROW).map(Row::of)
    }

    /// The first row of a subentry: for programs that ask much about one.
    pub fn row(&self, subentry: u32) -> Result<Row, NoAnswer> {
        let before = library::index_row(&self.numbers, subentry)?;
        Ok(Row::of(&self.numbers[ROW * before..]))
    }

    /// What stands in a column of a line of COMMON (section 1, line 1 only) or DATA (section 2), and its count of digits.
    pub fn value(
        &self,
        entry: &[u8],
        subentry: u32,
        section: u32,
        line: u32,
        column: u32,
    ) -> Result<FieldRead, NoAnswer> {
        library::index_value(entry, &self.numbers, subentry, section, line, column)
    }

    /// The value in a column of a line as a double, and its count of digits.
    pub fn double(
        &self,
        entry: &[u8],
        subentry: u32,
        section: u32,
        line: u32,
        column: u32,
    ) -> Result<DoubleRead, NoAnswer> {
        library::index_double(entry, &self.numbers, subentry, section, line, column)
    }

    /// The heading of a column: ten columns of the entry, and its pointer.
    pub fn heading(&self, entry: &[u8], subentry: u32, section: u32, column: u32) -> Result<Part, NoAnswer> {
        library::index_heading(entry, &self.numbers, subentry, section, column)
    }

    /// The unit of a column: ten columns of the entry, and the pointer of its heading.
    pub fn unit(&self, entry: &[u8], subentry: u32, section: u32, column: u32) -> Result<Part, NoAnswer> {
        library::index_unit(entry, &self.numbers, subentry, section, column)
    }

    /// The passage under a keyword (its ten bytes) and a pointer (blank for none): whole records of the entry.
    pub fn passage(&self, entry: &[u8], subentry: u32, keyword: &[u8], pointer: u8) -> Result<Part, NoAnswer> {
        library::index_passage(entry, &self.numbers, subentry, keyword, pointer)
    }
}

/// A row of an index. Records count from 1.
#[derive(Clone, Copy, Debug, PartialEq, Eq, Hash)]
pub struct Row {
    /// The number of the subentry.
    pub subentry: u32,
    /// Its first record, SUBENT or NOSUBENT.
    pub first: u32,
    /// The record BIB; 0 where there is none.
    pub bib: u32,
    /// The record COMMON; 0 where there is none.
    pub common: u32,
    /// The record DATA; 0 where there is none.
    pub data: u32,
}

impl Row {
    /// The first five of some numbers.
    fn of(numbers: &[u32]) -> Row {
        Row { subentry: numbers[0], first: numbers[1], bib: numbers[2], common: numbers[3], data: numbers[4] }
    }

    /// Its five numbers, which are an index of one row.
    pub fn numbers(&self) -> [u32; ROW] {
        [self.subentry, self.first, self.bib, self.common, self.data]
    }

    /// What stands in a column of a line.
    pub fn value(&self, entry: &[u8], section: u32, line: u32, column: u32) -> Result<FieldRead, NoAnswer> {
        library::index_value(entry, &self.numbers(), self.subentry, section, line, column)
    }

    /// The value in a column of a line as a double.
    pub fn double(&self, entry: &[u8], section: u32, line: u32, column: u32) -> Result<DoubleRead, NoAnswer> {
        library::index_double(entry, &self.numbers(), self.subentry, section, line, column)
    }

    /// The heading of a column.
    pub fn heading(&self, entry: &[u8], section: u32, column: u32) -> Result<Part, NoAnswer> {
        library::index_heading(entry, &self.numbers(), self.subentry, section, column)
    }

    /// The unit of a column.
    pub fn unit(&self, entry: &[u8], section: u32, column: u32) -> Result<Part, NoAnswer> {
        library::index_unit(entry, &self.numbers(), self.subentry, section, column)
    }

    /// The passage under a keyword and a pointer.
    pub fn passage(&self, entry: &[u8], keyword: &[u8], pointer: u8) -> Result<Part, NoAnswer> {
        library::index_passage(entry, &self.numbers(), self.subentry, keyword, pointer)
    }

    /// Accession and number of its subentry, such as `90001002`: its first record has them in columns 67-74. None where
    /// the entry has no such record.
    pub fn owner<'e>(&self, entry: &'e [u8]) -> Option<&'e [u8]> {
        let record = entry.chunks_exact(RECORD).nth((self.first as usize).checked_sub(1)?)?;
        Some(&record[66..74])
    }
}

/// A row as `x4 index` lists it.
#[derive(Clone, Debug, PartialEq, Eq)]
pub struct Listed {
    /// The entry of a transmission that it is of, from 1; 0 for a single entry.
    pub entry: usize,
    /// Accession and number of its subentry, such as `90001002`.
    pub subentry: String,
    /// The row. Its records count from ENTRY, in a transmission too.
    pub row: Row,
}

/// The rows of an entry.
pub fn listed(entry: &[u8]) -> Result<Vec<Listed>, NoAnswer> {
    let index = Index::of(entry)?;
    let subentry = |row: &Row| String::from_utf8_lossy(row.owner(entry).unwrap_or_default()).into_owned();
    Ok(index.rows().map(|row| Listed { entry: 0, subentry: subentry(&row), row }).collect())
}

/// The rows of all entries of a transmission.
pub fn file_listed(file: &[u8]) -> Result<Vec<Listed>, NoAnswer> {
    of_entries(file, listed, |entry, row| Listed { entry, ..row })
}

/// Rows as comma-separated values below a line of names; of a transmission each begins with the ordinal of its entry.
pub fn to_csv(rows: &[Listed]) -> String {
    let names = ["subentry", "first", "BIB", "COMMON", "DATA"].map(String::from).to_vec();
    let named = rows.iter().any(|row| row.entry > 0).then(|| "entry".to_string());
    let mut lines = vec![named.into_iter().chain(names).collect::<Vec<_>>()];
    for Listed { entry, subentry, row } in rows {
        let ordinal = (*entry > 0).then(|| entry.to_string());
        let records = row.numbers().into_iter().skip(1).map(|record| record.to_string());
        lines.push(ordinal.into_iter().chain([subentry.clone()]).chain(records).collect());
    }
    lines.iter().map(|fields| fields.join(",") + "\n").collect()
}

/// Rows as JSON; a record that is not there is null.
pub fn to_json(rows: &[Listed]) -> String {
    array(rows.iter().map(|Listed { entry, subentry, row }| {
        let record = |number: u32| if number == 0 { "null".to_string() } else { number.to_string() };
        let own = [
            ("subentry", text(subentry)),
            ("first", record(row.first)),
            ("bib", record(row.bib)),
            ("common", record(row.common)),
            ("data", record(row.data)),
        ];
        let ordinal = (*entry > 0).then(|| ("entry", entry.to_string()));
        object(&ordinal.into_iter().chain(own).collect::<Vec<_>>())
    }))
}

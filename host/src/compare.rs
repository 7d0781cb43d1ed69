//! Compares tables: those of two entries or transmissions, or of one and of another program that read it.

use crate::answers::counted;
use crate::tables::Row;
use crate::Decimal;
use std::fmt;

/// What two sets of tables have in common.
#[derive(Clone, Copy, Debug, Default, PartialEq, Eq)]
pub struct Same {
    /// Tables.
    pub tables: usize,
    /// Numbers that are equal as decimals.
    pub exact: usize,
    /// Numbers that differ as decimals but have the same nearest double.
    pub doubles: usize,
}

impl fmt::Display for Same {
    fn fmt(&self, f: &mut fmt::Formatter<'_>) -> fmt::Result {
        let (tables, numbers) = (counted(self.tables, "table", "tables"), counted(self.exact, "number", "numbers"));
        write!(f, "same: {tables}, {numbers}")?;
        match self.doubles {
            0 => Ok(()),
            more => write!(f, ", {more} more as doubles"),
        }
    }
}

/// The first difference.
#[derive(Clone, Debug, PartialEq, Eq)]
pub struct Difference {
    /// The entry of a transmission, from 1; 0 where neither of the two is one.
    pub entry: usize,
    /// Accession and number of the subentry.
    pub subentry: String,
    /// `COMMON` or `DATA`.
    pub section: String,
    /// `heading`, `pointer`, `unit` or the number of the line; none if the whole table is missing.
    pub kind: Option<String>,
    /// The column, from 1; none if the whole row is missing.
    pub column: Option<usize>,
    /// Whether it is the count of digits behind that column.
    pub digits: bool,
    /// What the first has there; none if it has nothing there, which is not the same as a blank.
    pub first: Option<String>,
    /// What the second has there.
    pub second: Option<String>,
}

impl fmt::Display for Difference {
    fn fmt(&self, f: &mut fmt::Formatter<'_>) -> fmt::Result {
        if self.entry > 0 {
            write!(f, "entry {}, ", self.entry)?;
        }
        write!(f, "subentry {}, {}", self.subentry, self.section)?;
        match self.kind.as_deref() {
            Some(kind) if kind.parse::<u32>().is_ok() => write!(f, ", line {kind}")?,
            Some(kind) => write!(f, ", {kind}")?,
            None => {}
        }
        if let Some(column) = self.column {
            write!(f, ", column {column}{}", if self.digits { ", digits" } else { "" })?;
        }
        let said = |side: &Option<String>| match side.as_deref() {
            None => "nothing".to_string(),
            Some("") => "a blank".to_string(),
            Some(text) => text.to_string(),
        };
        write!(f, ": first {}, second {}", said(&self.first), said(&self.second))
    }
}

/// What else is a difference.
#[derive(Clone, Copy, Debug, Default, PartialEq, Eq)]
pub struct Asked {
    /// Numbers that differ as decimals, also where they have the same nearest double.
    pub exact: bool,
    /// Counts of digits, which then stand behind each column of both.
    pub digits: bool,
}

/// A table as rows that follow each other.
type Group<'a> = &'a [Row];

/// Rows of one table after another. Two entries of a transmission may have one accession; a table begins with its
/// headings.
fn groups(rows: &[Row]) -> Vec<Group<'_>> {
    let same = |one: &Row, next: &Row| one.subentry == next.subentry && one.section == next.section;
    rows.chunk_by(|one, next| same(one, next) && next.kind != "heading").collect()
}

/// Compares table by table, row by row, column by column. Unless `exact` is asked for, two numbers are the same also
/// where their nearest doubles are, since most programs write doubles.
pub fn compare(first: &[Row], second: &[Row], asked: Asked) -> Result<Same, Box<Difference>> {
    let (ones, others) = (groups(first), groups(second));
    let mut same = Same::default();
    for place in 0..ones.len().max(others.len()) {
        match (ones.get(place), others.get(place)) {
            (Some(one), Some(other)) if key(one) == key(other) => {
                same_table(one, other, asked, &mut same)?;
                same.tables += 1;
            }
            // A table that the second does not have at all is missing there; else the second has one too many here.
            (Some(one), _) if !others.iter().any(|other| key(other) == key(one)) => {
                return Err(missing_table(one, true));
            }
            (_, Some(other)) => return Err(missing_table(other, false)),
            (Some(one), None) => return Err(missing_table(one, true)),
            (None, None) => {}
        }
    }
    Ok(same)
}

impl Asked {
    /// Whether a cell of a row, from 0, is a count of digits: they stand behind the values.
    fn counts(self, cell: usize) -> bool {
        self.digits && cell % 2 == 1
    }

    /// The column that a cell belongs to, from 1.
    fn column(self, cell: usize) -> usize {
        if self.digits {
            cell / 2 + 1
        } else {
            cell + 1
        }
    }
}

/// Subentry and section.
fn key<'a>(group: &Group<'a>) -> (&'a str, &'a str) {
    (&group[0].subentry, &group[0].section)
}

/// A table that only one of the two has in this place.
fn missing_table(group: Group, in_first: bool) -> Box<Difference> {
    let said = |there: bool| there.then(|| "a table".to_string());
    let (subentry, section) = (group[0].subentry.clone(), group[0].section.clone());
    let (first, second) = (said(in_first), said(!in_first));
    Box::new(Difference {
        entry: group[0].entry,
        subentry,
        section,
        kind: None,
        column: None,
        digits: false,
        first,
        second,
    })
}

/// Compares two tables of the same subentry and section.
fn same_table(one: Group, other: Group, asked: Asked, same: &mut Same) -> Result<(), Box<Difference>> {
    for place in 0..one.len().max(other.len()) {
        let (a, b) = (one.get(place), other.get(place));
        let row = a.or(b).expect("one of them has this row");
        // The first's entry, if it is a transmission, else the second's.
        let entry = if one[0].entry > 0 { one[0].entry } else { other[0].entry };
        let difference = |cell: Option<usize>, first, second| {
            let (subentry, section) = (row.subentry.clone(), row.section.clone());
            let (column, digits) = (cell.map(|cell| asked.column(cell)), cell.is_some_and(|cell| asked.counts(cell)));
            let kind = Some(row.kind.clone());
            Box::new(Difference { entry, subentry, section, kind, column, digits, first, second })
        };
        let (Some(a), Some(b)) = (a, b) else {
            return Err(difference(None, a.map(|_| "a row".into()), b.map(|_| "a row".into())));
        };
        if a.kind != b.kind {
            return Err(difference(None, Some(a.kind.clone()), Some(b.kind.clone())));
        }
        for cell in 0..a.cells.len().max(b.cells.len()) {
            let (x, y) = (a.cells.get(cell), b.cells.get(cell));
            let equal = match (x, y) {
                (Some(x), Some(y)) if asked.counts(cell) => x == y,
                (Some(x), Some(y)) => same_cell(x, y, row, asked.exact, same),
                _ => false,
            };
            if !equal {
                return Err(difference(Some(cell), x.cloned(), y.cloned()));
            }
        }
    }
    Ok(())
}

/// Whether two cells say the same: words as they stand, numbers by value. A blank is equal to a blank only.
fn same_cell(x: &str, y: &str, row: &Row, exact: bool, same: &mut Same) -> bool {
    if row.kind.parse::<u32>().is_err() || x.is_empty() || y.is_empty() {
        return x == y;
    }
    let (Ok(one), Ok(other)) = (x.parse::<Decimal>(), y.parse::<Decimal>()) else { return false };
    if one == other {
        same.exact += 1;
        return true;
    }
    let doubles = one.to_double().zip(other.to_double()).is_some_and(|(one, other)| one == other);
    if doubles && !exact {
        same.doubles += 1;
    }
    doubles && !exact
}

#[cfg(test)]
mod tests {
    use super::*;
    use crate::tables::from_csv;

    const TABLE: &str = "90001002,DATA,heading,ANG,DATA\n90001002,DATA,pointer,,1\n90001002,DATA,unit,ADEG,MB/SR\n\
                         90001002,DATA,1,10,0.145\n90001002,DATA,2,20,\n";

    fn compared(second: &str, exact: bool) -> Result<Same, String> {
        both(TABLE, second, Asked { exact, digits: false })
    }

    fn both(first: &str, second: &str, asked: Asked) -> Result<Same, String> {
        let (one, other) = (from_csv(first).unwrap(), from_csv(second).unwrap());
        compare(&one, &other, asked).map_err(|difference| difference.to_string())
    }

    #[test]
    fn counts_are_compared_where_they_are_asked_for() {
        let table = "90001002,DATA,heading,ANG,digits,DATA,digits\n90001002,DATA,pointer,,,1,\n\
                     90001002,DATA,unit,ADEG,,MB/SR,\n90001002,DATA,1,10,2,0.14,2\n90001002,DATA,2,20,2,,0\n";
        let asked = Asked { exact: false, digits: true };
        assert_eq!(both(table, table, asked), Ok(Same { tables: 1, exact: 3, doubles: 0 }));
        for (from, to, words) in [
            ("0.14,2", "0.14,3", "line 1, column 2, digits: first 2, second 3"),
            ("0.14,2", "1.4,2", "line 1, column 2: first 0.14, second 1.4"),
            (",,0\n", ",,\n", "line 2, column 2, digits: first 0, second a blank"),
            ("DATA,digits", "DATA", "heading, column 2, digits: first digits, second nothing"),
        ] {
            let second = table.replace(from, to);
            assert_eq!(both(table, &second, asked), Err(format!("subentry 90001002, DATA, {words}")));
        }
    }

    #[test]
    fn values_are_compared_and_not_texts() {
        let doubles = TABLE.replace("0.145", " 1.4499999999999999E-001").replace(",10,", ", 1.0E+1 ,");
        assert_eq!(compared(TABLE, true), Ok(Same { tables: 1, exact: 3, doubles: 0 }));
        assert_eq!(compared(&doubles, false), Ok(Same { tables: 1, exact: 2, doubles: 1 }));
        let words = "subentry 90001002, DATA, line 1, column 2: first 0.145, second 1.4499999999999999E-001";
        assert_eq!(compared(&doubles, true), Err(words.into()));
    }

    #[test]
    fn the_first_difference_is_named() {
        for (from, to, words) in [
            ("0.145", "1.45", "line 1, column 2: first 0.145, second 1.45"),
            ("20,\n", "20,0\n", "line 2, column 2: first a blank, second 0"),
            (",10,", ",,", "line 1, column 1: first 10, second a blank"),
            ("0.145", "NaN", "line 1, column 2: first 0.145, second NaN"),
            ("MB/SR", "B/SR", "unit, column 2: first MB/SR, second B/SR"),
            ("pointer,,1", "pointer,,", "pointer, column 2: first 1, second a blank"),
            ("ANG,DATA", "ANG,DATA,MORE", "heading, column 3: first nothing, second MORE"),
            ("90001002,DATA,2,20,\n", "", "line 2: first a row, second nothing"),
            ("DATA,1,", "DATA,3,", "line 1: first 1, second 3"),
        ] {
            assert_eq!(compared(&TABLE.replace(from, to), false), Err(format!("subentry 90001002, DATA, {words}")));
        }
        let other = TABLE.replace("90001002", "90001003");
        assert_eq!(compared(&other, false), Err("subentry 90001002, DATA: first a table, second nothing".into()));
        let more = format!("90001001,COMMON,heading,EN\n{TABLE}");
        assert_eq!(compared(&more, false), Err("subentry 90001001, COMMON: first nothing, second a table".into()));
    }
}

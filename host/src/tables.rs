//! The tables of an entry, for people and for other programs.
//!
//! As comma-separated values a table is a row of headings, one of pointers, one of units, and a row for each line:
//!
//! ```text
//! 90001002,DATA,heading,ANG,DATA,DATA
//! 90001002,DATA,pointer,,1,2
//! 90001002,DATA,unit,ADEG,MB/SR,MB/SR
//! 90001002,DATA,1,10,0.145,
//! 90001002,DATA,2,20,0.14,25
//! ```
//!
//! Numbers are exact decimals as text; a blank field is empty, and zero is `0`. Asked for, a column of the digits that
//! were written stands behind each column:
//!
//! ```text
//! 90001002,DATA,heading,ANG,digits,DATA,digits,DATA,digits
//! 90001002,DATA,pointer,,,1,,2,
//! 90001002,DATA,unit,ADEG,,MB/SR,,MB/SR,
//! 90001002,DATA,1,10,2,0.145,3,,0
//! 90001002,DATA,2,20,2,0.14,2,25,2
//! ```
//!
//! As doubles (M-107) numbers are shown shortly, with the fewest digits that read back to the double, `1e22`; a decimal
//! that is outside the simple range is still exact.

use crate::json::{array, object, text};
use crate::library::Index;
use crate::transmission::of_entries;
use crate::{double, index, library, FieldRead, NoAnswer, Value, COMMON, DATA};

/// A column of a table.
#[derive(Clone, Debug, PartialEq, Eq)]
pub struct Column {
    /// The heading without the blanks behind it.
    pub heading: String,
    /// The heading's pointer.
    pub pointer: Option<char>,
    /// The unit without the blanks behind it.
    pub unit: String,
}

/// Lines, each with a value and its count of digits for each column.
pub type Lines = Vec<Vec<FieldRead>>;

/// A COMMON or DATA section.
#[derive(Clone, Debug, PartialEq, Eq)]
pub struct Table {
    /// The entry of a transmission that it is in, from 1; 0 for a single entry.
    pub entry: usize,
    /// Accession and number of its subentry, such as `90001002`.
    pub subentry: String,
    /// `COMMON` or `DATA`.
    pub section: &'static str,
    /// The columns.
    pub columns: Vec<Column>,
    /// The lines.
    pub lines: Lines,
}

/// All tables of an entry, in its order. The library judges it once, for the index (M-102). Then it is asked by the row
/// of each subentry for all headings, units and values, each of which it finds by a few reads.
pub fn tables(entry: &[u8]) -> Result<Vec<Table>, NoAnswer> {
    let index = Index::of(entry)?;
    let mut tables = Vec::new();
    for row in index.rows() {
        for (section, name) in [(COMMON, "COMMON"), (DATA, "DATA")] {
            if let Some((columns, lines)) = table(entry, &row, section)? {
                let subentry = written(row.owner(entry).unwrap_or_default());
                tables.push(Table { entry: 0, subentry, section: name, columns, lines });
            }
        }
    }
    Ok(tables)
}

/// All tables of a transmission, entry by entry.
pub fn file_tables(file: &[u8]) -> Result<Vec<Table>, NoAnswer> {
    of_entries(file, tables, |entry, table| Table { entry, ..table })
}

/// The columns and lines of a section, if there is one: refusal 32 or 33 says that there is none, 35 that no column is
/// left, and 34 no line.
fn table(entry: &[u8], row: &index::Row, section: u32) -> Result<Option<(Vec<Column>, Lines)>, NoAnswer> {
    let mut columns = Vec::new();
    let count = loop {
        let column = columns.len() as u32 + 1;
        match row.heading(entry, section, column) {
            Err(NoAnswer { number: 32 | 33, .. }) => return Ok(None),
            // Not of the first: without a column no 34 would end the lines.
            Err(NoAnswer { number: 35, .. }) if column > 1 => break column - 1,
            heading => {
                let (heading, unit) = (heading?, row.unit(entry, section, column)?);
                columns.push(Column {
                    heading: written(heading.of(entry)),
                    pointer: Some(char::from(heading.pointer)).filter(|&pointer| pointer != ' '),
                    unit: written(unit.of(entry)),
                });
            }
        }
    };
    let mut lines = Vec::new();
    loop {
        let line = lines.len() as u32 + 1;
        match (1..=count).map(|column| row.value(entry, section, line, column)).collect() {
            Err(NoAnswer { number: 34, .. }) => return Ok(Some((columns, lines))),
            values => lines.push(values?),
        }
    }
}

/// A place without the blanks behind its word.
fn written(place: &[u8]) -> String {
    String::from_utf8_lossy(place).trim_end_matches(' ').to_string()
}

/// How tables are shown.
#[derive(Clone, Copy, Debug, Default, PartialEq, Eq)]
pub struct Shown {
    /// With the count of digits behind each value.
    pub digits: bool,
    /// With values as doubles (M-107).
    pub doubles: bool,
}

impl Shown {
    /// A value as a double, where they are asked for and it is one.
    fn double(self, read: &FieldRead) -> Option<f64> {
        self.doubles.then(|| library::doubled(*read).value.double())?
    }

    /// A value as text: nothing for blank.
    fn text(self, read: &FieldRead) -> String {
        match (read.value, self.double(read)) {
            (Value::Blank, _) => String::new(),
            (_, Some(double)) => double::text(double),
            (Value::Number(decimal), None) => decimal.to_string(),
        }
    }

    /// A value as JSON: null for blank, and a text for a decimal, so that no reader rounds it. A double is a number.
    fn json(self, read: &FieldRead) -> String {
        match (read.value, self.double(read)) {
            (Value::Blank, _) => "null".to_string(),
            (_, Some(double)) => double::text(double),
            (Value::Number(decimal), None) => text(&decimal.to_string()),
        }
    }
}

/// The heading of a column of digits.
const DIGITS: &str = "digits";

/// One row of comma-separated values.
#[derive(Clone, Debug, PartialEq, Eq)]
pub struct Row {
    /// The entry of a transmission that it is of, from 1; 0 for a single entry, and where another program wrote it.
    pub entry: usize,
    /// Accession and number of the subentry.
    pub subentry: String,
    /// `COMMON` or `DATA`.
    pub section: String,
    /// `heading`, `pointer`, `unit`, or the number of the line.
    pub kind: String,
    /// A text for each column.
    pub cells: Vec<String>,
}

impl Table {
    /// The rows of this table, with the digits behind each column where they are asked for.
    pub fn rows(&self, shown: Shown) -> Vec<Row> {
        let row = |kind: String, cells: Vec<String>| Row {
            entry: self.entry,
            subentry: self.subentry.clone(),
            section: self.section.to_string(),
            kind,
            cells,
        };
        let cells = |own: String, behind: String| if shown.digits { vec![own, behind] } else { vec![own] };
        let each = |text: fn(&Column) -> String, behind: &str| {
            self.columns.iter().flat_map(|column| cells(text(column), behind.into())).collect()
        };
        let mut rows = vec![
            row("heading".into(), each(|column| column.heading.clone(), DIGITS)),
            row("pointer".into(), each(|column| column.pointer.map(String::from).unwrap_or_default(), "")),
            row("unit".into(), each(|column| column.unit.clone(), "")),
        ];
        for (index, line) in self.lines.iter().enumerate() {
            let texts = line.iter().flat_map(|read| cells(shown.text(read), read.digits.to_string()));
            rows.push(row((index + 1).to_string(), texts.collect()));
        }
        rows
    }
}

/// Tables as comma-separated values, with the digits behind each column where they are asked for.
pub fn to_csv(tables: &[Table], shown: Shown) -> String {
    let mut text = String::new();
    for row in tables.iter().flat_map(|table| table.rows(shown)) {
        let fields = [&row.subentry, &row.section, &row.kind].into_iter().chain(&row.cells);
        text += &fields.map(|field| csv_field(field)).collect::<Vec<_>>().join(",");
        text.push('\n');
    }
    text
}

/// A field between quotation marks if it has a comma; entries have no quotation marks.
fn csv_field(field: &str) -> String {
    if field.contains(',') {
        format!("\"{field}\"")
    } else {
        field.to_string()
    }
}

/// Reads rows that some program wrote; blanks around a field do not count. On failure, says which line and why.
pub fn from_csv(text: &str) -> Result<Vec<Row>, String> {
    let mut rows = Vec::new();
    for (index, line) in text.lines().enumerate().filter(|(_, line)| !line.trim().is_empty()) {
        let at = index + 1;
        let mut fields = csv_fields(line).ok_or(format!("line {at}: a quotation mark is not closed"))?.into_iter();
        let (Some(subentry), Some(section), Some(kind)) = (fields.next(), fields.next(), fields.next()) else {
            return Err(format!("line {at}: expected subentry,section,line and a field for each column"));
        };
        let line_number = kind.parse::<u32>().is_ok_and(|number| number >= 1);
        if !line_number && !["heading", "pointer", "unit"].contains(&kind.as_str()) {
            return Err(format!("line {at}: expected heading, pointer, unit or a line number, found '{kind}'"));
        }
        rows.push(Row { entry: 0, subentry, section, kind, cells: fields.collect() });
    }
    Ok(rows)
}

/// The fields of a line.
fn csv_fields(line: &str) -> Option<Vec<String>> {
    let mut fields = vec![String::new()];
    let mut inside = false;
    for letter in line.chars() {
        match letter {
            '"' => inside = !inside,
            ',' if !inside => fields.push(String::new()),
            _ => fields.last_mut()?.push(letter),
        }
    }
    (!inside).then(|| fields.iter().map(|field| field.trim().to_string()).collect())
}

/// Tables as JSON: numbers are texts, so that no reader rounds them, but doubles are numbers; blank is null. With digits a
/// value is an object of both. Of a transmission each table has its entry's ordinal.
pub fn to_json(tables: &[Table], shown: Shown) -> String {
    let tables = tables.iter().map(|table| {
        let columns = table.columns.iter().map(|column| {
            object(&[
                ("heading", text(&column.heading)),
                ("pointer", column.pointer.map_or("null".into(), |pointer| text(&pointer.to_string()))),
                ("unit", text(&column.unit)),
            ])
        });
        let cell = |read: &FieldRead| match shown.digits {
            false => shown.json(read),
            true => object(&[("value", shown.json(read)), (DIGITS, read.digits.to_string())]),
        };
        let lines = table.lines.iter().map(|line| array(line.iter().map(cell)));
        let own = [
            ("subentry", text(&table.subentry)),
            ("section", text(table.section)),
            ("columns", array(columns)),
            ("lines", array(lines)),
        ];
        let entry = (table.entry > 0).then(|| ("entry", table.entry.to_string()));
        object(&entry.into_iter().chain(own).collect::<Vec<_>>())
    });
    array(tables)
}

//! Large entries of known shape: to see how cost grows, and to go to the limits.

use super::Random;

/// What a large entry is full of.
#[derive(Clone, Copy, Debug, PartialEq, Eq)]
pub enum Shape {
    /// One BIB with few keywords and much text.
    Text,
    /// One table of eighteen columns.
    Table,
    /// As many subentries as there may be, each with a small table.
    Subentries,
    /// One BIB in which every record has a keyword of its own, so that each is compared with all before it.
    Keywords,
}

/// All shapes.
pub const SHAPES: [Shape; 4] = [Shape::Text, Shape::Table, Shape::Subentries, Shape::Keywords];

/// A valid entry of this shape, of at most so many records (at least 100) and nearly as many.
pub fn large(random: &mut Random, shape: Shape, records: usize) -> Vec<u8> {
    // The system records, the headings and the units are taken off first.
    match shape {
        Shape::Text => {
            let keyword = |index: usize| if index % 500 == 0 { format!("K{index}") } else { String::new() };
            text((0..records - 7).map(|index| format!("{:11}some words of text, number {index}", keyword(index))))
        }
        Shape::Keywords => text((0..records - 7).map(|index| format!("WORD-{index:05} text"))),
        Shape::Table => large_table(random, 18, records),
        Shape::Subentries => {
            let each = ((records - 6) / 997).max(9);
            let others = ((records - 6) / each).min(997);
            let filled = (0..others).map(|_| [empty(), data(random, 4, each - 8)].concat());
            whole([vec![empty()], filled.collect()].concat())
        }
    }
}

/// A valid entry with one table of so many columns, in subentry 2, of at most so many records and nearly as many.
pub fn large_table(random: &mut Random, columns: usize, records: usize) -> Vec<u8> {
    // Twelve system records, and as many of headings and of units as a line takes.
    let k = columns.div_ceil(6);
    let table = data(random, columns, (records - 12 - 2 * k) / k);
    whole(vec![empty(), [empty(), table].concat()])
}

/// An entry of one subentry with these lines of BIB: seven records more.
pub(super) fn text(lines: impl Iterator<Item = String>) -> Vec<u8> {
    whole(vec![[bib(lines), vec!["NOCOMMON".into()]].concat()])
}

/// Neither BIB nor COMMON.
pub(super) fn empty() -> Vec<String> {
    vec!["NOBIB".into(), "NOCOMMON".into()]
}

/// A BIB section; a line that begins with a blank has no keyword.
pub(super) fn bib(text: impl Iterator<Item = String>) -> Vec<String> {
    let text: Vec<String> = text.collect();
    let keywords = text.iter().filter(|line| !line.starts_with(' ')).count();
    let (first, last) =
        (format!("BIB        {keywords:>11}{:>11}", text.len()), format!("ENDBIB     {:>11}", text.len()));
    [vec![first], text, vec![last]].concat()
}

/// A DATA section in which every field is filled.
fn data(random: &mut Random, columns: usize, lines: usize) -> Vec<String> {
    const NUMBERS: [&str; 6] = ["1.45-1", "0.14", "2.5E 01", "-12.345", "1.2345E-05", "100."];
    table("DATA", columns, lines, |column| format!("HEADING{column}"), |_| format!("{:>11}", random.one(&NUMBERS)))
}

/// A section of this name with the heading and, line by line, the eleven columns of each value: COMMON or DATA.
pub(super) fn table(
    name: &str,
    columns: usize,
    lines: usize,
    heading: impl Fn(usize) -> String,
    mut value: impl FnMut(usize) -> String,
) -> Vec<String> {
    let row = |cell: &mut dyn FnMut(usize) -> String| -> Vec<String> {
        let cells: Vec<String> = (1..=columns).map(cell).collect();
        cells.chunks(6).map(<[String]>::concat).collect()
    };
    let mut records = row(&mut |column| format!("{:11}", heading(column)));
    records.extend(row(&mut |column| format!("{:11}", format!("UNIT{column}"))));
    for _ in 0..lines {
        records.extend(row(&mut value));
    }
    // The second number of COMMON counts records, that of DATA lines.
    let second = if name == "DATA" { lines } else { records.len() };
    let first = format!("{name:11}{columns:>11}{second:>11}");
    let last = format!("{:11}{:>11}", format!("END{name}"), records.len());
    [vec![first], records, vec![last]].concat()
}

/// An entry whose subentries, from 001 on, have these sections.
pub(super) fn whole(subentries: Vec<Vec<String>>) -> Vec<u8> {
    let mut lines = vec!["ENTRY            90001   20240105".to_string()];
    let count = subentries.len();
    lines.extend(subentries.into_iter().enumerate().flat_map(|(index, sections)| subentry(index + 1, sections)));
    lines.push(format!("ENDENTRY   {count:>11}"));
    identified(&lines)
}

/// A subentry around its sections.
fn subentry(number: usize, sections: Vec<String>) -> Vec<String> {
    let first = format!("SUBENT        90001{number:03}   20240105");
    let last = format!("ENDSUBENT  {:>11}", sections.len());
    [vec![first], sections, vec![last]].concat()
}

/// Lines as records, with their identification.
fn identified(lines: &[String]) -> Vec<u8> {
    let (mut bytes, mut number, mut sequence) = (Vec::new(), "000".to_string(), 0);
    for line in lines {
        sequence += 1;
        if line.starts_with("SUBENT ") {
            (number, sequence) = (line[19..22].to_string(), 1);
        }
        let (number, sequence) = match line.split(' ').next() {
            Some("ENDENTRY") => ("999", 99_999),
            Some("ENDSUBENT") => (number.as_str(), 99_999),
            _ => (number.as_str(), sequence),
        };
        bytes.extend_from_slice(format!("{line:66}90001{number}{sequence:05} \n").as_bytes());
    }
    bytes
}

//! Large entries that judges find easy or hard, to time one judge beside another.

use super::large::{bib, empty, table, text, whole};
use super::{large, usual_spelling, Random, Shape};

/// What an entry is full of.
#[derive(Clone, Copy, Debug, PartialEq, Eq)]
pub enum Workload {
    /// One BIB with few keywords and much text.
    Text,
    /// One table of eighteen columns, in mixed spellings of numbers, with a blank for every tenth.
    Spellings,
    /// Subentries of twenty records, each with a BIB, pointers and a table.
    Subentries,
    /// One BIB with a keyword on every record.
    Keywords,
    /// The same, but the keywords agree in groups in all columns but the first two.
    LikeKeywords,
    /// One BIB with all thirty-five pointers under each keyword.
    Pointers,
    /// One BIB with one keyword.
    OneKeyword,
    /// Eighteen headings in COMMON of 001, in COMMON of each subentry and in its DATA.
    Headings,
    /// Every DATA heading has a pointer, which stands in the last record of a long BIB of 001.
    FarPointer,
    /// One table of eighteen columns FLAG, the code of all its flags in the last record of a long BIB of 001 full of
    /// codes.
    FarCode,
}

/// All workloads.
pub const WORKLOADS: [Workload; 10] = [
    Workload::Text,
    Workload::Spellings,
    Workload::Subentries,
    Workload::Keywords,
    Workload::LikeKeywords,
    Workload::Pointers,
    Workload::OneKeyword,
    Workload::Headings,
    Workload::FarPointer,
    Workload::FarCode,
];

const POINTERS: &[u8; 35] = b"123456789ABCDEFGHIJKLMNOPQRSTUVWXYZ";

impl Workload {
    /// What it is, in words.
    pub fn name(self) -> &'static str {
        match self {
            Workload::Text => "text under few keywords",
            Workload::Spellings => "18 columns, mixed spellings",
            Workload::Subentries => "subentries of 20 records",
            Workload::Keywords => "a keyword on every record",
            Workload::LikeKeywords => "keywords alike in columns 3 to 10",
            Workload::Pointers => "35 pointers under each keyword",
            Workload::OneKeyword => "one keyword",
            Workload::Headings => "54 headings in three sections",
            Workload::FarPointer => "a DATA pointer found late in 001",
            Workload::FarCode => "flags, their code found late in 001",
        }
    }

    /// A valid entry of at most so many records (at least 100), and nearly as many unless its subentries run out.
    pub fn entry(self, records: usize) -> Vec<u8> {
        // Seven records of a text are not lines of its BIB.
        let lines = 0..records - 7;
        match self {
            Workload::Text => large(&mut Random::seeded(1), Shape::Text, records),
            Workload::Spellings => spellings(records),
            Workload::Subentries => subentries(records),
            Workload::Keywords => large(&mut Random::seeded(1), Shape::Keywords, records),
            Workload::LikeKeywords => text(lines.map(like_keyword)),
            Workload::Pointers => text(lines.map(pointed)),
            Workload::OneKeyword => {
                text(lines.map(|index| format!("{:11}text", if index == 0 { "TITLE" } else { "" })))
            }
            Workload::Headings => headings(records),
            Workload::FarPointer => far_pointer(records),
            Workload::FarCode => far_code(records),
        }
    }
}

fn spellings(records: usize) -> Vec<u8> {
    let mut random = Random::seeded(1);
    let value = |column| match column > 1 && random.once_in(10) {
        true => " ".repeat(11),
        false => number(&mut random),
    };
    let table = table("DATA", 18, (records - 18) / 3, |column| format!("HEADING{column}"), value);
    whole(vec![empty(), [empty(), table].concat()])
}

fn subentries(records: usize) -> Vec<u8> {
    const LINES: [&str; 4] = [
        "REACTION  1(26-FE-0(N,EL),,DA)",
        "          2(26-FE-0(N,INL),,DA)",
        "STATUS     (TABLE)",
        "HISTORY    (20240105C)",
    ];
    let mut random = Random::seeded(1);
    with_others(empty(), (records - 6) / 20, || {
        let table = table("DATA", 3, 7, |column| format!("HEADING{column}"), |_| number(&mut random));
        [bib(LINES.into_iter().map(String::from)), vec!["NOCOMMON".into()], table].concat()
    })
}

fn headings(records: usize) -> Vec<u8> {
    let filled = |name, word| table(name, 18, 1, |column| format!("{word}{column}"), |_| format!("{:>11}", "1.5"));
    let no_bib = vec!["NOBIB".to_string()];
    let first = [no_bib.clone(), filled("COMMON", 'A')].concat();
    with_others(first, (records - 16) / 25, || [no_bib.clone(), filled("COMMON", 'B'), filled("DATA", 'C')].concat())
}

fn far_pointer(records: usize) -> Vec<u8> {
    let last = records / 2;
    let line = |index| match index {
        1 => "TITLE      text".to_string(),
        _ => format!("{:10}{}text", "", if index == last { 'Z' } else { ' ' }),
    };
    let first = [bib((1..=last).map(line)), vec!["NOCOMMON".into()]].concat();
    let heading = |column| format!("{:10}Z", format!("H{column}"));
    with_others(first, (records - last - 7) / 9, || {
        [empty(), table("DATA", 6, 1, heading, |_| format!("{:>11}", "1.5"))].concat()
    })
}

fn far_code(records: usize) -> Vec<u8> {
    let last = records / 2;
    let line = |code| format!("{:11}({code}.)", if code == 1 { "FLAG" } else { "" });
    let first = [bib((1..=last).map(line)), vec!["NOCOMMON".into()]].concat();
    let flag = |_| format!("{:>11}", format!("{last}."));
    let table = table("DATA", 18, (records - last - 19) / 3, |_| "FLAG".into(), flag);
    whole(vec![first, [empty(), table].concat()])
}

fn number(random: &mut Random) -> String {
    String::from_utf8_lossy(&usual_spelling(random)).into_owned()
}

/// A line of BIB with a pointer, every thirty-fifth with a keyword.
fn pointed(index: usize) -> String {
    let keyword = if index % 35 == 0 { format!("K{}", index / 35) } else { String::new() };
    format!("{keyword:10}{}text", char::from(POINTERS[index % 35]))
}

/// Two columns of a keyword that change with every record, and eight that change seldom.
fn like_keyword(index: usize) -> String {
    let letters: Vec<char> = ('A'..='Z').chain('0'..='9').chain('a'..='z').collect();
    let count = letters.len();
    format!("{}{}KEYS{:04} text", letters[index % count], letters[index / count % count], index / (count * count))
}

/// An entry of 001 with these sections and so many other subentries, as far as there may be.
fn with_others(first: Vec<String>, others: usize, mut one: impl FnMut() -> Vec<String>) -> Vec<u8> {
    whole([vec![first], (0..others.min(997)).map(|_| one()).collect()].concat())
}

#[cfg(test)]
mod tests {
    use super::*;
    use crate::{reference, RECORD};

    #[test]
    fn workloads_are_accepted_and_have_their_size() {
        for workload in WORKLOADS {
            for records in [100, 1_000, 20_000] {
                let entry = workload.entry(records);
                let numbers = reference::judge(&entry).numbers();
                assert_eq!(numbers[0], 0, "{workload:?} of {records}: {numbers:?}");
                let had = entry.len() / RECORD;
                assert!(had <= records && had + 25 > records || numbers[3] == 998, "{workload:?}: {had} of {records}");
            }
        }
    }
}

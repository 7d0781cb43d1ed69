//! The entry X0055 of the manual's appendix A, judged and mended as docs/EXAMPLE.md tells, and the manuals' codes under DECAY-DATA
//! with their fields.

mod common;

use common::put;
use glockenbeacon::generate::decay_entry_of;
use std::io::Write;
use std::process::{Command, Stdio};

/// What `x4 judge` prints for an entry on standard input.
fn judged(entry: &[u8]) -> String {
    said("judge", entry)
}

/// What a command of `x4` prints for it.
fn said(command: &str, entry: &[u8]) -> String {
    let mut child = Command::new(env!("CARGO_BIN_EXE_x4"));
    let mut child = child.arg(command).stdin(Stdio::piped()).stdout(Stdio::piped()).spawn().unwrap();
    child.stdin.take().unwrap().write_all(entry).unwrap();
    String::from_utf8(child.wait_with_output().unwrap().stdout).unwrap()
}

/// Each refusal, and what mends it: record, column, text. The refusals were found by hand.
const STEPS: [(&str, usize, usize, &str); 7] = [
    ("4 148 1 0 0 0 0", 50, 23, "         96"),
    ("8 149 12 0 0 0 0", 149, 12, "         98"),
    ("12 158 12 0 0 0 0", 157, 12, "          2"),
    ("4 177 1 0 0 0 0", 173, 12, "          4          4"),
    ("8 178 12 0 0 0 0", 178, 12, "          4"),
    ("12 181 34 0 0 0 0", 180, 12, "          4"),
    ("8 186 12 0 0 0 0", 186, 12, "          4"),
];

#[test]
fn the_printed_entry_is_mended_step_by_step() {
    let page = include_str!("../../docs/EXAMPLE.md");
    let mut entry = include_bytes!("../data/x0055.x4").to_vec();
    for (numbers, record, column, text) in STEPS {
        let said = judged(&entry);
        assert_eq!(said.lines().next(), Some(numbers));
        assert!(page.contains(&said), "the page does not show:\n{said}");
        put(&mut entry, record, column, text);
    }
    let said = judged(&entry);
    assert_eq!(said.lines().next(), Some("0 0 0 4 24 102 165"));
    assert!(page.contains(&said));
}

/// The members of a JSON array of texts, with blanks between them, or `-`; and a text or null.
fn listed(array: &str) -> String {
    let texts = array.trim_matches(['[', ']']).replace("null", "").replace(',', " ").replace('"', "");
    if texts.is_empty() {
        "-".into()
    } else {
        texts
    }
}

/// What stands behind a name in an object of `x4 decay`, up to one of these marks.
fn member<'l>(line: &'l str, name: &str, end: &str) -> &'l str {
    let (_, behind) = line.split_once(&format!("\"{name}\":")).unwrap_or_else(|| panic!("no {name}: {line}"));
    behind.split_once(end).map_or(behind, |(text, _)| text)
}

/// An object of `x4 decay` as a row of the page's table, from the run on.
fn row(line: &str) -> String {
    let [flag, z, symbol, a, isomer] =
        ["flag", "z", "symbol", "a", "isomer"].map(|name| listed(member(line, name, ",\"")));
    let half_life = match member(line, "half_life", ",\"groups") {
        "null" => "-".to_string(),
        object => format!("{} {}", listed(member(object, "number", ",\"")), listed(member(object, "unit", "}"))),
    };
    let groups = line.split("{\"types\":").skip(1).map(|group| {
        let types = group.split_once(",\"energies").map_or(group, |(types, _)| types);
        let [energies, abundance] =
            [("energies", ",\"a"), ("abundance", "}")].map(|(name, end)| listed(member(group, name, end)));
        format!("{}; {energies}; {abundance}", listed(types))
    });
    let groups = groups.collect::<Vec<_>>().join(" and ");
    let groups = if groups.is_empty() { "-".to_string() } else { groups };
    let run = member(line, "run", ",\"flag").trim_matches('"');
    format!("`{run}` | {flag} | {z} {symbol} {a} {isomer} | {half_life} | {groups} |")
}

#[test]
fn the_printed_codes_have_the_fields_of_the_page() {
    let page = include_str!("../../docs/EXAMPLE.md");
    let rows: Vec<(&str, &str)> =
        page.lines().filter_map(|line| line.strip_prefix("| `(")?.split_once("` | `")).collect();
    assert_eq!(rows.len(), 14);
    let records =
        rows.iter().flat_map(|(code, _)| format!("({code}").split("` `").map(str::to_string).collect::<Vec<_>>());
    let entry = decay_entry_of(&[vec![(b' ', records.collect())]]);
    let said = said("decay", &entry);
    assert_eq!(said.lines().count(), rows.len(), "{said}");
    for (line, (_, due)) in said.lines().zip(rows) {
        assert_eq!(row(line), format!("`{due}"));
    }
}

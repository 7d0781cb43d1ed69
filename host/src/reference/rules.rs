//! The table of refusals, row by row. Each row walks the whole tree and notes every fault that it finds.

use super::flags::{flag_headings, Codes};
use super::number::{read, Reading};
use super::record::{blank, count, digits, is_accession, is_date, is_pointer, is_word, permitted, Name, Record};
use super::tree::{Bib, Cell, Role, Stop, Subentry, Table, Tree};
use crate::{Totals, RECORD};
use std::collections::BTreeSet;

/// A fault. The order of the parts is the order of judging: "records in order; within one record the lowest number;
/// within that the leftmost column".
#[derive(Clone, Copy, Debug, PartialEq, Eq, PartialOrd, Ord)]
pub struct Fault {
    /// The record, from 0.
    pub record: usize,
    /// The paper's number.
    pub number: u32,
    /// The column, from 1.
    pub column: usize,
}

/// Notes faults of one number.
struct Notes {
    faults: Vec<Fault>,
}

impl Notes {
    /// Notes a fault if there is one.
    fn check(&mut self, good: bool, number: u32, record: usize, column: usize) {
        if !good {
            self.faults.push(Fault { record, number, column });
        }
    }
}

/// All faults of the records up to the stop; beyond it, only those of single characters.
pub fn faults(tree: &Tree) -> Vec<Fault> {
    let mut notes = Notes { faults: Vec::new() };
    line_feeds_and_characters(tree, &mut notes);
    nesting(tree, &mut notes);
    identification(tree, &mut notes);
    forms(tree, &mut notes);
    opening_counts(tree, &mut notes);
    end_counts(tree, &mut notes);
    subentry_numbers(tree, &mut notes);
    for bib in tree.subentries.iter().filter_map(|subentry| subentry.bib.as_ref()) {
        keywords(tree, bib, &mut notes);
        bib_pointers(tree, bib, &mut notes);
    }
    for table in tree.subentries.iter().flat_map(Subentry::tables) {
        words(tree, table, &mut notes);
        values(tree, table, &mut notes);
    }
    for subentry in &tree.subentries {
        repeated_headings(tree, subentry, &mut notes);
        lost_pointers(tree, subentry, &mut notes);
        flags(tree, subentry, &mut notes);
    }
    notes.faults
}

/// The totals of an accepted entry, counted over the tree.
pub fn totals(tree: &Tree) -> Totals {
    let bibs = tree.subentries.iter().filter_map(|subentry| subentry.bib.as_ref());
    let tables = || tree.subentries.iter().flat_map(Subentry::tables);
    let numbers = |table: &Table| {
        let filled = |row| table.cells(tree, row).filter(|cell| cell.used && !blank(cell.bytes)).count();
        (2..2 + table.lines).map(filled).sum::<usize>()
    };
    let lines = tables().filter(|table| table.name == Name::Data).map(|table| table.lines);
    Totals {
        subentries: tree.subentries.len() as u32,
        keywords: bibs.map(|bib| keyword_total(tree, bib)).sum::<usize>() as u32,
        lines: lines.sum::<usize>() as u32,
        numbers: tables().map(numbers).sum::<usize>() as u32,
    }
}

/// Row 2, "byte 81 not a line feed", and row 3, "character not permitted".
fn line_feeds_and_characters(tree: &Tree, notes: &mut Notes) {
    for (at, record) in tree.records.iter().enumerate() {
        notes.check(record.0[RECORD - 1] == b'\n', 2, at, 81);
        for (index, &byte) in record.columns(1, 80).iter().enumerate() {
            notes.check(permitted(byte), 3, at, index + 1);
        }
    }
}

/// Row 4, "record not due by nesting or counts; also any system identifier inside BIB, one beginning with END inside
/// COMMON or DATA", and row 16, "records end before ENDENTRY".
fn nesting(tree: &Tree, notes: &mut Notes) {
    match tree.stop {
        Stop::NotDue(record, _) => notes.check(false, 4, record, 1),
        Stop::RanOut(_) => notes.check(false, 16, tree.records.len(), 0),
        Stop::Complete | Stop::NoCount(_) => {}
    }
    for (at, (role, record)) in tree.roles.iter().zip(&tree.records).enumerate() {
        let name = Name::of(*record);
        let good = match role {
            Role::System(_) => true,
            Role::Text => name.is_none(),
            Role::Heading(_) | Role::Unit(_) | Role::Values(_) => !name.is_some_and(Name::is_end),
        };
        notes.check(good, 4, at, 1);
    }
}

/// What must stand in columns 67-79 of a record: accession, subentry and sequence, where `around` is the subentry that
/// it lies in or opens. "On ENTRY, SUBENT and NOSUBENT, number 5 compares bytes with the record's own N1 (on ENTRY then
/// 000)."
pub fn identification_due<'a>(tree: &Tree<'a>, at: usize, around: Option<&Subentry>) -> (&'a [u8], &'a [u8], usize) {
    let accession = tree.records[0].columns(18, 22);
    match (tree.roles[at], around) {
        (Role::System(Name::EndEntry), _) => (accession, b"999", 99_999),
        (Role::System(Name::Subent | Name::NoSubent), _) => {
            (tree.records[at].columns(15, 19), tree.records[at].columns(20, 22), 1)
        }
        (Role::System(Name::EndSubent), Some(subentry)) => (accession, tree.number(subentry), 99_999),
        (_, Some(subentry)) => (accession, tree.number(subentry), at - subentry.opening + 1),
        (_, None) => (accession, b"000", 1),
    }
}

/// Row 5, "wrong accession or subentry in 67-74", and row 6, "wrong sequence".
fn identification(tree: &Tree, notes: &mut Notes) {
    let mut subentries = tree.subentries.iter().peekable();
    let mut around: Option<&Subentry> = None;
    for (at, record) in tree.records.iter().enumerate().take(tree.roles.len()) {
        around = subentries.next_if(|next| next.opening == at).or(around);
        let (accession, number, sequence) = identification_due(tree, at, around);
        notes.check(record.columns(67, 71) == accession && record.columns(72, 74) == number, 5, at, 67);
        let place = record.columns(75, 79);
        notes.check(digits(place) && count(place) == Some(sequence as u64), 6, at, 75);
    }
}

/// The form of N1 on a system record, where it has one.
pub(super) fn n1_good(name: Name, n1: &[u8]) -> bool {
    match name {
        Name::Entry => blank(&n1[..6]) && is_accession(&n1[6..]),
        Name::Subent | Name::NoSubent => blank(&n1[..3]) && is_accession(&n1[3..8]) && digits(&n1[8..]),
        Name::NoBib | Name::NoCommon | Name::NoData => true,
        _ => count(n1).is_some(),
    }
}

/// The form of N2 on a system record, where it has one.
fn n2_good(name: Name, n2: &[u8]) -> bool {
    match name {
        Name::Entry | Name::Subent | Name::NoSubent => is_date(n2),
        Name::Bib | Name::Common | Name::Data => count(n2).is_some(),
        _ => true,
    }
}

/// Row 7, "system field not in its form".
fn forms(tree: &Tree, notes: &mut Notes) {
    for (at, role) in tree.roles.iter().enumerate() {
        if let Role::System(name) = role {
            notes.check(n1_good(*name, tree.records[at].n1()), 7, at, 12);
            notes.check(n2_good(*name, tree.records[at].n2()), 7, at, 23);
        }
    }
}

/// Both counts of an opening record, if both are in their form.
fn counts(record: Record) -> Option<(u64, u64)> {
    Some((count(record.n1())?, count(record.n2())?))
}

/// Row 8 on BIB, COMMON and DATA: "count out of range".
fn opening_counts(tree: &Tree, notes: &mut Notes) {
    for (at, role) in tree.roles.iter().enumerate() {
        let Some((n1, n2)) = counts(tree.records[at]) else {
            continue;
        };
        let columns = (1..=18).contains(&n1);
        match role {
            Role::System(Name::Bib) => {
                notes.check(n1 >= 1, 8, at, 12);
                notes.check(n2 >= n1, 8, at, 23);
            }
            Role::System(Name::Common) => {
                notes.check(columns, 8, at, 12);
                notes.check(!columns || n2 == 3 * n1.div_ceil(6), 8, at, 23);
            }
            Role::System(Name::Data) => {
                notes.check(columns, 8, at, 12);
                notes.check((1..=20_000).contains(&n2), 8, at, 23);
            }
            _ => {}
        }
    }
}

/// How many keywords a BIB section has.
pub fn keyword_total(tree: &Tree, bib: &Bib) -> usize {
    tree.records[bib.text.clone()].iter().filter(|record| !blank(record.keyword())).count()
}

/// Row 8 on the END records: "count untrue (keyword total judged on ENDBIB, column 12)".
fn end_counts(tree: &Tree, notes: &mut Notes) {
    let says = |at: usize| count(tree.records[at].n1());
    let between = |opening: usize, end: usize| Some((end - opening - 1) as u64);
    for subentry in &tree.subentries {
        for (opening, end) in subentry.spans() {
            if let Some(end) = end {
                notes.check(says(end) == between(opening, end), 8, end, 12);
            }
        }
        if let Some((bib, end)) = subentry.bib.as_ref().and_then(|bib| Some((bib, bib.end?))) {
            notes.check(says(bib.opening) == Some(keyword_total(tree, bib) as u64), 8, end, 12);
        }
    }
    if let Some(at) = tree.roles.iter().position(|role| *role == Role::System(Name::EndEntry)) {
        notes.check(says(at) == Some(tree.subentries.len() as u64), 8, at, 12);
    }
}

/// Row 9, "other accession, first not 001, not rising, 000 or 999".
fn subentry_numbers(tree: &Tree, notes: &mut Notes) {
    let accession = tree.records[0].columns(18, 22);
    let mut before: &[u8] = b"000";
    for (index, subentry) in tree.subentries.iter().enumerate() {
        let own = tree.records[subentry.opening].columns(15, 19);
        let number = tree.number(subentry);
        let good = own == accession && number > before && number != b"999" && (index > 0 || number == b"001");
        notes.check(good, 9, subentry.opening, 12);
        before = number;
    }
}

/// Row 10, "keyword missing, malformed or repeated".
fn keywords(tree: &Tree, bib: &Bib, notes: &mut Notes) {
    let mut met = BTreeSet::new();
    for at in bib.text.clone() {
        let keyword = tree.records[at].keyword();
        let good = if blank(keyword) { at != bib.text.start } else { is_word(keyword) && met.insert(keyword) };
        notes.check(good, 10, at, 1);
    }
}

/// Row 11 in BIB: "bad pointer character, or repeated under its keyword".
fn bib_pointers(tree: &Tree, bib: &Bib, notes: &mut Notes) {
    let mut met = BTreeSet::new();
    for at in bib.text.clone() {
        let record = tree.records[at];
        if !blank(record.keyword()) {
            met.clear();
        }
        let pointer = record.pointer();
        let good = pointer == b' ' || (is_pointer(pointer) && met.insert(pointer));
        notes.check(good, 11, at, 11);
    }
}

/// Row 11 on headings, and row 12, "heading or unit no word, unit's eleventh column filled, unused field filled".
fn words(tree: &Tree, table: &Table, notes: &mut Notes) {
    for cell in table.cells(tree, 0) {
        let pointer = cell.eleventh();
        let good = !cell.used || pointer == b' ' || is_pointer(pointer);
        notes.check(good, 11, cell.record, 11 * (cell.field + 1));
        let good = if cell.used { is_word(cell.word()) } else { blank(cell.bytes) };
        notes.check(good, 12, cell.record, cell.first_column());
    }
    for cell in table.cells(tree, 1) {
        let good = if cell.used { is_word(cell.word()) && cell.eleventh() == b' ' } else { blank(cell.bytes) };
        notes.check(good, 12, cell.record, cell.first_column());
    }
}

/// M-101: "The same heading and pointer may repeat for E-LVL, EN-RES, FLAG (DATA only), any word ending in -ERR or
/// -RSL, any starting with ANG and any starting with HL (DATA only)." One of these is enough, of the word alone.
pub fn may_repeat(place: &[u8], section: Name) -> bool {
    let text = String::from_utf8_lossy(place);
    let word = text.trim_end_matches(' ');
    let only_in_data = word == "FLAG" || word.starts_with("HL");
    let anywhere = ["E-LVL", "EN-RES"].contains(&word)
        || ["-ERR", "-RSL"].iter().any(|ending| word.ends_with(ending))
        || word.starts_with("ANG");
    anywhere || (only_in_data && section == Name::Data)
}

/// Row 13: "No heading with its pointer occurs twice within the COMMON of 001, this subentry's COMMON and its DATA
/// together", save those that may repeat: "All equal ones must stand together and in one section only." Headings are
/// taken in runs of equal neighbours, so a run met before stands elsewhere or apart; in a new one the first is good,
/// and the others are if they may repeat. In 001 the first two are one section.
fn repeated_headings(tree: &Tree, subentry: &Subentry, notes: &mut Notes) {
    let first = &tree.subentries[0];
    let mut met = BTreeSet::new();
    if subentry.opening != first.opening {
        met.extend(first.common.iter().flat_map(|table| table.headings(tree)).map(|cell| cell.bytes));
    }
    for table in subentry.tables() {
        let headings: Vec<Cell> = table.headings(tree).collect();
        for run in headings.chunk_by(|left, right| left.bytes == right.bytes) {
            let new = met.insert(run[0].bytes);
            let listed = may_repeat(run[0].word(), table.name);
            for (place, cell) in run.iter().enumerate() {
                notes.check(new && (place == 0 || listed), 13, cell.record, cell.first_column());
            }
        }
    }
}

/// Row 14: "A pointer on a DATA heading must occur in BIB column 11 of this subentry or 001, or on a heading of either
/// one's COMMON."
fn lost_pointers(tree: &Tree, subentry: &Subentry, notes: &mut Notes) {
    let Some(data) = &subentry.data else { return };
    let mut known = BTreeSet::from([b' ']);
    for place in [&tree.subentries[0], subentry] {
        if let Some(bib) = &place.bib {
            known.extend(tree.records[bib.text.clone()].iter().map(|record| record.pointer()));
        }
        known.extend(place.common.iter().flat_map(|table| table.headings(tree)).map(|cell| cell.eleventh()));
    }
    for cell in data.headings(tree) {
        notes.check(known.contains(&cell.eleventh()), 14, cell.record, cell.first_column());
    }
}

/// Row 15, "value malformed, COMMON value blank, unused filled; line with every used field blank (at its last record,
/// column 1)".
fn values(tree: &Tree, table: &Table, notes: &mut Notes) {
    for row in 2..2 + table.lines {
        let mut empty = true;
        for cell in table.cells(tree, row) {
            let reading = read(cell.bytes);
            let good = match reading {
                Reading::Blank => !cell.used || table.name == Name::Data,
                Reading::Number(_) => cell.used,
                Reading::Malformed => false,
            };
            notes.check(good, 15, cell.record, cell.first_column());
            empty &= !cell.used || reading == Reading::Blank;
        }
        let last = table.row(row).end - 1;
        notes.check(!empty || last >= tree.records.len(), 15, last, 1);
    }
}

/// Row 17 (M-105), "an exponent there, or a FLAG value without code, on the value record after 15, column as for 15". A
/// blank asks nothing; what is no number is refused by 15 on the same record.
fn flags(tree: &Tree, subentry: &Subentry, notes: &mut Notes) {
    let codes = Codes::of(tree, subentry);
    for table in subentry.tables() {
        let headings = flag_headings(tree, table);
        for cell in (2..2 + table.lines).flat_map(|row| table.cells(tree, row)) {
            let heading = headings.get(cell.column - 1).copied().flatten();
            if let (Some(heading), Reading::Number(_)) = (heading, read(cell.bytes)) {
                notes.check(codes.fault(heading, cell.bytes).is_none(), 17, cell.record, cell.first_column());
            }
        }
    }
}

//! Flags (M-105): the columns under FLAG and DECAY-FLAG, and the codes under the keyword FLAG. Values are compared as
//! digits, so that none is too long.

use super::record::{blank, Record};
use super::tree::{Bib, Cell, Subentry, Table, Tree};
use std::collections::BTreeSet;

/// The headings whose numbers are flags: words, with any pointer or none beside them.
#[derive(Clone, Copy, Debug, PartialEq, Eq, PartialOrd, Ord)]
pub enum FlagHeading {
    /// FLAG: its numbers "must be repeated as codes under the keyword FLAG".
    Flag,
    /// DECAY-FLAG.
    DecayFlag,
}

impl FlagHeading {
    /// The flag heading that a heading is, if it is one.
    pub fn of(heading: &Cell) -> Option<FlagHeading> {
        match heading.word() {
            b"FLAG      " => Some(FlagHeading::Flag),
            b"DECAY-FLAG" => Some(FlagHeading::DecayFlag),
            _ => None,
        }
    }

    /// How it is spelled.
    pub fn spelling(self) -> &'static str {
        match self {
            FlagHeading::Flag => "FLAG",
            FlagHeading::DecayFlag => "DECAY-FLAG",
        }
    }
}

/// For each column of a table whether it has a flag heading, and which.
pub fn flag_headings(tree: &Tree, table: &Table) -> Vec<Option<FlagHeading>> {
    table.headings(tree).map(|heading| FlagHeading::of(&heading)).collect()
}

/// "A code is an opening parenthesis in column 12, digits, a point, a closing parenthesis": the digits of the code on a
/// text record, if it has one. What follows is text.
pub fn code(record: Record<'_>) -> Option<&[u8]> {
    let text = record.columns(12, 66).strip_prefix(b"(")?;
    let (digits, rest) = text.split_at(text.iter().take_while(|byte| byte.is_ascii_digit()).count());
    (!digits.is_empty() && rest.starts_with(b".)")).then_some(digits)
}

/// The codes of a BIB section: those "under the keyword FLAG", up to the next keyword, whatever the pointers.
fn codes_of<'a>(tree: &Tree<'a>, bib: &Bib) -> Vec<&'a [u8]> {
    let records = &tree.records[bib.text.clone()];
    let under_one_keyword = records.chunk_by(|_, next| blank(next.keyword()));
    let flag = under_one_keyword.filter(|group| group[0].keyword() == b"FLAG      ");
    flag.flatten().filter_map(|&record| code(record)).collect()
}

/// The codes "under FLAG in this subentry or 001", in the order of the entry.
pub fn codes<'a>(tree: &Tree<'a>, subentry: &Subentry) -> Vec<&'a [u8]> {
    let first = tree.subentries.first().filter(|first| first.opening != subentry.opening);
    let bibs = first.into_iter().chain([subentry]).filter_map(|place| place.bib.as_ref());
    bibs.flat_map(|bib| codes_of(tree, bib)).collect()
}

/// Digits without the zeros before them, so that equal numbers have equal digits.
pub fn without_zeros_before(digits: &[u8]) -> &[u8] {
    let zeros = digits.iter().take_while(|&&digit| digit == b'0').count();
    &digits[zeros..]
}

/// A field that is a number, without the blanks around it and its sign.
fn unsigned(field: &[u8]) -> (bool, &[u8]) {
    match field.trim_ascii() {
        [b'-', rest @ ..] => (true, rest),
        [b'+', rest @ ..] => (false, rest),
        text => (false, text),
    }
}

/// Whether an exponent is written in a field that is a number, be it zero: without sign and blanks around it, it has
/// more than digits and a point.
pub fn has_exponent(field: &[u8]) -> bool {
    let (_, text) = unsigned(field);
    !text.iter().all(|&byte| byte.is_ascii_digit() || byte == b'.')
}

/// The whole number that a field without exponent says, as digits without zeros before them; none if it is below zero
/// or has a fraction.
fn whole_number(field: &[u8]) -> Option<&[u8]> {
    let (negative, text) = unsigned(field);
    let point = text.iter().position(|&byte| byte == b'.')?;
    let whole = without_zeros_before(&text[..point]);
    let fraction = without_zeros_before(&text[point + 1..]);
    (fraction.is_empty() && (whole.is_empty() || !negative)).then_some(whole)
}

/// What a flag can be refused for: "an exponent there, or a FLAG value without code".
#[derive(Clone, Copy, Debug, PartialEq, Eq)]
pub enum FlagFault {
    /// An exponent is written.
    Exponent,
    /// No code has its value.
    NoCode,
}

/// The numbers that codes say, as digits.
pub struct Codes<'a>(BTreeSet<&'a [u8]>);

impl<'a> Codes<'a> {
    /// Those "under FLAG in this subentry or 001".
    pub fn of(tree: &Tree<'a>, subentry: &Subentry) -> Codes<'a> {
        Codes(codes(tree, subentry).into_iter().map(without_zeros_before).collect())
    }

    /// What is wrong with a number under a flag heading: "it matches by exact value", and a "FLAG or DECAY-FLAG value
    /// must have no exponent".
    pub fn fault(&self, heading: FlagHeading, number: &[u8]) -> Option<FlagFault> {
        if has_exponent(number) {
            return Some(FlagFault::Exponent);
        }
        let found = || whole_number(number).is_some_and(|whole| self.0.contains(whole));
        (heading == FlagHeading::Flag && !found()).then_some(FlagFault::NoCode)
    }
}

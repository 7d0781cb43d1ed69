//! Why an entry or a transmission is refused (M-108): "A small program shall print below the verdict: for 8 the
//! announced and the true count (on ENDBIB its own before the keywords), for 9 the previous subentry number (000 if
//! none), for 13 record and column of the first equal heading, for 14 the pointer, for 5 and 6 the expected characters.
//! [..] For 8 out of range it prints least and greatest, 0 for no greatest, and for the other refusals the verdict
//! alone."
//!
//! The records up to the refused one are laid out once more, and the facts are read off the tree.

use super::record::{count, records, Name, Record};
use super::rules::{identification_due, keyword_total};
use super::tree::{Cell, Role, Subentry, Tree};
use super::{judge, judge_file};
use crate::{Explained, Reason, Refusal, RECORD};

/// Judges one entry and says why it is refused.
pub fn explain(entry: &[u8]) -> Explained {
    let verdict = judge(entry);
    let reason = verdict.refusal().map_or(Reason::Alone, |refusal| reason(entry, &refusal));
    Explained { verdict, reason }
}

/// Judges one transmission and says why it is refused.
pub fn explain_file(file: &[u8]) -> Explained {
    let verdict = judge_file(file);
    let reason = verdict.refusal().map_or(Reason::Alone, |refusal| reason_in_file(file, &refusal));
    Explained { verdict, reason }
}

/// The reason of an entry's refusal.
fn reason(entry: &[u8], refusal: &Refusal) -> Reason {
    if !matches!(refusal.number, 5 | 6 | 8 | 9 | 13 | 14) {
        return Reason::Alone;
    }
    let tree = Tree::of(&entry[..refusal.record as usize * RECORD]);
    let at = refusal.record as usize - 1;
    let case = Case { tree: &tree, at, column: refusal.column as usize };
    match refusal.number {
        5 | 6 => case.expected(refusal.number),
        8 => case.count(),
        9 => Reason::Previous(case.previous()),
        13 => case.equal(),
        _ => Reason::Pointer(case.field()[10]),
    }
}

/// The reason of a transmission's refusal. Inside an entry it is the reason of that entry, which begins behind the last
/// ENDENTRY or TRANS, and "record numbers count from the file's start" (M-100). Outside only a count has one: "ENDTRANS
/// carries the number of entries".
fn reason_in_file(file: &[u8], refusal: &Refusal) -> Reason {
    let above = &file[..(refusal.record as usize).saturating_sub(1) * RECORD];
    let ends = records(above).into_iter().enumerate().filter(|(_, record)| Name::of(*record) == Some(Name::EndEntry));
    let ends: Vec<usize> = ends.map(|(at, _)| at).collect();
    if refusal.ordinal == 0 {
        return match refusal.number {
            8 => untrue(count(Record(&file[above.len()..]).n1()), ends.len()),
            _ => Reason::Alone,
        };
    }
    let before = ends.last().map_or(1, |last| last + 1);
    let own = Refusal::new(refusal.number, refusal.record - before as u32, refusal.column);
    match reason(&file[before * RECORD..], &own) {
        Reason::Equal { record, column } => Reason::Equal { record: record + before as u32, column },
        reason => reason,
    }
}

/// "the announced and the true count"
fn untrue(announced: Option<u64>, due: usize) -> Reason {
    // A count that is none is refused by 7, and 7 stands before 8.
    Reason::Count { announced: announced.unwrap_or(0), due: due as u64 }
}

/// A refused place, where the tree ends with its record.
struct Case<'t, 'a> {
    tree: &'t Tree<'a>,
    /// The record, from 0.
    at: usize,
    /// The column, from 1.
    column: usize,
}

impl<'a> Case<'_, 'a> {
    fn record(&self) -> Record<'a> {
        self.tree.records[self.at]
    }

    /// The field that the column begins.
    fn field(&self) -> &'a [u8] {
        self.record().field((self.column - 1) / 11)
    }

    /// The subentry that the record lies in or opens; ENDENTRY is told by its own name.
    fn subentry(&self) -> Option<&Subentry> {
        self.tree.subentries.last()
    }

    /// Refusals 5 and 6: what should stand in 67-74, and in 75-79.
    fn expected(&self, number: u32) -> Reason {
        let (accession, subentry, sequence) = identification_due(self.tree, self.at, self.subentry());
        let text = match number {
            5 => [accession, subentry].concat(),
            _ => format!("{sequence:05}   ").into_bytes(),
        };
        Reason::Expected(text.try_into().expect("five and three characters"))
    }

    /// Refusal 8: BIB, COMMON and DATA announce, the others say what was there.
    fn count(&self) -> Reason {
        let (n1, n2) = (count(self.record().n1()), count(self.record().n2()));
        let columns = n1.unwrap_or(0);
        let range = |least, greatest| Reason::Range { least, greatest };
        match (self.tree.roles[self.at], self.column) {
            (Role::System(Name::Bib), 12) => range(1, 0),
            (Role::System(Name::Bib), _) => range(columns, 0),
            (Role::System(Name::Common | Name::Data), 12) => range(1, 18),
            (Role::System(Name::Common), _) => untrue(n2, 3 * columns.div_ceil(6) as usize),
            (Role::System(Name::Data), _) => range(1, 20_000),
            (Role::System(Name::EndEntry), _) => untrue(n1, self.tree.subentries.len()),
            _ => self.ended(n1),
        }
    }

    /// The count on ENDBIB, ENDCOMMON, ENDDATA or ENDSUBENT: "records between", and "on ENDBIB its own before the
    /// keywords".
    fn ended(&self, says: Option<u64>) -> Reason {
        let spans = self.subentry().into_iter().flat_map(Subentry::spans);
        let opening = spans.filter(|(_, end)| *end == Some(self.at)).map(|(opening, _)| opening).next();
        let between = self.at - opening.unwrap_or(self.at - 1) - 1;
        match self.subentry().and_then(|subentry| subentry.bib.as_ref()) {
            Some(bib) if bib.end == Some(self.at) && says == Some(between as u64) => {
                untrue(count(self.tree.records[bib.opening].n1()), keyword_total(self.tree, bib))
            }
            _ => untrue(says, between),
        }
    }

    /// Refusal 9: "the previous subentry number (000 if none)".
    fn previous(&self) -> u32 {
        let before = self.tree.subentries.iter().rev().nth(1).map_or(&b"000"[..], |before| self.tree.number(before));
        before.iter().fold(0, |number, digit| 10 * number + u32::from(digit - b'0'))
    }

    /// Refusal 13: of the COMMON of 001, this subentry's COMMON and its DATA, the first heading with these eleven
    /// columns. The refused one stands behind it.
    fn equal(&self) -> Reason {
        let common = self.tree.subentries[0].common.iter();
        let tables = common.chain(self.subentry().into_iter().flat_map(Subentry::tables));
        let first = tables.flat_map(|table| table.headings(self.tree)).find(|cell| cell.bytes == self.field());
        let place = |cell: Cell| Reason::Equal { record: cell.record as u32 + 1, column: cell.first_column() as u32 };
        first.map_or(Reason::Alone, place)
    }
}

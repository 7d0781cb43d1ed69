//! Transmissions (M-100): "A file is TRANS, one or more entries, ENDTRANS". What stands between the two is cut behind
//! each ENDENTRY, and each piece is judged by itself, as an entry that nothing stands before. No record of an entry
//! that is accepted is ENDENTRY but its last: in BIB and in tables that name is refused.

use super::record::{blank, count, is_date, permitted, records, Name, Record};
use super::{canonical_copy, judge, wrong_length, MOST_RECORDS};
use crate::{NoAnswer, Refusal, Totals, Verdict, RECORD};

/// "A file may have 200,000 records, an entry still 20,000."
const MOST_IN_FILE: usize = 200_000;

/// Judges one transmission.
pub fn judge_file(bytes: &[u8]) -> Verdict {
    if wrong_length(bytes, MOST_IN_FILE) {
        return Verdict::Refused(Refusal::new(1, 0, 0));
    }
    match judged(bytes) {
        Ok(totals) => Verdict::Accepted(totals),
        Err(refusal) => Verdict::Refused(refusal),
    }
}

/// TRANS; pieces, the last of them ENDTRANS; and nothing behind it.
fn judged(bytes: &[u8]) -> Result<Totals, Refusal> {
    let all = records(bytes);
    outside(all[0], 0, (Name::of(all[0]) == Some(Name::Trans)).then(|| trans_form(all[0])))?;
    let mut sums = Totals::default();
    let (mut entries, mut next) = (0, 1);
    while let Some(&record) = all.get(next) {
        if entries > 0 && Name::of(record) == Some(Name::EndTrans) {
            outside(record, next, Some(end_form(record, entries)))?;
            return all.get(next + 1).map_or(Ok(sums), |&behind| outside(behind, next + 1, None).map(|()| sums));
        }
        let length = piece(&all[next..]);
        let totals = judged_piece(&bytes[next * RECORD..(next + length) * RECORD], next, entries as u32 + 1)?;
        sums = added(sums, totals);
        (entries, next) = (entries + 1, next + length);
    }
    Err(Refusal::new(16, all.len() as u32 + 1, 0))
}

/// How many records there are up to the first ENDENTRY; all, if there is none.
fn piece(records: &[Record]) -> usize {
    records.iter().position(|&record| Name::of(record) == Some(Name::EndEntry)).map_or(records.len(), |last| last + 1)
}

/// Judges a piece as an entry, with so many records of the file before it. "4 .. for an entry's 20,001st record", where
/// nothing else is wrong before it.
fn judged_piece(piece: &[u8], before: usize, ordinal: u32) -> Result<Totals, Refusal> {
    let kept = piece.len().min(MOST_RECORDS * RECORD);
    let refusal = match (judge(&piece[..kept]), records(&piece[kept..]).first()) {
        (Verdict::Accepted(totals), _) => return Ok(totals),
        (Verdict::Refused(Refusal { number: 16, .. }), Some(&more)) => {
            let refused = outside(more, MOST_RECORDS, None);
            refused.expect_err("it is not due")
        }
        (Verdict::Refused(refusal), _) => refusal,
    };
    // "0 .. for 1 and 16, outside ENTRY to ENDENTRY": no entry begins with a record that is not ENTRY.
    let none = refusal.number == 16 || (refusal.record == 1 && Name::of(Record(piece)) != Some(Name::Entry));
    let ordinal = if none { 0 } else { ordinal };
    Err(Refusal { record: refusal.record + before as u32, ordinal, ..refusal })
}

/// The first fault of a record that is in no entry: 2, 3, and then 4 where it is not due, or the fault of its form.
fn outside(record: Record, at: usize, form: Option<Result<(), (u32, u32)>>) -> Result<(), Refusal> {
    let wrong = record.columns(1, 80).iter().position(|&byte| !permitted(byte));
    let fault = match (record.0[RECORD - 1], wrong, form) {
        (b'\n', None, Some(form)) => form,
        (b'\n', None, None) => Err((4, 1)),
        (b'\n', Some(index), _) => Err((3, index as u32 + 1)),
        _ => Err((2, RECORD as u32)),
    };
    fault.map_err(|(number, column)| Refusal::new(number, at as u32 + 1, column))
}

/// "TRANS carries seven blanks, a file identifier of four capitals or digits in columns 19-22 .., and a date like
/// ENTRY's"
fn trans_form(record: Record) -> Result<(), (u32, u32)> {
    let identifier = record.columns(19, 22).iter().all(|byte| byte.is_ascii_uppercase() || byte.is_ascii_digit());
    if !blank(record.columns(12, 18)) || !identifier {
        return Err((7, 12));
    }
    is_date(record.n2()).then_some(()).ok_or((7, 23))
}

/// "ENDTRANS carries the number of entries in N1."
fn end_form(record: Record, entries: u64) -> Result<(), (u32, u32)> {
    match count(record.n1()) {
        None => Err((7, 12)),
        Some(count) if count != entries => Err((8, 12)),
        Some(_) => Ok(()),
    }
}

/// "totals over the file"
fn added(one: Totals, other: Totals) -> Totals {
    Totals {
        subentries: one.subentries + other.subentries,
        keywords: one.keywords + other.keywords,
        lines: one.lines + other.lines,
        numbers: one.numbers + other.numbers,
    }
}

/// How many bytes the entry has that begins with a byte of the file: from ENTRY to the first ENDENTRY, 20,000 records
/// at the most. 0 where none begins there. No rule is made.
pub fn entry_length(file: &[u8], at: usize) -> usize {
    let rest = file.get(at..).unwrap_or_default();
    if !rest.starts_with(b"ENTRY      ") {
        return 0;
    }
    let mut named = rest.chunks_exact(RECORD).take(MOST_RECORDS).map(|record| record.starts_with(b"ENDENTRY   "));
    named.position(|ends| ends).map_or(0, |last| (last + 1) * RECORD)
}

/// "The canonical copy of a file is the copies in place": TRANS and ENDTRANS as they are, each entry its own copy. 31,
/// then 37; bytes past the file's length stay.
pub fn copy_file(file: &[u8], buffer: &mut [u8]) -> Result<(), NoAnswer> {
    if let Verdict::Refused(refusal) = judge_file(file) {
        return Err(NoAnswer { number: 31, entry: Some(refusal) });
    }
    let copy = buffer.get_mut(..file.len()).ok_or(NoAnswer::numbered(37))?;
    copy.copy_from_slice(file);
    let mut at = RECORD;
    loop {
        let past = at + entry_length(file, at);
        if past == at {
            return Ok(());
        }
        canonical_copy(&file[at..past], &mut copy[at..past])?;
        at = past;
    }
}

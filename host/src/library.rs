//! The calls that programs use. This is the only module that knows who answers them: the archives of proved functions
//! where they are linked, and otherwise [`crate::reference`]. [`proved`] says which.

#[cfg(proved)]
use crate::boundary as archives_or_reference;
use crate::cinda::{Line, LinesRefusal, Pieces};
use crate::decay::{CodeRefusal, GroupRead, HeadRead, NoCode, NumberRead, Place};
pub use crate::double::{DoubleRead, Simple};
pub use crate::index::{Index, Row};
#[cfg(not(proved))]
use crate::reference as archives_or_reference;
use crate::revisions::{RevisionRefusal, Subentry};
use crate::transmission::Entries;
use crate::walk::{Given, Walk};
pub use crate::walk::{Placed, Values};
use crate::{Decimal, Explained, FieldRead, NoAnswer, Part, Value, Verdict};

/// Every call, in the order of this module.
pub const CALLS: [&str; 37] = [
    "judge",
    "value",
    "heading",
    "unit",
    "passage",
    "canonical_copy",
    "read_number",
    "write_number",
    "judge_file",
    "entry_length",
    "copy_file",
    "explain",
    "explain_file",
    "make_index",
    "index_row",
    "index_value",
    "index_heading",
    "index_unit",
    "index_passage",
    "walk",
    "walk_next",
    "double",
    "index_double",
    "read_double",
    "as_double",
    "cinda_check",
    "cinda_line",
    "cinda_pieces",
    "cinda_back",
    "decay",
    "decay_in",
    "decay_head",
    "decay_group",
    "decay_type",
    "decay_energy",
    "subentry",
    "merge",
];

/// The calls that the archives of proved functions answer in this build.
pub fn proved() -> &'static [&'static str] {
    match cfg!(proved) {
        true => &CALLS,
        false => &[],
    }
}

/// The paths of the archives that are linked, if they are.
pub fn archives() -> Option<[String; 13]> {
    let folder = option_env!("X4_LINKED").filter(|_| cfg!(proved))?;
    let crates = [
        "exports",
        "exports_questions",
        "exports_files",
        "exports_file_copies",
        "exports_reasons",
        "exports_index",
        "exports_walk",
        "exports_doubles",
        "exports_reals",
        "exports_cinda",
        "exports_decay",
        "exports_codes",
        "exports_revisions",
    ];
    Some(crates.map(|name| format!("{folder}/libx4_{name}.a")))
}

/// Who answers, in words.
pub fn who_answers() -> String {
    let by_reference: Vec<&str> = CALLS.into_iter().filter(|call| !proved().contains(call)).collect();
    let list = |calls: &[&str]| if calls.is_empty() { "none".to_string() } else { calls.join(", ") };
    format!("by proved functions: {}; by the reference: {}", list(proved()), list(&by_reference))
}

/// Judges one entry, from ENTRY to ENDENTRY.
pub fn judge(entry: &[u8]) -> Verdict {
    archives_or_reference::judge(entry)
}

/// What stands in a column of a line of COMMON (section 1, line 1 only) or DATA (section 2), and its count of digits.
pub fn value(entry: &[u8], subentry: u32, section: u32, line: u32, column: u32) -> Result<FieldRead, NoAnswer> {
    archives_or_reference::value(entry, subentry, section, line, column)
}

/// The heading of a column: ten columns of the entry, and its pointer.
pub fn heading(entry: &[u8], subentry: u32, section: u32, column: u32) -> Result<Part, NoAnswer> {
    archives_or_reference::heading(entry, subentry, section, column)
}

/// The unit of a column: ten columns of the entry, and the pointer of its heading.
pub fn unit(entry: &[u8], subentry: u32, section: u32, column: u32) -> Result<Part, NoAnswer> {
    archives_or_reference::unit(entry, subentry, section, column)
}

/// The passage under a keyword (its ten bytes) and a pointer (blank for none): whole records of the entry. Bytes that
/// are not ten are no keyword's place, and no passage is under them.
pub fn passage(entry: &[u8], subentry: u32, keyword: &[u8], pointer: u8) -> Result<Part, NoAnswer> {
    archives_or_reference::passage(entry, subentry, keyword, pointer)
}

/// Writes the canonical copy of the entry to the front of the buffer; columns under FLAG and DECAY-FLAG stay as they
/// were. Refused, it stores nothing.
pub fn canonical_copy(entry: &[u8], buffer: &mut [u8]) -> Result<(), NoAnswer> {
    archives_or_reference::canonical_copy(entry, buffer)
}

/// Reads one number field of eleven bytes, and counts the digits written in it.
pub fn read_number(field: &[u8]) -> Result<FieldRead, NoAnswer> {
    archives_or_reference::read_number(field)
}

/// Writes the canonical field of a value into eleven bytes. Refused, it stores nothing.
pub fn write_number(decimal: Decimal, buffer: &mut [u8]) -> Result<(), NoAnswer> {
    archives_or_reference::write_number(decimal, buffer)
}

/// Judges one transmission: TRANS, one or more entries, ENDTRANS (M-100). Records and totals are those of the whole,
/// and a refusal inside an entry has its ordinal.
pub fn judge_file(file: &[u8]) -> Verdict {
    archives_or_reference::judge_file(file)
}

/// How many bytes the entry has that begins with a byte of a transmission: from ENTRY to the first ENDENTRY, 20,000
/// records at the most. 0 where none begins there. No rule is made.
pub fn entry_length(file: &[u8], at: usize) -> usize {
    archives_or_reference::entry_length(file, at)
}

/// The entries of a transmission as parts of it, each with its first byte: all of them where it is accepted.
pub fn entries(file: &[u8]) -> Entries<'_> {
    Entries::of(file)
}

/// Writes the canonical copy of a transmission to the front of the buffer: TRANS and ENDTRANS as they are, each entry
/// its own copy. Refused, it stores nothing.
pub fn copy_file(file: &[u8], buffer: &mut [u8]) -> Result<(), NoAnswer> {
    archives_or_reference::copy_file(file, buffer)
}

/// Judges one entry and says why it is refused (M-108): the verdict of [`judge`], and the facts of its refusal.
pub fn explain(entry: &[u8]) -> Explained {
    archives_or_reference::explain(entry)
}

/// Judges one transmission and says why it is refused: the verdict of [`judge_file`], and the facts of its refusal, where
/// records count from TRANS.
pub fn explain_file(file: &[u8]) -> Explained {
    archives_or_reference::explain_file(file)
}

/// Makes the index of an entry in the front of a slice (M-102), and says how many rows it has: five numbers to a
/// subentry in entry order, NOSUBENT too, which are its number, its first record, and the records BIB, COMMON and DATA, 0
/// where none. Numbers past the rows stay. Refused, by 31 or by 38 where the slice is too short, it stores nothing; an
/// entry has 998 subentries at the most. [`Index::of`] does the same without a slice.
pub fn make_index(entry: &[u8], index: &mut [u32]) -> Result<usize, NoAnswer> {
    archives_or_reference::make_index(entry, index)
}

/// How many rows of an index stand before the first with this number. The five numbers from there on are by themselves
/// an index of one row.
pub fn index_row(index: &[u32], subentry: u32) -> Result<usize, NoAnswer> {
    archives_or_reference::index_row(index, subentry)
}

/// The answer of [`value`], by an index: the same where the entry is accepted and the index is its own, cut to its rows.
/// Nothing is judged, so with any other bytes and numbers there is an answer, too: 38 where these are no whole rows, 39
/// where what is read is not what the index says, and never 31.
pub fn index_value(
    entry: &[u8],
    index: &[u32],
    subentry: u32,
    section: u32,
    line: u32,
    column: u32,
) -> Result<FieldRead, NoAnswer> {
    archives_or_reference::index_value(entry, index, subentry, section, line, column)
}

/// The answer of [`heading`], by an index.
pub fn index_heading(entry: &[u8], index: &[u32], subentry: u32, section: u32, column: u32) -> Result<Part, NoAnswer> {
    archives_or_reference::index_heading(entry, index, subentry, section, column)
}

/// The answer of [`unit()`], by an index.
pub fn index_unit(entry: &[u8], index: &[u32], subentry: u32, section: u32, column: u32) -> Result<Part, NoAnswer> {
    archives_or_reference::index_unit(entry, index, subentry, section, column)
}

/// The answer of [`passage`], by an index. A keyword that is not ten bytes long is never answered: 36 when all text
/// records were read, 39 where they leave the entry.
pub fn index_passage(
    entry: &[u8],
    index: &[u32],
    subentry: u32,
    keyword: &[u8],
    pointer: u8,
) -> Result<Part, NoAnswer> {
    archives_or_reference::index_passage(entry, index, subentry, keyword, pointer)
}

/// The values of COMMON (section 1) or DATA (section 2) of a subentry, each once, left to right and line by line (M-112):
/// 31, 32 or 33, or all that [`value`] would say of the table, with one judging.
pub fn values(entry: &[u8], subentry: u32, section: u32) -> Result<Values<'_>, NoAnswer> {
    Values::of(entry, subentry, section)
}

/// Begins a walk over the values of a section, as [`values`] does: five numbers that say where it stands.
pub fn walk(entry: &[u8], subentry: u32, section: u32) -> Result<Walk, NoAnswer> {
    archives_or_reference::walk(entry, subentry, section)
}

/// The next value of a walk, which then stands behind it; none where the walk is done, and then it stays as it is. With any
/// five numbers and any bytes there is an answer: a walk that stands at no place of a table as large as a table can be,
/// its record at most 20,000, 18 columns and 20,000 lines, is done; a field outside the bytes is blank, and one that is
/// malformed has 15 instead of a value, and the walk goes on behind it.
// A table is many steps, so that all around the call is inlined.
#[inline]
pub fn walk_next(entry: &[u8], walk: &mut Walk) -> Option<Given> {
    archives_or_reference::walk_next(entry, walk)
}

/// The value in a column of a line as a double (M-107), with its count of digits: refused as [`value`] is. The entry is
/// judged once, by that question.
pub fn double(entry: &[u8], subentry: u32, section: u32, line: u32, column: u32) -> Result<DoubleRead, NoAnswer> {
    value(entry, subentry, section, line, column).map(doubled)
}

/// The answer of [`double`], by an index: refused as [`index_value`] is.
pub fn index_double(
    entry: &[u8],
    index: &[u32],
    subentry: u32,
    section: u32,
    line: u32,
    column: u32,
) -> Result<DoubleRead, NoAnswer> {
    index_value(entry, index, subentry, section, line, column).map(doubled)
}

/// Reads one number field of eleven bytes as a double, and counts the digits written in it: refused as [`read_number`] is.
#[inline]
pub fn read_double(field: &[u8]) -> Result<DoubleRead, NoAnswer> {
    #[cfg(proved)]
    {
        let (double, word) = archives_or_reference::read_double(field);
        // The call gives no decimal, so where it is outside the field is read again.
        match crate::words::double(word, double)? {
            Some(read) => Ok(read),
            None => read_number(field).map(doubled),
        }
    }
    #[cfg(not(proved))]
    {
        archives_or_reference::read_double(field)
    }
}

/// What a reading in hand is as a double: of [`value`], of a walk, or of [`read_number`].
#[inline]
pub fn doubled(read: FieldRead) -> DoubleRead {
    let value = match read.value {
        Value::Blank => Simple::Blank,
        Value::Number(decimal) => as_double(decimal),
    };
    DoubleRead { value, digits: read.digits }
}

/// A decimal in hand as a double; outside, where it has more than ten digits or its power is not -22 to 22. The power is the
/// one handed over, not that of the value, whose coefficient ten does not divide. A simple zero is 0.0, however it is signed.
#[inline]
pub fn as_double(decimal: Decimal) -> Simple {
    #[cfg(proved)]
    {
        let Decimal { negative, coefficient, power } = decimal;
        // The first call gives 0.0 where there is no double, so only then the other is needed.
        let double = archives_or_reference::as_double(negative.into(), coefficient, power);
        match double != 0.0 || archives_or_reference::as_double_kind(negative.into(), coefficient, power) == 1 {
            true => Simple::Double(double),
            // "Zero is (no, 0, 0), however signed"
            false => Simple::Outside(Decimal { negative: negative && coefficient != 0, ..decimal }),
        }
    }
    #[cfg(not(proved))]
    {
        archives_or_reference::as_double(decimal)
    }
}

/// A question for a double, as `include/x4.h` has it.
#[derive(Clone, Copy, Debug)]
pub enum DoubleCalls<'a> {
    /// `x4_double`: the entry, and subentry, section, line and column.
    InFull(&'a [u8], [u32; 4]),
    /// `x4_index_double`: the same by an index.
    ByIndex(&'a [u8], &'a [u32], [u32; 4]),
    /// `x4_read_double`.
    Field(&'a [u8]),
    /// `x4_as_double` and `x4_as_double_kind`.
    InHand(Decimal),
}

/// The double that is stored, 0.0 where none is, and the word ([`crate::words`]), or the kind for a decimal in hand: to hold
/// the functions above against.
pub fn double_calls(calls: DoubleCalls) -> (f64, u64) {
    #[cfg(proved)]
    {
        use archives_or_reference as archives;
        match calls {
            DoubleCalls::InFull(entry, [n, section, line, column]) => archives::double(entry, n, section, line, column),
            DoubleCalls::ByIndex(entry, index, [n, section, line, column]) => {
                archives::index_double(entry, index, n, section, line, column)
            }
            DoubleCalls::Field(field) => archives::read_double(field),
            DoubleCalls::InHand(Decimal { negative, coefficient, power }) => (
                archives::as_double(negative.into(), coefficient, power),
                archives::as_double_kind(negative.into(), coefficient, power),
            ),
        }
    }
    #[cfg(not(proved))]
    {
        let answer = match calls {
            DoubleCalls::InFull(entry, [n, section, line, column]) => double(entry, n, section, line, column),
            DoubleCalls::ByIndex(entry, index, [n, section, line, column]) => {
                index_double(entry, index, n, section, line, column)
            }
            DoubleCalls::Field(field) => read_double(field),
            DoubleCalls::InHand(decimal) => {
                let simple = as_double(decimal);
                return (simple.double().unwrap_or(0.0), simple.kind());
            }
        };
        crate::words::double_calls(answer)
    }
}

/// Checks lines in the CINDA2001 layout (M-113), up to 20,000 of 126 bytes each: 70 to 77, named with the line and the column.
pub fn cinda_check(lines: &[u8]) -> Result<(), LinesRefusal> {
    archives_or_reference::cinda_check(lines)
}

/// The numbers and characters of a line, counted from 1: 70 to 77, as all lines are checked, then 34. One who asks for every
/// line hands over one at a time, as [`crate::cinda::Lines`] does.
pub fn cinda_line(lines: &[u8], line: u32) -> Result<Line, LinesRefusal> {
    archives_or_reference::cinda_line(lines, line)
}

/// A line and its five texts, as parts of all lines: refused as [`cinda_line`] is.
pub fn cinda_pieces(lines: &[u8], line: u32) -> Result<Pieces, LinesRefusal> {
    archives_or_reference::cinda_pieces(lines, line)
}

/// Writes lines to the front of a buffer, each energy in its canonical field and every other byte as it was: 70 to 77, then 37.
/// Refused, it stores nothing.
pub fn cinda_back(lines: &[u8], buffer: &mut [u8]) -> Result<(), LinesRefusal> {
    archives_or_reference::cinda_back(lines, buffer)
}

/// Writes a code under DECAY-DATA (M-106) to the front of a slice as one run, and says how long it is: the code of this number,
/// from 1, in the passage of a subentry and a pointer, blank for none. Breaks are left out, numbers but the flag are in their
/// shortest spelling, and the rest is as it was. Refusals: 31, 32, 33, 36, then 50 or 51 with record and column, then 52. Refused, it
/// stores nothing. A slice as long as the passage is always long enough. The entry is judged; [`crate::codes`] does so once for all
/// its codes.
pub fn decay(entry: &[u8], subentry: u32, pointer: u8, code: u32, out: &mut [u8]) -> Result<usize, CodeRefusal> {
    archives_or_reference::decay(entry, subentry, pointer, code, out)
}

/// The same of a passage in hand, as [`passage`] or [`index_passage`] gives it, and of any bytes: only whole records count, and
/// records of 50 and 51 count in the passage from 1. Nothing is judged.
pub fn decay_in(passage: &[u8], code: u32, out: &mut [u8]) -> Result<usize, CodeRefusal> {
    archives_or_reference::decay_in(passage, code, out)
}

/// The fields of a run before its groups, and how many groups it has. Of any bytes: where they are no code, how many characters
/// stand before the first that no code has there. [`crate::decay::Code`] has these calls with names and texts.
pub fn decay_head(run: &[u8]) -> Result<HeadRead, NoCode> {
    archives_or_reference::decay_head(run)
}

/// A group of a run, counted from 1; none where there is no such group, or where the bytes are no code.
pub fn decay_group(run: &[u8], group: u32) -> Option<GroupRead> {
    archives_or_reference::decay_group(run, group)
}

/// A type of a group, both counted from 1.
pub fn decay_type(run: &[u8], group: u32, at: u32) -> Option<Place> {
    archives_or_reference::decay_type(run, group, at)
}

/// An energy of a group, both counted from 1.
pub fn decay_energy(run: &[u8], group: u32, at: u32) -> Option<NumberRead> {
    archives_or_reference::decay_energy(run, group, at)
}

/// Hands out a subentry of a held entry and its revision (M-109), as a part of whichever of the two holds it: the only one that has
/// it, or, where both do, the revision unless its date for that subentry is earlier. 60 where either is refused, the held one
/// named first, 61 where their accessions differ, 32 where neither has it, 62 where the one to hand out is NOSUBENT.
pub fn subentry<'e>(held: &'e [u8], revision: &'e [u8], subentry: u32) -> Result<Subentry<'e>, RevisionRefusal> {
    archives_or_reference::subentry(held, revision, subentry).map(|chosen| chosen.of(held, revision))
}

/// Merges a held entry and its revision into the front of a buffer, and says how many bytes the merge has: all subentries of both in
/// number order, NOSUBENT too, each as [`subentry`] chooses it, between ENTRY and ENDENTRY of the revision with the later of both
/// dates and the true count. 60 and 61 as there, 37 where the buffer is shorter than both entries together; by these nothing is
/// stored. 63 where the merge is refused: then so many bytes of the buffer as the refusal says are blanks. Bytes behind stay.
/// [`crate::revisions::merged`] does the same without a buffer.
pub fn merge(held: &[u8], revision: &[u8], buffer: &mut [u8]) -> Result<usize, RevisionRefusal> {
    archives_or_reference::merge(held, revision, buffer)
}

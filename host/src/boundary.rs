//! Foreign functions: those of the proved archives as C sees them and with Rust's types, and two of C's library.
//!
//! Nothing checks these declarations against the archives but the version, so they are few and stand together. A
//! `&[u8]` or `&[u32]` is a pointer and a length, a lent array of fixed length a pointer; the proofs cover every one that
//! a slice or an array can have, so the wrappers test nothing. This is the only module of the package that is unsafe;
//! of the tests, `stack` is too.

#[cfg(proved)]
use crate::cinda::{Line, LinesRefusal, Pieces};
#[cfg(proved)]
use crate::decay::{CodeRefusal, GroupRead, HeadRead, NoCode, NumberRead, Place};
#[cfg(proved)]
use crate::revisions::{Chosen, RevisionRefusal};
#[cfg(proved)]
use crate::walk::{Given, Walk};
#[cfg(proved)]
use crate::{words, Decimal, Explained, FieldRead, NoAnswer, Part, Verdict};
use std::ffi::{c_char, c_double, CStr};

extern "C" {
    fn strtod(text: *const c_char, end: *mut *mut c_char) -> c_double;
    fn clock_gettime(clock: i32, time: *mut [i64; 2]) -> i32;
}

#[cfg(proved)]
extern "C" {
    fn x4_version() -> u32;
    fn x4_judge(entry: *const u8, length: usize, totals: *mut [u64; 4]) -> u64;
    fn x4_value(
        entry: *const u8,
        length: usize,
        subentry: u32,
        section: u32,
        line: u32,
        column: u32,
        value: *mut [u64; 8],
    ) -> u64;
    fn x4_heading(
        entry: *const u8,
        length: usize,
        subentry: u32,
        section: u32,
        column: u32,
        part: *mut [u64; 3],
    ) -> u64;
    fn x4_unit(entry: *const u8, length: usize, subentry: u32, section: u32, column: u32, part: *mut [u64; 3]) -> u64;
    fn x4_passage(
        entry: *const u8,
        length: usize,
        subentry: u32,
        keyword: *const u8,
        keyword_length: usize,
        pointer: u8,
        part: *mut [u64; 3],
    ) -> u64;
    fn x4_copy(entry: *const u8, length: usize, out: *mut u8, out_length: usize) -> u64;
    fn x4_read_number(field: *const u8, length: usize, value: *mut [u64; 8]) -> u64;
    fn x4_write_number(negative: u32, coefficient: u64, power: i32, out: *mut u8, length: usize) -> u32;
    fn x4_judge_file(file: *const u8, length: usize, totals: *mut [u64; 4]) -> u64;
    fn x4_entry_length(file: *const u8, length: usize, at: usize) -> usize;
    fn x4_copy_file(file: *const u8, length: usize, out: *mut u8, out_length: usize) -> u64;
    fn x4_explain(
        entry: *const u8,
        length: usize,
        totals: *mut [u64; 4],
        facts: *mut [u64; 3],
        characters: *mut [u8; 8],
    ) -> u64;
    fn x4_explain_file(
        file: *const u8,
        length: usize,
        totals: *mut [u64; 4],
        facts: *mut [u64; 3],
        characters: *mut [u8; 8],
    ) -> u64;
    fn x4_index(entry: *const u8, length: usize, index: *mut u32, numbers: usize, rows: *mut [u64; 1]) -> u64;
    fn x4_index_row(index: *const u32, numbers: usize, subentry: u32, before: *mut [u64; 1]) -> u64;
    fn x4_index_value(
        entry: *const u8,
        length: usize,
        index: *const u32,
        numbers: usize,
        subentry: u32,
        section: u32,
        line: u32,
        column: u32,
        value: *mut [u64; 8],
    ) -> u64;
    fn x4_index_heading(
        entry: *const u8,
        length: usize,
        index: *const u32,
        numbers: usize,
        subentry: u32,
        section: u32,
        column: u32,
        part: *mut [u64; 3],
    ) -> u64;
    fn x4_index_unit(
        entry: *const u8,
        length: usize,
        index: *const u32,
        numbers: usize,
        subentry: u32,
        section: u32,
        column: u32,
        part: *mut [u64; 3],
    ) -> u64;
    fn x4_index_passage(
        entry: *const u8,
        length: usize,
        index: *const u32,
        numbers: usize,
        subentry: u32,
        keyword: *const u8,
        keyword_length: usize,
        pointer: u8,
        part: *mut [u64; 3],
    ) -> u64;
    fn x4_walk(entry: *const u8, length: usize, subentry: u32, section: u32, walk: *mut Walk) -> u64;
    fn x4_walk_next(
        entry: *const u8,
        length: usize,
        walk: *mut Walk,
        place: *mut [u64; 3],
        value: *mut [u64; 8],
    ) -> u64;
    fn x4_double(
        entry: *const u8,
        length: usize,
        subentry: u32,
        section: u32,
        line: u32,
        column: u32,
        value: *mut [f64; 1],
    ) -> u64;
    fn x4_index_double(
        entry: *const u8,
        length: usize,
        index: *const u32,
        numbers: usize,
        subentry: u32,
        section: u32,
        line: u32,
        column: u32,
        value: *mut [f64; 1],
    ) -> u64;
    fn x4_read_double(field: *const u8, length: usize, value: *mut [f64; 1]) -> u64;
    fn x4_as_double(negative: u32, coefficient: u64, power: i32) -> f64;
    fn x4_as_double_kind(negative: u32, coefficient: u64, power: i32) -> u64;
    fn x4_cinda_check(lines: *const u8, length: usize) -> u64;
    fn x4_cinda_line(
        lines: *const u8,
        length: usize,
        line: u32,
        numbers: *mut [u64; 14],
        least: *mut [u64; 8],
        greatest: *mut [u64; 8],
    ) -> u64;
    fn x4_cinda_pieces(lines: *const u8, length: usize, line: u32, places: *mut [u64; 12]) -> u64;
    fn x4_cinda_back(lines: *const u8, length: usize, out: *mut u8, room: usize) -> u64;
    fn x4_decay(
        entry: *const u8,
        length: usize,
        subentry: u32,
        pointer: u8,
        code: u32,
        out: *mut u8,
        room: usize,
        run: *mut [u64; 1],
    ) -> u64;
    fn x4_decay_in(passage: *const u8, length: usize, code: u32, out: *mut u8, room: usize, run: *mut [u64; 1]) -> u64;
    fn x4_decay_head(run: *const u8, length: usize, places: *mut [u64; 15], half: *mut [u64; 8]) -> u64;
    fn x4_decay_group(
        run: *const u8,
        length: usize,
        group: u32,
        numbers: *mut [u64; 4],
        abundance: *mut [u64; 8],
    ) -> u64;
    fn x4_decay_type(run: *const u8, length: usize, group: u32, at: u32, place: *mut [u64; 2]) -> u64;
    fn x4_decay_energy(
        run: *const u8,
        length: usize,
        group: u32,
        at: u32,
        place: *mut [u64; 2],
        value: *mut [u64; 8],
    ) -> u64;
    fn x4_subentry(
        held: *const u8,
        held_length: usize,
        revision: *const u8,
        revision_length: usize,
        subentry: u32,
        part: *mut [u64; 3],
    ) -> u64;
    fn x4_merge(
        held: *const u8,
        held_length: usize,
        revision: *const u8,
        revision_length: usize,
        out: *mut u8,
        room: usize,
        merged: *mut [u64; 1],
    ) -> u64;
}

/// The version of the archives' interface, which is to be [`words::VERSION`].
#[cfg(proved)]
pub fn version() -> u32 {
    // SAFETY: it takes nothing.
    unsafe { x4_version() }
}

/// Judges one entry.
#[cfg(proved)]
pub fn judge(entry: &[u8]) -> Verdict {
    let mut totals = [0; 4];
    // SAFETY: the pointer and the length are those of one slice, which is only read; the array is this call's own.
    let word = unsafe { x4_judge(entry.as_ptr(), entry.len(), &mut totals) };
    words::verdict(word, totals)
}

/// What stands in a column of a line.
#[cfg(proved)]
pub fn value(entry: &[u8], subentry: u32, section: u32, line: u32, column: u32) -> Result<FieldRead, NoAnswer> {
    let mut value = [0; 8];
    // SAFETY: the pointer and the length are those of one slice, which is only read; the array is this call's own.
    let word = unsafe { x4_value(entry.as_ptr(), entry.len(), subentry, section, line, column, &mut value) };
    words::answered(word).map(|()| words::value(value))
}

/// The heading of a column.
#[cfg(proved)]
pub fn heading(entry: &[u8], subentry: u32, section: u32, column: u32) -> Result<Part, NoAnswer> {
    let mut part = [0; 3];
    // SAFETY: the pointer and the length are those of one slice, which is only read; the array is this call's own.
    let word = unsafe { x4_heading(entry.as_ptr(), entry.len(), subentry, section, column, &mut part) };
    words::answered(word).map(|()| words::part(part))
}

/// The unit of a column.
#[cfg(proved)]
pub fn unit(entry: &[u8], subentry: u32, section: u32, column: u32) -> Result<Part, NoAnswer> {
    let mut part = [0; 3];
    // SAFETY: the pointer and the length are those of one slice, which is only read; the array is this call's own.
    let word = unsafe { x4_unit(entry.as_ptr(), entry.len(), subentry, section, column, &mut part) };
    words::answered(word).map(|()| words::part(part))
}

/// The passage under a keyword and a pointer.
#[cfg(proved)]
pub fn passage(entry: &[u8], subentry: u32, keyword: &[u8], pointer: u8) -> Result<Part, NoAnswer> {
    let mut part = [0; 3];
    let (first, length) = (keyword.as_ptr(), keyword.len());
    // SAFETY: both pointers and lengths are those of slices, which are only read; the array is this call's own.
    let word = unsafe { x4_passage(entry.as_ptr(), entry.len(), subentry, first, length, pointer, &mut part) };
    words::answered(word).map(|()| words::part(part))
}

/// The canonical copy, into the front of a buffer.
#[cfg(proved)]
pub fn canonical_copy(entry: &[u8], buffer: &mut [u8]) -> Result<(), NoAnswer> {
    let (first, length) = (buffer.as_mut_ptr(), buffer.len());
    // SAFETY: the entry is only read, and nobody else has the buffer while it is written.
    words::answered(unsafe { x4_copy(entry.as_ptr(), entry.len(), first, length) })
}

/// Reads one number field.
#[cfg(proved)]
pub fn read_number(field: &[u8]) -> Result<FieldRead, NoAnswer> {
    let mut value = [0; 8];
    // SAFETY: the pointer and the length are those of one slice, which is only read; the array is this call's own.
    let word = unsafe { x4_read_number(field.as_ptr(), field.len(), &mut value) };
    words::answered(word).map(|()| words::value(value))
}

/// Writes the canonical field of a value.
#[cfg(proved)]
pub fn write_number(decimal: Decimal, buffer: &mut [u8]) -> Result<(), NoAnswer> {
    let Decimal { negative, coefficient, power } = decimal;
    // SAFETY: the pointer and the length are those of one slice, which nobody else has while it is written.
    let number = unsafe { x4_write_number(negative.into(), coefficient, power, buffer.as_mut_ptr(), buffer.len()) };
    words::answered(number.into())
}

/// Judges one transmission.
#[cfg(proved)]
pub fn judge_file(file: &[u8]) -> Verdict {
    let mut totals = [0; 4];
    // SAFETY: the pointer and the length are those of one slice, which is only read; the array is this call's own.
    let word = unsafe { x4_judge_file(file.as_ptr(), file.len(), &mut totals) };
    words::verdict(word, totals)
}

/// How many bytes the entry has that begins with a byte of a transmission.
#[cfg(proved)]
pub fn entry_length(file: &[u8], at: usize) -> usize {
    // SAFETY: the pointer and the length are those of one slice, which is only read.
    unsafe { x4_entry_length(file.as_ptr(), file.len(), at) }
}

/// The canonical copy of a transmission, into the front of a buffer.
#[cfg(proved)]
pub fn copy_file(file: &[u8], buffer: &mut [u8]) -> Result<(), NoAnswer> {
    let (first, length) = (buffer.as_mut_ptr(), buffer.len());
    // SAFETY: the file is only read, and nobody else has the buffer while it is written.
    words::answered(unsafe { x4_copy_file(file.as_ptr(), file.len(), first, length) })
}

/// Judges one entry and says why it is refused.
#[cfg(proved)]
pub fn explain(entry: &[u8]) -> Explained {
    let (mut totals, mut facts, mut characters) = ([0; 4], [0; 3], [0; 8]);
    // SAFETY: the pointer and the length are those of one slice, which is only read; the arrays are this call's own.
    let word = unsafe { x4_explain(entry.as_ptr(), entry.len(), &mut totals, &mut facts, &mut characters) };
    words::explained(word, totals, facts, characters)
}

/// Judges one transmission and says why it is refused.
#[cfg(proved)]
pub fn explain_file(file: &[u8]) -> Explained {
    let (mut totals, mut facts, mut characters) = ([0; 4], [0; 3], [0; 8]);
    // SAFETY: the pointer and the length are those of one slice, which is only read; the arrays are this call's own.
    let word = unsafe { x4_explain_file(file.as_ptr(), file.len(), &mut totals, &mut facts, &mut characters) };
    words::explained(word, totals, facts, characters)
}

/// The index of an entry, into the front of a slice; how many rows it has.
#[cfg(proved)]
pub fn make_index(entry: &[u8], index: &mut [u32]) -> Result<usize, NoAnswer> {
    let mut rows = [0];
    let (first, numbers) = (index.as_mut_ptr(), index.len());
    // SAFETY: the entry is only read, and nobody else has the slice while it is written; the array is this call's own.
    let word = unsafe { x4_index(entry.as_ptr(), entry.len(), first, numbers, &mut rows) };
    words::answered(word).map(|()| rows[0] as usize)
}

/// How many rows of an index stand before the first with a number.
#[cfg(proved)]
pub fn index_row(index: &[u32], subentry: u32) -> Result<usize, NoAnswer> {
    let mut before = [0];
    // SAFETY: the pointer and the length are those of one slice, which is only read; the array is this call's own.
    let word = unsafe { x4_index_row(index.as_ptr(), index.len(), subentry, &mut before) };
    words::answered(word).map(|()| before[0] as usize)
}

/// What stands in a column of a line, by an index.
#[cfg(proved)]
pub fn index_value(
    entry: &[u8],
    index: &[u32],
    subentry: u32,
    section: u32,
    line: u32,
    column: u32,
) -> Result<FieldRead, NoAnswer> {
    let mut value = [0; 8];
    let (bytes, length, row, numbers) = (entry.as_ptr(), entry.len(), index.as_ptr(), index.len());
    // SAFETY: both pointers and lengths are those of slices, which are only read; the array is this call's own.
    let word = unsafe { x4_index_value(bytes, length, row, numbers, subentry, section, line, column, &mut value) };
    words::answered(word).map(|()| words::value(value))
}

/// The heading of a column, by an index.
#[cfg(proved)]
pub fn index_heading(entry: &[u8], index: &[u32], subentry: u32, section: u32, column: u32) -> Result<Part, NoAnswer> {
    let mut part = [0; 3];
    let (bytes, length, row, numbers) = (entry.as_ptr(), entry.len(), index.as_ptr(), index.len());
    // SAFETY: both pointers and lengths are those of slices, which are only read; the array is this call's own.
    let word = unsafe { x4_index_heading(bytes, length, row, numbers, subentry, section, column, &mut part) };
    words::answered(word).map(|()| words::part(part))
}

/// The unit of a column, by an index.
#[cfg(proved)]
pub fn index_unit(entry: &[u8], index: &[u32], subentry: u32, section: u32, column: u32) -> Result<Part, NoAnswer> {
    let mut part = [0; 3];
    let (bytes, length, row, numbers) = (entry.as_ptr(), entry.len(), index.as_ptr(), index.len());
    // SAFETY: both pointers and lengths are those of slices, which are only read; the array is this call's own.
    let word = unsafe { x4_index_unit(bytes, length, row, numbers, subentry, section, column, &mut part) };
    words::answered(word).map(|()| words::part(part))
}

/// The passage under a keyword and a pointer, by an index.
#[cfg(proved)]
pub fn index_passage(
    entry: &[u8],
    index: &[u32],
    subentry: u32,
    keyword: &[u8],
    pointer: u8,
) -> Result<Part, NoAnswer> {
    let mut part = [0; 3];
    let (bytes, length, row, numbers) = (entry.as_ptr(), entry.len(), index.as_ptr(), index.len());
    let (first, ten) = (keyword.as_ptr(), keyword.len());
    // SAFETY: the three pointers and lengths are those of slices, which are only read; the array is this call's own.
    let word = unsafe { x4_index_passage(bytes, length, row, numbers, subentry, first, ten, pointer, &mut part) };
    words::answered(word).map(|()| words::part(part))
}

/// Begins a walk over the values of a section.
#[cfg(proved)]
pub fn walk(entry: &[u8], subentry: u32, section: u32) -> Result<Walk, NoAnswer> {
    let mut walk = [0; 5];
    // SAFETY: the pointer and the length are those of one slice, which is only read; the array is this call's own.
    let word = unsafe { x4_walk(entry.as_ptr(), entry.len(), subentry, section, &mut walk) };
    words::answered(word).map(|()| walk)
}

/// The next value of a walk.
#[cfg(proved)]
#[inline]
pub fn walk_next(entry: &[u8], walk: &mut Walk) -> Option<Given> {
    let (mut place, mut value) = ([0; 3], [0; 8]);
    // SAFETY: the pointer and the length are those of one slice, which is only read; the caller lends the walk, and the
    // other arrays are this call's own.
    let word = unsafe { x4_walk_next(entry.as_ptr(), entry.len(), walk, &mut place, &mut value) };
    words::given(word, place, value)
}

/// What stands in a column of a line, as a double, 0.0 where it is none; and the word: its refusal, which of the three it
/// is, and the digits written.
#[cfg(proved)]
pub fn double(entry: &[u8], subentry: u32, section: u32, line: u32, column: u32) -> (f64, u64) {
    let mut value = [0.0];
    // SAFETY: the pointer and the length are those of one slice, which is only read; the array is this call's own.
    let word = unsafe { x4_double(entry.as_ptr(), entry.len(), subentry, section, line, column, &mut value) };
    (value[0], word)
}

/// The same by an index.
#[cfg(proved)]
pub fn index_double(entry: &[u8], index: &[u32], subentry: u32, section: u32, line: u32, column: u32) -> (f64, u64) {
    let mut value = [0.0];
    let (bytes, length, row, numbers) = (entry.as_ptr(), entry.len(), index.as_ptr(), index.len());
    // SAFETY: both pointers and lengths are those of slices, which are only read; the array is this call's own.
    let word = unsafe { x4_index_double(bytes, length, row, numbers, subentry, section, line, column, &mut value) };
    (value[0], word)
}

/// What one number field says, as a double, 0.0 where it is none; and the word.
#[cfg(proved)]
#[inline]
pub fn read_double(field: &[u8]) -> (f64, u64) {
    let mut value = [0.0];
    // SAFETY: the pointer and the length are those of one slice, which is only read; the array is this call's own.
    let word = unsafe { x4_read_double(field.as_ptr(), field.len(), &mut value) };
    (value[0], word)
}

/// A decimal in hand, below zero where `negative` is not 0, as a double; 0.0 where it is outside the simple range.
// A table is many of these, so that nothing is put around the call.
#[cfg(proved)]
#[inline]
pub fn as_double(negative: u32, coefficient: u64, power: i32) -> f64 {
    // SAFETY: it takes numbers alone.
    unsafe { x4_as_double(negative, coefficient, power) }
}

/// Which of the three that is: 1 a double, 2 outside.
#[cfg(proved)]
#[inline]
pub fn as_double_kind(negative: u32, coefficient: u64, power: i32) -> u64 {
    // SAFETY: it takes numbers alone.
    unsafe { x4_as_double_kind(negative, coefficient, power) }
}

/// Checks lines in the CINDA2001 layout.
#[cfg(proved)]
pub fn cinda_check(lines: &[u8]) -> Result<(), LinesRefusal> {
    // SAFETY: the pointer and the length are those of one slice, which is only read.
    words::lines_answered(unsafe { x4_cinda_check(lines.as_ptr(), lines.len()) })
}

/// The numbers and characters of a line.
#[cfg(proved)]
pub fn cinda_line(lines: &[u8], line: u32) -> Result<Line, LinesRefusal> {
    let (mut numbers, mut least, mut greatest) = ([0; 14], [0; 8], [0; 8]);
    let (first, length) = (lines.as_ptr(), lines.len());
    // SAFETY: the pointer and the length are those of one slice, which is only read; the arrays are this call's own.
    let word = unsafe { x4_cinda_line(first, length, line, &mut numbers, &mut least, &mut greatest) };
    words::lines_answered(word).map(|()| words::line(numbers, least, greatest))
}

/// A line and its texts, as parts of all lines.
#[cfg(proved)]
pub fn cinda_pieces(lines: &[u8], line: u32) -> Result<Pieces, LinesRefusal> {
    let mut places = [0; 12];
    // SAFETY: the pointer and the length are those of one slice, which is only read; the array is this call's own.
    let word = unsafe { x4_cinda_pieces(lines.as_ptr(), lines.len(), line, &mut places) };
    words::lines_answered(word).map(|()| words::pieces(places))
}

/// Lines written back, into the front of a buffer.
#[cfg(proved)]
pub fn cinda_back(lines: &[u8], buffer: &mut [u8]) -> Result<(), LinesRefusal> {
    let (first, room) = (buffer.as_mut_ptr(), buffer.len());
    // SAFETY: the lines are only read, and nobody else has the buffer while it is written.
    words::lines_answered(unsafe { x4_cinda_back(lines.as_ptr(), lines.len(), first, room) })
}

/// A code of an entry, into the front of a slice.
#[cfg(proved)]
pub fn decay(entry: &[u8], subentry: u32, pointer: u8, code: u32, out: &mut [u8]) -> Result<usize, CodeRefusal> {
    let (first, room, mut run) = (out.as_mut_ptr(), out.len(), [0]);
    // SAFETY: the entry is only read, nobody else has the slice while it is written, and the array is this call's own.
    let word = unsafe { x4_decay(entry.as_ptr(), entry.len(), subentry, pointer, code, first, room, &mut run) };
    words::code_answered(word).map(|()| run[0] as usize)
}

/// A code of a passage in hand, into the front of a slice.
#[cfg(proved)]
pub fn decay_in(passage: &[u8], code: u32, out: &mut [u8]) -> Result<usize, CodeRefusal> {
    let (first, room, mut run) = (out.as_mut_ptr(), out.len(), [0]);
    // SAFETY: the passage is only read, nobody else has the slice while it is written, and the array is this call's own.
    let word = unsafe { x4_decay_in(passage.as_ptr(), passage.len(), code, first, room, &mut run) };
    words::code_answered(word).map(|()| run[0] as usize)
}

/// The fields of a run before its groups.
#[cfg(proved)]
pub fn decay_head(run: &[u8]) -> Result<HeadRead, NoCode> {
    let (mut places, mut half) = ([0; 15], [0; 8]);
    // SAFETY: the pointer and the length are those of one slice, which is only read; the arrays are this call's own.
    let word = unsafe { x4_decay_head(run.as_ptr(), run.len(), &mut places, &mut half) };
    words::head(word, places, half)
}

/// A group of a run.
#[cfg(proved)]
pub fn decay_group(run: &[u8], group: u32) -> Option<GroupRead> {
    let (mut numbers, mut abundance) = ([0; 4], [0; 8]);
    // SAFETY: the pointer and the length are those of one slice, which is only read; the arrays are this call's own.
    let there = unsafe { x4_decay_group(run.as_ptr(), run.len(), group, &mut numbers, &mut abundance) };
    words::group(there, numbers, abundance)
}

/// A type of a group.
#[cfg(proved)]
pub fn decay_type(run: &[u8], group: u32, at: u32) -> Option<Place> {
    let mut place = [0; 2];
    // SAFETY: the pointer and the length are those of one slice, which is only read; the array is this call's own.
    let there = unsafe { x4_decay_type(run.as_ptr(), run.len(), group, at, &mut place) };
    words::kind(there, place)
}

/// An energy of a group.
#[cfg(proved)]
pub fn decay_energy(run: &[u8], group: u32, at: u32) -> Option<NumberRead> {
    let (mut place, mut value) = ([0; 2], [0; 8]);
    // SAFETY: the pointer and the length are those of one slice, which is only read; the arrays are this call's own.
    let there = unsafe { x4_decay_energy(run.as_ptr(), run.len(), group, at, &mut place, &mut value) };
    words::energy(there, place, value)
}

/// A subentry of a held entry or its revision.
#[cfg(proved)]
pub fn subentry(held: &[u8], revision: &[u8], subentry: u32) -> Result<Chosen, RevisionRefusal> {
    let mut part = [0; 3];
    let (one, length, other, size) = (held.as_ptr(), held.len(), revision.as_ptr(), revision.len());
    // SAFETY: both pointers and lengths are those of slices, which are only read; the array is this call's own.
    let word = unsafe { x4_subentry(one, length, other, size, subentry, &mut part) };
    words::revision_answered(word, 0).map(|()| words::chosen(part))
}

/// The merge of both, into the front of a buffer.
#[cfg(proved)]
pub fn merge(held: &[u8], revision: &[u8], buffer: &mut [u8]) -> Result<usize, RevisionRefusal> {
    let (one, length, other, size) = (held.as_ptr(), held.len(), revision.as_ptr(), revision.len());
    let (first, room, mut merged) = (buffer.as_mut_ptr(), buffer.len(), [0]);
    // SAFETY: both entries are only read, nobody else has the buffer while it is written, and the array is this call's own.
    let word = unsafe { x4_merge(one, length, other, size, first, room, &mut merged) };
    words::revision_answered(word, merged[0]).map(|()| merged[0] as usize)
}

/// What C's own reader makes of a text: for comparisons of speed.
pub fn c_read(text: &CStr) -> f64 {
    // SAFETY: the text ends with a zero byte, and no end is asked for.
    unsafe { strtod(text.as_ptr(), std::ptr::null_mut()) }
}

/// The time that the processor has given to this thread, in nanoseconds: other work on the machine does not move it.
pub fn processor_time() -> f64 {
    const CLOCK_THREAD_CPUTIME_ID: i32 = 3;
    let mut time = [0; 2];
    // SAFETY: seconds and nanoseconds are two words of 64 bits, as on every 64-bit Linux, and only they are written.
    unsafe { clock_gettime(CLOCK_THREAD_CPUTIME_ID, &mut time) };
    time[0] as f64 * 1e9 + time[1] as f64
}

#[cfg(all(test, proved))]
mod tests {
    use super::*;
    use crate::{DATA, RECORD};

    const BEFORE: u64 = 0xa5a5_a5a5_a5a5_a5a5;

    /// A call that says why.
    type Explain = unsafe extern "C" fn(*const u8, usize, *mut [u64; 4], *mut [u64; 3], *mut [u8; 8]) -> u64;

    #[test]
    fn header_and_archives_are_of_one_version() {
        assert_eq!(version(), words::VERSION);
        let header = include_str!("../include/x4.h");
        assert!(header.contains(&format!("#define X4_VERSION {}\n", words::VERSION)));
    }

    /// The words of judging and of the questions, and what stands in the arrays behind them.
    fn ask(entry: &[u8], subentry: u32, section: u32, line: u32, column: u32, keyword: &[u8]) -> [(u64, Vec<u64>); 5] {
        let (bytes, length) = (entry.as_ptr(), entry.len());
        let (first, ten) = (keyword.as_ptr(), keyword.len());
        let (mut totals, mut value) = ([BEFORE; 4], [BEFORE; 8]);
        let [mut heading, mut unit, mut passage] = [[BEFORE; 3]; 3];
        // SAFETY: pointers and lengths are those of slices, which are only read; the arrays are this function's own.
        let words = unsafe {
            [
                x4_judge(bytes, length, &mut totals),
                x4_value(bytes, length, subentry, section, line, column, &mut value),
                x4_heading(bytes, length, subentry, section, column, &mut heading),
                x4_unit(bytes, length, subentry, section, column, &mut unit),
                x4_passage(bytes, length, subentry, first, ten, b' ', &mut passage),
            ]
        };
        let left = [&totals[..], &value, &heading, &unit, &passage];
        std::array::from_fn(|call| (words[call], left[call].to_vec()))
    }

    fn untouched(left: &[u64]) -> bool {
        left.iter().all(|&number| number == BEFORE)
    }

    #[test]
    fn refused_questions_store_nothing() {
        let sample = include_bytes!("../data/sample.x4");
        let asked = |section, line, column, keyword: &[u8]| ask(sample, 2, section, line, column, keyword);
        let number = |(word, left): &(u64, Vec<u64>)| (*word, untouched(left));
        // 1.45-1 in line 1, column 2 of DATA; subentry 1 has the passage, subentry 2 none with a blank pointer
        let [judged, value, heading, unit, passage] = asked(DATA, 1, 2, b"REACTION  ");
        assert_eq!(judged, (0, vec![2, 3, 2, 6]));
        assert_eq!(value, (0, vec![1, 0, 145, u64::MAX - 2, 3, 0, 0, 0]));
        assert_eq!(heading, (0, vec![19 * 81 + 11, 10, u64::from(b'1')]));
        assert_eq!(unit, (0, vec![20 * 81 + 11, 10, u64::from(b'1')]));
        assert_eq!(number(&passage), (36, true));
        assert_eq!(ask(sample, 1, DATA, 1, 2, b"TITLE     ")[4], (0, vec![3 * 81, 81, u64::from(b' ')]));
        // a blank stores eight zeros, no count among them
        assert_eq!(asked(DATA, 1, 3, b"")[1], (0, vec![0; 8]));
        assert_eq!(
            asked(DATA, 3, 1, b"").map(|answer| number(&answer))[1..],
            [(34, true), (0, false), (0, false), (36, true)]
        );
        assert_eq!(
            asked(DATA, 1, 4, b"").map(|answer| number(&answer))[1..],
            [(35, true), (35, true), (35, true), (36, true)]
        );
        assert_eq!(asked(7, 1, 1, b"").map(|answer| number(&answer))[1..4], [(33, true); 3]);
        assert_eq!(ask(sample, 3, DATA, 1, 1, b"").map(|answer| number(&answer))[1..], [(32, true); 4]);
        // twenty records: they end before ENDENTRY
        let cut = ask(&sample[..20 * RECORD], 2, DATA, 1, 1, b"REACTION  ");
        let beside = (16 << 8) + (21 << 24);
        assert_eq!(cut.each_ref().map(number), [16, 31, 31, 31, 31].map(|number| (number + beside, true)));
    }

    /// Judging and copying a transmission, and its entries' lengths: what is refused leaves array and buffer as they
    /// were.
    #[test]
    fn refused_files_store_nothing() {
        let sample = include_bytes!("../data/sample.x4");
        let line = |text: &str| format!("{text:80}\n").into_bytes();
        let (trans, end) = (line("TRANS             X001   20240105"), line("ENDTRANS             2"));
        let file = [&trans[..], sample, sample, &end].concat();
        let ask = |file: &[u8], room: usize| {
            let (mut totals, mut out) = ([BEFORE; 4], vec![b'#'; room]);
            let (bytes, length) = (file.as_ptr(), file.len());
            // SAFETY: pointers and lengths are those of slices; the array and the buffer are this function's own.
            let words = unsafe {
                [x4_judge_file(bytes, length, &mut totals), x4_copy_file(bytes, length, out.as_mut_ptr(), room)]
            };
            (words, totals, out.iter().all(|&byte| byte == b'#'))
        };
        assert_eq!(ask(&file, file.len()), ([0, 0], [4, 6, 4, 12], false));
        assert_eq!(ask(&file, file.len() - 1), ([0, 37], [4, 6, 4, 12], true));
        // column 26 of the second ENTRY is filled: 7 on record 28, column 23, in entry 2
        let mut refused = file.clone();
        refused[27 * RECORD + 25] = b'X';
        let beside = (7 << 8) + (23 << 16) + (28 << 24) + (2 << 48);
        assert_eq!(ask(&refused, file.len()), ([7 + beside, 31 + beside], [BEFORE; 4], true));
        assert_eq!(ask(&[], 0).0, [1 + (1 << 8), 31 + (1 << 8)]);
        let lengths = [0, RECORD, RECORD + 1, 27 * RECORD, 53 * RECORD, file.len(), file.len() + 1, usize::MAX];
        // SAFETY: the pointer and the length are those of one slice, which is only read.
        let lengths = lengths.map(|at| unsafe { x4_entry_length(file.as_ptr(), file.len(), at) });
        assert_eq!(lengths, [0, 26 * 81, 0, 26 * 81, 0, 0, 0, 0]);
    }

    /// The reason is stored always, the totals of what is accepted alone.
    #[test]
    fn reasons_are_stored() {
        let sample = include_bytes!("../data/sample.x4");
        let line = |text: &str| format!("{text:80}\n").into_bytes();
        let (trans, end) = (line("TRANS             X001   20240105"), line("ENDTRANS             1"));
        let asked = |entry: &[u8], file: &[u8]| {
            let ask = |call: Explain, bytes: &[u8]| {
                let (mut totals, mut facts, mut characters) = ([BEFORE; 4], [BEFORE; 3], [b'#'; 8]);
                // SAFETY: the pointer and the length are those of one slice; the arrays are this function's own.
                let word = unsafe { call(bytes.as_ptr(), bytes.len(), &mut totals, &mut facts, &mut characters) };
                (word, totals, facts, characters)
            };
            [ask(x4_explain, entry), ask(x4_explain_file, file)]
        };
        let changed = |record: usize, column: usize, text: &str| {
            let mut entry = sample.to_vec();
            entry[(record - 1) * RECORD + column - 1..][..text.len()].copy_from_slice(text.as_bytes());
            let file = [&trans[..], &entry, &end].concat();
            asked(&entry, &file)
        };
        let beside = |number: u64, record: u64, column: u64, ordinal: u64| {
            number + (number << 8) + (column << 16) + (record << 24) + (ordinal << 48)
        };
        let (totals, blanks) = ([2, 3, 2, 6], *b"        ");
        assert_eq!(changed(1, 80, " "), [(0, totals, [0; 3], blanks); 2]);
        // heading EN in record 20: the COMMON of 001 has it, on record 8 of the entry
        let equal = |record| [4, record, 1];
        assert_eq!(
            changed(20, 1, "EN "),
            [
                (beside(13, 20, 1, 0), [BEFORE; 4], equal(8), blanks),
                (beside(13, 21, 1, 1), [BEFORE; 4], equal(9), blanks)
            ]
        );
        assert_eq!(
            changed(20, 79, "9"),
            [
                (beside(6, 20, 75, 0), [BEFORE; 4], [6, 0, 0], *b"00008   "),
                (beside(6, 21, 75, 1), [BEFORE; 4], [6, 0, 0], *b"00008   ")
            ]
        );
        // 15 has no reason, nor has an empty input
        assert_eq!(changed(22, 12, "X").map(|said| (said.2, said.3)), [([0; 3], blanks); 2]);
        assert_eq!(asked(&[], &[]), [(beside(1, 0, 0, 0), [BEFORE; 4], [0; 3], blanks); 2]);
    }

    /// The index of the sample.
    const INDEX: [u32; 10] = [1, 2, 3, 7, 0, 2, 13, 14, 0, 19];

    /// What stands in a slice of numbers before it is lent.
    const NUMBER: u32 = 0x5a5a_5a5a;

    /// The words of making an index in so many numbers, the rows, and the slice with two numbers on either side.
    fn made(entry: &[u8], numbers: usize) -> (u64, u64, Vec<u32>) {
        let (mut rows, mut slice) = ([BEFORE], vec![NUMBER; numbers + 4]);
        let lent = &mut slice[2..numbers + 2];
        // SAFETY: pointers and lengths are those of slices; the array and the slice are this function's own.
        let word = unsafe { x4_index(entry.as_ptr(), entry.len(), lent.as_mut_ptr(), lent.len(), &mut rows) };
        (word, rows[0], slice)
    }

    /// The rows in the front, every other number as it was; refused, all of them and the array of rows.
    #[test]
    fn an_index_is_stored() {
        let sample = include_bytes!("../data/sample.x4");
        let around = |front: &[u32], numbers: usize| {
            let mut slice = vec![NUMBER; numbers + 4];
            slice[2..2 + front.len()].copy_from_slice(front);
            slice
        };
        for numbers in [10, 11, 15, 4990] {
            assert_eq!(made(sample, numbers), (0, 2, around(&INDEX, numbers)));
        }
        for numbers in 0..10 {
            assert_eq!(made(sample, numbers), (38, BEFORE, around(&[], numbers)));
        }
        // twenty records: they end before ENDENTRY
        for numbers in [0, 9, 10, 4990] {
            let word = 31 + (16 << 8) + (21 << 24);
            assert_eq!(made(&sample[..20 * RECORD], numbers), (word, BEFORE, around(&[], numbers)));
        }
        assert_eq!(made(&[], 3), (31 + (1 << 8), BEFORE, around(&[], 3)));
    }

    /// The words of the questions by an index, and what stands in the arrays behind them: the row, value, heading, unit,
    /// passage.
    fn by_index(entry: &[u8], index: &[u32], place: [u32; 4], keyword: &[u8]) -> [(u64, Vec<u64>); 5] {
        let [n, section, line, column] = place;
        let (bytes, length, row, numbers) = (entry.as_ptr(), entry.len(), index.as_ptr(), index.len());
        let (first, ten) = (keyword.as_ptr(), keyword.len());
        let (mut before, mut value) = ([BEFORE], [BEFORE; 8]);
        let [mut heading, mut unit, mut passage] = [[BEFORE; 3]; 3];
        // SAFETY: pointers and lengths are those of slices, which are only read; the arrays are this function's own.
        let words = unsafe {
            [
                x4_index_row(row, numbers, n, &mut before),
                x4_index_value(bytes, length, row, numbers, n, section, line, column, &mut value),
                x4_index_heading(bytes, length, row, numbers, n, section, column, &mut heading),
                x4_index_unit(bytes, length, row, numbers, n, section, column, &mut unit),
                x4_index_passage(bytes, length, row, numbers, n, first, ten, b' ', &mut passage),
            ]
        };
        let left = [&before[..], &value, &heading, &unit, &passage];
        std::array::from_fn(|call| (words[call], left[call].to_vec()))
    }

    /// The same words and arrays as without an index; zeros beside each number, and nothing stored behind it.
    #[test]
    fn questions_by_an_index_store_as_others_do() {
        let sample = include_bytes!("../data/sample.x4");
        let keyword = b"REACTION  ";
        let numbers = |answers: [(u64, Vec<u64>); 5]| answers.map(|(word, left)| (word, untouched(&left)));
        for (n, section, line, column) in [(2, 2, 1, 2), (2, 2, 1, 3), (2, 2, 3, 1), (2, 2, 1, 4), (1, 1, 1, 1)] {
            let [row, asked @ ..] = by_index(sample, &INDEX, [n, section, line, column], keyword);
            let [_, full @ ..] = ask(sample, n, section, line, column, keyword);
            assert_eq!((row, asked), ((0, vec![u64::from(n) - 1]), full));
            let alone = &INDEX[5 * (n as usize - 1)..][..5];
            let [row, asked @ ..] = by_index(sample, alone, [n, section, line, column], keyword);
            let [_, full @ ..] = ask(sample, n, section, line, column, keyword);
            assert_eq!((row, asked), ((0, vec![0]), full), "by its row alone");
        }
        let place = [2, DATA, 1, 2];
        assert_eq!(numbers(by_index(sample, &INDEX[..9], place, keyword)), [(38, true); 5]);
        assert_eq!(numbers(by_index(sample, &[], place, keyword)), [(32, true); 5]);
        assert_eq!(numbers(by_index(sample, &INDEX, [3, DATA, 1, 2], keyword)), [(32, true); 5]);
        // no entry at all, and one that ends before ENDENTRY: nothing is judged
        assert_eq!(numbers(by_index(&[], &INDEX, place, keyword))[1..], [(39, true); 4]);
        let cut = by_index(&sample[..22 * RECORD], &INDEX, place, keyword);
        assert_eq!(cut.map(|(word, _)| word), [0, 0, 0, 0, 36]);
    }

    /// Five numbers with one on either side that stays, so that a walk is lent from between them.
    struct Fenced([u32; 7]);

    impl Fenced {
        fn of(walk: Walk) -> Fenced {
            let mut numbers = [NUMBER; 7];
            numbers[1..6].copy_from_slice(&walk);
            Fenced(numbers)
        }

        /// The word of beginning a walk, and the five numbers then.
        fn begin(&mut self, entry: &[u8], subentry: u32, section: u32) -> (u64, Walk) {
            let walk = self.0[1..6].as_mut_ptr().cast();
            // SAFETY: the pointer and the length are those of one slice, which is only read; the walk is five numbers.
            let word = unsafe { x4_walk(entry.as_ptr(), entry.len(), subentry, section, walk) };
            (word, self.walk())
        }

        /// The word of going on, the arrays behind it, and the five numbers then.
        fn go_on(&mut self, entry: &[u8]) -> (u64, [u64; 3], [u64; 8], Walk) {
            let (mut place, mut value) = ([BEFORE; 3], [BEFORE; 8]);
            let walk = self.0[1..6].as_mut_ptr().cast();
            // SAFETY: the same; the arrays are this function's own.
            let word = unsafe { x4_walk_next(entry.as_ptr(), entry.len(), walk, &mut place, &mut value) };
            (word, place, value, self.walk())
        }

        fn walk(&self) -> Walk {
            assert_eq!([self.0[0], self.0[6]], [NUMBER; 2], "the numbers beside the walk stay");
            self.0[1..6].try_into().expect("five numbers")
        }
    }

    /// A walk is stored where it is begun, and moves with each value; done, only three zeros are stored.
    #[test]
    fn walks_are_stored() {
        let sample = include_bytes!("../data/sample.x4");
        let mut walk = Fenced::of([NUMBER; 5]);
        for (subentry, section, word) in [(2, 1, 33), (2, 3, 33), (3, 2, 32), (999, 9, 32)] {
            assert_eq!(walk.begin(sample, subentry, section), (word, [NUMBER; 5]));
        }
        // twenty records: they end before ENDENTRY
        let cut = 31 + (16 << 8) + (21 << 24);
        assert_eq!(walk.begin(&sample[..20 * RECORD], 2, DATA), (cut, [NUMBER; 5]));
        assert_eq!(walk.begin(&[], 2, DATA), (31 + (1 << 8), [NUMBER; 5]));
        assert_eq!(walk.begin(sample, 2, DATA), (0, [19, 3, 2, 1, 1]));
        for (line, column, value) in [
            (1, 1, [1, 0, 1, 1, 2, 0, 0, 0]),
            (1, 2, [1, 0, 145, u64::MAX - 2, 3, 0, 0, 0]),
            (1, 3, [0; 8]),
            (2, 1, [1, 0, 2, 1, 2, 0, 0, 0]),
            (2, 2, [1, 0, 14, u64::MAX - 1, 2, 0, 0, 0]),
            (2, 3, [1, 0, 25, 0, 2, 0, 0, 0]),
        ] {
            let next = if column < 3 { [line, column + 1] } else { [line + 1, 1] };
            let place = [1, u64::from(line), u64::from(column)];
            assert_eq!(walk.go_on(sample), (0, place, value, [19, 3, 2, next[0], next[1]]));
        }
        for _ in 0..100 {
            assert_eq!(walk.go_on(sample), (0, [0; 3], [BEFORE; 8], [19, 3, 2, 3, 1]));
        }
        // a walk that was refused has five numbers of the program's own
        for none in [[0; 5], [u32::MAX; 5], [NUMBER; 5]] {
            assert_eq!(Fenced::of(none).go_on(sample), (0, [0; 3], [BEFORE; 8], none));
        }
    }

    /// Over other bytes: a malformed field has its place and no value, and what lies outside is blank.
    #[test]
    fn walks_over_other_bytes_are_stored() {
        let mut entry = include_bytes!("../data/sample.x4").to_vec();
        entry[21 * RECORD + 21] = b'E';
        let mut walk = Fenced::of([19, 3, 2, 1, 2]);
        assert_eq!(walk.go_on(&entry), (15, [1, 1, 2], [BEFORE; 8], [19, 3, 2, 1, 3]));
        assert_eq!(walk.go_on(&entry), (0, [1, 1, 3], [0; 8], [19, 3, 2, 2, 1]));
        assert_eq!(walk.go_on(&[]), (0, [1, 2, 1], [0; 8], [19, 3, 2, 2, 2]));
        assert_eq!(walk.go_on(&entry[..23 * RECORD - 1]), (0, [1, 2, 2], [0; 8], [19, 3, 2, 2, 3]));
        assert_eq!(walk.go_on(&entry).0, 0);
        assert_eq!(walk.go_on(&entry), (0, [0; 3], [BEFORE; 8], [19, 3, 2, 3, 1]));
        let last = Fenced::of([20_000, 18, 20_000, 20_000, 18]).go_on(&entry);
        assert_eq!(last, (0, [1, 20_000, 18], [0; 8], [20_000, 18, 20_000, 20_001, 1]));
    }

    /// A word of the calls for doubles: its number, which of the three it is, and the digits.
    const fn double_told(number: u64, kind: u64, digits: u64) -> u64 {
        number + (kind << 48) + (digits << 56)
    }

    /// What stands in the lent place, by its bits, and the word: in full and by some numbers.
    fn doubles(entry: &[u8], index: &[u32], [n, section, line, column]: [u32; 4]) -> [(u64, u64); 2] {
        let (bytes, length, row, numbers) = (entry.as_ptr(), entry.len(), index.as_ptr(), index.len());
        let [mut full, mut by_index] = [[f64::from_bits(BEFORE)]; 2];
        // SAFETY: pointers and lengths are those of slices, which are only read; the arrays are this function's own.
        let words = unsafe {
            [
                x4_double(bytes, length, n, section, line, column, &mut full),
                x4_index_double(bytes, length, row, numbers, n, section, line, column, &mut by_index),
            ]
        };
        [(full[0].to_bits(), words[0]), (by_index[0].to_bits(), words[1])]
    }

    /// The seven values of the sample, and one of each kind in the place of 1.45-1.
    #[test]
    fn doubles_are_stored() {
        let sample = include_bytes!("../data/sample.x4");
        for (place, text, digits) in [
            ([1, 1, 1, 1], "14", 2),
            ([2, DATA, 1, 1], "10", 2),
            ([2, DATA, 1, 2], "0.145", 3),
            ([2, DATA, 2, 1], "20", 2),
            ([2, DATA, 2, 2], "0.14", 2),
            ([2, DATA, 2, 3], "25", 2),
        ] {
            let due = (text.parse::<f64>().expect("a number").to_bits(), double_told(0, 1, digits));
            assert_eq!(doubles(sample, &INDEX, place), [due; 2], "{place:?}");
            let alone = &INDEX[5 * (place[0] as usize - 1)..][..5];
            assert_eq!(doubles(sample, alone, place)[1], due, "by its row alone");
            // the same through the wrappers
            let [n, section, line, column] = place;
            let (full, word) = double(sample, n, section, line, column);
            assert_eq!((full.to_bits(), word), due);
            let (by_index, word) = index_double(sample, &INDEX, n, section, line, column);
            assert_eq!((by_index.to_bits(), word), due);
        }
        assert_eq!(doubles(sample, &INDEX, [2, DATA, 1, 3]), [(BEFORE, 0); 2], "blank");
        for (field, bits, kind, digits) in [
            ("    1.45-1 ", BEFORE, 0, 0), // malformed: refused by 15, and by an index by 39
            ("       -.00", 0, 1, 0),
            ("  -1.450-01", (-0.145f64).to_bits(), 1, 4),
            ("      1.+22", 1e22f64.to_bits(), 1, 1),
            ("     10.+22", BEFORE, 2, 2),
            ("     -1.-22", (-1e-22f64).to_bits(), 1, 1),
            ("     -.1-22", BEFORE, 2, 1),
            ("1.+99999999", BEFORE, 2, 1),
            ("0.+99999999", 0, 1, 0),
            ("9999999999.", 9_999_999_999f64.to_bits(), 1, 10),
        ] {
            let mut entry = sample.to_vec();
            entry[21 * RECORD + 11..][..11].copy_from_slice(field.as_bytes());
            let [full, by_index] = match field {
                "    1.45-1 " => [(BEFORE, 31 + (15 << 8) + (12 << 16) + (22 << 24)), (BEFORE, 39)],
                _ => [(bits, double_told(0, kind, digits)); 2],
            };
            assert_eq!(doubles(&entry, &INDEX, [2, DATA, 1, 2]), [full, by_index], "{field:?}");
        }
    }

    /// Refused, nothing is stored, and neither a kind nor digits stand beside the number.
    #[test]
    fn refused_doubles_store_nothing() {
        let sample = include_bytes!("../data/sample.x4");
        for (place, number) in [
            ([3, DATA, 1, 1], 32),
            ([2, 1, 1, 1], 33),
            ([2, 3, 1, 1], 33),
            ([2, DATA, 3, 1], 34),
            ([2, DATA, 0, 1], 34),
            ([1, 1, 2, 1], 34),
            ([2, DATA, 1, 4], 35),
            ([2, DATA, 1, 0], 35),
            ([u32::MAX; 4], 32),
        ] {
            assert_eq!(doubles(sample, &INDEX, place), [(BEFORE, number); 2], "{place:?}");
        }
        let place = [2, DATA, 1, 2];
        let due = (0.145f64.to_bits(), double_told(0, 1, 3));
        assert_eq!(doubles(sample, &INDEX[..9], place), [due, (BEFORE, 38)]);
        assert_eq!(doubles(sample, &[], place), [due, (BEFORE, 32)]);
        assert_eq!(doubles(sample, &[2, 14, 14, 0, 19], place), [due, (BEFORE, 39)]);
        // twenty records end before ENDENTRY; by the index the field's record lies outside
        assert_eq!(
            doubles(&sample[..20 * RECORD], &INDEX, place),
            [(BEFORE, 31 + (16 << 8) + (21 << 24)), (BEFORE, 39)]
        );
        assert_eq!(doubles(&sample[..22 * RECORD], &INDEX, place)[1], due, "nothing is judged");
        assert_eq!(doubles(&[], &INDEX, place), [(BEFORE, 31 + (1 << 8)), (BEFORE, 39)]);
    }

    /// Fields, of which M-107's page has the bits of most.
    #[test]
    fn fields_are_doubles() {
        for (field, bits, word) in [
            ("     1.45-1", 0x3fc2_8f5c_28f5_c28f, double_told(0, 1, 3)),
            ("        0.1", 0x3fb9_9999_9999_999a, double_told(0, 1, 1)),
            ("      1.+22", 0x4480_f0cf_064d_d592, double_told(0, 1, 1)),
            ("     .1+23 ", BEFORE, 15),
            ("      .1+23", 0x4480_f0cf_064d_d592, double_told(0, 1, 1)),
            ("      1.+23", BEFORE, double_told(0, 2, 1)),
            ("     10.+22", BEFORE, double_told(0, 2, 2)),
            ("      1.-22", 0x3b5e_3920_1017_5ee6, double_told(0, 1, 1)),
            ("      .1-22", BEFORE, double_told(0, 2, 1)),
            ("9999999999.", 0x4202_a05f_1ff8_0000, double_told(0, 1, 10)),
            (".1234567890", 0.123_456_789f64.to_bits(), double_told(0, 1, 10)),
            ("-999999999.", (-999_999_999f64).to_bits(), double_told(0, 1, 9)),
            ("        -.0", 0, double_told(0, 1, 0)),
            ("0.-99999999", 0, double_told(0, 1, 0)),
            ("           ", BEFORE, 0),
            ("     1.45-X", BEFORE, 15),
            ("1.", BEFORE, 40),
            ("", BEFORE, 40),
            ("     1.45-1 ", BEFORE, 40),
        ] {
            let mut value = [f64::from_bits(BEFORE)];
            // SAFETY: the pointer and the length are those of one slice, which is only read; the array is this test's own.
            let told = unsafe { x4_read_double(field.as_ptr(), field.len(), &mut value) };
            assert_eq!((value[0].to_bits(), told), (bits, word), "{field:?}");
            let due = if bits == BEFORE { 0 } else { bits };
            let (double, word) = read_double(field.as_bytes());
            let wrapped = (double.to_bits(), word);
            assert_eq!(wrapped, (due, word), "{field:?}");
        }
    }

    /// Decimals in hand on both sides of each limit: any number but 0 makes it negative, and zero keeps that sign.
    #[test]
    fn decimals_in_hand_are_doubles() {
        const MOST: u64 = 9_999_999_999;
        for (coefficient, power) in [
            (145, -3),
            (1, 22),
            (1, 23),
            (1, -22),
            (1, -23),
            (MOST, 22),
            (MOST, -22),
            (MOST, 0),
            (MOST + 1, 0),
            (MOST + 1, 22),
            (MOST, 23),
            (10, 22),
            (100, -22),
            (0, 0),
            (0, 22),
            (0, -23),
            (1, i32::MAX),
            (1, i32::MIN),
            (u64::MAX, 0),
            (1 << 53, 0),
        ] {
            let simple = coefficient <= MOST && (-22..=22).contains(&power);
            for negative in [0, 1, 2, 0x100, 0x8000_0000, u32::MAX] {
                let sign = if negative == 0 || coefficient == 0 { "" } else { "-" };
                let due: f64 = format!("{sign}{coefficient}e{power}").parse().expect("a number");
                let due = if simple { (due.to_bits(), 1) } else { (0, 2) };
                // SAFETY: they take numbers alone.
                let (double, kind) = unsafe {
                    (x4_as_double(negative, coefficient, power), x4_as_double_kind(negative, coefficient, power))
                };
                assert_eq!((double.to_bits(), kind), due, "{negative} {coefficient} {power}");
                let double = as_double(negative, coefficient, power);
                assert_eq!((double.to_bits(), as_double_kind(negative, coefficient, power)), due);
            }
        }
    }

    /// The array behind a reading that is answered.
    #[test]
    fn the_count_is_stored() {
        for (field, stored) in [
            ("      0.140", [1, 0, 14, u64::MAX - 1, 3, 0, 0, 0]),
            ("       -.0 ", [1, 0, 0, 0, 0, 0, 0, 0]),
            ("-123456789.", [1, 1, 123_456_789, 0, 9, 0, 0, 0]),
            (".1234567890", [1, 0, 123_456_789, u64::MAX - 8, 10, 0, 0, 0]),
            ("           ", [0; 8]),
        ] {
            let mut value = [BEFORE; 8];
            // SAFETY: the pointer and the length are those of one slice, which is only read.
            let word = unsafe { x4_read_number(field.as_ptr(), field.len(), &mut value) };
            assert_eq!((word, value), (0, stored), "{field:?}");
        }
    }

    #[test]
    fn refused_fields_store_nothing() {
        for (field, number) in [("     1.45-X", 15), ("1.", 40), ("", 40)] {
            let mut value = [BEFORE; 8];
            // SAFETY: the pointer and the length are those of one slice, which is only read.
            let word = unsafe { x4_read_number(field.as_ptr(), field.len(), &mut value) };
            assert!(word == number && untouched(&value), "{field:?}");
        }
    }

    /// The words of the four calls about lines, and what stands in their arrays, between numbers that are to stay, and in a buffer
    /// of so many bytes, between bytes that are to stay.
    fn lines_asked(lines: &[u8], line: u32, room: usize) -> ([u64; 4], [Vec<u64>; 4], Vec<u8>) {
        let (first, length) = (lines.as_ptr(), lines.len());
        let (mut numbers, mut least, mut greatest, mut places) =
            ([BEFORE; 16], [BEFORE; 10], [BEFORE; 10], [BEFORE; 14]);
        let mut out = vec![b'#'; room + 16];
        // SAFETY: pointers and lengths are those of slices, the lines are only read; the arrays are this function's own, and
        // each has one number more on either side.
        let words = unsafe {
            let [numbers, least, greatest, places] =
                [&mut numbers[1..], &mut least[1..], &mut greatest[1..], &mut places[1..]].map(<[u64]>::as_mut_ptr);
            [
                x4_cinda_check(first, length),
                x4_cinda_line(first, length, line, numbers.cast(), least.cast(), greatest.cast()),
                x4_cinda_pieces(first, length, line, places.cast()),
                x4_cinda_back(first, length, out[8..].as_mut_ptr(), room),
            ]
        };
        let left = [&numbers[..], &least, &greatest, &places];
        assert!(left.iter().all(|left| left[0] == BEFORE && left[left.len() - 1] == BEFORE), "beside an array");
        assert!(out[..8].iter().chain(&out[8 + room..]).all(|&byte| byte == b'#'), "beside the buffer");
        (words, left.map(|left| left[1..left.len() - 1].to_vec()), out[8..8 + room].to_vec())
    }

    /// What the four calls store of the sample, and how the wrappers take it apart.
    #[test]
    fn lines_are_stored() {
        let sample = include_bytes!("../data/sample.cinda");
        let (words, [numbers, least, greatest, places], out) = lines_asked(sample, 1, sample.len() + 5);
        assert_eq!(words, [0; 4]);
        assert_eq!(numbers, [65, 92, 235, 0, 32, 76, 198, 1, 69, 32, 50, 74, 1994, 5]);
        assert_eq!(least, [1, 0, 1, 6, 2, 0, 0, 0]);
        assert_eq!(greatest, [1, 0, 14, 0, 2, 0, 0, 0]);
        assert_eq!(places, [0, 126, 8, 15, 23, 4, 27, 6, 57, 22, 85, 40]);
        assert!(out[..48].ends_with(b"   1.+6") && out.ends_with(b"#####"), "the buffer");
        let (_, [numbers, least, greatest, places], _) = lines_asked(sample, 4, 0);
        assert_eq!(numbers, [68, 999, 0, 1, 32, 86, 123, 99, 82, 65, 53, 67, 1970, 6], "many nuclei");
        assert_eq!((least, greatest), (vec![1, 0, 1, 3, 4, 0, 0, 0], vec![1, 0, 1, 100, 1, 0, 0, 0]));
        assert_eq!(places, [378, 126, 386, 15, 401, 4, 405, 6, 435, 22, 463, 40]);
        let (_, [_, least, greatest, _], _) = lines_asked(sample, 2, 0);
        assert_eq!(
            (least[..5].to_vec(), greatest[..5].to_vec()),
            (vec![1, 0, 25, u64::MAX - 2, 2], vec![1, 0, 14, 6, 3])
        );
        assert_eq!(lines_asked(sample, 3, 0).1[1], [0; 8], "a blank energy");
        for line in 1..=5 {
            let (_, [numbers, least, greatest, places], _) = lines_asked(sample, line, 0);
            let taken = cinda_line(sample, line).expect("a good line");
            let stored = words::line_stored(&taken);
            assert_eq!((&stored.0[..], &stored.1[..], &stored.2[..]), (&numbers[..], &least[..], &greatest[..]));
            assert_eq!(words::pieces_stored(&cinda_pieces(sample, line).expect("a good line"))[..], places[..]);
        }
        assert_eq!(cinda_check(sample), Ok(()));
    }

    /// Refused, nothing is stored: 70 to 77 by all four, then 34 by two and 37 by one.
    #[test]
    fn refused_lines_store_nothing() {
        let sample = include_bytes!("../data/sample.cinda");
        let with = |line: usize, column: usize, text: &str| {
            let mut lines = sample.to_vec();
            let first = 126 * (line - 1) + column - 1;
            lines[first..first + text.len()].copy_from_slice(text.as_bytes());
            lines
        };
        let word = |number: u64, line: u64, column: u64| number + (column << 16) + (line << 24);
        for (lines, refused) in [
            (Vec::new(), 70),
            (sample[..125].to_vec(), 70),
            (sample[1..].to_vec(), 70),
            (with(5, 126, "\r"), word(71, 5, 126)),
            (with(2, 125, "#"), word(72, 2, 125)),
            (with(3, 1, "B"), word(73, 3, 1)),
            (with(1, 2, "92 "), word(74, 1, 2)),
            (with(1, 5, "CMP"), word(74, 1, 5)),
            (with(1, 8, "M"), word(74, 1, 8)),
            (with(4, 34, "    "), word(75, 4, 34)),
            (with(4, 38, "1 "), word(75, 4, 38)),
            (with(2, 42, "    NDG"), word(76, 2, 42)),
            (with(2, 49, "    NDG"), word(76, 2, 49)),
            (with(5, 80, "198113"), word(77, 5, 80)),
        ] {
            for (line, room) in [(1, 0), (0, lines.len()), (9, lines.len() + 7)] {
                let (words, left, out) = lines_asked(&lines, line, room);
                assert_eq!(words, [refused; 4], "line {line}, {room} bytes");
                assert!(left.iter().all(|left| untouched(left)) && out.iter().all(|&byte| byte == b'#'));
            }
        }
        for line in [0, 6, 1 << 24, u32::MAX] {
            let (words, left, out) = lines_asked(sample, line, sample.len() - 1);
            assert_eq!(words, [0, 34, 34, 37], "line {line}");
            assert!(left.iter().all(|left| untouched(left)) && out.iter().all(|&byte| byte == b'#'));
        }
    }

    /// The word of each of the calls about a text, and what stands in their arrays, between numbers that are to stay.
    fn apart_asked(run: &[u8], group: u32, at: u32) -> ([u64; 4], [Vec<u64>; 7]) {
        let (first, length) = (run.as_ptr(), run.len());
        let mut lent = [17, 10, 6, 10, 4, 4, 10].map(|room: usize| vec![BEFORE; room]);
        // SAFETY: the pointer and the length are those of one slice, which is only read; the arrays are this function's own, and each
        // has one number more on either side.
        let words = unsafe {
            let [places, half, numbers, abundance, kind, place, value] =
                lent.each_mut().map(|lent| lent[1..].as_mut_ptr());
            [
                x4_decay_head(first, length, places.cast(), half.cast()),
                x4_decay_group(first, length, group, numbers.cast(), abundance.cast()),
                x4_decay_type(first, length, group, at, kind.cast()),
                x4_decay_energy(first, length, group, at, place.cast(), value.cast()),
            ]
        };
        assert!(lent.iter().all(|left| left[0] == BEFORE && left[left.len() - 1] == BEFORE), "beside an array");
        (words, lent.map(|left| left[1..left.len() - 1].to_vec()))
    }

    /// What the calls about a run store, whatever they answer, and how the wrappers take it apart.
    #[test]
    fn codes_are_stored() {
        let run = b"((12.)60-ND-138-M1, 5.04HR,DG/B+,328./-1.E5, .065,X)";
        let (words, [places, half, numbers, abundance, kind, place, value]) = apart_asked(run, 1, 2);
        assert_eq!(words, [0, 1, 1, 1]);
        assert_eq!(places, [2, 3, 6, 2, 9, 2, 12, 3, 16, 2, 20, 4, 24, 2, 2]);
        assert_eq!(half, [1, 0, 504, u64::MAX - 1, 0, 0, 0, 0]);
        assert_eq!((numbers, abundance), (vec![2, 2, 45, 4], vec![1, 0, 65, u64::MAX - 2, 0, 0, 0, 0]));
        assert_eq!((kind, place, value), (vec![30, 2], vec![38, 5], vec![1, 1, 1, 5, 0, 0, 0, 0]));
        let (words, [_, _, numbers, abundance, kind, place, value]) = apart_asked(run, 2, 1);
        assert_eq!(words, [0, 1, 1, 0]);
        assert_eq!((numbers, abundance, kind), (vec![1, 0, 0, 0], vec![0; 8], vec![50, 1]));
        assert_eq!((place, value), (vec![0; 2], vec![0; 8]));
        for (group, at) in [(0, 1), (3, 1), (u32::MAX, 1), (1, 0), (1, 3), (1, u32::MAX)] {
            let (words, [places, _, numbers, abundance, kind, place, value]) = apart_asked(run, group, at);
            assert_eq!(words, [0, u64::from(group == 1), 0, 0], "{group} {at}");
            assert_eq!((places[14], [kind, place].concat(), value), (2, vec![0; 4], vec![0; 8]));
            assert!(group == 1 || [numbers, abundance].concat() == [0; 12], "a group that is not there is zeros");
        }
        let (_, [places, half, ..]) = apart_asked(b"(1-H-3)", 1, 1);
        assert_eq!((places, half), (vec![0, 0, 1, 1, 3, 1, 5, 1, 0, 0, 0, 0, 0, 0, 0], vec![0; 8]));
        for (text, at) in [("", 0), ("(1-H-3", 6), ("(1-H-3))", 7), ("(1-H-3-T)", 7)] {
            let (words, [places, half, rest @ ..]) = apart_asked(text.as_bytes(), 1, 1);
            assert_eq!(words, [50 + (at << 24), 0, 0, 0], "{text}");
            assert!(untouched(&places) && untouched(&half) && rest.concat() == [0; 24], "{text}");
            assert_eq!(decay_head(text.as_bytes()), Err(NoCode { at: at as usize }));
        }
        let head = decay_head(run).expect("a code");
        let (stored, value) = words::head_stored(&head);
        assert_eq!((&stored[..], &value[..]), (&apart_asked(run, 1, 1).1[0][..], &half_of(run)[..]));
        assert_eq!((decay_group(run, 3), decay_type(run, 1, 3), decay_energy(run, 2, 1)), (None, None, None));
        let energy = decay_energy(run, 1, 2).expect("it is there");
        assert_eq!(energy.value, Decimal { negative: true, coefficient: 1, power: 5 });
        assert_eq!(decay_type(run, 1, 1).map(|place| place.of(run).to_vec()), Some(b"DG".to_vec()));
        assert_eq!(decay_group(run, 1).map(|group| (group.types, group.energies)), Some((2, 2)));
    }

    fn half_of(run: &[u8]) -> Vec<u64> {
        apart_asked(run, 1, 1).1[1].clone()
    }

    /// The word of a code, the length that is stored, and a slice of so many bytes, between bytes that are to stay.
    fn code_asked(entry: &[u8], asked: Option<(u32, u8)>, code: u32, room: usize) -> (u64, u64, Vec<u8>) {
        let (first, length) = (entry.as_ptr(), entry.len());
        let (mut run, mut out) = ([BEFORE; 3], vec![b'#'; room + 16]);
        // SAFETY: pointers and lengths are those of slices, of which the entry is only read; the array is this function's own, and
        // has one number more on either side.
        let word = unsafe {
            let (long, slice) = (run[1..].as_mut_ptr(), out[8..].as_mut_ptr());
            match asked {
                Some((n, pointer)) => x4_decay(first, length, n, pointer, code, slice, room, long.cast()),
                None => x4_decay_in(first, length, code, slice, room, long.cast()),
            }
        };
        assert!(run[0] == BEFORE && run[2] == BEFORE, "beside the array");
        assert!(out[..8].iter().chain(&out[8 + room..]).all(|&byte| byte == b'#'), "beside the slice");
        (word, run[1], out[8..8 + room].to_vec())
    }

    /// A run in the front of a slice, and bytes behind it that stay; of the entry and of its passage.
    #[test]
    fn runs_are_stored() {
        let entry = include_bytes!("../data/decay.x4");
        let passage = passage(entry, 2, b"DECAY-DATA", b' ').expect("it is there").of(entry);
        let run = "(60-ND-139-G,30.MIN,B+,,.257,DG,405.,.055)";
        for (bytes, asked) in [(&entry[..], Some((2, b' '))), (passage, None)] {
            for room in [run.len(), run.len() + 1, 300] {
                let due = format!("{run:#<room$}").into_bytes();
                assert_eq!(code_asked(bytes, asked, 2, room), (0, run.len() as u64, due));
            }
            for room in 0..run.len() {
                assert_eq!(code_asked(bytes, asked, 2, room), (52, BEFORE, vec![b'#'; room]), "52");
            }
        }
        let mut out = [0; 300];
        assert_eq!(decay(entry, 2, b' ', 2, &mut out), Ok(run.len()));
        assert_eq!((decay_in(passage, 2, &mut out), &out[..run.len()]), (Ok(run.len()), run.as_bytes()));
    }

    /// Refused, nothing is stored; 50 and 51 have record and column, and 31 what the entry is refused for.
    #[test]
    fn refused_codes_store_nothing() {
        let entry = include_bytes!("../data/decay.x4");
        let at = |number: u64, record: u64, column: u64| number + (column << 16) + (record << 24);
        for (n, pointer, code, word) in [
            (2, b' ', 7, at(50, 24, 13)),
            (2, b' ', 8, 36),
            (2, b' ', 0, 36),
            (2, b'2', 1, 36),
            (1, b' ', 1, 36),
            (3, b' ', 1, 32),
            (u32::MAX, 255, u32::MAX, 32),
        ] {
            for room in [0, 1, 300] {
                let asked = code_asked(entry, Some((n, pointer)), code, room);
                assert_eq!(asked, (word, BEFORE, vec![b'#'; room]), "{n} {pointer} {code}");
            }
        }
        let refused = 31 + (4 << 8) + (1 << 16) + (1 << 24);
        assert_eq!(code_asked(&entry[RECORD..], Some((2, b' ')), 1, 9), (refused, BEFORE, vec![b'#'; 9]));
        let passage = |texts: &[&str]| -> Vec<u8> {
            texts.iter().flat_map(|text| format!("{:11}{text:69}\n", "").into_bytes()).collect()
        };
        for (texts, word) in [
            (&["(1-H-3"][..], at(51, 1, 17)),
            (&["(1-H-3,"], at(50, 2, 0)),
            (&["(1-H-3,", ""], at(50, 2, 12)),
            (&["TEXT", "(1-H-3,", "1.)"], at(50, 3, 14)),
            (&["TEXT"], 36),
            (&[], 36),
        ] {
            assert_eq!(code_asked(&passage(texts), None, 1, 99), (word, BEFORE, vec![b'#'; 99]), "{texts:?}");
        }
        // Only whole records count.
        let whole = passage(&["(1-H-3,", "1.D)"]);
        assert_eq!(code_asked(&whole[..161], None, 1, 20), (at(50, 2, 0), BEFORE, vec![b'#'; 20]));
    }

    /// The words of both calls about two entries, and what stands in their arrays, between numbers that are to stay, and in a buffer
    /// of so many bytes, between bytes that are to stay.
    fn pair_asked(held: &[u8], revision: &[u8], n: u32, room: usize) -> ([u64; 2], [u64; 3], u64, Vec<u8>) {
        let (mut part, mut merged, mut out) = ([BEFORE; 5], [BEFORE; 3], vec![b'#'; room + 16]);
        let (one, first, two, second) = (held.as_ptr(), held.len(), revision.as_ptr(), revision.len());
        // SAFETY: pointers and lengths are those of slices, the entries are only read; the arrays are this function's own, and
        // each has one number more on either side.
        let words = unsafe {
            [
                x4_subentry(one, first, two, second, n, part[1..].as_mut_ptr().cast()),
                x4_merge(one, first, two, second, out[8..].as_mut_ptr(), room, merged[1..].as_mut_ptr().cast()),
            ]
        };
        assert!([part[0], part[4], merged[0], merged[2]].iter().all(|&number| number == BEFORE), "beside an array");
        assert!(out[..8].iter().chain(&out[8 + room..]).all(|&byte| byte == b'#'), "beside the buffer");
        (words, [part[1], part[2], part[3]], merged[1], out[8..8 + room].to_vec())
    }

    /// The sample, and the same with 002 dated a day later.
    fn two_samples() -> (Vec<u8>, Vec<u8>) {
        let sample = include_bytes!("../data/sample.x4").to_vec();
        let mut later = sample.clone();
        later[12 * RECORD + 32] = b'6';
        (sample, later)
    }

    /// What both calls store, and how the wrappers take it apart.
    #[test]
    fn parts_and_merges_are_stored() {
        use crate::revisions::Which;
        let (sample, later) = two_samples();
        let limit = 2 * sample.len();
        let (words, part, length, out) = pair_asked(&sample, &later, 2, limit + 9);
        assert_eq!((words, part, length), ([0; 2], [2, 972, 1053], 2106));
        assert!(out[..2106] == later && out[2106..].iter().all(|&byte| byte == b'#'));
        let (words, part, length, out) = pair_asked(&later, &sample, 2, limit);
        assert_eq!((words, part, length), ([0; 2], [1, 972, 1053], 2106));
        assert!(out[..2106] == later);
        let chosen = Chosen { which: Which::Held, first: 972, length: 1053 };
        assert_eq!(subentry(&later, &sample, 2), Ok(chosen));
        let mut buffer = vec![b'#'; limit];
        assert_eq!(merge(&later, &sample, &mut buffer), Ok(2106));
        assert!(buffer[..2106] == later);
    }

    /// Refused, nothing is stored; with 63 alone the length of the merge, and so many blanks.
    #[test]
    fn refused_pairs_store_nothing_but_blanks() {
        let (sample, later) = two_samples();
        let mut damaged = sample.clone();
        damaged[RECORD] = b'X';
        let other = String::from_utf8(sample.clone()).unwrap().replace("90001", "90002").into_bytes();
        let beside = |which: u64| 60 + (4 << 8) + (1 << 16) + (2 << 24) + (which << 48);
        for (held, revision, word) in [
            (&damaged, &other, beside(1)),
            (&damaged, &damaged, beside(1)),
            (&sample, &damaged, beside(2)),
            (&Vec::new(), &sample, 60 + (1 << 8) + (1 << 48)),
            (&sample, &Vec::new(), 60 + (1 << 8) + (2 << 48)),
            (&sample, &other, 61),
        ] {
            for (n, room) in [(2, 0), (0, held.len() + revision.len()), (u32::MAX, 9_000)] {
                let (words, part, length, out) = pair_asked(held, revision, n, room);
                assert_eq!((words, part, length), ([word; 2], [BEFORE; 3], BEFORE));
                assert!(out.iter().all(|&byte| byte == b'#'));
            }
        }
        for n in [0, 3, 998, 999, 1_002, u32::MAX] {
            let (words, part, length, out) = pair_asked(&sample, &later, n, 2 * sample.len() - 1);
            assert_eq!((words, part, length), ([32, 37], [BEFORE; 3], BEFORE));
            assert!(out.iter().all(|&byte| byte == b'#'));
        }
        // NOSUBENT 002, a day later; and 001 alone with a COMMON that the held 002 has a heading of
        let mut absent = [&later[..13 * RECORD], &later[25 * RECORD..]].concat();
        absent[12 * RECORD..][..11].copy_from_slice(b"NOSUBENT   ");
        let (words, part, length, out) = pair_asked(&sample, &absent, 2, 2 * sample.len());
        assert_eq!((words, part, length), ([62, 0], [BEFORE; 3], absent.len() as u64));
        assert!(out[..absent.len()] == absent);
        let (mut held, mut first) = (sample.clone(), [&sample[..12 * RECORD], &sample[25 * RECORD..]].concat());
        held[19 * RECORD..][..11].copy_from_slice(b"EN-ABC     ");
        first[7 * RECORD..][..11].copy_from_slice(b"EN-ABC     ");
        first[12 * RECORD + 21] = b'1';
        first[RECORD + 32] = b'6';
        let limit = held.len() + first.len();
        let (words, _, length, out) = pair_asked(&held, &first, 2, limit + 3);
        assert_eq!((words, length), ([0, 63 + (13 << 8) + (1 << 16) + (20 << 24)], 2106));
        assert!(out[..2106].iter().all(|&byte| byte == b' ') && out[2106..].iter().all(|&byte| byte == b'#'));
        let due = RevisionRefusal::of_merge(crate::Refusal::new(13, 20, 1), 2106);
        assert_eq!(merge(&held, &first, &mut vec![b'#'; limit]), Err(due));
    }
}

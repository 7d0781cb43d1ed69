//! Holds two implementations of the paper against each other on generated inputs.
//!
//! Each case has a seed of its own, which a difference names, so that the case can be made again.

use crate::cinda::{Line, LinesRefusal, Pieces, LINE};
use crate::decay::{CodeRefusal, GroupRead, HeadRead, NoCode, NumberRead, Place};
use crate::generate::{self, Kind, Random, Revised, Sheet, BELOW, CAUSES};
use crate::library::DoubleCalls;
use crate::reference::record::permitted;
use crate::revisions::{Chosen, RevisionRefusal};
use crate::walk::{Given, Walk};
use crate::{library, reference, words, Decimal, DoubleRead, Explained, FieldRead, NoAnswer, Part, Reason, Refusal};
use crate::{Simple, Value, Verdict, RECORD};
use std::collections::BTreeMap;
use std::fmt;

/// What an implementation of the paper answers. By default the answers are the reference's, and what is explained has
/// the verdict of judging.
pub trait Implementation {
    /// The verdict on an entry.
    fn judge(&self, entry: &[u8]) -> Verdict {
        reference::judge(entry)
    }
    /// The value in a place, and its count of digits.
    fn value(&self, entry: &[u8], place: [u32; 4]) -> Result<FieldRead, NoAnswer> {
        let [subentry, section, line, column] = place;
        reference::value(entry, subentry, section, line, column)
    }
    /// The heading of a column.
    fn heading(&self, entry: &[u8], place: [u32; 3]) -> Result<Part, NoAnswer> {
        let [subentry, section, column] = place;
        reference::heading(entry, subentry, section, column)
    }
    /// The unit of a column.
    fn unit(&self, entry: &[u8], place: [u32; 3]) -> Result<Part, NoAnswer> {
        let [subentry, section, column] = place;
        reference::unit(entry, subentry, section, column)
    }
    /// The passage under a keyword and pointer.
    fn passage(&self, entry: &[u8], subentry: u32, keyword: &[u8], pointer: u8) -> Result<Part, NoAnswer> {
        reference::passage(entry, subentry, keyword, pointer)
    }
    /// The canonical copy.
    fn canonical_copy(&self, entry: &[u8], buffer: &mut [u8]) -> Result<(), NoAnswer> {
        reference::canonical_copy(entry, buffer)
    }
    /// The verdict on a transmission.
    fn judge_file(&self, file: &[u8]) -> Verdict {
        reference::judge_file(file)
    }
    /// The bytes of the entry that begins with a byte of a transmission.
    fn entry_length(&self, file: &[u8], at: usize) -> usize {
        reference::entry_length(file, at)
    }
    /// The canonical copy of a transmission.
    fn copy_file(&self, file: &[u8], buffer: &mut [u8]) -> Result<(), NoAnswer> {
        reference::copy_file(file, buffer)
    }
    /// The verdict on an entry, and why.
    fn explain(&self, entry: &[u8]) -> Explained {
        Explained { verdict: self.judge(entry), ..reference::explain(entry) }
    }
    /// The verdict on a transmission, and why.
    fn explain_file(&self, file: &[u8]) -> Explained {
        Explained { verdict: self.judge_file(file), ..reference::explain_file(file) }
    }
    /// Makes the index of an entry, and says how many rows it has.
    fn make_index(&self, entry: &[u8], index: &mut [u32]) -> Result<usize, NoAnswer> {
        reference::make_index(entry, index)
    }
    /// The rows before the first of a subentry.
    fn index_row(&self, index: &[u32], subentry: u32) -> Result<usize, NoAnswer> {
        reference::index_row(index, subentry)
    }
    /// The value in a place, by an index.
    fn index_value(&self, entry: &[u8], index: &[u32], place: [u32; 4]) -> Result<FieldRead, NoAnswer> {
        let [subentry, section, line, column] = place;
        reference::index_value(entry, index, subentry, section, line, column)
    }
    /// The heading of a column, by an index.
    fn index_heading(&self, entry: &[u8], index: &[u32], place: [u32; 3]) -> Result<Part, NoAnswer> {
        let [subentry, section, column] = place;
        reference::index_heading(entry, index, subentry, section, column)
    }
    /// The unit of a column, by an index.
    fn index_unit(&self, entry: &[u8], index: &[u32], place: [u32; 3]) -> Result<Part, NoAnswer> {
        let [subentry, section, column] = place;
        reference::index_unit(entry, index, subentry, section, column)
    }
    /// The passage under a keyword and pointer, by an index.
    fn index_passage(
        &self,
        entry: &[u8],
        index: &[u32],
        subentry: u32,
        keyword: &[u8],
        pointer: u8,
    ) -> Result<Part, NoAnswer> {
        reference::index_passage(entry, index, subentry, keyword, pointer)
    }
    /// Begins a walk over a section.
    fn walk(&self, entry: &[u8], subentry: u32, section: u32) -> Result<Walk, NoAnswer> {
        reference::walk(entry, subentry, section)
    }
    /// The next value of a walk.
    fn walk_next(&self, entry: &[u8], walk: &mut Walk) -> Option<Given> {
        reference::walk_next(entry, walk)
    }
    /// The reading of a field, and its count of digits.
    fn read_number(&self, field: &[u8]) -> Result<FieldRead, NoAnswer> {
        reference::read_number(field)
    }
    /// The writing of a field.
    fn write_number(&self, decimal: Decimal, buffer: &mut [u8]) -> Result<(), NoAnswer> {
        reference::write_number(decimal, buffer)
    }
    /// The value in a place as a double, and its count of digits.
    fn double(&self, entry: &[u8], place: [u32; 4]) -> Result<DoubleRead, NoAnswer> {
        let [subentry, section, line, column] = place;
        reference::double(entry, subentry, section, line, column)
    }
    /// The same by an index.
    fn index_double(&self, entry: &[u8], index: &[u32], place: [u32; 4]) -> Result<DoubleRead, NoAnswer> {
        let [subentry, section, line, column] = place;
        reference::index_double(entry, index, subentry, section, line, column)
    }
    /// The reading of a field as a double, and its count of digits.
    fn read_double(&self, field: &[u8]) -> Result<DoubleRead, NoAnswer> {
        reference::read_double(field)
    }
    /// A decimal as a double.
    fn as_double(&self, decimal: Decimal) -> Simple {
        reference::as_double(decimal)
    }
    /// The verdict on lines.
    fn cinda_check(&self, lines: &[u8]) -> Result<(), LinesRefusal> {
        reference::cinda_check(lines)
    }
    /// A line taken apart.
    fn cinda_line(&self, lines: &[u8], line: u32) -> Result<Line, LinesRefusal> {
        reference::cinda_line(lines, line)
    }
    /// A line and its texts.
    fn cinda_pieces(&self, lines: &[u8], line: u32) -> Result<Pieces, LinesRefusal> {
        reference::cinda_pieces(lines, line)
    }
    /// Lines written back.
    fn cinda_back(&self, lines: &[u8], buffer: &mut [u8]) -> Result<(), LinesRefusal> {
        reference::cinda_back(lines, buffer)
    }
    /// A code of an entry: subentry, pointer and which.
    fn decay(&self, entry: &[u8], asked: (u32, u8, u32), out: &mut [u8]) -> Result<usize, CodeRefusal> {
        let (subentry, pointer, code) = asked;
        reference::decay(entry, subentry, pointer, code, out)
    }
    /// A code of a passage in hand.
    fn decay_in(&self, passage: &[u8], code: u32, out: &mut [u8]) -> Result<usize, CodeRefusal> {
        reference::decay_in(passage, code, out)
    }
    /// The fields of a run before its groups.
    fn decay_head(&self, run: &[u8]) -> Result<HeadRead, NoCode> {
        reference::decay_head(run)
    }
    /// A group of a run.
    fn decay_group(&self, run: &[u8], group: u32) -> Option<GroupRead> {
        reference::decay_group(run, group)
    }
    /// A type of a group.
    fn decay_type(&self, run: &[u8], group: u32, at: u32) -> Option<Place> {
        reference::decay_type(run, group, at)
    }
    /// An energy of a group.
    fn decay_energy(&self, run: &[u8], group: u32, at: u32) -> Option<NumberRead> {
        reference::decay_energy(run, group, at)
    }
    /// A subentry of a held entry or its revision.
    fn subentry(&self, held: &[u8], revision: &[u8], subentry: u32) -> Result<Chosen, RevisionRefusal> {
        reference::subentry(held, revision, subentry)
    }
    /// The merge of both.
    fn merge(&self, held: &[u8], revision: &[u8], buffer: &mut [u8]) -> Result<usize, RevisionRefusal> {
        reference::merge(held, revision, buffer)
    }
    /// What a program of another language is given for a double: its bits, and the word. By default what follows from the
    /// answers above.
    fn double_calls(&self, calls: DoubleCalls) -> (u64, u64) {
        let (double, word) = match calls {
            DoubleCalls::InFull(entry, place) => words::double_calls(self.double(entry, place)),
            DoubleCalls::ByIndex(entry, index, place) => words::double_calls(self.index_double(entry, index, place)),
            DoubleCalls::Field(field) => words::double_calls(self.read_double(field)),
            DoubleCalls::InHand(decimal) => {
                let simple = self.as_double(decimal);
                (simple.double().unwrap_or(0.0), simple.kind())
            }
        };
        (double.to_bits(), word)
    }
}

/// The reference.
pub struct Reference;

impl Implementation for Reference {
    fn explain(&self, entry: &[u8]) -> Explained {
        reference::explain(entry)
    }
    fn explain_file(&self, file: &[u8]) -> Explained {
        reference::explain_file(file)
    }
}

/// The library.
pub struct Library;

impl Implementation for Library {
    fn judge(&self, entry: &[u8]) -> Verdict {
        library::judge(entry)
    }
    fn value(&self, entry: &[u8], place: [u32; 4]) -> Result<FieldRead, NoAnswer> {
        let [subentry, section, line, column] = place;
        library::value(entry, subentry, section, line, column)
    }
    fn heading(&self, entry: &[u8], place: [u32; 3]) -> Result<Part, NoAnswer> {
        let [subentry, section, column] = place;
        library::heading(entry, subentry, section, column)
    }
    fn unit(&self, entry: &[u8], place: [u32; 3]) -> Result<Part, NoAnswer> {
        let [subentry, section, column] = place;
        library::unit(entry, subentry, section, column)
    }
    fn passage(&self, entry: &[u8], subentry: u32, keyword: &[u8], pointer: u8) -> Result<Part, NoAnswer> {
        library::passage(entry, subentry, keyword, pointer)
    }
    fn canonical_copy(&self, entry: &[u8], buffer: &mut [u8]) -> Result<(), NoAnswer> {
        library::canonical_copy(entry, buffer)
    }
    fn judge_file(&self, file: &[u8]) -> Verdict {
        library::judge_file(file)
    }
    fn entry_length(&self, file: &[u8], at: usize) -> usize {
        library::entry_length(file, at)
    }
    fn copy_file(&self, file: &[u8], buffer: &mut [u8]) -> Result<(), NoAnswer> {
        library::copy_file(file, buffer)
    }
    fn explain(&self, entry: &[u8]) -> Explained {
        library::explain(entry)
    }
    fn explain_file(&self, file: &[u8]) -> Explained {
        library::explain_file(file)
    }
    fn make_index(&self, entry: &[u8], index: &mut [u32]) -> Result<usize, NoAnswer> {
        library::make_index(entry, index)
    }
    fn index_row(&self, index: &[u32], subentry: u32) -> Result<usize, NoAnswer> {
        library::index_row(index, subentry)
    }
    fn index_value(&self, entry: &[u8], index: &[u32], place: [u32; 4]) -> Result<FieldRead, NoAnswer> {
        let [subentry, section, line, column] = place;
        library::index_value(entry, index, subentry, section, line, column)
    }
    fn index_heading(&self, entry: &[u8], index: &[u32], place: [u32; 3]) -> Result<Part, NoAnswer> {
        let [subentry, section, column] = place;
        library::index_heading(entry, index, subentry, section, column)
    }
    fn index_unit(&self, entry: &[u8], index: &[u32], place: [u32; 3]) -> Result<Part, NoAnswer> {
        let [subentry, section, column] = place;
        library::index_unit(entry, index, subentry, section, column)
    }
    fn index_passage(
        &self,
        entry: &[u8],
        index: &[u32],
        subentry: u32,
        keyword: &[u8],
        pointer: u8,
    ) -> Result<Part, NoAnswer> {
        library::index_passage(entry, index, subentry, keyword, pointer)
    }
    fn walk(&self, entry: &[u8], subentry: u32, section: u32) -> Result<Walk, NoAnswer> {
        library::walk(entry, subentry, section)
    }
    fn walk_next(&self, entry: &[u8], walk: &mut Walk) -> Option<Given> {
        library::walk_next(entry, walk)
    }
    fn read_number(&self, field: &[u8]) -> Result<FieldRead, NoAnswer> {
        library::read_number(field)
    }
    fn write_number(&self, decimal: Decimal, buffer: &mut [u8]) -> Result<(), NoAnswer> {
        library::write_number(decimal, buffer)
    }
    fn double(&self, entry: &[u8], place: [u32; 4]) -> Result<DoubleRead, NoAnswer> {
        let [subentry, section, line, column] = place;
        library::double(entry, subentry, section, line, column)
    }
    fn index_double(&self, entry: &[u8], index: &[u32], place: [u32; 4]) -> Result<DoubleRead, NoAnswer> {
        let [subentry, section, line, column] = place;
        library::index_double(entry, index, subentry, section, line, column)
    }
    fn read_double(&self, field: &[u8]) -> Result<DoubleRead, NoAnswer> {
        library::read_double(field)
    }
    fn as_double(&self, decimal: Decimal) -> Simple {
        library::as_double(decimal)
    }
    fn cinda_check(&self, lines: &[u8]) -> Result<(), LinesRefusal> {
        library::cinda_check(lines)
    }
    fn cinda_line(&self, lines: &[u8], line: u32) -> Result<Line, LinesRefusal> {
        library::cinda_line(lines, line)
    }
    fn cinda_pieces(&self, lines: &[u8], line: u32) -> Result<Pieces, LinesRefusal> {
        library::cinda_pieces(lines, line)
    }
    fn cinda_back(&self, lines: &[u8], buffer: &mut [u8]) -> Result<(), LinesRefusal> {
        library::cinda_back(lines, buffer)
    }
    fn decay(&self, entry: &[u8], asked: (u32, u8, u32), out: &mut [u8]) -> Result<usize, CodeRefusal> {
        let (subentry, pointer, code) = asked;
        library::decay(entry, subentry, pointer, code, out)
    }
    fn decay_in(&self, passage: &[u8], code: u32, out: &mut [u8]) -> Result<usize, CodeRefusal> {
        library::decay_in(passage, code, out)
    }
    fn decay_head(&self, run: &[u8]) -> Result<HeadRead, NoCode> {
        library::decay_head(run)
    }
    fn decay_group(&self, run: &[u8], group: u32) -> Option<GroupRead> {
        library::decay_group(run, group)
    }
    fn decay_type(&self, run: &[u8], group: u32, at: u32) -> Option<Place> {
        library::decay_type(run, group, at)
    }
    fn decay_energy(&self, run: &[u8], group: u32, at: u32) -> Option<NumberRead> {
        library::decay_energy(run, group, at)
    }
    fn subentry(&self, held: &[u8], revision: &[u8], subentry: u32) -> Result<Chosen, RevisionRefusal> {
        library::subentry(held, revision, subentry).map(|found| found.place())
    }
    fn merge(&self, held: &[u8], revision: &[u8], buffer: &mut [u8]) -> Result<usize, RevisionRefusal> {
        library::merge(held, revision, buffer)
    }
    fn double_calls(&self, calls: DoubleCalls) -> (u64, u64) {
        let (double, word) = library::double_calls(calls);
        (double.to_bits(), word)
    }
}

/// How much of an input is shown.
const SHOWN: usize = 2_000 * RECORD;

/// The most bytes of a transmission.
const MOST_IN_FILE: usize = 200_000 * RECORD;

/// A case on which two implementations differ.
#[derive(Clone, Debug)]
pub struct Difference {
    /// The seed of the case.
    pub seed: u64,
    /// What was asked, and the two answers.
    pub words: String,
    /// The bytes that it was asked of.
    pub input: Vec<u8>,
}

impl fmt::Display for Difference {
    fn fmt(&self, f: &mut fmt::Formatter<'_>) -> fmt::Result {
        let (shown, rest) = self.input.split_at(self.input.len().min(SHOWN));
        write!(f, "seed {}: {}\n{}", self.seed, self.words, String::from_utf8_lossy(shown))?;
        match rest.len() {
            0 => Ok(()),
            more => writeln!(f, "and {more} bytes more"),
        }
    }
}

/// How often each answer was given, by the paper's number; 0 stands for an answer that is no refusal.
#[derive(Clone, Debug, Default)]
pub struct Tally(BTreeMap<u32, u64>);

impl Tally {
    /// How often this number was given.
    pub fn of(&self, number: u32) -> u64 {
        self.0.get(&number).copied().unwrap_or(0)
    }

    fn count(&mut self, number: u32) {
        *self.0.entry(number).or_default() += 1;
    }

    fn add<T>(&mut self, answer: &Result<T, NoAnswer>) {
        self.count(answer.as_ref().err().map_or(0, |refused| refused.number));
    }

    fn add_code<T>(&mut self, answer: &Result<T, CodeRefusal>) {
        self.count(answer.as_ref().err().map_or(0, |refused| refused.number));
    }

    fn add_revision<T>(&mut self, answer: &Result<T, RevisionRefusal>) {
        self.count(answer.as_ref().err().map_or(0, |refused| refused.number));
    }

    fn add_lines<T>(&mut self, answer: &Result<T, LinesRefusal>) {
        self.count(answer.as_ref().err().map_or(0, |refused| refused.number));
    }
}

/// What was asked, and how often.
#[derive(Clone, Debug, Default)]
pub struct Counts {
    /// Verdicts.
    pub verdicts: Tally,
    /// Verdicts on the same entries with other records below the refused one, or with one behind an accepted entry.
    pub below: Tally,
    /// Reasons of verdicts, those with other records below among them, by the kind that the archives store.
    pub reasons: Tally,
    /// Answers to questions and copies.
    pub answers: Tally,
    /// Indexes that were to be made.
    pub made: Tally,
    /// Rows looked for in indexes, true and altered.
    pub rows: Tally,
    /// Answers by the index made for an accepted entry: those of the full questions.
    pub by_own: Tally,
    /// Answers by any index to questions about any bytes.
    pub by_any: Tally,
    /// Walks that were to be begun.
    pub walks: Tally,
    /// Values of the walks that were begun, up to the last of each.
    pub walked: Tally,
    /// Values that walks of any numbers gave, of any bytes; 15 is a malformed field.
    pub walked_any: Tally,
    /// Calls that found a walk done: of those that were begun, and of any numbers.
    pub done: [u64; 2],
    /// Verdicts on transmissions.
    pub files: Tally,
    /// Those of them that are refused inside an entry.
    pub inside: Tally,
    /// Verdicts on the same transmissions with other records below the refused one, or with one behind ENDTRANS.
    pub files_below: Tally,
    /// Reasons of verdicts on transmissions, by kind.
    pub file_reasons: Tally,
    /// Copies of transmissions.
    pub file_copies: Tally,
    /// Bytes of transmissions at which an entry begins, and at which none does.
    pub begins: [u64; 2],
    /// Readings.
    pub readings: Tally,
    /// Writings.
    pub writings: Tally,
    /// Questions for doubles, in full.
    pub doubles: Tally,
    /// By the entry's own index, where it is accepted, and by any index about any bytes.
    pub doubles_by_index: Tally,
    /// Fields read as doubles.
    pub double_fields: Tally,
    /// Which of the three was given by all of these and to decimals in hand: blanks, doubles, decimals outside.
    pub simple: [u64; 3],
    /// Verdicts on lines (M-113).
    pub lines: Tally,
    /// Lines taken apart, each asked for twice: its numbers, and its parts.
    pub lines_apart: Tally,
    /// Lines written back.
    pub lines_back: Tally,
    /// Codes of entries (M-106).
    pub codes: Tally,
    /// Codes of passages in hand, and of any bytes.
    pub codes_in: Tally,
    /// Runs taken apart, and texts that are no code: 0 and 50.
    pub heads: Tally,
    /// Groups, types and energies that were asked for: those that are there, and those that are not.
    pub pieces: [u64; 2],
    /// Subentries of a held entry and a revision (M-109).
    pub subentries: Tally,
    /// Those that were handed out: of the held entry, and of the revision.
    pub handed_out: [u64; 2],
    /// Merges of both.
    pub merges: Tally,
    /// Merges that are refused, by their own refusal.
    pub merges_refused: Tally,
}

impl fmt::Display for Counts {
    fn fmt(&self, f: &mut fmt::Formatter<'_>) -> fmt::Result {
        let groups = [
            ("verdicts", &self.verdicts),
            ("verdicts with other records below", &self.below),
            ("reasons by kind", &self.reasons),
            ("questions and copies", &self.answers),
            ("indexes made", &self.made),
            ("rows looked for", &self.rows),
            ("questions by the entry's own index", &self.by_own),
            ("questions by any index", &self.by_any),
            ("walks begun", &self.walks),
            ("values of walks", &self.walked),
            ("values of walks of any numbers", &self.walked_any),
            ("verdicts on transmissions", &self.files),
            ("those inside an entry", &self.inside),
            ("verdicts on transmissions with other records below", &self.files_below),
            ("reasons of transmissions by kind", &self.file_reasons),
            ("copies of transmissions", &self.file_copies),
            ("number fields read", &self.readings),
            ("decimals written", &self.writings),
            ("questions for doubles", &self.doubles),
            ("questions for doubles by an index", &self.doubles_by_index),
            ("number fields read as doubles", &self.double_fields),
            ("verdicts on lines", &self.lines),
            ("lines taken apart", &self.lines_apart),
            ("lines written back", &self.lines_back),
            ("codes of entries", &self.codes),
            ("codes of passages", &self.codes_in),
            ("texts taken apart as codes", &self.heads),
            ("subentries of two entries", &self.subentries),
            ("merges", &self.merges),
            ("merges that are refused, by their refusal", &self.merges_refused),
        ];
        for (name, Tally(tally)) in groups {
            writeln!(f, "{name}: {}", tally.values().sum::<u64>())?;
            for (number, count) in tally {
                writeln!(f, "  {number:>2}: {count}")?;
            }
        }
        let [own, any] = self.done;
        writeln!(f, "walks found done: {own} times, of any numbers {any} times")?;
        let [blanks, doubles, outside] = self.simple;
        writeln!(f, "values as doubles: {blanks} blanks, {doubles} doubles, {outside} decimals outside")?;
        let [there, missing] = self.pieces;
        writeln!(f, "groups, types and energies of codes: {there} are there, {missing} are not")?;
        let [held, revision] = self.handed_out;
        writeln!(f, "subentries handed out: {held} of the held entry, {revision} of the revision")?;
        let [some, none] = self.begins;
        writeln!(f, "bytes of transmissions asked for an entry: {some} begin one, {none} do not")
    }
}

/// Two implementations, and how often they were asked.
pub struct Pair<'i> {
    one: &'i dyn Implementation,
    other: &'i dyn Implementation,
    /// The counts so far.
    pub counts: Counts,
}

impl<'i> Pair<'i> {
    /// A pair that has not been asked yet.
    pub fn new(one: &'i dyn Implementation, other: &'i dyn Implementation) -> Pair<'i> {
        Pair { one, other, counts: Counts::default() }
    }

    /// Asks both about so many entries, good and damaged, and once more with other records below.
    pub fn entries(&mut self, seed: u64, count: u64) -> Result<(), Difference> {
        for seed in seed..seed + count {
            let mut random = Random::seeded(seed);
            let sheet = input(&mut random);
            let asked = self.entry(&mut random, &sheet);
            let explained = asked.map_err(|words| Difference { seed, words, input: sheet.bytes.clone() })?;
            if let Some((input, due)) = other_below(&mut random, &sheet.bytes, explained) {
                self.below(&input, &due).map_err(|words| Difference { seed, words, input })?;
            }
            self.index(seed, &sheet)?;
            self.walk(seed, &sheet)?;
            self.doubles_of(seed, &sheet)?;
        }
        Ok(())
    }

    /// Asks both about indexes of the same entries, and nothing else.
    pub fn indexes(&mut self, seed: u64, count: u64) -> Result<(), Difference> {
        (seed..seed + count).try_for_each(|seed| self.index(seed, &input(&mut Random::seeded(seed))))
    }

    /// Asks both to make an index of one input and to answer by it; then by others, and about an entry changed since.
    fn index(&mut self, seed: u64, sheet: &Sheet) -> Result<(), Difference> {
        let random = &mut Random::seeded(!seed);
        let mut entry = sheet.bytes.clone();
        let asked = self.made(random, sheet).and_then(|()| self.by_own(random, sheet));
        asked.map_err(|words| Difference { seed, words, input: sheet.bytes.clone() })?;
        for turn in 0..4 {
            let mut index = generate::index_of(&sheet.bytes);
            if turn % 2 == 0 {
                generate::alter_index(random, &mut index);
            }
            if turn > 0 {
                generate::alter_entry(random, &mut entry, &index);
            }
            let asked = (0..12).try_for_each(|_| self.by_any(random, sheet, &entry, &index));
            let words = |words| format!("{words}\n  index: {index:?}");
            asked.map_err(|said| Difference { seed, words: words(said), input: entry.clone() })?;
        }
        Ok(())
    }

    /// The index made in slices that fit, are too short, or are longer: the rows, and every number of the slice.
    fn made(&mut self, random: &mut Random, sheet: &Sheet) -> Result<(), String> {
        let fits = generate::index_of(&sheet.bytes).len();
        for room in [fits, fits + random.below(12), random.below(fits + 1), random.below(12)] {
            let (mut first, mut second) = (vec![7; room], vec![7; room]);
            let one = self.one.make_index(&sheet.bytes, &mut first);
            let other = self.other.make_index(&sheet.bytes, &mut second);
            self.counts.made.add(&one);
            same(&format!("make_index in {room} numbers"), &(one, first), &(other, second))?;
        }
        Ok(())
    }

    /// Questions by the index made for an accepted entry, cut to its rows: the full answers.
    fn by_own(&mut self, random: &mut Random, sheet: &Sheet) -> Result<(), String> {
        let entry = &sheet.bytes;
        let mut index = vec![7; 5 * entry.len() / RECORD];
        let Ok(rows) = self.one.make_index(entry, &mut index) else { return Ok(()) };
        index.truncate(5 * rows);
        for _ in 0..12 {
            let asked = Question::about(random, sheet);
            let (one, other) = (asked.by_index(self.one, entry, &index), asked.by_index(self.other, entry, &index));
            same(&format!("by its own index: {asked:?}"), &one, &other)?;
            same(
                &format!("by its own index: both, and the full answer: {asked:?}"),
                &one,
                &asked.full(self.one, entry),
            )?;
            self.counts.by_own.add(&one);
        }
        Ok(())
    }

    /// A row looked for, and a question by an index of any numbers; by the row alone it has the same answer.
    fn by_any(&mut self, random: &mut Random, sheet: &Sheet, entry: &[u8], index: &[u32]) -> Result<(), String> {
        let mut asked = Question::about(random, sheet);
        if !index.is_empty() && random.once_in(2) {
            asked.of(index[5 * random.below(index.len().div_ceil(5))]);
        }
        let subentry = asked.subentry();
        let (row, other) = (self.one.index_row(index, subentry), self.other.index_row(index, subentry));
        same(&format!("index_row {subentry}"), &row, &other)?;
        self.counts.rows.add(&row);
        let (one, other) = (asked.by_index(self.one, entry, index), asked.by_index(self.other, entry, index));
        same(&format!("by an index: {asked:?}"), &one, &other)?;
        self.counts.by_any.add(&one);
        let Ok(before) = row else { return Ok(()) };
        let alone = asked.by_index(self.one, entry, &index[5 * before..5 * before + 5]);
        same(&format!("by an index, and by its row alone: {asked:?}"), &one, &alone)
    }

    /// Asks both to go through tables of the same entries, and nothing else.
    pub fn walks(&mut self, seed: u64, count: u64) -> Result<(), Difference> {
        (seed..seed + count).try_for_each(|seed| self.walk(seed, &input(&mut Random::seeded(seed))))
    }

    /// Asks both to go through tables of one input; then by walks of any numbers, and over other bytes.
    fn walk(&mut self, seed: u64, sheet: &Sheet) -> Result<(), Difference> {
        let random = &mut Random::seeded(seed ^ 112);
        let mut entry = sheet.bytes.clone();
        let begun = (0..3).try_for_each(|_| self.begun(random, sheet));
        begun.map_err(|words| Difference { seed, words, input: entry.clone() })?;
        for _ in 0..6 {
            let walk = generate::walk(random, &sheet.bytes);
            let words = |words| format!("{words}\n  walk: {walk:?}");
            let asked = self.walked_any(&entry, walk);
            asked.map_err(|said| Difference { seed, words: words(said), input: entry.clone() })?;
            generate::alter_entry(random, &mut entry, &generate::index_of(&sheet.bytes));
        }
        Ok(())
    }

    /// A walk over a section up to its end: each place once, with the value that the full question gives there, and then
    /// done.
    fn begun(&mut self, random: &mut Random, sheet: &Sheet) -> Result<(), String> {
        let (entry, [subentry, section, ..]) = (&sheet.bytes, place(random, sheet));
        let (one, other) = (self.one.walk(entry, subentry, section), self.other.walk(entry, subentry, section));
        same(&format!("walk {subentry} {section}"), &one, &other)?;
        self.counts.walks.add(&one);
        let full = |line, column| self.other.value(entry, [subentry, section, line, column]);
        let refused = |answer: Result<FieldRead, NoAnswer>| answer.err().filter(|refused| refused.number < 34);
        same("walk, and the full question", &one.err(), &refused(full(0, 0)))?;
        let Ok(mut walk) = one else { return Ok(()) };
        let [_, columns, lines, ..] = walk;
        let ends = [full(lines, columns).err(), full(lines + 1, 1).err(), full(1, columns + 1).err()];
        same("walk: its size", &ends.map(|refused| refused.map_or(0, |refused| refused.number)), &[0, 34, 35])?;
        for (line, column) in (1..=lines).flat_map(|line| (1..=columns).map(move |column| (line, column))) {
            let given = self.step(entry, &mut walk)?;
            // The full question judges, so not every place is asked for.
            let due = if random.once_in(8) { full(line, column) } else { given.map_or(Ok(FieldRead::BLANK), |g| g.2) };
            same("walk_next: both, and the full question", &given, &Some((line, column, due)))?;
            self.counts.walked.add(&due);
        }
        for _ in 0..3 {
            same("walk_next behind the last", &self.step(entry, &mut walk)?, &None)?;
            self.counts.done[0] += 1;
        }
        Ok(())
    }

    /// One step of both, which then stand alike.
    fn step(&self, entry: &[u8], walk: &mut Walk) -> Result<Option<Given>, String> {
        let (before, mut second) = (*walk, *walk);
        let (one, other) = (self.one.walk_next(entry, walk), self.other.walk_next(entry, &mut second));
        same(&format!("walk_next {before:?}"), &(one, *walk), &(other, second))?;
        Ok(one)
    }

    /// A walk of any numbers over any bytes, some steps far.
    fn walked_any(&mut self, entry: &[u8], mut walk: Walk) -> Result<(), String> {
        for _ in 0..40 {
            match self.step(entry, &mut walk)? {
                Some((.., read)) => self.counts.walked_any.add(&read),
                None => self.counts.done[1] += 1,
            }
        }
        Ok(())
    }

    /// Asks both for doubles of the same entries, and nothing else.
    pub fn doubles(&mut self, seed: u64, count: u64) -> Result<(), Difference> {
        (seed..seed + count).try_for_each(|seed| self.doubles_of(seed, &input(&mut Random::seeded(seed))))
    }

    /// Asks both for doubles of one input: in full, by its own index, and by altered ones about altered bytes.
    fn doubles_of(&mut self, seed: u64, sheet: &Sheet) -> Result<(), Difference> {
        let random = &mut Random::seeded(seed ^ 107);
        let mut entry = sheet.bytes.clone();
        let own = {
            let mut numbers = vec![0; 5 * entry.len() / RECORD];
            let rows = self.other.make_index(&entry, &mut numbers);
            rows.map(|rows| numbers[..5 * rows].to_vec())
        };
        for _ in 0..4 {
            let place = place(random, sheet);
            let asked = self.double_in_full(&entry, place).and_then(|full| match &own {
                Ok(index) => self.double_by_index(&entry, index, place, Some(full)),
                Err(_) => Ok(()),
            });
            let words = |words| format!("{words}\n  {place:?}");
            asked.map_err(|said| Difference { seed, words: words(said), input: entry.clone() })?;
        }
        let index = generate::index_of(&entry);
        for _ in 0..6 {
            let (place, mut altered) = (place(random, sheet), index.clone());
            if random.once_in(2) {
                generate::alter_index(random, &mut altered);
            }
            let asked = self.double_by_index(&entry, &altered, place, None);
            let words = |words| format!("{words}\n  {place:?} by {altered:?}");
            asked.map_err(|said| Difference { seed, words: words(said), input: entry.clone() })?;
            generate::alter_entry(random, &mut entry, &index);
        }
        Ok(())
    }

    /// A question in full, refused and counted as the value question is.
    fn double_in_full(&mut self, entry: &[u8], place: [u32; 4]) -> Result<Result<DoubleRead, NoAnswer>, String> {
        let (one, other) = (self.one.double(entry, place), self.other.double(entry, place));
        same("double", &one, &other)?;
        self.counts.doubles.add(&one);
        self.double_of_value("double: both, and the value question", one, self.other.value(entry, place))?;
        self.double_called("double", DoubleCalls::InFull(entry, place))?;
        Ok(one)
    }

    /// A question by an index, refused and counted as the value question is; by the entry's own it has the full answer.
    fn double_by_index(
        &mut self,
        entry: &[u8],
        index: &[u32],
        place: [u32; 4],
        full: Option<Result<DoubleRead, NoAnswer>>,
    ) -> Result<(), String> {
        let (one, other) = (self.one.index_double(entry, index, place), self.other.index_double(entry, index, place));
        same("index_double", &one, &other)?;
        self.counts.doubles_by_index.add(&one);
        let value = self.other.index_value(entry, index, place);
        self.double_of_value("index_double: both, and the value question", one, value)?;
        self.double_called("index_double", DoubleCalls::ByIndex(entry, index, place))?;
        full.map_or(Ok(()), |full| same("index_double, and in full", &one, &full))
    }

    /// A double is the decimal of the value question, by the call for one in hand, with the same refusal and digits.
    fn double_of_value(
        &mut self,
        asked: &str,
        double: Result<DoubleRead, NoAnswer>,
        value: Result<FieldRead, NoAnswer>,
    ) -> Result<(), String> {
        let in_hand = |read: FieldRead| DoubleRead {
            value: match read.value {
                Value::Blank => Simple::Blank,
                Value::Number(decimal) => self.one.as_double(decimal),
            },
            digits: read.digits,
        };
        same(asked, &double, &value.map(in_hand))?;
        if let Ok(read) = double {
            self.counts.simple[read.value.kind() as usize] += 1;
        }
        Ok(())
    }

    /// What programs of other languages are given.
    fn double_called(&self, asked: &str, calls: DoubleCalls) -> Result<(), String> {
        let hex = |(bits, word): (u64, u64)| format!("{bits:016x}, {word:016x}");
        let (one, other) = (hex(self.one.double_calls(calls)), hex(self.other.double_calls(calls)));
        same(&format!("{asked}: as it is called"), &one, &other)
    }

    /// Asks both to read so many number fields as doubles.
    pub fn double_fields(&mut self, seed: u64, count: u64) -> Result<(), Difference> {
        for seed in seed..seed + count {
            let mut random = Random::seeded(seed);
            let field = generate::double_field(&mut random);
            let field = if random.once_in(50) { &field[..random.below(11)] } else { &field };
            let asked = self.double_field(field);
            asked.map_err(|words| Difference { seed, words, input: field.to_vec() })?;
        }
        Ok(())
    }

    fn double_field(&mut self, field: &[u8]) -> Result<(), String> {
        let (one, other) = (self.one.read_double(field), self.other.read_double(field));
        same("read_double", &one, &other)?;
        self.counts.double_fields.add(&one);
        self.double_of_value("read_double: both, and read_number", one, self.other.read_number(field))?;
        self.double_called("read_double", DoubleCalls::Field(field))
    }

    /// Asks both for the doubles of so many decimals.
    pub fn double_decimals(&mut self, seed: u64, count: u64) -> Result<(), Difference> {
        for seed in seed..seed + count {
            let decimal = generate::decimal_in_hand(&mut Random::seeded(seed));
            let (one, other) = (self.one.as_double(decimal), self.other.as_double(decimal));
            let asked = same("as_double", &one, &other);
            let asked = asked.and_then(|()| self.double_called("as_double", DoubleCalls::InHand(decimal)));
            asked.map_err(|words| Difference { seed, words: format!("{decimal:?}: {words}"), input: Vec::new() })?;
            self.counts.simple[one.kind() as usize] += 1;
        }
        Ok(())
    }

    /// Asks both about so many strings of lines, good and damaged.
    pub fn lines(&mut self, seed: u64, count: u64) -> Result<(), Difference> {
        (seed..seed + count).try_for_each(|seed| {
            let random = &mut Random::seeded(seed ^ 113);
            let lines = generate::cinda_input(random);
            self.lines_of(random, &lines).map_err(|words| Difference { seed, words, input: lines })
        })
    }

    /// Asks both about lines at the limits of their number.
    pub fn line_limits(&mut self) -> Result<(), Difference> {
        generate::cinda_limits().into_iter().try_for_each(|lines| {
            self.lines_of(&mut Random::seeded(113), &lines).map_err(|words| Difference {
                seed: 113,
                words,
                input: lines,
            })
        })
    }

    /// Asks both to check lines with one byte changed, for every byte and all of these values, and to write back what is good.
    pub fn line_bytes(&mut self, lines: &[u8], values: &[u8]) -> Result<(), Difference> {
        let mut changed = lines.to_vec();
        for place in 0..lines.len() {
            for &value in values {
                changed[place] = value;
                let asked = self.lines_judged(&changed).and_then(|good| match good {
                    true => self.lines_back_in(&changed, changed.len()),
                    false => Ok(()),
                });
                let asked = asked.and_then(|()| self.line_asked(&changed, (place / LINE) as u32 + 1));
                asked.map_err(|words| Difference { seed: place as u64, words, input: changed.clone() })?;
            }
            changed[place] = lines[place];
        }
        Ok(())
    }

    /// Both verdicts; whether the lines are good.
    fn lines_judged(&mut self, lines: &[u8]) -> Result<bool, String> {
        let (one, other) = (self.one.cinda_check(lines), self.other.cinda_check(lines));
        same("cinda_check", &one, &other)?;
        self.counts.lines.add_lines(&one);
        Ok(one.is_ok())
    }

    /// A verdict, some lines taken apart, and a copy in a buffer that may be too short.
    fn lines_of(&mut self, random: &mut Random, lines: &[u8]) -> Result<(), String> {
        self.lines_judged(lines)?;
        let count = (lines.len() / LINE) as u32;
        for line in [1, count, count.wrapping_add(1), 0, 1 + random.below(count as usize + 1) as u32] {
            self.line_asked(lines, line)?;
        }
        self.line_asked(lines, random.one(&[2, 20_000, 20_001, 1 << 31, u32::MAX]))?;
        let room = match random.below(4) {
            0 => lines.len().saturating_sub(1),
            1 => lines.len() + random.below(300),
            2 => random.below(lines.len() + 1),
            _ => lines.len(),
        };
        self.lines_back_in(lines, room)
    }

    fn line_asked(&mut self, lines: &[u8], line: u32) -> Result<(), String> {
        let (one, other) = (self.one.cinda_line(lines, line), self.other.cinda_line(lines, line));
        same(&format!("cinda_line {line}"), &one, &other)?;
        self.counts.lines_apart.add_lines(&one);
        let (one, other) = (self.one.cinda_pieces(lines, line), self.other.cinda_pieces(lines, line));
        same(&format!("cinda_pieces {line}"), &one, &other)?;
        self.counts.lines_apart.add_lines(&one);
        Ok(())
    }

    /// A copy in a buffer of so many bytes, all of which are compared.
    fn lines_back_in(&mut self, lines: &[u8], room: usize) -> Result<(), String> {
        let (mut first, mut second) = (vec![b'#'; room], vec![b'#'; room]);
        let (one, other) = (self.one.cinda_back(lines, &mut first), self.other.cinda_back(lines, &mut second));
        same(&format!("cinda_back in {room} bytes"), &one, &other)?;
        let text = |bytes: &[u8]| String::from_utf8_lossy(bytes).into_owned();
        if first != second {
            same(&format!("cinda_back in {room} bytes: the buffer"), &text(&first), &text(&second))?;
        }
        self.counts.lines_back.add_lines(&one);
        Ok(())
    }

    /// Asks both about the codes of so many entries, of their passages in hand, and of texts.
    pub fn codes(&mut self, seed: u64, count: u64) -> Result<(), Difference> {
        for seed in seed..seed + count {
            let random = &mut Random::seeded(seed ^ 106);
            let entry = generate::decay_entry(random);
            let asked = self.codes_of(random, &entry);
            asked.map_err(|words| Difference { seed, words, input: entry })?;
            let mut passage = generate::decay_passage(random);
            for turn in 0..2 {
                let asked = self.codes_in(random, &passage);
                asked.map_err(|words| Difference { seed, words, input: passage.clone() })?;
                // Any bytes, and records that are not whole.
                let at = random.below(passage.len());
                passage[at] = if turn == 0 { random.one(b"(),./ 1A#") } else { random.bits() as u8 };
                passage.truncate(passage.len() - random.one(&[0, 0, 1, 15, 80, 81]).min(passage.len() - 1));
            }
            let text = if random.once_in(2) { generate::code(random) } else { generate::damaged_code(random) };
            let asked = self.code_apart(random, text.as_bytes());
            asked.map_err(|words| Difference { seed, words, input: text.into_bytes() })?;
        }
        Ok(())
    }

    /// Asks both about codes at the limits: of one record and of as many as an entry holds.
    pub fn code_limits(&mut self) -> Result<(), Difference> {
        for (records, text) in [(2, "DG,405.0,0.0550,"), (generate::LONGEST_CODE, "DG,405.0,0.0550,")] {
            let entry = generate::long_entry(records, text);
            let asked =
                [0, 1, 2].into_iter().try_for_each(|code| self.code_of(&entry, (1, b' ', code), entry.len()).map(drop));
            asked.map_err(|words| Difference { seed: 106, words, input: entry })?;
        }
        Ok(())
    }

    /// Codes of an entry by subentry, pointer and number, some of which are not there; and those of its passages in hand.
    fn codes_of(&mut self, random: &mut Random, entry: &[u8]) -> Result<(), String> {
        for subentry in 0..=4 {
            for &pointer in b" 1239AMZa" {
                let part = self.other.passage(entry, subentry, b"DECAY-DATA", pointer);
                let Ok(part) = part else {
                    self.code_of(entry, (subentry, pointer, random.below(3) as u32), 60)?;
                    continue;
                };
                let passage = part.of(entry);
                for code in 0..=openings(passage) + 1 {
                    let asked = (subentry, pointer, code);
                    let room = self.code_of(entry, asked, passage.len())?;
                    self.code_of(entry, asked, room)?;
                    self.code_of(entry, asked, room.saturating_sub(1))?;
                    self.by_hand(entry, asked, &part, room)?;
                }
                self.codes_in(random, passage)?;
            }
        }
        self.code_of(entry, (random.bits() as u32, b' ', 1), 60).map(drop)
    }

    /// One code of an entry in a slice of so many bytes, which others stand around: the length of its run, 0 where it is refused.
    fn code_of(&mut self, entry: &[u8], asked: (u32, u8, u32), room: usize) -> Result<usize, String> {
        let (one, first) = guarded(room, |out| self.one.decay(entry, asked, out))?;
        let (other, second) = guarded(room, |out| self.other.decay(entry, asked, out))?;
        same(&format!("decay {asked:?} in {room} bytes"), &(one, shown(&first)), &(other, shown(&second)))?;
        self.counts.codes.add_code(&one);
        Ok(one.unwrap_or(0))
    }

    /// The same code of the passage in hand, whose records count from its own first.
    fn by_hand(&mut self, entry: &[u8], asked: (u32, u8, u32), part: &Part, room: usize) -> Result<(), String> {
        let (full, first) = guarded(room, |out| self.one.decay(entry, asked, out))?;
        let (own, second) = guarded(room, |out| self.one.decay_in(part.of(entry), asked.2, out))?;
        let before = (part.offset / RECORD) as u32;
        let own = own.map_err(|refused| match refused.record {
            0 => refused,
            record => CodeRefusal { record: record + before, ..refused },
        });
        let words = format!("decay {asked:?} in {room} bytes, and of the passage in hand");
        same(&words, &(full, shown(&first)), &(own, shown(&second)))
    }

    /// The codes of a passage in hand, one more and 0, each in slices of some lengths; of a short run in every one.
    fn codes_in(&mut self, random: &mut Random, passage: &[u8]) -> Result<(), String> {
        for code in (0..=openings(passage) + 1).chain([random.bits() as u32]) {
            let length = self.code_in(passage, code, passage.len())?;
            let every = if length <= 40 { 0..=length + 2 } else { length - 1..=length + 1 };
            for room in every {
                self.code_in(passage, code, room)?;
            }
            let mut out = vec![0; passage.len()];
            if let Ok(length) = self.one.decay_in(passage, code, &mut out) {
                self.code_apart(random, &out[..length])?;
                self.run_again(&out[..length])?;
            }
        }
        Ok(())
    }

    fn code_in(&mut self, passage: &[u8], code: u32, room: usize) -> Result<usize, String> {
        let (one, first) = guarded(room, |out| self.one.decay_in(passage, code, out))?;
        let (other, second) = guarded(room, |out| self.other.decay_in(passage, code, out))?;
        same(&format!("decay_in {code} in {room} bytes"), &(one, shown(&first)), &(other, shown(&second)))?;
        self.counts.codes_in.add_code(&one);
        Ok(one.unwrap_or(0))
    }

    /// "the run reads to the same fields": in one record it is its own run.
    fn run_again(&mut self, run: &[u8]) -> Result<(), String> {
        if run.len() > 55 {
            return Ok(());
        }
        let record = format!("{:11}{:55}{:14}\n", "DECAY-DATA", String::from_utf8_lossy(run), "");
        let (again, out) = guarded(run.len(), |out| self.one.decay_in(record.as_bytes(), 1, out))?;
        same("decay_in of a run", &(again, shown(&out)), &(Ok(run.len()), shown(run)))
    }

    /// A text taken apart: every group, type and energy that it has, and those behind them.
    fn code_apart(&mut self, random: &mut Random, text: &[u8]) -> Result<(), String> {
        let (one, other) = (self.one.decay_head(text), self.other.decay_head(text));
        same("decay_head", &one, &other)?;
        self.counts.heads.count(if one.is_ok() { 0 } else { 50 });
        let groups = one.map_or(0, |head| head.groups as u32);
        for group in (0..=groups + 1).chain([random.bits() as u32]) {
            let (one, other) = (self.one.decay_group(text, group), self.other.decay_group(text, group));
            same(&format!("decay_group {group}"), &one, &other)?;
            let count = one.map_or(0, |group| group.types.max(group.energies) as u32);
            for at in (0..=count + 1).chain([random.bits() as u32]) {
                let (kind, other) = (self.one.decay_type(text, group, at), self.other.decay_type(text, group, at));
                same(&format!("decay_type {group} {at}"), &kind, &other)?;
                let (read, other) = (self.one.decay_energy(text, group, at), self.other.decay_energy(text, group, at));
                same(&format!("decay_energy {group} {at}"), &read, &other)?;
                for there in [kind.is_some(), read.is_some()] {
                    self.counts.pieces[usize::from(!there)] += 1;
                }
            }
            self.counts.pieces[usize::from(one.is_none())] += 1;
        }
        Ok(())
    }

    /// Asks both to take a code apart with one byte changed, for every byte and all of these values; and as the passage of one
    /// record, where it fits in one.
    pub fn code_bytes(&mut self, code: &[u8], values: &[u8]) -> Result<(), Difference> {
        let random = &mut Random::seeded(106);
        let mut changed = code.to_vec();
        for place in 0..code.len() {
            for &value in values {
                changed[place] = value;
                let mut record = [b' '; RECORD];
                record[11..11 + changed.len()].copy_from_slice(&changed);
                let asked = self.code_apart(random, &changed).and_then(|()| self.code_in(&record, 1, RECORD).map(drop));
                asked.map_err(|words| Difference { seed: place as u64, words, input: changed.clone() })?;
            }
            changed[place] = code[place];
        }
        Ok(())
    }

    /// Asks both about the verdicts on the same entries and why, and nothing else.
    pub fn verdicts(&mut self, seed: u64, count: u64) -> Result<(), Difference> {
        for seed in seed..seed + count {
            let input = input(&mut Random::seeded(seed)).bytes;
            self.judged(&input).map_err(|words| Difference { seed, words, input })?;
        }
        Ok(())
    }

    /// Asks both to judge an entry and say why with one byte changed, for every byte and all of these values.
    pub fn bytes(&mut self, entry: &[u8], values: &[u8]) -> Result<(), Difference> {
        let mut changed = entry.to_vec();
        for place in 0..entry.len() {
            for &value in values {
                changed[place] = value;
                let seed = place as u64;
                self.judged(&changed).map_err(|words| Difference { seed, words, input: changed.clone() })?;
            }
            changed[place] = entry[place];
        }
        Ok(())
    }

    /// Asks both about so many transmissions, good and damaged, and once more with other records below.
    pub fn files(&mut self, seed: u64, count: u64) -> Result<(), Difference> {
        for seed in seed..seed + count {
            let mut random = Random::seeded(seed);
            let file = generate::file_input(&mut random);
            self.file(seed, &mut random, &file)?;
        }
        Ok(())
    }

    /// Asks both about given transmissions.
    pub fn given_files(&mut self, files: &[Vec<u8>]) -> Result<(), Difference> {
        let mut seeded = (0..).zip(files);
        seeded.try_for_each(|(seed, file)| self.file(seed, &mut Random::seeded(seed), file))
    }

    /// The verdict on one transmission and why, the lengths of its entries and a copy; and the verdict with other
    /// records below.
    fn file(&mut self, seed: u64, random: &mut Random, file: &[u8]) -> Result<(), Difference> {
        let asked = self.whole_file(random, file);
        let explained = asked.map_err(|words| Difference { seed, words, input: file.to_vec() })?;
        let Some((input, due)) = other_below(random, file, explained) else { return Ok(()) };
        // Behind a full one the length is refused.
        let due = if input.len() > MOST_IN_FILE { alone(Refusal::new(1, 0, 0)) } else { due };
        self.file_below(&input, &due).map_err(|words| Difference { seed, words, input })
    }

    /// The verdict on a transmission with other records below and why, beside what is due.
    fn file_below(&mut self, input: &[u8], due: &Explained) -> Result<(), String> {
        let (one, other) = (self.one.judge_file(input), self.other.judge_file(input));
        self.counts.files_below.count(one.numbers()[0]);
        same("judge_file with other records below", &one, &other)?;
        same("judge_file with other records below: both, and what is due", &one, &due.verdict)?;
        let explained = self.explained_file(input, one)?;
        same("explain_file with other records below: both, and what is due", &explained, due)
    }

    /// The verdict on a transmission, and why.
    fn judged_file(&mut self, file: &[u8]) -> Result<Explained, String> {
        let (verdict, other) = (self.one.judge_file(file), self.other.judge_file(file));
        same("judge_file", &verdict, &other)?;
        self.counts.files.count(verdict.numbers()[0]);
        self.explained_file(file, verdict)
    }

    /// Why a transmission has its verdict.
    fn explained_file(&mut self, file: &[u8], verdict: Verdict) -> Result<Explained, String> {
        let (one, other) = (self.one.explain_file(file), self.other.explain_file(file));
        same("explain_file", &one, &other)?;
        same("judge_file, and explain_file", &verdict, &one.verdict)?;
        self.counts.file_reasons.count(kind(&one.reason));
        Ok(one)
    }

    /// What both say of one transmission. Hands back the verdict, and why.
    fn whole_file(&mut self, random: &mut Random, file: &[u8]) -> Result<Explained, String> {
        let explained = self.judged_file(file)?;
        if explained.verdict.ordinal() > 0 {
            self.counts.inside.count(explained.verdict.numbers()[0]);
        }
        // At every record's first byte, at some others, and past the end.
        let odd = [file.len(), file.len() + 1, file.len() + RECORD, usize::MAX, 1, RECORD - 1, RECORD + 1];
        let any = std::iter::repeat_with(|| random.below(file.len() + 1)).take(20).collect::<Vec<_>>();
        for at in (0..file.len()).step_by(RECORD).chain(odd).chain(any) {
            let (one, other) = (self.one.entry_length(file, at), self.other.entry_length(file, at));
            same(&format!("entry_length {at}"), &one, &other)?;
            self.counts.begins[usize::from(one == 0)] += 1;
        }
        let length = file.len() + random.below(3);
        let length = if random.once_in(3) { length.saturating_sub(random.below(100)) } else { length };
        let (mut first, mut second) = (vec![b'#'; length], vec![b'#'; length]);
        let (copied, other) = (self.one.copy_file(file, &mut first), self.other.copy_file(file, &mut second));
        self.counts.file_copies.add(&copied);
        same("copy_file", &copied, &other)?;
        match first == second {
            true => Ok(explained),
            false => Err("copy_file: other bytes".into()),
        }
    }

    /// Asks both to judge a transmission and say why with one byte of TRANS or ENDTRANS changed, for all of these values.
    pub fn file_bytes(&mut self, file: &[u8], values: &[u8]) -> Result<(), Difference> {
        let mut changed = file.to_vec();
        for place in (0..RECORD).chain(file.len() - RECORD..file.len()) {
            for &value in values {
                changed[place] = value;
                let seed = place as u64;
                self.judged_file(&changed).map_err(|words| Difference { seed, words, input: changed.clone() })?;
            }
            changed[place] = file[place];
        }
        Ok(())
    }

    /// Asks both about so many pairs of a held entry and a revision.
    pub fn revisions(&mut self, seed: u64, count: u64) -> Result<(), Difference> {
        for seed in seed..seed + count {
            let mut random = Random::seeded(seed);
            let pair = generate::revised(&mut random);
            self.revised(seed, &mut random, &pair)?;
        }
        Ok(())
    }

    /// Asks both about pairs at the limits.
    pub fn revision_limits(&mut self) -> Result<(), Difference> {
        let pairs = generate::revised_limits();
        let mut seeded = (0..).zip(&pairs);
        seeded.try_for_each(|(seed, pair)| self.revised(seed, &mut Random::seeded(seed), pair))
    }

    /// Subentries and merges of one pair, and of each entry with itself; then of the merge with itself.
    fn revised(&mut self, seed: u64, random: &mut Random, pair: &Revised) -> Result<(), Difference> {
        let Revised { held, revision } = pair;
        let asked = self.merged(random, held, revision).and_then(|merge| self.handed_out(random, pair, merge));
        let asked = asked.and_then(|merge| match merge {
            Some(merge) => self.merged_again(held, &merge),
            None => self.merged_again(revision, held),
        });
        let input = || [held.as_slice(), b"\n-- the revision:\n", revision.as_slice()].concat();
        asked.map_err(|words| Difference { seed, words, input: input() })
    }

    /// An entry merged with itself is itself, its count without zeros; where it is refused, it is the held one that is named.
    fn merged_again(&mut self, entry: &[u8], merge: &[u8]) -> Result<(), String> {
        for entry in [entry, merge] {
            let (_, once) = self.merged_in(entry, entry, 2 * entry.len())?;
            match (self.one.judge(entry), once) {
                (Verdict::Refused(refusal), None) => {
                    let due = RevisionRefusal::of_entry(crate::revisions::Which::Held, refusal);
                    let one = self.one.merge(entry, entry, &mut []);
                    same("a refused entry merged with itself: both, and what is due", &one, &Err(due))?;
                }
                (Verdict::Accepted(totals), Some(once)) => {
                    let mut due = entry.to_vec();
                    let last = due.len() - RECORD + 11;
                    due[last..last + 11].copy_from_slice(format!("{:>11}", totals.subentries).as_bytes());
                    same("an entry merged with itself: both, and what is due", &shown(&once), &shown(&due))?;
                }
                _ => return Err("an entry merged with itself: accepted, and refused".into()),
            }
        }
        Ok(())
    }

    /// The merge in buffers of every length around the limit and around its own length, and of others. Hands it back, where it is
    /// delivered.
    fn merged(&mut self, random: &mut Random, held: &[u8], revision: &[u8]) -> Result<Option<Vec<u8>>, String> {
        let limit = held.len() + revision.len();
        let (answer, given) = self.merged_in(held, revision, limit)?;
        let length = answer.unwrap_or_else(|refused| refused.length);
        let mut rooms = vec![limit.saturating_sub(1)];
        // Of large ones the limit alone.
        if limit <= 1_000 * RECORD {
            rooms.extend([limit.saturating_sub(2), limit + 1, limit + 2, limit + random.below(100)]);
            rooms.extend([0, random.below(limit + 1), held.len().max(revision.len())]);
            rooms.extend(
                [length.saturating_sub(1), length, length + 1].into_iter().filter(|room| *room < limit && length > 0),
            );
        }
        rooms.into_iter().try_for_each(|room| self.merged_in(held, revision, room).map(drop))?;
        Ok(given)
    }

    /// The merge in a buffer of so many bytes: the answer, and every byte of the buffer and beside it.
    fn merged_in(&mut self, held: &[u8], revision: &[u8], room: usize) -> Result<(Merged, Option<Vec<u8>>), String> {
        let (one, first) = guarded(room, |out| self.one.merge(held, revision, out))?;
        let (other, second) = guarded(room, |out| self.other.merge(held, revision, out))?;
        self.counts.merges.add_revision(&one);
        same(&format!("merge in {room} bytes, of {} and {}", held.len(), revision.len()), &one, &other)?;
        if first != second {
            return Err(format!("merge in {room} bytes: other bytes\n{}\n{}", shown(&first), shown(&second)));
        }
        if let Err(refused) = one {
            self.refused_merge(&refused, &first)?;
        }
        Ok((one, one.ok().map(|length| first[..length].to_vec())))
    }

    /// What is in a buffer after a refused merge: blanks with 63, as many as the merge is long, and nothing else ever.
    fn refused_merge(&mut self, refused: &RevisionRefusal, buffer: &[u8]) -> Result<(), String> {
        if let (63, Some(refusal)) = (refused.number, refused.refusal) {
            self.counts.merges_refused.count(refusal.number);
        }
        let (blanks, rest) = buffer.split_at(refused.length.min(buffer.len()));
        match blanks.iter().all(|&byte| byte == b' ') && rest.iter().all(|&byte| byte == b'#') {
            true => Ok(()),
            false => Err(format!("a merge that is refused by {}: bytes were stored", refused.number)),
        }
    }

    /// Subentries by number: all that one of the two has, some beside, and any. Where a merge was delivered, each of them is the
    /// bytes of that merge.
    fn handed_out(
        &mut self,
        random: &mut Random,
        pair: &Revised,
        merge: Option<Vec<u8>>,
    ) -> Result<Option<Vec<u8>>, String> {
        let Revised { held, revision } = pair;
        let mut numbers: Vec<u32> = vec![0, 1, 2, 3, 998, 999, 1_000, random.below(1_200) as u32, random.bits() as u32];
        let large = held.len().max(revision.len()) > 1_000 * RECORD;
        let opens = |record: &&[u8]| record.starts_with(b"SUBENT ") || record.starts_with(b"NOSUBENT ");
        let openings = [held, revision].into_iter().flat_map(|entry| entry.chunks_exact(RECORD)).filter(opens);
        numbers.extend(openings.map(|record| three_digits(&record[19..22])));
        numbers.sort_unstable();
        numbers.dedup();
        let few = |numbers: Vec<u32>| numbers.into_iter().step_by(97).chain([2, 3, 998]).collect();
        let numbers: Vec<u32> = if large { few(numbers) } else { numbers };
        let mut parts = BTreeMap::new();
        for number in numbers {
            let (one, other) = (self.one.subentry(held, revision, number), self.other.subentry(held, revision, number));
            self.counts.subentries.add_revision(&one);
            same(&format!("subentry {number}"), &one, &other)?;
            if let Ok(chosen) = one {
                self.counts.handed_out[chosen.which as usize] += 1;
                parts.insert(number, chosen.of(held, revision).bytes);
            }
            let Some(merge) = &merge else { continue };
            // Of the merge alone the same bytes, and the same refusal.
            let own = self.one.subentry(merge, merge, number);
            let bytes = own.map(|chosen| shown(chosen.of(merge, merge).bytes));
            same(
                &format!("subentry {number}: its bytes, and those of the merge"),
                &one.map(|chosen| shown(chosen.of(held, revision).bytes)),
                &bytes,
            )?;
        }
        let Some(merge) = merge.filter(|_| !large) else { return Ok(None) };
        // Without its NOSUBENT records the merge has nothing else between ENTRY and ENDENTRY. A heading may be that word, too.
        let absent = |record: &[u8]| record.starts_with(b"NOSUBENT   ") && &record[74..79] == b"00001";
        let inner = merge[RECORD..merge.len() - RECORD].chunks_exact(RECORD);
        let inner: Vec<u8> = inner.filter(|record| !absent(record)).flatten().copied().collect();
        let parts: Vec<u8> = parts.into_values().flatten().copied().collect();
        same("the subentries side by side, and the merge", &shown(&parts), &shown(&inner))?;
        Ok(Some(merge))
    }

    /// Asks both to read so many number fields.
    pub fn fields(&mut self, seed: u64, count: u64) -> Result<(), Difference> {
        for seed in seed..seed + count {
            let mut random = Random::seeded(seed);
            let field = generate::number_field(&mut random);
            // Now and then a field that is not eleven bytes long.
            let field = if random.once_in(50) { &field[..random.below(11)] } else { &field };
            let (one, other) = (self.one.read_number(field), self.other.read_number(field));
            self.counts.readings.add(&one);
            same("read_number", &one, &other).map_err(|words| Difference { seed, words, input: field.to_vec() })?;
        }
        Ok(())
    }

    /// Asks both to write so many decimals.
    pub fn decimals(&mut self, seed: u64, count: u64) -> Result<(), Difference> {
        for seed in seed..seed + count {
            let mut random = Random::seeded(seed);
            let decimal = generate::decimal(&mut random);
            let length = if random.once_in(50) { random.below(14) } else { 11 };
            let (mut first, mut second) = (vec![b'#'; length], vec![b'#'; length]);
            let one = self.one.write_number(decimal, &mut first);
            let other = self.other.write_number(decimal, &mut second);
            self.counts.writings.add(&one);
            let same = same("write_number", &(one, first), &(other, second));
            same.map_err(|words| Difference { seed, words: format!("{decimal:?}: {words}"), input: Vec::new() })?;
        }
        Ok(())
    }

    /// The verdict, some questions and a copy of one input. Hands back the verdict, and why.
    fn entry(&mut self, random: &mut Random, sheet: &Sheet) -> Result<Explained, String> {
        let entry = &sheet.bytes;
        let explained = self.judged(entry)?;
        for _ in 0..12 {
            self.question(random, sheet)?;
        }
        let length = entry.len() + random.below(3);
        let length = if random.once_in(3) { length.saturating_sub(random.below(100)) } else { length };
        let (mut first, mut second) = (vec![b'#'; length], vec![b'#'; length]);
        let copied = self.one.canonical_copy(entry, &mut first);
        let other = self.other.canonical_copy(entry, &mut second);
        self.counts.answers.add(&copied);
        same("canonical_copy", &(copied, first), &(other, second))?;
        Ok(explained)
    }

    /// The verdict on an entry, and why.
    fn judged(&mut self, entry: &[u8]) -> Result<Explained, String> {
        let (verdict, other) = (self.one.judge(entry), self.other.judge(entry));
        same("judge", &verdict, &other)?;
        self.counts.verdicts.count(verdict.numbers()[0]);
        self.explained(entry, verdict)
    }

    /// Why an entry has its verdict.
    fn explained(&mut self, entry: &[u8], verdict: Verdict) -> Result<Explained, String> {
        let (one, other) = (self.one.explain(entry), self.other.explain(entry));
        same("explain", &one, &other)?;
        same("judge, and explain", &verdict, &one.verdict)?;
        self.counts.reasons.count(kind(&one.reason));
        Ok(one)
    }

    /// The verdict on an input with other records below and why, beside what is due.
    fn below(&mut self, input: &[u8], due: &Explained) -> Result<(), String> {
        let (one, other) = (self.one.judge(input), self.other.judge(input));
        same("judge with other records below", &one, &other)?;
        same("judge with other records below: both, and what is due", &one, &due.verdict)?;
        self.counts.below.count(one.numbers()[0]);
        let explained = self.explained(input, one)?;
        same("explain with other records below: both, and what is due", &explained, due)
    }

    /// One question, often inside the entry's shape and sometimes beside it.
    fn question(&mut self, random: &mut Random, sheet: &Sheet) -> Result<(), String> {
        let asked = Question::about(random, sheet);
        let (one, other) = (asked.full(self.one, &sheet.bytes), asked.full(self.other, &sheet.bytes));
        self.counts.answers.add(&one);
        same(&format!("{asked:?}"), &one, &other)
    }
}

/// A question, whether it is asked in full or by an index.
#[derive(Clone, Debug)]
enum Question {
    Value([u32; 4]),
    Heading([u32; 3]),
    Unit([u32; 3]),
    Passage { subentry: u32, keyword: Vec<u8>, pointer: u8 },
}

/// What a question is answered with.
#[derive(Clone, Copy, Debug, PartialEq, Eq)]
enum Answer {
    Value(FieldRead),
    Part(Part),
}

impl Question {
    /// One often inside the entry's shape and sometimes beside it.
    fn about(random: &mut Random, sheet: &Sheet) -> Question {
        let place = place(random, sheet);
        let [subentry, section, _, column] = place;
        match random.below(4) {
            0 => Question::Value(place),
            1 => Question::Heading([subentry, section, column]),
            2 => Question::Unit([subentry, section, column]),
            _ => {
                let (owner, keyword, pointer) = keyword(random, sheet);
                let subentry = if random.once_in(12) { subentry } else { owner };
                Question::Passage { subentry, keyword, pointer }
            }
        }
    }

    /// The subentry that it is about.
    fn subentry(&self) -> u32 {
        match *self {
            Question::Value([subentry, ..]) => subentry,
            Question::Heading([subentry, ..]) | Question::Unit([subentry, ..]) => subentry,
            Question::Passage { subentry, .. } => subentry,
        }
    }

    /// The same about another subentry.
    fn of(&mut self, other: u32) {
        match self {
            Question::Value([subentry, ..]) => *subentry = other,
            Question::Heading([subentry, ..]) | Question::Unit([subentry, ..]) => *subentry = other,
            Question::Passage { subentry, .. } => *subentry = other,
        }
    }

    fn full(&self, by: &dyn Implementation, entry: &[u8]) -> Result<Answer, NoAnswer> {
        match self {
            Question::Value(place) => by.value(entry, *place).map(Answer::Value),
            Question::Heading(place) => by.heading(entry, *place).map(Answer::Part),
            Question::Unit(place) => by.unit(entry, *place).map(Answer::Part),
            Question::Passage { subentry, keyword, pointer } => {
                by.passage(entry, *subentry, keyword, *pointer).map(Answer::Part)
            }
        }
    }

    fn by_index(&self, by: &dyn Implementation, entry: &[u8], index: &[u32]) -> Result<Answer, NoAnswer> {
        match self {
            Question::Value(place) => by.index_value(entry, index, *place).map(Answer::Value),
            Question::Heading(place) => by.index_heading(entry, index, *place).map(Answer::Part),
            Question::Unit(place) => by.index_unit(entry, index, *place).map(Answer::Part),
            Question::Passage { subentry, keyword, pointer } => {
                by.index_passage(entry, index, *subentry, keyword, *pointer).map(Answer::Part)
            }
        }
    }
}

/// How many records have ( in column 12.
fn openings(passage: &[u8]) -> u32 {
    passage.chunks_exact(RECORD).filter(|record| record[11] == b'(').count() as u32
}

/// Bytes as text.
fn shown(bytes: &[u8]) -> String {
    String::from_utf8_lossy(bytes).into_owned()
}

/// The length of a merge, or why there is none.
type Merged = Result<usize, RevisionRefusal>;

/// What is answered with a slice of so many bytes, and the slice; bytes on either side of it are to stay.
fn guarded<T>(room: usize, ask: impl Fn(&mut [u8]) -> T) -> Result<(T, Vec<u8>), String> {
    let mut bytes = vec![b'#'; room + 16];
    let answer = ask(&mut bytes[8..8 + room]);
    match bytes[..8].iter().chain(&bytes[8 + room..]).all(|&byte| byte == b'#') {
        true => Ok((answer, bytes[8..8 + room].to_vec())),
        false => Err(format!("bytes beside a slice of {room} were stored")),
    }
}

/// Whether two answers are the same; if not, both in words.
fn same<T: PartialEq + fmt::Debug>(asked: &str, one: &T, other: &T) -> Result<(), String> {
    if one == other {
        Ok(())
    } else {
        Err(format!("{asked}\n  one:   {one:?}\n  other: {other:?}"))
    }
}

/// An input: a valid entry, one damaged by a known cause, often by a repeated heading or a flag, one with noise, or bytes.
fn input(random: &mut Random) -> Sheet {
    let mut sheet = generate::entry(random);
    let kind = random.below(16);
    match kind {
        0..=4 => {}
        5..=12 => {
            let wanted = |cause: &usize| match kind {
                11 => CAUSES[*cause].0.starts_with("13 "),
                12 => CAUSES[*cause].0.starts_with("17 "),
                _ => true,
            };
            let causes: Vec<usize> = (0..CAUSES.len()).filter(wanted).collect();
            let cause = random.one(&causes);
            sheet = generate::damaged(random, cause).0;
        }
        13 | 14 => generate::noise(random, &mut sheet),
        _ => sheet = Sheet { bytes: generate::random_bytes(random), kinds: Vec::new() },
    }
    sheet
}

/// The kind of a reason.
fn kind(reason: &Reason) -> u32 {
    reason.facts()[0] as u32
}

/// A refusal of which nothing more is said.
fn alone(refusal: Refusal) -> Explained {
    Explained { verdict: Verdict::Refused(refusal), reason: Reason::Alone }
}

/// The same input with other records below the refused one, and the same verdict and reason, as the refusal depends on
/// none of them; or with one record behind an accepted entry, which is refused there (M-111).
fn other_below(random: &mut Random, input: &[u8], explained: Explained) -> Option<(Vec<u8>, Explained)> {
    match explained.verdict {
        Verdict::Accepted(_) => {
            let added = generate::added(random, input);
            Some(([input, &added].concat(), alone(behind(input, &added))))
        }
        Verdict::Refused(refusal) if refusal.at_record() => {
            let below = random.one(&BELOW);
            Some((generate::with_below(random, input, refusal.record as usize, below), explained))
        }
        Verdict::Refused(_) => None,
    }
}

/// The refusal of a record behind an accepted entry: 2 or 3, or 4, as none is due there.
fn behind(entry: &[u8], record: &[u8]) -> Refusal {
    let wrong = record[..RECORD - 1].iter().position(|&byte| !permitted(byte));
    let (number, column) = match (record[RECORD - 1], wrong) {
        (b'\n', None) => (4, 1),
        (b'\n', Some(at)) => (3, at as u32 + 1),
        _ => (2, RECORD as u32),
    };
    Refusal::new(number, (entry.len() / RECORD) as u32 + 1, column)
}

/// Subentry, section, line and column of a question.
fn place(random: &mut Random, sheet: &Sheet) -> [u32; 4] {
    let subentry = match random.once_in(12) {
        true => random.one(&[0, 1, 2, 999, 1001, u32::MAX]),
        false => subentry(random, sheet),
    };
    let section = if random.once_in(12) { random.below(5) } else { random.within(1, 2) } as u32;
    let line = random.one(&[0, 1, 1, 1, 1, 2, 2, 3, 5, 6, u32::MAX]);
    let column = if random.once_in(2) { random.within(0, 20) } else { random.within(1, 3) } as u32;
    [subentry, section, line, column]
}

/// The number of a subentry as three digits, if they are that.
fn three_digits(digits: &[u8]) -> u32 {
    std::str::from_utf8(digits).ok().and_then(|text| text.parse().ok()).unwrap_or(0)
}

/// Whether a record of the sheet is still there: damage may have cut the bytes.
fn there(sheet: &Sheet, at: usize) -> bool {
    (at + 1) * RECORD <= sheet.bytes.len()
}

/// A subentry of the sheet.
fn subentry(random: &mut Random, sheet: &Sheet) -> u32 {
    let mut places = sheet.find(|kind| matches!(kind, Kind::System("SUBENT" | "NOSUBENT")));
    places.retain(|&at| there(sheet, at));
    if places.is_empty() {
        return 1;
    }
    three_digits(sheet.columns(random.one(&places), 20, 22))
}

/// A keyword and pointer that may have a passage, and the subentry that it would be in.
fn keyword(random: &mut Random, sheet: &Sheet) -> (u32, Vec<u8>, u8) {
    let mut places = sheet.find(|kind| matches!(kind, Kind::Text { .. }));
    places.retain(|&at| there(sheet, at));
    if places.is_empty() {
        return (1, b"TITLE     ".to_vec(), b' ');
    }
    let at = random.one(&places);
    let named = (0..=at).rev().find(|&at| sheet.columns(at, 1, 10) != b"          ").unwrap_or(at);
    // Now and then a place that is not ten bytes long.
    let last = if random.once_in(20) { random.within(1, 11) } else { 10 };
    let keyword = sheet.columns(named, 1, last).to_vec();
    let pointer = match random.below(4) {
        0 => b' ',
        1 => random.one(b"12AZ0a"),
        _ => sheet.columns(at, 11, 11)[0],
    };
    (three_digits(sheet.columns(at, 72, 74)), keyword, pointer)
}

//! A transmission (M-100) as the host takes it apart: told by its first record, its entries as parts of it.

use crate::answers::counted;
use crate::reference::record::is_accession;
use crate::{library, NoAnswer, Refusal, Verdict, RECORD};

/// Whether an input is a transmission: columns 1-11 of its first record are TRANS.
pub fn is_transmission(input: &[u8]) -> bool {
    input.starts_with(b"TRANS      ")
}

/// Goes over the entries of a transmission, from the record behind TRANS on, as long as one begins where the one before
/// it ends. Nothing is copied.
#[derive(Clone, Debug)]
pub struct Entries<'a> {
    file: &'a [u8],
    at: usize,
}

impl<'a> Entries<'a> {
    /// Those of a transmission, good or not.
    pub(crate) fn of(file: &'a [u8]) -> Entries<'a> {
        Entries { file, at: RECORD }
    }
}

impl<'a> Iterator for Entries<'a> {
    /// The first byte, counted from 0, and the entry from there on.
    type Item = (usize, &'a [u8]);

    fn next(&mut self) -> Option<(usize, &'a [u8])> {
        let first = self.at;
        self.at += library::entry_length(self.file, first);
        (self.at > first).then(|| (first, &self.file[first..self.at]))
    }
}

/// What is told of each entry of a transmission, one behind the other, with its ordinal; 31 where it is refused.
pub(crate) fn of_entries<T>(
    file: &[u8],
    told: fn(&[u8]) -> Result<Vec<T>, NoAnswer>,
    put: fn(usize, T) -> T,
) -> Result<Vec<T>, NoAnswer> {
    if let Verdict::Refused(refusal) = library::judge_file(file) {
        return Err(NoAnswer { number: 31, entry: Some(refusal) });
    }
    let mut all = Vec::new();
    for (place, (_, entry)) in library::entries(file).enumerate() {
        all.extend(told(entry)?.into_iter().map(|one| put(place + 1, one)));
    }
    Ok(all)
}

/// The accession in the ENTRY record of an entry, if it is one.
pub fn accession(entry: &[u8]) -> Option<&str> {
    let place = entry.get(17..22).filter(|place| is_accession(place))?;
    std::str::from_utf8(place).ok()
}

/// How many entries a transmission has, in words.
pub fn entries_in_words(file: &[u8]) -> String {
    counted(library::entries(file).count(), "entry", "entries")
}

/// Where a refused record stands in a transmission.
#[derive(Clone, Copy, Debug, PartialEq, Eq)]
pub struct Place<'a> {
    /// How many entries end before it.
    pub entries: usize,
    /// How many records there are up to the end of the last of these, or up to TRANS.
    pub before: usize,
    /// The record from there on, from 1: in the entry, where it is in one.
    pub record: usize,
    /// The entry that it is in, and all that stands behind it, if it is in one. With refusal 16 one that has not ended.
    pub entry: Option<&'a [u8]>,
}

impl<'a> Place<'a> {
    /// Of a refusal that names a record, where it is what judging says of this very transmission.
    pub fn of(file: &'a [u8], refusal: &Refusal) -> Place<'a> {
        let above = refusal.record.saturating_sub(1) as usize;
        let ends = library::entries(file).map(|(first, entry)| (first + entry.len()) / RECORD);
        let ends: Vec<usize> = ends.take_while(|&end| end <= above).collect();
        let before = ends.last().copied().unwrap_or(1).min(above);
        let open = refusal.ordinal > 0 || (refusal.number == 16 && above > before);
        let entry = open.then(|| &file[before * RECORD..]);
        Place { entries: ends.len(), before, record: above - before + 1, entry }
    }

    /// The entry that a refusal is in: its ordinal and its accession, if that is in its form.
    pub fn entry_in_words(&self) -> Option<String> {
        let accession = accession(self.entry?).map_or(String::new(), |accession| format!(" (accession {accession})"));
        Some(format!("entry {}{accession}", self.entries + 1))
    }
}

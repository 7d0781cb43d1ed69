//! Revisions (M-109): the subentries of both entries go into one map by number, the held ones first, and one of the revision takes
//! the place of a held one unless it is dated earlier. What is left in the map is handed out, and laid side by side it is the merge.

use super::judge;
use super::record::Name;
use super::tree::Tree;
use crate::revisions::{Chosen, RevisionRefusal, Which};
use crate::{Verdict, RECORD};
use std::collections::BTreeMap;
use std::ops::Range;

/// An accepted entry of the two.
struct Entry<'e> {
    bytes: &'e [u8],
    tree: Tree<'e>,
}

/// A subentry, NOSUBENT too.
struct Piece<'e> {
    which: Which,
    date: &'e [u8],
    absent: bool,
    place: Range<usize>,
    bytes: &'e [u8],
}

impl<'e> Entry<'e> {
    /// "60 either entry refused"
    fn of(which: Which, bytes: &'e [u8]) -> Result<Entry<'e>, RevisionRefusal> {
        match judge(bytes) {
            Verdict::Accepted(_) => Ok(Entry { bytes, tree: Tree::of(bytes) }),
            Verdict::Refused(refusal) => Err(RevisionRefusal::of_entry(which, refusal)),
        }
    }

    /// N1 of ENTRY without its blanks.
    fn accession(&self) -> &'e [u8] {
        self.tree.records[0].n1().trim_ascii()
    }

    /// N2 of ENTRY.
    fn date(&self) -> &'e [u8] {
        self.tree.records[0].n2()
    }

    /// The subentries with their numbers: whole records, up to ENDSUBENT, or the one record of NOSUBENT.
    fn pieces(&self, which: Which) -> Vec<(u32, Piece<'e>)> {
        let piece = |subentry: &super::tree::Subentry| {
            let last = subentry.end.unwrap_or(subentry.opening);
            let place = subentry.opening * RECORD..(last + 1) * RECORD;
            let digits = std::str::from_utf8(self.tree.number(subentry)).expect("digits");
            let date = self.tree.records[subentry.opening].n2();
            let bytes = &self.bytes[place.clone()];
            (digits.parse().expect("three digits"), Piece { which, date, absent: subentry.absent, place, bytes })
        };
        self.tree.subentries.iter().map(piece).collect()
    }
}

/// "60 either entry refused, the held one named first; 61 accessions differ"
fn both<'e>(held: &'e [u8], revision: &'e [u8]) -> Result<[Entry<'e>; 2], RevisionRefusal> {
    let both = [Entry::of(Which::Held, held)?, Entry::of(Which::Revision, revision)?];
    match both[0].accession() == both[1].accession() {
        true => Ok(both),
        false => Err(RevisionRefusal::numbered(61)),
    }
}

/// "the only one that has it, or, where both do, the revision unless its date for n is earlier". Eight digits are in the order of
/// the numbers that they write.
fn chosen<'e>([held, revision]: &[Entry<'e>; 2]) -> BTreeMap<u32, Piece<'e>> {
    let mut chosen: BTreeMap<u32, Piece> = held.pieces(Which::Held).into_iter().collect();
    for (number, piece) in revision.pieces(Which::Revision) {
        let stays = chosen.get(&number).is_some_and(|own| piece.date < own.date);
        if !stays {
            chosen.insert(number, piece);
        }
    }
    chosen
}

/// Hands out a subentry: "32 neither has n; 62 the one to hand out is NOSUBENT".
pub fn subentry(held: &[u8], revision: &[u8], number: u32) -> Result<Chosen, RevisionRefusal> {
    let all = chosen(&both(held, revision)?);
    let piece = all.get(&number).ok_or(RevisionRefusal::numbered(32))?;
    match piece.absent {
        true => Err(RevisionRefusal::numbered(62)),
        false => Ok(Chosen { which: piece.which, first: piece.place.start, length: piece.place.len() }),
    }
}

/// "the merged entry in number order, NOSUBENTs too, its ENTRY and ENDENTRY records the revision's but with the later ENTRY date and
/// the true count, no leading zeros"
fn whole(entries: &[Entry; 2]) -> Vec<u8> {
    let [held, revision] = entries;
    let pieces = chosen(entries);
    let (first, last) = (revision.tree.records[0], revision.tree.records[revision.tree.records.len() - 1]);
    debug_assert_eq!((Name::of(first), Name::of(last)), (Some(Name::Entry), Some(Name::EndEntry)));
    // N2 is columns 23-33, N1 is 12-22.
    let later = held.date().max(revision.date());
    let mut merged = [&first.0[..22], later, &first.0[33..]].concat();
    pieces.values().for_each(|piece| merged.extend_from_slice(piece.bytes));
    let count = format!("{:>11}", pieces.len());
    merged.extend([&last.0[..11], count.as_bytes(), &last.0[22..]].concat());
    merged
}

/// Merges: "37 buffer shorter than both lengths together; 63 the merge is refused, and its bytes in the buffer are then blanks". By
/// any other number nothing is stored.
pub fn merge(held: &[u8], revision: &[u8], buffer: &mut [u8]) -> Result<usize, RevisionRefusal> {
    let entries = both(held, revision)?;
    if buffer.len() < held.len() + revision.len() {
        return Err(RevisionRefusal::numbered(37));
    }
    let merged = whole(&entries);
    match judge(&merged) {
        Verdict::Accepted(_) => {
            buffer[..merged.len()].copy_from_slice(&merged);
            Ok(merged.len())
        }
        Verdict::Refused(refusal) => {
            buffer[..merged.len()].fill(b' ');
            Err(RevisionRefusal::of_merge(refusal, merged.len()))
        }
    }
}

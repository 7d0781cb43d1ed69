//! Revisions (M-109): a held entry and a revision of it, from which subentries are handed out and one entry is merged.
//!
//! ```
//! use glockenbeacon::library;
//! use glockenbeacon::revisions::{merged, Which};
//!
//! let held = std::fs::read("data/sample.x4")?;
//! let mut revision = held.clone();
//! revision[12 * 81 + 32] = b'6'; // SUBENT 90001002 is dated a day later
//! let found = library::subentry(&held, &revision, 2)?;
//! assert_eq!((found.which, found.first, found.date()), (Which::Revision, 972, "20240106"));
//! assert_eq!(found.bytes, &revision[972..972 + 1053]); // a part of the revision: nothing is copied
//! assert_eq!(merged(&held, &revision)?, revision);
//! # Ok::<(), Box<dyn std::error::Error>>(())
//! ```

use crate::{library, Index, NoAnswer, Refusal, RECORD};
use std::collections::BTreeMap;
use std::fmt;
use std::ops::Range;

/// One of the two entries.
#[derive(Clone, Copy, Debug, PartialEq, Eq, PartialOrd, Ord, Hash)]
pub enum Which {
    /// The held one.
    Held,
    /// The revision.
    Revision,
}

impl Which {
    /// The two, the held one first.
    pub fn both() -> [Which; 2] {
        [Which::Held, Which::Revision]
    }

    /// That one of the two.
    pub fn of<'e>(self, held: &'e [u8], revision: &'e [u8]) -> &'e [u8] {
        match self {
            Which::Held => held,
            Which::Revision => revision,
        }
    }

    /// In words.
    pub fn in_words(self) -> &'static str {
        match self {
            Which::Held => "the held entry",
            Which::Revision => "the revision",
        }
    }
}

/// Why a subentry is not handed out, or no merge is delivered.
#[derive(Clone, Copy, Debug, PartialEq, Eq, Hash)]
pub struct RevisionRefusal {
    /// 60 and 61; 32 and 62 of a subentry; 37 and 63 of a merge.
    pub number: u32,
    /// With 60, which of the two is refused: the held one where both are.
    pub which: Option<Which>,
    /// With 60, why that entry is refused; with 63, why the merge is.
    pub refusal: Option<Refusal>,
    /// With 63, how many bytes the merge has: so many of the buffer are then blanks. Else 0.
    pub length: usize,
}

impl RevisionRefusal {
    /// A refusal that stands alone.
    pub(crate) fn numbered(number: u32) -> RevisionRefusal {
        RevisionRefusal { number, which: None, refusal: None, length: 0 }
    }

    /// 60.
    pub(crate) fn of_entry(which: Which, refusal: Refusal) -> RevisionRefusal {
        RevisionRefusal { number: 60, which: Some(which), refusal: Some(refusal), length: 0 }
    }

    /// 63.
    pub(crate) fn of_merge(refusal: Refusal, length: usize) -> RevisionRefusal {
        RevisionRefusal { number: 63, which: None, refusal: Some(refusal), length }
    }

    /// What the number stands for, in the words of M-109.
    pub fn meaning(&self) -> &'static str {
        match (self.number, self.which) {
            (60, Some(Which::Held)) => "the held entry is refused",
            (60, _) => "the revision is refused",
            (61, _) => "the two entries have different accessions",
            (32, _) => "neither entry has that subentry",
            (62, _) => "the subentry to hand out is NOSUBENT",
            (37, _) => "the buffer is shorter than both entries together",
            (63, _) => "the merge is refused",
            _ => NoAnswer::numbered(self.number).meaning(),
        }
    }
}

impl fmt::Display for RevisionRefusal {
    fn fmt(&self, f: &mut fmt::Formatter<'_>) -> fmt::Result {
        write!(f, "refusal {}: {}", self.number, self.meaning())?;
        match self.refusal {
            Some(refusal) => write!(f, " ({refusal})"),
            None => Ok(()),
        }
    }
}

impl std::error::Error for RevisionRefusal {}

/// Where a subentry that is handed out stands: whole records of one of the two entries.
#[derive(Clone, Copy, Debug, PartialEq, Eq, Hash)]
pub struct Chosen {
    /// Which of the two holds it.
    pub which: Which,
    /// Its first byte there, counted from 0.
    pub first: usize,
    /// How many bytes, from SUBENT to ENDSUBENT.
    pub length: usize,
}

impl Chosen {
    /// The subentry, where these are the two entries that were asked about.
    pub fn of<'e>(&self, held: &'e [u8], revision: &'e [u8]) -> Subentry<'e> {
        let bytes = &self.which.of(held, revision)[self.first..self.first + self.length];
        Subentry { which: self.which, first: self.first, bytes }
    }
}

/// A subentry as a part of the entry that holds it.
#[derive(Clone, Copy, Debug, PartialEq, Eq, Hash)]
pub struct Subentry<'e> {
    /// Which of the two that is.
    pub which: Which,
    /// The first byte there, counted from 0.
    pub first: usize,
    /// The records from SUBENT to ENDSUBENT.
    pub bytes: &'e [u8],
}

impl<'e> Subentry<'e> {
    /// Where it stands.
    pub fn place(&self) -> Chosen {
        Chosen { which: self.which, first: self.first, length: self.bytes.len() }
    }

    /// Its date, YYYYMMDD.
    pub fn date(&self) -> &'e str {
        date(self.bytes)
    }
}

/// The date of a record, in columns 26-33.
fn date(record: &[u8]) -> &str {
    record.get(25..33).and_then(|digits| std::str::from_utf8(digits).ok()).unwrap_or_default()
}

/// The merge of a held entry and a revision, in bytes of its own: 60, 61 or 63.
pub fn merged(held: &[u8], revision: &[u8]) -> Result<Vec<u8>, RevisionRefusal> {
    let mut buffer = vec![b' '; held.len() + revision.len()];
    let length = library::merge(held, revision, &mut buffer)?;
    buffer.truncate(length);
    Ok(buffer)
}

/// Where each record of a merge comes from, for words about one that is refused, whose bytes are not delivered. It is made from
/// the indexes of both entries.
pub struct Origins {
    /// Records of one of the two, in the order of the merge.
    runs: Vec<(Which, Range<usize>)>,
}

impl Origins {
    /// Those of the merge of two accepted entries of one accession; none where one is refused.
    pub fn of(held: &[u8], revision: &[u8]) -> Option<Origins> {
        let mut chosen = BTreeMap::new();
        for which in Which::both() {
            let entry = which.of(held, revision);
            let index = Index::of(entry).ok()?;
            let mut firsts: Vec<usize> = index.rows().map(|row| row.first as usize - 1).collect();
            firsts.push(entry.len() / RECORD - 1);
            for (row, run) in index.rows().zip(firsts.windows(2)) {
                let date = date(&entry[RECORD * run[0]..]);
                let earlier = chosen.get(&row.subentry).is_some_and(|(_, _, held)| date < *held);
                if !earlier {
                    chosen.insert(row.subentry, (which, run[0]..run[1], date));
                }
            }
        }
        let last = revision.len() / RECORD - 1;
        let mut runs = vec![(Which::Revision, 0..1)];
        runs.extend(chosen.into_values().map(|(which, run, _)| (which, run)));
        runs.push((Which::Revision, last..last + 1));
        Some(Origins { runs })
    }

    /// The entry that a record of the merge is of, and which of its records it is; all count from 1.
    pub fn place(&self, record: u32) -> Option<(Which, usize)> {
        let mut before = 0;
        let at = (record as usize).checked_sub(1)?;
        self.runs.iter().find_map(|(which, run)| {
            let own = at.checked_sub(before).filter(|own| *own < run.len());
            before += run.len();
            own.map(|own| (*which, run.start + own + 1))
        })
    }

    /// The records of the merge as they stand in the two entries: date and count of its ENTRY and ENDENTRY are the revision's.
    pub fn records(&self, held: &[u8], revision: &[u8]) -> Vec<u8> {
        let bytes = |(which, run): &(Which, Range<usize>)| {
            which.of(held, revision)[RECORD * run.start..RECORD * run.end].to_vec()
        };
        self.runs.iter().flat_map(bytes).collect()
    }
}

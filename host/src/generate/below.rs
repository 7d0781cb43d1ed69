//! Other records in the place of those below a record, and one record behind an entry (M-111).

use super::{entry, Random};
use crate::RECORD;

/// What stands below the records that are kept.
#[derive(Clone, Copy, Debug, PartialEq, Eq)]
pub enum Below {
    /// Nothing: the input ends there.
    Nothing,
    /// Blank records.
    Blank,
    /// Whole records of any bytes.
    Bytes,
    /// A valid entry.
    Entry,
    /// The first records once more.
    Again,
    /// The records that stood there, with every byte changed.
    Changed,
}

/// All of these.
pub const BELOW: [Below; 6] = [Below::Nothing, Below::Blank, Below::Bytes, Below::Entry, Below::Again, Below::Changed];

/// The first so many records of an input, with something else below them.
pub fn with_below(random: &mut Random, input: &[u8], records: usize, below: Below) -> Vec<u8> {
    let (kept, rest) = input.split_at(records * RECORD);
    let count = random.within(1, 6);
    let tail = match below {
        Below::Nothing => Vec::new(),
        Below::Blank => BLANK.repeat(count),
        Below::Bytes => any_bytes(random, count),
        Below::Entry => entry(random).bytes,
        Below::Again => kept[..count.min(records) * RECORD].to_vec(),
        Below::Changed => rest.iter().map(|byte| byte ^ random.within(1, 255) as u8).collect(),
    };
    [kept, &tail].concat()
}

/// A record of blanks.
pub const BLANK: [u8; RECORD] = {
    let mut record = [b' '; RECORD];
    record[RECORD - 1] = b'\n';
    record
};

/// Whole records of any bytes.
pub fn any_bytes(random: &mut Random, records: usize) -> Vec<u8> {
    (0..records * RECORD).map(|_| random.bits() as u8).collect()
}

/// A record to put behind an entry: blank, of any bytes, or one of the entry's own, whole or with one byte changed.
pub fn added(random: &mut Random, entry: &[u8]) -> Vec<u8> {
    let mut record = match random.below(4) {
        0 => BLANK.to_vec(),
        1 => any_bytes(random, 1),
        _ => {
            let at = random.below(entry.len() / RECORD);
            entry[at * RECORD..][..RECORD].to_vec()
        }
    };
    match random.below(4) {
        0 => record[RECORD - 1] = random.one(b" \rA\0"),
        1 => record[random.below(RECORD - 1)] = random.one(b"#\"\n\r\0\x80\xFF"),
        2 => record[random.below(RECORD - 1)] = random.bits() as u8,
        _ => {}
    }
    record
}

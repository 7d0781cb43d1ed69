//! A second implementation of the paper, to hold the library against.
//!
//! It is written from the paper alone and finds things in another way, so that a slip made in one is unlikely in the
//! other. The whole entry is first laid out as a tree by nesting and counts. Then each row of the table of refusals
//! walks the tree by itself and notes all its faults, with sets and maps for what may not occur twice and runs of equal
//! neighbours for headings that may (M-101); the verdict is the least of the noted faults. A number field is taken
//! apart as text, its digits are counted by its characters, a flag is its code (M-105) by its digits, and the canonical
//! field is found by trying the shapes of fields in the paper's order of preference. A transmission (M-100) is cut
//! behind each ENDENTRY, and every piece is judged as an entry of its own. Why it is refused (M-108) is read off the tree
//! of the records up to the refused one. An index (M-102) is made from the tree, and asked without it, by reads that refuse
//! one after another. A walk over a table (M-112) is begun by the tree, and goes on by its numbers alone. A double (M-107)
//! is found by dividing whole numbers. A line in the CINDA2001 layout (M-113) is cut by the manual's table of formats. A code under
//! DECAY-DATA (M-106) is cut at its commas, and what begins a field is found by trying endings. Of a held entry and its revision
//! (M-109) all subentries go into one map by their numbers.

mod cinda;
pub mod decay;
mod double;
mod files;
pub mod flags;
mod index;
pub mod number;
pub mod questions;
mod reasons;
pub mod record;
mod revisions;
mod rules;
pub mod tree;
mod walk;

use crate::{Refusal, Verdict};
pub use cinda::{cinda_back, cinda_check, cinda_line, cinda_pieces};
pub use decay::{decay, decay_energy, decay_group, decay_head, decay_in, decay_type};
pub use double::{as_double, double, index_double, read_double};
pub use files::{copy_file, entry_length, judge_file};
pub use index::{index_heading, index_passage, index_row, index_unit, index_value, make_index};
pub use number::{read_number, write_number};
pub use questions::{canonical_copy, heading, passage, unit, value};
pub use reasons::{explain, explain_file};
pub use revisions::{merge, subentry};
pub use rules::may_repeat;
use tree::Tree;
pub use walk::{walk, walk_next};

/// "An entry is 1 to 20,000 records."
const MOST_RECORDS: usize = 20_000;

/// Whether the length alone is refused: "length 0, not a multiple of 81, or over 1,620,000", where so many records are
/// the most.
fn wrong_length(bytes: &[u8], most: usize) -> bool {
    bytes.is_empty() || bytes.len() > most * crate::RECORD || bytes.len() % crate::RECORD != 0
}

/// Judges one entry.
pub fn judge(bytes: &[u8]) -> Verdict {
    if wrong_length(bytes, MOST_RECORDS) {
        return Verdict::Refused(Refusal::new(1, 0, 0));
    }
    let tree = Tree::of(bytes);
    match rules::faults(&tree).iter().min() {
        None => Verdict::Accepted(rules::totals(&tree)),
        Some(fault) => Verdict::Refused(Refusal::new(fault.number, fault.record as u32 + 1, fault.column as u32)),
    }
}

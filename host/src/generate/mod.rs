//! Makes inputs for tests: valid entries of every shape, entries damaged in known and unknown ways, transmissions of
//! both, indexes, walks, number fields and decimals, lines in the CINDA2001 layout, entries with codes under DECAY-DATA, pairs of a
//! held entry and a revision. Everything follows from a seed, so that a printed seed brings an input back.

mod below;
mod cinda;
mod damage;
mod decay;
mod doubles;
mod files;
mod flags;
mod index;
mod large;
mod numbers;
mod revisions;
mod sheet;
mod walk;
mod workloads;

pub use below::{added, any_bytes, with_below, Below, BELOW, BLANK};
pub use cinda::{cinda_input, cinda_limits, cinda_line, cinda_lines, CINDA_CAUSES};
pub use damage::{damage, damaged, noise, random_bytes, Damage, CAUSES};
pub use decay::{
    code, damaged_code, decay_entry, decay_entry_of, decay_passage, decay_texts, laid_out, long_code, long_entry,
};
pub use decay::{Layout, LAYOUTS, LONGEST_CODE};
pub use doubles::{decimal_in_hand, double_field, halfway};
pub use files::{damaged_file, file_input, file_limits, transmission, Parts, FILE_CAUSES};
pub use index::{alter_entry, alter_index, index_of};
pub use large::{large, large_table, Shape, SHAPES};
pub use numbers::{decimal, number_field, spelling, usual_spelling};
pub use revisions::{absent, breaking, dated, good_pair, renumbered, revised, revised_limits, Apart, Revised};
pub use sheet::{entry, Kind, Sheet};
pub use walk::walk;
pub use workloads::{Workload, WORKLOADS};

/// A small generator of pseudo-random numbers (SplitMix64).
#[derive(Clone, Debug)]
pub struct Random(u64);

impl Random {
    /// The generator of this seed.
    pub fn seeded(seed: u64) -> Random {
        Random(seed)
    }

    /// The next 64 bits.
    pub fn bits(&mut self) -> u64 {
        self.0 = self.0.wrapping_add(0x9E37_79B9_7F4A_7C15);
        let mut bits = self.0;
        bits = (bits ^ (bits >> 30)).wrapping_mul(0xBF58_476D_1CE4_E5B9);
        bits = (bits ^ (bits >> 27)).wrapping_mul(0x94D0_49BB_1331_11EB);
        bits ^ (bits >> 31)
    }

    /// A number below `end`.
    pub fn below(&mut self, end: usize) -> usize {
        (self.bits() % end as u64) as usize
    }

    /// A number from `first` to `last`.
    pub fn within(&mut self, first: usize, last: usize) -> usize {
        first + self.below(last - first + 1)
    }

    /// True once in `of` times.
    pub fn once_in(&mut self, of: usize) -> bool {
        self.below(of) == 0
    }

    /// One of some things.
    pub fn one<T: Copy>(&mut self, of: &[T]) -> T {
        of[self.below(of.len())]
    }
}

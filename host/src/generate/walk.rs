//! Walks (M-112) over any bytes: near the tables of an entry, at the limits, or any five numbers.

use super::{index_of, Random};
use crate::walk::Walk;

/// A walk that often stands at a place of a table, whether the entry has it or not.
pub fn walk(random: &mut Random, entry: &[u8]) -> Walk {
    let index = index_of(entry);
    let record = match index.is_empty() || random.once_in(3) {
        true => random.one(&[0, 1, 7, 19, 20, 19_999, 20_000]),
        false => random.one(&index),
    };
    let columns = random.one(&[1, 2, 3, 5, 6, 7, 11, 12, 13, 17, 18]);
    let lines = random.one(&[1, 2, 3, 4, 6, 19_999, 20_000]);
    let near = |random: &mut Random, last: u32| match random.below(3) {
        0 => 1,
        1 => last.saturating_sub(random.below(3) as u32),
        _ => 1 + random.below(last as usize) as u32,
    };
    let mut walk = [record, columns, lines, near(random, lines).max(1), near(random, columns).max(1)];
    if random.once_in(3) {
        let place = random.below(5);
        walk[place] = match random.below(6) {
            0 => 0,
            1 => [20_001, 19, 20_001, lines + 1, columns + 1][place],
            2 => walk[place].wrapping_sub(1),
            3 => walk[place].wrapping_add(1),
            4 => random.one(&[18, 19, 20_000, 20_001, 1 << 31, u32::MAX]),
            _ => random.bits() as u32,
        };
    }
    walk
}

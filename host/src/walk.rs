//! Values in order (M-112): a table is gone through left to right and line by line.
//!
//! ```
//! use glockenbeacon::{library, DATA};
//!
//! let entry = std::fs::read("data/sample.x4")?;
//! let mut values = library::values(&entry, 2, DATA)?; // judges once
//! assert_eq!((values.columns(), values.lines(), values.len()), (3, 2, 6));
//! let second = values.nth(1).expect("there are six");
//! assert_eq!((second.line, second.column), (1, 2));
//! assert_eq!(Ok(second.read), library::value(&entry, 2, DATA, 1, 2));
//! assert_eq!(values.last().map(|last| (last.line, last.column)), Some((2, 3)));
//! # Ok::<(), Box<dyn std::error::Error>>(())
//! ```

use crate::{library, FieldRead, NoAnswer, Simple};
use std::iter::FusedIterator;

/// Where a walk stands: the record of its section, the section's columns and lines, and the line and the column of the
/// next value. Five zeros are done.
pub type Walk = [u32; 5];

/// What [`library::walk_next`] gives: line and column, and what the field there says. It is malformed, 15, in no accepted
/// entry; the walk goes on behind it.
pub type Given = (u32, u32, Result<FieldRead, NoAnswer>);

/// A value and its place.
#[derive(Clone, Copy, Debug, PartialEq, Eq, Hash)]
pub struct Placed {
    /// The line, from 1.
    pub line: u32,
    /// The column, from 1.
    pub column: u32,
    /// What stands there, blank or a number, and its count of digits: the answer of [`library::value`].
    pub read: FieldRead,
}

impl Placed {
    /// The value as a double (M-107): the answer of [`library::double`].
    #[inline]
    pub fn double(&self) -> Simple {
        library::doubled(self.read).value
    }
}

/// The values of a table, each once, left to right and line by line; from [`library::values`]. It keeps the entry, so that
/// this stays the accepted one, and no field of it is malformed. A walk over any other bytes is [`library::walk_next`].
#[derive(Clone, Debug)]
pub struct Values<'e> {
    entry: &'e [u8],
    walk: Walk,
}

impl<'e> Values<'e> {
    /// The values of a section, none of them given yet.
    pub(crate) fn of(entry: &'e [u8], subentry: u32, section: u32) -> Result<Values<'e>, NoAnswer> {
        library::walk(entry, subentry, section).map(|walk| Values { entry, walk })
    }

    /// The table's columns.
    pub fn columns(&self) -> u32 {
        self.walk[1]
    }

    /// The table's lines; of COMMON one.
    pub fn lines(&self) -> u32 {
        self.walk[2]
    }

    /// Where it stands.
    pub fn walk(&self) -> Walk {
        self.walk
    }
}

impl Iterator for Values<'_> {
    type Item = Placed;

    #[inline]
    fn next(&mut self) -> Option<Placed> {
        let (line, column, read) = library::walk_next(self.entry, &mut self.walk)?;
        Some(Placed { line, column, read: read.expect("no field of an accepted entry is malformed") })
    }

    fn size_hint(&self) -> (usize, Option<usize>) {
        let [_, columns, lines, line, column] = self.walk;
        let left = if line > lines { 0 } else { (lines - line) * columns + (columns - column) + 1 } as usize;
        (left, Some(left))
    }
}

impl ExactSizeIterator for Values<'_> {}

impl FusedIterator for Values<'_> {}

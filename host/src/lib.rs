//! Reads EXFOR entries, from ENTRY to ENDENTRY: judges them and says why, answers questions about their tables and
//! passages, with an index beside the entry where there are many, goes through a table value by value, reads and writes
//! number fields, gives values as doubles, and copies entries canonically. A whole transmission, from TRANS to ENDTRANS,
//! is judged, taken apart into its entries and copied. Codes under DECAY-DATA are taken apart into their fields. Lines in the
//! CINDA2001 layout are checked, taken apart and written back. A held entry and its revision are merged, and subentries are handed
//! out of whichever of the two holds them.
//!
//! "The paper" is document 01, `Build requirements and exact rules`, with eleven requests of document 02: M-104, the
//! count of digits, M-101, headings that may repeat, M-105, a number under FLAG equals a code, M-100, whole
//! transmissions, M-108, the reason of a refusal, M-102, an index of subentries, M-112, values in order, M-107, values as
//! doubles, M-113, CINDA lines, M-106, codes under DECAY-DATA, and M-109, revisions. Its numbers are kept: a refusal here has the number that the paper gives it, records,
//! lines and columns count from 1, and an accepted entry has the paper's four totals. Programs call [`library`];
//! [`reference`] is a second implementation, written from the paper alone, which the tests hold against the first.
//!
//! ```
//! use glockenbeacon::{library, Reason, Value, Verdict, DATA};
//!
//! let entry = std::fs::read("data/sample.x4")?;
//! match library::judge(&entry) {
//!     Verdict::Accepted(totals) => assert_eq!(totals.numbers, 6),
//!     Verdict::Refused(refusal) => panic!("{refusal}"),
//! }
//! let mut wrong = entry.clone();
//! wrong[5 * 81 + 21] = b'1'; // ENDBIB says that there is 1 record
//! assert_eq!(library::explain(&wrong).reason, Reason::Count { announced: 1, due: 2 });
//! let read = library::value(&entry, 2, DATA, 1, 2)?;
//! if let Value::Number(decimal) = read.value {
//!     assert_eq!((decimal.to_string().as_str(), read.digits), ("0.145", 3));
//! }
//! let index = library::Index::of(&entry)?; // from now on nothing is judged
//! assert_eq!(index.value(&entry, 2, DATA, 1, 2)?, read);
//! for place in library::values(&entry, 2, DATA)? {
//!     println!("line {}, column {}: {:?}, {:?}", place.line, place.column, place.read.value, place.double());
//! }
//! let file = std::fs::read("data/transmission.x4")?;
//! assert!(library::judge_file(&file).refusal().is_none());
//! for (first, entry) in library::entries(&file) {
//!     println!("byte {first}: {}", library::judge(entry));
//! }
//! # Ok::<(), Box<dyn std::error::Error>>(())
//! ```

#![deny(unsafe_code)]
#![warn(missing_docs)]

pub mod answers;
#[allow(unsafe_code)]
pub mod boundary;
pub mod cinda;
pub mod codes;
pub mod compare;
pub mod decay;
pub mod decimal;
pub mod differ;
pub mod double;
pub mod explain;
pub mod generate;
pub mod index;
pub mod json;
pub mod library;
pub mod plot;
pub mod reference;
pub mod revisions;
pub mod tables;
pub mod transmission;
pub mod walk;
pub mod words;

pub use answers::{Explained, NoAnswer, Part, Reason, Refusal, Totals, Verdict};
pub use decimal::{Decimal, FieldRead, Value};
pub use double::{DoubleRead, Simple};
pub use index::Index;

/// "A record is 80 columns and one line feed (81 bytes)."
pub const RECORD: usize = 81;

/// The section number of COMMON in questions: "1 COMMON, 2 DATA".
pub const COMMON: u32 = 1;

/// The section number of DATA in questions.
pub const DATA: u32 = 2;

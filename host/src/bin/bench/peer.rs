//! What a file for `bench --peer` has to offer, answered by the reference. Types may have more, and may be other types
//! of the same shape; of a refusal nothing is looked at.

use glockenbeacon::{reference, Decimal, FieldRead, NoAnswer, Value};

pub struct Number {
    pub negative: bool,
    pub coefficient: u64,
    pub power: i32,
}

pub enum Field {
    Blank,
    Number(Number),
}

pub struct Verdict {
    pub refusal: u32,
    pub record: u32,
    pub column: u32,
    pub subentries: u32,
    pub keywords: u32,
    pub lines: u32,
    pub numbers: u32,
}

pub fn judge(entry: &[u8]) -> Verdict {
    let [refusal, record, column, subentries, keywords, lines, numbers] = reference::judge(entry).numbers();
    Verdict { refusal, record, column, subentries, keywords, lines, numbers }
}

/// The section is 1 for COMMON and 2 for DATA.
pub fn value(entry: &[u8], subentry: u32, section: u32, line: u32, column: u32) -> Result<Field, NoAnswer> {
    reference::value(entry, subentry, section, line, column).map(field)
}

/// The canonical copy, into a buffer of the entry's length.
pub fn copy(entry: &[u8], buffer: &mut [u8]) -> Result<(), NoAnswer> {
    reference::canonical_copy(entry, buffer)
}

/// Of a field of eleven columns.
pub fn read_number(columns: &[u8]) -> Result<Field, NoAnswer> {
    reference::read_number(columns).map(field)
}

/// The canonical field into eleven bytes; 0, or the number of the refusal.
pub fn write_number(negative: bool, coefficient: u64, power: i32, buffer: &mut [u8]) -> u32 {
    match reference::write_number(Decimal { negative, coefficient, power }, buffer) {
        Ok(()) => 0,
        Err(none) => none.number,
    }
}

fn field(read: FieldRead) -> Field {
    match read.value {
        Value::Blank => Field::Blank,
        Value::Number(Decimal { negative, coefficient, power }) => {
            Field::Number(Number { negative, coefficient, power })
        }
    }
}

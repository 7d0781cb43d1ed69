//! What a call of the proved archives hands back: the word that it returns, and the numbers in the array that it was
//! lent. `include/x4.h` has the same in C.
//!
//! | bits of the word | |
//! |---|---|
//! | 0-7 | the paper's number; 0 answered |
//! | 8-15 | the refusal of the entry or transmission, if it is refused |
//! | 16-23 | its column |
//! | 24-47 | its record |
//! | 48-63 | the ordinal of the entry in a transmission; 0 for a single entry |
//! | 48-55 | of a double: 0 blank or refused, 1 a double, 2 a decimal outside the simple range |
//! | 56-63 | of a double: how many digits are written in the field |
//!
//! Of a call about lines (M-113) the word has its refusal in bits 0-7, the column in 16-23 and the line in 24-47; all other
//! bits are 0.
//!
//! Of a call for a code (M-106) it has beside 50 and 51 the column in bits 16-23 and the record in 24-47, and nothing in 8-15; the
//! word of a head has beside 50 in bits 24-63 how many characters stand before the first that no code has there.
//!
//! Of a held entry and a revision (M-109) it has beside 60 in bits 48-63 which of the two is refused, 1 the held one, 2 the revision,
//! and in 8-47 its refusal, column and record; beside 63 those of the merge, and nothing in 48-63. A subentry that is handed out is
//! which of the two holds it, first byte and length.
//!
//! A value is kind (0 blank, 1 number), whether it is below zero, coefficient, power of ten in two's complement, the
//! count of digits written, and three zeros; a part is first byte, length and pointer; the totals are subentries,
//! keywords, lines and numbers; the place of a walk's next value is 1, line and column, or three zeros where none is left.
//!
//! | facts of a reason | | |
//! |---|---|---|
//! | 0 | 0, 0 | nothing more is said |
//! | 1 | announced, true | a count |
//! | 2 | least, greatest (0 none) | a range |
//! | 3 | number of the subentry before (0 none), 0 | |
//! | 4 | record, column | the first equal heading |
//! | 5 | pointer, 0 | |
//! | 6 | 0, 0 | the expected characters stand beside them, which are eight blanks else |

use crate::cinda::{Line, LinesRefusal, Mass, Piece, Pieces};
use crate::decay::{CodeRefusal, GroupRead, HeadRead, NoCode, NumberRead, Place};
use crate::revisions::{Chosen, RevisionRefusal, Which};
use crate::walk::Given;
use crate::{
    Decimal, DoubleRead, Explained, FieldRead, NoAnswer, Part, Reason, Refusal, Simple, Totals, Value, Verdict,
};

/// The version of the interface that this module takes apart.
pub const VERSION: u32 = 4;

/// Answered, or why not.
pub fn answered(word: u64) -> Result<(), NoAnswer> {
    match word & 0xff {
        0 => Ok(()),
        number => Err(NoAnswer { number: number as u32, entry: entry_refusal(word) }),
    }
}

/// The refusal of the entry or transmission, if there is one.
fn entry_refusal(word: u64) -> Option<Refusal> {
    let rooms = [word >> 8 & 0xff, word >> 16 & 0xff, word >> 24 & 0xff_ffff, word >> 48];
    let [number, column, record, ordinal] = rooms.map(|n| n as u32);
    (number != 0).then_some(Refusal { number, record, column, ordinal })
}

/// What a verdict's word and totals say.
pub fn verdict(word: u64, totals: [u64; 4]) -> Verdict {
    if let Some(refusal) = entry_refusal(word) {
        return Verdict::Refused(refusal);
    }
    let [subentries, keywords, lines, numbers] = totals.map(|total| total as u32);
    Verdict::Accepted(Totals { subentries, keywords, lines, numbers })
}

/// What the array of a value says, where the call is answered.
pub fn value([kind, negative, coefficient, power, digits, ..]: [u64; 8]) -> FieldRead {
    let value = match kind {
        0 => Value::Blank,
        _ => Value::Number(Decimal { negative: negative == 1, coefficient, power: power as i64 as i32 }),
    };
    FieldRead { value, digits: digits as u32 }
}

/// What the array of a heading, a unit or a passage says, where the call is answered.
pub fn part([first, length, pointer]: [u64; 3]) -> Part {
    Part { offset: first as usize, length: length as usize, pointer: pointer as u8 }
}

/// What the word and the arrays of a walk's next value say; none where the walk is done.
#[inline]
pub fn given(word: u64, [some, line, column]: [u64; 3], numbers: [u64; 8]) -> Option<Given> {
    (some == 1).then(|| (line as u32, column as u32, answered(word).map(|()| value(numbers))))
}

/// What the word of a call that stores a double and what is stored then say; none where the value is a decimal outside the
/// simple range, which the call does not give.
#[inline]
pub fn double(word: u64, double: f64) -> Result<Option<DoubleRead>, NoAnswer> {
    answered(word)?;
    let read = |value| DoubleRead { value, digits: (word >> 56) as u32 };
    Ok(match word >> 48 & 0xff {
        0 => Some(read(Simple::Blank)),
        1 => Some(read(Simple::Double(double))),
        _ => None,
    })
}

/// The double and the word of an answer, as a call hands them back; the double is 0.0 where none is stored.
pub fn double_calls(answer: Result<DoubleRead, NoAnswer>) -> (f64, u64) {
    match answer {
        Ok(DoubleRead { value, digits }) => {
            (value.double().unwrap_or(0.0), value.kind() << 48 | u64::from(digits) << 56)
        }
        Err(NoAnswer { number, entry }) => {
            let [refusal, column, record] =
                entry.map_or([0; 3], |entry| [entry.number, entry.column, entry.record].map(u64::from));
            (0.0, u64::from(number) | refusal << 8 | column << 16 | record << 24)
        }
    }
}

/// What the arrays of a reason say.
pub fn reason([kind, one, other]: [u64; 3], characters: [u8; 8]) -> Reason {
    match kind {
        0 => Reason::Alone,
        1 => Reason::Count { announced: one, due: other },
        2 => Reason::Range { least: one, greatest: other },
        3 => Reason::Previous(one as u32),
        4 => Reason::Equal { record: one as u32, column: other as u32 },
        5 => Reason::Pointer(one as u8),
        _ => Reason::Expected(characters),
    }
}

/// What the word and the arrays of an explained verdict say.
pub fn explained(word: u64, totals: [u64; 4], facts: [u64; 3], characters: [u8; 8]) -> Explained {
    Explained { verdict: verdict(word, totals), reason: reason(facts, characters) }
}

/// Answered, or why not, where the call is about lines (M-113).
pub fn lines_answered(word: u64) -> Result<(), LinesRefusal> {
    let [number, column, line] = [word & 0xff, word >> 16 & 0xff, word >> 24 & 0xff_ffff].map(|room| room as u32);
    match number {
        0 => Ok(()),
        _ => Err(LinesRefusal { number, line, column }),
    }
}

/// The word of such an answer.
pub fn lines_word(answer: Result<(), LinesRefusal>) -> u64 {
    match answer {
        Ok(()) => 0,
        Err(LinesRefusal { number, line, column }) => {
            u64::from(number) | u64::from(column) << 16 | u64::from(line) << 24
        }
    }
}

/// What the three arrays of a line say: numbers and characters, the least energy, the greatest.
pub fn line(numbers: [u64; 14], least: [u64; 8], greatest: [u64; 8]) -> Line {
    let number = |place: usize| numbers[place] as u32;
    let byte = |place: usize| numbers[place] as u8;
    Line {
        operation: byte(0),
        z: number(1),
        mass: if numbers[3] == 1 { Mass::Many } else { Mass::Number(number(2)) },
        isomer: byte(4),
        area: byte(5),
        block: number(6),
        sequence: number(7),
        work: byte(8),
        reader: byte(9),
        least: value(least),
        greatest: value(greatest),
        hierarchy: byte(10),
        kind: byte(11),
        year: number(12),
        month: number(13),
    }
}

/// The three arrays of a line, as they are stored.
pub fn line_stored(line: &Line) -> ([u64; 14], [u64; 8], [u64; 8]) {
    let (a, many) = match line.mass {
        Mass::Number(a) => (a, 0),
        Mass::Many => (0, 1),
    };
    let [operation, isomer, area, work] = [line.operation, line.isomer, line.area, line.work].map(u64::from);
    let [reader, hierarchy, kind] = [line.reader, line.hierarchy, line.kind].map(u64::from);
    let [z, a, block, sequence] = [line.z, a, line.block, line.sequence].map(u64::from);
    let [year, month] = [line.year, line.month].map(u64::from);
    let numbers = [operation, z, a, many, isomer, area, block, sequence, work, reader, hierarchy, kind, year, month];
    (numbers, value_stored(line.least), value_stored(line.greatest))
}

/// The array of a value, as it is stored.
pub fn value_stored(FieldRead { value, digits }: FieldRead) -> [u64; 8] {
    match value {
        Value::Blank => [0; 8],
        Value::Number(Decimal { negative, coefficient, power }) => {
            [1, negative.into(), coefficient, i64::from(power) as u64, digits.into(), 0, 0, 0]
        }
    }
}

/// What the array of a line's parts says: first byte and length of the line and of its five texts.
pub fn pieces(places: [u64; 12]) -> Pieces {
    let piece = |at: usize| Piece { offset: places[2 * at] as usize, length: places[2 * at + 1] as usize };
    let [whole, reaction, quantity, institute, reference, comment] = [0, 1, 2, 3, 4, 5].map(piece);
    Pieces { whole, reaction, quantity, institute, reference, comment }
}

/// The array of a line's parts, as it is stored.
pub fn pieces_stored(pieces: &Pieces) -> [u64; 12] {
    let all = pieces.all();
    std::array::from_fn(|at| match at % 2 {
        0 => all[at / 2].offset as u64,
        _ => all[at / 2].length as u64,
    })
}

/// Answered, or why not, where the call is for a code (M-106).
pub fn code_answered(word: u64) -> Result<(), CodeRefusal> {
    let [number, column, record] = [word & 0xff, word >> 16 & 0xff, word >> 24 & 0xff_ffff].map(|room| room as u32);
    match (number, entry_refusal(word)) {
        (0, _) => Ok(()),
        (_, Some(refusal)) => Err(CodeRefusal { number, record: 0, column: 0, entry: Some(refusal) }),
        (_, None) => Err(CodeRefusal { number, record, column, entry: None }),
    }
}

/// The word of such an answer.
pub fn code_word(answer: Result<(), CodeRefusal>) -> u64 {
    let Err(CodeRefusal { number, record, column, entry }) = answer else { return 0 };
    let [refusal, column, record] = match entry {
        Some(refusal) => [refusal.number, refusal.column, refusal.record],
        None => [0, column, record],
    };
    u64::from(number) | u64::from(refusal) << 8 | u64::from(column) << 16 | u64::from(record) << 24
}

/// Where something stands that has a length; nothing where that is 0.
fn place(first: u64, length: u64) -> Option<Place> {
    (length > 0).then_some(Place { first: first as usize, length: length as usize })
}

/// A number by its place and its value; none where the value is blank.
fn number(first: u64, length: u64, numbers: [u64; 8]) -> Option<NumberRead> {
    match value(numbers).value {
        Value::Blank => None,
        Value::Number(value) => Some(NumberRead { place: place(first, length)?, value }),
    }
}

/// The two numbers of a place; zeros where there is none.
pub fn place_stored(place: Option<Place>) -> [u64; 2] {
    place.map_or([0; 2], |place| [place.first as u64, place.length as u64])
}

/// The array of a value of a code, whose digits are not counted; zeros where there is none.
pub fn number_stored(read: Option<NumberRead>) -> [u64; 8] {
    read.map_or([0; 8], |read| value_stored(FieldRead { value: Value::Number(read.value), digits: 0 }))
}

/// What the word and the arrays of a head say: its places, and the half-life.
pub fn head(word: u64, p: [u64; 15], half: [u64; 8]) -> Result<HeadRead, NoCode> {
    if word != 0 {
        return Err(NoCode { at: (word >> 24) as usize });
    }
    let at = |first: usize| Place { first: p[first] as usize, length: p[first + 1] as usize };
    let half_life = number(p[10], p[11], half).map(|number| (number, at(12)));
    let (flag, isomer) = (place(p[0], p[1]), place(p[8], p[9]));
    Ok(HeadRead { flag, z: at(2), symbol: at(4), a: at(6), isomer, half_life, groups: p[14] as usize })
}

/// The arrays of a head, as they are stored.
pub fn head_stored(head: &HeadRead) -> ([u64; 15], [u64; 8]) {
    let (number, unit) = (head.half_life.map(|(number, _)| number), head.half_life.map(|(_, unit)| unit));
    let places = [head.flag, Some(head.z), Some(head.symbol), Some(head.a), head.isomer, number.map(|n| n.place), unit];
    let places = places.map(place_stored);
    let stored = std::array::from_fn(|at| if at < 14 { places[at / 2][at % 2] } else { head.groups as u64 });
    (stored, number_stored(number))
}

/// The word of a head.
pub fn head_word(answer: Result<(), NoCode>) -> u64 {
    answer.err().map_or(0, |no| 50 | (no.at as u64) << 24)
}

/// What is returned for a group, and its arrays: how many types and energies, where the abundance stands, and its value.
pub fn group(there: u64, n: [u64; 4], abundance: [u64; 8]) -> Option<GroupRead> {
    let read = || GroupRead { types: n[0] as usize, energies: n[1] as usize, abundance: number(n[2], n[3], abundance) };
    (there == 1).then(read)
}

/// The arrays of a group, as they are stored: zeros where there is none.
pub fn group_stored(group: Option<GroupRead>) -> ([u64; 4], [u64; 8]) {
    let Some(GroupRead { types, energies, abundance }) = group else { return ([0; 4], [0; 8]) };
    let [first, length] = place_stored(abundance.map(|number| number.place));
    ([types as u64, energies as u64, first, length], number_stored(abundance))
}

/// What is returned for a type, and its place.
pub fn kind(there: u64, stored: [u64; 2]) -> Option<Place> {
    place(stored[0], stored[1]).filter(|_| there == 1)
}

/// What is returned for an energy, its place and its value.
pub fn energy(there: u64, stored: [u64; 2], numbers: [u64; 8]) -> Option<NumberRead> {
    number(stored[0], stored[1], numbers).filter(|_| there == 1)
}

/// Answered, or why not, where the call is about a held entry and a revision (M-109); the length is that of the merge.
pub fn revision_answered(word: u64, length: u64) -> Result<(), RevisionRefusal> {
    let which = match word >> 48 {
        1 => Some(Which::Held),
        2 => Some(Which::Revision),
        _ => None,
    };
    let refusal = entry_refusal(word & ((1 << 48) - 1));
    match word & 0xff {
        0 => Ok(()),
        63 => Err(RevisionRefusal { number: 63, which, refusal, length: length as usize }),
        number => Err(RevisionRefusal { number: number as u32, which, refusal, length: 0 }),
    }
}

/// The word of such an answer.
pub fn revision_word(answer: Result<(), RevisionRefusal>) -> u64 {
    let Err(RevisionRefusal { number, which, refusal, .. }) = answer else { return 0 };
    let rooms = refusal.map_or([0; 3], |refusal| [refusal.number, refusal.column, refusal.record]);
    let [refusal, column, record] = rooms.map(u64::from);
    let which = which.map_or(0, which_stored);
    u64::from(number) | refusal << 8 | column << 16 | record << 24 | which << 48
}

/// The number of one of the two entries.
fn which_stored(which: Which) -> u64 {
    match which {
        Which::Held => 1,
        Which::Revision => 2,
    }
}

/// What the array of a subentry that is handed out says.
pub fn chosen([which, first, length]: [u64; 3]) -> Chosen {
    let which = if which == 1 { Which::Held } else { Which::Revision };
    Chosen { which, first: first as usize, length: length as usize }
}

/// That array, as it is stored.
pub fn chosen_stored(Chosen { which, first, length }: Chosen) -> [u64; 3] {
    [which_stored(which), first as u64, length as u64]
}

#[cfg(test)]
mod tests {
    use super::*;

    /// The table of facts, both ways.
    #[test]
    fn facts_are_where_the_table_says() {
        let blanks = *b"        ";
        for (facts, characters, said) in [
            ([0, 0, 0], blanks, Reason::Alone),
            ([1, 99_999_999_999, 7], blanks, Reason::Count { announced: 99_999_999_999, due: 7 }),
            ([2, 1, 20_000], blanks, Reason::Range { least: 1, greatest: 20_000 }),
            ([3, 998, 0], blanks, Reason::Previous(998)),
            ([4, 200_000, 56], blanks, Reason::Equal { record: 200_000, column: 56 }),
            ([5, u64::from(b'Z'), 0], blanks, Reason::Pointer(b'Z')),
            ([6, 0, 0], *b"90001002", Reason::Expected(*b"90001002")),
            ([6, 0, 0], *b"00008   ", Reason::Expected(*b"00008   ")),
        ] {
            assert_eq!(reason(facts, characters), said);
            assert_eq!((said.facts(), said.characters()), (facts, characters));
        }
        let refusal = Refusal { number: 8, record: 28, column: 12, ordinal: 0 };
        let reason = Reason::Count { announced: 3, due: 1 };
        let word = 8 + (8 << 8) + (12 << 16) + (28 << 24);
        assert_eq!(
            explained(word, [7; 4], [1, 3, 1], blanks),
            Explained { verdict: Verdict::Refused(refusal), reason }
        );
    }

    #[test]
    fn rooms_are_where_the_table_says() {
        let refusal = Refusal { number: 17, record: 200_001, column: 81, ordinal: 33_333 };
        let beside = (17 << 8) + (81 << 16) + (200_001 << 24) + (33_333 << 48);
        assert_eq!(answered(31 + beside), Err(NoAnswer { number: 31, entry: Some(refusal) }));
        assert_eq!((answered(0), answered(37)), (Ok(()), Err(NoAnswer::numbered(37))));
        assert_eq!(verdict(17 + beside, [7; 4]), Verdict::Refused(refusal));
        let alone = (17 << 8) + (81 << 16) + (20_001 << 24);
        assert_eq!(verdict(17 + alone, [7; 4]), Verdict::Refused(Refusal::new(17, 20_001, 81)));
        let totals = Totals { subentries: 66_665, keywords: 199_930, lines: 200_000, numbers: 1_200_000 };
        assert_eq!(verdict(0, [66_665, 199_930, 200_000, 1_200_000]), Verdict::Accepted(totals));
        let number = |negative, coefficient, power, digits| {
            let value = Value::Number(Decimal { negative, coefficient, power });
            FieldRead { value, digits }
        };
        assert_eq!(value([0; 8]), FieldRead::BLANK);
        assert_eq!(value([1, 0, 145, u64::MAX - 2, 3, 0, 0, 0]), number(false, 145, -3, 3));
        assert_eq!(value([1, 1, 9_999_999_999, 99_999_999, 10, 0, 0, 0]), number(true, 9_999_999_999, 99_999_999, 10));
        assert_eq!(value([1, 0, 1, u64::MAX - 99_999_999, 1, 0, 0, 0]), number(false, 1, -100_000_000, 1));
        let place = Part { offset: 1_619_919, length: 1_620_000, pointer: b'Z' };
        assert_eq!(part([1_619_919, 1_620_000, u64::from(b'Z')]), place);
        assert_eq!(given(0, [1, 20_000, 18], [0; 8]), Some((20_000, 18, Ok(FieldRead::BLANK))));
        assert_eq!(given(15, [1, 1, 2], [7; 8]), Some((1, 2, Err(NoAnswer::numbered(15)))));
        assert_eq!(given(0, [0; 3], [7; 8]), None);
    }

    #[test]
    fn doubles_are_where_the_table_says() {
        let outside = Simple::Outside(Decimal { negative: false, coefficient: 1, power: 23 });
        for (value, digits, called) in [
            (Simple::Blank, 0, (0.0, 0)),
            (Simple::Double(0.145), 3, (0.145, (1 << 48) + (3 << 56))),
            (outside, 10, (0.0, (2 << 48) + (10 << 56))),
        ] {
            assert_eq!(double_calls(Ok(DoubleRead { value, digits })), called);
            assert_eq!(answered(called.1), Ok(()));
            let read = Some(DoubleRead { value, digits }).filter(|_| value != outside);
            assert_eq!(double(called.1, called.0), Ok(read));
        }
        let refused = NoAnswer { number: 31, entry: Some(Refusal::new(17, 20_001, 81)) };
        let (none, word) = double_calls(Err(refused));
        assert_eq!((none, word), (0.0, 31 + (17 << 8) + (81 << 16) + (20_001 << 24)));
        assert_eq!((answered(word), double(word, 7.0)), (Err(refused), Err(refused)));
        assert_eq!(double_calls(Err(NoAnswer::numbered(15))), (0.0, 15));
    }

    /// Of lines: the word, a line's three arrays and its parts, both ways.
    #[test]
    fn lines_are_where_the_table_says() {
        let refusal = LinesRefusal { number: 76, line: 20_000, column: 126 };
        let word = 76 + (126 << 16) + (20_000 << 24);
        assert_eq!((lines_answered(word), lines_word(Err(refusal))), (Err(refusal), word));
        assert_eq!((lines_answered(0), lines_word(Ok(()))), (Ok(()), 0));
        let number = |negative, coefficient, power, digits| {
            let value = Value::Number(Decimal { negative, coefficient, power });
            FieldRead { value, digits }
        };
        let one = Line {
            operation: b'A',
            z: 92,
            mass: Mass::Number(235),
            isomer: b' ',
            area: b'L',
            block: 198,
            sequence: 1,
            work: b'E',
            reader: b'R',
            least: number(true, 25, -3, 2),
            greatest: FieldRead::BLANK,
            hierarchy: b'1',
            kind: b'J',
            year: 1994,
            month: 5,
        };
        let numbers = [65, 92, 235, 0, 32, 76, 198, 1, 69, 82, 49, 74, 1994, 5];
        let least = [1, 1, 25, u64::MAX - 2, 2, 0, 0, 0];
        assert_eq!(line_stored(&one), (numbers, least, [0; 8]));
        assert_eq!(line(numbers, least, [0; 8]), one);
        let many = Line { mass: Mass::Many, z: 999, least: number(false, 1, 6, 2), ..one };
        let numbers = [65, 999, 0, 1, 32, 76, 198, 1, 69, 82, 49, 74, 1994, 5];
        assert_eq!(line_stored(&many), (numbers, [1, 0, 1, 6, 2, 0, 0, 0], [0; 8]));
        assert_eq!(line(numbers, [1, 0, 1, 6, 2, 0, 0, 0], [0; 8]), many);
        let places = [126, 126, 134, 15, 149, 4, 153, 6, 183, 22, 211, 40];
        assert_eq!(pieces_stored(&pieces(places)), places);
        assert_eq!(pieces(places).comment, Piece { offset: 211, length: 40 });
    }

    /// Of codes: the words, a head's arrays, and those of groups, types and energies, both ways.
    #[test]
    fn codes_are_where_the_table_says() {
        for (refusal, word) in [
            (CodeRefusal { number: 50, record: 20_001, column: 0, entry: None }, 50 + (20_001 << 24)),
            (CodeRefusal { number: 51, record: 5, column: 66, entry: None }, 51 + (66 << 16) + (5 << 24)),
            (CodeRefusal { number: 36, record: 0, column: 0, entry: None }, 36),
            (CodeRefusal { number: 52, record: 0, column: 0, entry: None }, 52),
            (
                CodeRefusal { number: 31, record: 0, column: 0, entry: Some(Refusal::new(17, 20_001, 81)) },
                31 + (17 << 8) + (81 << 16) + (20_001 << 24),
            ),
        ] {
            assert_eq!((code_answered(word), code_word(Err(refusal))), (Err(refusal), word));
        }
        assert_eq!((code_answered(0), code_word(Ok(()))), (Ok(()), 0));
        assert_eq!(head(50 + (7 << 24), [9; 15], [9; 8]), Err(NoCode { at: 7 }));
        assert_eq!(head_word(Err(NoCode { at: (1 << 40) - 1 })), 50 + (((1 << 40) - 1) << 24));
        let at = |first, length| Place { first, length };
        let number = |first, length, coefficient, power| NumberRead {
            place: at(first, length),
            value: Decimal { negative: false, coefficient, power },
        };
        // ((1.)60-ND-138-M,5.04HR,DG,328.,.065)
        let full = HeadRead {
            flag: Some(at(2, 2)),
            z: at(5, 2),
            symbol: at(8, 2),
            a: at(11, 3),
            isomer: Some(at(15, 1)),
            half_life: Some((number(17, 4, 504, -2), at(21, 2))),
            groups: 1,
        };
        let places = [2, 2, 5, 2, 8, 2, 11, 3, 15, 1, 17, 4, 21, 2, 1];
        let half = [1, 0, 504, u64::MAX - 1, 0, 0, 0, 0];
        assert_eq!((head(0, places, half), head_stored(&full)), (Ok(full), (places, half)));
        // (1-H-3)
        let bare = HeadRead {
            flag: None,
            z: at(1, 1),
            symbol: at(3, 1),
            a: at(5, 1),
            isomer: None,
            half_life: None,
            groups: 0,
        };
        let places = [0, 0, 1, 1, 3, 1, 5, 1, 0, 0, 0, 0, 0, 0, 0];
        assert_eq!((head(0, places, [0; 8]), head_stored(&bare)), (Ok(bare), (places, [0; 8])));
        let some = Some(GroupRead { types: 2, energies: 3, abundance: Some(number(32, 4, 65, -3)) });
        let value = [1, 0, 65, u64::MAX - 2, 0, 0, 0, 0];
        assert_eq!((group(1, [2, 3, 32, 4], value), group_stored(some)), (some, ([2, 3, 32, 4], value)));
        let none = Some(GroupRead { types: 1, energies: 0, abundance: None });
        assert_eq!((group(1, [1, 0, 0, 0], [0; 8]), group_stored(none)), (none, ([1, 0, 0, 0], [0; 8])));
        assert_eq!((group(0, [0; 4], [0; 8]), group_stored(None)), (None, ([0; 4], [0; 8])));
        assert_eq!((kind(1, [7, 2]), kind(0, [0; 2])), (Some(at(7, 2)), None));
        assert_eq!(energy(1, [32, 4], value), Some(number(32, 4, 65, -3)));
        assert_eq!(energy(0, [0; 2], [0; 8]), None);
    }

    /// Of revisions: the word with either entry and with the merge, and the array of a subentry, both ways.
    #[test]
    fn revisions_are_where_the_table_says() {
        let refusal = Refusal::new(17, 20_001, 81);
        let beside = (17 << 8) + (81 << 16) + (20_001 << 24);
        for (refusal, word, length) in [
            (RevisionRefusal::of_entry(Which::Held, refusal), 60 + beside + (1 << 48), 0),
            (RevisionRefusal::of_entry(Which::Revision, refusal), 60 + beside + (2 << 48), 0),
            (RevisionRefusal::of_entry(Which::Held, Refusal::new(1, 0, 0)), 60 + (1 << 8) + (1 << 48), 0),
            (RevisionRefusal::numbered(61), 61, 0),
            (RevisionRefusal::numbered(62), 62, 0),
            (RevisionRefusal::numbered(32), 32, 0),
            (RevisionRefusal::numbered(37), 37, 0),
            (RevisionRefusal::of_merge(Refusal::new(1, 0, 0), 3_240_000), 63 + (1 << 8), 3_240_000),
            (RevisionRefusal::of_merge(refusal, 81), 63 + beside, 81),
        ] {
            assert_eq!((revision_answered(word, length), revision_word(Err(refusal))), (Err(refusal), word));
        }
        assert_eq!(revision_answered(61, 7), Err(RevisionRefusal::numbered(61)), "a length stands beside 63 alone");
        assert_eq!((revision_answered(0, 81), revision_word(Ok(()))), (Ok(()), 0));
        for (which, number) in [(Which::Held, 1), (Which::Revision, 2)] {
            let place = Chosen { which, first: 1_619_838, length: 81 };
            assert_eq!((chosen([number, 1_619_838, 81]), chosen_stored(place)), (place, [number, 1_619_838, 81]));
        }
    }
}

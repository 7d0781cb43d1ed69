//! Codes under DECAY-DATA (M-106). A code is cut at its commas, and each field is read by what its place holds. Where a
//! text ends to be the beginning of a field is found by trying: all that stands before a character is good as long as
//! one of a few endings makes it whole.

use super::number::{canonical_text, read, Reading};
use super::passage;
use super::record::digits;
use crate::decay::{CodeRefusal, GroupRead, HeadRead, NoCode, NumberRead, Place};
use crate::{Decimal, RECORD};
use std::ops::Range;

/// "numbers contain no blanks and have at most eleven characters"
const NUMBER: usize = 11;

/// "a unit one to ten capitals"
const UNIT: usize = 10;

/// What stands in a place of a code.
#[derive(Clone, Copy, Debug, PartialEq, Eq)]
pub enum Field {
    /// The opening parenthesis.
    Opening,
    /// The decay flag, "(n.)".
    Flag,
    /// Z-S-A-X.
    Nuclide,
    /// Number and unit.
    HalfLife,
    /// Types of radiation.
    Types,
    /// Energies.
    Energies,
    /// The abundance.
    Abundance,
}

impl Field {
    /// What stands behind so many commas: "three major fields", the third "consists of three subfields", "may also be
    /// repeated".
    fn behind(commas: usize) -> Field {
        match commas {
            0 => Field::Nuclide,
            1 => Field::HalfLife,
            _ => [Field::Types, Field::Energies, Field::Abundance][(commas - 2) % 3],
        }
    }
}

/// How many characters of a text begin a whole one, where one of these endings always makes it whole; no whole one is
/// longer than so many.
fn begun(text: &[u8], most: usize, endings: &[&str], whole: fn(&[u8]) -> bool) -> usize {
    let good = |length: &usize| {
        endings.iter().any(|ending| {
            let tried = [&text[..*length], ending.as_bytes()].concat();
            tried.len() <= most && whole(&tried)
        })
    };
    (1..=text.len().min(most)).take_while(good).count()
}

/// "digits and a point in parentheses", at most eleven characters within them.
fn whole_flag(text: &[u8]) -> bool {
    let inner = text.strip_prefix(b"(").and_then(|text| text.strip_suffix(b".)"));
    inner.is_some_and(|inner| (1..NUMBER).contains(&inner.len()) && digits(inner))
}

/// "Z-S-A-X" without T: Z and A of one to three digits without zeros in front, S in capitals.
fn whole_nuclide(text: &[u8]) -> bool {
    let parts: Vec<&[u8]> = text.split(|&byte| byte == b'-').collect();
    let count = |part: &[u8]| (1..=3).contains(&part.len()) && digits(part) && (part == b"0" || part[0] != b'0');
    let symbol = |part: &[u8]| (1..=2).contains(&part.len()) && part.iter().all(u8::is_ascii_uppercase);
    match parts[..] {
        [z, s, a] => count(z) && symbol(s) && count(a),
        [z, s, a, x] => count(z) && symbol(s) && count(a) && [b"G" as &[u8], b"M", b"M1", b"M2"].contains(&x),
        _ => false,
    }
}

/// The value of a text that is a number.
fn number(text: &[u8]) -> Option<Decimal> {
    match text.len() <= NUMBER && !text.contains(&b' ') {
        true => match read(text) {
            Reading::Number(decimal) => Some(decimal),
            Reading::Blank | Reading::Malformed => None,
        },
        false => None,
    }
}

fn whole_number(text: &[u8]) -> bool {
    number(text).is_some()
}

/// How many characters of a text begin a number.
fn number_begun(text: &[u8]) -> usize {
    begun(text, NUMBER, &["", "0", ".", "0."], whole_number)
}

/// A half-life as number and unit: the unit is all capitals at its end, since a number ends in a digit or a point.
fn half_life(text: &[u8]) -> Option<(&[u8], &[u8])> {
    let capitals = text.iter().rev().take_while(|byte| byte.is_ascii_uppercase()).count();
    let (front, unit) = text.split_at(text.len() - capitals);
    ((1..=UNIT).contains(&unit.len()) && whole_number(front)).then_some((front, unit))
}

/// How many characters of a text begin a half-life.
fn half_life_begun(text: &[u8]) -> usize {
    let as_number = number_begun(text);
    let as_both = (1..=text.len().min(NUMBER + UNIT)).filter(|&length| half_life(&text[..length]).is_some()).max();
    as_number.max(as_both.unwrap_or(0))
}

/// "A type is capitals, digits, + and -".
fn of_type(byte: u8) -> bool {
    byte.is_ascii_uppercase() || byte.is_ascii_digit() || byte == b'+' || byte == b'-'
}

/// How many characters of a text begin pieces "split by slashes", each of which begins with as many as are told.
fn pieces_begun(text: &[u8], begun: fn(&[u8]) -> usize, whole: fn(&[u8]) -> bool) -> usize {
    let mut at = 0;
    for piece in text.split(|&byte| byte == b'/') {
        let good = begun(piece);
        let last = at + piece.len() == text.len();
        if good < piece.len() || (!last && !whole(piece)) {
            return at + good;
        }
        at += piece.len() + 1;
    }
    text.len()
}

fn type_begun(text: &[u8]) -> usize {
    text.iter().take_while(|&&byte| of_type(byte)).count()
}

fn whole_type(text: &[u8]) -> bool {
    !text.is_empty() && text.iter().all(|&byte| of_type(byte))
}

/// How many characters of a filled field begin one.
fn field_begun(field: Field, text: &[u8]) -> usize {
    match field {
        Field::Opening | Field::Flag => 0,
        Field::Nuclide => begun(text, 13, &["", "G", "0", "-0", "A-0", "-A-0"], whole_nuclide),
        Field::HalfLife => half_life_begun(text),
        Field::Types => pieces_begun(text, type_begun, whole_type),
        Field::Energies => pieces_begun(text, number_begun, whole_number),
        Field::Abundance => number_begun(text),
    }
}

/// Whether a field is whole.
fn field_whole(field: Field, text: &[u8]) -> bool {
    let pieces = |whole: fn(&[u8]) -> bool| text.split(|&byte| byte == b'/').all(whole);
    match field {
        Field::Opening | Field::Flag => false,
        Field::Nuclide => whole_nuclide(text),
        Field::HalfLife => half_life(text).is_some(),
        Field::Types => pieces(whole_type),
        Field::Energies => pieces(whole_number),
        Field::Abundance => whole_number(text),
    }
}

/// What was met in a text.
#[derive(Clone, Copy, Debug, PartialEq, Eq)]
enum Met {
    /// The code ends behind so many characters.
    Closed(usize),
    /// A character that no code can have there, so many behind the first; and what stands there.
    Fault(usize, Field),
    /// All of it begins a code.
    Open,
}

/// A filled field: how many commas stand before it, and where it stands in its text.
type Filled = (usize, Range<usize>);

/// A code that is read text by text; each but the last ends with a comma.
#[derive(Default)]
struct Reader {
    begun: bool,
    commas: usize,
    /// Whether the last group has a filled subfield.
    group: bool,
    /// The digits of the flag and its point, in the first text.
    flag: Option<Range<usize>>,
}

impl Reader {
    /// Opening parenthesis and flag: where the nuclide's field begins.
    fn opening(&mut self, text: &[u8]) -> Result<usize, Met> {
        self.begun = true;
        match text {
            [] => Err(Met::Open),
            [b'(', b'(', ..] => {
                let good = begun(&text[1..], NUMBER + 2, &["", ")", ".)", "0.)"], whole_flag);
                match text.get(1 + good) {
                    _ if whole_flag(&text[1..=good]) => {
                        self.flag = Some(2..good);
                        Ok(1 + good)
                    }
                    Some(_) => Err(Met::Fault(1 + good, Field::Flag)),
                    None => Err(Met::Open),
                }
            }
            [b'(', ..] => Ok(1),
            _ => Err(Met::Fault(0, Field::Opening)),
        }
    }

    /// Reads one text: its filled fields, and what was met.
    fn read(&mut self, text: &[u8]) -> (Vec<Filled>, Met) {
        let mut fields = Vec::new();
        let mut at = match self.begun {
            true => 0,
            false => match self.opening(text) {
                Ok(at) => at,
                Err(met) => return (fields, met),
            },
        };
        loop {
            let field = Field::behind(self.commas);
            // "Embedded blanks are permitted in the code only at the beginning of a field or subfield."
            let first = at + text[at..].iter().take_while(|&&byte| byte == b' ').count();
            let end = text[first..].iter().position(|&byte| byte == b',' || byte == b')');
            let end = end.map_or(text.len(), |length| first + length);
            let content = &text[first..end];
            let good = field_begun(field, content);
            if good < content.len() {
                return (fields, Met::Fault(first + good, field));
            }
            let Some(&mark) = text.get(end) else { return (fields, Met::Open) };
            let filled = field_whole(field, content);
            if field == Field::Types {
                self.group = false;
            }
            self.group |= filled && self.commas > 1;
            // "none wholly empty, no comma before the closing parenthesis"
            let may_be_empty = mark == b',' && field != Field::Nuclide && (field != Field::Abundance || self.group);
            if !filled && !(content.is_empty() && may_be_empty) {
                return (fields, Met::Fault(end, field));
            }
            if filled {
                fields.push((self.commas, first..end));
            }
            if mark == b')' {
                return (fields, Met::Closed(end + 1));
            }
            self.commas += 1;
            at = end + 1;
        }
    }
}

/// The numbers of a field, by their places in the text.
fn numbers(text: &[u8], (commas, place): &Filled) -> Vec<Range<usize>> {
    let content = &text[place.clone()];
    match Field::behind(*commas) {
        Field::HalfLife => {
            half_life(content).map(|(front, _)| place.start..place.start + front.len()).into_iter().collect()
        }
        Field::Energies => pieces(text, place),
        Field::Abundance => vec![place.clone()],
        _ => Vec::new(),
    }
}

/// The pieces of a field that is split by slashes, by their places in the text.
fn pieces(text: &[u8], place: &Range<usize>) -> Vec<Range<usize>> {
    let mut first = place.start;
    let cut = text[place.clone()].split(|&byte| byte == b'/').map(|piece| {
        let place = first..first + piece.len();
        first = place.end + 1;
        place
    });
    cut.collect()
}

/// "numbers save the flag by their canonical field's characters, the rest as it was"
fn rewritten(text: &[u8], fields: &[Filled], run: &mut Vec<u8>) {
    let mut at = 0;
    for place in fields.iter().flat_map(|field| numbers(text, field)) {
        run.extend(&text[at..place.start]);
        let value = number(&text[place.clone()]).expect("a number of a whole field");
        run.extend(canonical_text(value, NUMBER).expect("the text itself reads to the value").bytes());
        at = place.end;
    }
    run.extend(&text[at..]);
}

/// Where a code is refused: number, record of the passage, column, and what stands there, if that can be told.
pub struct Refused {
    number: u32,
    record: usize,
    column: usize,
    /// What the character would be part of.
    pub field: Option<Field>,
}

impl Refused {
    /// The refusal, where so many records stand before the passage.
    fn behind(&self, records: usize) -> CodeRefusal {
        let record = if self.number == 36 { 0 } else { records + self.record };
        CodeRefusal { number: self.number, record: record as u32, column: self.column as u32, entry: None }
    }
}

/// The run of a code of a passage: "the passage's j-th record with ( in column 12 opens code j; a code breaks (rest of
/// the record blank) only after a comma and goes on in column 12; text after it is passed over".
pub fn run_in(passage: &[u8], code: u32) -> Result<Vec<u8>, Refused> {
    let records = passage.len() / RECORD;
    let columns = |at: usize| &passage[RECORD * at + 11..RECORD * at + 66];
    let mut openings = (0..records).filter(|&at| columns(at)[0] == b'(');
    let opening = (code as usize).checked_sub(1).and_then(|before| openings.nth(before));
    let Some(opening) = opening else { return Err(Refused { number: 36, record: 0, column: 0, field: None }) };
    let (mut reader, mut run) = (Reader::default(), Vec::new());
    for (at, columns) in (opening..records).map(|at| (at, columns(at))) {
        let refused = |number, column, field| Err(Refused { number, record: at + 1, column: 12 + column, field });
        let Some(last) = columns.iter().rposition(|&byte| byte != b' ') else {
            return refused(50, 0, Some(Field::behind(reader.commas)));
        };
        let text = &columns[..=last];
        let (fields, met) = reader.read(text);
        match met {
            Met::Closed(end) => {
                rewritten(&text[..end], &fields, &mut run);
                return Ok(run);
            }
            Met::Fault(column, field) => return refused(50, column, Some(field)),
            Met::Open if text[last] != b',' => return refused(51, last, None),
            Met::Open => rewritten(text, &fields, &mut run),
        }
    }
    let field = Some(Field::behind(reader.commas));
    Err(Refused { number: 50, record: records + 1, column: 0, field })
}

/// Puts a run in the front of a buffer: "52 slice shorter than the run". Refused, it stores nothing.
fn put(run: &[u8], out: &mut [u8]) -> Result<usize, CodeRefusal> {
    let front = out.get_mut(..run.len()).ok_or(CodeRefusal::numbered(52))?;
    front.copy_from_slice(run);
    Ok(run.len())
}

/// The code of an entry: 31, 32, 33 and 36 as the passage question has them, then those of the code.
pub fn decay(entry: &[u8], subentry: u32, pointer: u8, code: u32, out: &mut [u8]) -> Result<usize, CodeRefusal> {
    let part = passage(entry, subentry, b"DECAY-DATA", pointer)?;
    let run = run_in(part.of(entry), code).map_err(|refused| refused.behind(part.offset / RECORD))?;
    put(&run, out)
}

/// The code of a passage in hand, of which the whole records count.
pub fn decay_in(passage: &[u8], code: u32, out: &mut [u8]) -> Result<usize, CodeRefusal> {
    put(&run_in(passage, code).map_err(|refused| refused.behind(0))?, out)
}

/// A run that is one code.
struct Whole<'r> {
    run: &'r [u8],
    flag: Option<Range<usize>>,
    commas: usize,
    fields: Vec<Filled>,
}

/// The greatest count that the word of a head has room for.
const MOST: usize = (1 << 40) - 1;

impl<'r> Whole<'r> {
    fn of(run: &'r [u8]) -> Result<Whole<'r>, NoCode> {
        let mut reader = Reader::default();
        let (fields, met) = reader.read(run);
        let stop = match met {
            Met::Closed(end) if end == run.len() => {
                return Ok(Whole { run, flag: reader.flag, commas: reader.commas, fields })
            }
            Met::Closed(end) | Met::Fault(end, _) => end,
            Met::Open => run.len(),
        };
        Err(NoCode { at: stop.min(MOST) })
    }

    /// How many groups there are.
    fn groups(&self) -> usize {
        (self.commas + 1) / 3
    }

    /// What stands behind so many commas, if it is filled.
    fn field(&self, commas: usize) -> Option<&Filled> {
        self.fields.iter().find(|(before, _)| *before == commas)
    }

    /// The subfield of a group, counted from 1, if it is filled: 0 the types, 1 the energies, 2 the abundance.
    fn subfield(&self, group: u32, which: usize) -> Option<&Filled> {
        self.field(2 + 3 * (group as usize).checked_sub(1)? + which)
    }

    fn pieces(&self, group: u32, which: usize) -> Vec<Range<usize>> {
        self.subfield(group, which).map_or(Vec::new(), |(_, place)| pieces(self.run, place))
    }

    fn number(&self, place: Range<usize>) -> NumberRead {
        let value = number(&self.run[place.clone()]).expect("a number of a whole field");
        NumberRead { place: place_of(place), value }
    }
}

fn place_of(range: Range<usize>) -> Place {
    Place { first: range.start, length: range.len() }
}

/// The fields of a run before its groups.
pub fn decay_head(run: &[u8]) -> Result<HeadRead, NoCode> {
    let whole = Whole::of(run)?;
    let (_, nuclide) = whole.field(0).expect("every code has a nuclide");
    let mut first = nuclide.start;
    let mut parts = run[nuclide.clone()].split(|&byte| byte == b'-').map(|part| {
        let place = Place { first, length: part.len() };
        first += part.len() + 1;
        place
    });
    let mut next = || parts.next();
    let [z, symbol, a] = [(); 3].map(|()| next().expect("a nuclide has three parts"));
    let isomer = next();
    let half_life = whole.field(1).map(|field| {
        let place = numbers(run, field).remove(0);
        let unit = Place { first: place.end, length: field.1.end - place.end };
        (whole.number(place), unit)
    });
    let flag = whole.flag.clone().map(place_of);
    Ok(HeadRead { flag, z, symbol, a, isomer, half_life, groups: whole.groups() })
}

/// A group of a run, counted from 1: how many types and energies it has, and its abundance.
pub fn decay_group(run: &[u8], group: u32) -> Option<GroupRead> {
    let whole = Whole::of(run).ok().filter(|whole| (1..=whole.groups()).contains(&(group as usize)))?;
    let [types, energies] = [0, 1].map(|which| whole.pieces(group, which).len());
    let abundance = whole.subfield(group, 2).map(|(_, place)| whole.number(place.clone()));
    Some(GroupRead { types, energies, abundance })
}

/// One of some things, counted from 1.
fn counted<T>(things: Vec<T>, at: u32) -> Option<T> {
    things.into_iter().nth((at as usize).checked_sub(1)?)
}

/// A type of a group, both counted from 1.
pub fn decay_type(run: &[u8], group: u32, at: u32) -> Option<Place> {
    counted(Whole::of(run).ok()?.pieces(group, 0), at).map(place_of)
}

/// An energy of a group, both counted from 1.
pub fn decay_energy(run: &[u8], group: u32, at: u32) -> Option<NumberRead> {
    let whole = Whole::of(run).ok()?;
    counted(whole.pieces(group, 1), at).map(|place| whole.number(place))
}

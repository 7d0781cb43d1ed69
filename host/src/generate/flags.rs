//! Flags (M-105): codes under the keyword FLAG, numbers that have such a code, and damage to either. What is due after
//! damage follows by hand, as in the other causes.

use super::damage::{pick, Fault, Headings, NO_NUMBERS};
use super::sheet::word;
use super::{spelling, Kind, Random, Sheet};

/// A number of so many digits, without zeros before it.
fn digits(random: &mut Random, length: usize) -> String {
    (0..length).map(|place| char::from(random.one(&b"0123456789"[usize::from(place == 0)..]))).collect()
}

/// The number of a code, most of them short, some too long for a number field or for 64 bits.
fn code_number(random: &mut Random) -> String {
    match random.below(8) {
        0 => "0".into(),
        1 => {
            let length = random.one(&[8, 9, 10, 10]);
            digits(random, length)
        }
        2 => {
            let length = random.within(11, 52);
            digits(random, length)
        }
        _ => {
            let length = random.within(1, 3);
            digits(random, length)
        }
    }
}

/// A text of at most 55 columns that begins with a code, and its number.
pub(super) fn code(random: &mut Random) -> (String, String) {
    let number = code_number(random);
    let zeros = if random.once_in(4) { random.within(0, 52 - number.len()) } else { 0 };
    let mut text = format!("({}{number}.)", "0".repeat(zeros));
    if text.len() < 40 && !random.once_in(4) {
        text += &format!("{}{}", random.one(&["", " "]), word(random));
    }
    (text, number)
}

/// What is nearly the code of a number: in another form.
const MALFORMED: [&str; 9] = ["(#)", "(#.", "(#. )", "(#.0)", "(+#.)", "#.)", "(#,)", "(#.X)", "((#.)"];

/// The code of a number in another place, or with a blank before its digits, or behind another code.
const MISPLACED: [&str; 5] = [" (#.)", "      (#.)", "( #.)", "X(#.)", "(1#.)(#.)"];

/// One of these forms with the digits of a number.
fn nearly(random: &mut Random, forms: &[&str], number: &str) -> String {
    random.one(forms).replace('#', number)
}

/// A text without a code, under the keyword FLAG or elsewhere.
pub(super) fn no_code(random: &mut Random) -> String {
    match random.below(3) {
        0 => String::new(),
        1 => format!("({} text)", word(random)),
        _ => format!("({})", random.below(20)),
    }
}

/// Eleven columns that say a whole number of at most ten digits without exponent: signs, zeros and blanks by chance.
pub(super) fn flag_spelling(random: &mut Random, number: &str) -> [u8; 11] {
    let mut text = format!("{number}.");
    if number == "0" && random.once_in(3) {
        text = ".0".into();
    }
    while text.len() < 11 && random.once_in(3) {
        text = if random.once_in(2) { format!("0{text}") } else { format!("{text}0") };
    }
    if text.len() < 11 && random.once_in(4) {
        let signs: &[&str] = if number == "0" { &["+", "-"] } else { &["+"] };
        text = format!("{}{text}", random.one(signs));
    }
    let before = random.within(0, 11 - text.len());
    let field = format!("{:before$}{text:<rest$}", "", rest = 11 - before);
    field.into_bytes().try_into().expect("eleven columns")
}

/// Eleven columns that say a number without exponent.
pub(super) fn plain_spelling(random: &mut Random) -> [u8; 11] {
    loop {
        let field = spelling(random);
        let text = field.trim_ascii();
        if text[1..].iter().all(|byte| byte.is_ascii_digit() || *byte == b'.') {
            return field;
        }
    }
}

/// A value under a flag heading.
#[derive(Clone, Copy)]
struct Place {
    at: usize,
    field: usize,
    column: usize,
}

impl Place {
    /// What is due where this value is at fault.
    fn fault(self) -> Option<Fault> {
        Some((17, self.at, 11 * self.field + 1))
    }

    fn put(self, sheet: &mut Sheet, field: &[u8]) {
        sheet.put(self.at, 11 * self.field + 1, field);
    }

    /// The whole number that stands there, as its digits; none where it is blank.
    fn number(self, sheet: &Sheet) -> Option<String> {
        let text =
            String::from_utf8_lossy(sheet.columns(self.at, 11 * self.field + 1, 11 * self.field + 11)).to_string();
        let (whole, _) = text.trim().split_once('.')?;
        let digits = whole.trim_start_matches(['+', '-', '0']);
        Some(if digits.is_empty() { "0".into() } else { digits.into() })
    }
}

/// All values under a heading, blank ones too.
fn places(sheet: &Sheet, word: &str) -> Vec<Place> {
    let (mut found, mut headings) = (Vec::new(), Vec::new());
    for (at, kind) in sheet.kinds.iter().enumerate() {
        match *kind {
            Kind::System("COMMON" | "DATA") => headings = Headings::of(sheet, at).headings,
            Kind::Values { used, part, .. } => {
                let all = (0..used).map(|field| Place { at, field, column: 6 * part + field });
                found.extend(all.filter(|place| headings[place.column][..10] == *format!("{word:10}").as_bytes()));
            }
            _ => {}
        }
    }
    found
}

/// One value under FLAG.
fn flag(random: &mut Random, sheet: &Sheet) -> Option<Place> {
    one(random, places(sheet, "FLAG"))
}

/// One value under FLAG that is not blank, and its number.
fn filled_flag(random: &mut Random, sheet: &Sheet) -> Option<(Place, String)> {
    let filled = places(sheet, "FLAG").into_iter().filter(|place| place.number(sheet).is_some()).collect();
    let place = one(random, filled)?;
    Some((place, place.number(sheet)?))
}

fn one(random: &mut Random, places: Vec<Place>) -> Option<Place> {
    let all: Vec<usize> = (0..places.len()).collect();
    pick(random, &all).map(|which| places[which])
}

/// The subentry of a record.
fn owner(sheet: &Sheet, at: usize) -> &[u8] {
    sheet.columns(at, 72, 74)
}

/// The text records that are under the keyword FLAG, or those that are not.
fn texts(sheet: &Sheet, under_flag: bool) -> Vec<usize> {
    let mut under = false;
    let mut found = Vec::new();
    for (at, kind) in sheet.kinds.iter().enumerate() {
        if matches!(kind, Kind::Text { .. }) {
            let keyword = sheet.columns(at, 1, 10);
            under = if keyword == [b' '; 10] { under } else { keyword == b"FLAG      " };
            if under == under_flag {
                found.push(at);
            }
        }
    }
    found
}

/// Whether a text record has nothing that a flag could hang on.
fn spare(sheet: &Sheet, at: usize) -> bool {
    !sheet.columns(at, 12, 66).windows(2).any(|pair| pair == b".)")
}

/// A text record that a flag looks at, of its own subentry or 001, under FLAG and without a code, or under another
/// keyword.
fn text_for(random: &mut Random, sheet: &Sheet, flag: Place, under_flag: bool) -> Option<usize> {
    let mut near = near(sheet, flag, under_flag);
    near.retain(|&at| !under_flag || spare(sheet, at));
    pick(random, &near)
}

/// The text records of a flag's own subentry and of 001, under the keyword FLAG or not.
fn near(sheet: &Sheet, flag: Place, under_flag: bool) -> Vec<usize> {
    let own = owner(sheet, flag.at);
    texts(sheet, under_flag).into_iter().filter(|&at| [own, b"001"].contains(&owner(sheet, at))).collect()
}

/// A number of at most so many digits that ends no code of the entry.
fn fresh(random: &mut Random, sheet: &Sheet, most: usize) -> String {
    loop {
        let length = random.within(1, most);
        let number = digits(random, length);
        let ending = format!("{number}.)");
        let met = |at: usize| sheet.columns(at, 12, 66).windows(ending.len()).any(|text| text == ending.as_bytes());
        if !texts(sheet, true).into_iter().chain(texts(sheet, false)).any(met) {
            return number;
        }
    }
}

/// Puts a number into a flag's place that is no code.
fn without_code(random: &mut Random, sheet: &mut Sheet, place: Place) -> String {
    let number = fresh(random, sheet, 10);
    let field = flag_spelling(random, &number);
    place.put(sheet, &field);
    number
}

fn set_text(sheet: &mut Sheet, at: usize, text: &str) {
    sheet.put(at, 12, &format!("{text:55}").as_bytes()[..55]);
}

/// A number with an exponent written, zero or one, in eleven columns; 1 in place of a long one.
fn raised(random: &mut Random, number: &str) -> String {
    let number = if number.len() > 8 { "1" } else { number };
    let mut tails = vec!["+0", "-0", "E0", "+00", "E+0", " -0", "E 0", " E 00"];
    tails.retain(|tail| number.len() + 1 + tail.len() <= 11);
    let text = match number.strip_suffix('0') {
        Some(tenth) if !tenth.is_empty() && random.once_in(2) => format!("{tenth}.+1"),
        _ => format!("{number}.{}", random.one(&tails)),
    };
    format!("{text:>11}")
}

pub(super) fn flag_raised(random: &mut Random, sheet: &mut Sheet) -> Option<Fault> {
    let (place, number) = filled_flag(random, sheet)?;
    let field = raised(random, &number);
    place.put(sheet, field.as_bytes());
    place.fault()
}

pub(super) fn decay_flag_raised(random: &mut Random, sheet: &mut Sheet) -> Option<Fault> {
    let place = one(random, places(sheet, "DECAY-FLAG"))?;
    let number = random.one(&["0", "1", "20", "775"]);
    let field = raised(random, number);
    place.put(sheet, field.as_bytes());
    place.fault()
}

pub(super) fn code_missing(random: &mut Random, sheet: &mut Sheet) -> Option<Fault> {
    let place = flag(random, sheet)?;
    without_code(random, sheet, place);
    place.fault()
}

/// A flag without code past so many columns.
fn missing_past(random: &mut Random, sheet: &mut Sheet, columns: usize) -> Option<Fault> {
    let place = one(random, places(sheet, "FLAG").into_iter().filter(|place| place.column >= columns).collect())?;
    without_code(random, sheet, place);
    place.fault()
}

pub(super) fn missing_past_the_sixth(random: &mut Random, sheet: &mut Sheet) -> Option<Fault> {
    missing_past(random, sheet, 6)
}

pub(super) fn missing_past_the_twelfth(random: &mut Random, sheet: &mut Sheet) -> Option<Fault> {
    missing_past(random, sheet, 12)
}

/// The code stands in another subentry: a later one, where nothing hangs on it that comes first, or an earlier one.
pub(super) fn code_elsewhere(random: &mut Random, sheet: &mut Sheet) -> Option<Fault> {
    let place = flag(random, sheet)?;
    let own = owner(sheet, place.at).to_vec();
    let mut others = texts(sheet, true);
    others.retain(|&at| {
        let later = owner(sheet, at) > &own[..];
        later || (owner(sheet, at) != b"001" && owner(sheet, at) != own && spare(sheet, at))
    });
    let at = pick(random, &others)?;
    let number = without_code(random, sheet, place);
    set_text(sheet, at, &format!("({number}.)"));
    place.fault()
}

/// A flag without code, and a text in one of these forms where its code might stand.
fn nearly_coded(random: &mut Random, sheet: &mut Sheet, forms: &[&str]) -> Option<Fault> {
    let place = flag(random, sheet)?;
    let at = text_for(random, sheet, place, true)?;
    let number = without_code(random, sheet, place);
    let text = nearly(random, forms, &number);
    set_text(sheet, at, &text);
    place.fault()
}

pub(super) fn code_malformed(random: &mut Random, sheet: &mut Sheet) -> Option<Fault> {
    nearly_coded(random, sheet, &MALFORMED)
}

pub(super) fn code_misplaced(random: &mut Random, sheet: &mut Sheet) -> Option<Fault> {
    nearly_coded(random, sheet, &MISPLACED)
}

/// Whether a text says the code 0, or begins as one without digits would.
fn says_zero(sheet: &Sheet, at: usize) -> bool {
    let text = String::from_utf8_lossy(sheet.columns(at, 12, 66)).to_string();
    let digits = text.strip_prefix('(').and_then(|text| text.split_once(".)"));
    digits.is_some_and(|(digits, _)| digits.trim_start_matches('0').is_empty())
}

/// The flag 0, no code 0, and a text that would be one if a code needed no digit.
pub(super) fn code_without_digits(random: &mut Random, sheet: &mut Sheet) -> Option<Fault> {
    let place = flag(random, sheet)?;
    let at = text_for(random, sheet, place, true)?;
    if near(sheet, place, true).into_iter().any(|at| says_zero(sheet, at)) {
        return None;
    }
    let field = flag_spelling(random, "0");
    place.put(sheet, &field);
    set_text(sheet, at, random.one(&["(.)", "(.) text", "(.)(0.)"]));
    place.fault()
}

/// A code that is the flag's number where it is cut to 32, 64 or 128 bits, or to its last digits.
pub(super) fn code_too_large(random: &mut Random, sheet: &mut Sheet) -> Option<Fault> {
    let place = flag(random, sheet)?;
    let at = text_for(random, sheet, place, true)?;
    let number = without_code(random, sheet, place);
    let value: u128 = number.parse().expect("digits");
    let more = random.within(1, 1_000_000) as u128;
    let code = match random.below(5) {
        0 => (value + (1 << 32)).to_string(),
        1 => (value + (1 << 64)).to_string(),
        2 => (value + (more << 64)).to_string(),
        3 => format!("{more}{number:0>10}"),
        _ => format!("{more}{number:0>40}"),
    };
    set_text(sheet, at, &format!("({code}.)"));
    place.fault()
}

pub(super) fn code_under_another_keyword(random: &mut Random, sheet: &mut Sheet) -> Option<Fault> {
    let place = flag(random, sheet)?;
    let at = text_for(random, sheet, place, false)?;
    let number = without_code(random, sheet, place);
    set_text(sheet, at, &format!("({number}.)"));
    place.fault()
}

pub(super) fn flag_below_zero(random: &mut Random, sheet: &mut Sheet) -> Option<Fault> {
    let (place, number) = filled_flag(random, sheet)?;
    if number == "0" || number.len() > 9 {
        return None;
    }
    place.put(sheet, format!("{:>11}", format!("-{number}.")).as_bytes());
    place.fault()
}

pub(super) fn flag_with_fraction(random: &mut Random, sheet: &mut Sheet) -> Option<Fault> {
    let (place, number) = filled_flag(random, sheet)?;
    if number.len() > 8 {
        return None;
    }
    let fraction = random.one(&["5", "01", "10", "9"]);
    place.put(sheet, format!("{:<11}", format!("{number}.{fraction}")).as_bytes());
    place.fault()
}

/// A flag without code, and a value of its record that is no number: 15 comes first.
pub(super) fn malformed_beside(random: &mut Random, sheet: &mut Sheet) -> Option<Fault> {
    let place = flag(random, sheet)?;
    let Kind::Values { used, .. } = sheet.kinds[place.at] else { return None };
    let others: Vec<usize> = (0..used).filter(|&field| field != place.field).collect();
    let other = pick(random, &others)?;
    without_code(random, sheet, place);
    sheet.put(place.at, 11 * other + 1, format!("{:>11}", random.one(&NO_NUMBERS)).as_bytes());
    Some((15, place.at, 11 * other + 1))
}

/// Puts something of flags somewhere: a code into a text, a flag heading over a column, or a number without exponent.
pub(super) fn noise(random: &mut Random, sheet: &mut Sheet) {
    let headings = sheet.find(|kind| matches!(kind, Kind::Heading { .. }));
    let values = sheet.find(|kind| matches!(kind, Kind::Values { .. }));
    let field = 11 * random.below(6) + 1;
    match random.below(4) {
        0 => {
            if let Some(at) = pick(random, &headings) {
                sheet.put(at, field, format!("{:10}", random.one(&["FLAG", "DECAY-FLAG", "FLAG1"])).as_bytes());
            }
        }
        1 => {
            if let Some(at) = pick(random, &values) {
                let (number, length) = (random.below(20).to_string(), random.one(&[10, 11]));
                sheet.put(at, field, &flag_spelling(random, &number)[..length]);
            }
        }
        _ => {
            let all = [texts(sheet, true), texts(sheet, false)].concat();
            let among = if random.once_in(2) { texts(sheet, true) } else { all };
            if let Some(at) = pick(random, &among) {
                let number = random.below(20).to_string();
                let forms = random.one(&[&["(#.)"][..], &MALFORMED, &MISPLACED]);
                let text = nearly(random, forms, &number);
                set_text(sheet, at, &text);
            }
        }
    }
}

//! Codes under DECAY-DATA (M-106): good ones, those with one character changed, and entries in which they are laid out
//! in every way, whole and broken.

use super::{spelling, Random};
use crate::RECORD;

/// So many capitals.
fn capitals(random: &mut Random, count: usize) -> String {
    (0..count).map(|_| random.one(&['A', 'B', 'D', 'E', 'G', 'H', 'M', 'R', 'S', 'Z'])).collect()
}

/// Z or A.
fn whole(random: &mut Random) -> String {
    match random.below(5) {
        0 => "0".into(),
        1 => random.within(1, 9).to_string(),
        2 => random.within(10, 99).to_string(),
        _ => random.within(1, 999).to_string(),
    }
}

/// A nuclide.
fn nuclide(random: &mut Random) -> String {
    let symbol = random.within(1, 2);
    let isomer = random.one(&["", "", "", "-G", "-M", "-M1", "-M2"]);
    format!("{}-{}-{}{isomer}", whole(random), capitals(random, symbol), whole(random))
}

/// A number without blanks, at most eleven characters, in any of its spellings.
fn number(random: &mut Random) -> String {
    match random.below(6) {
        0 => random.one(&["0.", ".0", "1.", "1.E5", "-.5", "+1.+5", "1.E-5", "0.500"]).into(),
        1 => random
            .one(&["1234567890.", ".1234567890", "-123456789.", "1.+99999999", "1.-99999999", "1.E99999999"])
            .into(),
        2 => format!("{}.", random.below(10_000)),
        _ => String::from_utf8_lossy(&spelling(random)).replace(' ', ""),
    }
}

/// A half-life.
fn half_life(random: &mut Random) -> String {
    let unit = match random.below(5) {
        0 => {
            let count = random.within(1, 10);
            capitals(random, count)
        }
        1 => random.one(&["E", "EE", "ED", "D"]).into(),
        _ => random.one(&["SEC", "MIN", "HR", "D", "YR"]).into(),
    };
    number(random) + &unit
}

/// Some pieces with slashes between them, most often one.
fn pieces(random: &mut Random, piece: fn(&mut Random) -> String) -> String {
    let count = random.one(&[1, 1, 1, 2, 2, 3]);
    (0..count).map(|_| piece(random)).collect::<Vec<_>>().join("/")
}

/// A type of radiation.
fn kind(random: &mut Random) -> String {
    match random.below(4) {
        0 => {
            let count = random.within(1, 12);
            (0..count).map(|_| random.one(&['A', 'E', 'Z', '0', '9', '+', '-'])).collect()
        }
        _ => random.one(&["B+", "B-", "EC", "DG", "A", "X", "AR", "N", "1", "-"]).into(),
    }
}

/// Blanks at the beginning of a field: most often none.
fn blanks(random: &mut Random) -> String {
    " ".repeat(random.one(&[0, 0, 0, 0, 0, 0, 1, 2]))
}

/// The subfields of a group: which are filled goes by the number, of which 0 is none.
fn group(random: &mut Random, last: bool) -> String {
    let filled = random.within(1, 7);
    let mut subfields = [String::new(), String::new(), String::new()];
    if filled & 1 != 0 {
        subfields[0] = pieces(random, kind);
    }
    if filled & 2 != 0 {
        subfields[1] = pieces(random, number);
    }
    if filled & 4 != 0 {
        subfields[2] = number(random);
    }
    let count = match last {
        true => subfields.iter().rposition(|subfield| !subfield.is_empty()).map_or(0, |at| at + 1),
        false => 3,
    };
    subfields[..count].iter().map(|subfield| blanks(random) + subfield).collect::<Vec<_>>().join(",")
}

/// A good code as one text.
pub fn code(random: &mut Random) -> String {
    let flag = match random.below(4) {
        0 => {
            let count = random.one(&[1, 1, 2, 3, 9, 10]);
            let digits: String = (0..count).map(|_| random.one(&['0', '1', '2', '9'])).collect();
            format!("({digits}.)")
        }
        _ => String::new(),
    };
    let mut fields = vec![format!("({flag}{}{}", blanks(random), nuclide(random))];
    let groups = random.one(&[0, 0, 1, 1, 1, 2, 2, 3, 6]);
    let with_half_life = random.once_in(2);
    if with_half_life || groups > 0 {
        let half_life = if with_half_life { half_life(random) } else { String::new() };
        fields.push(blanks(random) + &half_life);
    }
    fields.extend((1..=groups).map(|at| group(random, at == groups)));
    fields.join(",") + ")"
}

/// Characters that are of codes, and some that are not; all are permitted in entries.
const CHARACTERS: &[u8] = b"()()..,,,//--++ 0012359AEGMTXZag=*'";

/// A code with one character put in, often a blank, taken out or changed, which may leave it good.
pub fn damaged_code(random: &mut Random) -> String {
    let mut text = code(random).into_bytes();
    let at = random.below(text.len());
    match random.below(5) {
        0 => text.insert(at, random.one(CHARACTERS)),
        1 => drop(text.remove(at)),
        2 => text.truncate(at + 1),
        3 => text.insert(if random.once_in(3) { 1 } else { at }, b' '),
        _ => text[at] = random.one(CHARACTERS),
    }
    String::from_utf8(text).expect("its characters are permitted")
}

/// How a code is laid out in records.
#[derive(Clone, Copy, Debug, PartialEq, Eq)]
pub enum Layout {
    /// As few records as there can be, each broken after its last comma.
    Filled,
    /// A break after each comma.
    EachComma,
    /// Breaks after some commas.
    SomeCommas,
    /// A break after no comma: within a field.
    WithinField,
    /// Blanks before the text of the records behind the first.
    Indented,
    /// A blank record between two.
    BlankRecord,
    /// Without its last record.
    LostEnd,
    /// The first comma in column 66, after a long type.
    Column66,
}

/// Every layout.
pub const LAYOUTS: [Layout; 8] = [
    Layout::Filled,
    Layout::EachComma,
    Layout::SomeCommas,
    Layout::WithinField,
    Layout::Indented,
    Layout::BlankRecord,
    Layout::LostEnd,
    Layout::Column66,
];

/// The columns of a record that a code can have.
const COLUMNS: usize = 55;

/// A text cut behind commas: behind each where that is told, and where the columns end. A field that is longer than the
/// columns is cut where they end.
fn cut(text: &str, mut behind: impl FnMut() -> bool) -> Vec<String> {
    let mut records = vec![String::new()];
    for field in text.split_inclusive(',') {
        let last = records.last().expect("there is one");
        if !last.is_empty() && (last.len() + field.len() > COLUMNS || behind()) {
            records.push(String::new());
        }
        for &byte in field.as_bytes() {
            if records.last().is_some_and(|last| last.len() == COLUMNS) {
                records.push(String::new());
            }
            records.last_mut().expect("there is one").push(char::from(byte));
        }
    }
    records
}

/// The texts of the records of a code, columns 12 to 66.
pub fn laid_out(random: &mut Random, text: &str, layout: Layout) -> Vec<String> {
    let mut records = match layout {
        Layout::Filled | Layout::WithinField => cut(text, || false),
        Layout::EachComma => cut(text, || true),
        Layout::Column66 => {
            let (front, behind) = text.split_once(',').unwrap_or((text, ",A)"));
            let padded = format!("{front},,{}", "A".repeat(COLUMNS.saturating_sub(front.len() + 3)));
            cut(&format!("{padded},{behind}"), || false)
        }
        _ => cut(text, || random.once_in(2)),
    };
    let at = random.below(records.len());
    match layout {
        Layout::WithinField => {
            let place = random.below(records[at].len() + 1);
            let behind = records[at].split_off(place);
            records.insert(at + 1, behind);
        }
        Layout::Indented => {
            for record in &mut records[1..] {
                let room = COLUMNS - record.len();
                let count = random.one(&[1, 2, 4, 11]).min(room);
                record.insert_str(0, &" ".repeat(count));
            }
        }
        Layout::BlankRecord => records.insert(at + 1, String::new()),
        Layout::LostEnd => drop(records.pop()),
        _ => {}
    }
    // Text behind the code is passed over.
    if let Some(last) = records.last_mut().filter(|last| last.len() + 12 < COLUMNS && random.once_in(3)) {
        last.push_str(random.one(&[" TEXT", " (1.)", ",", "(", " X)", "  ,"]));
    }
    records
}

/// The texts of the records of a passage: codes, whole and not, and text between them.
pub fn decay_texts(random: &mut Random) -> Vec<String> {
    let mut texts = Vec::new();
    for _ in 0..random.one(&[0, 1, 1, 2, 3, 5]) {
        if random.once_in(5) {
            texts.push(random.one(&["TEXT ABOUT IT", " (1-H-3) NOT HERE", "", "(SEE TABLE 3)", "("]).to_string());
        }
        let text = if random.once_in(3) { damaged_code(random) } else { code(random) };
        let layout = match random.once_in(2) {
            true => Layout::Filled,
            false => random.one(&LAYOUTS),
        };
        texts.extend(laid_out(random, &text, layout));
    }
    if texts.is_empty() {
        texts.push("NO CODE".into());
    }
    texts
}

/// Whole records of a passage, its first with a keyword: what stands behind column 66 is no part of a code.
pub fn decay_passage(random: &mut Random) -> Vec<u8> {
    let texts = decay_texts(random);
    let record = |(at, text): (usize, &String)| {
        let keyword = if at == 0 { "DECAY-DATA" } else { "" };
        format!("{keyword:10} {text:55}9000100200002 \n").into_bytes()
    };
    texts.iter().enumerate().flat_map(record).collect()
}

/// An entry that is laid out line by line, with its identification.
struct Sheet {
    bytes: Vec<u8>,
    owner: String,
    sequence: usize,
}

impl Sheet {
    fn line(&mut self, text: &str) {
        self.sequence += 1;
        let sequence =
            if text.starts_with("ENDSUBENT") || text.starts_with("ENDENTRY") { 99_999 } else { self.sequence };
        self.bytes.extend(format!("{text:66}{}{sequence:05} \n", self.owner).bytes());
    }

    /// A system record with its numbers.
    fn system(&mut self, name: &str, numbers: &[usize]) {
        let fields: String = numbers.iter().map(|number| format!("{number:>11}")).collect();
        self.line(&format!("{name:11}{fields}"));
    }

    /// A subentry with these records in its BIB, or with NOBIB.
    fn subentry(&mut self, number: usize, text: Option<&[String]>) {
        (self.owner, self.sequence) = (format!("90001{number:03}"), 0);
        self.line(&format!("SUBENT        90001{number:03}   20240105"));
        match text {
            Some(text) => {
                let keywords = text.iter().filter(|line| !line.starts_with(' ')).count();
                self.system("BIB", &[keywords, text.len()]);
                text.iter().for_each(|line| self.line(line));
                self.system("ENDBIB", &[text.len()]);
            }
            None => self.line("NOBIB"),
        }
        self.line("NOCOMMON");
        if number > 1 {
            self.line("NODATA");
        }
        let between = self.sequence - 1;
        self.system("ENDSUBENT", &[between]);
    }
}

/// An accepted entry of these texts under DECAY-DATA, one list for each subentry and one for each pointer in it. A
/// subentry behind the first that has none has NOBIB.
pub fn decay_entry_of(subentries: &[Vec<(u8, Vec<String>)>]) -> Vec<u8> {
    let mut sheet = Sheet { bytes: Vec::new(), owner: "90001000".into(), sequence: 0 };
    sheet.line("ENTRY            90001   20240105");
    for (number, passages) in (1..).zip(subentries) {
        if number > 1 && passages.is_empty() {
            sheet.subentry(number, None);
            continue;
        }
        let mut text = vec![format!("{:11}{}", "TITLE", "MADE"), format!("{:11}{}", "DECAY-MON", "(1-H-3)")];
        for (at, (pointer, texts)) in passages.iter().enumerate() {
            for (nth, line) in texts.iter().enumerate() {
                let keyword = if at == 0 && nth == 0 { "DECAY-DATA" } else { "" };
                let pointer = if nth == 0 { char::from(*pointer) } else { ' ' };
                text.push(format!("{keyword:10}{pointer}{line}"));
            }
        }
        text.push(format!("{:11}{}", "RAD-DET", "(1-H-3,B-)"));
        sheet.subentry(number, Some(&text));
    }
    (sheet.owner, sheet.sequence) = ("90001999".into(), 0);
    sheet.system("ENDENTRY", &[subentries.len()]);
    sheet.bytes
}

/// An entry with codes in some of its subentries, under some pointers; at times with one byte changed.
pub fn decay_entry(random: &mut Random) -> Vec<u8> {
    let pointers = b"1239AMZ";
    let subentries: Vec<Vec<(u8, Vec<String>)>> = (0..random.within(1, 3))
        .map(|_| {
            let count = random.one(&[0, 1, 1, 1, 2, 3]);
            let first = random.below(4);
            let with_pointers = random.once_in(2);
            (0..count)
                .map(|at| {
                    let pointer = if at == 0 && !with_pointers { b' ' } else { pointers[first + at] };
                    (pointer, decay_texts(random))
                })
                .collect()
        })
        .collect();
    let mut entry = decay_entry_of(&subentries);
    if random.once_in(8) {
        let at = random.below(entry.len());
        entry[at] = random.one(b"(), .1A#\n");
    }
    entry
}

/// A code of so many records, 20,000 with those of its entry at the most, each with this text; the last closes it.
pub fn long_code(records: usize, text: &str) -> Vec<String> {
    let mut texts = vec![text.to_string(); records];
    texts[0] = "(60-ND-139-M,5.5HR,".into();
    texts[records - 1] = "B+,,0.0060)".into();
    texts
}

/// The most records that a code of an entry can have: all but those of the entry around it.
pub const LONGEST_CODE: usize = 20_000 - 10;

/// An entry whose one subentry has one code of so many records.
pub fn long_entry(records: usize, text: &str) -> Vec<u8> {
    let entry = decay_entry_of(&[vec![(b' ', long_code(records, text))]]);
    debug_assert_eq!(entry.len() % RECORD, 0);
    entry
}

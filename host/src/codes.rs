//! All codes under DECAY-DATA (M-106) of an entry or a transmission, as `x4 decay` lists them, and their refusals in
//! words.

use crate::decay::{codes_in, shifted, Code, CodeRefusal, Group, Number, KEYWORD};
use crate::explain::{named, Explanation};
use crate::json::{array, object, text};
use crate::reference::decay::{run_in, Field};
use crate::transmission::of_entries;
use crate::{Index, NoAnswer, RECORD};

/// A code of an entry, or why it is refused.
#[derive(Clone, Debug, PartialEq, Eq)]
pub struct Found {
    /// The entry of a transmission that it is of, from 1; 0 for a single entry.
    pub entry: usize,
    /// Accession and number of its subentry, such as `90001002`.
    pub subentry: String,
    /// The pointer; blank is none.
    pub pointer: u8,
    /// Which code of its passage it is, from 1.
    pub number: u32,
    /// The record that it begins with, from ENTRY, in a transmission too.
    pub record: u32,
    /// The code, or its refusal, whose record counts from ENTRY, too.
    pub code: Result<Code, CodeRefusal>,
    /// What was expected where it is refused, and what stands there.
    pub words: Option<Explanation>,
}

/// Every code under DECAY-DATA of an entry, in its order: 31 where the entry is refused. It is judged once.
pub fn codes(entry: &[u8]) -> Result<Vec<Found>, NoAnswer> {
    let index = Index::of(entry)?;
    let mut all = Vec::new();
    for row in index.rows().filter(|row| row.bib > 0) {
        let subentry = String::from_utf8_lossy(row.owner(entry).unwrap_or_default()).into_owned();
        for pointer in pointers(entry, row.bib) {
            let part = row.passage(entry, KEYWORD, pointer)?;
            let (passage, before) = (part.of(entry), part.offset / RECORD);
            all.extend((1..).zip(codes_in(passage)).map(|(number, (record, code))| {
                let words = code.as_ref().err().map(|refusal| {
                    // From its own record on it is the first.
                    let above = record as usize - 1;
                    explain(&passage[RECORD * above..], 1, &unshifted(refusal, above))
                });
                let code = code.map_err(|refusal| shifted(refusal, before));
                let record = record + before as u32;
                Found { entry: 0, subentry: subentry.clone(), pointer, number, record, code, words }
            }));
        }
    }
    Ok(all)
}

/// Every code of all entries of a transmission, each with the ordinal of its entry.
pub fn file_codes(file: &[u8]) -> Result<Vec<Found>, NoAnswer> {
    of_entries(file, codes, |entry, found| Found { entry, ..found })
}

/// The pointers that stand under DECAY-DATA in a BIB section, in their order; the first is that of the keyword's record.
fn pointers(entry: &[u8], bib: u32) -> Vec<u8> {
    let text = entry.chunks_exact(RECORD).skip(bib as usize).take_while(|record| &record[..11] != b"ENDBIB     ");
    let own = text.skip_while(|record| &record[..10] != KEYWORD);
    let mut under = own.enumerate().take_while(|(at, record)| *at == 0 || &record[..10] == b"          ");
    let first = under.next().map(|(_, record)| record[10]);
    first.into_iter().chain(under.map(|(_, record)| record[10]).filter(|&pointer| pointer != b' ')).collect()
}

/// A refusal whose record counts without so many before it.
fn unshifted(refusal: &CodeRefusal, above: usize) -> CodeRefusal {
    CodeRefusal { record: refusal.record.saturating_sub(above as u32), ..*refusal }
}

// ---- refusals in words

/// What is expected where a field stands.
fn expected(field: Field) -> &'static str {
    match field {
        Field::Opening => "the opening parenthesis",
        Field::Flag => "a flag: one to ten digits, a point and )",
        Field::Nuclide => {
            "a nuclide, Z-S-A or Z-S-A-X, then a comma or ): Z and A are one to three digits without zeros in front, S is one or \
             two capitals, X is G, M, M1 or M2"
        }
        Field::HalfLife => {
            "a half-life or nothing, then a comma; ) only behind a half-life: a number of at most eleven characters with a \
             point, and a unit of one to ten capitals"
        }
        Field::Types => {
            "types of radiation or nothing, then a comma; ) only behind a type: capitals, digits, + and -, a slash between two"
        }
        Field::Energies => {
            "energies or nothing, then a comma; ) only behind an energy: numbers of at most eleven characters with a point, a \
             slash between two"
        }
        Field::Abundance => {
            "an abundance or, where the group has a type or an energy, nothing, then a comma; ) only behind an abundance: a number \
             of at most eleven characters with a point"
        }
    }
}

/// Puts the refusal of a code into words, where it is what is said of the code of this very passage.
pub fn explain(passage: &[u8], code: u32, refusal: &CodeRefusal) -> Explanation {
    let record = (refusal.record as usize).checked_sub(1).and_then(|at| passage.chunks_exact(RECORD).nth(at));
    let byte = record.and_then(|record| record.get((refusal.column as usize).checked_sub(1)?).copied());
    let field = run_in(passage, code).err().and_then(|refused| refused.field);
    let (expected, found) = match (refusal.number, field) {
        (50, Some(field)) => (expected(field).to_string(), byte.map_or("the end of the passage".into(), named)),
        (51, _) => ("the code goes on, or a comma where it breaks".into(), byte.map_or(String::new(), broken)),
        _ => (format!("not this: {}", refusal.meaning()), byte.map_or(String::new(), named)),
    };
    let text = record.map_or(&[] as &[u8], |record| &record[11..66]);
    let note = match (refusal.number, refusal.column) {
        (50, 12) if text.iter().all(|&byte| byte == b' ') => {
            Some("the record has no character of the code".to_string())
        }
        (50, 12) if text.starts_with(b"(") => Some("the code before is not closed".to_string()),
        (50, 13) if refusal.record == 1 && byte.is_some_and(|byte| byte.is_ascii_alphabetic()) => {
            Some("a record with ( in column 12 opens a code, even where text is meant".to_string())
        }
        (50, _) if byte == Some(b' ') => Some("blanks stand only where a field begins".to_string()),
        _ => None,
    };
    Explanation { expected, found, note }
}

/// The last character before a break.
fn broken(byte: u8) -> String {
    format!("{} and blanks up to column 66", named(byte))
}

// ---- as text

/// The names of the columns of a table.
pub const NAMES: [&str; 20] = [
    "subentry",
    "pointer",
    "code",
    "record",
    "flag",
    "z",
    "symbol",
    "a",
    "isomer",
    "half-life",
    "unit",
    "group",
    "types",
    "energies",
    "abundance",
    "refusal",
    "at record",
    "at column",
    "expected",
    "found",
];

fn pointer(found: &Found) -> String {
    char::from(found.pointer).to_string().trim_end().to_string()
}

fn decimal(number: &Number) -> String {
    number.value.to_string()
}

/// A text between quotation marks where a comma or a quotation mark stands in it.
fn comma_separated(text: &str) -> String {
    match text.contains([',', '"']) {
        true => format!("\"{}\"", text.replace('"', "\"\"")),
        false => text.to_string(),
    }
}

/// The fields of a group, from its number on.
fn group_fields(number: usize, group: &Group) -> Vec<String> {
    let energies: Vec<String> = group.energies.iter().map(decimal).collect();
    let abundance = group.abundance.as_ref().map_or(String::new(), decimal);
    vec![number.to_string(), group.types.join("/"), energies.join("/"), abundance]
}

/// The rows of one code: one for each group, or one where it has none or is refused.
fn rows(found: &Found) -> Vec<Vec<String>> {
    let ordinal = (found.entry > 0).then(|| found.entry.to_string());
    let own = [found.subentry.clone(), pointer(found), found.number.to_string(), found.record.to_string()];
    let front: Vec<String> = ordinal.into_iter().chain(own).collect();
    let empty = |count: usize| vec![String::new(); count];
    let code = match &found.code {
        Ok(code) => code,
        Err(refusal) => {
            let said = [refusal.number, refusal.record, refusal.column].map(|number| number.to_string());
            let words = found
                .words
                .as_ref()
                .map_or([String::new(), String::new()], |words| [words.expected.clone(), words.found.clone()]);
            return vec![[front, empty(11), said.to_vec(), words.to_vec()].concat()];
        }
    };
    let half_life = code
        .half_life()
        .map_or([String::new(), String::new()], |half_life| [decimal(&half_life.number), half_life.unit.to_string()]);
    let head = vec![
        code.flag().unwrap_or_default().to_string(),
        code.z().to_string(),
        code.symbol().to_string(),
        code.a().to_string(),
        code.isomer().unwrap_or_default().to_string(),
    ];
    let front = [front, head, half_life.to_vec()].concat();
    if code.groups().len() == 0 {
        return vec![[front, empty(9)].concat()];
    }
    let groups = (1..).zip(code.groups());
    groups.map(|(number, group)| [front.clone(), group_fields(number, &group), empty(5)].concat()).collect()
}

/// Codes as comma-separated values below a line of names: a row for each group, one for a code that has none, and one
/// for a refused code; of a transmission each begins with the ordinal of its entry.
pub fn to_csv(codes: &[Found], of_file: bool) -> String {
    let ordinal = of_file.then_some("entry");
    let mut csv = ordinal.into_iter().chain(NAMES).collect::<Vec<_>>().join(",") + "\n";
    for row in codes.iter().flat_map(rows) {
        csv += &(row.iter().map(|field| comma_separated(field)).collect::<Vec<_>>().join(",") + "\n");
    }
    csv
}

/// A text, or null where it is not given.
fn or_null(content: Option<&str>) -> String {
    content.map_or("null".into(), text)
}

fn group_json(group: &Group) -> String {
    object(&[
        ("types", array(group.types.iter().map(|one| text(one)))),
        ("energies", array(group.energies.iter().map(|one| text(&decimal(one))))),
        ("abundance", group.abundance.as_ref().map_or("null".into(), |one| text(&decimal(one)))),
    ])
}

/// One code as an object: numbers are texts, exact decimals; what is not given is null.
fn code_json(found: &Found) -> String {
    let mut members = Vec::new();
    members.extend((found.entry > 0).then(|| ("entry", found.entry.to_string())));
    members.push(("subentry", text(&found.subentry)));
    members.push(("pointer", or_null(Some(pointer(found).as_str()).filter(|pointer| !pointer.is_empty()))));
    members.push(("code", found.number.to_string()));
    members.push(("record", found.record.to_string()));
    match &found.code {
        Ok(code) => {
            let half_life = code.half_life().map_or("null".into(), |half_life| {
                object(&[("number", text(&decimal(&half_life.number))), ("unit", text(half_life.unit))])
            });
            members.push(("run", text(code.run())));
            members.push(("flag", or_null(code.flag())));
            members.push(("z", code.z().to_string()));
            members.push(("symbol", text(code.symbol())));
            members.push(("a", code.a().to_string()));
            members.push(("isomer", or_null(code.isomer())));
            members.push(("half_life", half_life));
            members.push(("groups", array(code.groups().map(|group| group_json(&group)))));
        }
        Err(refusal) => {
            let words = found.words.as_ref();
            members.push(("refusal", refusal.number.to_string()));
            members.push(("at_record", refusal.record.to_string()));
            members.push(("at_column", refusal.column.to_string()));
            members.push(("meaning", text(refusal.meaning())));
            members.push(("expected", or_null(words.map(|words| words.expected.as_str()))));
            members.push(("found", or_null(words.map(|words| words.found.as_str()))));
            members.push(("note", or_null(words.and_then(|words| words.note.as_deref()))));
        }
    }
    object(&members)
}

/// Codes as JSON, one object on a line.
pub fn to_json(codes: &[Found]) -> String {
    codes.iter().map(|found| code_json(found) + "\n").collect()
}

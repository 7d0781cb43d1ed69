//! M-105 read otherwise: each other reading of a point has to be found among generated entries, so that the comparison
//! of the library with the reference is known to look at that point.

use glockenbeacon::differ::{Implementation, Pair, Reference};
use glockenbeacon::reference::flags::FlagHeading::{self, DecayFlag, Flag};
use glockenbeacon::reference::record::{Name, Record};
use glockenbeacon::reference::tree::{Cell, Subentry, Tree};
use glockenbeacon::{reference, NoAnswer, Refusal, Totals, Value, Verdict, RECORD};

const SEED: u64 = 11;
const ENTRIES: u64 = 10_000;

/// Each point of M-105 apart.
#[derive(Clone, Copy)]
struct Reading {
    /// The heading over a column, both from 1.
    over: fn(usize) -> usize,
    /// Which flag heading it is, by its cell and section.
    heading: fn(&Cell, Name) -> Option<FlagHeading>,
    /// Whether a number under it is refused as one with an exponent.
    exponent: fn(FlagHeading, &str) -> bool,
    /// Whether codes of a subentry count, by its place: the first, the flag's own, another.
    counts: fn(Whose) -> bool,
    /// Whether a text record counts, by its keyword, and by whether it is the keyword's own record.
    under: fn(&str, Record, bool) -> bool,
    /// Whether a code counts, by the pointer of the column and that of the code's passage; a blank is none.
    pointers: fn(u8, u8) -> bool,
    /// The digits of the code in columns 12-66.
    code: fn(&str) -> Option<String>,
    /// Whether a number has that code.
    same: fn(&str, &str) -> bool,
}

#[derive(PartialEq)]
enum Whose {
    First,
    Own,
    Other,
}

fn word(place: &[u8]) -> String {
    String::from_utf8_lossy(place).trim_end().to_string()
}

fn flag_heading(cell: &Cell, _: Name) -> Option<FlagHeading> {
    match word(cell.word()).as_str() {
        "FLAG" => Some(Flag),
        "DECAY-FLAG" => Some(DecayFlag),
        _ => None,
    }
}

/// What stands behind the digits and the point of a number.
fn tail(number: &str) -> &str {
    number.trim_start_matches(['+', '-']).trim_start_matches(|letter: char| letter.is_ascii_digit() || letter == '.')
}

fn strict(text: &str) -> Option<String> {
    let (digits, _) = text.strip_prefix('(')?.split_once(".)")?;
    (!digits.is_empty() && digits.bytes().all(|byte| byte.is_ascii_digit())).then(|| digits.to_string())
}

/// The digits of a number before and behind its point, without zeros that do not count.
fn parts(number: &str) -> (&str, &str) {
    let text = number.trim_start_matches(['+', '-']);
    let (whole, fraction) = text[..text.len() - tail(number).len()].split_once('.').unwrap_or((text, ""));
    (whole.trim_start_matches('0'), fraction.trim_end_matches('0'))
}

fn same_value(number: &str, code: &str) -> bool {
    let (whole, fraction) = parts(number);
    whole == code.trim_start_matches('0') && fraction.is_empty() && (whole.is_empty() || !number.starts_with('-'))
}

/// As the readings of the request are settled.
const SETTLED: Reading = Reading {
    over: |column| column,
    heading: flag_heading,
    exponent: |_, number| !tail(number).is_empty(),
    counts: |whose| whose != Whose::Other,
    under: |keyword, _, _| keyword == "FLAG",
    pointers: |_, _| true,
    code: strict,
    same: same_value,
};

impl Reading {
    /// The codes that a flag of this subentry may have, each with the pointer of its passage.
    fn codes(&self, tree: &Tree, own: &Subentry) -> Vec<(u8, String)> {
        let mut codes = Vec::new();
        for subentry in &tree.subentries {
            let whose = match subentry.opening {
                opening if opening == own.opening => Whose::Own,
                1 => Whose::First,
                _ => Whose::Other,
            };
            // In 001 its own codes are those of 001.
            let counts = (self.counts)(whose) || (own.opening == 1 && subentry.opening == 1);
            let Some(bib) = subentry.bib.as_ref().filter(|_| counts) else { continue };
            let (mut keyword, mut pointer) = (String::new(), b' ');
            for record in &tree.records[bib.text.clone()] {
                let named = word(record.keyword());
                let first = !named.is_empty();
                keyword = if first { named } else { keyword };
                // A passage goes on to the next pointer or keyword.
                pointer = if first || record.pointer() != b' ' { record.pointer() } else { pointer };
                if (self.under)(&keyword, *record, first) {
                    let code = (self.code)(&String::from_utf8_lossy(record.columns(12, 66)));
                    codes.extend(code.map(|code| (pointer, code)));
                }
            }
        }
        codes
    }

    /// Record and column of the first 17.
    fn first(&self, entry: &[u8]) -> Option<Refusal> {
        let tree = Tree::of(entry);
        let mut faults = Vec::new();
        for subentry in &tree.subentries {
            let codes = self.codes(&tree, subentry);
            for table in subentry.tables() {
                let headings: Vec<Cell> = table.headings(&tree).collect();
                let cells = (2..2 + table.lines).flat_map(|row| table.cells(&tree, row));
                for cell in cells.filter(|cell| cell.used && reference_reads(cell.bytes)) {
                    let number = String::from_utf8_lossy(cell.bytes).trim().to_string();
                    let Some(heading) = headings.get((self.over)(cell.column) - 1) else { continue };
                    let Some(flag) = (self.heading)(heading, table.name) else { continue };
                    let counts = |pointer| (self.pointers)(heading.eleventh(), pointer);
                    let coded = || codes.iter().any(|(pointer, code)| counts(*pointer) && (self.same)(&number, code));
                    if (self.exponent)(flag, &number) || (flag == Flag && !coded()) {
                        faults.push((cell.record, cell.first_column()));
                    }
                }
            }
        }
        let (record, column) = faults.into_iter().min()?;
        Some(Refusal::new(17, record as u32 + 1, column as u32))
    }
}

fn reference_reads(field: &[u8]) -> bool {
    matches!(reference::read_number(field).map(|read| read.value), Ok(Value::Number(_)))
}

impl Implementation for Reading {
    fn judge(&self, entry: &[u8]) -> Verdict {
        match (reference::judge(entry), self.first(entry)) {
            (Verdict::Refused(refusal), _) if refusal.number != 17 => Verdict::Refused(refusal),
            (_, Some(refusal)) => Verdict::Refused(refusal),
            (Verdict::Accepted(totals), None) => Verdict::Accepted(totals),
            (Verdict::Refused(_), None) => Verdict::Accepted(Totals::default()),
        }
    }
}

/// 17 before 15 on the same record.
struct SeventeenFirst;

impl Implementation for SeventeenFirst {
    fn judge(&self, entry: &[u8]) -> Verdict {
        let verdict = reference::judge(entry);
        let fifteen = verdict.refusal().filter(|refusal| refusal.number == 15);
        let flag = fifteen.and_then(|fifteen| SETTLED.first(entry).filter(|flag| flag.record == fifteen.record));
        flag.map_or(verdict, Verdict::Refused)
    }
}

/// The copy of columns that it should leave: those under one of the two headings, in their canonical fields.
struct Copied(FlagHeading);

impl Implementation for Copied {
    fn canonical_copy(&self, entry: &[u8], buffer: &mut [u8]) -> Result<(), NoAnswer> {
        reference::canonical_copy(entry, buffer)?;
        let tree = Tree::of(entry);
        for table in tree.subentries.iter().flat_map(Subentry::tables) {
            let headings: Vec<Cell> = table.headings(&tree).collect();
            for cell in (2..2 + table.lines).flat_map(|row| table.cells(&tree, row)).filter(|cell| cell.used) {
                let here = flag_heading(&headings[cell.column - 1], table.name) == Some(self.0);
                if let (true, Value::Number(decimal)) = (here, reference::read_number(cell.bytes)?.value) {
                    let first = cell.record * RECORD + 11 * cell.field;
                    reference::write_number(decimal, &mut buffer[first..first + 11])?;
                }
            }
        }
        Ok(())
    }
}

#[test]
fn the_settled_reading_is_the_references() {
    Pair::new(&SETTLED, &Reference).entries(SEED, ENTRIES / 5).unwrap_or_else(|difference| panic!("{difference}"));
}

/// One reading after another, each with one point changed.
#[test]
fn flags_read_otherwise_are_found() {
    let slips: [(&str, Reading); 29] = [
        (
            "an exponent of zero is none",
            Reading { exponent: |_, n| tail(n).contains(|c| ('1'..='9').contains(&c)), ..SETTLED },
        ),
        ("an exponent has an E", Reading { exponent: |_, n| n.contains('E'), ..SETTLED }),
        ("DECAY-FLAG may have an exponent", Reading { exponent: |h, n| h == Flag && !tail(n).is_empty(), ..SETTLED }),
        (
            "DECAY-FLAG needs a code",
            Reading { heading: |cell, name| flag_heading(cell, name).map(|_| Flag), ..SETTLED },
        ),
        (
            "FLAG with a pointer is none",
            Reading { heading: |cell, name| flag_heading(cell, name).filter(|_| cell.eleventh() == b' '), ..SETTLED },
        ),
        (
            "FLAG1 is FLAG",
            Reading {
                heading: |cell, name| {
                    if cell.bytes.starts_with(b"FLAG1 ") {
                        Some(Flag)
                    } else {
                        flag_heading(cell, name)
                    }
                },
                ..SETTLED
            },
        ),
        (
            "in DATA only",
            Reading { heading: |cell, name| flag_heading(cell, name).filter(|_| name == Name::Data), ..SETTLED },
        ),
        (
            "up to the sixth column",
            Reading { heading: |cell, name| flag_heading(cell, name).filter(|_| cell.column < 7), ..SETTLED },
        ),
        (
            "up to the twelfth column",
            Reading { heading: |cell, name| flag_heading(cell, name).filter(|_| cell.column < 13), ..SETTLED },
        ),
        ("the heading by the field", Reading { over: |column| (column - 1) % 6 + 1, ..SETTLED }),
        ("codes of this subentry alone", Reading { counts: |whose| whose == Whose::Own, ..SETTLED }),
        ("codes of 001 alone", Reading { counts: |whose| whose == Whose::First, ..SETTLED }),
        ("codes of any subentry", Reading { counts: |_| true, ..SETTLED }),
        ("codes under any keyword", Reading { under: |_, _, _| true, ..SETTLED }),
        (
            "codes on the keyword's record alone",
            Reading { under: |keyword, _, first| keyword == "FLAG" && first, ..SETTLED },
        ),
        (
            "codes without pointer alone",
            Reading { under: |keyword, record, _| keyword == "FLAG" && record.pointer() == b' ', ..SETTLED },
        ),
        (
            "the column's pointer must be the passage's",
            Reading { pointers: |column, passage| column == passage, ..SETTLED },
        ),
        (
            "two pointers must be one",
            Reading { pointers: |column, passage| column == b' ' || passage == b' ' || column == passage, ..SETTLED },
        ),
        ("a code from any column", Reading { code: |text| strict(text.trim_start()), ..SETTLED }),
        (
            "a code without its point",
            Reading { code: |text| strict(text).or_else(|| strict(&text.replacen(')', ".)", 1))), ..SETTLED },
        ),
        (
            "(.) counts as the code 0",
            Reading {
                code: |text| strict(text).or_else(|| text.starts_with("(.)").then(|| "0".to_string())),
                ..SETTLED
            },
        ),
        ("a code with a sign", Reading { code: |text| strict(&text.replacen("(+", "(", 1)), ..SETTLED }),
        (
            "a code with blanks inside",
            Reading { code: |text| strict(&text.replacen("( ", "(", 1).replacen(". )", ".)", 1)), ..SETTLED },
        ),
        (
            "two codes on a record",
            Reading {
                code: |text| {
                    strict(text.rsplit_once(")(").map_or(text.into(), |(_, last)| format!("({last}")).as_str())
                },
                ..SETTLED
            },
        ),
        (
            "a code of at most ten digits",
            Reading { code: |text| strict(text).filter(|digits| digits.len() <= 10), ..SETTLED },
        ),
        (
            "a code cut to 64 bits",
            Reading {
                code: |text| {
                    strict(text).map(|digits| {
                        digits
                            .bytes()
                            .fold(0_u64, |n, digit| n.wrapping_mul(10).wrapping_add(u64::from(digit - b'0')))
                            .to_string()
                    })
                },
                ..SETTLED
            },
        ),
        ("by the text", Reading { same: |number, code| number == format!("{code}."), ..SETTLED }),
        (
            "the sign passed over",
            Reading { same: |number, code| same_value(number.trim_start_matches('-'), code), ..SETTLED },
        ),
        (
            "the fraction cut off",
            Reading {
                same: |number, code| parts(number).0 == code.trim_start_matches('0') && !number.starts_with('-'),
                ..SETTLED
            },
        ),
    ];
    for (name, slip) in slips {
        assert!(Pair::new(&slip, &Reference).entries(SEED, ENTRIES).is_err(), "{name}: goes unseen");
    }
}

#[test]
fn flags_judged_or_copied_otherwise_are_found() {
    let slips: [(&str, &dyn Implementation); 3] = [
        ("17 before 15", &SeventeenFirst),
        ("FLAG made canonical", &Copied(Flag)),
        ("DECAY-FLAG made canonical", &Copied(DecayFlag)),
    ];
    for (name, slip) in slips {
        assert!(Pair::new(slip, &Reference).entries(SEED, ENTRIES).is_err(), "{name}: goes unseen");
    }
}

//! Slips in codes under DECAY-DATA (M-106) planted on purpose, to see that the comparison of `differ` would find them.

mod common;

use common::SEED;
use glockenbeacon::decay::{CodeRefusal, GroupRead, HeadRead, NoCode, NumberRead, Place};
use glockenbeacon::differ::{Implementation, Pair, Reference};
use glockenbeacon::{reference, Refusal, RECORD};

/// How many entries are asked about.
const ENTRIES: u64 = 1_500;

type Answer = Result<usize, CodeRefusal>;

/// Codes of entries that are given otherwise than they should be.
struct Full(fn(&[u8], (u32, u8, u32), &mut [u8]) -> Answer);

impl Implementation for Full {
    fn decay(&self, entry: &[u8], asked: (u32, u8, u32), out: &mut [u8]) -> Answer {
        (self.0)(entry, asked, out)
    }
}

/// Codes of passages in hand, and those of entries by them.
struct In(fn(&[u8], u32, &mut [u8]) -> Answer);

impl Implementation for In {
    fn decay(&self, entry: &[u8], (subentry, pointer, code): (u32, u8, u32), out: &mut [u8]) -> Answer {
        let part = reference::passage(entry, subentry, b"DECAY-DATA", pointer)?;
        let before = (part.offset / RECORD) as u32;
        (self.0)(part.of(entry), code, out).map_err(|refusal| match refusal.record {
            0 => refusal,
            record => CodeRefusal { record: record + before, ..refusal },
        })
    }
    fn decay_in(&self, passage: &[u8], code: u32, out: &mut [u8]) -> Answer {
        (self.0)(passage, code, out)
    }
}

/// Heads, groups, types and energies.
struct Head(fn(&[u8]) -> Result<HeadRead, NoCode>);
struct Group(fn(&[u8], u32) -> Option<GroupRead>);
struct Type(fn(&[u8], u32, u32) -> Option<Place>);
struct Energy(fn(&[u8], u32, u32) -> Option<NumberRead>);

impl Implementation for Head {
    fn decay_head(&self, run: &[u8]) -> Result<HeadRead, NoCode> {
        (self.0)(run)
    }
}
impl Implementation for Group {
    fn decay_group(&self, run: &[u8], group: u32) -> Option<GroupRead> {
        (self.0)(run, group)
    }
}
impl Implementation for Type {
    fn decay_type(&self, run: &[u8], group: u32, at: u32) -> Option<Place> {
        (self.0)(run, group, at)
    }
}
impl Implementation for Energy {
    fn decay_energy(&self, run: &[u8], group: u32, at: u32) -> Option<NumberRead> {
        (self.0)(run, group, at)
    }
}

/// Each is found by the same entries and texts, in what is said first.
fn found(slips: &[(&str, &dyn Implementation)], words: &str) {
    for (name, slip) in slips {
        let mut pair = Pair::new(*slip, &Reference);
        let outcome = pair.codes(SEED, ENTRIES).and_then(|()| {
            pair.code_bytes(b"((1.)60-ND-138-M1, 5.04HR,DG/B+,328./1.E5, 0.065,X)", &[b' ', b'3', b'T', b'/'])
        });
        let said = outcome.expect_err(name).words;
        assert!(said.starts_with(words), "{name}: {said}");
    }
}

/// The run of a code with room enough, or its refusal.
fn run(passage: &[u8], code: u32) -> Result<Vec<u8>, CodeRefusal> {
    let mut out = vec![0; passage.len()];
    reference::decay_in(passage, code, &mut out).map(|length| out[..length].to_vec())
}

/// Puts another run in a slice.
fn put(run: &[u8], out: &mut [u8]) -> Answer {
    let front = out.get_mut(..run.len()).ok_or(CodeRefusal { number: 52, record: 0, column: 0, entry: None })?;
    front.copy_from_slice(run);
    Ok(run.len())
}

/// The answer about a passage that is changed first, record by record.
fn changed(passage: &[u8], code: u32, out: &mut [u8], change: impl Fn(&mut [u8])) -> Answer {
    let mut other = passage.to_vec();
    other.chunks_exact_mut(RECORD).for_each(|record| change(&mut record[11..66]));
    reference::decay_in(&other, code, out)
}

/// Replaces a text in the columns of a code by another that is as long.
fn replaced(columns: &mut [u8], from: &[u8], to: &[u8]) {
    while let Some(at) = columns.windows(from.len()).position(|text| text == from) {
        columns[at..at + to.len()].copy_from_slice(to);
    }
}

/// The answer with another refusal where it is one of a number.
fn renamed(passage: &[u8], code: u32, out: &mut [u8], of: u32, change: fn(CodeRefusal) -> CodeRefusal) -> Answer {
    reference::decay_in(passage, code, out)
        .map_err(|refusal| if refusal.number == of { change(refusal) } else { refusal })
}

/// The last filled column, from 0.
fn last(columns: &[u8]) -> Option<usize> {
    columns.iter().rposition(|&byte| byte != b' ')
}

#[test]
fn slips_in_the_grammar_are_found() {
    let slips: [(&str, &dyn Implementation); 16] = [
        ("the isomer M3", &In(|p, j, o| changed(p, j, o, |c| replaced(c, b"M3", b"M2")))),
        ("the isomer T", &In(|p, j, o| changed(p, j, o, |c| replaced(c, b"-T", b"-G")))),
        (
            "zeros in front of Z",
            &In(|p, j, o| {
                changed(p, j, o, |c| {
                    if c.starts_with(b"(0") && c[2].is_ascii_digit() {
                        c[1] = b'1';
                    }
                })
            }),
        ),
        ("small letters", &In(|p, j, o| changed(p, j, o, |c| c.make_ascii_uppercase()))),
        ("a blank behind a slash", &In(|p, j, o| changed(p, j, o, |c| replaced(c, b"/ ", b"/A")))),
        ("an empty type", &In(|p, j, o| changed(p, j, o, |c| replaced(c, b"//", b"/A")))),
        ("a comma before )", &In(|p, j, o| changed(p, j, o, |c| replaced(c, b",)", b"))")))),
        ("empty groups", &In(|p, j, o| changed(p, j, o, |c| replaced(c, b",,,,", b",,.,")))),
        (
            "no blanks in codes",
            &In(|p, j, o| {
                let run = run(p, j)?;
                match run.iter().position(|&byte| byte == b' ') {
                    Some(_) => Err(CodeRefusal { number: 50, record: 1, column: 13, entry: None }),
                    None => put(&run, o),
                }
            }),
        ),
        (
            "blanks before the flag",
            &In(|p, j, o| {
                changed(p, j, o, |c| {
                    if c.starts_with(b"( (") {
                        c[1..].rotate_left(1);
                    }
                })
            }),
        ),
        (
            "a flag of nine digits at most",
            &In(|p, j, o| {
                let run = run(p, j)?;
                match run.get(12..14) == Some(b".)") && run[1] == b'(' {
                    true => Err(CodeRefusal { number: 50, record: 1, column: 23, entry: None }),
                    false => put(&run, o),
                }
            }),
        ),
        (
            "a unit of nine capitals at most",
            &In(|p, j, o| {
                let run = run(p, j)?;
                let head = reference::decay_head(&run).expect("a run is a code");
                match head.half_life.is_some_and(|(_, unit)| unit.length > 9) {
                    true => Err(CodeRefusal { number: 50, record: 1, column: 30, entry: None }),
                    false => put(&run, o),
                }
            }),
        ),
        (
            "numbers of ten characters at most",
            &In(|p, j, o| {
                let run = run(p, j)?;
                let head = reference::decay_head(&run).expect("a run is a code");
                match head.half_life.is_some_and(|(number, _)| number.place.length > 10) {
                    true => Err(CodeRefusal { number: 50, record: 1, column: 30, entry: None }),
                    false => put(&run, o),
                }
            }),
        ),
        (
            "an E is always the number's",
            &In(|p, j, o| {
                let run = run(p, j)?;
                let head = reference::decay_head(&run).expect("a run is a code");
                match head.half_life.is_some_and(|(_, unit)| unit.of(&run).starts_with(b"E")) {
                    true => Err(CodeRefusal { number: 50, record: 1, column: 30, entry: None }),
                    false => put(&run, o),
                }
            }),
        ),
        (
            "the fault one too early",
            &In(|p, j, o| {
                renamed(p, j, o, 50, |r| CodeRefusal {
                    column: if r.column > 12 { r.column - 1 } else { r.column },
                    ..r
                })
            }),
        ),
        (
            "a sign is no part of a number",
            &In(|p, j, o| {
                let run = run(p, j)?;
                match run.windows(2).any(|pair| pair[0] == b',' && pair[1] == b'-') {
                    true => Err(CodeRefusal { number: 50, record: 1, column: 30, entry: None }),
                    false => put(&run, o),
                }
            }),
        ),
    ];
    found(&slips, "decay");
}

#[test]
fn slips_in_records_are_found() {
    let slips: [(&str, &dyn Implementation); 17] = [
        ("the first opening for the j-th", &In(|p, j, o| reference::decay_in(p, j.min(1), o))),
        ("codes from 0", &In(|p, j, o| reference::decay_in(p, j.wrapping_add(1), o))),
        (
            "openings within a code do not count",
            &In(|p, j, o| {
                let mut other = p.to_vec();
                let mut open = false;
                for record in other.chunks_exact_mut(RECORD) {
                    let ends = last(&record[11..66]).is_some_and(|at| record[11 + at] == b',');
                    if open && record[11] == b'(' {
                        record[11] = b'.';
                    }
                    open = ends;
                }
                reference::decay_in(&other, j, o)
            }),
        ),
        (
            "a break after a slash",
            &In(|p, j, o| match reference::decay_in(p, j, o) {
                Err(r) if r.number == 51 && p[RECORD * (r.record as usize - 1) + r.column as usize - 1] == b'/' => {
                    Err(CodeRefusal { number: 50, record: r.record + 1, column: 12, entry: None })
                }
                answer => answer,
            }),
        ),
        ("51 behind the character", &In(|p, j, o| renamed(p, j, o, 51, |r| CodeRefusal { column: r.column + 1, ..r }))),
        ("51 as 50", &In(|p, j, o| renamed(p, j, o, 51, |r| CodeRefusal { number: 50, ..r }))),
        (
            "a blank record as a break",
            &In(|p, j, o| renamed(p, j, o, 50, |r| CodeRefusal { number: if r.column == 12 { 51 } else { 50 }, ..r })),
        ),
        (
            "blank records are passed over",
            &In(|p, j, o| {
                let filled = p.chunks_exact(RECORD).filter(|record| last(&record[11..66]).is_some());
                let other: Vec<u8> = filled.flatten().copied().collect();
                reference::decay_in(&other, j, o)
            }),
        ),
        (
            "the passage ended in the last record",
            &In(|p, j, o| renamed(p, j, o, 50, |r| CodeRefusal { record: r.record - u32::from(r.column == 0), ..r })),
        ),
        (
            "the passage ended at column 12",
            &In(|p, j, o| {
                renamed(p, j, o, 50, |r| CodeRefusal { column: if r.column == 0 { 12 } else { r.column }, ..r })
            }),
        ),
        ("records from 0", &In(|p, j, o| renamed(p, j, o, 50, |r| CodeRefusal { record: r.record - 1, ..r }))),
        (
            "text behind a code is judged",
            &In(|p, j, o| {
                let run = run(p, j)?;
                let opening = p.chunks_exact(RECORD).filter(|record| record[11] == b'(').nth(j as usize - 1);
                let columns = opening.map_or(&[][..], |record| &record[11..66]);
                match columns.iter().rposition(|&byte| byte == b')').zip(last(columns)) {
                    Some((close, end)) if close < end && columns[end] != b',' => {
                        Err(CodeRefusal { number: 50, record: 1, column: 12, entry: None })
                    }
                    _ => put(&run, o),
                }
            }),
        ),
        (
            "column 66 is not looked at",
            &In(|p, j, o| {
                changed(p, j, o, |c| {
                    if c[54] != b' ' {
                        c[54] = b' ';
                    }
                })
            }),
        ),
        (
            "indented records go on at their first character",
            &In(|p, j, o| {
                let run = run(p, j)?;
                let other = String::from_utf8_lossy(&run).replace(",  ", ",");
                put(other.as_bytes(), o)
            }),
        ),
        (
            "the last record may be cut",
            &In(|p, j, o| {
                let rest = p.len() % RECORD;
                let whole = if rest == RECORD - 1 { [p, b"\n"].concat() } else { p.to_vec() };
                reference::decay_in(&whole, j, o)
            }),
        ),
        (
            "the column of the entry's refusal beside 50",
            &Full(|e, (n, p, j), o| {
                reference::decay(e, n, p, j, o).map_err(|r| match r.number {
                    50 => CodeRefusal { entry: Some(Refusal::new(50, r.record, r.column)), ..r },
                    _ => r,
                })
            }),
        ),
        (
            "records of the passage for those of the entry",
            &Full(|e, (n, p, j), o| {
                let part = reference::passage(e, n, b"DECAY-DATA", p)?;
                reference::decay_in(part.of(e), j, o)
            }),
        ),
    ];
    found(&slips, "decay");
}

#[test]
fn slips_in_questions_are_found() {
    let slips: [(&str, &dyn Implementation); 5] = [
        (
            "DECAY-MON too",
            &Full(|e, (n, p, j), o| {
                reference::decay(e, n, p, j, o).or_else(|refused| match refused.number {
                    36 => {
                        let part = reference::passage(e, n, b"DECAY-MON ", p)?;
                        reference::decay_in(part.of(e), j, o)
                    }
                    _ => Err(refused),
                })
            }),
        ),
        (
            "any pointer",
            &Full(|e, (n, p, j), o| {
                reference::decay(e, n, p, j, o).or_else(|refused| match refused.number {
                    36 => reference::decay(e, n, b' ', j, o),
                    _ => Err(refused),
                })
            }),
        ),
        (
            "33 for 36",
            &Full(|e, (n, p, j), o| {
                reference::decay(e, n, p, j, o).map_err(|r| {
                    if r.number == 36 {
                        CodeRefusal { number: 33, ..r }
                    } else {
                        r
                    }
                })
            }),
        ),
        (
            "nothing is judged",
            &Full(|e, (n, p, j), o| {
                reference::decay(e, n, p, j, o).map_err(|r| {
                    if r.number == 31 {
                        CodeRefusal { number: 32, entry: None, ..r }
                    } else {
                        r
                    }
                })
            }),
        ),
        (
            "52 comes first",
            &Full(|e, (n, p, j), o| match o.len() {
                0..=20 => Err(CodeRefusal { number: 52, record: 0, column: 0, entry: None }),
                _ => reference::decay(e, n, p, j, o),
            }),
        ),
    ];
    found(&slips, "decay");
}

#[test]
fn slips_in_runs_are_found() {
    let slips: [(&str, &dyn Implementation); 8] = [
        (
            "one byte more than the run",
            &In(|p, j, o| match run(p, j)?.len() == o.len() {
                true => Err(CodeRefusal { number: 52, record: 0, column: 0, entry: None }),
                false => reference::decay_in(p, j, o),
            }),
        ),
        (
            "a short slice is filled",
            &In(|p, j, o| {
                let answer = reference::decay_in(p, j, o);
                if answer.is_err_and(|refusal| refusal.number == 52) {
                    let (room, run) = (o.len(), run(p, j)?);
                    o.copy_from_slice(&run[..room]);
                }
                answer
            }),
        ),
        (
            "blanks behind the run",
            &In(|p, j, o| {
                let length = reference::decay_in(p, j, o)?;
                o[length..].fill(b' ');
                Ok(length)
            }),
        ),
        (
            "a line feed behind the run",
            &In(|p, j, o| {
                let length = reference::decay_in(p, j, o)?;
                if let Some(byte) = o.get_mut(length) {
                    *byte = b'\n';
                }
                Ok(length)
            }),
        ),
        (
            "the flag in its shortest spelling",
            &In(|p, j, o| {
                let run = run(p, j)?;
                let flag = reference::decay_head(&run).ok().and_then(|head| head.flag);
                let zeros = flag.map_or(0, |flag| {
                    flag.of(&run).iter().take_while(|&&byte| byte == b'0').count().min(flag.length - 2)
                });
                put(&[&run[..run.len().min(2)], &run[run.len().min(2) + zeros..]].concat(), o)
            }),
        ),
        (
            "blanks are left out",
            &In(|p, j, o| {
                let run: Vec<u8> = run(p, j)?.into_iter().filter(|&byte| byte != b' ').collect();
                put(&run, o)
            }),
        ),
        (
            "a zero before the point",
            &In(|p, j, o| put(String::from_utf8_lossy(&run(p, j)?).replace(",.", ",0.").as_bytes(), o)),
        ),
        (
            "no point behind whole numbers",
            &In(|p, j, o| put(String::from_utf8_lossy(&run(p, j)?).replace(".,", ",").as_bytes(), o)),
        ),
    ];
    found(&slips, "decay");
}

#[test]
fn slips_in_fields_are_found() {
    let heads: [(&str, &dyn Implementation); 8] = [
        (
            "the flag without its point",
            &Head(|r| {
                let head = reference::decay_head(r)?;
                Ok(HeadRead { flag: head.flag.map(|p| Place { length: p.length - 1, ..p }), ..head })
            }),
        ),
        (
            "the isomer with its hyphen",
            &Head(|r| {
                let head = reference::decay_head(r)?;
                Ok(HeadRead { isomer: head.isomer.map(|p| Place { first: p.first - 1, length: p.length + 1 }), ..head })
            }),
        ),
        (
            "the unit from the E on",
            &Head(|r| {
                let mut head = reference::decay_head(r)?;
                if let Some((number, unit)) = &mut head.half_life {
                    if let Some(at) = number.place.of(r).iter().position(|&byte| byte == b'E') {
                        unit.first -= number.place.length - at;
                    }
                }
                Ok(head)
            }),
        ),
        (
            "an empty last group counts",
            &Head(|r| {
                let head = reference::decay_head(r)?;
                let commas = r.iter().filter(|&&byte| byte == b',').count();
                Ok(HeadRead { groups: head.groups + usize::from(commas == 1), ..head })
            }),
        ),
        (
            "text behind is passed over",
            &Head(|r| match reference::decay_head(r) {
                Err(NoCode { at }) if at > 0 && r[at - 1] == b')' => reference::decay_head(&r[..at]),
                head => head,
            }),
        ),
        ("50 from 1", &Head(|r| reference::decay_head(r).map_err(|no| NoCode { at: no.at + 1 }))),
        (
            "no end is no fault",
            &Head(|r| {
                reference::decay_head(r).or_else(|no| match no.at == r.len() {
                    true => reference::decay_head(&[r, b")"].concat()).map_err(|_| no),
                    false => Err(no),
                })
            }),
        ),
        (
            "the field with its blanks",
            &Head(|r| {
                let mut head = reference::decay_head(r)?;
                if head.z.first > 0 && r[head.z.first - 1] == b' ' {
                    head.z = Place { first: head.z.first - 1, length: head.z.length + 1 };
                }
                Ok(head)
            }),
        ),
    ];
    found(&heads, "decay_head");
    let groups: [(&str, &dyn Implementation); 4] = [
        ("groups from 0", &Group(|r, k| reference::decay_group(r, k.wrapping_add(1)))),
        (
            "a group without an abundance is none",
            &Group(|r, k| reference::decay_group(r, k).filter(|g| g.abundance.is_some())),
        ),
        (
            "two energies are one",
            &Group(|r, k| reference::decay_group(r, k).map(|g| GroupRead { energies: g.energies.min(1), ..g })),
        ),
        (
            "empty groups of no code",
            &Group(|r, k| {
                let none = GroupRead { types: 0, energies: 0, abundance: None };
                reference::decay_group(r, k).or(reference::decay_head(r).is_err().then_some(none))
            }),
        ),
    ];
    found(&groups, "decay_group");
    let types: [(&str, &dyn Implementation); 3] = [
        ("types from 0", &Type(|r, k, i| reference::decay_type(r, k, i.wrapping_add(1)))),
        (
            "the last type for all behind it",
            &Type(|r, k, i| {
                let count = reference::decay_group(r, k).map_or(0, |group| group.types as u32);
                reference::decay_type(r, k, i.min(count))
            }),
        ),
        (
            "a type up to the comma",
            &Type(|r, k, i| {
                reference::decay_type(r, k, i).map(|place| {
                    let rest = &r[place.first..];
                    let length = rest.iter().position(|byte| b",)".contains(byte)).unwrap_or(rest.len());
                    Place { length, ..place }
                })
            }),
        ),
    ];
    found(&types, "decay_type");
    let energies: [(&str, &dyn Implementation); 3] = [
        (
            "the sign is lost",
            &Energy(|r, k, i| {
                let mut read = reference::decay_energy(r, k, i)?;
                read.value.negative = false;
                Some(read)
            }),
        ),
        (
            "the abundance for a missing energy",
            &Energy(|r, k, i| {
                reference::decay_energy(r, k, i).or_else(|| reference::decay_group(r, k)?.abundance.filter(|_| i == 1))
            }),
        ),
        ("energies of the first group", &Energy(|r, k, i| reference::decay_energy(r, k.min(1), i))),
    ];
    found(&energies, "decay_energy");
}

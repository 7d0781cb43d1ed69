//! Slips in revisions (M-109) planted on purpose, to see that the comparison of `differ` would find them.

mod common;

use common::SEED;
use glockenbeacon::differ::{Implementation, Pair, Reference};
use glockenbeacon::generate::Apart;
use glockenbeacon::revisions::{Chosen, RevisionRefusal, Which};
use glockenbeacon::{reference, Refusal, Verdict, RECORD};

/// How many pairs are asked about.
const PAIRS: u64 = 1_500;

type Handed = Result<Chosen, RevisionRefusal>;
type Merged = Result<usize, RevisionRefusal>;

/// Subentries that are handed out otherwise than they should be.
struct Part(fn(&[u8], &[u8], u32) -> Handed);

impl Implementation for Part {
    fn subentry(&self, held: &[u8], revision: &[u8], subentry: u32) -> Handed {
        (self.0)(held, revision, subentry)
    }
}

/// Merges that are made otherwise.
struct Whole(fn(&[u8], &[u8], &mut [u8]) -> Merged);

impl Implementation for Whole {
    fn merge(&self, held: &[u8], revision: &[u8], buffer: &mut [u8]) -> Merged {
        (self.0)(held, revision, buffer)
    }
}

/// Each is found, in what is said first.
fn found(slips: &[(&str, &dyn Implementation)], words: &str) {
    for (name, slip) in slips {
        let mut pair = Pair::new(*slip, &Reference);
        let outcome = pair.revisions(SEED, PAIRS).and_then(|()| pair.revision_limits());
        let said = outcome.expect_err(name).words;
        assert!(said.starts_with(words), "{name}: {said}");
    }
}

fn alone(number: u32) -> RevisionRefusal {
    RevisionRefusal { number, which: None, refusal: None, length: 0 }
}

/// Where the answer is a part, and both entries have the subentry: the part as the other entry has it, if it is no NOSUBENT there.
fn other(held: &[u8], revision: &[u8], chosen: Chosen, n: u32) -> Handed {
    let (which, entry) = match chosen.which {
        Which::Held => (Which::Revision, revision),
        Which::Revision => (Which::Held, held),
    };
    match reference::subentry(entry, entry, n) {
        Ok(own) => Ok(Chosen { which, ..own }),
        Err(RevisionRefusal { number: 62, .. }) => Err(alone(62)),
        Err(_) => Ok(chosen),
    }
}

/// The date of a subentry in an accepted entry, NOSUBENT too; of ENTRY for 0.
fn date(entry: &[u8], n: u32) -> Option<Vec<u8>> {
    let digits = format!("{n:03}");
    let opens = |record: &&[u8]| &record[74..79] == b"00001" && &record[71..74] == digits.as_bytes();
    entry.chunks_exact(RECORD).find(opens).map(|record| record[25..33].to_vec())
}

/// The merge in bytes of its own, or its refusal.
fn merge(held: &[u8], revision: &[u8]) -> Result<Vec<u8>, RevisionRefusal> {
    let mut buffer = vec![0; held.len() + revision.len()];
    reference::merge(held, revision, &mut buffer).map(|length| buffer[..length].to_vec())
}

/// Puts other bytes where the merge would be, and says so.
fn put(bytes: &[u8], held: &[u8], revision: &[u8], buffer: &mut [u8]) -> Merged {
    if buffer.len() < held.len() + revision.len() {
        return Err(alone(37));
    }
    buffer[..bytes.len()].copy_from_slice(bytes);
    Ok(bytes.len())
}

/// A merge that is changed before it is put.
fn changed(held: &[u8], revision: &[u8], buffer: &mut [u8], change: impl Fn(&mut Vec<u8>)) -> Merged {
    if buffer.len() < held.len() + revision.len() {
        return reference::merge(held, revision, buffer);
    }
    match merge(held, revision) {
        Ok(mut merge) => {
            change(&mut merge);
            put(&merge, held, revision, buffer)
        }
        Err(_) => reference::merge(held, revision, buffer),
    }
}

/// The merge of entries that are changed before.
fn of_others(held: &[u8], revision: &[u8], buffer: &mut [u8], change: impl Fn(&mut Apart, &mut Apart)) -> Merged {
    let good = |entry: &[u8]| matches!(reference::judge(entry), Verdict::Accepted(_));
    if !good(held) || !good(revision) || buffer.len() < held.len() + revision.len() {
        return reference::merge(held, revision, buffer);
    }
    let (mut one, mut two) = (Apart::of(held), Apart::of(revision));
    change(&mut one, &mut two);
    let joined = |apart: &Apart| {
        let mut last = apart.last.clone();
        last[11..22].copy_from_slice(format!("{:>11}", apart.subentries.len()).as_bytes());
        [apart.first.clone(), apart.subentries.concat(), last].concat()
    };
    match merge(&joined(&one), &joined(&two)) {
        Ok(merge) if merge.len() <= buffer.len() => put(&merge, held, revision, buffer),
        _ => reference::merge(held, revision, buffer),
    }
}

#[test]
fn slips_in_the_choice_are_found() {
    let slips: [(&str, &dyn Implementation); 10] = [
        (
            "equal dates: the held one",
            &Part(|h, r, n| {
                let chosen = reference::subentry(h, r, n)?;
                match date(h, n) == date(r, n) {
                    true => other(h, r, chosen, n),
                    false => Ok(chosen),
                }
            }),
        ),
        (
            "always the revision",
            &Part(|h, r, n| {
                let chosen = reference::subentry(h, r, n)?;
                match chosen.which {
                    Which::Held => other(h, r, chosen, n),
                    Which::Revision => Ok(chosen),
                }
            }),
        ),
        (
            "the date of ENTRY for the subentry's",
            &Part(|h, r, n| {
                let chosen = reference::subentry(h, r, n)?;
                let due = if date(r, 0) < date(h, 0) { Which::Held } else { Which::Revision };
                match chosen.which == due {
                    true => Ok(chosen),
                    false => other(h, r, chosen, n),
                }
            }),
        ),
        (
            "the year and the month alone",
            &Part(|h, r, n| {
                let chosen = reference::subentry(h, r, n)?;
                let month = |entry| date(entry, n).map(|date| date[..6].to_vec());
                match chosen.which == Which::Held && month(h) == month(r) {
                    true => other(h, r, chosen, n),
                    false => Ok(chosen),
                }
            }),
        ),
        (
            "the day before the year",
            &Part(|h, r, n| {
                let chosen = reference::subentry(h, r, n)?;
                let turned = |entry| date(entry, n).map(|date| date.into_iter().rev().collect::<Vec<_>>());
                let due = if turned(r) < turned(h) { Which::Held } else { Which::Revision };
                match chosen.which == due {
                    true => Ok(chosen),
                    false => other(h, r, chosen, n),
                }
            }),
        ),
        (
            "NOSUBENT gives way to the other's records",
            &Part(|h, r, n| match reference::subentry(h, r, n) {
                Err(RevisionRefusal { number: 62, .. }) => {
                    let of = |which, entry| reference::subentry(entry, entry, n).map(|own| Chosen { which, ..own });
                    of(Which::Revision, r).or(of(Which::Held, h)).map_err(|_| alone(62))
                }
                answer => answer,
            }),
        ),
        (
            "NOSUBENT is handed out",
            &Part(|h, r, n| match reference::subentry(h, r, n) {
                Err(RevisionRefusal { number: 62, .. }) => {
                    let digits = format!("{n:03}");
                    let at = r.chunks_exact(RECORD).position(|record| &record[71..74] == digits.as_bytes());
                    at.map(|at| Chosen { which: Which::Revision, first: at * RECORD, length: RECORD }).ok_or(alone(62))
                }
                answer => answer,
            }),
        ),
        (
            "NOSUBENT is 32",
            &Part(|h, r, n| {
                reference::subentry(h, r, n).map_err(|refused| match refused.number {
                    62 => alone(32),
                    _ => refused,
                })
            }),
        ),
        (
            "0 is ENTRY",
            &Part(|h, r, n| match (n, reference::subentry(h, r, n)) {
                (0, Err(RevisionRefusal { number: 32, .. })) => {
                    Ok(Chosen { which: Which::Revision, first: 0, length: RECORD })
                }
                (_, answer) => answer,
            }),
        ),
        (
            "999 is ENDENTRY",
            &Part(|h, r, n| match (n, reference::subentry(h, r, n)) {
                (999, Err(RevisionRefusal { number: 32, .. })) => {
                    Ok(Chosen { which: Which::Revision, first: r.len() - RECORD, length: RECORD })
                }
                (_, answer) => answer,
            }),
        ),
    ];
    found(&slips, "subentry ");
}

#[test]
fn slips_in_parts_and_refusals_are_found() {
    let slips: [(&str, &dyn Implementation); 13] = [
        ("numbers modulo 1000", &Part(|h, r, n| reference::subentry(h, r, n % 1_000))),
        ("large numbers are 1", &Part(|h, r, n| reference::subentry(h, r, if n > 1_199 { 1 } else { n }))),
        (
            "bytes from 1",
            &Part(|h, r, n| {
                reference::subentry(h, r, n).map(|own| Chosen { first: own.first + 1, length: own.length - 1, ..own })
            }),
        ),
        (
            "without ENDSUBENT",
            &Part(|h, r, n| reference::subentry(h, r, n).map(|own| Chosen { length: own.length - RECORD, ..own })),
        ),
        (
            "one record more",
            &Part(|h, r, n| {
                reference::subentry(h, r, n).map(|own| {
                    match own.first + own.length + RECORD <= own.which.of(h, r).len() {
                        true => Chosen { length: own.length + RECORD, ..own },
                        false => own,
                    }
                })
            }),
        ),
        (
            "held and revision exchanged in the answer",
            &Part(|h, r, n| {
                let own = reference::subentry(h, r, n)?;
                match own.which {
                    Which::Held if r.len() >= own.first + own.length => Ok(Chosen { which: Which::Revision, ..own }),
                    _ => Ok(own),
                }
            }),
        ),
        (
            "the revision named first",
            &Part(|h, r, n| {
                reference::subentry(h, r, n).map_err(|refused| match reference::judge(r) {
                    Verdict::Refused(own) if refused.number == 60 => {
                        RevisionRefusal { which: Some(Which::Revision), refusal: Some(own), ..refused }
                    }
                    _ => refused,
                })
            }),
        ),
        (
            "which is not said",
            &Part(|h, r, n| reference::subentry(h, r, n).map_err(|refused| RevisionRefusal { which: None, ..refused })),
        ),
        (
            "60 without the column",
            &Part(|h, r, n| {
                reference::subentry(h, r, n).map_err(|refused| RevisionRefusal {
                    refusal: refused.refusal.map(|own| Refusal { column: 0, ..own }),
                    ..refused
                })
            }),
        ),
        (
            "61 before 60",
            &Part(|h, r, n| {
                reference::subentry(h, r, n).map_err(|refused| match h.get(17..22) != r.get(17..22) {
                    true => alone(61),
                    false => refused,
                })
            }),
        ),
        (
            "32 before 61",
            &Part(|h, r, n| {
                reference::subentry(h, r, n).map_err(|refused| match refused.number == 61 && date(r, n).is_none() {
                    true => alone(32),
                    false => refused,
                })
            }),
        ),
        (
            "accessions by their four digits",
            &Part(|h, r, n| match reference::subentry(h, r, n) {
                Err(RevisionRefusal { number: 61, .. }) if h[18..22] == r[18..22] => reference::subentry(r, r, n),
                answer => answer,
            }),
        ),
        (
            "accessions by their first characters",
            &Part(|h, r, n| match reference::subentry(h, r, n) {
                Err(RevisionRefusal { number: 61, .. }) if h[17..21] == r[17..21] => reference::subentry(r, r, n),
                answer => answer,
            }),
        ),
    ];
    found(&slips, "subentry ");
}

#[test]
fn slips_in_merges_are_found() {
    let slips: [(&str, &dyn Implementation); 20] = [
        ("the revision's date", &Whole(|h, r, o| changed(h, r, o, |merge| merge[25..33].copy_from_slice(&r[25..33])))),
        ("the held date", &Whole(|h, r, o| changed(h, r, o, |merge| merge[25..33].copy_from_slice(&h[25..33])))),
        (
            "the earlier date",
            &Whole(|h, r, o| changed(h, r, o, |merge| merge[25..33].copy_from_slice((&h[25..33]).min(&r[25..33])))),
        ),
        (
            "the held ENTRY",
            &Whole(|h, r, o| {
                changed(h, r, o, |merge| {
                    let date = merge[25..33].to_vec();
                    merge[..RECORD].copy_from_slice(&h[..RECORD]);
                    merge[25..33].copy_from_slice(&date);
                })
            }),
        ),
        (
            "the held ENDENTRY",
            &Whole(|h, r, o| {
                changed(h, r, o, |merge| {
                    let end = merge.len() - RECORD;
                    merge[end + 22..].copy_from_slice(&h[h.len() - RECORD + 22..]);
                })
            }),
        ),
        (
            "the ENDENTRY with blanks for its free columns",
            &Whole(|h, r, o| {
                changed(h, r, o, |merge| {
                    let end = merge.len() - RECORD;
                    merge[end + 22..end + 66].fill(b' ');
                })
            }),
        ),
        (
            "the revision's count",
            &Whole(|h, r, o| {
                changed(h, r, o, |merge| {
                    let end = merge.len() - RECORD;
                    merge[end + 11..end + 22].copy_from_slice(&r[r.len() - RECORD + 11..][..11]);
                })
            }),
        ),
        (
            "zeros before the count",
            &Whole(|h, r, o| {
                changed(h, r, o, |merge| {
                    let end = merge.len() - RECORD;
                    merge[end + 11..end + 22].iter_mut().filter(|byte| **byte == b' ').for_each(|byte| *byte = b'0');
                })
            }),
        ),
        (
            "a count of SUBENT alone",
            &Whole(|h, r, o| {
                changed(h, r, o, |merge| {
                    let count = Apart::of(merge).subentries.iter().filter(|one| !one.starts_with(b"NO")).count();
                    let end = merge.len() - RECORD;
                    merge[end + 11..end + 22].copy_from_slice(format!("{count:>11}").as_bytes());
                })
            }),
        ),
        (
            "NOSUBENT left out",
            &Whole(|h, r, o| {
                changed(h, r, o, |merge| {
                    let apart = Apart::of(merge);
                    let kept = apart.subentries.iter().filter(|one| !one.starts_with(b"NO"));
                    *merge = [&apart.first[..], &kept.flatten().copied().collect::<Vec<_>>(), &apart.last[..]].concat();
                })
            }),
        ),
        (
            "the revision's subentries behind the held ones",
            &Whole(|h, r, o| {
                changed(h, r, o, |merge| {
                    let mut apart = Apart::of(merge);
                    let own = Apart::of(h).subentries;
                    apart.subentries.sort_by_key(|one| !own.iter().any(|held| held[14..22] == one[14..22]));
                    *merge = [apart.first, apart.subentries.concat(), apart.last].concat();
                })
            }),
        ),
        (
            "what only the held entry has is left out",
            &Whole(|h, r, o| {
                of_others(h, r, o, |held, revision| {
                    let own = revision.subentries.clone();
                    held.subentries.retain(|one| own.iter().any(|other| one[14..22] == other[14..22]));
                })
            }),
        ),
        (
            "equal dates: the held one",
            &Whole(|h, r, o| {
                of_others(h, r, o, |held, revision| {
                    for one in &mut revision.subentries {
                        let same = |other: &&Vec<u8>| one[14..33] == other[14..33];
                        if let Some(other) = held.subentries.iter().find(same) {
                            *one = other.clone();
                        }
                    }
                })
            }),
        ),
        (
            "column 80 is blank",
            &Whole(|h, r, o| {
                changed(h, r, o, |merge| {
                    merge.chunks_exact_mut(RECORD).for_each(|record| record[79] = b' ');
                })
            }),
        ),
        (
            "37 by the merge's length",
            &Whole(|h, r, o| match merge(h, r) {
                Ok(merge) if o.len() >= merge.len() => {
                    o[..merge.len()].copy_from_slice(&merge);
                    Ok(merge.len())
                }
                _ => reference::merge(h, r, o),
            }),
        ),
        (
            "37 where the buffer is just long enough",
            &Whole(|h, r, o| match reference::merge(h, r, &mut o.to_vec()) {
                Ok(_) if o.len() == h.len() + r.len() => Err(alone(37)),
                _ => reference::merge(h, r, o),
            }),
        ),
        (
            "37 before 60 and 61",
            &Whole(|h, r, o| match o.len() < h.len() + r.len() {
                true => Err(alone(37)),
                false => reference::merge(h, r, o),
            }),
        ),
        (
            "63 without its refusal",
            &Whole(|h, r, o| {
                reference::merge(h, r, o).map_err(|refused| match refused.number {
                    63 => RevisionRefusal { refusal: None, ..refused },
                    _ => refused,
                })
            }),
        ),
        (
            "63 without its length",
            &Whole(|h, r, o| reference::merge(h, r, o).map_err(|refused| RevisionRefusal { length: 0, ..refused })),
        ),
        (
            "the merge is delivered though it is refused",
            &Whole(|h, r, o| match reference::merge(h, r, o) {
                Err(RevisionRefusal { number: 63, length, .. }) => Ok(length),
                answer => answer,
            }),
        ),
    ];
    found(&slips, "merge in ");
}

#[test]
fn slips_in_what_is_stored_are_found() {
    let slips: [(&str, &dyn Implementation); 7] = [
        (
            "63: nothing is blanked",
            &Whole(|h, r, o| {
                let before = o.to_vec();
                let answer = reference::merge(h, r, o);
                if answer.is_err_and(|refused| refused.number == 63) {
                    o.copy_from_slice(&before);
                }
                answer
            }),
        ),
        (
            "63: one byte more",
            &Whole(|h, r, o| {
                let answer = reference::merge(h, r, o);
                if let Err(RevisionRefusal { number: 63, length, .. }) = answer {
                    o[length..].iter_mut().take(1).for_each(|byte| *byte = b' ');
                }
                answer
            }),
        ),
        (
            "63: line feeds stay",
            &Whole(|h, r, o| {
                let answer = reference::merge(h, r, o);
                if let Err(RevisionRefusal { number: 63, length, .. }) = answer {
                    o[..length].chunks_exact_mut(RECORD).for_each(|record| record[RECORD - 1] = b'\n');
                }
                answer
            }),
        ),
        (
            "63: the whole buffer",
            &Whole(|h, r, o| {
                let answer = reference::merge(h, r, o);
                if answer.is_err_and(|refused| refused.number == 63) {
                    o.fill(b' ');
                }
                answer
            }),
        ),
        (
            "61: blanks",
            &Whole(|h, r, o| {
                let answer = reference::merge(h, r, o);
                if answer.is_err_and(|refused| refused.number == 61) {
                    o.fill(b' ');
                }
                answer
            }),
        ),
        (
            "37: as much as there is room for",
            &Whole(|h, r, o| {
                let answer = reference::merge(h, r, o);
                if let (Err(RevisionRefusal { number: 37, .. }), Ok(merge)) = (answer, merge(h, r)) {
                    let room = o.len().min(merge.len());
                    o[..room].copy_from_slice(&merge[..room]);
                }
                answer
            }),
        ),
        (
            "blanks behind the merge",
            &Whole(|h, r, o| {
                let answer = reference::merge(h, r, o);
                if let Ok(length) = answer {
                    o[length..].fill(b' ');
                }
                answer
            }),
        ),
    ];
    found(&slips, "merge in ");
}

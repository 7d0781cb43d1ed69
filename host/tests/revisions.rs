//! Revisions (M-109): each outcome of the request by hand, merges at every limit and around every buffer length, pairs held against
//! the reference, and what C and Fortran print.

mod common;

use common::{changed, compiled, entry, put, sample, say, BOTH, C, SAMPLE, SEED};
use glockenbeacon::differ::{Implementation, Library, Pair, Reference};
use glockenbeacon::generate::{self, Random, Revised};
use glockenbeacon::revisions::{merged, Chosen, Origins, RevisionRefusal, Subentry, Which};
use glockenbeacon::{library, reference, words, Index, Refusal, RECORD};
use std::path::Path;
use std::process::Command;

type Handed = Result<Chosen, RevisionRefusal>;

/// A refusal that stands alone.
fn alone(number: u32) -> RevisionRefusal {
    RevisionRefusal { number, which: None, refusal: None, length: 0 }
}

/// 60.
fn of_entry(which: Which, number: u32, record: u32, column: u32) -> RevisionRefusal {
    RevisionRefusal { which: Some(which), refusal: Some(Refusal::new(number, record, column)), ..alone(60) }
}

/// The sample with changes: record, column, text.
fn with(changes: &[(usize, usize, &str)]) -> Vec<u8> {
    let mut bytes = sample();
    changes.iter().for_each(|(record, column, text)| put(&mut bytes, *record, *column, text));
    bytes
}

/// The sample with 002 under another date.
fn dated(date: &str) -> Vec<u8> {
    changed(13, 26, date)
}

/// The sample with NOSUBENT for 002, of this date.
fn without(date: &str) -> Vec<u8> {
    let (start, end) = (SAMPLE.find("SUBENT        90001002").unwrap(), SAMPLE.find("ENDENTRY").unwrap());
    entry(&format!("{}NOSUBENT      90001002   {date}\n{}", &SAMPLE[..start], &SAMPLE[end..]))
}

/// The sample's 001 alone, with this count.
fn first_alone(count: &str) -> Vec<u8> {
    let start = SAMPLE.find("SUBENT        90001002").unwrap();
    entry(&format!("{}ENDENTRY   {count:>11}\n", &SAMPLE[..start]))
}

/// What is asked of both implementations, with any bytes behind a merge as they were.
fn merge(
    by: &dyn Implementation,
    held: &[u8],
    revision: &[u8],
    room: usize,
) -> (Result<usize, RevisionRefusal>, Vec<u8>) {
    let mut buffer = vec![b'#'; room];
    let answer = by.merge(held, revision, &mut buffer);
    (answer, buffer)
}

/// Whether a merge is delivered as these bytes, in a buffer that is just long enough and in longer ones, and 37 in one byte less.
fn merges_to(held: &[u8], revision: &[u8], due: &[u8]) {
    let limit = held.len() + revision.len();
    for by in BOTH {
        for room in [limit, limit + 1, limit + 500] {
            let (answer, buffer) = merge(by, held, revision, room);
            assert_eq!(answer, Ok(due.len()));
            assert_eq!(String::from_utf8_lossy(&buffer[..due.len()]), String::from_utf8_lossy(due));
            assert!(buffer[due.len()..].iter().all(|&byte| byte == b'#'), "bytes behind stay");
        }
        for room in [limit - 1, due.len().min(limit - 1), 0] {
            assert_eq!(merge(by, held, revision, room), (Err(alone(37)), vec![b'#'; room]));
        }
    }
    assert_eq!(merged(held, revision).as_deref(), Ok(due));
}

/// The table of outcomes, subentries first.
#[test]
fn subentries_are_handed_out() {
    let s = sample();
    let (later, latest) = (dated("20240106"), dated("20240107"));
    let place = |which, first, length| Ok(Chosen { which, first, length });
    let cases: [(&[u8], &[u8], u32, Handed); 13] = [
        (&s, &later, 2, place(Which::Revision, 972, 1053)),
        (&later, &s, 2, place(Which::Held, 972, 1053)),
        (&later, &later, 2, place(Which::Revision, 972, 1053)),
        (&later, &latest, 2, place(Which::Revision, 972, 1053)),
        (&s, &s, 1, place(Which::Revision, 81, 891)),
        (&s, &s, 2, place(Which::Revision, 972, 1053)),
        (&s, &s, 3, Err(alone(32))),
        (&s, &s, 0, Err(alone(32))),
        (&s, &s, 998, Err(alone(32))),
        (&s, &s, 999, Err(alone(32))),
        (&s, &s, 1_002, Err(alone(32))),
        (&s, &s, 65_538, Err(alone(32))),
        (&s, &s, u32::MAX, Err(alone(32))),
    ];
    for (at, (held, revision, n, due)) in cases.into_iter().enumerate() {
        for by in BOTH {
            assert_eq!(by.subentry(held, revision, n), due, "case {at}");
        }
    }
    let found = library::subentry(&s, &later, 2).unwrap();
    assert_eq!((found.bytes, found.date()), (&later[972..2025], "20240106"));
    assert_eq!(found.bytes.as_ptr(), later[972..].as_ptr(), "a part of the revision itself");
    let found = library::subentry(&later, &s, 2).unwrap();
    assert_eq!(found.bytes.as_ptr(), later[972..].as_ptr(), "a part of the held entry itself");
}

/// 60 before 61 before 32 and 62, and before 37 and 63; the held entry before the revision.
#[test]
fn refusals_are_in_order() {
    let s = sample();
    let (damaged, other) = (changed(2, 1, "X"), entry(&SAMPLE.replace("90001", "90002")));
    let early = with(&[(26, 22, "3")]);
    let cases: Vec<(&[u8], &[u8], RevisionRefusal)> = vec![
        (&damaged, &[], of_entry(Which::Held, 4, 2, 1)),
        (&[], &damaged, of_entry(Which::Held, 1, 0, 0)),
        (&s, &[], of_entry(Which::Revision, 1, 0, 0)),
        (&s, &damaged, of_entry(Which::Revision, 4, 2, 1)),
        (&damaged, &other, of_entry(Which::Held, 4, 2, 1)),
        (&other, &damaged, of_entry(Which::Revision, 4, 2, 1)),
        (&s, &early, of_entry(Which::Revision, 8, 26, 12)),
        (&s, &s[..25 * RECORD], of_entry(Which::Revision, 16, 26, 0)),
        (&s, &other, alone(61)),
        (&other, &s, alone(61)),
    ];
    for (at, (held, revision, due)) in cases.into_iter().enumerate() {
        for by in BOTH {
            for n in [0, 1, 2, 3, u32::MAX] {
                assert_eq!(by.subentry(held, revision, n), Err(due), "case {at}, subentry {n}");
            }
            for room in [0, held.len() + revision.len(), 9_000] {
                assert_eq!(merge(by, held, revision, room), (Err(due), vec![b'#'; room]), "case {at}, {room} bytes");
            }
        }
    }
    // an accession that differs in one character, each of the five
    for at in 0..5 {
        let mut name = *b"90001";
        name[at] = b'7';
        let other = entry(&SAMPLE.replace("90001", std::str::from_utf8(&name).unwrap()));
        BOTH.iter().for_each(|by| assert_eq!(by.subentry(&s, &other, 2), Err(alone(61)), "character {at}"));
    }
}

/// NOSUBENT on either side: by its date it is chosen, and then not handed out, but merged.
#[test]
fn nosubent_is_chosen_by_its_date() {
    let s = sample();
    let absent = without("20240106");
    for by in BOTH {
        assert_eq!(by.subentry(&s, &absent, 2), Err(alone(62)));
        assert_eq!(by.subentry(&s, &without("20240105"), 2), Err(alone(62)), "equal dates");
        assert_eq!(by.subentry(&absent, &absent, 2), Err(alone(62)));
        assert_eq!(by.subentry(&absent, &s, 2), Err(alone(62)), "the revision has it, but earlier");
        let held = by.subentry(&dated("20240107"), &absent, 2).unwrap();
        assert_eq!((held.which, held.first, held.length), (Which::Held, 972, 1053));
        let back = by.subentry(&absent, &dated("20240106"), 2).unwrap();
        assert_eq!((back.which, back.first), (Which::Revision, 972));
        // in one alone
        assert_eq!(by.subentry(&first_alone("1"), &absent, 2), Err(alone(62)));
        assert_eq!(by.subentry(&absent, &first_alone("1"), 2), Err(alone(62)));
    }
    merges_to(&s, &absent, &absent);
    merges_to(&absent, &s, &absent);
    merges_to(&dated("20240107"), &absent, &dated("20240107"));
    merges_to(&first_alone("1"), &absent, &absent);
    merges_to(&absent, &first_alone("00000000001"), &absent);
}

/// Dates are compared as numbers of eight digits: each digit counts, the front ones most.
#[test]
fn dates_are_compared_by_every_digit() {
    let dates = [
        "19991231", "20190105", "20231231", "20240104", "20240105", "20240106", "20240114", "20240205", "20241005",
        "21240105",
    ];
    for (i, held) in dates.iter().enumerate() {
        for (j, revision) in dates.iter().enumerate() {
            let which = if j < i { Which::Held } else { Which::Revision };
            for by in BOTH {
                let found = by.subentry(&dated(held), &dated(revision), 2).unwrap();
                assert_eq!(found.which, which, "{held} {revision}");
            }
            let due = with(&[(1, 26, dates[i.max(j)])]);
            merges_to(&with(&[(1, 26, held)]), &with(&[(1, 26, revision)]), &due);
        }
    }
    // Only the subentry's own date counts: neither ENTRY's nor that of another subentry.
    let (held, revision) = (with(&[(1, 26, "20300101"), (2, 26, "20300101")]), sample());
    for by in BOTH {
        assert_eq!(by.subentry(&held, &revision, 2).unwrap().which, Which::Revision);
        assert_eq!(by.subentry(&held, &revision, 1).unwrap().which, Which::Held);
    }
}

/// ENTRY and ENDENTRY are the revision's, their free columns and column 80 too; date and count alone are new.
#[test]
fn merges_have_the_revisions_ends() {
    let s = sample();
    merges_to(&s, &s, &s);
    merges_to(&s, &dated("20240106"), &dated("20240106"));
    merges_to(&s, &first_alone("00000000001"), &s);
    merges_to(&first_alone("1"), &s, &s);
    merges_to(&with(&[(1, 26, "20250101")]), &s, &with(&[(1, 26, "20250101")]));
    merges_to(&s, &with(&[(1, 26, "20250101")]), &with(&[(1, 26, "20250101")]));
    merges_to(&s, &with(&[(26, 12, "00000000002")]), &s);
    let marked =
        [(1, 34, "FREE"), (1, 66, "Z"), (1, 80, "A"), (26, 23, "00000000077"), (26, 40, "FREE"), (26, 80, "B")];
    merges_to(&s, &with(&marked), &with(&marked));
    merges_to(&with(&marked), &s, &s);
    let (mut held, mut due) = (marked.to_vec(), marked.to_vec());
    held.push((1, 26, "20250101"));
    due.push((1, 26, "20250101"));
    merges_to(&with(&[(1, 26, "20250101")]), &with(&marked), &with(&due));
    merges_to(&with(&held), &s, &with(&[(1, 26, "20250101")]));
    // Inside a subentry every byte stays, column 80 and free columns too.
    let inside = [(3, 40, "FREE"), (5, 80, "C"), (12, 23, "99999999999"), (18, 12, "FREE TEXT HERE"), (25, 80, "D")];
    merges_to(&s, &with(&inside), &with(&inside));
    merges_to(
        &with(&[(2, 26, "20240106"), (13, 26, "20240106"), (5, 80, "C"), (25, 80, "D")]),
        &s,
        &with(&[(2, 26, "20240106"), (13, 26, "20240106"), (5, 80, "C"), (25, 80, "D")]),
    );
}

/// Numbers of both together, rising: only in one, interleaved, up to 998; the count without zeros.
#[test]
fn merges_are_in_number_order() {
    let start = SAMPLE.find("SUBENT        90001002").unwrap();
    let of = |numbers: &[usize], date: &str| {
        let more: String = numbers.iter().map(|n| format!("NOSUBENT      90001{n:03}   {date}\n")).collect();
        entry(&format!("{}{more}ENDENTRY   {:>11}\n", &SAMPLE[..start], numbers.len() + 1))
    };
    let all: Vec<usize> = (2..=998).collect();
    let some = |keep: &dyn Fn(usize) -> bool| all.iter().copied().filter(|n| keep(*n)).collect::<Vec<_>>();
    for (held, revision) in [
        (vec![], vec![]),
        (vec![2], vec![]),
        (vec![], vec![998]),
        (vec![2, 4, 6], vec![3, 5, 7]),
        (vec![3, 5, 7], vec![2, 4, 6]),
        (vec![500], vec![499]),
        (vec![9, 10, 99], vec![100, 101, 998]),
        (vec![998], vec![2]),
        (some(&|n| n % 2 == 0), some(&|n| n % 2 == 1)),
        (some(&|n| n < 500), some(&|n| n >= 500)),
        (all.clone(), vec![]),
        (vec![], all.clone()),
        (all.clone(), all.clone()),
        (some(&|n| n % 3 > 0), some(&|n| n % 2 > 0)),
    ] {
        let both = some(&|n| held.contains(&n) || revision.contains(&n));
        merges_to(&of(&held, "20240105"), &of(&revision, "20240105"), &of(&both, "20240105"));
        let text = String::from_utf8(of(&both, "20240105")).unwrap();
        assert!(text.contains(&format!("ENDENTRY   {:>11}", both.len() + 1)));
    }
}

/// Another 001 makes a merge fall by 13, 14 or 17: the buffer then has as many blanks as the merge has bytes.
#[test]
fn refused_merges_are_blanks() {
    let newer = |text: &str| entry(&text.replace("90001001   20240105", "90001001   20240106"));
    let start = SAMPLE.find("SUBENT        90001002").unwrap();
    let common =
        |word: &str| format!("{}ENDENTRY             1\n", SAMPLE[..start].replace("EN\nMEV", &format!("{word}\nMEV")));
    let flags = common::FLAGS;
    let first = &flags[..flags.find("SUBENT        90001002").unwrap()];
    let pointed =
        SAMPLE.replacen("AUTHOR     (A.B.NAME)", "AUTHOR    7(A.B.NAME)", 1).replacen("DATA      2", "DATA      7", 1);
    let cases = [
        (entry(&SAMPLE.replacen("ANG        DATA", "EN-ABC     DATA", 1)), newer(&common("EN-ABC")), [13, 20, 1], 2106),
        (entry(&pointed), newer(&common("EN")), [14, 20, 23], 2106),
        (
            entry(flags),
            newer(&format!("{}ENDENTRY             1\n", first.replace("(1.)", "(9.)"))),
            [17, 25, 23],
            2430,
        ),
    ];
    for (held, revision, [number, record, column], length) in cases {
        let due = RevisionRefusal { refusal: Some(Refusal::new(number, record, column)), length, ..alone(63) };
        let limit = held.len() + revision.len();
        for by in BOTH {
            for room in [limit, limit + 1, limit + 300] {
                let (answer, buffer) = merge(by, &held, &revision, room);
                assert_eq!(answer, Err(due));
                assert!(buffer[..length].iter().all(|&byte| byte == b' '), "{number}: line feeds, too");
                assert!(buffer[length..].iter().all(|&byte| byte == b'#'), "{number}: bytes behind stay");
            }
            for room in [limit - 1, length, 0] {
                assert_eq!(merge(by, &held, &revision, room), (Err(alone(37)), vec![b'#'; room]));
            }
            assert_eq!(
                by.subentry(&held, &revision, 2).unwrap().which,
                Which::Held,
                "parts are handed out all the same"
            );
            assert_eq!(by.subentry(&held, &revision, 1).unwrap().which, Which::Revision);
        }
        assert_eq!(merged(&held, &revision), Err(due));
        // Where the records come from, and the merge as it would have been.
        let origins = Origins::of(&held, &revision).unwrap();
        assert_eq!(origins.place(1), Some((Which::Revision, 1)));
        assert_eq!(origins.place(record), Some((Which::Held, record as usize)));
        assert_eq!(origins.place(length as u32 / 81), Some((Which::Revision, revision.len() / RECORD)));
        assert_eq!((origins.place(0), origins.place(length as u32 / 81 + 1)), (None, None));
        let records = origins.records(&held, &revision);
        assert_eq!(records.len(), length);
        assert_eq!(library::judge(&records).refusal(), due.refusal);
        // With the revision's 001 earlier the merge is the held entry.
        let mut early = revision.clone();
        put(&mut early, 2, 26, "20240104");
        merges_to(&held, &early, &held);
    }
}

/// Merges of 20,000 records and of one more, which is 63 with 1 0 0.
#[test]
fn merges_end_at_twenty_thousand_records() {
    let pairs = generate::revised_limits();
    let mut long = Vec::new();
    for Revised { held, revision } in &pairs {
        let room = held.len() + revision.len();
        let (answer, buffer) = merge(&Library, held, revision, room);
        assert_eq!((answer, buffer.clone()), merge(&Reference, held, revision, room));
        if let Err(RevisionRefusal { number: 63, which, refusal, length }) = answer {
            assert_eq!((which, refusal), (None, Some(Refusal::new(1, 0, 0))));
            assert!(length > 20_000 * RECORD && buffer[..length].iter().all(|&byte| byte == b' '));
            assert!(buffer[length..].iter().all(|&byte| byte == b'#'));
            long.push(length / RECORD);
        } else if let Ok(length) = answer {
            assert!(length <= 20_000 * RECORD);
            long.push(length / RECORD);
        }
    }
    assert!(long.contains(&20_000) && long.contains(&20_001) && long.contains(&39_994), "{long:?}");
}

/// The short run of the comparison.
#[test]
fn pairs_are_alike() {
    let mut pair = Pair::new(&Library, &Reference);
    let outcome = pair.revision_limits().and_then(|()| pair.revisions(SEED, 6_000));
    outcome.unwrap_or_else(|difference| panic!("{difference}"));
    let counts = &pair.counts;
    for number in [0, 32, 60, 61, 62] {
        assert!(counts.subentries.of(number) >= 500, "subentries, {number}: {}", counts.subentries.of(number));
    }
    for number in [0, 37, 60, 61, 63] {
        assert!(counts.merges.of(number) >= 500, "merges, {number}: {}", counts.merges.of(number));
    }
    for number in [13, 14, 17] {
        let times = counts.merges_refused.of(number);
        assert!(times >= 200, "merges refused by {number}: {times}");
    }
    assert!(counts.merges_refused.of(1) >= 3, "{:?}", counts.merges_refused);
    assert!(counts.handed_out.iter().all(|&times| times > 3_000), "{:?}", counts.handed_out);
    say(&format!("revisions: {:?} {:?} {:?}", counts.subentries, counts.merges, counts.merges_refused));
}

/// Each byte of the revision changed: the merge is refused exactly where one of the two is or their accessions differ, or is accepted.
#[test]
fn changed_bytes_are_alike() {
    let (held, revision) = (dated("20240104"), sample());
    let mut seen = std::collections::BTreeMap::new();
    for at in 0..revision.len() {
        for value in [b' ', b'0', b'1', b'9', b'A', b'\n', b'#'] {
            let mut other = revision.clone();
            other[at] = value;
            for (one, two) in [(&held, &other), (&other, &held)] {
                let room = one.len() + two.len();
                let (first, second) = (merge(&Library, one, two, room), merge(&Reference, one, two, room));
                assert!(first == second, "byte {at}, {value}");
                for n in [1, 2] {
                    assert_eq!(Library.subentry(one, two, n), Reference.subentry(one, two, n), "byte {at}, {value}");
                }
                *seen.entry(first.0.map_or_else(|refused| refused.number, |_| 0)).or_insert(0) += 1;
            }
        }
    }
    assert!(seen[&0] > 1_000 && seen[&60] > 1_000, "{seen:?}");
}

/// A delivered merge is accepted, has what both calls say, and merged with itself, with the revision again or into the held entry it
/// stays what it is.
#[test]
fn merges_are_entries() {
    let mut delivered = 0;
    for seed in 0..1_500 {
        let Revised { held, revision } = generate::good_pair(&mut Random::seeded(seed));
        let Ok(merge) = merged(&held, &revision) else { continue };
        delivered += 1;
        assert_eq!(library::judge(&merge).refusal(), None, "seed {seed}");
        assert_eq!(merged(&merge, &merge).as_ref(), Ok(&merge), "seed {seed}");
        assert_eq!(merged(&held, &merge).as_ref(), Ok(&merge), "seed {seed}");
        let index = Index::of(&merge).unwrap();
        let bytes = |found: Result<Subentry, RevisionRefusal>| found.map(|found| found.bytes.to_vec());
        for n in index.rows().map(|row| row.subentry).chain([2, 3, 4]) {
            let (one, two) = (library::subentry(&held, &revision, n), library::subentry(&merge, &merge, n));
            assert_eq!(bytes(one), bytes(two), "seed {seed}, subentry {n}");
        }
    }
    assert!(delivered > 500, "{delivered}");
}

// ---- other languages

fn word_said(answer: Result<(), RevisionRefusal>) -> String {
    let word = words::revision_word(answer);
    format!("{} {} {} {} {}", word & 0xff, word >> 8 & 0xff, word >> 24 & 0xff_ffff, word >> 16 & 0xff, word >> 48)
}

/// Both sums of Adler-32.
fn sums(bytes: &[u8]) -> String {
    let (first, second) = bytes.iter().fold((1u32, 0u32), |(first, second), &byte| {
        let first = (first + u32::from(byte)) % 65_521;
        (first, (second + first) % 65_521)
    });
    format!("{first} {second}")
}

/// What a program is asked about a pair, and what it is to print.
fn asked(random: &mut Random, held: &[u8], revision: &[u8]) -> Vec<(String, String)> {
    let mut asked = Vec::new();
    for n in [0, 1, 2, 3, 4, 998, 999, random.below(100) as u32, u32::MAX] {
        let due = match reference::subentry(held, revision, n) {
            Ok(chosen) => {
                let [which, first, length] = words::chosen_stored(chosen);
                format!("part {which} {first} {length} {}", sums(chosen.of(held, revision).bytes))
            }
            Err(refusal) => format!("refused {}", word_said(Err(refusal))),
        };
        asked.push((format!("subentry {n}"), due));
    }
    let limit = held.len() + revision.len();
    for room in [limit, limit + 40, limit.saturating_sub(1), 0, random.below(limit + 1)] {
        let mut out = vec![b'#'; room];
        let answer = reference::merge(held, revision, &mut out);
        let length = answer.unwrap_or_else(|refused| refused.length);
        let due = match answer {
            Ok(_) => format!("merged {length} {}", sums(&out)),
            Err(refusal) => format!("refused {} {length} {}", word_said(Err(refusal)), sums(&out)),
        };
        asked.push((format!("merge {room}"), due));
    }
    asked
}

/// Compares what a program of another language prints with the reference.
fn agree(program: &Path, name: &str) {
    let room = Path::new(env!("CARGO_TARGET_TMPDIR"));
    let [one, two, list] = ["held", "revision", "txt"].map(|kind| room.join(format!("{name}.{kind}")));
    let mut pairs: Vec<Revised> = (0..250).map(|seed| generate::revised(&mut Random::seeded(10_900 + seed))).collect();
    pairs.extend(generate::revised_limits());
    let mut printed = String::new();
    for (turn, Revised { held, revision }) in pairs.iter().enumerate() {
        let asked = asked(&mut Random::seeded(turn as u64), held, revision);
        std::fs::write(&one, held).unwrap();
        std::fs::write(&two, revision).unwrap();
        std::fs::write(&list, asked.iter().map(|(line, _)| format!("{line}\n")).collect::<String>()).unwrap();
        let output = Command::new(program).args([&one, &two, &list]).output().unwrap();
        let text = String::from_utf8(output.stdout).unwrap();
        assert!(output.status.success(), "pair {turn}: {}\n{text}", output.status);
        let mut answers = text.lines();
        for (line, due) in &asked {
            assert_eq!(answers.next(), Some(due.as_str()), "pair {turn}, {line:?}");
        }
        assert_eq!(answers.next(), None, "pair {turn}");
        printed += &text;
    }
    let times = |words: &str| printed.lines().filter(|line| line.starts_with(words)).count();
    let refused = [32, 37, 60, 61, 62, 63].map(|number| times(&format!("refused {number} ")));
    let given = ["part 1 ", "part 2 ", "merged "].map(times);
    assert!(refused.iter().chain(&given).all(|&times| times >= 10), "{refused:?} {given:?}");
    say(&format!("{name}: {} pairs, {} answers", pairs.len(), printed.lines().count()));
}

#[test]
fn c_programs_get_the_same_merges() {
    if let Some(program) = compiled("gcc", "revisions-c", &C, &["tests/c/revisions.c"]) {
        agree(&program, "revisions-c");
    }
}

#[test]
fn fortran_programs_get_the_same_merges() {
    let modules = concat!(env!("CARGO_TARGET_TMPDIR"), "/revisions");
    std::fs::create_dir_all(modules).unwrap();
    let arguments = ["-std=f2008", "-O2", "-Wall", "-Werror", "-J", modules];
    let sources = ["fortran/x4.f90", "fortran/in_words.f90", "fortran/revisions.f90"];
    if let Some(program) = compiled("gfortran", "revisions-f", &arguments, &sources) {
        agree(&program, "revisions-f");
    }
}

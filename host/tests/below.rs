//! M-111: a refusal of 2 to 15 or 17 depends on nothing below its record, and nothing may stand behind an accepted entry.

mod common;

use common::{changed, put, sample, BOTH};
use glockenbeacon::explain::{explain, shown};
use glockenbeacon::generate::{self, any_bytes, damaged, with_below, Random, Shape, BELOW, BLANK, CAUSES};
use glockenbeacon::{library, Refusal, Verdict, RECORD};
use std::collections::BTreeSet;

const SEED: u64 = 20_240_111;

/// The characters that document 01 permits.
const PERMITTED: &str = " ABCDEFGHIJKLMNOPQRSTUVWXYZabcdefghijklmnopqrstuvwxyz0123456789+-.)(*/=',%<>:;!?&";

/// Both give these seven numbers.
#[track_caller]
fn judged(input: &[u8], numbers: [u32; 7]) {
    for by in BOTH {
        assert_eq!(by.judge(input).numbers(), numbers);
    }
}

/// The sample's first so many records.
fn cut(records: usize) -> Vec<u8> {
    sample()[..records * RECORD].to_vec()
}

/// The sample with a record behind it: a blank one with this text from a column on.
fn sample_and(column: usize, text: &str) -> Vec<u8> {
    let mut input = [sample(), BLANK.to_vec()].concat();
    put(&mut input, 27, column, text);
    input
}

#[test]
fn a_blank_record_behind_the_sample() {
    judged(&sample(), [0, 0, 0, 2, 3, 2, 6]);
    judged(&sample_and(1, " "), [4, 27, 1, 0, 0, 0, 0]);
}

#[test]
fn a_record_without_line_feed_behind_the_sample() {
    judged(&sample_and(81, " "), [2, 27, 81, 0, 0, 0, 0]);
}

#[test]
fn a_character_not_permitted_behind_the_sample() {
    judged(&sample_and(41, "#"), [3, 27, 41, 0, 0, 0, 0]);
}

#[test]
fn a_bad_number_of_the_sample_and_anything_below() {
    let (mut random, due) = (Random::seeded(SEED), [15, 22, 12, 0, 0, 0, 0]);
    let whole = changed(22, 12, "       1.5E");
    let first = &whole[..22 * RECORD];
    judged(&whole, due);
    judged(first, due);
    judged(&[first, &BLANK].concat(), due);
    judged(&[first, &sample()].concat(), due);
    for records in 1..=100 {
        judged(&[first, &any_bytes(&mut random, records)].concat(), due);
    }
    // Above it nothing is refused but the end.
    judged(&whole[..21 * RECORD], [16, 22, 0, 0, 0, 0, 0]);
}

/// 1 goes by the length, and 16 by where the records end: nothing is claimed of them.
#[test]
fn the_end_of_the_records_is_another_matter() {
    judged(&cut(25), [16, 26, 0, 0, 0, 0, 0]);
    judged(&cut(26), [0, 0, 0, 2, 3, 2, 6]);
    judged(&[cut(25), BLANK.to_vec()].concat(), [4, 26, 1, 0, 0, 0, 0]);
    judged(&cut(24), [16, 25, 0, 0, 0, 0, 0]);
    judged(&[sample(), b"\n".to_vec()].concat(), [1, 0, 0, 0, 0, 0, 0]);
}

#[test]
fn up_to_twenty_thousand_records() {
    let mut random = Random::seeded(SEED + 1);
    for records in [19_999, 20_000] {
        let entry = generate::large(&mut random, Shape::Text, records);
        assert_eq!(entry.len(), records * RECORD);
        assert!(matches!(library::judge(&entry), Verdict::Accepted(_)), "{records} records");
        let due = if records == 20_000 { [1, 0, 0, 0, 0, 0, 0] } else { [4, 20_000, 1, 0, 0, 0, 0] };
        judged(&[entry, BLANK.to_vec()].concat(), due);
    }
    let (refused, due) = (changed(22, 12, "       1.5E"), [15, 22, 12, 0, 0, 0, 0]);
    for below in [any_bytes(&mut random, 19_978), BLANK.repeat(19_978)] {
        let full = [&refused[..22 * RECORD], &below].concat();
        judged(&full, due);
        judged(&[full, BLANK.to_vec()].concat(), [1, 0, 0, 0, 0, 0, 0]);
    }
}

/// Entries refused at a record, by every cause: at most so many for each.
fn refused(seed: u64, rounds: usize) -> Vec<(Vec<u8>, Refusal)> {
    let mut random = Random::seeded(seed);
    let mut entries = Vec::new();
    let mut causes = BTreeSet::new();
    for cause in (0..rounds).flat_map(|_| 0..CAUSES.len()) {
        let (sheet, Some(done)) = damaged(&mut random, cause) else { continue };
        causes.insert(cause);
        if done.due.at_record() {
            entries.push((sheet.bytes, done.due));
        }
    }
    assert_eq!(causes.len(), CAUSES.len(), "every cause finds a place");
    let numbers: BTreeSet<u32> = entries.iter().map(|(_, due)| due.number).collect();
    assert_eq!(numbers.into_iter().collect::<Vec<_>>(), [2, 3, 4, 5, 6, 7, 8, 9, 10, 11, 12, 13, 14, 15, 17]);
    entries
}

/// The whole verdict is that of the entry, whatever stands below the refused record.
#[test]
fn a_refusal_depends_on_nothing_below() {
    let mut random = Random::seeded(SEED + 2);
    for (entry, due) in refused(SEED + 3, 8) {
        for by in BOTH {
            assert_eq!(by.judge(&entry), Verdict::Refused(due));
        }
        for below in BELOW {
            let input = with_below(&mut random, &entry, due.record as usize, below);
            for by in BOTH {
                let text = String::from_utf8_lossy(&input);
                assert_eq!(by.judge(&input), Verdict::Refused(due), "{below:?} below:\n{text}");
            }
        }
    }
}

/// Nor do the words that explain it, and the record that is shown.
#[test]
fn the_words_depend_on_nothing_below() {
    let mut random = Random::seeded(SEED + 4);
    for (entry, due) in refused(SEED + 5, 8) {
        let words = |input: &[u8]| (explain(input, &due, library::explain(input).reason), shown(input, &due));
        let whole = words(&entry);
        for below in BELOW {
            let input = with_below(&mut random, &entry, due.record as usize, below);
            let text = String::from_utf8_lossy(&input);
            assert_eq!(words(&input), whole, "{below:?} below:\n{text}");
        }
    }
}

/// The first records of a refused entry, less than up to the refusal, are refused by their end; or they are an entry,
/// and then the refused record stands right behind it.
#[test]
fn above_a_refusal_only_the_end_is_refused() {
    let mut entries = 0;
    for (entry, due) in refused(SEED + 6, 2) {
        for records in 1..due.record {
            let above = &entry[..records as usize * RECORD];
            for by in BOTH {
                match by.judge(above) {
                    Verdict::Refused(refusal) => {
                        assert_eq!(refusal, Refusal::new(16, records + 1, 0));
                    }
                    Verdict::Accepted(_) => {
                        assert!(records + 1 == due.record && (2..=4).contains(&due.number), "{records}: {due}");
                        entries += 1;
                    }
                }
            }
        }
    }
    assert!(entries > 0, "no refused record stands behind an entry");
}

/// The refusal of a record behind an accepted entry, number and column: nothing is due there.
fn behind(record: &[u8]) -> (u32, u32) {
    if record[80] != b'\n' {
        return (2, 81);
    }
    let wrong = record[..80].iter().position(|byte| !PERMITTED.as_bytes().contains(byte));
    wrong.map_or((4, 1), |at| (3, at as u32 + 1))
}

/// Records of every kind to put behind an entry.
fn records_for(random: &mut Random, entry: &[u8]) -> Vec<Vec<u8>> {
    let mut records: Vec<Vec<u8>> = entry.chunks(RECORD).map(<[u8]>::to_vec).collect();
    records.push(BLANK.to_vec());
    records.extend((0..3).map(|_| any_bytes(random, 1)));
    records.extend((0..20).map(|_| generate::added(random, entry)));
    for (column, text) in [(81, "\r"), (41, "#"), (1, "ENTRY"), (80, "X")] {
        let mut record = BLANK.to_vec();
        put(&mut record, 1, column, text);
        records.push(record);
    }
    records
}

#[test]
fn every_record_behind_an_accepted_entry_is_refused() {
    let mut random = Random::seeded(SEED + 7);
    let mut counts = [0; 5];
    for _ in 0..60 {
        let entry = generate::entry(&mut random).bytes;
        let past = (entry.len() / RECORD) as u32 + 1;
        for record in records_for(&mut random, &entry) {
            let (number, column) = behind(&record);
            let input = [&entry[..], &record].concat();
            judged(&input, [number, past, column, 0, 0, 0, 0]);
            counts[number as usize] += 1;
        }
    }
    assert!(counts[2..].iter().all(|&times| times > 200), "each of 2, 3 and 4 is given: {counts:?}");
}

//! Pairs of entries for revisions (M-109): a held one and another, cut into subentries, which are then dated, dropped, renumbered,
//! exchanged and made NOSUBENT, so that each choice and each way to refuse a merge occurs.

use super::large::{bib, empty, table, whole};
use super::{damaged, entry, noise, Random, CAUSES};
use crate::RECORD;

/// A held entry and a revision, good or not.
#[derive(Clone, Debug, PartialEq, Eq)]
pub struct Revised {
    /// The held entry.
    pub held: Vec<u8>,
    /// The revision.
    pub revision: Vec<u8>,
}

/// A good entry cut behind ENTRY, behind each subentry and before ENDENTRY.
#[derive(Clone, Debug)]
pub struct Apart {
    /// ENTRY.
    pub first: Vec<u8>,
    /// The subentries, NOSUBENT too.
    pub subentries: Vec<Vec<u8>>,
    /// ENDENTRY.
    pub last: Vec<u8>,
}

impl Apart {
    /// A good entry. SUBENT and NOSUBENT alone have the sequence 00001 behind ENTRY; a heading may be such a word, too.
    pub fn of(entry: &[u8]) -> Apart {
        let (first, rest) = entry.split_at(RECORD);
        let (inner, last) = rest.split_at(rest.len() - RECORD);
        let mut subentries: Vec<Vec<u8>> = Vec::new();
        for record in inner.chunks_exact(RECORD) {
            if &record[74..79] == b"00001" {
                subentries.push(Vec::new());
            }
            subentries.last_mut().expect("a subentry is open").extend_from_slice(record);
        }
        Apart { first: first.to_vec(), subentries, last: last.to_vec() }
    }

    /// The entry again, with the true count, here and there with zeros before it.
    pub fn joined(&self, random: &mut Random) -> Vec<u8> {
        let count = self.subentries.len();
        let text = if random.once_in(4) { format!("{count:011}") } else { count.to_string() };
        let mut last = self.last.clone();
        last[11..22].copy_from_slice(format!("{text:>11}").as_bytes());
        [self.first.clone(), self.subentries.concat(), last].concat()
    }

    /// The same under another accession, in every place that has it.
    pub fn with_accession(mut self, accession: &[u8]) -> Apart {
        self.first[17..22].copy_from_slice(accession);
        self.subentries.iter_mut().for_each(|subentry| subentry[14..19].copy_from_slice(accession));
        let all = [&mut self.first, &mut self.last].into_iter().chain(&mut self.subentries);
        all.flat_map(|records| records.chunks_exact_mut(RECORD))
            .for_each(|record| record[66..71].copy_from_slice(accession));
        self
    }

    /// The number of a subentry.
    fn number(&self, at: usize) -> usize {
        let digits = std::str::from_utf8(&self.subentries[at][19..22]).expect("digits");
        digits.parse().expect("three digits")
    }
}

/// Gives a subentry another number.
pub fn renumbered(subentry: &mut [u8], number: usize) {
    let digits = format!("{number:03}");
    subentry[19..22].copy_from_slice(digits.as_bytes());
    subentry.chunks_exact_mut(RECORD).for_each(|record| record[71..74].copy_from_slice(digits.as_bytes()));
}

/// Gives an ENTRY, SUBENT or NOSUBENT record a date.
pub fn dated(records: &mut [u8], date: &str) {
    records[25..33].copy_from_slice(date.as_bytes());
}

/// NOSUBENT in the place of a subentry.
pub fn absent(subentry: &[u8]) -> Vec<u8> {
    let mut record = subentry[..RECORD].to_vec();
    record[..11].copy_from_slice(b"NOSUBENT   ");
    record
}

/// A few dates, of which each two differ in another digit or in none.
const DATES: [&str; 6] = ["20240105", "20240106", "20240105", "20240205", "20231231", "20240105"];

/// Leaves out, empties and renumbers some of the subentries behind 001; then dates all.
fn altered(random: &mut Random, apart: &mut Apart) {
    let kept = |random: &mut Random, at: usize| at == 0 || !random.once_in(4);
    let all = std::mem::take(&mut apart.subentries).into_iter().enumerate();
    apart.subentries = all.filter(|(at, _)| kept(random, *at)).map(|(_, subentry)| subentry).collect();
    let spread = random.once_in(3);
    let mut least = 1;
    for at in 0..apart.subentries.len() {
        let number = apart.number(at).max(least);
        let number = if spread && at > 0 { number + random.below(3) } else { number };
        renumbered(&mut apart.subentries[at], number);
        least = number + 1;
        if at > 0 && random.once_in(6) {
            apart.subentries[at] = absent(&apart.subentries[at]);
        }
        dated(&mut apart.subentries[at], random.one(&DATES));
    }
    dated(&mut apart.first, random.one(&DATES));
}

/// Puts a subentry of one of two entries that share their accession in the place of one of the other, or behind its last.
fn exchanged(random: &mut Random, from: &Apart, to: &mut Apart) {
    let mut taken = random.one(&from.subentries.iter().collect::<Vec<_>>()).clone();
    if !taken.starts_with(b"NOSUBENT") && random.once_in(2) {
        // 001 of the other: no DATA is in it, so it stands for 001 alone
        taken = from.subentries[0].clone();
        renumbered(&mut taken, 1);
        to.subentries[0] = taken;
        return;
    }
    let at = random.below(to.subentries.len());
    let own = to.number(at);
    let is_first = taken == from.subentries[0];
    if at > 0 && !is_first {
        renumbered(&mut taken, own);
        to.subentries[at] = taken;
    }
}

/// A pair of good entries, as far as exchanging leaves them so, with one accession or two.
pub fn good_pair(random: &mut Random) -> Revised {
    let mut held = Apart::of(&entry(random).bytes);
    let accession = held.first[17..22].to_vec();
    let mut revision = match random.below(3) {
        0 => Apart::of(&entry(random).bytes).with_accession(&accession),
        _ => held.clone(),
    };
    for _ in 0..random.below(3) {
        exchanged(random, &held, &mut revision);
    }
    altered(random, &mut held);
    altered(random, &mut revision);
    // Often the revision is 001 alone, or leaves 001 as it is.
    if random.once_in(6) {
        revision.subentries.truncate(1);
    }
    if random.once_in(12) {
        // one character, or any
        let mut other = accession.clone();
        let at = random.below(5);
        other[at] = if other[at] == b'7' { b'8' } else { b'7' };
        revision = revision.with_accession(random.one(&[&other[..], &other, b"90002"]));
    }
    Revised { held: held.joined(random), revision: revision.joined(random) }
}

/// A pair of which one or both may be damaged in a known way, by noise, or cut.
pub fn revised(random: &mut Random) -> Revised {
    let mut pair = match random.below(4) {
        0 => breaking(random),
        _ => good_pair(random),
    };
    if random.once_in(6) {
        let both = random.once_in(3);
        let spoiled = random.once_in(2);
        if both || spoiled {
            pair.held = spoilt(random, &pair.held);
        }
        if both || !spoiled {
            pair.revision = spoilt(random, &pair.revision);
        }
    }
    if random.once_in(16) {
        std::mem::swap(&mut pair.held, &mut pair.revision);
    }
    if random.once_in(24) {
        pair.revision = pair.held.clone();
    }
    pair
}

/// One byte changed, a record more or less, some bytes, or another entry that is damaged.
fn spoilt(random: &mut Random, good: &[u8]) -> Vec<u8> {
    let mut bytes = good.to_vec();
    match random.below(5) {
        0 => {
            let cause = random.below(CAUSES.len());
            bytes = damaged(random, cause).0.bytes;
        }
        1 => {
            let at = random.below(bytes.len());
            bytes[at] = random.one(b"# 0A9\n.");
        }
        2 => bytes.truncate(random.below(bytes.len())),
        3 => {
            let at = RECORD * random.below(bytes.len() / RECORD);
            bytes.drain(at..at + RECORD);
        }
        _ => {
            let mut sheet = entry(random);
            noise(random, &mut sheet);
            bytes = sheet.bytes;
        }
    }
    bytes
}

/// A pair whose merge falls by 13, 14 or 17, or just does not: the held 002 leans on the held 001, and the revision has another.
pub fn breaking(random: &mut Random) -> Revised {
    let number = |_: usize| format!("{:>11}", "1.");
    let named = |word: &'static str, others: &'static str| {
        move |column: usize| if column == 1 { word.to_string() } else { format!("{others}{column}") }
    };
    let data = |word| [empty(), table("DATA", 3, 2, named(word, "D"), number)].concat();
    let text = |lines: &[&str]| [bib(lines.iter().map(|line| line.to_string())), vec!["NOCOMMON".into()]].concat();
    // 001 as the table needs it, another, and the table
    let (lent, other, leans) = match random.below(3) {
        0 => {
            let common = table("COMMON", 2, 1, named("EN-ABC", "C"), number);
            (empty(), [vec!["NOBIB".into()], common].concat(), data("EN-ABC"))
        }
        1 => (text(&["TITLE      SOME", "          7POINTED"]), text(&["TITLE      OTHER"]), data("DATA      7")),
        _ => (text(&["FLAG       (1.) LENT"]), text(&["FLAG       (2.) NOT LENT"]), data("FLAG")),
    };
    let bare = || [empty(), vec!["NODATA".into()]].concat();
    let mut held = Apart::of(&whole(vec![lent.clone(), leans, bare()]));
    let mut revision = Apart::of(&whole(vec![if random.once_in(4) { lent } else { other }]));
    if random.once_in(2) {
        let mut more = Apart::of(&whole(vec![empty(), bare()])).subentries[1].clone();
        renumbered(&mut more, random.one(&[2, 3, 4, 998]));
        revision.subentries.push(more);
    }
    for apart in [&mut held, &mut revision] {
        dated(&mut apart.first, random.one(&DATES));
        apart.subentries.iter_mut().for_each(|subentry| dated(subentry, random.one(&DATES)));
    }
    Revised { held: held.joined(random), revision: revision.joined(random) }
}

/// Pairs at the limits: merges of 20,000 and of 20,001 records, of 998 subentries, of 1; and entries of 10,001 records each with no
/// number but 001 in common.
pub fn revised_limits() -> Vec<Revised> {
    let random = &mut Random::seeded(0);
    let of = |records: usize, number: usize| {
        // ENTRY, 001 of four records, ENDENTRY; SUBENT, BIB, ENDBIB, NOCOMMON, NODATA, ENDSUBENT around the text
        let lines =
            (0..records - 12).map(|line| format!("{:11}some text, {line}", if line == 0 { "TITLE" } else { "" }));
        let sections = [bib(lines), vec!["NOCOMMON".into(), "NODATA".into()]].concat();
        let mut apart = Apart::of(&whole(vec![empty(), sections]));
        renumbered(&mut apart.subentries[1], number);
        apart
    };
    let mut pairs = Vec::new();
    for (one, other) in
        [(10_003, 10_003), (10_003, 10_004), (10_004, 10_003), (10_001, 10_001), (10_007, 10_007), (20_000, 20_000)]
    {
        pairs.push(Revised { held: of(one, 2).joined(random), revision: of(other, 3).joined(random) });
    }
    pairs.push(Revised { held: of(20_000, 2).joined(random), revision: of(20_000, 2).joined(random) });
    pairs.push(Revised { held: of(20_001, 2).joined(random), revision: of(20_000, 2).joined(random) });
    // odd numbers in one, even ones in the other, and all in both
    let many = |numbers: &dyn Fn(usize) -> bool| {
        let mut apart = Apart::of(&whole(vec![empty(), [empty(), vec!["NODATA".into()]].concat()]));
        let one = apart.subentries.pop().expect("two subentries");
        for number in (2..=998).filter(|number| numbers(*number)) {
            let mut more = if number % 5 == 0 { absent(&one) } else { one.clone() };
            renumbered(&mut more, number);
            apart.subentries.push(more);
        }
        apart
    };
    let (odd, even, all) = (many(&|n| n % 2 == 1), many(&|n| n % 2 == 0), many(&|_| true));
    for (held, revision) in [(&odd, &even), (&even, &odd), (&all, &odd), (&even, &all)] {
        pairs.push(Revised { held: held.joined(random), revision: revision.joined(random) });
    }
    let alone = many(&|_| false);
    pairs.push(Revised { held: alone.joined(random), revision: alone.joined(random) });
    pairs.push(Revised { held: alone.joined(random), revision: all.joined(random) });
    pairs.extend(
        [(Vec::new(), alone.joined(random)), (alone.joined(random), Vec::new()), (Vec::new(), Vec::new())]
            .map(|(held, revision)| Revised { held, revision }),
    );
    pairs
}

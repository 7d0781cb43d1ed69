//! The library beside a reader written by hand, `crate::peer`: in one process, by turns, on the same bytes.
//!
//! A sample of one, then a sample of the other, so that a slow spell of the machine meets both; a sample repeats the
//! call until about two milliseconds have passed. It is the processor's time of the thread that counts. Answers are
//! compared first.

use crate::peer;
use glockenbeacon::boundary::processor_time;
use glockenbeacon::generate::{self, Random, Workload, WORKLOADS};
use glockenbeacon::{library, Decimal, Value, DATA, RECORD};
use std::hint::black_box;

/// The length of a sample in nanoseconds.
const SAMPLE: f64 = 2e6;

/// Median and least of the samples, in nanoseconds of a call.
struct Time {
    median: f64,
    least: f64,
}

impl Time {
    fn of(mut samples: Vec<f64>) -> Time {
        samples.sort_by(f64::total_cmp);
        Time { median: samples[samples.len() / 2], least: samples[0] }
    }
}

fn sample<A>(calls: usize, run: &mut impl FnMut() -> A) -> f64 {
    let start = processor_time();
    for _ in 0..calls {
        black_box(run());
    }
    (processor_time() - start) / calls as f64
}

/// The times of both, by turns.
fn by_turns<A, B>(samples: usize, mut one: impl FnMut() -> A, mut other: impl FnMut() -> B) -> [Time; 2] {
    let calls = |once: f64| (SAMPLE / once).clamp(1.0, 1e6) as usize;
    let (ones, others) = (calls(sample(1, &mut one)), calls(sample(1, &mut other)));
    let (a, b) = (0..samples).map(|_| (sample(ones, &mut one), sample(others, &mut other))).unzip();
    [Time::of(a), Time::of(b)]
}

/// A row of the table: the times of one of so many parts of a call, and the ratio of the medians.
fn row(name: &str, parts: usize, [proved, peer]: [Time; 2]) {
    let shown = |time: &Time| format!("{:.1} ({:.1})", time.median / parts as f64, time.least / parts as f64);
    let ratio = proved.median / peer.median;
    println!("| {name:<40} | {parts:>6} | {:>19} | {:>19} | {ratio:>5.2} |", shown(&proved), shown(&peer));
}

fn judging(samples: usize, sizes: &[usize]) {
    for workload in WORKLOADS {
        for &records in sizes {
            let entry = workload.entry(records);
            let theirs = peer::judge(&entry);
            let place = [theirs.refusal, theirs.record, theirs.column];
            let totals = [theirs.subentries, theirs.keywords, theirs.lines, theirs.numbers];
            assert_eq!(library::judge(&entry).numbers().as_slice(), [&place[..], &totals].concat(), "{workload:?}");
            // Where every record has a keyword, or every value a far code, one call takes so long that a few tell enough.
            let slow = [Workload::Keywords, Workload::LikeKeywords, Workload::FarCode].contains(&workload);
            let slow = slow && records > 10_000;
            let runs = if slow { samples.min(11) } else { samples };
            let times = by_turns(runs, || library::judge(black_box(&entry)), || peer::judge(black_box(&entry)));
            row(&format!("judge, {}", workload.name()), entry.len() / RECORD, times);
        }
    }
}

fn copying(samples: usize, sizes: &[usize]) {
    for workload in [Workload::Spellings, Workload::Text, Workload::Subentries] {
        for &records in sizes {
            let entry = workload.entry(records);
            let (mut ours, mut theirs) = (vec![0; entry.len()], vec![0; entry.len()]);
            assert!(library::canonical_copy(&entry, &mut ours).is_ok() && peer::copy(&entry, &mut theirs).is_ok());
            assert_eq!(ours, theirs, "{workload:?}");
            let times = by_turns(
                samples,
                || library::canonical_copy(black_box(&entry), black_box(&mut ours)).is_ok(),
                || peer::copy(black_box(&entry), black_box(&mut theirs)).is_ok(),
            );
            row(&format!("copy, {}", workload.name()), entry.len() / RECORD, times);
        }
    }
}

/// The value in a late line of the last subentry.
fn asking(samples: usize, sizes: &[usize]) {
    for (workload, column) in [(Workload::Spellings, 5), (Workload::Subentries, 3)] {
        for &records in sizes {
            let entry = workload.entry(records);
            let [.., subentries, _, lines, _] = library::judge(&entry).numbers();
            let line = if workload == Workload::Spellings { lines } else { 7 };
            let ours = library::value(&entry, subentries, DATA, line, column);
            let theirs = peer::value(&entry, subentries, DATA, line, column);
            // a peer need not count digits
            assert!(ours.is_ok_and(|read| theirs.is_ok_and(|field| read.value == value_of(field))), "{workload:?}");
            let times = by_turns(
                samples,
                || library::value(black_box(&entry), subentries, DATA, line, column).is_ok(),
                || peer::value(black_box(&entry), subentries, DATA, line, column).is_ok(),
            );
            row(&format!("value, {}", workload.name()), entry.len() / RECORD, times);
        }
    }
}

fn value_of(field: peer::Field) -> Value {
    match field {
        peer::Field::Blank => Value::Blank,
        peer::Field::Number(n) => {
            Value::Number(Decimal { negative: n.negative, coefficient: n.coefficient, power: n.power })
        }
    }
}

/// The three parts of a number in one, so that no part of a reading is left out.
fn told(negative: bool, coefficient: u64, power: i32) -> u64 {
    u64::from(power as u32) << 32 ^ coefficient << 1 ^ u64::from(negative)
}

/// A number that all readings in their order make.
fn all_told(fields: &[[u8; 11]], read: impl Fn(&[u8; 11]) -> u64) -> u64 {
    fields.iter().fold(0, |sum: u64, field| sum.rotate_left(1) ^ read(black_box(field)))
}

fn numbers(samples: usize) {
    let mut random = Random::seeded(1);
    let fields: Vec<[u8; 11]> = (0..4096).map(|_| generate::usual_spelling(&mut random)).collect();
    let ours = |field: &[u8; 11]| match library::read_number(field).map(|read| read.value) {
        Ok(Value::Number(n)) => told(n.negative, n.coefficient, n.power),
        _ => 0,
    };
    let theirs = |field: &[u8; 11]| match peer::read_number(field) {
        Ok(peer::Field::Number(n)) => told(n.negative, n.coefficient, n.power),
        _ => 0,
    };
    // The peer's reader is called in one place only, so that the compiler may put it there.
    assert_eq!(all_told(&fields, ours), all_told(&fields, theirs));
    let times = by_turns(samples, || all_told(&fields, ours), || all_told(&fields, theirs));
    row("read a number, mixed spellings", fields.len(), times);
    let values = fields.iter().filter_map(|field| match library::read_number(field).ok()?.value {
        Value::Number(decimal) => Some(decimal),
        Value::Blank => None,
    });
    writing(samples, values.collect());
}

fn writing(samples: usize, values: Vec<Decimal>) {
    let (mut one, mut other) = ([0; 11], [0; 11]);
    for &value in &values {
        assert!(write(value, &mut one) && write_by_peer(value, &mut other) && one == other);
    }
    let times = by_turns(
        samples,
        || values.iter().filter(|&&value| write(value, black_box(&mut one))).count(),
        || values.iter().filter(|&&value| write_by_peer(value, black_box(&mut other))).count(),
    );
    row("write a number, their values", values.len(), times);
}

fn write(value: Decimal, buffer: &mut [u8]) -> bool {
    library::write_number(value, buffer).is_ok()
}

fn write_by_peer(value: Decimal, buffer: &mut [u8]) -> bool {
    peer::write_number(value.negative, value.coefficient, value.power, buffer) == 0
}

/// Times everything on entries of these sizes, and prints a table.
pub fn print(samples: usize, sizes: &[usize]) {
    let load = || std::fs::read_to_string("/proc/loadavg").unwrap_or_default();
    println!("answered {}\n{samples} samples; load before: {}", library::who_answers(), load().trim());
    println!("nanoseconds of a record or a number: median (least); the ratio is that of the medians\n");
    println!("| {:<40} |  parts | {:>19} | {:>19} | ratio |", "call", "library", "peer");
    println!("|---|---|---|---|---|");
    judging(samples, sizes);
    copying(samples, sizes);
    asking(samples, sizes);
    numbers(samples);
    println!("\nload after: {}", load().trim());
}

#[cfg(test)]
#[test]
fn the_peer_of_the_package_answers_as_the_library() {
    print(1, &[1_000]);
}

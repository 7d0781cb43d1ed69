//! The sample entry of the paper, and ways to change it; programs of other languages, compiled with the archives.

#![allow(dead_code)]

use glockenbeacon::differ::{Implementation, Library, Reference};
use glockenbeacon::{library, FieldRead, NoAnswer, Part, Value};
use std::ffi::OsString;
use std::io::Write;
use std::path::{Path, PathBuf};
use std::process::Command;

/// The short run of the comparison: a long one is `cargo run --release --bin differ`.
pub const SEED: u64 = 7;
pub const ENTRIES: u64 = 3_000;

/// Who is held against what is written in the tests.
pub const BOTH: [&dyn Implementation; 2] = [&Library, &Reference];

/// The sample as the paper prints it: "blank to column 66, with identification as above and column 80 blank".
pub const SAMPLE: &str = "\
ENTRY            90001   20240105
SUBENT        90001001   20240105
BIB                  2          2
TITLE      MADE SAMPLE
AUTHOR     (A.B.NAME)
ENDBIB               2
COMMON               1          3
EN
MEV
14.
ENDCOMMON            3
ENDSUBENT            9
SUBENT        90001002   20240105
BIB                  1          2
REACTION  1(26-FE-0(N,EL),,DA)
          2(26-FE-0(N,INL),,DA)
ENDBIB               2
NOCOMMON
DATA                 3          2
ANG        DATA      1DATA      2
ADEG       MB/SR      MB/SR
10.             1.45-1
20.        0.14           2.5E 01
ENDDATA              4
ENDSUBENT           11
ENDENTRY             2
";

/// The sample with flags (M-105): codes in 001, in 002 and behind a pointer, and two columns FLAG.
pub const FLAGS: &str = "\
ENTRY            90001   20240105
SUBENT        90001001   20240105
BIB                  3          3
TITLE      MADE SAMPLE
AUTHOR     (A.B.NAME)
FLAG       (1.) FROM 001
ENDBIB               3
COMMON               1          3
EN
MEV
14.
ENDCOMMON            3
ENDSUBENT           10
SUBENT        90001002   20240105
BIB                  2          4
REACTION   (26-FE-0(N,EL),,DA)
FLAG       (2.) OWN
           (03.) MORE
          1(10.) WITH A POINTER
ENDBIB               4
NOCOMMON
DATA                 4          3
ANG        DATA       FLAG       FLAG
ADEG       MB/SR      NO-DIM     NO-DIM
10.        1.45       1.         2.
20.        0.140      3.
30.            2.5E 0110.0       +01.
ENDDATA              5
ENDSUBENT           14
ENDENTRY             2
";

/// The sample with flags as bytes, with these changes: record, column, text.
pub fn flags(changes: &[(usize, usize, &str)]) -> Vec<u8> {
    let mut bytes = entry(FLAGS);
    for (record, column, text) in changes {
        put(&mut bytes, *record, *column, text);
    }
    bytes
}

/// Lays out lines as records, with the identification that follows from them.
pub fn entry(text: &str) -> Vec<u8> {
    let mut bytes = Vec::new();
    let (mut accession, mut subentry, mut sequence) = (String::new(), "000".to_string(), 0);
    for line in text.lines() {
        let line = format!("{line:66}");
        sequence += 1;
        let mut shown = sequence;
        match line[..11].trim() {
            "ENTRY" => accession = line[17..22].to_string(),
            "SUBENT" | "NOSUBENT" => {
                (subentry, sequence, shown) = (line[19..22].to_string(), 1, 1);
            }
            "ENDSUBENT" => shown = 99_999,
            "ENDENTRY" => (subentry, shown) = ("999".into(), 99_999),
            _ => {}
        }
        bytes.extend_from_slice(format!("{line}{accession}{subentry}{shown:05} \n").as_bytes());
    }
    bytes
}

/// The sample as bytes.
pub fn sample() -> Vec<u8> {
    entry(SAMPLE)
}

/// Writes a text into a record from a column on, both counted from 1.
pub fn put(bytes: &mut [u8], record: usize, column: usize, text: &str) {
    let first = (record - 1) * 81 + column - 1;
    bytes[first..first + text.len()].copy_from_slice(text.as_bytes());
}

/// The sample with one change.
pub fn changed(record: usize, column: usize, text: &str) -> Vec<u8> {
    let mut bytes = sample();
    put(&mut bytes, record, column, text);
    bytes
}

/// The sample with some lines replaced before it is laid out.
pub fn replaced(from: &str, to: &str) -> Vec<u8> {
    assert!(SAMPLE.contains(from), "{from}");
    entry(&SAMPLE.replacen(from, to, 1))
}

/// The sample's DATA replaced by a table of so many columns, two lines, all filled: value `line.column`.
pub fn wide(columns: usize) -> Vec<u8> {
    let k = columns.div_ceil(6);
    let row = |cell: &dyn Fn(usize) -> String| -> String {
        let cells: Vec<String> = (1..=columns).map(|column| format!("{:11}", cell(column))).collect();
        cells.chunks(6).map(|group| group.concat() + "\n").collect()
    };
    let table = format!("DATA       {columns:>11}          2\n")
        + &row(&|column| format!("H{column}"))
        + &row(&|column| format!("U{column}"))
        + &row(&|column| format!("1.{column:02}"))
        + &row(&|column| format!("2.{column:02}"))
        + &format!("ENDDATA    {:>11}\nENDSUBENT  {:>11}\n", 4 * k, 4 * k + 7);
    let (start, end) = (SAMPLE.find("DATA                 3").unwrap(), SAMPLE.find("ENDENTRY").unwrap());
    entry(&format!("{}{table}{}", &SAMPLE[..start], &SAMPLE[end..]))
}

/// A line as a record: columns 1-80 and a line feed.
pub fn record(text: &str) -> Vec<u8> {
    format!("{text:80}\n").into_bytes()
}

/// A good TRANS record.
pub fn trans() -> Vec<u8> {
    record("TRANS             X001   20240105")
}

/// An ENDTRANS record with this count.
pub fn end_trans(count: usize) -> Vec<u8> {
    record(&format!("ENDTRANS   {count:>11}"))
}

/// TRANS, these entries, ENDTRANS with their number.
pub fn transmission(entries: &[&[u8]]) -> Vec<u8> {
    [trans(), entries.concat(), end_trans(entries.len())].concat()
}

/// The canonical copy of a transmission that is accepted.
pub fn copied(by: &dyn Implementation, file: &[u8]) -> Vec<u8> {
    let mut copy = vec![b'#'; file.len()];
    assert_eq!(by.copy_file(file, &mut copy), Ok(()));
    copy
}

/// The SHA-256 of some bytes, as hexadecimal digits (FIPS 180-4).
pub fn sha256(bytes: &[u8]) -> String {
    let primes = || (2u64..).filter(|&n| (2..n).take_while(|d| d * d <= n).all(|d| n % d != 0));
    // The first 32 bits of the fraction of a prime's root: by the root of the prime moved up by 32 times its degree.
    let fraction = |prime: u64, degree: u32| -> u32 {
        let moved = u128::from(prime) << (32 * degree);
        let mut root = 0u64;
        for bit in (0..36).rev() {
            let tried = root | 1 << bit;
            if u128::from(tried).pow(degree) <= moved {
                root = tried;
            }
        }
        root as u32
    };
    let keys: Vec<u32> = primes().take(64).map(|prime| fraction(prime, 3)).collect();
    let mut state: Vec<u32> = primes().take(8).map(|prime| fraction(prime, 2)).collect();
    let mut padded = [bytes, &[0x80]].concat();
    padded.resize((padded.len() + 8).next_multiple_of(64) - 8, 0);
    padded.extend((bytes.len() as u64 * 8).to_be_bytes());
    for block in padded.chunks_exact(64) {
        let mut words: Vec<u32> =
            block.chunks_exact(4).map(|word| u32::from_be_bytes(word.try_into().expect("four bytes"))).collect();
        for at in 16..64 {
            let (early, late) = (words[at - 15], words[at - 2]);
            let first = early.rotate_right(7) ^ early.rotate_right(18) ^ early >> 3;
            let second = late.rotate_right(17) ^ late.rotate_right(19) ^ late >> 10;
            words.push(words[at - 16].wrapping_add(first).wrapping_add(words[at - 7]).wrapping_add(second));
        }
        let mut turned = state.clone();
        for (word, key) in words.iter().zip(&keys) {
            let (a, e) = (turned[0], turned[4]);
            let choice = e & turned[5] ^ !e & turned[6];
            let majority = a & turned[1] ^ a & turned[2] ^ turned[1] & turned[2];
            let upper = a.rotate_right(2) ^ a.rotate_right(13) ^ a.rotate_right(22);
            let lower = e.rotate_right(6) ^ e.rotate_right(11) ^ e.rotate_right(25);
            let added = [lower, choice, *key, *word].into_iter().fold(turned[7], u32::wrapping_add);
            turned.rotate_right(1);
            turned[4] = turned[4].wrapping_add(added);
            turned[0] = added.wrapping_add(upper).wrapping_add(majority);
        }
        state.iter_mut().zip(turned).for_each(|(old, new)| *old = old.wrapping_add(new));
    }
    state.iter().map(|word| format!("{word:08x}")).collect()
}

/// How C is compiled.
pub const C: [&str; 7] = ["-std=c11", "-O2", "-Wall", "-Wextra", "-Werror", "-pedantic", "-Iinclude"];

/// Said past the test's own output, which nobody sees when a test passes.
pub fn say(words: &str) {
    std::io::stderr().write_all(format!("{words}\n").as_bytes()).unwrap();
}

/// A refusal with zeros beside it.
pub fn none(number: u32) -> NoAnswer {
    NoAnswer { number, entry: None }
}

/// What programs of other languages print of a refused question or copy.
pub fn refused_said(answer: NoAnswer) -> String {
    let [refusal, record, column] = answer.entry.map_or([0; 3], |entry| [entry.number, entry.record, entry.column]);
    format!("refused {} {refusal} {record} {column}", answer.number)
}

/// What they print of a value.
pub fn value_said(answer: Result<FieldRead, NoAnswer>) -> String {
    answer.map_or_else(refused_said, |FieldRead { value, digits }| match value {
        Value::Blank => format!("blank digits {digits}"),
        Value::Number(d) => {
            format!("{}{}E{} digits {digits}", if d.negative { "-" } else { "" }, d.coefficient, d.power)
        }
    })
}

/// What they print of a heading, a unit or a passage.
pub fn part_said(answer: Result<Part, NoAnswer>) -> String {
    answer.map_or_else(refused_said, |part| format!("{} {} {}", part.offset, part.length, part.pointer))
}

/// Compiles a program with the archives; none if there are no archives or no compiler, which is said.
pub fn compiled(compiler: &str, name: &str, arguments: &[&str], sources: &[&str]) -> Option<PathBuf> {
    let Some(archives) = library::archives() else {
        say(&format!("no proved archives are linked: {name} was not tried"));
        return None;
    };
    let home = Path::new(env!("CARGO_MANIFEST_DIR"));
    let program = Path::new(env!("CARGO_TARGET_TMPDIR")).join(name);
    let sources: Vec<OsString> = sources.iter().map(|source| home.join(source).into_os_string()).collect();
    let mut command = Command::new(compiler);
    command.current_dir(home).args(arguments).arg("-o").arg(&program).args(sources).args(archives);
    match command.status() {
        Ok(status) => {
            assert!(status.success(), "{name} does not compile");
            Some(program)
        }
        Err(_) => {
            say(&format!("{compiler} is not installed: {name} was not tried"));
            None
        }
    }
}

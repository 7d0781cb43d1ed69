//! Numbers, verdicts, transmissions and reasons asked from C, by `include/x4.h`, and from Fortran, by `fortran/x4.f90`.

mod common;

use common::{compiled, say, C};
use glockenbeacon::generate::{self, Random};
use glockenbeacon::{library, reference, Explained, Value, Verdict};
use std::io::Write;
use std::path::Path;
use std::process::{Command, Stdio};

/// What a program prints for these lines.
fn printed(program: &Path, lines: &[String]) -> Vec<String> {
    let mut child = Command::new(program).stdin(Stdio::piped()).stdout(Stdio::piped()).spawn().unwrap();
    let mut input = child.stdin.take().unwrap();
    let text = lines.join("\n") + "\n";
    let writer = std::thread::spawn(move || input.write_all(text.as_bytes()).unwrap());
    let output = child.wait_with_output().unwrap();
    writer.join().unwrap();
    assert!(output.status.success());
    String::from_utf8(output.stdout).unwrap().lines().map(str::to_string).collect()
}

/// The same by the reference.
fn expected(field: &str) -> String {
    let read = match reference::read_number(field.as_bytes()) {
        Ok(read) => read,
        Err(refused) => return format!("refused {}", refused.number),
    };
    match read.value {
        Value::Blank => format!("blank digits {}", read.digits),
        Value::Number(decimal) => {
            let mut out = *b"###########";
            let number = reference::write_number(decimal, &mut out).map_or_else(|refused| refused.number, |()| 0);
            let sign = if decimal.negative { "-" } else { "" };
            let (coefficient, power) = (decimal.coefficient, decimal.power);
            let digits = read.digits;
            format!("{sign}{coefficient}E{power} digits {digits} {number} '{}'", String::from_utf8_lossy(&out))
        }
    }
}

/// Number fields of every kind, some of another length.
fn fields() -> Vec<String> {
    let mut random = Random::seeded(8);
    let given =
        ["           ", "      .1-99999999", ".1-99999999", "-9999999999", "        -.0", "", "1.", "         14"];
    let mut fields: Vec<String> = given.map(String::from).to_vec();
    while fields.len() < 20_000 {
        let field = generate::number_field(&mut random);
        if field.iter().all(|byte| (32..127).contains(byte)) {
            let length = if random.once_in(20) { random.below(11) } else { 11 };
            fields.push(String::from_utf8_lossy(&field[..length]).to_string());
        }
    }
    fields
}

fn agree(program: &Path) {
    let fields = fields();
    let answers = printed(program, &fields);
    assert_eq!(answers.len(), fields.len());
    for (field, answer) in fields.iter().zip(answers) {
        assert_eq!(answer, expected(field), "{field:?}");
    }
}

#[test]
fn c_programs_get_the_same_answers() {
    if let Some(program) = compiled("gcc", "numbers-c", &C, &["tests/c/numbers.c"]) {
        agree(&program);
    }
}

#[test]
fn fortran_programs_get_the_same_answers() {
    let arguments = ["-std=f2008", "-O2", "-Wall", "-Werror", "-J", env!("CARGO_TARGET_TMPDIR")];
    if let Some(program) = compiled("gfortran", "numbers-f", &arguments, &["fortran/x4.f90", "fortran/numbers.f90"]) {
        agree(&program);
    }
}

/// Entries of every kind: the sample, one damaged by each cause, the largest, and no entry at all.
fn entries() -> Vec<Vec<u8>> {
    let sample = include_bytes!("../data/sample.x4").to_vec();
    let mut entries = vec![Vec::new(), sample.clone(), sample[..81 * 20].to_vec(), sample[1..].to_vec()];
    for cause in 0..generate::CAUSES.len() {
        let damaged = |seed| {
            let mut random = Random::seeded(seed);
            let mut sheet = generate::entry(&mut random);
            let number = generate::damage(&mut random, &mut sheet, cause)?.due.number;
            generate::CAUSES[cause].0.starts_with(&format!("{number} ")).then_some(sheet.bytes)
        };
        // The first entry that has a place for it, and no other fault before it.
        entries.extend((cause as u64..).find_map(damaged));
    }
    entries.extend(generate::SHAPES.map(|shape| generate::large(&mut Random::seeded(1), shape, 20_000)));
    entries
}

/// Both programs print the verdict of a file: one reads it from its standard input, one by its name.
fn verdicts_agree(program: &Path, name: &str) {
    for (index, entry) in entries().iter().enumerate() {
        let file = Path::new(env!("CARGO_TARGET_TMPDIR")).join(format!("{name}-{index}.x4"));
        std::fs::write(&file, entry).unwrap();
        let input = std::fs::File::open(&file).unwrap();
        let output = Command::new(program).arg(&file).stdin(input).output().unwrap();
        let numbers = reference::judge(entry).numbers().map(|number| number.to_string()).join(" ");
        assert_eq!(String::from_utf8_lossy(&output.stdout).trim_end(), numbers, "{}", file.display());
    }
}

#[test]
fn c_programs_get_the_same_verdicts() {
    if let Some(program) = compiled("gcc", "judge-c", &C, &["tests/c/judge.c"]) {
        verdicts_agree(&program, "c");
    }
}

#[test]
fn fortran_programs_get_the_same_verdicts() {
    let modules = concat!(env!("CARGO_TARGET_TMPDIR"), "/verdicts");
    std::fs::create_dir_all(modules).unwrap();
    let arguments = ["-std=f2008", "-O2", "-Wall", "-Werror", "-J", modules];
    if let Some(program) = compiled("gfortran", "judge-f", &arguments, &["fortran/x4.f90", "fortran/judge.f90"]) {
        verdicts_agree(&program, "f");
    }
}

/// Transmissions: damaged by each cause, good, and none at all.
fn small_files() -> Vec<Vec<u8>> {
    let mut files = vec![Vec::new(), common::transmission(&[&common::sample()])];
    for cause in 0..generate::FILE_CAUSES.len() {
        files.push(generate::damaged_file(&mut Random::seeded(cause as u64), cause).0.bytes());
    }
    files.extend((0..40).map(|seed| generate::file_input(&mut Random::seeded(1_000 + seed))));
    files
}

/// The same, and those at the limits.
fn files() -> Vec<Vec<u8>> {
    [small_files(), generate::file_limits()].concat()
}

/// The seven numbers of a verdict and the ordinal.
fn eight_numbers(verdict: Verdict) -> String {
    let numbers = verdict.numbers().into_iter().chain([verdict.ordinal()]).map(|number| number.to_string());
    numbers.collect::<Vec<_>>().join(" ") + "\n"
}

/// What both programs print of a transmission, by the reference.
fn file_in_numbers(file: &[u8]) -> String {
    let mut words = eight_numbers(reference::judge_file(file));
    let mut at = 81;
    loop {
        let length = reference::entry_length(file, at);
        if length == 0 {
            break;
        }
        words += &format!("{at} {length} {}", eight_numbers(reference::judge(&file[at..at + length])));
        at += length;
    }
    let mut copy = vec![b'#'; file.len()];
    let answer = reference::copy_file(file, &mut copy);
    let sum = copy.iter().fold(0, |sum: u32, &byte| sum.wrapping_mul(65599).wrapping_add(byte.into()));
    let number = answer.map_or_else(|refused| refused.number, |()| 0);
    let beside = answer.err().and_then(|refused| refused.entry);
    let beside = beside.map_or([0; 4], |beside| [beside.number, beside.record, beside.column, beside.ordinal]);
    format!("{words}{sum} {number} {}\n", beside.map(|number| number.to_string()).join(" "))
}

fn files_agree(program: &Path, name: &str) {
    for (index, file) in files().iter().enumerate() {
        let path = Path::new(env!("CARGO_TARGET_TMPDIR")).join(format!("{name}.x4"));
        std::fs::write(&path, file).unwrap();
        let input = std::fs::File::open(&path).unwrap();
        let output = Command::new(program).arg(&path).stdin(input).output().unwrap();
        assert_eq!(String::from_utf8_lossy(&output.stdout), file_in_numbers(file), "transmission {index}");
    }
}

#[test]
fn c_programs_get_the_same_transmissions() {
    if let Some(program) = compiled("gcc", "files-c", &C, &["tests/c/files.c"]) {
        files_agree(&program, "files-c");
    }
}

#[test]
fn fortran_programs_get_the_same_transmissions() {
    let modules = concat!(env!("CARGO_TARGET_TMPDIR"), "/files");
    std::fs::create_dir_all(modules).unwrap();
    let arguments = ["-std=f2008", "-O2", "-Wall", "-Werror", "-J", modules];
    if let Some(program) = compiled("gfortran", "files-f", &arguments, &["fortran/x4.f90", "fortran/files.f90"]) {
        files_agree(&program, "files-f");
    }
}

/// An entry or a transmission and why it is refused, by the reference.
fn explained(input: &[u8]) -> Explained {
    match input.starts_with(b"TRANS      ") {
        true => reference::explain_file(input),
        false => reference::explain(input),
    }
}

/// What both programs print of it.
fn reason_in_numbers(Explained { verdict, reason }: Explained) -> String {
    let facts = reason.facts().map(|number| number.to_string()).join(" ");
    format!("{}{facts} [{}]\n", eight_numbers(verdict), String::from_utf8_lossy(&reason.characters()))
}

fn reasons_agree(program: &Path, name: &str) {
    let mut kinds = [0; 7];
    for (index, input) in entries().into_iter().chain(small_files()).enumerate() {
        let path = Path::new(env!("CARGO_TARGET_TMPDIR")).join(format!("{name}.x4"));
        std::fs::write(&path, &input).unwrap();
        let output = Command::new(program).arg(&path).stdin(std::fs::File::open(&path).unwrap()).output().unwrap();
        let due = explained(&input);
        assert_eq!(String::from_utf8_lossy(&output.stdout), reason_in_numbers(due), "input {index}");
        kinds[due.reason.facts()[0] as usize] += 1;
    }
    assert!(kinds.iter().all(|&times| times > 0), "every kind of reason occurs: {kinds:?}");
}

#[test]
fn c_programs_get_the_same_reasons() {
    if let Some(program) = compiled("gcc", "reasons-c", &C, &["tests/c/reasons.c"]) {
        reasons_agree(&program, "reasons-c");
    }
}

#[test]
fn fortran_programs_get_the_same_reasons() {
    let modules = concat!(env!("CARGO_TARGET_TMPDIR"), "/reasons");
    std::fs::create_dir_all(modules).unwrap();
    let arguments = ["-std=f2008", "-O2", "-Wall", "-Werror", "-J", modules];
    if let Some(program) = compiled("gfortran", "reasons-f", &arguments, &["fortran/x4.f90", "fortran/reasons.f90"]) {
        reasons_agree(&program, "reasons-f");
    }
}

#[test]
fn what_is_proved_is_said() {
    let proved = library::proved();
    assert_eq!(proved.is_empty(), library::archives().is_none());
    assert!(proved.iter().all(|call| library::CALLS.contains(call)));
    say(&format!("answered {}", library::who_answers()));
}

//! Questions and copies asked from C, by `include/x4.h`, and from Fortran, by `fortran/x4.f90`.

mod common;

use common::{compiled, part_said, refused_said, say, value_said, C};
use glockenbeacon::generate::{self, Random};
use glockenbeacon::{library, reference, RECORD};
use std::path::Path;
use std::process::Command;

/// A question as the programs read it.
enum Question {
    Value([u32; 4]),
    Heading([u32; 3]),
    Unit([u32; 3]),
    Passage(u32, u8, String),
    Copy(usize),
}

impl Question {
    fn line(&self) -> String {
        match self {
            Question::Value([n, section, line, column]) => format!("value {n} {section} {line} {column}"),
            Question::Heading([n, section, column]) => format!("heading {n} {section} {column}"),
            Question::Unit([n, section, column]) => format!("unit {n} {section} {column}"),
            Question::Passage(n, pointer, keyword) => format!("passage {n} {pointer} {keyword}"),
            Question::Copy(room) => format!("copy {room}"),
        }
    }

    /// What the programs are to print: the reference's answer.
    fn answer(&self, entry: &[u8]) -> String {
        match self {
            &Question::Value([n, section, line, column]) => {
                value_said(reference::value(entry, n, section, line, column))
            }
            &Question::Heading([n, section, column]) => part_said(reference::heading(entry, n, section, column)),
            &Question::Unit([n, section, column]) => part_said(reference::unit(entry, n, section, column)),
            Question::Passage(n, pointer, keyword) => {
                part_said(reference::passage(entry, *n, keyword.as_bytes(), *pointer))
            }
            &Question::Copy(room) => {
                let mut buffer = vec![b'#'; room];
                let answer = reference::canonical_copy(entry, &mut buffer);
                let sum = buffer.iter().fold(0, |sum: u32, &byte| sum.wrapping_mul(65599).wrapping_add(byte.into()));
                format!("{sum} {}", answer.map_or_else(refused_said, |()| "copied".into()))
            }
        }
    }
}

/// Questions about an entry, most of them about subentries and keywords that it has.
fn questions(random: &mut Random, entry: &[u8], count: usize) -> Vec<Question> {
    let letter = |&byte: &u8| if (32..127).contains(&byte) { char::from(byte) } else { '?' };
    let ask = |_| {
        // A record, or one of blanks where there is none.
        let at = random.below((entry.len() / RECORD).max(1)) * RECORD;
        let record = entry.get(at..at + RECORD).unwrap_or(&[b' '; RECORD]);
        let own = record[71..74].iter().map(letter).collect::<String>().parse().unwrap_or(0);
        let subentry = if random.once_in(12) { random.one(&[0, 1, 998, 999, u32::MAX]) } else { own };
        let section = if random.once_in(12) { random.one(&[0, 3, u32::MAX]) } else { random.one(&[1, 2, 2]) };
        let line = random.one(&[0, 1, 1, 1, 1, 2, 3, 20_000, u32::MAX]);
        let column = random.one(&[0, 1, 1, 1, 1, 2, 2, 3, 6, 7, 18, 19, u32::MAX]);
        match random.below(8) {
            0..=2 => Question::Value([subentry, section, line, column]),
            3 => Question::Heading([subentry, section, column]),
            4 => Question::Unit([subentry, section, column]),
            5 | 6 => {
                let length = if random.once_in(8) { random.within(1, 12) } else { 10 };
                let pointer = if random.once_in(3) { b' ' } else { record[10] };
                Question::Passage(subentry, pointer, record[..length].iter().map(letter).collect())
            }
            _ => Question::Copy((entry.len() + random.below(200)).saturating_sub(random.below(200))),
        }
    };
    (0..count).map(ask).collect()
}

/// Good entries, damaged ones, and one of many lines.
fn entries() -> Vec<Vec<u8>> {
    let mut entries = vec![Vec::new(), common::sample(), common::wide(18), common::sample()[1..].to_vec()];
    for seed in 0..60 {
        let mut random = Random::seeded(seed);
        let mut sheet = generate::entry(&mut random);
        if seed % 4 == 0 {
            let _ = generate::damage(&mut random, &mut sheet, seed as usize % generate::CAUSES.len());
        }
        entries.push(sheet.bytes);
    }
    entries.push(generate::large(&mut Random::seeded(1), generate::SHAPES[0], 5_000));
    entries
}

fn agree(program: &Path, name: &str) {
    let room = Path::new(env!("CARGO_TARGET_TMPDIR"));
    let mut answered = 0;
    for (index, entry) in entries().iter().enumerate() {
        let questions = questions(&mut Random::seeded(index as u64), entry, 200);
        let (file, list) = (room.join(format!("{name}.x4")), room.join(format!("{name}.txt")));
        std::fs::write(&file, entry).unwrap();
        std::fs::write(&list, questions.iter().map(|question| question.line() + "\n").collect::<String>()).unwrap();
        let output = Command::new(program).args([&file, &list]).output().unwrap();
        assert!(output.status.success());
        let text = String::from_utf8(output.stdout).unwrap();
        assert_eq!(text.lines().count(), questions.len(), "entry {index}");
        for (question, answer) in questions.iter().zip(text.lines()) {
            assert_eq!(answer, question.answer(entry), "entry {index}, {}", question.line());
            answered += usize::from(!answer.contains("refused"));
        }
    }
    assert!(answered > 1_000, "{answered} answered");
    say(&format!("{name}: 65 entries, 200 questions each, {answered} not refused"));
}

#[test]
fn c_programs_get_the_same_answers() {
    if let Some(program) = compiled("gcc", "questions-c", &C, &["tests/c/questions.c"]) {
        agree(&program, "questions-c");
    }
}

#[test]
fn fortran_programs_get_the_same_answers() {
    let modules = concat!(env!("CARGO_TARGET_TMPDIR"), "/questions");
    std::fs::create_dir_all(modules).unwrap();
    let arguments = ["-std=f2008", "-O2", "-Wall", "-Werror", "-J", modules];
    let sources = ["fortran/x4.f90", "fortran/in_words.f90", "fortran/questions.f90"];
    if let Some(program) = compiled("gfortran", "questions-f", &arguments, &sources) {
        agree(&program, "questions-f");
    }
}

/// Every call is an archive's where they are linked.
#[test]
fn all_or_none_is_proved() {
    let expected = if library::archives().is_some() { &library::CALLS[..] } else { &[] };
    assert_eq!(library::proved(), expected);
}

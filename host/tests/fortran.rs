//! The physicist's side: what a Fortran formatted read makes of number fields, and her tables beside ours.

mod common;

use glockenbeacon::generate::{self, Random};
use glockenbeacon::library::read_number;
use glockenbeacon::{Decimal, Value};
use std::io::Write;
use std::path::{Path, PathBuf};
use std::process::{Command, Stdio};

/// Compiles a program of `host/fortran` for one test; none if gfortran is not installed, which is said so that it is
/// seen.
fn compiled(name: &str, test: &str) -> Option<PathBuf> {
    let program = Path::new(env!("CARGO_TARGET_TMPDIR")).join(format!("{name}-{test}"));
    let source = Path::new(env!("CARGO_MANIFEST_DIR")).join("fortran").join(format!("{name}.f90"));
    let arguments = ["-O2", "-Wall", "-Werror", "-std=f2008", "-J", env!("CARGO_TARGET_TMPDIR"), "-o"];
    match Command::new("gfortran").args(arguments).arg(&program).arg(source).status() {
        Ok(status) => {
            assert!(status.success(), "{name}.f90 does not compile");
            Some(program)
        }
        Err(_) => {
            // Written past the test's own output, which nobody sees when a test passes.
            let words = format!("gfortran is not installed: {name}.f90 was not compared\n");
            std::io::stderr().write_all(words.as_bytes()).unwrap();
            None
        }
    }
}

/// What the formatted read makes of each field.
fn formatted_read(program: &Path, fields: &[String]) -> Vec<String> {
    let mut child = Command::new(program).stdin(Stdio::piped()).stdout(Stdio::piped()).spawn().unwrap();
    let mut input = child.stdin.take().unwrap();
    let lines = fields.join("\n") + "\n";
    let writer = std::thread::spawn(move || input.write_all(lines.as_bytes()).unwrap());
    let output = child.wait_with_output().unwrap();
    writer.join().unwrap();
    String::from_utf8(output.stdout).unwrap().lines().map(|line| line.trim().to_string()).collect()
}

/// A reading as the table says it.
fn by_the_paper(field: &str) -> String {
    match read_number(field.as_bytes()).map(|read| read.value) {
        Ok(Value::Blank) => "blank".into(),
        Ok(Value::Number(decimal)) => decimal.to_string(),
        Err(_) => "malformed".into(),
    }
}

/// Whether the read's answer is the one that the table names.
fn agrees(answer: &str, named: &str) -> bool {
    match (answer.parse::<f64>(), named.parse::<f64>()) {
        (Ok(one), Ok(other)) => one == other || (one.is_nan() && other.is_nan()),
        _ => answer == named,
    }
}

/// Every row of the table in docs/FORTRAN.md, on both sides.
#[test]
fn the_table_of_spellings_is_true() {
    let page = include_str!("../../docs/FORTRAN.md");
    let rows: Vec<(String, String, String)> = page
        .lines()
        .filter_map(|line| {
            let (field, rest) = line.strip_prefix("| `")?.split_once("` | ")?;
            let (paper, read) = rest.trim_end_matches(" |").split_once(" | ")?;
            Some((field.to_string(), paper.to_string(), read.to_string()))
        })
        .collect();
    assert!(rows.len() > 30 && rows.iter().all(|(field, _, _)| field.len() == 11));
    for (field, paper, _) in &rows {
        assert_eq!(&by_the_paper(field), paper, "{field:?}");
    }
    let Some(program) = compiled("read_field", "table") else { return };
    let fields: Vec<String> = rows.iter().map(|(field, _, _)| field.clone()).collect();
    for ((field, _, named), answer) in rows.iter().zip(formatted_read(&program, &fields)) {
        assert!(agrees(&answer, named), "{field:?}: the read gives {answer}, the page says {named}");
    }
}

/// Where document 01 takes a field and a double can hold it, the formatted read gives the nearest double.
#[test]
fn the_read_agrees_where_a_double_can() {
    let Some(program) = compiled("read_field", "generated") else { return };
    let mut random = Random::seeded(14);
    let fields: Vec<String> =
        (0..50_000).map(|_| String::from_utf8_lossy(&generate::spelling(&mut random)).to_string()).collect();
    let answers = formatted_read(&program, &fields);
    assert_eq!(answers.len(), fields.len());
    let mut compared = 0;
    for (field, answer) in fields.iter().zip(answers) {
        let Ok(Value::Number(decimal)) = read_number(field.as_bytes()).map(|read| read.value) else {
            panic!("{field:?}")
        };
        if let Some(double) = decimal.to_double().filter(|_| decimal != Decimal::ZERO) {
            assert_eq!(answer.parse(), Ok(double), "{field:?}");
            compared += 1;
        }
    }
    assert!(compared > 30_000, "{compared} compared");
}

/// Her tables and ours are the same, on the sample and on tables of several records to a line.
#[test]
fn her_tables_are_ours() {
    let Some(program) = compiled("read_tables", "tables") else { return };
    for (name, entry, numbers) in
        [("sample", common::sample(), 6), ("seven", common::wide(7), 15), ("eighteen", common::wide(18), 37)]
    {
        let file = Path::new(env!("CARGO_TARGET_TMPDIR")).join(format!("{name}.x4"));
        let table = file.with_extension("csv");
        std::fs::write(&file, entry).unwrap();
        std::fs::write(&table, Command::new(&program).arg(&file).output().unwrap().stdout).unwrap();
        let compared = Command::new(env!("CARGO_BIN_EXE_x4")).arg("compare").args([&file, &table]).output().unwrap();
        let words = String::from_utf8_lossy(&compared.stdout).to_string();
        assert!(compared.status.success() && words.starts_with("same: 2 tables, "), "{name}: {words}");
        let counts = words.split(' ').filter_map(|word| word.parse::<u32>().ok());
        assert_eq!(counts.skip(1).sum::<u32>(), numbers, "{name}: {words}");
    }
    // One digit changed in the entry, and the comparison says where.
    let file = Path::new(env!("CARGO_TARGET_TMPDIR")).join("digit.x4");
    std::fs::write(&file, common::changed(23, 33, "2")).unwrap();
    let table = Path::new(env!("CARGO_TARGET_TMPDIR")).join("sample.csv");
    let compared = Command::new(env!("CARGO_BIN_EXE_x4")).arg("compare").args([&file, &table]).output().unwrap();
    let words = "subentry 90001002, DATA, line 2, column 3: first 250, second 2.5000000000000000E+001\n";
    assert_eq!(String::from_utf8_lossy(&compared.stdout), words);
    assert_eq!(compared.status.code(), Some(1));
}

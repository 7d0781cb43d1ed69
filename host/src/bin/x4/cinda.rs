//! `x4 cinda`: lines in the CINDA2001 layout are checked, printed as a table, and written back.

use super::output::{failed, output};
use super::{called, each_file, no_command, only, options, read, say, Done, Trouble};
use glockenbeacon::cinda::{check, explain, shown, to_csv, to_json, Lines, LinesRefusal, Shown};
use glockenbeacon::explain::Explanation;
use glockenbeacon::json::{object, text};
use std::ffi::{OsStr, OsString};
use std::io::Write;
use std::process::ExitCode;

pub const HELP: &str = "\
x4 cinda judge [--json] [FILE..]
x4 cinda table [--json] [--digits] [--doubles] [FILE]
x4 cinda copy [-o FILE [--force]] [FILE]

A file is 1 to 20,000 lines in the CINDA2001 layout, each 125 columns and a line feed.

judge prints four numbers: refusal, line, column, and how many lines there are. Good lines have refusal 0. Refused ones
have the number, line and column of the first fault, and 0; then come what was expected there, what stands there, and the
line with a mark under the column. With several files there is one line for each: its name, the numbers, and what a refusal
stands for. With --json each file is one line, an object. The refusals, of which 70 comes first; then the first line with a
fault, its lowest number, its leftmost column:

  70  length: none, not whole lines of 126 bytes, more than 20,000    line and column 0
  71  byte 126 is not a line feed                                     column 126
  72  a character that is not permitted                               that one
  73  the operation is not A, D or M                                  column 1
  74  target: Z and A are right-adjusted integers, Z is 999 where A   columns 2, 5, 8
      is MNY; the isomer is a blank or a digit
  75  block, a capital or digit and an integer; sequence, an integer  columns 34, 38
  76  an energy that is neither blank nor a number of seven columns   columns 42, 49
  77  the reference date is not YYYYMM, month 01-12                   column 80

table prints every line as comma-separated values below the names of the columns. Numbers are exact decimals: 2.5-2 is
0.025. A blank energy is empty, and zero is 0. Texts are without the blanks behind them. A is MNY for many nuclei. With
--json the lines are an array of objects; energies are texts, blank is null. With --digits the count of digits written
stands behind each energy. With --doubles an energy is the text of its double, and with --json a number; a decimal outside
the simple range is still exact (see x4 help tables).

copy writes the lines back: each energy in its shortest spelling, right-adjusted in its seven columns, and every other byte
as it was. The copy is good again, with the same values, and its own copy. It goes to standard output, or with -o to a
file, which must not be there yet; with --force it is written over.

Without FILE, or where FILE is -, standard input is read. Exit status: 0 good, 1 refused, 2 something went wrong.
";

pub fn run(arguments: &[OsString]) -> Done {
    let Some((command, rest)) = arguments.split_first() else {
        return Err(Trouble::Failed("cinda needs judge, table or copy; see x4 help cinda".into()));
    };
    match command.to_str() {
        Some("judge") => judge(rest),
        Some("table") => table(rest),
        Some("copy") => copy(rest),
        _ => Err(no_command(command)),
    }
}

fn judge(arguments: &[OsString]) -> Done {
    let ([json], files) = options(arguments, ["--json"])?;
    each_file(files, |file, lines, several| {
        let verdict = check(lines);
        let report = match (json, several) {
            (true, _) => judged_json(file, lines, &verdict),
            (false, true) => judged_line(file, &verdict),
            (false, false) => judged_words(lines, &verdict),
        };
        (report, verdict.is_err())
    })
}

/// Refusal, line, column, and how many lines there are.
fn numbers(verdict: &Result<usize, LinesRefusal>) -> [u32; 4] {
    match verdict {
        Ok(lines) => [0, 0, 0, *lines as u32],
        Err(LinesRefusal { number, line, column }) => [*number, *line, *column, 0],
    }
}

fn numbers_said(verdict: &Result<usize, LinesRefusal>) -> String {
    numbers(verdict).map(|number| number.to_string()).join(" ")
}

fn judged_line(file: &OsStr, verdict: &Result<usize, LinesRefusal>) -> String {
    let meaning = verdict.err().map_or(String::new(), |refusal| format!(", {}", refusal.meaning()));
    format!("{}: {}{meaning}\n", called(file), numbers_said(verdict))
}

fn judged_words(lines: &[u8], verdict: &Result<usize, LinesRefusal>) -> String {
    let words = match verdict {
        Ok(1) => "good: 1 line\n".to_string(),
        Ok(count) => format!("good: {count} lines\n"),
        Err(refusal) => refused_words(lines, refusal),
    };
    format!("{}\n{words}", numbers_said(verdict))
}

/// A refusal in words, and its line.
fn refused_words(lines: &[u8], refusal: &LinesRefusal) -> String {
    let Explanation { expected, found, note } = explain(lines, refusal);
    let mut said = format!("{refusal}\n{}", shown(lines, refusal).unwrap_or_default());
    said += &format!("  expected: {expected}\n  found:    {found}\n");
    if let Some(note) = note {
        said += &format!("  note:     {note}\n");
    }
    said
}

fn judged_json(file: &OsStr, lines: &[u8], verdict: &Result<usize, LinesRefusal>) -> String {
    let mut members = vec![("file", text(&file.to_string_lossy())), ("accepted", verdict.is_ok().to_string())];
    let names = ["refusal", "line", "column", "lines"];
    members.extend(names.into_iter().zip(numbers(verdict).map(|number| number.to_string())));
    if let Err(refusal) = verdict {
        let Explanation { expected, found, note } = explain(lines, refusal);
        members.push(("meaning", text(refusal.meaning())));
        members.push(("expected", text(&expected)));
        members.push(("found", text(&found)));
        members.push(("note", note.map_or("null".into(), |note| text(&note))));
    }
    object(&members) + "\n"
}

/// The lines of a file, which are to be good.
fn good<'l>(file: &OsStr, lines: &'l [u8]) -> Result<Lines<'l>, Trouble> {
    let refused = |refusal| Trouble::Refused(format!("{}: {}", called(file), refused_words(lines, &refusal)));
    Lines::of(lines).map_err(refused)
}

fn table(arguments: &[OsString]) -> Done {
    let ([json, digits, doubles], files) = options(arguments, ["--json", "--digits", "--doubles"])?;
    let (file, shown) = (only(files)?, Shown { digits, doubles });
    let bytes = read(&file)?;
    let lines = good(&file, &bytes)?;
    let written = if json { to_json(lines, shown) + "\n" } else { to_csv(lines, shown) };
    say(written.as_bytes())?;
    Ok(ExitCode::SUCCESS)
}

fn copy(arguments: &[OsString]) -> Done {
    let (target, rest) = output(arguments, "cinda")?;
    let ([force], files) = options(&rest, ["--force"])?;
    let file = only(files)?;
    let bytes = read(&file)?;
    let copy = good(&file, &bytes)?.written_back();
    match target.filter(|target| target != "-") {
        Some(target) => write(&target, &copy, force)?,
        None if force => return Err(Trouble::Failed("--force goes with -o FILE; see x4 help cinda".into())),
        None => say(&copy)?,
    }
    Ok(ExitCode::SUCCESS)
}

/// Writes a file: one that is there only where that is said.
fn write(target: &OsStr, bytes: &[u8], force: bool) -> Result<(), Trouble> {
    let mut how = std::fs::OpenOptions::new();
    how.write(true);
    if force {
        how.create(true).truncate(true);
    } else {
        how.create_new(true);
    }
    let written = how.open(target).and_then(|mut file| file.write_all(bytes));
    written.map_err(|error| failed(target, &error))
}

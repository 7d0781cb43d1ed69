//! x4: judges EXFOR entries and transmissions, prints and compares their tables, lists their subentries, takes their codes
//! under DECAY-DATA apart, merges an entry with its revision, and copies them canonically; checks, prints and copies lines in the
//! CINDA2001 layout.

#![forbid(unsafe_code)]

mod cinda;
mod decay;
mod output;
mod revisions;

use glockenbeacon::explain::Explanation;
use glockenbeacon::json::{object, text};
use glockenbeacon::tables::{file_tables, from_csv, tables, to_csv, to_json, Row, Shown, Table};
use glockenbeacon::transmission::{accession, entries_in_words, is_transmission, Place};
use glockenbeacon::{compare, explain, index, library, NoAnswer, Reason, Refusal, Verdict};
use std::ffi::{OsStr, OsString};
use std::io::{self, IsTerminal, Read, Write};
use std::process::ExitCode;

const HELP: &str = "\
x4 reads EXFOR entries and transmissions. A file is one entry, from ENTRY to ENDENTRY, or, where its first record is
TRANS, one transmission: TRANS, one or more entries, ENDTRANS.

  x4 judge [--json] [FILE..]       is it good, and if not, where is its first fault, and why
  x4 tables [--json] [--digits] [--doubles] [FILE]
                                   every COMMON and DATA table, as comma-separated values
  x4 index [--json] [FILE]         where each subentry and its sections begin
  x4 canon [FILE]                  the canonical copy: every number but flags in its shortest spelling
  x4 compare [--exact] [--digits] A B
                                   the first difference between the tables of two
  x4 decay [--csv] [FILE]          every code under DECAY-DATA, taken apart into its fields
  x4 merge HELD REVISION [-o OUT [--force]]
                                   one entry of a held one and a revision of it
  x4 subentry [--json] HELD REVISION N
                                   a subentry of whichever of the two holds it
  x4 cinda judge|table|copy ..     lines in the CINDA2001 layout: are they good, as a table, written back
  x4 help COMMAND                  more about a command

Without FILE, or where FILE is -, standard input is read.
Exit status: 0 good or equal, 1 refused or different, 2 something went wrong.
";

const HELP_JUDGE: &str = "\
x4 judge [--json] [FILE..]

Prints seven numbers: refusal, record, column, subentries, keywords, DATA lines, numbers. A good entry has refusal 0.
A refused one has the number, record and column of its first fault, and zeros; then come what was expected there, what
stands there, and the record with a mark under the column. With --json each file is one line, an object.

For refusals 5, 6, 8, 9, 13 and 14 the facts in these words come from the proved library, as the verdict does: the
expected characters; the announced and the true count, or the least and the greatest; the number of the subentry before;
record and column of the first equal heading; the pointer. With --json they are the object 'reason', where 0 stands for
no greatest and no subentry before; for other refusals it is null. The words around them are x4's own.

Of a transmission there are eight numbers. The record is counted from TRANS, the totals are those of all entries, and
the eighth is the ordinal of the entry that is refused: 0 where it is good, with refusals 1 and 16, and outside ENTRY to
ENDENTRY. Below stand the entry's ordinal and accession and the record counted from its ENTRY.

With several files there is one line for each: its name, the numbers, and what a refusal stands for.

Files are mended from the top: a refusal other than 1 and 16 depends on nothing below its record. Without --json its
last line says how many records stand below, if any do.

A heading with its pointer stands once in the COMMON of 001, a subentry's COMMON and its DATA together. E-LVL, EN-RES,
words ending in -ERR or -RSL and words starting with ANG may repeat, and in DATA also FLAG and words starting with HL:
all equal ones side by side, in one of these sections.

A number under the heading FLAG or DECAY-FLAG has no exponent. A number under FLAG equals a code: 2. equals (2.) on a
record of BIB under the keyword FLAG, from column 12 on, in the same subentry or in 001.

Exit status: 0 if every file is good, 1 if one is refused, 2 if a file cannot be read.
";

const HELP_TABLES: &str = "\
x4 tables [--json] [--digits] [--doubles] [FILE]

Prints every table of a good entry, or of all entries of a good transmission. Each row begins with the subentry, COMMON
or DATA, and 'heading', 'pointer', 'unit' or the number of the line; then comes a field for each column. Numbers are
exact decimals as text: 1.45-1 is 0.145. A blank field is empty, and zero is 0. With --json the tables are an array of
objects; numbers are texts, blank is null; of a transmission each table has the ordinal of its entry. Some headings may
stand on several columns side by side, such as HL in seconds, days and years: a column goes by its place, not by its
heading.

With --digits a count stands beside each value: the digits that were written, from the first that is not zero to the
last, before and behind the point. 0.140 has 3, 0.14 has 2, 100. has 3, zero and a blank have 0. As comma-separated
values the counts are a column behind each column, with the heading 'digits'; with --json a value is an object of both.

With --doubles each number is the text of its double, the fewest digits that read back to it, plain or, where that is
shorter, with an exponent: 0.145, 14, 1e22. The double is the value rounded once, to the nearest. A decimal whose power of
ten is not -22 to 22, its coefficient not divisible by ten, is outside that range and still exact: 1.+23 is
100000000000000000000000. With --json a double is a number and such a decimal a text. A blank field is empty, or null.
";

const HELP_INDEX: &str = "\
x4 index [--json] [FILE]

Lists the subentries of a good entry, or of all entries of a good transmission, NOSUBENT too, in their order: accession
and number, the first record, and the records BIB, COMMON and DATA, 0 where there is none. The first line has the names
of these columns. Records count from ENTRY, in a transmission too; there each line begins with the ordinal of its entry.
With --json each is an object, and a record that is not there is null.

These are the numbers of the index that the library makes (library::Index, x4_index): a program that keeps them beside
the entry asks about values, headings, units and passages without judging the entry again. x4 tables does so.
";

const HELP_CANON: &str = "\
x4 canon [FILE]

Writes the canonical copy of a good entry: each number of COMMON and DATA in its shortest spelling, right-adjusted, and
every other byte as it was. Columns under FLAG and DECAY-FLAG stay as they were, too. The copy is again a good entry,
with the same values, and its own canonical copy. That of a transmission is TRANS and ENDTRANS as they were, and between
them the copies of its entries.
";

const HELP_COMPARE: &str = "\
x4 compare [--exact] [--digits] A B

Compares the tables of A and B: headings, pointers, units and values, and names the first difference by subentry,
section, line and column. A and B are entries or transmissions, or tables as x4 tables writes them; a file whose first
word is ENTRY is an entry, one whose first word is TRANS a transmission. In a transmission the difference is named with
its entry, too. Numbers are compared by value. As most programs write doubles, a number of a table that was written by
another program is also the same where its nearest double is; with --exact it is not. BIB is not compared.

With --digits the counts of digits are compared too: 0.140 and 0.14 then differ. Tables are then such as
x4 tables --digits writes.
";

/// What stopped a command.
enum Trouble {
    /// An entry or transmission is refused, or two differ: the message, and status 1.
    Refused(String),
    /// Files, arguments: the message, and status 2.
    Failed(String),
}

type Done = Result<ExitCode, Trouble>;

fn main() -> ExitCode {
    let arguments: Vec<OsString> = std::env::args_os().skip(1).collect();
    let (status, message) = match run(&arguments) {
        Ok(status) => return status,
        Err(Trouble::Refused(message)) => (1, message),
        Err(Trouble::Failed(message)) => (2, message),
    };
    eprintln!("x4: {}", message.trim_end());
    ExitCode::from(status)
}

fn run(arguments: &[OsString]) -> Done {
    let Some((command, rest)) = arguments.split_first() else {
        return Err(Trouble::Failed(format!("a command is missing\n\n{HELP}")));
    };
    if rest.iter().any(|argument| argument == "--help") {
        return help(Some(command));
    }
    match command.to_str() {
        Some("judge") => judge(rest),
        Some("tables") => print_tables(rest),
        Some("index") => print_index(rest),
        Some("canon") => canon(rest),
        Some("compare") => compare_two(rest),
        Some("decay") => decay::run(rest),
        Some("merge") => revisions::merge(rest),
        Some("subentry") => revisions::subentry(rest),
        Some("cinda") => cinda::run(rest),
        Some("help" | "--help" | "-h") => help(rest.first()),
        Some("--version") => {
            say(concat!("x4 ", env!("CARGO_PKG_VERSION"), "\n").as_bytes())?;
            Ok(ExitCode::SUCCESS)
        }
        _ => Err(no_command(command)),
    }
}

fn no_command(command: &OsStr) -> Trouble {
    Trouble::Failed(format!("no command '{}'\n\n{HELP}", command.to_string_lossy()))
}

fn help(command: Option<&OsString>) -> Done {
    let page = match command.map(|command| (command, command.to_str())) {
        None => HELP,
        Some((_, Some("judge"))) => HELP_JUDGE,
        Some((_, Some("tables"))) => HELP_TABLES,
        Some((_, Some("index"))) => HELP_INDEX,
        Some((_, Some("canon"))) => HELP_CANON,
        Some((_, Some("compare"))) => HELP_COMPARE,
        Some((_, Some("decay"))) => decay::HELP,
        Some((_, Some("merge"))) => revisions::HELP_MERGE,
        Some((_, Some("subentry"))) => revisions::HELP_SUBENTRY,
        Some((_, Some("cinda"))) => cinda::HELP,
        Some((other, _)) => return Err(no_command(other)),
    };
    say(page.as_bytes())?;
    Ok(ExitCode::SUCCESS)
}

/// Takes options out of the arguments, and says which are there; what is left must be file names.
fn options<const N: usize>(arguments: &[OsString], known: [&str; N]) -> Result<([bool; N], Vec<OsString>), Trouble> {
    let is_option = |argument: &&OsString| argument.len() > 1 && argument.to_string_lossy().starts_with('-');
    let is_known = |argument: &OsString| known.iter().any(|known| argument == known);
    if let Some(unknown) = arguments.iter().filter(is_option).find(|argument| !is_known(argument)) {
        return Err(Trouble::Failed(format!("no option '{}' here; see x4 --help", unknown.to_string_lossy())));
    }
    let files = arguments.iter().filter(|argument| !is_option(argument)).cloned().collect();
    Ok((known.map(|known| arguments.iter().any(|argument| argument == known)), files))
}

/// The only file, or standard input.
fn only(files: Vec<OsString>) -> Result<OsString, Trouble> {
    match files.as_slice() {
        [] => Ok("-".into()),
        [file] => Ok(file.clone()),
        _ => Err(Trouble::Failed("one file at a time; see x4 --help".into())),
    }
}

fn read(file: &OsStr) -> Result<Vec<u8>, Trouble> {
    let content = if file == "-" {
        let mut bytes = Vec::new();
        io::stdin().lock().read_to_end(&mut bytes).map(|_| bytes)
    } else {
        std::fs::read(file)
    };
    content.map_err(|error| Trouble::Failed(format!("{}: {error}", called(file))))
}

/// How a file is called in messages.
fn called(file: &OsStr) -> String {
    if file == "-" {
        return "standard input".into();
    }
    file.to_string_lossy().into_owned()
}

/// Writes to standard output. A reader that has gone away is no failure.
fn say(bytes: &[u8]) -> Result<(), Trouble> {
    let mut output = io::stdout().lock();
    match output.write_all(bytes).and_then(|()| output.flush()) {
        Err(error) if error.kind() == io::ErrorKind::BrokenPipe => std::process::exit(0),
        Err(error) => Err(Trouble::Failed(format!("standard output: {error}"))),
        Ok(()) => Ok(()),
    }
}

fn judge(arguments: &[OsString]) -> Done {
    let ([json], files) = options(arguments, ["--json"])?;
    each_file(files, |file, input, several| {
        let verdict = judge_input(input);
        let report = match (json, several) {
            (true, _) => judged_json(file, input, &verdict),
            (false, true) => judged_line(file, input, &verdict),
            (false, false) => judged_words(input, &verdict),
        };
        (report, verdict.refusal().is_some())
    })
}

/// Reads each file, or standard input where there is none, and prints what is reported of it. A report takes the file's
/// name, its bytes and whether there are several, and says whether it is refused.
fn each_file(mut files: Vec<OsString>, report: impl Fn(&OsStr, &[u8], bool) -> (String, bool)) -> Done {
    if files.is_empty() {
        files.push("-".into());
    }
    let several = files.len() > 1;
    let watched = several && io::stderr().is_terminal();
    let mut status = 0;
    for (index, file) in files.iter().enumerate() {
        if watched {
            eprint!("\r\x1b[K{} of {}: {}", index + 1, files.len(), called(file));
        }
        let input = read(file);
        if watched {
            eprint!("\r\x1b[K");
        }
        match input {
            Ok(input) => {
                let (said, refused) = report(file, &input, several);
                say(said.as_bytes())?;
                status = status.max(u8::from(refused));
            }
            Err(Trouble::Failed(message) | Trouble::Refused(message)) => {
                eprintln!("x4: {message}");
                status = 2;
            }
        }
    }
    Ok(ExitCode::from(status))
}

/// The verdict on an input, by its first record that on an entry or on a transmission.
fn judge_input(input: &[u8]) -> Verdict {
    match is_transmission(input) {
        true => library::judge_file(input),
        false => library::judge(input),
    }
}

/// The seven numbers, and of a transmission the ordinal.
fn numbers(input: &[u8], verdict: &Verdict) -> String {
    let ordinal = is_transmission(input).then(|| verdict.ordinal());
    let numbers = verdict.numbers().into_iter().chain(ordinal);
    numbers.map(|number| number.to_string()).collect::<Vec<_>>().join(" ")
}

/// One of several files: its name, the numbers, and what a refusal stands for.
fn judged_line(file: &OsStr, input: &[u8], verdict: &Verdict) -> String {
    let meaning = verdict.refusal().map_or(String::new(), |refusal| format!(", {}", refusal.meaning()));
    format!("{}: {}{meaning}\n", called(file), numbers(input, verdict))
}

fn judged_words(input: &[u8], verdict: &Verdict) -> String {
    let words = match verdict {
        Verdict::Refused(refusal) => refused_words(input, refusal),
        Verdict::Accepted(totals) if is_transmission(input) => {
            format!("accepted: {}, {totals}\n", entries_in_words(input))
        }
        Verdict::Accepted(_) => format!("{verdict}\n"),
    };
    format!("{}\n{words}", numbers(input, verdict))
}

/// Where in a transmission a refusal is, if it names a record of one.
fn place<'i>(input: &'i [u8], refusal: &Refusal) -> Option<Place<'i>> {
    (is_transmission(input) && refusal.record > 0).then(|| Place::of(input, refusal))
}

/// The facts of a refusal, and its words with the note on all the input.
fn explained(input: &[u8], refusal: &Refusal) -> (Reason, Explanation) {
    if is_transmission(input) {
        let reason = library::explain_file(input).reason;
        return (reason, explain::explain_file(input, refusal, reason));
    }
    explained_entry(input, refusal)
}

/// The same of an input that was judged as an entry, whatever its first record is.
fn explained_entry(input: &[u8], refusal: &Refusal) -> (Reason, Explanation) {
    let reason = library::explain(input).reason;
    let words = explain::explain(input, refusal, reason);
    let note = explain::note_on(input, refusal, &words);
    (reason, Explanation { note, ..words })
}

/// A refusal in words, and its record.
fn refused_words(input: &[u8], refusal: &Refusal) -> String {
    let place = place(input, refusal).filter(|_| refusal.ordinal > 0);
    let place = place.and_then(|place| Some((place, place.entry_in_words()?)));
    let place = place.map_or(String::new(), |(place, entry)| {
        let (own, all) = (place.record, refusal.record);
        format!("  where:    {entry}, record {own} of the entry, {all} of the transmission\n")
    });
    in_words(input, refusal, explained(input, refusal).1, &place)
}

/// The refusal of an input that was judged as an entry, in words, and its record.
fn refused_entry(input: &[u8], refusal: &Refusal) -> String {
    let mut explanation = explained_entry(input, refusal).1;
    if is_transmission(input) {
        explanation.note = Some("this is a transmission, and a single entry is due: ENTRY to ENDENTRY".into());
    }
    in_words(input, refusal, explanation, "")
}

fn in_words(input: &[u8], refusal: &Refusal, explanation: Explanation, place: &str) -> String {
    let Explanation { expected, found, note } = explanation;
    let mut said = format!("{refusal}\n{}{place}", explain::shown(input, refusal).unwrap_or_default());
    said += &format!("  expected: {expected}\n  found:    {found}\n");
    if let Some(note) = note {
        said += &format!("  note:     {note}\n");
    }
    if let Some(below) = explain::below(input, refusal) {
        said += &format!("  below:    {below}\n");
    }
    said
}

/// The names of the seven numbers.
const NAMES: [&str; 7] = ["refusal", "record", "column", "subentries", "keywords", "lines", "numbers"];

fn judged_json(file: &OsStr, input: &[u8], verdict: &Verdict) -> String {
    let or_null = |words: Option<String>| words.map_or("null".into(), |words| text(&words));
    let mut members =
        vec![("file", text(&file.to_string_lossy())), ("accepted", verdict.refusal().is_none().to_string())];
    members.extend(NAMES.into_iter().zip(verdict.numbers().map(|number| number.to_string())));
    if is_transmission(input) {
        members.push(("ordinal", verdict.ordinal().to_string()));
    }
    let Verdict::Refused(refusal) = verdict else {
        let entries = is_transmission(input).then(|| ("entries", library::entries(input).count().to_string()));
        members.extend(entries);
        return object(&members) + "\n";
    };
    if is_transmission(input) {
        let place = place(input, refusal).filter(|_| refusal.ordinal > 0);
        let named = place.and_then(|place| accession(place.entry?)).map(String::from);
        members.push(("accession", or_null(named)));
        members.push(("entry_record", place.map_or("null".into(), |place| place.record.to_string())));
    }
    let (reason, Explanation { expected, found, note }) = explained(input, refusal);
    members.push(("meaning", text(refusal.meaning())));
    members.push(("reason", reason_json(&reason, refusal)));
    members.push(("expected", text(&expected)));
    members.push(("found", text(&found)));
    members.push(("note", or_null(note)));
    object(&members) + "\n"
}

/// The facts of a refusal under their names; null where nothing more is said.
fn reason_json(reason: &Reason, refusal: &Refusal) -> String {
    let number = |number: u64| number.to_string();
    let members = match *reason {
        Reason::Alone => return "null".into(),
        Reason::Count { announced, due } => vec![("announced", number(announced)), ("true", number(due))],
        Reason::Range { least, greatest } => vec![("least", number(least)), ("greatest", number(greatest))],
        Reason::Previous(before) => vec![("previous", number(before.into()))],
        Reason::Equal { record, column } => vec![("record", number(record.into())), ("column", number(column.into()))],
        Reason::Pointer(pointer) => vec![("pointer", text(&char::from(pointer).to_string()))],
        Reason::Expected(_) => {
            let expected = reason.expected(refusal.number).unwrap_or_default();
            vec![("characters", text(&String::from_utf8_lossy(expected)))]
        }
    };
    object(&members)
}

/// The message for an input that is refused where a good one is needed.
fn refused(file: &OsStr, input: &[u8], answer: &NoAnswer) -> Trouble {
    Trouble::Refused(match answer.entry {
        Some(refusal) => format!("{}: {}", called(file), refused_words(input, &refusal)),
        None => format!("{}: {answer}", called(file)),
    })
}

fn tables_of(file: &OsStr, input: &[u8]) -> Result<Vec<Table>, Trouble> {
    let tables = if is_transmission(input) { file_tables(input) } else { tables(input) };
    tables.map_err(|answer| refused(file, input, &answer))
}

fn print_tables(arguments: &[OsString]) -> Done {
    let ([json, digits, doubles], files) = options(arguments, ["--json", "--digits", "--doubles"])?;
    let (file, shown) = (only(files)?, Shown { digits, doubles });
    let tables = tables_of(&file, &read(&file)?)?;
    let written = if json { to_json(&tables, shown) + "\n" } else { to_csv(&tables, shown) };
    say(written.as_bytes())?;
    Ok(ExitCode::SUCCESS)
}

fn print_index(arguments: &[OsString]) -> Done {
    let ([json], files) = options(arguments, ["--json"])?;
    let file = only(files)?;
    let input = read(&file)?;
    let rows = if is_transmission(&input) { index::file_listed(&input) } else { index::listed(&input) };
    let rows = rows.map_err(|answer| refused(&file, &input, &answer))?;
    let written = if json { index::to_json(&rows) + "\n" } else { index::to_csv(&rows) };
    say(written.as_bytes())?;
    Ok(ExitCode::SUCCESS)
}

fn canon(arguments: &[OsString]) -> Done {
    let ([], files) = options(arguments, [])?;
    let file = only(files)?;
    let input = read(&file)?;
    let mut copy = vec![0; input.len()];
    let copied = match is_transmission(&input) {
        true => library::copy_file(&input, &mut copy),
        false => library::canonical_copy(&input, &mut copy),
    };
    copied.map_err(|answer| refused(&file, &input, &answer))?;
    say(&copy)?;
    Ok(ExitCode::SUCCESS)
}

/// The rows of the tables of an entry or a transmission, with digits where they are asked for, or of tables that a
/// program wrote; and whether it is one of the first two.
fn rows(file: &OsStr, digits: bool) -> Result<(Vec<Row>, bool), Trouble> {
    let bytes = read(file)?;
    if bytes.starts_with(b"ENTRY ") || is_transmission(&bytes) {
        let shown = Shown { digits, doubles: false };
        let rows = tables_of(file, &bytes)?.iter().flat_map(|table| table.rows(shown)).collect();
        return Ok((rows, true));
    }
    let text = String::from_utf8_lossy(&bytes);
    let rows =
        from_csv(&text).map_err(|why| format!("{}: neither an entry, a transmission nor tables: {why}", called(file)));
    Ok((rows.map_err(Trouble::Failed)?, false))
}

fn compare_two(arguments: &[OsString]) -> Done {
    let ([exact, digits], files) = options(arguments, ["--exact", "--digits"])?;
    let [first, second] = files.as_slice() else {
        return Err(Trouble::Failed("compare takes two files; see x4 help compare".into()));
    };
    if first == "-" && second == "-" {
        return Err(Trouble::Failed("only one of the two can be standard input".into()));
    }
    let ((ones, one_entry), (others, other_entry)) = (rows(first, digits)?, rows(second, digits)?);
    let asked = compare::Asked { exact: exact || (one_entry && other_entry), digits };
    match compare::compare(&ones, &others, asked) {
        Ok(same) => {
            say(format!("{same}\n").as_bytes())?;
            Ok(ExitCode::SUCCESS)
        }
        Err(difference) => {
            say(format!("{difference}\n").as_bytes())?;
            Ok(ExitCode::from(1))
        }
    }
}

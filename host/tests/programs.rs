//! What the library's own programs are expected to write, said once more by the reference: their stored outputs are
//! compared with the proved functions at every check of the crates, and here with an implementation that shares nothing
//! with these.

use glockenbeacon::cinda::{Line, LinesRefusal, Mass, Piece};
use glockenbeacon::decay::{GroupRead, HeadRead, NumberRead, Place};
use glockenbeacon::revisions::{RevisionRefusal, Which};
use glockenbeacon::{reference, Decimal, DoubleRead, FieldRead, NoAnswer, Part, Simple, Value, RECORD};
use std::fmt::Write;
use std::path::Path;

/// What a program reads or is expected to write.
fn stored(program: &str, file: &str) -> Vec<u8> {
    let crates = Path::new(env!("CARGO_MANIFEST_DIR")).join("../crates");
    std::fs::read(crates.join(program).join(file)).expect("a file of the program")
}

/// Compares line by line, so that a difference is shown alone.
fn same_lines(program: &str, said: &[u8]) {
    let expected = stored(program, "stdout");
    let lines = |bytes: &[u8]| bytes.split(|&byte| byte == b'\n').map(<[u8]>::to_vec).collect::<Vec<_>>();
    // Every byte is shown in its own way, those above 127 too.
    let show = |line: &[u8]| line.escape_ascii().to_string();
    for (number, (a, b)) in lines(said).iter().zip(&lines(&expected)).enumerate() {
        assert_eq!(show(a), show(b), "{program}, line {}", number + 1);
    }
    assert_eq!(said.len(), expected.len(), "{program}: the length");
}

/// The count of digits; none beside a refusal.
fn digits(read: Result<FieldRead, NoAnswer>) -> u32 {
    read.map_or(0, |read| read.digits)
}

fn decimal(value: Decimal, between: &str) -> String {
    let sign = if value.negative { "-" } else { "" };
    format!("{sign}{}{between}{}", value.coefficient, value.power)
}

#[test]
fn fields_are_read_as_stored() {
    let input = stored("read_fields", "stdin");
    let mut said = Vec::new();
    for line in input.strip_suffix(b"\n").unwrap_or(&input).split(|&byte| byte == b'\n') {
        let shown = line.iter().map(|&byte| if (32..127).contains(&byte) { byte } else { b'?' });
        said.push(b'[');
        said.extend(shown);
        let read = reference::read_number(line);
        let answer = match read.map(|read| read.value) {
            Ok(Value::Blank) => "blank".to_string(),
            Ok(Value::Number(value)) => decimal(value, " e"),
            Err(refused) => format!("refused {}", refused.number),
        };
        said.extend(format!("] {answer} digits {}\n", digits(read)).bytes());
    }
    same_lines("read_fields", &said);
}

/// The number of an answer, and the three beside 31.
fn numbers(refused: Option<&NoAnswer>) -> String {
    let number = refused.map_or(0, |refused| refused.number);
    let [refusal, record, column] =
        refused.and_then(|refused| refused.entry).map_or([0; 3], |entry| [entry.number, entry.record, entry.column]);
    format!("{number} {refusal} {record} {column}")
}

fn say_part(said: &mut Vec<u8>, entry: &[u8], answer: Result<Part, NoAnswer>) {
    let none = Part { offset: 0, length: 0, pointer: b' ' };
    let part = answer.as_ref().unwrap_or(&none);
    let Part { offset, length, pointer } = *part;
    said.extend(format!("{} {offset} {length} {pointer} [", numbers(answer.as_ref().err())).bytes());
    said.extend(&entry[offset..offset + length]);
    said.extend(b"]\n");
}

/// The number in the ten columns from a byte on.
fn asked(line: &[u8], at: usize) -> u32 {
    String::from_utf8_lossy(&line[at..at + 10]).trim().parse().expect("a number of ten columns")
}

/// The value and the count of its digits.
fn value_said(answer: Result<FieldRead, NoAnswer>) -> String {
    let value = match answer.map(|read| read.value) {
        Ok(Value::Number(value)) => format!("number {}", decimal(value, " ")),
        _ => "blank".to_string(),
    };
    format!("{value} {}", digits(answer))
}

fn say_value(said: &mut Vec<u8>, answer: Result<FieldRead, NoAnswer>) {
    said.extend(format!("{} {}\n", numbers(answer.as_ref().err()), value_said(answer)).bytes());
}

/// A walk: its answer, each value with its line and column, and twice that it is done.
fn say_walk(said: &mut Vec<u8>, entry: &[u8], subentry: u32, section: u32) {
    let begun = reference::walk(entry, subentry, section);
    said.extend(format!("{}\n", numbers(begun.as_ref().err())).bytes());
    // A walk that is refused is done at once.
    let mut walk = begun.unwrap_or_default();
    while let Some((line, column, read)) = reference::walk_next(entry, &mut walk) {
        said.extend(format!("{line} {column} {}\n", value_said(read)).bytes());
    }
    assert_eq!(reference::walk_next(entry, &mut walk), None);
    said.extend(b"done\ndone\n");
}

fn ask(said: &mut Vec<u8>, entry: &[u8], line: &[u8]) {
    let n = asked(line, 1);
    match line[0] {
        b'v' => say_value(said, reference::value(entry, n, asked(line, 11), asked(line, 21), asked(line, 31))),
        b'h' => say_part(said, entry, reference::heading(entry, n, asked(line, 11), asked(line, 21))),
        b'u' => say_part(said, entry, reference::unit(entry, n, asked(line, 11), asked(line, 21))),
        b'p' => say_part(said, entry, reference::passage(entry, n, &line[11..21], line[21])),
        b'w' => say_walk(said, entry, n, asked(line, 11)),
        other => panic!("a line that begins with {:?}", char::from(other)),
    }
}

#[test]
fn questions_are_answered_as_stored() {
    let (mut entry, mut said) = (Vec::new(), Vec::new());
    for line in stored("answers", "stdin").split(|&byte| byte == b'\n') {
        match line.first() {
            None | Some(b'#') => {}
            Some(b'!') => entry.clear(),
            Some(b'*') => entry.extend([&line[1..], b"\n"].concat()),
            Some(_) => ask(&mut said, &entry, line),
        }
    }
    same_lines("answers", &said);
}

/// Which of the three the value is, a double by its bits, and the count of digits.
fn double_said(read: Result<DoubleRead, NoAnswer>) -> String {
    let value = match read.map(|read| read.value) {
        Ok(Simple::Double(double)) => format!("double {:016x}", double.to_bits()),
        Ok(Simple::Outside(Decimal { negative, coefficient, power })) => {
            format!("decimal {} {coefficient} {power}", if negative { '-' } else { '+' })
        }
        Ok(Simple::Blank) | Err(_) => "blank".to_string(),
    };
    format!("{value} {}", read.map_or(0, |read| read.digits))
}

/// A field that is refused is its number alone, a question that is has a blank beside its numbers.
#[test]
fn doubles_are_given_as_stored() {
    let (mut entry, mut said) = (Vec::new(), String::new());
    for line in stored("double_cases", "stdin").split(|&byte| byte == b'\n') {
        match line.first() {
            None | Some(b'#') => {}
            Some(b'!') => entry.clear(),
            Some(b'*') => entry.extend([&line[1..], b"\n"].concat()),
            Some(b'f') => {
                let read = reference::read_double(&line[1..]);
                let field = read.map_or_else(|no| format!("{} 0", no.number), |_| double_said(read));
                writeln!(said, "{field}").expect("a string takes all");
            }
            Some(b'd') => {
                let [n, section, row, column] = [1, 11, 21, 31].map(|at| asked(line, at));
                let answer = reference::double(&entry, n, section, row, column);
                let beside = numbers(answer.as_ref().err());
                writeln!(said, "{beside} {}", double_said(answer)).expect("a string takes all");
            }
            Some(&other) => panic!("a line that begins with {:?}", char::from(other)),
        }
    }
    same_lines("double_cases", said.as_bytes());
}

/// Makes an index in so many numbers, and hands back its rows, none where it is refused.
fn make(said: &mut Vec<u8>, entry: &[u8], length: usize) -> Vec<u32> {
    let mut index = vec![7; length];
    let made = reference::make_index(entry, &mut index);
    let subentries = reference::judge(entry).numbers()[3];
    said.extend(format!("{} {subentries}", numbers(made.as_ref().err())).bytes());
    index.iter().for_each(|number| said.extend(format!(" {number}").bytes()));
    said.push(b'\n');
    index.truncate(made.map_or(0, |rows| 5 * rows));
    index
}

fn ask_by_index(said: &mut Vec<u8>, entry: &[u8], index: &[u32], line: &[u8]) {
    let n = asked(line, 1);
    let table = || (asked(line, 11), asked(line, 21));
    match line[0] {
        b'r' => {
            let found = reference::index_row(index, n);
            let number = found.as_ref().err().map_or(0, |refused| refused.number);
            let records = found.as_ref().map_or(&[0; 4][..], |before| &index[5 * before + 1..5 * before + 5]);
            said.extend(format!("{number} {}", found.as_ref().unwrap_or(&0)).bytes());
            records.iter().for_each(|record| said.extend(format!(" {record}").bytes()));
            said.push(b'\n');
        }
        b'v' => {
            let (section, row) = table();
            say_value(said, reference::index_value(entry, index, n, section, row, asked(line, 31)));
        }
        b'h' => {
            let (section, column) = table();
            say_part(said, entry, reference::index_heading(entry, index, n, section, column));
        }
        b'u' => {
            let (section, column) = table();
            say_part(said, entry, reference::index_unit(entry, index, n, section, column));
        }
        b'p' => say_part(said, entry, reference::index_passage(entry, index, n, &line[11..21], line[21])),
        other => panic!("a line that begins with {:?}", char::from(other)),
    }
}

/// The bytes behind the entry stay, so that a longer one has them again.
#[test]
fn questions_by_an_index_are_answered_as_stored() {
    let (mut bytes, mut used, mut index, mut said) = (Vec::new(), 0, Vec::new(), Vec::new());
    for line in stored("index_cases", "stdin").split(|&byte| byte == b'\n') {
        let number = |at: usize| asked(line, at) as usize;
        match line.first() {
            None | Some(b'#') => {}
            Some(b'!') => used = 0,
            Some(b'*') => {
                let past = bytes.len().min(used + RECORD);
                bytes.splice(used..past, [&line[1..], b"\n"].concat());
                used += RECORD;
            }
            Some(b'=') => {
                let at = number(1) * RECORD + number(11) - RECORD - 1;
                bytes[at..at + line.len() - 21].copy_from_slice(&line[21..]);
            }
            Some(b'<') => used = number(1),
            Some(b'm') => index = make(&mut said, &bytes[..used], number(1)),
            Some(b'i') => index = (1..line.len()).step_by(10).map(|at| asked(line, at)).collect(),
            Some(_) => ask_by_index(&mut said, &bytes[..used], &index, line),
        }
    }
    same_lines("index_cases", &said);
}

/// A copy into a buffer of stars: the answer, the buffer, and how many stars it still has.
fn copied(entry: &[u8], length: usize) -> (String, Vec<u8>, usize) {
    let mut out = vec![b'*'; length];
    let answer = reference::canonical_copy(entry, &mut out);
    let stars = out.iter().filter(|&&byte| byte == b'*').count();
    (numbers(answer.as_ref().err()), out, stars)
}

#[test]
fn entries_are_copied_as_stored() {
    let input = stored("copies", "stdin");
    let (sample, rest) = input.split_at(26 * RECORD);
    let (larger, rest) = rest.split_at(48 * RECORD);
    let (flags, refused) = rest.split_at(33 * RECORD);
    let mut said = Vec::new();
    for entry in [sample, larger, flags] {
        let n = entry.len();
        let (answer, out, _) = copied(entry, n);
        said.extend(format!("fits {answer}\n").bytes());
        said.extend(&out);
        let verdict = reference::judge(&out).numbers().map(|number| number.to_string()).join(" ");
        let (answer, again, _) = copied(&out, n);
        let same = if again == out { "the same" } else { "another" };
        let (short, _, left) = copied(entry, n - 1);
        let (long, _, more) = copied(entry, n + 10);
        let mut lines = String::new();
        writeln!(lines, "judged {verdict}\nagain {answer} {same}").expect("a string takes all");
        writeln!(lines, "short {short} stars {left}\nlong {long} stars {more}").expect("a string takes all");
        said.extend(lines.bytes());
    }
    for length in [26 * RECORD, 1] {
        let (answer, _, stars) = copied(refused, length);
        said.extend(format!("refused {answer} stars {stars}\n").bytes());
    }
    same_lines("copies", &said);
}

#[test]
fn changed_bytes_are_judged_as_stored() {
    let mut entry = stored("mutations", "stdin");
    let (mut counts, mut sum) = ([0; 18], 0_u64);
    let mut add = |entry: &[u8]| {
        let [refusal, record, column, ..] = reference::judge(entry).numbers();
        counts[refusal as usize] += 1;
        for number in [refusal, record, column] {
            sum = (sum * 65599 + u64::from(number)) % 4_294_967_291;
        }
    };
    for at in 0..entry.len() {
        let kept = entry[at];
        for other in *b" 09A.-#\n" {
            entry[at] = other;
            add(&entry);
        }
        entry[at] = kept;
    }
    (0..entry.len() / RECORD).rev().for_each(|records| add(&entry[..records * RECORD]));
    let mut said: String = counts.iter().enumerate().map(|(number, count)| format!("{number} {count}\n")).collect();
    writeln!(said, "checksum {sum}").expect("a string takes all");
    same_lines("mutations", said.as_bytes());
}

/// The columns of a record from a byte of a line on, blank up to 80, and a line feed.
fn record(line: &[u8], from: usize) -> Vec<u8> {
    let mut columns = line.get(from..).unwrap_or_default().to_vec();
    columns.resize(RECORD - 1, b' ');
    columns.push(b'\n');
    columns
}

/// The number in some bytes of a line.
fn numbered(line: &[u8], from: usize, past: usize) -> usize {
    String::from_utf8_lossy(&line[from..past]).parse().expect("digits")
}

/// What a line of `verdicts` changes in a case.
fn change(case: &mut Vec<u8>, line: &[u8]) {
    let start = |line: &[u8]| (numbered(line, 1, 6) - 1) * RECORD;
    let place = |line: &[u8]| start(line) + numbered(line, 7, 10) - 1;
    match line[0] {
        b'=' => {
            let text = line[11..].split(|&byte| byte == b'|').next().unwrap_or_default();
            let at = place(line);
            case[at..at + text.len()].copy_from_slice(text);
        }
        b'@' => {
            let at = place(line);
            case[at] = numbered(line, 11, 14) as u8;
        }
        b'-' => drop(case.drain(start(line)..start(line) + RECORD)),
        b'+' => drop(case.splice(start(line)..start(line), record(line, 7))),
        b'<' => case.resize(numbered(line, 1, 8), b'\n'),
        other => panic!("a line that begins with {:?}", char::from(other)),
    }
}

/// A case of a program's input: the kind of the line that ends it, what that line says, and the bytes.
type Case = (u8, Vec<u8>, Vec<u8>);

/// The cases in the input of a program.
fn all_cases(program: &str) -> Vec<Case> {
    let (mut whole, mut case, mut all) = (Vec::new(), Vec::new(), Vec::new());
    for line in stored(program, "stdin").split(|&byte| byte == b'\n') {
        match line.first() {
            None | Some(b'#') => {}
            Some(b'*') => {
                whole.extend(record(line, 1));
                case = whole.clone();
            }
            Some(b'&') => {
                let start = (numbered(line, 1, 6) - 1) * RECORD;
                drop(case.splice(start..start, whole.iter().copied()));
            }
            Some(&kind @ (b'!' | b'%')) => {
                all.push((kind, line[2..].to_vec(), case));
                case = whole.clone();
            }
            Some(_) => change(&mut case, line),
        }
    }
    all
}

/// What is said of each case in the input of a program: its title, and what follows from the kind and the case.
fn cases(program: &str, say: impl Fn(u8, &[u8]) -> String) -> Vec<u8> {
    let said = |(kind, title, case): Case| [&title[..], b":", say(kind, &case).as_bytes()].concat();
    all_cases(program).into_iter().flat_map(said).collect()
}

/// An entry (`!`) or a transmission (`%`) explained: its seven or eight numbers, each behind a blank, and its line.
fn case_explained(kind: u8, case: &[u8]) -> (String, Option<String>) {
    let (explained, ordinal) = match kind {
        b'!' => (reference::explain(case), None),
        _ => {
            let explained = reference::explain_file(case);
            (explained, Some(explained.verdict.ordinal()))
        }
    };
    let numbers = explained.verdict.numbers().into_iter().chain(ordinal);
    (numbers.map(|number| format!(" {number}")).collect(), explained.line())
}

#[test]
fn cases_are_judged_as_stored() {
    let said = cases("verdicts", |kind, case| case_explained(kind, case).0 + "\n");
    same_lines("verdicts", &said);
}

/// A line below the numbers where there is a reason.
fn below(line: Option<String>) -> String {
    line.map_or(String::new(), |line| line + "\n")
}

#[test]
fn cases_are_explained_as_stored() {
    let said = cases("reason_cases", |kind, case| {
        let (numbers, line) = case_explained(kind, case);
        format!("{numbers}\n{}", below(line))
    });
    same_lines("reason_cases", &said);
}

/// The program takes 809 records at the most; a longer input it refuses by 1.
#[test]
fn an_entry_is_explained_as_stored() {
    let entry = stored("why", "stdin");
    assert!(entry.len() <= 809 * RECORD);
    let (numbers, line) = case_explained(b'!', &entry);
    same_lines("why", format!("{}\n{}", numbers.trim_start(), below(line)).as_bytes());
}

/// The three numbers of an answer about lines.
fn place<T>(answer: &Result<T, LinesRefusal>) -> String {
    let [number, line, column] = answer.as_ref().err().map_or([0; 3], LinesRefusal::numbers);
    format!("{number} {line} {column}")
}

/// An energy and its digits; a blank has none.
fn energy(read: FieldRead) -> String {
    match read.value {
        Value::Blank => " blank 0".to_string(),
        Value::Number(value) => format!(" number {} {}", decimal(value, " "), read.digits),
    }
}

/// A line taken apart; a refused one is blanks and zeros.
fn apart(line: &Result<Line, LinesRefusal>) -> String {
    let Ok(line) = line else { return format!(" [{:7}] 0 0 0 0 0 mass 0 blank 0 blank 0", "") };
    let characters = [line.operation, line.isomer, line.area, line.work, line.reader, line.hierarchy, line.kind];
    let mass = match line.mass {
        Mass::Number(mass) => format!("mass {mass}"),
        Mass::Many => "many".to_string(),
    };
    let numbers = format!("{} {} {} {} {}", line.z, line.block, line.sequence, line.year, line.month);
    format!(
        " [{}] {numbers} {mass}{}{}",
        characters.map(char::from).iter().collect::<String>(),
        energy(line.least),
        energy(line.greatest)
    )
}

/// The number in some bytes of a title.
fn titled(title: &[u8], from: usize, past: usize) -> usize {
    String::from_utf8_lossy(&title[from..past]).parse().expect("a number")
}

/// Cases as title and bytes: so many bytes as the title says follow it, and a line feed. The bytes may be any.
fn titles(input: &[u8]) -> Vec<(&[u8], &[u8])> {
    let (mut all, mut rest) = (Vec::new(), input);
    while let Some(end) = rest.iter().position(|&byte| byte == b'\n') {
        let (title, behind) = (&rest[..end], &rest[end + 1..]);
        let passed_over = title[0] == b'#';
        let length = if passed_over { 0 } else { titled(title, 0, 4) };
        assert_eq!(behind[length], b'\n', "{}", String::from_utf8_lossy(title));
        if !passed_over {
            all.push((title, &behind[..length]));
        }
        rest = &behind[length + 1..];
    }
    assert_eq!(rest, b"", "bytes behind the last case");
    all
}

#[test]
fn lines_are_answered_as_stored() {
    let (input, mut said) = (stored("cinda_cases", "stdin"), Vec::new());
    for (title, lines) in titles(&input) {
        let n = titled(title, 5, 14) as u32;
        let (line, pieces) = (reference::cinda_line(lines, n), reference::cinda_pieces(lines, n));
        let nth = b"wrqict".iter().position(|&letter| letter == title[20]).expect("a part");
        let piece = pieces.map_or(Piece { offset: 0, length: 0 }, |pieces| pieces.all()[nth]);
        let mut buffer = vec![b'~'; titled(title, 15, 19)];
        let back = reference::cinda_back(lines, &mut buffer);
        said.extend(title);
        said.extend(
            format!("\ncheck {}\nline {}{}", place(&reference::cinda_check(lines)), place(&line), apart(&line)).bytes(),
        );
        said.extend(format!("\npart {} {} {} [", place(&pieces), piece.offset, piece.length).bytes());
        said.extend(piece.of(lines));
        said.extend(format!("]\nback {} [", place(&back)).bytes());
        said.extend(&buffer);
        said.extend(b"]\n");
    }
    same_lines("cinda_cases", &said);
}

/// A field of characters: where it begins, its length and what stands there.
fn say_field(said: &mut Vec<u8>, run: &[u8], field: Option<Place>) {
    let field = field.unwrap_or(Place { first: 0, length: 0 });
    said.extend(format!(" {} {} [", field.first, field.length).bytes());
    said.extend(field.of(run));
    said.push(b']');
}

/// A field that is a number, and its value.
fn say_number(said: &mut Vec<u8>, run: &[u8], number: Option<NumberRead>) {
    say_field(said, run, number.map(|number| number.place));
    let value = number.map_or(" blank".to_string(), |number| format!(" number {}", decimal(number.value, " ")));
    said.extend(value.bytes());
}

/// The fields before the groups; how many groups there are.
fn say_head(said: &mut Vec<u8>, run: &[u8]) -> usize {
    let answer = reference::decay_head(run);
    let [number, at] = answer.as_ref().err().map_or([0; 2], |no| [50, no.at]);
    let head = answer.ok();
    let half_life = head.and_then(|head| head.half_life);
    let groups = head.map_or(0, |head| head.groups);
    said.extend(format!("\nhead {number} {at}").bytes());
    say_field(said, run, head.and_then(|head| head.flag));
    for part in [|head: HeadRead| head.z, |head: HeadRead| head.symbol, |head: HeadRead| head.a] {
        say_field(said, run, head.map(part));
    }
    say_field(said, run, head.and_then(|head| head.isomer));
    say_number(said, run, half_life.map(|(number, _)| number));
    say_field(said, run, half_life.map(|(_, unit)| unit));
    said.extend(format!(" {groups}").bytes());
    groups
}

/// All fields of characters: groups, types and energies from 0 to one past the last.
fn say_fields(said: &mut Vec<u8>, run: &[u8]) {
    let groups = say_head(said, run);
    for k in 0..=groups as u32 + 1 {
        let none = GroupRead { types: 0, energies: 0, abundance: None };
        let GroupRead { types, energies, abundance } = reference::decay_group(run, k).unwrap_or(none);
        said.extend(format!("\ngroup {k} {types} {energies}").bytes());
        say_number(said, run, abundance);
        said.extend(b" types");
        (0..=types as u32 + 1).for_each(|i| say_field(said, run, reference::decay_type(run, k, i)));
        said.extend(b" energies");
        (0..=energies as u32 + 1).for_each(|i| say_number(said, run, reference::decay_energy(run, k, i)));
    }
}

/// A code of a passage, with the record by its index, and the fields of its run where it is answered.
fn say_code(said: &mut Vec<u8>, passage: &[u8], code: u32, mut buffer: Vec<u8>) {
    let answer = reference::decay_in(passage, code, &mut buffer);
    let [number, record, column] = answer.err().map_or([0; 3], |no| [no.number, no.record, no.column]);
    // The library's call names a record by its index, the host's counts from 1.
    let index = if matches!(number, 50 | 51) { record - 1 } else { record };
    said.extend(format!("\ncode {number} {index} {column} {} [", answer.unwrap_or(0)).bytes());
    said.extend(&buffer);
    said.push(b']');
    if let Ok(length) = answer {
        say_fields(said, &buffer[..length]);
    }
}

#[test]
fn codes_are_answered_as_stored() {
    let (input, mut said) = (stored("decay_cases", "stdin"), Vec::new());
    for (title, bytes) in titles(&input) {
        said.extend(title);
        match title[20] {
            b'c' => say_code(&mut said, bytes, titled(title, 5, 14) as u32, vec![b'~'; titled(title, 15, 19)]),
            b't' => say_fields(&mut said, bytes),
            other => panic!("a case of the kind {:?}", char::from(other)),
        }
        said.push(b'\n');
    }
    same_lines("decay_cases", &said);
}

/// The number of an answer about two entries, the three beside 60 and 63, and which entry is refused.
fn of_two<T>(answer: &Result<T, RevisionRefusal>) -> String {
    let Err(refused) = answer else { return "0 0 0 0 0".to_string() };
    let [refusal, record, column] = refused.refusal.map_or([0; 3], |entry| [entry.number, entry.record, entry.column]);
    let which = refused.which.map_or(0, |which| if which == Which::Held { 1 } else { 2 });
    format!("{} {refusal} {record} {column} {which}", refused.number)
}

fn checksum(bytes: &[u8]) -> u64 {
    bytes.iter().fold(0, |sum, &byte| (sum * 65599 + u64::from(byte)) % 4_294_967_291)
}

/// The part that is handed out; one of no bytes where it is refused.
fn say_subentry(said: &mut Vec<u8>, held: &[u8], revision: &[u8], n: u32) {
    let answer = reference::subentry(held, revision, n);
    let (second, first, part) = answer.map_or((0, 0, &[][..]), |found| {
        let part = &found.which.of(held, revision)[found.first..found.first + found.length];
        (u32::from(found.which == Which::Revision), found.first, part)
    });
    let length = answer.map_or(0, |found| found.length);
    let (place, part) = (format!("{second} {first} {length}"), format!("{} {}", part.len(), checksum(part)));
    said.extend(format!("subentry {n}: {} {place} {part}\n", of_two(&answer)).bytes());
}

/// The merge in a buffer of tildes, and where it is made its records of sequence 00001 or subentry 999.
fn say_merge(said: &mut Vec<u8>, held: &[u8], revision: &[u8], room: usize) {
    let mut buffer = vec![b'~'; room];
    let answer = reference::merge(held, revision, &mut buffer);
    let length = answer.unwrap_or_else(|refused| refused.length);
    let (merge, behind) = buffer.split_at(length);
    let kept = behind.iter().filter(|&&byte| byte == b'~').count();
    said.extend(format!("merge: {} {length} {} {kept}\n", of_two(&answer), checksum(merge)).bytes());
    if answer.is_ok() {
        let shown = |record: &&[u8]| &record[74..79] == b"00001" || &record[71..74] == b"999";
        merge.chunks(RECORD).filter(shown).for_each(|record| said.extend(record));
    }
}

/// A held entry ends with a title, its revision with the length of the buffer and the subentries to ask for.
#[test]
fn entries_are_merged_as_stored() {
    let mut said = Vec::new();
    for pair in all_cases("merges").chunks(2) {
        let [(b'!', title, held), (b'%', asked, revision)] = pair else { panic!("no held entry and revision") };
        said.extend([&title[..], b"\n"].concat());
        for n in asked[5..].chunks(10) {
            let number = numbered(n, 1, 10) as u32;
            let n = if n[0] == b'-' { u32::MAX - number } else { number };
            say_subentry(&mut said, held, revision, n);
        }
        say_merge(&mut said, held, revision, numbered(asked, 0, 5));
    }
    same_lines("merges", &said);
}

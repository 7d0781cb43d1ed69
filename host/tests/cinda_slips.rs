//! Slips in lines (M-113) planted on purpose, to see that the comparison of `differ` would find them.

mod common;

use common::SEED;
use glockenbeacon::cinda::{Line, LinesRefusal, Mass, Piece, Pieces, LINE};
use glockenbeacon::differ::{Implementation, Pair, Reference};
use glockenbeacon::reference::record::permitted;
use glockenbeacon::{reference, Decimal, FieldRead, Value};

/// How many strings of lines are asked about.
const LINES: u64 = 6_000;

/// Lines judged otherwise than they should be.
struct CheckSlip(fn(&[u8]) -> Result<(), LinesRefusal>);

impl Implementation for CheckSlip {
    fn cinda_check(&self, lines: &[u8]) -> Result<(), LinesRefusal> {
        (self.0)(lines)
    }
}

/// A line that is taken apart otherwise.
struct LineSlip(fn(&[u8], u32) -> Result<Line, LinesRefusal>);

impl Implementation for LineSlip {
    fn cinda_line(&self, lines: &[u8], line: u32) -> Result<Line, LinesRefusal> {
        (self.0)(lines, line)
    }
}

/// Parts that lie elsewhere.
struct PiecesSlip(fn(&[u8], u32) -> Result<Pieces, LinesRefusal>);

impl Implementation for PiecesSlip {
    fn cinda_pieces(&self, lines: &[u8], line: u32) -> Result<Pieces, LinesRefusal> {
        (self.0)(lines, line)
    }
}

/// Lines that are written back otherwise.
struct BackSlip(fn(&[u8], &mut [u8]) -> Result<(), LinesRefusal>);

impl Implementation for BackSlip {
    fn cinda_back(&self, lines: &[u8], buffer: &mut [u8]) -> Result<(), LinesRefusal> {
        (self.0)(lines, buffer)
    }
}

/// Each is found by the same lines, in what is said first.
fn found(slips: &[(&str, &dyn Implementation)], words: &str) {
    for (name, slip) in slips {
        let mut pair = Pair::new(*slip, &Reference);
        let outcome = pair.lines(SEED, LINES).and_then(|()| pair.line_limits());
        let said = outcome.expect_err(name).words;
        assert!(said.starts_with(words), "{name}: {said}");
    }
}

fn refusal(number: u32, line: u32, column: u32) -> Result<(), LinesRefusal> {
    Err(LinesRefusal { number, line, column })
}

/// The verdict on lines in which each one is changed first, where this leaves whole lines.
fn changed(lines: &[u8], change: impl Fn(&mut [u8])) -> Result<(), LinesRefusal> {
    let mut other = lines.to_vec();
    if lines.len() % LINE == 0 {
        other.chunks_exact_mut(LINE).for_each(change);
    }
    reference::cinda_check(&other)
}

/// Puts a text into some columns of a line where these hold what is told.
fn put(line: &mut [u8], first: usize, last: usize, told: impl Fn(&[u8]) -> bool, text: &[u8]) {
    if told(&line[first - 1..last]) {
        line[first - 1..last].copy_from_slice(text);
    }
}

/// The verdict, with another refusal where it is one of a number.
fn renamed(lines: &[u8], of: u32, change: impl Fn(LinesRefusal) -> LinesRefusal) -> Result<(), LinesRefusal> {
    reference::cinda_check(lines).map_err(|refusal| if refusal.number == of { change(refusal) } else { refusal })
}

/// Blanks in front, then at least one digit.
fn left_adjusted(field: &[u8]) -> bool {
    let text = String::from_utf8_lossy(field);
    let digits = text.trim_end();
    text.len() > digits.len() && !digits.is_empty() && digits.bytes().all(|byte| byte.is_ascii_digit())
}

fn all_blank(field: &[u8]) -> bool {
    field.iter().all(|&byte| byte == b' ')
}

/// Every line by itself, the faults of which the lowest comes first; the lines in the order that is told.
fn by_order(lines: &[u8], order: impl Fn(&LinesRefusal) -> [u32; 3]) -> Result<(), LinesRefusal> {
    reference::cinda_check(lines).map_err(|first| {
        if first.number == 70 {
            return first;
        }
        let alone = (1..).zip(lines.chunks_exact(LINE));
        let faults = alone.flat_map(|(line, bytes)| {
            let mut bytes = bytes.to_vec();
            // Mending a fault, which shows the next one of the same line; a few are enough.
            let mut met = Vec::new();
            while let (Err(fault), true) = (reference::cinda_check(&bytes), met.len() < 8) {
                met.push(LinesRefusal { line, ..fault });
                let good = MADE.as_bytes();
                let first = fault.column as usize - 1;
                let width = match fault.number {
                    71..=73 => 1,
                    74 if first == 7 => 1,
                    74 => 3,
                    75 if first == 33 => 4,
                    75 => 2,
                    76 => 7,
                    _ => 6,
                };
                bytes[first..first + width].copy_from_slice(&good[first..first + width]);
            }
            met
        });
        faults.min_by_key(order).expect("a fault")
    })
}

/// A good line, to mend others with.
const MADE: &str =
    "A 92235 N,F            CS  USAORLL198 1E   1.0+6    14.2JPR/C,49,2549          199405Name+ TBL                               \n";

#[test]
fn slips_in_lengths_and_order_are_found() {
    let slips: [(&str, &dyn Implementation); 12] = [
        ("no lines are good", &CheckSlip(|l| if l.is_empty() { Ok(()) } else { reference::cinda_check(l) })),
        (
            "a rest behind the last line is passed over",
            &CheckSlip(|l| match l.len() % LINE {
                0 => reference::cinda_check(l),
                rest => reference::cinda_check(&l[..l.len() - rest]),
            }),
        ),
        (
            "a last line without its line feed is whole",
            &CheckSlip(|l| match l.len() % LINE {
                125 => reference::cinda_check(&[l, b"\n"].concat()),
                _ => reference::cinda_check(l),
            }),
        ),
        (
            "20,001 lines",
            &CheckSlip(|l| match l.len() == 20_001 * LINE {
                true => reference::cinda_check(&l[..20_000 * LINE]),
                false => reference::cinda_check(l),
            }),
        ),
        (
            "19,999 lines",
            &CheckSlip(|l| match l.len() == 20_000 * LINE {
                true => refusal(70, 0, 0),
                false => reference::cinda_check(l),
            }),
        ),
        (
            "lines are judged before the length",
            &CheckSlip(|l| {
                let whole = &l[..l.len() / LINE * LINE];
                match reference::cinda_check(&whole[..whole.len().min(20_000 * LINE)]) {
                    Err(refused) if refused.number != 70 => Err(refused),
                    _ => reference::cinda_check(l),
                }
            }),
        ),
        (
            "the first line alone",
            &CheckSlip(|l| reference::cinda_check(if l.len() % LINE == 0 { &l[..l.len().min(LINE)] } else { l })),
        ),
        (
            "the last line is not judged",
            &CheckSlip(|l| match reference::cinda_check(l) {
                Err(refused) if refused.line as usize * LINE == l.len() => Ok(()),
                verdict => verdict,
            }),
        ),
        (
            "lines from 0",
            &CheckSlip(|l| reference::cinda_check(l).map_err(|r| LinesRefusal { line: r.line.max(1) - 1, ..r })),
        ),
        ("the lowest number of all lines", &CheckSlip(|l| by_order(l, |r| [r.number, r.line, r.column]))),
        ("the leftmost column first", &CheckSlip(|l| by_order(l, |r| [r.line, r.column, r.number]))),
        ("the last column first", &CheckSlip(|l| by_order(l, |r| [r.line, r.number, 126 - r.column]))),
    ];
    found(&slips, "cinda_check");
}

#[test]
fn slips_in_the_rules_are_found() {
    let slips: [(&str, &dyn Implementation); 30] = [
        ("a carriage return ends a line", &CheckSlip(|l| changed(l, |l| put(l, 126, 126, |b| b == b"\r", b"\n")))),
        ("71 in column 125", &CheckSlip(|l| renamed(l, 71, |r| LinesRefusal { column: 125, ..r }))),
        (
            "any printable character",
            &CheckSlip(|l| {
                changed(l, |l| {
                    for byte in &mut l[..125] {
                        if byte.is_ascii_graphic() && !permitted(*byte) {
                            *byte = b'.';
                        }
                    }
                })
            }),
        ),
        (
            "a tab is a blank",
            &CheckSlip(|l| changed(l, |l| l.iter_mut().filter(|byte| **byte == b'\t').for_each(|byte| *byte = b' '))),
        ),
        ("characters up to column 124", &CheckSlip(|l| changed(l, |l| put(l, 125, 125, |b| !permitted(b[0]), b" ")))),
        ("the operation B", &CheckSlip(|l| changed(l, |l| put(l, 1, 1, |b| b == b"B", b"A")))),
        (
            "small letters as operations",
            &CheckSlip(|l| changed(l, |l| put(l, 1, 1, |b| b == b"a" || b == b"d" || b == b"m", b"A"))),
        ),
        ("a blank operation", &CheckSlip(|l| changed(l, |l| put(l, 1, 1, |b| b == b" ", b"A")))),
        ("Z left-adjusted", &CheckSlip(|l| changed(l, |l| put(l, 2, 4, left_adjusted, b"  1")))),
        ("Z blank", &CheckSlip(|l| changed(l, |l| put(l, 2, 4, all_blank, b"  1")))),
        ("A left-adjusted", &CheckSlip(|l| changed(l, |l| put(l, 5, 7, left_adjusted, b"  1")))),
        ("A blank", &CheckSlip(|l| changed(l, |l| put(l, 5, 7, all_blank, b"  1")))),
        (
            "compounds",
            &CheckSlip(|l| changed(l, |l| put(l, 5, 7, |b| b == b"CMP" || b == b"H2O" || b == b"FPR", b"  1"))),
        ),
        ("any Z beside MNY", &CheckSlip(|l| changed(l, |l| put(l, 5, 7, |b| b == b"MNY", b"  1")))),
        (
            "an integer A beside 999 is refused",
            &CheckSlip(|l| {
                changed(l, |l| {
                    let integer = l[4..7].iter().any(u8::is_ascii_digit);
                    put(l, 2, 4, |b| b == b"999" && integer, b"99 ");
                })
            }),
        ),
        (
            "two columns of 999",
            &CheckSlip(|l| changed(l, |l| put(l, 2, 7, |b| b == b"099MNY" || b == b" 99MNY", b"999MNY"))),
        ),
        ("74 always in column 2", &CheckSlip(|l| renamed(l, 74, |r| LinesRefusal { column: 2, ..r }))),
        ("the isomer M", &CheckSlip(|l| changed(l, |l| put(l, 8, 8, |b| b == b"M" || b == b"G", b"1")))),
        ("no isomer 0", &CheckSlip(|l| changed(l, |l| put(l, 8, 8, |b| b == b"0", b"M")))),
        ("a blank block", &CheckSlip(|l| changed(l, |l| put(l, 34, 37, all_blank, b"L  1")))),
        (
            "an area alone",
            &CheckSlip(|l| {
                changed(l, |l| put(l, 34, 37, |b| b[0].is_ascii_uppercase() && all_blank(&b[1..]), b"L  1"))
            }),
        ),
        ("a small letter as area", &CheckSlip(|l| changed(l, |l| put(l, 34, 34, |b| b[0].is_ascii_lowercase(), b"L")))),
        ("no digit as area", &CheckSlip(|l| changed(l, |l| put(l, 34, 34, |b| b[0].is_ascii_digit(), b" ")))),
        ("75 always in column 34", &CheckSlip(|l| renamed(l, 75, |r| LinesRefusal { column: 34, ..r }))),
        ("a blank sequence", &CheckSlip(|l| changed(l, |l| put(l, 38, 39, all_blank, b" 1")))),
        ("no energy code is refused", &CheckSlip(|l| changed(l, |l| put(l, 42, 48, |b| b == b"NDG    ", b"       ")))),
        (
            "an exponent before the last column",
            &CheckSlip(|l| {
                changed(l, |l| {
                    for first in [42, 49] {
                        put(l, first, first + 6, |b| b == b"1.0+6  ", b"  1.0+6");
                    }
                })
            }),
        ),
        ("76 always in column 42", &CheckSlip(|l| renamed(l, 76, |r| LinesRefusal { column: 42, ..r }))),
        ("month 13", &CheckSlip(|l| changed(l, |l| put(l, 84, 85, |b| b == b"13", b"12")))),
        ("month 00", &CheckSlip(|l| changed(l, |l| put(l, 84, 85, |b| b == b"00", b"12")))),
    ];
    found(&slips, "cinda_check");
    let slips: [(&str, &dyn Implementation); 4] = [
        ("a blank date", &CheckSlip(|l| changed(l, |l| put(l, 80, 85, all_blank, b"199401")))),
        ("no month", &CheckSlip(|l| changed(l, |l| put(l, 80, 85, |b| b == b"1994  ", b"199401")))),
        ("12 is no month", &CheckSlip(|l| changed(l, |l| put(l, 84, 85, |b| b == b"12", b"13")))),
        ("77 in column 84", &CheckSlip(|l| renamed(l, 77, |r| LinesRefusal { column: 84, ..r }))),
    ];
    found(&slips, "cinda_check");
}

/// The digits that the value has.
fn of_value(read: FieldRead) -> FieldRead {
    match read.value {
        Value::Number(decimal) if decimal.coefficient > 0 => {
            FieldRead { digits: decimal.coefficient.to_string().len() as u32, ..read }
        }
        _ => FieldRead { digits: 0, ..read },
    }
}

/// The line, with something changed in it.
fn taken(lines: &[u8], line: u32, change: impl Fn(Line) -> Line) -> Result<Line, LinesRefusal> {
    reference::cinda_line(lines, line).map(change)
}

#[test]
fn slips_in_lines_taken_apart_are_found() {
    let slips: [(&str, &dyn Implementation); 14] = [
        ("lines from 0", &LineSlip(|l, n| reference::cinda_line(l, n.wrapping_add(1)))),
        (
            "34 before 70 to 77",
            &LineSlip(|l, n| match n as usize > l.len() / LINE {
                true => Err(LinesRefusal { number: 34, line: 0, column: 0 }),
                false => reference::cinda_line(l, n),
            }),
        ),
        (
            "34 with the line",
            &LineSlip(|l, n| {
                reference::cinda_line(l, n).map_err(|r| if r.number == 34 { LinesRefusal { line: n, ..r } } else { r })
            }),
        ),
        (
            "only the asked line is judged",
            &LineSlip(|l, n| {
                let before = LINE * (n.max(1) as usize - 1);
                match l.get(before..before.saturating_add(LINE)).filter(|_| n > 0 && l.len() % LINE == 0) {
                    Some(line) => reference::cinda_line(line, 1).map_err(|r| LinesRefusal { line: n, ..r }),
                    None => reference::cinda_line(l, n),
                }
            }),
        ),
        ("line 0 is the first", &LineSlip(|l, n| reference::cinda_line(l, n.max(1)))),
        (
            "the last line for those behind it",
            &LineSlip(|l, n| reference::cinda_line(l, n.min((l.len() / LINE) as u32))),
        ),
        (
            "999 as A of many",
            &LineSlip(|l, n| {
                taken(l, n, |line| match line.mass {
                    Mass::Many => Line { mass: Mass::Number(999), ..line },
                    _ => line,
                })
            }),
        ),
        (
            "A and Z exchanged",
            &LineSlip(|l, n| {
                taken(l, n, |line| match line.mass {
                    Mass::Number(a) => Line { mass: Mass::Number(line.z), z: a, ..line },
                    Mass::Many => line,
                })
            }),
        ),
        (
            "block with its area",
            &LineSlip(|l, n| {
                taken(l, n, |line| match line.area {
                    area @ b'1'..=b'9' => Line { block: 1000 * u32::from(area - b'0') + line.block, ..line },
                    _ => line,
                })
            }),
        ),
        (
            "energies exchanged",
            &LineSlip(|l, n| taken(l, n, |line| Line { least: line.greatest, greatest: line.least, ..line })),
        ),
        (
            "a blank energy is zero",
            &LineSlip(|l, n| {
                taken(l, n, |line| match line.least.value {
                    Value::Blank => {
                        Line { least: FieldRead { value: Value::Number(Decimal::ZERO), digits: 0 }, ..line }
                    }
                    _ => line,
                })
            }),
        ),
        ("digits of the value", &LineSlip(|l, n| taken(l, n, |line| Line { least: of_value(line.least), ..line }))),
        (
            "work type and reader exchanged",
            &LineSlip(|l, n| taken(l, n, |line| Line { work: line.reader, reader: line.work, ..line })),
        ),
        (
            "year and month exchanged",
            &LineSlip(|l, n| taken(l, n, |line| Line { year: line.month, month: line.year, ..line })),
        ),
    ];
    found(&slips, "cinda_line");
}

#[test]
fn slips_in_parts_are_found() {
    let slips: [(&str, &dyn Implementation); 5] = [
        (
            "counted from the line",
            &PiecesSlip(|l, n| reference::cinda_pieces(l, n).and_then(|_| reference::cinda_pieces(l, 1))),
        ),
        (
            "from byte 1",
            &PiecesSlip(|l, n| {
                reference::cinda_pieces(l, n).map(|p| {
                    let reaction = Piece { offset: p.reaction.offset + 1, ..p.reaction };
                    Pieces { reaction, ..p }
                })
            }),
        ),
        (
            "the line without its line feed",
            &PiecesSlip(|l, n| {
                reference::cinda_pieces(l, n).map(|p| {
                    let whole = Piece { length: 125, ..p.whole };
                    Pieces { whole, ..p }
                })
            }),
        ),
        (
            "a comment of 39 columns",
            &PiecesSlip(|l, n| {
                reference::cinda_pieces(l, n).map(|p| {
                    let comment = Piece { length: 39, ..p.comment };
                    Pieces { comment, ..p }
                })
            }),
        ),
        (
            "quantity and institute exchanged",
            &PiecesSlip(|l, n| {
                reference::cinda_pieces(l, n).map(|p| Pieces { quantity: p.institute, institute: p.quantity, ..p })
            }),
        ),
    ];
    found(&slips, "cinda_pieces");
}

/// The true copy, and another text in one of its energies.
fn copied(lines: &[u8], out: &mut [u8], change: impl Fn(&[u8], &mut [u8])) -> Result<(), LinesRefusal> {
    reference::cinda_back(lines, out)?;
    for (old, new) in lines.chunks(LINE).zip(out.chunks_mut(LINE)) {
        for first in [41, 48] {
            change(&old[first..first + 7], &mut new[first..first + 7]);
        }
    }
    Ok(())
}

#[test]
fn slips_in_writing_back_are_found() {
    let slips: [(&str, &dyn Implementation); 12] = [
        ("a plain copy", &BackSlip(|l, out| copied(l, out, |old, new| new.copy_from_slice(old)))),
        (
            "the greatest energy as it was",
            &BackSlip(|l, out| {
                reference::cinda_back(l, out)?;
                for (old, new) in l.chunks(LINE).zip(out.chunks_mut(LINE)) {
                    new[48..55].copy_from_slice(&old[48..55]);
                }
                Ok(())
            }),
        ),
        (
            "only the first line",
            &BackSlip(|l, out| {
                reference::cinda_back(l, out)?;
                out[LINE..l.len()].copy_from_slice(&l[LINE..]);
                Ok(())
            }),
        ),
        (
            "left-adjusted",
            &BackSlip(|l, out| {
                copied(l, out, |_, new| {
                    let blanks = new.iter().take_while(|&&byte| byte == b' ').count();
                    new.rotate_left(blanks % 7);
                })
            }),
        ),
        (
            "a blank becomes zero",
            &BackSlip(|l, out| {
                copied(l, out, |_, new| {
                    if all_blank(new) {
                        new.copy_from_slice(b"     0.");
                    }
                })
            }),
        ),
        (
            "a zero before the point",
            &BackSlip(|l, out| {
                copied(l, out, |old, new| {
                    let wide = [b"    ", old].concat();
                    let Ok(FieldRead { value: Value::Number(decimal), .. }) = reference::read_number(&wide) else {
                        return;
                    };
                    let text = decimal.to_string();
                    if text.len() <= 7 && text.contains('.') {
                        new.copy_from_slice(format!("{text:>7}").as_bytes());
                    }
                })
            }),
        ),
        (
            "a sign of plus kept",
            &BackSlip(|l, out| {
                copied(l, out, |old, new| {
                    if old.first() == Some(&b'+') && new[0] == b' ' {
                        new[0] = b'+';
                    }
                })
            }),
        ),
        (
            "a buffer of the same length is too short",
            &BackSlip(|l, out| match out.len() == l.len() {
                true => reference::cinda_back(l, out).and(refusal(37, 0, 0)),
                false => reference::cinda_back(l, out),
            }),
        ),
        (
            "37 before 70 to 77",
            &BackSlip(|l, out| if out.len() < l.len() { refusal(37, 0, 0) } else { reference::cinda_back(l, out) }),
        ),
        (
            "blanks behind the lines",
            &BackSlip(|l, out| {
                reference::cinda_back(l, out)?;
                out[l.len()..].fill(b' ');
                Ok(())
            }),
        ),
        (
            "a refused call stores the lines",
            &BackSlip(|l, out| {
                let answer = reference::cinda_back(l, out);
                if answer.is_err() && out.len() >= l.len() {
                    out[..l.len()].copy_from_slice(l);
                }
                answer
            }),
        ),
        (
            "what fits is stored with 37",
            &BackSlip(|l, out| {
                let answer = reference::cinda_back(l, out);
                if matches!(answer, Err(refused) if refused.number == 37) {
                    let room = out.len();
                    out.copy_from_slice(&l[..room]);
                }
                answer
            }),
        ),
    ];
    found(&slips, "cinda_back");
}

//! Lines in the CINDA2001 layout (M-113): what the papers say of them, by the library and the reference, and the same from C
//! and from Fortran.

mod common;

use common::{compiled, say, value_said, BOTH, C, SEED};
use glockenbeacon::cinda::{check, Line, Lines, LinesRefusal, Mass, Piece, Pieces, LINE, MOST_LINES};
use glockenbeacon::differ::{Implementation, Library, Pair, Reference};
use glockenbeacon::generate::{self, Random};
use glockenbeacon::{library, reference, words, Decimal, FieldRead, Value};
use std::path::Path;
use std::process::Command;

/// The made line of the request's page.
const MADE: &str =
    "A 92235 N,F            CS  USAORLL198 1E   1.0+6    14.2JPR/C,49,2549          199405Name+ TBL                               \n";

/// Columns, and what stands there from each on.
type Changes<'c> = &'c [(usize, &'c str)];

/// The made line with these changes.
fn made(changes: Changes) -> Vec<u8> {
    let mut line = MADE.as_bytes().to_vec();
    assert_eq!(line.len(), LINE);
    for (column, text) in changes {
        line[column - 1..column - 1 + text.len()].copy_from_slice(text.as_bytes());
    }
    line
}

/// The three numbers of a verdict.
fn told(answer: Result<(), LinesRefusal>) -> [u32; 3] {
    answer.err().map_or([0; 3], |refusal| refusal.numbers())
}

fn checked(by: &dyn Implementation, lines: &[u8]) -> [u32; 3] {
    told(by.cinda_check(lines))
}

fn back(by: &dyn Implementation, lines: &[u8]) -> Vec<u8> {
    let mut out = vec![b'#'; lines.len()];
    assert_eq!(by.cinda_back(lines, &mut out), Ok(()));
    out
}

/// Every outcome that the readings of the request name, and those on the other side of each.
#[test]
fn lines_are_judged_as_the_papers_say() {
    let cases: &[(Changes, [u32; 3])] = &[
        (&[], [0, 0, 0]),
        // operation
        (&[(1, "D")], [0, 0, 0]),
        (&[(1, "M")], [0, 0, 0]),
        (&[(1, "B")], [73, 1, 1]),
        (&[(1, " ")], [73, 1, 1]),
        (&[(1, "a")], [73, 1, 1]),
        (&[(1, "B   ")], [73, 1, 1]),
        // target: integers, right-adjusted; zeros in front
        (&[(2, "92 ")], [74, 1, 2]),
        (&[(2, "   ")], [74, 1, 2]),
        (&[(2, "9 2")], [74, 1, 2]),
        (&[(2, "-92")], [74, 1, 2]),
        (&[(2, "9.2")], [74, 1, 2]),
        (&[(2, "007")], [0, 0, 0]),
        (&[(2, "  0")], [0, 0, 0]),
        (&[(2, "999")], [0, 0, 0]),
        (&[(5, "   ")], [74, 1, 5]),
        (&[(5, "CMP")], [74, 1, 5]),
        (&[(5, "H2O")], [74, 1, 5]),
        (&[(5, "23 ")], [74, 1, 5]),
        (&[(5, "  0")], [0, 0, 0]),
        (&[(5, "000")], [0, 0, 0]),
        (&[(2, "92 "), (5, "CMP")], [74, 1, 2]),
        // many nuclei
        (&[(2, "999MNY")], [0, 0, 0]),
        (&[(2, " 99MNY")], [74, 1, 2]),
        (&[(5, "MNY")], [74, 1, 2]),
        (&[(2, "998MNY")], [74, 1, 2]),
        (&[(2, "   MNY")], [74, 1, 2]),
        (&[(2, "MNYMNY")], [74, 1, 2]),
        (&[(2, "999FPR")], [74, 1, 5]),
        (&[(2, "999mny")], [74, 1, 5]),
        (&[(2, "999MN ")], [74, 1, 5]),
        (&[(2, "999 MN")], [74, 1, 5]),
        // isomer
        (&[(8, "M")], [74, 1, 8]),
        (&[(8, "1")], [0, 0, 0]),
        (&[(8, "0")], [0, 0, 0]),
        (&[(8, "9")], [0, 0, 0]),
        (&[(8, "+")], [74, 1, 8]),
        (&[(2, "999MNYG")], [74, 1, 8]),
        // block and sequence
        (&[(34, "    ")], [75, 1, 34]),
        (&[(34, "L   ")], [75, 1, 34]),
        (&[(34, "l198")], [75, 1, 34]),
        (&[(34, " 198")], [75, 1, 34]),
        (&[(34, "+198")], [75, 1, 34]),
        (&[(34, "L19 ")], [75, 1, 34]),
        (&[(34, "L1 9")], [75, 1, 34]),
        (&[(34, "LL98")], [75, 1, 34]),
        (&[(34, "1 99")], [0, 0, 0]),
        (&[(34, "Z  0")], [0, 0, 0]),
        (&[(34, "9999")], [0, 0, 0]),
        (&[(38, "1 ")], [75, 1, 38]),
        (&[(38, "  ")], [75, 1, 38]),
        (&[(38, "-1")], [75, 1, 38]),
        (&[(38, "00")], [0, 0, 0]),
        (&[(38, "99")], [0, 0, 0]),
        (&[(34, "L   1 ")], [75, 1, 34]),
        // energies; no order between the two
        (&[(42, "    NDG")], [76, 1, 42]),
        (&[(42, "MAXW   ")], [76, 1, 42]),
        (&[(42, "     +6")], [76, 1, 42]),
        (&[(42, "1.0+6  ")], [76, 1, 42]),
        (&[(42, "     14")], [76, 1, 42]),
        (&[(42, "   .   ")], [76, 1, 42]),
        (&[(42, "  1.0+ ")], [76, 1, 42]),
        (&[(42, "1.0 +6 ")], [76, 1, 42]),
        (&[(42, "1.0E+ 6")], [76, 1, 42]),
        (&[(42, "1.0D+06")], [76, 1, 42]),
        (&[(42, "14.    ")], [0, 0, 0]),
        (&[(42, "       ")], [0, 0, 0]),
        (&[(42, "              ")], [0, 0, 0]),
        (&[(49, "       ")], [0, 0, 0]),
        (&[(42, "  1.+20     1.")], [0, 0, 0]),
        (&[(49, "NDG    ")], [76, 1, 49]),
        (&[(42, "NDG    NDG    ")], [76, 1, 42]),
        (&[(49, "14.+6  ")], [76, 1, 49]),
        // the hierarchy and the texts are characters alone
        (&[(56, "A")], [0, 0, 0]),
        (&[(9, "               "), (24, "    "), (28, "      "), (40, "  "), (56, "  ")], [0, 0, 0]),
        (&[(58, "                      "), (86, "                                        ")], [0, 0, 0]),
        (&[(9, "+-.)(*/=',%<>:;"), (24, "!?&z")], [0, 0, 0]),
        // date
        (&[(80, "      ")], [77, 1, 80]),
        (&[(80, "1994  ")], [77, 1, 80]),
        (&[(80, "199413")], [77, 1, 80]),
        (&[(80, "199400")], [77, 1, 80]),
        (&[(80, " 99405")], [77, 1, 80]),
        (&[(80, "1994 5")], [77, 1, 80]),
        (&[(80, "199401")], [0, 0, 0]),
        (&[(80, "199412")], [0, 0, 0]),
        (&[(80, "000012")], [0, 0, 0]),
        (&[(80, "999910")], [0, 0, 0]),
        // characters and the line's end
        (&[(86, "#")], [72, 1, 86]),
        (&[(1, "B"), (86, "#")], [72, 1, 86]),
        (&[(1, "#"), (86, "#")], [72, 1, 1]),
        (&[(125, "\t")], [72, 1, 125]),
        (&[(60, "\n")], [72, 1, 60]),
        (&[(126, "\r")], [71, 1, 126]),
        (&[(126, " ")], [71, 1, 126]),
        (&[(1, "#"), (126, "\r")], [71, 1, 126]),
        // the lowest number comes first
        (&[(1, "B"), (80, "      ")], [73, 1, 1]),
        (&[(2, "   "), (34, "    "), (42, "NDG    "), (80, "      ")], [74, 1, 2]),
        (&[(34, "    "), (42, "NDG    "), (80, "      ")], [75, 1, 34]),
        (&[(42, "NDG    "), (80, "      ")], [76, 1, 42]),
        (&[(5, "   "), (8, "M")], [74, 1, 5]),
    ];
    let good = made(&[]);
    for (changes, due) in cases {
        let line = made(changes);
        for by in BOTH {
            assert_eq!(checked(by, &line), *due, "{changes:?}");
            // behind a good line it is the second, whatever stands below
            let [number, line_number, column] = *due;
            let later = [number, if number == 0 { 0 } else { line_number + 1 }, column];
            assert_eq!(checked(by, &[&good[..], &line].concat()), later, "{changes:?}");
            let below = [&good[..], &line, &made(&[(126, "\r")])].concat();
            let due = if number == 0 { [71, 3, 126] } else { later };
            assert_eq!(checked(by, &below), due, "{changes:?}");
        }
    }
    say(&format!("{} lines, alone, behind a good one, and with one below", cases.len()));
}

/// The header record of an exchange file is no line.
#[test]
fn a_header_is_refused() {
    let header = format!("{:125}\n", "CINDA EXCHANGE     L001   20010501          1");
    for by in BOTH {
        assert_eq!(checked(by, header.as_bytes()), [73, 1, 1]);
    }
}

/// 70, on both sides of each limit, before all else.
#[test]
fn lengths_are_judged_first() {
    let line = made(&[]);
    let five = line.repeat(5);
    for length in 0..=five.len() {
        let due = if length == 0 || length % LINE != 0 { [70, 0, 0] } else { [0; 3] };
        for by in BOTH {
            assert_eq!(checked(by, &five[..length]), due, "{length} bytes");
            assert_eq!(told(by.cinda_line(&five[..length], 0).map(drop))[0], if due[0] == 70 { 70 } else { 34 });
        }
    }
    for by in BOTH {
        let most = line.repeat(MOST_LINES);
        assert_eq!((checked(by, &most), most.len()), ([0; 3], 2_520_000));
        assert_eq!(checked(by, &most[1..]), [70, 0, 0]);
        let more = line.repeat(MOST_LINES + 1);
        assert_eq!(checked(by, &more), [70, 0, 0]);
        assert_eq!(checked(by, &more[..more.len() - 1]), [70, 0, 0]);
        let wrong = [&most[..most.len() - LINE], &made(&[(80, "199413")])].concat();
        assert_eq!(checked(by, &wrong), [77, 20_000, 80]);
        let twice = [&made(&[(1, "B")]), &wrong[LINE..]].concat();
        assert_eq!(checked(by, &twice), [73, 1, 1]);
        assert_eq!(told(by.cinda_line(&most, 20_000).map(drop)), [0; 3]);
        assert_eq!(told(by.cinda_line(&most, 20_001).map(drop)), [34, 0, 0]);
        assert_eq!(by.cinda_pieces(&most, 20_000).unwrap().comment, Piece { offset: 2_519_874 + 85, length: 40 });
        let mut out = vec![b'#'; most.len() + 1];
        assert_eq!(by.cinda_back(&most, &mut out), Ok(()));
        let copy = made(&[(42, "   1.+6")]);
        assert!(out[..most.len()].chunks(LINE).all(|line| line == copy) && out.ends_with(b"#"));
    }
}

/// All 256 values in each place of the sample's lines: the verdict, the line and the copy.
#[test]
fn every_byte_of_the_sample() {
    let mut pair = Pair::new(&Library, &Reference);
    let every: Vec<u8> = (0..=255).collect();
    pair.line_bytes(include_bytes!("../data/sample.cinda"), &every).unwrap_or_else(|found| panic!("{found}"));
    let counts = pair.counts;
    assert!([0, 71, 72, 73, 74, 75, 76, 77].iter().all(|&number| counts.lines.of(number) > 0), "{counts}");
    assert_eq!(counts.lines.of(70), 0);
}

/// Generated lines, and those at the limits.
#[test]
fn the_library_and_the_reference_agree_on_lines() {
    let mut pair = Pair::new(&Library, &Reference);
    let outcome = pair.line_limits().and_then(|()| pair.lines(SEED, 10_000));
    outcome.unwrap_or_else(|difference| panic!("{difference}"));
    let counts = pair.counts;
    for number in [0, 70, 71, 72, 73, 74, 75, 76, 77] {
        assert!(counts.lines.of(number) >= 200, "every verdict occurs:\n{counts}");
        assert!(counts.lines_apart.of(number) >= 1_000 && counts.lines_back.of(number) >= 200, "{counts}");
    }
    assert!(counts.lines_apart.of(34) >= 1_000 && counts.lines_back.of(37) >= 200, "{counts}");
    for (cause, number) in generate::CINDA_CAUSES {
        assert!(counts.lines.of(number) > 0, "{cause}");
    }
}

fn number(negative: bool, coefficient: u64, power: i32, digits: u32) -> FieldRead {
    FieldRead { value: Value::Number(Decimal { negative, coefficient, power }), digits }
}

/// The fields of the five lines of the sample.
#[test]
fn the_sample_is_taken_apart() {
    let sample = include_bytes!("../data/sample.cinda");
    let first = Line {
        operation: b'A',
        z: 92,
        mass: Mass::Number(235),
        isomer: b' ',
        area: b'L',
        block: 198,
        sequence: 1,
        work: b'E',
        reader: b' ',
        least: number(false, 1, 6, 2),
        greatest: number(false, 14, 0, 2),
        hierarchy: b'2',
        kind: b'J',
        year: 1994,
        month: 5,
    };
    let (million, blank) = (number(false, 14, 6, 2), FieldRead::BLANK);
    let due = [
        first,
        Line {
            mass: Mass::Number(238),
            block: 1,
            sequence: 2,
            reader: b'R',
            least: number(false, 25, -3, 2),
            greatest: number(false, 14, 6, 3),
            hierarchy: b'1',
            year: 1964,
            month: 11,
            ..first
        },
        Line {
            operation: b'M',
            z: 26,
            mass: Mass::Number(0),
            area: b'3',
            block: 7,
            sequence: 12,
            work: b'T',
            least: blank,
            greatest: million,
            hierarchy: b'3',
            kind: b'R',
            year: 1970,
            month: 12,
            ..first
        },
        Line {
            operation: b'D',
            z: 999,
            mass: Mass::Many,
            area: b'V',
            block: 123,
            sequence: 99,
            work: b'R',
            reader: b'A',
            least: number(false, 1, 3, 4),
            greatest: number(false, 1, 100, 1),
            hierarchy: b'5',
            kind: b'C',
            year: 1970,
            month: 6,
            ..first
        },
        Line {
            z: 95,
            mass: Mass::Number(242),
            isomer: b'1',
            area: b'2',
            block: 9,
            least: number(false, 0, 0, 0),
            greatest: blank,
            hierarchy: b'6',
            kind: b'4',
            year: 1981,
            month: 1,
            ..first
        },
    ];
    for by in BOTH {
        for (line, due) in (1..).zip(due) {
            assert_eq!(by.cinda_line(sample, line), Ok(due), "line {line}");
            let pieces = by.cinda_pieces(sample, line).unwrap();
            let before = LINE * (line as usize - 1);
            let places = [(0, LINE), (8, 15), (23, 4), (27, 6), (57, 22), (85, 40)];
            assert_eq!(pieces.all(), places.map(|(first, length)| Piece { offset: before + first, length }));
        }
        for line in [0, 6, 7, 127, 20_000, 20_001, 1 << 16, 1 << 24, 1 << 31, u32::MAX] {
            assert_eq!(told(by.cinda_line(sample, line).map(drop)), [34, 0, 0], "line {line}");
            assert_eq!(told(by.cinda_pieces(sample, line).map(drop)), [34, 0, 0], "line {line}");
        }
    }
    let lines = Lines::of(sample).unwrap();
    assert_eq!((lines.len(), lines.is_empty(), check(sample)), (5, false, Ok(5)));
    let texts: Vec<[String; 5]> = lines
        .iter()
        .map(|taken| {
            let Pieces { reaction, quantity, institute, reference, comment, .. } = taken.pieces;
            [reaction, quantity, institute, reference, comment].map(|piece| taken.text(piece))
        })
        .collect();
    assert_eq!(texts[0], ["N,F", "CS", "USAORL", "PR/C,49,2549", "Name+ TBL"]);
    assert_eq!(texts[4], ["N,F", "NU", "UK HAR", "EXFOR20999.002", " 27 PTS."]);
    for (taken, due) in lines.iter().zip(due) {
        assert_eq!((taken.line, lines.line(taken.number)), (due, Ok(due)));
        assert_eq!(Ok(taken.pieces), library::cinda_pieces(sample, taken.number), "parts of all lines");
    }
    assert_eq!(lines.line(0).map_err(|refusal| refusal.numbers()), Err([34, 0, 0]));
    assert_eq!(lines.pieces(6).map_err(|refusal| refusal.numbers()), Err([34, 0, 0]));
}

/// What the request's page says of energies: what they read to, and how they are written back.
#[test]
fn energies_are_read_and_written_back() {
    let cases = [
        ("  1.0+6", number(false, 1, 6, 2), "   1.+6"),
        ("    14.", number(false, 14, 0, 2), "    14."),
        ("14.    ", number(false, 14, 0, 2), "    14."),
        ("+1.4+07", number(false, 14, 6, 2), "  14.+6"),
        (" 1.40E7", number(false, 14, 6, 3), "  14.+6"),
        ("  2.5-2", number(false, 25, -3, 2), "   .025"),
        ("  1000.", number(false, 1, 3, 4), "   1.+3"),
        (" 1.+100", number(false, 1, 100, 1), " 10.+99"),
        ("    -.0", number(false, 0, 0, 0), "     0."),
        (".1-9999", number(false, 1, -10_000, 1), ".1-9999"),
        ("1.0 E 6", number(false, 1, 6, 2), "   1.+6"),
        (" 9.9+99", number(false, 99, 98, 2), " 99.+98"),
        ("-1.+999", number(true, 1, 999, 1), "-1.+999"),
        ("999999.", number(false, 999_999, 0, 6), "999999."),
        (".000001", number(false, 1, -6, 1), "   1.-6"),
        ("       ", FieldRead::BLANK, "       "),
    ];
    for (field, read, canonical) in cases {
        for (column, other) in [(42, 49), (49, 42)] {
            let line = made(&[(column, field), (other, "   1.+6")]);
            for by in BOTH {
                let taken = by.cinda_line(&line, 1).unwrap();
                let (own, beside) =
                    if column == 42 { (taken.least, taken.greatest) } else { (taken.greatest, taken.least) };
                assert_eq!((own, beside), (read, number(false, 1, 6, 1)), "{field:?}");
                assert_eq!(back(by, &line), made(&[(column, canonical), (other, "   1.+6")]), "{field:?}");
            }
        }
    }
}

/// A field of seven columns says what it says in eleven with four blanks in front, and its canonical field is the one of eleven
/// without four blanks: every field over seven characters.
#[test]
fn seven_columns_are_eleven() {
    const LETTERS: &[u8; 7] = b" .10+-E";
    let (mut line, mut wide) = (made(&[(49, "       ")]), *b"           ");
    let mut counts = [0; 3];
    for turn in 0..LETTERS.len().pow(7) {
        let mut rest = turn;
        for column in 0..7 {
            let letter = LETTERS[rest % LETTERS.len()];
            (line[41 + column], wide[4 + column]) = (letter, letter);
            rest /= LETTERS.len();
        }
        let taken = library::cinda_line(&line, 1);
        let Ok(read) = library::read_number(&wide) else {
            assert_eq!(told(taken.map(drop)), [76, 1, 42], "{:?}", String::from_utf8_lossy(&wide));
            counts[2] += 1;
            continue;
        };
        assert_eq!(taken.map(|line| line.least), Ok(read), "{:?}", String::from_utf8_lossy(&wide));
        let mut due = *b"           ";
        if let Value::Number(decimal) = read.value {
            library::write_number(decimal, &mut due).expect("a field that reads to it");
        }
        assert_eq!(&back(&Library, &line)[41..48], &due[4..], "{:?}", String::from_utf8_lossy(&wide));
        counts[usize::from(read.value != Value::Blank)] += 1;
    }
    let [blank, numbers, malformed] = counts;
    assert!(blank == 1 && numbers > 2_000, "{counts:?}");
    say(&format!("energies over seven characters: {numbers} numbers, {malformed} malformed"));
}

/// Writing back: every length of a buffer around the limits, the bytes behind the lines and beside the buffer, and what holds
/// of a copy.
#[test]
fn copies_are_written_in_front() {
    let sample = include_bytes!("../data/sample.cinda");
    let lines = &sample[..2 * LINE];
    for by in BOTH {
        let copy = back(by, lines);
        for room in (0..4).chain(LINE - 2..LINE + 3).chain(2 * LINE - 3..2 * LINE + 20).chain([1_000]) {
            let mut out = vec![b'#'; room + 32];
            let answer = by.cinda_back(lines, &mut out[16..16 + room]);
            assert_eq!(told(answer), if room < lines.len() { [37, 0, 0] } else { [0; 3] }, "{room} bytes");
            let written = if answer.is_ok() { lines.len() } else { 0 };
            assert_eq!(&out[16..16 + written], &copy[..written]);
            let untouched = out[..16].iter().chain(&out[16 + written..]).all(|&byte| byte == b'#');
            assert!(untouched, "{room} bytes: beside the copy");
        }
        // refused before 37, and nothing is stored
        for (wrong, due) in
            [(made(&[(1, "B")]), [73, 1, 1]), (Vec::new(), [70, 0, 0]), (made(&[])[1..].to_vec(), [70, 0, 0])]
        {
            for room in [0, 10, LINE, 300] {
                let mut out = vec![b'#'; room];
                assert_eq!(told(by.cinda_back(&wrong, &mut out)), due);
                assert!(out.iter().all(|&byte| byte == b'#'));
            }
        }
    }
}

/// A copy is good again, has the same fields but for the digits that are written, and is its own copy; all but 14 columns of a
/// line are as they were.
#[test]
fn copies_keep_all_but_spellings() {
    let mut changed = 0;
    for seed in 0..2_000 {
        let lines = generate::cinda_lines(&mut Random::seeded(seed));
        assert_eq!(library::cinda_check(&lines), Ok(()), "seed {seed}");
        let copy = back(&Library, &lines);
        assert_eq!((library::cinda_check(&copy), back(&Library, &copy)), (Ok(()), copy.clone()), "seed {seed}");
        changed += usize::from(copy != lines);
        let (one, other) = (Lines::of(&lines).unwrap(), Lines::of(&copy).unwrap());
        for (old, new) in one.iter().zip(other.iter()) {
            let values = |line: Line| [line.least.value, line.greatest.value];
            assert_eq!(values(old.line), values(new.line), "seed {seed}");
            let (least, greatest) = (new.line.least, new.line.greatest);
            assert_eq!(Line { least, greatest, ..old.line }, new.line, "seed {seed}");
        }
        for (old, new) in lines.chunks(LINE).zip(copy.chunks(LINE)) {
            assert_eq!((&old[..41], &old[55..]), (&new[..41], &new[55..]), "seed {seed}");
        }
    }
    assert!(changed > 1_000, "{changed}");
}

/// What C and Fortran print of a refused call, and of a verdict.
fn refused_said(refusal: LinesRefusal) -> String {
    let [number, line, column] = refusal.numbers();
    format!("refused {number} {line} {column}")
}

fn line_said(lines: &[u8], line: u32) -> String {
    reference::cinda_line(lines, line).map_or_else(refused_said, |line| {
        let (numbers, ..) = words::line_stored(&line);
        let energies = [line.least, line.greatest].map(|read| value_said(Ok(read))).join(" ");
        format!("{} {energies}", numbers.map(|number| number.to_string()).join(" "))
    })
}

fn pieces_said(lines: &[u8], line: u32) -> String {
    reference::cinda_pieces(lines, line).map_or_else(refused_said, |pieces| {
        let numbers: String = words::pieces_stored(&pieces).map(|number| format!("{number} ")).concat();
        let text = |piece: &Piece| format!("[{}]", String::from_utf8_lossy(piece.of(lines)));
        numbers + &pieces.all()[1..].iter().map(text).collect::<String>()
    })
}

fn back_said(lines: &[u8], room: usize) -> String {
    let mut out = vec![b'#'; room];
    let answer = reference::cinda_back(lines, &mut out);
    let (mut first, mut second) = (1, 0);
    for byte in out {
        first = (first + u32::from(byte)) % 65521;
        second = (second + first) % 65521;
    }
    let refused = answer.err().map_or(String::new(), |refusal| refused_said(refusal) + "\n");
    format!("{refused}{room} bytes {first} {second}")
}

/// What a program is asked about some lines, and what it is to print.
fn asked(random: &mut Random, lines: &[u8]) -> Vec<(String, String)> {
    let count = (lines.len() / LINE) as u32;
    let refusal = reference::cinda_check(lines).err().unwrap_or(LinesRefusal { number: 0, line: 0, column: 0 });
    let mut asked = vec![("check".to_string(), refused_said(refusal))];
    let any = 1 + random.below(count as usize + 1) as u32;
    for line in [0, 1, count, count + 1, any, random.one(&[2, 20_001, 1 << 31, u32::MAX])] {
        asked.push((format!("line {line}"), line_said(lines, line)));
        asked.push((format!("pieces {line}"), pieces_said(lines, line)));
    }
    let most = lines.len();
    for room in [most.saturating_sub(1), most, most + 1, random.below(most + 200)] {
        asked.push((format!("back {room}"), back_said(lines, room)));
    }
    asked
}

/// Compares what a program of another language prints with the reference: the sample, lines at the limits, and generated ones.
fn agree(program: &Path, name: &str) {
    let room = Path::new(env!("CARGO_TARGET_TMPDIR"));
    let [file, list] = ["cinda", "txt"].map(|kind| room.join(format!("{name}.{kind}")));
    let mut inputs = generate::cinda_limits();
    inputs.push(include_bytes!("../data/sample.cinda").to_vec());
    inputs.extend((0..150).map(|seed| generate::cinda_input(&mut Random::seeded(11_300 + seed))));
    let mut printed = String::new();
    for (turn, lines) in inputs.iter().enumerate() {
        let asked = asked(&mut Random::seeded(turn as u64), lines);
        std::fs::write(&file, lines).unwrap();
        std::fs::write(&list, asked.iter().map(|(line, _)| format!("{line}\n")).collect::<String>()).unwrap();
        let output = Command::new(program).args([&file, &list]).output().unwrap();
        let text = String::from_utf8(output.stdout).unwrap();
        assert!(output.status.success(), "input {turn}: {}\n{text}", output.status);
        let mut answers = text.lines();
        for (line, due) in &asked {
            for due in due.lines() {
                assert_eq!(answers.next(), Some(due), "input {turn}, {line:?}");
            }
        }
        assert_eq!(answers.next(), None, "input {turn}");
        printed += &text;
    }
    let times = |words: &str| printed.lines().filter(|line| line.starts_with(words)).count();
    let numbers = [0, 34, 37, 70, 71, 72, 73, 74, 75, 76, 77].map(|number| times(&format!("refused {number} ")));
    assert!(numbers.iter().all(|&times| times >= 10), "{numbers:?}");
    say(&format!("{name}: {} files, {} answers", inputs.len(), printed.lines().count()));
}

#[test]
fn c_programs_get_the_same_lines() {
    if let Some(program) = compiled("gcc", "cinda-c", &C, &["tests/c/cinda.c"]) {
        agree(&program, "cinda-c");
    }
}

#[test]
fn fortran_programs_get_the_same_lines() {
    let modules = concat!(env!("CARGO_TARGET_TMPDIR"), "/cinda");
    std::fs::create_dir_all(modules).unwrap();
    let arguments = ["-std=f2008", "-O2", "-Wall", "-Werror", "-J", modules];
    let sources = ["fortran/x4.f90", "fortran/in_words.f90", "fortran/cinda.f90"];
    if let Some(program) = compiled("gfortran", "cinda-f", &arguments, &sources) {
        agree(&program, "cinda-f");
    }
}

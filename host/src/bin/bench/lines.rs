//! Lines in the CINDA2001 layout (M-113): checked by the library, and by hand.

use crate::{by_turns, table};
use glockenbeacon::cinda::{LinesRefusal, LINE, MOST_LINES};
use glockenbeacon::generate::{self, Random};
use glockenbeacon::reference::record::permitted;
use glockenbeacon::{library, reference};
use std::hint::black_box;

/// Which characters are permitted.
fn classes() -> [bool; 256] {
    std::array::from_fn(|byte| permitted(byte as u8))
}

/// Blanks, then digits up to the last column.
fn is_integer(columns: &[u8]) -> bool {
    let blanks = columns.iter().take_while(|&&byte| byte == b' ').count();
    blanks < columns.len() && columns[blanks..].iter().all(u8::is_ascii_digit)
}

/// Blank, or a number: one pass.
fn is_energy(field: &[u8]) -> bool {
    let end = field.len();
    let past = |mut at: usize, of: fn(u8) -> bool| {
        while at < end && of(field[at]) {
            at += 1;
        }
        at
    };
    let blank = |byte: u8| byte == b' ';
    let mut at = past(0, blank);
    if at == end {
        return true;
    }
    at += usize::from(matches!(field[at], b'+' | b'-'));
    let point = past(at, |byte| byte.is_ascii_digit());
    if point == end || field[point] != b'.' {
        return false;
    }
    let behind = past(point + 1, |byte| byte.is_ascii_digit());
    if behind - at < 2 {
        return false;
    }
    at = past(behind, blank);
    if at == end {
        return true;
    }
    let marked = field[at] == b'E';
    at += usize::from(marked);
    if at < end && matches!(field[at], b'+' | b'-') {
        at += 1;
    } else if marked {
        at = past(at, blank);
    } else {
        return false;
    }
    at < end && past(at, |byte| byte.is_ascii_digit()) == end
}

/// The first fault of a line: its number and its column.
fn fault(line: &[u8], classes: &[bool; 256]) -> Option<(u32, u32)> {
    if line[125] != b'\n' {
        return Some((71, 126));
    }
    if let Some(at) = line[..125].iter().position(|&byte| !classes[usize::from(byte)]) {
        return Some((72, at as u32 + 1));
    }
    if !matches!(line[0], b'A' | b'D' | b'M') {
        return Some((73, 1));
    }
    let many = &line[4..7] == b"MNY";
    if if many { &line[1..4] != b"999" } else { !is_integer(&line[1..4]) } {
        return Some((74, 2));
    }
    if !many && !is_integer(&line[4..7]) {
        return Some((74, 5));
    }
    if line[7] != b' ' && !line[7].is_ascii_digit() {
        return Some((74, 8));
    }
    if !(line[33].is_ascii_uppercase() || line[33].is_ascii_digit()) || !is_integer(&line[34..37]) {
        return Some((75, 34));
    }
    if !is_integer(&line[37..39]) {
        return Some((75, 38));
    }
    if !is_energy(&line[41..48]) {
        return Some((76, 42));
    }
    if !is_energy(&line[48..55]) {
        return Some((76, 49));
    }
    let date = line[79..85].iter().all(u8::is_ascii_digit) && (b"01"..=b"12").contains(&line[83..85].try_into().ok()?);
    (!date).then_some((77, 80))
}

/// A checker by hand, as one would write it for speed.
fn by_hand(lines: &[u8], classes: &[bool; 256]) -> Result<(), LinesRefusal> {
    if lines.is_empty() || lines.len() % LINE != 0 || lines.len() > MOST_LINES * LINE {
        return Err(LinesRefusal { number: 70, line: 0, column: 0 });
    }
    for (line, bytes) in (1..).zip(lines.chunks_exact(LINE)) {
        if let Some((number, column)) = fault(bytes, classes) {
            return Err(LinesRefusal { number, line, column });
        }
    }
    Ok(())
}

/// Times the four calls, a line at a time, beside the checker by hand and a plain copy.
pub fn lines() {
    let classes = &classes();
    for seed in 0..5_000 {
        let lines = generate::cinda_input(&mut Random::seeded(seed));
        assert_eq!(library::cinda_check(&lines), by_hand(&lines, classes), "seed {seed}");
    }
    let random = &mut Random::seeded(1);
    let good: Vec<u8> = (0..MOST_LINES).flat_map(|_| generate::cinda_line(random)).collect();
    let few = &good[..500 * LINE];
    let mut buffer = vec![0; good.len()];
    let count = MOST_LINES;
    let [check, hand, apart, pieces] = by_turns(
        count,
        [
            &mut || {
                let _ = black_box(library::cinda_check(black_box(&good)));
            },
            &mut || {
                let _ = black_box(by_hand(black_box(&good), classes));
            },
            &mut || {
                for line in good.chunks_exact(LINE) {
                    let _ = black_box(library::cinda_line(black_box(line), 1));
                }
            },
            &mut || {
                for line in good.chunks_exact(LINE) {
                    let _ = black_box(library::cinda_pieces(black_box(line), 1));
                }
            },
        ],
    );
    let mut write_back = || {
        let _ = black_box(library::cinda_back(black_box(&good), &mut buffer));
    };
    let [back] = by_turns(count, [&mut write_back]);
    let [plain] = by_turns(count, [&mut || black_box(&mut buffer[..]).copy_from_slice(black_box(&good))]);
    let mut by_reference = || {
        let _ = black_box(reference::cinda_check(black_box(few)));
    };
    let [slow] = by_turns(few.len() / LINE, [&mut by_reference]);
    let rows = [
        ("library::cinda_check", check),
        ("checked by hand", hand),
        ("library::cinda_line, one line alone", apart),
        ("library::cinda_pieces, one line alone", pieces),
        ("library::cinda_back", back),
        ("copied as they are", plain),
        ("reference::cinda_check", slow),
    ];
    table(&format!("Lines in the CINDA2001 layout: time of a line, of {count} good ones"), &rows);
    let (median, least) = (check.median / hand.median, check.least / hand.least);
    println!("  checked beside by hand: {median:.2}, by the least times {least:.2}");
}

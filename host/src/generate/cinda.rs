//! Lines in the CINDA2001 layout (M-113): good ones, and those with a fault in one of their fields.

use super::numbers::{narrow_field, narrow_spelling};
use super::Random;
use crate::cinda::{LINE, MOST_LINES};

/// Characters that are permitted, the letters and digits that are usual in texts more often.
const TEXT: &[u8] = b"    ABCDEFGHILMNOPRSTUXYabcdeno0123456789+-.)(*/=',%<>:;!?&";

/// So many columns with an integer: blanks, then digits up to the last; zeros in front may stand in it.
fn integer(random: &mut Random, columns: usize) -> String {
    let digits = random.within(1, columns);
    let figures: String = (0..digits).map(|_| random.one(&['0', '1', '2', '5', '7', '9'])).collect();
    format!("{figures:>columns$}")
}

/// An energy: a number in any of its spellings, at times with the longest exponents, or blanks.
fn energy(random: &mut Random) -> [u8; 7] {
    match random.below(10) {
        0 | 1 => [b' '; 7],
        2 => *random
            .one(&[b".1-9999", b"1.+9999", b"1.-9999", b"-1.+999", b".1 E999", b"1.E 999", b"999999.", b".000001"]),
        _ => narrow_spelling(random),
    }
}

/// Any text of so many columns.
fn text(random: &mut Random, columns: usize) -> Vec<u8> {
    let filled = random.within(0, columns);
    (0..columns).map(|column| if column < filled { random.one(TEXT) } else { b' ' }).collect()
}

/// A date.
fn date(random: &mut Random) -> String {
    let year = if random.once_in(4) { random.below(10_000) } else { random.within(1935, 2001) };
    format!("{year:04}{:02}", random.within(1, 12))
}

/// A good line.
pub fn cinda_line(random: &mut Random) -> [u8; LINE] {
    let mut line = vec![random.one(b"AADM")];
    match random.once_in(6) {
        true => line.extend(b"999MNY"),
        false => line.extend([integer(random, 3), integer(random, 3)].concat().bytes()),
    }
    line.push(random.one(b"   0123459"));
    for columns in [15, 4, 6] {
        line.extend(text(random, columns));
    }
    line.push(random.one(b"ABLMVZ01239"));
    line.extend([integer(random, 3), integer(random, 2)].concat().bytes());
    line.extend([random.one(TEXT), random.one(TEXT)]);
    line.extend(energy(random));
    line.extend(energy(random));
    line.extend([random.one(b"12345689 "), random.one(TEXT)]);
    line.extend(text(random, 22));
    line.extend(date(random).bytes());
    line.extend(text(random, 40));
    line.push(b'\n');
    line.try_into().expect("126 bytes")
}

/// Good lines, most often a few.
pub fn cinda_lines(random: &mut Random) -> Vec<u8> {
    let count = if random.once_in(40) { random.within(100, 400) } else { random.within(1, 6) };
    (0..count).flat_map(|_| cinda_line(random)).collect()
}

/// What a fault is put in, and the refusal that it is meant to have.
pub const CINDA_CAUSES: [(&str, u32); 11] = [
    ("length", 70),
    ("line end", 71),
    ("character", 72),
    ("operation", 73),
    ("Z", 74),
    ("A", 74),
    ("isomer", 74),
    ("block", 75),
    ("sequence", 75),
    ("energy", 76),
    ("date", 77),
];

/// Columns that look like an integer, so many of them.
fn nearly_integer(random: &mut Random, columns: usize) -> String {
    let texts: &[&str] = match columns {
        2 => &["1 ", "  ", " A", "-1", "+1", "1.", "a1", " 0", "00"],
        _ => &[
            "92 ", " 9 ", "   ", "9 2", " -1", "+92", "1.0", "CMP", "H2O", "FPR", "MNY", "mny", " MN", "MNy", "  0",
            "000",
        ],
    };
    random.one(texts).to_string()
}

/// Puts a fault of one kind into a line; it may be none, or have another number, as a change may leave a line good.
fn damage(random: &mut Random, line: &mut [u8; LINE], cause: &str) {
    let mut put = |first: usize, text: &[u8]| line[first - 1..first - 1 + text.len()].copy_from_slice(text);
    match cause {
        "line end" => put(126, &[random.one(b"\r \0A\x0b\x85\t")]),
        "character" => put(random.within(1, 125), &[random.one(b"#$@\"[]^_`{|}~\\\t\r\n\0\x7f\x80\xa0\xff")]),
        "operation" => put(1, &[random.one(b" BCEadm0+")]),
        "Z" => match random.once_in(3) {
            true => {
                put(2, random.one(&[&b" 99MNY"[..], b"099MNY", b"998MNY", b"   MNY", b"MNYMNY", b"999mny", b"999MN "]))
            }
            false => put(2, nearly_integer(random, 3).as_bytes()),
        },
        "A" => put(5, nearly_integer(random, 3).as_bytes()),
        "isomer" => put(8, &[random.one(b"MGAm+-. 09")]),
        "block" => match random.below(3) {
            0 => put(34, &[random.one(b" abz+-.*")]),
            1 => put(34, random.one(&[&b"    "[..], b"L   ", b"l198", b"L19 ", b"1 99", b"LABC"])),
            _ => put(35, nearly_integer(random, 3).as_bytes()),
        },
        "sequence" => put(38, nearly_integer(random, 2).as_bytes()),
        "energy" => {
            let field = match random.below(4) {
                0 => *random.one(&[
                    b"NDG    ", b"   MAXW", b"     +6", b"1.0+6  ", b"     14", b"1.0 +6 ", b"   .   ", b"1.0E+ 6",
                ]),
                _ => narrow_field(random),
            };
            put(random.one(&[42, 49]), &field);
        }
        _ => put(
            80,
            random.one(&[&b"      "[..], b"1994  ", b"199413", b"199400", b" 99405", b"19940A", b"1994 5", b"199412"]),
        ),
    }
}

/// Lines with up to two faults; also of another length than whole lines.
pub fn cinda_input(random: &mut Random) -> Vec<u8> {
    let mut lines = cinda_lines(random);
    let times = random.one(&[0, 1, 1, 1, 2]);
    for _ in 0..times {
        let (cause, _) = random.one(&CINDA_CAUSES);
        let count = lines.len() / LINE;
        if cause == "length" {
            match random.below(5) {
                0 => lines.clear(),
                1 => lines.push(b'\n'),
                2 => drop(lines.pop()),
                3 => lines.truncate(random.below(lines.len() + 1)),
                _ => lines.extend(vec![b' '; random.within(1, LINE)]),
            }
            break;
        }
        let line = lines.chunks_exact_mut(LINE).nth(random.below(count)).expect("one of them");
        damage(random, line.try_into().expect("126 bytes"), cause);
    }
    if !lines.is_empty() && random.once_in(6) {
        let at = random.below(lines.len());
        lines[at] = random.bits() as u8;
    }
    lines
}

/// Lines on both sides of the most there may be, good and with a fault in the first or the last one.
pub fn cinda_limits() -> Vec<Vec<u8>> {
    let line = cinda_line(&mut Random::seeded(113));
    let lines = |count: usize| line.repeat(count);
    let with = |count: usize, at: usize, byte: u8| {
        let mut all = lines(count);
        all[at] = byte;
        all
    };
    let most = MOST_LINES * LINE;
    vec![
        Vec::new(),
        lines(1),
        lines(MOST_LINES),
        lines(MOST_LINES + 1),
        with(MOST_LINES, 0, b'#'),
        with(MOST_LINES, most - 1, b'\r'),
        with(MOST_LINES, most - LINE, b'B'),
        with(MOST_LINES + 1, 0, b'#'),
        lines(MOST_LINES)[..most - 1].to_vec(),
        lines(MOST_LINES + 1)[..most + 1].to_vec(),
    ]
}

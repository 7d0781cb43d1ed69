//! Slips in walks (M-112) planted on purpose, to see that the comparison of `differ` would find them.

mod common;

use common::{none, ENTRIES, SEED};
use glockenbeacon::differ::{Implementation, Pair, Reference};
use glockenbeacon::walk::{Given, Walk};
use glockenbeacon::{reference, FieldRead, NoAnswer, Value};

/// A walk that is begun otherwise than it should be.
struct BeginSlip(fn(&[u8], u32, u32) -> Result<Walk, NoAnswer>);

impl Implementation for BeginSlip {
    fn walk(&self, entry: &[u8], subentry: u32, section: u32) -> Result<Walk, NoAnswer> {
        (self.0)(entry, subentry, section)
    }
}

/// One that goes on otherwise.
struct NextSlip(fn(&[u8], &mut Walk) -> Option<Given>);

impl Implementation for NextSlip {
    fn walk_next(&self, entry: &[u8], walk: &mut Walk) -> Option<Given> {
        (self.0)(entry, walk)
    }
}

/// Each is found by the same entries, in what is said first.
fn walks_found(slips: &[(&str, &dyn Implementation)], words: &str) {
    for (name, slip) in slips {
        let said = Pair::new(*slip, &Reference).walks(SEED, ENTRIES).expect_err(name).words;
        assert!(said.starts_with(words), "{name}: {said}");
    }
}

#[test]
fn slips_in_beginning_a_walk_are_found() {
    let slips: [(&str, &dyn Implementation); 8] = [
        ("31 with zeros beside it", &BeginSlip(|e, n, s| reference::walk(e, n, s).map_err(|no| none(no.number)))),
        (
            "33 before 32",
            &BeginSlip(|e, n, s| match reference::walk(e, n, s) {
                Err(no) if no.number == 32 && !(1..=2).contains(&s) => Err(none(33)),
                walk => walk,
            }),
        ),
        ("any other section is DATA", &BeginSlip(|e, n, s| reference::walk(e, n, if s == 1 { 1 } else { 2 }))),
        (
            "the COMMON of 001 where there is no own",
            &BeginSlip(|e, n, s| match reference::walk(e, n, s) {
                Err(no) if no.number == 33 && s == 1 => reference::walk(e, 1, 1),
                walk => walk,
            }),
        ),
        (
            "the records of COMMON for its lines",
            &BeginSlip(|e, n, s| {
                reference::walk(e, n, s).map(|w| if s == 1 { [w[0], w[1], 3 * w[1].div_ceil(6), 1, 1] } else { w })
            }),
        ),
        ("records from 0", &BeginSlip(|e, n, s| reference::walk(e, n, s).map(|w| [w[0] - 1, w[1], w[2], 1, 1]))),
        ("columns before lines", &BeginSlip(|e, n, s| reference::walk(e, n, s).map(|w| [w[0], w[2], w[1], 1, 1]))),
        ("places from 0", &BeginSlip(|e, n, s| reference::walk(e, n, s).map(|w| [w[0], w[1], w[2], 0, 0]))),
    ];
    walks_found(&slips, "walk ");
}

/// The true step, and another place after it.
fn then_at(entry: &[u8], walk: &mut Walk, place: impl Fn(Walk) -> [u32; 2]) -> Option<Given> {
    let [line, column] = place(*walk);
    let given = reference::walk_next(entry, walk)?;
    [walk[3], walk[4]] = [line, column];
    Some(given)
}

#[test]
fn slips_in_going_on_are_found() {
    let slips: [(&str, &dyn Implementation); 14] = [
        (
            "line by line first",
            &NextSlip(|e, w| then_at(e, w, |[_, _, l, y, x]| if y < l { [y + 1, x] } else { [1, x + 1] })),
        ),
        (
            "a column skipped",
            &NextSlip(|e, w| then_at(e, w, |[_, c, _, y, x]| if x + 1 < c { [y, x + 2] } else { [y + 1, 1] })),
        ),
        (
            "a line skipped",
            &NextSlip(|e, w| then_at(e, w, |[_, c, _, y, x]| if x < c { [y, x + 1] } else { [y + 2, 1] })),
        ),
        (
            "the last column left out",
            &NextSlip(|e, w| match w[4] == w[1] && w[1] > 1 {
                true => {
                    [w[3], w[4]] = [w[3] + 1, 1];
                    reference::walk_next(e, w)
                }
                false => reference::walk_next(e, w),
            }),
        ),
        ("the last line left out", &NextSlip(|e, w| reference::walk_next(e, w).filter(|given| given.0 < w[2]))),
        (
            "blanks passed over",
            &NextSlip(|e, w| loop {
                match reference::walk_next(e, w)? {
                    (_, _, Ok(read)) if read == FieldRead::BLANK => continue,
                    given => break Some(given),
                }
            }),
        ),
        (
            "from the first again",
            &NextSlip(|e, w| {
                let given = reference::walk_next(e, w);
                if given.is_none() {
                    [w[3], w[4]] = [1, 1];
                }
                given
            }),
        ),
        (
            "it moves when it is done",
            &NextSlip(|e, w| {
                let given = reference::walk_next(e, w);
                w[3] = w[3].wrapping_add(u32::from(given.is_none()));
                given
            }),
        ),
        (
            "it stays at a malformed field",
            &NextSlip(|e, w| {
                let before = *w;
                let given = reference::walk_next(e, w);
                if given.is_some_and(|given| given.2.is_err()) {
                    *w = before;
                }
                given
            }),
        ),
        (
            "a malformed field is blank",
            &NextSlip(|e, w| reference::walk_next(e, w).map(|(y, x, read)| (y, x, read.or(Ok(FieldRead::BLANK))))),
        ),
        (
            "six columns to a line",
            &NextSlip(|e, w| {
                let mut six = [w[0], w[1].min(6), w[2], w[3], (w[4].saturating_sub(1)) % 6 + 1];
                let own = reference::walk_next(e, w)?;
                let read = reference::walk_next(e, &mut six).map_or(own.2, |given| given.2);
                Some((own.0, own.1, read))
            }),
        ),
        (
            "done outside the entry",
            &NextSlip(|e, w| {
                let last = w[0] as usize + (1 + w[3] as usize) * w[1].div_ceil(6) as usize;
                if last > e.len() / 81 {
                    None
                } else {
                    reference::walk_next(e, w)
                }
            }),
        ),
        (
            "nineteen columns",
            &NextSlip(|e, w| match *w {
                [r @ ..=20_000, 19, l @ ..=20_000, y, x @ 1..=19] if (1..=l).contains(&y) => {
                    [w[3], w[4]] = if x < 19 { [y, x + 1] } else { [y + 1, 1] };
                    let mut other = [r, 18, l, y, 1];
                    reference::walk_next(e, &mut other).map(|given| (y, x, given.2))
                }
                _ => reference::walk_next(e, w),
            }),
        ),
        (
            "digits of the value alone",
            &NextSlip(|e, w| {
                reference::walk_next(e, w).map(|(y, x, read)| {
                    let digits = |value: Value| match value {
                        Value::Number(decimal) if decimal.coefficient > 0 => {
                            decimal.coefficient.to_string().len() as u32
                        }
                        _ => 0,
                    };
                    (y, x, read.map(|read| FieldRead { digits: digits(read.value), ..read }))
                })
            }),
        ),
    ];
    walks_found(&slips, "walk_next ");
}

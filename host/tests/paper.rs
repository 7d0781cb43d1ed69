//! What the paper says of its sample entry and its numbers. The expectations are worked out by hand.

mod common;

use common::{changed, entry, flags, put, replaced, sample, wide, FLAGS, SAMPLE};
use glockenbeacon::library::{canonical_copy, heading, judge, passage, read_number, unit, value, write_number};
use glockenbeacon::{Decimal, FieldRead, NoAnswer, Part, Refusal, Value, COMMON, DATA};

/// The seven numbers as the judging program prints them.
fn judged(bytes: &[u8]) -> String {
    judge(bytes).numbers().map(|number| number.to_string()).join(" ")
}

#[test]
fn the_sample_is_accepted() {
    assert_eq!(judged(&sample()), "0 0 0 2 3 2 6");
    let file = concat!(env!("CARGO_MANIFEST_DIR"), "/data/sample.x4");
    assert_eq!(std::fs::read(file).expect("the sample as a file"), sample());
}

/// "Run, not proved: the sample with 18 and 19 columns, N2 one too many, pointer 3 on a heading, `1.5E`."
#[test]
fn the_run_list() {
    assert_eq!(judged(&wide(18)), "0 0 0 2 3 2 37");
    assert_eq!(judged(&wide(19)), "8 19 12 0 0 0 0");
    assert_eq!(judged(&changed(3, 33, "3")), "4 6 1 0 0 0 0");
    assert_eq!(judged(&changed(7, 33, "4")), "8 7 23 0 0 0 0");
    assert_eq!(judged(&changed(19, 33, "3")), "4 24 1 0 0 0 0");
    assert_eq!(judged(&changed(20, 33, "3")), "14 20 23 0 0 0 0");
    assert_eq!(judged(&changed(22, 12, "       1.5E")), "15 22 12 0 0 0 0");
}

/// Changes of one place of the sample: record, column, text, and the verdict.
#[test]
fn small_changes() {
    for (record, column, text, verdict) in [
        // Length, characters.
        (1, 81, " ", "2 1 81 0 0 0 0"),
        (26, 81, "X", "2 26 81 0 0 0 0"),
        (5, 40, "#", "3 5 40 0 0 0 0"),
        (5, 80, "[", "3 5 80 0 0 0 0"),
        (5, 80, "&", "0 0 0 2 3 2 6"),
        // Nesting.
        (1, 1, "entry", "4 1 1 0 0 0 0"),
        (2, 1, "NOSUBENT", "4 2 1 0 0 0 0"),
        (2, 1, "ENDENTRY", "4 2 1 0 0 0 0"),
        (5, 1, "DATA      1", "0 0 0 2 3 2 6"),
        (5, 1, "DATA       ", "4 5 1 0 0 0 0"),
        (6, 11, "1", "4 6 1 0 0 0 0"),
        (20, 1, "DATA       ", "0 0 0 2 3 2 6"),
        (20, 1, "ENDDATA    ", "4 20 1 0 0 0 0"),
        (20, 1, "ENDDATA1   ", "0 0 0 2 3 2 6"),
        (20, 1, "ENDDATA   1", "0 0 0 2 3 2 6"),
        (21, 1, "ENDBIB     ", "4 21 1 0 0 0 0"),
        (22, 1, "DATA       ", "15 22 1 0 0 0 0"),
        // Identification and sequence.
        (1, 72, "001", "5 1 67 0 0 0 0"),
        (4, 67, "90002", "5 4 67 0 0 0 0"),
        (12, 72, "002", "5 12 67 0 0 0 0"),
        (13, 15, "90002", "5 13 67 0 0 0 0"),
        (26, 72, "000", "5 26 67 0 0 0 0"),
        (4, 75, "    3", "6 4 75 0 0 0 0"),
        (12, 75, "00011", "6 12 75 0 0 0 0"),
        // Forms and counts.
        (1, 17, "0", "7 1 12 0 0 0 0"),
        (1, 23, "   20241305", "7 1 23 0 0 0 0"),
        (1, 23, "   20240132", "7 1 23 0 0 0 0"),
        (1, 23, "   00000230", "0 0 0 2 3 2 6"),
        (3, 12, "          0          X", "7 3 23 0 0 0 0"),
        (3, 23, "           ", "7 3 23 0 0 0 0"),
        (3, 12, "0000000000200000000002", "0 0 0 2 3 2 6"),
        (3, 12, "          3          2", "8 3 23 0 0 0 0"),
        (3, 12, "99999999999          2", "8 3 23 0 0 0 0"),
        (3, 12, "          2 4294967298", "4 6 1 0 0 0 0"),
        (14, 12, "          2", "8 17 12 0 0 0 0"),
        (6, 12, "          1", "8 6 12 0 0 0 0"),
        (6, 12, " 4294967298", "8 6 12 0 0 0 0"),
        (12, 12, "         10", "8 12 12 0 0 0 0"),
        (26, 12, "          1", "8 26 12 0 0 0 0"),
        (19, 23, "      20001", "8 19 23 0 0 0 0"),
        (19, 23, "      20000", "4 24 1 0 0 0 0"),
        (19, 23, "          0", "8 19 23 0 0 0 0"),
        (18, 12, "anything? at all!", "0 0 0 2 3 2 6"),
        // Keywords and pointers of BIB.
        (4, 1, "          ", "10 4 1 0 0 0 0"),
        (4, 1, " TITLE", "10 4 1 0 0 0 0"),
        (5, 1, "TITLE ", "10 5 1 0 0 0 0"),
        (5, 1, "      ", "8 6 12 0 0 0 0"),
        (16, 11, "1", "11 16 11 0 0 0 0"),
        (16, 11, "0", "11 16 11 0 0 0 0"),
        (16, 11, "a", "11 16 11 0 0 0 0"),
        // Headings and units.
        (20, 1, "EN ", "13 20 1 0 0 0 0"),
        (20, 1, "EN        1", "0 0 0 2 3 2 6"),
        (20, 33, "1", "13 20 23 0 0 0 0"),
        (20, 33, "A", "14 20 23 0 0 0 0"),
        (20, 33, " ", "0 0 0 2 3 2 6"),
        (20, 44, "1", "12 20 34 0 0 0 0"),
        (20, 12, "A B", "12 20 12 0 0 0 0"),
        (21, 1, "    ", "12 21 1 0 0 0 0"),
        (21, 22, "1", "12 21 12 0 0 0 0"),
        (21, 66, "X", "12 21 56 0 0 0 0"),
        // Values.
        (10, 1, "   ", "15 10 1 0 0 0 0"),
        (10, 12, "1.", "15 10 12 0 0 0 0"),
        (22, 1, "                      ", "15 22 1 0 0 0 0"),
        (22, 34, "1.", "15 22 34 0 0 0 0"),
        (23, 1, "0.0", "0 0 0 2 3 2 6"),
        (23, 1, "   ", "0 0 0 2 3 2 5"),
    ] {
        assert_eq!(judged(&changed(record, column, text)), verdict, "record {record}, column {column}: {text:?}");
    }
}

/// The sample with these headings in DATA: ten columns of a word, and a pointer where it has one.
fn headed(headings: [&str; 3]) -> Vec<u8> {
    changed(20, 1, &headings.map(|heading| format!("{heading:11}")).concat())
}

/// The sample with two columns in the COMMON of 001, both under this word.
fn twice_in_common(word: &str) -> Vec<u8> {
    let two = format!("COMMON               2          3\n{word:11}{word}\nMEV        MEV\n14.        1.\n");
    replaced("COMMON               1          3\nEN\nMEV\n14.\n", &two)
}

/// M-101: "The same heading and pointer may repeat for E-LVL, EN-RES, FLAG (DATA only), any word ending in -ERR or
/// -RSL, any starting with ANG and any starting with HL (DATA only)."
#[test]
fn headings_that_may_repeat() {
    for word in ["E-LVL", "EN-RES", "-ERR", "MONIT1-ERR", "EN-RSL", "ANG", "ANGULAR-DI", "HL", "HL1"] {
        assert_eq!(judged(&headed([word, word, "X"])), "0 0 0 2 3 2 6", "{word}");
        assert_eq!(judged(&headed(["X", word, word])), "0 0 0 2 3 2 6", "{word}");
        assert_eq!(judged(&headed([word, word, word])), "0 0 0 2 3 2 6", "{word}");
        assert_eq!(judged(&headed([word, "X", word])), "13 20 23 0 0 0 0", "{word}");
    }
    let mut flags = headed(["ANG", "FLAG", "FLAG"]);
    for record in [22, 23] {
        put(&mut flags, record, 12, &" ".repeat(22));
    }
    assert_eq!(judged(&flags), "0 0 0 2 3 2 3");
    for word in ["E-LVL1", "EN-RES1", "FLAG1", "ERR", "X-ERR1", "RSL", "AN", "ang", "H", "hl", "MASS", "DECAY-FLAG"] {
        assert_eq!(judged(&headed([word, word, "X"])), "13 20 12 0 0 0 0", "{word}");
        assert_eq!(judged(&twice_in_common(word)), "13 8 12 0 0 0 0", "{word}");
    }
    for word in ["E-LVL", "EN-RES", "EN-ERR", "EN-RSL", "ANG-CM", "HL-ERR"] {
        assert_eq!(judged(&twice_in_common(word)), "0 0 0 2 3 2 7", "{word}");
    }
    for word in ["FLAG", "HL", "HL1"] {
        assert_eq!(judged(&twice_in_common(word)), "13 8 12 0 0 0 0", "{word}");
    }
}

/// "All equal ones must stand together and in one section only."
#[test]
fn equal_headings_stand_together() {
    assert_eq!(judged(&headed(["ANG       1", "ANG       1", "ANG       2"])), "0 0 0 2 3 2 6");
    assert_eq!(judged(&headed(["ANG       1", "ANG       2", "ANG       1"])), "13 20 23 0 0 0 0");
    assert_eq!(judged(&headed(["ANG       3", "ANG       3", "X"])), "14 20 1 0 0 0 0");
    for (columns, verdict) in [([6, 7], "0 0 0 2 3 2 15"), ([5, 7], "13 21 1 0 0 0 0"), ([1, 7], "13 21 1 0 0 0 0")] {
        let mut seven = wide(7);
        for column in columns {
            put(&mut seven, 20 + (column - 1) / 6, (column - 1) % 6 * 11 + 1, "EN-ERR");
        }
        assert_eq!(judged(&seven), verdict, "columns {columns:?}");
    }
    let mut across = headed(["EN-ERR", "EN-ERR", "X"]);
    put(&mut across, 8, 1, "EN-ERR");
    assert_eq!(judged(&across), "13 20 1 0 0 0 0", "in the COMMON of 001, too");
}

/// Questions about a table whose columns have one heading: a column goes by its place.
#[test]
fn columns_under_one_heading() {
    let bytes = headed(["HL", "HL", "HL"]);
    for column in 1..=3 {
        let offset = 19 * 81 + 11 * (column - 1);
        assert_eq!(heading(&bytes, 2, DATA, column as u32), Ok(Part { offset, length: 10, pointer: b' ' }));
    }
    assert_eq!(value(&bytes, 2, DATA, 2, 1), number(false, 2, 1, 2));
    assert_eq!(value(&bytes, 2, DATA, 2, 3), number(false, 25, 0, 2));
}

/// Changes of the sample with flags, and the verdict.
type Flagged<'a> = (&'a [(usize, usize, &'a str)], &'a str);

/// The sample with flags, changed, has its verdict.
fn flags_judged(cases: &[Flagged]) {
    for (changes, verdict) in cases {
        assert_eq!(judged(&flags(changes)), *verdict, "{changes:?}");
    }
}

/// What the sample with flags is judged where it is accepted.
const GOOD: &str = "0 0 0 2 5 3 12";

#[test]
fn the_sample_with_flags_is_accepted() {
    assert_eq!(judged(&flags(&[])), GOOD);
    let file = concat!(env!("CARGO_MANIFEST_DIR"), "/data/flags.x4");
    assert_eq!(std::fs::read(file).expect("the sample with flags as a file"), flags(&[]));
}

/// M-105: "numbers under a FLAG heading must be repeated as codes under the keyword FLAG". The heading is a word, with any
/// pointer or none.
#[test]
fn flags_have_codes() {
    flags_judged(&[
        (&[], GOOD),
        (&[(25, 34, "4.")], "17 25 34 0 0 0 0"),
        (&[(25, 23, "4."), (25, 34, "4.")], "17 25 23 0 0 0 0"),
        (&[(26, 23, "4.")], "17 26 23 0 0 0 0"),
        (&[(23, 44, "1"), (25, 34, "4.")], "17 25 34 0 0 0 0"),
        (&[(23, 34, "FLAG1"), (25, 34, "4.")], GOOD),
        (&[(23, 34, "LVL-FLAG"), (25, 34, "       4.-1")], GOOD),
        (&[(23, 34, "flag"), (25, 34, "4.")], GOOD),
    ]);
}

/// "under FLAG in this subentry or 001": from the keyword to the next, whatever the pointers.
#[test]
fn codes_stand_under_flag() {
    flags_judged(&[
        (&[(25, 34, "10.")], GOOD),
        (&[(23, 44, "1"), (25, 34, "3.")], GOOD),
        (&[(17, 11, "2")], GOOD),
        (&[(6, 1, "FLAGS")], "17 25 23 0 0 0 0"),
        (&[(17, 1, "FLAGS")], "17 25 34 0 0 0 0"),
        (&[(17, 1, "FLA ")], "17 25 34 0 0 0 0"),
        (&[(6, 12, "(2.)")], "17 25 23 0 0 0 0"),
        // STATUS takes the code 3. and its passage with pointer 1 the code 10.
        (&[(15, 22, "3"), (18, 1, "STATUS")], "17 26 23 0 0 0 0"),
        // A code before the keyword FLAG is none.
        (&[(16, 12, "(4.)"), (25, 34, "4.")], "17 25 34 0 0 0 0"),
    ]);
}

/// "this subentry or 001": both together; no other subentry; for the COMMON of 001 it is 001 alone.
#[test]
fn codes_of_this_subentry_or_001() {
    flags_judged(&[
        (&[(9, 1, "FLAG"), (11, 1, "1. ")], "13 23 23 0 0 0 0"),
        (&[(9, 1, "FLAG      1"), (11, 1, "1. ")], GOOD),
        (&[(9, 1, "FLAG      1"), (11, 1, "2. ")], "17 11 1 0 0 0 0"),
        (&[(9, 1, "FLAG      1"), (11, 1, "       1.+0")], "17 11 1 0 0 0 0"),
    ]);
    let third = |bib: &str, between: usize, value: &str| {
        let more = format!(
            "SUBENT        90001003   20240105\n{bib}COMMON               1          3\nFLAG\nNO-DIM\n{value}\n\
             ENDCOMMON            3\nNODATA\nENDSUBENT            {between}\nENDENTRY             3\n"
        );
        judged(&entry(&FLAGS.replace("ENDENTRY             2\n", &more)))
    };
    assert_eq!(third("NOBIB\n", 7, "1."), "0 0 0 3 5 3 13", "the code of 001");
    assert_eq!(third("NOBIB\n", 7, "2."), "17 35 1 0 0 0 0", "a code of 002");
    let bib = "BIB                  1          1\nFLAG       (4.)\nENDBIB               1\n";
    assert_eq!(third(bib, 9, "4."), "0 0 0 3 6 3 13", "its own code");
    assert_eq!(third(bib, 9, "2."), "17 37 1 0 0 0 0", "a code of 002");
    let later = FLAGS.replace("ENDENTRY             2\n", "SUBENT        90001003   20240105\n");
    let later = later + bib + "NOCOMMON\nNODATA\nENDSUBENT            5\nENDENTRY             3\n";
    let mut bytes = entry(&later);
    assert_eq!(judged(&bytes), "0 0 0 3 6 3 12");
    put(&mut bytes, 25, 34, "4.");
    assert_eq!(judged(&bytes), "17 25 34 0 0 0 0", "a code of 003 for 002");
}

/// "A code is an opening parenthesis in column 12, digits, a point, a closing parenthesis": what follows is text, one
/// code stands on a record, and anything else is no code and no fault.
#[test]
fn what_a_code_is() {
    for text in ["(2)", "(2.", "( 2.)", "(2. )", "(2.0)", "(+2.)", "(-2.)", "2.)", "((2.)", "(2,)", " (2.)", "(1.)(2.)"]
    {
        assert_eq!(judged(&flags(&[(17, 12, &format!("{text:12}"))])), "17 25 34 0 0 0 0", "{text}");
    }
    for text in ["(2.)X", "(2.)(1.)", "(002.)", "(2.)."] {
        assert_eq!(judged(&flags(&[(17, 12, &format!("{text:12}"))])), GOOD, "{text}");
    }
    flags_judged(&[
        (&[(17, 12, "(.)"), (25, 34, "0.")], "17 25 34 0 0 0 0"),
        (&[(17, 12, "(0.)"), (25, 34, "0.")], GOOD),
        // Columns 13 to 64 are digits, the parenthesis stands in column 66; one digit more, and it has no place.
        (&[(17, 12, &format!("({:0>52}.)", 2))], GOOD),
        (&[(17, 12, &format!("({:0>53}.", 2))], "17 25 34 0 0 0 0"),
    ]);
}

/// "it matches by exact value", of any size.
#[test]
fn flags_match_by_exact_value() {
    for (code, flag) in [
        ("2", "2."),
        ("2", "+2."),
        ("2", "02.0"),
        ("002", "2.000"),
        ("0", "-.0"),
        ("000", "0."),
        ("1000", "1000."),
        ("4294967298", "4294967298."),
        ("9999999999", "9999999999."),
    ] {
        let bytes = flags(&[(17, 12, &format!("({code}.)")), (25, 34, &format!("{flag:11}"))]);
        assert_eq!(judged(&bytes), GOOD, "{code} and {flag}");
    }
    for (code, flag) in [
        ("2", "-2."),
        ("2", "2.5"),
        ("2", ".2"),
        ("20", "2."),
        ("5", "0."),
        ("4294967298", "2."),
        ("18446744073709551618", "2."),
        ("36893488147419103234", "2."),
        ("340282366920938463463374607431768211458", "2."),
        ("99999999990", "9999999999."),
        ("10000000000000000000000000000000000000000000000002", "2."),
    ] {
        let bytes = flags(&[(17, 12, &format!("({code}.)")), (25, 34, &format!("{flag:11}"))]);
        assert_eq!(judged(&bytes), "17 25 34 0 0 0 0", "{code} and {flag}");
    }
}

/// "A non-blank FLAG or DECAY-FLAG value, in COMMON or DATA, must have no exponent": none is written, be it zero.
/// DECAY-FLAG needs no code, and a blank asks nothing.
#[test]
fn flags_have_no_exponent() {
    flags_judged(&[
        (&[(25, 23, "       1.+0")], "17 25 23 0 0 0 0"),
        (&[(25, 23, "    1. E 00")], "17 25 23 0 0 0 0"),
        (&[(25, 23, "       1.E0")], "17 25 23 0 0 0 0"),
        (&[(27, 23, "       1.+1")], "17 27 23 0 0 0 0"),
        (&[(23, 34, "DECAY-FLAG"), (25, 34, "77.5")], GOOD),
        (&[(23, 34, "DECAY-FLAG"), (25, 34, "-77.5")], GOOD),
        (&[(23, 34, "DECAY-FLAG"), (25, 34, "       2.-0")], "17 25 34 0 0 0 0"),
        (&[(23, 34, "DECAY-FLAG1"), (27, 34, "      +1.+0")], "17 27 34 0 0 0 0"),
        (&[(23, 34, "DECAY-DATA"), (25, 34, "       2.-0")], GOOD),
        (&[(9, 1, "DECAY-FLAG"), (11, 1, "      14.E0")], "17 11 1 0 0 0 0"),
    ]);
    let none =
        FLAGS.replace("FLAG       (", "STATUS     (").replace("1.         2.", "").replace("0.140      3.", "0.140");
    assert_eq!(
        judged(&entry(&none.replace("0110.0       +01.", "01"))),
        "0 0 0 2 5 3 7",
        "blank flags need no keyword"
    );
    let alone = flags(&[(26, 1, &" ".repeat(22))]);
    assert_eq!(judged(&alone), "0 0 0 2 5 3 10", "a flag is a number of its line");
}

/// "on the value record after 15, column as for 15": 15 anywhere on the record comes first.
#[test]
fn flags_come_after_15() {
    flags_judged(&[
        (&[(25, 1, "10"), (25, 3, " "), (25, 34, "4.")], "15 25 1 0 0 0 0"),
        (&[(25, 23, "1 "), (25, 34, "4.")], "15 25 23 0 0 0 0"),
        (&[(25, 23, "4."), (25, 34, "2 ")], "15 25 34 0 0 0 0"),
        (&[(25, 23, "4."), (25, 45, "2.")], "15 25 45 0 0 0 0"),
        (&[(25, 34, "4."), (26, 1, "X")], "17 25 34 0 0 0 0"),
        (&[(25, 1, "X"), (26, 23, "4.")], "15 25 1 0 0 0 0"),
        (&[(25, 34, "4."), (28, 12, "          4")], "17 25 34 0 0 0 0"),
    ]);
}

/// A column of the table is not a field of a record: with seven columns the seventh has its own heading.
#[test]
fn flags_past_the_sixth_column() {
    let mut seven = wide(7);
    put(&mut seven, 15, 1, "FLAG      1(1.)");
    put(&mut seven, 21, 1, "FLAG");
    assert_eq!(judged(&seven), "17 25 1 0 0 0 0", "1.07 equals no code");
    put(&mut seven, 25, 1, "1.00");
    assert_eq!(judged(&seven), "17 27 1 0 0 0 0", "nor does 2.07");
    put(&mut seven, 27, 1, "    ");
    assert_eq!(judged(&seven), "0 0 0 2 3 2 14");
    let mut seven = wide(7);
    put(&mut seven, 20, 1, "FLAG");
    put(&mut seven, 24, 1, "    ");
    put(&mut seven, 26, 1, "    ");
    assert_eq!(judged(&seven), "0 0 0 2 3 2 13", "the seventh column is none where the first is one");
}

/// With thirteen columns a line has three records, 26-28 and 29-31; column 13 stands alone on the third.
#[test]
fn flags_past_the_twelfth_column() {
    let mut thirteen = wide(13);
    put(&mut thirteen, 15, 1, "FLAG      1(1.)");
    put(&mut thirteen, 22, 1, "FLAG");
    assert_eq!(judged(&thirteen), "17 28 1 0 0 0 0", "1.13 equals no code");
    put(&mut thirteen, 28, 1, "1.00");
    assert_eq!(judged(&thirteen), "17 31 1 0 0 0 0", "nor does 2.13");
    put(&mut thirteen, 31, 1, "    ");
    assert_eq!(judged(&thirteen), "0 0 0 2 3 2 26");
    put(&mut thirteen, 22, 1, "DECAY-FLAG");
    put(&mut thirteen, 31, 1, "77.5");
    assert_eq!(judged(&thirteen), "0 0 0 2 3 2 27", "DECAY-FLAG needs no code");
    put(&mut thirteen, 31, 1, "       1.+0");
    assert_eq!(judged(&thirteen), "17 31 1 0 0 0 0");
    let mut eighteen = wide(18);
    put(&mut eighteen, 22, 56, "FLAG");
    assert_eq!(judged(&eighteen), "17 28 56 0 0 0 0", "1.18 equals no code");
}

/// "The copy leaves both kinds of column unaltered"; totals and questions still see the numbers.
#[test]
fn the_copy_leaves_flags_as_they_were() {
    let own = flags(&[(23, 34, "DECAY-FLAG"), (26, 34, "077.50")]);
    let mut copy = own.clone();
    canonical_copy(&own, &mut copy).unwrap();
    let mut due = own.clone();
    put(&mut due, 11, 1, "        14.");
    put(&mut due, 25, 1, "        10.       1.451.         2.");
    put(&mut due, 26, 1, "        20.        .143.         077.50");
    put(&mut due, 27, 1, "        30.        25.10.0       +01.");
    assert_eq!(String::from_utf8_lossy(&copy), String::from_utf8_lossy(&due));
    assert_eq!(judged(&copy), "0 0 0 2 5 3 13");
    for bytes in [&own, &copy] {
        assert_eq!(value(bytes, 2, DATA, 3, 3), number(false, 1, 1, 3), "10.0, with three digits in the copy, too");
        assert_eq!(value(bytes, 2, DATA, 2, 4), number(false, 775, -1, 4), "077.50");
        assert_eq!(value(bytes, 2, DATA, 3, 4), number(false, 1, 0, 1), "+01.");
    }
    assert_eq!(value(&own, 2, DATA, 2, 2), number(false, 14, -2, 3), "0.140");
    assert_eq!(value(&copy, 2, DATA, 2, 2), number(false, 14, -2, 2), ".14");
}

/// Changes of several places.
#[test]
fn larger_changes() {
    let mut bytes = changed(20, 1, " ANG");
    put(&mut bytes, 20, 33, "0");
    assert_eq!(judged(&bytes), "11 20 33 0 0 0 0", "11 comes before 12 wherever they stand");
    let mut bytes = changed(22, 1, "                      ");
    put(&mut bytes, 22, 60, "1.");
    assert_eq!(judged(&bytes), "15 22 1 0 0 0 0");
    assert_eq!(judged(&replaced("SUBENT        90001001", "SUBENT        90001002")), "9 2 12 0 0 0 0");
    let other = replaced("SUBENT        90001002", "SUBENT        90002002");
    assert_eq!(judged(&other), "5 13 67 0 0 0 0");
    let mut other = changed(13, 15, "90002");
    put(&mut other, 13, 67, "90002");
    assert_eq!(judged(&other), "9 13 12 0 0 0 0");
    for (number, verdict) in [("999", "9 13 12 0 0 0 0"), ("998", "0 0 0 2 3 2 6"), ("001", "9 13 12 0 0 0 0")] {
        assert_eq!(judged(&replaced("90001002", &format!("90001{number}"))), verdict);
    }
    let absent = "NOSUBENT      90001003   20240105\nENDENTRY             3";
    assert_eq!(judged(&replaced("ENDENTRY             2", absent)), "0 0 0 3 3 2 6");
    assert_eq!(judged(&replaced("ENDENTRY             2", &absent.replace("  3", "  2"))), "8 27 12 0 0 0 0");
    assert_eq!(judged(&replaced("ENDENTRY             2", &absent.replace("20240105", ""))), "7 26 23 0 0 0 0");
}

#[test]
fn lengths() {
    let mut bytes = sample();
    assert_eq!(judged(&bytes[..25 * 81]), "16 26 0 0 0 0 0");
    assert_eq!(judged(&bytes[..81]), "16 2 0 0 0 0 0");
    assert_eq!(judged(&[]), "1 0 0 0 0 0 0");
    assert_eq!(judged(&bytes[..26 * 81 - 1]), "1 0 0 0 0 0 0", "the last line feed is missing");
    bytes.extend_from_slice(&sample()[..81]);
    assert_eq!(judged(&bytes), "4 27 1 0 0 0 0");
    let longest = |records: usize| {
        let text = "\n".repeat(records - 26);
        let counts = SAMPLE
            .replace("2          2\nTITLE", &format!("2 {:10}\nTITLE", records - 24))
            .replace("ENDBIB               2\nCOMMON", &format!("ENDBIB     {:11}\nCOMMON", records - 24))
            .replace("ENDSUBENT            9", &format!("ENDSUBENT  {:11}", records - 17));
        entry(&counts.replace("TITLE      MADE SAMPLE\n", &format!("TITLE      MADE SAMPLE\n{text}")))
    };
    assert_eq!(judged(&longest(20_000)), "0 0 0 2 3 2 6", "20,000 records are allowed");
    assert_eq!(judged(&longest(20_001)), "1 0 0 0 0 0 0");
}

fn number(negative: bool, coefficient: u64, power: i32, digits: u32) -> Result<FieldRead, NoAnswer> {
    Ok(FieldRead { value: Value::Number(Decimal { negative, coefficient, power }), digits })
}

fn refused<T>(number: u32) -> Result<T, NoAnswer> {
    Err(NoAnswer { number, entry: None })
}

#[test]
fn values_of_the_sample() {
    let bytes = sample();
    assert_eq!(value(&bytes, 1, COMMON, 1, 1), number(false, 14, 0, 2));
    assert_eq!(value(&bytes, 2, DATA, 1, 1), number(false, 1, 1, 2));
    assert_eq!(value(&bytes, 2, DATA, 1, 2), number(false, 145, -3, 3));
    assert_eq!(value(&bytes, 2, DATA, 1, 3), Ok(FieldRead::BLANK));
    assert_eq!(value(&bytes, 2, DATA, 2, 2), number(false, 14, -2, 2));
    assert_eq!(value(&bytes, 2, DATA, 2, 3), number(false, 25, 0, 2));
    assert_eq!(value(&changed(23, 12, "0.0 "), 2, DATA, 2, 2), number(false, 0, 0, 0), "zero is not blank");
    for (subentry, section, line, column, refusal) in [
        (0, 1, 1, 1, 32),
        (3, 9, 9, 9, 32),
        (1002, 2, 1, 1, 32),
        (1, DATA, 1, 1, 33),
        (2, COMMON, 1, 1, 33),
        (2, 0, 0, 0, 33),
        (2, 3, 1, 1, 33),
        (1, COMMON, 2, 99, 34),
        (2, DATA, 0, 0, 34),
        (2, DATA, 3, 1, 34),
        (2, DATA, 2, 0, 35),
        (2, DATA, 2, 4, 35),
        (2, DATA, 2, u32::MAX, 35),
    ] {
        assert_eq!(value(&bytes, subentry, section, line, column), refused(refusal));
    }
    let entry = Some(Refusal::new(16, 26, 0));
    assert_eq!(value(&bytes[..25 * 81], 9, 9, 9, 9), Err(NoAnswer { number: 31, entry }));
    let absent = replaced("ENDENTRY             2", "NOSUBENT      90001003   20240105\nENDENTRY             3");
    assert_eq!(value(&absent, 3, DATA, 1, 1), refused(32), "NOSUBENT has no tables");
}

#[test]
fn headings_and_units_of_the_sample() {
    let bytes = sample();
    let part = heading(&bytes, 2, DATA, 2).unwrap();
    assert_eq!(part, Part { offset: 19 * 81 + 11, length: 10, pointer: b'1' });
    assert_eq!(part.of(&bytes), b"DATA      ");
    let part = unit(&bytes, 2, DATA, 3).unwrap();
    assert_eq!(part, Part { offset: 20 * 81 + 22, length: 10, pointer: b'2' }, "the heading's pointer beside a unit");
    assert_eq!(part.of(&bytes), b"MB/SR     ");
    assert_eq!(heading(&bytes, 1, COMMON, 1).map(|part| part.pointer), Ok(b' '));
    assert_eq!(heading(&bytes, 2, DATA, 4), refused(35));
    assert_eq!(unit(&bytes, 2, DATA, 0), refused(35));
    assert_eq!(heading(&bytes, 2, 3, 1), refused(33));
    assert_eq!(unit(&bytes, 3, 3, 0), refused(32));
}

#[test]
fn passages_of_the_sample() {
    let bytes = sample();
    let records =
        |first: usize, count: usize, pointer: u8| Ok(Part { offset: first * 81, length: count * 81, pointer });
    assert_eq!(passage(&bytes, 2, b"REACTION  ", b'1'), records(14, 1, b'1'));
    assert_eq!(passage(&bytes, 2, b"REACTION  ", b'2'), records(15, 1, b'2'));
    assert_eq!(passage(&bytes, 2, b"REACTION  ", b' '), refused(36), "its record bears pointer 1");
    assert_eq!(passage(&bytes, 1, b"AUTHOR    ", b' '), records(4, 1, b' '));
    assert_eq!(passage(&bytes, 2, b"AUTHOR    ", b' '), refused(36), "001's passages are 001's");
    assert_eq!(passage(&bytes, 1, b"          ", b' '), refused(36));
    assert_eq!(passage(&bytes, 3, b"AUTHOR    ", b' '), refused(32));
    let without = entry(&SAMPLE.replace(
        "BIB                  2          2\nTITLE      MADE SAMPLE\nAUTHOR     (A.B.NAME)\nENDBIB               2",
        "NOBIB",
    ).replace("ENDSUBENT            9", "ENDSUBENT            6"));
    assert_eq!(passage(&without, 1, b"AUTHOR    ", b' '), refused(33));
    // "A pointer carried past the next keyword" is a reading that only looks right.
    let text = "REACTION  1(A)\n           more\n          2(B)\nSTATUS     (C)\n           more";
    let bytes = entry(
        &SAMPLE
            .replace("REACTION  1(26-FE-0(N,EL),,DA)\n          2(26-FE-0(N,INL),,DA)", text)
            .replace("BIB                  1          2", "BIB                  2          5")
            .replace("ENDBIB               2\nNOCOMMON", "ENDBIB               5\nNOCOMMON")
            .replace("ENDSUBENT           11", "ENDSUBENT           14"),
    );
    assert_eq!(judged(&bytes), "0 0 0 2 4 2 6");
    assert_eq!(passage(&bytes, 2, b"REACTION  ", b'1'), records(14, 2, b'1'));
    assert_eq!(passage(&bytes, 2, b"REACTION  ", b'2'), records(16, 1, b'2'));
    assert_eq!(passage(&bytes, 2, b"STATUS    ", b' '), records(17, 2, b' '));
    assert_eq!(passage(&bytes, 2, b"STATUS    ", b'2'), refused(36));
}

/// With seven columns, the second record of a line is no new point.
#[test]
fn tables_of_several_records_to_a_line() {
    for (columns, numbers) in [(7_u32, 15), (12, 25), (18, 37)] {
        let bytes = wide(columns as usize);
        let k = columns.div_ceil(6) as usize;
        assert_eq!(judged(&bytes), format!("0 0 0 2 3 2 {numbers}"));
        for line in 1..=2 {
            for column in 1..=columns {
                let (tens, ones) = (column / 10, column % 10);
                let mut expected =
                    Decimal { negative: false, coefficient: u64::from(100 * line + 10 * tens + ones), power: -2 };
                while expected.coefficient % 10 == 0 {
                    expected =
                        Decimal { coefficient: expected.coefficient / 10, power: expected.power + 1, ..expected };
                }
                let read = FieldRead { value: Value::Number(expected), digits: 3 };
                assert_eq!(value(&bytes, 2, DATA, line, column), Ok(read));
            }
        }
        assert_eq!(value(&bytes, 2, DATA, 3, 1), refused(34));
        assert_eq!(value(&bytes, 2, DATA, 1, columns + 1), refused(35));
        let last = (columns - 1) as usize;
        let offset = (19 + last / 6) * 81 + 11 * (last % 6);
        assert_eq!(heading(&bytes, 2, DATA, columns), Ok(Part { offset, length: 10, pointer: b' ' }));
        assert_eq!(unit(&bytes, 2, DATA, columns).map(|part| part.offset), Ok(offset + k * 81));
    }
}

/// "Marked to be proved, this paragraph (right-adjusted unless shown)": field, value, digits, canonical field.
#[test]
fn the_marked_numbers() {
    for (field, coefficient, power, digits, canonical) in [
        ("0.14", 14, -2, 2, ".14"),
        ("1.45-1", 145, -3, 3, ".145"),
        ("1.40 E 00", 14, -1, 3, "1.4"),
        ("1000.", 1, 3, 4, "1.+3"),
        ("100.", 1, 2, 3, "100."),
        ("1.-3", 1, -3, 1, ".001"),
        ("1.+100", 1, 100, 1, "10.+99"),
        ("-.0", 0, 0, 0, "0."),
        (".12345678-9", 12_345_678, -17, 8, ".12345678-9"),
        (".1-99999999", 1, -100_000_000, 1, ".1-99999999"),
    ] {
        let field = format!("{field:>11}");
        assert_eq!(read_number(field.as_bytes()), number(false, coefficient, power, digits), "{field}");
        let mut written = [0; 11];
        write_number(Decimal { negative: false, coefficient, power }, &mut written).unwrap();
        assert_eq!(String::from_utf8_lossy(&written), format!("{canonical:>11}"));
    }
    for field in ["         14", "          .", "       + 1.", "     1.4-1 ", "       1.5E"] {
        assert_eq!(read_number(field.as_bytes()), refused(15), "{field}");
    }
    assert_eq!(read_number(b"           "), Ok(FieldRead::BLANK));
    assert_eq!(read_number(b"1."), refused(40));
    assert_eq!(read_number(b""), refused(40));
    for (coefficient, power) in [(12_345_678_901, 0), (1, 100_000_000), (10_000_000_000_000_000_000, i32::MAX)] {
        let mut written = [b'#'; 11];
        assert_eq!(write_number(Decimal { negative: false, coefficient, power }, &mut written), refused(41));
        assert_eq!(written, [b'#'; 11], "a refused call stores nothing");
    }
    let mut short = [b'#'; 10];
    assert_eq!(
        write_number(Decimal { negative: false, coefficient: 12_345_678_901, power: 0 }, &mut short),
        refused(40)
    );
    assert_eq!(short, [b'#'; 10]);
}

/// M-104: "the count of digits from the first non-zero one to the last written (0 for zero): 0.140 gives 3, 100. gives
/// 3, 1.+2 gives 1".
#[test]
fn digits_as_the_author_wrote_them() {
    for (field, digits) in [
        ("0.140", 3),
        ("100.", 3),
        ("1.+2", 1),
        // zeros in front do not count, those behind do, on both sides of the point
        ("0.14", 2),
        (".0010", 2),
        ("0010.0", 3),
        ("10.01", 4),
        ("100.+3", 3),
        // none of the exponent, however it is written
        ("1.+10", 1),
        ("1.E 10", 1),
        ("1.40 E-12", 3),
        // a sign is no digit
        ("-1.0", 2),
        ("+1.0", 2),
        // zero has none
        ("0.", 0),
        ("-.0", 0),
        ("000.000", 0),
        ("0.E99999999", 0),
        // eleven columns, one of them the point
        ("1234567890.", 10),
        (".0000000001", 1),
        (".1000000000", 10),
    ] {
        let read = read_number(format!("{field:>11}").as_bytes()).unwrap();
        assert_eq!(read.digits, digits, "{field}");
    }
    // "the claim that the canonical copy answers alike leaves this count out"
    let bytes = changed(23, 12, "0.140");
    let mut copy = bytes.clone();
    assert_eq!(canonical_copy(&bytes, &mut copy), Ok(()));
    assert_eq!(value(&bytes, 2, DATA, 2, 2), number(false, 14, -2, 3));
    assert_eq!(value(&copy, 2, DATA, 2, 2), number(false, 14, -2, 2), "the copy has .14");
}

/// Spellings that are told apart by a hair.
#[test]
fn spellings() {
    for (field, coefficient, power, digits) in [
        ("1.         ", 1, 0, 1),
        ("     +1.   ", 1, 0, 1),
        ("   1.40 -01", 14, -2, 3),
        ("     1.E+05", 1, 5, 1),
        ("      1.E 5", 1, 5, 1),
        (" 1.  E    5", 1, 5, 1),
        ("0.+99999999", 0, 0, 0),
        ("00000000.10", 1, -1, 2),
        ("9999999999.", 9_999_999_999, 0, 10),
        ("1.-00000003", 1, -3, 1),
    ] {
        assert_eq!(read_number(field.as_bytes()), number(false, coefficient, power, digits), "{field}");
    }
    for field in [
        "1.4E -1", "1. 5", "1.4e1", "1.4D1", "1.2.3", "+ .1", "1.+", "1.E", "1.E+", "1.E+ 1", "1.- 1", "E1", "1.5 5",
        "--1.", "+-1.", "1", "-", "1.E++1", "1.EE1", "\t1.", "1.\n",
    ] {
        assert_eq!(read_number(format!("{field:>11}").as_bytes()), refused(15), "{field}");
    }
}

/// Where the exponent grows by a digit, and where plain and exponent are equally long.
#[test]
fn canonical_fields_at_the_edges() {
    for (negative, coefficient, power, canonical) in [
        (false, 1, 10, "10.+9"),
        (false, 12, 100, "120.+99"),
        (false, 1, 11, "1.+11"),
        (false, 1, -4, "1.-4"),
        (false, 1, -10, ".1-9"),
        (false, 1, -11, "1.-11"),
        (false, 99, -11, ".99-9"),
        (false, 99, -12, "99.-12"),
        (true, 25, 0, "-25."),
        (true, 1, -3, "-.001"),
        (false, 9_999_999_999, 0, "9999999999."),
        (false, 10, -100_000_001, ".1-99999999"),
        (true, 0, 77, "0."),
    ] {
        let mut written = [0; 11];
        write_number(Decimal { negative, coefficient, power }, &mut written).unwrap();
        assert_eq!(String::from_utf8_lossy(&written), format!("{canonical:>11}"), "{coefficient}E{power}");
    }
}

#[test]
fn the_copy_of_the_sample() {
    let bytes = sample();
    let mut buffer = vec![b'#'; bytes.len() + 3];
    assert_eq!(canonical_copy(&bytes, &mut buffer), Ok(()));
    let (copy, tail) = buffer.split_at(bytes.len());
    assert_eq!(tail, b"###");
    let mut expected = sample();
    put(&mut expected, 10, 1, "        14.");
    put(&mut expected, 22, 1, "        10.       .145           ");
    put(&mut expected, 23, 1, "        20.        .14        25.");
    assert_eq!(copy, expected);
    let mut short = vec![b'#'; bytes.len() - 1];
    assert_eq!(canonical_copy(&bytes, &mut short), refused(37));
    assert!(short.iter().all(|&byte| byte == b'#'));
    let entry = Some(Refusal::new(1, 0, 0));
    assert_eq!(canonical_copy(&[], &mut short), Err(NoAnswer { number: 31, entry }));
}

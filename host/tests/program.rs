//! What x4 prints, and how it ends.

mod common;

use common::{changed, end_trans, entry, flags, put, replaced, sample, trans, transmission, wide, FLAGS, SAMPLE};
use glockenbeacon::generate::{large, Random, Shape};
use std::io::Write;
use std::path::PathBuf;
use std::process::{Command, Output, Stdio};

fn run(arguments: &[&str], input: &[u8]) -> Output {
    let mut command = Command::new(env!("CARGO_BIN_EXE_x4"));
    let streams = command.args(arguments).stdin(Stdio::piped()).stdout(Stdio::piped()).stderr(Stdio::piped());
    let mut child = streams.spawn().unwrap();
    let mut pipe = child.stdin.take().unwrap();
    let input = input.to_vec();
    let writer = std::thread::spawn(move || drop(pipe.write_all(&input)));
    let output = child.wait_with_output().unwrap();
    writer.join().unwrap();
    output
}

fn printed(output: &Output) -> String {
    String::from_utf8(output.stdout.clone()).unwrap()
}

fn complained(output: &Output) -> String {
    String::from_utf8(output.stderr.clone()).unwrap()
}

/// Writes a file for one test.
fn file(name: &str, content: &[u8]) -> String {
    let path = PathBuf::from(env!("CARGO_TARGET_TMPDIR")).join(name);
    std::fs::write(&path, content).unwrap();
    path.to_str().unwrap().to_string()
}

#[test]
fn a_good_entry_is_judged() {
    let output = run(&["judge"], &sample());
    let words = "0 0 0 2 3 2 6\naccepted: 2 subentries, 3 keywords, 2 DATA lines, 6 numbers\n";
    assert_eq!((printed(&output).as_str(), output.status.code()), (words, Some(0)));
    assert_eq!(printed(&run(&["judge", "-"], &sample())), words);
    assert_eq!(complained(&output), "");
}

#[test]
fn a_bad_entry_is_shown_with_a_mark() {
    let output = run(&["judge"], &changed(22, 12, "       1.5E"));
    let words = "\
15 22 12 0 0 0 0
refusal 15, record 22, column 12: the value is malformed, or blank where it may not be
  22 | 10.               1.5E                                            9000100200010
     |            ^~~~~~~~~~~
  expected: a number: blanks, a sign or none, digits with one point; then blanks, or an exponent that ends the field: \
a sign and digits, or E and digits
  found:    '       1.5E'
  below:    4 records, which cannot change this refusal
";
    assert_eq!((printed(&output).as_str(), output.status.code()), (words, Some(1)));
}

/// The sample with 2 keywords announced in 002, where there is 1, and 7 records said to be there.
fn both_untrue() -> Vec<u8> {
    let mut entry = changed(14, 22, "2");
    put(&mut entry, 17, 22, "7");
    entry
}

/// The sample with another number of a subentry, on the record that opens it.
fn numbered(record: usize, digits: &str) -> Vec<u8> {
    let mut entry = changed(record, 20, digits);
    put(&mut entry, record, 72, digits);
    entry
}

/// One damaged sample for each refusal: what was expected, and what was found.
#[test]
fn every_refusal_is_explained() {
    let sample = sample();
    let cases: Vec<(Vec<u8>, &str, &str)> = vec![
        (
            sample[..100].to_vec(),
            "1 to 20,000 records of 81 bytes each, 80 columns and a line feed",
            "100 bytes: 1 record and 19 bytes",
        ),
        (changed(3, 81, "\r"), "a line feed in byte 81", "a carriage return"),
        (changed(3, 40, "#"), "a blank, a letter, a digit or one of + - . ) ( * / = ' , % < > : ; ! ? &", "'#'"),
        (changed(2, 1, "BIB    "), "SUBENT", "'BIB        '"),
        (changed(5, 1, "ENDBIB"), "record 2 of the 2 that BIB on record 3 announces", "'ENDBIB     '"),
        (changed(3, 33, "3"), "record 3 of the 3 that BIB on record 3 announces", "'ENDBIB     '"),
        (
            changed(19, 33, "3"),
            "record 5 of the 5 that DATA on record 19 (3 columns, 3 lines) announces",
            "'ENDDATA    '",
        ),
        (
            changed(19, 33, "1"),
            "ENDDATA, as the 3 records of DATA on record 19 (3 columns, 1 line) end here",
            "'20.        '",
        ),
        (changed(16, 67, "90002"), "'90001002'", "'90002002'"),
        (changed(16, 75, "00003"), "'00004'", "'00003'"),
        (changed(1, 23, "   20241305"), "3 blanks and a date YYYYMMDD, month 01-12, day 01-31", "'   20241305'"),
        (changed(3, 12, "          x"), "a count: blanks, then digits up to the last column", "'          x'"),
        (changed(3, 22, "0"), "at least 1 keyword", "'          0'"),
        (changed(3, 33, "1"), "at least 2 records, one for each keyword", "'          1'"),
        (changed(7, 22, "0"), "1 to 18 columns", "'          0'"),
        (changed(7, 33, "4"), "3 records for 1 column", "'          4'"),
        (changed(19, 21, "19"), "1 to 18 columns", "'         19'"),
        (changed(19, 33, "0"), "1 to 20000 lines", "'          0'"),
        (changed(6, 22, "1"), "2, the records between", "'          1'"),
        (changed(14, 22, "2"), "1 keyword in N1 of BIB on record 14, which says 2", "'          2'"),
        (both_untrue(), "2, the records between", "'          7'"),
        (changed(26, 22, "3"), "2, the subentries", "'          3'"),
        (numbered(2, "002"), "accession '90001' and number 001, as this is the first subentry", "'   90001002'"),
        (numbered(13, "001"), "accession '90001' and a number above 001, at most 998", "'   90001001'"),
        (changed(5, 1, "TITLE "), "a keyword that this BIB does not have yet; record 4 has this one", "'TITLE     '"),
        (changed(4, 1, "     "), "a keyword, as this is the first record of BIB", "blanks"),
        (changed(16, 11, "1"), "a pointer that is new under its keyword; record 15 has this one", "'1'"),
        (changed(16, 11, "0"), "a pointer, 1-9 or A-Z, or a blank", "'0'"),
        (changed(20, 1, " ANG"), "a heading: a word of at most ten columns", "' ANG       '"),
        (changed(21, 22, "1"), "a blank in the unit's eleventh column", "'MB/SR     1'"),
        (
            changed(20, 1, "EN "),
            "a heading that COMMON of 001 does not have; record 8, column 1 has this one",
            "'EN         '",
        ),
        (
            changed(20, 33, "1"),
            "a heading that is new here, as this one may not repeat in DATA; record 20, column 12 has this one",
            "'DATA      1'",
        ),
        (
            changed(20, 23, "ANG        "),
            "a heading that is new here, or one beside its equals; record 20, column 1 has this one",
            "'ANG        '",
        ),
        (
            changed(20, 33, "3"),
            "a pointer of BIB or COMMON, in this subentry or 001 (there are '1' '2'), not '3'",
            "'DATA      3'",
        ),
        (changed(10, 1, "   "), "a number: COMMON values are never blank", "blanks"),
        (changed(22, 1, &" ".repeat(22)), "at least one number on the line that ends here", "blanks"),
        (sample[..25 * 81].to_vec(), "SUBENT or NOSUBENT or ENDENTRY", "the end of the input"),
        (
            sample[..22 * 81].to_vec(),
            "record 4 of the 4 that DATA on record 19 (3 columns, 2 lines) announces",
            "the end of the input",
        ),
    ];
    for (entry, expected, found) in cases {
        let output = run(&["judge"], &entry);
        let words = printed(&output);
        assert!(words.contains(&format!("\n  expected: {expected}\n  found:    {found}\n")), "{words}");
        assert_eq!(output.status.code(), Some(1));
    }
}

/// M-111: how many records stand below, where the refusal depends on none of them.
#[test]
fn records_below_a_refusal_are_counted() {
    let below = |input: &[u8]| {
        let words = printed(&run(&["judge"], input));
        words.lines().find(|line| line.contains("below")).map(str::to_string)
    };
    let line = |records: &str| Some(format!("  below:    {records}, which cannot change this refusal"));
    assert_eq!(below(&changed(1, 81, " ")), line("25 records"));
    assert_eq!(below(&flags(&[(25, 34, "4.")])), line("5 records"));
    assert_eq!(below(&changed(25, 22, "2")), line("1 record"));
    // The last record; the length; the end of the records; no refusal.
    for input in [changed(26, 22, "3"), vec![], sample()[..100].to_vec(), sample()[..25 * 81].to_vec(), sample()] {
        assert_eq!(below(&input), None);
    }
    assert_eq!(below(&[&sample()[..], &[b' '; 81]].concat()), None);
    let json = printed(&run(&["judge", "--json"], &changed(1, 81, " ")));
    assert!(json.contains("\"refusal\":2,") && !json.contains("below"), "{json}");
    let complaint = complained(&run(&["canon"], &changed(25, 22, "2")));
    assert!(complaint.ends_with(&format!("{}\n", line("1 record").unwrap())), "{complaint}");
    let help = printed(&run(&["help", "judge"], b""));
    assert!(help.contains("a refusal other than 1 and 16 depends on nothing below its record"), "{help}");
    assert!(help.contains("Without --json its\nlast line says how many records stand below, if any do."), "{help}");
}

/// M-101: which headings may repeat is said where one is refused, and by help.
#[test]
fn headings_that_may_repeat_are_named() {
    let common =
        "COMMON               2          3\nHL         HL\nSEC        D\n1.         2.\nENDCOMMON            3\n";
    let own = replaced("NOCOMMON\n", common);
    let words = printed(&run(&["judge"], &own));
    assert!(words.starts_with("13 19 12 0 0 0 0\n"), "{words}");
    assert!(words.contains("as this one may not repeat in COMMON; record 19, column 1 has this one\n"), "{words}");
    assert!(
        words.contains("  note:     E-LVL, EN-RES, ..-ERR, ..-RSL and ANG.. may repeat, and in DATA FLAG and HL..;")
    );
    let common = "COMMON               1          3\nANG\nADEG\n1.\nENDCOMMON            3\n";
    let own = replaced("NOCOMMON\n", common);
    let words = printed(&run(&["judge"], &own));
    assert!(
        words.contains("  expected: a heading that COMMON does not have; record 19, column 1 has this one\n"),
        "{words}"
    );
    let help = printed(&run(&["help", "judge"], b""));
    assert!(
        help.contains("E-LVL, EN-RES,\nwords ending in -ERR or -RSL and words starting with ANG may repeat"),
        "{help}"
    );
}

/// M-105: which of the two faults a flag has, which codes there are, and what a code is.
#[test]
fn flags_are_explained() {
    let exponent = printed(&run(&["judge"], &flags(&[(25, 34, "       2.-0")])));
    let words = "17 25 34 0 0 0 0\n\
                 refusal 17, record 25, column 34: the number under FLAG or DECAY-FLAG has an exponent, or that under \
                 FLAG equals no code\n";
    assert!(exponent.starts_with(words), "{exponent}");
    let words = "  expected: a number without exponent\n  found:    '       2.-0'\n";
    let below = "  below:    5 records, which cannot change this refusal\n";
    let due = |heading: &str| format!("{words}  note:     a number under {heading} has no exponent\n{below}");
    assert!(exponent.ends_with(&due("FLAG")), "{exponent}");
    let decay = printed(&run(&["judge"], &flags(&[(23, 34, "DECAY-FLAG"), (25, 34, "       2.-0")])));
    assert!(decay.ends_with(&due("DECAY-FLAG")), "{decay}");
    let missing = printed(&run(&["judge"], &flags(&[(25, 34, "4.")])));
    let words = [
        "  25 | 10.        1.45       1.         4.                               9000100200012",
        "     |                                  ^~~~~~~~~~~",
        "  expected: a number that equals one of the codes under FLAG: (1.), (2.), (03.), (10.)",
        "  found:    '4.         '",
        "  note:     a code is ( in column 12, one digit at least, a point and ), as in (2.), under the keyword FLAG of this \
         subentry or of 001",
    ];
    let words = words.map(|line| format!("{line}\n")).concat() + below;
    assert!(missing.ends_with(&words), "{missing}");
    let first = printed(&run(&["judge"], &flags(&[(6, 12, "(1)"), (9, 1, "FLAG      1")])));
    assert!(first.starts_with("17 11 1 0 0 0 0\n"), "{first}");
    assert!(first.contains("  expected: a number that equals a code under FLAG; there is none\n"), "{first}");
    let one = printed(&run(&["judge"], &flags(&[(9, 1, "FLAG      1")])));
    assert!(one.contains("  expected: a number that equals the code under FLAG: (1.)\n"), "{one}");
    let many = (1..=14).map(|code| format!("           ({code}.)\n")).collect::<String>();
    let many = FLAGS
        .replace("          1(10.) WITH A POINTER\n", &many)
        .replace("BIB                  2          4", "BIB                  2         17")
        .replace("10.0       +01.", "99.0       +01.");
    let many = printed(&run(&["judge"], &entry(&many.replace("ENDBIB               4", "ENDBIB              17"))));
    // (1.), (2.) and (3.) once more are not listed.
    let twelve = "(1.), (2.), (03.), (4.), (5.), (6.), (7.), (8.), (9.), (10.), (11.), (12.)";
    assert!(many.contains(&format!("codes under FLAG: {twelve} and 2 more\n")), "{many}");
    let (twenty, longest) = ("12345678901234567890", "(1234567890123456789012345678901234567890123456789052.)");
    let long = flags(&[(17, 12, &format!("({twenty}.)")), (18, 12, longest), (19, 12, "(0010.)"), (25, 34, "10.0")]);
    let long = printed(&run(&["judge"], &long));
    assert!(long.starts_with("17 26 23 0 0 0 0\n"), "{long}");
    let words = format!("codes under FLAG: (1.), ({twenty}.), (12345678..56789052.), (0010.)\n");
    assert!(long.contains(&words), "{long}");
    let help = printed(&run(&["help", "judge"], b""));
    assert!(
        help.contains("or DECAY-FLAG has no exponent. A number under FLAG equals a code: 2. equals (2.)"),
        "{help}"
    );
    let json = printed(&run(&["judge", "--json"], &flags(&[(25, 34, "4.")])));
    assert!(json.contains("\"refusal\":17,\"record\":25,\"column\":34,"), "{json}");
}

/// Flags are copied as they stand, and compared by value like other numbers.
#[test]
fn flags_are_copied_as_they_stand() {
    let copy = run(&["canon"], &flags(&[])).stdout;
    let copy = String::from_utf8(copy).unwrap();
    let line = copy.lines().nth(26).unwrap();
    assert!(line.starts_with("        30.        25.10.0       +01.  "), "{line}");
    assert!(printed(&run(&["canon", "--help"], b"")).contains("Columns under FLAG and DECAY-FLAG stay as they were"));
    let (one, other) = (file("flags-1.x4", &flags(&[])), file("flags-2.x4", &flags(&[(27, 34, "1.  ")])));
    assert_eq!(printed(&run(&["compare", &one, &other], b"")), "same: 2 tables, 12 numbers\n");
    let third = file("flags-3.x4", &flags(&[(27, 34, "2.  ")]));
    let words = "subentry 90001002, DATA, line 3, column 4: first 1, second 2\n";
    assert_eq!(printed(&run(&["compare", &one, &third], b"")), words);
}

/// A table with a heading on three columns, as document 001, V.8 prints it: the columns go by their places.
#[test]
fn repeated_headings_are_columns_like_others() {
    let start = SAMPLE.find("ANG ").unwrap();
    let old = &SAMPLE[start..SAMPLE.find("ENDDATA").unwrap()];
    let new = "HL         HL         HL\nSEC        D          YR\n           15.\n                      28.3\n";
    let entry = replaced(old, new);
    let words = printed(&run(&["tables"], &entry));
    let table = "90001002,DATA,heading,HL,HL,HL\n90001002,DATA,pointer,,,\n90001002,DATA,unit,SEC,D,YR\n\
                 90001002,DATA,1,,15,\n90001002,DATA,2,,,28.3\n";
    assert!(words.ends_with(table), "{words}");
}

#[test]
fn lines_that_are_no_records_are_noted() {
    let trimmed: String =
        String::from_utf8(sample()).unwrap().lines().map(|line| format!("{}\n", line.trim())).collect();
    let words = printed(&run(&["judge"], trimmed.as_bytes()));
    assert!(words.contains("  note:     line 1 has 79 columns; a record has 80 columns and a line feed\n"), "{words}");
    let returns = String::from_utf8(sample()).unwrap().replace('\n', "\r\n");
    let words = printed(&run(&["judge"], returns.as_bytes()));
    assert!(words.contains("  note:     line 1 ends with a carriage return; a record has"), "{words}");
    // Where the length is that of whole records, the line of the refused record is noted, as far as that record tells.
    let noted = |input: &[u8]| {
        let words = printed(&run(&["judge"], input));
        words.lines().find_map(|line| line.strip_prefix("  note:     ")).map(str::to_string)
    };
    let line = |is: &str| Some(format!("line 3 {is}; a record has 80 columns and a line feed"));
    assert_eq!(noted(&changed(3, 81, "\r")), line("has a carriage return in column 81"));
    assert_eq!(noted(&changed(3, 81, " ")), line("has more than 80 columns"));
    assert_eq!(noted(&changed(3, 41, "\n")), line("has 40 columns"));
    let mut both = changed(3, 41, "#");
    common::put(&mut both, 7, 41, "\n");
    assert_eq!(noted(&both), None, "line 7 stands below");
}

#[test]
fn several_entries_in_one_file_are_refused_clearly() {
    let output = run(&["judge"], &[sample(), sample(), sample()].concat());
    let words = printed(&output);
    assert!(words.starts_with("4 27 1 0 0 0 0\n"), "{words}");
    let below = |records| format!("  below:    {records} records, which cannot change this refusal\n");
    let note =
        "  note:     the input holds 3 entries; one entry is judged, or a transmission, with TRANS before its entries \
                and ENDTRANS behind them\n";
    assert!(words.ends_with(&format!("{note}{}", below(51))), "{words}");
    assert_eq!(output.status.code(), Some(1));
    // Where TRANS is not spelled so, it is no transmission.
    let mut file = transmission(&[&sample(), &sample()]);
    put(&mut file, 1, 1, "TRANZ");
    let words = printed(&run(&["judge"], &file));
    assert!(
        words.starts_with("4 1 1 0 0 0 0\n") && words.contains("  note:     the input holds 2 entries; "),
        "{words}"
    );
    // A transmission of several entries has no such note.
    let words = printed(&run(&["judge"], &[trans(), sample(), sample(), sample()].concat()));
    assert!(words.starts_with("16 80 0 0 0 0 0 0\n") && !words.contains("note:"), "{words}");
}

/// The sample twice between TRANS and ENDTRANS, with a change: record, column, text.
fn twice(at: usize, column: usize, text: &str) -> Vec<u8> {
    let mut file = transmission(&[&sample(), &sample()]);
    put(&mut file, at, column, text);
    file
}

#[test]
fn a_good_transmission_is_judged() {
    let output = run(&["judge"], &twice(1, 80, " "));
    let words = "0 0 0 4 6 4 12 0\naccepted: 2 entries, 4 subentries, 6 keywords, 4 DATA lines, 12 numbers\n";
    assert_eq!((printed(&output).as_str(), output.status.code()), (words, Some(0)));
    let one = printed(&run(&["judge"], &transmission(&[&sample()])));
    assert!(one.ends_with("accepted: 1 entry, 2 subentries, 3 keywords, 2 DATA lines, 6 numbers\n"), "{one}");
}

/// The entry is named by its ordinal and accession, and the record in the transmission and in the entry. All records
/// that the words name are counted from TRANS.
#[test]
fn a_bad_transmission_is_shown_with_its_entry() {
    let output = run(&["judge"], &twice(47, 33, "1"));
    let words = "\
13 47 23 0 0 0 0 2
refusal 13, entry 2, record 47, column 23: the heading is repeated where it may not be
  47 | ANG        DATA      1DATA      1                                 9000100200008
     |                       ^~~~~~~~~~~
  where:    entry 2 (accession 90001), record 20 of the entry, 47 of the transmission
  expected: a heading that is new here, as this one may not repeat in DATA; record 47, column 12 has this one
  found:    'DATA      1'
  note:     E-LVL, EN-RES, ..-ERR, ..-RSL and ANG.. may repeat, and in DATA FLAG and HL..; all equal ones side by side in \
one section
  below:    7 records, which cannot change this refusal
";
    assert_eq!((printed(&output).as_str(), output.status.code()), (words, Some(1)));
    for (file, due) in [
        (twice(32, 1, "TITLE "), "record 31 has this one\n"),
        (twice(30, 33, "3"), "record 3 of the 3 that BIB on record 30 announces\n"),
        (twice(46, 33, "1"), "as the 3 records of DATA on record 46 (3 columns, 1 line) end here\n"),
        (twice(41, 22, "2"), "1 keyword in N1 of BIB on record 41, which says 2\n"),
        (twice(43, 11, "1"), "record 42 has this one\n"),
        (twice(30, 81, "\r"), "line 30 has a carriage return in column 81; a record has 80 columns and a line feed\n"),
    ] {
        let words = printed(&run(&["judge"], &file));
        assert!(words.contains(due) && words.contains("  where:    entry 2 (accession 90001), record "), "{words}");
    }
    // An accession that is none is not named.
    let words = printed(&run(&["judge"], &twice(28, 18, "x")));
    assert!(words.contains("  where:    entry 2, record 1 of the entry, 28 of the transmission\n"), "{words}");
}

/// What is refused outside the entries, or where one has not ended: expected, found and noted.
#[test]
fn transmissions_are_explained() {
    let whole = transmission(&[&sample()]);
    let open = sample()[..25 * 81].to_vec();
    let begun = |ordinal, record| {
        format!("entry {ordinal} (accession 90001) begins on record {record} and has no ENDENTRY yet")
    };
    let long = large(&mut Random::seeded(1), Shape::Text, 20_001);
    let cases: Vec<(Vec<u8>, &str, &str, Option<String>)> = vec![
        (
            whole[..100].to_vec(),
            "1 to 200,000 records of 81 bytes each, 80 columns and a line feed",
            "100 bytes: 1 record and 19 bytes",
            Some("line 2 has 19 columns; a record has 80 columns and a line feed".into()),
        ),
        (twice(1, 18, "X"), "7 blanks and the file identifier: 4 capitals or digits", "'      XX001'", None),
        (twice(1, 30, "13"), "3 blanks and a date YYYYMMDD, month 01-12, day 01-31", "'   20241305'", None),
        (twice(54, 22, "."), "a count: blanks, then digits up to the last column", "'          .'", None),
        (twice(54, 22, "3"), "2, the entries", "'          3'", None),
        (twice(54, 70, "#"), "a blank, a letter, a digit or one of + - . ) ( * / = ' , % < > : ; ! ? &", "'#'", None),
        (
            [trans(), end_trans(0)].concat(),
            "ENTRY",
            "'ENDTRANS   '",
            Some("a transmission has one entry at least".into()),
        ),
        (twice(28, 1, "X"), "ENTRY or ENDTRANS", "'XNTRY      '", None),
        (twice(2, 1, "X"), "ENTRY", "'XNTRY      '", None),
        ([whole.clone(), trans()].concat(), "nothing: a transmission ends with ENDTRANS", "'TRANS      '", None),
        (trans(), "ENTRY", "the end of the input", None),
        (whole[..27 * 81].to_vec(), "ENTRY or ENDTRANS", "the end of the input", None),
        (
            [trans(), sample(), open.clone()].concat(),
            "SUBENT or NOSUBENT or ENDENTRY",
            "the end of the input",
            Some(begun(2, 28)),
        ),
        (transmission(&[&open]), "SUBENT or NOSUBENT or ENDENTRY", "'ENDTRANS   '", Some(begun(1, 2))),
        (
            transmission(&[&sample(), &open, &sample()]),
            "SUBENT or NOSUBENT or ENDENTRY",
            "'ENTRY      '",
            Some(begun(2, 28)),
        ),
        (transmission(&[&long]), "nothing: an entry has 20,000 records at the most", "'ENDENTRY   '", None),
    ];
    for (file, expected, found, note) in cases {
        let output = run(&["judge"], &file);
        let words = printed(&output);
        let lines = format!("  expected: {expected}\n  found:    {found}\n");
        let noted = words.lines().find_map(|line| line.strip_prefix("  note:     ")).map(str::to_string);
        assert!(words.contains(&lines) && noted == note, "{words}");
        assert_eq!(output.status.code(), Some(1));
    }
}

#[test]
fn transmissions_as_json() {
    let words = printed(&run(&["judge", "--json"], &twice(1, 80, " ")));
    assert!(words.ends_with("\"lines\":4,\"numbers\":12,\"ordinal\":0,\"entries\":2}\n"), "{words}");
    let words = printed(&run(&["judge", "--json"], &twice(28, 26, "X")));
    let due = "{\"file\":\"-\",\"accepted\":false,\"refusal\":7,\"record\":28,\"column\":23,\"subentries\":0,\
               \"keywords\":0,\"lines\":0,\"numbers\":0,\"ordinal\":2,\"accession\":\"90001\",\"entry_record\":1,\
               \"meaning\":\"the system field is not in its form\",\"reason\":null,\
               \"expected\":\"3 blanks and a date YYYYMMDD, month 01-12, day 01-31\",\"found\":\"'   X0240105'\",\
               \"note\":null}\n";
    assert_eq!(words, due);
    let words = printed(&run(&["judge", "--json"], &twice(54, 22, "3")));
    assert!(words.contains("\"ordinal\":0,\"accession\":null,\"entry_record\":null,\"meaning\":"), "{words}");
    let json = printed(&run(&["tables", "--json"], &twice(1, 80, " ")));
    assert!(json.starts_with("[{\"entry\":1,\"subentry\":\"90001001\","), "{json}");
    assert_eq!((json.matches("\"entry\":1,").count(), json.matches("\"entry\":2,").count()), (2, 2), "{json}");
}

/// Tables and copies of a transmission are those of its entries.
#[test]
fn tables_and_copies_of_transmissions() {
    let other = changed(22, 12, "       1.45");
    let file = transmission(&[&sample(), &other]);
    for options in [&["tables"][..], &["tables", "--digits"]] {
        let both = run(options, &sample()).stdout.into_iter().chain(run(options, &other).stdout).collect::<Vec<u8>>();
        assert_eq!(run(options, &file).stdout, both);
    }
    let copies = [&file[..81], &run(&["canon"], &sample()).stdout, &run(&["canon"], &other).stdout, &file[53 * 81..]];
    assert!(run(&["canon"], &file).stdout == copies.concat());
    for command in ["tables", "canon"] {
        let output = run(&[command], &twice(49, 12, "       1.5E"));
        assert_eq!((printed(&output).as_str(), output.status.code()), ("", Some(1)));
        assert!(complained(&output).starts_with("x4: standard input: refusal 15, entry 2, record 49, column 12: "));
    }
}

/// Two transmissions, one and its entry, and one and its tables are compared; a difference is named with its entry.
#[test]
fn transmissions_are_compared() {
    let both = file("both.x4", &twice(1, 80, " "));
    let output = run(&["compare", &both, &both], b"");
    assert_eq!((printed(&output).as_str(), output.status.code()), ("same: 4 tables, 12 numbers\n", Some(0)));
    let other = file("both-other.x4", &twice(49, 12, "       1.45"));
    let output = run(&["compare", &both, &other], b"");
    let words = "entry 2, subentry 90001002, DATA, line 1, column 2: first 0.145, second 1.45\n";
    assert_eq!((printed(&output).as_str(), output.status.code()), (words, Some(1)));
    let (alone, one) = (file("alone.x4", &sample()), file("one.x4", &transmission(&[&sample()])));
    assert_eq!(printed(&run(&["compare", &alone, &one], b"")), "same: 2 tables, 6 numbers\n");
    let words = "entry 2, subentry 90001001, COMMON: first nothing, second a table\n";
    assert_eq!(printed(&run(&["compare", &alone, &both], b"")), words);
    let table = file("both.csv", &run(&["tables", &both], b"").stdout);
    assert_eq!(printed(&run(&["compare", "--exact", &both, &table], b"")), "same: 4 tables, 12 numbers\n");
    let words = "entry 2, subentry 90001002, DATA, line 1, column 2: first 0.145, second 1.45\n";
    assert_eq!(printed(&run(&["compare", &table, &other], b"")), words);
    let doubled = file("digits.x4", &twice(50, 12, "0.140"));
    let words = "entry 2, subentry 90001002, DATA, line 2, column 2, digits: first 2, second 3\n";
    assert_eq!(printed(&run(&["compare", "--digits", &both, &doubled], b"")), words);
}

/// As many entries as there may be, nearly: each of six records.
#[test]
fn a_large_transmission_is_judged() {
    let small = entry(
        "ENTRY            90001   20240105\nSUBENT        90001001   20240105\nNOBIB\nNOCOMMON\n\
         ENDSUBENT            2\nENDENTRY             1\n",
    );
    let mut whole = transmission(&vec![small.as_slice(); 33_333]);
    let words = printed(&run(&["judge"], &whole));
    assert_eq!(
        words,
        "0 0 0 33333 0 0 0 0\naccepted: 33333 entries, 33333 subentries, 0 keywords, 0 DATA lines, 0 numbers\n"
    );
    put(&mut whole, 199_999, 22, "2");
    let words = printed(&run(&["judge"], &whole));
    assert!(words.starts_with("8 199999 12 0 0 0 0 33333\n"), "{words}");
    assert!(words
        .contains("  where:    entry 33333 (accession 90001), record 6 of the entry, 199999 of the transmission\n"));
}

#[test]
fn several_files_are_judged_one_by_one() {
    let (good, bad) = (file("good.x4", &sample()), file("bad.x4", &changed(26, 72, "000")));
    let output = run(&["judge", &good, "no-such-file", &bad], b"");
    let words = printed(&output);
    let meaning = "wrong accession or subentry in columns 67-74";
    assert_eq!(words, format!("{good}: 0 0 0 2 3 2 6\n{bad}: 5 26 67 0 0 0 0, {meaning}\n"), "one line for each");
    let both = file("several.x4", &twice(28, 26, "X"));
    let words = format!("{good}: 0 0 0 2 3 2 6\n{both}: 7 28 23 0 0 0 0 2, the system field is not in its form\n");
    assert_eq!(printed(&run(&["judge", &good, &both], b"")), words);
    assert_eq!(complained(&output), "x4: no-such-file: No such file or directory (os error 2)\n", "and no progress");
    assert_eq!(output.status.code(), Some(2));
    assert_eq!(run(&["judge", &good, &good], b"").status.code(), Some(0));
    assert_eq!(run(&["judge", &good, &bad], b"").status.code(), Some(1));
}

#[test]
fn verdicts_as_json() {
    let words = "{\"file\":\"-\",\"accepted\":true,\"refusal\":0,\"record\":0,\"column\":0,\"subentries\":2,\
                 \"keywords\":3,\"lines\":2,\"numbers\":6}\n";
    assert_eq!(printed(&run(&["judge", "--json"], &sample())), words);
    let words = "{\"file\":\"-\",\"accepted\":false,\"refusal\":6,\"record\":4,\"column\":75,\"subentries\":0,\
                 \"keywords\":0,\"lines\":0,\"numbers\":0,\"meaning\":\"wrong sequence in columns 75-79\",\
                 \"reason\":{\"characters\":\"00003\"},\"expected\":\"'00003'\",\"found\":\"'00004'\",\"note\":null}\n";
    assert_eq!(printed(&run(&["judge", "--json"], &changed(4, 79, "4"))), words);
}

/// M-108: the facts of a refusal, under their names.
#[test]
fn reasons_as_json() {
    for (input, reason) in [
        (changed(20, 72, "001"), r#"{"characters":"90001002"}"#),
        (changed(6, 22, "1"), r#"{"announced":1,"true":2}"#),
        (changed(3, 22, "0"), r#"{"least":1,"greatest":0}"#),
        (numbered(2, "002"), r#"{"previous":0}"#),
        (changed(20, 1, "EN "), r#"{"record":8,"column":1}"#),
        (changed(20, 33, "3"), r#"{"pointer":"3"}"#),
        (twice(47, 1, "EN "), r#"{"record":35,"column":1}"#),
        (twice(54, 22, "3"), r#"{"announced":3,"true":2}"#),
        (changed(22, 12, "       1.5E"), "null"),
    ] {
        let words = printed(&run(&["judge", "--json"], &input));
        assert!(words.contains(&format!(",\"reason\":{reason},\"expected\":")), "{reason}: {words}");
    }
    assert!(!printed(&run(&["judge", "--json"], &sample())).contains("reason"));
    let help = printed(&run(&["help", "judge"], b""));
    assert!(help.contains("come from the proved library, as the verdict does"), "{help}");
}

#[test]
fn tables_are_exact() {
    let mut entry = changed(23, 12, "0.0 ");
    common::put(&mut entry, 20, 1, "A,B");
    let csv = "\
90001001,COMMON,heading,EN
90001001,COMMON,pointer,
90001001,COMMON,unit,MEV
90001001,COMMON,1,14
90001002,DATA,heading,\"A,B\",DATA,DATA
90001002,DATA,pointer,,1,2
90001002,DATA,unit,ADEG,MB/SR,MB/SR
90001002,DATA,1,10,0.145,
90001002,DATA,2,20,0,25
";
    assert_eq!(printed(&run(&["tables"], &entry)), csv);
    let json = "[{\"subentry\":\"90001001\",\"section\":\"COMMON\",\
                \"columns\":[{\"heading\":\"EN\",\"pointer\":null,\"unit\":\"MEV\"}],\"lines\":[[\"14\"]]},\
                {\"subentry\":\"90001002\",\"section\":\"DATA\",\
                \"columns\":[{\"heading\":\"A,B\",\"pointer\":null,\"unit\":\"ADEG\"},\
                {\"heading\":\"DATA\",\"pointer\":\"1\",\"unit\":\"MB/SR\"},\
                {\"heading\":\"DATA\",\"pointer\":\"2\",\"unit\":\"MB/SR\"}],\
                \"lines\":[[\"10\",\"0.145\",null],[\"20\",\"0\",\"25\"]]}]\n";
    assert_eq!(printed(&run(&["tables", "--json"], &entry)), json);
    let seven = printed(&run(&["tables"], &wide(7)));
    assert!(seven.ends_with("90001002,DATA,2,2.01,2.02,2.03,2.04,2.05,2.06,2.07\n"), "{seven}");
    let output = run(&["tables"], &changed(4, 79, "4"));
    assert_eq!((printed(&output).as_str(), output.status.code()), ("", Some(1)));
    assert!(complained(&output).starts_with("x4: standard input: refusal 6, record 4, column 75: "));
}

/// M-102: where each subentry and its sections begin, of an entry and of a transmission.
#[test]
fn indexes_are_listed() {
    let csv = "subentry,first,BIB,COMMON,DATA\n90001001,2,3,7,0\n90001002,13,14,0,19\n";
    let output = run(&["index"], &sample());
    assert_eq!((printed(&output).as_str(), output.status.code()), (csv, Some(0)));
    assert_eq!(printed(&run(&["index", "-"], &sample())), csv);
    let json = "[{\"subentry\":\"90001001\",\"first\":2,\"bib\":3,\"common\":7,\"data\":null},\
                {\"subentry\":\"90001002\",\"first\":13,\"bib\":14,\"common\":null,\"data\":19}]\n";
    assert_eq!(printed(&run(&["index", "--json"], &sample())), json);
    // NOSUBENT is a row, too.
    let with_none = replaced("ENDENTRY             2\n", "NOSUBENT      90001007   20240105\nENDENTRY             3\n");
    assert_eq!(printed(&run(&["index"], &with_none)), format!("{csv}90001007,26,0,0,0\n"));
    // Of a transmission each line begins with the ordinal, and records count from ENTRY.
    let both = run(&["index"], &transmission(&[&sample(), &with_none]));
    let csv = "entry,subentry,first,BIB,COMMON,DATA\n1,90001001,2,3,7,0\n1,90001002,13,14,0,19\n\
               2,90001001,2,3,7,0\n2,90001002,13,14,0,19\n2,90001007,26,0,0,0\n";
    assert_eq!((printed(&both).as_str(), both.status.code()), (csv, Some(0)));
    let json = printed(&run(&["index", "--json"], &transmission(&[&sample()])));
    assert!(json.starts_with("[{\"entry\":1,\"subentry\":\"90001001\",\"first\":2,"), "{json}");
    let refused = run(&["index"], &twice(49, 12, "       1.5E"));
    assert_eq!((printed(&refused).as_str(), refused.status.code()), ("", Some(1)));
    assert!(complained(&refused).starts_with("x4: standard input: refusal 15, entry 2, record 49, column 12: "));
    let refused = run(&["index"], &changed(4, 79, "4"));
    assert!(complained(&refused).starts_with("x4: standard input: refusal 6, record 4, column 75: "));
    assert_eq!((printed(&refused).as_str(), refused.status.code()), ("", Some(1)));
    assert_eq!(run(&["index", "a", "b"], b"").status.code(), Some(2));
    assert_eq!(run(&["index", "--digits"], &sample()).status.code(), Some(2));
    assert!(printed(&run(&["help"], b"")).contains("\n  x4 index [--json] [FILE]         where each subentry"));
    let help = printed(&run(&["help", "index"], b""));
    assert!(
        help.starts_with("x4 index [--json] [FILE]\n") && help.contains("without judging the entry again"),
        "{help}"
    );
    assert_eq!(printed(&run(&["index", "--help"], b"")), help);
}

/// 998 subentries: every table, and a row for each.
#[test]
fn as_many_subentries_as_there_may_be() {
    let entry = large(&mut Random::seeded(1), Shape::Subentries, 20_000);
    let lines = |command: &str| printed(&run(&[command], &entry)).lines().map(str::to_string).collect::<Vec<_>>();
    let index = lines("index");
    assert_eq!((index.len(), index[1].as_str(), index[998].starts_with("90001998,")), (999, "90001001,2,0,0,0", true));
    let tables = lines("tables");
    let last = tables.iter().filter(|line| line.starts_with("90001998,DATA,")).count();
    assert!(last > 3 && tables.len() == 997 * last, "{} lines, {last} of the last", tables.len());
}

/// With --digits a count stands beside each value; without it nothing is added.
#[test]
fn tables_with_digits() {
    let csv = "\
90001001,COMMON,heading,EN,digits
90001001,COMMON,pointer,,
90001001,COMMON,unit,MEV,
90001001,COMMON,1,14,2
90001002,DATA,heading,ANG,digits,DATA,digits,DATA,digits
90001002,DATA,pointer,,,1,,2,
90001002,DATA,unit,ADEG,,MB/SR,,MB/SR,
90001002,DATA,1,10,2,0.145,3,,0
90001002,DATA,2,20,2,0.14,2,25,2
";
    let output = run(&["tables", "--digits"], &sample());
    assert_eq!((printed(&output).as_str(), output.status.code()), (csv, Some(0)));
    let json = printed(&run(&["tables", "--digits", "--json"], &sample()));
    let lines = "\"lines\":[[{\"value\":\"10\",\"digits\":2},{\"value\":\"0.145\",\"digits\":3},\
                 {\"value\":null,\"digits\":0}],[{\"value\":\"20\",\"digits\":2},\
                 {\"value\":\"0.14\",\"digits\":2},{\"value\":\"25\",\"digits\":2}]]}]\n";
    assert!(json.ends_with(lines), "{json}");
    // 0.140 is the same value as 0.14, written with one digit more
    let more = printed(&run(&["tables", "--digits"], &changed(23, 12, "0.140")));
    assert_eq!(more, csv.replace("0.14,2", "0.14,3"));
    assert_eq!(run(&["tables"], &changed(23, 12, "0.140")).stdout, run(&["tables"], &sample()).stdout);
    assert!(printed(&run(&["tables", "--help"], b"")).contains("--digits"));
    assert_eq!(run(&["judge", "--digits"], &sample()).status.code(), Some(2));
}

/// With --doubles each number is its double, shortly; a decimal outside the simple range stays exact.
#[test]
fn tables_with_doubles() {
    let mut entry = changed(10, 1, "      1.+22");
    put(&mut entry, 22, 1, "1000.           -1.-22");
    put(&mut entry, 23, 1, "-0.0             1.+23      1.-60");
    let csv = "\
90001001,COMMON,heading,EN
90001001,COMMON,pointer,
90001001,COMMON,unit,MEV
90001001,COMMON,1,1e22
90001002,DATA,heading,ANG,DATA,DATA
90001002,DATA,pointer,,1,2
90001002,DATA,unit,ADEG,MB/SR,MB/SR
90001002,DATA,1,1e3,-1e-22,
90001002,DATA,2,0,100000000000000000000000,1E-60
";
    let output = run(&["tables", "--doubles"], &entry);
    assert_eq!((printed(&output).as_str(), output.status.code()), (csv, Some(0)));
    // Of the sample all are as short as exact decimals.
    assert_eq!(run(&["tables", "--doubles"], &sample()).stdout, run(&["tables"], &sample()).stdout);
    // A double is a number, a decimal a text; without the option all are texts.
    let json = printed(&run(&["tables", "--doubles", "--json"], &entry));
    let lines = "\"lines\":[[1e3,-1e-22,null],[0,\"100000000000000000000000\",\"1E-60\"]]}]\n";
    assert!(json.contains("\"lines\":[[1e22]]") && json.ends_with(lines), "{json}");
    let both = printed(&run(&["tables", "--doubles", "--digits"], &entry));
    assert!(
        both.ends_with("DATA,1,1e3,4,-1e-22,1,,0\n90001002,DATA,2,0,0,100000000000000000000000,1,1E-60,1\n"),
        "{both}"
    );
    let json = printed(&run(&["tables", "--json", "--digits", "--doubles"], &entry));
    assert!(json.contains("[[{\"value\":1e3,\"digits\":4},{\"value\":-1e-22,\"digits\":1},"), "{json}");
    let json = printed(&run(&["tables", "--json"], &entry));
    assert!(json.contains("\"lines\":[[\"1000\",\"-0.0000000000000000000001\",null],"), "{json}");
    // The tables of both kinds are the same to a program that compares doubles.
    let (first, table) = (file("doubles.x4", &entry), file("doubles.csv", csv.as_bytes()));
    assert_eq!(printed(&run(&["compare", &first, &table], b"")), "same: 2 tables, 6 numbers\n");
    let refused = run(&["tables", "--doubles"], &changed(4, 79, "4"));
    assert_eq!((printed(&refused).as_str(), refused.status.code()), ("", Some(1)));
    let help = printed(&run(&["tables", "--help"], b""));
    assert!(help.contains("With --doubles each number is the text of its double"), "{help}");
    assert!(printed(&run(&["help"], b"")).contains("\n  x4 tables [--json] [--digits] [--doubles] [FILE]\n"));
    for command in ["judge", "index", "compare", "canon"] {
        assert_eq!(run(&[command, "--doubles"], &sample()).status.code(), Some(2), "{command}");
    }
}

#[test]
fn canonical_copies() {
    let output = run(&["canon"], &sample());
    let mut expected = sample();
    common::put(&mut expected, 10, 1, "        14.");
    common::put(&mut expected, 22, 1, "        10.       .145");
    common::put(&mut expected, 23, 1, "        20.        .14        25.");
    assert_eq!((output.stdout, output.status.code()), (expected, Some(0)));
    let output = run(&["canon"], &sample()[..81]);
    assert_eq!((printed(&output).as_str(), output.status.code()), ("", Some(1)));
}

#[test]
fn entries_are_compared() {
    let first = file("first.x4", &sample());
    let copy = file("copy.x4", &run(&["canon", &first], b"").stdout);
    let output = run(&["compare", &first, &copy], b"");
    assert_eq!((printed(&output).as_str(), output.status.code()), ("same: 2 tables, 6 numbers\n", Some(0)));
    let other = file("other.x4", &changed(22, 12, "       1.45"));
    let output = run(&["compare", &first, &other], b"");
    let words = "subentry 90001002, DATA, line 1, column 2: first 0.145, second 1.45\n";
    assert_eq!((printed(&output).as_str(), output.status.code()), (words, Some(1)));
    let zero = file("zero.x4", &changed(22, 23, "        0.0"));
    let words = "subentry 90001002, DATA, line 1, column 3: first a blank, second 0\n";
    assert_eq!(printed(&run(&["compare", &first, &zero], b"")), words);
    let table = file("first.csv", &run(&["tables", &first], b"").stdout);
    assert_eq!(run(&["compare", "--exact", &first, &table], b"").status.code(), Some(0));
    // 0.140 has the value of 0.14 and one digit more
    let more = file("more.x4", &changed(23, 12, "0.140"));
    assert_eq!(printed(&run(&["compare", &first, &more], b"")), "same: 2 tables, 6 numbers\n");
    let output = run(&["compare", "--digits", &first, &more], b"");
    let words = "subentry 90001002, DATA, line 2, column 2, digits: first 2, second 3\n";
    assert_eq!((printed(&output).as_str(), output.status.code()), (words, Some(1)));
    let table = file("more.csv", &run(&["tables", "--digits", &more], b"").stdout);
    let output = run(&["compare", "--digits", &more, &table], b"");
    assert_eq!((printed(&output).as_str(), output.status.code()), ("same: 2 tables, 6 numbers\n", Some(0)));
    let output = run(&["compare", &first, "-"], b"no table\n");
    assert_eq!(output.status.code(), Some(2));
    assert!(
        complained(&output).starts_with("x4: standard input: neither an entry, a transmission nor tables: line 1: ")
    );
    assert_eq!(run(&["compare", &first], b"").status.code(), Some(2));
    let output = run(&["compare", "-", "-"], b"");
    assert_eq!(complained(&output), "x4: only one of the two can be standard input\n");
}

#[test]
fn help_and_wrong_arguments() {
    for page in [&["--help"][..], &["help"], &["help", "judge"], &["judge", "--help"], &["help", "compare"]] {
        let output = run(page, b"");
        assert!(printed(&output).contains("x4 ") && output.status.success(), "{page:?}");
    }
    assert!(printed(&run(&["help", "judge"], b"")).starts_with("x4 judge [--json] [FILE..]\n"));
    for wrong in [&[][..], &["jugde"], &["judge", "--jsno"], &["tables", "a", "b"], &["help", "me"]] {
        let output = run(wrong, b"");
        assert!(output.status.code() == Some(2) && complained(&output).starts_with("x4: "), "{wrong:?}");
    }
}

/// The sample of lines, with these changes: line, column, text.
fn lines(changes: &[(usize, usize, &str)]) -> Vec<u8> {
    let mut lines = include_bytes!("../data/sample.cinda").to_vec();
    for (line, column, text) in changes {
        let first = 126 * (line - 1) + column - 1;
        lines[first..first + text.len()].copy_from_slice(text.as_bytes());
    }
    lines
}

#[test]
fn lines_are_judged() {
    let output = run(&["cinda", "judge"], &lines(&[]));
    assert_eq!((printed(&output).as_str(), output.status.code()), ("0 0 0 5\ngood: 5 lines\n", Some(0)));
    assert_eq!(printed(&run(&["cinda", "judge", "-"], &lines(&[])[..126])), "0 0 0 1\ngood: 1 line\n");
    let output = run(&["cinda", "judge"], &lines(&[(2, 42, "    NDG")]));
    let words = "\
76 2 42 0
refusal 76, line 2, column 42: the energy is neither a number nor blank
  2 | A 92238 N,G            CS  USALASL001 2ER    NDG 1.40E71JNSE,20,1              196411Other. GRPH
    |                                          ^~~~~~~
  expected: the least energy: blanks, or a number: blanks, a sign or none, digits with one point; then blanks, or an \
exponent that ends the field: a sign and digits, or E and digits
  found:    '    NDG'
  note:     the manual's codes for an energy are not taken here
";
    assert_eq!((printed(&output).as_str(), output.status.code()), (words, Some(1)));
    let json = "{\"file\":\"-\",\"accepted\":true,\"refusal\":0,\"line\":0,\"column\":0,\"lines\":5}\n";
    assert_eq!(printed(&run(&["cinda", "judge", "--json"], &lines(&[]))), json);
    let json = "{\"file\":\"-\",\"accepted\":false,\"refusal\":73,\"line\":3,\"column\":1,\"lines\":0,\"meaning\":\"the \
                operation is not A, D or M\",\"expected\":\"the operation: A, D or M\",\"found\":\"'B'\",\"note\":null}\n";
    assert_eq!(printed(&run(&["cinda", "judge", "--json"], &lines(&[(3, 1, "B")]))), json);
    let (good, bad) = (file("good.cinda", &lines(&[])), file("bad.cinda", &lines(&[(5, 80, "198113")])));
    let output = run(&["cinda", "judge", &good, &bad], b"");
    let words = format!("{good}: 0 0 0 5\n{bad}: 77 5 80 0, the reference date is not YYYYMM, month 01-12\n");
    assert_eq!((printed(&output), output.status.code()), (words, Some(1)));
    let output = run(&["cinda", "judge", &good, "no such file"], b"");
    assert!(output.status.code() == Some(2) && complained(&output).starts_with("x4: no such file: "));
}

/// Each refusal of lines: what was expected, what was found, and what is noted.
#[test]
fn every_refusal_of_lines_is_explained() {
    let length = "1 to 20,000 lines of 126 bytes each, 125 columns and a line feed";
    let line = lines(&[])[..126].to_vec();
    let permitted = "a blank, a letter, a digit or one of + - . ) ( * / = ' , % < > : ; ! ? &";
    let z = "Z of the target: blanks, then digits up to column 4";
    let a = "A of the target: blanks, then digits up to column 7; or MNY";
    let block = "the block: a capital or digit, then a number: blanks, then digits up to column 37";
    let date = "the reference date: YYYYMM, month 01-12";
    let left_out = "the manual's reader files may leave this out; here it is required";
    let no_date = "the manual may leave out the date or its month; here both are required";
    let cases: Vec<(Vec<u8>, &str, &str, &str)> = vec![
        (Vec::new(), length, "no bytes", ""),
        (line.repeat(20_001), length, "2520126 bytes: 20001 lines", ""),
        (line[..125].to_vec(), length, "125 bytes: 0 lines and 125 bytes", "the last line has no line feed"),
        (lines(&[])[..251].to_vec(), length, "251 bytes: 1 line and 125 bytes", "the last line has no line feed"),
        (
            [&line[..], b"A 92235\n"].concat(),
            length,
            "134 bytes: 1 line and 8 bytes",
            "line 2 has 7 columns; a line has 125 columns and a line feed",
        ),
        (
            [&line[..125], b"\r\n"].concat(),
            length,
            "127 bytes: 1 line and 1 byte",
            "line 1 ends with a carriage return; a line has 125 columns and a line feed",
        ),
        (
            b"CINDA EXCHANGE\n".to_vec(),
            length,
            "15 bytes: 0 lines and 15 bytes",
            "the header record of an exchange file is no line",
        ),
        (
            lines(&[(3, 126, "\r")]),
            "a line feed in byte 126",
            "a carriage return",
            "line 3 has a carriage return in column 126; a line has 125 columns and a line feed",
        ),
        (lines(&[(3, 100, "#")]), permitted, "'#'", ""),
        (
            lines(&[(2, 7, "\n")]),
            permitted,
            "a line feed",
            "line 2 has 6 columns; a line has 125 columns and a line feed",
        ),
        (lines(&[(3, 1, "B")]), "the operation: A, D or M", "'B'", ""),
        (lines(&[(1, 2, "92 ")]), z, "'92 '", ""),
        (lines(&[(1, 2, "   ")]), z, "blanks", "a blank is no integer; A of a natural element is 0"),
        (lines(&[(4, 2, " 99")]), "Z of the target: 999, as columns 5-7 hold MNY", "' 99'", ""),
        (lines(&[(1, 5, "   ")]), a, "blanks", "a blank is no integer; A of a natural element is 0"),
        (
            lines(&[(1, 5, "H2O")]),
            a,
            "'H2O'",
            "the manual's codes of compounds and of fission products are not taken here",
        ),
        (lines(&[(1, 8, "M")]), "the isomeric state: a blank or a digit", "'M'", ""),
        (lines(&[(1, 34, "l198")]), block, "'l198'", ""),
        (lines(&[(1, 34, "    ")]), block, "blanks", left_out),
        (lines(&[(1, 38, "1 ")]), "the sequence: blanks, then digits up to column 39", "'1 '", ""),
        (lines(&[(1, 38, "  ")]), "the sequence: blanks, then digits up to column 39", "blanks", left_out),
        (lines(&[(5, 80, "198113")]), date, "'198113'", ""),
        (lines(&[(5, 80, "1981  ")]), date, "'1981  '", no_date),
        (lines(&[(5, 80, "      ")]), date, "blanks", no_date),
    ];
    for (lines, expected, found, note) in cases {
        let output = run(&["cinda", "judge"], &lines);
        let words = printed(&output);
        let note = if note.is_empty() { String::new() } else { format!("  note:     {note}\n") };
        let due = format!("  expected: {expected}\n  found:    {found}\n{note}");
        assert!(words.ends_with(&due) && output.status.code() == Some(1), "{words}\n{due}");
    }
    let bare = printed(&run(&["cinda", "judge"], &lines(&[(2, 49, "     +6")])));
    assert!(
        bare.ends_with("note:     the manual's exponent alone is not taken here; a number has a point\n"),
        "{bare}"
    );
}

#[test]
fn lines_are_printed_as_a_table() {
    let csv = "\
line,operation,z,a,isomer,reaction,quantity,institute,area,block,sequence,work,reader,least,greatest,hierarchy,type,\
reference,year,month,comment
1,A,92,235,,\"N,F\",CS,USAORL,L,198,1,E,,1000000,14,2,J,\"PR/C,49,2549\",1994,5,Name+ TBL
2,A,92,238,,\"N,G\",CS,USALAS,L,1,2,E,R,0.025,14000000,1,J,\"NSE,20,1\",1964,11,Other. GRPH
3,M,26,0,,\"P,X+N\",DAE,GERKFK,3,7,12,T,,,14000000,3,R,KFK-1000,1970,12,\"NDG, SEE TEXT\"
4,D,999,MNY,,\"N,TOT\",EVL,AUSIIA,V,123,99,R,A,1000,1E100,5,C,\"70HELSINK,1,23\",1970,6,\"Systematics, 'many nuclei' \
(A>100)\"
5,A,95,242,1,\"N,F\",NU,UK HAR,2,9,1,E,,0,,6,4,EXFOR20999.002,1981,1, 27 PTS.
";
    let output = run(&["cinda", "table"], &lines(&[]));
    assert_eq!((printed(&output).as_str(), output.status.code()), (csv, Some(0)));
    let both = printed(&run(&["cinda", "table", "--digits", "--doubles"], &lines(&[])));
    assert!(both.contains(",least,least digits,greatest,greatest digits,hierarchy,"), "{both}");
    assert!(both.contains(",E,R,0.025,2,1.4e7,3,1,J,") && both.contains(",R,A,1e3,4,1E100,1,5,C,"), "{both}");
    assert!(both.contains(",T,,,0,1.4e7,2,3,R,"), "a blank has no digits: {both}");
    let json = printed(&run(&["cinda", "table", "--json"], &lines(&[])));
    assert!(json.starts_with("[{\"line\":1,\"operation\":\"A\",\"z\":92,\"a\":235,\"isomer\":\"\","), "{json}");
    assert!(
        json.contains("\"least\":null,\"greatest\":\"14000000\"") && json.contains("\"z\":999,\"a\":\"MNY\""),
        "{json}"
    );
    let json = printed(&run(&["cinda", "table", "--json", "--doubles", "--digits"], &lines(&[])));
    assert!(
        json.contains("\"least\":{\"value\":1e3,\"digits\":4},\"greatest\":{\"value\":\"1E100\",\"digits\":1}"),
        "{json}"
    );
    let refused = run(&["cinda", "table"], &lines(&[(2, 1, "B")]));
    assert_eq!((printed(&refused).as_str(), refused.status.code()), ("", Some(1)));
    assert!(complained(&refused).starts_with("x4: standard input: refusal 73, line 2, column 1: "));
}

#[test]
fn lines_are_copied() {
    let changes = [
        (1, 42, "   1.+6"),
        (2, 42, "   .025  14.+6"),
        (3, 49, "  14.+6"),
        (4, 42, "   1.+3 10.+99"),
        (5, 42, "     0."),
    ];
    let due = lines(&changes);
    let output = run(&["cinda", "copy"], &lines(&[]));
    assert_eq!((output.stdout == due, output.status.code()), (true, Some(0)));
    assert_eq!(run(&["cinda", "copy"], &due).stdout, due, "its own copy");
    let (from, to) = (file("from.cinda", &lines(&[])), file("to.cinda", b"as it was"));
    let kept = run(&["cinda", "copy", "-o", &to, &from], b"");
    assert!(kept.status.code() == Some(2) && complained(&kept).contains("(--force writes over it)"));
    assert_eq!(std::fs::read(&to).unwrap(), b"as it was");
    std::fs::remove_file(&to).unwrap();
    assert_eq!(run(&["cinda", "copy", &from, "-o", &to], b"").status.code(), Some(0));
    assert!(std::fs::read(&to).unwrap() == due);
    std::fs::write(&to, [&due[..], b"more"].concat()).unwrap();
    assert_eq!(run(&["cinda", "copy", "-o", &to, "--force", &from], b"").status.code(), Some(0));
    assert!(std::fs::read(&to).unwrap() == due);
    // onto itself
    assert_eq!(run(&["cinda", "copy", "--force", "-o", &from, &from], b"").status.code(), Some(0));
    assert!(std::fs::read(&from).unwrap() == due);
    // refused, no file is made
    let none = file("none.cinda", b"");
    std::fs::remove_file(&none).unwrap();
    let refused = run(&["cinda", "copy", "-o", &none], &lines(&[(1, 126, "\r")]));
    assert!(refused.status.code() == Some(1) && !std::path::Path::new(&none).exists());
    for wrong in [
        &["cinda"][..],
        &["cinda", "jugde"],
        &["cinda", "judge", "--digits"],
        &["cinda", "table", "--force"],
        &["cinda", "copy", "-o"],
        &["cinda", "copy", "--force"],
        &["cinda", "copy", "a", "b"],
        &["cinda", "table", "a", "b"],
    ] {
        let output = run(wrong, &lines(&[]));
        assert!(output.status.code() == Some(2) && complained(&output).starts_with("x4: "), "{wrong:?}");
    }
    for page in [&["help", "cinda"][..], &["cinda", "--help"], &["cinda", "judge", "--help"]] {
        assert!(printed(&run(page, b"")).starts_with("x4 cinda judge [--json] [FILE..]\n"), "{page:?}");
    }
    assert!(
        printed(&run(&["help"], b"")).contains("\n  x4 cinda judge|table|copy ..     lines in the CINDA2001 layout")
    );
}

/// The sample with codes, with these changes: record, column, text.
fn codes(changes: &[(usize, usize, &str)]) -> Vec<u8> {
    let mut bytes = include_bytes!("../data/decay.x4").to_vec();
    changes.iter().for_each(|(record, column, text)| put(&mut bytes, *record, *column, text));
    bytes
}

/// The second code of the sample, as an object and as two rows.
const SECOND: &str = "\"code\":2,\"record\":17,\"run\":\"(60-ND-139-G,30.MIN,B+,,.257,DG,405.,.055)\",\"flag\":null,\"z\":60,\
\"symbol\":\"ND\",\"a\":139,\"isomer\":\"G\",\"half_life\":{\"number\":\"30\",\"unit\":\"MIN\"},\"groups\":[{\"types\":[\"B+\"],\"energies\":[],\
\"abundance\":\"0.257\"},{\"types\":[\"DG\"],\"energies\":[\"405\"],\"abundance\":\"0.055\"}]}";

#[test]
fn codes_are_printed() {
    let output = run(&["decay"], &codes(&[]));
    let said = printed(&output);
    let lines: Vec<&str> = said.lines().collect();
    assert_eq!((lines.len(), output.status.code()), (8, Some(1)), "one of them is refused: {said}");
    assert_eq!(lines[1], format!("{{\"subentry\":\"90001002\",\"pointer\":null,{SECOND}"));
    assert!(lines[0].ends_with("\"a\":89,\"isomer\":\"M\",\"half_life\":null,\"groups\":[]}"), "{}", lines[0]);
    assert!(lines[4].contains("\"run\":\"((1.)60-ND-138,5.04HR,DG,328.,.065)\",\"flag\":\"1.\","), "{}", lines[4]);
    let refused =
        "{\"subentry\":\"90001002\",\"pointer\":null,\"code\":7,\"record\":24,\"refusal\":50,\"at_record\":24,\
                   \"at_column\":13,\"meaning\":\"a character that no code can have there\",\"expected\":\"a nuclide, ";
    assert!(lines[6].starts_with(refused), "{}", lines[6]);
    let note = "\"found\":\"'S'\",\"note\":\"a record with ( in column 12 opens a code, even where text is meant\"}";
    assert!(lines[6].ends_with(note), "{}", lines[6]);
    assert!(
        lines[7].starts_with("{\"subentry\":\"90001002\",\"pointer\":\"1\",\"code\":1,\"record\":25,"),
        "{}",
        lines[7]
    );
    assert_eq!(complained(&output), "");
    // Without the text in parentheses all are good.
    let output = run(&["decay", "-"], &codes(&[(24, 12, " ")]));
    assert_eq!((printed(&output).lines().count(), output.status.code()), (7, Some(0)));
    let output = run(&["decay"], &sample());
    assert_eq!((printed(&output).as_str(), output.status.code()), ("", Some(0)), "none there");
}

#[test]
fn codes_are_rows() {
    let output = run(&["decay", "--csv"], &codes(&[]));
    let said = printed(&output);
    let names = "subentry,pointer,code,record,flag,z,symbol,a,isomer,half-life,unit,group,types,energies,abundance,refusal,at record,at column,\
                 expected,found\n";
    assert!(said.starts_with(names), "{said}");
    for row in [
        "90001002,,1,16,,40,ZR,89,M,,,,,,,,,,,",
        "90001002,,2,17,,60,ND,139,G,30,MIN,1,B+,,0.257,,,,,",
        "90001002,,2,17,,60,ND,139,G,30,MIN,2,DG,405,0.055,,,,,",
        "90001002,,3,19,,59,PR,140,,,,1,B+/EC,,0.5,,,,,",
        "90001002,,4,20,,25,MN,50,G,0.286,SEC,1,B+,6610,,,,,,",
        "90001002,,5,21,1.,60,ND,138,,5.04,HR,1,DG,328,0.065,,,,,",
        "90001002,,6,22,,60,ND,139,M,5.5,HR,1,DG,708/738,0.64,,,,,",
        "90001002,1,1,25,,60,ND,139,M,5.5,HR,4,B+,0.006,,,,,,",
    ] {
        assert!(said.lines().any(|line| line == row), "{row}: {said}");
    }
    assert!(said.contains("\n90001002,,7,24,,,,,,,,,,,,50,24,13,\"a nuclide, "), "{said}");
    assert_eq!((said.lines().count(), output.status.code()), (13, Some(1)));
    assert_eq!(printed(&run(&["decay", "--csv"], &sample())), names);
}

/// What was expected in each place, and what stands there.
#[test]
fn refused_codes_are_in_words() {
    for (record, text, refusal, found, expected) in [
        (16, "((1)40-ZR-89-M)      ", [50, 16, 15], "')'", "a flag: "),
        (16, "(40-ZR-89-T)         ", [50, 16, 22], "'T'", "a nuclide, "),
        (16, "(40-ZR-89-M,3D)      ", [50, 16, 25], "'D'", "a half-life or nothing, "),
        (16, "(40-ZR-89-M,,b)      ", [50, 16, 25], "'b'", "types of radiation or nothing, "),
        (16, "(40-ZR-89-M,,B,1.,,) ", [50, 16, 31], "')'", "types of radiation or nothing, "),
        (16, "(40-ZR-89-M,,B,1)    ", [50, 16, 28], "')'", "energies or nothing, "),
        (16, "(40-ZR-89-M,,,,,)    ", [50, 16, 27], "','", "an abundance or, where the group has "),
        (18, "DG ,405.,0.055)      ", [50, 18, 14], "a blank", "types of radiation or nothing, "),
        (16, "(40-ZR-89-M,         ", [50, 17, 12], "'('", "a half-life or nothing, "),
        (18, "                     ", [50, 18, 12], "a blank", "types of radiation or nothing, "),
        (
            17,
            "(60-ND-139-G,30.0MIN           ",
            [51, 17, 31],
            "'N' and blanks up to column 66",
            "the code goes on, or a comma ",
        ),
        (28, "B+,0.006,            ", [50, 29, 0], "the end of the passage", "an abundance or, where the group has "),
    ] {
        let blanks = format!("{text:55}");
        let output = run(&["decay"], &codes(&[(record, 12, &blanks)]));
        let [number, at, column] = refusal;
        let due = format!("\"refusal\":{number},\"at_record\":{at},\"at_column\":{column},");
        let said = printed(&output);
        let line = said.lines().find(|line| line.contains(&due)).unwrap_or_else(|| panic!("{text}: {said}"));
        assert!(line.contains(&format!("\"expected\":\"{expected}")), "{text}: {line}");
        assert!(line.contains(&format!("\"found\":\"{found}\"")), "{text}: {line}");
        assert_eq!(output.status.code(), Some(1));
    }
}

/// Of a transmission each code has the ordinal of its entry; a refused entry is said as everywhere.
#[test]
fn codes_of_a_transmission_are_printed() {
    let file = [trans(), sample(), codes(&[]), codes(&[]), end_trans(3)].concat();
    let output = run(&["decay"], &file);
    let said = printed(&output);
    assert_eq!((said.lines().count(), output.status.code()), (16, Some(1)), "{said}{}", complained(&output));
    for entry in [2, 3] {
        let due = format!("{{\"entry\":{entry},\"subentry\":\"90001002\",\"pointer\":null,{SECOND}");
        assert!(said.lines().any(|line| line == due), "{said}");
    }
    let rows = printed(&run(&["decay", "--csv"], &file));
    assert!(
        rows.starts_with("entry,subentry,pointer,") && rows.contains("\n3,90001002,,2,17,,60,ND,139,G,30,MIN,1,B+,"),
        "{rows}"
    );
    let wrong = run(&["decay"], &changed(22, 12, "       1.5E"));
    assert_eq!((printed(&wrong).as_str(), wrong.status.code()), ("", Some(1)));
    assert!(complained(&wrong).starts_with("x4: standard input: refusal 15, record 22, column 12: "));
    for page in [&["help", "decay"][..], &["decay", "--help"]] {
        assert!(printed(&run(page, b"")).starts_with("x4 decay [--csv] [FILE]\n"), "{page:?}");
    }
    assert!(printed(&run(&["help"], b"")).contains("\n  x4 decay [--csv] [FILE]          every code under DECAY-DATA"));
    for wrong in [&["decay", "--json"][..], &["decay", "a", "b"], &["decay", "no such file"]] {
        assert_eq!(run(wrong, b"").status.code(), Some(2), "{wrong:?}");
    }
}

/// A folder for one test, empty.
fn folder(name: &str) -> PathBuf {
    let path = PathBuf::from(env!("CARGO_TARGET_TMPDIR")).join(name);
    let _ = std::fs::remove_dir_all(&path);
    std::fs::create_dir_all(&path).unwrap();
    path
}

/// The files of a folder.
fn names(folder: &std::path::Path) -> Vec<String> {
    let entries = std::fs::read_dir(folder).unwrap();
    let mut names: Vec<String> = entries.map(|entry| entry.unwrap().file_name().into_string().unwrap()).collect();
    names.sort();
    names
}

/// The sample with 002 dated a day later.
fn later() -> Vec<u8> {
    changed(13, 26, "20240106")
}

#[test]
fn entries_are_merged() {
    let folder = folder("merged");
    let path = |name: &str| folder.join(name).to_str().unwrap().to_string();
    let [held, revision, out, other] = ["held.x4", "revision.x4", "out.x4", "other.x4"].map(path);
    std::fs::write(&held, sample()).unwrap();
    std::fs::write(&revision, later()).unwrap();
    let done = run(&["merge", &held, &revision, "-o", &out], b"");
    assert_eq!((printed(&done), complained(&done), done.status.code()), ("".into(), "".into(), Some(0)));
    assert!(std::fs::read(&out).unwrap() == later());
    assert!(run(&["merge", &revision, &held], b"").stdout == later(), "to standard output");
    assert!(run(&["merge", "-o", "-", &held, "-"], &later()).stdout == later(), "from standard input");
    // A file that is there stays, but where it is told.
    std::fs::write(&out, b"as it was").unwrap();
    let kept = run(&["merge", &held, &revision, "-o", &out], b"");
    let words = format!("x4: {out}: the file is there (--force writes over it)\n");
    assert_eq!((complained(&kept), kept.status.code()), (words, Some(2)));
    assert_eq!(std::fs::read(&out).unwrap(), b"as it was");
    assert_eq!(run(&["merge", "--force", "-o", &out, &held, &revision], b"").status.code(), Some(0));
    assert!(std::fs::read(&out).unwrap() == later());
    // The held file itself.
    assert_eq!(run(&["merge", &held, &revision, "-o", &held, "--force"], b"").status.code(), Some(0));
    assert!(std::fs::read(&held).unwrap() == later());
    assert_eq!(names(&folder), ["held.x4", "out.x4", "revision.x4"], "nothing else is left");
    // No folder, a folder, no plain file: nothing is written and nothing left.
    let inside = path("none/out.x4");
    for target in [&inside, folder.to_str().unwrap(), "/dev/null", ""] {
        for force in [&[][..], &["--force"]] {
            let failed = run(&[&["merge", &held, &revision, "-o", target], force].concat(), b"");
            assert_eq!(failed.status.code(), Some(2), "{target:?}");
            assert!(complained(&failed).starts_with("x4: ") && printed(&failed).is_empty(), "{target:?}");
        }
    }
    assert!(run(&["merge", &held, &revision, "-o", &out], b"").status.code() == Some(2));
    assert_eq!(names(&folder), ["held.x4", "out.x4", "revision.x4"]);
    // Behind a link the file itself is replaced, and keeps who may read it.
    #[cfg(unix)]
    {
        use std::os::unix::fs::{symlink, PermissionsExt};
        let target = path("out.x4");
        std::fs::write(&target, b"as it was").unwrap();
        std::fs::set_permissions(&target, PermissionsExt::from_mode(0o640)).unwrap();
        symlink(&target, &other).unwrap();
        assert_eq!(run(&["merge", &held, &revision, "-o", &other], b"").status.code(), Some(2));
        assert_eq!(run(&["merge", &held, &revision, "-o", &other, "--force"], b"").status.code(), Some(0));
        assert!(std::fs::read(&target).unwrap() == later());
        assert_eq!(std::fs::metadata(&target).unwrap().permissions().mode() & 0o777, 0o640);
        assert!(std::fs::symlink_metadata(&other).unwrap().is_symlink());
        // A link to nothing is there, too.
        let dangling = path("dangling.x4");
        symlink(path("nowhere.x4"), &dangling).unwrap();
        assert_eq!(run(&["merge", &held, &revision, "-o", &dangling], b"").status.code(), Some(2));
        assert_eq!(names(&folder), ["dangling.x4", "held.x4", "other.x4", "out.x4", "revision.x4"]);
    }
}

/// Refused, no file is made, an old one stays, and the words say which entry, where and why.
#[test]
fn refused_merges_are_said() {
    let folder = folder("refused-merges");
    let path = |name: &str| folder.join(name).to_str().unwrap().to_string();
    let out = path("out.x4");
    let refused = |held: &[u8], revision: &[u8]| {
        let [one, two] = ["held.x4", "revision.x4"].map(path);
        std::fs::write(&one, held).unwrap();
        std::fs::write(&two, revision).unwrap();
        let output = run(&["merge", &one, &two, "-o", &out], b"");
        assert_eq!((printed(&output), output.status.code()), (String::new(), Some(1)));
        assert_eq!(names(&folder), ["held.x4", "revision.x4"], "no file is made");
        std::fs::write(&out, b"as it was").unwrap();
        let again = run(&["merge", &one, &two, "-o", &out, "--force"], b"");
        assert_eq!((complained(&again), again.status.code()), (complained(&output), Some(1)));
        assert_eq!(std::fs::read(&out).unwrap(), b"as it was");
        std::fs::remove_file(&out).unwrap();
        complained(&output).replace(&format!("{}/", folder.display()), "")
    };
    let damaged = changed(22, 12, "       1.5E");
    let words = "\
x4: held.x4: refusal 60: the held entry is refused
refusal 15, record 22, column 12: the value is malformed, or blank where it may not be
  22 | 10.               1.5E                                            9000100200010
     |            ^~~~~~~~~~~
  expected: a number: blanks, a sign or none, digits with one point; then blanks, or an exponent that ends the field: \
a sign and digits, or E and digits
  found:    '       1.5E'
  below:    4 records, which cannot change this refusal
";
    assert_eq!(refused(&damaged, &damaged), words);
    assert_eq!(refused(&damaged, &entry(&SAMPLE.replace("90001", "90002"))), words);
    let words = words.replace("held.x4", "revision.x4").replace("the held entry is refused", "the revision is refused");
    assert_eq!(refused(&sample(), &damaged), words);
    let words = "\
x4: revision.x4: refusal 60: the revision is refused
refusal 4, record 1, column 1: the record is not due here by nesting or counts
  1 | TRANS             X001   20240105
    | ^~~~~~~~~~~
  expected: ENTRY
  found:    'TRANS      '
  note:     this is a transmission, and a single entry is due: ENTRY to ENDENTRY
  below:    27 records, which cannot change this refusal
";
    assert_eq!(refused(&sample(), &transmission(&[&sample()])), words);
    let words = "x4: refusal 61: the two entries have different accessions: 90001 in held.x4, 90002 in revision.x4\n";
    assert_eq!(refused(&sample(), &entry(&SAMPLE.replace("90001", "90002"))), words);
    // another 001: 13, with the record of the merge and of the entry that it is of
    let first = &SAMPLE[..SAMPLE.find("SUBENT        90001002").unwrap()];
    let other = first.replace("EN\nMEV", "EN-ABC\nMEV").replace("90001001   20240105", "90001001   20240106");
    let longer =
        other.replace("TITLE      MADE", "TITLE      TEXT\n           MADE").replace("2          2", "2          3");
    let longer = longer
        .replace("ENDBIB               2", "ENDBIB               3")
        .replace("ENDSUBENT            9", "ENDSUBENT           10");
    let held = replaced("ANG        DATA", "EN-ABC     DATA");
    let said = refused(&held, &entry(&format!("{longer}ENDENTRY             1\n")));
    let begins = "\
x4: refusal 63: the merge of held.x4 and revision.x4 is refused
refusal 13, record 21, column 1: the heading is repeated where it may not be
  21 | EN-ABC     DATA      1DATA      2                                 9000100200008
     | ^~~~~~~~~~~
  expected: a heading that COMMON of 001 does not have; record 9, column 1 has this one
";
    let ends = "\n  where:    record 21 of the merge is record 20 of the held entry, held.x4\n";
    assert!(said.starts_with(begins) && said.ends_with(ends), "{said}");
    // two that are too long together
    let pair = &glockenbeacon::generate::revised_limits()[1];
    let said = refused(&pair.held, &pair.revision);
    assert!(said.starts_with("x4: refusal 63: the merge of held.x4 and revision.x4 is refused\nrefusal 1: "), "{said}");
    assert!(said.ends_with("\n  where:    10003 and 10004 records make 20001\n"), "{said}");
}

#[test]
fn subentries_are_printed() {
    let (held, revision) = (file("subentry-held.x4", &sample()), file("subentry-revision.x4", &later()));
    let output = run(&["subentry", &held, &revision, "2"], b"");
    assert!(output.status.code() == Some(0) && output.stdout == later()[12 * 81..25 * 81] && output.stderr.is_empty());
    assert!(run(&["subentry", "-", &held, "2"], &later()).stdout == later()[12 * 81..25 * 81]);
    assert!(run(&["subentry", &held, &revision, "001"], b"").stdout == sample()[81..12 * 81]);
    let object = |which, file: &str, date| {
        let file = glockenbeacon::json::text(file);
        format!("{{\"subentry\":2,\"which\":\"{which}\",\"file\":{file},\"first\":972,\"length\":1053,\"date\":\"{date}\"}}\n")
    };
    assert_eq!(
        printed(&run(&["subentry", "--json", &held, &revision, "2"], b"")),
        object("revision", &revision, "20240106")
    );
    assert_eq!(
        printed(&run(&["subentry", &revision, &held, "2", "--json"], b"")),
        object("held", &revision, "20240106")
    );
    let absent = {
        let (start, end) = (SAMPLE.find("SUBENT        90001002").unwrap(), SAMPLE.find("ENDENTRY").unwrap());
        entry(&format!("{}NOSUBENT      90001002   20240106\n{}", &SAMPLE[..start], &SAMPLE[end..]))
    };
    for (held, input, n, words) in [
        (&held, sample(), "3", "x4: subentry 3: refusal 32: neither entry has that subentry\n"),
        (&held, sample(), "0", "x4: subentry 0: refusal 32: neither entry has that subentry\n"),
        (&held, sample(), "4294967295", "x4: subentry 4294967295: refusal 32: neither entry has that subentry\n"),
        (&held, absent, "2", "x4: subentry 2: refusal 62: the subentry to hand out is NOSUBENT\n"),
    ] {
        let output = run(&["subentry", held, "-", n], &input);
        assert_eq!((printed(&output).as_str(), complained(&output).as_str()), ("", words));
        assert_eq!(output.status.code(), Some(1));
    }
    let output = run(&["subentry", &held, "-", "2"], b"");
    assert_eq!((printed(&output).as_str(), output.status.code()), ("", Some(1)));
    let begins = "x4: standard input: refusal 60: the revision is refused\nrefusal 1: ";
    assert!(complained(&output).starts_with(begins), "{}", complained(&output));
    for wrong in [
        &["subentry"][..],
        &["subentry", "2"],
        &["subentry", &held, "2"],
        &["subentry", &held, &revision],
        &["subentry", &held, &revision, "two"],
        &["subentry", &held, &revision, "-2"],
        &["subentry", &held, &revision, "4294967296"],
        &["subentry", &held, &revision, &held, "2"],
        &["subentry", "-", "-", "2"],
        &["subentry", "no such file", &held, "2"],
        &["subentry", "--csv", &held, &revision, "2"],
        &["merge"],
        &["merge", &held],
        &["merge", &held, &revision, &held],
        &["merge", &held, &revision, "-o"],
        &["merge", &held, &revision, "--force"],
        &["merge", &held, &revision, "-o", "-", "--force"],
        &["merge", "-", "-"],
        &["merge", &held, "no such file"],
        &["merge", "--json", &held, &revision],
    ] {
        let output = run(wrong, &sample());
        assert!(output.status.code() == Some(2) && complained(&output).starts_with("x4: "), "{wrong:?}");
        assert_eq!(printed(&output), "", "{wrong:?}");
    }
    for (page, begins) in [
        (&["help", "merge"][..], "x4 merge HELD REVISION [-o OUT [--force]]\n"),
        (&["merge", "--help"], "x4 merge HELD REVISION [-o OUT [--force]]\n"),
        (&["help", "subentry"], "x4 subentry [--json] HELD REVISION N\n"),
        (&["subentry", "--help"], "x4 subentry [--json] HELD REVISION N\n"),
    ] {
        assert!(printed(&run(page, b"")).starts_with(begins), "{page:?}");
    }
    let help = printed(&run(&["--help"], b""));
    assert!(
        help.contains("\n  x4 merge HELD REVISION [-o OUT")
            && help.contains("\n  x4 subentry [--json] HELD REVISION N\n")
    );
}

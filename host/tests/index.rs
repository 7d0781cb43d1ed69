//! The subentry index (M-102): the readings of its words, one by one, on the sample and on other entries; the library
//! and the reference. Then its calls from C, by `include/x4.h`, and from Fortran, by `fortran/x4.f90`.

mod common;

use common::{
    changed, compiled, entry, part_said, put, refused_said, replaced, sample, say, value_said, wide, BOTH, C, SAMPLE,
};
use glockenbeacon::differ::Implementation;
use glockenbeacon::generate::{self, large, Random, Shape};
use glockenbeacon::index::{Row, MOST_ROWS};
use glockenbeacon::library::{self, Index};
use glockenbeacon::tables::tables;
use glockenbeacon::{reference, FieldRead, NoAnswer, Part, Refusal, Value, COMMON, DATA, RECORD};
use std::path::Path;
use std::process::Command;

/// The index of the sample: 001 and 002.
const INDEX: [u32; 10] = [1, 2, 3, 7, 0, 2, 13, 14, 0, 19];

/// The index of the sample with other numbers: place, number.
fn altered(changes: &[(usize, u32)]) -> Vec<u32> {
    let mut index = INDEX.to_vec();
    changes.iter().for_each(|&(place, number)| index[place] = number);
    index
}

/// Where the numbers of its second row stand.
const FIRST: usize = 6;
const BIB: usize = 7;
const COMMON_2: usize = 8;
const DATA_2: usize = 9;

/// A refused answer with zeros beside it.
fn no<T>(number: u32) -> Result<T, NoAnswer> {
    Err(NoAnswer { number, entry: None })
}

/// Coefficient, power and digits of a value that is no blank.
fn told(answer: Result<FieldRead, NoAnswer>) -> Result<(u64, i32, u32), NoAnswer> {
    answer.map(|read| match read.value {
        Value::Blank => (0, 0, 0),
        Value::Number(decimal) => (decimal.coefficient, decimal.power, read.digits),
    })
}

/// Both give this value: coefficient and power, or the number of the refusal.
#[track_caller]
fn value(entry: &[u8], index: &[u32], place: [u32; 4], due: Result<(u64, i32), u32>) {
    for by in BOTH {
        let said = told(by.index_value(entry, index, place)).map(|(coefficient, power, _)| (coefficient, power));
        assert_eq!(said, due.map_err(|number| NoAnswer { number, entry: None }));
    }
}

/// Both give a value of the sample's DATA, line 1, column 2, or refuse it.
#[track_caller]
fn second(index: &[u32], due: Result<(u64, i32), u32>) {
    value(&sample(), index, [2, DATA, 1, 2], due);
}

/// Record and count of records of a passage, from 1, or the number of the refusal.
#[track_caller]
fn passage(entry: &[u8], index: &[u32], subentry: u32, keyword: &str, pointer: u8, due: Result<(usize, usize), u32>) {
    for by in BOTH {
        let said = by.index_passage(entry, index, subentry, format!("{keyword:10}").as_bytes(), pointer);
        let said = said.map(|part| (part.offset / RECORD + 1, part.length / RECORD, part.pointer));
        assert_eq!(said, due.map(|(at, count)| (at, count, pointer)).map_err(|n| NoAnswer { number: n, entry: None }));
    }
}

/// Record, column and pointer of a heading (or of a unit), or the number of the refusal.
#[track_caller]
fn word(unit: bool, entry: &[u8], index: &[u32], place: [u32; 3], due: Result<(usize, usize, u8), u32>) {
    for by in BOTH {
        let said = if unit { by.index_unit(entry, index, place) } else { by.index_heading(entry, index, place) };
        let said = said.map(|part| {
            assert_eq!(part.length, 10);
            (part.offset / RECORD + 1, part.offset % RECORD + 1, part.pointer)
        });
        assert_eq!(said, due.map_err(|number| NoAnswer { number, entry: None }));
    }
}

/// The index made in a slice of this length by both, with guards before and behind it that stay.
fn made(entry: &[u8], room: usize) -> (Result<usize, NoAnswer>, Vec<u32>) {
    let said = BOTH.map(|by| {
        let mut slice = vec![7; room + 4];
        let rows = by.make_index(entry, &mut slice[2..room + 2]);
        assert!([slice[0], slice[1], slice[room + 2], slice[room + 3]] == [7; 4], "a number beside the slice");
        (rows, slice[2..room + 2].to_vec())
    });
    assert_eq!(said[0], said[1]);
    said[0].clone()
}

/// "38 slice too short for the rows (numbers past them stay)": slices of every length.
#[test]
fn the_sample_has_two_rows() {
    for room in (0..12).chain([15, 4990]) {
        let (rows, slice) = made(&sample(), room);
        let due = if room < 10 { vec![7; room] } else { [&INDEX[..], &vec![7; room - 10]].concat() };
        assert_eq!((rows, slice), (if room < 10 { no(38) } else { Ok(2) }, due), "{room}");
    }
    // Made twice into one slice, and behind another's.
    for by in BOTH {
        let mut slice = INDEX.to_vec();
        assert_eq!((by.make_index(&sample(), &mut slice), &slice[..]), (Ok(2), &INDEX[..]));
        let mut slice = vec![9; 15];
        assert_eq!((by.make_index(&wide(18), &mut slice), &slice[10..]), (Ok(2), &[9; 5][..]));
    }
}

/// "Refusals: making, 31, then 38", with refusal, record and column beside 31; nothing is stored.
#[test]
fn a_refused_entry_has_no_index() {
    let cases = [
        (changed(22, 12, "       1.5E"), Refusal::new(15, 22, 12)),
        (sample()[..25 * RECORD].to_vec(), Refusal::new(16, 26, 0)),
        (sample()[1..].to_vec(), Refusal::new(1, 0, 0)),
        (Vec::new(), Refusal::new(1, 0, 0)),
    ];
    for (entry, refusal) in cases {
        for room in [0, 9, 10, 4990] {
            let refused = Err(NoAnswer { number: 31, entry: Some(refusal) });
            assert_eq!(made(&entry, room), (refused, vec![7; room]));
        }
        assert_eq!(Index::of(&entry), Err(NoAnswer { number: 31, entry: Some(refusal) }));
    }
}

/// An entry with NOSUBENT, and with every section left out somewhere.
fn gaps() -> Vec<u8> {
    let open = SAMPLE.find("ENDENTRY").unwrap();
    let more = "NOSUBENT      90001003   20240105\n\
                SUBENT        90001005   20240105\nNOBIB\nNOCOMMON\nNODATA\nENDSUBENT            3\n\
                SUBENT        90001998   20240105\nNOBIB\n\
                COMMON               1          3\nE\nMEV\n1.\nENDCOMMON            3\n\
                DATA                 1          1\nF\nB\n2.\nENDDATA              3\nENDSUBENT           11\n";
    entry(&format!("{}{more}ENDENTRY             5\n", &SAMPLE[..open]))
}

/// "five to a subentry in entry order, NOSUBENT too [..] 0 where none"
#[test]
fn what_is_not_there_is_zero() {
    let rows = [[1, 2, 3, 7, 0], [2, 13, 14, 0, 19], [3, 26, 0, 0, 0], [5, 27, 0, 0, 0], [998, 32, 0, 34, 39]];
    assert_eq!(made(&gaps(), 25), (Ok(5), rows.concat()));
    let index = Index::of(&gaps()).unwrap();
    assert_eq!(index.rows().map(|row| row.numbers()).collect::<Vec<_>>(), rows);
    value(&gaps(), index.numbers(), [3, DATA, 1, 1], Err(32));
    value(&gaps(), index.numbers(), [4, DATA, 1, 1], Err(32));
    value(&gaps(), index.numbers(), [5, DATA, 1, 1], Err(33));
    value(&gaps(), index.numbers(), [998, COMMON, 1, 1], Ok((1, 0)));
    value(&gaps(), index.numbers(), [998, DATA, 1, 1], Ok((2, 0)));
    passage(&gaps(), index.numbers(), 998, "TITLE", b' ', Err(33));
}

/// "38 not whole rows": indexes of every length. "cut to its rows": zeros behind them are a row of their own.
#[test]
fn an_index_is_whole_rows() {
    for length in (0..12).chain([4990]) {
        let mut index = INDEX.to_vec();
        index.resize(length, 0);
        let due = match (length % 5, length) {
            (1.., _) => Err(38),
            (0, 0 | 5) => Err(32),
            _ => Ok((145, -3)),
        };
        second(&index, due);
        for (question, number) in [("REACTION", due.err()), ("NONE", due.err())] {
            let due = if question == "NONE" { Err(number.unwrap_or(36)) } else { due.map(|_| (15, 1)) };
            passage(&sample(), &index, 2, question, b'1', due);
        }
        word(false, &sample(), &index, [2, DATA, 2], due.map(|_| (20, 12, b'1')));
        word(true, &sample(), &index, [2, DATA, 2], due.map(|_| (21, 12, b'1')));
        for by in BOTH {
            let rows = match due {
                Ok(_) => Ok(1),
                Err(number) => no(number),
            };
            assert_eq!(by.index_row(&index, 2), rows);
        }
    }
    let zeros = [&INDEX[..], &[0; 5]].concat();
    value(&sample(), &zeros, [0, DATA, 1, 1], Err(39));
    value(&sample(), &INDEX, [0, DATA, 1, 1], Err(32));
    // 38 comes first, whatever is asked
    value(&[], &INDEX[..9], [77, 9, 0, 0], Err(38));
}

/// "it takes the first row with that number"
#[test]
fn the_first_row_counts() {
    second(&[&[2, 13, 14, 0, 0], &INDEX[..]].concat(), Err(33));
    second(&[&INDEX[..], &[2, 13, 14, 0, 0]].concat(), Ok((145, -3)));
    second(&[&[2, 0, 0, 0, 0], &INDEX[..]].concat(), Err(39));
    second(&[&INDEX[5..], &INDEX[..5]].concat(), Ok((145, -3)));
    second(&INDEX[5..], Ok((145, -3)));
    for by in BOTH {
        assert_eq!(by.index_row(&[INDEX, INDEX].concat(), 2), Ok(1));
        assert_eq!(by.index_row(&[INDEX, INDEX].concat(), 3), no(32));
        assert_eq!(by.index_row(&[0; 10], 0), Ok(0));
        assert_eq!(by.index_row(&[u32::MAX; 5], u32::MAX), Ok(0));
        // A number of another place of a row is none of a subentry.
        assert_eq!(by.index_row(&INDEX, 13), no(32));
    }
}

/// "reads the subentry's first record (NOSUBENT gives 32)": NOSUBENT of any number; SUBENT with N1 in its whole form
/// and the row's number; record 0 and those past the bytes lie outside (docs/DECISIONS.md, The index).
#[test]
fn the_first_record_is_read() {
    for record in [0, 27, 20_001, u32::MAX] {
        second(&altered(&[(FIRST, record)]), Err(39));
    }
    // Another record, and the SUBENT of another number.
    for record in [1, 2, 14, 19, 26] {
        second(&altered(&[(FIRST, record)]), Err(39));
    }
    value(&sample(), &altered(&[(5, 3)]), [3, DATA, 1, 2], Err(39));
    for wrong in [0, 999, 1002, u32::MAX] {
        value(&sample(), &altered(&[(5, wrong)]), [wrong, DATA, 1, 2], Err(39));
    }
    // NOSUBENT whatever number it bears, in form or not.
    for n1 in ["   90001002", "   90001003", "           ", "   90001999"] {
        let mut entry = changed(13, 1, "NOSUBENT   ");
        put(&mut entry, 13, 12, n1);
        value(&entry, &INDEX, [2, DATA, 1, 2], Err(32));
        value(&entry, &INDEX, [2, 9, 1, 2], Err(32));
        passage(&entry, &INDEX, 2, "REACTION", b'1', Err(32));
    }
    // N1 in its whole form; the accession is no other's business.
    for (n1, due) in [
        ("   90001002", Ok((145, -3))),
        ("   A7777002", Ok((145, -3))),
        ("  190001002", Err(39)),
        ("   9000A002", Err(39)),
        ("   a0001002", Err(39)),
        ("   90001 02", Err(39)),
        ("   9000102 ", Err(39)),
        ("   90001001", Err(39)),
    ] {
        value(&changed(13, 12, n1), &INDEX, [2, DATA, 1, 2], due);
    }
    // 001 to 998: a row of 999 and one of 000.
    for number in ["999", "000"] {
        let own = number.parse().unwrap();
        value(&changed(13, 20, number), &altered(&[(5, own)]), [own, DATA, 1, 2], Err(39));
    }
    value(&changed(13, 20, "998"), &altered(&[(5, 998)]), [998, DATA, 1, 2], Ok((145, -3)));
    // The date, columns 67-80 and the line feed are not read.
    for (column, text) in [(23, "   99999999"), (67, "XXXXXXXXXXXXXX"), (81, " "), (40, "#")] {
        value(&changed(13, column, text), &INDEX, [2, DATA, 1, 2], Ok((145, -3)));
    }
}

/// 39 of the first record comes before 33, and 33 before the section is read (docs/DECISIONS.md, The index).
#[test]
fn the_section_is_read() {
    for section in [0, 3, u32::MAX] {
        value(&sample(), &INDEX, [2, section, 1, 1], Err(33));
        value(&sample(), &altered(&[(FIRST, 0)]), [2, section, 1, 1], Err(39));
        word(false, &sample(), &INDEX, [2, section, 1], Err(33));
        word(true, &sample(), &INDEX, [2, section, 1], Err(33));
    }
    second(&altered(&[(DATA_2, 0)]), Err(33));
    value(&sample(), &INDEX, [2, COMMON, 1, 1], Err(33));
    // Another record, one outside, and that of another section.
    for record in [7, 14, 18, 20, 27, u32::MAX] {
        second(&altered(&[(DATA_2, record)]), Err(39));
    }
    // Another subentry's section is not noticed.
    value(&sample(), &altered(&[(COMMON_2, 7)]), [2, COMMON, 1, 1], Ok((14, 0)));
    value(&sample(), &altered(&[(4, 19)]), [1, DATA, 2, 3], Ok((25, 0)));
    passage(&sample(), &altered(&[(BIB, 3)]), 2, "TITLE", b' ', Ok((4, 1)));
    passage(&sample(), &altered(&[(BIB, 0)]), 2, "REACTION", b'1', Err(33));
    for record in [13, 19, 27] {
        passage(&sample(), &altered(&[(BIB, record)]), 2, "REACTION", b'1', Err(39));
    }
}

/// Both counts by what 7 and 8 say of that record alone (docs/DECISIONS.md, The index).
#[test]
fn counts_are_in_form_and_range() {
    for (counts, due) in [
        ("          3          2", Ok((145, -3))),
        ("         18          2", Err(39)), // with three records to a line it would stand on record 26
        ("         19          2", Err(39)),
        ("          0          2", Err(39)),
        ("          3      20000", Ok((145, -3))),
        ("          3      20001", Err(39)),
        ("          3          0", Err(39)),
        ("          3           ", Err(39)),
        ("         3           2", Err(39)),
        ("         -3          2", Err(39)),
        ("99999999999          2", Err(39)),
        ("0000000000300000000001", Ok((145, -3))),
    ] {
        value(&changed(19, 12, counts), &INDEX, [2, DATA, 1, 2], due);
    }
    for (counts, due) in [
        ("          1          3", Ok((14, 0))),
        ("          6          3", Ok((14, 0))),
        ("          7          3", Err(39)),
        ("          7          6", Err(39)),
        ("          1          2", Err(39)),
        ("          1          6", Err(39)),
        ("          1           ", Err(39)),
    ] {
        value(&changed(7, 12, counts), &INDEX, [1, COMMON, 1, 1], due);
    }
    for (counts, due) in [
        ("          2          2", Ok((4, 1))),
        ("          1          1", Ok((4, 1))),
        ("          0          2", Err(39)),
        ("          3          2", Err(39)),
        ("          2           ", Err(39)),
        ("           ", Err(39)),
        ("          299999999999", Ok((4, 1))),
    ] {
        passage(&changed(3, 12, counts), &INDEX, 1, "TITLE", b' ', due);
    }
}

/// "then 32 to 36": 34 before 35, both by the section's counts, and before the field is read
#[test]
fn lines_and_columns_come_before_the_field() {
    for (line, column, number) in [(0, 1, 34), (3, 1, 34), (3, 9, 34), (u32::MAX, 0, 34), (1, 0, 35), (2, 4, 35)] {
        value(&sample(), &INDEX, [2, DATA, line, column], Err(number));
    }
    value(&sample(), &INDEX, [1, COMMON, 2, 1], Err(34));
    for column in [0, 4, 19, u32::MAX] {
        word(false, &sample(), &INDEX, [2, DATA, column], Err(35));
        word(true, &sample(), &INDEX, [2, DATA, column], Err(35));
    }
    let many = changed(19, 23, "      20000");
    value(&many, &INDEX, [2, DATA, 20_000, 2], Err(39));
    value(&many, &INDEX, [2, DATA, 20_001, 2], Err(34));
    value(&many, &INDEX, [2, DATA, 3, 1], Err(39)); // ENDDATA
}

/// "the asked field's": only its record, and only its form: a blank of COMMON is not in it, and 17 is not looked at.
#[test]
fn the_asked_field_is_read() {
    value(&sample(), &INDEX, [2, DATA, 1, 3], Ok((0, 0)));
    for by in BOTH {
        assert_eq!(by.index_value(&sample(), &INDEX, [2, DATA, 1, 3]), Ok(FieldRead::BLANK));
        assert_eq!(told(by.index_value(&changed(23, 12, "0.140"), &INDEX, [2, DATA, 2, 2])), Ok((14, -2, 3)));
    }
    value(&changed(22, 12, "       1.5E"), &INDEX, [2, DATA, 1, 2], Err(39));
    value(&changed(22, 1, "       1.5E"), &INDEX, [2, DATA, 1, 2], Ok((145, -3)));
    value(&changed(10, 1, "   "), &INDEX, [1, COMMON, 1, 1], Err(39));
    // No heading is read for a value, and no date, accession, identification or END record for any.
    value(&changed(20, 12, " DATA"), &INDEX, [2, DATA, 1, 2], Ok((145, -3)));
    value(&changed(1, 1, "ENTRX"), &INDEX, [2, DATA, 1, 2], Ok((145, -3)));
    value(&changed(24, 1, "#######"), &INDEX, [2, DATA, 1, 2], Ok((145, -3)));
    // An exponent under FLAG is a number in form; 17 is judging's.
    let flagged = changed(20, 12, "FLAG       ");
    value(&flagged, &INDEX, [2, DATA, 1, 2], Ok((145, -3)));
    // Cut behind the field's record, and one byte less: a last part shorter than 81 bytes is no record.
    value(&sample()[..22 * RECORD], &INDEX, [2, DATA, 1, 2], Ok((145, -3)));
    value(&sample()[..22 * RECORD - 1], &INDEX, [2, DATA, 1, 2], Err(39));
    value(&sample()[..22 * RECORD + 80], &INDEX, [2, DATA, 2, 2], Err(39));
    // Of a line over three records the one with the field.
    let wide = wide(18);
    let index = Index::of(&wide).unwrap();
    let third = (19 + 3 * 3) * RECORD;
    value(&wide[..third], index.numbers(), [2, DATA, 1, 18], Ok((118, -2)));
    for (cut, answered) in [(third - RECORD, 12), (third - 2 * RECORD, 6)] {
        for column in 1..=18 {
            let due = if column <= answered { Ok(()) } else { Err(39) };
            for by in BOTH {
                let said = by.index_value(&wide[..cut], index.numbers(), [2, DATA, 1, column]);
                assert_eq!(said.map(|_| ()).map_err(|refused| refused.number), due);
            }
        }
    }
}

/// Headings and units in their form; a unit with its heading, whose pointer is handed back.
#[test]
fn words_are_in_form() {
    word(false, &sample(), &INDEX, [2, DATA, 3], Ok((20, 23, b'2')));
    word(true, &sample(), &INDEX, [2, DATA, 3], Ok((21, 23, b'2')));
    for (record, text, heading, unit) in [
        (20, " DATA     1", Err(39), Err(39)),
        (20, "          1", Err(39), Err(39)),
        (20, "DA TA     1", Err(39), Err(39)),
        (20, "DATA      0", Err(39), Err(39)),
        (20, "DATA      a", Err(39), Err(39)),
        (20, "DATA      Z", Ok(b'Z'), Ok(b'Z')),
        (20, "DATA       ", Ok(b' '), Ok(b' ')),
        (20, "da#a\n     Z", Ok(b'Z'), Ok(b'Z')),
        (21, " MB       ", Ok(b'1'), Err(39)),
        (21, "MB       X1", Ok(b'1'), Err(39)),
        (21, "MB        1", Ok(b'1'), Err(39)),
        (21, "          ", Ok(b'1'), Err(39)),
    ] {
        let entry = changed(record, 12, text);
        word(false, &entry, &INDEX, [2, DATA, 2], heading.map(|pointer| (20, 12, pointer)));
        word(true, &entry, &INDEX, [2, DATA, 2], unit.map(|pointer| (21, 12, pointer)));
        // The other columns are not read.
        word(true, &entry, &INDEX, [2, DATA, 3], Ok((21, 23, b'2')));
    }
    // Cut behind the headings.
    word(false, &sample()[..20 * RECORD], &INDEX, [2, DATA, 2], Ok((20, 12, b'1')));
    word(true, &sample()[..20 * RECORD], &INDEX, [2, DATA, 2], Err(39));
    word(false, &sample()[..20 * RECORD - 1], &INDEX, [2, DATA, 2], Err(39));
}

/// "for a passage, BIB's counted records up to its end": the passage's; and 36 only when all of them were read.
#[test]
fn passages_are_read_up_to_their_end() {
    passage(&sample(), &INDEX, 1, "TITLE", b' ', Ok((4, 1)));
    passage(&sample(), &INDEX, 1, "AUTHOR", b' ', Ok((5, 1)));
    passage(&sample(), &INDEX, 2, "REACTION", b'2', Ok((16, 1)));
    for (keyword, pointer) in [("TITLE", b'1'), ("NONE", b' '), ("", b' '), ("ENDBIB", b' ')] {
        passage(&sample(), &INDEX, 1, keyword, pointer, Err(36));
    }
    // A huge count is no fault until a read falls outside: ENDBIB begins another keyword.
    let huge = changed(3, 23, "99999999999");
    passage(&huge, &INDEX, 1, "TITLE", b' ', Ok((4, 1)));
    passage(&huge, &INDEX, 1, "AUTHOR", b' ', Ok((5, 1)));
    passage(&huge, &INDEX, 1, "X", b' ', Err(39));
    passage(&huge, &INDEX, 1, "ENDENTRY", b' ', Err(39)); // its end would lie outside
    passage(&huge, &INDEX, 1, "ENDDATA", b' ', Ok((24, 1)));
    // Counted up to the last record, ENDENTRY, and one further.
    let exact = changed(3, 23, "         23");
    passage(&exact, &INDEX, 1, "ENDENTRY", b' ', Ok((26, 1)));
    passage(&changed(3, 23, "         24"), &INDEX, 1, "ENDENTRY", b' ', Err(39));
    passage(&changed(3, 23, "         24"), &INDEX, 1, "X", b' ', Err(39));
    passage(&exact, &INDEX, 1, "X", b' ', Err(36));
    // Cut inside BIB: what has its end is answered.
    passage(&sample()[..5 * RECORD], &INDEX, 1, "TITLE", b' ', Ok((4, 1)));
    passage(&sample()[..5 * RECORD], &INDEX, 1, "AUTHOR", b' ', Ok((5, 1)));
    passage(&sample()[..4 * RECORD + 80], &INDEX, 1, "TITLE", b' ', Err(39));
    passage(&sample()[..4 * RECORD], &INDEX, 1, "TITLE", b' ', Err(39));
}

/// Text records as bytes, and every record with that keyword looked under (docs/DECISIONS.md, The index).
#[test]
fn text_is_compared_as_bytes() {
    let long = replaced(
        "BIB                  1          2\nREACTION  1(26-FE-0(N,EL),,DA)\n          2(26-FE-0(N,INL),,DA)\nENDBIB               2\n",
        "BIB                  1          8\n          1BEFORE ANY KEYWORD\nKEY        ONE\n           MORE\n\
         OTHER      TWO\nKEY       1THREE\n           MORE\n          1AGAIN\n          1AND AGAIN\nENDBIB               8\n",
    );
    // Its BIB is refused by 10, on record 15, so the index is written by hand.
    let index = [2, 13, 14, 0, 0];
    passage(&long, &index, 2, "KEY", b' ', Ok((16, 2)));
    passage(&long, &index, 2, "KEY", b'1', Ok((19, 2)));
    passage(&long, &index, 2, "OTHER", b' ', Ok((18, 1)));
    passage(&long, &index, 2, "OTHER", b'1', Err(36));
    // What stands before the first keyword stands under none, and blanks are no keyword.
    passage(&long, &index, 2, "", b'1', Err(36));
    passage(&long, &index, 2, "", b' ', Err(36));
    for by in BOTH {
        for keyword in [&b""[..], b"KEY", b"KEY        ", b"KEY       1"] {
            assert_eq!(by.index_passage(&long, &index, 2, keyword, b'1'), no(36));
            assert_eq!(by.index_passage(&long[..20 * RECORD], &index, 2, keyword, b'1'), no(39));
        }
    }
    // Small letters, a blank in front and characters that are not permitted are bytes like others.
    for keyword in ["title", " TITLE", "TI#LE", "TITLE\n"] {
        let entry = changed(4, 1, &format!("{keyword:10}"));
        passage(&entry, &INDEX, 1, keyword, b' ', Ok((4, 1)));
        passage(&entry, &INDEX, 1, "TITLE", b' ', Err(36));
    }
    passage(&changed(16, 11, "a"), &INDEX, 2, "REACTION", b'a', Ok((16, 1)));
    passage(&changed(16, 11, "1"), &INDEX, 2, "REACTION", b'1', Ok((15, 1)));
    // The pointer of a blank one is none: the passage goes on.
    passage(&changed(16, 11, " "), &INDEX, 2, "REACTION", b'1', Ok((15, 2)));
}

/// A record above 20,000 lies outside (docs/DECISIONS.md, The index), though there are bytes.
#[test]
fn no_record_lies_behind_20_000() {
    let mut long = sample();
    let blank = [&[b' '; RECORD - 1][..], b"\n"].concat();
    while long.len() < 19_990 * RECORD {
        long.extend(&blank);
    }
    // A subentry from 19,991 on: DATA stands on 19,994, its ten lines on 19,997 to 20,006.
    let lines = format!(
        "SUBENT        90001003   20240105\nNOBIB\nNOCOMMON\nDATA                 1         10\nA\nB\n{}",
        "1.\n".repeat(10)
    );
    let laid = entry(&format!("ENTRY            90001   20240105\n{lines}"));
    long.extend(&laid[RECORD..]);
    assert_eq!(long.len(), 20_006 * RECORD);
    let index = [&INDEX[..], &[3, 19_991, 0, 0, 19_994]].concat();
    for line in 1..=10 {
        value(&long, &index, [3, DATA, line, 1], if line <= 4 { Ok((1, 0)) } else { Err(39) });
    }
    // The first record on 20,000 and on 20,001; then DATA, where 34 shows that its counts were read; then the text.
    let earlier: Vec<u32> = vec![3, 20_000, 0, 0, 19_994];
    value(&[&long[..19_999 * RECORD], &laid[RECORD..]].concat(), &earlier, [3, DATA, 1, 1], Ok((1, 0)));
    let later: Vec<u32> = vec![3, 20_001, 0, 0, 19_994];
    value(&[&long[..20_000 * RECORD], &laid[RECORD..]].concat(), &later, [3, DATA, 1, 1], Err(39));
    for (record, number) in [(20_000, 34), (20_001, 39)] {
        let moved = [&long[..(record - 1) * RECORD], &laid[4 * RECORD..]].concat();
        value(&moved, &[3, 19_991, 0, 0, record as u32], [3, DATA, 11, 1], Err(number));
    }
    let mut text = long.clone();
    put(&mut text, 19_998, 1, &format!("{:11}{:>11}{:>11}", "BIB", 1, 2));
    put(&mut text, 19_999, 1, "KEY        ONE");
    put(&mut text, 20_000, 1, "NEXT       TWO");
    let index = [3, 19_991, 19_998, 0, 0];
    passage(&text, &index, 3, "KEY", b' ', Ok((19_999, 1)));
    passage(&text, &index, 3, "NEXT", b' ', Ok((20_000, 1)));
    put(&mut text, 19_998, 33, "3");
    passage(&text, &index, 3, "KEY", b' ', Ok((19_999, 1)));
    passage(&text, &index, 3, "NEXT", b' ', Err(39));
    passage(&text, &index, 3, "NONE", b' ', Err(39));
}

/// Each of the ten numbers changed to each of many, and each question asked: the two agree.
#[test]
fn every_number_of_the_index_changed() {
    let numbers: Vec<u32> = (0..30).chain([998, 999, 20_000, 20_001, u32::MAX - 1, u32::MAX]).collect();
    let (mut asked, mut refused) = (0, [0; 40]);
    for place in 0..10 {
        for &number in &numbers {
            let index = altered(&[(place, number)]);
            for place in places(&[0, 1, 2, 3, number], 3, 4) {
                let [one, other] = BOTH.map(|by| all(by, &sample(), &index, place));
                assert_eq!(one, other, "{index:?}, {place:?}");
                asked += one.len();
                one.iter().for_each(|(_, number)| refused[*number as usize] += 1);
            }
        }
    }
    assert!([0, 32, 33, 34, 35, 36, 39].iter().all(|&number| refused[number] > 100), "{refused:?}");
    assert_eq!(refused.iter().sum::<usize>(), asked);
}

/// Subentries by sections by lines by columns: all places up to one more than there are, from 0.
fn places(subentries: &[u32], lines: u32, columns: u32) -> Vec<[u32; 4]> {
    let mut places = Vec::new();
    for &subentry in subentries {
        for (section, line) in (0..4).flat_map(|section| (0..=lines).map(move |line| (section, line))) {
            places.extend((0..=columns).map(|column| [subentry, section, line, column]));
        }
    }
    places
}

/// The answers in a place to all questions by an index, in words, and their numbers.
fn all(by: &dyn Implementation, entry: &[u8], index: &[u32], place: [u32; 4]) -> Vec<(String, u32)> {
    let [subentry, section, line, column] = place;
    let word = [subentry, section, column];
    let mut said = vec![words(&by.index_value(entry, index, place))];
    said.extend([by.index_heading(entry, index, word), by.index_unit(entry, index, word)].map(|part| words(&part)));
    if (section, column) == (1, 1) {
        let keyword: &[u8] = if line == 1 { b"TITLE     " } else { b"REACTION  " };
        said.extend([b' ', b'1', b'2'].map(|p| words(&by.index_passage(entry, index, subentry, keyword, p))));
    }
    said
}

fn words<T: std::fmt::Debug>(answer: &Result<T, NoAnswer>) -> (String, u32) {
    (format!("{answer:?}"), answer.as_ref().err().map_or(0, |refused| refused.number))
}

/// Every answer by the entry's own index, and by the row alone, is the full one: in every place of generated entries.
#[test]
fn its_own_index_gives_the_full_answers() {
    let (mut random, mut asked, mut refused) = (Random::seeded(102), 0, [0; 40]);
    for number in 0..60 {
        let entry = generate::entry(&mut random).bytes;
        let index = Index::of(&entry).expect("a valid entry has an index");
        let mut subentries: Vec<u32> = index.rows().map(|row| row.subentry).collect();
        subentries.extend([0, 4, 999]);
        let mut note = |same: bool, answer: u32, what: &str| {
            assert!(same, "entry {number}: {what}");
            asked += 1;
            refused[answer as usize] += 1;
        };
        for subentry in subentries {
            let row = index.row(subentry);
            for section in 0..4 {
                for column in 0..20 {
                    let full = library::heading(&entry, subentry, section, column);
                    let by = index.heading(&entry, subentry, section, column);
                    let alone = row.and_then(|row| row.heading(&entry, section, column));
                    note(full == by && by == alone, words(&full).1, "a heading");
                    let full = library::unit(&entry, subentry, section, column);
                    let by = index.unit(&entry, subentry, section, column);
                    let alone = row.and_then(|row| row.unit(&entry, section, column));
                    note(full == by && by == alone, words(&full).1, "a unit");
                    // Beyond the last column and in no section one line tells the others.
                    let lines = if full.is_ok() { 7 } else { 1 };
                    for line in 0..lines {
                        let full = library::value(&entry, subentry, section, line, column);
                        let by = index.value(&entry, subentry, section, line, column);
                        let alone = row.and_then(|row| row.value(&entry, section, line, column));
                        note(full == by && by == alone, words(&full).1, "a value");
                    }
                }
            }
            for (keyword, pointer) in keywords(&entry) {
                let full = library::passage(&entry, subentry, keyword, pointer);
                let by = index.passage(&entry, subentry, keyword, pointer);
                let alone = row.and_then(|row| row.passage(&entry, keyword, pointer));
                note(full == by && by == alone, words(&full).1, "a passage");
            }
        }
    }
    assert!([0, 32, 33, 34, 35, 36].iter().all(|&number| refused[number] > 500), "{refused:?}");
    assert_eq!(refused[39] + refused[38] + refused[31], 0);
    say(&format!("by its own index: {asked} answers, all those of the full questions"));
}

/// Columns 1-10 of some records with their pointer and with others.
fn keywords(entry: &[u8]) -> Vec<(&[u8], u8)> {
    let records = entry.chunks_exact(RECORD).filter(|record| record[0] != b' ').step_by(2);
    records.flat_map(|record| [b' ', record[10], b'1'].map(|pointer| (&record[..10], pointer))).collect()
}

/// Rows of another entry, and an entry changed after its index was made: both answer, and agree.
#[test]
fn other_entries_are_answered() {
    let mut random = Random::seeded(1_020);
    let mut refused = [0; 40];
    for _ in 0..300 {
        let (mut entry, other) = (generate::entry(&mut random).bytes, generate::entry(&mut random).bytes);
        let own = Index::of(&entry).unwrap();
        let mut indexes = vec![own.numbers().to_vec(), Index::of(&other).unwrap().numbers().to_vec()];
        indexes.push([&indexes[1][..], &indexes[0]].concat());
        for turn in 0..3 {
            if turn > 0 {
                generate::alter_entry(&mut random, &mut entry, own.numbers());
            }
            for index in &indexes {
                for place in places(&[1, 2, index[index.len() - 5]], 2, 3) {
                    let [one, other] = BOTH.map(|by| all(by, &entry, index, place));
                    assert_eq!(one, other, "{index:?}, {place:?}\n{}", String::from_utf8_lossy(&entry));
                    one.iter().for_each(|(_, number)| refused[*number as usize] += 1);
                }
            }
        }
    }
    assert!([0, 32, 33, 34, 35, 36, 39].iter().all(|&number| refused[number] > 500), "{refused:?}");
}

/// As many subentries as there may be: the room is exactly theirs, and each is found.
#[test]
fn the_most_rows() {
    let entry = large(&mut Random::seeded(1), Shape::Subentries, 20_000);
    assert_eq!(made(&entry, 4989), (no(38), vec![7; 4989]));
    let (rows, slice) = made(&entry, 4990);
    assert_eq!((rows, slice.len()), (Ok(MOST_ROWS), 5 * MOST_ROWS));
    let index = Index::from_numbers(slice);
    assert_eq!(Index::of(&entry), Ok(index.clone()));
    for (row, number) in index.rows().zip(1..) {
        assert_eq!((row.subentry, row.bib, row.common, row.data == 0), (number, 0, 0, number == 1));
        assert_eq!(index.row(number), Ok(row));
        assert_eq!(row.owner(&entry), Some(format!("90001{number:03}").as_bytes()));
        if number > 1 {
            assert!(row.value(&entry, DATA, 1, 4).is_ok());
        }
    }
    for subentry in [1, 2, 500, 998] {
        for by in BOTH {
            let full = by.value(&entry, [subentry, DATA, 1, 4]);
            assert_eq!(by.index_value(&entry, index.numbers(), [subentry, DATA, 1, 4]), full);
        }
    }
    // 997 tables in one pass over their rows.
    let all = tables(&entry).unwrap();
    assert_eq!((all.len(), all[996].subentry.as_str()), (997, "90001998"));
    let last = all[996].lines.len() as u32;
    assert_eq!(Ok(all[996].lines[0][3]), index.value(&entry, 998, DATA, 1, 4));
    assert_eq!(index.value(&entry, 998, DATA, last + 1, 1), no(34));
}

/// Numbers that were kept elsewhere, and what a row says by itself.
#[test]
fn numbers_make_an_index() {
    let index = Index::of(&sample()).unwrap();
    assert_eq!(index.numbers(), INDEX);
    assert_eq!(Index::from_numbers(INDEX.to_vec()), index);
    let row = Row { subentry: 2, first: 13, bib: 14, common: 0, data: 19 };
    assert_eq!((index.row(2), row.numbers()), (Ok(row), [2, 13, 14, 0, 19]));
    assert_eq!(row.owner(&sample()), Some(&b"90001002"[..]));
    for first in [0, 27, u32::MAX] {
        assert_eq!(Row { first, ..row }.owner(&sample()), None);
    }
    let part = row.passage(&sample(), b"REACTION  ", b'2').unwrap();
    assert_eq!(part, Part { offset: 15 * RECORD, length: RECORD, pointer: b'2' });
    assert_eq!(row.heading(&sample(), DATA, 2).unwrap().of(&sample()), b"DATA      ");
    assert_eq!(row.unit(&sample(), DATA, 2).unwrap().of(&sample()), b"MB/SR     ");
    assert_eq!(Row { data: 18, ..row }.value(&sample(), DATA, 1, 1), no(39));
    let odd = Index::from_numbers(vec![1, 2, 3]);
    assert_eq!((odd.rows().len(), odd.row(1), odd.value(&sample(), 1, 1, 1, 1)), (0, no(38), no(38)));
    let none = NoAnswer { number: 39, entry: None };
    assert!(none.to_string().starts_with("refusal 39: the entry is not what the index says"), "{none}");
    assert!(odd.row(1).unwrap_err().to_string().contains("no whole rows of five numbers"));
}

// ---- from C and Fortran

/// The lines that the programs read about one entry and one index, and what they are to print: the reference's answers.
fn lines(random: &mut Random, entry: &[u8], index: &[u32]) -> Vec<(String, String)> {
    let letter = |&byte: &u8| if (32..127).contains(&byte) { char::from(byte) } else { '?' };
    let mut lines = Vec::new();
    for _ in 0..100 {
        let at = random.below((entry.len() / RECORD).max(1)) * RECORD;
        let record = entry.get(at..at + RECORD).unwrap_or(&[b' '; RECORD]);
        let own = if index.is_empty() { 1 } else { index[5 * random.below(index.len().div_ceil(5))] };
        let n = if random.once_in(12) { random.one(&[0, 1, 998, 999, u32::MAX]) } else { own };
        let section = if random.once_in(12) { random.one(&[0, 3, u32::MAX]) } else { random.one(&[1, 2, 2]) };
        let line = random.one(&[0, 1, 1, 1, 1, 2, 3, 20_000, u32::MAX]);
        let column = random.one(&[0, 1, 1, 1, 1, 2, 2, 3, 6, 7, 18, 19, u32::MAX]);
        lines.push(match random.below(8) {
            0 => {
                let room = random.one(&[0, 4, 5, 9, 10, 15, 40, 4990]);
                let mut slice = vec![7; room];
                let answer = reference::make_index(entry, &mut slice);
                let sum = slice.iter().fold(0, |sum: u32, &number| sum.wrapping_mul(65599).wrapping_add(number));
                let rows = answer.unwrap_or(0);
                let said = answer.map_or_else(refused_said, |_| "made".into());
                (format!("make {room}"), format!("{sum} {rows} {said}"))
            }
            1 => {
                let answer = reference::index_row(index, n);
                (format!("row {n}"), answer.map_or_else(refused_said, |before| before.to_string()))
            }
            2 | 3 => {
                let answer = reference::index_value(entry, index, n, section, line, column);
                (format!("value {n} {section} {line} {column}"), value_said(answer))
            }
            4 => {
                let answer = reference::index_heading(entry, index, n, section, column);
                (format!("heading {n} {section} {column}"), part_said(answer))
            }
            5 => {
                let answer = reference::index_unit(entry, index, n, section, column);
                (format!("unit {n} {section} {column}"), part_said(answer))
            }
            _ => {
                let length = if random.once_in(8) { random.within(1, 12) } else { 10 };
                let pointer = if random.once_in(3) { b' ' } else { record[10] };
                let keyword: String = record[..length].iter().map(letter).collect();
                let answer = reference::index_passage(entry, index, n, keyword.as_bytes(), pointer);
                (format!("passage {n} {pointer} {keyword}"), part_said(answer))
            }
        });
    }
    lines
}

/// Entries with indexes: their own, altered ones, and none; entries changed since.
fn pairs() -> Vec<(Vec<u8>, Vec<u32>)> {
    let most = large(&mut Random::seeded(1), Shape::Subentries, 9_000);
    let mut pairs = vec![
        (sample(), INDEX.to_vec()),
        (sample(), INDEX[..9].to_vec()),
        (sample(), Vec::new()),
        (Vec::new(), INDEX.to_vec()),
        (most.clone(), generate::index_of(&most)),
    ];
    for seed in 0..60 {
        let mut random = Random::seeded(seed);
        let mut entry = generate::entry(&mut random).bytes;
        let mut index = generate::index_of(&entry);
        if seed % 3 == 1 {
            generate::alter_index(&mut random, &mut index);
        }
        if seed % 3 == 2 {
            generate::alter_entry(&mut random, &mut entry, &index);
        }
        pairs.push((entry, index));
    }
    pairs
}

fn agree(program: &Path, name: &str) {
    let room = Path::new(env!("CARGO_TARGET_TMPDIR"));
    let [file, numbers, list] = ["x4", "idx", "txt"].map(|kind| room.join(format!("{name}.{kind}")));
    let (mut count, mut seen) = (0, [0; 40]);
    for (turn, (entry, index)) in pairs().iter().enumerate() {
        let lines = lines(&mut Random::seeded(turn as u64), entry, index);
        std::fs::write(&file, entry).unwrap();
        std::fs::write(&numbers, index.iter().map(|number| format!("{number}\n")).collect::<String>()).unwrap();
        std::fs::write(&list, lines.iter().map(|(line, _)| format!("{line}\n")).collect::<String>()).unwrap();
        let output = Command::new(program).args([&file, &numbers, &list]).output().unwrap();
        let text = String::from_utf8(output.stdout).unwrap();
        assert!(output.status.success(), "pair {turn}: {}\n{text}", output.status);
        assert_eq!(text.lines().count(), lines.len(), "pair {turn}");
        for ((line, due), answer) in lines.iter().zip(text.lines()) {
            assert_eq!(answer, due, "pair {turn}, {line}");
            let number =
                answer.split("refused ").nth(1).map_or(0, |rest| rest.split(' ').next().unwrap().parse().unwrap());
            seen[number as usize] += 1;
            count += 1;
        }
    }
    let all = [0, 31, 32, 33, 34, 35, 36, 38, 39];
    assert!(all.iter().all(|&number: &usize| seen[number] > 5), "every answer occurs: {seen:?}");
    say(&format!("{name}: {count} answers, {} not refused", seen[0]));
}

#[test]
fn c_programs_get_the_same_answers() {
    if let Some(program) = compiled("gcc", "index-c", &C, &["tests/c/index.c"]) {
        agree(&program, "index-c");
    }
}

#[test]
fn fortran_programs_get_the_same_answers() {
    let modules = concat!(env!("CARGO_TARGET_TMPDIR"), "/index");
    std::fs::create_dir_all(modules).unwrap();
    let arguments = ["-std=f2008", "-O2", "-Wall", "-Werror", "-J", modules];
    let sources = ["fortran/x4.f90", "fortran/in_words.f90", "fortran/index.f90"];
    if let Some(program) = compiled("gfortran", "index-f", &arguments, &sources) {
        agree(&program, "index-f");
    }
}

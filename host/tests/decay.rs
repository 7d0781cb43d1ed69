//! Codes under DECAY-DATA (M-106): those of the manuals with their fields by hand, each outcome of the request, codes
//! damaged in every place and broken over records in every way, long ones, and what C and Fortran print.

mod common;

use common::{compiled, entry, flags, sample, say, value_said, BOTH, C};
use glockenbeacon::codes::{codes, file_codes};
use glockenbeacon::decay::{codes_in, Code, CodeRefusal, NoCode, KEYWORD};
use glockenbeacon::differ::{Implementation, Library, Pair, Reference};
use glockenbeacon::generate::{self, Random};
use glockenbeacon::{library, reference, words, Decimal, FieldRead, Refusal, Value, RECORD};
use std::path::Path;
use std::process::Command;
use std::time::{Duration, Instant};

/// Records of a passage with these texts from column 12 on.
fn passage(texts: &[&str]) -> Vec<u8> {
    let record = |(at, text): (usize, &&str)| {
        let keyword = if at == 0 { "DECAY-DATA" } else { "" };
        assert!(text.len() <= 55, "{text:?}");
        format!("{keyword:10} {text:55}90001002{:05} \n", at + 3).into_bytes()
    };
    texts.iter().enumerate().flat_map(record).collect()
}

/// The run of a code, or number, record and column of its refusal.
fn told(by: &dyn Implementation, passage: &[u8], code: u32) -> Result<String, [u32; 3]> {
    let mut out = vec![b'#'; passage.len() + 9];
    let answer = by.decay_in(passage, code, &mut out);
    let stored = answer.unwrap_or(0);
    assert!(out[stored..].iter().all(|&byte| byte == b'#'), "bytes behind a run, or of a refused call");
    let run = |length: usize| String::from_utf8_lossy(&out[..length]).into_owned();
    answer.map(run).map_err(|refusal| [refusal.number, refusal.record, refusal.column])
}

/// A number as text, or a blank.
fn said(number: Option<glockenbeacon::decay::Number>) -> String {
    number.map_or("-".into(), |number| number.value.to_string())
}

/// A code's fields in one line: flag, nuclide, half-life and unit, and each group.
fn fields(code: &Code) -> String {
    let half_life =
        code.half_life().map_or("-".into(), |half_life| format!("{} {}", said(Some(half_life.number)), half_life.unit));
    let mut line = format!(
        "{} | {} {} {} {} | {half_life}",
        code.flag().unwrap_or("-"),
        code.z(),
        code.symbol(),
        code.a(),
        code.isomer().unwrap_or("-")
    );
    for group in code.groups() {
        let energies: Vec<String> = group.energies.iter().map(|one| said(Some(*one))).collect();
        line += &format!(" | {} ; {} ; {}", group.types.join(" "), energies.join(" "), said(group.abundance));
    }
    line
}

/// The codes that the manuals print, 000 ch. 8 a to g and 004 B, each with its run and its fields by hand.
const MANUALS: [(&[&str], &str, &str); 14] = [
    (&["(40-ZR-89-M)"], "(40-ZR-89-M)", "- | 40 ZR 89 M | -"),
    (&["(60-ND-140,3.3D)"], "(60-ND-140,3.3D)", "- | 60 ND 140 - | 3.3 D"),
    (&["(59-PR-140,,B+/EC,,0.500)"], "(59-PR-140,,B+/EC,,.5)", "- | 59 PR 140 - | - | B+ EC ;  ; 0.5"),
    (&["(59-PR-140, ,B+/EC, ,0.500)"], "(59-PR-140, ,B+/EC, ,.5)", "- | 59 PR 140 - | - | B+ EC ;  ; 0.5"),
    (
        &["(25-MN-50-G, 0.286SEC, B+, 6610.)"],
        "(25-MN-50-G, .286SEC, B+, 6610.)",
        "- | 25 MN 50 G | 0.286 SEC | B+ ; 6610 ; -",
    ),
    (
        &["(25-MN-50-G,0.286SEC,B+,6610.)"],
        "(25-MN-50-G,.286SEC,B+,6610.)",
        "- | 25 MN 50 G | 0.286 SEC | B+ ; 6610 ; -",
    ),
    (
        &["(25-MN-50-M,1.76MIN,DG,785.,,B+)"],
        "(25-MN-50-M,1.76MIN,DG,785.,,B+)",
        "- | 25 MN 50 M | 1.76 MIN | DG ; 785 ; - | B+ ;  ; -",
    ),
    (
        &["(25-MN-50-M,1.76MIN,DG,785., ,B+)"],
        "(25-MN-50-M,1.76MIN,DG,785., ,B+)",
        "- | 25 MN 50 M | 1.76 MIN | DG ; 785 ; - | B+ ;  ; -",
    ),
    (
        &["((1.)60-ND-138,5.04HR,DG,328.,0.065)"],
        "((1.)60-ND-138,5.04HR,DG,328.,.065)",
        "1. | 60 ND 138 - | 5.04 HR | DG ; 328 ; 0.065",
    ),
    (
        &["(60-ND-139-M,5.5HR,DG,708./738.,0.64)"],
        "(60-ND-139-M,5.5HR,DG,708./738.,.64)",
        "- | 60 ND 139 M | 5.5 HR | DG ; 708 738 ; 0.64",
    ),
    (
        &["(60-ND-139-G,30.0MIN,B+,,0.257,DG,405.,0.055)"],
        "(60-ND-139-G,30.MIN,B+,,.257,DG,405.,.055)",
        "- | 60 ND 139 G | 30 MIN | B+ ;  ; 0.257 | DG ; 405 ; 0.055",
    ),
    (
        &["(60-ND-139-G,30.0MIN,B+, ,0.257,", "DG,405.,0.055)"],
        "(60-ND-139-G,30.MIN,B+, ,.257,DG,405.,.055)",
        "- | 60 ND 139 G | 30 MIN | B+ ;  ; 0.257 | DG ; 405 ; 0.055",
    ),
    (
        &["(60-ND-139-M,5.5HR,DG,738.,0.37,DG,982.,0.29,", "DG,708.,0.27,DG,403.,0.03,B+,,0.006)"],
        "(60-ND-139-M,5.5HR,DG,738.,.37,DG,982.,.29,DG,708.,.27,DG,403.,.03,B+,,.006)",
        "- | 60 ND 139 M | 5.5 HR | DG ; 738 ; 0.37 | DG ; 982 ; 0.29 | DG ; 708 ; 0.27 | DG ; 403 ; 0.03 | B+ ;  ; 0.006",
    ),
    // By position 0.006 is an energy.
    (
        &["(60-ND-139-M,5.5HR,DG,738.,0.37,", "DG,982.,0.29,", "DG,403.,0.03,", "B+,0.006)"],
        "(60-ND-139-M,5.5HR,DG,738.,.37,DG,982.,.29,DG,403.,.03,B+,.006)",
        "- | 60 ND 139 M | 5.5 HR | DG ; 738 ; 0.37 | DG ; 982 ; 0.29 | DG ; 403 ; 0.03 | B+ ; 0.006 ; -",
    ),
];

#[test]
fn codes_of_the_manuals() {
    for (texts, run, due) in MANUALS {
        let passage = passage(texts);
        for by in BOTH {
            assert_eq!(told(by, &passage, 1), Ok(run.to_string()));
            assert_eq!(told(by, &passage, 2), Err([36, 0, 0]));
        }
        let code = Code::of_passage(&passage, 1).unwrap();
        assert_eq!((code.run(), fields(&code).as_str()), (run, due));
        // The run reads to the same fields, and so does the code as it is printed.
        assert_eq!(fields(&Code::of_run(run.as_bytes()).unwrap()), due);
        assert_eq!(fields(&Code::of_run(texts.concat().as_bytes()).unwrap()), due);
    }
}

/// Every field, by its characters and its place in the run.
#[test]
fn fields_have_their_places() {
    let code = Code::of_run(b"((0012.)  60-ND-138-M2, 5.04E+0HR, DG/B+, 328./-1.E5,+.065,,1.)").unwrap();
    let head = code.head();
    let text =
        |place: glockenbeacon::decay::Place| String::from_utf8_lossy(place.of(code.run().as_bytes())).into_owned();
    assert_eq!((head.flag.map(text), code.flag()), (Some("0012.".into()), Some("0012.")));
    assert_eq!([head.z, head.symbol, head.a].map(text), ["60", "ND", "138"]);
    assert_eq!((code.nuclide(), code.isomer()), ("60-ND-138-M2", Some("M2")));
    let half_life = code.half_life().unwrap();
    assert_eq!((half_life.number.text, half_life.unit), ("5.04E+0", "HR"));
    let groups: Vec<_> = code.groups().collect();
    assert_eq!((groups.len(), code.groups().len(), head.groups), (2, 2, 2));
    assert_eq!(groups[0].types, ["DG", "B+"]);
    let texts: Vec<&str> = groups[0].energies.iter().map(|energy| energy.text).collect();
    assert_eq!((texts, groups[0].abundance.map(|number| number.text)), (vec!["328.", "-1.E5"], Some("+.065")));
    assert_eq!(groups[0].energies[1].value, Decimal { negative: true, coefficient: 1, power: 5 });
    assert_eq!((groups[1].types.len(), groups[1].energies.len()), (0, 1));
    for by in BOTH {
        let run = code.run().as_bytes();
        assert_eq!(by.decay_head(run), Ok(*head));
        for group in [0, 3, 1 << 31, u32::MAX] {
            assert_eq!((by.decay_group(run, group), by.decay_type(run, group, 1)), (None, None));
            assert_eq!(by.decay_energy(run, group, 1), None);
        }
        for at in [0, 3, 1 << 31, u32::MAX] {
            assert_eq!((by.decay_type(run, 1, at), by.decay_energy(run, 1, at)), (None, None));
        }
        assert_eq!(by.decay_type(run, 1, 2).map(text), Some("B+".into()));
    }
}

/// Texts that are no code: how many characters stand before the first that no code has there.
#[test]
fn texts_that_are_no_code() {
    for (text, at) in [
        ("", 0),
        (" ", 0),
        ("1-H-3", 0),
        ("(", 1),
        ("()", 1),
        ("( (1.)1-H-3)", 2),
        ("((1)1-H-3)", 3),
        ("((.)1-H-3)", 2),
        ("((12345678901.)1-H-3)", 12),
        ("((1.5)1-H-3)", 4),
        ("((1.)", 5),
        ("(01-H-3)", 2),
        ("(1000-H-3)", 4),
        ("(1-HEL-3)", 5),
        ("(1-H)", 4),
        ("(1-h-3)", 3),
        ("(1-H-3-T)", 7),
        ("(1-H-3-M3)", 8),
        ("(1-H-3-M11)", 9),
        ("(1-H-3-M/T)", 8),
        ("(26-FE-CMP)", 7),
        ("(1-H-3 )", 6),
        ("(1-H-3,)", 7),
        ("(1-H-3, )", 8),
        ("(1-H-3,3D)", 8),
        ("(1-H-3,3.)", 9),
        ("(1-H-3,3. D)", 9),
        ("(1-H-3,3.D )", 10),
        ("(1-H-3,3.d)", 9),
        ("(1-H-3,1.ABCDEFGHIJK)", 19),
        ("(1-H-3,12345678901", 17),
        ("(1-H-3,123456789.E5D)", 18),
        ("(1-H-3,,)", 8),
        ("(1-H-3,,A,)", 10),
        ("(1-H-3,,A,1.,)", 13),
        ("(1-H-3,,,,,)", 10),
        ("(1-H-3,,A,,,,,,B)", 14),
        ("(1-H-3,,A/)", 10),
        ("(1-H-3,,/A)", 8),
        ("(1-H-3,,A//B)", 10),
        ("(1-H-3,,A/ B)", 10),
        ("(1-H-3,,A,1./)", 13),
        ("(1-H-3,,A,1234567890.+)", 21),
        ("(1-H-3,,A,1./ 2.)", 13),
        ("(1-H-3,,A,1)", 11),
        ("(1-H-3,,A,1.,.)", 14),
        ("(1-H-3,,A,1.,1./2.)", 15),
        ("(1-H-3) ", 7),
        ("(1-H-3)(1-H-3)", 7),
        ("(1-H-3,3.D", 10),
        ("(1-H-3\n)", 6),
        ("(1-H-3,,\u{e9})", 8),
    ] {
        for by in BOTH {
            assert_eq!(by.decay_head(text.as_bytes()), Err(NoCode { at }), "{text:?}");
            assert_eq!(by.decay_group(text.as_bytes(), 1), None, "{text:?}");
            assert_eq!(by.decay_type(text.as_bytes(), 1, 1), None, "{text:?}");
            assert_eq!(by.decay_energy(text.as_bytes(), 1, 1), None, "{text:?}");
        }
        assert_eq!(Code::of_run(text.as_bytes()), Err(NoCode { at }));
    }
    for text in [
        "(0-NN-1)",
        "(26-FE-0)",
        "((1234567890.)1-H-3)",
        "((00.)  1-H-3)",
        "(1-H-3,1.E5E)",
        "(1-H-3,1.ED)",
        "(1-H-3,1.ABCDEFGHIJ)",
        "(1-H-3,1234567890.D)",
        "(1-H-3,123456789.E)",
        "(1-H-3,,,,1.)",
        "(1-H-3,,,1.)",
        "(1-H-3,,A,,,,1.,,,,.5)",
        "(1-H-3,,-/+,-1./+.0E+5)",
    ] {
        for by in BOTH {
            assert!(by.decay_head(text.as_bytes()).is_ok(), "{text:?}");
        }
    }
}

/// The outcomes of the request's page, in records: the run, or number, record and column.
#[test]
fn outcomes_in_records() {
    let long = |last: &str| format!("(25-MN-50-G,,{}{last}", "A".repeat(55 - 13 - last.len()));
    let (comma, none) = (long(","), long(""));
    let cases: &[(&[&str], u32, Result<&str, [u32; 3]>)] = &[
        (&["(25-MN-50-G,0.286 SEC)"], 1, Err([50, 1, 29])),
        (&["(25-MN-50-G,,A/ B)"], 1, Err([50, 1, 27])),
        (&["(25 -MN-50)"], 1, Err([50, 1, 15])),
        (&["(25-MN-50-G,0.286SEC", "B+,6610.)"], 1, Err([51, 1, 31])),
        (&["(25-MN-50-G,", "", "0.286SEC)"], 1, Err([50, 2, 12])),
        (&["(25-MN-50-G,", " 0.286SEC)"], 1, Ok("(25-MN-50-G, .286SEC)")),
        (&["(25-MN-50-G,   ", "     0.286SEC)  TEXT ("], 1, Ok("(25-MN-50-G,     .286SEC)")),
        (&["(25-MN-50-G,"], 1, Err([50, 2, 0])),
        (&["(25-MN-50-G"], 1, Err([51, 1, 22])),
        (&["(25-MN-50-G,", "(1-H-3)"], 1, Err([50, 2, 12])),
        (&["(25-MN-50-G,", "(1-H-3)"], 2, Ok("(1-H-3)")),
        (&["(25-MN-50-G,", "(1-H-3)"], 3, Err([36, 0, 0])),
        (&["(25-MN-50-G,", "(1-H-3)"], 0, Err([36, 0, 0])),
        (&["(25-MN-50-T"], 1, Err([50, 1, 22])),
        (&[&none, "A)"], 1, Err([51, 1, 66])),
        (&[&comma, "1.)"], 1, Ok("(25-MN-50-G,,AAAAAAAAAAAAAAAAAAAAAAAAAAAAAAAAAAAAAAAAA,1.)")),
        (&["TEXT", "(1-H-3)", "MORE TEXT", "(2-HE-4)BEHIND", " (3-LI-6)"], 1, Ok("(1-H-3)")),
        (&["TEXT", "(1-H-3)", "MORE TEXT", "(2-HE-4)BEHIND", " (3-LI-6)"], 2, Ok("(2-HE-4)")),
        (&["TEXT", "(1-H-3)", "MORE TEXT", "(2-HE-4)BEHIND", " (3-LI-6)"], 3, Err([36, 0, 0])),
        (&["(1-H-3,,A/", "B)"], 1, Err([51, 1, 21])),
        (&["(1-H-3,,A", ",1.)"], 1, Err([51, 1, 20])),
        (&["("], 1, Err([51, 1, 12])),
        (&["((1.)", "1-H-3)"], 1, Err([51, 1, 16])),
        (&["(1-H-3,12.3", "4D)"], 1, Err([51, 1, 22])),
        (&["(1-H-3,,,,"], 1, Err([50, 2, 0])),
        (&["(1-H-3,,,,,"], 1, Err([50, 1, 22])),
        (&["(SEE TABLE 3)"], 1, Err([50, 1, 13])),
        (&["NO CODE"], 1, Err([36, 0, 0])),
        (&["(1-H-3,1.0D,A,1.50/2.0,0.10,", "B,,1.0E1)"], 1, Ok("(1-H-3,1.D,A,1.5/2.,.1,B,,10.)")),
        (&["((01.)1-H-3)"], 1, Ok("((01.)1-H-3)")),
    ];
    for (texts, code, due) in cases {
        let passage = passage(texts);
        for by in BOTH {
            assert_eq!(told(by, &passage, *code), due.map(str::to_string), "{texts:?}, code {code}");
        }
    }
    for by in BOTH {
        assert_eq!(told(by, b"", 1), Err([36, 0, 0]));
        // Only whole records count.
        let whole = passage(&["(1-H-3,", "1.D)"]);
        assert_eq!(told(by, &whole[..2 * RECORD - 1], 1), Err([50, 2, 0]));
        assert_eq!(told(by, &whole[..RECORD - 1], 1), Err([36, 0, 0]));
        assert_eq!(told(by, &[&whole[..], b"(1-H-3)"].concat(), 1), Ok("(1-H-3,1.D)".into()));
        // What stands behind column 66 is no part of it.
        let mut behind = passage(&["(1-H-3,"]);
        behind[66..80].copy_from_slice(b"1.D)          ");
        assert_eq!(told(by, &behind, 1), Err([50, 2, 0]));
    }
}

/// A break after any of the commas, in every combination, gives the same run; a break anywhere else is 51.
#[test]
fn breaks_in_every_way() {
    let text = "((1.)60-ND-139-M,5.50HR,DG/B+,738./1.0,0.37,,,.5,X)";
    let run = "((1.)60-ND-139-M,5.5HR,DG/B+,738./1.,.37,,,.5,X)";
    let fields: Vec<&str> = text.split_inclusive(',').collect();
    let breaks = fields.len() - 1;
    for set in 0..1_u32 << breaks {
        let mut texts = vec![String::new()];
        for (at, field) in fields.iter().enumerate() {
            texts.last_mut().unwrap().push_str(field);
            if at < breaks && set >> at & 1 == 1 {
                texts.push(String::new());
            }
        }
        let texts: Vec<&str> = texts.iter().map(String::as_str).collect();
        for by in BOTH {
            assert_eq!(told(by, &passage(&texts), 1), Ok(run.to_string()), "{texts:?}");
        }
    }
    for at in 1..text.len() {
        let (front, behind) = text.split_at(at);
        let due = match front.ends_with(',') {
            true => Ok(run.to_string()),
            false => Err([51, 1, 11 + at as u32]),
        };
        for by in BOTH {
            assert_eq!(told(by, &passage(&[front, behind]), 1), due, "{front:?}");
        }
        // Indented it begins with blanks, which stay.
        if front.ends_with(',') {
            let indented = told(&Library, &passage(&[front, &format!("   {behind}")]), 1).unwrap();
            assert_eq!((indented.replace(' ', ""), indented.matches(' ').count()), (run.to_string(), 3));
        }
    }
}

/// Codes with every byte changed to every other, and generated entries: the library and the reference say the same.
#[test]
fn damaged_codes_are_alike() {
    let every: Vec<u8> = (0..=255).collect();
    let mut pair = Pair::new(&Library, &Reference);
    for text in ["((1.)60-ND-138-M1, 5.04HR,DG/B+,328./1.E5, 0.065,X)", "(1-H-3)", "(59-PR-140, ,B+/EC, ,0.500)"] {
        pair.code_bytes(text.as_bytes(), &every).unwrap_or_else(|difference| panic!("{difference}"));
    }
    pair.codes(common::SEED, 800).unwrap_or_else(|difference| panic!("{difference}"));
    pair.code_limits().unwrap_or_else(|difference| panic!("{difference}"));
    let counts = &pair.counts;
    for number in [0, 31, 32, 33, 36, 50, 51, 52] {
        assert!(counts.codes.of(number) > 50, "{number}: {}", counts.codes.of(number));
    }
    for number in [0, 36, 50, 51, 52] {
        assert!(counts.codes_in.of(number) > 500, "{number}: {}", counts.codes_in.of(number));
    }
    assert!(
        counts.heads.of(0) > 1_000 && counts.heads.of(50) > 1_000 && counts.pieces.iter().all(|&times| times > 1_000)
    );
}

/// A character put in the place of each one, or taken away: what stands before the fault begins a code, and with it
/// none does, by completing both in every way that is short.
#[test]
fn the_fault_is_the_first() {
    // What ends a field, and what ends a code from its front on.
    const TAILS: [&str; 15] =
        ["", "0", ".", "0.", "D", ".D", "0D", "0.D", "A", "/A", "-0", "A-0", "-A-0", "G", "0-A-0"];
    const FRONTS: [&str; 5] = ["", "(0-A-0)", "0.)0-A-0)", ".)0-A-0)", ")0-A-0)"];
    let whole = |text: &[u8], tail: &str| library::decay_head(&[text, tail.as_bytes()].concat()).is_ok();
    let viable = |text: &[u8]| {
        let mut tails = TAILS.iter().flat_map(|tail| ["", ",", ",,", ",,,"].map(|commas| format!("{commas}{tail})")));
        tails.any(|tail| whole(text, &tail)) || FRONTS.iter().any(|front| whole(text, front))
    };
    let mut stopped = 0;
    for (texts, ..) in MANUALS {
        let text = texts.concat();
        for place in 0..text.len() {
            for byte in b"(),./-+ 01AEGMT#" {
                let mut changed = text.clone().into_bytes();
                changed[place] = *byte;
                let Err(NoCode { at }) = library::decay_head(&changed) else { continue };
                assert!(viable(&changed[..at]), "{}: {at}", String::from_utf8_lossy(&changed));
                if at < changed.len() {
                    assert!(!viable(&changed[..=at]), "{}: {at}", String::from_utf8_lossy(&changed));
                    stopped += 1;
                }
            }
        }
    }
    assert!(stopped > 4_000, "{stopped}");
}

/// The sample with codes: what is asked by subentry, pointer and number, and every refusal.
#[test]
fn codes_of_an_entry() {
    let entry = include_bytes!("../data/decay.x4");
    let cases: [(u32, u8, u32, Result<&str, [u32; 3]>); 14] = [
        (2, b' ', 1, Ok("(40-ZR-89-M)")),
        (2, b' ', 2, Ok("(60-ND-139-G,30.MIN,B+,,.257,DG,405.,.055)")),
        (2, b' ', 6, Ok("(60-ND-139-M,5.5HR,DG,708./738.,.64)")),
        (2, b' ', 7, Err([50, 24, 13])),
        (2, b' ', 8, Err([36, 0, 0])),
        (2, b' ', 0, Err([36, 0, 0])),
        (2, b'1', 1, Ok("(60-ND-139-M,5.5HR,DG,738.,.37,DG,982.,.29,DG,403.,.03,B+,.006)")),
        (2, b'1', 2, Err([36, 0, 0])),
        (2, b'2', 1, Err([36, 0, 0])),
        (2, b'a', 1, Err([36, 0, 0])),
        (1, b' ', 1, Err([36, 0, 0])),
        (3, b' ', 1, Err([32, 0, 0])),
        (0, b' ', 1, Err([32, 0, 0])),
        (u32::MAX, 0, u32::MAX, Err([32, 0, 0])),
    ];
    for by in BOTH {
        for (subentry, pointer, code, due) in cases {
            let length = due.map_or(0, str::len);
            for room in [0, 1, length.saturating_sub(1), length, length + 1, 300] {
                let mut out = vec![b'#'; room];
                let answer = by.decay(entry, (subentry, pointer, code), &mut out);
                let due = if due.is_ok() && room < length { Err([52, 0, 0]) } else { due };
                let told = answer.map_err(|refusal| [refusal.number, refusal.record, refusal.column]);
                assert_eq!(told, due.map(str::len), "{subentry} {pointer} {code}");
                let run = due.unwrap_or_default().as_bytes();
                assert!(out.starts_with(run) && out[run.len()..].iter().all(|&byte| byte == b'#'));
            }
        }
        // 31 comes before all else, with what the entry is refused for.
        let refusal = Refusal::new(4, 1, 1);
        let due = CodeRefusal { number: 31, record: 0, column: 0, entry: Some(refusal) };
        assert_eq!(by.decay(&entry[RECORD..], (9, b'#', 0), &mut []), Err(due));
        assert_eq!(by.decay(&[], (1, b' ', 1), &mut []).map_err(|no| no.entry), Err(Some(Refusal::new(1, 0, 0))));
        // Subentry 002 of the sample has BIB, but nothing under DECAY-DATA; one with NOBIB is 33.
        assert_eq!(by.decay(&sample(), (2, b'1', 1), &mut []).map_err(|no| no.number), Err(36));
        let bare = generate::decay_entry_of(&[vec![(b' ', vec!["(1-H-3)".into()])], vec![]]);
        assert_eq!(by.decay(&bare, (2, b' ', 1), &mut []).map_err(|no| no.number), Err(33));
        assert_eq!(by.decay(&bare, (1, b' ', 1), &mut [0; 7]), Ok(7));
    }
    let words = |number: u32, record: u32, column: u32| CodeRefusal { number, record, column, entry: None }.to_string();
    assert_eq!(words(50, 24, 13), "refusal 50, record 24, column 13: a character that no code can have there");
    assert_eq!(words(50, 24, 0), "refusal 50, record 24: the passage ended within the code");
    assert_eq!(words(51, 5, 66), "refusal 51, record 5, column 66: the code breaks after no comma");
    assert_eq!(words(52, 0, 0), "refusal 52: the slice is shorter than the run");
    assert!(words(36, 0, 0).ends_with("or no such code in it"));
}

/// All codes of an entry, of one without any, and of a transmission.
#[test]
fn all_codes_are_found() {
    let entry = include_bytes!("../data/decay.x4");
    let all = codes(entry).unwrap();
    let places: Vec<(u8, u32, u32)> = all.iter().map(|found| (found.pointer, found.number, found.record)).collect();
    assert_eq!(
        places,
        [
            (b' ', 1, 16),
            (b' ', 2, 17),
            (b' ', 3, 19),
            (b' ', 4, 20),
            (b' ', 5, 21),
            (b' ', 6, 22),
            (b' ', 7, 24),
            (b'1', 1, 25)
        ]
    );
    assert!(all.iter().all(|found| found.subentry == "90001002" && found.entry == 0));
    for found in &all {
        let asked = Code::of_entry(entry, 2, found.pointer, found.number);
        assert_eq!(asked, found.code, "the same as asked for by itself");
        assert_eq!(found.words.is_some(), found.code.is_err());
    }
    assert_eq!(codes(&sample()), Ok(Vec::new()));
    assert_eq!(codes(&flags(&[])), Ok(Vec::new()));
    let file = [format!("{:66}{:15}\n", "TRANS            T001   20240105", "").into_bytes()];
    assert!(file_codes(&file[0]).is_err());
    // Generated ones: each is found, and is what the full question says.
    let (mut good, mut bad) = (0, 0);
    for seed in 0..300 {
        let entry = generate::decay_entry(&mut Random::seeded(seed));
        let Ok(all) = codes(&entry) else {
            assert!(library::judge(&entry).refusal().is_some());
            continue;
        };
        for found in &all {
            let subentry = found.subentry[5..].parse().unwrap();
            assert_eq!(Code::of_entry(&entry, subentry, found.pointer, found.number), found.code, "seed {seed}");
            let counts = [usize::from(found.code.is_ok()), usize::from(found.code.is_err())];
            (good, bad) = (good + counts[0], bad + counts[1]);
        }
        let asked = |pointer| {
            let part = |subentry| library::passage(&entry, subentry, KEYWORD, pointer).ok();
            (1..=3).filter_map(part).map(|part| codes_in(part.of(&entry)).count()).sum::<usize>()
        };
        let due: usize = b" 123456789ABCDEFGHIJKLMNOPQRSTUVWXYZ".iter().map(|&pointer| asked(pointer)).sum();
        assert_eq!(all.len(), due, "seed {seed}");
    }
    assert!(good > 300 && bad > 100, "{good} good, {bad} refused");
}

/// One code of as many records as an entry holds, and as many codes as it holds: judged and taken apart in time.
#[test]
fn long_codes_are_in_time() {
    let timed = |name: &str, most: u64, work: &mut dyn FnMut()| {
        let begun = Instant::now();
        work();
        let took = begun.elapsed();
        say(&format!("{name}: {} ms", took.as_millis()));
        assert!(took < Duration::from_secs(most), "{name}: {took:?}");
    };
    let text = "DG/B+,405.0/1.E5,0.055,A,,,,1.,,X,1./2./3.,.5,";
    let entry = generate::long_entry(generate::LONGEST_CODE, text);
    assert_eq!(entry.len(), 20_000 * RECORD);
    let groups = 4 * (generate::LONGEST_CODE - 2) + 1;
    timed("a code of 19,990 records, by the entry", 60, &mut || {
        let code = Code::of_entry(&entry, 1, b' ', 1).unwrap();
        assert_eq!((code.groups().len(), code.groups().count()), (groups, groups));
        let energies: usize = code.groups().map(|group| group.energies.len()).sum();
        assert_eq!(energies, 6 * (generate::LONGEST_CODE - 2));
    });
    timed("the same, all codes of the entry", 60, &mut || {
        let all = codes(&entry).unwrap();
        assert_eq!((all.len(), all[0].code.as_ref().unwrap().groups().len()), (1, groups));
    });
    // One more record, and the entry is too long; one less comma at the end, and it is 51.
    let mut texts = generate::long_code(generate::LONGEST_CODE, text);
    texts[generate::LONGEST_CODE - 1] = "B+,,".into();
    let open = generate::decay_entry_of(&[vec![(b' ', texts)]]);
    let answer = Code::of_entry(&open, 1, b' ', 1).unwrap_err();
    assert_eq!((answer.number, answer.record, answer.column), (50, generate::LONGEST_CODE as u32 + 6, 0));
    // Many codes: good, refused at once, and refused where the next begins.
    let each = ["(60-ND-139-M,5.5HR,DG,738.,0.37)", "(SEE TABLE 3)", "(60-ND-139-M,"];
    for text in each {
        let entry = generate::decay_entry_of(&[vec![(b' ', vec![text.to_string(); generate::LONGEST_CODE])]]);
        timed(&format!("19,990 times {text}"), 30, &mut || {
            let all = codes(&entry).unwrap();
            assert_eq!(all.len(), generate::LONGEST_CODE);
            assert!(all.iter().all(|found| found.code.is_ok() == text.ends_with("0.37)")));
        });
    }
}

// ---- other languages

fn refused_said(refusal: CodeRefusal) -> String {
    let [own, record, column] = match refusal.entry {
        Some(entry) => [entry.number, entry.record, entry.column],
        None => [0, refusal.record, refusal.column],
    };
    format!("refused {} {own} {record} {column}", refusal.number)
}

fn number_said(value: Option<Decimal>) -> String {
    value_said(Ok(FieldRead { value: value.map_or(Value::Blank, Value::Number), digits: 0 }))
}

/// What a program prints of a run: its places and half-life, and of each group, type and energy.
fn apart_said(run: &[u8]) -> String {
    let head = match reference::decay_head(run) {
        Ok(head) => head,
        Err(no) => return format!("no code {}", no.at),
    };
    let (places, _) = words::head_stored(&head);
    let places = places.map(|number| number.to_string()).join(" ");
    let mut said = format!("head {places} {}", number_said(head.half_life.map(|(number, _)| number.value)));
    for group in 1..=head.groups as u32 {
        let read = reference::decay_group(run, group).unwrap();
        let ([types, energies, first, length], _) = words::group_stored(Some(read));
        said += &format!(
            "\ngroup {types} {energies} {first} {length} {}",
            number_said(read.abundance.map(|one| one.value))
        );
        for at in 1..=types as u32 {
            let place = reference::decay_type(run, group, at).unwrap();
            said += &format!("\ntype {} {} [{}]", place.first, place.length, String::from_utf8_lossy(place.of(run)));
        }
        for at in 1..=energies as u32 {
            let one = reference::decay_energy(run, group, at).unwrap();
            said += &format!("\nenergy {} {} {}", one.place.first, one.place.length, number_said(Some(one.value)));
        }
    }
    said
}

/// What is answered with a slice of so many bytes.
fn run_said(room: usize, ask: impl Fn(&mut [u8]) -> Result<usize, CodeRefusal>) -> String {
    let mut out = vec![b'#'; room];
    match ask(&mut out) {
        Ok(length) => {
            format!("run {length} [{}]\n{}", String::from_utf8_lossy(&out[..length]), apart_said(&out[..length]))
        }
        Err(refusal) => refused_said(refusal),
    }
}

/// What a program is asked about an entry, and what it is to print.
fn asked(random: &mut Random, entry: &[u8]) -> Vec<(String, String)> {
    let mut asked = Vec::new();
    for (subentry, pointer) in [(1, 32), (2, 32), (3, 32), (1, 49), (2, 50), (1, 65), (9, 255)] {
        for code in [0, 1, 2, 3, u32::MAX] {
            for room in [400, random.below(60)] {
                let due = run_said(room, |out| reference::decay(entry, subentry, pointer, code, out));
                asked.push((format!("code {subentry} {pointer} {code} {room}"), due));
            }
        }
    }
    // The entry is any bytes, of which records have ( in column 12.
    for code in [0, 1, 2, 3, 40] {
        for room in [400, random.below(60)] {
            let due = run_said(room, |out| reference::decay_in(entry, code, out));
            asked.push((format!("passage {code} {room}"), due));
        }
    }
    for text in [generate::code(random), generate::damaged_code(random)] {
        asked.push((format!("apart {text}"), apart_said(text.as_bytes())));
    }
    asked
}

/// Compares what a program of another language prints with the reference: the sample and generated entries.
fn agree(program: &Path, name: &str) {
    let room = Path::new(env!("CARGO_TARGET_TMPDIR"));
    let [file, list] = ["x4", "txt"].map(|kind| room.join(format!("{name}.{kind}")));
    let mut inputs = vec![include_bytes!("../data/decay.x4").to_vec(), Vec::new(), sample()];
    inputs.push(entry(common::FLAGS));
    inputs.extend((0..150).map(|seed| generate::decay_entry(&mut Random::seeded(10_600 + seed))));
    let mut printed = String::new();
    for (turn, input) in inputs.iter().enumerate() {
        let asked = asked(&mut Random::seeded(turn as u64), input);
        std::fs::write(&file, input).unwrap();
        std::fs::write(&list, asked.iter().map(|(line, _)| format!("{line}\n")).collect::<String>()).unwrap();
        let output = Command::new(program).args([&file, &list]).output().unwrap();
        let text = String::from_utf8(output.stdout).unwrap();
        assert!(output.status.success(), "input {turn}: {}\n{text}", output.status);
        let mut answers = text.lines();
        for (line, due) in &asked {
            for due in due.lines() {
                assert_eq!(answers.next(), Some(due), "input {turn}, {line:?}");
            }
        }
        assert_eq!(answers.next(), None, "input {turn}");
        printed += &text;
    }
    let times = |words: &str| printed.lines().filter(|line| line.starts_with(words)).count();
    let refused = [31, 32, 33, 36, 50, 51, 52].map(|number| times(&format!("refused {number} ")));
    let given = ["run ", "head ", "group ", "type ", "energy ", "no code "].map(times);
    assert!(refused.iter().chain(&given).all(|&times| times >= 10), "{refused:?} {given:?}");
    say(&format!("{name}: {} entries, {} answers", inputs.len(), printed.lines().count()));
}

#[test]
fn c_programs_get_the_same_codes() {
    if let Some(program) = compiled("gcc", "decay-c", &C, &["tests/c/decay.c"]) {
        agree(&program, "decay-c");
    }
}

#[test]
fn fortran_programs_get_the_same_codes() {
    let modules = concat!(env!("CARGO_TARGET_TMPDIR"), "/decay");
    std::fs::create_dir_all(modules).unwrap();
    let arguments = ["-std=f2008", "-O2", "-Wall", "-Werror", "-J", modules];
    let sources = ["fortran/x4.f90", "fortran/in_words.f90", "fortran/decay.f90"];
    if let Some(program) = compiled("gfortran", "decay-f", &arguments, &sources) {
        agree(&program, "decay-f");
    }
}

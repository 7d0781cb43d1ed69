//! A short run of `tests/c/fuzz.c`, which is compiled here with sanitizers; `README.md` has the command for a long one.

mod common;

use common::{compiled, say};
use glockenbeacon::generate::{self, Random};
use std::path::{Path, PathBuf};
use std::process::Command;

const SANITIZED: [&str; 10] = [
    "-std=c11",
    "-g",
    "-O1",
    "-Wall",
    "-Wextra",
    "-Werror",
    "-pedantic",
    "-fsanitize=address,undefined",
    "-fno-sanitize-recover=all",
    "-Iinclude",
];

/// How many of a kind the walks had, as in `, 25 fields malformed`.
fn given(words: &str, kind: &str) -> u64 {
    let walks = words.split("walks by refusal").nth(1).and_then(|rest| rest.split(';').next()).unwrap_or_default();
    let count = walks.split(", ").find_map(|part| part.strip_suffix(kind)?.trim_end().parse().ok());
    count.unwrap_or_else(|| panic!("no {kind}: {words}"))
}

#[test]
fn mutated_entries_are_answered() {
    let Some(program) = compiled("clang", "fuzz", &SANITIZED, &["tests/c/fuzz.c"]) else { return };
    let written = |seed: u64| -> PathBuf {
        let file = Path::new(env!("CARGO_TARGET_TMPDIR")).join(format!("fuzz-{seed}.x4"));
        let random = &mut Random::seeded(seed);
        // Every fourth has codes under DECAY-DATA.
        let entry = if seed % 4 == 3 { generate::decay_entry(random) } else { generate::entry(random).bytes };
        std::fs::write(&file, entry).unwrap();
        file
    };
    let output = Command::new(program).args(["1", "3000"]).args((0..40).map(written)).output().unwrap();
    let words = String::from_utf8_lossy(&output.stdout).to_string() + &String::from_utf8_lossy(&output.stderr);
    assert!(output.status.success(), "{words}");
    for refusal in [" 0:", " 31:", " 32:", " 33:", " 34:", " 35:", " 36:", " 37:"] {
        assert!(words.contains(refusal), "every answer occurs: {words}");
    }
    let indexes =
        words.split("by an index, by refusal").nth(1).and_then(|rest| rest.split(',').next()).unwrap_or_default();
    for refusal in [" 0:", " 32:", " 33:", " 34:", " 35:", " 36:", " 38:", " 39:"] {
        assert!(indexes.contains(refusal), "every answer by an index occurs: {words}");
    }
    let walks = words.split("walks by refusal").nth(1).and_then(|rest| rest.split(',').next()).unwrap_or_default();
    for refusal in [" 0:", " 31:", " 32:", " 33:"] {
        assert!(walks.contains(refusal), "every answer to a walk occurs: {words}");
    }
    for kind in ["values", "fields malformed", "times done"] {
        assert!(given(&words, kind) > 0, "walks have {kind}: {words}");
    }
    let doubles = words.split("doubles by refusal").nth(1).and_then(|rest| rest.split(';').next()).unwrap_or_default();
    for refusal in [" 0:", " 15:", " 31:", " 32:", " 33:", " 34:", " 35:", " 38:", " 39:", " 40:"] {
        assert!(doubles.contains(refusal), "every answer for a double occurs: {words}");
    }
    let kinds: Vec<u64> = doubles.split(", ").skip(1).flat_map(|part| part.split(' ')).flat_map(str::parse).collect();
    assert!(kinds.len() == 4 && kinds.iter().all(|&times| times > 0), "doubles and decimals occur: {words}");
    let reasons = words.split("reasons by kind").nth(1).unwrap_or_default();
    assert!(reasons.contains(" 6:") && !reasons.contains(":0"), "reasons of every kind occur: {words}");
    let files = words.split("transmissions by refusal").nth(1).unwrap_or_default();
    for refusal in [" 0:", " 1:", " 2:", " 3:", " 4:", " 5:", " 7:", " 8:"] {
        assert!(files.contains(refusal), "transmissions of every kind occur: {words}");
    }
    let lines = words.split("lines by refusal").nth(1).and_then(|rest| rest.split(';').next()).unwrap_or_default();
    for refusal in [" 0:", " 34:", " 37:", " 70:", " 71:", " 72:", " 73:", " 74:", " 75:", " 76:", " 77:"] {
        assert!(lines.contains(refusal), "every answer about lines occurs: {words}");
    }
    let codes = words.split("codes by refusal").nth(1).and_then(|rest| rest.split(',').next()).unwrap_or_default();
    for refusal in [" 0:", " 31:", " 32:", " 33:", " 36:", " 50:", " 51:", " 52:"] {
        assert!(codes.contains(refusal), "every answer about codes occurs: {words}");
    }
    let revisions =
        words.split("revisions by refusal").nth(1).and_then(|rest| rest.split(';').next()).unwrap_or_default();
    for refusal in [" 0:", " 32:", " 37:", " 60:", " 61:", " 62:", " 63:", " 14:"] {
        assert!(revisions.contains(refusal), "every answer about revisions occurs: {words}");
    }
    say(words.trim_end());
}

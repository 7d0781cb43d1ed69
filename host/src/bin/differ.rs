//! Holds the library against the reference: on the sample and the sample with flags with every byte changed to every
//! other, on a transmission with every byte of TRANS and ENDTRANS changed so, and on generated entries with their indexes and
//! walks over their tables, transmissions, number fields and decimals, these also as doubles; on sample lines in the CINDA2001 layout
//! with every byte changed to every other, and on generated ones; on codes under DECAY-DATA with every byte changed to every other,
//! and on generated entries with such codes; on pairs of a held entry and a revision.
//!
//!     cargo run --release --bin differ -- [--seed N] [--entries N] [--files N] [--numbers N] [--lines N] [--codes N] [--revisions N]

#![forbid(unsafe_code)]

use glockenbeacon::differ::{Library, Pair, Reference};
use glockenbeacon::{generate, library};
use std::process::ExitCode;

/// The number behind an option, or what stands for it.
fn option(arguments: &[String], name: &str, otherwise: u64) -> Result<u64, String> {
    match arguments.iter().position(|argument| argument == name) {
        None => Ok(otherwise),
        Some(at) => arguments.get(at + 1).and_then(|text| text.parse().ok()).ok_or(format!("{name} needs a number")),
    }
}

fn run() -> Result<ExitCode, String> {
    let arguments: Vec<String> = std::env::args().skip(1).collect();
    let seed = option(&arguments, "--seed", 1)?;
    let entries = option(&arguments, "--entries", 20_000)?;
    let files = option(&arguments, "--files", 5_000)?;
    let numbers = option(&arguments, "--numbers", 1_000_000)?;
    let lines = option(&arguments, "--lines", 100_000)?;
    println!("seed {seed}: {entries} entries, {files} transmissions, {numbers} number fields, {numbers} decimals");
    let codes = option(&arguments, "--codes", 20_000)?;
    let revisions = option(&arguments, "--revisions", 50_000)?;
    println!("{lines} times lines, {codes} entries with codes, {revisions} revisions");
    println!("answered {}", library::who_answers());
    let mut pair = Pair::new(&Library, &Reference);
    let every: Vec<u8> = (0..=255).collect();
    let outcome = pair
        .bytes(include_bytes!("../../data/sample.x4"), &every)
        .and_then(|()| pair.bytes(include_bytes!("../../data/flags.x4"), &every))
        .and_then(|()| pair.file_bytes(&generate::transmission(&mut generate::Random::seeded(seed)).bytes(), &every))
        .and_then(|()| pair.given_files(&generate::file_limits()))
        .and_then(|()| pair.files(seed, files))
        .and_then(|()| pair.entries(seed, entries))
        .and_then(|()| pair.fields(seed, numbers))
        .and_then(|()| pair.decimals(seed, numbers))
        .and_then(|()| pair.double_fields(seed, numbers))
        .and_then(|()| pair.double_decimals(seed, numbers))
        .and_then(|()| pair.line_bytes(include_bytes!("../../data/sample.cinda"), &every))
        .and_then(|()| pair.line_limits())
        .and_then(|()| pair.lines(seed, lines))
        .and_then(|()| pair.code_bytes(b"((1.)60-ND-138-M1, 5.04HR,DG/B+,328./1.E5, 0.065,X)", &every))
        .and_then(|()| pair.code_limits())
        .and_then(|()| pair.codes(seed, codes))
        .and_then(|()| pair.revision_limits())
        .and_then(|()| pair.revisions(seed, revisions));
    print!("{}", pair.counts);
    match outcome {
        Ok(()) => {
            println!("0 differences");
            Ok(ExitCode::SUCCESS)
        }
        Err(difference) => {
            println!("a difference: one is the library, the other the reference\n{difference}");
            Ok(ExitCode::from(1))
        }
    }
}

fn main() -> ExitCode {
    run().unwrap_or_else(|message| {
        eprintln!("differ: {message}");
        ExitCode::from(2)
    })
}

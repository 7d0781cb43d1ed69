//! `x4 decay`: the codes under DECAY-DATA of an entry or a transmission, taken apart.

use super::{only, options, read, refused, say, Done};
use glockenbeacon::codes::{codes, file_codes, to_csv, to_json};
use glockenbeacon::transmission::is_transmission;
use std::ffi::OsString;
use std::process::ExitCode;

pub const HELP: &str = "\
x4 decay [--csv] [FILE]

Prints every code under DECAY-DATA of a good entry, or of all entries of a good transmission, one JSON object on a line:
the subentry, the pointer, which code of its passage it is, the record that it begins with; its run, flag, Z, symbol, A
and isomer, its half-life as number and unit, and its groups, each with types, energies and abundance. What is not given
is null or empty. Numbers are exact decimals as text: 0.0650 is 0.065. Records count from ENTRY, in a transmission too;
there each object begins with the ordinal of its entry.

The run is the code as one text, its breaks left out and its numbers, but not the flag, in their shortest spelling.

Every record under DECAY-DATA with ( in column 12 begins a code, counted from 1 for each pointer. One that is refused
has, in place of its fields, refusal, record and column, what was expected there and what stands there; the others are
printed all the same:

  50  a character that no code can have there; column 0: the passage ended
  51  the code breaks after no comma; the column is that of the character before

With --csv there is a line for each group, or one for a code without groups or a refused one, below the names of the
columns. Types and energies have slashes between them.

Exit status: 0 if every code is good, 1 if one is refused or the entry or transmission is, 2 if something went wrong.
";

pub fn run(arguments: &[OsString]) -> Done {
    let ([csv], files) = options(arguments, ["--csv"])?;
    let file = only(files)?;
    let input = read(&file)?;
    let of_file = is_transmission(&input);
    let found = if of_file { file_codes(&input) } else { codes(&input) };
    let found = found.map_err(|answer| refused(&file, &input, &answer))?;
    let written = if csv { to_csv(&found, of_file) } else { to_json(&found) };
    say(written.as_bytes())?;
    Ok(ExitCode::from(u8::from(found.iter().any(|found| found.code.is_err()))))
}

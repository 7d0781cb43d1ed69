//! The library beside a reader in a file that the user names: a small package is written into `target/peer`, which
//! takes the file, `ratios.rs` and this package, and cargo runs it. So both are compiled by one compiler into one
//! process, and what is small in the file can be inlined.

use crate::SIZES;
use std::io::{Error, Result};
use std::path::{Path, PathBuf};
use std::process::Command;

const HOST: &str = env!("CARGO_MANIFEST_DIR");

/// The text of the program; a path is written as a literal of Rust.
fn program(file: &Path, samples: usize) -> String {
    format!(
        "#[allow(dead_code, unused_imports)]\n#[path = {file:?}]\nmod peer;\n\
         #[path = \"{HOST}/src/bin/bench/ratios.rs\"]\nmod ratios;\n\n\
         fn main() {{\n    ratios::print({samples}, &{SIZES:?});\n}}\n"
    )
}

fn package() -> String {
    format!(
        "[package]\nname = \"beside\"\nversion = \"0.1.0\"\nedition = \"2021\"\n\n\
         [dependencies]\nglockenbeacon = {{ path = \"{HOST}\" }}\n\n[workspace]\n"
    )
}

/// Writes the package and runs it.
pub fn run(file: &str, samples: usize) -> Result<()> {
    let file = std::fs::canonicalize(file).map_err(|error| Error::other(format!("{file}: {error}")))?;
    let room = PathBuf::from(HOST).join("target/peer");
    std::fs::create_dir_all(room.join("src"))?;
    std::fs::write(room.join("Cargo.toml"), package())?;
    std::fs::write(room.join("src/main.rs"), program(&file, samples))?;
    let mut cargo = Command::new("cargo");
    cargo.args(["run", "--release", "--offline", "--quiet"]).current_dir(&room);
    cargo.env("CARGO_TARGET_DIR", room.join("target"));
    if cfg!(target_arch = "x86_64") {
        // What the machines of the last fifteen years have; the archives are what they are.
        cargo.env("RUSTFLAGS", "-C target-cpu=x86-64-v2");
    }
    match cargo.status()?.success() {
        true => Ok(()),
        false => Err(Error::other("the program with the peer did not run")),
    }
}

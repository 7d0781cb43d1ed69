//! Finds the archives of proved functions, made by `host/archives` of the crates `exports`, `exports_questions`,
//! `exports_files`, `exports_file_copies`, `exports_reasons`, `exports_index`, `exports_walk`, `exports_doubles`,
//! `exports_reals`, `exports_cinda`, `exports_decay`, `exports_codes` and `exports_revisions`, and has them linked.
//!
//! `X4_ARCHIVES` names their folder and they must then be there; otherwise they are looked for where `archives`
//! leaves them. They are made for x86-64. For another processor than theirs, or where one is missing, nothing is linked, the
//! reference answers every call, and the build says so.

use std::env;
use std::path::{Path, PathBuf};

/// The crates whose functions are linked. They are thirteen, since a function with one caller in an archive is inlined.
const CRATES: [&str; 13] = [
    "exports",
    "exports_questions",
    "exports_files",
    "exports_file_copies",
    "exports_reasons",
    "exports_index",
    "exports_walk",
    "exports_doubles",
    "exports_reals",
    "exports_cinda",
    "exports_decay",
    "exports_codes",
    "exports_revisions",
];

fn main() {
    println!("cargo::rustc-check-cfg=cfg(proved)");
    println!("cargo::rerun-if-env-changed=X4_ARCHIVES");
    let named = env::var_os("X4_ARCHIVES").map(PathBuf::from);
    let home = PathBuf::from(env::var_os("CARGO_MANIFEST_DIR").expect("cargo sets it"));
    let folder = named.clone().unwrap_or(home.join("../target/staticlib"));
    let archives = CRATES.map(|name| folder.join(format!("lib{name}.a")));
    archives.iter().for_each(|archive| println!("cargo::rerun-if-changed={}", archive.display()));
    let processor = env::var("CARGO_CFG_TARGET_ARCH").unwrap_or_default();
    if let Some(missing) = archives.iter().find(|archive| !archive.is_file()) {
        assert!(named.is_none(), "X4_ARCHIVES: there is no {}", missing.display());
        println!("cargo::warning=no proved archives (see host/README.md): the reference answers all");
    } else if archives.iter().all(|archive| machine(archive) == machine_of(&processor)) {
        link(&archives);
    } else {
        println!("cargo::warning=the proved archives are not for {processor}: the reference answers all");
    }
}

/// The number that ELF has for a processor; 0 is none.
fn machine_of(processor: &str) -> u8 {
    match processor {
        "x86_64" => 62,
        "aarch64" => 183,
        _ => 0,
    }
}

/// The processor of an archive's first object.
fn machine(archive: &Path) -> u8 {
    let bytes = std::fs::read(archive).expect("an archive can be read");
    let object = bytes.windows(4).position(|bytes| bytes == b"\x7fELF").unwrap_or(bytes.len());
    bytes.get(object + 18).copied().unwrap_or(u8::MAX)
}

/// Links the archives under names that no other library has.
fn link(archives: &[PathBuf]) {
    let room = PathBuf::from(env::var_os("OUT_DIR").expect("cargo sets it"));
    for (name, archive) in CRATES.iter().zip(archives) {
        copy(archive, &room.join(format!("libx4_{name}.a")));
        println!("cargo::rustc-link-lib=static=x4_{name}");
    }
    let names = archives.iter().map(|archive| archive.display().to_string()).collect::<Vec<_>>().join(", ");
    println!("cargo::warning=linked: {names}");
    println!("cargo::rustc-link-search=native={}", room.display());
    println!("cargo::rustc-env=X4_LINKED={}", room.display());
    println!("cargo::rustc-cfg=proved");
}

fn copy(from: &Path, to: &Path) {
    std::fs::copy(from, to).expect("an archive can be copied");
}

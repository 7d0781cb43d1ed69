//! Files that are written: the one behind -o, and how it comes to be.

use super::{called, Trouble};
use std::ffi::{OsStr, OsString};
use std::fs::{self, OpenOptions};
use std::io::{self, Write};
use std::path::{Path, PathBuf};

/// The file behind -o, and the other arguments.
pub fn output(arguments: &[OsString], page: &str) -> Result<(Option<OsString>, Vec<OsString>), Trouble> {
    let mut rest = arguments.to_vec();
    let Some(at) = rest.iter().position(|argument| argument == "-o") else { return Ok((None, rest)) };
    if at + 1 == rest.len() {
        return Err(Trouble::Failed(format!("-o needs a file; see x4 help {page}")));
    }
    let target = rest.remove(at + 1);
    rest.remove(at);
    Ok((Some(target), rest))
}

/// What went wrong with a file.
pub fn failed(target: &OsStr, error: &io::Error) -> Trouble {
    let there = error.kind() == io::ErrorKind::AlreadyExists;
    let hint = if there { " (--force writes over it)" } else { "" };
    Trouble::Failed(format!("{}: {error}{hint}", called(target)))
}

/// Writes a file whole or not at all: to another of the same folder first, which then takes its name. One that is there is
/// replaced only where that is said.
pub fn replace(target: &OsStr, bytes: &[u8], force: bool) -> Result<(), Trouble> {
    written(Path::new(target), bytes, force).map_err(|error| failed(target, &error))
}

fn written(target: &Path, bytes: &[u8], force: bool) -> io::Result<()> {
    let there = fs::symlink_metadata(target).is_ok();
    if there && !force {
        return Err(io::Error::new(io::ErrorKind::AlreadyExists, "the file is there"));
    }
    // Behind a link the file itself is replaced, and what is no file is left alone.
    let target = if there { fs::canonicalize(target)? } else { target.to_path_buf() };
    if there && !fs::metadata(&target)?.is_file() {
        return Err(io::Error::new(io::ErrorKind::InvalidInput, "it is no plain file"));
    }
    let (first, mut file) = beside(&target)?;
    let done = file
        .write_all(bytes)
        .and_then(|()| if there { file.set_permissions(fs::metadata(&target)?.permissions()) } else { Ok(()) })
        .and_then(|()| file.sync_all())
        .and_then(|()| renamed(&first, &target, force));
    if done.is_err() {
        // It has no other name, so nothing is lost.
        let _ = fs::remove_file(&first);
    }
    done
}

/// A new file in the folder of another.
fn beside(target: &Path) -> io::Result<(PathBuf, fs::File)> {
    let name = target.file_name().ok_or(io::Error::new(io::ErrorKind::InvalidInput, "it names no file"))?;
    for attempt in 0..100 {
        let own = format!(".{}.{}.{attempt}", name.to_string_lossy(), std::process::id());
        let path = target.with_file_name(own);
        match OpenOptions::new().write(true).create_new(true).open(&path) {
            Err(error) if error.kind() == io::ErrorKind::AlreadyExists => continue,
            opened => return opened.map(|file| (path, file)),
        }
    }
    Err(io::Error::other("no name is left for a file beside it"))
}

/// Gives a file its name. Without force the name is taken first, which fails where somebody has made such a file meanwhile.
fn renamed(first: &Path, target: &Path, force: bool) -> io::Result<()> {
    if !force {
        OpenOptions::new().write(true).create_new(true).open(target)?;
    }
    fs::rename(first, target).inspect_err(|_| {
        if !force {
            let _ = fs::remove_file(target);
        }
    })
}

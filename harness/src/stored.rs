//! The stored tapes: the files of `tapes/`, each beside the lines that it must give.

use std::fmt;
use std::fs;
use std::io;
use std::path::{Path, PathBuf};

use crate::source::source;

/// A tape in the repository. Its name is its path below `tapes/`, without the ending.
#[derive(Clone, Debug, PartialEq, Eq)]
pub struct Stored {
    pub name: String,
    pub tape: Vec<u8>,
    pub lines: String,
}

/// A file of the repository, by its path from the top.
pub fn file(path: &str) -> PathBuf {
    Path::new(env!("CARGO_MANIFEST_DIR")).join("..").join(path)
}

/// Every tape: the text tapes, and the tapes with faults in hex digits.
pub fn all() -> io::Result<Vec<Stored>> {
    let mut stored = Vec::new();
    for (folder, ending) in [("", "txt"), ("faults/", "hex")] {
        for name in names(folder, ending)? {
            stored.push(beside_its_lines(name, ending)?);
        }
    }
    Ok(stored)
}

/// The names of the files with this ending in a folder of `tapes/`, in order.
pub fn names(folder: &str, ending: &str) -> io::Result<Vec<String>> {
    let mut names = Vec::new();
    for entry in fs::read_dir(file("tapes").join(folder))? {
        let path = entry?.path();
        if path.extension().is_some_and(|extension| extension == ending) {
            let stem = path.file_stem().unwrap_or_default().to_string_lossy();
            names.push(format!("{folder}{stem}"));
        }
    }
    names.sort();
    Ok(names)
}

/// The ending has found the file. What the file holds is told by its content.
fn beside_its_lines(name: String, ending: &str) -> io::Result<Stored> {
    let (path, beside) = (format!("tapes/{name}.{ending}"), format!("tapes/{name}.lines"));
    let bytes = fs::read(file(&path)).map_err(|error| named(&path, error))?;
    let held = source(bytes).map_err(|errors| named(&path, errors.join("; ")))?;
    let lines = fs::read_to_string(file(&beside)).map_err(|error| named(&beside, error))?;
    Ok(Stored { name, tape: held.tape(), lines })
}

fn named(path: &str, error: impl fmt::Display) -> io::Error {
    io::Error::other(format!("{path}: {error}"))
}

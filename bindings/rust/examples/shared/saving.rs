//! A file written, for the examples.

use std::{fs, process::exit};

/// Writes a file whole or not at all: a new one beside it, which then takes its name. Ends the program with status 2 where it could not.
pub fn save(path: &str, log: &[u8]) {
    let beside = format!("{path}.new");
    if let Err(e) = fs::write(&beside, log).and_then(|()| fs::rename(&beside, path)) {
        eprintln!("{path}: {e}");
        exit(2);
    }
}

//! What examples share: arguments and the files that they name.

use std::{env, fs::File, io, io::Read, process::exit};

fn read(path: &str, longest: usize) -> io::Result<Vec<u8>> {
    let mut bytes = Vec::new();
    File::open(path)?.take(longest as u64 + 1).read_to_end(&mut bytes)?;
    Ok(bytes)
}

/// The bytes of the file that argument `n` names, at most one more than the longest has. Ends the program with status 2 where there are none.
pub fn argument(n: usize, longest: usize, usage: &str) -> Vec<u8> {
    let path = env::args().nth(n).unwrap_or_else(|| {
        eprintln!("usage: {usage}");
        exit(2)
    });
    read(&path, longest).unwrap_or_else(|e| {
        eprintln!("{path}: {e}");
        exit(2)
    })
}

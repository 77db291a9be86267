//! A log without the records that say nothing new: pack LOG RESULT. Exit status: 0 packed, 1 refused, 2 no log or no result.
//!
//! Writes the packed log to the file RESULT, which may be LOG, and prints its length and what was dropped; or prints the refusal in words and leaves
//! RESULT alone.

#[path = "shared/saving.rs"]
mod saving;
mod shared;

use std::{env, process::exit};
use tool_log::{pack_log, LONGEST_LOG};

const USAGE: &str = "pack LOG RESULT";

// How many state records and standards the header of a log counts, in the 14 bits from bit 42 on and in the 11 behind them.
fn counts(log: &[u8]) -> (u64, u64) {
    let bits = log[..10].iter().fold(0u128, |n, &byte| n << 8 | byte as u128) as u64;
    (bits >> 24 & 0x3fff, bits >> 13 & 0x7ff)
}

fn main() {
    let names: Vec<String> = env::args().collect();
    if names.len() != 3 {
        eprintln!("usage: {USAGE}");
        exit(2);
    }
    let log = shared::argument(1, LONGEST_LOG, USAGE);
    let packed = pack_log(&log).unwrap_or_else(|refusal| {
        println!("{refusal}");
        exit(1)
    });
    saving::save(&names[2], &packed);
    let ((states, standards), (kept_states, kept_standards)) = (counts(&log), counts(&packed));
    println!("bytes before {}", log.len());
    println!("bytes after {}", packed.len());
    println!("states dropped {}", states - kept_states);
    println!("standards dropped {}", standards - kept_standards);
}

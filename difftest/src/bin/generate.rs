//! Writes the generator's log of a seed and an index to standard output, or one of the slices of benchmarks for it, a log of a pair,
//! or a log to pack.
//!
//! generate SEED INDEX [SLICE]
//! generate SEED PAIR first|second
//! generate SEED NUMBER repeats

use difftest::arguments::two_numbers;
use difftest::generator::{benchmarks, make, pairs, repeats};
use difftest::oracle::account;
use std::io::Write;
use std::process::ExitCode;

fn main() -> ExitCode {
    let Some((seed, index)) = two_numbers() else {
        eprintln!(
            "usage: generate SEED INDEX [SLICE], SEED PAIR first|second, or SEED NUMBER repeats"
        );
        return ExitCode::from(2);
    };
    let of_pair = |which: usize| Some(pairs::make(seed, index).logs[which].clone());
    let bytes = match std::env::args().nth(3).as_deref() {
        None => Some(make(seed, index).bytes),
        Some("first") => of_pair(0),
        Some("second") => of_pair(1),
        Some("repeats") => Some(repeats::make(seed, index).bytes),
        Some(number) => slice(seed, index, number),
    };
    let written = bytes.is_some_and(|bytes| std::io::stdout().write_all(&bytes).is_ok());
    if written {
        ExitCode::SUCCESS
    } else {
        ExitCode::FAILURE
    }
}

/// None where there is no slice of this number.
fn slice(seed: u64, index: u64, number: &str) -> Option<Vec<u8>> {
    let log = make(seed, index).bytes;
    let mut slices = benchmarks::make(seed, index, &log, account(&log).err()).into_iter();
    slices.nth(number.parse().ok()?).map(|slice| slice.bytes)
}

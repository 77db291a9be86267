//! Reads one log from standard input and prints its report, its state times, its quantities, its losses, its credited units or, with
//! the benchmarks of a file, its supplemental figures, or writes out the log that is joined of it and of a second one, in a file, or the log that it is packed to;
//! or the refused line.
//!
//! oracle [times|quantities|losses|credited|supplemental BENCHMARKS|join SECOND|pack]

use difftest::credited::Credited;
use difftest::joined::{join, Accepted};
use difftest::oracle::account;
use difftest::packed::Packed;
use difftest::supplemental::{supplemental, text};
use std::io::{Read, Write};

fn main() -> std::io::Result<()> {
    let mut log = Vec::new();
    std::io::stdin().read_to_end(&mut log)?;
    let arguments: Vec<String> = std::env::args().skip(1).collect();
    let arguments: Vec<&str> = arguments.iter().map(String::as_str).collect();
    let answer = match arguments[..] {
        ["times"] => account(&log).map(|account| account.times()),
        ["quantities"] => account(&log).map(|account| account.quantities()),
        ["losses"] => account(&log).map(|account| account.losses()),
        ["credited"] => Credited::of(&log, &account(&log)).map(|credited| credited.listing()),
        ["supplemental", benchmarks] => {
            supplemental(&log, &std::fs::read(benchmarks)?).map(|figures| text(&figures))
        }
        ["join", second] => join(&Accepted::of(&log), &Accepted::of(&std::fs::read(second)?))
            .map(|joined| joined.log.bytes),
        ["pack"] => Packed::of(&log, &account(&log)).map(|packed| packed.bytes),
        _ => account(&log).map(|account| account.report()),
    };
    let text = answer.unwrap_or_else(|refusal| refusal.line().into_bytes());
    std::io::stdout().write_all(&text)
}

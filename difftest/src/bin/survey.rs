//! Runs the generator's logs, as many pairs of logs to join and as many logs to pack, through the oracle alone: what it makes, and whether the oracle
//! answers what the generator expects.
//!
//! survey SEED COUNT

use difftest::arguments::two_numbers;
use difftest::credited::{look_up, Credited};
use difftest::generator::{benchmarks, lookups, make, pairs, repeats};
use difftest::joined::{join, Accepted};
use difftest::oracle::account;
use difftest::packed::Packed;
use difftest::supplemental::{answer, Judged};
use difftest::tally::Tally;
use std::process::ExitCode;

fn main() -> ExitCode {
    let Some((seed, count)) = two_numbers() else {
        eprintln!("usage: survey SEED COUNT");
        return ExitCode::from(2);
    };
    let mut tally = Tally::default();
    let mut unexpected = 0;
    let mut accepted_bytes = 0;
    for index in 0..count {
        let made = make(seed, index);
        let verdict = account(&made.bytes);
        tally.count(&verdict);
        tally.count_losses(&verdict);
        if verdict.is_ok() {
            accepted_bytes = accepted_bytes.max(made.bytes.len());
        }
        if !made.expected.agrees(&verdict) {
            unexpected += 1;
            println!(
                "log {index}: expected {:?}, judged {:?}",
                made.expected,
                verdict.as_ref().err()
            );
        }
        let credited = Credited::of(&made.bytes, &verdict);
        tally.count_credited(&credited);
        for lookup in lookups::make(seed, index, &made.bytes, verdict.is_ok()) {
            let answer = look_up(&credited, &lookup);
            tally.count_lookup(&credited, &lookup, &answer);
        }
        let judged = Judged::of(&made.bytes, &verdict);
        for slice in benchmarks::make(seed, index, &made.bytes, verdict.err()) {
            let figures = answer(&judged, &slice.bytes);
            tally.count_supplemental(&figures);
            if !slice.expected.agrees(&figures) {
                unexpected += 1;
                println!(
                    "benchmarks of log {index}: expected {:?}, judged {figures:?}",
                    slice.expected
                );
            }
        }
    }
    for number in 0..count {
        let pair = pairs::make(seed, number);
        let judged = pair.logs.each_ref().map(|log| Accepted::of(log));
        let joined = join(&judged[0], &judged[1]);
        let logs = pair.logs.each_ref().map(|log| &log[..]);
        tally.joins.count(logs, judged.each_ref(), &joined);
        if !pair.expected.agrees(&joined) {
            unexpected += 1;
            let (expected, refusal) = (&pair.expected, joined.err());
            println!("pair {number}: expected {expected:?}, judged {refusal:?}");
        }
    }
    for number in 0..count {
        let made = repeats::make(seed, number);
        let packed = Packed::of(&made.bytes, &account(&made.bytes));
        tally.packings.count(&made.bytes, &packed, made.repeats);
        if !made.expected.agrees(&packed) {
            unexpected += 1;
            let (expected, refusal) = (&made.expected, packed.err());
            println!("log to pack {number}: expected {expected:?}, judged {refusal:?}");
        }
    }
    print!("{tally}");
    println!("longest accepted log: {accepted_bytes} bytes");
    print!("{}", tally.losses());
    print!("{}", tally.credited());
    print!("{}", tally.lookups());
    print!("{}", tally.supplemental());
    print!("{}", tally.joins);
    print!("{}", tally.packings);
    let never_met = [
        tally.never_met_in_reading(),
        tally.never_met_in_lookups(),
        tally.joins.never_met(),
        tally.packings.never_met(),
    ]
    .concat();
    println!("never met: {never_met:?}; unexpected: {unexpected}");
    let all_met = never_met.is_empty();
    ExitCode::from(u8::from(unexpected > 0 || !all_met))
}

//! Compares the linked library with the oracle on the generator's logs, with lookups in them, with benchmarks for them, on runs
//! of calls that write them, on pairs of logs to join, and on logs to pack.
//!
//! harness SEED COUNT

use difftest::answer::lent;
use difftest::arguments::two_numbers;
use difftest::comparison::{shown, Comparison};
use difftest::credited::{look_up, Credited};
use difftest::generator::pairs::{self, Pair};
use difftest::generator::repeats::{self, ToPack};
use difftest::generator::{benchmarks, lookups, make, runs, Expected};
use difftest::joined::{join, join_three, Accepted, Joined};
use difftest::joined_comparison::{self, JoinComparison};
use difftest::library;
use difftest::oracle::{account, Account};
use difftest::packed::Packed;
use difftest::packed_comparison::PackComparison;
use difftest::records::Refusal;
use difftest::supplemental::{answer, Judged};
use difftest::tally::Tally;
use difftest::tiny;
use difftest::writing_comparison::first_difference;
use std::process::ExitCode;

/// Lines of differences that are printed.
const SHOWN_DIFFERENCES: u64 = 8;

/// With one log in so many comes a pair.
const PAIR_ONCE_IN: u64 = 2;

/// With one log in so many comes one to pack, and the packed log of one of so many of these is tried as any other log.
const REPEATS_ONCE_IN: u64 = 3;
const PACKED_TRIED_ONCE_IN: u64 = 32;

/// A refused log is joined with the last accepted one up to so many bytes, ahead of it and behind it.
const LONGEST_PARTNER: usize = 2_000;

/// Of so many pairs, the joined log of one is tried as any other log, and that of one joined with a third.
const TRIED_ONCE_IN: u64 = 8;

fn main() -> ExitCode {
    let Some((seed, count)) = two_numbers() else {
        eprintln!("usage: harness SEED COUNT");
        return ExitCode::from(2);
    };
    let mut tally = Tally::default();
    let mut differences = 0;
    // None at first.
    let mut partner = Accepted::of(&[]);
    for index in 0..count {
        let made = make(seed, index);
        // At every alignment in turn.
        let offset = (index % 8) as usize;
        let space = lent(&made.bytes, offset);
        let log = &space[offset..];

        let verdict = account(log);
        tally.count(&verdict);
        tally.count_losses(&verdict);
        let mut lines = Vec::new();
        if !made.expected.agrees(&verdict) {
            lines.push(unexpected(&made.expected));
        }
        lines.extend(of_log(seed, index, log, &verdict, &mut tally));
        for run in runs::make(seed, index, log, verdict.is_ok()) {
            lines.extend(first_difference(&run, offset, &mut tally));
        }
        if *log != *made.bytes {
            lines.push(String::from("a call changed the log"));
        }
        let mut tell = |what: &str, lines: Vec<String>, bytes: &str| {
            for line in lines {
                if differences < SHOWN_DIFFERENCES {
                    println!("seed {seed} {what} {index}: {line}; {bytes}");
                }
                differences += 1;
            }
        };
        match verdict {
            Err(refusal) => lines.extend(of_refused(index, log, refusal, &partner, &mut tally)),
            Ok(_) if log.len() <= LONGEST_PARTNER => partner = Accepted::of(log),
            Ok(_) => {}
        }
        tell("log", lines, &format!("log {}", shown(log)));

        if index % PAIR_ONCE_IN == 0 {
            let number = index / PAIR_ONCE_IN;
            let pair = pairs::make(seed, number);
            let lines = of_pair(seed, number, &pair, &mut tally);
            let [first, second] = pair.logs.each_ref().map(|log| shown(log));
            let bytes = format!("pair {number}, first {first}, second {second}");
            tell("pair with log", lines, &bytes);
        }
        if index % REPEATS_ONCE_IN == 1 {
            let number = index / REPEATS_ONCE_IN;
            let made = repeats::make(seed, number);
            let lines = of_repeats(seed, number, &made, &mut tally);
            if !lines.is_empty() {
                let bytes = format!("repeats {number}, {}", shown(&made.bytes));
                tell("repeats with log", lines, &bytes);
            }
        }
    }
    let tiny = tiny::search(&tiny::SMALL, library::pack);
    for line in tiny.differences.iter().take(SHOWN_DIFFERENCES as usize) {
        println!("tiny logs: {line}");
    }
    differences += tiny.differences.len() as u64;
    print!("{tally}");
    println!(
        "refused 18 list 0: {} verdicts on a short buffer",
        tally.short_buffers
    );
    print!("{}", tally.losses());
    print!("{}", tally.credited());
    println!(
        "refused 18 list 0: {} listings in a short buffer",
        tally.short_listings
    );
    print!("{}", tally.lookups());
    print!("{}", tally.supplemental());
    print!("{}", tally.writing());
    print!("{}", tally.joins);
    println!(
        "refused 18 list 0: {} joins into a short buffer",
        tally.joins.short
    );
    println!("tried as any other: {} joined logs", tally.joins.tried);
    println!(
        "joined in both groupings: {} times three logs",
        tally.joins.triples
    );
    print!("{}", tally.packings);
    print!("{}", tally.packings.with_buffers());
    println!(
        "tiny logs, all of a few ms: {} packed, which say {} things",
        tiny.logs, tiny.said
    );
    let all_met = [
        never_met("by a log", &tally.never_met_with_buffers()),
        never_met("by a bar", &tally.never_met_in_losses()),
        never_met(
            "by credited units",
            &tally.never_met_in_credited_with_buffers(),
        ),
        never_met("by a lookup", &tally.never_met_in_lookups()),
        never_met("by benchmarks", &tally.never_met_in_supplemental()),
        never_met("by an adding call", &tally.never_met_in_adding()),
        never_met("by a finishing call", &tally.never_met_in_finishing()),
        never_met("by a join", &tally.joins.never_met_with_buffers()),
        never_met("by packing", &tally.packings.never_met_with_buffers()),
    ]
    .iter()
    .all(|missed| !missed);
    let pairs = tally.joins.pairs();
    let packings = tally.packings.logs();
    println!("{count} logs and {pairs} pairs of logs compared, {packings} logs packed, {differences} differences");
    ExitCode::from(u8::from(differences > 0 || !all_met))
}

/// The differences of the calls that read a log.
fn of_log(
    seed: u64,
    index: u64,
    log: &[u8],
    verdict: &Result<Account, Refusal>,
    tally: &mut Tally,
) -> Vec<String> {
    let mut comparison = Comparison::of(log, verdict, index as usize / 8);
    tally.short_buffers += comparison.short_buffers;
    let credited = Credited::of(log, verdict);
    tally.count_credited(&credited);
    comparison.credited(&credited);
    tally.short_listings += comparison.short_listings;
    for lookup in lookups::make(seed, index, log, verdict.is_ok()) {
        let answer = look_up(&credited, &lookup);
        tally.count_lookup(&credited, &lookup, &answer);
        comparison.lookup(&lookup, answer);
    }
    let judged = Judged::of(log, verdict);
    let refused = judged.as_ref().err().copied();
    let slices = benchmarks::make(seed, index, log, refused);
    let mut lines = Vec::new();
    for (number, slice) in slices.iter().enumerate() {
        let figures = answer(&judged, &slice.bytes);
        tally.count_supplemental(&figures);
        comparison.supplemental(number, &slice.bytes, figures);
        if !slice.expected.agrees(&figures) {
            lines.push(format!("slice {number}: {}", unexpected(&slice.expected)));
        }
    }
    lines.extend(comparison.differences);
    let (_, differences) = of_packing(index, log, verdict, false, tally);
    lines.extend(differences);
    lines
}

/// What a log is packed to, and the differences. Whether the records of a refused one repeat is for the tally.
fn of_packing(
    number: u64,
    log: &[u8],
    verdict: &Result<Account, Refusal>,
    repeats: bool,
    tally: &mut Tally,
) -> (Result<Packed, Refusal>, Vec<String>) {
    let packed = Packed::of(log, verdict);
    tally.packings.count(log, &packed, repeats);
    let comparison = PackComparison::of(log, verdict, &packed, number, library::pack);
    tally.packings.longer += comparison.longer;
    tally.packings.shorter += comparison.shorter;
    let mut lines = comparison.differences;
    if let Some(left) = comparison.left {
        let of_left = Comparison::of_packed(&left, verdict).differences;
        lines.extend(of_left.into_iter().map(|it| format!("packed log: {it}")));
    }
    (packed, lines)
}

/// The differences of a log to pack. Of some the packed log is compared as any other.
fn of_repeats(seed: u64, number: u64, made: &ToPack, tally: &mut Tally) -> Vec<String> {
    let (log, verdict) = (&made.bytes, account(&made.bytes));
    let (packed, mut lines) = of_packing(number, log, &verdict, made.repeats, tally);
    if !made.expected.agrees(&verdict) {
        lines.push(unexpected(&made.expected));
    }
    let Ok(packed) = packed else {
        return lines;
    };
    if let Some(alike) = &made.alike {
        tally.packings.alike += 1;
        lines.extend(PackComparison::alike(
            alike,
            &packed.bytes,
            number,
            library::pack,
        ));
    }
    if number % PACKED_TRIED_ONCE_IN == 1 {
        tally.packings.tried += 1;
        // What these logs have is no shape of the generator's, so it is not counted.
        let of_packed = of_log(seed, number, &packed.bytes, &verdict, &mut Tally::default());
        lines.extend(of_packed.into_iter().map(|it| format!("packed log: {it}")));
    }
    lines
}

/// What is joined of two logs, and the differences.
fn of_joins<'a>(
    logs: [&[u8]; 2],
    judged: [&'a Result<Accepted, Refusal>; 2],
    number: u64,
    tally: &mut Tally,
) -> (Result<Joined<'a>, Refusal>, Vec<String>) {
    let joined = join(judged[0], judged[1]);
    tally.joins.count(logs, judged, &joined);
    let comparison = JoinComparison::of(logs, &joined, number, library::join);
    tally.joins.short += comparison.short;
    (joined, comparison.differences)
}

/// The differences of joining a refused log with an accepted one, ahead of it and behind it.
fn of_refused(
    number: u64,
    log: &[u8],
    refusal: Refusal,
    partner: &Result<Accepted, Refusal>,
    tally: &mut Tally,
) -> Vec<String> {
    let Ok(accepted) = partner else {
        return Vec::new();
    };
    let (refused, other) = (Err(refusal), &accepted.bytes[..]);
    let (_, ahead) = of_joins([log, other], [&refused, partner], number, tally);
    let (_, behind) = of_joins([other, log], [partner, &refused], number, tally);
    [ahead, behind].concat()
}

/// The differences of a pair of logs. Of some that are joined, the joined log is compared as any other, and a third one is joined to it.
fn of_pair(seed: u64, number: u64, pair: &Pair, tally: &mut Tally) -> Vec<String> {
    let logs = pair.logs.each_ref().map(|log| &log[..]);
    let judged = logs.map(Accepted::of);
    let (joined, mut lines) = of_joins(logs, judged.each_ref(), number, tally);
    if !pair.expected.agrees(&joined) {
        lines.push(unexpected(&pair.expected));
    }
    let Ok(joined) = &joined else {
        return lines;
    };
    match number % TRIED_ONCE_IN {
        0 => {
            tally.joins.tried += 1;
            // What these logs have is no shape of the generator's, so it is not counted.
            let (log, verdict) = (&joined.log.bytes, Ok(joined.log.account.clone()));
            let of_joined = of_log(seed, number, log, &verdict, &mut Tally::default());
            lines.extend(of_joined.into_iter().map(|it| format!("joined log: {it}")));
        }
        1 => {
            let [first, second] = logs;
            let third = pairs::third(seed, number, joined);
            let three = third.as_ref().map(|third| [first, second, &third[..]]);
            let due = three.and_then(join_three);
            if let (Some(three), Some(due)) = (three, due) {
                tally.joins.triples += 1;
                lines.extend(joined_comparison::three(three, &due, library::join));
            }
        }
        _ => {}
    }
    lines
}

/// Prints what was missed; whether anything was.
fn never_met(by: &str, missed: &[String]) -> bool {
    if !missed.is_empty() {
        println!("never met {by}: {missed:?}");
    }
    !missed.is_empty()
}

fn unexpected(expected: &Expected) -> String {
    format!("the oracle differs from the generator's {expected:?}")
}

//! Measures a whole report (verdict and bytes) of each log: the library, (a) the plain program that
//! walks the standards and (b) the best by hand; then the supplemental figures of each log: the
//! library alone; then the longest log written call by call, joined from two halves, and packed: the
//! library and by hand. Each time is the best of many repetitions.

use bench::logs::{halves, to_pack, variants, Variant};
use bench::writing::{Calls, BY_HAND};
use bench::{joining, packing, sorted, walk};
use difftest::draft::packed;
use difftest::library;
use difftest::oracle::read;
use difftest::records::{Benchmark, Refusal, Standard};
use std::hint::black_box;
use std::process::ExitCode;
use std::time::{Duration, Instant};
use tool_log::c;

/// Turns that the programs take, and the time of each turn.
const TURNS: usize = 20;
const TURN: Duration = Duration::from_millis(50);

/// The longest report.
const ROOM: usize = 2_494;

type Program = fn(&[u8], &mut [u8]) -> usize;

const PROGRAMS: [Program; 3] = [
    library::report,
    |log, buffer| walk::report(log, buffer).unwrap_or(0),
    |log, buffer| sorted::report(log, buffer).unwrap_or(0),
];

const LIBRARY: Calls = Calls {
    header: c::tl_put_header,
    state: c::tl_put_state,
    standard: c::tl_put_standard,
    unit: c::tl_put_unit,
};

fn main() -> ExitCode {
    if reports() && supplemental() && writing() && joining() && packing() {
        ExitCode::SUCCESS
    } else {
        ExitCode::FAILURE
    }
}

/// A row for each log; whether the programs agree.
fn reports() -> bool {
    println!("microseconds for a report          library      (a)      (b)   lib/(a)  lib/(b)");
    for variant in variants() {
        if !agree(&variant) {
            println!("{}: the programs do not make the same report", variant.name);
            return false;
        }
        let log = &variant.log;
        let [ours, walking, sorting] = in_turns(
            &mut [0; ROOM],
            PROGRAMS.map(|program| move |buffer: &mut [u8]| program(black_box(log), buffer)),
        );
        println!(
            "{:<37} {ours:>8.2} {walking:>8.2} {sorting:>8.2} {:>9.3} {:>8.3}",
            variant.name,
            ours / walking,
            ours / sorting
        );
    }
    true
}

/// A row for each log, with benchmarks at their bounds; whether they are accepted.
fn supplemental() -> bool {
    println!("microseconds for supplemental figures  library");
    for Variant { name, log } in variants() {
        let standards = read(&log).expect("a log of the right length").standards;
        let benchmarks = packed(&standards.iter().map(at_its_bounds).collect::<Vec<_>>());
        if library::supplemental(&log, &benchmarks).answered != 1 {
            println!("{name}: benchmarks are refused");
            return false;
        }
        let measure = |_: &mut [u8]| {
            library::supplemental(black_box(&log), black_box(&benchmarks)).answered as usize
        };
        let [ours] = in_turns(&mut [], [measure]);
        println!("{name:<37} {ours:>8.2}");
    }
    true
}

fn at_its_bounds(standard: &Standard) -> Benchmark {
    Benchmark {
        times: [standard.theoretical; 3],
        total_effective: 0,
        spare: 0,
    }
}

/// A row for the longest log written, one for finishing it; whether it is written as it is.
fn writing() -> bool {
    let Variant { name, log } = variants().swap_remove(0);
    let records = read(&log).expect("a log of the right length");
    for calls in [LIBRARY, BY_HAND] {
        let mut buffer = vec![0xff; log.len()];
        if calls.write(&records, &mut buffer) != log.len() || buffer != log {
            println!("{name}: a program does not write the log's own bytes");
            return false;
        }
    }
    if library::finish(&log, log.len()).answered != 1 {
        println!("{name}: finishing refuses the log");
        return false;
    }
    let write = [LIBRARY, BY_HAND].map(|calls| {
        let records = &records;
        move |buffer: &mut [u8]| calls.write(black_box(records), buffer)
    });
    let finish = |buffer: &mut [u8]| library::finish(buffer, buffer.len()).answered as usize;
    let mut buffer = log.clone();
    let [ours, by_hand] = in_turns(&mut buffer, write);
    let [finishing] = in_turns(&mut buffer, [finish]);
    println!("microseconds for writing           library  by hand   lib/by hand");
    let calls = 1 + records.states.len() + records.standards.len() + records.units.len();
    println!(
        "{:<33} {ours:>8.2} {by_hand:>8.2} {:>13.3}",
        format!("the first log, {calls} calls"),
        ours / by_hand
    );
    println!("{:<33} {finishing:>8.2}", "finishing it");
    true
}

/// A length, or the refusal, by what a call of the library answered.
fn length_or(answered: u32, length: [u64; 1], refusal: [u64; 3]) -> Result<usize, Refusal> {
    let [number, list, place] = refusal;
    match answered {
        1 => Ok(length[0] as usize),
        _ => Err(Refusal {
            number,
            list,
            place,
        }),
    }
}

/// A joined log's length, or the refusal.
type Join = fn(&[u8], &[u8], &mut [u8]) -> Result<usize, Refusal>;

const JOINS: [Join; 2] = [join, joining::join];

fn join(first: &[u8], second: &[u8], buffer: &mut [u8]) -> Result<usize, Refusal> {
    let (mut length, mut refusal) = ([0], [0; 3]);
    let answered = unsafe {
        c::tl_join(
            first.as_ptr(),
            first.len(),
            second.as_ptr(),
            second.len(),
            buffer.as_mut_ptr(),
            buffer.len(),
            &mut length,
            &mut refusal,
        )
    };
    length_or(answered, length, refusal)
}

/// A row for the longest log joined from two halves; whether the programs answer alike.
fn joining() -> bool {
    let [first, second] = halves();
    let mut buffer = vec![0; first.len() + second.len() - 10];
    if !join_alike(&first, &second) {
        println!("two halves: the programs do not join them alike");
        return false;
    }
    let joins = JOINS.map(|join| {
        let (first, second) = (&first, &second);
        move |buffer: &mut [u8]| join(black_box(first), black_box(second), buffer).unwrap_or(0)
    });
    let [ours, by_hand] = in_turns(&mut buffer, joins);
    println!("microseconds for joining           library  by hand   lib/by hand");
    println!(
        "{:<33} {ours:>8.2} {by_hand:>8.2} {:>13.3}",
        "the longest log, of two halves",
        ours / by_hand
    );
    true
}

/// Do both make the same log of them, in the buffer that it fills, in a longer one, and in their other sequence? Do they refuse a
/// shorter one alike, and each log with its last bit set, without its first byte, or with one of another tool, and leave the buffer?
fn join_alike(first: &[u8], second: &[u8]) -> bool {
    let other = variants().pop().expect("a log").log;
    let spoilt =
        [first, second].map(|log| [&log[..log.len() - 1], &[log[log.len() - 1] | 1]].concat());
    let length = first.len() + second.len() - 10;
    let same = |first: &[u8], second: &[u8], room: usize| {
        let [ours, by_hand] = JOINS.map(|join| {
            let mut buffer = vec![0xa5; room];
            (join(first, second, &mut buffer), buffer)
        });
        (ours == by_hand).then_some(ours.0)
    };
    let refused = [
        (&spoilt[0][..], second),
        (first, &spoilt[1]),
        (&spoilt[0], &spoilt[1]),
        (first, &second[1..]),
        (first, &other),
        (&other, second),
    ];
    same(first, second, length) == Some(Ok(length))
        && same(first, second, length + 1) == Some(Ok(length))
        && same(second, first, length) == Some(Ok(length))
        && same(first, second, length - 1) == Some(Err(Refusal::of_log(18)))
        && refused
            .iter()
            .all(|(first, second)| matches!(same(first, second, length), Some(Err(_))))
}

/// A packed log's length, or the refusal.
type Pack = fn(&mut [u8]) -> Result<usize, Refusal>;

const PACKS: [Pack; 2] = [pack, packing::pack];

fn pack(buffer: &mut [u8]) -> Result<usize, Refusal> {
    let (mut length, mut refusal) = ([0], [0; 3]);
    let (start, size) = (buffer.as_mut_ptr(), buffer.len());
    let answered = unsafe { c::tl_pack(start, size, &mut length, &mut refusal) };
    length_or(answered, length, refusal)
}

/// A row for each log packed; whether the programs answer alike. Ahead of each packing, apart from its time, the log is put back.
fn packing() -> bool {
    println!("microseconds for packing           library  by hand   lib/by hand");
    for Variant { name, log } in to_pack() {
        if !pack_alike(&log) {
            println!("{name}: the programs do not pack it alike");
            return false;
        }
        let packs = PACKS.map(|pack| move |buffer: &mut [u8]| pack(buffer).unwrap_or(0));
        let put_back = |buffer: &mut [u8]| buffer.copy_from_slice(&log);
        let [ours, by_hand] = in_turns_from(put_back, &mut log.clone(), packs);
        println!(
            "{name:<33} {ours:>8.2} {by_hand:>8.2} {:>13.3}",
            ours / by_hand
        );
    }
    true
}

/// Do both pack the log, and what comes of it, to the same bytes? Do they refuse it alike with its last bit set, without its first
/// byte or with one behind it, and leave the buffer?
fn pack_alike(log: &[u8]) -> bool {
    let same = |log: &[u8]| {
        let [ours, by_hand] = PACKS.map(|pack| {
            let mut buffer = log.to_vec();
            (pack(&mut buffer), buffer)
        });
        (ours == by_hand).then_some(ours)
    };
    let Some((Ok(length), packed)) = same(log) else {
        return false;
    };
    let once = &packed[..length];
    let spoilt = [&log[..log.len() - 1], &[log[log.len() - 1] | 1]].concat();
    let longer = [log, &[0]].concat();
    same(once) == Some((Ok(length), once.to_vec()))
        && [&spoilt[..], &log[1..], &longer]
            .iter()
            .all(|log| matches!(same(log), Some((Err(_), left)) if left == *log))
}

/// Do all three make the same report?
fn agree(variant: &Variant) -> bool {
    let reports = PROGRAMS.map(|program| {
        let mut buffer = [0; ROOM];
        let length = program(&variant.log, &mut buffer);
        (length, buffer)
    });
    reports[0].0 > 0 && reports.iter().all(|report| *report == reports[0])
}

/// Best microseconds of each program on one buffer. They take turns, so that none has a quieter machine.
fn in_turns<const N: usize>(
    buffer: &mut [u8],
    programs: [impl Fn(&mut [u8]) -> usize; N],
) -> [f64; N] {
    in_turns_from(|_| (), buffer, programs)
}

/// The same, where the buffer is prepared for each repetition, in no program's time.
fn in_turns_from<const N: usize>(
    prepare: impl Fn(&mut [u8]),
    buffer: &mut [u8],
    programs: [impl Fn(&mut [u8]) -> usize; N],
) -> [f64; N] {
    let mut best = [Duration::MAX; N];
    for _ in 0..TURNS {
        for (best, program) in best.iter_mut().zip(&programs) {
            *best = (*best).min(best_of_a_turn(&prepare, buffer, program));
        }
    }
    best.map(|best| best.as_nanos() as f64 / 1_000.0)
}

fn best_of_a_turn(
    prepare: impl Fn(&mut [u8]),
    buffer: &mut [u8],
    program: impl Fn(&mut [u8]) -> usize,
) -> Duration {
    let mut best = Duration::MAX;
    let begin = Instant::now();
    while begin.elapsed() < TURN {
        prepare(buffer);
        let start = Instant::now();
        black_box(program(black_box(&mut *buffer)));
        best = best.min(start.elapsed());
    }
    best
}

//! The generator of runs makes what it says, and every edge of the fields and of the buffer.

use difftest::generator::make;
use difftest::generator::runs::{self, Call, Position, Run};
use difftest::oracle::account;
use difftest::records::*;
use difftest::tally::Tally;
use difftest::writing::{add, finish};
use std::collections::BTreeSet;

const LOGS: u64 = 5_000;

fn of_index(seed: u64, index: u64) -> [Run; 3] {
    let log = make(seed, index).bytes;
    let accepted = account(&log).is_ok();
    runs::make(seed, index, &log, accepted)
}

/// The run on the oracle: tells of each call with its position and answer; the buffer and the position behind the calls.
fn run_on_oracle(
    run: &Run,
    mut tell: impl FnMut(&Call, usize, Result<usize, Refusal>),
) -> (Vec<u8>, usize) {
    let mut buffer = run.buffer.clone();
    let mut last = 0;
    for call in &run.calls {
        let position = match call.position {
            Position::Last => last,
            Position::At(position) => position,
        };
        let answer = add(&mut buffer, position, &call.record);
        last = answer.unwrap_or(last);
        tell(call, position, answer);
    }
    (buffer, last)
}

#[test]
fn runs_can_be_made_again() {
    for index in 0..100 {
        assert_eq!(of_index(5, index), of_index(5, index));
    }
    assert_ne!(of_index(5, 0), of_index(6, 0));
}

/// The records of a log are added where there is room, and the calls between them refused; an accepted log has its own bytes then.
#[test]
fn records_and_refused_calls_between() {
    let (mut whole, mut whole_without_refusals, mut full) = (0, 0, 0);
    for index in 0..LOGS {
        let log = make(12, index).bytes;
        let [run, _, _] = runs::make(12, index, &log, account(&log).is_ok());
        let mut left = runs::records(&log).into_iter().peekable();
        let mut without_refusals = true;
        let (mut end, mut without_room) = (0, false);
        let (buffer, last) = run_on_oracle(&run, |call, position, answer| {
            let own = left.peek() == Some(&call.record) && call.position == Position::Last;
            if !own {
                assert!(answer.is_err(), "log {index}: {call:?}");
                without_refusals = false;
                return;
            }
            left.next();
            assert_eq!(position, end, "log {index}");
            match answer {
                Ok(next) => end = next,
                Err(refusal) => {
                    assert_eq!(refusal, Refusal::of_log(18), "log {index}");
                    without_room = true;
                }
            }
        });
        assert_eq!(left.next(), None, "log {index}");
        full += u64::from(without_room);
        if let Some(written) = &run.written {
            assert!(!without_room, "log {index}");
            assert!(*written == log && buffer[..last] == log, "log {index}");
            assert!(finish(&buffer, last).is_ok(), "log {index}");
            whole += 1;
            whole_without_refusals += u64::from(without_refusals);
        }
    }
    // Of each kind many.
    assert!(whole > LOGS / 4, "{whole} logs written");
    assert!(whole_without_refusals > LOGS / 8);
    assert!(whole - whole_without_refusals > LOGS / 8);
    assert!(full > LOGS / 8, "{full} logs without room");
}

#[test]
fn every_refusal_is_met() {
    let mut tally = Tally::default();
    for index in 0..LOGS {
        for run in of_index(13, index) {
            let (buffer, last) = run_on_oracle(&run, |call, _, answer| {
                tally.count_adding(&call.record, &answer)
            });
            for position in [last].iter().chain(&run.finishing) {
                tally.finishing.count(&finish(&buffer, *position));
            }
        }
    }
    assert!(tally.never_met_in_adding().is_empty());
    assert!(tally.never_met_in_finishing().is_empty());
}

#[test]
fn a_tally_of_nothing_misses_all() {
    let mut tally = Tally::default();
    let due = tally.never_met_in_adding();
    assert_eq!(due.len(), 5 + 3 + 4 + 5 + 2);
    for missed in [
        "22 list 0 for field 4 alone",
        "22 list 1 for field 2 alone",
        "22 list 2 for field 0 alone",
        "22 list 2 for field 3 alone",
        "22 list 3 for field 4 alone",
        "18 list 0",
        "accepted",
    ] {
        assert!(due.contains(&String::from(missed)), "{missed}");
    }
    // Two values too wide are neither's alone.
    let mut count = |record: Record| {
        let answer = add(&mut [0; 11], 0, &record);
        tally.count_adding(&record, &answer);
        tally.never_met_in_adding()
    };
    assert_eq!(count(Record::Standard([64, 1_024, 0, 0])), due);
    let missed = count(Record::Standard([64, 0, 0, 0]));
    assert_eq!(missed.len(), due.len() - 1);
    assert!(!missed.contains(&String::from("22 list 2 for field 0 alone")));
    let missed = count(Record::Standard([0; 4]));
    assert_eq!(missed.last().map(String::as_str), Some("18 list 0"));
}

/// 6, 7 and 9 of each list apart, 19 of the standards and of the units.
#[test]
fn a_tally_of_no_logs_misses_all() {
    let mut tally = Tally::default();
    let refusals = [
        (6, STATES),
        (6, STANDARDS),
        (6, UNITS),
        (7, STATES),
        (7, STANDARDS),
        (7, UNITS),
        (9, STATES),
        (9, STANDARDS),
        (9, UNITS),
        (19, STANDARDS),
        (19, UNITS),
    ];
    let mut left = 24;
    assert_eq!(tally.never_met().len(), left);
    for (number, list) in refusals {
        let name = format!("{number} list {list}");
        assert!(tally.never_met().contains(&name), "{name}");
        tally.count::<()>(&Err(Refusal::new(number, list, 0)));
        left -= 1;
        assert!(!tally.never_met().contains(&name), "{name}");
        assert_eq!(tally.never_met().len(), left);
    }
    // 18 and acceptance are due of finishing calls too.
    assert_eq!(tally.never_met_with_buffers().len(), left + 1);
    assert_eq!(tally.never_met_in_finishing().len(), 24 + 2);
    tally.finishing.count::<()>(&Err(Refusal::of_log(18)));
    tally.finishing.count(&Ok(()));
    assert_eq!(tally.never_met_in_finishing().len(), 24);
}

/// What a value is to a field of so many bits.
fn classes(value: u64, width: u32) -> Vec<&'static str> {
    let named = [
        ("0", 0),
        ("the greatest", (1 << width) - 1),
        ("one past", 1 << width),
        ("2^32", 1 << 32),
        ("2^63", 1 << 63),
        ("2^64 - 1", u64::MAX),
    ];
    let mut classes: Vec<&str> = named
        .iter()
        .filter(|(_, edge)| *edge == value)
        .map(|(name, _)| *name)
        .collect();
    let masked = value & ((1 << width) - 1);
    if value != masked && masked != 0 {
        classes.push("one that fits with bits above it");
    }
    if value != masked && value >> 32 != 0 && value & 0xffff_ffff < 1 << width.min(32) {
        classes.push("fits in 32 bits");
    }
    classes
}

/// Where a record of so many bytes is added to a buffer of so many.
fn places(position: usize, length: usize, size: usize) -> Vec<&'static str> {
    let named = [
        ("0", 0),
        (
            "one before the last with room",
            length.wrapping_sub(size + 1),
        ),
        ("the last with room", length.wrapping_sub(size)),
        ("one behind it", length.wrapping_sub(size - 1)),
        ("the last byte", length.wrapping_sub(1)),
        ("the end", length),
        ("one behind the end", length + 1),
        ("2^32 - 1", (1 << 32) - 1),
        ("2^32", 1 << 32),
        ("2^32 + 1", (1 << 32) + 1),
        ("2^61", 1 << 61),
        ("2^63", 1 << 63),
        ("the last that ends before 2^64", usize::MAX - size),
        ("the first that ends at 2^64", usize::MAX - size + 1),
        ("the next", usize::MAX - size + 2),
        ("2^64 - 2", usize::MAX - 1),
        ("2^64 - 1", usize::MAX),
    ];
    let mut places: Vec<&str> = named
        .iter()
        .filter(|(_, edge)| *edge == position)
        .map(|(name, _)| *name)
        .collect();
    if position > 0 && position < length.saturating_sub(size) {
        places.push("in the middle");
    }
    if position > length && position.wrapping_add(size) <= length {
        places.push("an end that wraps into the buffer");
    }
    if position > length && (position as u32 as usize) + size <= length {
        places.push("32 bits of it have room");
    }
    if position > length && position.wrapping_mul(8) / 8 + size <= length {
        places.push("64 bits of eight times it have room");
    }
    places
}

fn lengths(length: usize) -> Option<String> {
    match length {
        0..=12 => Some(length.to_string()),
        63_130 => Some(String::from("of the longest log")),
        _ => None,
    }
}

/// Every field of every kind at each edge, alone and with others, each kind at every edge of the buffer, and both faults at once.
#[test]
fn every_edge_is_met() {
    let mut met = BTreeSet::new();
    for index in 0..LOGS {
        for run in of_index(14, index) {
            let length = run.buffer.len();
            met.extend(lengths(length).map(|length| format!("buffer {length}")));
            run_on_oracle(&run, |call, position, answer| {
                let record = call.record;
                let list = record.list();
                let fields = record.values().iter().zip(record.widths()).enumerate();
                let wide = record.too_wide();
                for (field, (value, width)) in fields {
                    let with = match (wide.contains(&field), wide.len()) {
                        (false, 0) => "written",
                        (true, 1) => "alone",
                        (true, _) => "with others",
                        (false, _) => continue,
                    };
                    if with == "written" && answer.is_err() {
                        continue;
                    }
                    for class in classes(*value, *width) {
                        met.insert(format!("list {list} field {field} {class}, {with}"));
                    }
                }
                let fault = if wide.is_empty() { "fits" } else { "too wide" };
                for place in places(position, length, record.length()) {
                    met.insert(format!("list {list} at {place}, {fault}"));
                }
                let no_room = position
                    .checked_add(record.length())
                    .is_none_or(|end| end > length);
                met.insert(format!("list {list} {fault}, without room: {no_room}"));
            });
        }
    }

    let mut due = Vec::new();
    for record in KINDS {
        let list = record.list();
        for (field, width) in record.widths().iter().enumerate() {
            let mut value = |class: &str, with: &str| {
                due.push(format!("list {list} field {field} {class}, {with}"));
            };
            value("0", "written");
            value("the greatest", "written");
            if *width > 32 {
                value("2^32", "written");
            }
            for with in ["alone", "with others"] {
                value("one past", with);
                value("2^63", with);
                value("2^64 - 1", with);
                value("one that fits with bits above it", with);
                value("fits in 32 bits", with);
                if *width < 32 {
                    value("2^32", with);
                }
            }
        }
        for fault in ["fits", "too wide"] {
            for place in [
                "0",
                "in the middle",
                "one before the last with room",
                "the last with room",
                "one behind it",
                "the last byte",
                "the end",
                "one behind the end",
                "2^32 - 1",
                "2^32",
                "2^32 + 1",
                "32 bits of it have room",
                "64 bits of eight times it have room",
                "2^61",
                "2^63",
                "the last that ends before 2^64",
                "the first that ends at 2^64",
                "the next",
                "an end that wraps into the buffer",
                "2^64 - 2",
                "2^64 - 1",
            ] {
                due.push(format!("list {list} at {place}, {fault}"));
            }
            for no_room in [false, true] {
                due.push(format!("list {list} {fault}, without room: {no_room}"));
            }
        }
    }
    due.extend((0..=12).map(|length| format!("buffer {length}")));
    due.push(String::from("buffer of the longest log"));
    let missed: Vec<&String> = due.iter().filter(|name| !met.contains(*name)).collect();
    assert!(missed.is_empty(), "never made: {missed:?}");
}

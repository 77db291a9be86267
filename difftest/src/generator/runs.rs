//! Runs of calls on one lent buffer: the records of a log one after the other, with refused calls between them, and single calls
//! at every edge of the fields and of the buffer.

use crate::oracle::BitReader;
use crate::prng::Prng;
use crate::records::*;

const LONGEST_LOG: usize = 63_130;

/// Where a call adds its record.
#[derive(Clone, Copy, Debug, PartialEq, Eq)]
pub enum Position {
    /// The one last handed back, 0 ahead of the first.
    Last,
    At(usize),
}

/// A call that adds a record.
#[derive(Clone, Copy, Debug, PartialEq, Eq)]
pub struct Call {
    pub position: Position,
    pub record: Record,
}

#[derive(Clone, Debug, PartialEq, Eq)]
pub struct Run {
    /// What the buffer holds ahead of the calls.
    pub buffer: Vec<u8>,
    pub calls: Vec<Call>,
    /// Positions to finish at, beside the one last handed back.
    pub finishing: Vec<usize>,
    /// The bytes before the position last handed back, where the run writes an accepted log from its own records.
    pub written: Option<Vec<u8>>,
}

/// The runs of a seed and an index, whose log is given: its records, single calls, and none on a buffer that holds it.
pub fn make(seed: u64, index: u64, log: &[u8], accepted: bool) -> [Run; 3] {
    // Other numbers than those that the log was made of.
    let mut rng = Prng::new(!seed, index);
    [
        of_log(&mut rng, log, accepted),
        of_single_calls(&mut rng),
        of_no_call(&mut rng, log),
    ]
}

// ---------------------------------------------------------------- the records of a log

/// The records that bytes hold, as far as they go: the header, then what it counts.
pub fn records(log: &[u8]) -> Vec<Record> {
    let mut reader = BitReader {
        bytes: log,
        position: 0,
    };
    let mut records = Vec::new();
    let mut read = |mut record: Record| {
        if reader.position / 8 + record.length() > log.len() {
            return None;
        }
        let widths = record.widths();
        for (value, width) in record.values_mut().iter_mut().zip(widths) {
            *value = reader.number(*width as usize);
        }
        reader.number(record.spare() as usize);
        records.push(record);
        Some(record)
    };
    if let Some(Record::Header([_, _, states, standards, units])) = read(Record::Header([0; 5])) {
        for _ in 0..states {
            read(Record::State([0; 3]));
        }
        for _ in 0..standards {
            read(Record::Standard([0; 4]));
        }
        for _ in 0..units {
            read(Record::Unit([0; 5]));
        }
    }
    records
}

fn of_log(rng: &mut Prng, log: &[u8], accepted: bool) -> Run {
    let records = records(log);
    let due = records.iter().map(Record::length).sum();
    let length = length_for(rng, due);
    // Half of the runs have no refused calls between.
    let refused_once_in = rng.pick(&[None, None, None, Some(2), Some(4), Some(16)]);
    let mut calls = Vec::new();
    for record in records {
        if refused_once_in.is_some_and(|bound| rng.once_in(bound)) {
            calls.push(refused(rng, length));
        }
        calls.push(Call {
            position: Position::Last,
            record,
        });
    }
    if refused_once_in.is_some() {
        for _ in 0..rng.below(4) {
            calls.push(refused(rng, length));
        }
    }
    Run {
        buffer: bytes(rng, length),
        calls,
        finishing: finishing(rng, length, due),
        written: (accepted && length >= due).then(|| log.to_vec()),
    }
}

/// The length of a buffer for a log of so many bytes: just enough for most, longer, or too short.
fn length_for(rng: &mut Prng, due: usize) -> usize {
    match rng.below(16) {
        0 => rng.index(2),
        1 => HEADER_BYTES as usize - 1 + rng.index(3),
        2 => due.saturating_sub(1 + rng.index(12)),
        3 => rng.index(due + 1),
        4..=8 => due,
        9 => due + 1,
        10..=12 => due + 1 + rng.index(64),
        13..=14 => due + rng.index(2_000),
        _ if rng.once_in(8) => LONGEST_LOG.max(due),
        _ => due + UNIT_BYTES as usize,
    }
}

/// A call that is refused on a buffer of so many bytes: too wide a value, no room, or both.
fn refused(rng: &mut Prng, length: usize) -> Call {
    let mut record = fitting_record(rng);
    let fault = rng.between(1, 3);
    if fault & 1 != 0 {
        widen(rng, &mut record);
    }
    let position = if fault & 2 != 0 {
        without_room(rng, length, record.length())
    } else if rng.once_in(3) {
        Position::At(rng.index(length + 1))
    } else {
        Position::Last
    };
    Call { position, record }
}

// ---------------------------------------------------------------- single calls

fn of_single_calls(rng: &mut Prng) -> Run {
    let length = match rng.below(8) {
        0 => rng.index(2),
        // About the length of one record.
        1..=3 => 5 + rng.index(8),
        4..=5 => rng.index(40),
        6 => rng.index(300),
        _ if rng.once_in(40) => LONGEST_LOG,
        _ => 10 + 6 + 10 + 11,
    };
    let calls = (0..rng.between(4, 16)).map(|_| single_call(rng, length));
    let calls = calls.collect();
    let end = rng.index(length + 1);
    Run {
        buffer: bytes(rng, length),
        calls,
        finishing: finishing(rng, length, end),
        written: None,
    }
}

fn single_call(rng: &mut Prng, length: usize) -> Call {
    let mut record = fitting_record(rng);
    let widths = record.widths();
    match rng.below(8) {
        // Every value fits.
        0..=1 => {}
        // One field at an edge, alone.
        2..=4 => {
            let field = rng.index(widths.len());
            record.values_mut()[field] = edge(rng, widths[field]);
        }
        5 => {
            for (value, width) in record.values_mut().iter_mut().zip(widths) {
                if rng.once_in(2) {
                    *value = edge(rng, *width);
                }
            }
        }
        6 => {
            for (value, width) in record.values_mut().iter_mut().zip(widths) {
                *value = edge(rng, *width);
            }
        }
        _ => widen(rng, &mut record),
    }
    let size = record.length();
    let position = match rng.below(16) {
        0..=1 => Position::Last,
        2..=3 => Position::At(0),
        4..=5 => Position::At(rng.index(length + 1)),
        // About the last place that has room, and about the end. Where the buffer is shorter than the record
        // these lie near 2^64, and their ends, counted in 64 bits, inside the buffer.
        6 => Position::At(length.wrapping_sub(size + 1)),
        7..=8 => Position::At(length.wrapping_sub(size)),
        9 => Position::At(length.wrapping_sub(size - 1)),
        10 => Position::At(length.wrapping_sub(1)),
        11 => Position::At(length),
        12 => Position::At(length + 1),
        _ => Position::At(far(rng, length, size)),
    };
    Call { position, record }
}

// ---------------------------------------------------------------- no call

/// A log in a buffer of its length or a longer one.
fn of_no_call(rng: &mut Prng, log: &[u8]) -> Run {
    let mut buffer = log.to_vec();
    if !rng.once_in(4) {
        let behind = rng.index(40);
        buffer.extend(bytes(rng, behind));
    }
    Run {
        finishing: finishing(rng, buffer.len(), log.len()),
        buffer,
        calls: Vec::new(),
        written: None,
    }
}

// ---------------------------------------------------------------- bytes, values and positions

/// Bytes of every kind, or every bit set or clear.
fn bytes(rng: &mut Prng, length: usize) -> Vec<u8> {
    match rng.below(8) {
        0 => vec![0; length],
        1..=2 => vec![0xff; length],
        _ => {
            let words = (0..length.div_ceil(8)).flat_map(|_| rng.draw().to_le_bytes());
            words.take(length).collect()
        }
    }
}

/// A record whose values fit their fields, whatever they mean.
fn fitting_record(rng: &mut Prng) -> Record {
    let mut record = rng.pick(&KINDS);
    let widths = record.widths();
    for (value, width) in record.values_mut().iter_mut().zip(widths) {
        *value = fitting(rng, *width);
    }
    record
}

fn fitting(rng: &mut Prng, width: u32) -> u64 {
    let greatest = (1 << width) - 1;
    match rng.below(8) {
        0 => 0,
        1 => greatest,
        2 => 1 << rng.below(u64::from(width)),
        _ => rng.between(0, greatest),
    }
}

/// A value at an edge of a field of so many bits, or any.
fn edge(rng: &mut Prng, width: u32) -> u64 {
    match rng.below(6) {
        0 => 0,
        1 => (1 << width) - 1,
        2 => rng.draw(),
        _ => too_wide(rng, width),
    }
}

/// A value that does not fit, though 32 bits of it or the field's own might.
fn too_wide(rng: &mut Prng, width: u32) -> u64 {
    match rng.below(8) {
        0..=1 => 1 << width,
        2 => 1 << width.max(32),
        3 => 1 << 63,
        4 => u64::MAX,
        5 => u64::MAX << width,
        _ => 1 << rng.between(u64::from(width), 63) | fitting(rng, width),
    }
}

/// Makes one value too wide, or several.
fn widen(rng: &mut Prng, record: &mut Record) {
    let widths = record.widths();
    let fields = if rng.once_in(3) {
        rng.between(1, (1 << widths.len()) - 1)
    } else {
        1 << rng.index(widths.len())
    };
    for (field, value) in record.values_mut().iter_mut().enumerate() {
        if fields >> field & 1 == 1 {
            *value = too_wide(rng, widths[field]);
        }
    }
}

/// A position at which a record of so many bytes does not fit the buffer.
fn without_room(rng: &mut Prng, length: usize, size: usize) -> Position {
    Position::At(match rng.below(6) {
        0 => (length + 1).saturating_sub(size),
        1 => length.saturating_sub(1),
        2 => length,
        3 => length + 1,
        _ => far(rng, length, size),
    })
}

/// A position far behind the buffer: powers of two and their neighbours, those near 2^64, and those that are inside the buffer
/// when 32 bits of them, 64 bits of their end or 64 bits of eight times them are counted.
fn far(rng: &mut Prng, length: usize, size: usize) -> usize {
    let inside = rng.index(length + 1);
    let power = 1usize << rng.between(32, 63);
    match rng.below(16) {
        0 => (1 << 32) - 1,
        1 => 1 << 32,
        2 => (1 << 32) + 1,
        3 => (1 << 32) + inside,
        4 => 1 << 61,
        5 => (1 << 61) + inside,
        6 => 1 << 63,
        7 => power - 1,
        8 => power + inside,
        9 => usize::MAX - size,
        10 => usize::MAX - size + 1,
        11 => usize::MAX - size + 2,
        12 => usize::MAX - 1,
        13 => usize::MAX,
        14 => inside.wrapping_sub(size).max(length + 1),
        _ => (rng.draw() as usize).max(length + 1),
    }
}

/// Positions to finish at, where a log ends at `end`: there and beside it, at the front, anywhere, at the end of the buffer and past it.
fn finishing(rng: &mut Prng, length: usize, end: usize) -> Vec<usize> {
    vec![
        0,
        end.saturating_sub(1),
        end,
        end + 1,
        rng.index(length + 1),
        rng.index(length + 1),
        length,
        length + 1,
        (1 << 32) + end,
        far(rng, length, UNIT_BYTES as usize),
    ]
}

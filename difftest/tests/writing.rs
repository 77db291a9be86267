//! R-2, with the standards of R-5, on its oracle: records packed by hand, refusals at their edges, and logs written from their
//! own records.

use difftest::generator::runs::records;
use difftest::generator::{make, Expected};
use difftest::oracle::{account, read};
use difftest::records::*;
use difftest::writing::{add, finish};
use std::fs;
use std::path::PathBuf;

const LOGS: u64 = 5_000;

fn sample(name: &str) -> Vec<u8> {
    let path = PathBuf::from(env!("CARGO_MANIFEST_DIR")).join("../samples");
    fs::read(path.join(format!("{name}.log"))).expect("a sample log")
}

/// The record in a buffer of its length, every bit of which was set.
fn packed(record: Record) -> Vec<u8> {
    let mut buffer = vec![0xff; record.length()];
    assert_eq!(add(&mut buffer, 0, &record), Ok(record.length()));
    buffer
}

/// The call is refused, and the buffer keeps its bytes.
fn refused(buffer: &mut [u8], position: usize, record: &Record, refusal: Refusal) {
    let before = buffer.to_vec();
    assert_eq!(
        add(buffer, position, record),
        Err(refusal),
        "{record:?} at {position}"
    );
    assert_eq!(buffer, before, "{record:?} at {position}");
}

/// Adds the records from position 0 on; the position behind them.
fn write(buffer: &mut [u8], records: &[Record]) -> usize {
    records.iter().fold(0, |position, record| {
        add(buffer, position, record).expect("a record that fits")
    })
}

/// Fields one behind the other, most significant bit first, worked out by hand.
#[test]
fn packed_by_hand() {
    // 35 bits 0..01, 7 bits 0..01, 14 bits 0..01, 11 bits 0..01, 13 bits 0..01: bits 34, 41, 55, 66 and 79.
    assert_eq!(
        packed(Record::Header([1, 1, 1, 1, 1])),
        [0, 0, 0, 0, 0x20, 0x40, 0x01, 0, 0x20, 0x01]
    );
    // Modules and standards alone, every bit set: bits 35 to 41 and 56 to 66.
    assert_eq!(
        packed(Record::Header([0, 127, 0, 2_047, 0])),
        [0, 0, 0, 0, 0x1f, 0xc0, 0, 0xff, 0xe0, 0]
    );
    // 111111 10111, 35 bits set, 00.
    assert_eq!(
        packed(Record::State([63, 23, (1 << 35) - 1])),
        [0xfe, 0xff, 0xff, 0xff, 0xff, 0xfc]
    );
    // 000001 00010, 33 bits clear and 11, 00.
    assert_eq!(
        packed(Record::State([1, 2, 3])),
        [0x04, 0x40, 0, 0, 0, 0x0c]
    );
    // Bits 0 to 5 and 16 to 50.
    assert_eq!(
        packed(Record::Standard([63, 0, (1 << 35) - 1, 0])),
        [0xfc, 0, 0xff, 0xff, 0xff, 0xff, 0xe0, 0, 0, 0]
    );
    // Bits 6 to 15 and 51 to 77, then 00.
    assert_eq!(
        packed(Record::Standard([0, 1_023, 0, (1 << 27) - 1])),
        [0x03, 0xff, 0, 0, 0, 0, 0x1f, 0xff, 0xff, 0xfc]
    );
    // Bits 5, 15, 50 and 77.
    assert_eq!(
        packed(Record::Standard([1, 1, 1, 1])),
        [0x04, 0x01, 0, 0, 0, 0, 0x20, 0, 0, 0x04]
    );
    // Bits 0 to 5, 16 to 50 and 67 to 82.
    assert_eq!(
        packed(Record::Unit([63, 0, (1 << 35) - 1, 0, 65_535])),
        [0xfc, 0, 0xff, 0xff, 0xff, 0xff, 0xe0, 0, 0x1f, 0xff, 0xe0]
    );
    // Bits 6 to 15 and 51 to 66.
    assert_eq!(
        packed(Record::Unit([0, 1_023, 0, 65_535, 0])),
        [0x03, 0xff, 0, 0, 0, 0, 0x1f, 0xff, 0xe0, 0, 0]
    );
}

/// Spare bits and all, the widths make up the lengths.
#[test]
fn widths_and_lengths() {
    for (record, length) in KINDS.into_iter().zip([10, 6, 10, 11]) {
        let bits: u32 = record.widths().iter().sum();
        assert_eq!(bits + record.spare(), 8 * length);
        assert_eq!(record.length(), length as usize);
        assert_eq!(record.values().len(), record.widths().len());
    }
}

/// Document 01's case W, record by record.
#[test]
fn case_w() {
    let records = [
        Record::Header([604_800_000, 3, 8, 3, 3]),
        Record::State([0, 0, 0]),
        Record::State([1, 0, 0]),
        Record::State([2, 0, 0]),
        Record::State([2, 7, 288_000_000]),
        Record::State([1, 7, 532_800_000]),
        Record::State([0, 7, 540_000_000]),
        Record::State([1, 18, 568_800_000]),
        Record::State([0, 18, 586_800_000]),
        Record::Standard([0, 0, 0, 1_800_000]),
        Record::Standard([1, 0, 0, 1_800_000]),
        Record::Standard([2, 0, 0, 1_800_000]),
        Record::Unit([0, 0, 3_600_000, 280, 261]),
        Record::Unit([1, 0, 3_600_000, 290, 278]),
        Record::Unit([2, 0, 3_600_000, 150, 150]),
    ];
    let mut buffer = [0xa5; 126];
    assert_eq!(write(&mut buffer, &records), 121);
    assert_eq!(buffer[..121], sample("case-w"));
    assert_eq!(buffer[121..], [0xa5; 5]);
    let account = finish(&buffer, 121).expect("accepted");
    assert_eq!(account.tool.quantities.array()[0], 3 * 604_800_000);
    // Before its end it is no log, and neither behind it.
    assert_eq!(finish(&buffer, 0).err(), Some(Refusal::of_log(1)));
    assert_eq!(finish(&buffer, 9).err(), Some(Refusal::of_log(1)));
    for position in [10, 118, 120, 122, 126] {
        assert_eq!(finish(&buffer, position).err(), Some(Refusal::of_log(5)));
    }
    for position in [127, 1 << 32, usize::MAX] {
        assert_eq!(finish(&buffer, position).err(), Some(Refusal::of_log(18)));
    }
}

/// One past the greatest value of each field alone is 22, the greatest is not.
#[test]
fn each_field_too_wide() {
    for kind in KINDS {
        let too_wide = Refusal::new(22, kind.list(), 0);
        for (field, width) in kind.widths().iter().enumerate() {
            let mut record = kind;
            for value in [1 << width, 1 << width.max(&32), 1 << 63, u64::MAX] {
                record.values_mut()[field] = value;
                refused(&mut [0xa5; 11], 0, &record, too_wide);
                // Ahead of 18.
                refused(&mut [0xa5; 5], 0, &record, too_wide);
                refused(&mut [0xa5; 11], usize::MAX, &record, too_wide);
            }
            record.values_mut()[field] = (1 << width) - 1;
            assert_eq!(add(&mut [0xa5; 11], 0, &record), Ok(record.length()));
        }
    }
}

/// The module of a standard comes first, and its own values decide whatever the buffer and the others are.
#[test]
fn module_of_a_standard_too_wide() {
    let too_wide = Refusal::new(22, STANDARDS, 0);
    for module in [64, 65, 127, 128, 1_023, 1_024, 1 << 32, 1 << 63, u64::MAX] {
        for values in [
            [module, 0, 0, 0],
            [module, 1_023, (1 << 35) - 1, (1 << 27) - 1],
            [module, 1_024, 1 << 35, 1 << 27],
        ] {
            let record = Record::Standard(values);
            for length in [0, 9, 10, 11] {
                refused(&mut vec![0xa5; length], 0, &record, too_wide);
            }
        }
    }
    // Recipe and module in each other's place: 64 is no module, though a recipe.
    let exchanged = Record::Standard([64, 63, 0, 1]);
    refused(&mut [0xa5; 10], 0, &exchanged, too_wide);
    assert_eq!(
        packed(Record::Standard([63, 64, 0, 1])),
        [0xfc, 0x40, 0, 0, 0, 0, 0, 0, 0, 0x04]
    );
}

/// Values that mean nothing are written; finishing meets them.
#[test]
fn bits_alone_decide() {
    let opening = Record::State([0, 0, 0]);
    let good = Record::Header([10, 1, 1, 0, 0]);
    for (records, refusal) in [
        ([good, opening], None),
        (
            [Record::Header([(1 << 35) - 1, 1, 1, 0, 0]), opening],
            Some(Refusal::of_log(2)),
        ),
        (
            [Record::Header([10, 127, 1, 0, 0]), opening],
            Some(Refusal::of_log(3)),
        ),
        (
            [Record::Header([10, 1, 6_001, 0, 0]), opening],
            Some(Refusal::of_log(4)),
        ),
        (
            [good, Record::State([0, 31, 0])],
            Some(Refusal::new(8, STATES, 0)),
        ),
        (
            [good, Record::State([63, 0, 0])],
            Some(Refusal::new(7, STATES, 0)),
        ),
    ] {
        let mut buffer = [0xff; 20];
        let position = write(&mut buffer, &records);
        assert_eq!(position, 16);
        assert_eq!(finish(&buffer, position).err(), refusal);
    }
}

/// A record fits where its last byte is the buffer's last, and not one further on; no position wraps.
#[test]
fn room() {
    for kind in KINDS {
        let size = kind.length();
        for length in [size, size + 1, 64] {
            let mut buffer = vec![0xa5; length];
            let last = length - size;
            assert_eq!(add(&mut buffer, last, &kind), Ok(length));
            assert_eq!(buffer[..last], vec![0xa5; last]);
            assert_eq!(buffer[last..], vec![0; size]);
            for position in [
                last + 1,
                length - 1,
                length,
                length + 1,
                1 << 32,
                (1 << 32) + last,
                1 << 61,
                1 << 63,
                usize::MAX - size,
                usize::MAX - size + 1,
                usize::MAX - size + 2,
                usize::MAX,
            ] {
                refused(&mut buffer, position, &kind, Refusal::of_log(18));
            }
        }
        for length in 0..size {
            refused(&mut vec![0xa5; length], 0, &kind, Refusal::of_log(18));
        }
    }
}

/// Just the record's bytes change, at any position.
#[test]
fn other_bytes_keep_their_content() {
    let state = Record::State([1, 2, 3]);
    let mut buffer = [0x5a; 10];
    assert_eq!(add(&mut buffer, 3, &state), Ok(9));
    assert_eq!(buffer, [0x5a, 0x5a, 0x5a, 0x04, 0x40, 0, 0, 0, 0x0c, 0x5a]);
}

/// What a finished log says is what was given to the calls; an accepted log written from its own records has its own bytes.
#[test]
fn logs_from_their_own_records() {
    let mut accepted = 0;
    for index in 0..LOGS {
        let made = make(9, index);
        if made.expected != Expected::Accepted {
            continue;
        }
        let given = records(&made.bytes);
        let mut buffer = vec![0xff; made.bytes.len()];
        let position = write(&mut buffer, &given);
        assert_eq!(position, buffer.len(), "log {index}");
        assert!(buffer == made.bytes, "log {index}");
        assert_eq!(finish(&buffer, position), account(&made.bytes));

        let said = read(&buffer).expect("an accepted log");
        let header = said.header;
        let [period, modules] = [header.period, header.modules];
        let counts = [header.states, header.standards, header.units];
        let [states, standards, units] = counts;
        let mut says = vec![Record::Header([period, modules, states, standards, units])];
        says.extend(
            said.states
                .iter()
                .map(|it| Record::State([it.module, it.code, it.time])),
        );
        says.extend(
            said.standards
                .iter()
                .map(|it| Record::Standard([it.module, it.recipe, it.start, it.theoretical])),
        );
        says.extend(
            said.units
                .iter()
                .map(|it| Record::Unit([it.module, it.recipe, it.time, it.actual, it.effective])),
        );
        assert!(says == given, "log {index}");
        accepted += 1;
    }
    assert!(accepted > LOGS / 3);
}

/// The longest log, and one whose spare bits are written clear.
#[test]
fn samples_from_their_own_records() {
    let longest = sample("longest");
    let mut buffer = vec![0xff; longest.len() + 1];
    assert_eq!(write(&mut buffer, &records(&longest)), 63_130);
    assert!(buffer[..63_130] == longest);
    assert!(finish(&buffer, 63_130).is_ok());
    assert_eq!(finish(&buffer, 63_131).err(), Some(Refusal::of_log(5)));

    let spare = sample("refused-spare");
    assert_eq!(account(&spare).err(), Some(Refusal::new(6, UNITS, 2)));
    let mut buffer = vec![0xff; spare.len()];
    let position = write(&mut buffer, &records(&spare));
    assert_eq!(position, spare.len());
    assert!(finish(&buffer, position).is_ok());
}

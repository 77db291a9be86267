//! Both plain programs answer what the oracle answers, on every log of the generator, and the calls by hand on its runs. Joining
//! by hand makes the log that the records of two make, put together here, and packing by hand the one of the records that are
//! kept here.

use bench::writing::BY_HAND;
use bench::{joining, logs, packing, sorted, walk};
use difftest::draft::Draft;
use difftest::generator::make;
use difftest::generator::runs::{self, Position};
use difftest::oracle::{account, read};
use difftest::prng::Prng;
use difftest::records::*;
use difftest::writing::add;
use std::collections::{BTreeMap, BTreeSet};

const LOGS: u64 = 50_000;
const RUNS: u64 = 10_000;
const LARGE: usize = 4_096;
const FILL: u8 = 0xa5;

type Program = fn(&[u8], &mut [u8]) -> Result<usize, Refusal>;
const PROGRAMS: [(&str, Program); 2] = [("walk", walk::report), ("sorted", sorted::report)];

fn compare(name: &str, program: Program, log: &[u8], due: &Result<Vec<u8>, Refusal>, room: usize) {
    let mut buffer = vec![FILL; room];
    let answer = program(log, &mut buffer);
    let mut expected = vec![FILL; room];
    let expected_answer = match due {
        Err(refusal) => Err(*refusal),
        Ok(report) if report.len() > room => Err(Refusal::of_log(18)),
        Ok(report) => {
            expected[..report.len()].copy_from_slice(report);
            Ok(report.len())
        }
    };
    assert_eq!(
        answer, expected_answer,
        "{name} with room {room} on {log:02x?}"
    );
    assert!(
        buffer == expected,
        "{name}: bytes with room {room} on {log:02x?}"
    );
}

fn compare_all(log: &[u8]) {
    let due = account(log).map(|account| account.report());
    let length = due.as_ref().map_or(183, |report| report.len());
    for (name, program) in PROGRAMS {
        for room in [0, length - 1, length, length + 1, LARGE] {
            compare(name, program, log, &due, room);
        }
    }
}

#[test]
fn on_the_generators_logs() {
    (0..LOGS).for_each(|index| compare_all(&make(11, index).bytes));
}

#[test]
fn on_the_measured_logs() {
    let measured = logs::variants();
    let lengths: Vec<usize> = measured.iter().map(|variant| variant.log.len()).collect();
    let typical = 10 + 6 * 170 + 10 * 8 + 11 * 120;
    assert_eq!(lengths, [63_130, 63_130, 63_130, 63_130, typical]);
    for variant in measured {
        assert!(
            account(&variant.log).is_ok(),
            "{}: {:?}",
            variant.name,
            account(&variant.log).err()
        );
        compare_all(&variant.log);
    }
}

/// What a call by hand answers and makes of arrays that hold these.
fn put(
    buffer: &mut [u8],
    at: usize,
    record: &Record,
    next: &mut [u64; 1],
    refusal: &mut [u64; 3],
) -> u32 {
    let (buf, len) = (buffer.as_mut_ptr(), buffer.len());
    match *record {
        Record::Header([a, b, c, d, e]) => unsafe {
            (BY_HAND.header)(buf, len, at, a, b, c, d, e, next, refusal)
        },
        Record::State([a, b, c]) => unsafe {
            (BY_HAND.state)(buf, len, at, a, b, c, next, refusal)
        },
        Record::Standard([a, b, c, d]) => unsafe {
            (BY_HAND.standard)(buf, len, at, a, b, c, d, next, refusal)
        },
        Record::Unit([a, b, c, d, e]) => unsafe {
            (BY_HAND.unit)(buf, len, at, a, b, c, d, e, next, refusal)
        },
    }
}

#[test]
fn on_the_generators_runs() {
    let (mut added, mut refused) = (0, 0);
    for index in 0..RUNS {
        let log = make(15, index).bytes;
        for run in runs::make(15, index, &log, false) {
            let (mut due, mut buffer) = (run.buffer.clone(), run.buffer);
            let mut last = 0;
            for call in run.calls {
                let at = match call.position {
                    Position::Last => last,
                    Position::At(position) => position,
                };
                let (mut next, mut refusal) = ([7], [7; 3]);
                let answered = put(&mut buffer, at, &call.record, &mut next, &mut refusal);
                let expected = match add(&mut due, at, &call.record) {
                    Ok(position) => {
                        last = position;
                        added += 1;
                        (1, [position as u64], [0; 3])
                    }
                    Err(Refusal {
                        number,
                        list,
                        place,
                    }) => {
                        refused += 1;
                        (0, [7], [number, list, place])
                    }
                };
                let record = call.record;
                assert_eq!((answered, next, refusal), expected, "{record:?} at {at}");
                // Every byte, of a long buffer those about the record.
                let from = at.min(due.len()).saturating_sub(500);
                let to = (from + 1_000).min(due.len());
                assert!(buffer[from..to] == due[from..to], "{record:?} at {at}");
            }
            assert!(buffer == due, "log {index}");
        }
    }
    assert!(added > 10 * RUNS && refused > 10 * RUNS);
}

#[test]
fn on_the_measured_logs_written() {
    for variant in logs::variants() {
        let records = read(&variant.log).expect("a log of the right length");
        let length = variant.log.len();
        let mut buffer = vec![FILL; length + 1];
        assert_eq!(BY_HAND.write(&records, &mut buffer), length);
        assert!(buffer[..length] == variant.log, "{}", variant.name);
        assert_eq!(buffer[length], FILL);
        // A buffer one byte short has no room for the last record.
        assert_eq!(BY_HAND.write(&records, &mut buffer[..length - 1]), 0);
    }
}

/// The joined log, or the refusal: the records of both put together, and sorted by their keys.
fn joined(first: &[u8], second: &[u8]) -> Result<Vec<u8>, Refusal> {
    account(first)?;
    account(second).map_err(|refusal| Refusal {
        list: refusal.list + 10,
        ..refusal
    })?;
    let [mut both, later] =
        [first, second].map(|log| Draft::of(read(log).expect("an accepted log")));
    if both.modules != later.modules {
        return Err(Refusal::of_log(23));
    }
    let moved = both.period;
    both.period += later.period;
    both.states
        .extend(later.states.iter().map(|it| StateRecord {
            time: it.time + moved,
            ..*it
        }));
    both.standards
        .extend(later.standards.iter().map(|it| Standard {
            start: it.start + moved,
            ..*it
        }));
    both.units.extend(later.units.iter().map(|it| UnitRecord {
        time: it.time + moved,
        ..*it
    }));
    both.sort();
    let [states, standards, units] = both.counts();
    if both.period > LONGEST_PERIOD {
        return Err(Refusal::of_log(2));
    }
    if states > MOST_STATES || standards > MOST_STANDARDS || units > MOST_UNITS {
        return Err(Refusal::of_log(4));
    }
    Ok(both.bytes())
}

/// Joins two logs by hand in buffers shorter than the joined log, as long and longer. Number and list of the refusal for any
/// buffer, zeros where there is none.
fn compare_joined(first: &[u8], second: &[u8]) -> (u64, u64) {
    let due = joined(first, second);
    let length = match &due {
        Ok(log) => log.len(),
        Err(_) => (first.len() + second.len()).saturating_sub(10),
    };
    for room in [
        0,
        length.saturating_sub(1),
        length,
        length + 1,
        length + LARGE,
    ] {
        let (mut buffer, mut left) = (vec![FILL; room], vec![FILL; room]);
        let expected = match &due {
            Err(refusal) => Err(*refusal),
            Ok(log) if log.len() > room => Err(Refusal::of_log(18)),
            Ok(log) => {
                left[..length].copy_from_slice(log);
                Ok(length)
            }
        };
        assert_eq!(
            joining::join(first, second, &mut buffer),
            expected,
            "with room {room} of {first:02x?} and {second:02x?}"
        );
        assert!(
            buffer == left,
            "bytes with room {room} of {first:02x?} and {second:02x?}"
        );
    }
    due.map_or_else(|refusal| (refusal.number, refusal.list), |_| (0, 0))
}

/// Each log with the one before it, in both sequences, and each accepted one with itself and with the last of as many modules.
#[test]
fn on_the_generators_logs_joined() {
    let (mut any, mut accepted) = (BTreeMap::new(), BTreeMap::new());
    let mut before = Vec::new();
    let mut of_modules: BTreeMap<usize, Vec<u8>> = BTreeMap::new();
    for index in 0..LOGS / 5 {
        let log = make(12, index).bytes;
        for (first, second) in [(&before, &log), (&log, &before)] {
            *any.entry(compare_joined(first, second)).or_insert(0) += 1;
        }
        if let Ok(account) = account(&log) {
            let last = of_modules
                .insert(account.modules.len(), log.clone())
                .unwrap_or(log.clone());
            for (first, second) in [(&log, &log), (&last, &log), (&log, &last)] {
                *accepted.entry(compare_joined(first, second).0).or_insert(0) += 1;
            }
        }
        before = log;
    }
    let lists: BTreeSet<u64> = any.keys().map(|answer| answer.1).collect();
    assert_eq!(
        Vec::from_iter(lists),
        [0, 1, 2, 3, 10, 11, 12, 13],
        "{any:?}"
    );
    assert!(any[&(23, 0)] > 100, "{any:?}");
    assert_eq!(
        Vec::from_iter(accepted.keys()),
        [&0, &2, &4],
        "{accepted:?}"
    );
    assert!(accepted.values().all(|&count| count > 100), "{accepted:?}");
}

#[test]
fn on_the_measured_logs_joined() {
    let [first, second] = logs::halves();
    for log in [&first, &second] {
        assert_eq!(log.len(), 31_570);
        assert!(account(log).is_ok());
    }
    assert_eq!(compare_joined(&first, &second), (0, 0));
    assert_eq!(compare_joined(&second, &first), (0, 0));
    let longest = joined(&first, &second).unwrap();
    assert_eq!(longest.len(), 63_130);
    assert!(account(&longest).is_ok());
    assert_eq!(compare_joined(&longest, &first), (2, 0));
    for variant in logs::variants() {
        compare_joined(&variant.log, &first);
        compare_joined(&first, &variant.log);
        compare_joined(&variant.log, &variant.log);
    }
}

/// A log of one module that is productive all along, with so many records of each list.
fn counted([states, standards, units]: [u64; 3]) -> Vec<u8> {
    let mut draft = Draft {
        period: MOST_STATES,
        modules: 1,
        ..Draft::default()
    };
    (0..states).for_each(|time| draft.state(0, time % 2, time));
    (0..standards).for_each(|recipe| draft.standard(0, recipe, 0, 1));
    (0..units).for_each(|time| draft.unit(0, 0, time, 1, 1));
    draft.bytes()
}

#[test]
fn on_each_list_at_its_bound_joined() {
    let least = [1, 1, 0];
    for (list, most) in [MOST_STATES, MOST_STANDARDS, MOST_UNITS]
        .into_iter()
        .enumerate()
    {
        for (own, other, number) in [(most - 1, 1, 0), (most, 1, 4), (most / 2 + 1, most / 2, 4)] {
            let [first, second] = [own, other].map(|count| {
                let mut counts = least;
                counts[list] = count;
                counted(counts)
            });
            assert_eq!(compare_joined(&first, &second), (number, 0));
            assert_eq!(compare_joined(&second, &first), (number, 0));
        }
    }
}

/// What packing leaves in a buffer that the log fills, or the refusal: each record is held against the latest one ahead of it of
/// its module, or of its module and recipe.
fn packed(log: &[u8]) -> Result<Draft, Refusal> {
    account(log)?;
    let mut draft = Draft::of(read(log).expect("an accepted log"));
    let states = draft.states.clone();
    let standards = draft.standards.clone();
    draft.states.clear();
    draft.standards.clear();
    for (place, it) in states.iter().enumerate() {
        let ahead = &states[..place];
        let before = ahead.iter().rfind(|other| other.module == it.module);
        if before.map(|before| before.code) != Some(it.code) {
            draft.states.push(*it);
        }
    }
    for (place, it) in standards.iter().enumerate() {
        let ahead = &standards[..place];
        let own = |other: &&Standard| (other.module, other.recipe) == (it.module, it.recipe);
        let before = ahead.iter().rfind(own);
        if before.map(|before| before.theoretical) != Some(it.theoretical) {
            draft.standards.push(*it);
        }
    }
    Ok(draft)
}

/// Packs a log by hand, once and again, and in a buffer that is longer. How many state records and standards were dropped, or the
/// number of the refusal.
fn compare_packed(log: &[u8]) -> Result<[usize; 2], u64> {
    let mut buffer = log.to_vec();
    let answer = packing::pack(&mut buffer);
    let draft = match packed(log) {
        Ok(draft) => draft,
        Err(refusal) => {
            assert_eq!(answer, Err(refusal), "{log:02x?}");
            assert!(buffer == log, "{log:02x?}");
            return Err(refusal.number);
        }
    };
    let due = draft.bytes();
    assert_eq!(answer, Ok(due.len()), "{log:02x?}");
    assert!(buffer[..due.len()] == due, "{log:02x?}");
    assert!(
        buffer[due.len()..].iter().all(|&byte| byte == 0),
        "{log:02x?}"
    );
    let mut again = due.clone();
    assert_eq!(packing::pack(&mut again), Ok(due.len()), "{log:02x?}");
    assert!(again == due, "{log:02x?}");
    assert_eq!(
        account(&due).map(|it| it.report()),
        account(log).map(|it| it.report())
    );
    let longer = [log, &[0]].concat();
    let mut buffer = longer.clone();
    assert_eq!(packing::pack(&mut buffer), Err(Refusal::of_log(5)));
    assert!(buffer == longer);
    let before = read(log).expect("an accepted log").header;
    let [states, standards, _] = draft.counts();
    Ok([before.states - states, before.standards - standards].map(|dropped| dropped as usize))
}

/// The log of the same records and of some that tell their code or their time again, a little later.
fn told_again(rng: &mut Prng, log: &[u8]) -> Vec<u8> {
    let mut draft = Draft::of(read(log).expect("an accepted log"));
    for it in draft.states.clone() {
        if rng.once_in(2) {
            draft.state(it.module, it.code, it.time + rng.between(1, 3));
        }
    }
    for it in draft.standards.clone() {
        if rng.once_in(2) {
            draft.standard(
                it.module,
                it.recipe,
                it.start + rng.between(1, 3),
                it.theoretical,
            );
        }
    }
    draft.sort();
    draft.states.dedup_by_key(|it| (it.time, it.module));
    draft
        .standards
        .dedup_by_key(|it| (it.module, it.recipe, it.start));
    draft.bytes()
}

/// Each log, and each accepted one with records told again.
#[test]
fn on_the_generators_logs_packed() {
    let rng = &mut Prng::new(16, 0);
    let mut refused: BTreeSet<u64> = BTreeSet::new();
    let (mut states, mut standards, mut neither) = (0, 0, 0);
    for index in 0..LOGS / 5 {
        let log = make(13, index).bytes;
        let mut logs = vec![log.clone()];
        if account(&log).is_ok() {
            logs.push(told_again(rng, &log));
        }
        for log in logs {
            match compare_packed(&log) {
                Err(number) => _ = refused.insert(number),
                Ok([0, 0]) => neither += 1,
                Ok([of_states, of_standards]) => {
                    states += usize::from(of_states > 0);
                    standards += usize::from(of_standards > 0);
                }
            }
        }
    }
    assert_eq!(
        Vec::from_iter(refused),
        Vec::from_iter((1..=16).chain([19]))
    );
    assert!(
        states > 1_000 && standards > 1_000 && neither > 100,
        "{states} {standards} {neither}"
    );
}

#[test]
fn on_the_measured_logs_packed() {
    let measured = logs::to_pack();
    let dropped: Vec<[usize; 2]> = measured
        .iter()
        .map(|variant| {
            assert_eq!(variant.log.len(), 63_130);
            compare_packed(&variant.log).expect(variant.name)
        })
        .collect();
    assert!(dropped[0][0] > 5_500 && dropped[0][1] > 400, "{dropped:?}");
    assert_eq!(dropped[1], [0, 0]);
    for variant in logs::variants() {
        assert!(compare_packed(&variant.log).is_ok(), "{}", variant.name);
    }
}

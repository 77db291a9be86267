//! Slices of benchmarks for a log: valid ones, faults of every kind alone and together, and bytes without regard to the log.

use super::faults::{edge_or_between, place, spare_bits};
use super::raw::{flip_bits, random};
use super::runs::records;
use super::{Expected, Made};
use crate::draft::packed;
use crate::prng::Prng;
use crate::records::*;
use std::collections::BTreeSet;

const GREATEST_OF_FIELD: u64 = (1 << 27) - 1;

/// The refusals of a benchmark, in the sequence in which it is tested for them.
const NUMBERS: [u64; 4] = [6, 12, 20, 21];

/// What a benchmark may say at most.
#[derive(Clone, Copy, Debug, PartialEq, Eq)]
struct Limits {
    /// The theoretical time of its standard.
    time: u64,
    /// The effective units judged by its standard.
    units: u64,
}

/// The slices of a seed and an index, whose log is given, with its refusal where it has one.
pub fn make(seed: u64, index: u64, log: &[u8], refused: Option<Refusal>) -> Vec<Made> {
    // Other numbers than those that the log and the runs were made of.
    let mut rng = Prng::new(seed ^ (1 << 63), index);
    let limits = limits(log);
    let mut slices = vec![valid(&mut rng, &limits), wrong_length(&mut rng, &limits)];
    if limits.is_empty() {
        slices.push(wrong_length(&mut rng, &limits));
    } else {
        slices.extend([
            one_fault(&mut rng, &limits),
            faults_of_one(&mut rng, &limits),
            faults_of_several(&mut rng, &limits),
            damaged(&mut rng, &limits),
        ]);
    }
    if let Some(refusal) = refused {
        for slice in &mut slices {
            slice.expected = Expected::Refused(refusal);
        }
    }
    slices
}

/// Of each standard that the bytes hold, as far as they go. In a rising list it judges its module's units of its recipe from
/// its start up to the next standard's, where that one is the module's and recipe's too.
fn limits(log: &[u8]) -> Vec<Limits> {
    let (mut standards, mut units) = (Vec::new(), Vec::new());
    for record in records(log) {
        match record {
            Record::Standard(values) => standards.push(values),
            Record::Unit(values) => units.push(values),
            _ => {}
        }
    }
    let mut limits = Vec::new();
    for (place, [module, recipe, start, theoretical]) in standards.iter().enumerate() {
        let own = (module, recipe);
        let end = match standards.get(place + 1) {
            Some([module, recipe, next_start, _]) if (module, recipe) == own => *next_start,
            _ => u64::MAX,
        };
        let judged = units.iter().filter(|[module, recipe, time, ..]| {
            (module, recipe) == own && start <= time && *time < end
        });
        let units: u64 = judged.map(|[.., effective]| effective).sum();
        // A refused log may have no time there, or more units than fit.
        limits.push(Limits {
            time: *theoretical.max(&1),
            units: units.min(GREATEST_OF_FIELD - 1),
        });
    }
    limits
}

// ---------------------------------------------------------------- valid

fn valid_benchmarks(rng: &mut Prng, limits: &[Limits]) -> Vec<Benchmark> {
    let all_equal = rng.once_in(4);
    let mut up_to = |low: u64, high: u64| {
        if all_equal {
            high
        } else {
            edge_or_between(rng, low, high)
        }
    };
    let benchmark = |limits: &Limits| Benchmark {
        times: std::array::from_fn(|_| up_to(1, limits.time)),
        total_effective: up_to(0, limits.units),
        spare: 0,
    };
    limits.iter().map(benchmark).collect()
}

fn valid(rng: &mut Prng, limits: &[Limits]) -> Made {
    Made {
        bytes: packed(&valid_benchmarks(rng, limits)),
        expected: Expected::Accepted,
    }
}

// ---------------------------------------------------------------- faults

fn one_fault(rng: &mut Prng, limits: &[Limits]) -> Made {
    let places = BTreeSet::from_iter(place(rng, limits));
    faulty(rng, limits, places, |rng| vec![rng.pick(&NUMBERS)])
}

/// Several faults of one benchmark.
fn faults_of_one(rng: &mut Prng, limits: &[Limits]) -> Made {
    let places = BTreeSet::from_iter(place(rng, limits));
    faulty(rng, limits, places, some_numbers)
}

/// Faults of two to five benchmarks, where there are so many.
fn faults_of_several(rng: &mut Prng, limits: &[Limits]) -> Made {
    let places = (0..rng.between(2, 5)).filter_map(|_| place(rng, limits));
    let places = places.collect();
    faulty(rng, limits, places, some_numbers)
}

/// Each of the refusals or not.
fn some_numbers(rng: &mut Prng) -> Vec<u64> {
    let mut numbers = NUMBERS.to_vec();
    numbers.retain(|_| rng.once_in(2));
    numbers
}

/// Benchmarks with the faults that are drawn for each of the places; the first that is met is known.
fn faulty(
    rng: &mut Prng,
    limits: &[Limits],
    places: BTreeSet<usize>,
    draw: impl Fn(&mut Prng) -> Vec<u64>,
) -> Made {
    let mut benchmarks = valid_benchmarks(rng, limits);
    let mut expected = Expected::Accepted;
    for place in places {
        let numbers = draw(rng);
        let met = put(rng, &numbers, &mut benchmarks[place], &limits[place]);
        if let (Expected::Accepted, Some(number)) = (expected, met) {
            expected = Expected::Refused(Refusal::new(number, BENCHMARKS, place));
        }
    }
    Made {
        bytes: packed(&benchmarks),
        expected,
    }
}

/// Puts these faults into a valid benchmark; the first of them that it has place for. 12 and 20 are of different times.
fn put(rng: &mut Prng, numbers: &[u64], benchmark: &mut Benchmark, limits: &Limits) -> Option<u64> {
    let mut times = [0, 1, 2];
    rng.shuffle(&mut times);
    let mut met = None;
    for number in numbers {
        match number {
            6 => benchmark.spare = spare_bits(rng, 4),
            12 => benchmark.times[times[0]] = 0,
            20 if limits.time == GREATEST_OF_FIELD => continue,
            20 => benchmark.times[times[1]] = above(rng, limits.time),
            _ => benchmark.total_effective = above(rng, limits.units),
        }
        met = met.or(Some(*number));
    }
    met
}

/// One more than the limit, the greatest of the field, or any between.
fn above(rng: &mut Prng, limit: u64) -> u64 {
    edge_or_between(rng, limit + 1, GREATEST_OF_FIELD)
}

// ---------------------------------------------------------------- bytes

/// Valid benchmarks, two neighbours of which are exchanged; with a few bits flipped; or any bytes of the same length.
fn damaged(rng: &mut Prng, limits: &[Limits]) -> Made {
    let mut benchmarks = valid_benchmarks(rng, limits);
    let bytes = match rng.below(4) {
        0..=1 => {
            let later = later_of_two(rng, limits);
            benchmarks.swap(later.saturating_sub(1), later);
            packed(&benchmarks)
        }
        2 => {
            let mut bytes = packed(&benchmarks);
            flip_bits(rng, &mut bytes, 0);
            bytes
        }
        _ => random(rng, packed(&benchmarks).len()),
    };
    Made {
        bytes,
        expected: Expected::Unknown,
    }
}

/// The second of two neighbours to exchange: once in two, if there is one, with no more time and fewer units than the first, so
/// that the first may pass and the second have too many units.
fn later_of_two(rng: &mut Prng, limits: &[Limits]) -> usize {
    let less = |one: &Limits, next: &Limits| next.time <= one.time && next.units < one.units;
    let chosen: Vec<usize> = (1..limits.len())
        .filter(|&later| less(&limits[later - 1], &limits[later]))
        .collect();
    if chosen.is_empty() || rng.once_in(2) {
        rng.index(limits.len())
    } else {
        rng.pick(&chosen)
    }
}

/// More or fewer bytes than the benchmarks have, with faults in them or without.
fn wrong_length(rng: &mut Prng, limits: &[Limits]) -> Made {
    let mut bytes = if rng.once_in(2) {
        valid(rng, limits).bytes
    } else {
        faults_of_several(rng, limits).bytes
    };
    let size = BENCHMARK_BYTES as usize;
    let due = bytes.len();
    let length = loop {
        let length = match rng.below(8) {
            0 => due.saturating_sub(1),
            1 => due + 1,
            2 => due.saturating_sub(size),
            3 => due + size,
            4 => 0,
            5 => size * rng.index(MOST_STANDARDS as usize + 2),
            6 => rng.index(2 * due + 2 * size),
            _ => due + rng.pick(&[256, 7_168, 65_536, 70_000]),
        };
        if length != due {
            break length;
        }
    };
    bytes.resize(length, rng.pick(&[0, 0xff]));
    Made {
        bytes,
        expected: Expected::Refused(Refusal::new(5, BENCHMARKS, 0)),
    }
}

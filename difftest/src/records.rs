//! The header and the three kinds of record of a log, and the benchmark of a standard, as whole numbers.

/// Bounds of document 01.
pub const LONGEST_PERIOD: u64 = 31_622_400_000;
pub const MOST_MODULES: u64 = 64;
pub const MOST_STATES: u64 = 6_000;
pub const MOST_STANDARDS: u64 = 512;
pub const MOST_UNITS: u64 = 2_000;

/// Lengths in bytes.
pub const HEADER_BYTES: u64 = 10;
pub const STATE_BYTES: u64 = 6;
pub const STANDARD_BYTES: u64 = 10;
pub const UNIT_BYTES: u64 = 11;
pub const BENCHMARK_BYTES: u64 = 14;

#[derive(Clone, Copy, Debug, PartialEq, Eq)]
pub struct Header {
    pub period: u64,
    pub modules: u64,
    pub states: u64,
    pub standards: u64,
    pub units: u64,
}

/// A module enters a sub-state at a time.
#[derive(Clone, Copy, Debug, PartialEq, Eq)]
pub struct StateRecord {
    pub module: u64,
    pub code: u64,
    pub time: u64,
    pub spare: u64,
}

/// A module's theoretical time per unit of a recipe, from a start on.
#[derive(Clone, Copy, Debug, PartialEq, Eq)]
pub struct Standard {
    pub module: u64,
    pub recipe: u64,
    pub start: u64,
    pub theoretical: u64,
    pub spare: u64,
}

/// Units of a recipe that a module made.
#[derive(Clone, Copy, Debug, PartialEq, Eq)]
pub struct UnitRecord {
    pub module: u64,
    pub recipe: u64,
    pub time: u64,
    pub actual: u64,
    pub effective: u64,
    pub spare: u64,
}

/// What a standard is measured against.
#[derive(Clone, Copy, Debug, PartialEq, Eq)]
pub struct Benchmark {
    /// Reference, optimized and value-added time of a unit.
    pub times: [u64; 3],
    pub total_effective: u64,
    pub spare: u64,
}

/// What is given to a call that adds a record: its values in the sequence of its fields. Spare bits are not given.
#[derive(Clone, Copy, Debug, PartialEq, Eq)]
pub enum Record {
    /// Period, modules, states, standards, units.
    Header([u64; 5]),
    /// Module, code, time.
    State([u64; 3]),
    /// Module, recipe, start, theoretical.
    Standard([u64; 4]),
    /// Module, recipe, time, actual, effective.
    Unit([u64; 5]),
}

/// A record of each kind, every value 0.
pub const KINDS: [Record; 4] = [
    Record::Header([0; 5]),
    Record::State([0; 3]),
    Record::Standard([0; 4]),
    Record::Unit([0; 5]),
];

impl Record {
    pub fn values(&self) -> &[u64] {
        match self {
            Record::Header(values) | Record::Unit(values) => values,
            Record::State(values) => values,
            Record::Standard(values) => values,
        }
    }

    pub fn values_mut(&mut self) -> &mut [u64] {
        match self {
            Record::Header(values) | Record::Unit(values) => values,
            Record::State(values) => values,
            Record::Standard(values) => values,
        }
    }

    /// Bits of each field that a value is given for.
    pub fn widths(&self) -> &'static [u32] {
        match self {
            Record::Header(_) => &[35, 7, 14, 11, 13],
            Record::State(_) => &[6, 5, 35],
            Record::Standard(_) => &[6, 10, 35, 27],
            Record::Unit(_) => &[6, 10, 35, 16, 16],
        }
    }

    /// The fields, from 0 on, whose value is not below 2 to the width. What it means is not asked.
    pub fn too_wide(&self) -> Vec<usize> {
        let fits = |field: &usize| self.values()[*field] < 1 << self.widths()[*field];
        let fields = 0..self.values().len();
        fields.filter(|field| !fits(field)).collect()
    }

    /// Spare bits, which end the record.
    pub fn spare(&self) -> u32 {
        match self {
            Record::Header(_) => 0,
            Record::State(_) | Record::Standard(_) => 2,
            Record::Unit(_) => 5,
        }
    }

    /// Length in bytes.
    pub fn length(&self) -> usize {
        let bytes = match self {
            Record::Header(_) => HEADER_BYTES,
            Record::State(_) => STATE_BYTES,
            Record::Standard(_) => STANDARD_BYTES,
            Record::Unit(_) => UNIT_BYTES,
        };
        bytes as usize
    }

    /// The list of a refusal that points to it.
    pub fn list(&self) -> u64 {
        match self {
            Record::Header(_) => NO_LIST,
            Record::State(_) => STATES,
            Record::Standard(_) => STANDARDS,
            Record::Unit(_) => UNITS,
        }
    }
}

/// Why a log or a call is turned back: number, list and place of document 01.
#[derive(Clone, Copy, Debug, PartialEq, Eq, PartialOrd, Ord)]
pub struct Refusal {
    pub number: u64,
    pub list: u64,
    pub place: u64,
}

pub const NO_LIST: u64 = 0;
pub const STATES: u64 = 1;
pub const STANDARDS: u64 = 2;
pub const UNITS: u64 = 3;
pub const BENCHMARKS: u64 = 4;

/// What is added to the list of a refusal of the second of two logs.
pub const SECOND: u64 = 10;

impl Refusal {
    pub fn new(number: u64, list: u64, place: usize) -> Refusal {
        Refusal {
            number,
            list,
            place: place as u64,
        }
    }

    /// A refusal of the log as a whole.
    pub fn of_log(number: u64) -> Refusal {
        Refusal::new(number, NO_LIST, 0)
    }

    /// Where it points to, in words.
    pub fn whereabouts(&self) -> Option<String> {
        let place = self.place;
        match (self.list, self.number) {
            (STATES, _) => Some(format!("record {place} of the states")),
            (STANDARDS, _) => Some(format!("record {place} of the standards")),
            (UNITS, _) => Some(format!("record {place} of the units")),
            (BENCHMARKS, 5) => Some(String::from("the benchmarks")),
            (BENCHMARKS, _) => Some(format!("benchmark {place}")),
            (_, 7 | 11 | 16) => Some(format!("module {place}")),
            _ => None,
        }
    }

    /// The line that a refused log prints.
    pub fn line(&self) -> String {
        format!(
            "refused {} list {} at {}\n",
            self.number, self.list, self.place
        )
    }
}

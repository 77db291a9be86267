//! A log in the making: records that need not be valid, packed into bytes; and benchmarks.

use crate::oracle::Log;
use crate::records::*;

#[derive(Clone, Debug, Default)]
pub struct Draft {
    pub period: u64,
    pub modules: u64,
    pub states: Vec<StateRecord>,
    pub standards: Vec<Standard>,
    pub units: Vec<UnitRecord>,
    /// Counts that the header claims, where they are not those of the lists.
    pub claimed: Option<[u64; 3]>,
    /// Final length in bytes, where the packed log is cut or lengthened.
    pub length: Option<usize>,
    /// The bytes that a lengthened log ends in.
    pub filler: u8,
}

/// Packs fields most significant bit first.
#[derive(Default)]
struct BitWriter {
    bytes: Vec<u8>,
    pending: u64,
    pending_bits: u32,
}

impl BitWriter {
    fn put(&mut self, value: u64, width: u32) {
        assert!(value < 1 << width, "{value} does not fit {width} bits");
        for shift in (0..width).rev() {
            self.pending = self.pending << 1 | (value >> shift & 1);
            self.pending_bits += 1;
            if self.pending_bits == 8 {
                self.bytes.push(self.pending as u8);
                self.pending = 0;
                self.pending_bits = 0;
            }
        }
    }
}

/// Benchmarks that need not be valid, one behind the other.
pub fn packed(benchmarks: &[Benchmark]) -> Vec<u8> {
    let mut writer = BitWriter::default();
    for benchmark in benchmarks {
        for time in benchmark.times {
            writer.put(time, 27);
        }
        writer.put(benchmark.total_effective, 27);
        writer.put(benchmark.spare, 4);
    }
    writer.bytes
}

/// What each list rises by.
impl StateRecord {
    pub fn key(&self) -> (u64, u64) {
        (self.time, self.module)
    }
}

impl Standard {
    pub fn key(&self) -> (u64, u64, u64) {
        (self.module, self.recipe, self.start)
    }
}

impl UnitRecord {
    pub fn key(&self) -> (u64, u64, u64) {
        (self.time, self.module, self.recipe)
    }
}

impl Draft {
    /// The records of a log that was read.
    pub fn of(log: Log) -> Draft {
        Draft {
            period: log.header.period,
            modules: log.header.modules,
            states: log.states,
            standards: log.standards,
            units: log.units,
            ..Draft::default()
        }
    }

    /// Brings the three lists into rising sequence. Records with equal keys stay side by side.
    pub fn sort(&mut self) {
        self.states.sort_by_key(StateRecord::key);
        self.standards.sort_by_key(Standard::key);
        self.units.sort_by_key(UnitRecord::key);
    }

    pub fn counts(&self) -> [u64; 3] {
        [
            self.states.len() as u64,
            self.standards.len() as u64,
            self.units.len() as u64,
        ]
    }

    pub fn bytes(&self) -> Vec<u8> {
        let mut writer = BitWriter::default();
        let [states, standards, units] = self.claimed.unwrap_or(self.counts());
        writer.put(self.period, 35);
        writer.put(self.modules, 7);
        writer.put(states, 14);
        writer.put(standards, 11);
        writer.put(units, 13);
        for record in &self.states {
            writer.put(record.module, 6);
            writer.put(record.code, 5);
            writer.put(record.time, 35);
            writer.put(record.spare, 2);
        }
        for standard in &self.standards {
            writer.put(standard.module, 6);
            writer.put(standard.recipe, 10);
            writer.put(standard.start, 35);
            writer.put(standard.theoretical, 27);
            writer.put(standard.spare, 2);
        }
        for unit in &self.units {
            writer.put(unit.module, 6);
            writer.put(unit.recipe, 10);
            writer.put(unit.time, 35);
            writer.put(unit.actual, 16);
            writer.put(unit.effective, 16);
            writer.put(unit.spare, 5);
        }
        assert_eq!(writer.pending_bits, 0, "records are whole bytes");
        let mut bytes = writer.bytes;
        if let Some(length) = self.length {
            bytes.resize(length, self.filler);
        }
        bytes
    }

    pub fn state(&mut self, module: u64, code: u64, time: u64) {
        self.states.push(StateRecord {
            module,
            code,
            time,
            spare: 0,
        });
    }

    pub fn standard(&mut self, module: u64, recipe: u64, start: u64, theoretical: u64) {
        self.standards.push(Standard {
            module,
            recipe,
            start,
            theoretical,
            spare: 0,
        });
    }

    pub fn unit(&mut self, module: u64, recipe: u64, time: u64, actual: u64, effective: u64) {
        self.units.push(UnitRecord {
            module,
            recipe,
            time,
            actual,
            effective,
            spare: 0,
        });
    }
}

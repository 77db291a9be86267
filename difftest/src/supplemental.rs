//! R-4, supplemental figures, in plain Rust, written to be read beside it and not to be fast.

use crate::oracle::{account, four_places, read, standard_of, ten_thousandths};
use crate::oracle::{Account, BitReader, Log};
use crate::records::*;

/// Reference, optimized-recipe, value-added and total effective units OEE of the tool, in ten-thousandths.
pub type Supplemental = [u64; 4];

/// The log is tested first, then the benchmarks.
pub fn supplemental(log: &[u8], benchmarks: &[u8]) -> Result<Supplemental, Refusal> {
    answer(&Judged::of(log, &account(log)), benchmarks)
}

/// The same for a log that was judged before.
pub fn answer(
    judged: &Result<Judged, Refusal>,
    benchmarks: &[u8],
) -> Result<Supplemental, Refusal> {
    match judged {
        Ok(judged) => judged.supplemental(benchmarks),
        Err(refusal) => Err(*refusal),
    }
}

/// An accepted log, and the effective units judged by each of its standards.
pub struct Judged {
    pub log: Log,
    pub effective: Vec<u64>,
    /// Of the tool.
    pub total_time: u64,
    effective_time: u64,
}

impl Judged {
    pub fn of(log: &[u8], verdict: &Result<Account, Refusal>) -> Result<Judged, Refusal> {
        let tool = verdict.as_ref().map_err(|refusal| *refusal)?.tool;
        let log = read(log)?;
        let mut effective = vec![0; log.standards.len()];
        for unit in &log.units {
            let standard = standard_of(&log, unit);
            let place = log.standards.iter().position(|other| *other == standard);
            effective[place.expect("a standard of the log")] += unit.effective;
        }
        Ok(Judged {
            log,
            effective,
            total_time: tool.quantities.total,
            effective_time: tool.quantities.effective,
        })
    }

    pub fn supplemental(&self, benchmarks: &[u8]) -> Result<Supplemental, Refusal> {
        let benchmarks = self.read(benchmarks)?;
        self.test(&benchmarks)?;
        Ok(self
            .sums(&benchmarks)
            .map(|sum| ten_thousandths(sum, self.total_time)))
    }

    /// Ground 5 of the slice: one benchmark for each standard.
    pub fn read(&self, benchmarks: &[u8]) -> Result<Vec<Benchmark>, Refusal> {
        let due = BENCHMARK_BYTES * self.log.header.standards;
        if benchmarks.len() as u64 != due {
            return Err(Refusal::new(5, BENCHMARKS, 0));
        }
        let mut reader = BitReader {
            bytes: benchmarks,
            position: 0,
        };
        let standards = self.log.standards.iter();
        Ok(standards.map(|_| reader.benchmark()).collect())
    }

    /// Grounds 6, 12, 20 and 21.
    fn test(&self, benchmarks: &[Benchmark]) -> Result<(), Refusal> {
        for (place, benchmark) in benchmarks.iter().enumerate() {
            let refused = |number| Err(Refusal::new(number, BENCHMARKS, place));
            let theoretical = self.log.standards[place].theoretical;
            if benchmark.spare != 0 {
                return refused(6);
            }
            if benchmark.times.contains(&0) {
                return refused(12);
            }
            if benchmark.times.iter().any(|time| *time > theoretical) {
                return refused(20);
            }
            if benchmark.total_effective > self.effective[place] {
                return refused(21);
            }
        }
        Ok(())
    }

    /// The four numerators, in ms, with benchmarks that passed.
    pub fn sums(&self, benchmarks: &[Benchmark]) -> [u64; 4] {
        let mut sums = [0; 4];
        for (place, benchmark) in benchmarks.iter().enumerate() {
            let effective = u128::from(self.effective[place]);
            let [reference, optimized, value_added] = benchmark.times.map(u128::from);
            let total_effective = u128::from(benchmark.total_effective);
            let theoretical = u128::from(self.log.standards[place].theoretical);
            sums[0] += effective * reference;
            sums[1] += effective * optimized;
            sums[2] += effective * value_added;
            sums[3] += total_effective * theoretical;
        }
        assert!(
            sums.iter()
                .all(|sum| *sum <= u128::from(self.effective_time)),
            "a sum above the theoretical time for effective units"
        );
        sums.map(|sum| sum as u64)
    }
}

impl BitReader<'_> {
    fn benchmark(&mut self) -> Benchmark {
        Benchmark {
            times: [self.number(27), self.number(27), self.number(27)],
            total_effective: self.number(27),
            spare: self.number(4),
        }
    }
}

/// What `toollog supplemental` prints.
pub fn text(figures: &Supplemental) -> Vec<u8> {
    let names = [
        "reference",
        "optimized",
        "value-added",
        "total-effective-units",
    ];
    let lines = names.iter().zip(figures);
    lines
        .map(|(name, figure)| format!("{name} {}\n", four_places(*figure)))
        .collect::<String>()
        .into_bytes()
}

/// What is said of a refusal of the benchmarks: word and meaning of the card, and where it points to.
pub fn words(refusal: &Refusal) -> Option<String> {
    let card = match refusal.number {
        5 => "length: bytes other than 10 + 6 states + 10 standards + 11 units; benchmarks: 14 for each standard",
        6 => "spare: a spare bit set",
        12 => "no time: theoretical time 0, or a time of a benchmark 0",
        20 => "above standard: a time of a benchmark above its standard's theoretical time",
        21 => "over-counted: total effective units of a benchmark above the effective units judged by its standard",
        _ => return None,
    };
    Some(format!("{card} ({})", refusal.whereabouts()?))
}

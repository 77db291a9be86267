//! availability, operational, rate and quality loss and OEE in ten-thousandths of total time, a bar of five parts that
//! make 10,000.

use crate::oracle::{ten_thousandths, Account, Quantities, Sums};
use std::cmp::Ordering;

/// What the five parts of a bar make.
pub const WHOLE: u64 = 10_000;

/// The bar of a module or of the tool, and how it came about.
#[derive(Clone, Copy, Debug, PartialEq, Eq)]
pub struct Bar {
    pub parts: [u64; 5],
    /// What the five quotients rounded down lack of the whole.
    pub missing: usize,
    /// Where of equal remainders some get a missing one and the others none: how many are equal, and how many of these get one.
    pub tie: Option<(usize, usize)>,
}

/// What each part is of the total time, in ms.
pub fn shares(quantities: &Quantities) -> [u64; 5] {
    let q = quantities;
    [
        q.total - q.uptime,
        q.uptime - q.production,
        q.production - q.actual,
        q.actual - q.effective,
        q.effective,
    ]
}

/// Ten thousand times the total time by which these parts lie off the exact shares, all five distances added.
pub fn distance(quantities: &Quantities, parts: &[i128; 5]) -> u128 {
    let total = i128::from(quantities.total);
    let exact = shares(quantities).map(|share| i128::from(WHOLE) * i128::from(share));
    let pairs = exact.iter().zip(parts);
    pairs
        .map(|(exact, part)| (exact - part * total).unsigned_abs())
        .sum()
}

/// Whether no one that goes from a part to another brings these nearer. As each distance is convex in its own part, no other
/// five that make as much are nearer then.
fn nearest(quantities: &Quantities, parts: &[u64; 5]) -> bool {
    let parts = parts.map(i128::from);
    let own = distance(quantities, &parts);
    (0..25).all(|pair| {
        let mut moved = parts;
        moved[pair / 5] += 1;
        moved[pair % 5] -= 1;
        distance(quantities, &moved) >= own
    })
}

impl Bar {
    pub fn of(quantities: &Quantities) -> Bar {
        let total = u128::from(quantities.total);
        let exact = shares(quantities).map(|share| u128::from(WHOLE) * u128::from(share));
        let mut parts = exact.map(|exact| (exact / total) as u64);
        let remainders = exact.map(|exact| exact % total);
        let missing = (WHOLE - parts.iter().sum::<u64>()) as usize;

        // One each, to the largest remainder of those that have none yet, the earliest of equal ones.
        let mut without: Vec<usize> = (0..5).collect();
        let mut with = Vec::new();
        while with.len() < missing {
            let mut chosen = 0;
            for other in 1..without.len() {
                if remainders[without[other]] > remainders[without[chosen]] {
                    chosen = other;
                }
            }
            let part = without.remove(chosen);
            parts[part] += 1;
            with.push(part);
        }

        let tie = with.last().and_then(|last| {
            let equal = |parts: &[usize]| {
                let equal = parts
                    .iter()
                    .filter(|&&it| remainders[it] == remainders[*last]);
                equal.count()
            };
            let (getting, lacking) = (equal(&with), equal(&without));
            (lacking > 0).then_some((getting + lacking, getting))
        });
        assert_eq!(parts.iter().sum::<u64>(), WHOLE, "a bar that is not full");
        assert!(nearest(quantities, &parts), "another bar lies nearer");
        Bar {
            parts,
            missing,
            tie,
        }
    }
}

impl Account {
    /// Of the modules and, last, of the tool.
    fn sums(&self) -> impl Iterator<Item = &Sums> {
        self.modules.iter().chain([&self.tool])
    }

    /// The bars of the modules and, last, of the tool.
    pub fn bars(&self) -> Vec<Bar> {
        let quantities = self.sums().map(|sums| &sums.quantities);
        quantities.map(Bar::of).collect()
    }

    /// How OEE in each of these compares with the report's.
    pub fn oee_beside_report(&self) -> Vec<Ordering> {
        let quantities = self.sums().map(|sums| &sums.quantities);
        let reported = quantities.map(|q| ten_thousandths(q.effective, q.total));
        let bars = self.bars().into_iter().zip(reported);
        bars.map(|(bar, reported)| bar.parts[4].cmp(&reported))
            .collect()
    }
}

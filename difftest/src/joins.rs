//! Counts what the joins of a run met, so that a shape of two logs or a refusal that a generator misses shows.

use crate::joined::{breached, Accepted, Joined, SHAPES};
use crate::oracle::header;
use crate::records::*;
use crate::tally::{missed, Verdicts, OF_LOGS};

/// What of two logs that are not joined shows in which sequence they are tested, and where a bound lies.
pub const TURNED_BACK: [&str; 16] = [
    "both logs refused",
    "both refused for the same",
    "the first refused ahead of other modules in the second",
    "the second refused ahead of other modules in it",
    "the second refused ahead of periods over the bound",
    "the second refused ahead of counts over a bound",
    "one module more",
    "63 modules less",
    "1 ms over the bound alone",
    "a period twice as long as the longest",
    "one state record over the bound alone",
    "one standard over the bound alone",
    "one unit record over the bound alone",
    "twice as many state records as there may be",
    "twice as many standards as there may be",
    "twice as many unit records as there may be",
];

/// What both logs together are refused for, in the sequence in which they are tested for it.
const TOGETHER: [u64; 3] = [23, 2, 4];

#[derive(Default)]
pub struct Joins {
    accepted: u64,
    shapes: [u64; SHAPES.len()],
    of_first: Verdicts,
    of_second: Verdicts,
    /// By which of them both logs meet: bit 0 for 23, bit 1 for 2, bit 2 for 4.
    together: [u64; 8],
    turned_back: [u64; TURNED_BACK.len()],
    /// Joins into a buffer that is too short, joined logs that were tried as any other, and three logs joined in both groupings.
    pub short: u64,
    pub tried: u64,
    pub triples: u64,
}

impl Joins {
    /// Two logs as they are, as they were judged, and what is joined of them.
    pub fn count(
        &mut self,
        logs: [&[u8]; 2],
        judged: [&Result<Accepted, Refusal>; 2],
        joined: &Result<Joined, Refusal>,
    ) {
        if let Ok(joined) = joined {
            self.accepted += 1;
            for (count, has) in self.shapes.iter_mut().zip(joined.shapes()) {
                *count += u64::from(has);
            }
            return;
        }
        let [first, second] = judged;
        match (first, second) {
            (Err(_), _) => self.of_first.count(first),
            (_, Err(_)) => self.of_second.count(second),
            _ => {}
        }
        let headers = match logs.map(header) {
            [Ok(one), Ok(other)] => Some([one, other]),
            _ => None,
        };
        self.count_turned_back(judged, headers);
        if let (Ok(first), Ok(second)) = judged.into() {
            let met = breached([first.log.header, second.log.header]);
            let bits = (0..).zip(TOGETHER);
            let bits = bits.filter(|(_, number)| met.contains(number));
            let mask: usize = bits.map(|(bit, _)| 1 << bit).sum();
            self.together[mask] += 1;
        }
    }

    pub fn pairs(&self) -> u64 {
        let [first, second] = [&self.of_first, &self.of_second].map(Verdicts::refused);
        self.accepted + first + second + self.together.iter().sum::<u64>()
    }

    /// With both headers, where they pass.
    fn count_turned_back(
        &mut self,
        judged: [&Result<Accepted, Refusal>; 2],
        headers: Option<[Header; 2]>,
    ) {
        let [first, second] = judged.map(|log| log.as_ref().err());
        let accepted = first.is_none() && second.is_none();
        let ahead_of = |number: u64| headers.is_some_and(|it| breached(it).contains(&number));
        let second_ahead_of = |number: u64| first.is_none() && second.is_some() && ahead_of(number);
        let sums = headers.map(|[one, other]| {
            [
                one.period + other.period,
                one.states + other.states,
                one.standards + other.standards,
                one.units + other.units,
            ]
        });
        let bounds = [LONGEST_PERIOD, MOST_STATES, MOST_STANDARDS, MOST_UNITS];
        let modules = headers.map(|it| it.map(|header| header.modules));
        let alike = accepted && modules.is_some_and(|[one, other]| one == other);
        let over_alone = |at: usize| {
            let over = |sums: [u64; 4]| (0..4).filter(move |&it| sums[it] > bounds[it]);
            let by_one = |sums: [u64; 4]| sums[at] == bounds[at] + 1 && over(sums).eq([at]);
            alike && sums.is_some_and(by_one)
        };
        let twice = |at: usize| accepted && sums.is_some_and(|it| it[at] == 2 * bounds[at]);
        let is = [
            first.is_some() && second.is_some(),
            first.is_some() && first == second,
            first.is_some() && second.is_none() && ahead_of(23),
            second_ahead_of(23),
            second_ahead_of(2),
            second_ahead_of(4),
            accepted && modules.is_some_and(|[one, other]| one + 1 == other),
            accepted && modules.is_some_and(|[one, other]| one == other + 63),
            over_alone(0),
            twice(0),
            over_alone(1),
            over_alone(2),
            over_alone(3),
            twice(1),
            twice(2),
            twice(3),
        ];
        for (count, is) in self.turned_back.iter_mut().zip(is) {
            *count += u64::from(is);
        }
    }

    /// What no two logs met.
    pub fn never_met(&self) -> Vec<String> {
        let of_first = self.of_first.never_met(&OF_LOGS).into_iter();
        let of_second = self.of_second.never_met(&OF_LOGS).into_iter();
        let together = (1..8).filter(|mask| self.together[*mask] == 0);
        missed(&SHAPES, &self.shapes)
            .into_iter()
            .chain(of_first.map(|it| format!("{it} of the first")))
            .chain(of_second.map(|it| format!("{it} of the second")))
            .chain(together.map(|mask| format!("both together {:?}", numbers(mask))))
            .chain(missed(&TURNED_BACK, &self.turned_back))
            .collect()
    }

    /// Which answers were never due: a joined log, a refusal for the first or for the second, and each number that is for both together.
    pub fn never_answered(&self) -> Vec<String> {
        let [of_first, of_second] = [&self.of_first, &self.of_second].map(Verdicts::refused);
        let together =
            |bit: usize| (0..8).filter(move |mask| mask & bit != 0 && mask & (bit - 1) == 0);
        let of_both = |bit: usize| together(bit).map(|mask| self.together[mask]).sum();
        let counted = [
            (self.accepted, "a joined log"),
            (of_first, "a refusal of the first"),
            (of_second, "a refusal of the second"),
            (of_both(1), "23"),
            (of_both(2), "2 for both together"),
            (of_both(4), "4 for both together"),
        ];
        never(&counted)
    }

    /// What no two logs met, and 18, a joined log tried as any other, and three logs in both groupings.
    pub fn never_met_with_buffers(&self) -> Vec<String> {
        let counted = [
            (self.short, "18 list 0"),
            (self.tried, "a joined log tried as any other"),
            (self.triples, "three logs"),
        ];
        [self.never_met(), never(&counted)].concat()
    }
}

/// The names of what was counted never.
fn never(counted: &[(u64, &str)]) -> Vec<String> {
    let never = counted.iter().filter(|(count, _)| *count == 0);
    never.map(|(_, name)| String::from(*name)).collect()
}

fn numbers(mask: usize) -> Vec<u64> {
    let bits = (0..).zip(TOGETHER);
    let met = bits.filter(|(bit, _)| mask >> bit & 1 == 1);
    met.map(|(_, number)| number).collect()
}

impl std::fmt::Display for Joins {
    fn fmt(&self, f: &mut std::fmt::Formatter) -> std::fmt::Result {
        let (pairs, joined) = (self.pairs(), self.accepted);
        writeln!(f, "{pairs} pairs of logs, {joined} joined")?;
        let [first, second] = [&self.of_first, &self.of_second].map(Verdicts::refused);
        writeln!(f, "refused for the first: {first} pairs")?;
        writeln!(f, "refused for the second: {second} pairs")?;
        for mask in 1..8 {
            let (numbers, count) = (numbers(mask), self.together[mask]);
            writeln!(f, "refused for both together, {numbers:?}: {count} pairs")?;
        }
        let shapes = SHAPES.iter().zip(self.shapes);
        for (name, count) in shapes.chain(TURNED_BACK.iter().zip(self.turned_back)) {
            writeln!(f, "{name}: {count} pairs")?;
        }
        Ok(())
    }
}

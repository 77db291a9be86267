//! R-8, the joined week, in plain Rust, written to be read beside it and not to be fast.

use crate::credited::Credited;
use crate::oracle::{account, Account, Log};
use crate::records::*;
use crate::writing::written;

/// An accepted log, its sums and the actual units credited to each of its standards.
pub struct Accepted {
    pub bytes: Vec<u8>,
    pub log: Log,
    pub account: Account,
    pub credited: Vec<u64>,
}

impl Accepted {
    pub fn of(bytes: &[u8]) -> Result<Accepted, Refusal> {
        let verdict = account(bytes);
        let credited = Credited::of(bytes, &verdict)?;
        let standards = credited.log.standards.len();
        Ok(Accepted {
            bytes: bytes.to_vec(),
            credited: credited.entries()[..standards].to_vec(),
            log: credited.log,
            account: verdict?,
        })
    }
}

/// Two logs and the log that is joined of them.
pub struct Joined<'a> {
    first: &'a Accepted,
    second: &'a Accepted,
    pub log: Accepted,
}

/// The first log is tested, then the second, then both together. What is due in a buffer with room for so many bytes is not asked.
pub fn join<'a>(
    first: &'a Result<Accepted, Refusal>,
    second: &'a Result<Accepted, Refusal>,
) -> Result<Joined<'a>, Refusal> {
    let first = first.as_ref().map_err(|refusal| *refusal)?;
    let second = second.as_ref().map_err(Refusal::of_second)?;
    let headers = [first.log.header, second.log.header];
    if let Some(number) = breached(headers).first() {
        return Err(Refusal::of_log(*number));
    }
    let bytes = written(&of_both(&first.log, &second.log));
    let log = Accepted::of(&bytes)
        .unwrap_or_else(|refusal| panic!("the joined log is refused: {}", refusal.line()));
    let joined = Joined { first, second, log };
    joined.keeps_sums();
    joined.keeps_credited();
    Ok(joined)
}

/// The log that is joined of three which are accepted, where it is: joined in either grouping it is the same.
pub fn join_three([first, second, third]: [&[u8]; 3]) -> Option<Vec<u8>> {
    let both = |first: &[u8], second: &[u8]| {
        let joined = join(&Accepted::of(first), &Accepted::of(second)).ok()?.log;
        Some(joined.bytes)
    };
    let joined = both(first, second).and_then(|ahead| both(&ahead, third));
    let otherwise = both(second, third).and_then(|behind| both(first, &behind));
    assert!(joined == otherwise, "the grouping makes another log");
    joined
}

impl Refusal {
    /// As it is told of the second log.
    pub fn of_second(&self) -> Refusal {
        Refusal {
            list: self.list + SECOND,
            ..*self
        }
    }
}

/// The header of both logs together, with the first's modules.
fn header_of_both([first, second]: [Header; 2]) -> Header {
    Header {
        period: first.period + second.period,
        modules: first.modules,
        states: first.states + second.states,
        standards: first.standards + second.standards,
        units: first.units + second.units,
    }
}

/// All of 23, 2 and 4 that two accepted logs meet, in that sequence.
pub fn breached(headers: [Header; 2]) -> Vec<u64> {
    let both = header_of_both(headers);
    let over = both.states > MOST_STATES || both.standards > MOST_STANDARDS;
    let grounds = [
        (23, headers[0].modules != headers[1].modules),
        (2, both.period > LONGEST_PERIOD),
        (4, over || both.units > MOST_UNITS),
    ];
    let met = grounds.into_iter().filter(|(_, is_met)| *is_met);
    met.map(|(number, _)| number).collect()
}

/// The second's times moved up; its state records and units behind the first's; the standards of both in their rising sequence.
fn of_both(first: &Log, second: &Log) -> Log {
    let by = first.header.period;
    let states = second.states.iter().map(|it| StateRecord {
        time: it.time + by,
        ..*it
    });
    let moved = second.standards.iter().map(|it| Standard {
        start: it.start + by,
        ..*it
    });
    let units = second.units.iter().map(|it| UnitRecord {
        time: it.time + by,
        ..*it
    });
    let mut standards: Vec<Standard> = first.standards.iter().copied().chain(moved).collect();
    standards.sort_by_key(place_in_list);
    let rises = |one: &Standard, next: &Standard| place_in_list(one) < place_in_list(next);
    assert!(standards.is_sorted_by(rises), "two standards are alike");
    Log {
        header: header_of_both([first.header, second.header]),
        states: first.states.iter().copied().chain(states).collect(),
        standards,
        units: first.units.iter().copied().chain(units).collect(),
    }
}

/// What standards rise by.
fn place_in_list(standard: &Standard) -> (u64, u64, u64) {
    (standard.module, standard.recipe, standard.start)
}

impl Joined<'_> {
    /// All state times and quantities are the two logs' added, module by module, and so is the length but for one header.
    fn keeps_sums(&self) {
        let of_both = [self.first, self.second];
        let [first, second] = of_both.map(|log| &log.account.modules);
        let joined = &self.log.account.modules;
        assert_eq!(joined.len(), first.len(), "another number of modules");
        for ((sums, one), other) in joined.iter().zip(first).zip(second) {
            let times = [one.state_times, other.state_times];
            assert_eq!(sums.state_times, added(times), "state times not added");
            let quantities = [one, other].map(|it| it.quantities.array());
            let due = added(quantities);
            assert_eq!(sums.quantities.array(), due, "quantities not added");
        }
        let tools = of_both.map(|log| log.account.tool);
        let tool = &self.log.account.tool;
        let due = added(tools.map(|it| it.state_times));
        assert_eq!(tool.state_times, due, "the tool's state times not added");
        let due = added(tools.map(|it| it.quantities.array()));
        assert_eq!(
            tool.quantities.array(),
            due,
            "the tool's quantities not added"
        );
        let [first, second] = of_both.map(|log| log.bytes.len());
        assert_eq!(self.log.bytes.len(), first + second - 10, "another length");
    }

    /// Each standard, there with its start moved up where it is the second's, keeps its credited units. There is no other.
    fn keeps_credited(&self) {
        let standards = self.standards();
        let found = standards.iter().map(|it| self.index_of(it));
        let credited: Vec<u64> = found.map(|at| self.log.credited[at]).collect();
        let due = [&self.first.credited[..], &self.second.credited].concat();
        assert_eq!(credited, due, "other credited units");
        assert_eq!(self.log.log.standards.len(), due.len(), "other standards");
    }

    /// The first's standards and then the second's, as they have to be in the joined log.
    fn standards(&self) -> Vec<Standard> {
        let mut standards = self.first.log.standards.clone();
        for standard in &self.second.log.standards {
            standards.push(Standard {
                start: standard.start + self.first.log.header.period,
                ..*standard
            });
        }
        standards
    }

    /// Where a standard stands in the joined log.
    fn index_of(&self, standard: &Standard) -> usize {
        let mut standards = self.log.log.standards.iter();
        let found = standards.position(|other| other == standard);
        found.expect("each standard is kept")
    }
}

fn added<const N: usize>([one, other]: [[u64; N]; 2]) -> [u64; N] {
    std::array::from_fn(|at| one[at] + other[at])
}

/// What of two logs shows how their join is put together.
pub const SHAPES: [&str; 32] = [
    "no standards in either",
    "standards in the first alone",
    "standards in the second alone",
    "all standards of the first ahead of the second's",
    "all standards of the second ahead of the first's",
    "several standards of the second between two of the first",
    "several standards of the first between two of the second",
    "four standards or more, in turn from each",
    "units of a standard of the second ahead of one of the first of its module",
    "a standard in the first's last ms",
    "a standard at the second's time 0 that says what the first's last one says",
    "a standard at the second's time 0 that says something else",
    "openings of the second none of which changes a code",
    "openings of the second all of which change a code",
    "openings of the second some of which change a code",
    "a state record in the first's last ms",
    "a unit in the first's last ms",
    "a unit at the second's time 0",
    "units of one module and recipe in both of these",
    "a unit in the second's last ms",
    "a state record moved past 32 bits",
    "a standard moved past 32 bits",
    "a unit moved past 32 bits",
    "a first log of 1 ms",
    "a second log of 1 ms",
    "the longest period",
    "as many state records as there may be",
    "as many standards as there may be",
    "as many unit records as there may be",
    "as many records of each kind as there may be",
    "as many modules as there may be",
    "a log of several standards and units joined with itself",
];

impl Joined<'_> {
    /// Which of the `SHAPES` the two logs have.
    pub fn shapes(&self) -> [bool; SHAPES.len()] {
        let (first, second) = (&self.first.log, &self.second.log);
        let (by, header) = (first.header.period, self.log.log.header);
        let of_second = self.of_second();
        let runs: Vec<&[bool]> = of_second.chunk_by(|one, next| one == next).collect();
        let between = runs.get(1..runs.len().max(2) - 1).unwrap_or_default();
        let several = |whose: bool| between.iter().any(|run| run.len() > 1 && run[0] == whose);
        let no_longer_run = runs.iter().all(|run| run.len() == 1);

        let units = second.standards.iter().zip(&self.second.credited);
        let mut with_units = units.filter(|(_, units)| **units > 0);
        let ahead = with_units.any(|(it, _)| {
            let behind = |other: &Standard| other.module == it.module && other.recipe > it.recipe;
            first.standards.iter().any(behind)
        });
        let says_the_same = |standard: &Standard| {
            let own = |it: &&Standard| it.module == standard.module && it.recipe == standard.recipe;
            let last = first.standards.iter().rfind(own)?;
            Some(last.theoretical == standard.theoretical)
        };
        let opening = |it: &&Standard| it.start == 0;
        let said: Vec<bool> = second
            .standards
            .iter()
            .filter(opening)
            .filter_map(says_the_same)
            .collect();

        let openings = second.states.iter().take_while(|it| it.time == 0);
        let changes: Vec<bool> = openings
            .map(|opening| {
                let own = |it: &&StateRecord| it.module == opening.module;
                let last = first.states.iter().rfind(own);
                last.is_none_or(|last| last.code != opening.code)
            })
            .collect();

        let units_last = units_at(first, by - 1);
        let units_first = units_at(second, 0);
        let moved_past = |time: u64| time < 1 << 32 && time + by >= 1 << 32;
        let (some, all) = (
            |is: bool| of_second.contains(&is),
            |is: bool| changes.iter().all(|changes| *changes == is),
        );
        [
            !some(false) && !some(true),
            some(false) && !some(true),
            !some(false) && some(true),
            runs.len() == 2 && !runs[0][0],
            runs.len() == 2 && runs[0][0],
            several(true),
            several(false),
            no_longer_run && runs.len() >= 4,
            ahead,
            first.standards.iter().any(|it| it.start == by - 1),
            said.contains(&true),
            said.contains(&false),
            all(false),
            all(true),
            !all(false) && !all(true),
            first.states.iter().any(|it| it.time == by - 1),
            !units_last.is_empty(),
            !units_first.is_empty(),
            units_last.iter().any(|it| units_first.contains(it)),
            !units_at(second, second.header.period - 1).is_empty(),
            second.states.iter().any(|it| moved_past(it.time)),
            second.standards.iter().any(|it| moved_past(it.start)),
            second.units.iter().any(|it| moved_past(it.time)),
            by == 1,
            second.header.period == 1,
            header.period == LONGEST_PERIOD,
            header.states == MOST_STATES,
            header.standards == MOST_STANDARDS,
            header.units == MOST_UNITS,
            [header.states, header.standards, header.units]
                == [MOST_STATES, MOST_STANDARDS, MOST_UNITS],
            header.modules == MOST_MODULES,
            self.first.bytes == self.second.bytes
                && first.standards.len() > 1
                && first.units.len() > 1,
        ]
    }

    /// Of each standard of the joined log, whether it is the second's.
    fn of_second(&self) -> Vec<bool> {
        let mut of_second = vec![false; self.log.log.standards.len()];
        for standard in &self.standards()[self.first.log.standards.len()..] {
            of_second[self.index_of(standard)] = true;
        }
        of_second
    }
}

/// Modules and recipes of the unit records of a time.
fn units_at(log: &Log, time: u64) -> Vec<(u64, u64)> {
    let units = log.units.iter().filter(|it| it.time == time);
    units.map(|it| (it.module, it.recipe)).collect()
}

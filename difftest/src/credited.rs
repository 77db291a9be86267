//! R-7, which time was used, in plain Rust: a standard is in force from its start up to the next start of its module and recipe,
//! and is credited with the actual units made in that time.

use crate::oracle::{in_force, read, Account, Log};
use crate::records::*;
use std::collections::BTreeMap;

/// What of an accepted log shows by which revision a unit was judged. A record of no units does not.
pub const SHAPES: [&str; 10] = [
    "no standards",
    "as many standards as there may be",
    "a standard of no units between others of some",
    "a unit at a later revision's start",
    "a unit 1 ms ahead of a later revision's start",
    "three revisions of a module and recipe that all have units",
    "a recipe and start that have other units at another module",
    "several unit records of one standard",
    "units that are not effective",
    "units past 16 bits",
];

/// What of a lookup in an accepted log shows which standard is in force.
pub const LOOKUPS: [&str; 8] = [
    "one in force from that ms on",
    "one in force up to that ms",
    "one in force at the end of the period or past it",
    "one in force past the field of a time",
    "none 1 ms ahead of the first start",
    "none where another module has one",
    "none of a recipe past the field, its lower bits those of one",
    "none in a log without standards",
];

/// A standard, from its start up to where the next one of its module and recipe takes over, and the actual units credited to it.
struct Revision {
    standard: Standard,
    end: Option<u64>,
    units: u64,
}

impl Revision {
    fn of(standard: &Standard, log: &Log) -> Revision {
        let mut revision = Revision {
            standard: *standard,
            end: None,
            units: 0,
        };
        let of_both = log.standards.iter();
        let of_both = of_both.filter(|other| revision.is_for(other.module, other.recipe));
        let later = of_both.map(|other| other.start);
        revision.end = later.filter(|start| *start > standard.start).min();
        let judged = log.units.iter().filter(|unit| revision.judges(unit));
        revision.units = judged.map(|unit| unit.actual).sum();
        revision
    }

    fn is_for(&self, module: u64, recipe: u64) -> bool {
        self.standard.module == module && self.standard.recipe == recipe
    }

    fn in_force(&self, module: u64, recipe: u64, time: u64) -> bool {
        self.is_for(module, recipe)
            && self.standard.start <= time
            && self.end.is_none_or(|end| time < end)
    }

    fn judges(&self, unit: &UnitRecord) -> bool {
        self.in_force(unit.module, unit.recipe, unit.time)
    }
}

/// What a standard is looked up by.
#[derive(Clone, Copy, Debug, PartialEq, Eq)]
pub struct Lookup {
    pub module: usize,
    pub recipe: usize,
    pub time: u64,
}

/// Index and theoretical time of the standard in force, where one is.
pub type InForce = Option<[u64; 2]>;

/// The standard in force in a log that was judged before.
pub fn look_up(credited: &Result<Credited, Refusal>, lookup: &Lookup) -> Result<InForce, Refusal> {
    match credited {
        Ok(credited) => credited.look_up(lookup),
        Err(refusal) => Err(*refusal),
    }
}

/// An accepted log, and its standards with the units credited to each.
pub struct Credited {
    pub log: Log,
    revisions: Vec<Revision>,
}

impl Credited {
    pub fn of(log: &[u8], verdict: &Result<Account, Refusal>) -> Result<Credited, Refusal> {
        let tool = verdict.as_ref().map_err(|refusal| *refusal)?.tool;
        let log = read(log)?;
        let standards = log.standards.iter();
        let revisions: Vec<Revision> = standards.map(|it| Revision::of(it, &log)).collect();
        let sum = |of: fn(&Revision) -> u64| revisions.iter().map(of).sum::<u64>();
        assert_eq!(
            sum(|it| it.units),
            log.units.iter().map(|unit| unit.actual).sum(),
            "the credited units do not add up to the actual units of the log"
        );
        assert_eq!(
            sum(|it| it.units * it.standard.theoretical),
            tool.quantities.actual,
            "the credited units do not take the theoretical time for actual units"
        );
        Ok(Credited { log, revisions })
    }

    /// The units of each standard that a log may have.
    pub fn entries(&self) -> [u64; MOST_STANDARDS as usize] {
        let mut entries = [0; MOST_STANDARDS as usize];
        for (entry, revision) in entries.iter_mut().zip(&self.revisions) {
            *entry = revision.units;
        }
        entries
    }

    /// A line for each standard.
    pub fn listing(&self) -> Vec<u8> {
        let lines = self.revisions.iter().enumerate();
        let lines = lines.map(|(index, revision)| format!("{index} {}\n", revision.units));
        lines.collect::<String>().into_bytes()
    }

    fn look_up(&self, lookup: &Lookup) -> Result<InForce, Refusal> {
        let [module, recipe] = [lookup.module, lookup.recipe].map(|number| number as u64);
        if module >= self.log.header.modules {
            return Err(Refusal::new(7, NO_LIST, lookup.module));
        }
        let revisions = self.revisions.iter().enumerate();
        let mut found = revisions.filter(|(_, it)| it.in_force(module, recipe, lookup.time));
        let answer = found.next();
        assert!(found.next().is_none(), "two standards in force");
        assert_eq!(
            answer.map(|(_, revision)| revision.standard),
            in_force(&self.log.standards, module, recipe, lookup.time),
            "another standard than the one of the latest start"
        );
        Ok(answer.map(|(index, revision)| [index as u64, revision.standard.theoretical]))
    }

    /// Which of the `SHAPES` the log has.
    pub fn shapes(&self) -> [bool; SHAPES.len()] {
        let made: Vec<&UnitRecord> = self.log.units.iter().filter(|it| it.actual > 0).collect();
        // Whether a revision ends so many ms behind a unit of its module and recipe.
        let ending = |later: u64| {
            made.iter().any(|unit| {
                let ends = |it: &Revision| it.end == Some(unit.time + later);
                let own = |it: &&Revision| it.is_for(unit.module, unit.recipe);
                self.revisions.iter().filter(own).any(ends)
            })
        };
        let any = |has: &dyn Fn(&Revision) -> bool| self.revisions.iter().any(has);
        let (mut with_units, mut of_start) = (BTreeMap::new(), BTreeMap::new());
        let mut otherwise = false;
        for Revision {
            standard, units, ..
        } in &self.revisions
        {
            let own = with_units.entry((standard.module, standard.recipe));
            *own.or_insert(0) += u64::from(*units > 0);
            let first = of_start.entry((standard.recipe, standard.start));
            otherwise |= *first.or_insert(units) != units;
        }
        let with_some = |it: &Revision| it.units > 0;
        let from = self.revisions.iter().position(with_some);
        let to = self.revisions.iter().rposition(with_some);
        let between = from.zip(to).map(|(from, to)| &self.revisions[from..to]);
        [
            self.revisions.is_empty(),
            self.revisions.len() as u64 == MOST_STANDARDS,
            between.is_some_and(|revisions| !revisions.iter().all(with_some)),
            ending(0),
            ending(1),
            with_units.values().any(|revisions| *revisions >= 3),
            otherwise,
            any(&|it| made.iter().filter(|unit| it.judges(unit)).count() > 1),
            made.iter().any(|unit| unit.effective < unit.actual),
            any(&|it| it.units > 65_535),
        ]
    }

    /// Which of the `LOOKUPS` this is, where it is not refused.
    pub fn kinds(&self, lookup: &Lookup, answer: &InForce) -> [bool; LOOKUPS.len()] {
        let [module, recipe] = [lookup.module, lookup.recipe].map(|number| number as u64);
        let time = lookup.time;
        let any = |has: &dyn Fn(&Revision) -> bool| self.revisions.iter().any(has);
        let found = answer.map(|[index, _]| &self.revisions[index as usize]);
        let one = |has: &dyn Fn(&Revision) -> bool| found.is_some_and(has);
        let none = |has: bool| found.is_none() && has;
        [
            one(&|it| it.standard.start == time),
            one(&|it| it.end.is_some_and(|end| time + 1 == end)),
            one(&|_| time >= self.log.header.period),
            one(&|_| time >= 1 << 35),
            none(any(&|it| {
                it.is_for(module, recipe) && time.checked_add(1) == Some(it.standard.start)
            })),
            none(any(&|it| it.in_force(it.standard.module, recipe, time))),
            none(recipe > 1_023 && any(&|it| it.in_force(module, recipe % 1_024, time))),
            none(self.revisions.is_empty()),
        ]
    }
}

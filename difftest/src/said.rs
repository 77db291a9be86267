//! What a log says, whichever records it says it with: each module's code and each time in force at any ms, and the units.

use crate::oracle::Log;
use crate::records::*;
use std::collections::{BTreeMap, BTreeSet};

/// Values by the ms from which on they hold.
type Course = BTreeMap<u64, u64>;

/// A module and a recipe.
type Pair = (u64, u64);

#[derive(Debug, PartialEq, Eq)]
pub struct Said {
    period: u64,
    modules: u64,
    codes: BTreeMap<u64, Course>,
    times: BTreeMap<Pair, Course>,
    units: Vec<UnitRecord>,
}

impl Said {
    /// Of an accepted log.
    pub fn by(log: &Log) -> Said {
        let mut codes: BTreeMap<u64, Course> = BTreeMap::new();
        for it in &log.states {
            codes.entry(it.module).or_default().insert(it.time, it.code);
        }
        let mut times: BTreeMap<Pair, Course> = BTreeMap::new();
        for it in &log.standards {
            let own = times.entry((it.module, it.recipe)).or_default();
            own.insert(it.start, it.theoretical);
        }
        Said {
            period: log.header.period,
            modules: log.header.modules,
            codes,
            times,
            units: log.units.clone(),
        }
    }

    /// As many state records and standards as it takes to say it: one for each change, and one ahead of the first.
    pub fn fewest(&self) -> [u64; 2] {
        [
            self.codes.values().map(changes).sum(),
            self.times.values().map(changes).sum(),
        ]
    }

    /// The first thing that another log says otherwise. Between the records of both nothing changes, so each of their times is asked for, and the ms ahead of it.
    pub fn first_difference(&self, other: &Said) -> Option<String> {
        let tools = [self, other].map(|it| (it.period, it.modules));
        if tools[0] != tools[1] {
            return Some(format!("period and modules {:?}", tools[1]));
        }
        let of_codes = differing(&self.codes, &other.codes);
        let of_times = differing(&self.times, &other.times);
        let codes = of_codes.map(|(module, time)| format!("module {module}'s code at {time}"));
        let times = of_times.map(|((module, recipe), time)| {
            format!("the time in force of module {module} and recipe {recipe} at {time}")
        });
        let units = (self.units != other.units).then(|| String::from("the units"));
        codes.or(times).or(units)
    }
}

/// Values one behind the other that differ, the first one counted.
fn changes(course: &Course) -> u64 {
    let values: Vec<&u64> = course.values().collect();
    values.chunk_by(|one, next| one == next).count() as u64
}

/// What holds at a time.
fn value_at(course: Option<&Course>, time: u64) -> Option<u64> {
    let (_, value) = course?.range(..=time).next_back()?;
    Some(*value)
}

/// Of whom and when two logs first say something else.
fn differing<K: Copy + Ord>(
    one: &BTreeMap<K, Course>,
    other: &BTreeMap<K, Course>,
) -> Option<(K, u64)> {
    let whose: BTreeSet<K> = one.keys().chain(other.keys()).copied().collect();
    whose.into_iter().find_map(|whose| {
        let courses = [one.get(&whose), other.get(&whose)];
        let changes = courses.into_iter().flatten().flat_map(Course::keys);
        let asked: BTreeSet<u64> = changes
            .flat_map(|&time| [time.saturating_sub(1), time])
            .collect();
        let differ = |&time: &u64| value_at(courses[0], time) != value_at(courses[1], time);
        asked.into_iter().find(differ).map(|time| (whose, time))
    })
}

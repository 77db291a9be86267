//! All logs of a few ms, codes and times: those that say the same are packed to the same bytes, and none of them has fewer records.
//!
//! No other log says the same. A record says its value in its own ms, so all codes and times of such a log are among those that are said; and of a set of
//! records the rising sequence makes one log.

use crate::answer::leaves;
use crate::draft::Draft;
use crate::oracle::{account, read};
use crate::packed_comparison::Call;
use crate::records::{Standard, StateRecord};
use std::collections::BTreeMap;

/// Which logs: a state record or a standard of each of these values, or none, at each ms.
#[derive(Clone, Copy, Debug)]
pub struct Space {
    pub period: u64,
    pub modules: u64,
    /// None for openings alone, in code 0.
    pub codes: &'static [u64],
    /// Modules and recipes.
    pub pairs: &'static [(u64, u64)],
    pub times: &'static [u64],
    /// With each set of unit records of one good unit of the first pair too.
    pub units: bool,
}

/// What is tried in each run.
pub const SMALL: [Space; 4] = [
    Space {
        period: 3,
        modules: 2,
        codes: &[0, 1, 7],
        pairs: &[],
        times: &[],
        units: false,
    },
    Space {
        period: 3,
        modules: 1,
        codes: &[],
        pairs: &[(0, 0), (0, 1)],
        times: &[1, 2],
        units: false,
    },
    Space {
        period: 3,
        modules: 2,
        codes: &[],
        pairs: &[(0, 0), (1, 0)],
        times: &[1, 2],
        units: false,
    },
    Space {
        period: 3,
        modules: 1,
        codes: &[0, 7],
        pairs: &[(0, 0)],
        times: &[1, 2],
        units: true,
    },
];

/// What was tried.
#[derive(Debug, Default)]
pub struct Tried {
    /// Accepted logs, and how many things they say.
    pub logs: u64,
    pub said: u64,
    pub differences: Vec<String>,
}

/// The logs that say one thing: records of the fewest, and what the first was packed to.
struct Alike {
    fewest: u64,
    packed: Vec<u8>,
}

/// Packs each accepted log of these.
pub fn search(spaces: &[Space], call: Call) -> Tried {
    let mut tried = Tried::default();
    for space in spaces {
        tried.space(space, call);
    }
    tried
}

impl Tried {
    fn space(&mut self, space: &Space, call: Call) {
        let mut said = BTreeMap::new();
        for draft in space.drafts() {
            let log = draft.bytes();
            if account(&log).is_ok() {
                self.logs += 1;
                self.log(space, &draft, log, &mut said, call);
            }
        }
        self.said += said.len() as u64;
        for (what, alike) in said {
            let packed = records(&alike.packed);
            if packed != Some(alike.fewest) {
                let fewest = alike.fewest;
                self.differences.push(format!(
                    "{space:?}: {what:?} in {fewest} records, packed to {packed:?}"
                ));
            }
        }
    }

    fn log(
        &mut self,
        space: &Space,
        draft: &Draft,
        log: Vec<u8>,
        said: &mut BTreeMap<Vec<u64>, Alike>,
        call: Call,
    ) {
        let what = space.says(draft);
        let buffer = left_by(call, &log).unwrap_or_default();
        let left = account(&buffer).and_then(|_| read(&buffer)).ok();
        let left = left.filter(|it| it.header.period == draft.period);
        let left = left.filter(|it| it.header.modules == draft.modules);
        let says = left.map(|left| space.says(&Draft::of(left)));
        if says.as_ref() != Some(&what) {
            self.differences.push(format!(
                "{space:?}: {log:?} says {what:?} and is packed to {buffer:?}, which says {says:?}"
            ));
        }
        let records = draft.counts().iter().sum();
        let alike = said.entry(what).or_insert(Alike {
            fewest: records,
            packed: buffer.clone(),
        });
        alike.fewest = alike.fewest.min(records);
        if alike.packed != buffer {
            let other = &alike.packed;
            self.differences.push(format!(
                "{space:?}: {log:?} is packed to {buffer:?}, and another that says the same to {other:?}"
            ));
        }
    }
}

/// What a call leaves of a log up to the length that it answers. On both sides there is room for what a wrong one writes there: that is compared elsewhere.
fn left_by(call: Call, log: &[u8]) -> Option<Vec<u8>> {
    let mut left = Vec::new();
    let (answer, _) = leaves(log, log, 0, |lent| {
        let answer = call(lent);
        left = lent.to_vec();
        answer
    });
    left.truncate(answer.values[0] as usize);
    (answer.answered == 1).then_some(left)
}

/// The records of an accepted log.
fn records(log: &[u8]) -> Option<u64> {
    let header = read(log).ok()?.header;
    Some(header.states + header.standards + header.units)
}

/// Of each ms the value that is said in it, if any.
type Course = Vec<Option<u64>>;

impl Space {
    fn drafts(&self) -> Vec<Draft> {
        let empty = Draft {
            period: self.period,
            modules: self.modules,
            ..Draft::default()
        };
        let mut drafts = vec![empty];
        for module in 0..self.modules {
            let courses = self.courses_of_codes();
            drafts = each(&drafts, &courses, |draft, time, code| {
                draft.state(module, code, time)
            });
        }
        for &(module, recipe) in self.pairs {
            let courses = courses(self.period, self.times);
            drafts = each(&drafts, &courses, |draft, start, time| {
                draft.standard(module, recipe, start, time)
            });
        }
        if self.units {
            let (module, recipe) = self.pairs[0];
            let courses = courses(self.period, &[1]);
            drafts = each(&drafts, &courses, |draft, time, made| {
                draft.unit(module, recipe, time, made, made)
            });
        }
        drafts
    }

    /// Those that open.
    fn courses_of_codes(&self) -> Vec<Course> {
        if self.codes.is_empty() {
            return vec![vec![Some(0)]];
        }
        let mut courses = courses(self.period, self.codes);
        courses.retain(|course| course[0].is_some());
        courses
    }

    /// What a log says, ms by ms: each module's code, each time in force, 0 where there is none, and the units.
    fn says(&self, draft: &Draft) -> Vec<u64> {
        let mut says = Vec::new();
        for time in 0..self.period {
            for module in 0..self.modules {
                let own = |it: &&_| is_of_module(it, module, time);
                let latest = draft.states.iter().filter(own).max_by_key(|it| it.time);
                says.push(latest.expect("an opening").code);
            }
            for &pair in self.pairs {
                let own = |it: &&_| is_of_pair(it, pair, time);
                let latest = draft.standards.iter().filter(own).max_by_key(|it| it.start);
                says.push(latest.map_or(0, |it| it.theoretical));
            }
        }
        for unit in &draft.units {
            says.extend([
                unit.time,
                unit.module,
                unit.recipe,
                unit.actual,
                unit.effective,
            ]);
        }
        says
    }
}

fn is_of_module(record: &StateRecord, module: u64, time: u64) -> bool {
    record.module == module && record.time <= time
}

fn is_of_pair(standard: &Standard, pair: (u64, u64), time: u64) -> bool {
    (standard.module, standard.recipe) == pair && standard.start <= time
}

/// All of these values.
fn courses(period: u64, values: &[u64]) -> Vec<Course> {
    let mut courses = vec![Vec::new()];
    for _ in 0..period {
        courses = courses
            .iter()
            .flat_map(|course: &Course| {
                let said = values.iter().copied().map(Some);
                let next = [None].into_iter().chain(said);
                next.map(|value| [&course[..], &[value]].concat())
            })
            .collect();
    }
    courses
}

/// Each draft with the records of each course.
fn each(drafts: &[Draft], courses: &[Course], add: impl Fn(&mut Draft, u64, u64)) -> Vec<Draft> {
    let with = |draft: &Draft, course: &Course| {
        let mut draft = draft.clone();
        for (time, value) in (0..).zip(course) {
            if let Some(value) = value {
                add(&mut draft, time, *value);
            }
        }
        draft.sort();
        draft
    };
    drafts
        .iter()
        .flat_map(|draft| courses.iter().map(move |course| with(draft, course)))
        .collect()
}

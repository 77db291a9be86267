//! Counts what the packed logs of a run met, so that a kind of repeat or a refusal that a generator misses shows.

use crate::oracle::{read, state_of, Log};
use crate::packed::Packed;
use crate::records::*;
use crate::tally::{missed, Verdicts, OF_LOGS};
use std::collections::BTreeMap;

/// What of a log's state records shows what each is compared with.
pub const OF_STATES: [&str; 28] = [
    "a state record dropped next to its module's record before",
    "a state record dropped behind another module's of another code",
    "a state record kept behind another module's of its code",
    "a first record kept behind another module's of its code",
    "a change within one of the six states",
    "a change and back",
    "two changes 1 ms apart",
    "a code repeated 1 ms later",
    "a change 1 ms behind a repeat",
    "a change behind a repeat",
    "several repeats one behind the other",
    "the code ahead of the last change repeated behind a repeat",
    "ten repeats, one every minute",
    "a repeat at 1 ms",
    "a repeat in the period's last ms",
    "a repeat past 32 bits",
    "repeats of two modules at one time",
    "a repeat and a change at one time",
    "a repeat of module 63",
    "code 0 repeated",
    "code 23 repeated",
    "codes one behind the other that differ in one bit",
    "the list's last state record dropped",
    "the list's last state record kept behind a repeat",
    "openings alone kept of several records each",
    "several records of each module, none dropped",
    "a module's records all kept, and another's all dropped but its opening",
    "a module of its opening alone, and another's records dropped",
];

/// What of its standards does.
pub const OF_STANDARDS: [&str; 23] = [
    "a standard dropped",
    "a time repeated twice",
    "a time, another one and the first again",
    "another time behind a repeat",
    "a standard kept behind another recipe's of its time",
    "a standard kept behind another module's of its recipe and time",
    "a standard kept behind another module's of another recipe and its time",
    "a standard kept behind a recipe's 256 or 512 below it, of its time",
    "times one behind the other that differ in one bit",
    "a time repeated 1 ms later",
    "another time 1 ms later",
    "a standard dropped that starts in the last ms",
    "a standard dropped that starts past 32 bits",
    "two standards dropped of one start",
    "a unit at the start of a dropped standard",
    "a unit in the ms ahead of a dropped standard's start",
    "a unit behind the start of a dropped standard",
    "a time of 2^27 - 1 repeated",
    "a time of 1 ms repeated",
    "the list's last standard dropped",
    "the list's last standard kept behind a repeat",
    "one standard each kept of several",
    "several standards each, none dropped",
];

/// What of its lists does.
pub const OF_LISTS: [&str; 19] = [
    "state records alone dropped, ahead of standards and units",
    "standards alone dropped, ahead of units",
    "both dropped, ahead of units",
    "openings and one standard each kept of several records each",
    "nothing dropped",
    "no standards",
    "units moved by less than one of them has bytes",
    "units moved by more bytes than all of them have",
    "units of no record dropped",
    "6,000 state records, openings alone kept",
    "6,000 state records, some dropped",
    "6,000 state records, none dropped",
    "512 standards, one each kept",
    "512 standards, some dropped",
    "512 standards, none dropped",
    "as many records of each kind as there may be, some dropped",
    "as many modules as there may be, with repeats",
    "a period of 1 ms",
    "the longest period, with repeats",
];

/// What of a refused log shows that it is tested ahead of packing.
pub const TURNED_BACK: [&str; 3] = [
    "a spare bit in a state record that repeats its module's code",
    "a spare bit in a standard that repeats its recipe's time",
    "the last unit record at fault behind records that repeat",
];

#[derive(Default)]
pub struct Packings {
    packed: u64,
    shortened: u64,
    of_states: [u64; OF_STATES.len()],
    of_standards: [u64; OF_STANDARDS.len()],
    of_lists: [u64; OF_LISTS.len()],
    /// Logs that are refused and in which records repeat.
    repeating: Verdicts,
    turned_back: [u64; TURNED_BACK.len()],
    refused: u64,
    /// Buffers refused with 5 that are longer than their log, and shorter; packed logs that were tried as any other; and logs that say what another one says.
    pub longer: u64,
    pub shorter: u64,
    pub tried: u64,
    pub alike: u64,
}

fn add<const N: usize>(counts: &mut [u64; N], has: [bool; N]) {
    for (count, has) in counts.iter_mut().zip(has) {
        *count += u64::from(has);
    }
}

impl Packings {
    /// A log and what it is packed to, and whether its records repeat where it is refused, which the generator knows.
    pub fn count(&mut self, log: &[u8], packed: &Result<Packed, Refusal>, repeats: bool) {
        if repeats {
            self.repeating.count(packed);
        }
        match packed {
            Ok(packed) => {
                self.packed += 1;
                self.shortened += u64::from(packed.dropped() != [0, 0]);
                add(&mut self.of_states, packed.of_states());
                add(&mut self.of_standards, packed.of_standards());
                add(&mut self.of_lists, packed.of_lists());
            }
            Err(refusal) => {
                self.refused += 1;
                if let Ok(log) = read(log) {
                    add(&mut self.turned_back, turned_back(&log, refusal));
                }
            }
        }
    }

    pub fn logs(&self) -> u64 {
        self.packed + self.refused
    }

    /// What no log met.
    pub fn never_met(&self) -> Vec<String> {
        let repeating = self.repeating.never_met(&OF_LOGS).into_iter();
        missed(&OF_STATES, &self.of_states)
            .into_iter()
            .chain(missed(&OF_STANDARDS, &self.of_standards))
            .chain(missed(&OF_LISTS, &self.of_lists))
            .chain(missed(&TURNED_BACK, &self.turned_back))
            .chain(repeating.map(|it| format!("{it} with records that repeat")))
            .collect()
    }

    /// The same, and what comes with a call.
    pub fn never_met_with_buffers(&self) -> Vec<String> {
        let counted = [self.longer, self.shorter, self.tried, self.alike];
        [self.never_met(), missed(&WITH_BUFFERS, &counted)].concat()
    }

    /// Which answers were never due.
    pub fn never_answered(&self) -> Vec<String> {
        let names = ["a shorter log", "a log as it was", "a refusal"];
        let as_it_was = self.packed - self.shortened;
        missed(&names, &[self.shortened, as_it_was, self.refused])
    }

    /// What comes with a call.
    pub fn with_buffers(&self) -> String {
        let counted = [self.longer, self.shorter, self.tried, self.alike];
        let lines = WITH_BUFFERS.iter().zip(counted);
        let lines = lines.map(|(name, count)| format!("{name}: {count}\n"));
        lines.collect()
    }
}

const WITH_BUFFERS: [&str; 4] = [
    "buffers longer than a log, refused 5 list 0",
    "buffers shorter than a log, refused 5 list 0",
    "packed logs tried as any other",
    "logs that say what another one says, packed to its bytes",
];

impl std::fmt::Display for Packings {
    fn fmt(&self, f: &mut std::fmt::Formatter) -> std::fmt::Result {
        let (logs, shortened) = (self.logs(), self.shortened);
        writeln!(f, "{logs} logs to pack, {shortened} of them shortened")?;
        let refused = self.repeating.refused();
        writeln!(f, "refused with records that repeat: {refused} logs")?;
        let states = OF_STATES.iter().zip(self.of_states);
        let standards = OF_STANDARDS.iter().zip(self.of_standards);
        let lists = OF_LISTS.iter().zip(self.of_lists);
        let turned_back = TURNED_BACK.iter().zip(self.turned_back);
        for (name, count) in states.chain(standards).chain(lists).chain(turned_back) {
            writeln!(f, "{name}: {count} logs")?;
        }
        Ok(())
    }
}

// ---------------------------------------------------------------- what a log has

/// Of each record of a list the place of the one before of its own kind.
fn places_before<T, K: Ord>(list: &[T], own: impl Fn(&T) -> K) -> Vec<Option<usize>> {
    let mut last = BTreeMap::new();
    let places = list.iter().enumerate();
    places
        .map(|(place, record)| last.insert(own(record), place))
        .collect()
}

/// A list whose records hold values: a module's codes, or the times of a module and a recipe.
struct Courses<'a> {
    /// When it is said, and what.
    said: Vec<(u64, u64)>,
    before: Vec<Option<usize>>,
    stay: &'a [bool],
    period: u64,
}

impl Courses<'_> {
    fn any(&self, is: impl Fn(usize) -> bool) -> bool {
        (0..self.said.len()).any(is)
    }

    fn all(&self, is: impl Fn(usize) -> bool) -> bool {
        (0..self.said.len()).all(is)
    }

    fn time(&self, place: usize) -> u64 {
        self.said[place].0
    }

    fn value(&self, place: usize) -> u64 {
        self.said[place].1
    }

    fn repeats(&self, place: usize) -> bool {
        !self.stay[place]
    }

    /// Another value than the one before.
    fn changes(&self, place: usize) -> bool {
        self.stay[place] && self.before[place].is_some()
    }

    /// The one before is so.
    fn behind(&self, place: usize, is: impl Fn(usize) -> bool) -> bool {
        self.before[place].is_some_and(is)
    }

    fn a_ms_later(&self, place: usize) -> bool {
        self.behind(place, |before| self.time(before) + 1 == self.time(place))
    }

    /// The value ahead of the one before, though both are said.
    fn and_back(&self, place: usize) -> bool {
        let ahead = |before: usize| {
            self.behind(before, |ahead| self.value(ahead) == self.value(place))
                && self.changes(before)
        };
        self.changes(place) && self.behind(place, ahead)
    }

    fn by_one_bit(&self, place: usize) -> bool {
        let bits = |before: usize| (self.value(before) ^ self.value(place)).is_power_of_two();
        self.behind(place, bits)
    }

    fn in_last_ms(&self, place: usize) -> bool {
        self.time(place) + 1 == self.period
    }

    fn last_is(&self, is: impl Fn(usize) -> bool) -> bool {
        self.said.len().checked_sub(1).is_some_and(is)
    }

    /// First ones alone stay, and there are others.
    fn first_alone_stay(&self) -> bool {
        self.any(|at| self.repeats(at)) && !self.any(|at| self.changes(at))
    }

    /// All of several each stay.
    fn all_stay(&self) -> bool {
        let last_of_several =
            |at: usize| self.before[at].is_some() || self.before.contains(&Some(at));
        self.all(|at| self.stay[at]) && self.all(last_of_several) && !self.said.is_empty()
    }

    /// A repeat every minute, ten of them one behind the other.
    fn every_minute(&self) -> bool {
        let mut minutes = vec![0; self.said.len()];
        for place in 0..minutes.len() {
            if let (Some(before), true) = (self.before[place], self.repeats(place)) {
                if self.time(before) + 60_000 == self.time(place) {
                    minutes[place] = minutes[before] + 1;
                }
            }
        }
        minutes.contains(&10)
    }
}

impl Packed {
    fn courses_of_states(&self) -> Courses<'_> {
        let states = &self.from.states;
        Courses {
            said: states.iter().map(|it| (it.time, it.code)).collect(),
            before: places_before(states, |it| it.module),
            stay: &self.stay.states,
            period: self.from.header.period,
        }
    }

    fn courses_of_standards(&self) -> Courses<'_> {
        let standards = &self.from.standards;
        Courses {
            said: standards
                .iter()
                .map(|it| (it.start, it.theoretical))
                .collect(),
            before: places_before(standards, |it| (it.module, it.recipe)),
            stay: &self.stay.standards,
            period: self.from.header.period,
        }
    }

    /// Which of `OF_STATES` the log has.
    pub fn of_states(&self) -> [bool; OF_STATES.len()] {
        let (list, it) = (&self.from.states, self.courses_of_states());
        let neighbour = |at: usize| at.checked_sub(1).map(|ahead| list[ahead]);
        let other_module =
            |at: usize| neighbour(at).filter(|ahead| ahead.module != list[at].module);
        let like_other =
            |at: usize| other_module(at).is_some_and(|ahead| ahead.code == list[at].code);
        let unlike_other =
            |at: usize| other_module(at).is_some_and(|ahead| ahead.code != list[at].code);
        let within_one = |at: usize| {
            it.behind(at, |before| {
                state_of(it.value(before)) == state_of(it.value(at))
            })
        };
        let with_neighbour =
            |at: usize| neighbour(at).is_some_and(|ahead| ahead.time == list[at].time);
        let repeats = |at: usize| it.repeats(at);
        let modules = self.of_modules();
        let of_a_module = |is: fn(&[u64; 2]) -> bool| modules.iter().any(is);
        let all_kept = of_a_module(|[dropped, kept]| *dropped == 0 && *kept > 1);
        let opening_kept = of_a_module(|[dropped, kept]| *dropped > 0 && *kept == 1);
        let opening_alone = modules.contains(&[0, 1]);
        let dropped = of_a_module(|[dropped, _]| *dropped > 0);
        [
            it.any(|at| it.repeats(at) && it.behind(at, |before| before + 1 == at)),
            it.any(|at| it.repeats(at) && unlike_other(at)),
            it.any(|at| it.changes(at) && like_other(at)),
            it.any(|at| it.before[at].is_none() && like_other(at)),
            it.any(|at| it.changes(at) && within_one(at)),
            it.any(|at| it.and_back(at)),
            it.any(|at| {
                it.changes(at) && it.a_ms_later(at) && it.behind(at, |one| it.changes(one))
            }),
            it.any(|at| it.repeats(at) && it.a_ms_later(at)),
            it.any(|at| it.changes(at) && it.a_ms_later(at) && it.behind(at, repeats)),
            it.any(|at| it.changes(at) && it.behind(at, repeats)),
            it.any(|at| it.repeats(at) && it.behind(at, repeats)),
            it.any(|at| it.repeats(at) && it.behind(at, |one| it.and_back(one))),
            it.every_minute(),
            it.any(|at| it.repeats(at) && it.time(at) == 1),
            it.any(|at| it.repeats(at) && it.in_last_ms(at)),
            it.any(|at| it.repeats(at) && it.time(at) >= 1 << 32),
            it.any(|at| it.repeats(at) && with_neighbour(at) && it.repeats(at - 1)),
            it.any(|at| with_neighbour(at) && it.changes(at) && it.repeats(at - 1)),
            it.any(|at| it.repeats(at) && list[at].module == MOST_MODULES - 1),
            it.any(|at| it.repeats(at) && it.value(at) == 0),
            it.any(|at| it.repeats(at) && it.value(at) == 23),
            it.any(|at| it.by_one_bit(at)),
            it.last_is(repeats),
            it.last_is(|at| it.changes(at) && it.behind(at, repeats)),
            it.first_alone_stay(),
            it.all_stay(),
            all_kept && opening_kept,
            opening_alone && dropped,
        ]
    }

    /// Of each module, how many state records are dropped and how many kept.
    fn of_modules(&self) -> Vec<[u64; 2]> {
        let mut records = vec![[0; 2]; self.from.header.modules as usize];
        for (record, stays) in self.from.states.iter().zip(&self.stay.states) {
            records[record.module as usize][usize::from(*stays)] += 1;
        }
        records
    }

    /// Which of `OF_STANDARDS` the log has.
    pub fn of_standards(&self) -> [bool; OF_STANDARDS.len()] {
        let (list, it) = (&self.from.standards, self.courses_of_standards());
        let ahead = |at: usize| at.checked_sub(1).map(|ahead| list[ahead]);
        let of_time =
            |at: usize| ahead(at).filter(|ahead| ahead.theoretical == list[at].theoretical);
        let same_module = |at: usize, other: &Standard| other.module == list[at].module;
        let same_recipe = |at: usize, other: &Standard| other.recipe == list[at].recipe;
        let first_behind = |at: usize, is: &dyn Fn(&Standard) -> bool| {
            it.before[at].is_none() && of_time(at).is_some_and(|ahead| is(&ahead))
        };
        let repeats = |at: usize| it.repeats(at);
        let mut starts: Vec<u64> = (0..list.len())
            .filter(|at| repeats(*at))
            .map(|at| it.time(at))
            .collect();
        starts.sort();
        let unit = |at: usize, is: &dyn Fn(u64) -> bool| {
            let own = |unit: &&UnitRecord| {
                (unit.module, unit.recipe) == (list[at].module, list[at].recipe)
            };
            let mut own = self.from.units.iter().filter(own);
            it.repeats(at) && own.any(|unit| unit.actual > 0 && is(unit.time))
        };
        [
            it.any(repeats),
            it.any(|at| it.repeats(at) && it.behind(at, repeats)),
            it.any(|at| it.and_back(at)),
            it.any(|at| it.changes(at) && it.behind(at, repeats)),
            it.any(|at| first_behind(at, &|other| same_module(at, other))),
            it.any(|at| first_behind(at, &|other| same_recipe(at, other))),
            it.any(|at| {
                first_behind(at, &|other| {
                    !same_module(at, other) && !same_recipe(at, other)
                })
            }),
            it.any(|at| {
                first_behind(at, &|other| {
                    same_module(at, other) && (list[at].recipe - other.recipe) % 256 == 0
                })
            }),
            it.any(|at| it.by_one_bit(at)),
            it.any(|at| it.repeats(at) && it.a_ms_later(at)),
            it.any(|at| it.changes(at) && it.a_ms_later(at)),
            it.any(|at| it.repeats(at) && it.in_last_ms(at)),
            it.any(|at| it.repeats(at) && it.time(at) >= 1 << 32),
            starts.windows(2).any(|two| two[0] == two[1]),
            it.any(|at| unit(at, &|time| time == it.time(at))),
            it.any(|at| unit(at, &|time| time + 1 == it.time(at))),
            it.any(|at| unit(at, &|time| time > it.time(at))),
            it.any(|at| it.repeats(at) && it.value(at) == (1 << 27) - 1),
            it.any(|at| it.repeats(at) && it.value(at) == 1),
            it.last_is(repeats),
            it.last_is(|at| it.changes(at) && it.behind(at, repeats)),
            it.first_alone_stay(),
            it.all_stay(),
        ]
    }

    /// Which of `OF_LISTS` the log has.
    pub fn of_lists(&self) -> [bool; OF_LISTS.len()] {
        let header = self.from.header;
        let [states, standards] = self.dropped();
        let [some_states, some_standards] = [states > 0, standards > 0];
        let moved = STATE_BYTES * states + STANDARD_BYTES * standards;
        let with_units = header.units > 0;
        let full = [
            header.states == MOST_STATES,
            header.standards == MOST_STANDARDS,
        ];
        let openings_alone = states + header.modules == MOST_STATES;
        let openings = self.courses_of_states().first_alone_stay();
        let one_each = self.courses_of_standards().first_alone_stay();
        let some = some_states || some_standards;
        [
            some_states && !some_standards && header.standards > 0 && with_units,
            !some_states && some_standards && with_units,
            some_states && some_standards && with_units,
            openings && one_each,
            !some,
            header.standards == 0,
            some && moved < UNIT_BYTES && with_units,
            moved > header.units * UNIT_BYTES && with_units,
            !some && with_units,
            full[0] && openings_alone,
            full[0] && some_states && !openings_alone,
            full[0] && !some_states,
            full[1] && one_each,
            full[1] && some_standards && !one_each,
            full[1] && !some_standards,
            full == [true, true] && header.units == MOST_UNITS && some_states && some_standards,
            header.modules == MOST_MODULES && some,
            header.period == 1,
            header.period == LONGEST_PERIOD && some,
        ]
    }
}

/// Which of `TURNED_BACK` a log is whose header passed.
fn turned_back(log: &Log, refusal: &Refusal) -> [bool; TURNED_BACK.len()] {
    let place = refusal.place as usize;
    let of = |number: u64, list: u64| (refusal.number, refusal.list) == (number, list);
    let state = |at: usize| {
        let record = log.states[at];
        let before = log.states[..at]
            .iter()
            .rfind(|it| it.module == record.module);
        before.is_some_and(|before| before.code == record.code)
    };
    let standard = |at: usize| {
        let it = log.standards[at];
        let said = |it: &Standard| (it.module, it.recipe, it.theoretical);
        at > 0 && said(&log.standards[at - 1]) == said(&it)
    };
    let last_unit = refusal.list == UNITS && place + 1 == log.units.len();
    [
        of(6, STATES) && state(place),
        of(6, STANDARDS) && standard(place),
        last_unit && (0..log.states.len()).any(state),
    ]
}

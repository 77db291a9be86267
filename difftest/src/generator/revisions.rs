//! Valid logs of revisions: several starts of each module and recipe, with units at each, up to the next, or without any.

use super::faults::edge_or_between;
use super::valid::{effective, period, production_times};
use super::valid::{LAST_RECIPE, LONGEST_THEORETICAL, MOST_OF_A_RECORD};
use crate::draft::Draft;
use crate::prng::Prng;
use crate::records::*;
use std::collections::BTreeSet;

pub fn draft(rng: &mut Prng) -> Draft {
    let sizes = Sizes::any(rng);
    let mut draft = Draft {
        period: sizes.period,
        modules: sizes.modules,
        ..Draft::default()
    };
    for module in 0..sizes.modules {
        draft.state(module, rng.below(6), 0);
        if rng.once_in(4) && sizes.period > 1 {
            let time = rng.between(1, sizes.period - 1);
            draft.state(module, rng.below(24), time);
        }
    }
    // Starts that several modules and recipes have.
    let shared: Vec<u64> = (0..4).map(|_| rng.below(sizes.period)).collect();
    let mut recipes = BTreeSet::new();
    while (recipes.len() as u64) < sizes.recipes {
        recipes.insert(rng.below(LAST_RECIPE + 1));
    }
    for module in 0..sizes.modules {
        let (mut standards, mut times) = (Vec::new(), BTreeSet::new());
        for &recipe in &recipes {
            let starts = starts(rng, &sizes, &shared);
            for (place, &start) in starts.iter().enumerate() {
                standards.push((recipe, start));
                let end = *starts.get(place + 1).unwrap_or(&sizes.period);
                let made = unit_times(rng, &sizes.units, place, start, end).into_iter();
                times.extend(made.map(|time| (time, recipe)));
            }
        }
        let production = production_times(&draft)[module as usize];
        let most = (production / (times.len() as u64).max(1)).min(MOST_OF_A_RECORD);
        let mut made = 0;
        for (time, recipe) in times {
            let actual = sizes.actual(rng, most);
            made += actual;
            draft.unit(module, recipe, time, actual, effective(rng, actual));
        }
        let longest = (production / made.max(1)).min(LONGEST_THEORETICAL);
        for (recipe, start) in standards {
            let theoretical = edge_or_between(rng, 1, longest);
            draft.standard(module, recipe, start, theoretical);
        }
    }
    draft.sort();
    draft
}

struct Sizes {
    period: u64,
    modules: u64,
    /// Of each module.
    recipes: u64,
    /// Of each module and recipe; fewer where the period has no room for them.
    revisions: u64,
    units: Units,
}

/// Which revisions have unit records.
enum Units {
    /// Most, or each, so many at most.
    Most(u64),
    Each(u64),
    /// The one in this place all that there may be, each of as many units as there may be.
    One(usize),
}

impl Sizes {
    fn any(rng: &mut Prng) -> Sizes {
        match rng.below(24) {
            0 => Sizes::full(rng),
            1 => Sizes::heaped(rng),
            _ => Sizes {
                period: period(rng),
                modules: rng.between(1, 4),
                recipes: rng.between(1, 3),
                revisions: rng.between(1, 6),
                units: Units::Most(rng.between(1, 4)),
            },
        }
    }

    /// As many standards as there may be.
    fn full(rng: &mut Prng) -> Sizes {
        let (modules, recipes) = rng.pick(&[(1, 1), (1, 32), (4, 2), (64, 1), (64, 8)]);
        let of_each = MOST_UNITS / MOST_STANDARDS;
        Sizes {
            period: LONGEST_PERIOD,
            modules,
            recipes,
            revisions: MOST_STANDARDS / (modules * recipes),
            units: if rng.once_in(2) {
                Units::Most(of_each)
            } else {
                Units::Each(of_each)
            },
        }
    }

    /// One standard that is credited with as many units as a log may have.
    fn heaped(rng: &mut Prng) -> Sizes {
        let revisions = rng.between(1, 3);
        Sizes {
            period: LONGEST_PERIOD,
            modules: 1,
            recipes: 1,
            revisions,
            units: Units::One(rng.index(revisions as usize)),
        }
    }

    /// Of one record.
    fn actual(&self, rng: &mut Prng, most: u64) -> u64 {
        match (rng.below(6), &self.units) {
            _ if most == 0 => 0,
            (0, Units::Most(_)) => 0,
            (1, _) | (_, Units::One(_)) => most,
            _ => rng.spread(most),
        }
    }
}

/// At 0, where others have one, 1 ms behind another, or anywhere.
fn starts(rng: &mut Prng, sizes: &Sizes, shared: &[u64]) -> Vec<u64> {
    let mut starts = BTreeSet::new();
    let mut last = 0;
    for _ in 0..4 * sizes.revisions {
        if starts.len() as u64 == sizes.revisions {
            break;
        }
        last = match rng.below(4) {
            0 => rng.pick(shared),
            1 if !starts.is_empty() => (last + 1).min(sizes.period - 1),
            2 if starts.is_empty() => 0,
            _ => rng.below(sizes.period),
        };
        starts.insert(last);
    }
    starts.into_iter().collect()
}

/// From the start of the revision in this place up to its end: at the start, beside it, 1 ms ahead of the end, or anywhere.
fn unit_times(rng: &mut Prng, units: &Units, place: usize, start: u64, end: u64) -> BTreeSet<u64> {
    let most = match units {
        Units::One(one) if *one == place => {
            let anywhere = |_| rng.between(start, end - 1);
            return (0..MOST_UNITS).map(anywhere).collect();
        }
        Units::One(_) => 0,
        Units::Most(_) if rng.once_in(4) => 0,
        Units::Most(most) | Units::Each(most) => rng.between(1, *most),
    };
    let time = |_| match rng.below(4) {
        0 => start,
        1 => (start + 1).min(end - 1),
        2 => end - 1,
        _ => rng.between(start, end - 1),
    };
    (0..most).map(time).collect()
}

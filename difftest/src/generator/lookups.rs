//! Lookups of the standard in force: at every start and 1 ms beside it, for every module, and by values at every edge.

use super::runs::records;
use super::valid::LAST_RECIPE;
use crate::credited::Lookup;
use crate::prng::Prng;
use crate::records::*;

/// Where a log has more about its starts, so many of them are drawn; fewer of a long log, which takes longer to test each time, and of
/// a refused one, in which none is found. Of one accepted log in so many all are asked.
const WHOLE: u64 = 100;
const MOST: usize = 192;
const MOST_OF_A_LONG_LOG: usize = 48;
const MOST_OF_A_REFUSED_LOG: usize = 12;
const LONG_LOG: usize = 2_000;

/// The lookups of a seed and an index, whose log is given.
pub fn make(seed: u64, index: u64, log: &[u8], accepted: bool) -> Vec<Lookup> {
    // Other numbers than those that the log, the runs and the benchmarks were made of.
    let mut rng = Prng::new(seed ^ (1 << 62), index);
    let (mut period, mut modules) = (0, 1);
    // What each standard is in force for, as far as the bytes hold some, from its start on.
    let mut starts = Vec::new();
    for record in records(log) {
        match record {
            Record::Header(values) => [period, modules] = [values[0], values[1].max(1)],
            Record::Standard([module, recipe, start, _]) => starts.push(Lookup {
                module: module as usize,
                recipe: recipe as usize,
                time: start,
            }),
            _ => {}
        }
    }
    let most = match log.len() {
        _ if !accepted => MOST_OF_A_REFUSED_LOG,
        _ if rng.once_in(WHOLE) => usize::MAX,
        LONG_LOG.. => MOST_OF_A_LONG_LOG,
        _ => MOST,
    };
    let mut lookups = about_starts(&mut rng, &starts, modules as usize, most);
    lookups.extend(at_edges(&mut rng, &starts, modules as usize, period));
    lookups
}

/// A start and 1 ms beside it, for a module.
fn beside(start: &Lookup, module: usize) -> impl Iterator<Item = Lookup> {
    let (recipe, time) = (start.recipe, start.time);
    let times = [time.checked_sub(1), Some(time), Some(time + 1)];
    times.into_iter().flatten().map(move |time| Lookup {
        module,
        recipe,
        time,
    })
}

/// For every module, or for some where these would be too many: the first start and the last, and others for their own modules and for any.
fn about_starts(rng: &mut Prng, starts: &[Lookup], modules: usize, most: usize) -> Vec<Lookup> {
    let mut chosen = Vec::new();
    if 3 * starts.len() * modules <= most {
        for start in starts {
            chosen.extend((0..modules).map(|module| (start, module)));
        }
    } else {
        let (first, last) = (&starts[0], &starts[starts.len() - 1]);
        chosen.extend([(first, first.module), (last, last.module)]);
        while 3 * chosen.len() < most {
            let start = &starts[rng.index(starts.len())];
            chosen.extend([(start, start.module), (start, rng.index(modules))]);
        }
    }
    let lookups = chosen
        .into_iter()
        .map(|(start, module)| beside(start, module));
    lookups.flatten().collect()
}

/// By one start, or another where the log has none, with one value at an edge.
fn at_edges(rng: &mut Prng, starts: &[Lookup], modules: usize, period: u64) -> Vec<Lookup> {
    let start = if starts.is_empty() {
        Lookup {
            module: rng.index(modules),
            recipe: rng.pick(&[0, 1, 512]),
            time: rng.below(period.max(1)),
        }
    } else {
        starts[rng.index(starts.len())]
    };
    let Lookup {
        module,
        recipe,
        time,
    } = start;
    let has_standard = |recipe: &usize| starts.iter().any(|start| start.recipe == *recipe);
    let all = 0..=LAST_RECIPE as usize;
    let unused: Vec<usize> = all.filter(|recipe| !has_standard(recipe)).collect();
    let at = rng.index(unused.len().max(1));
    // Among them what would be the start's own, or ahead of it, if its upper bits were dropped.
    let modules = [
        modules,
        modules + 1,
        module + 64,
        module + (1 << 32),
        1 << 40,
        usize::MAX,
    ];
    let recipes = [
        1_023,
        1_024,
        recipe + 1_024,
        recipe + (1 << 16),
        recipe + (1 << 32),
        usize::MAX,
    ];
    let recipes = recipes.into_iter().chain(unused.get(at).copied());
    let times = [
        0,
        period.saturating_sub(1),
        period,
        time + (1 << 32),
        time + (1 << 35),
        time.saturating_sub(1) + (1 << 35),
        1 << 63,
        u64::MAX,
    ];
    let of_modules = modules.map(|module| Lookup { module, ..start });
    let of_recipes = recipes.map(|recipe| Lookup { recipe, ..start });
    let of_times = times.map(|time| Lookup { time, ..start });
    let lookups = of_modules.into_iter().chain(of_recipes).chain(of_times);
    lookups.collect()
}

//! Pairs of logs to join: consecutive ones of a tool, pairs about every bound of what both may be together, and pairs of which one is refused.

use super::faults::{self, edge_or_between};
use super::valid::{effective, in_force, production_times, unused_recipe};
use super::valid::{LAST_RECIPE, LONGEST_THEORETICAL, MOST_OF_A_RECORD};
use super::{any, draft, Expected};
use crate::draft::Draft;
use crate::joined::Joined;
use crate::prng::Prng;
use crate::records::*;
use std::collections::{BTreeMap, BTreeSet};

/// Two logs, and what the generator knows of their join.
pub struct Pair {
    pub logs: [Vec<u8>; 2],
    pub expected: Expected,
}

const MOST: [u64; 3] = [MOST_STATES, MOST_STANDARDS, MOST_UNITS];

/// A period in which every list has room for as many records as there may be.
const ROOMY: u64 = 20_000;

/// Of so many pairs the first ones have full lists, each in its way: they take long, and a run has to meet each.
const FILLED_IN_TURN: u64 = 200;

/// The pair of a seed and an index.
pub fn make(seed: u64, index: u64) -> Pair {
    // Other numbers than those that the log, the runs, the benchmarks and the lookups were made of.
    let mut rng = Prng::new(seed ^ (1 << 61), index);
    match index % FILLED_IN_TURN {
        turn @ 0..10 => {
            let alone = index / FILLED_IN_TURN % 2 == 0;
            return of_valid(&filled(&mut rng, turn, alone));
        }
        10 => return second_refused_ahead_of_counts(&mut rng),
        _ => {}
    }
    match rng.below(20) {
        0..=8 => of_valid(&days(&mut rng)),
        9..=13 => of_valid(&about_bounds(&mut rng)),
        14..=15 => first_refused(&mut rng),
        16..=18 => second_refused(&mut rng),
        _ => {
            let [first, second] = [any(&mut rng), any(&mut rng)];
            let expected = match first.expected {
                Expected::Accepted => Expected::Unknown,
                expected => expected,
            };
            Pair {
                logs: [first.bytes, second.bytes],
                expected,
            }
        }
    }
}

/// A log to join behind two others, none where their periods leave no ms for it.
pub fn third(seed: u64, index: u64, joined: &Joined) -> Option<Vec<u8>> {
    let mut rng = Prng::new(seed ^ (1 << 60), index);
    let joined = Draft::of(joined.log.log.clone());
    let most = LONGEST_PERIOD - joined.period;
    (most > 0).then(|| next_day(&mut rng, &joined, most).bytes())
}

/// Both are accepted, and so is what is joined of them where no bound is passed.
fn of_valid(drafts: &[Draft; 2]) -> Pair {
    let [first, second] = drafts;
    let [one, other] = drafts.each_ref().map(Draft::counts);
    let over = (0..3).any(|list| one[list] + other[list] > MOST[list]);
    let expected = if first.modules != second.modules {
        Expected::Refused(Refusal::of_log(23))
    } else if first.period + second.period > LONGEST_PERIOD {
        Expected::Refused(Refusal::of_log(2))
    } else if over {
        Expected::Refused(Refusal::of_log(4))
    } else {
        Expected::Accepted
    };
    Pair {
        logs: drafts.each_ref().map(Draft::bytes),
        expected,
    }
}

// ---------------------------------------------------------------- consecutive logs

/// Two logs of one tool whose periods are not too long: the second goes on where the first ended, or is any other, or the same.
fn days(rng: &mut Prng) -> [Draft; 2] {
    let first = short(rng, LONGEST_PERIOD - 1);
    let most = LONGEST_PERIOD - first.period;
    match rng.below(8) {
        0 if first.period <= most => [first.clone(), first],
        0..=2 => {
            let mut second = short(rng, most);
            fit(rng, &mut second, first.modules);
            [first, second]
        }
        3 => {
            let second = next_day(rng, &first, most);
            [second, first]
        }
        _ => {
            let second = next_day(rng, &first, most);
            [first, second]
        }
    }
}

/// Any valid log of a period up to so many ms that has room for an opening of every module.
fn short(rng: &mut Prng, most: u64) -> Draft {
    loop {
        let draft = draft(rng);
        if draft.period <= most && draft.counts()[0] + MOST_MODULES <= MOST_STATES {
            return draft;
        }
    }
}

/// Takes away the records of modules that are too many, and opens those that are missing.
fn fit(rng: &mut Prng, draft: &mut Draft, modules: u64) {
    draft.states.retain(|it| it.module < modules);
    draft.standards.retain(|it| it.module < modules);
    draft.units.retain(|it| it.module < modules);
    for module in draft.modules..modules {
        draft.state(module, rng.below(24), 0);
    }
    draft.modules = modules;
    draft.sort();
}

/// A log to follow a first one, of a period up to so many ms: its modules begin in their last codes or in others, its recipes begin by their last times, by
/// others or later, and some are new. No list is longer than the first leaves room for, if it leaves any.
fn next_day(rng: &mut Prng, first: &Draft, most: u64) -> Draft {
    let period = match rng.below(8) {
        0 => 1,
        1 => most,
        2..=4 => first.period.min(most),
        _ => rng.spread(most),
    };
    let mut next = Draft {
        period,
        modules: first.modules,
        ..Draft::default()
    };
    let counts = first.counts();
    let room: [u64; 3] = std::array::from_fn(|list| MOST[list] - counts[list]);
    open(rng, &mut next, first, room[0]);
    standards(rng, &mut next, first, room[1]);
    next.sort();
    let tries = rng.below(24);
    units(rng, &mut next, room[2].min(tries), |rng, start, last| {
        let anywhere = edge_or_between(rng, start, last);
        rng.pick(&[0, start, last, anywhere])
    });
    next
}

/// Openings in the codes in which the first ended, all of them, none, or some, and changes behind them.
fn open(rng: &mut Prng, next: &mut Draft, first: &Draft, room: u64) {
    let mut last = BTreeMap::new();
    for state in &first.states {
        last.insert(state.module, state.code);
    }
    let changed_once_in = rng.pick(&[1, 2, 2, u64::MAX]);
    for (module, code) in last {
        let other = (code + rng.between(1, 23)) % 24;
        let changed = rng.once_in(changed_once_in);
        next.state(module, if changed { other } else { code }, 0);
    }
    let left = room.saturating_sub(next.modules);
    let mut changes = BTreeSet::new();
    if next.period > 1 {
        for _ in 0..left.min(rng.below(2 * next.modules + 1)) {
            let time = edge_or_between(rng, 1, next.period - 1);
            changes.insert((time, rng.below(next.modules)));
        }
    }
    let productive = rng.once_in(2);
    for (time, module) in changes {
        let code = rng.below(if productive { 6 } else { 24 });
        next.state(module, code, time);
    }
}

fn standards(rng: &mut Prng, next: &mut Draft, first: &Draft, room: u64) {
    let mut last = BTreeMap::new();
    for standard in &first.standards {
        last.insert((standard.module, standard.recipe), standard.theoretical);
    }
    let mut starts = BTreeMap::new();
    for ((module, recipe), time) in last {
        let other = rng.spread(LONGEST_THEORETICAL);
        match rng.below(6) {
            0 => {}
            1..=2 => drop(starts.insert((module, recipe, 0), time)),
            3 => drop(starts.insert((module, recipe, 0), other)),
            4 => drop(starts.insert((module, recipe, rng.below(next.period)), other)),
            _ => {
                starts.insert((module, recipe, 0), time);
                let later = edge_or_between(rng, 0, next.period - 1);
                starts.entry((module, recipe, later)).or_insert(other);
            }
        }
    }
    // Recipes that the first day did not have, some of them next to each other.
    for _ in 0..rng.below(4) {
        let module = rng.below(next.modules);
        let new = unused_recipe(rng, first, module);
        for recipe in new..(new + rng.between(1, 3)).min(LAST_RECIPE + 1) {
            let start = edge_or_between(rng, 0, next.period - 1);
            starts.insert((module, recipe, start), rng.spread(LONGEST_THEORETICAL));
        }
    }
    for ((module, recipe, start), theoretical) in starts.into_iter().take(room as usize) {
        next.standard(module, recipe, start, theoretical);
    }
}

/// Up to so many unit records that the production time has room for, each at a time that is drawn by a start and the period's last ms.
pub(super) fn units(
    rng: &mut Prng,
    draft: &mut Draft,
    most: u64,
    drawn: impl Fn(&mut Prng, u64, u64) -> u64,
) {
    let mut room = production_times(draft);
    let mut units = BTreeMap::new();
    for _ in 0..most {
        if draft.standards.is_empty() {
            break;
        }
        let Standard {
            module,
            recipe,
            start,
            ..
        } = rng.pick(&draft.standards);
        let time = drawn(rng, start, draft.period - 1);
        let Some(theoretical) = in_force(draft, module, recipe, time) else {
            continue;
        };
        let left = &mut room[module as usize];
        let fitting = (*left / theoretical).min(MOST_OF_A_RECORD);
        let actual = match rng.below(3) {
            0 => edge_or_between(rng, 0, fitting),
            _ => fitting.min(rng.spread(100)),
        };
        let unit = UnitRecord {
            module,
            recipe,
            time,
            actual,
            effective: effective(rng, actual),
            spare: 0,
        };
        units.entry(unit.key()).or_insert_with(|| {
            *left -= actual * theoretical;
            unit
        });
    }
    draft.units = units.into_values().collect();
}

// ---------------------------------------------------------------- about the bounds of both together

/// Two valid logs whose periods make the longest, 1 ms more or twice as much, or whose module counts differ, or both.
fn about_bounds(rng: &mut Prng) -> [Draft; 2] {
    let mut drafts = days(rng);
    if rng.once_in(3) {
        other_modules(rng, &mut drafts);
    }
    match rng.below(4) {
        0 => stretch(rng, &mut drafts, LONGEST_PERIOD),
        1 => stretch(rng, &mut drafts, LONGEST_PERIOD + 1),
        2 => stretch(rng, &mut drafts, 2 * LONGEST_PERIOD),
        _ => {}
    }
    drafts
}

/// Module counts that differ, most by one.
fn other_modules(rng: &mut Prng, drafts: &mut [Draft; 2]) {
    let [one, other] = drafts.each_ref().map(|draft| draft.modules);
    let modules = match rng.below(8) {
        0 => [1, 64],
        1 => [64, 1],
        2..=4 => [one.min(63), one.min(63) + 1],
        5 => [one.min(63) + 1, one.min(63)],
        _ => [one, (other + rng.between(1, 63) - 1) % MOST_MODULES + 1],
    };
    for (draft, modules) in drafts.iter_mut().zip(modules) {
        fit(rng, draft, modules);
    }
}

/// Two numbers that make so much, neither of them below its least nor above `most`; the least themselves where these make as much or more.
fn parts(rng: &mut Prng, sum: u64, [one, other]: [u64; 2], most: u64) -> [u64; 2] {
    if one + other >= sum {
        return [one, other];
    }
    let low = one.max(sum.saturating_sub(most));
    let first = edge_or_between(rng, low, most.min(sum - other));
    [first, sum - first]
}

/// Longer periods, so many ms together. What a log says of its records stays, and it is accepted as before.
fn stretch(rng: &mut Prng, drafts: &mut [Draft; 2], sum: u64) {
    let least = drafts.each_ref().map(|draft| draft.period);
    let periods = parts(rng, sum, least, LONGEST_PERIOD);
    for (draft, period) in drafts.iter_mut().zip(periods) {
        draft.period = period;
    }
}

/// Two valid logs of which every list or one has together as many records as there may be, one more, or twice as many, by turns. Where this is not alone,
/// the module counts differ too, or the periods are too long, or both.
fn filled(rng: &mut Prng, turn: u64, alone: bool) -> [Draft; 2] {
    let mut drafts = roomy(rng);
    if !alone && turn % 3 != 2 {
        let modules = drafts[0].modules % MOST_MODULES + 1;
        fit(rng, &mut drafts[1], modules);
    }
    // Units first: they may need one standard more.
    for list in [2, 1, 0] {
        let most = MOST[list];
        match turn {
            0 => fill(rng, &mut drafts, list, most),
            _ if (turn - 1) % 3 != list as u64 => {}
            1..=3 => fill(rng, &mut drafts, list, most),
            4..=6 => fill(rng, &mut drafts, list, most + 1),
            _ => fill(rng, &mut drafts, list, 2 * most),
        }
    }
    if !alone && turn % 3 != 1 {
        stretch(rng, &mut drafts, LONGEST_PERIOD + 1);
    }
    drafts
}

/// Two logs of one tool in whose periods each list has room for as many records as there may be.
fn roomy(rng: &mut Prng) -> [Draft; 2] {
    loop {
        let mut drafts = days(rng);
        for draft in &mut drafts {
            draft.period = draft.period.max(ROOMY);
        }
        let [one, other] = drafts.each_ref().map(|draft| draft.period);
        let [first, second] = drafts.each_ref().map(Draft::counts);
        // Fewer records than most lists have to have.
        let few = (0..3).all(|list| first[list] + second[list] < MOST[list] / 2);
        if few && one + other <= LONGEST_PERIOD {
            return drafts;
        }
    }
}

/// More records, so that this list of both has together so many.
fn fill(rng: &mut Prng, drafts: &mut [Draft; 2], list: usize, sum: u64) {
    let counts = drafts.each_ref().map(|draft| draft.counts()[list]);
    let parts = parts(rng, sum, counts, MOST[list]);
    for (draft, due) in drafts.iter_mut().zip(parts) {
        match list {
            0 => add_states(rng, draft, due),
            1 => add_standards(rng, draft, due),
            _ => add_units(rng, draft, due),
        }
    }
}

/// As many state records, each added one in the code that its module has at that time.
pub(super) fn add_states(rng: &mut Prng, draft: &mut Draft, due: u64) {
    let mut codes = vec![BTreeMap::new(); draft.modules as usize];
    for state in &draft.states {
        codes[state.module as usize].insert(state.time, state.code);
    }
    while draft.counts()[0] < due {
        let module = rng.below(draft.modules);
        let time = rng.below(draft.period);
        let own = &mut codes[module as usize];
        let (last, code) = own.range(..=time).next_back().expect("an opening");
        if *last < time {
            let code = *code;
            own.insert(time, code);
            draft.state(module, code, time);
        }
    }
    draft.sort();
}

/// As many standards, each added one of a recipe that its module makes no units of.
fn add_standards(rng: &mut Prng, draft: &mut Draft, due: u64) {
    let made: BTreeSet<(u64, u64)> = draft
        .units
        .iter()
        .map(|it| (it.module, it.recipe))
        .collect();
    let mut keys: BTreeSet<_> = draft.standards.iter().map(Standard::key).collect();
    let same_recipe = rng.once_in(2).then(|| rng.below(LAST_RECIPE + 1));
    while draft.counts()[1] < due {
        let module = rng.below(draft.modules);
        let recipe = match same_recipe {
            Some(recipe) if !rng.once_in(8) => recipe,
            _ => rng.below(LAST_RECIPE + 1),
        };
        let start = rng.below(draft.period);
        if !made.contains(&(module, recipe)) && keys.insert((module, recipe, start)) {
            draft.standard(module, recipe, start, rng.spread(LONGEST_THEORETICAL));
        }
    }
    draft.sort();
}

/// As many unit records, each added one of no units, by a standard from time 0 on that is added first where there is none.
pub(super) fn add_units(rng: &mut Prng, draft: &mut Draft, due: u64) {
    if draft.counts()[2] == due {
        return;
    }
    let at_0 = |it: &Standard| it.start == 0;
    let found = draft.standards.iter().find(|it| at_0(it)).copied();
    let (module, recipe) = match found {
        Some(standard) => (standard.module, standard.recipe),
        None => {
            let module = rng.below(draft.modules);
            let recipe = unused_recipe(rng, draft, module);
            draft.standard(module, recipe, 0, 1);
            (module, recipe)
        }
    };
    let mut keys: BTreeSet<_> = draft.units.iter().map(UnitRecord::key).collect();
    while draft.counts()[2] < due {
        let time = rng.below(draft.period);
        if keys.insert((time, module, recipe)) {
            draft.unit(module, recipe, time, 0, 0);
        }
    }
    draft.sort();
}

// ---------------------------------------------------------------- one of them refused

/// Two valid logs, half of them about a bound of both together.
fn valid(rng: &mut Prng) -> [Draft; 2] {
    if rng.once_in(2) {
        days(rng)
    } else {
        about_bounds(rng)
    }
}

/// The first refused, and the second accepted, refused too, or the same.
fn first_refused(rng: &mut Prng) -> Pair {
    let [first, second] = valid(rng);
    let (first, refusal) = faults::one(rng, &first);
    let second = match rng.below(4) {
        0 => first.bytes(),
        1 => faults::one(rng, &second).0.bytes(),
        _ => second.bytes(),
    };
    Pair {
        logs: [first.bytes(), second],
        expected: Expected::Refused(refusal),
    }
}

/// What the second's refusal is expected to be told as.
fn told_of_second(refusal: Refusal) -> Expected {
    Expected::Refused(Refusal {
        list: refusal.list + 10,
        ..refusal
    })
}

/// The first accepted, and the second refused.
fn second_refused(rng: &mut Prng) -> Pair {
    let [first, second] = valid(rng);
    let (second, refusal) = faults::one(rng, &second);
    Pair {
        logs: [first.bytes(), second.bytes()],
        expected: told_of_second(refusal),
    }
}

/// The second refused for one of its records, where both together have too many.
fn second_refused_ahead_of_counts(rng: &mut Prng) -> Pair {
    let turn = rng.between(4, 9);
    let [first, second] = filled(rng, turn, true);
    loop {
        let (second, refusal) = faults::one(rng, &second);
        if refusal.number > 5 {
            return Pair {
                logs: [first.bytes(), second.bytes()],
                expected: told_of_second(refusal),
            };
        }
    }
}

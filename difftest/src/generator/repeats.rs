//! Logs to pack: of every kind of repeat and of what is near to one, packed ones, full ones, and refused ones whose records repeat.

use super::faults::{self, edge_or_between};
use super::pairs::{add_states, add_units, units};
use super::valid::{in_force, period, LAST_RECIPE, LONGEST_THEORETICAL};
use super::{draft, raw, sequences, Expected};
use crate::draft::Draft;
use crate::oracle::{account, read};
use crate::packed::Packed;
use crate::prng::Prng;
use crate::records::*;
use crate::said::Said;
use std::collections::{BTreeMap, BTreeSet};

/// A log to pack, and what the generator knows of it.
pub struct ToPack {
    pub bytes: Vec<u8>,
    pub expected: Expected,
    /// Of a log that is refused: its records repeat, or did ahead of the fault.
    pub repeats: bool,
    /// Another log that says the same.
    pub alike: Option<Vec<u8>>,
}

/// Of so many logs the first ones have full lists, each in its way.
const FULL_IN_TURN: u64 = 1_000;

const MINUTE: u64 = 60_000;

/// The log of a seed and an index.
pub fn make(seed: u64, index: u64) -> ToPack {
    // Other numbers than those that all else was made of.
    let mut rng = Prng::new(seed ^ (1 << 59), index);
    match index % FULL_IN_TURN {
        turn @ 0..=1 => return all_repeated(&mut rng, turn),
        2 => return accepted(none_repeated(&mut rng)),
        3 => return accepted(some_repeated(&mut rng)),
        4 => return last_unit_refused(&mut rng),
        _ => {}
    }
    match rng.below(3) {
        0 => refused(&mut rng),
        _ => with_alike(&mut rng),
    }
}

fn accepted(draft: Draft) -> ToPack {
    ToPack {
        bytes: draft.bytes(),
        expected: Expected::Accepted,
        repeats: false,
        alike: None,
    }
}

/// Does a record of a valid draft say nothing new?
fn repeats(draft: &Draft) -> bool {
    let log = read(&draft.bytes()).expect("a valid draft");
    Said::by(&log).fewest() != [log.header.states, log.header.standards]
}

/// A draft with or without repeats, and another one that says the same.
fn with_alike(rng: &mut Prng) -> ToPack {
    let said = said(rng);
    let repeated = repeated(rng, &said);
    let alike = match rng.below(4) {
        0 => Some(said.bytes()),
        1 => Some(self::repeated(rng, &said).bytes()),
        _ => None,
    };
    ToPack {
        alike,
        ..accepted(repeated)
    }
}

/// What is to be said, with repeats of its own or packed.
fn said(rng: &mut Prng) -> Draft {
    let said = if rng.once_in(4) {
        draft(rng)
    } else {
        walk(rng)
    };
    if rng.once_in(2) {
        return said;
    }
    let bytes = said.bytes();
    let packed = Packed::of(&bytes, &account(&bytes)).expect("a valid draft");
    Draft::of(packed.stay.of(&packed.from))
}

// ---------------------------------------------------------------- records that change, and records that do not

/// How often what is said stays as it was.
#[derive(Clone, Copy)]
enum Habit {
    Never,
    Always,
    Mixed,
}

impl Habit {
    fn any(rng: &mut Prng) -> Habit {
        rng.pick(&[Habit::Never, Habit::Always, Habit::Mixed, Habit::Mixed])
    }

    fn repeats(self, rng: &mut Prng) -> bool {
        match self {
            Habit::Never => false,
            Habit::Always => true,
            Habit::Mixed => rng.once_in(2),
        }
    }
}

/// A few modules and recipes, step by step.
fn walk(rng: &mut Prng) -> Draft {
    let modules = rng.pick(&[1, 1, 2, 2, 3, 5, 64]);
    let mut draft = Draft {
        modules,
        ..Draft::default()
    };
    let last = walk_states(rng, &mut draft);
    draft.period = match rng.below(8) {
        0..=3 => last + 1,
        4..=5 => (last + rng.spread(MINUTE)).min(LONGEST_PERIOD),
        6 => (last + period(rng)).min(LONGEST_PERIOD),
        _ => LONGEST_PERIOD,
    };
    walk_standards(rng, &mut draft);
    let tries = rng.below(24);
    units(rng, &mut draft, tries, |rng, start, last| {
        let anywhere = edge_or_between(rng, start, last);
        rng.pick(&[start, start.saturating_sub(1), last, anywhere])
    });
    draft
}

/// What was last said, and ahead of that.
#[derive(Clone, Copy)]
struct Lately {
    last: u64,
    ahead: u64,
}

impl Lately {
    fn first(value: u64) -> Lately {
        Lately {
            last: value,
            ahead: value,
        }
    }

    fn then(self, value: u64) -> Lately {
        Lately {
            last: value,
            ahead: self.last,
        }
    }
}

/// Changes and repeats of all modules, in list sequence; the time of the last.
fn walk_states(rng: &mut Prng, draft: &mut Draft) -> u64 {
    let codes = rng.pick(&[6, 6, 24]);
    let mut modules: Vec<(Habit, Lately)> = Vec::new();
    let one_habit = rng.once_in(2).then(|| Habit::any(rng));
    let mut neighbour = rng.below(codes);
    for module in 0..draft.modules {
        let code = if rng.once_in(2) {
            neighbour
        } else {
            rng.below(codes)
        };
        draft.state(module, code, 0);
        neighbour = code;
        let habit = one_habit.unwrap_or_else(|| Habit::any(rng));
        modules.push((habit, Lately::first(code)));
    }
    let (mut time, mut ahead) = (0, draft.modules - 1);
    let far = rng.once_in(8);
    for step in 0..rng.pick(&[0, 1, 4, 12, 30, 60]) {
        let module = rng.below(draft.modules);
        let by = match rng.below(6) {
            0..=1 if module > ahead => 0,
            0..=2 => 1,
            3 => MINUTE,
            _ => rng.spread(MINUTE),
        };
        time += by + if far && step == 0 { 1 << 32 } else { 0 };
        ahead = module;
        let (habit, lately) = &mut modules[module as usize];
        let code = next_code(rng, *habit, *lately, neighbour, codes);
        draft.state(module, code, time);
        *lately = lately.then(code);
        neighbour = code;
    }
    time
}

/// The code again; or another one of its state, the one ahead of it, the neighbour's, one that differs in a bit, or any.
fn next_code(rng: &mut Prng, habit: Habit, lately: Lately, neighbour: u64, codes: u64) -> u64 {
    let last = lately.last;
    if habit.repeats(rng) {
        return last;
    }
    let code = match rng.below(5) {
        0 => last ^ 1,
        1 => lately.ahead,
        2 => neighbour,
        3 => last ^ 1 << rng.below(5),
        _ => rng.below(codes),
    };
    if code == last || code > 23 {
        (last + 1) % codes
    } else {
        code
    }
}

/// A few times of each of a few modules and recipes.
fn walk_standards(rng: &mut Prng, draft: &mut Draft) {
    let one_habit = rng.once_in(2).then(|| Habit::any(rng));
    let mut neighbour = theoretical(rng);
    for (module, recipe) in equipped(rng, draft.modules) {
        let habit = one_habit.unwrap_or_else(|| Habit::any(rng));
        let mut start = match rng.below(4) {
            0 => rng.below(draft.period),
            _ => 0,
        };
        let first = if rng.once_in(2) {
            neighbour
        } else {
            theoretical(rng)
        };
        let mut lately = Lately::first(first);
        draft.standard(module, recipe, start, first);
        for _ in 0..rng.below(6) {
            start += match rng.below(4) {
                0..=1 => 1,
                2 => draft.period.saturating_sub(start + 1).max(1),
                _ => rng.spread(draft.period),
            };
            if start >= draft.period {
                break;
            }
            let time = next_time(rng, habit, lately);
            draft.standard(module, recipe, start, time);
            lately = lately.then(time);
        }
        neighbour = lately.last;
    }
}

/// Modules and recipes, rising: a recipe of each module, recipes next to each other, some that are equal in their lower bits, or any.
fn equipped(rng: &mut Prng, modules: u64) -> BTreeSet<(u64, u64)> {
    let few = modules.min(4);
    let recipe = rng.below(LAST_RECIPE + 1);
    let low = recipe % 256;
    let any = |rng: &mut Prng| (rng.below(modules), rng.below(LAST_RECIPE + 1));
    let module = rng.below(modules);
    match rng.below(5) {
        0 => (0..few).map(|module| (module, recipe)).collect(),
        1 => (recipe..=LAST_RECIPE)
            .take(3)
            .map(|recipe| (module, recipe))
            .collect(),
        2 => [0, 256, 512].map(|by| (module, low + by)).into(),
        3 => (0..rng.between(1, 6)).map(|_| any(rng)).collect(),
        _ => BTreeSet::new(),
    }
}

/// Times that modules have production time for, and the least and the longest.
fn theoretical(rng: &mut Prng) -> u64 {
    match rng.below(6) {
        0 => rng.pick(&[1, LONGEST_THEORETICAL]),
        1 => rng.spread(LONGEST_THEORETICAL),
        _ => rng.spread(1_000),
    }
}

/// The time again; or the one ahead of it, one that differs in a bit, or any.
fn next_time(rng: &mut Prng, habit: Habit, lately: Lately) -> u64 {
    let last = lately.last;
    if habit.repeats(rng) {
        return last;
    }
    let time = match rng.below(3) {
        0 => lately.ahead,
        1 => last ^ 1 << rng.below(27),
        _ => theoretical(rng),
    };
    match time {
        0 => last % LONGEST_THEORETICAL + 1,
        time if time == last => last % LONGEST_THEORETICAL + 1,
        time => time,
    }
}

// ---------------------------------------------------------------- repeats

/// The draft with records that say nothing new, or as it is.
fn repeated(rng: &mut Prng, said: &Draft) -> Draft {
    let mut draft = said.clone();
    match rng.below(8) {
        0 => {}
        1 => repeat_states(rng, &mut draft, 1),
        2 => repeat_standards(rng, &mut draft, 1),
        3 => {
            let more = rng.between(1, 20);
            repeat_states(rng, &mut draft, more);
        }
        4 => {
            let more = rng.between(1, 20);
            repeat_standards(rng, &mut draft, more);
        }
        5 => every_minute(rng, &mut draft),
        6 => {
            repeat_next(rng, &mut draft);
            repeat_standards(rng, &mut draft, 4);
        }
        _ => {
            repeat_states(rng, &mut draft, 10);
            repeat_standards(rng, &mut draft, 10);
        }
    }
    draft.sort();
    draft
}

/// So many state records more at any time, where the period and the list have room for them.
fn repeat_states(rng: &mut Prng, draft: &mut Draft, more: u64) {
    let states = draft.counts()[0];
    let possible = draft.modules.saturating_mul(draft.period);
    let most = MOST_STATES.min(states + (possible - states) / 2);
    add_states(rng, draft, most.min(states + more));
}

/// Each module's codes, by the time from which on they hold.
fn codes(draft: &Draft) -> Vec<BTreeMap<u64, u64>> {
    let mut codes = vec![BTreeMap::new(); draft.modules as usize];
    for it in &draft.states {
        codes[it.module as usize].insert(it.time, it.code);
    }
    codes
}

/// A state record where its module has none, of the code that it has then.
fn repeat_at(draft: &mut Draft, codes: &[BTreeMap<u64, u64>], module: u64, time: u64) {
    let mut own = codes[module as usize].range(..=time);
    let (last, code) = own.next_back().expect("an opening");
    if *last < time && time < draft.period && draft.counts()[0] < MOST_STATES {
        draft.state(module, *code, time);
    }
}

/// Every module's code again each minute, or all of some at one time.
fn every_minute(rng: &mut Prng, draft: &mut Draft) {
    let codes = codes(draft);
    let minutes = rng.pick(&[1, 12, 30, 100]);
    let first = edge_or_between(rng, 0, draft.period / MINUTE);
    for minute in first..first + minutes {
        for module in 0..draft.modules.min(5) {
            repeat_at(draft, &codes, module, minute * MINUTE);
        }
    }
}

/// Codes again 1 ms behind records, and in the last ms.
fn repeat_next(rng: &mut Prng, draft: &mut Draft) {
    let codes = codes(draft);
    let states = draft.states.clone();
    for it in states.iter().take(60) {
        if rng.once_in(2) {
            repeat_at(draft, &codes, it.module, it.time + 1);
        }
    }
    let last = draft.period - 1;
    for module in 0..draft.modules {
        let alone = draft
            .states
            .iter()
            .all(|it| (it.module, it.time) != (module, last));
        if alone && rng.once_in(2) {
            repeat_at(draft, &codes, module, last);
        }
    }
}

/// Up to so many standards more, each of a time that is in force: next to another one, in the last ms, or anywhere behind one.
fn repeat_standards(rng: &mut Prng, draft: &mut Draft, more: u64) {
    let mut keys: BTreeSet<_> = draft.standards.iter().map(Standard::key).collect();
    let due = MOST_STANDARDS.min(draft.counts()[1] + more);
    for _ in 0..4 * more {
        if draft.standards.is_empty() || draft.counts()[1] == due {
            break;
        }
        let Standard {
            module,
            recipe,
            start,
            ..
        } = rng.pick(&draft.standards);
        let later = edge_or_between(rng, start, draft.period - 1);
        let time = rng.pick(&[(start + 1).min(draft.period - 1), later]);
        if keys.insert((module, recipe, time)) {
            let theoretical = in_force(draft, module, recipe, time).expect("a start at or before");
            draft.standard(module, recipe, time, theoretical);
        }
    }
    draft.sort();
}

// ---------------------------------------------------------------- full lists

/// A log of as many records as there may be, one every minute, of one module or of all.
fn full(
    rng: &mut Prng,
    modules: u64,
    code: impl Fn(u64) -> u64,
    time: impl Fn(u64) -> u64,
) -> Draft {
    let mut draft = Draft {
        period: MOST_STATES * MINUTE,
        modules,
        ..Draft::default()
    };
    for place in 0..MOST_STATES {
        let (module, round) = (place % modules, place / modules);
        draft.state(module, code(round), round * MINUTE);
    }
    let each = MOST_STANDARDS / modules;
    for place in 0..each * modules {
        let (module, round) = (place / each, place % each);
        draft.standard(module, 7, round * MINUTE, time(round));
    }
    add_units(rng, &mut draft, MOST_UNITS);
    draft
}

/// Openings alone say something, and a standard of each module; the other log has just these.
fn all_repeated(rng: &mut Prng, turn: u64) -> ToPack {
    let modules = [1, MOST_MODULES][turn as usize];
    let (code, time) = (rng.below(24), rng.spread(LONGEST_THEORETICAL));
    let draft = full(rng, modules, |_| code, |_| time);
    let mut first = draft.clone();
    first.states.retain(|it| it.time == 0);
    first.standards.retain(|it| it.start == 0);
    ToPack {
        alike: Some(first.bytes()),
        ..accepted(draft)
    }
}

fn none_repeated(rng: &mut Prng) -> Draft {
    let modules = rng.pick(&[1, 2, MOST_MODULES]);
    full(rng, modules, |round| round % 2, |round| 1 + round % 2)
}

/// Full lists in which some records say something.
fn some_repeated(rng: &mut Prng) -> Draft {
    let modules = rng.pick(&[1, 2, MOST_MODULES]);
    let seldom = rng.between(2, 9);
    full(
        rng,
        modules,
        |round| round / seldom % 24,
        |round| 1 + round / seldom % 2,
    )
}

/// The same, refused for the last record alone.
fn last_unit_refused(rng: &mut Prng) -> ToPack {
    let mut draft = some_repeated(rng);
    let repeats = repeats(&draft);
    let place = draft.units.len() - 1;
    let last = &mut draft.units[place];
    let number = match rng.below(3) {
        0 => {
            last.spare = 1;
            6
        }
        1 => {
            last.time = draft.period;
            9
        }
        _ => {
            last.effective = last.actual + 1;
            14
        }
    };
    ToPack {
        bytes: draft.bytes(),
        expected: Expected::Refused(Refusal::new(number, UNITS, place)),
        repeats,
        alike: None,
    }
}

// ---------------------------------------------------------------- refused ones

/// A log whose records repeat, in most, and which is refused, or damaged anyhow.
fn refused(rng: &mut Prng) -> ToPack {
    let said = said(rng);
    let draft = repeated(rng, &said);
    let (bytes, expected) = match rng.below(12) {
        0..=1 => spare_in_repeat(rng, &draft),
        2 => (raw::damaged(rng, &draft), Expected::Unknown),
        3 => (sequences::any(rng, &draft).bytes(), Expected::Unknown),
        _ => {
            let (damaged, refusal) = faults::one(rng, &draft);
            (damaged.bytes(), Expected::Refused(refusal))
        }
    };
    ToPack {
        bytes,
        expected,
        repeats: repeats(&draft),
        alike: None,
    }
}

/// A spare bit in a record that says nothing new, or in any.
fn spare_in_repeat(rng: &mut Prng, draft: &Draft) -> (Vec<u8>, Expected) {
    let bytes = draft.bytes();
    let stay = Packed::of(&bytes, &account(&bytes))
        .expect("a valid draft")
        .stay;
    let mut draft = draft.clone();
    let of_states = draft.standards.is_empty() || rng.once_in(2);
    let (list, stay) = match of_states {
        true => (STATES, stay.states),
        false => (STANDARDS, stay.standards),
    };
    let repeats: Vec<usize> = (0..stay.len()).filter(|at| !stay[*at]).collect();
    let place = match repeats[..] {
        [] => rng.index(stay.len()),
        _ => rng.pick(&repeats),
    };
    match of_states {
        true => draft.states[place].spare = rng.between(1, 3),
        false => draft.standards[place].spare = rng.between(1, 3),
    }
    let refusal = Refusal::new(6, list, place);
    (draft.bytes(), Expected::Refused(refusal))
}

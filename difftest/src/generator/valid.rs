//! Valid logs, their lists in rising sequence.

use crate::draft::Draft;
use crate::prng::Prng;
use crate::records::*;
use std::collections::{BTreeMap, BTreeSet};

pub const LAST_RECIPE: u64 = 1_023;
pub const LONGEST_THEORETICAL: u64 = (1 << 27) - 1;
pub const MOST_OF_A_RECORD: u64 = 65_535;

const SHIFT: u64 = 28_800_000;
const DAY: u64 = 86_400_000;
const WEEK: u64 = 604_800_000;

/// Once in so many logs a list is as long as it may be.
const LARGE_ONCE_IN: u64 = 300;

/// Once in so many others there are as many standards as there may be.
const FULL_ONCE_IN: u64 = 40;

/// Once in so many others the recipes have years of revisions, and as often there are many modules and recipes.
const REVISED_ONCE_IN: u64 = 10;
const MANY_ONCE_IN: u64 = 10;

pub fn draft(rng: &mut Prng) -> Draft {
    let sizes = if rng.once_in(LARGE_ONCE_IN) {
        Sizes::large(rng)
    } else if rng.once_in(FULL_ONCE_IN) {
        Sizes::full(rng)
    } else if rng.once_in(REVISED_ONCE_IN) {
        Sizes::revised(rng)
    } else if rng.once_in(MANY_ONCE_IN) {
        Sizes::many(rng)
    } else {
        Sizes::small(rng)
    };
    let moments = moments(rng, sizes.period);
    let mut draft = Draft {
        period: sizes.period,
        modules: sizes.modules,
        ..Draft::default()
    };
    draft.states = state_records(rng, &sizes, &moments);
    draft.standards = standards(rng, &sizes, &moments);
    let production = production_times(&draft);
    let mut room = production.clone();
    draft.units = unit_records(rng, &sizes, &moments, &draft, &mut room);
    if rng.once_in(4) {
        let module = rng.index(room.len());
        fill(rng, &mut draft, module as u64, room[module]);
    }
    draft
}

// ---------------------------------------------------------------- sizes

struct Sizes {
    period: u64,
    modules: u64,
    /// State records beside the openings; fewer where the period has no room for them.
    changes: u64,
    standards: u64,
    /// Modules that the standards are of.
    equipped: u64,
    /// Recipes that the standards are of, counted for each module.
    pairs: u64,
    units: u64,
}

impl Sizes {
    fn small(rng: &mut Prng) -> Sizes {
        let modules = match rng.below(20) {
            0..=5 => 1,
            6..=14 => rng.between(2, 5),
            15..=17 => rng.between(6, 20),
            18 => rng.between(21, 63),
            _ => 64,
        };
        let changes_each = rng.below(6);
        Sizes {
            period: period(rng),
            modules,
            changes: rng.between(0, modules * changes_each),
            standards: if rng.once_in(8) {
                0
            } else {
                rng.between(1, 10)
            },
            equipped: equipped(rng, modules),
            pairs: rng.between(1, 8),
            units: if rng.once_in(8) {
                0
            } else {
                rng.between(1, 10)
            },
        }
    }

    /// A few modules' recipes of many revisions each.
    fn revised(rng: &mut Prng) -> Sizes {
        Sizes {
            period: rng.pick(&[1_000, DAY, LONGEST_PERIOD]),
            standards: rng.between(9, 300),
            pairs: rng.between(1, 3),
            units: rng.between(1, 60),
            ..Sizes::small(rng)
        }
    }

    /// Many modules and recipes of a few revisions each.
    fn many(rng: &mut Prng) -> Sizes {
        let pairs = rng.between(7, 100);
        Sizes {
            period: rng.pick(&[1_000, DAY, LONGEST_PERIOD]),
            standards: rng.between(pairs, 3 * pairs),
            pairs,
            units: rng.between(1, 60),
            ..Sizes::small(rng)
        }
    }

    /// Hundreds of revisions of one module's recipe, eight standards of each of 64 modules, or a few modules' hundreds of recipes.
    fn full(rng: &mut Prng) -> Sizes {
        let modules = rng.between(1, MOST_MODULES);
        let (modules, equipped, pairs) = match rng.below(3) {
            0 => (modules, 1, 1),
            1 => (64, 64, 64 * rng.pick(&[1, 2, 4, 8])),
            _ => {
                let equipped = rng.between(1, modules.min(4));
                (modules, equipped, rng.pick(&[128, 256, 512]))
            }
        };
        Sizes {
            period: rng.pick(&[DAY, LONGEST_PERIOD]),
            modules,
            changes: rng.between(0, modules),
            standards: MOST_STANDARDS,
            equipped,
            pairs,
            units: rng.between(1, 60),
        }
    }

    /// Each list at its bound, or now and then a short one.
    fn large(rng: &mut Prng) -> Sizes {
        let choices = [1, 3, 64, rng.between(1, 64)];
        let modules = rng.pick(&choices);
        let short = rng.below(8);
        Sizes {
            period: rng.pick(&[SHIFT, WEEK, LONGEST_PERIOD]),
            modules,
            changes: if short == 0 { 0 } else { MOST_STATES - modules },
            standards: if short == 1 { 1 } else { MOST_STANDARDS },
            equipped: equipped(rng, modules),
            pairs: rng.pick(&[1, 2, 20, 64, 256, 512]),
            units: if short == 2 { 0 } else { MOST_UNITS },
        }
    }
}

/// Of so many modules all, one, a few or any number.
fn equipped(rng: &mut Prng, modules: u64) -> u64 {
    match rng.below(4) {
        0 => modules,
        1 => 1,
        2 => rng.between(1, modules.min(4)),
        _ => rng.between(1, modules),
    }
}

/// Periods of which many whole numbers of ms are an exact half in the fifth place.
const HALVED: [u64; 4] = [32, 800, 4_000, 20_000];

pub fn period(rng: &mut Prng) -> u64 {
    match rng.below(13) {
        0 => 1,
        1 => rng.between(2, 16),
        2..=4 => rng.between(2, 3_000),
        5 => SHIFT,
        6 => DAY,
        7 => WEEK,
        8 => LONGEST_PERIOD,
        9 => LONGEST_PERIOD - rng.below(1_000),
        10 => rng.pick(&HALVED),
        _ => rng.spread(LONGEST_PERIOD),
    }
}

// ---------------------------------------------------------------- times

/// Times that come up again and again in a log, so that records of different lists meet.
fn moments(rng: &mut Prng, period: u64) -> Vec<u64> {
    let mut moments = vec![0, period - 1];
    for _ in 0..rng.between(1, 6) {
        let moment = rng.below(period);
        moments.extend([
            moment,
            moment.saturating_sub(1),
            (moment + 1).min(period - 1),
        ]);
    }
    moments
}

fn moment(rng: &mut Prng, moments: &[u64], period: u64) -> u64 {
    if rng.once_in(3) {
        rng.below(period)
    } else {
        rng.pick(moments)
    }
}

// ---------------------------------------------------------------- states

/// The codes that a module runs through.
enum Habit {
    Any,
    Productive,
    Up,
    Down,
    Always(u64),
}

fn habit(rng: &mut Prng) -> Habit {
    match rng.below(8) {
        0..=2 => Habit::Any,
        3..=4 => Habit::Productive,
        5 => Habit::Up,
        6 => Habit::Down,
        _ => Habit::Always(rng.below(24)),
    }
}

fn code(rng: &mut Prng, habit: &Habit) -> u64 {
    match habit {
        Habit::Any => rng.below(24),
        Habit::Productive if rng.once_in(4) => rng.below(24),
        Habit::Productive => rng.below(6),
        Habit::Up => rng.below(14),
        Habit::Down => rng.between(14, 23),
        Habit::Always(code) => *code,
    }
}

fn state_records(rng: &mut Prng, sizes: &Sizes, moments: &[u64]) -> Vec<StateRecord> {
    let modules = sizes.modules as usize;
    let mut times = vec![BTreeSet::from([0]); modules];
    let possible = sizes.modules.saturating_mul(sizes.period - 1);
    let wanted = sizes.changes.min(possible);
    let mut placed = 0;
    for _ in 0..4 * wanted {
        if placed == wanted {
            break;
        }
        let module = rng.index(modules);
        if times[module].insert(moment(rng, moments, sizes.period)) {
            placed += 1;
        }
    }
    let down_tool = rng.once_in(20);
    let mut records = Vec::new();
    for (module, times) in times.iter().enumerate() {
        let habit = if down_tool { Habit::Down } else { habit(rng) };
        for &time in times {
            records.push(StateRecord {
                module: module as u64,
                code: code(rng, &habit),
                time,
                spare: 0,
            });
        }
    }
    records.sort_by_key(StateRecord::key);
    records
}

/// Productive ms of each module of a draft whose state records are valid.
pub fn production_times(draft: &Draft) -> Vec<u64> {
    let mut production = vec![0; draft.modules as usize];
    let mut productive_since: Vec<Option<u64>> = vec![None; draft.modules as usize];
    for record in &draft.states {
        let module = record.module as usize;
        if let Some(since) = productive_since[module].take() {
            production[module] += record.time - since;
        }
        if record.code < 6 {
            productive_since[module] = Some(record.time);
        }
    }
    for (sum, since) in production.iter_mut().zip(productive_since) {
        if let Some(since) = since {
            *sum += draft.period - since;
        }
    }
    production
}

// ---------------------------------------------------------------- standards

fn theoretical(rng: &mut Prng) -> u64 {
    match rng.below(8) {
        0 => 1,
        1 => LONGEST_THEORETICAL,
        2 => rng.pick(&[1_000, 60_000, 150_000, 1_800_000]),
        3 => rng.between(1, 20),
        _ => rng.spread(LONGEST_THEORETICAL),
    }
}

/// A module and a recipe.
pub type Pair = (u64, u64);

fn standards(rng: &mut Prng, sizes: &Sizes, moments: &[u64]) -> Vec<Standard> {
    let pairs = if rng.once_in(3) {
        sharing_places(rng, sizes)
    } else {
        by_modules(rng, sizes)
    };
    // As many revisions of each, or of some more than of others.
    let in_turn = rng.once_in(2);
    let mut standards = BTreeMap::new();
    for _ in 0..4 * sizes.standards {
        if standards.len() as u64 == sizes.standards {
            break;
        }
        let (module, recipe) = if in_turn {
            pairs[standards.len() % pairs.len()]
        } else {
            rng.pick(&pairs)
        };
        let standard = Standard {
            module,
            recipe,
            start: moment(rng, moments, sizes.period),
            theoretical: theoretical(rng),
            spare: 0,
        };
        standards.insert(standard.key(), standard);
    }
    standards.into_values().collect()
}

/// Modules in turn, each with as many recipes, all with the same ones or each with its own of them.
fn by_modules(rng: &mut Prng, sizes: &Sizes) -> Vec<Pair> {
    let mut modules: Vec<u64> = (0..sizes.modules).collect();
    rng.shuffle(&mut modules);
    modules.truncate(sizes.equipped as usize);
    let least = sizes.pairs.div_ceil(sizes.equipped);
    let count = match rng.below(3) {
        0 => least,
        1 => rng.between(least, 2 * least),
        _ => rng.between(least, LAST_RECIPE + 1),
    };
    let recipes = recipes(rng, count as usize);
    let the_same = rng.once_in(2);
    let first: Vec<usize> = modules
        .iter()
        .map(|_| {
            if the_same {
                0
            } else {
                rng.index(recipes.len())
            }
        })
        .collect();
    let pair = |number: usize| {
        let (turn, at) = (number / modules.len(), number % modules.len());
        (modules[at], recipes[(first[at] + turn) % recipes.len()])
    };
    (0..sizes.pairs as usize).map(pair).collect()
}

/// So many recipes: the lowest, or any, with one at an edge of the field ahead.
fn recipes(rng: &mut Prng, count: usize) -> Vec<u64> {
    let mut recipes: Vec<u64> = (0..=LAST_RECIPE).collect();
    if !rng.once_in(3) {
        let edge = rng.pick(&[0, LAST_RECIPE, 1, 512]);
        rng.shuffle(&mut recipes);
        recipes.retain(|recipe| *recipe != edge);
        recipes.insert(0, edge);
    }
    recipes.truncate(count);
    recipes
}

/// Groups of modules and recipes that a table would keep in one place: a lookup in it has to ask for both.
fn sharing_places(rng: &mut Prng, sizes: &Sizes) -> Vec<Pair> {
    let table = Table::any(rng);
    let mut pairs = Vec::new();
    while (pairs.len() as u64) < sizes.pairs {
        let one = (rng.below(sizes.modules), rng.below(LAST_RECIPE + 1));
        let mut sharing = table.sharing(sizes.modules, one);
        rng.shuffle(&mut sharing);
        sharing.truncate(rng.between(2, 8) as usize);
        sharing.retain(|pair| !pairs.contains(pair));
        pairs.extend(sharing);
    }
    pairs.truncate(sizes.pairs as usize);
    pairs
}

/// The places of a table that numbers modules and recipes.
pub struct Table {
    size: u64,
    of_module: u64,
    of_recipe: u64,
    bit_by_bit: bool,
}

impl Table {
    pub fn any(rng: &mut Prng) -> Table {
        let factors = [
            (1, 1),
            (2, 1),
            (4, 1),
            (8, 1),
            (16, 1),
            (16, 1),
            (17, 1),
            (31, 1),
            (32, 1),
            (64, 1),
            (512, 1),
            (1_024, 1),
            (1, 16),
            (1, 64),
        ];
        let (of_module, of_recipe) = rng.pick(&factors);
        Table {
            size: rng.pick(&[1_024, 2_048, 4_096]),
            of_module,
            of_recipe,
            bit_by_bit: rng.once_in(4),
        }
    }

    fn place(&self, (module, recipe): Pair) -> u64 {
        let (of_module, of_recipe) = (self.of_module * module, self.of_recipe * recipe);
        let number = if self.bit_by_bit {
            of_module ^ of_recipe
        } else {
            of_module + of_recipe
        };
        number % self.size
    }

    /// Those of so many modules that have the place of this one, itself among them.
    pub fn sharing(&self, modules: u64, one: Pair) -> Vec<Pair> {
        let place = self.place(one);
        let all = (0..modules).flat_map(|module| (0..=LAST_RECIPE).map(move |it| (module, it)));
        all.filter(|pair| self.place(*pair) == place).collect()
    }
}

/// The theoretical time in force, if any.
pub fn in_force(draft: &Draft, module: u64, recipe: u64, time: u64) -> Option<u64> {
    let covering = |standard: &&Standard| {
        standard.module == module && standard.recipe == recipe && standard.start <= time
    };
    let latest = draft
        .standards
        .iter()
        .filter(covering)
        .max_by_key(|standard| standard.start);
    latest.map(|standard| standard.theoretical)
}

pub fn has_standard(draft: &Draft, module: u64, recipe: u64) -> bool {
    let own = |standard: &Standard| standard.module == module && standard.recipe == recipe;
    draft.standards.iter().any(own)
}

/// A recipe that the module has no standard of; once in two near one that there is a standard of.
pub fn unused_recipe(rng: &mut Prng, draft: &Draft, module: u64) -> u64 {
    let mut recipe = if draft.standards.is_empty() || rng.once_in(2) {
        rng.below(LAST_RECIPE + 1)
    } else {
        rng.pick(&draft.standards).recipe
    };
    while has_standard(draft, module, recipe) {
        recipe = (recipe + 1) % (LAST_RECIPE + 1);
    }
    recipe
}

// ---------------------------------------------------------------- units

/// A standard near whose start a unit is made: the last of the list, the first, or any.
fn standard_to_meet(rng: &mut Prng, standards: &[Standard]) -> Standard {
    match rng.below(8) {
        0 => standards[standards.len() - 1],
        1 => standards[0],
        _ => rng.pick(standards),
    }
}

fn unit_time(rng: &mut Prng, moments: &[u64], period: u64, start: u64) -> u64 {
    match rng.below(4) {
        0 => start,
        1 => start.saturating_sub(1),
        2 => (start + 1).min(period - 1),
        _ => moment(rng, moments, period),
    }
}

pub fn effective(rng: &mut Prng, actual: u64) -> u64 {
    match rng.below(4) {
        0 => actual,
        1 => actual.saturating_sub(1),
        2 => 0,
        _ => rng.between(0, actual),
    }
}

/// Unit records that the production time left in `room` has place for.
fn unit_records(
    rng: &mut Prng,
    sizes: &Sizes,
    moments: &[u64],
    draft: &Draft,
    room: &mut [u64],
) -> Vec<UnitRecord> {
    let mut units = BTreeMap::new();
    if draft.standards.is_empty() {
        return Vec::new();
    }
    let zero = rng.once_in(10);
    for _ in 0..4 * sizes.units {
        if units.len() as u64 == sizes.units {
            break;
        }
        let standard = standard_to_meet(rng, &draft.standards);
        let Standard { module, recipe, .. } = standard;
        let time = unit_time(rng, moments, sizes.period, standard.start);
        let Some(theoretical) = in_force(draft, module, recipe, time) else {
            continue;
        };
        if units.contains_key(&(time, module, recipe)) {
            continue;
        }
        let room = &mut room[module as usize];
        let most = (*room / theoretical).min(MOST_OF_A_RECORD);
        let actual = match rng.below(6) {
            _ if zero => 0,
            0 => 0,
            1 => most,
            2 => rng.between(0, most),
            _ => rng.between(0, most.min(50)),
        };
        *room -= actual * theoretical;
        let unit = UnitRecord {
            module,
            recipe,
            time,
            actual,
            effective: effective(rng, actual),
            spare: 0,
        };
        units.insert(unit.key(), unit);
    }
    units.into_values().collect()
}

/// Adds a standard where it belongs in a rising list.
pub fn add_standard(draft: &mut Draft, (module, recipe): Pair, start: u64, theoretical: u64) {
    let standard = Standard {
        module,
        recipe,
        start,
        theoretical,
        spare: 0,
    };
    let place = draft
        .standards
        .partition_point(|other| other.key() < standard.key());
    draft.standards.insert(place, standard);
}

/// Adds a unit record where it belongs in a rising list.
pub fn add_unit(draft: &mut Draft, unit: UnitRecord) {
    let place = draft
        .units
        .partition_point(|other| other.key() < unit.key());
    draft.units.insert(place, unit);
}

/// Theoretical times that any production time can be filled with.
const STEPS: [u64; 4] = [LONGEST_THEORETICAL, 1_000_000, 1_000, 1];

/// Is there space in the lists for the records of `fill`?
pub fn can_fill(draft: &Draft) -> bool {
    draft.standards.len() + STEPS.len() <= MOST_STANDARDS as usize
        && draft.units.len() + STEPS.len() <= MOST_UNITS as usize
}

/// Adds units of so many ms: as many as are left of the module's production time make a rate of exactly 1.
pub fn fill(rng: &mut Prng, draft: &mut Draft, module: u64, time_for_units: u64) {
    if !can_fill(draft) {
        return;
    }
    let mut left = time_for_units;
    units_of_steps(rng, draft, module, |rng, theoretical| {
        let actual = left / theoretical;
        left -= actual * theoretical;
        (actual, effective(rng, actual))
    });
}

/// Adds a unit record of a recipe of its own for each step; `made` says how many units it has, actual and effective.
pub fn units_of_steps(
    rng: &mut Prng,
    draft: &mut Draft,
    module: u64,
    mut made: impl FnMut(&mut Prng, u64) -> (u64, u64),
) {
    for theoretical in STEPS {
        let recipe = unused_recipe(rng, draft, module);
        let start = rng.below(draft.period);
        let time = rng.between(start, draft.period - 1);
        let (actual, effective) = made(rng, theoretical);
        add_standard(draft, (module, recipe), start, theoretical);
        let unit = UnitRecord {
            module,
            recipe,
            time,
            actual,
            effective,
            spare: 0,
        };
        add_unit(draft, unit);
    }
}

//! The logs that are measured, their lists in rising sequence.

use difftest::draft::Draft;
use difftest::prng::Prng;
use difftest::records::*;

const WEEK: u64 = 604_800_000;
const MINUTE: u64 = 60_000;

pub struct Variant {
    pub name: &'static str,
    pub log: Vec<u8>,
}

pub fn variants() -> Vec<Variant> {
    vec![
        Variant {
            name: "longest, last standard",
            log: longest_last_standard(),
        },
        Variant {
            name: "longest, many recipes",
            log: longest_many_recipes(),
        },
        Variant {
            name: "longest, one recipe, units anywhere",
            log: longest_units_anywhere(),
        },
        Variant {
            name: "longest, one recipe, first standard",
            log: longest_first_standard(),
        },
        Variant {
            name: "typical week of three modules",
            log: typical(),
        },
    ]
}

/// Two consecutive logs of half the longest period, as long as the longest together: in each of them four revisions of one
/// recipe at each module, every unit behind the last.
pub fn halves() -> [Vec<u8>; 2] {
    let rng = &mut Prng::new(5, 0);
    [0, 1].map(|_| {
        let mut draft = Draft {
            period: LONGEST_PERIOD / 2,
            modules: MOST_MODULES,
            ..Draft::default()
        };
        state_records(rng, &mut draft, MOST_STATES / 2);
        for standard in 0..MOST_STANDARDS / 2 {
            let (module, revision) = (standard / 4, standard % 4);
            let start = revision * 64_000_000 + module * 1_000_000;
            draft.standard(module, 7, start, rng.between(50_000, 200_000));
        }
        for _ in 0..MOST_UNITS / 2 {
            let time = rng.between(256 * 1_000_000, draft.period - 1);
            let module = rng.below(MOST_MODULES);
            unit(rng, &mut draft, module, 7, time);
        }
        draft.sort();
        draft.bytes()
    })
}

/// Two logs to pack, as long as the longest: of the records of one a few say something new, of the other all of them.
pub fn to_pack() -> Vec<Variant> {
    vec![
        Variant {
            name: "longest, one record of 32 new",
            log: longest_told(32),
        },
        Variant {
            name: "longest, every record new",
            log: longest_told(1),
        },
    ]
}

/// The longest log, of whose records once in so many turns one says something new: of a module, another code; of a module's
/// recipe, another time.
fn longest_told(turns: u64) -> Vec<u8> {
    let rng = &mut Prng::new(6, turns);
    let mut draft = Draft {
        period: LONGEST_PERIOD,
        modules: MOST_MODULES,
        ..Draft::default()
    };
    let mut codes = [0; MOST_MODULES as usize];
    (0..MOST_MODULES).for_each(|module| draft.state(module, 0, 0));
    let steps = MOST_STATES - MOST_MODULES;
    for step in 1..=steps {
        let module = rng.below(MOST_MODULES);
        let code = &mut codes[module as usize];
        if rng.once_in(turns) {
            let before = *code;
            while *code == before {
                *code = any_code(rng);
            }
        }
        draft.state(module, *code, step * (LONGEST_PERIOD / (steps + 1)));
    }
    let mut time = 100_000;
    for standard in 0..MOST_STANDARDS {
        let (module, revision) = (standard / 8, standard % 8);
        if rng.once_in(turns) {
            time += 1;
        }
        draft.standard(module, 7, revision * 64_000_000, time);
    }
    for _ in 0..MOST_UNITS {
        let (module, time) = (rng.below(MOST_MODULES), rng.below(LONGEST_PERIOD));
        unit(rng, &mut draft, module, 7, time);
    }
    draft.sort();
    draft.bytes()
}

/// State records by time; the modules open productive and are productive most of the time.
fn state_records(rng: &mut Prng, draft: &mut Draft, count: u64) {
    (0..draft.modules).for_each(|module| draft.state(module, 0, 0));
    let steps = count - draft.modules;
    for step in 1..=steps {
        let module = rng.below(draft.modules);
        let code = any_code(rng);
        draft.state(module, code, step * (draft.period / (steps + 1)));
    }
}

/// Productive most of the time.
fn any_code(rng: &mut Prng) -> u64 {
    if rng.once_in(3) {
        rng.below(24)
    } else {
        rng.below(6)
    }
}

fn longest(rng: &mut Prng) -> Draft {
    let mut draft = Draft {
        period: LONGEST_PERIOD,
        modules: MOST_MODULES,
        ..Draft::default()
    };
    state_records(rng, &mut draft, MOST_STATES);
    draft
}

/// A unit record of up to 50 units.
fn unit(rng: &mut Prng, draft: &mut Draft, module: u64, recipe: u64, time: u64) {
    let actual = rng.between(1, 50);
    draft.unit(module, recipe, time, actual, rng.between(0, actual));
}

/// Eight revisions of one recipe at each module, every unit behind the last of them.
fn longest_last_standard() -> Vec<u8> {
    let rng = &mut Prng::new(1, 0);
    let mut draft = longest(rng);
    for standard in 0..MOST_STANDARDS {
        let (module, revision) = (standard / 8, standard % 8);
        let start = revision * 64_000_000 + module * 1_000_000;
        draft.standard(module, 7, start, 200_000 - standard);
    }
    for _ in 0..MOST_UNITS {
        let time = rng.between(511 * 1_000_000, LONGEST_PERIOD - 1);
        let module = rng.below(MOST_MODULES);
        unit(rng, &mut draft, module, 7, time);
    }
    draft.sort();
    draft.bytes()
}

/// 16 modules with 16 recipes of two revisions each, units anywhere.
fn longest_many_recipes() -> Vec<u8> {
    let rng = &mut Prng::new(2, 0);
    let mut draft = longest(rng);
    let mut modules: Vec<u64> = (0..MOST_MODULES).collect();
    rng.shuffle(&mut modules);
    let mut pairs = Vec::new();
    for &module in &modules[..16] {
        let mut recipes: Vec<u64> = (0..1_024).collect();
        rng.shuffle(&mut recipes);
        pairs.extend(recipes[..16].iter().map(|&recipe| (module, recipe)));
    }
    for &(module, recipe) in &pairs {
        draft.standard(module, recipe, 0, rng.between(50_000, 300_000));
        let start = LONGEST_PERIOD / 2 + rng.below(1_000_000);
        draft.standard(module, recipe, start, rng.between(50_000, 300_000));
    }
    for _ in 0..MOST_UNITS {
        let ((module, recipe), time) = (rng.pick(&pairs), rng.below(LONGEST_PERIOD));
        unit(rng, &mut draft, module, recipe, time);
    }
    draft.sort();
    draft.bytes()
}

/// 512 revisions of one module's recipe with these starts, its units anywhere before a time.
fn longest_units_before(end: u64, start: impl Fn(u64) -> u64) -> Vec<u8> {
    let rng = &mut Prng::new(4, 0);
    let mut draft = longest(rng);
    for revision in 0..MOST_STANDARDS {
        draft.standard(40, 7, start(revision), 200_000 - revision);
    }
    for _ in 0..MOST_UNITS {
        let time = rng.below(end);
        unit(rng, &mut draft, 40, 7, time);
    }
    draft.sort();
    draft.bytes()
}

/// Revisions and units all over the period.
fn longest_units_anywhere() -> Vec<u8> {
    longest_units_before(LONGEST_PERIOD, |revision| revision * (LONGEST_PERIOD / 512))
}

/// The first revision holds until the last 511 ms, in which the others start, and every unit is made before.
fn longest_first_standard() -> Vec<u8> {
    let others = LONGEST_PERIOD - 511;
    longest_units_before(others, |revision| match revision {
        0 => 0,
        _ => others + revision - 1,
    })
}

/// 170 state records, three recipes at each module but the last, which has two, 120 lots of 25 wafers by time.
fn typical() -> Vec<u8> {
    let rng = &mut Prng::new(3, 0);
    let mut draft = Draft {
        period: WEEK,
        modules: 3,
        ..Draft::default()
    };
    state_records(rng, &mut draft, 170);
    let recipes = |module: u64| if module < 2 { 3 } else { 2 };
    for module in 0..3 {
        for recipe in 0..recipes(module) {
            let seconds = 10 * module;
            draft.standard(module, recipe, 0, (2 + recipe) * MINUTE - 1_000 * seconds);
        }
    }
    for lot in 0..120 {
        let (module, time) = (lot % 3, (lot + 1) * (WEEK / 121));
        let recipe = rng.below(recipes(module));
        draft.unit(module, recipe, time, 25, 25 - rng.below(2));
    }
    draft.sort();
    draft.bytes()
}

//! Faults put into a valid draft, each with the refusal that it alone must bring.

use super::valid::*;
use crate::draft::Draft;
use crate::prng::Prng;
use crate::records::*;

const LAST_TIME_OF_FIELD: u64 = (1 << 35) - 1;
const MOST: [u64; 3] = [MOST_STATES, MOST_STANDARDS, MOST_UNITS];
const LAST_COUNT_OF_FIELD: [u64; 3] = [(1 << 14) - 1, (1 << 11) - 1, (1 << 13) - 1];

/// The refusals that a fault can bring. Those of many kinds come more often.
const OF_THE_HEADER: [u64; 5] = [1, 2, 3, 4, 5];
const OF_THE_RECORDS: [u64; 20] = [
    6, 6, 7, 7, 8, 9, 10, 10, 11, 12, 13, 14, 14, 15, 15, 15, 16, 19, 19, 19,
];

/// A fault that a draft has place for is found in most of so many tries.
const TRIES: usize = 4;

/// The refusals of a standard, in the sequence in which it is tested for them, that one of its own values brings.
const OF_A_STANDARD: [u64; 4] = [6, 7, 9, 12];

/// A copy of the draft with one fault, once in eight with several of a standard and the one behind it, and its refusal.
pub fn one(rng: &mut Prng, draft: &Draft) -> (Draft, Refusal) {
    loop {
        let number = (!rng.once_in(8)).then(|| number(rng, 4));
        for _ in 0..TRIES {
            let mut damaged = draft.clone();
            let refusal = match number {
                Some(number) => put(rng, number, &mut damaged),
                None => standards_of_several(rng, &mut damaged),
            };
            if let Some(refusal) = refusal {
                return (damaged, refusal);
            }
        }
    }
}

/// A copy of the draft with two to five faults, at least one of which is met.
pub fn several(rng: &mut Prng, draft: &Draft) -> Draft {
    let mut damaged = draft.clone();
    for _ in 0..rng.between(2, 5) {
        // Most of them behind the header, so that faults of records meet each other.
        let number = number(rng, 18);
        put(rng, number, &mut damaged);
    }
    damaged
}

/// One of the header once in so many, else one of the records.
fn number(rng: &mut Prng, header_once_in: u64) -> u64 {
    if rng.once_in(header_once_in) {
        rng.pick(&OF_THE_HEADER)
    } else {
        rng.pick(&OF_THE_RECORDS)
    }
}

/// None where the draft has no place for such a fault.
fn put(rng: &mut Prng, number: u64, draft: &mut Draft) -> Option<Refusal> {
    match number {
        1 => no_header(rng, draft),
        2 => period(rng, draft),
        3 => modules(rng, draft),
        4 => counts(rng, draft),
        5 => length(rng, draft),
        6 => spare(rng, draft),
        7 => stray_module(rng, draft),
        8 => stray_code(rng, draft),
        9 => outside(rng, draft),
        10 => sequence(rng, draft),
        11 => no_opening(rng, draft),
        12 => no_time(rng, draft),
        13 => twice(rng, draft),
        14 => over_good(rng, draft),
        15 => no_standard(rng, draft),
        16 => too_fast(rng, draft),
        19 => unsorted(rng, draft),
        _ => None,
    }
}

/// A place in a list: the first, the last, or any.
pub fn place<T>(rng: &mut Prng, list: &[T]) -> Option<usize> {
    if list.is_empty() {
        return None;
    }
    Some(match rng.below(4) {
        0 => 0,
        1 => list.len() - 1,
        _ => rng.index(list.len()),
    })
}

fn pick_one<T: Copy>(rng: &mut Prng, choices: &[T]) -> Option<T> {
    (!choices.is_empty()).then(|| rng.pick(choices))
}

/// `low`, `high`, or any between.
pub fn edge_or_between(rng: &mut Prng, low: u64, high: u64) -> u64 {
    match rng.below(4) {
        0 => low,
        1 => high,
        _ => rng.between(low, high),
    }
}

fn due_length(counts: [u64; 3]) -> usize {
    let [states, standards, units] = counts;
    (HEADER_BYTES + STATE_BYTES * states + STANDARD_BYTES * standards + UNIT_BYTES * units) as usize
}

fn no_header(rng: &mut Prng, draft: &mut Draft) -> Option<Refusal> {
    draft.length = Some(rng.index(10));
    Some(Refusal::of_log(1))
}

fn period(rng: &mut Prng, draft: &mut Draft) -> Option<Refusal> {
    draft.period = match rng.below(3) {
        0 => 0,
        _ => edge_or_between(rng, LONGEST_PERIOD + 1, LAST_TIME_OF_FIELD),
    };
    Some(Refusal::of_log(2))
}

fn modules(rng: &mut Prng, draft: &mut Draft) -> Option<Refusal> {
    draft.modules = match rng.below(3) {
        0 => 0,
        _ => edge_or_between(rng, MOST_MODULES + 1, 127),
    };
    Some(Refusal::of_log(3))
}

fn counts(rng: &mut Prng, draft: &mut Draft) -> Option<Refusal> {
    let mut claimed = draft.counts();
    let over = rng.index(3);
    for list in 0..3 {
        if list == over || rng.once_in(4) {
            claimed[list] = edge_or_between(rng, MOST[list] + 1, LAST_COUNT_OF_FIELD[list]);
        }
    }
    draft.claimed = Some(claimed);
    if rng.once_in(30) {
        draft.length = Some(due_length(claimed));
    }
    Some(Refusal::of_log(4))
}

fn length(rng: &mut Prng, draft: &mut Draft) -> Option<Refusal> {
    let counts = draft.counts();
    let right = due_length(counts);
    match rng.below(5) {
        0 if right > HEADER_BYTES as usize => {
            let shorter = edge_or_between(rng, HEADER_BYTES, right as u64 - 1);
            draft.length = Some(shorter as usize);
        }
        // As long as before R-5, with 9 bytes for each standard.
        1 if !draft.standards.is_empty() => draft.length = Some(right - draft.standards.len()),
        2 => {
            let list = rng.index(3);
            let mut claimed = counts;
            claimed[list] = edge_or_between(rng, 0, MOST[list]);
            if claimed == counts {
                return None;
            }
            draft.claimed = Some(claimed);
        }
        _ => {
            let longer = if rng.once_in(50) {
                70_000
            } else {
                edge_or_between(rng, 1, 24)
            };
            draft.length = Some(right + longer as usize);
            draft.filler = rng.pick(&[0, 0xff, 10]);
        }
    }
    Some(Refusal::of_log(5))
}

/// A spare field of so many bits with one bit set, or any.
pub fn spare_bits(rng: &mut Prng, width: u64) -> u64 {
    if rng.once_in(2) {
        1 << rng.below(width)
    } else {
        rng.between(1, (1 << width) - 1)
    }
}

fn spare(rng: &mut Prng, draft: &mut Draft) -> Option<Refusal> {
    match rng.below(3) {
        0 => {
            let place = place(rng, &draft.states)?;
            draft.states[place].spare = spare_bits(rng, 2);
            Some(Refusal::new(6, STATES, place))
        }
        1 => {
            let place = place_of_standard(rng, draft)?;
            draft.standards[place].spare = spare_bits(rng, 2);
            Some(Refusal::new(6, STANDARDS, place))
        }
        _ => {
            let place = place(rng, &draft.units)?;
            draft.units[place].spare = spare_bits(rng, 5);
            Some(Refusal::new(6, UNITS, place))
        }
    }
}

/// A module at or above the count, none where every one that fits is below it.
fn stray(rng: &mut Prng, draft: &Draft) -> Option<u64> {
    (draft.modules < MOST_MODULES).then(|| edge_or_between(rng, draft.modules, MOST_MODULES - 1))
}

fn stray_module(rng: &mut Prng, draft: &mut Draft) -> Option<Refusal> {
    let stray = stray(rng, draft)?;
    match rng.below(3) {
        0 => {
            let place = place(rng, &draft.states)?;
            draft.states[place].module = stray;
            Some(Refusal::new(7, STATES, place))
        }
        1 => {
            let place = place(rng, &draft.standards)?;
            draft.standards[place].module = stray;
            Some(Refusal::new(7, STANDARDS, place))
        }
        _ => {
            let place = place(rng, &draft.units)?;
            draft.units[place].module = stray;
            Some(Refusal::new(7, UNITS, place))
        }
    }
}

fn stray_code(rng: &mut Prng, draft: &mut Draft) -> Option<Refusal> {
    let place = place(rng, &draft.states)?;
    draft.states[place].code = edge_or_between(rng, 24, 31);
    Some(Refusal::new(8, STATES, place))
}

/// A time at or past the period.
fn late(rng: &mut Prng, draft: &Draft) -> u64 {
    edge_or_between(rng, draft.period, LAST_TIME_OF_FIELD)
}

fn outside(rng: &mut Prng, draft: &mut Draft) -> Option<Refusal> {
    let late = late(rng, draft);
    match rng.below(3) {
        0 => {
            let place = place(rng, &draft.states)?;
            draft.states[place].time = late;
            Some(Refusal::new(9, STATES, place))
        }
        1 => {
            let place = place_of_standard(rng, draft)?;
            draft.standards[place].start = late;
            Some(Refusal::new(9, STANDARDS, place))
        }
        _ => {
            let place = place(rng, &draft.units)?;
            draft.units[place].time = late;
            Some(Refusal::new(9, UNITS, place))
        }
    }
}

/// A place behind the first, where a record can break the sequence: the second, the last, or any. A list that is not full has one more, behind its last.
fn later_place<T>(rng: &mut Prng, list: &[T], most: u64) -> Option<usize> {
    let count = list.len() as u64;
    let last = if count < most { count } else { count - 1 };
    (count > 0 && last > 0).then(|| edge_or_between(rng, 1, last) as usize)
}

/// Adds a record at the place, in a full list instead of the one there.
fn put_at<T>(list: &mut Vec<T>, most: u64, place: usize, record: T) {
    if (list.len() as u64) < most {
        list.insert(place, record);
    } else {
        list[place] = record;
    }
}

/// Exchanges a record with the one before; the place of the later.
fn exchange<T>(list: &mut [T], place: usize) -> Option<usize> {
    let later = place.min(list.len() - 1);
    list.swap(later.checked_sub(1)?, later);
    Some(later)
}

fn sequence(rng: &mut Prng, draft: &mut Draft) -> Option<Refusal> {
    let place = later_place(rng, &draft.states, MOST_STATES)?;
    let refused = |place| Refusal::new(10, STATES, place);
    let before = draft.states[place - 1];
    let of_that_time: Vec<u64> = draft.states[..place]
        .iter()
        .filter(|other| other.time == before.time)
        .map(|other| other.module)
        .collect();
    let (module, time) = match rng.below(4) {
        // An earlier time.
        0 => {
            let module = rng.below(draft.modules.min(MOST_MODULES));
            let time = edge_or_between(rng, 0, before.time.checked_sub(1)?);
            (module, time)
        }
        // The same time and a lower module that has no record of that time.
        1 => {
            let lower = 0..before.module;
            let free: Vec<u64> = lower.filter(|it| !of_that_time.contains(it)).collect();
            (pick_one(rng, &free)?, before.time)
        }
        // The same time and a module that has one, the neighbour's or a lower one.
        2 => (rng.pick(&of_that_time), before.time),
        _ => return exchange(&mut draft.states, place).map(refused),
    };
    let record = StateRecord {
        module,
        code: rng.below(24),
        time,
        spare: 0,
    };
    put_at(&mut draft.states, MOST_STATES, place, record);
    Some(refused(place))
}

fn unsorted(rng: &mut Prng, draft: &mut Draft) -> Option<Refusal> {
    if rng.once_in(3) {
        let place = unsorted_standard(rng, draft)?;
        Some(Refusal::new(19, STANDARDS, place))
    } else {
        let place = unsorted_unit(rng, draft)?;
        Some(Refusal::new(19, UNITS, place))
    }
}

/// The place of a standard made to stand behind a higher one. No earlier one has its module, recipe and start.
fn unsorted_standard(rng: &mut Prng, draft: &mut Draft) -> Option<usize> {
    let place = later_place(rng, &draft.standards, MOST_STANDARDS)?;
    if rng.once_in(4) {
        return exchange(&mut draft.standards, place);
    }
    let standard = lower_standard(rng, draft.period, &draft.standards[place - 1])?;
    let alike = |other: &Standard| other.key() == standard.key();
    if draft.standards[..place].iter().any(alike) {
        return None;
    }
    put_at(&mut draft.standards, MOST_STANDARDS, place, standard);
    Some(place)
}

/// A standard below another: by module, by recipe or by start. The fields behind are equal, not lower, or any.
fn lower_standard(rng: &mut Prng, period: u64, before: &Standard) -> Option<Standard> {
    let lower = |rng: &mut Prng, value: u64| Some(edge_or_between(rng, 0, value.checked_sub(1)?));
    let (recipe, start) = match rng.below(3) {
        0 => (before.recipe, before.start),
        1 => {
            let last = before.start.max(period.saturating_sub(1));
            let recipe = rng.between(before.recipe, LAST_RECIPE);
            (recipe, rng.between(before.start, last))
        }
        _ => (rng.below(LAST_RECIPE + 1), rng.below(period)),
    };
    let (module, recipe, start) = match rng.below(3) {
        0 => (lower(rng, before.module)?, recipe, start),
        1 => (before.module, lower(rng, before.recipe)?, start),
        _ => (before.module, before.recipe, lower(rng, before.start)?),
    };
    Some(Standard {
        module,
        recipe,
        start,
        theoretical: edge_or_between(rng, 1, LONGEST_THEORETICAL),
        spare: 0,
    })
}

/// The place of a unit record made to stand behind a higher one or one alike. It has a standard in force.
fn unsorted_unit(rng: &mut Prng, draft: &mut Draft) -> Option<usize> {
    let place = later_place(rng, &draft.units, MOST_UNITS)?;
    let before = draft.units[place - 1];
    let (time, (module, recipe)) = match rng.below(5) {
        // An earlier time.
        0 => {
            let time = edge_or_between(rng, 0, before.time.checked_sub(1)?);
            (time, begun(rng, draft, time, |_| true)?)
        }
        // The same time and a lower module.
        1 => {
            let lower = |it: &Standard| it.module < before.module;
            (before.time, begun(rng, draft, before.time, lower)?)
        }
        // The same time and module and a lower recipe.
        2 => {
            let lower = |it: &Standard| it.module == before.module && it.recipe < before.recipe;
            (before.time, begun(rng, draft, before.time, lower)?)
        }
        // All three alike.
        3 => (before.time, (before.module, before.recipe)),
        _ => return exchange(&mut draft.units, place),
    };
    let actual = if rng.once_in(2) {
        before.actual
    } else {
        edge_or_between(rng, 0, MOST_OF_A_RECORD)
    };
    let unit = UnitRecord {
        module,
        recipe,
        time,
        actual,
        effective: edge_or_between(rng, 0, actual),
        spare: 0,
    };
    put_at(&mut draft.units, MOST_UNITS, place, unit);
    Some(place)
}

/// A module and a recipe that have a standard in force at the time, one of those that are wanted.
fn begun(
    rng: &mut Prng,
    draft: &Draft,
    time: u64,
    wanted: impl Fn(&Standard) -> bool,
) -> Option<Pair> {
    let pairs: Vec<Pair> = draft
        .standards
        .iter()
        .filter(|standard| wanted(standard) && standard.start <= time)
        .map(|standard| (standard.module, standard.recipe))
        .collect();
    pick_one(rng, &pairs)
}

fn no_opening(rng: &mut Prng, draft: &mut Draft) -> Option<Refusal> {
    let module = edge_or_between(rng, 0, draft.modules.checked_sub(1)?);
    let opening = draft
        .states
        .iter()
        .position(|record| record.module == module)?;
    match rng.below(4) {
        0 => {
            draft.states.clear();
            return Some(Refusal::new(11, NO_LIST, 0));
        }
        1 => draft.states.retain(|record| record.module != module),
        2 => {
            draft.states.remove(opening);
        }
        // The opening comes late, but ahead of the module's next record.
        _ => {
            let mut record = draft.states.remove(opening);
            let next = draft.states.iter().find(|other| other.module == module);
            let end = next.map_or(draft.period, |next| next.time);
            if end < 2 {
                return None;
            }
            record.time = edge_or_between(rng, 1, end - 1);
            let place = draft
                .states
                .partition_point(|other| other.key() < record.key());
            draft.states.insert(place, record);
        }
    }
    Some(Refusal::new(11, NO_LIST, module as usize))
}

/// The place of a standard, once in three of one that is out of sequence too.
fn place_of_standard(rng: &mut Prng, draft: &mut Draft) -> Option<usize> {
    if rng.once_in(3) {
        unsorted_standard(rng, draft)
    } else {
        place(rng, &draft.standards)
    }
}

/// The same of a unit record, once in two.
fn place_of_unit(rng: &mut Prng, draft: &mut Draft) -> Option<usize> {
    if rng.once_in(2) {
        unsorted_unit(rng, draft)
    } else {
        place(rng, &draft.units)
    }
}

fn no_time(rng: &mut Prng, draft: &mut Draft) -> Option<Refusal> {
    let place = place_of_standard(rng, draft)?;
    draft.standards[place].theoretical = 0;
    Some(Refusal::new(12, STANDARDS, place))
}

fn twice(rng: &mut Prng, draft: &mut Draft) -> Option<Refusal> {
    let place = copied_standard(rng, draft)?;
    Some(Refusal::new(13, STANDARDS, place))
}

/// The place of a standard made to have module, recipe and start of its neighbour or of one further up.
fn copied_standard(rng: &mut Prng, draft: &mut Draft) -> Option<usize> {
    let place = later_place(rng, &draft.standards, MOST_STANDARDS)?;
    let first = if rng.once_in(3) {
        place - 1
    } else {
        rng.index(place)
    };
    let copy = Standard {
        theoretical: edge_or_between(rng, 1, LONGEST_THEORETICAL),
        ..draft.standards[first]
    };
    put_at(&mut draft.standards, MOST_STANDARDS, place, copy);
    Some(place)
}

/// A standard with several faults, or with one and another of the standard behind it: the first that is tested for decides.
fn standards_of_several(rng: &mut Prng, draft: &mut Draft) -> Option<Refusal> {
    let (place, by_key) = match rng.below(3) {
        0 => (place(rng, &draft.standards)?, None),
        1 => (copied_standard(rng, draft)?, Some(13)),
        _ => (unsorted_standard(rng, draft)?, Some(19)),
    };
    let mut standard = draft.standards[place];
    let by_value = spoil(rng, draft, &mut standard);
    draft.standards[place] = standard;
    if rng.once_in(2) {
        let behind = faulty_behind(rng, draft, place);
        let count = draft.standards.len();
        if place + 1 < count {
            draft.standards[place + 1] = behind;
        } else if (count as u64) < MOST_STANDARDS {
            draft.standards.push(behind);
        }
    }
    let number = by_value.or(by_key)?;
    Some(Refusal::new(number, STANDARDS, place))
}

/// Puts no fault, one or any of them into the standard's own values; the first of them that is tested for.
fn spoil(rng: &mut Prng, draft: &Draft, standard: &mut Standard) -> Option<u64> {
    let mut numbers = OF_A_STANDARD.to_vec();
    match rng.below(3) {
        0 => numbers.clear(),
        1 => numbers = vec![rng.pick(&numbers)],
        _ => numbers.retain(|_| rng.once_in(2)),
    }
    let mut first = None;
    for number in numbers {
        match number {
            6 => standard.spare = spare_bits(rng, 2),
            7 => match stray(rng, draft) {
                Some(stray) => standard.module = stray,
                None => continue,
            },
            9 => standard.start = late(rng, draft),
            _ => standard.theoretical = 0,
        }
        first = first.or(Some(number));
    }
    first
}

/// What stands behind a faulty standard: one like it or like one further up, one below it, or one with faults of its own.
fn faulty_behind(rng: &mut Prng, draft: &Draft, place: usize) -> Standard {
    let faulty = draft.standards[place];
    let mut behind = match rng.below(3) {
        0 => draft.standards[rng.index(place + 1)],
        1 => lower_standard(rng, draft.period, &faulty).unwrap_or(faulty),
        _ => *draft.standards.get(place + 1).unwrap_or(&faulty),
    };
    spoil(rng, draft, &mut behind);
    behind
}

fn over_good(rng: &mut Prng, draft: &mut Draft) -> Option<Refusal> {
    let place = place_of_unit(rng, draft)?;
    let unit = &mut draft.units[place];
    if unit.actual == MOST_OF_A_RECORD {
        return None;
    }
    unit.effective = edge_or_between(rng, unit.actual + 1, MOST_OF_A_RECORD);
    Some(Refusal::new(14, UNITS, place))
}

/// A unit of a module and recipe that have no standard, or none that has begun.
fn no_standard(rng: &mut Prng, draft: &mut Draft) -> Option<Refusal> {
    let modules = draft.modules.min(MOST_MODULES);
    let place = if draft.units.is_empty() {
        let (module, recipe) = (rng.below(modules), rng.below(LAST_RECIPE + 1));
        let time = rng.below(draft.period.max(1));
        let actual = edge_or_between(rng, 0, MOST_OF_A_RECORD);
        draft.unit(module, recipe, time, actual, actual);
        0
    } else {
        place_of_unit(rng, draft)?
    };
    let unit = draft.units[place];
    let own = (unit.module, unit.recipe);
    let ((module, recipe), time) = match rng.below(5) {
        // Ahead of the first start.
        0 => {
            let of_both = |standard: &&Standard| (standard.module, standard.recipe) == own;
            let starts = draft.standards.iter().filter(of_both).map(|it| it.start);
            let earliest = starts.min()?.checked_sub(1)?;
            (own, edge_or_between(rng, 0, earliest))
        }
        // A recipe that the module has no standard of.
        1 => {
            let unused = unused_recipe(rng, draft, unit.module);
            ((unit.module, unused), unit.time)
        }
        // A recipe that another module has a standard of.
        2 => {
            let (_, recipe) = begun(rng, draft, unit.time, |it| it.module != unit.module)?;
            ((unit.module, recipe), unit.time)
        }
        // Another module.
        3 => ((rng.below(modules), unit.recipe), unit.time),
        // What a table would keep in the place of one that has a standard.
        _ => {
            let one = begun(rng, draft, unit.time, |_| true)?;
            let sharing = Table::any(rng).sharing(modules, one);
            (pick_one(rng, &sharing)?, unit.time)
        }
    };
    if in_force(draft, module, recipe, time).is_some() {
        return None;
    }
    draft.units[place] = UnitRecord {
        module,
        recipe,
        time,
        ..unit
    };
    begin_later(rng, draft, (module, recipe), time);
    Some(Refusal::new(15, UNITS, place))
}

/// Once in two, and where there is place for it and none yet, a standard of the module and recipe that starts after the time.
fn begin_later(rng: &mut Prng, draft: &mut Draft, pair: Pair, time: u64) {
    let room = (draft.standards.len() as u64) < MOST_STANDARDS && time + 1 < draft.period;
    let (module, recipe) = pair;
    if room && !has_standard(draft, module, recipe) && rng.once_in(2) {
        let start = edge_or_between(rng, time + 1, draft.period - 1);
        let theoretical = edge_or_between(rng, 1, LONGEST_THEORETICAL);
        add_standard(draft, pair, start, theoretical);
    }
}

/// Production time that the module's actual units leave.
fn room_of(draft: &Draft, module: u64) -> Option<u64> {
    let mut room = *production_times_of_any(draft)?.get(module as usize)?;
    for unit in draft.units.iter().filter(|unit| unit.module == module) {
        let theoretical = in_force(draft, module, unit.recipe, unit.time)?;
        room = room.checked_sub(unit.actual * theoretical)?;
    }
    Some(room)
}

/// Production times, none where an earlier fault leaves them undefined.
fn production_times_of_any(draft: &Draft) -> Option<Vec<u64>> {
    let known = draft
        .states
        .iter()
        .all(|record| record.module < draft.modules);
    let rising = draft
        .states
        .windows(2)
        .all(|pair| pair[0].time <= pair[1].time);
    let inside = draft
        .states
        .last()
        .is_none_or(|last| last.time <= draft.period);
    (known && rising && inside && draft.period > 0).then(|| production_times(draft))
}

fn too_fast(rng: &mut Prng, draft: &mut Draft) -> Option<Refusal> {
    if !can_fill(draft) {
        return raise_to_most(rng, draft);
    }
    let module = edge_or_between(rng, 0, draft.modules.min(MOST_MODULES).checked_sub(1)?);
    let room = room_of(draft, module)?;
    match rng.below(60) {
        0 => far_too_fast(rng, draft, module)?,
        // 1 ms too much.
        1..=20 => fill(rng, draft, module, room + 1),
        _ => {
            // Enough units of a standard that is long enough.
            let shortest = room / MOST_OF_A_RECORD + 1;
            let theoretical = edge_or_between(rng, shortest, LONGEST_THEORETICAL);
            let actual = edge_or_between(rng, room / theoretical + 1, MOST_OF_A_RECORD);
            let start = rng.below(draft.period);
            let recipe = new_standard(rng, draft, module, start, theoretical);
            let time = rng.between(start, draft.period - 1);
            add_units(draft, module, recipe, time, actual);
        }
    }
    Some(Refusal::new(16, NO_LIST, module as usize))
}

/// Adds a standard of a recipe that the module has none of.
fn new_standard(
    rng: &mut Prng,
    draft: &mut Draft,
    module: u64,
    start: u64,
    theoretical: u64,
) -> u64 {
    let recipe = unused_recipe(rng, draft, module);
    add_standard(draft, (module, recipe), start, theoretical);
    recipe
}

/// Adds a unit record, none of its units effective.
fn add_units(draft: &mut Draft, module: u64, recipe: u64, time: u64, actual: u64) {
    let unit = UnitRecord {
        module,
        recipe,
        time,
        actual,
        effective: 0,
        spare: 0,
    };
    add_unit(draft, unit);
}

/// So many units, a record each ms, that the module's sum, and with it the tool's, passes 2^53.
fn far_too_fast(rng: &mut Prng, draft: &mut Draft, module: u64) -> Option<()> {
    let start = rng.below(draft.period.checked_sub(MOST_UNITS)?);
    let recipe = new_standard(rng, draft, module, start, LONGEST_THEORETICAL);
    let mut time = start;
    while (draft.units.len() as u64) < MOST_UNITS {
        add_units(draft, module, recipe, time, MOST_OF_A_RECORD);
        time += 1;
    }
    Some(())
}

/// In a full list, the units of one record raised as far as they go.
fn raise_to_most(rng: &mut Prng, draft: &mut Draft) -> Option<Refusal> {
    let place = place(rng, &draft.units)?;
    let unit = draft.units[place];
    let theoretical = in_force(draft, unit.module, unit.recipe, unit.time)?;
    let added = (MOST_OF_A_RECORD - unit.actual) * theoretical;
    if added <= room_of(draft, unit.module)? {
        return None;
    }
    draft.units[place].actual = MOST_OF_A_RECORD;
    Some(Refusal::new(16, NO_LIST, unit.module as usize))
}

//! The generator makes what it says, and every shape of log that document 01 names.

use difftest::credited::Credited;
use difftest::draft::Draft;
use difftest::generator::runs::records;
use difftest::generator::{make, Expected};
use difftest::losses::{shares, Bar, WHOLE};
use difftest::oracle::{account, in_force, read, standard_of, Account, Log, Quantities};
use difftest::prng::Prng;
use difftest::records::*;
use difftest::tally::Tally;
use std::collections::{BTreeMap, BTreeSet};

const LOGS: u64 = 30_000;

#[test]
fn the_oracle_answers_what_the_generator_expects() {
    let mut tally = Tally::default();
    for index in 0..LOGS {
        let made = make(3, index);
        let verdict = account(&made.bytes);
        tally.count(&verdict);
        tally.count_losses(&verdict);
        tally.count_credited(&Credited::of(&made.bytes, &verdict));
        let expected = made.expected;
        assert!(
            expected.agrees(&verdict),
            "log {index}: {expected:?}, {:?}",
            verdict.err()
        );
    }
    assert!(tally.never_met().is_empty(), "{:?}", tally.never_met());
    let of_bars = tally.never_met_in_losses();
    assert!(of_bars.is_empty(), "{of_bars:?}");
    let of_credited = tally.never_met_in_credited();
    assert!(of_credited.is_empty(), "{of_credited:?}");
}

#[test]
fn a_log_can_be_made_again() {
    for index in 0..100 {
        assert_eq!(make(5, index).bytes, make(5, index).bytes);
    }
    assert_ne!(make(5, 0).bytes, make(6, 0).bytes);
}

fn all_met(met: &BTreeSet<String>, due: impl IntoIterator<Item = String>) {
    let missed: Vec<String> = due.into_iter().filter(|it| !met.contains(it)).collect();
    assert!(missed.is_empty(), "never made: {missed:?}");
}

/// The logs of a seed whose refusal is known, with it.
fn refused(seed: u64, mut tell: impl FnMut(&[u8], Refusal)) {
    for index in 0..LOGS {
        let made = make(seed, index);
        if let Expected::Refused(refusal) = made.expected {
            tell(&made.bytes, refusal);
        }
    }
}

/// How the record that a log is refused at breaks the rising sequence: by which of its key's fields, by it alone where none behind it is lower, and
/// where in the list. Nothing where it does not.
fn breaches(log: &Log, refusal: Refusal) -> Vec<String> {
    let Refusal {
        number,
        list,
        place,
    } = refusal;
    let at = place as usize;
    let keys: Vec<Vec<u64>> = match list {
        STATES => {
            let key = |it: &StateRecord| vec![it.time, it.module];
            log.states.iter().map(key).collect()
        }
        STANDARDS => {
            let key = |it: &Standard| vec![it.module, it.recipe, it.start];
            log.standards.iter().map(key).collect()
        }
        UNITS => {
            let key = |it: &UnitRecord| vec![it.time, it.module, it.recipe];
            log.units.iter().map(key).collect()
        }
        _ => return Vec::new(),
    };
    if at == 0 {
        return Vec::new();
    }
    let (before, own) = (&keys[at - 1], &keys[at]);
    let parting = (0..own.len()).find(|&field| own[field] != before[field]);
    let mut ways = match parting {
        None => vec![String::from("alike")],
        Some(field) if own[field] < before[field] => {
            let mut ways = vec![format!("by field {field}")];
            let mut behind = own.iter().zip(before).skip(field + 1);
            if behind.clone().all(|(own, before)| own >= before) {
                ways.push(format!("by field {field} alone"));
            }
            if behind.len() > 0 && behind.all(|(own, before)| own == before) {
                ways.push(format!("by field {field}, equal behind it"));
            }
            ways
        }
        Some(_) => return Vec::new(),
    };
    if parting.is_some() && keys[..at].contains(own) {
        ways.iter_mut()
            .for_each(|way| *way += ", as one further up");
    }
    let position = match at {
        1 => "second",
        _ if at + 1 == keys.len() => "last",
        _ => "middle",
    };
    let named = |way| format!("{number} list {list} {way}, {position}");
    ways.into_iter().map(named).collect()
}

/// Each way to break the sequence of each list, alone and with a ground that is tested ahead of it, at the second record, in the middle and at the last.
#[test]
fn every_breach_is_met() {
    let mut met = BTreeSet::new();
    refused(8, |bytes, refusal| {
        if let Ok(log) = read(bytes) {
            met.extend(breaches(&log, refusal));
        }
    });
    let ways = [
        "10 list 1 by field 0",
        "10 list 1 by field 1",
        "10 list 1 by field 1, as one further up",
        "10 list 1 alike",
        "6 list 2 by field 0",
        "6 list 2 by field 1",
        "6 list 2 by field 2",
        // A start outside is no earlier one.
        "9 list 2 by field 0",
        "9 list 2 by field 1",
        "12 list 2 by field 0",
        "12 list 2 by field 1",
        "12 list 2 by field 2",
        "13 list 2 alike",
        "13 list 2 by field 0, as one further up",
        "13 list 2 by field 1, as one further up",
        "13 list 2 by field 2, as one further up",
        "19 list 2 by field 0",
        "19 list 2 by field 0 alone",
        // Recipe and start are the neighbour's, which is no 13.
        "19 list 2 by field 0, equal behind it",
        "19 list 2 by field 1",
        "19 list 2 by field 1 alone",
        "19 list 2 by field 1, equal behind it",
        "19 list 2 by field 2",
        "14 list 3 by field 0",
        "14 list 3 by field 1",
        "14 list 3 by field 2",
        "14 list 3 alike",
        "15 list 3 by field 0",
        "15 list 3 by field 1",
        "15 list 3 by field 2",
        "19 list 3 by field 0",
        "19 list 3 by field 1",
        "19 list 3 by field 2",
        "19 list 3 alike",
    ];
    let mut due = Vec::new();
    for way in ways {
        for position in ["second", "middle", "last"] {
            // The second record has only its neighbour further up.
            if !(position == "second" && way.contains("further up")) {
                due.push(format!("{way}, {position}"));
            }
        }
    }
    all_met(&met, due);
}

/// Every ground that a standard meets, tested by itself.
fn grounds(log: &Log, place: usize) -> BTreeSet<u64> {
    let key = |it: &Standard| (it.module, it.recipe, it.start);
    let standard = &log.standards[place];
    let earlier: Vec<_> = log.standards[..place].iter().map(key).collect();
    let all = [
        (6, standard.spare != 0),
        (7, standard.module >= log.header.modules),
        (9, standard.start >= log.header.period),
        (12, standard.theoretical == 0),
        (13, earlier.contains(&key(standard))),
        (
            19,
            earlier.last().is_some_and(|last| key(standard) <= *last),
        ),
    ];
    let met = all.into_iter().filter(|(_, meets)| *meets);
    met.map(|(number, _)| number).collect()
}

/// Every set of grounds in one standard, and every two in two neighbours: the first of the sequence and of the list decides.
#[test]
fn faults_of_standards_meet_each_other() {
    let mut met = BTreeSet::new();
    refused(10, |bytes, refusal| {
        let Ok(log) = read(bytes) else {
            return;
        };
        if refusal.list != STANDARDS {
            return;
        }
        let place = refusal.place as usize;
        let own = grounds(&log, place);
        assert_eq!(own.first(), Some(&refusal.number));
        met.insert(format!("{own:?}"));
        if place + 1 < log.standards.len() {
            if let Some(later) = grounds(&log, place + 1).first() {
                met.insert(format!("{}, then {later}", refusal.number));
            }
        }
    });
    let mut due = Vec::new();
    let mut sets = |of_values: &[u64], of_the_key: &[u64]| {
        for set in 0..1 << of_values.len() {
            let chosen = (0..of_values.len()).filter(|at| set >> at & 1 == 1);
            let mut numbers: BTreeSet<u64> = chosen.map(|at| of_values[at]).collect();
            numbers.extend(of_the_key);
            if !numbers.is_empty() {
                due.push(format!("{numbers:?}"));
            }
        }
    };
    sets(&[6, 7, 9, 12], &[]);
    // Above every module that passed it is in sequence, and a start outside is no earlier standard's.
    sets(&[6, 9, 12], &[19]);
    sets(&[6, 12], &[13, 19]);
    let numbers = [6, 7, 9, 12, 13, 19];
    let pairs = numbers.map(|first| numbers.map(|later| format!("{first}, then {later}")));
    due.extend(pairs.concat());
    all_met(&met, due);
}

/// Each spare bit of each kind of record alone, and the lowest and the highest module that is too high, at the first record, in the middle and at the last.
#[test]
fn every_spare_bit_and_stray_module_is_met() {
    let mut met = BTreeSet::new();
    refused(11, |bytes, refusal| {
        let Ok(log) = read(bytes) else {
            return;
        };
        let Refusal {
            number,
            list,
            place,
        } = refusal;
        let at = place as usize;
        let (count, spare, module) = match list {
            STATES => (
                log.states.len(),
                log.states[at].spare,
                log.states[at].module,
            ),
            STANDARDS => {
                let standard = log.standards[at];
                (log.standards.len(), standard.spare, standard.module)
            }
            UNITS => (log.units.len(), log.units[at].spare, log.units[at].module),
            _ => return,
        };
        let position = match at {
            0 => "first",
            _ if at + 1 == count => "last",
            _ => "middle",
        };
        let modules = log.header.modules;
        let fault = match number {
            6 => format!("spare {spare}"),
            7 if module == modules && module == 63 => String::from("both"),
            7 if module == modules => String::from("the count"),
            7 if module == 63 => String::from("63"),
            _ => return,
        };
        met.insert(format!("{number} list {list} {fault}, {position}"));
    });
    let mut due = Vec::new();
    for position in ["first", "middle", "last"] {
        for (list, width) in [(STATES, 2), (STANDARDS, 2), (UNITS, 5)] {
            for bit in 0..width {
                due.push(format!("6 list {list} spare {}, {position}", 1 << bit));
            }
            due.push(format!("7 list {list} the count, {position}"));
            due.push(format!("7 list {list} 63, {position}"));
        }
        due.push(format!("6 list {STANDARDS} spare 3, {position}"));
    }
    all_met(&met, due);
}

/// Logs whose header is right and whose length is not.
#[test]
fn every_wrong_length_is_met() {
    let mut met = BTreeSet::new();
    refused(12, |bytes, refusal| {
        if refusal != Refusal::of_log(5) {
            return;
        }
        let Some(Record::Header([_, _, states, standards, units])) =
            records(bytes).first().copied()
        else {
            return;
        };
        let length = bytes.len() as u64;
        let due = 10 + 6 * states + 10 * standards + 11 * units;
        let mut note = |name: &str, has: bool| {
            if has {
                met.insert(String::from(name));
            }
        };
        note(
            "9 bytes for each of several standards",
            standards > 1 && length + standards == due,
        );
        note("a byte short", standards != 1 && length + 1 == due);
        note("a byte long", length == due + 1);
        note("the header alone", length == 10 && due > 10);
        note("longer than any", length > 63_130);
    });
    all_met(
        &met,
        [
            "9 bytes for each of several standards",
            "a byte short",
            "a byte long",
            "the header alone",
            "longer than any",
        ]
        .map(String::from),
    );
}

/// Why a unit has no standard: its module and recipe have none, or none that has begun; and what others have begun: those of its recipe at a lower
/// module, ahead of its own in the list, those at a higher one, behind it, and those of other recipes at its own module.
fn lack(log: &Log, unit: &UnitRecord) -> String {
    let any = |wanted: &dyn Fn(&Standard) -> bool| log.standards.iter().any(wanted);
    let begun = |it: &Standard| it.start <= unit.time;
    let own = any(&|it| it.module == unit.module && it.recipe == unit.recipe);
    let of_both = if own { "none has begun" } else { "none" };
    let lower = any(&|it| begun(it) && it.recipe == unit.recipe && it.module < unit.module);
    let higher = any(&|it| begun(it) && it.recipe == unit.recipe && it.module > unit.module);
    let others = any(&|it| begun(it) && it.recipe != unit.recipe && it.module == unit.module);
    format!("{of_both}, lower {lower}, higher {higher}, other recipes {others}")
}

#[test]
fn every_lack_of_a_standard_is_met() {
    let mut met = BTreeSet::new();
    for index in 0..LOGS {
        let made = make(9, index);
        if let (Err(refusal), Ok(log)) = (account(&made.bytes), read(&made.bytes)) {
            if refusal.number == 15 {
                let unit = &log.units[refusal.place as usize];
                met.insert(lack(&log, unit));
                // What a lookup in a table would find that asks for the place alone.
                for table in tables() {
                    let shares = |it: &Standard| {
                        it.start <= unit.time
                            && table.place(it.module, it.recipe)
                                == table.place(unit.module, unit.recipe)
                    };
                    if log.standards.iter().any(shares) {
                        met.insert(table.name());
                    }
                }
            }
        }
    }
    let mut due: Vec<String> = tables().iter().map(Table::name).collect();
    for own in ["none", "none has begun"] {
        for others in 0..8 {
            let [lower, higher, recipes] = [1, 2, 4].map(|bit| others & bit != 0);
            due.push(format!(
                "{own}, lower {lower}, higher {higher}, other recipes {recipes}"
            ));
        }
    }
    all_met(&met, due);
}

/// A table of so many places, in which a module and a recipe have the place recipe + factor * module.
#[derive(Clone, Copy)]
struct Table {
    size: u64,
    factor: u64,
}

impl Table {
    fn place(&self, module: u64, recipe: u64) -> u64 {
        (recipe + self.factor * module) % self.size
    }

    fn name(&self) -> String {
        format!("{} places by {}", self.size, self.factor)
    }
}

fn tables() -> Vec<Table> {
    let factors = [1, 2, 4, 8, 16, 17, 31, 32, 64, 512, 1_024];
    let of_size = |size| factors.map(|factor| Table { size, factor });
    [1_024, 2_048, 4_096].map(of_size).concat()
}

/// R-1's promise: the records of an accepted log in another sequence are no accepted log.
#[test]
fn the_same_records_are_the_same_bytes() {
    let mut other_bytes = 0;
    for index in 0..LOGS {
        let bytes = make(9, index).bytes;
        if account(&bytes).is_err() {
            continue;
        }
        let mut draft = Draft::of(read(&bytes).expect("an accepted log"));
        let mut rng = Prng::new(9, index);
        match index % 3 {
            0 => rng.shuffle(&mut draft.states),
            1 => rng.shuffle(&mut draft.standards),
            _ => rng.shuffle(&mut draft.units),
        }
        let number = if index % 3 == 0 { 10 } else { 19 };
        let refused = account(&draft.bytes()).err().map(|refusal| refusal.number);
        let same = draft.bytes() == bytes;
        assert_eq!(refused, (!same).then_some(number), "log {index}");
        other_bytes += u64::from(!same);
    }
    assert!(other_bytes > LOGS / 5);
}

/// Which modules have which standards, and units that a lookup by less than module and recipe would judge otherwise.
fn shapes_of_standards(log: &Log, note: &mut impl FnMut(&str, bool)) {
    let mut of_module: BTreeMap<u64, Vec<&Standard>> = BTreeMap::new();
    for standard in &log.standards {
        of_module.entry(standard.module).or_default().push(standard);
    }
    let recipes = |standards: &Vec<&Standard>| -> BTreeSet<u64> {
        standards.iter().map(|standard| standard.recipe).collect()
    };
    let each = |has: &dyn Fn(&Vec<&Standard>) -> bool| of_module.values().any(has);
    note(
        "64 modules of 8 standards each",
        of_module.len() == 64 && of_module.values().all(|own| own.len() == 8),
    );
    note(
        "one module alone, two hundred revisions of a recipe",
        of_module.len() == 1 && log.standards.len() >= 200 && each(&|own| recipes(own).len() == 1),
    );
    note(
        "few of several modules, a hundred recipes of one",
        of_module.len() <= 4 && log.header.modules > 4 && each(&|own| recipes(own).len() >= 100),
    );
    note(
        "modules with standards and without",
        !of_module.is_empty() && (of_module.len() as u64) < log.header.modules,
    );
    note(
        "every module of several with standards",
        of_module.len() > 1 && of_module.len() as u64 == log.header.modules,
    );
    note(
        "the lowest recipes of a module, eight or more",
        each(&|own| {
            recipes(own).len() >= 8 && recipes(own).into_iter().eq(0..recipes(own).len() as u64)
        }),
    );
    note(
        "recipes of a module all over the field, eight or more",
        each(&|own| {
            let of_eighth: BTreeSet<u64> = recipes(own).iter().map(|recipe| recipe / 128).collect();
            of_eighth.len() == 8
        }),
    );

    // Units made, with the theoretical time that judges them.
    let made = log.units.iter().filter(|unit| unit.actual > 0);
    let judged: Vec<(&UnitRecord, u64)> = made
        .map(|unit| (unit, standard_of(log, unit).theoretical))
        .collect();
    let otherwise = |module: u64, recipe: u64, time: u64, theoretical: u64| {
        in_force(&log.standards, module, recipe, time)
            .is_some_and(|standard| standard.theoretical != theoretical)
    };
    for (unit, theoretical) in &judged {
        let UnitRecord {
            module,
            recipe,
            time,
            ..
        } = **unit;
        for other in of_module.keys() {
            note(
                "unit that a lower module's standard would judge otherwise",
                *other < module && otherwise(*other, recipe, time, *theoretical),
            );
            note(
                "unit that a higher module's standard would judge otherwise",
                *other > module && otherwise(*other, recipe, time, *theoretical),
            );
        }
        for other in recipes(&of_module[&module]) {
            note(
                "unit that a lower recipe's standard would judge otherwise",
                other < recipe && otherwise(module, other, time, *theoretical),
            );
            note(
                "unit that a higher recipe's standard would judge otherwise",
                other > recipe && otherwise(module, other, time, *theoretical),
            );
        }
    }
    for table in tables() {
        let mut of_place = BTreeMap::new();
        for (unit, theoretical) in &judged {
            let own = (unit.module, unit.recipe);
            let (other, time) = of_place
                .entry(table.place(unit.module, unit.recipe))
                .or_insert((own, *theoretical));
            note(&table.name(), *other != own && time != theoretical);
        }
    }
}

/// Every two parts of which the earlier wins a tie, and those that win by a little; and whose bar has a tie.
fn shapes_of_bars(account: &Account, note: &mut impl FnMut(&str, bool)) {
    for sums in account.modules.iter().chain([&account.tool]) {
        let quantities = &sums.quantities;
        let total = u128::from(quantities.total);
        let exact = shares(quantities).map(|share| u128::from(WHOLE) * u128::from(share));
        let parts = Bar::of(quantities).parts.map(u128::from);
        let gets_one = |part: usize| parts[part] > exact[part] / total;
        for (one, other) in (0..25).map(|pair| (pair / 5, pair % 5)) {
            if !gets_one(one) || gets_one(other) {
                continue;
            }
            let (more, less) = (exact[one] % total, exact[other] % total);
            note(&format!("part {one} ahead of {other}"), more == less);
            // By less than a millionth of a ten-thousandth.
            let little = more > less && (more - less) * 1_000_000 < total;
            note(&format!("part {one} a little above {other}"), little);
        }
    }
    let bars = account.bars();
    let tied: Vec<bool> = bars.iter().map(|bar| bar.tie.is_some()).collect();
    let (of_tool, of_modules) = tied.split_last().expect("the tool's");
    note(
        "tie of the tool alone",
        *of_tool && !of_modules.contains(&true),
    );
    note(
        "tie of some modules",
        of_modules.contains(&true) && of_modules.contains(&false),
    );
}

/// How many units standards are credited with, and revisions that are told apart by little.
fn shapes_of_revisions(log: &Log, units: &[u64], note: &mut impl FnMut(&str, bool)) {
    for digits in 1..=9 {
        let name = format!("credited units of {digits} digits");
        let of_digits = |units: &u64| units.to_string().len() == digits;
        note(&name, units.iter().any(of_digits));
    }
    let all: u64 = units.iter().sum();
    note(
        "all of the most units at one of two standards",
        all == MOST_UNITS * 65_535 && units.len() == 2 && units.contains(&all),
    );
    note(
        "512 standards, all with units",
        units.len() == 512 && !units.contains(&0),
    );
    note(
        "standards without units, several",
        units.len() > 1 && all == 0,
    );
    let credited: Vec<(&Standard, &u64)> = log.standards.iter().zip(units).collect();
    let mut next = |name: &str, has: &dyn Fn(&Standard, &Standard) -> bool| {
        let has = credited.windows(2).any(|pair| {
            let [(one, units), (other, more)] = [pair[0], pair[1]];
            let of_both = (one.module, one.recipe) == (other.module, other.recipe);
            of_both && *units > 0 && *more > 0 && has(one, other)
        });
        note(name, has);
    };
    next(
        "units on both of two revisions of one time",
        &|one, other| one.theoretical == other.theoretical,
    );
    next(
        "units on a revision of 1 ms and on the next",
        &|one, other| one.start + 1 == other.start,
    );
}

/// Names of the shapes that an accepted log has.
fn shapes(log: &Log, account: &Account, units: &[u64]) -> Vec<String> {
    let mut shapes = vec![format!("{} modules", log.header.modules)];
    let mut note = |name: &str, has: bool| {
        if has {
            shapes.push(String::from(name));
        }
    };
    let header = log.header;
    note("period 1", header.period == 1);
    note("longest period", header.period == LONGEST_PERIOD);
    note("most states", header.states == MOST_STATES);
    note("most standards", header.standards == MOST_STANDARDS);
    note("most units", header.units == MOST_UNITS);
    note("longest log", {
        [header.states, header.standards, header.units] == [MOST_STATES, MOST_STANDARDS, MOST_UNITS]
    });
    note("no standards", header.standards == 0);
    note("no units", header.units == 0);

    let sums = |has: &dyn Fn(&Quantities) -> bool| {
        account.modules.iter().any(|module| has(&module.quantities))
    };
    note(
        "rate of 1",
        sums(&|q| q.production > 0 && q.actual == q.production),
    );
    note("no uptime", sums(&|q| q.uptime == 0));
    note("no uptime of the tool", account.tool.quantities.uptime == 0);
    note(
        "uptime without production",
        sums(&|q| q.uptime > 0 && q.production == 0),
    );
    note(
        "production without units",
        sums(&|q| q.production > 0 && q.actual == 0),
    );
    note(
        "units without good ones",
        sums(&|q| q.actual > 0 && q.effective == 0),
    );

    note("an exact half in the fifth place", {
        sums(&|q| {
            let half =
                |n: u64, d: u64| d > 0 && (20_000 * n).is_multiple_of(d) && 20_000 * n / d % 2 == 1;
            half(q.uptime, q.total) || half(q.actual, q.production) || half(q.effective, q.total)
        })
    });

    shapes_of_bars(account, &mut note);
    shapes_of_revisions(log, units, &mut note);

    // Neighbours in sequence that a field behind the first parts, or would part the other way.
    note("states of one time", {
        let in_turn =
            |pair: &[StateRecord]| pair[0].time == pair[1].time && pair[0].module < pair[1].module;
        log.states.windows(2).any(in_turn)
    });
    note("states, a later time and a lower module", {
        let back =
            |pair: &[StateRecord]| pair[0].time < pair[1].time && pair[0].module > pair[1].module;
        log.states.windows(2).any(back)
    });
    let standards = |has: &dyn Fn(&Standard, &Standard) -> bool| {
        log.standards.windows(2).any(|pair| has(&pair[0], &pair[1]))
    };
    note(
        "standards of one module and recipe",
        standards(&|a, b| a.module == b.module && a.recipe == b.recipe && a.start < b.start),
    );
    note(
        "standards of one module, a higher recipe and an earlier start",
        standards(&|a, b| a.module == b.module && a.recipe < b.recipe && a.start > b.start),
    );
    note(
        "standards, a higher module and a lower recipe",
        standards(&|a, b| a.module < b.module && a.recipe > b.recipe),
    );
    note(
        "standards of one recipe, a higher module and an earlier start",
        standards(&|a, b| a.module < b.module && a.recipe == b.recipe && a.start > b.start),
    );
    note(
        "standards of one recipe and start at two modules",
        standards(&|a, b| a.module < b.module && (a.recipe, a.start) == (b.recipe, b.start)),
    );
    shapes_of_standards(log, &mut note);
    let units = |has: &dyn Fn(&UnitRecord, &UnitRecord) -> bool| {
        log.units.windows(2).any(|pair| has(&pair[0], &pair[1]))
    };
    note(
        "units of one time and module",
        units(&|a, b| a.time == b.time && a.module == b.module && a.recipe < b.recipe),
    );
    note(
        "units of one time, a higher module and a lower recipe",
        units(&|a, b| a.time == b.time && a.module < b.module && a.recipe > b.recipe),
    );
    note(
        "units, a later time, a lower module and a lower recipe",
        units(&|a, b| a.time < b.time && a.module > b.module && a.recipe > b.recipe),
    );
    let own = |standard: &Standard, unit: &UnitRecord| {
        standard.module == unit.module && standard.recipe == unit.recipe
    };
    let at_start_less = |less: u64| {
        log.units.iter().any(|unit| {
            let boundary =
                |standard: &Standard| own(standard, unit) && standard.start == unit.time + less;
            log.standards.iter().any(boundary)
        })
    };
    note("unit at a start", at_start_less(0));
    note("unit 1 ms before a start", at_start_less(1));
    note("later standard in force than the first that covers", {
        log.units.iter().any(|unit| {
            let covers = |standard: &&Standard| own(standard, unit) && standard.start <= unit.time;
            log.standards.iter().find(covers).copied()
                != in_force(&log.standards, unit.module, unit.recipe, unit.time)
        })
    });
    // How far from the end of the standards of its module and recipe a unit's own is.
    let walked = |far: &dyn Fn(&[Standard], &[Standard]) -> bool| {
        log.units.iter().any(|unit| {
            let own = |standard: &&Standard| own(standard, unit);
            let of_both: Vec<Standard> = log.standards.iter().filter(own).copied().collect();
            let begun = of_both.partition_point(|standard| standard.start <= unit.time);
            far(&of_both[..begun], &of_both[begun..])
        })
    };
    note(
        "unit on the last of fifty revisions",
        walked(&|begun, to_come| begun.len() >= 50 && to_come.is_empty()),
    );
    note(
        "unit on the first of fifty revisions",
        walked(&|begun, to_come| begun.len() == 1 && to_come.len() >= 49),
    );
    note(
        "unit amid revisions",
        walked(&|begun, to_come| begun.len() >= 10 && to_come.len() >= 10),
    );
    note(
        "unit on the first standard of the list, others behind it",
        walked(&|begun, to_come| begun == &log.standards[..1] && !to_come.is_empty()),
    );
    note(
        "unit amid two hundred revisions",
        walked(&|begun, to_come| begun.len() >= 60 && begun.len() + to_come.len() >= 200),
    );
    note(
        "record of the greatest unit count",
        log.units.iter().any(|unit| unit.actual == 65_535),
    );
    shapes.extend(
        log.states
            .iter()
            .map(|record| format!("code {}", record.code)),
    );
    shapes
}

#[test]
fn every_shape_is_met() {
    let mut met = BTreeSet::new();
    for index in 0..LOGS {
        let bytes = make(4, index).bytes;
        let verdict = account(&bytes);
        if let Ok(account) = &verdict {
            let log = read(&bytes).expect("an accepted log");
            let entries = Credited::of(&bytes, &verdict)
                .expect("an accepted log")
                .entries();
            met.extend(shapes(&log, account, &entries[..log.standards.len()]));
        }
    }
    let mut due: Vec<String> = (1..=64).map(|count| format!("{count} modules")).collect();
    due.extend((0..24).map(|code| format!("code {code}")));
    due.extend((1..=9).map(|digits| format!("credited units of {digits} digits")));
    due.extend(tables().iter().map(Table::name));
    for (one, other) in (0..25).map(|pair| (pair / 5, pair % 5)) {
        if one < other {
            due.push(format!("part {one} ahead of {other}"));
        }
        if one != other {
            due.push(format!("part {one} a little above {other}"));
        }
    }
    due.extend(
        [
            "period 1",
            "longest period",
            "most states",
            "most standards",
            "most units",
            "longest log",
            "no standards",
            "no units",
            "rate of 1",
            "no uptime",
            "no uptime of the tool",
            "uptime without production",
            "production without units",
            "units without good ones",
            "an exact half in the fifth place",
            "tie of the tool alone",
            "tie of some modules",
            "all of the most units at one of two standards",
            "512 standards, all with units",
            "standards without units, several",
            "units on both of two revisions of one time",
            "units on a revision of 1 ms and on the next",
            "states of one time",
            "states, a later time and a lower module",
            "standards of one module and recipe",
            "standards of one module, a higher recipe and an earlier start",
            "standards, a higher module and a lower recipe",
            "standards of one recipe, a higher module and an earlier start",
            "standards of one recipe and start at two modules",
            "64 modules of 8 standards each",
            "one module alone, two hundred revisions of a recipe",
            "few of several modules, a hundred recipes of one",
            "modules with standards and without",
            "every module of several with standards",
            "the lowest recipes of a module, eight or more",
            "recipes of a module all over the field, eight or more",
            "unit that a lower module's standard would judge otherwise",
            "unit that a higher module's standard would judge otherwise",
            "unit that a lower recipe's standard would judge otherwise",
            "unit that a higher recipe's standard would judge otherwise",
            "units of one time and module",
            "units of one time, a higher module and a lower recipe",
            "units, a later time, a lower module and a lower recipe",
            "unit at a start",
            "unit 1 ms before a start",
            "later standard in force than the first that covers",
            "unit on the last of fifty revisions",
            "unit on the first of fifty revisions",
            "unit amid revisions",
            "unit on the first standard of the list, others behind it",
            "unit amid two hundred revisions",
            "record of the greatest unit count",
        ]
        .map(String::from),
    );
    all_met(&met, due);
}

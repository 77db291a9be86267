//! R-7 on its oracle: listings and lookups by hand, and the units credited by the walk from the end of the list.

use difftest::credited::{look_up, Credited, Lookup};
use difftest::draft::Draft;
use difftest::generator::{lookups, make};
use difftest::oracle::{account, last_in_force, read};
use difftest::records::*;
use difftest::tally::Tally;

fn credited(log: &[u8]) -> Result<Credited, Refusal> {
    Credited::of(log, &account(log))
}

fn listing(log: &[u8]) -> String {
    let listing = credited(log).expect("accepted").listing();
    String::from_utf8(listing).expect("text")
}

/// Two modules over 1,000 ms, productive throughout. Standards 0 to 2 are of module 0 and recipe 5, 3 is of recipe 6; 4 is of module 1 and recipe 5.
fn revised() -> Draft {
    let mut draft = Draft {
        period: 1_000,
        modules: 2,
        ..Draft::default()
    };
    draft.state(0, 0, 0);
    draft.state(1, 0, 0);
    draft.standard(0, 5, 100, 9);
    draft.standard(0, 5, 200, 8);
    draft.standard(0, 5, 300, 7);
    draft.standard(0, 6, 0, 6);
    draft.standard(1, 5, 200, 5);
    draft
}

#[test]
fn units_about_starts() {
    let mut draft = revised();
    // Ahead of a start, at it and behind it; the last ms of the period.
    draft.unit(0, 5, 100, 1, 1);
    draft.unit(0, 5, 199, 2, 0);
    draft.unit(0, 5, 200, 10, 10);
    draft.unit(1, 5, 200, 7, 7);
    draft.unit(0, 5, 201, 20, 19);
    draft.unit(0, 5, 299, 30, 30);
    draft.unit(0, 5, 300, 4, 4);
    draft.unit(0, 5, 999, 5, 5);
    let log = draft.bytes();
    assert_eq!(listing(&log), "0 3\n1 60\n2 9\n3 0\n4 7\n");
    let entries = credited(&log).expect("accepted").entries();
    assert_eq!(entries[..6], [3, 60, 9, 0, 7, 0]);
    assert_eq!(entries[5..], [0; 507]);
}

/// Module, recipe, time, and what is in force.
#[test]
fn lookups_by_hand() {
    let log = credited(&revised().bytes());
    let asked = |module, recipe, time| {
        let lookup = Lookup {
            module,
            recipe,
            time,
        };
        look_up(&log, &lookup)
    };
    let (first, second, third) = (Some([0, 9]), Some([1, 8]), Some([2, 7]));
    for (time, in_force) in [
        (0, None),
        (99, None),
        (100, first),
        (199, first),
        (200, second),
        (299, second),
        (300, third),
        (999, third),
        (1_000, third),
        ((1 << 35) + 100, third),
        (u64::MAX, third),
    ] {
        assert_eq!(asked(0, 5, time), Ok(in_force), "at {time}");
    }
    assert_eq!(asked(0, 6, 0), Ok(Some([3, 6])));
    assert_eq!(asked(1, 5, 199), Ok(None));
    assert_eq!(asked(1, 5, 200), Ok(Some([4, 5])));
    for recipe in [0, 6, 1_023, 1_029, (1 << 16) + 5, (1 << 32) + 5, usize::MAX] {
        assert_eq!(asked(1, recipe, 500), Ok(None), "recipe {recipe}");
    }
    for module in [2, 64, 65, (1 << 32) + 1, usize::MAX] {
        let stray = Err(Refusal::new(7, NO_LIST, module));
        assert_eq!(asked(module, 5, 200), stray);
        // Whatever else is asked.
        assert_eq!(asked(module, 1_024, u64::MAX), stray);
    }
}

/// The log's refusal, whatever is asked.
#[test]
fn refused_logs() {
    let mut draft = revised();
    draft.unit(0, 5, 99, 0, 0);
    let refused = credited(&draft.bytes());
    let ahead_of_all = Refusal::new(15, UNITS, 0);
    assert_eq!(refused.as_ref().err(), Some(&ahead_of_all));
    for module in [0, 2] {
        let lookup = Lookup {
            module,
            recipe: 5,
            time: 200,
        };
        assert_eq!(look_up(&refused, &lookup), Err(ahead_of_all));
    }
}

/// A standard for each module.
#[test]
fn case_w() {
    let path = concat!(env!("CARGO_MANIFEST_DIR"), "/../samples/case-w.log");
    let case_w = std::fs::read(path).expect("a sample");
    assert_eq!(listing(&case_w), "0 280\n1 290\n2 150\n");
}

#[test]
fn without_standards() {
    let mut draft = revised();
    draft.standards.clear();
    let log = draft.bytes();
    assert_eq!(listing(&log), "");
    let credited = credited(&log);
    assert_eq!(credited.as_ref().map(Credited::entries), Ok([0; 512]));
    let lookup = Lookup {
        module: 1,
        recipe: 5,
        time: 200,
    };
    assert_eq!(look_up(&credited, &lookup), Ok(None));
}

/// As many standards, and as many units of one of them, as there may be: no listing is longer than 512 lines of 14 bytes.
#[test]
fn most_standards_and_units() {
    let mut draft = Draft {
        period: LONGEST_PERIOD,
        modules: 1,
        ..Draft::default()
    };
    draft.state(0, 0, 0);
    for start in 0..MOST_STANDARDS {
        draft.standard(0, 1_023, 1_000 * start, 1);
    }
    for unit in 0..MOST_UNITS {
        draft.unit(0, 1_023, 511_000 + unit, 65_535, 0);
    }
    let listing = listing(&draft.bytes());
    let lines: Vec<&str> = listing.lines().collect();
    assert_eq!(lines.len(), 512);
    for (index, line) in lines[..511].iter().enumerate() {
        assert_eq!(*line, format!("{index} 0"));
    }
    assert_eq!(lines[511], "511 131070000");
    assert_eq!(lines[511].len() + 1, 14);
}

/// Each unit counted at the last standard of its module and recipe that has begun.
#[test]
fn credited_by_the_walk() {
    let mut accepted = 0;
    for index in 0..5_000 {
        let bytes = make(15, index).bytes;
        let Ok(credited) = credited(&bytes) else {
            continue;
        };
        let log = read(&bytes).expect("an accepted log");
        let mut units = [0; 512];
        for unit in &log.units {
            let standard = last_in_force(&log.standards, unit.module, unit.recipe, unit.time);
            let of_it = |other: &Standard| Some(*other) == standard;
            let at = log.standards.iter().position(of_it);
            units[at.expect("a standard of the log")] += unit.actual;
        }
        assert_eq!(credited.entries(), units, "log {index}");
        accepted += 1;
    }
    assert!(accepted > 1_500);
}

#[test]
fn lookups_can_be_made_again() {
    for index in 0..100 {
        let log = make(5, index).bytes;
        let lookups = || lookups::make(5, index, &log, true);
        assert_eq!(lookups(), lookups());
    }
}

/// Of a log of a few standards, each start and 1 ms beside it is asked for at every module; of more, at least the first and the last.
#[test]
fn every_start_is_asked_for() {
    let (mut of_all, mut of_some) = (0, 0);
    for index in 0..2_000 {
        let bytes = make(16, index).bytes;
        if account(&bytes).is_err() {
            continue;
        }
        let log = read(&bytes).expect("an accepted log");
        let lookups = lookups::make(16, index, &bytes, true);
        let asked = |standard: &Standard, module: u64| {
            (0..3).all(|ms| {
                let lookup = Lookup {
                    module: module as usize,
                    recipe: standard.recipe as usize,
                    time: (standard.start + ms).saturating_sub(1),
                };
                lookups.contains(&lookup)
            })
        };
        let modules = 0..log.header.modules;
        if log.standards.len() as u64 * log.header.modules <= 16 {
            for standard in &log.standards {
                assert!(modules.clone().all(|module| asked(standard, module)));
                of_all += 1;
            }
        } else if let (Some(first), Some(last)) = (log.standards.first(), log.standards.last()) {
            assert!(asked(first, first.module) && asked(last, last.module));
            of_some += 1;
        }
    }
    assert!(of_all > 500 && of_some > 100, "{of_all}, {of_some}");
}

#[test]
fn every_kind_of_lookup_is_met() {
    let mut tally = Tally::default();
    for index in 0..5_000 {
        let log = make(17, index).bytes;
        let credited = credited(&log);
        for lookup in lookups::make(17, index, &log, credited.is_ok()) {
            let answer = look_up(&credited, &lookup);
            tally.count_lookup(&credited, &lookup, &answer);
        }
    }
    let missed = tally.never_met_in_lookups();
    assert!(missed.is_empty(), "{missed:?}");
}

fn met(count: impl Fn(&mut Tally), missed: impl Fn(&Tally) -> Vec<String>) -> Vec<String> {
    let mut tally = Tally::default();
    let before = missed(&tally);
    count(&mut tally);
    let after = missed(&tally);
    before
        .into_iter()
        .filter(|it| !after.contains(it))
        .collect()
}

/// What each log has of what shows its revisions.
#[test]
fn shapes_of_logs() {
    let of = |draft: &Draft| {
        let credited = credited(&draft.bytes());
        met(
            |tally| tally.count_credited(&credited),
            Tally::never_met_in_credited,
        )
    };
    let nothing: [&str; 0] = [];
    assert_eq!(of(&revised()), nothing);
    let mut draft = revised();
    draft.standards.clear();
    assert_eq!(of(&draft), ["no standards"]);
    // A refused log has none.
    draft.states.clear();
    assert_eq!(of(&draft), nothing);

    let with = |units: &[[u64; 5]]| {
        let mut draft = revised();
        for [module, recipe, time, actual, effective] in units {
            draft.unit(*module, *recipe, *time, *actual, *effective);
        }
        of(&draft)
    };
    // No units at a start.
    assert_eq!(with(&[[0, 5, 200, 0, 0]]), nothing);
    assert_eq!(with(&[[0, 5, 100, 1, 1]]), nothing);
    assert_eq!(
        with(&[[0, 5, 199, 1, 1]]),
        ["a unit 1 ms ahead of a later revision's start"]
    );
    assert_eq!(
        with(&[[0, 5, 200, 1, 1]]),
        [
            "a unit at a later revision's start",
            "a recipe and start that have other units at another module"
        ]
    );
    assert_eq!(with(&[[0, 5, 101, 2, 1]]), ["units that are not effective"]);
    assert_eq!(
        with(&[[0, 5, 150, 1, 1], [0, 5, 250, 1, 1], [0, 5, 301, 1, 1]]),
        [
            "three revisions of a module and recipe that all have units",
            "a recipe and start that have other units at another module"
        ]
    );
    assert_eq!(
        with(&[[0, 5, 150, 1, 1], [0, 5, 151, 1, 1], [0, 5, 301, 1, 1]]),
        [
            "a standard of no units between others of some",
            "several unit records of one standard"
        ]
    );

    let mut draft = revised();
    draft.period = LONGEST_PERIOD;
    draft.unit(0, 5, 400, 65_535, 65_535);
    assert_eq!(of(&draft), nothing);
    draft.unit(0, 5, 401, 1, 1);
    assert_eq!(
        of(&draft),
        ["several unit records of one standard", "units past 16 bits"]
    );
    draft.units.clear();
    for start in 0..MOST_STANDARDS - 5 {
        draft.standard(1, 6, start, 1);
    }
    assert_eq!(of(&draft), ["as many standards as there may be"]);
}

/// What each lookup shows, and what is refused.
#[test]
fn kinds_of_lookups() {
    let of = |draft: &Draft, module, recipe, time| {
        let lookup = Lookup {
            module,
            recipe,
            time,
        };
        let credited = credited(&draft.bytes());
        let answer = look_up(&credited, &lookup);
        met(
            |tally| tally.count_lookup(&credited, &lookup, &answer),
            Tally::never_met_in_lookups,
        )
    };
    let nothing: [&str; 0] = [];
    let draft = revised();
    assert_eq!(of(&draft, 0, 5, 150), nothing);
    assert_eq!(of(&draft, 0, 5, 200), ["one in force from that ms on"]);
    assert_eq!(of(&draft, 0, 5, 199), ["one in force up to that ms"]);
    let past_period = "one in force at the end of the period or past it";
    assert_eq!(of(&draft, 0, 5, 999), nothing);
    assert_eq!(of(&draft, 0, 5, 1_000), [past_period]);
    let past_field = [past_period, "one in force past the field of a time"];
    assert_eq!(of(&draft, 0, 5, (1 << 35) - 1), [past_period]);
    assert_eq!(of(&draft, 0, 5, 1 << 35), past_field);
    assert_eq!(of(&draft, 0, 5, u64::MAX), past_field);
    assert_eq!(of(&draft, 0, 5, 98), nothing);
    assert_eq!(of(&draft, 0, 5, 99), ["none 1 ms ahead of the first start"]);
    assert_eq!(of(&draft, 1, 5, 150), ["none where another module has one"]);
    assert_eq!(of(&draft, 0, 1_028, 150), nothing);
    assert_eq!(
        of(&draft, 0, 1_029, 150),
        ["none of a recipe past the field, its lower bits those of one"]
    );
    assert_eq!(of(&draft, 2, 5, 150), ["7 list 0"]);
    let mut without = revised();
    without.standards.clear();
    assert_eq!(of(&without, 0, 5, 150), ["none in a log without standards"]);
    without.states.clear();
    assert_eq!(of(&without, 2, 5, 150), ["a refusal of the log"]);
}

#[test]
fn a_tally_of_nothing_misses_all() {
    let mut tally = Tally::default();
    assert_eq!(tally.never_met_in_credited().len(), 10);
    assert_eq!(tally.never_met_in_credited_with_buffers().len(), 11);
    tally.short_listings = 1;
    assert_eq!(tally.never_met_in_credited_with_buffers().len(), 10);
    assert_eq!(tally.never_met_in_lookups().len(), 8 + 2);
}

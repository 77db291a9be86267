//! R-8 on its oracle: joined logs and refusals by hand, what the generator's pairs are, and wrong calls, each of which has to be named.

use difftest::answer::{Answer, UNTOUCHED};
use difftest::draft::Draft;
use difftest::generator::pairs;
use difftest::joined::{join, join_three, Accepted};
use difftest::joined_comparison::{three, Call, JoinComparison};
use difftest::joins::Joins;
use difftest::oracle::{account, header, read};
use difftest::records::*;

fn joined(first: &[u8], second: &[u8]) -> Result<Vec<u8>, Refusal> {
    join(&Accepted::of(first), &Accepted::of(second)).map(|joined| joined.log.bytes)
}

fn sample(name: &str) -> Vec<u8> {
    let folder = concat!(env!("CARGO_MANIFEST_DIR"), "/../samples");
    std::fs::read(format!("{folder}/{name}.log")).expect("a sample")
}

/// The joined sample was put together of the records of the two, apart from this.
#[test]
fn two_days() {
    let [monday, tuesday, two_days] = ["monday", "tuesday", "two-days"].map(sample);
    assert_eq!(joined(&monday, &tuesday), Ok(two_days.clone()));
    let otherwise = joined(&tuesday, &monday).expect("joined");
    assert_eq!(otherwise.len(), two_days.len());
    assert_ne!(otherwise, two_days);
    let all = [&monday[..], &tuesday, &monday];
    assert_eq!(join_three(all), joined(&two_days, &monday).ok());
    assert_eq!(join_three([&monday, &tuesday, &sample("idle")]), None);
}

/// Modules 0 and 1 over 1,000 ms.
fn first() -> Draft {
    let mut draft = Draft {
        period: 1_000,
        modules: 2,
        ..Draft::default()
    };
    draft.state(0, 0, 0);
    draft.state(1, 7, 0);
    draft.state(1, 2, 100);
    draft.state(0, 18, 999);
    draft.standard(0, 5, 0, 9);
    draft.standard(0, 7, 999, 3);
    draft.standard(1, 5, 0, 4);
    draft.unit(1, 5, 200, 6, 6);
    draft.unit(0, 5, 999, 2, 1);
    draft
}

/// The same modules over 10 ms.
fn second() -> Draft {
    let mut draft = Draft {
        period: 10,
        modules: 2,
        ..Draft::default()
    };
    draft.state(0, 18, 0);
    draft.state(1, 0, 0);
    draft.state(0, 1, 1);
    draft.state(1, 7, 9);
    draft.standard(0, 5, 0, 8);
    draft.standard(0, 6, 9, 2);
    draft.standard(1, 4, 0, 5);
    draft.unit(0, 5, 0, 1, 1);
    draft.unit(1, 4, 9, 1, 0);
    draft
}

/// What is joined of these two, by hand.
fn both() -> Draft {
    let mut draft = Draft {
        period: 1_010,
        modules: 2,
        ..Draft::default()
    };
    draft.state(0, 0, 0);
    draft.state(1, 7, 0);
    draft.state(1, 2, 100);
    draft.state(0, 18, 999);
    draft.state(0, 18, 1_000);
    draft.state(1, 0, 1_000);
    draft.state(0, 1, 1_001);
    draft.state(1, 7, 1_009);
    draft.standard(0, 5, 0, 9);
    draft.standard(0, 5, 1_000, 8);
    draft.standard(0, 6, 1_009, 2);
    draft.standard(0, 7, 999, 3);
    draft.standard(1, 4, 1_000, 5);
    draft.standard(1, 5, 0, 4);
    draft.unit(1, 5, 200, 6, 6);
    draft.unit(0, 5, 999, 2, 1);
    draft.unit(0, 5, 1_000, 1, 1);
    draft.unit(1, 4, 1_009, 1, 0);
    draft
}

#[test]
fn by_hand() {
    let (one, other) = (
        Accepted::of(&first().bytes()),
        Accepted::of(&second().bytes()),
    );
    let joined = join(&one, &other).expect("joined");
    let log = joined.log;
    assert_eq!(log.bytes, both().bytes());
    assert_eq!(log.bytes.len(), 10 + 8 * 6 + 6 * 10 + 4 * 11);
    assert_eq!(log.credited, [2, 1, 0, 0, 1, 6]);
    // Module 0 is down in the first log's last ms and in the second's first; module 1 is idle for 100 ms and for 1.
    let [one, other] = [0, 1].map(|module| log.account.modules[module]);
    assert_eq!(one.state_times, [999 + 9, 0, 0, 0, 1 + 1, 0]);
    assert_eq!(other.state_times, [900 + 9, 100 + 1, 0, 0, 0, 0]);
    let quantities = one.quantities.array();
    assert_eq!(quantities, [1_010, 1_008, 1_008, 18 + 8, 9 + 8]);
    let quantities = other.quantities.array();
    assert_eq!(quantities, [1_010, 1_010, 909, 24 + 5, 24]);
}

fn refused(first: &Draft, second: &Draft, due: Refusal) {
    assert_eq!(joined(&first.bytes(), &second.bytes()), Err(due));
}

/// The first log's own refusal, whatever the second is; the second's with its list plus 10; 23, 2 and 4 behind both.
#[test]
fn refused_by_hand() {
    let (first, second) = (first(), second());
    let changed = |draft: &Draft, change: &dyn Fn(&mut Draft)| {
        let mut draft = draft.clone();
        change(&mut draft);
        draft
    };
    type Change = fn(&mut Draft);
    let changes: [(Change, u64, u64, usize); 15] = [
        (|it| it.length = Some(9), 1, NO_LIST, 0),
        (|it| it.period = LONGEST_PERIOD + 1, 2, NO_LIST, 0),
        (|it| it.modules = 65, 3, NO_LIST, 0),
        (|it| it.claimed = Some([6_001, 3, 2]), 4, NO_LIST, 0),
        (|it| it.length = Some(50), 5, NO_LIST, 0),
        (|it| it.states[3].spare = 1, 6, STATES, 3),
        (|it| it.states[1].code = 24, 8, STATES, 1),
        (|it| it.states[2].time = 0, 10, STATES, 2),
        (|it| it.modules = 3, 11, NO_LIST, 2),
        (|it| it.standards[1].spare = 2, 6, STANDARDS, 1),
        (|it| it.standards[2].theoretical = 0, 12, STANDARDS, 2),
        (|it| it.standards.swap(0, 2), 19, STANDARDS, 1),
        (|it| it.units[1].module = 2, 7, UNITS, 1),
        (|it| it.units[0].recipe = 9, 15, UNITS, 0),
        (|it| it.units[1].actual = 65_535, 16, NO_LIST, 0),
    ];
    for (change, number, list, place) in changes {
        let [one, other] = [&first, &second].map(|draft| changed(draft, &change));
        // The second's last unit record is of module 1.
        let of_module = usize::from(number == 16);
        refused(&one, &second, Refusal::new(number, list, place));
        refused(&one, &one, Refusal::new(number, list, place));
        refused(
            &one,
            &changed(&second, &|it| it.length = Some(0)),
            Refusal::new(number, list, place),
        );
        let due = Refusal::new(number, list + 10, place + of_module);
        refused(&first, &other, due);
        let one_module = changed(&first, &|it| {
            it.modules = 1;
            it.states.retain(|it| it.module == 0);
            it.standards.retain(|it| it.module == 0);
            it.units.retain(|it| it.module == 0);
        });
        assert!(account(&one_module.bytes()).is_ok());
        refused(&one_module, &other, due);
    }
}

/// A log of so many modules, and so many records of each kind, over as many ms.
fn of_counts(period: u64, modules: u64, [states, standards, units]: [u64; 3]) -> Draft {
    let mut draft = Draft {
        period,
        modules,
        ..Draft::default()
    };
    for module in 0..modules {
        draft.state(module, 0, 0);
    }
    for time in 1..=states - modules {
        draft.state(0, 0, time);
    }
    for start in 0..standards {
        draft.standard(0, 0, start, 1);
    }
    for time in 0..units {
        draft.unit(0, 0, time, 0, 0);
    }
    draft
}

/// Each bound by itself, just met and passed by one; and in which sequence 23, 2 and 4 come.
#[test]
fn bounds_of_both_together() {
    let half = LONGEST_PERIOD / 2;
    let [small, most] = [[1, 1, 1], [3_000, 256, 1_000]];
    let full = of_counts(half, 1, most);
    let bytes = joined(&full.bytes(), &full.bytes()).expect("joined");
    assert_eq!(bytes.len(), 63_130);
    assert_eq!(header(&bytes).map(|it| it.period), Ok(LONGEST_PERIOD));
    for list in 0..3 {
        let mut over = small;
        over[list] = most[list] + 1;
        let over = of_counts(half, 1, over);
        refused(&full, &over, Refusal::of_log(4));
        refused(&over, &full, Refusal::of_log(4));
        let longer = Draft {
            period: half + 1,
            ..over.clone()
        };
        refused(&full, &longer, Refusal::of_log(2));
        let mut wider = longer;
        wider.modules = 2;
        wider.states.insert(
            1,
            StateRecord {
                module: 1,
                ..wider.states[0]
            },
        );
        refused(&full, &wider, Refusal::of_log(23));
        refused(&wider, &full, Refusal::of_log(23));
    }
    let longer = of_counts(half + 1, 1, small);
    refused(&full, &longer, Refusal::of_log(2));
    refused(&longer, &full, Refusal::of_log(2));
    let longest = of_counts(LONGEST_PERIOD, 1, small);
    refused(&longest, &of_counts(1_000, 1, small), Refusal::of_log(2));
    refused(&longest, &longest, Refusal::of_log(2));
    refused(
        &of_counts(half, 64, [64, 1, 1]),
        &longest,
        Refusal::of_log(23),
    );
}

// ---------------------------------------------------------------- what the generator makes

fn counted(joins: &mut Joins, first: &[u8], second: &[u8]) -> Option<Refusal> {
    let judged = [first, second].map(Accepted::of);
    let joined = join(&judged[0], &judged[1]);
    joins.count([first, second], judged.each_ref(), &joined);
    joined.err()
}

#[test]
fn the_oracle_answers_what_the_generator_expects() {
    let mut joins = Joins::default();
    for number in 0..5_000 {
        let pair = pairs::make(3, number);
        let [first, second] = &pair.logs;
        let refusal = counted(&mut joins, first, second);
        let verdict = refusal.map_or(Ok(()), Err);
        let expected = pair.expected;
        assert!(
            expected.agrees(&verdict),
            "pair {number}: {expected:?}, {refusal:?}"
        );
    }
    let missed = joins.never_met();
    assert!(missed.is_empty(), "{missed:?}");
}

#[test]
fn pairs_can_be_made_again() {
    for number in 0..100 {
        assert_eq!(pairs::make(5, number).logs, pairs::make(5, number).logs);
    }
    assert_ne!(pairs::make(5, 0).logs, pairs::make(6, 0).logs);
}

/// A third log is accepted, and so is the log of all three but for their counts.
#[test]
fn third_logs() {
    let mut joined_thrice = 0;
    for number in 0..600 {
        let pair = pairs::make(7, number);
        let judged = pair.logs.each_ref().map(|log| Accepted::of(log));
        let Ok(joined) = join(&judged[0], &judged[1]) else {
            continue;
        };
        let Some(third) = pairs::third(7, number, &joined) else {
            assert_eq!(joined.log.log.header.period, LONGEST_PERIOD);
            continue;
        };
        assert!(account(&third).is_ok(), "pair {number}");
        let [first, second] = &pair.logs;
        joined_thrice += u64::from(join_three([first, second, &third]).is_some());
    }
    assert!(joined_thrice > 150, "{joined_thrice}");
}

/// What is met by one pair that was not met before any.
fn met(first: &Draft, second: &Draft) -> Vec<String> {
    let mut joins = Joins::default();
    let before = joins.never_met();
    counted(&mut joins, &first.bytes(), &second.bytes());
    let after = joins.never_met();
    before
        .into_iter()
        .filter(|it| !after.contains(it))
        .collect()
}

/// Two quiet logs of 100 ms and one module, which goes on in the code in which it ended.
fn quiet() -> [Draft; 2] {
    let draft = of_counts(100, 1, [1, 0, 0]);
    [
        draft.clone(),
        Draft {
            period: 90,
            ..draft
        },
    ]
}

const SAME: &str = "openings of the second none of which changes a code";

/// What each pair of logs has that shows how they are joined.
#[test]
fn shapes_of_pairs() {
    let with = |change: &dyn Fn(&mut Draft, &mut Draft)| {
        let [mut first, mut second] = quiet();
        change(&mut first, &mut second);
        met(&first, &second)
    };
    let none = "no standards in either";
    assert_eq!(with(&|_, _| {}), [none, SAME]);
    let changed = "openings of the second all of which change a code";
    assert_eq!(with(&|_, it| it.states[0].code = 1), [none, changed]);
    let two_modules = |it: &mut Draft| {
        it.modules = 2;
        it.state(1, 0, 0);
    };
    let some = "openings of the second some of which change a code";
    let made = with(&|first, second| {
        two_modules(first);
        two_modules(second);
        second.states[1].code = 9;
    });
    assert_eq!(made, [none, some]);
    let made = with(&|first, _| first.state(0, 0, 99));
    assert_eq!(made, [none, SAME, "a state record in the first's last ms"]);
    assert_eq!(with(&|first, _| first.state(0, 0, 98)), [none, SAME]);
    let made = with(&|first, _| first.period = 1);
    let last_ms = "a state record in the first's last ms";
    assert_eq!(made, [none, SAME, last_ms, "a first log of 1 ms"]);
    let made = with(&|_, second| second.period = 1);
    assert_eq!(made, [none, SAME, "a second log of 1 ms"]);
    let made = with(&|first, _| first.period = LONGEST_PERIOD - 90);
    assert_eq!(
        made,
        [
            none,
            SAME,
            "a state record moved past 32 bits",
            "the longest period"
        ]
    );

    // Standards of either, by module 0's recipes.
    let first_alone = "standards in the first alone";
    let second_alone = "standards in the second alone";
    let lists = |first: &[u64], second: &[u64]| {
        with(&|one, other| {
            for recipe in first {
                one.standard(0, *recipe, 50, 2);
            }
            for recipe in second {
                other.standard(0, *recipe, 50, 2);
            }
        })
    };
    assert_eq!(lists(&[3], &[]), [first_alone, SAME]);
    assert_eq!(lists(&[], &[3]), [second_alone, SAME]);
    let first_ahead = "all standards of the first ahead of the second's";
    let second_ahead = "all standards of the second ahead of the first's";
    assert_eq!(lists(&[1, 3], &[3, 4]), [first_ahead, SAME]);
    assert_eq!(lists(&[5, 6], &[3, 4]), [second_ahead, SAME]);
    let of_second = "several standards of the second between two of the first";
    let of_first = "several standards of the first between two of the second";
    let in_turn = "four standards or more, in turn from each";
    assert_eq!(lists(&[1, 4], &[2, 3]), [of_second, SAME]);
    assert_eq!(lists(&[2, 3], &[1, 4]), [of_first, SAME]);
    assert_eq!(lists(&[1, 4], &[2]), [SAME]);
    assert_eq!(lists(&[1, 2], &[1, 2]), [in_turn, SAME]);
    assert_eq!(lists(&[1, 2], &[0, 1]), [in_turn, SAME]);
    assert_eq!(lists(&[1, 2, 5], &[1, 2, 3]), [of_second, SAME]);

    // What a standard at the second's time 0 says.
    let says = |theoretical: u64, start: u64| {
        with(&|one, other| {
            one.standard(0, 3, 0, 5);
            one.standard(0, 3, 50, 2);
            other.standard(0, 3, start, theoretical);
        })
    };
    let the_same = "a standard at the second's time 0 that says what the first's last one says";
    let other = "a standard at the second's time 0 that says something else";
    assert_eq!(says(2, 0), [first_ahead, the_same, SAME]);
    assert_eq!(says(5, 0), [first_ahead, other, SAME]);
    assert_eq!(says(2, 1), [first_ahead, SAME]);
    let made = with(&|first, _| first.standard(0, 3, 99, 2));
    assert_eq!(
        made,
        [first_alone, "a standard in the first's last ms", SAME]
    );

    // Units.
    let units = |first_time: u64, second_time: u64, recipe: u64| {
        with(&|one, other| {
            one.standard(0, 3, 0, 1);
            other.standard(0, 2, 0, 1);
            other.standard(0, 3, 0, 1);
            one.unit(0, 3, first_time, 1, 1);
            other.unit(0, recipe, second_time, 1, 1);
        })
    };
    let ahead = "units of a standard of the second ahead of one of the first of its module";
    let last = "a unit in the first's last ms";
    let at_0 = "a unit at the second's time 0";
    let of_one = "units of one module and recipe in both of these";
    let end = "a unit in the second's last ms";
    assert_eq!(units(98, 1, 2), [ahead, the_same, SAME]);
    assert_eq!(units(98, 88, 3), [the_same, SAME]);
    assert_eq!(units(99, 1, 3), [the_same, SAME, last]);
    assert_eq!(units(98, 0, 3), [the_same, SAME, at_0]);
    assert_eq!(units(99, 0, 2), [ahead, the_same, SAME, last, at_0]);
    assert_eq!(units(99, 0, 3), [the_same, SAME, last, at_0, of_one]);
    assert_eq!(units(98, 89, 3), [the_same, SAME, end]);

    // Times of 32 bits and more.
    let moved = |by: u64, records: &dyn Fn(&mut Draft)| {
        let [mut first, mut second] = quiet();
        first.period = by;
        second.period = 1 << 33;
        records(&mut second);
        let missed = met(&first, &second);
        missed
            .into_iter()
            .filter(|it| it.contains("32"))
            .collect::<Vec<_>>()
    };
    let [state, standard, unit] = ["state record", "standard", "unit"];
    let past = |what: &[&str]| -> Vec<String> {
        what.iter()
            .map(|it| format!("a {it} moved past 32 bits"))
            .collect()
    };
    let bound = (1 << 32) - 100;
    assert_eq!(moved(bound, &|it| it.state(0, 0, 99)), past(&[]));
    assert_eq!(moved(bound, &|it| it.state(0, 0, 100)), past(&[state]));
    assert_eq!(moved(bound, &|it| it.state(0, 0, 1 << 32)), past(&[]));
    assert_eq!(
        moved(bound, &|it| it.standard(0, 0, 100, 1)),
        past(&[standard])
    );
    let units = |it: &mut Draft| {
        it.standard(0, 0, 0, 1);
        it.unit(0, 0, 100, 0, 0);
    };
    assert_eq!(moved(bound, &units), past(&[unit]));

    // Full lists, the most modules, and a log with itself.
    let full = |counts: [u64; 3], rest: [u64; 3]| {
        let [one, other] = [counts, rest].map(|counts| of_counts(10_000, 1, counts));
        let shapes = met(&one, &other);
        let most = shapes.into_iter().filter(|it| it.starts_with("as many"));
        most.collect::<Vec<_>>()
    };
    let nothing: [&str; 0] = [];
    assert_eq!(full([3_000, 256, 1_000], [2_999, 255, 999]), nothing);
    assert_eq!(
        full([5_999, 256, 1_000], [1, 255, 999]),
        ["as many state records as there may be"]
    );
    assert_eq!(
        full([5_998, 500, 1_000], [1, 12, 999]),
        ["as many standards as there may be"]
    );
    assert_eq!(
        full([5_998, 500, 1_000], [1, 1, 1_000]),
        ["as many unit records as there may be"]
    );
    let each = [
        "as many state records as there may be",
        "as many standards as there may be",
        "as many unit records as there may be",
        "as many records of each kind as there may be",
    ];
    assert_eq!(full([5_999, 511, 0], [1, 1, 2_000]), each);
    assert_eq!(full([5_999, 511, 0], [1, 1, 1_999]), each[..2]);
    let made = met(
        &of_counts(10, 64, [64, 0, 0]),
        &of_counts(9, 64, [64, 0, 0]),
    );
    assert_eq!(made, [none, SAME, "as many modules as there may be"]);
    let itself = of_counts(10, 1, [1, 2, 2]);
    let twice = met(&itself, &itself);
    assert!(twice.contains(&String::from(
        "a log of several standards and units joined with itself"
    )));
    let one_longer = Draft {
        period: 11,
        ..itself.clone()
    };
    assert!(!met(&itself, &one_longer)
        .iter()
        .any(|it| it.contains("itself")));
}

/// What each pair of logs shows that is not joined.
#[test]
fn turned_back() {
    let full = of_counts(LONGEST_PERIOD / 2, 1, [3_000, 256, 1_000]);
    let [small, _] = quiet();
    let over = |list: usize, by: u64| {
        let mut counts = [1, 1, 1];
        counts[list] = [3_000, 256, 1_000][list] + by;
        of_counts(10_000, 1, counts)
    };
    let alone = ["one state record", "one standard", "one unit record"];
    for (list, name) in alone.into_iter().enumerate() {
        let due = [
            String::from("both together [4]"),
            format!("{name} over the bound alone"),
        ];
        assert_eq!(met(&full, &over(list, 1)), due);
        assert_eq!(met(&full, &over(list, 2)), due[..1]);
    }
    let kinds = ["state records", "standards", "unit records"];
    for (list, name) in kinds.into_iter().enumerate() {
        let mut counts = [1, 1, 1];
        counts[list] = [6_000, 512, 2_000][list];
        let most = of_counts(10_000, 1, counts);
        let twice = format!("twice as many {name} as there may be");
        assert_eq!(
            met(&most, &most),
            [String::from("both together [4]"), twice]
        );
    }
    let lasting = |period: u64| Draft {
        period,
        ..small.clone()
    };
    let [by_one, twice] = [
        "1 ms over the bound alone",
        "a period twice as long as the longest",
    ];
    let over = "both together [2]";
    assert_eq!(met(&lasting(LONGEST_PERIOD), &lasting(1)), [over, by_one]);
    assert_eq!(met(&lasting(LONGEST_PERIOD), &lasting(2)), [over]);
    assert_eq!(
        met(&lasting(LONGEST_PERIOD), &lasting(LONGEST_PERIOD)),
        [over, twice]
    );
    let of_modules = |modules: u64| of_counts(100, modules, [modules, 0, 0]);
    let unlike = "both together [23]";
    assert_eq!(met(&small, &of_modules(2)), [unlike, "one module more"]);
    assert_eq!(met(&of_modules(64), &small), [unlike, "63 modules less"]);
    assert_eq!(met(&of_modules(2), &small), [unlike]);

    let stray = |draft: &Draft| {
        let mut draft = draft.clone();
        draft.states[0].code = 24;
        draft
    };
    let [of_first, of_second] = ["8 list 1 of the first", "8 list 1 of the second"];
    let both = ["both logs refused", "both refused for the same"];
    assert_eq!(met(&stray(&small), &small), [of_first]);
    assert_eq!(met(&small, &stray(&small)), [of_second]);
    assert_eq!(
        met(&stray(&small), &stray(&small)),
        [of_first, both[0], both[1]]
    );
    let mut cut = small.clone();
    cut.length = Some(9);
    assert_eq!(met(&stray(&small), &cut), [of_first, both[0]]);
    let ahead = [
        "the first refused ahead of other modules in the second",
        "the second refused ahead of other modules in it",
    ];
    assert_eq!(met(&stray(&small), &of_modules(2)), [of_first, ahead[0]]);
    assert_eq!(met(&of_modules(2), &stray(&small)), [of_second, ahead[1]]);
    let longest = lasting(LONGEST_PERIOD);
    let periods = "the second refused ahead of periods over the bound";
    assert_eq!(met(&longest, &stray(&small)), [of_second, periods]);
    let counts = "the second refused ahead of counts over a bound";
    let many = of_counts(10_000, 1, [6_000, 0, 0]);
    assert_eq!(met(&many, &stray(&small)), [of_second, counts]);
}

#[test]
fn a_tally_of_nothing_misses_all() {
    let mut joins = Joins::default();
    assert_eq!(joins.never_met().len(), 32 + 24 + 24 + 7 + 16);
    assert_eq!(joins.never_met_with_buffers().len(), 103 + 3);
    (joins.short, joins.tried, joins.triples) = (1, 1, 1);
    assert_eq!(joins.never_met_with_buffers(), joins.never_met());
}

// ---------------------------------------------------------------- wrong calls

type Joining = Result<Vec<u8>, Refusal>;

fn answer(joined: Joining, buffer: &mut [u8]) -> Answer<[u64; 1]> {
    match joined {
        Ok(bytes) if bytes.len() > buffer.len() => answer(Err(Refusal::of_log(18)), buffer),
        Ok(bytes) => {
            buffer[..bytes.len()].copy_from_slice(&bytes);
            Answer {
                answered: 1,
                values: [bytes.len() as u64],
                refusal: [0; 3],
            }
        }
        Err(it) => Answer {
            answered: 0,
            values: [UNTOUCHED],
            refusal: [it.number, it.list, it.place],
        },
    }
}

/// The joined log with its records changed; the period of the first is given too.
fn changed(first: &[u8], second: &[u8], change: impl Fn(&mut Draft, u64)) -> Joining {
    let bytes = joined(first, second)?;
    let mut draft = Draft::of(read(&bytes)?);
    change(&mut draft, header(first)?.period);
    Ok(draft.bytes())
}

/// 23, 2 and 4 in another sequence, and 18 where it is among them, once both logs are accepted.
fn tested_by(first: &[u8], second: &[u8], buffer: &[u8], numbers: &[u64]) -> Joining {
    let [one, other] = [account(first), account(second)];
    if one.is_ok() && other.is_ok() {
        let met = difftest::joined::breached([header(first)?, header(second)?]);
        let short = first.len() + second.len() - 10 > buffer.len();
        let is_met = |number: &u64| met.contains(number) || *number == 18 && short;
        if let Some(number) = numbers.iter().copied().find(is_met) {
            return Err(Refusal::of_log(number));
        }
    }
    joined(first, second)
}

/// The right answer with the refusal, where there is one, told otherwise.
fn told(
    first: &[u8],
    second: &[u8],
    buffer: &mut [u8],
    tell: fn(Refusal) -> Refusal,
) -> Answer<[u64; 1]> {
    answer(joined(first, second).map_err(tell), buffer)
}

const RIGHT: Call = |first, second, buffer| answer(joined(first, second), buffer);

const WRONG: [(&str, Call); 31] = [
    ("starts not moved", |first, second, buffer| {
        let joined = changed(first, second, |draft, by| {
            let later = draft.standards.iter_mut().filter(|it| it.start >= by);
            later.for_each(|it| it.start -= by);
            draft.sort();
        });
        answer(joined, buffer)
    }),
    ("units not moved", |first, second, buffer| {
        let joined = changed(first, second, |draft, by| {
            let later = draft.units.iter_mut().filter(|it| it.time >= by);
            later.for_each(|it| it.time -= by);
        });
        answer(joined, buffer)
    }),
    ("states moved 1 ms too little", |first, second, buffer| {
        let joined = changed(first, second, |draft, by| {
            let later = draft.states.iter_mut().filter(|it| it.time >= by);
            later.for_each(|it| it.time -= 1);
        });
        answer(joined, buffer)
    }),
    ("moved by the second's period", |first, second, buffer| {
        let joined = changed(first, second, |draft, by| {
            let other = draft.period - by;
            let later = draft.units.iter_mut().filter(|it| it.time >= by);
            later.for_each(|it| it.time = it.time - by + other);
        });
        answer(joined, buffer)
    }),
    (
        "an opening that changes nothing dropped",
        |first, second, buffer| {
            let joined = changed(first, second, |draft, by| {
                let at = draft.states.partition_point(|it| it.time < by);
                let same = |opening: &StateRecord| {
                    let own = draft.states[..at]
                        .iter()
                        .rfind(|it| it.module == opening.module);
                    own.is_some_and(|it| it.code == opening.code)
                };
                if let Some(place) = (at..draft.states.len())
                    .find(|&it| draft.states[it].time == by && same(&draft.states[it]))
                {
                    draft.states.remove(place);
                }
            });
            answer(joined, buffer)
        },
    ),
    (
        "openings in the first's last codes",
        |first, second, buffer| {
            let joined = changed(first, second, |draft, by| {
                let at = draft.states.partition_point(|it| it.time < by);
                let (before, behind) = draft.states.split_at_mut(at);
                for opening in behind.iter_mut().filter(|it| it.time == by) {
                    let last = before.iter().rfind(|it| it.module == opening.module);
                    opening.code = last.map_or(opening.code, |last| last.code);
                }
            });
            answer(joined, buffer)
        },
    ),
    ("standards end to end", |first, second, buffer| {
        let joined = changed(first, second, |draft, by| {
            draft.standards.sort_by_key(|it| it.start >= by)
        });
        answer(joined, buffer)
    }),
    ("the second's standards ahead", |first, second, buffer| {
        let joined = changed(first, second, |draft, by| {
            draft.standards.sort_by_key(|it| it.start < by)
        });
        answer(joined, buffer)
    }),
    ("standards by start", |first, second, buffer| {
        let joined = changed(first, second, |draft, _| {
            draft.standards.sort_by_key(|it| it.start)
        });
        answer(joined, buffer)
    }),
    ("standards by module and start", |first, second, buffer| {
        let joined = changed(first, second, |draft, _| {
            draft.standards.sort_by_key(|it| (it.module, it.start))
        });
        answer(joined, buffer)
    }),
    (
        "a standard that says the same dropped",
        |first, second, buffer| {
            let joined = changed(first, second, |draft, by| {
                draft.standards.dedup_by(|next, one| {
                    let same = (next.module, next.recipe) == (one.module, one.recipe);
                    same && next.start == by && next.theoretical == one.theoretical
                });
            });
            answer(joined, buffer)
        },
    ),
    ("the first's period", |first, second, buffer| {
        let joined = changed(first, second, |draft, by| draft.period = by);
        answer(joined, buffer)
    }),
    (
        "the first's last unit record changed",
        |first, second, buffer| {
            let joined = changed(first, second, |draft, by| {
                let last = draft.units.iter_mut().rfind(|it| it.time < by);
                last.into_iter().for_each(|it| it.effective = it.actual);
            });
            answer(joined, buffer)
        },
    ),
    ("a spare bit set", |first, second, buffer| {
        let joined = changed(first, second, |draft, _| draft.states[0].spare = 1);
        answer(joined, buffer)
    }),
    ("the second's own list", |first, second, buffer| {
        told(first, second, buffer, |it| Refusal {
            list: it.list % 10,
            ..it
        })
    }),
    ("list 0 of the second as it is", |first, second, buffer| {
        told(first, second, buffer, |it| Refusal {
            list: if it.list == 10 { 0 } else { it.list },
            ..it
        })
    }),
    ("list 10 alone", |first, second, buffer| {
        told(first, second, buffer, |it| Refusal {
            list: it.list.min(10),
            ..it
        })
    }),
    ("list 10 for both together", |first, second, buffer| {
        told(first, second, buffer, |it| Refusal {
            list: if it.number == 23 { 10 } else { it.list },
            ..it
        })
    }),
    ("another place", |first, second, buffer| {
        told(first, second, buffer, |it| Refusal {
            place: it.place + u64::from(it.list > 10),
            ..it
        })
    }),
    (
        "the second ahead of the first",
        |first, second, buffer| match account(second) {
            Err(refusal) => answer(Err(refusal.of_second()), buffer),
            Ok(_) => RIGHT(first, second, buffer),
        },
    ),
    (
        "23 ahead of the second's refusal",
        |first, second, buffer| match [header(first), header(second)] {
            [Ok(one), Ok(other)] if one.modules != other.modules && account(first).is_ok() => {
                answer(Err(Refusal::of_log(23)), buffer)
            }
            _ => RIGHT(first, second, buffer),
        },
    ),
    ("2 ahead of 23", |first, second, buffer| {
        answer(tested_by(first, second, buffer, &[2]), buffer)
    }),
    ("4 ahead of 2", |first, second, buffer| {
        answer(tested_by(first, second, buffer, &[23, 4]), buffer)
    }),
    ("18 ahead of 4", |first, second, buffer| {
        answer(tested_by(first, second, buffer, &[23, 2, 18]), buffer)
    }),
    ("18 ahead of all", |first, second, buffer| {
        answer(tested_by(first, second, buffer, &[18]), buffer)
    }),
    (
        "a buffer of just the length refused",
        |first, second, buffer| {
            let full = joined(first, second).is_ok_and(|it| it.len() == buffer.len());
            if full {
                return answer(Err(Refusal::of_log(18)), buffer);
            }
            RIGHT(first, second, buffer)
        },
    ),
    ("the length of both", |first, second, buffer| {
        let mut answer = RIGHT(first, second, buffer);
        if answer.answered == 1 {
            answer.values[0] += 10;
        }
        answer
    }),
    (
        "the length told of a short buffer",
        |first, second, buffer| {
            let mut answer = RIGHT(first, second, buffer);
            if answer.refusal[0] == 18 {
                answer.values[0] = (first.len() + second.len() - 10) as u64;
            }
            answer
        },
    ),
    ("the header written ahead of 18", |first, second, buffer| {
        let answer = RIGHT(first, second, buffer);
        if answer.refusal[0] == 18 && buffer.len() >= 10 {
            buffer[..10].copy_from_slice(&first[..10]);
        }
        answer
    }),
    ("the rest of the buffer cleared", |first, second, buffer| {
        let answer = RIGHT(first, second, buffer);
        if answer.answered == 1 {
            buffer[answer.values[0] as usize..].fill(0);
        }
        answer
    }),
    ("the refusal left as it was", |first, second, buffer| {
        let mut answer = RIGHT(first, second, buffer);
        if answer.answered == 1 {
            answer.refusal = [UNTOUCHED; 3];
        }
        answer
    }),
];

fn wrong(what: &str) -> Call {
    let found = WRONG.iter().find(|(name, _)| *name == what);
    found.expect("a wrong call").1
}

/// What is said of a call on the first of so many pairs that it answers wrongly.
fn named(call: Call, pairs: u64) -> Option<String> {
    (0..pairs).find_map(|number| {
        let pair = pairs::make(11, number);
        let logs = pair.logs.each_ref().map(|log| &log[..]);
        let judged = logs.map(Accepted::of);
        let joined = join(&judged[0], &judged[1]);
        let comparison = JoinComparison::of(logs, &joined, number, call);
        comparison.differences.into_iter().next()
    })
}

#[test]
fn wrong_calls_are_named() {
    assert_eq!(named(RIGHT, 300), None);
    for (what, call) in WRONG {
        assert!(named(call, 600).is_some(), "not named: {what}");
    }
}

/// What is said of a wrong call says where it is wrong.
#[test]
fn differences_are_told() {
    let [monday, tuesday] = ["monday", "tuesday"].map(sample);
    let judged = [&monday, &tuesday].map(|log| Accepted::of(log));
    let joined = join(&judged[0], &judged[1]);
    let told =
        |what: &str| JoinComparison::of([&monday, &tuesday], &joined, 1, wrong(what)).differences;
    let comparison = JoinComparison::of([&monday, &tuesday], &joined, 1, RIGHT);
    assert_eq!(comparison.differences, Vec::<String>::new());
    assert_eq!(comparison.short, 2);
    let length = "join with room 250: length: expected 250, found 260";
    assert_eq!(told("the length of both")[0], length);
    let told_short = told("the length told of a short buffer");
    assert_eq!(told_short.len(), 2);
    assert!(told_short[1].starts_with("join with room 249: length: "));
    let verdict = "join with room 250: verdict: expected (1, [0, 0, 0]), found (0, [18, 0, 0])";
    assert_eq!(told("a buffer of just the length refused")[0], verdict);
    assert!(told("the header written ahead of 18")[0].starts_with("join with room 249: byte 0: "));
    assert!(told("the rest of the buffer cleared")[0].starts_with("join with room 251: byte 250: "));
}

#[test]
fn three_logs_in_either_grouping() {
    let [monday, tuesday] = ["monday", "tuesday"].map(sample);
    let logs = [&monday[..], &tuesday, &monday];
    let due = join_three(logs).expect("joined");
    let nothing: [&str; 0] = [];
    assert_eq!(three(logs, &due, RIGHT), nothing);
    let told = [
        "three logs joined, the first two ahead: another log",
        "three logs joined, the last two ahead: another log",
    ];
    for what in ["the first's period", "starts not moved", "a spare bit set"] {
        assert_eq!(three(logs, &due, wrong(what)), told, "{what}");
    }
}

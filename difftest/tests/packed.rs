//! R-9 on its oracle: packed logs by hand, all logs of a few ms, what the generator's logs are, and wrong calls, each of which has to be named.

use difftest::answer::{Answer, UNTOUCHED};
use difftest::draft::Draft;
use difftest::generator::repeats;
use difftest::oracle::{account, header, read, state_of, Log};
use difftest::packed::{Packed, Stay};
use difftest::packed_comparison::{lost, Call, PackComparison};
use difftest::packings::Packings;
use difftest::records::*;
use difftest::said::Said;
use difftest::tiny::{self, search, Space, Tried};
use difftest::writing::written;

fn packed(log: &[u8]) -> Result<Packed, Refusal> {
    Packed::of(log, &account(log))
}

/// Modules 0 and 1 over 1,000 ms.
fn repeating() -> Draft {
    let mut draft = Draft {
        period: 1_000,
        modules: 2,
        ..Draft::default()
    };
    draft.state(0, 3, 0);
    draft.state(1, 3, 0);
    draft.state(0, 3, 1);
    draft.state(1, 4, 1);
    draft.state(0, 4, 2);
    draft.state(1, 4, 3);
    draft.state(0, 3, 3 + 1);
    draft.state(1, 18, 500);
    draft.state(0, 3, 600);
    draft.state(1, 18, 999);
    draft.standard(0, 5, 0, 9);
    draft.standard(0, 5, 1, 9);
    draft.standard(0, 6, 1, 9);
    draft.standard(0, 6, 2, 8);
    draft.standard(0, 6, 3, 9);
    draft.standard(1, 6, 10, 9);
    draft.standard(1, 6, 20, 9);
    draft.standard(1, 6, 30, 9);
    draft.unit(0, 5, 1, 6, 6);
    draft.unit(0, 6, 3, 2, 1);
    draft.unit(1, 6, 20, 3, 0);
    draft
}

/// The same without what says nothing new, by hand.
fn without_repeats() -> Draft {
    let mut draft = Draft {
        period: 1_000,
        modules: 2,
        ..Draft::default()
    };
    draft.state(0, 3, 0);
    draft.state(1, 3, 0);
    draft.state(1, 4, 1);
    draft.state(0, 4, 2);
    draft.state(0, 3, 4);
    draft.state(1, 18, 500);
    draft.standard(0, 5, 0, 9);
    draft.standard(0, 6, 1, 9);
    draft.standard(0, 6, 2, 8);
    draft.standard(0, 6, 3, 9);
    draft.standard(1, 6, 10, 9);
    draft.unit(0, 5, 1, 6, 6);
    draft.unit(0, 6, 3, 2, 1);
    draft.unit(1, 6, 20, 3, 0);
    draft
}

#[test]
fn by_hand() {
    let [before, after] = [repeating(), without_repeats()].map(|it| it.bytes());
    let packed_log = packed(&before).expect("an accepted log");
    assert_eq!(packed_log.bytes, after);
    assert_eq!(packed_log.dropped(), [4, 3]);
    assert_eq!(after.len(), before.len() - 4 * 6 - 3 * 10);
    let text = "bytes before 183\nbytes after 129\nstates dropped 4\nstandards dropped 3\n";
    assert_eq!(packed_log.text(before.len()), text.as_bytes());
    let again = packed(&after).expect("an accepted log");
    assert_eq!(again.bytes, after);
    assert_eq!(again.dropped(), [0, 0]);
    assert_eq!(account(&before), account(&after));
    assert_eq!(Said::by(&again.from).fewest(), [6, 5]);
    assert_eq!(lost(&before, &account(&before).unwrap(), &after), [""; 0]);
}

/// One code every minute for 100 hours.
#[test]
fn a_full_list() {
    let mut draft = Draft {
        period: 6_000 * 60_000,
        modules: 1,
        ..Draft::default()
    };
    (0..6_000).for_each(|minute| draft.state(0, 2, minute * 60_000));
    let packed = packed(&draft.bytes()).expect("an accepted log");
    assert_eq!(packed.bytes.len(), 16);
    let text = "bytes before 36010\nbytes after 16\nstates dropped 5999\nstandards dropped 0\n";
    assert_eq!(packed.text(36_010), text.as_bytes());
}

#[test]
fn refused_by_hand() {
    type Change = fn(&mut Draft);
    let changes: [(Change, Refusal); 7] = [
        (|it| it.length = Some(9), Refusal::of_log(1)),
        (|it| it.length = Some(184), Refusal::of_log(5)),
        (|it| it.length = Some(182), Refusal::of_log(5)),
        (|it| it.states[2].spare = 1, Refusal::new(6, STATES, 2)),
        (|it| it.states[9].code = 24, Refusal::new(8, STATES, 9)),
        (
            |it| it.standards[1].spare = 2,
            Refusal::new(6, STANDARDS, 1),
        ),
        (|it| it.units[2].spare = 1, Refusal::new(6, UNITS, 2)),
    ];
    for (change, due) in changes {
        let mut draft = repeating();
        change(&mut draft);
        assert_eq!(packed(&draft.bytes()).err(), Some(due));
    }
}

/// What two logs say is the same, whichever records they say it with, and a change of it is found where it begins.
#[test]
fn what_logs_say() {
    let said = |draft: &Draft| Said::by(&read(&draft.bytes()).expect("a log"));
    let first = said(&repeating());
    let difference = |change: &dyn Fn(&mut Draft)| {
        let mut draft = without_repeats();
        change(&mut draft);
        draft.sort();
        first.first_difference(&said(&draft))
    };
    assert_eq!(difference(&|_| {}), None);
    let told = |what: &str| Some(String::from(what));
    let later = difference(&|it| it.states[2].time = 2);
    assert_eq!(later, told("module 1's code at 1"));
    let earlier = difference(&|it| it.states[5].time = 499);
    assert_eq!(earlier, told("module 1's code at 499"));
    let other = difference(&|it| it.state(0, 5, 999));
    assert_eq!(other, told("module 0's code at 999"));
    let later = difference(&|it| it.standards[4].start = 11);
    let what = "the time in force of module 1 and recipe 6 at 10";
    assert_eq!(later, told(what));
    let more = difference(&|it| it.standard(1, 7, 3, 9));
    let what = "the time in force of module 1 and recipe 7 at 3";
    assert_eq!(more, told(what));
    let units = difference(&|it| it.units[2].effective = 1);
    assert_eq!(units, told("the units"));
    let longer = difference(&|it| it.period = 1_001);
    assert_eq!(longer, told("period and modules (1001, 2)"));
}

// ---------------------------------------------------------------- all logs of a few ms

/// More than each run tries: four modules and recipes, longer periods, and a second module beside units.
const MORE: [Space; 6] = [
    Space {
        period: 4,
        modules: 2,
        codes: &[0, 1, 7],
        pairs: &[],
        times: &[],
        units: false,
    },
    Space {
        period: 6,
        modules: 1,
        codes: &[0, 1, 18],
        pairs: &[],
        times: &[],
        units: false,
    },
    Space {
        period: 4,
        modules: 1,
        codes: &[],
        pairs: &[(0, 0), (0, 1)],
        times: &[1, 2],
        units: false,
    },
    Space {
        period: 4,
        modules: 2,
        codes: &[],
        pairs: &[(0, 0), (1, 0)],
        times: &[1, 2],
        units: false,
    },
    Space {
        period: 2,
        modules: 2,
        codes: &[],
        pairs: &[(0, 0), (0, 1), (1, 0), (1, 1)],
        times: &[1, 2],
        units: false,
    },
    Space {
        period: 3,
        modules: 2,
        codes: &[0, 7],
        pairs: &[(0, 0)],
        times: &[1, 2],
        units: true,
    },
];

#[test]
fn no_log_that_says_the_same_has_fewer_records() {
    let Tried {
        logs,
        said,
        differences,
    } = search(&MORE, RIGHT);
    assert_eq!(differences, [""; 0]);
    // Without units none is refused: an opening and then each code or none, each time or none. With units module 1 has 18 lists of state records, and module 0,
    // with its standards and units, 1,543 in which its productive ms suffice.
    let without_units = 192 * 192 + 3 * 4 * 4 * 4 * 4 * 4 + 3 * 81 * 81;
    assert_eq!(logs, without_units + 18 * 1_543);
    // Of three codes in four ms each of two modules says one of 81 things; of two times in four ms a recipe one of 31, the first of them from any ms on. With
    // units module 1 says one of 8 things, and module 0 one of 350.
    let things = 81 * 81 + 729 + 2 * 31 * 31 + 7 * 7 * 7 * 7;
    assert_eq!(said, things + 8 * 350);
}

// ---------------------------------------------------------------- what the generator makes

fn counted(packings: &mut Packings, log: &[u8], repeats: bool) -> Result<Packed, Refusal> {
    let packed = packed(log);
    packings.count(log, &packed, repeats);
    packed
}

#[test]
fn the_oracle_answers_what_the_generator_expects() {
    let mut packings = Packings::default();
    let mut alike = 0;
    for number in 0..2_500 {
        let made = repeats::make(3, number);
        let packed_log = counted(&mut packings, &made.bytes, made.repeats);
        let expected = made.expected;
        assert!(
            expected.agrees(&packed_log),
            "log {number}: {expected:?}, {:?}",
            packed_log.err()
        );
        if let Some(other) = made.alike {
            let bytes = packed_log.expect("an accepted log").bytes;
            let other = packed(&other).expect("an accepted log").bytes;
            assert!(bytes == other, "log {number}");
            alike += 1;
        }
    }
    let missed = packings.never_met();
    assert!(missed.is_empty(), "{missed:?}");
    assert!(alike > 500, "{alike}");
}

#[test]
fn logs_can_be_made_again() {
    let bytes = |seed: u64, number: u64| repeats::make(seed, number).bytes;
    for number in 0..100 {
        assert_eq!(bytes(5, number), bytes(5, number));
    }
    assert_ne!(bytes(5, 6), bytes(6, 6));
}

/// What is met by one log that was not met before any.
fn met(draft: &Draft) -> Vec<String> {
    let mut packings = Packings::default();
    let before = packings.never_met();
    let _ = counted(&mut packings, &draft.bytes(), false);
    let after = packings.never_met();
    let met = before.into_iter().filter(|it| !after.contains(it));
    met.collect()
}

/// One module in code 0 over 100 ms, and nothing else.
fn quiet() -> Draft {
    let mut draft = Draft {
        period: 100,
        modules: 1,
        ..Draft::default()
    };
    draft.state(0, 0, 0);
    draft
}

/// What logs have that shows with what each record is compared. Kinds that go together are told together.
#[test]
fn kinds_of_repeats() {
    let with = |change: &dyn Fn(&mut Draft)| {
        let mut draft = quiet();
        change(&mut draft);
        draft.sort();
        met(&draft)
    };
    let [none, without] = ["nothing dropped", "no standards"];
    assert_eq!(with(&|_| {}), [none, without]);
    let alone = "openings alone kept of several records each";
    let last = "the list's last state record dropped";
    let [next, zero] = [
        "a state record dropped next to its module's record before",
        "code 0 repeated",
    ];
    assert_eq!(
        with(&|it| it.state(0, 0, 50)),
        [next, zero, last, alone, without]
    );
    let later = ["a code repeated 1 ms later", "a repeat at 1 ms"];
    assert_eq!(
        with(&|it| it.state(0, 0, 1)),
        [next, later[0], later[1], zero, last, alone, without]
    );
    let in_last = "a repeat in the period's last ms";
    assert_eq!(
        with(&|it| it.state(0, 0, 99)),
        [next, in_last, zero, last, alone, without]
    );
    let [within, bit, several] = [
        "a change within one of the six states",
        "codes one behind the other that differ in one bit",
        "several records of each module, none dropped",
    ];
    assert_eq!(
        with(&|it| it.state(0, 4, 50)),
        [within, bit, several, none, without]
    );
    assert_eq!(with(&|it| it.state(0, 9, 50)), [several, none, without]);
    let back = "a change and back";
    let made = with(&|it| {
        it.state(0, 9, 50);
        it.state(0, 0, 60);
    });
    assert_eq!(made, [back, several, none, without]);
    let made = with(&|it| {
        it.state(0, 9, 50);
        it.state(0, 7, 51);
    });
    let apart = "two changes 1 ms apart";
    let seven_and_nine = "a change within one of the six states";
    assert_eq!(made, [seven_and_nine, apart, several, none, without]);
    let minutes = with(&|it| {
        it.period = 1_000_000;
        (1..=10).for_each(|minute| it.state(0, 0, minute * 60_000));
    });
    let [run, ten] = [
        "several repeats one behind the other",
        "ten repeats, one every minute",
    ];
    assert_eq!(minutes, [next, run, ten, zero, last, alone, without]);
    let fewer = with(&|it| {
        it.period = 1_000_000;
        (1..=10).for_each(|minute| it.state(0, 0, minute * 60_000 + minute / 10));
    });
    assert_eq!(fewer, [next, run, zero, last, alone, without]);
}

/// A second module's records between the first's.
#[test]
fn kinds_of_repeats_of_two_modules() {
    let with = |second: u64, records: &[(u64, u64, u64)]| {
        let mut draft = quiet();
        draft.modules = 2;
        draft.state(1, second, 0);
        for &(module, code, time) in records {
            draft.state(module, code, time);
        }
        let mut met = met(&draft);
        let of_both = ["another module's", "another's", "at one time"];
        met.retain(|it| of_both.iter().any(|what| it.contains(what)));
        met
    };
    let [dropped, kept, first] = [
        "a state record dropped behind another module's of another code",
        "a state record kept behind another module's of its code",
        "a first record kept behind another module's of its code",
    ];
    let alone = "a module of its opening alone, and another's records dropped";
    assert_eq!(with(7, &[(0, 0, 9)]), [dropped, alone]);
    assert_eq!(with(0, &[]), [first]);
    assert_eq!(with(7, &[(0, 7, 9)]), [kept]);
    assert_eq!(with(7, &[(1, 0, 9)]), [""; 0]);
    let both = "repeats of two modules at one time";
    assert_eq!(with(7, &[(0, 0, 9), (1, 7, 9)]), [dropped, both]);
    let one = "a repeat and a change at one time";
    let kept = "a module's records all kept, and another's all dropped but its opening";
    assert_eq!(with(7, &[(0, 0, 9), (1, 9, 9)]), [dropped, one, kept]);
}

#[test]
fn kinds_of_repeated_standards() {
    let with = |standards: &[(u64, u64, u64, u64)], units: &[u64]| {
        let mut draft = quiet();
        draft.modules = 2;
        draft.state(1, 7, 0);
        for &(module, recipe, start, time) in standards {
            draft.standard(module, recipe, start, time);
        }
        units.iter().for_each(|time| draft.unit(0, 3, *time, 1, 1));
        let mut met = met(&draft);
        met.retain(|it| !it.contains("dropped, ahead") && !it.contains("units moved"));
        met
    };
    let [none, several] = ["nothing dropped", "several standards each, none dropped"];
    assert_eq!(with(&[(0, 3, 0, 6)], &[]), [none]);
    let [dropped, last, one_each] = [
        "a standard dropped",
        "the list's last standard dropped",
        "one standard each kept of several",
    ];
    let repeated = [(0, 3, 0, 6), (0, 3, 50, 6)];
    assert_eq!(with(&repeated, &[]), [dropped, last, one_each]);
    let [at, ahead, behind] = [
        "a unit at the start of a dropped standard",
        "a unit in the ms ahead of a dropped standard's start",
        "a unit behind the start of a dropped standard",
    ];
    assert_eq!(with(&repeated, &[50]), [dropped, at, last, one_each]);
    assert_eq!(with(&repeated, &[49]), [dropped, ahead, last, one_each]);
    assert_eq!(with(&repeated, &[51]), [dropped, behind, last, one_each]);
    let and_back = "a time, another one and the first again";
    assert_eq!(
        with(&[(0, 3, 0, 6), (0, 3, 50, 9), (0, 3, 60, 6)], &[]),
        [and_back, several, none]
    );
    let [twice, other] = ["a time repeated twice", "another time behind a repeat"];
    assert_eq!(
        with(&[(0, 3, 0, 6), (0, 3, 50, 6), (0, 3, 60, 6)], &[]),
        [dropped, twice, last, one_each]
    );
    let kept = "the list's last standard kept behind a repeat";
    assert_eq!(
        with(&[(0, 3, 0, 6), (0, 3, 50, 6), (0, 3, 60, 9)], &[]),
        [dropped, other, kept]
    );
    let of_recipe = "a standard kept behind another recipe's of its time";
    let of_module = "a standard kept behind another module's of its recipe and time";
    let of_both = "a standard kept behind another module's of another recipe and its time";
    let of_low = "a standard kept behind a recipe's 256 or 512 below it, of its time";
    assert_eq!(with(&[(0, 3, 0, 6), (0, 4, 9, 6)], &[]), [of_recipe, none]);
    assert_eq!(with(&[(0, 3, 0, 6), (1, 3, 9, 6)], &[]), [of_module, none]);
    assert_eq!(with(&[(0, 3, 0, 6), (1, 4, 9, 6)], &[]), [of_both, none]);
    let low = [(0, 3, 0, 6), (0, 259, 9, 6)];
    assert_eq!(with(&low, &[]), [of_recipe, of_low, none]);
    assert_eq!(with(&[(0, 3, 0, 6), (0, 4, 9, 8)], &[]), [none]);
}

#[test]
fn a_tally_of_nothing_misses_all() {
    let mut packings = Packings::default();
    assert_eq!(packings.never_met().len(), 28 + 23 + 19 + 3 + 24);
    assert_eq!(packings.never_met_with_buffers().len(), 97 + 4);
    assert_eq!(packings.never_answered().len(), 3);
    for count in [
        &mut packings.longer,
        &mut packings.shorter,
        &mut packings.tried,
        &mut packings.alike,
    ] {
        *count = 1;
    }
    assert_eq!(packings.never_met_with_buffers(), packings.never_met());
}

// ---------------------------------------------------------------- wrong calls

fn leave(packed: Result<Vec<u8>, Refusal>, buffer: &mut [u8]) -> Answer<[u64; 1]> {
    match packed {
        Ok(bytes) => {
            buffer[..bytes.len()].copy_from_slice(&bytes);
            buffer[bytes.len()..].fill(0);
            Answer {
                answered: 1,
                values: [bytes.len() as u64],
                refusal: [0; 3],
            }
        }
        Err(it) => Answer {
            answered: 0,
            values: [UNTOUCHED],
            refusal: [it.number, it.list, it.place],
        },
    }
}

const RIGHT: Call = |buffer| leave(packed(buffer).map(|it| it.bytes), buffer);

/// Other records stay.
fn staying(buffer: &mut [u8], change: impl Fn(&Log, &mut Stay)) -> Answer<[u64; 1]> {
    let packed = packed(buffer).map(|mut it| {
        change(&it.from, &mut it.stay);
        written(&it.stay.of(&it.from))
    });
    leave(packed, buffer)
}

/// State records that go by another test, of the list and a place.
fn states_by(buffer: &mut [u8], goes: fn(&[StateRecord], usize) -> bool) -> Answer<[u64; 1]> {
    staying(buffer, |log, stay| {
        let places = 0..log.states.len();
        stay.states = places.map(|at| !goes(&log.states, at)).collect();
    })
}

/// Standards that do.
fn standards_by(buffer: &mut [u8], goes: fn(&[Standard], usize) -> bool) -> Answer<[u64; 1]> {
    staying(buffer, |log, stay| {
        let places = 0..log.standards.len();
        stay.standards = places.map(|at| !goes(&log.standards, at)).collect();
    })
}

/// The module's record before.
fn own(list: &[StateRecord], at: usize) -> Option<StateRecord> {
    let mut before = list[..at].iter();
    before.rfind(|it| it.module == list[at].module).copied()
}

fn repeats(list: &[StateRecord], at: usize) -> bool {
    own(list, at).is_some_and(|it| it.code == list[at].code)
}

/// The record ahead in the list.
fn ahead<T: Copy>(list: &[T], at: usize) -> Option<T> {
    at.checked_sub(1).map(|ahead| list[ahead])
}

fn of_one(one: &Standard, other: &Standard) -> bool {
    (one.module, one.recipe) == (other.module, other.recipe)
}

fn repeats_time(list: &[Standard], at: usize) -> bool {
    let it = list[at];
    ahead(list, at).is_some_and(|one| of_one(&one, &it) && one.theoretical == it.theoretical)
}

/// The right answer with the buffer and the answer changed where the log is packed; what it held before is given too.
fn packed_but(
    buffer: &mut [u8],
    change: fn(&[u8], &mut [u8], &mut Answer<[u64; 1]>),
) -> Answer<[u64; 1]> {
    let before = buffer.to_vec();
    let mut answer = RIGHT(buffer);
    if answer.answered == 1 {
        change(&before, buffer, &mut answer);
    }
    answer
}

/// The same where it is refused.
fn refused_but(
    buffer: &mut [u8],
    change: fn(&mut [u8], &mut Answer<[u64; 1]>),
) -> Answer<[u64; 1]> {
    let mut answer = RIGHT(buffer);
    if answer.answered == 0 {
        change(buffer, &mut answer);
    }
    answer
}

/// Bits of a header's counts put back: which count, of 14 bits from 42 on or of 11 from 56 on.
fn put_back(before: &[u8], buffer: &mut [u8], bits: std::ops::Range<usize>) {
    for bit in bits {
        let mask = 1 << (7 - bit % 8);
        buffer[bit / 8] = buffer[bit / 8] & !mask | before[bit / 8] & mask;
    }
}

fn units_of(log: &[u8]) -> usize {
    let units = header(log).expect("a log").units;
    (units * UNIT_BYTES) as usize
}

/// Packs what its test alone would let pass: a log with these bits set to 0.
fn packed_without(buffer: &mut [u8], clear: fn(&mut Draft)) -> Answer<[u64; 1]> {
    if let Ok(log) = read(buffer) {
        let mut draft = Draft::of(log);
        clear(&mut draft);
        if let Ok(packed) = packed(&draft.bytes()) {
            return leave(Ok(packed.bytes), buffer);
        }
    }
    RIGHT(buffer)
}

/// Other records stay than those that say something new.
const OF_RECORDS: [(&str, Call); 34] = [
    ("a first record of the code ahead dropped", |buffer| {
        states_by(buffer, |list, at| match own(list, at) {
            Some(_) => repeats(list, at),
            None => ahead(list, at).is_some_and(|it| it.code == list[at].code),
        })
    }),
    ("first records of code 0 dropped", |buffer| {
        states_by(buffer, |list, at| {
            own(list, at).map_or(0, |it| it.code) == list[at].code
        })
    }),
    ("compared with any module's last record", |buffer| {
        states_by(buffer, |list, at| {
            ahead(list, at).is_some_and(|it| it.code == list[at].code)
        })
    }),
    ("compared with any module's behind the openings", |buffer| {
        states_by(buffer, |list, at| {
            let of_code = ahead(list, at).is_some_and(|it| it.code == list[at].code);
            own(list, at).is_some() && of_code
        })
    }),
    ("repeats across another module's record kept", |buffer| {
        states_by(buffer, |list, at| {
            let own = ahead(list, at).filter(|it| it.module == list[at].module);
            own.is_some_and(|it| it.code == list[at].code)
        })
    }),
    ("compared by the six states", |buffer| {
        states_by(buffer, |list, at| {
            let state = |it: StateRecord| state_of(it.code);
            own(list, at).map(state) == Some(state(list[at]))
        })
    }),
    ("compared by four bits of the code", |buffer| {
        states_by(buffer, |list, at| {
            own(list, at).is_some_and(|it| it.code % 16 == list[at].code % 16)
        })
    }),
    ("a code that comes again dropped", |buffer| {
        states_by(buffer, |list, at| {
            let said = |it: &StateRecord| (it.module, it.code);
            list[..at].iter().any(|it| said(it) == said(&list[at]))
        })
    }),
    ("a change and back dropped", |buffer| {
        states_by(buffer, |list, at| {
            let mut before = list[..at].iter().filter(|it| it.module == list[at].module);
            let back = before.nth_back(1).map(|it| it.code);
            repeats(list, at) || back == Some(list[at].code)
        })
    }),
    ("a change 1 ms later dropped", |buffer| {
        states_by(buffer, |list, at| {
            let later = own(list, at).is_some_and(|it| it.time + 1 == list[at].time);
            repeats(list, at) || later
        })
    }),
    ("a repeat 1 ms later kept", |buffer| {
        states_by(buffer, |list, at| {
            let later = own(list, at).is_some_and(|it| it.time + 1 == list[at].time);
            repeats(list, at) && !later
        })
    }),
    ("a change behind a repeat dropped", |buffer| {
        states_by(buffer, |list, at| {
            let place = (0..at).rfind(|it| list[*it].module == list[at].module);
            repeats(list, at) || place.is_some_and(|it| repeats(list, it))
        })
    }),
    ("every second repeat kept", |buffer| {
        staying(buffer, |log, stay| {
            let repeats = (0..log.states.len()).filter(|at| repeats(&log.states, *at));
            repeats.step_by(2).for_each(|at| stay.states[at] = true);
        })
    }),
    ("the first repeat alone dropped", |buffer| {
        staying(buffer, |log, stay| {
            let repeats = (0..log.states.len()).filter(|at| repeats(&log.states, *at));
            repeats.skip(1).for_each(|at| stay.states[at] = true);
        })
    }),
    ("openings alone kept", |buffer| {
        states_by(buffer, |list, at| own(list, at).is_some())
    }),
    ("a repeat in the last ms kept", |buffer| {
        staying(buffer, |log, stay| {
            let stays = stay.states.iter_mut().zip(&log.states);
            stays.for_each(|(stays, it)| *stays |= it.time + 1 == log.header.period);
        })
    }),
    ("repeats past 32 bits kept", |buffer| {
        staying(buffer, |log, stay| {
            let stays = stay.states.iter_mut().zip(&log.states);
            stays.for_each(|(stays, it)| *stays |= it.time >= 1 << 32);
        })
    }),
    ("repeats of module 63 kept", |buffer| {
        states_by(buffer, |list, at| repeats(list, at) && list[at].module < 63)
    }),
    ("the list's last state record kept", |buffer| {
        staying(buffer, |log, stay| stay.states[log.states.len() - 1] = true)
    }),
    ("the list's last state record dropped", |buffer| {
        staying(buffer, |log, stay| {
            let last = log.states.len() - 1;
            stay.states[last] = own(&log.states, last).is_none();
        })
    }),
    ("the earlier of two codes alike dropped", |buffer| {
        states_by(buffer, |list, at| {
            let mut behind = list[at + 1..].iter();
            let next = behind.find(|it| it.module == list[at].module);
            next.is_some_and(|it| it.code == list[at].code)
        })
    }),
    ("standards compared with another recipe's", |buffer| {
        standards_by(buffer, |list, at| {
            let said = |it: Standard| (it.module, it.theoretical);
            ahead(list, at).map(said) == Some(said(list[at]))
        })
    }),
    ("standards compared with another module's", |buffer| {
        standards_by(buffer, |list, at| {
            let said = |it: Standard| (it.recipe, it.theoretical);
            ahead(list, at).map(said) == Some(said(list[at]))
        })
    }),
    ("standards compared by their times alone", |buffer| {
        standards_by(buffer, |list, at| {
            ahead(list, at).is_some_and(|it| it.theoretical == list[at].theoretical)
        })
    }),
    ("recipes compared by 8 bits", |buffer| {
        standards_by(buffer, |list, at| {
            let said = |it: Standard| (it.module, it.recipe % 256, it.theoretical);
            ahead(list, at).map(said) == Some(said(list[at]))
        })
    }),
    ("times compared by 16 bits", |buffer| {
        standards_by(buffer, |list, at| {
            let said = |it: Standard| (it.module, it.recipe, it.theoretical % (1 << 16));
            ahead(list, at).map(said) == Some(said(list[at]))
        })
    }),
    ("a time that comes again dropped", |buffer| {
        standards_by(buffer, |list, at| {
            let said = |it: &Standard| (it.module, it.recipe, it.theoretical);
            list[..at].iter().any(|it| said(it) == said(&list[at]))
        })
    }),
    ("standards that repeat kept", |buffer| {
        standards_by(buffer, |_, _| false)
    }),
    ("of a time repeated twice one kept", |buffer| {
        standards_by(buffer, |list, at| {
            repeats_time(list, at) && !repeats_time(list, at - 1)
        })
    }),
    ("standards 1 ms later dropped", |buffer| {
        standards_by(buffer, |list, at| {
            let it = list[at];
            let next = |one: Standard| of_one(&one, &it) && one.start + 1 == it.start;
            repeats_time(list, at) || ahead(list, at).is_some_and(next)
        })
    }),
    ("the list's last standard kept", |buffer| {
        standards_by(buffer, |list, at| {
            repeats_time(list, at) && at + 1 < list.len()
        })
    }),
    ("the list's last standard dropped", |buffer| {
        standards_by(buffer, |list, at| {
            let last = at + 1 == list.len();
            let later = ahead(list, at).is_some_and(|it| of_one(&it, &list[at]));
            repeats_time(list, at) || last && later
        })
    }),
    ("the earlier of two standards alike dropped", |buffer| {
        standards_by(buffer, |list, at| {
            at + 1 < list.len() && repeats_time(list, at + 1)
        })
    }),
    ("standards with units kept", |buffer| {
        staying(buffer, |log, stay| {
            for unit in &log.units {
                let key = (unit.module, unit.recipe, unit.time);
                let its = |it: &Standard| (it.module, it.recipe, it.start) == key;
                if let Some(place) = log.standards.iter().position(its) {
                    stay.standards[place] = true;
                }
            }
        })
    }),
];

/// The right records stay, and something else is wrong.
const OF_BYTES: [(&str, Call); 16] = [
    ("the rest not cleared", |buffer| {
        packed_but(buffer, |before, buffer, answer| {
            let length = answer.values[0] as usize;
            buffer[length..].copy_from_slice(&before[length..]);
        })
    }),
    ("the last byte not cleared", |buffer| {
        packed_but(buffer, |before, buffer, answer| {
            let last = before.len() - 1;
            if answer.values[0] as usize <= last {
                buffer[last] = before[last] | 1;
            }
        })
    }),
    ("the first byte of the rest not cleared", |buffer| {
        packed_but(buffer, |before, buffer, answer| {
            let length = answer.values[0] as usize;
            if length < before.len() {
                buffer[length] = before[length] | 1;
            }
        })
    }),
    ("the last byte of the log cleared", |buffer| {
        packed_but(buffer, |_, buffer, answer| {
            buffer[answer.values[0] as usize - 1] = 0;
        })
    }),
    ("both counts as they were", |buffer| {
        packed_but(buffer, |before, buffer, _| put_back(before, buffer, 42..67))
    }),
    ("the count of state records as it was", |buffer| {
        packed_but(buffer, |before, buffer, _| put_back(before, buffer, 42..56))
    }),
    ("the count of standards as it was", |buffer| {
        packed_but(buffer, |before, buffer, _| put_back(before, buffer, 56..67))
    }),
    ("the old length answered", |buffer| {
        packed_but(buffer, |before, _, answer| {
            answer.values[0] = before.len() as u64;
        })
    }),
    ("the bytes dropped answered", |buffer| {
        packed_but(buffer, |before, _, answer| {
            answer.values[0] = before.len() as u64 - answer.values[0];
        })
    }),
    ("no length for a log that stays as it was", |buffer| {
        packed_but(buffer, |before, buffer, answer| {
            if before == buffer {
                answer.values[0] = 0;
            }
        })
    }),
    ("the refusal left as it was", |buffer| {
        packed_but(buffer, |_, _, answer| answer.refusal = [UNTOUCHED; 3])
    }),
    ("units where they were", |buffer| {
        packed_but(buffer, |before, buffer, answer| {
            let (length, units) = (answer.values[0] as usize, units_of(before));
            buffer[length - units..length].copy_from_slice(&before[length - units..length]);
        })
    }),
    ("units one byte off", |buffer| {
        packed_but(buffer, |before, buffer, answer| {
            let (length, units) = (answer.values[0] as usize, units_of(before));
            if before.len() > length && units > 0 {
                buffer[length - units..length].rotate_left(1);
            }
        })
    }),
    ("the last unit record not moved", |buffer| {
        packed_but(buffer, |before, buffer, answer| {
            let length = answer.values[0] as usize;
            if units_of(before) > 0 && before.len() > length {
                buffer[length - 11..length].fill(0);
            }
        })
    }),
    ("units of dropped standards dropped", |buffer| {
        let packed = packed(buffer).map(|it| {
            let mut draft = Draft::of(it.stay.of(&it.from));
            let standards = it.from.standards.iter().zip(&it.stay.standards);
            for (gone, _) in standards.filter(|(_, stays)| !**stays) {
                let key = (gone.start, gone.module, gone.recipe);
                draft.units.retain(|unit| unit.key() != key);
            }
            draft.bytes()
        });
        leave(packed, buffer)
    }),
    ("units at the starts of the standards that stay", |buffer| {
        let packed = packed(buffer).map(|it| {
            let mut draft = Draft::of(it.stay.of(&it.from));
            for unit in &mut draft.units {
                let own = |it: &&Standard| {
                    (it.module, it.recipe) == (unit.module, unit.recipe) && it.start <= unit.time
                };
                let standard = draft.standards.iter().rfind(own);
                unit.time = standard.expect("an accepted log").start;
            }
            draft.bytes()
        });
        leave(packed, buffer)
    }),
];

/// Refused logs are packed or changed, or told otherwise.
const OF_REFUSALS: [(&str, Call); 9] = [
    ("a refused log answered with its length", |buffer| {
        refused_but(buffer, |buffer, answer| {
            answer.values[0] = buffer.len() as u64
        })
    }),
    ("a refused log's header changed", |buffer| {
        refused_but(buffer, |buffer, _| {
            if let Some(count) = buffer.get_mut(6) {
                *count = count.wrapping_sub(1);
            }
        })
    }),
    ("a refused log's first repeat dropped", |buffer| {
        refused_but(buffer, |buffer, _| {
            let Ok(mut log) = read(buffer) else {
                return;
            };
            let repeat = (0..log.states.len()).find(|at| repeats(&log.states, *at));
            if let Some(place) = repeat {
                log.states[place..].rotate_left(1);
                buffer.copy_from_slice(&Draft::of(log).bytes());
            }
        })
    }),
    ("a refused log cleared", |buffer| {
        refused_but(buffer, |buffer, _| buffer.fill(0))
    }),
    ("the last byte of a refused log cleared", |buffer| {
        refused_but(buffer, |buffer, _| {
            buffer.last_mut().into_iter().for_each(|it| *it ^= 1)
        })
    }),
    ("a refusal without its place", |buffer| {
        refused_but(buffer, |_, answer| answer.refusal[2] = 0)
    }),
    ("a log in a longer buffer packed", |buffer| {
        let longest = (10..buffer.len()).rev().take(12);
        let found = longest
            .map(|it| &buffer[..it])
            .find_map(|it| packed(it).ok());
        match found {
            Some(found) if account(buffer).is_err() => leave(Ok(found.bytes), buffer),
            _ => RIGHT(buffer),
        }
    }),
    ("spare bits of a repeat not tested", |buffer| {
        packed_without(buffer, |draft| {
            let list = draft.states.clone();
            let places = (0..list.len()).filter(|at| repeats(&list, *at));
            places.for_each(|at| draft.states[at].spare = 0);
        })
    }),
    ("units not tested", |buffer| {
        packed_without(buffer, |draft| {
            draft.units.iter_mut().for_each(|it| {
                it.spare = 0;
                it.effective = it.effective.min(it.actual);
            })
        })
    }),
];

fn wrong() -> impl Iterator<Item = (&'static str, Call)> {
    let others = OF_BYTES.into_iter().chain(OF_REFUSALS);
    OF_RECORDS.into_iter().chain(others)
}

fn wrong_call(what: &str) -> Call {
    let found = wrong().find(|(name, _)| *name == what);
    found.expect("a wrong call").1
}

/// What is said of a call on a log.
fn compared(log: &[u8], number: u64, call: Call) -> Vec<String> {
    let verdict = account(log);
    PackComparison::of(log, &verdict, &Packed::of(log, &verdict), number, call).differences
}

/// Numbers of logs without those that have full lists.
fn numbers(logs: u64) -> impl Iterator<Item = u64> {
    5..logs + 5
}

#[test]
fn wrong_calls_are_named() {
    let named = |call: Call, logs: u64| {
        numbers(logs).find_map(|number| {
            let log = repeats::make(11, number).bytes;
            compared(&log, number, call).into_iter().next()
        })
    };
    assert_eq!(named(RIGHT, 300), None);
    for (what, call) in wrong() {
        assert!(named(call, 900).is_some(), "not named: {what}");
    }
}

/// Records that stay or go wrongly are named without the oracle's packing too.
#[test]
fn wrong_records_are_named_by_what_logs_say() {
    let named = |call: Call, logs: u64| {
        numbers(logs).any(|number| {
            let log = repeats::make(11, number).bytes;
            let mut left = log.clone();
            let answer = call(&mut left);
            left.truncate(answer.values[0] as usize);
            account(&log).is_ok_and(|account| !lost(&log, &account, &left).is_empty())
        })
    };
    assert!(!named(RIGHT, 300));
    for (what, call) in OF_RECORDS {
        assert!(named(call, 900), "not named: {what}");
    }
}

/// What needs more modules, codes, recipes, bits or ms than the logs of a few ms have.
const NOT_AMONG_TINY: [&str; 5] = [
    "compared by four bits of the code",
    "repeats past 32 bits kept",
    "repeats of module 63 kept",
    "recipes compared by 8 bits",
    "times compared by 16 bits",
];

#[test]
fn wrong_records_are_named_among_tiny_logs() {
    assert_eq!(search(&tiny::SMALL, RIGHT).differences, [""; 0]);
    for (what, call) in OF_RECORDS {
        let named = !search(&tiny::SMALL, call).differences.is_empty();
        assert_eq!(named, !NOT_AMONG_TINY.contains(&what), "{what}");
    }
}

/// What is said of a wrong call says where it is wrong.
#[test]
fn differences_are_told() {
    let log = repeating().bytes();
    let told = |what: &str| compared(&log, 2, wrong_call(what));
    assert_eq!(compared(&log, 2, RIGHT), [""; 0]);
    let length = "pack: length: expected 129, found 183";
    assert_eq!(told("the old length answered")[0], length);
    let rest = told("the first byte of the rest not cleared");
    assert!(rest[0].starts_with("pack: byte 129: expected 0, "));
    let last = told("the last byte not cleared");
    assert!(last[0].starts_with("pack: byte 182: expected 0, "));
    let otherwise = told("compared by the six states");
    let said = "the packed log says otherwise: module 0's code at 2";
    assert!(otherwise.contains(&String::from(said)), "{otherwise:?}");
    let kept = told("standards that repeat kept");
    let more = "more records than it takes";
    assert!(kept.contains(&String::from(more)), "{kept:?}");
    let refused = told("both counts as they were");
    let what = "the packed log: refused 5 list 0 at 0";
    assert!(refused.contains(&String::from(what)), "{refused:?}");
    let header = told("a refused log's header changed");
    let zeros = "packed again with the zeros: byte 6: ";
    assert!(header[0].starts_with(zeros), "{header:?}");
    let alike = PackComparison::alike(&log, &without_repeats().bytes(), 3, RIGHT);
    assert_eq!(alike, [""; 0]);
    let alike = PackComparison::alike(&log, &log, 3, RIGHT);
    assert!(alike[0].starts_with("pack of a log that says the same: length: "));
}

//! The generator of benchmarks makes what it says: every refusal in every place, and every shape of figures.

use difftest::draft::packed;
use difftest::generator::{benchmarks, make, Expected, Made};
use difftest::oracle::{account, read, standard_of};
use difftest::records::*;
use difftest::supplemental::{answer, Judged};
use difftest::tally::Tally;
use std::collections::BTreeSet;

const LOGS: u64 = 5_000;

/// A log of the generator, judged, and the slices for it.
struct Case {
    log: Vec<u8>,
    judged: Result<Judged, Refusal>,
    slices: Vec<Made>,
}

fn cases(seed: u64) -> impl Iterator<Item = Case> {
    (0..LOGS).map(move |index| {
        let log = make(seed, index).bytes;
        let judged = Judged::of(&log, &account(&log));
        let refused = judged.as_ref().err().copied();
        let slices = benchmarks::make(seed, index, &log, refused);
        Case {
            log,
            judged,
            slices,
        }
    })
}

/// The accepted logs of a seed with each of their slices.
fn accepted(seed: u64, mut tell: impl FnMut(&Judged, &Made)) {
    for Case { judged, slices, .. } in cases(seed) {
        if let Ok(judged) = judged {
            slices.iter().for_each(|slice| tell(&judged, slice));
        }
    }
}

fn all_met(met: &BTreeSet<String>, due: impl IntoIterator<Item = String>) {
    let missed: Vec<String> = due.into_iter().filter(|it| !met.contains(it)).collect();
    assert!(missed.is_empty(), "never made: {missed:?}");
}

#[test]
fn slices_can_be_made_again() {
    for (one, other) in cases(5).zip(cases(5)).take(100) {
        assert_eq!(one.slices, other.slices);
    }
}

#[test]
fn the_oracle_answers_what_the_generator_expects() {
    let mut tally = Tally::default();
    let mut known = 0;
    for Case { judged, slices, .. } in cases(3) {
        for slice in slices {
            let figures = answer(&judged, &slice.bytes);
            tally.count_supplemental(&figures);
            assert!(slice.expected.agrees(&figures), "{slice:?}: {figures:?}");
            known += u64::from(slice.expected != Expected::Unknown);
        }
    }
    assert!(tally.never_met_in_supplemental().is_empty());
    assert!(known > 4 * LOGS);
}

#[test]
fn a_tally_of_nothing_misses_all() {
    let mut tally = Tally::default();
    assert_eq!(
        tally.never_met_in_supplemental(),
        [
            "5 list 4",
            "6 list 4",
            "12 list 4",
            "20 list 4",
            "21 list 4",
            "a refusal of the log",
            "figures above 0"
        ]
    );
    for number in [6, 12, 20] {
        tally.count_supplemental(&Err(Refusal::new(number, BENCHMARKS, 0)));
    }
    // A log's own 5 is none of the benchmarks', and with a figure of 0 not all four are above it.
    tally.count_supplemental(&Err(Refusal::of_log(5)));
    tally.count_supplemental(&Ok([1, 1, 1, 0]));
    assert_eq!(
        tally.never_met_in_supplemental(),
        ["5 list 4", "21 list 4", "figures above 0"]
    );
    tally.count_supplemental(&Ok([1, 1, 1, 1]));
    assert_eq!(tally.never_met_in_supplemental().len(), 2);
}

/// The faults of a benchmark, each with its number.
fn faults(judged: &Judged, place: usize, benchmark: &Benchmark) -> Vec<(u64, String)> {
    let by = |excess: u64| if excess == 1 { "by one" } else { "by more" };
    let mut faults = Vec::new();
    if benchmark.spare != 0 {
        faults.push((6, format!("spare bits {:04b}", benchmark.spare)));
    }
    let theoretical = judged.log.standards[place].theoretical;
    for (field, time) in benchmark.times.iter().enumerate() {
        if *time == 0 {
            faults.push((12, format!("time {field}")));
        }
        if *time > theoretical {
            let by = by(time - theoretical);
            faults.push((20, format!("time {field} {by}")));
        }
    }
    let judged = judged.effective[place];
    if benchmark.total_effective > judged {
        let of_none = if judged == 0 { "of none " } else { "" };
        let by = by(benchmark.total_effective - judged);
        faults.push((21, format!("{of_none}{by}")));
    }
    faults
}

fn position(place: usize, count: usize) -> &'static str {
    match place {
        0 => "first",
        _ if place + 1 == count => "last",
        _ => "middle",
    }
}

/// Each fault alone, at the first benchmark, in the middle and at the last.
#[test]
fn every_fault_is_met_alone() {
    let mut met = BTreeSet::new();
    accepted(21, |judged, slice| {
        let Ok(benchmarks) = judged.read(&slice.bytes) else {
            return;
        };
        let count = benchmarks.len();
        let at = |place| position(place, count);
        let mut all = Vec::new();
        for (place, benchmark) in benchmarks.iter().enumerate() {
            for (number, fault) in faults(judged, place, benchmark) {
                all.push(format!("{number} {fault}, {}", at(place)));
            }
        }
        if all.len() == 1 {
            met.extend(all);
        }
    });
    let spare = ["0001", "0010", "0100", "1000"].map(|bits| format!("6 spare bits {bits}"));
    let mut due: Vec<String> = spare.to_vec();
    for field in 0..3 {
        due.push(format!("12 time {field}"));
        due.push(format!("20 time {field} by one"));
        due.push(format!("20 time {field} by more"));
    }
    due.extend(
        [
            "21 by one",
            "21 by more",
            "21 of none by one",
            "21 of none by more",
        ]
        .map(String::from),
    );
    let everywhere = |fault: String| ["first", "middle", "last"].map(|at| format!("{fault}, {at}"));
    all_met(&met, due.into_iter().flat_map(everywhere));
}

/// Every set of grounds in one benchmark, and every two grounds in two benchmarks, whichever is tested first.
#[test]
fn faults_meet_each_other() {
    let mut met = BTreeSet::new();
    accepted(22, |judged, slice| {
        let Ok(benchmarks) = judged.read(&slice.bytes) else {
            return;
        };
        let mut first = None;
        for (place, benchmark) in benchmarks.iter().enumerate() {
            let faults = faults(judged, place, benchmark);
            let numbers: BTreeSet<u64> = faults.iter().map(|(number, _)| *number).collect();
            met.insert(format!("{numbers:?}"));
            if let (Some(first), Some(later)) = (first, numbers.first()) {
                met.insert(format!("{first}, then {later}"));
            }
            first = first.or(numbers.first().copied());
        }
    });
    let numbers = [6, 12, 20, 21];
    let sets = (1..16).map(|set| {
        let of_set = (0..4).filter(|place| set >> place & 1 == 1);
        let numbers: BTreeSet<u64> = of_set.map(|place| numbers[place]).collect();
        format!("{numbers:?}")
    });
    all_met(&met, sets);
    let pairs = numbers.map(|first| numbers.map(|later| format!("{first}, then {later}")));
    all_met(&met, pairs.concat());
}

/// Benchmarks that stand in each other's place, refused at the first of the two or at the second.
#[test]
fn exchanged_benchmarks_are_met() {
    let mut met = BTreeSet::new();
    accepted(23, |judged, slice| {
        let figures = judged.supplemental(&slice.bytes);
        let (Expected::Unknown, Ok(benchmarks), Err(refusal)) =
            (slice.expected, judged.read(&slice.bytes), figures)
        else {
            return;
        };
        let place = refusal.place as usize;
        for first in place.saturating_sub(1)..=place {
            let mut in_place = benchmarks.clone();
            if first + 1 < in_place.len() {
                in_place.swap(first, first + 1);
            }
            if judged.supplemental(&packed(&in_place)).is_ok() {
                let at = if first == place { "first" } else { "second" };
                met.insert(format!("{} at the {at}", refusal.number));
            }
        }
    });
    let due = [
        "20 at the first",
        "20 at the second",
        "21 at the first",
        "21 at the second",
    ];
    all_met(&met, due.map(String::from));
}

/// Each wrong length, where the benchmarks ahead of it are right and where they have a fault.
#[test]
fn every_wrong_length_is_met() {
    let size = BENCHMARK_BYTES as usize;
    let mut met = BTreeSet::new();
    accepted(24, |judged, slice| {
        let due = size * judged.log.standards.len();
        let length = slice.bytes.len();
        if length == due {
            return;
        }
        assert_eq!(
            slice.expected,
            Expected::Refused(Refusal::new(5, BENCHMARKS, 0))
        );
        let mut padded = slice.bytes.clone();
        padded.resize(due, 0);
        let whole = length.min(due) / size;
        let benchmarks = judged.read(&padded).expect("the right length");
        let at_fault =
            (0..whole).any(|place| !faults(judged, place, &benchmarks[place]).is_empty());
        let standards = match (due, at_fault) {
            (0, _) => "no standards",
            (_, false) => "right so far",
            (_, true) => "at fault",
        };
        let mut note = |name: &str, has: bool| {
            if has {
                met.insert(format!("{name}, {standards}"));
            }
        };
        note("empty", length == 0);
        note("a byte short", length + 1 == due);
        note("a byte long", length == due + 1);
        note("a benchmark short", length + size == due);
        note("a benchmark long", length == due + size);
        note(
            "benchmarks of other standards",
            length % size == 0 && length.abs_diff(due) > size,
        );
        note("part of a benchmark", length % size > 1);
        note("longer than any", length > size * MOST_STANDARDS as usize);
        note("65,536 bytes more", length == due + 65_536);
    });
    let short = ["a byte short", "a benchmark short"];
    let long = [
        "a byte long",
        "a benchmark long",
        "benchmarks of other standards",
        "part of a benchmark",
        "longer than any",
        "65,536 bytes more",
    ];
    let mut due = vec![String::from("empty, right so far")];
    for standards in ["right so far", "at fault"] {
        due.extend(short.map(|name| format!("{name}, {standards}")));
    }
    for standards in ["right so far", "at fault", "no standards"] {
        due.extend(long.map(|name| format!("{name}, {standards}")));
    }
    all_met(&met, due);
}

/// Each refusal of a log, with slices of the length that is due by its header, with spare bits and without, and of others.
#[test]
fn refused_logs_have_slices_of_every_kind() {
    let mut met = BTreeSet::new();
    for case in cases(25) {
        let Err(refusal) = case.judged else {
            continue;
        };
        // Where the header or the length is wrong, none are due.
        let standards = read(&case.log).map_or(0, |log| log.header.standards);
        for slice in case.slices {
            assert_eq!(slice.expected, Expected::Refused(refusal));
            let due = slice.bytes.len() as u64 == BENCHMARK_BYTES * standards;
            let spare = |benchmark: &[u8]| benchmark[13] & 0xf != 0;
            let kind = if !due {
                "another length"
            } else if slice.bytes.chunks_exact(14).any(spare) {
                "spare bits"
            } else {
                "no spare bits"
            };
            met.insert(format!("{}, {kind}", refusal.number));
        }
    }
    let of_the_header = (1..=5).map(|number| (number, vec!["no spare bits", "another length"]));
    let of_the_records = (6..=16).chain([19]).map(|number| {
        (
            number,
            vec!["no spare bits", "spare bits", "another length"],
        )
    });
    let due = of_the_header.chain(of_the_records);
    let each = |(number, kinds): (u64, Vec<&str>)| {
        let named = kinds
            .into_iter()
            .map(move |kind| format!("{number}, {kind}"));
        named.collect::<Vec<String>>()
    };
    all_met(&met, due.flat_map(each));
}

/// Names of the shapes that figures have.
fn shapes(judged: &Judged, benchmarks: &[Benchmark]) -> Vec<String> {
    let mut shapes = Vec::new();
    let mut note = |name: &str, has: bool| {
        if has {
            shapes.push(String::from(name));
        }
    };
    let log = &judged.log;
    let standards: Vec<_> = log
        .standards
        .iter()
        .zip(&judged.effective)
        .zip(benchmarks)
        .collect();
    let any = |has: &dyn Fn(&Standard, u64, &Benchmark) -> bool| {
        standards
            .iter()
            .any(|((standard, judged), it)| has(standard, **judged, it))
    };
    let all = |has: &dyn Fn(&Standard, u64, &Benchmark) -> bool| {
        !standards.is_empty()
            && standards
                .iter()
                .all(|((standard, judged), it)| has(standard, **judged, it))
    };
    let figures = judged.supplemental(&packed(benchmarks)).expect("accepted");
    let sums = judged.sums(benchmarks);
    note("no standards", benchmarks.is_empty());
    note("most standards", benchmarks.len() as u64 == MOST_STANDARDS);
    note("figures above 0", !figures.contains(&0));
    for field in 0..3 {
        let name = |what: &str| format!("time {field} {what}");
        note(
            &name("equal to the standard's alone"),
            any(&|standard, _, it| {
                let equal = it.times.map(|time| time == standard.theoretical);
                equal[field] && equal.iter().filter(|equal| **equal).count() == 1
            }),
        );
        note(
            &name("of 1 alone"),
            any(&|standard, _, it| {
                let ones = it.times.iter().filter(|time| **time == 1).count();
                standard.theoretical > 1 && it.times[field] == 1 && ones == 1
            }),
        );
        note(
            &name("greatest of its field"),
            any(&|_, _, it| it.times[field] == (1 << 27) - 1),
        );
    }
    note(
        "all units counted",
        any(&|_, judged, it| judged > 0 && it.total_effective == judged),
    );
    note(
        "no units counted of some",
        any(&|_, judged, it| judged > 0 && it.total_effective == 0),
    );
    note(
        "some units counted",
        any(&|_, judged, it| 0 < it.total_effective && it.total_effective < judged),
    );
    note(
        "units past 16 bits",
        any(&|_, _, it| it.total_effective > 65_535),
    );
    note(
        "all equal",
        figures[0] > 0
            && all(&|standard, judged, it| {
                it.times == [standard.theoretical; 3] && it.total_effective == judged
            }),
    );
    note(
        "a standard without units",
        any(&|_, judged, _| judged == 0) && figures[0] > 0,
    );
    for (name, sum) in ["reference", "optimized", "value-added", "units"]
        .iter()
        .zip(sums)
    {
        let (twice, total) = (20_000 * u128::from(sum), u128::from(judged.total_time));
        let half = twice % total == 0 && twice / total % 2 == 1;
        note(&format!("{name} on a half"), half);
        note(&format!("{name} past 32 bits"), sum > u64::from(u32::MAX));
    }
    // Those that judge effective units.
    let judges = |standard: &&Standard| {
        let own = |unit: &UnitRecord| unit.effective > 0 && standard_of(log, unit) == **standard;
        log.units.iter().any(own)
    };
    let judging: Vec<&Standard> = log.standards.iter().filter(judges).collect();
    let two = |alike: &dyn Fn(&Standard, &Standard) -> bool| {
        let with_later = judging.iter().enumerate();
        with_later
            .flat_map(|(at, one)| judging[at + 1..].iter().map(move |other| (one, other)))
            .any(|(one, other)| alike(one, other))
    };
    note(
        "units by several revisions of a module's recipe",
        two(&|one, other| one.module == other.module && one.recipe == other.recipe),
    );
    note(
        "units of one recipe by the standards of several modules",
        two(&|one, other| one.module != other.module && one.recipe == other.recipe),
    );
    note(
        "units of a recipe by the standards of several modules that have one start and other times",
        two(&|one, other| {
            one.module != other.module
                && (one.recipe, one.start) == (other.recipe, other.start)
                && one.theoretical != other.theoretical
        }),
    );
    shapes
}

#[test]
fn every_shape_is_met() {
    let mut met = BTreeSet::new();
    accepted(26, |judged, slice| {
        if judged.supplemental(&slice.bytes).is_ok() {
            let benchmarks = judged.read(&slice.bytes).expect("the right length");
            met.extend(shapes(judged, &benchmarks));
        }
    });
    let mut due = Vec::new();
    for field in 0..3 {
        for what in [
            "equal to the standard's alone",
            "of 1 alone",
            "greatest of its field",
        ] {
            due.push(format!("time {field} {what}"));
        }
    }
    for name in ["reference", "optimized", "value-added", "units"] {
        due.push(format!("{name} on a half"));
        due.push(format!("{name} past 32 bits"));
    }
    due.extend(
        [
            "no standards",
            "most standards",
            "figures above 0",
            "all units counted",
            "no units counted of some",
            "some units counted",
            "units past 16 bits",
            "all equal",
            "a standard without units",
            "units by several revisions of a module's recipe",
            "units of one recipe by the standards of several modules",
            "units of a recipe by the standards of several modules that have one start and other times",
        ]
        .map(String::from),
    );
    all_met(&met, due);
}

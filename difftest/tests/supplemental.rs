//! R-4 on its oracle: 002's example by hand, each refusal at its edges, and figures worked out by hand.

use difftest::draft::{packed, Draft};
use difftest::records::*;
use difftest::supplemental::{supplemental, text, words, Supplemental};

/// 27 bits, every one of them set.
const GREATEST: u64 = 134_217_727;

/// Hours, in units of 0.00001, as ms.
fn hours(hundred_thousandths: u64) -> u64 {
    hundred_thousandths * 36
}

/// 002, R1-3: a week of one module, 155 hours of production; recipes A to D are 0 to 3.
fn r1_3() -> Draft {
    let mut draft = Draft {
        period: 604_800_000,
        modules: 1,
        ..Draft::default()
    };
    draft.state(0, 0, 0);
    draft.state(0, 7, 558_000_000);
    for (recipe, theoretical, actual, effective) in [
        (0, 3_333, 1_500, 1_500),
        (1, 4_000, 600, 600),
        (2, 5_000, 800, 800),
        (3, 6_667, 500, 480),
    ] {
        draft.standard(0, recipe, 0, hours(theoretical));
        draft.unit(0, recipe, 0, actual, effective);
    }
    draft
}

/// Its Table R1-2.
fn r1_3_benchmarks() -> Vec<Benchmark> {
    [
        (3_333, 2_500, 1_000, 1_250),
        (3_333, 2_000, 500, 550),
        (3_333, 1_500, 500, 725),
        (3_333, 3_250, 1_000, 450),
    ]
    .map(|(reference, optimized, value_added, total_effective)| {
        benchmark(
            [reference, optimized, value_added].map(hours),
            total_effective,
        )
    })
    .to_vec()
}

fn benchmark(times: [u64; 3], total_effective: u64) -> Benchmark {
    Benchmark {
        times,
        total_effective,
        spare: 0,
    }
}

/// One module, productive all through, 1,000 units of a standard of 6 ms, 900 of them effective: 5,400 of 10,000 ms.
fn bench() -> Draft {
    let mut draft = Draft {
        period: 10_000,
        modules: 1,
        ..Draft::default()
    };
    draft.state(0, 0, 0);
    draft.standard(0, 0, 0, 6);
    draft.unit(0, 0, 0, 1_000, 900);
    draft
}

fn answer(draft: &Draft, benchmarks: &[Benchmark]) -> Result<Supplemental, Refusal> {
    supplemental(&draft.bytes(), &packed(benchmarks))
}

fn refused(draft: &Draft, benchmarks: &[Benchmark], number: u64, place: usize) {
    let refusal = Refusal::new(number, BENCHMARKS, place);
    assert_eq!(answer(draft, benchmarks), Err(refusal), "{benchmarks:?}");
}

/// Reference 112.66, optimized 77.10, value-added 26.80 and total effective units 129.91 hours over 168.
#[test]
fn example_r1_3() {
    let figures = answer(&r1_3(), &r1_3_benchmarks());
    assert_eq!(figures, Ok([6_706, 4_589, 1_595, 7_733]));
    let printed = "reference 0.6706\n\
                   optimized 0.4589\n\
                   value-added 0.1595\n\
                   total-effective-units 0.7733\n";
    assert_eq!(text(&figures.unwrap()), printed.as_bytes());
}

/// Fields one behind the other, most significant bit first, worked out by hand.
#[test]
fn packed_by_hand() {
    // 119,988 and 90,000, 36,000 and 1,250 in 27 bits each: 0x1d4b4, 0x15f90, 0x8ca0, 0x4e2 and 4 bits 0.
    assert_eq!(
        packed(&r1_3_benchmarks()[..1]),
        [0, 0x3a, 0x96, 0x80, 0x05, 0x7e, 0x40, 0, 0x46, 0x50, 0, 0, 0x4e, 0x20]
    );
    // In a log whose standards and judged units are 1, each bit that is set shows by its refusal: bits 26, 53, 80
    // and 107 are 1 in their fields, bits 108 to 111 are spare, and any other is more than 1.
    let mut ones = bench();
    ones.standards[0].theoretical = 1;
    ones.units[0] = UnitRecord {
        actual: 1,
        effective: 1,
        ..ones.units[0]
    };
    let right = [0, 0, 0, 0x20, 0, 0, 0x04, 0, 0, 0, 0x80, 0, 0, 0x10];
    assert_eq!(supplemental(&ones.bytes(), &right), Ok([1, 1, 1, 1]));
    for bit in 0..112 {
        let mut bytes = right;
        bytes[bit / 8] ^= 0x80 >> (bit % 8);
        let number = match bit {
            26 | 53 | 80 => 12,
            0..81 => 20,
            107 => {
                assert_eq!(supplemental(&ones.bytes(), &bytes), Ok([1, 1, 1, 0]));
                continue;
            }
            81..107 => 21,
            _ => 6,
        };
        let refusal = Refusal::new(number, BENCHMARKS, 0);
        assert_eq!(supplemental(&ones.bytes(), &bytes), Err(refusal), "{bit}");
    }
}

#[test]
fn slices_of_another_length() {
    let (log, right) = (r1_3().bytes(), packed(&r1_3_benchmarks()));
    assert_eq!(right.len(), 56);
    for length in [0, 1, 13, 14, 42, 55, 57, 70, 7_168, 70_000] {
        let mut bytes = right.clone();
        // Every bit behind the fourth is set, which would be a 6.
        bytes.resize(length, 0xff);
        let refusal = Refusal::new(5, BENCHMARKS, 0);
        assert_eq!(supplemental(&log, &bytes), Err(refusal), "{length}");
    }
    // 5 comes ahead of every ground of a benchmark.
    let refusal = Refusal::new(5, BENCHMARKS, 0);
    assert_eq!(supplemental(&log, &[0xff; 55]), Err(refusal));
    assert_eq!(supplemental(&log, &[0; 42]), Err(refusal));
}

#[test]
fn no_standards() {
    let mut none = bench();
    none.standards.clear();
    none.units.clear();
    assert_eq!(answer(&none, &[]), Ok([0, 0, 0, 0]));
    refused(&none, &[benchmark([1, 1, 1], 0)], 5, 0);
    let refusal = Refusal::new(5, BENCHMARKS, 0);
    assert_eq!(supplemental(&none.bytes(), &[0]), Err(refusal));
}

#[test]
fn spare_bits() {
    for bit in 0..4 {
        let spare = Benchmark {
            spare: 1 << bit,
            ..benchmark([1, 1, 1], 0)
        };
        refused(&bench(), &[spare], 6, 0);
    }
}

#[test]
fn times_at_their_edges() {
    for field in 0..3 {
        for (time, number) in [(0, 12), (7, 20), (GREATEST, 20)] {
            let mut times = [3, 3, 3];
            times[field] = time;
            refused(&bench(), &[benchmark(times, 0)], number, 0);
        }
        let mut times = [1, 1, 1];
        times[field] = 6;
        let mut figures = [900, 900, 900, 0];
        figures[field] = 5_400;
        assert_eq!(answer(&bench(), &[benchmark(times, 0)]), Ok(figures));
    }
    // All equal to the standard's; they are not compared with one another.
    let equal = benchmark([6, 6, 6], 900);
    assert_eq!(answer(&bench(), &[equal]), Ok([5_400; 4]));
    let rising = benchmark([1, 2, 3], 900);
    assert_eq!(answer(&bench(), &[rising]), Ok([900, 1_800, 2_700, 5_400]));
    // The greatest time of a standard has none above it.
    let mut longest = bench();
    longest.period = LONGEST_PERIOD;
    longest.standards[0].theoretical = GREATEST;
    longest.units[0].actual = 1;
    longest.units[0].effective = 1;
    let greatest = benchmark([GREATEST; 3], 1);
    assert_eq!(answer(&longest, &[greatest]), Ok([42; 4]));
}

#[test]
fn total_effective_units_at_their_edges() {
    for (units, figure) in [(0, 0), (1, 6), (899, 5_394), (900, 5_400)] {
        assert_eq!(
            answer(&bench(), &[benchmark([1, 1, 1], units)]),
            Ok([900, 900, 900, figure])
        );
    }
    // 1,000 were made.
    for units in [901, 1_000, 1_001, GREATEST] {
        refused(&bench(), &[benchmark([1, 1, 1], units)], 21, 0);
    }
    // A standard that judges no unit.
    let mut idle = bench();
    idle.standard(0, 0, 1, 5);
    let first = benchmark([1, 1, 1], 0);
    refused(&idle, &[first, benchmark([1, 1, 1], 1)], 21, 1);
    let none = benchmark([5, 5, 5], 0);
    assert_eq!(answer(&idle, &[first, none]), Ok([900, 900, 900, 0]));
}

/// 6, 12, 20 and 21 in this sequence for one benchmark, and the first benchmark first.
#[test]
fn sequence_of_grounds() {
    let mut all = Benchmark {
        times: [7, 0, 6],
        total_effective: 901,
        spare: 8,
    };
    refused(&bench(), &[all], 6, 0);
    all.spare = 0;
    refused(&bench(), &[all], 12, 0);
    all.times[1] = 6;
    refused(&bench(), &[all], 20, 0);
    all.times[0] = 6;
    refused(&bench(), &[all], 21, 0);
    all.total_effective = 900;
    assert_eq!(answer(&bench(), &[all]), Ok([5_400; 4]));

    let right = r1_3_benchmarks();
    for place in 0..4 {
        let mut two = right.clone();
        two[place].total_effective = GREATEST;
        refused(&r1_3(), &two, 21, place);
        // One behind it that is tested ahead of it.
        for later in &mut two[place + 1..] {
            later.spare = 1;
        }
        refused(&r1_3(), &two, 21, place);
    }
    // Those of B and D exchanged: 0.0325 hours of D are below B's 0.04, and 450 units below its 600, but B's 550
    // units are above D's 480.
    let mut exchanged = right.clone();
    exchanged.swap(1, 3);
    refused(&r1_3(), &exchanged, 21, 3);
    // Those of A and B: 550 units of B are below A's 1,500, but A's 1,250 are above B's 600.
    exchanged = right;
    exchanged.swap(0, 1);
    refused(&r1_3(), &exchanged, 21, 1);
}

#[test]
fn the_log_comes_first() {
    let mut log = bench();
    log.units[0].effective = 1_001;
    let over_good = Err(Refusal::new(14, UNITS, 0));
    assert_eq!(answer(&log, &[benchmark([1, 1, 1], 0)]), over_good);
    assert_eq!(answer(&log, &[benchmark([0, 7, 1], 1_001)]), over_good);
    assert_eq!(answer(&log, &[]), over_good);
    assert_eq!(supplemental(&[], &[]), Err(Refusal::of_log(1)));
}

/// Two modules with standards of their own for recipe 0, and revisions whose units are each judged by their own.
#[test]
fn units_by_their_own_modules_standard() {
    let mut draft = bench();
    draft.modules = 2;
    draft.state(1, 0, 0);
    draft.standard(0, 0, 500, 4);
    draft.standard(1, 0, 0, 5);
    draft.standard(1, 9, 0, 10);
    draft.unit(1, 0, 499, 20, 20);
    draft.unit(0, 0, 500, 40, 30);
    draft.unit(1, 0, 9_999, 50, 50);
    draft.unit(1, 9, 9_999, 100, 100);
    // 900 by the first, 30 by the second, 70 by the third, 100 by the fourth; the tool's total time is 20,000.
    let benchmarks = [
        benchmark([6, 5, 1], 900),
        benchmark([4, 3, 2], 30),
        benchmark([5, 2, 4], 69),
        benchmark([10, 1, 3], 99),
    ];
    // 5,400 + 120 + 350 + 1,000; 4,500 + 90 + 140 + 100; 900 + 60 + 280 + 300; 900 by 6, 30 by 4, 69 by 5 and 99 by 10.
    let sums = [6_870, 4_830, 1_540, 6_855];
    let figures = sums.map(|sum: u64| sum.div_ceil(2));
    assert_eq!(answer(&draft, &benchmarks), Ok(figures));
    for (place, units) in [(0, 901), (1, 31), (2, 71), (3, 101)] {
        let mut over = benchmarks;
        over[place].total_effective = units;
        refused(&draft, &over, 21, place);
    }
    // The other module's time for the recipe is no bound: 5 of module 1 is above module 0's 4, 6 of module 0 above module 1's 5.
    for (place, time) in [(1, 5), (2, 6)] {
        let mut above = benchmarks;
        above[place].times[0] = time;
        refused(&draft, &above, 20, place);
    }
}

/// 1, 2 and 3 over 20,000 are 0.5, 1 and 1.5 ten-thousandths: halves go up.
#[test]
fn halves_go_up() {
    let mut draft = bench();
    draft.period = 20_000;
    draft.standards[0].theoretical = 3;
    draft.units[0].effective = 1;
    assert_eq!(answer(&draft, &[benchmark([1, 2, 3], 1)]), Ok([1, 1, 2, 2]));
    // Just below a half.
    draft.period = 20_001;
    assert_eq!(answer(&draft, &[benchmark([1, 2, 3], 1)]), Ok([0, 1, 1, 1]));
}

/// All of the longest period of 64 modules but a few ms.
#[test]
fn the_greatest_figures() {
    let mut whole = Draft {
        period: LONGEST_PERIOD,
        modules: 64,
        ..Draft::default()
    };
    (0..64).for_each(|module| whole.state(module, 0, 0));
    // 31,622,400,000 ms are 40,960 times 772,031.25: 64 modules make 40,960 units of 772,031 ms each.
    (0..64).for_each(|module| whole.standard(module, 0, 0, 772_031));
    (0..64).for_each(|module| whole.unit(module, 0, 0, 40_960, 40_960));
    let equal = benchmark([772_031; 3], 40_960);
    assert_eq!(answer(&whole, &[equal; 64]), Ok([10_000; 4]));
    // Half of it by the time and by the units; 1 ms a unit; 1 ms a unit less.
    let less = benchmark([386_015, 1, 772_030], 20_480);
    assert_eq!(answer(&whole, &[less; 64]), Ok([5_000, 0, 10_000, 5_000]));
    // Each module's units are its own standard's alone.
    let mut over = [less; 64];
    over[63].total_effective = 40_961;
    refused(&whole, &over, 21, 63);
}

/// In the card's words, with where it points to.
#[test]
fn refusals_in_words() {
    let said = |number, place| words(&Refusal::new(number, BENCHMARKS, place));
    let due = |text: &str| Some(String::from(text));
    assert_eq!(said(6, 3), due("spare: a spare bit set (benchmark 3)"));
    assert!(
        said(5, 0).is_some_and(|words| words.ends_with("14 for each standard (the benchmarks)"))
    );
    assert_eq!(said(7, 0), None);
}

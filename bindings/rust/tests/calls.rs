//! Every call on logs packed here: case W, a log with no uptime, standards of two modules, and bytes that are refused; the losses on shares with
//! equal remainders too; credited units and the standard in force on revisions; the supplemental figures on R1-3 and on benchmarks with every fault;
//! the writing ones on records packed here too; joining on two days whose joined records are given, and on logs at each bound and past it; and packing
//! a log on a shift whose packed records are given, on each bit that tells two records apart, on the longest logs and on random ones.

use tool_log::*;

const REPORT: &str = "module avail oper rate qual oee
0 0.9702 0.9202 0.9333 0.9321 0.7768
1 0.9405 0.9367 0.9797 0.9586 0.8274
2 1.0000 0.4762 0.9375 1.0000 0.4464
tool 0.9702 0.7730 0.9524 0.9569 0.6835
";

// Bytes from values and widths, most significant bit first.
fn packed(fields: &[(u64, u32)]) -> Vec<u8> {
    let mut bits = Vec::new();
    for &(value, width) in fields {
        bits.extend((0..width).rev().map(|i| (value >> i & 1) as u8));
    }
    bits.chunks(8).map(|byte| byte.iter().fold(0, |n, bit| n << 1 | bit)).collect()
}

fn header(period: u64, modules: u64, states: u64, standards: u64, units: u64) -> Vec<u8> {
    packed(&[(period, 35), (modules, 7), (states, 14), (standards, 11), (units, 13)])
}

// Module, recipe, start and theoretical time, and what is in the spare bits.
fn standard([module, recipe, start, theoretical]: [u64; 4], spare: u64) -> Vec<u8> {
    packed(&[(module, 6), (recipe, 10), (start, 35), (theoretical, 27), (spare, 2)])
}

fn case_w(late: u64) -> Vec<u8> {
    let states = [(0, 0, 0), (1, 0, 0), (2, 0, 0), (2, 7, 288000000), (1, 7, 532800000), (0, 7, 540000000), (1, 18, 568800000), (0, 18, 586800000)];
    let units = [(0, 3600000, 280, 261), (1, 3600000, 290, 278), (2, late, 150, 150)];
    let mut log = header(604800000, 3, 8, 3, 3);
    for (module, code, time) in states {
        log.extend(packed(&[(module, 6), (code, 5), (time, 35), (0, 2)]));
    }
    for module in 0..3 {
        log.extend(standard([module, 0, 0, 1800000], 0));
    }
    for (module, time, actual, effective) in units {
        log.extend(packed(&[(module, 6), (0, 10), (time, 35), (actual, 16), (effective, 16), (0, 5)]));
    }
    log
}

fn week() -> Vec<u8> {
    case_w(3600000)
}

// R1-3's standards, units, and benchmarks: the times and units of recipes A to D.
const THEORETICAL: [u64; 4] = [119988, 144000, 180000, 240012];
const UNITS: [(u64, u64, u64); 4] = [(187200000, 1500, 1500), (280800000, 600, 600), (432000000, 800, 800), (554400000, 500, 480)];
const BENCHMARKS: [[u64; 4]; 4] =
    [[119988, 90000, 36000, 1250], [119988, 72000, 18000, 550], [119988, 54000, 18000, 725], [119988, 117000, 36000, 450]];

fn r1_3() -> Vec<u8> {
    let mut log = header(604800000, 1, 2, 4, 4);
    for (code, time) in [(0, 0), (7, 558000000)] {
        log.extend(packed(&[(0, 6), (code, 5), (time, 35), (0, 2)]));
    }
    for (recipe, theoretical) in (0..).zip(THEORETICAL) {
        log.extend(standard([0, recipe, 0, theoretical], 0));
    }
    for (recipe, (time, actual, effective)) in (0..).zip(UNITS) {
        log.extend(packed(&[(0, 6), (recipe, 10), (time, 35), (actual, 16), (effective, 16), (0, 5)]));
    }
    log
}

// Ten productive milliseconds of two modules, with these standards and spare bits. At time 5 each reports two units of recipe 4, one of them
// effective.
fn two_modules(standards: &[([u64; 4], u64)]) -> Vec<u8> {
    let mut log = header(10, 2, 2, standards.len() as u64, 2);
    for module in 0..2 {
        log.extend(packed(&[(module, 6), (0, 5), (0, 35), (0, 2)]));
    }
    for &(values, spare) in standards {
        log.extend(standard(values, spare));
    }
    for module in 0..2 {
        log.extend(packed(&[(module, 6), (4, 10), (5, 35), (2, 16), (1, 16), (0, 5)]));
    }
    log
}

// A hundred seconds of two modules: two standards judge no unit, one of them from the last ms on, a unit is 1 ms ahead of a start and one at it, and
// both modules have recipe 3.
fn revisions() -> Vec<u8> {
    let mut log = header(100000, 2, 2, 8, 10);
    for module in 0..2 {
        log.extend(packed(&[(module, 6), (0, 5), (0, 35), (0, 2)]));
    }
    for values in [
        [0, 3, 0, 5],
        [0, 3, 4000, 4],
        [0, 3, 6000, greatest(27)],
        [0, 3, 8000, 2],
        [0, 7, 2000, 2],
        [1, 3, 4000, 6],
        [1, 1023, 9999, 1],
        [1, 1023, 99999, 3],
    ] {
        log.extend(standard(values, 0));
    }
    for (module, recipe, time, actual, effective) in [
        (0, 3, 0, 10, 9),
        (0, 3, 3999, 20, 15),
        (0, 3, 4000, 30, 1),
        (1, 3, 4000, 5, 5),
        (0, 3, 5999, 40, 0),
        (0, 3, 8000, 100, 99),
        (0, 7, 9998, 7, 0),
        (0, 3, 9999, 1, 1),
        (1, 1023, 9999, 65535, 0),
        (1, 1023, 49999, 34435, 34435),
    ] {
        log.extend(packed(&[(module, 6), (recipe, 10), (time, 35), (actual, 16), (effective, 16), (0, 5)]));
    }
    log
}

// A log whose modules split the period, in ms, into the numerators of their losses and OEE: availability, operational, rate, quality, OEE. Units take
// 1 ms.
fn parted(modules: &[[u64; 5]]) -> Vec<u8> {
    let (period, mut states, mut standards, mut units) = (modules[0].iter().sum(), Vec::new(), Vec::new(), Vec::new());
    for (m, &[availability, operational, rate, quality, oee]) in (0..).zip(modules) {
        let uptime = period - availability;
        // Productive, then standby, then under repair.
        let stretches = [(0, uptime - operational, 0), (uptime - operational, uptime, 7), (uptime, period, 18)];
        states.extend(stretches.iter().filter(|stretch| stretch.0 < stretch.1).map(|&(begin, _, code)| (begin, m, code)));
        standards.extend(standard([m, 0, 0, 1], 0));
        units.extend(packed(&[(m, 6), (0, 10), (0, 35), (quality + oee, 16), (oee, 16), (0, 5)]));
        assert_eq!(rate + quality + oee, uptime - operational);
    }
    states.sort();
    let count = modules.len() as u64;
    let mut log = header(period, count, states.len() as u64, count, count);
    for (time, module, code) in states {
        log.extend(packed(&[(module, 6), (code, 5), (time, 35), (0, 2)]));
    }
    [log, standards, units].concat()
}

fn benchmark(values: [u64; 4], spare: u64) -> Vec<u8> {
    let [reference, optimized, value_added, units] = values;
    packed(&[(reference, 27), (optimized, 27), (value_added, 27), (units, 27), (spare, 4)])
}

fn benchmarks<const N: usize>(rows: [[u64; 4]; N]) -> Vec<u8> {
    rows.map(|row| benchmark(row, 0)).concat()
}

fn idle() -> Vec<u8> {
    let mut log = header(86400000, 1, 1, 0, 0);
    log.extend(packed(&[(0, 6), (22, 5), (0, 35), (0, 2)]));
    log
}

// Every call on a log that is refused says why, and no byte of a buffer changes.
fn turned_back(log: &[u8], ground: Ground, list: List, place: u64) {
    let why = Refusal { ground, list, place };
    assert_eq!(examine(log, LONGEST_REPORT), Err(why));
    assert_eq!(examine(log, 0), Err(why));
    assert_eq!(finish_log(log, log.len()), Err(why));
    let mut buf = [0xa5; LONGEST_REPORT];
    assert_eq!(report_into(log, &mut buf), Err(why));
    assert_eq!(report_into(log, &mut buf[..0]), Err(why));
    assert_eq!(buf, [0xa5; LONGEST_REPORT]);
    assert_eq!(report(log), Err(why));
    assert_eq!(credited_listing_into(log, &mut buf), Err(why));
    assert_eq!(credited_listing_into(log, &mut buf[..0]), Err(why));
    assert_eq!(buf, [0xa5; LONGEST_REPORT]);
    assert_eq!(credited_listing(log), Err(why));
    assert_eq!(credited_units(log), Err(why));
    assert_eq!(module_count(log), Err(why));
    assert_eq!(module_state_times(log, 1), Err(why));
    assert_eq!(module_quantities(log, 1), Err(why));
    assert_eq!(module_figures(log, 1), Err(why));
    assert_eq!(module_losses(log, 1), Err(why));
    assert_eq!(standard_in_force(log, 1, 0, 0), Err(why));
    assert_eq!(standard_in_force(log, usize::MAX, usize::MAX, u64::MAX), Err(why));
    assert_eq!(tool_state_times(log), Err(why));
    assert_eq!(tool_quantities(log), Err(why));
    assert_eq!(tool_figures(log), Err(why));
    assert_eq!(tool_losses(log), Err(why));
    for length in [0, 7, 14] {
        assert_eq!(supplemental(log, &buf[..length]), Err(why));
    }
    let list = match list {
        List::None => List::Second,
        List::States => List::SecondStates,
        List::Standards => List::SecondStandards,
        List::Units => List::SecondUnits,
        _ => panic!("{list:?} of a log"),
    };
    let no_header = Refusal { ground: Ground::NoHeader, list: List::None, place: 0 };
    let (good, second) = (week(), Refusal { ground, list, place });
    for (first, second, why) in [(log, &good[..], why), (log, &[], why), (log, log, why), (&good, log, second), (&[], log, no_header)] {
        assert_eq!(join_logs(first, second), Err(why));
        assert_eq!(join_logs_into(first, second, &mut buf), Err(why));
        assert_eq!(join_logs_into(first, second, &mut buf[..0]), Err(why));
        assert_eq!(buf, [0xa5; LONGEST_REPORT]);
    }
    assert_eq!(pack_log(log), Err(why));
    let mut own = log.to_vec();
    assert_eq!(pack_log_in_place(&mut own), Err(why));
    assert_eq!(call_pack(&mut own), (0, 7, [why.ground as u64, why.list as u64, place]));
    assert!(own == log);
}

// What the packing call itself answers and makes of a length and a refusal of sevens.
fn call_pack(buf: &mut [u8]) -> (u32, u64, [u64; 3]) {
    let (mut length, mut refusal) = ([7], [7; 3]);
    let flag = unsafe { c::tl_pack(buf.as_mut_ptr(), buf.len(), &mut length, &mut refusal) };
    (flag, length[0], refusal)
}

#[test]
fn reports() {
    let log = week();
    assert_eq!(log.len(), 121);
    assert_eq!(report(&log).as_deref(), Ok(REPORT));
    let mut buf = [0xa5; 200];
    assert_eq!(report_into(&log, &mut buf).map(|part| part.len()), Ok(183));
    assert_eq!(&buf[..183], REPORT.as_bytes());
    assert_eq!(buf[183..], [0xa5; 17]);
}

#[test]
fn short_buffers() {
    let short = Refusal { ground: Ground::ShortBuffer, list: List::None, place: 0 };
    assert_eq!(examine(&week(), 183), Ok(()));
    for room in [182, 1, 0] {
        let mut buf = vec![0xa5; room];
        assert_eq!(examine(&week(), room), Err(short));
        assert_eq!(report_into(&week(), &mut buf), Err(short));
        assert_eq!(buf, vec![0xa5; room]);
    }
}

#[test]
fn numbers() {
    let log = week();
    assert_eq!(module_count(&log), Ok(3));
    let module_1 =
        StateTimes { productive: 532800000, standby: 36000000, engineering: 0, scheduled_down: 0, unscheduled_down: 36000000, nonscheduled: 0 };
    let tool =
        StateTimes { productive: 1360800000, standby: 399600000, engineering: 0, scheduled_down: 0, unscheduled_down: 54000000, nonscheduled: 0 };
    assert_eq!(module_state_times(&log, 1), Ok(module_1));
    assert_eq!(tool_state_times(&log), Ok(tool));
    let of_1 = Quantities { total: 604800000, uptime: 568800000, production: 532800000, actual: 522000000, effective: 500400000 };
    let of_tool = Quantities { total: 1814400000, uptime: 1760400000, production: 1360800000, actual: 1296000000, effective: 1240200000 };
    assert_eq!(module_quantities(&log, 1), Ok(of_1));
    assert_eq!(tool_quantities(&log), Ok(of_tool));
}

fn quotients(q: Quantities) -> Figures {
    let [total, uptime, production, actual, effective] = [q.total, q.uptime, q.production, q.actual, q.effective].map(|n| n as f64);
    let (a, o, r, u) = (uptime / total, production / uptime, actual / production, effective / actual);
    Figures {
        availability: Efficiency::Ratio(a),
        operational: Efficiency::Ratio(o),
        rate: Efficiency::Ratio(r),
        quality: Efficiency::Ratio(u),
        oee: effective / total,
        product: a * o * r * u,
    }
}

#[test]
fn doubles() {
    let log = week();
    for m in 0..3 {
        assert_eq!(module_figures(&log, m), module_quantities(&log, m).map(quotients));
    }
    assert_eq!(tool_figures(&log), tool_quantities(&log).map(quotients));
}

#[test]
fn no_base() {
    use Efficiency::*;
    let figures = Figures { availability: Ratio(0.0), operational: NoBase, rate: NoBase, quality: NoBase, oee: 0.0, product: 0.0 };
    assert_eq!(module_figures(&idle(), 0), Ok(figures));
    assert_eq!(tool_figures(&idle()), Ok(figures));
}

#[test]
fn a_module_that_is_not_there() {
    for m in [3, 64, usize::MAX] {
        let why = Refusal { ground: Ground::StrayModule, list: List::None, place: m as u64 };
        assert_eq!(module_state_times(&week(), m), Err(why));
        assert_eq!(module_quantities(&week(), m), Err(why));
        assert_eq!(module_figures(&week(), m), Err(why));
        assert_eq!(module_losses(&week(), m), Err(why));
        assert_eq!(standard_in_force(&week(), m, 0, 0), Err(why));
    }
}

fn bar([availability, operational, rate, quality, oee]: [u64; 5]) -> Result<Losses, Refusal> {
    Ok(Losses { availability, operational, rate, quality, oee })
}

// What SEMI E79 prints in R1-2.
#[test]
fn losses_of_case_w() {
    let log = week();
    assert_eq!(module_losses(&log, 0), bar([298, 774, 595, 565, 7768]));
    assert_eq!(module_losses(&log, 1), bar([595, 595, 179, 357, 8274]));
    assert_eq!(module_losses(&log, 2), bar([0, 5238, 298, 0, 4464]));
    assert_eq!(tool_losses(&log), bar([298, 2202, 357, 308, 6835]));
}

// Shares that are small fractions, so that remainders are equal: thirds, sevenths, ninths and others, worked out by hand.
#[test]
fn losses_of_fractions() {
    for (parts, due) in [
        ([1, 1, 1, 0, 0], [3334, 3333, 3333, 0, 0]),
        ([0, 0, 1, 1, 1], [0, 0, 3334, 3333, 3333]),
        // Three missing: the OEE has 5/7, the others 4/7.
        ([1, 1, 1, 1, 3], [1429, 1429, 1428, 1428, 4286]),
        // The OEE's 4/9 are the largest remainder; the report has 0.4444.
        ([1, 1, 1, 2, 4], [1111, 1111, 1111, 2222, 4445]),
        // Three missing, and four remainders of 2/3; the report has 0.1667.
        ([1, 1, 1, 2, 1], [1667, 1667, 1667, 3333, 1666]),
        // Two missing, and three remainders of 2/3, of which the nearest doubles make the OEE's the largest.
        ([0, 0, 1, 1, 4], [0, 0, 1667, 1667, 6666]),
        // Exact halves, two missing; then four missing, and five remainders of 4/5.
        ([1, 1, 1, 1, 19996], [1, 1, 0, 0, 9998]),
        ([1, 1, 1, 1, 12496], [1, 1, 1, 1, 9996]),
        ([7, 0, 0, 0, 0], [10000, 0, 0, 0, 0]),
        ([0, 0, 0, 0, 7], [0, 0, 0, 0, 10000]),
    ] {
        let log = parted(&[parts]);
        assert_eq!(module_losses(&log, 0), bar(due));
        assert_eq!(tool_losses(&log), bar(due));
    }
    // The tool's are 1, 2, 3, 1 and 7 of 14.
    let log = parted(&[[1, 1, 1, 1, 3], [0, 1, 2, 0, 4]]);
    assert_eq!(module_losses(&log, 0), bar([1429, 1429, 1428, 1428, 4286]));
    assert_eq!(module_losses(&log, 1), bar([0, 1429, 2857, 0, 5714]));
    assert_eq!(tool_losses(&log), bar([714, 1429, 2143, 714, 5000]));
}

// The credited units of the log's standards, and 0 for those that it does not have; and their listing, written or refused by the buffer's length.
fn credited_are(log: &[u8], due: &[u64], listing: &str) {
    let mut units = [0; MOST_STANDARDS];
    units[..due.len()].copy_from_slice(due);
    assert_eq!(credited_units(log), Ok(units));
    assert_eq!(credited_listing(log).as_deref(), Ok(listing));
    let length = listing.len();
    for room in [0, 1, length.saturating_sub(1), length, length + 1, CREDITED_LISTING_ROOM] {
        let (mut buf, mut left) = (vec![0xa5; room], vec![0xa5; room]);
        let written = credited_listing_into(log, &mut buf).map(|part| part.len());
        if room < length {
            assert_eq!(written, Err(SHORT));
        } else {
            assert_eq!(written, Ok(length));
            left[..length].copy_from_slice(listing.as_bytes());
        }
        assert_eq!(buf, left);
    }
}

#[test]
fn credited() {
    credited_are(&revisions(), &[30, 70, 0, 101, 7, 5, 99970, 0], "0 30\n1 70\n2 0\n3 101\n4 7\n5 5\n6 99970\n7 0\n");
    credited_are(&r1_3(), &UNITS.map(|unit| unit.1), "0 1500\n1 600\n2 800\n3 500\n");
    credited_are(&week(), &[280, 290, 150], "0 280\n1 290\n2 150\n");
    credited_are(&idle(), &[], "");
}

// 512 revisions of one recipe, each credited with as many units as its index.
#[test]
fn credited_to_the_most_standards() {
    let mut log = header(200000, 1, 1, 512, 512);
    log.extend(packed(&[(0, 6), (0, 5), (0, 35), (0, 2)]));
    for start in 0..512 {
        log.extend(standard([0, 3, start, 1], 0));
    }
    for time in 0..512 {
        log.extend(packed(&[(0, 6), (3, 10), (time, 35), (time, 16), (0, 16), (0, 5)]));
    }
    let due: Vec<u64> = (0..512).collect();
    credited_are(&log, &due, &due.iter().map(|n| format!("{n} {n}\n")).collect::<String>());
}

// At each start, 1 ms ahead of it and past the period. Cut to fewer bits, the last time past it would be 0, and some recipes 3.
#[test]
fn in_force() {
    let in_force = |module, recipe, time| standard_in_force(&revisions(), module, recipe, time);
    let found = |index, time| Ok(Some(InForce { index, time }));
    for (module, recipe, start, ahead, at) in [
        (0, 3, 4000, found(0, 5), found(1, 4)),
        (0, 3, 6000, found(1, 4), found(2, greatest(27))),
        (0, 3, 8000, found(2, greatest(27)), found(3, 2)),
        (0, 7, 2000, Ok(None), found(4, 2)),
        (1, 3, 4000, Ok(None), found(5, 6)),
        (1, 1023, 9999, Ok(None), found(6, 1)),
        (1, 1023, 99999, found(6, 1), found(7, 3)),
    ] {
        assert_eq!(in_force(module, recipe, start - 1), ahead);
        assert_eq!(in_force(module, recipe, start), at);
        assert_eq!(in_force(module, recipe, start + 1), at);
    }
    assert_eq!(in_force(0, 3, 0), found(0, 5));
    assert_eq!(in_force(0, 7, 0), Ok(None));
    for time in [99999, 100000, greatest(35), u64::MAX, 1 << 63] {
        assert_eq!(in_force(0, 3, time), found(3, 2));
        assert_eq!(in_force(0, 7, time), found(4, 2));
        assert_eq!(in_force(1, 3, time), found(5, 6));
        assert_eq!(in_force(1, 1023, time), found(7, 3));
        assert_eq!(in_force(0, 1023, time), Ok(None));
        assert_eq!(in_force(1, 7, time), Ok(None));
        for recipe in [0, 2, 4, 1022, 1024 + 3, 65536 + 3, (1 << 32) + 3, usize::MAX] {
            assert_eq!(in_force(0, recipe, time), Ok(None));
            assert_eq!(in_force(1, recipe, time), Ok(None));
        }
        assert_eq!(standard_in_force(&idle(), 0, 0, time), Ok(None));
    }
}

fn four(reference: u64, optimized: u64, value_added: u64, total_effective_units: u64) -> Result<Supplemental, Refusal> {
    Ok(Supplemental { reference, optimized, value_added, total_effective_units })
}

fn not_benchmarks(ground: Ground, place: usize) -> Result<Supplemental, Refusal> {
    Err(Refusal { ground, list: List::Benchmarks, place: place as u64 })
}

// The figures that SEMI E79 prints in R1-3; and, with every bound reached, its OEE four times.
#[test]
fn supplemental_figures() {
    assert_eq!(supplemental(&r1_3(), &benchmarks(BENCHMARKS)), four(6706, 4589, 1595, 7733));
    let bounds = [0, 1, 2, 3].map(|i| [THEORETICAL[i], THEORETICAL[i], THEORETICAL[i], UNITS[i].2]);
    assert_eq!(supplemental(&r1_3(), &benchmarks(bounds)), four(8690, 8690, 8690, 8690));
    let least = bounds.map(|[reference, ..]| [reference, 1, 1, 0]);
    assert_eq!(supplemental(&r1_3(), &benchmarks(least)), four(8690, 0, 0, 0));
}

// Case W: each module's effective units are judged by its own standard. Of 1,814,400,000 ms, 261 x 1,800,000 + 278 x 900,000 + 150 x 450,000 are
// 4,340.3 ten-thousandths, 689 x 90,720 are 344.5.
#[test]
fn supplemental_figures_of_all_modules() {
    let rows = [[1800000, 90720, 90719, 261], [900000, 90720, 90719, 278], [450000, 90720, 90719, 150]];
    assert_eq!(supplemental(&week(), &benchmarks(rows)), four(4340, 345, 344, 6835));
    for m in 0..3 {
        let mut more = rows;
        more[m][3] += 1;
        assert_eq!(supplemental(&week(), &benchmarks(more)), not_benchmarks(Ground::OverCounted, m));
    }
    assert_eq!(supplemental(&idle(), &[]), four(0, 0, 0, 0));
    assert_eq!(supplemental(&idle(), &[0; 14]), not_benchmarks(Ground::Length, 0));
}

#[test]
fn benchmarks_with_a_fault() {
    let changed = |i: usize, which: usize, value: u64| {
        let mut rows = BENCHMARKS;
        rows[i][which] = value;
        supplemental(&r1_3(), &benchmarks(rows))
    };
    let longer = [benchmarks(BENCHMARKS), vec![0; 14]].concat();
    for length in (0..=70).filter(|&length| length != 56) {
        assert_eq!(supplemental(&r1_3(), &longer[..length]), not_benchmarks(Ground::Length, 0));
    }
    for i in 0..4 {
        for spare in 1..16 {
            let mut bytes = benchmarks(BENCHMARKS);
            bytes[14 * i + 13] |= spare;
            assert_eq!(supplemental(&r1_3(), &bytes), not_benchmarks(Ground::Spare, i));
        }
        for which in 0..3 {
            assert_eq!(changed(i, which, 0), not_benchmarks(Ground::NoTime, i));
            assert!(changed(i, which, THEORETICAL[i]).is_ok());
            assert_eq!(changed(i, which, THEORETICAL[i] + 1), not_benchmarks(Ground::AboveStandard, i));
            assert_eq!(changed(i, which, greatest(27)), not_benchmarks(Ground::AboveStandard, i));
        }
        assert!(changed(i, 3, 0).is_ok() && changed(i, 3, UNITS[i].2).is_ok());
        assert_eq!(changed(i, 3, UNITS[i].2 + 1), not_benchmarks(Ground::OverCounted, i));
        assert_eq!(changed(i, 3, greatest(27)), not_benchmarks(Ground::OverCounted, i));
    }
}

// The faults of a benchmark come in the sequence of their numbers, and an earlier benchmark ahead of a later one.
#[test]
fn the_first_fault() {
    let first = |row: [u64; 4], spare: u64| {
        let bytes = [benchmark(BENCHMARKS[0], 0), benchmark(row, spare), benchmark([0; 4], 15), benchmark(BENCHMARKS[3], 0)].concat();
        supplemental(&r1_3(), &bytes)
    };
    assert_eq!(first([0, 144001, 18000, 601], 8), not_benchmarks(Ground::Spare, 1));
    assert_eq!(first([0, 144001, 18000, 601], 0), not_benchmarks(Ground::NoTime, 1));
    assert_eq!(first([119988, 144001, 18000, 601], 0), not_benchmarks(Ground::AboveStandard, 1));
    assert_eq!(first([119988, 72000, 18000, 601], 0), not_benchmarks(Ground::OverCounted, 1));
    assert_eq!(first(BENCHMARKS[1], 0), not_benchmarks(Ground::Spare, 2));
}

#[test]
fn damaged() {
    let log = week();
    turned_back(&[], Ground::NoHeader, List::None, 0);
    turned_back(&log[..9], Ground::NoHeader, List::None, 0);
    turned_back(&log[..120], Ground::Length, List::None, 0);
    turned_back(&[&log[..], &[0]].concat(), Ground::Length, List::None, 0);
    turned_back(&case_w(604800000), Ground::Outside, List::Units, 2);
    turned_back(&case_w(3599999), Ground::Unsorted, List::Units, 2);
    turned_back(&[&log[..120], &[1]].concat(), Ground::Spare, List::Units, 2);
}

// One recipe and start: 2 ms a unit at module 0, 3 ms at module 1.
#[test]
fn each_module_by_its_own_time() {
    let log = two_modules(&[([0, 4, 0, 2], 0), ([1, 4, 0, 3], 0)]);
    let of = |total, actual, effective| Ok(Quantities { total, uptime: total, production: total, actual, effective });
    assert_eq!(module_quantities(&log, 0), of(10, 4, 2));
    assert_eq!(module_quantities(&log, 1), of(10, 6, 3));
    assert_eq!(tool_quantities(&log), of(20, 10, 5));
}

#[test]
fn standards_of_modules() {
    let (own, other) = ([0, 4, 0, 2], [1, 4, 0, 3]);
    let refused = |standards: &[([u64; 4], u64)], ground, list, place| turned_back(&two_modules(standards), ground, list, place);
    for spare in 1..4 {
        refused(&[(own, spare), (other, 0)], Ground::Spare, List::Standards, 0);
        refused(&[(own, 0), (other, spare)], Ground::Spare, List::Standards, 1);
        refused(&[(own, 0), (other, 0), ([2, 4, 10, 0], spare)], Ground::Spare, List::Standards, 2);
    }
    for module in [2, 63] {
        refused(&[(own, 0), (other, 0), ([module, 4, 10, 0], 0)], Ground::StrayModule, List::Standards, 2);
    }
    refused(&[(own, 0), (other, 0), (own, 0)], Ground::Twice, List::Standards, 2);
    refused(&[(other, 0), ([0, 5, 0, 2], 0)], Ground::Unsorted, List::Standards, 1);
    // Of each recipe and time only the other module has a standard in force.
    refused(&[(own, 0), ([1, 5, 0, 3], 0)], Ground::NoStandard, List::Units, 1);
    refused(&[([0, 5, 0, 2], 0), (other, 0)], Ground::NoStandard, List::Units, 0);
    refused(&[(own, 0), ([1, 4, 6, 3], 0)], Ground::NoStandard, List::Units, 1);
}

#[test]
fn words() {
    let why = report(&case_w(604800000)).unwrap_err();
    assert_eq!(why.to_string(), "refused: 9 outside: time or start at or past the period (list units, place 2)");
    let numbers: Vec<u8> = GROUNDS.into_iter().map(|row| row.0 as u8).collect();
    assert_eq!(numbers, (1..=23).collect::<Vec<u8>>());
    for (ground, word, says) in GROUNDS {
        let why = Refusal { ground, list: List::None, place: 0 };
        assert_eq!(why.to_string(), format!("refused: {} {word}: {says} (list none, place 0)", ground as u8));
    }
    let of_benchmarks = |ground, place| Refusal { ground, list: List::Benchmarks, place }.to_string();
    assert_eq!(
        of_benchmarks(Ground::Length, 0),
        "refused: 5 length: bytes other than 10 + 6 states + 10 standards + 11 units; benchmarks: 14 for each standard (the benchmarks)"
    );
    assert_eq!(of_benchmarks(Ground::NoTime, 3), "refused: 12 no time: theoretical time 0, or a time of a benchmark 0 (benchmark 3)");
    for (ground, list, place, whereabouts) in [
        (Ground::NoHeader, List::Second, 0, "(the second log)"),
        (Ground::Length, List::Second, 0, "(the second log)"),
        (Ground::NoOpening, List::Second, 3, "(module 3 of the second log)"),
        (Ground::TooFast, List::Second, 0, "(module 0 of the second log)"),
        (Ground::Sequence, List::SecondStates, 5999, "(record 5999 of the second log's states)"),
        (Ground::NoTime, List::SecondStandards, 0, "(record 0 of the second log's standards)"),
        (Ground::Outside, List::SecondUnits, 1, "(record 1 of the second log's units)"),
        (Ground::UnlikeTools, List::None, 0, "(list none, place 0)"),
    ] {
        let words = Refusal { ground, list, place }.to_string();
        assert!(words.starts_with(&format!("refused: {} ", ground as u8)) && words.ends_with(whereabouts), "{words}");
    }
}

#[test]
fn the_header_says_the_same() {
    let header = include_str!("../../../include/tool_log.h");
    for (ground, word, says) in GROUNDS {
        assert!(header.contains(&format!("X({}, \"{word}\", \"{says}\")", ground as u8)));
    }
    let rows = header.lines().filter(|line| line.starts_with("    X(") && line.matches('"').count() == 4);
    assert_eq!(rows.count(), GROUNDS.len());
    let lists = header.split("#define TL_LISTS(X) ").nth(1).unwrap().lines().skip(1).take_while(|line| line.starts_with("    X("));
    let due = LISTS.map(|(list, name)| format!("X({}, \"{name}\")", list as u8));
    assert_eq!(lists.map(|line| line.trim_matches([' ', '\\'])).collect::<Vec<_>>(), due);
    for bound in [
        format!("LONGEST_REPORT {LONGEST_REPORT}"),
        format!("LONGEST_LOG {LONGEST_LOG}"),
        format!("LONGEST_BENCHMARKS {LONGEST_BENCHMARKS}"),
        format!("CREDITED_LISTING_ROOM {CREDITED_LISTING_ROOM}"),
        format!("MOST_STANDARDS {MOST_STANDARDS}"),
    ] {
        assert!(header.contains(&format!("TL_{bound}\n")));
    }
}

// A number's type or a parameter of the header, as Rust writes it.
fn number(c: &str) -> &str {
    let types = [("uint8_t", "u8"), ("uint32_t", "u32"), ("uint64_t", "u64"), ("size_t", "usize"), ("double", "f64")];
    types.into_iter().find(|t| t.0 == c).map(|t| t.1).unwrap_or_else(|| panic!("the type {c} of the header"))
}

fn parameter(c: &str) -> String {
    let (c, name) = c.trim().rsplit_once(' ').unwrap();
    let (pointer, c) = c.strip_prefix("const ").map_or(("*mut", c), |c| ("*const", c));
    match (name.strip_prefix('*'), name.split_once('[')) {
        (Some(name), _) => format!("{name}: {pointer} {}", number(c)),
        (_, Some((name, length))) => format!("{name}: {pointer} [{}; {length}", number(c)),
        _ => format!("{name}: {}", number(c)),
    }
}

#[test]
fn the_functions_are_declared_as_in_the_header() {
    let header = include_str!("../../../include/tool_log.h");
    let without_comments: String = header.split("/*").map(|part| part.split_once("*/").map_or(part, |(_, code)| code)).collect();
    let declarations = without_comments.split(';').filter_map(|part| part.split_once(" tl_"));
    let in_header = declarations.map(|(before, rest)| {
        let (name, parameters) = rest.trim_end_matches(')').split_once('(').unwrap();
        let parameters: Vec<String> = parameters.split(',').map(parameter).collect();
        format!("tl_{name}({}) -> {}", parameters.join(", "), number(before.split_whitespace().last().unwrap()))
    });
    let in_rust = include_str!("../src/c.rs").split("pub fn ").skip(1).map(|part| {
        let words: Vec<&str> = part.rsplit_once(';').unwrap().0.split_whitespace().collect();
        words.join(" ").replace("( ", "(").replace(", )", ")")
    });
    assert_eq!(in_rust.collect::<Vec<_>>(), in_header.collect::<Vec<_>>());
}

// The grounds 1 to 5 are worked out here from the header, which hardly any of these outlives.
#[test]
fn random_bytes() {
    let mut seed: u64 = 20261115;
    let mut next = || {
        seed = seed.wrapping_mul(6364136223846793005).wrapping_add(1442695040888963407);
        (seed >> 40) as usize
    };
    for turn in 0..2000 {
        let length = if turn % 4 == 0 { next() % 12 } else { next() % 1024 };
        let log: Vec<u8> = (0..length).map(|_| (next() >> 16) as u8).collect();
        if length < 10 {
            turned_back(&log, Ground::NoHeader, List::None, 0);
            continue;
        }
        let bits = log[..10].iter().fold(0u128, |n, &byte| n << 8 | byte as u128);
        let field = |from: u32, width: u32| (bits >> (80 - from - width)) as u64 & ((1 << width) - 1);
        let (period, modules, states, standards, units) = (field(0, 35), field(35, 7), field(42, 14), field(56, 11), field(67, 13));
        if period == 0 || period > 31622400000 {
            turned_back(&log, Ground::Period, List::None, 0);
        } else if modules == 0 || modules > 64 {
            turned_back(&log, Ground::Modules, List::None, 0);
        } else if states > 6000 || standards > 512 || units > 2000 {
            turned_back(&log, Ground::Counts, List::None, 0);
        } else if length as u64 != 10 + 6 * states + 10 * standards + 11 * units {
            turned_back(&log, Ground::Length, List::None, 0);
        } else {
            assert!(examine(&log, 0).is_err());
        }
    }
}

// ---- writing

// The adding calls by the list of their records: the list, and the widths of the fields and of what is spare.
const KINDS: [(List, &[u32], u32); 4] = [
    (List::None, &[35, 7, 14, 11, 13], 0),
    (List::States, &[6, 5, 35], 2),
    (List::Standards, &[6, 10, 35, 27], 2),
    (List::Units, &[6, 10, 35, 16, 16], 5),
];

// A record as it has to be packed.
fn record(kind: usize, values: &[u64]) -> Vec<u8> {
    let (_, widths, spare) = KINDS[kind];
    let mut fields: Vec<(u64, u32)> = values.iter().copied().zip(widths.iter().copied()).collect();
    fields.push((0, spare));
    packed(&fields)
}

fn greatest(width: u32) -> u64 {
    (1 << width) - 1
}

fn put(kind: usize, buf: &mut [u8], at: usize, values: &[u64]) -> Result<usize, Refusal> {
    match (kind, values) {
        (0, &[period, modules, states, standards, units]) => put_header(buf, at, period, modules, states, standards, units),
        (1, &[module, code, time]) => put_state(buf, at, module, code, time),
        (2, &[module, recipe, start, theoretical]) => put_standard(buf, at, module, recipe, start, theoretical),
        (3, &[module, recipe, time, actual, effective]) => put_unit(buf, at, module, recipe, time, actual, effective),
        _ => panic!("{values:?} for {kind}"),
    }
}

fn put_by(writer: &mut Writer, kind: usize, values: &[u64]) -> Result<(), Refusal> {
    match (kind, values) {
        (0, &[period, modules, states, standards, units]) => writer.header(period, modules, states, standards, units),
        (1, &[module, code, time]) => writer.state(module, code, time),
        (2, &[module, recipe, start, theoretical]) => writer.standard(module, recipe, start, theoretical),
        (3, &[module, recipe, time, actual, effective]) => writer.unit(module, recipe, time, actual, effective),
        _ => panic!("{values:?} for {kind}"),
    }
}

const SHORT: Refusal = Refusal { ground: Ground::ShortBuffer, list: List::None, place: 0 };

// What an adding call has to do at a position of a buffer of this length: answer so, and change no other byte, on either side of the buffer too.
fn puts(kind: usize, values: &[u64], length: usize, at: usize, expected: Result<usize, Refusal>) {
    for fill in [0x00, 0xff, 0xa5] {
        let mut room = [fill; 128];
        let mut left = room;
        if expected.is_ok() {
            let record = record(kind, values);
            left[32 + at..][..record.len()].copy_from_slice(&record);
        }
        assert_eq!(put(kind, &mut room[32..][..length], at, values), expected, "{kind} {values:?} {length} {at}");
        assert_eq!(room, left, "{kind} {values:?} {length} {at}");
    }
}

#[test]
fn positions() {
    for (kind, (_, widths, _)) in KINDS.into_iter().enumerate() {
        let values: Vec<u64> = (1..=widths.len() as u64).collect();
        let size = record(kind, &values).len();
        for length in [0, size - 1, size, size + 1, 64] {
            for at in 0..66 {
                puts(kind, &values, length, at, if at + size <= length { Ok(at + size) } else { Err(SHORT) });
            }
            for less in 0..65 {
                puts(kind, &values, length, usize::MAX - less, Err(SHORT));
            }
            for bit in 8..64 {
                puts(kind, &values, length, 1 << bit, Err(SHORT));
            }
        }
    }
}

#[test]
fn widths() {
    for (kind, (list, widths, _)) in KINDS.into_iter().enumerate() {
        let too_wide = Err(Refusal { ground: Ground::TooWide, list, place: 0 });
        let all: Vec<u64> = widths.iter().map(|&width| greatest(width)).collect();
        for (i, &width) in widths.iter().enumerate() {
            for mut values in [all.clone(), vec![0; widths.len()]] {
                values[i] = greatest(width);
                puts(kind, &values, 64, 3, Ok(3 + record(kind, &values).len()));
                for value in (width..64).map(|bit| 1 << bit).chain([u64::MAX]) {
                    values[i] = value;
                    for at in [0, 3, 64, 65, usize::MAX] {
                        puts(kind, &values, 64, at, too_wide);
                        puts(kind, &values, 0, at, too_wide);
                    }
                }
            }
        }
    }
}

// 6 bits of the module, 10 of the recipe, 35 of the start, 27 of the theoretical time, 2 spare: the bytes are worked out by hand.
#[test]
fn a_standard_by_hand() {
    for (values, due) in [
        ([1, 2, 3, 4], [0x04, 0x02, 0x00, 0x00, 0x00, 0x00, 0x60, 0x00, 0x00, 0x10]),
        ([63, 0, greatest(35), 0], [0xfc, 0x00, 0xff, 0xff, 0xff, 0xff, 0xe0, 0x00, 0x00, 0x00]),
        ([0, 1023, 0, greatest(27)], [0x03, 0xff, 0x00, 0x00, 0x00, 0x00, 0x1f, 0xff, 0xff, 0xfc]),
    ] {
        let mut buf = [0xa5; 10];
        assert_eq!(put(2, &mut buf, 0, &values), Ok(10));
        assert_eq!(buf, due);
    }
    let too_wide = Refusal { ground: Ground::TooWide, list: List::Standards, place: 0 };
    assert_eq!(put_standard(&mut [0; 10], 0, 64, 0, 0, 1), Err(too_wide));
}

#[test]
fn finishing() {
    let log = week();
    let mut buf = [0xa5; 160];
    buf[..121].copy_from_slice(&log);
    for at in 0..=160 {
        let ground = if at < 10 { Ground::NoHeader } else { Ground::Length };
        let refused = Err(Refusal { ground, list: List::None, place: 0 });
        assert_eq!(finish_log(&buf, at), if at == 121 { Ok(()) } else { refused });
    }
    for at in [161, 1 << 32, (1 << 32) + 121, usize::MAX - 121, usize::MAX] {
        assert_eq!(finish_log(&buf, at), Err(SHORT));
        assert_eq!(finish_log(&case_w(604800000), at), Err(SHORT));
    }
    assert_eq!(finish_log(&log, 121), Ok(()));
    assert_eq!(finish_log(&log, 122), Err(SHORT));
    assert_eq!(finish_log(&[], 0), Err(Refusal { ground: Ground::NoHeader, list: List::None, place: 0 }));
    assert_eq!(finish_log(&[], 1), Err(SHORT));
}

// Case W through a writer. Ahead of each record comes one that is refused and counts as not made.
#[test]
fn a_log_written() {
    let states = [[0, 0, 0], [1, 0, 0], [2, 0, 0], [2, 7, 288000000], [1, 7, 532800000], [0, 7, 540000000], [1, 18, 568800000], [0, 18, 586800000]];
    let units = [[0, 0, 3600000, 280, 261], [1, 0, 3600000, 290, 278], [2, 0, 3600000, 150, 150]];
    let mut records: Vec<(usize, Vec<u64>)> = vec![(0, vec![604800000, 3, 8, 3, 3])];
    records.extend(states.map(|values| (1, values.to_vec())));
    records.extend([0, 1, 2].map(|module| (2, vec![module, 0, 0, 1800000])));
    records.extend(units.map(|values| (3, values.to_vec())));

    let log = week();
    let mut buf = [0xa5; 121];
    let mut writer = Writer::new(&mut buf);
    let mut length = 0;
    for (kind, values) in records {
        let mut wide = values.clone();
        wide[0] = u64::MAX;
        let too_wide = Refusal { ground: Ground::TooWide, list: KINDS[kind].0, place: 0 };
        assert_eq!(put_by(&mut writer, kind, &wide), Err(too_wide));
        assert_eq!(writer.written(), &log[..length]);
        assert_eq!(put_by(&mut writer, kind, &values), Ok(()));
        length += record(kind, &values).len();
        assert_eq!(writer.written(), &log[..length]);
    }
    assert_eq!(put_by(&mut writer, 1, &[0, 0, 0]), Err(SHORT));
    assert_eq!(writer.written(), log);
    assert_eq!(writer.finish(), Ok(&log[..]));
    assert_eq!(buf, log[..]);
}

#[test]
fn a_log_not_finished() {
    let mut buf = [0xa5; 64];
    let refused = |ground| Err(Refusal { ground, list: List::None, place: 0 });
    assert_eq!(Writer::new(&mut buf).finish(), refused(Ground::NoHeader));
    let mut writer = Writer::new(&mut buf);
    assert_eq!(writer.header(86400000, 1, 1, 0, 0), Ok(()));
    assert_eq!(writer.finish(), refused(Ground::Length));
    // The calls keep no state: any position is taken.
    assert_eq!(put_state(&mut buf, 10, 0, 31, 0), Ok(16));
    assert_eq!(finish_log(&buf, 16), Err(Refusal { ground: Ground::StrayCode, list: List::States, place: 0 }));
    assert_eq!(put_state(&mut buf, 10, 0, 22, 0), Ok(16));
    assert_eq!(finish_log(&buf, 16), Ok(()));
    assert_eq!(&buf[..16], idle());
    assert_eq!(buf[16..], [0xa5; 48]);
}

// ---- joining

// What a log says: period, modules, and its records as the fields that a writer takes.
#[derive(Clone)]
struct Records {
    period: u64,
    modules: u64,
    lists: [Vec<Vec<u64>>; 3],
}

fn records<const S: usize, const T: usize, const U: usize>(
    period: u64,
    modules: u64,
    states: [[u64; 3]; S],
    standards: [[u64; 4]; T],
    units: [[u64; 5]; U],
) -> Records {
    Records { period, modules, lists: [states.map(Vec::from).to_vec(), standards.map(Vec::from).to_vec(), units.map(Vec::from).to_vec()] }
}

impl Records {
    fn log(&self) -> Vec<u8> {
        let [states, standards, units] = [0, 1, 2].map(|list| self.lists[list].len() as u64);
        let mut log = header(self.period, self.modules, states, standards, units);
        for (kind, list) in (1..).zip(&self.lists) {
            log.extend(list.iter().flat_map(|values| record(kind, values)));
        }
        log
    }

    // Both as one: the later ones' times, which stand third in each list, are moved up, and the standards sorted.
    fn joined(&self, later: &Records) -> Records {
        let mut both = self.clone();
        both.period += later.period;
        for (own, other) in both.lists.iter_mut().zip(&later.lists) {
            for values in other {
                let mut moved = values.clone();
                moved[2] += self.period;
                own.push(moved);
            }
        }
        both.lists[1].sort();
        both
    }

    // The modules are productive all along, module 0 has a state record each ms and standards for recipes 0, 1, 2 and so on, and makes a unit of recipe 0
    // each ms.
    fn of(modules: u64, period: u64, [states, standards, units]: [u64; 3]) -> Records {
        let openings = (0..modules).map(|module| vec![module, 0, 0]);
        let states = openings.chain((1..=states - modules).map(|time| vec![0, time % 2, time])).collect();
        let standards = (0..standards).map(|recipe| vec![0, recipe, 0, 1]).collect();
        Records { period, modules, lists: [states, standards, (0..units).map(|time| vec![0, 0, time, 1, time % 2]).collect()] }
    }
}

// Module 0 ends the first day under repair, module 1 productive, and both begin the second so. Of recipe 3 of module 0 both days have a standard at
// their start, the second's of the time that was in force before, and one of the second's starts is earlier in its day.
fn day_1() -> Records {
    records(
        1000,
        2,
        [[0, 0, 0], [1, 7, 0], [0, 12, 300], [1, 3, 300], [0, 0, 400], [0, 18, 999]],
        [[0, 3, 0, 5], [0, 3, 500, 4], [1, 3, 0, 6]],
        [[0, 3, 250, 20, 15], [0, 3, 999, 7, 0], [1, 3, 999, 31, 30]],
    )
}

fn day_2() -> Records {
    records(
        2000,
        2,
        [[0, 18, 0], [1, 3, 0], [0, 5, 1], [1, 22, 1500], [0, 7, 1999]],
        [[0, 2, 0, 3], [0, 3, 0, 4], [0, 3, 100, 2], [1, 3, 499, 6], [1, 1023, 1, 7]],
        [[0, 3, 0, 40, 40], [0, 3, 99, 2, 1], [0, 2, 100, 300, 0], [1, 1023, 1999, 9, 8]],
    )
}

fn both_days() -> Records {
    let [a, b, c, d, e, f] = [[0, 0, 0], [1, 7, 0], [0, 12, 300], [1, 3, 300], [0, 0, 400], [0, 18, 999]];
    records(
        3000,
        2,
        [a, b, c, d, e, f, [0, 18, 1000], [1, 3, 1000], [0, 5, 1001], [1, 22, 2500], [0, 7, 2999]],
        [[0, 2, 1000, 3], [0, 3, 0, 5], [0, 3, 500, 4], [0, 3, 1000, 4], [0, 3, 1100, 2], [1, 3, 0, 6], [1, 3, 1499, 6], [1, 1023, 1001, 7]],
        [
            [0, 3, 250, 20, 15],
            [0, 3, 999, 7, 0],
            [1, 3, 999, 31, 30],
            [0, 3, 1000, 40, 40],
            [0, 3, 1099, 2, 1],
            [0, 2, 1100, 300, 0],
            [1, 1023, 2999, 9, 8],
        ],
    )
}

// The joined log in buffers that it fills, and in longer ones whose other bytes stay. Shorter ones are refused, and stay.
fn joins(first: &[u8], second: &[u8], due: &[u8]) {
    let length = due.len();
    assert_eq!(length, first.len() + second.len() - 10);
    assert!(join_logs(first, second).as_deref() == Ok(due));
    for fill in [0x00, 0xff, 0xa5] {
        for room in [0, 1, 10, first.len(), length - 1, length, length + 1, LONGEST_LOG] {
            let (mut buf, mut left) = (vec![fill; room], vec![fill; room]);
            let joined = join_logs_into(first, second, &mut buf).map(|log| log.len());
            if room < length {
                assert_eq!(joined, Err(SHORT));
            } else {
                assert_eq!(joined, Ok(length));
                left[..length].copy_from_slice(due);
            }
            assert!(buf == left, "{room}");
        }
    }
}

#[test]
fn joined_days() {
    let (first, second, joined) = (day_1().log(), day_2().log(), both_days().log());
    joins(&first, &second, &joined);
    assert!(day_1().joined(&day_2()).log() == joined);
    let three = [&first, &second, &first].map(|log| &log[..]);
    let ahead = join_logs(&join_logs(three[0], three[1]).unwrap(), three[2]);
    assert!(ahead.is_ok() && ahead == join_logs(three[0], &join_logs(three[1], three[2]).unwrap()));

    // The sums are added, and each standard keeps its credited units.
    let both = |first: u64, second: u64, joined: u64| assert_eq!(first + second, joined);
    let logs = [&first, &second, &joined];
    for m in 0..3 {
        let [a, b, c] = logs.map(|log| if m < 2 { module_quantities(log, m) } else { tool_quantities(log) }.unwrap());
        both(a.total, b.total, c.total);
        both(a.uptime, b.uptime, c.uptime);
        both(a.production, b.production, c.production);
        both(a.actual, b.actual, c.actual);
        both(a.effective, b.effective, c.effective);
        let [a, b, c] = logs.map(|log| if m < 2 { module_state_times(log, m) } else { tool_state_times(log) }.unwrap());
        both(a.productive, b.productive, c.productive);
        both(a.standby, b.standby, c.standby);
        both(a.engineering, b.engineering, c.engineering);
        both(a.scheduled_down, b.scheduled_down, c.scheduled_down);
        both(a.unscheduled_down, b.unscheduled_down, c.unscheduled_down);
        both(a.nonscheduled, b.nonscheduled, c.nonscheduled);
    }
    assert_eq!(credited_units(&first).unwrap()[..3], [20, 7, 31]);
    assert_eq!(credited_units(&second).unwrap()[..5], [300, 42, 0, 0, 9]);
    assert_eq!(credited_units(&joined).unwrap()[..8], [300, 20, 7, 42, 0, 31, 0, 9]);
}

// Two days that were not scheduled, by their bytes; and two weeks of case W, whose figures are those of one.
#[test]
fn joined_to_itself() {
    let two_days = [0x01, 0x49, 0x97, 0, 0, 0x40, 0x02, 0, 0, 0, 0x02, 0xc0, 0, 0, 0, 0, 0x02, 0xc0, 0x14, 0x99, 0x70, 0];
    joins(&idle(), &idle(), &two_days);
    let twice = join_logs(&week(), &week()).unwrap();
    assert_eq!((twice.len(), report(&twice).as_deref()), (232, Ok(REPORT)));
}

const LONGEST: u64 = 31_622_400_000;

#[test]
fn joined_at_the_bounds() {
    let half = LONGEST / 2;
    for (first, second) in [
        (Records::of(1, half, [3000, 256, 1000]), Records::of(1, half, [3000, 256, 1000])),
        (Records::of(64, 5999, [5936, 511, 1999]), Records::of(64, 100, [64, 1, 1])),
        (Records::of(64, 5999, [64, 1, 1]), Records::of(64, 5999, [5936, 511, 1999])),
        (Records::of(1, LONGEST - 1, [1, 0, 0]), Records::of(1, 1, [1, 0, 0])),
        (Records::of(1, 1, [1, 0, 0]), Records::of(1, LONGEST - 1, [1, 512, 2000])),
    ] {
        joins(&first.log(), &second.log(), &first.joined(&second).log());
    }
}

// Each bound passed by one, by either log; sums of periods that their field does not hold; and several grounds at once, in the sequence 23, 2, 4, 18.
#[test]
fn not_joined() {
    let half = LONGEST / 2;
    let full = [6000, 512, 2000];
    for (ground, first, second) in [
        (Ground::UnlikeTools, Records::of(2, 10, [2, 0, 0]), Records::of(1, 10, [1, 0, 0])),
        (Ground::UnlikeTools, Records::of(63, 10, [63, 0, 0]), Records::of(64, 10, [64, 0, 0])),
        (Ground::UnlikeTools, Records::of(1, LONGEST, full), Records::of(2, LONGEST, full)),
        (Ground::UnlikeTools, Records::of(1, LONGEST, [1, 0, 0]), Records::of(2, LONGEST, [2, 0, 0])),
        (Ground::UnlikeTools, Records::of(1, 6000, full), Records::of(2, 6000, full)),
        (Ground::Period, Records::of(1, LONGEST, [1, 0, 0]), Records::of(1, 1, [1, 0, 0])),
        (Ground::Period, Records::of(1, half, [1, 0, 0]), Records::of(1, half + 1, [1, 0, 0])),
        (Ground::Period, Records::of(1, LONGEST, [1, 0, 0]), Records::of(1, LONGEST, [1, 0, 0])),
        (Ground::Period, Records::of(1, LONGEST, full), Records::of(1, LONGEST, full)),
        (Ground::Period, Records::of(1, half + 6000, full), Records::of(1, half, full)),
        (Ground::Period, Records::of(1, LONGEST, [1, 0, 0]), Records::of(1, (1 << 35) + 1 - LONGEST, [1, 0, 0])),
        (Ground::Counts, Records::of(1, 6000, [6000, 0, 0]), Records::of(1, 6000, [1, 0, 0])),
        (Ground::Counts, Records::of(1, 6000, [1, 0, 0]), Records::of(1, 6000, [6000, 0, 0])),
        (Ground::Counts, Records::of(1, 6000, [1, 512, 0]), Records::of(1, 6000, [1, 1, 0])),
        (Ground::Counts, Records::of(1, 6000, [1, 1, 0]), Records::of(1, 6000, [1, 512, 0])),
        (Ground::Counts, Records::of(1, 6000, [1, 1, 2000]), Records::of(1, 6000, [1, 1, 1])),
        (Ground::Counts, Records::of(1, 6000, [1, 1, 1]), Records::of(1, 6000, [1, 1, 2000])),
        (Ground::Counts, Records::of(1, half, full), Records::of(1, half, full)),
    ] {
        let (first, second, why) = (first.log(), second.log(), Refusal { ground, list: List::None, place: 0 });
        assert_eq!(join_logs(&first, &second), Err(why));
        for room in [0, first.len() + second.len() - 10, LONGEST_LOG] {
            let mut buf = vec![0xa5; room];
            assert_eq!(join_logs_into(&first, &second, &mut buf), Err(why));
            assert!(buf == vec![0xa5; room]);
        }
    }
}

// The second day with one value another, for every list and ground; `turned_back` joins it as the first log and as the second, as it does every log.
#[test]
fn faulty_days() {
    let faulty = |change: fn(&mut Records), ground, list, place| {
        let mut day = day_2();
        change(&mut day);
        turned_back(&day.log(), ground, list, place);
    };
    faulty(|day| day.period = 0, Ground::Period, List::None, 0);
    faulty(|day| day.period = LONGEST + 1, Ground::Period, List::None, 0);
    faulty(|day| day.modules = 65, Ground::Modules, List::None, 0);
    faulty(|day| day.lists[0] = vec![vec![0, 0, 0]; 6001], Ground::Counts, List::None, 0);
    faulty(|day| day.modules = 3, Ground::NoOpening, List::None, 2);
    faulty(|day| day.lists[0][0][0] = 2, Ground::StrayModule, List::States, 0);
    faulty(|day| day.lists[0][2][1] = 24, Ground::StrayCode, List::States, 2);
    faulty(|day| day.lists[0][4][2] = 2000, Ground::Outside, List::States, 4);
    faulty(|day| day.lists[0][3][2] = 0, Ground::Sequence, List::States, 3);
    faulty(|day| day.lists[1][4][0] = 2, Ground::StrayModule, List::Standards, 4);
    faulty(|day| day.lists[1][4][2] = 2000, Ground::Outside, List::Standards, 4);
    faulty(|day| day.lists[1][0][3] = 0, Ground::NoTime, List::Standards, 0);
    faulty(|day| day.lists[1][2][2] = 0, Ground::Twice, List::Standards, 2);
    faulty(|day| day.lists[1][0][1] = 4, Ground::Unsorted, List::Standards, 1);
    faulty(|day| day.lists[2][3][0] = 2, Ground::StrayModule, List::Units, 3);
    faulty(|day| day.lists[2][3][2] = 2000, Ground::Outside, List::Units, 3);
    faulty(|day| day.lists[2][1][4] = 3, Ground::OverGood, List::Units, 1);
    faulty(|day| day.lists[2][2][1] = 5, Ground::NoStandard, List::Units, 2);
    faulty(|day| day.lists[2][2][2] = 98, Ground::Unsorted, List::Units, 2);
    faulty(|day| day.lists[2][2][3] = 65535, Ground::TooFast, List::None, 0);
    faulty(|day| day.lists[2][3][3] = 215, Ground::TooFast, List::None, 1);
}

// ---- packing

impl Records {
    // What says something new: each record is held against the latest one ahead of it of its module, or of its module and recipe.
    fn packed(&self) -> Records {
        let mut packed = self.clone();
        for (list, key, value) in [(0, 1, 1), (1, 2, 3)] {
            let all = &self.lists[list];
            let repeats = |i: usize| all[..i].iter().rfind(|it| it[..key] == all[i][..key]).is_some_and(|before| before[value] == all[i][value]);
            packed.lists[list] = (0..all.len()).filter(|&i| !repeats(i)).map(|i| all[i].clone()).collect();
        }
        packed
    }

    fn count(&self) -> (usize, usize) {
        (self.lists[0].len(), self.lists[1].len())
    }
}

// The packed log, apart and in place, where zeros are behind it; it is packed already, and answers what the log does.
fn packs(log: &[u8], due: &[u8]) {
    for log in [log, due] {
        assert!(pack_log(log).as_deref() == Ok(due));
        let mut buf = log.to_vec();
        assert_eq!(pack_log_in_place(&mut buf).map(|packed| packed.len()), Ok(due.len()));
        assert!(buf == [due, &vec![0; log.len() - due.len()]].concat());
        assert_eq!(call_pack(&mut buf[..due.len()]), (1, due.len() as u64, [0; 3]));
    }
    assert!(module_count(log) == module_count(due) && report(log) == report(due));
    for m in 0..module_count(log).unwrap() {
        assert_eq!(module_state_times(log, m), module_state_times(due, m));
        assert_eq!(module_quantities(log, m), module_quantities(due, m));
        assert_eq!(module_losses(log, m), module_losses(due, m));
    }
    assert_eq!(tool_state_times(log), tool_state_times(due));
    assert_eq!(tool_quantities(log), tool_quantities(due));
    assert_eq!(tool_losses(log), tool_losses(due));
}

// So many state records and standards of the log say something new.
fn keeps(records: &Records, states: usize, standards: usize) {
    let packed = records.packed();
    assert_eq!(packed.count(), (states, standards));
    packs(&records.log(), &packed.log());
}

// Codes are repeated, once in the last ms; module 1 opens with the code that module 0 just got, at 10 goes to another one of the same state, and at 20 to
// the one that module 0 just got. Recipe 3 is stated three times, revised and revised back; recipe 4 has its time, at both modules, and is stated once
// more for the last ms.
#[test]
fn packed_shift() {
    let units = [
        [0, 3, 99, 10, 9],
        [0, 3, 100, 20, 15],
        [0, 3, 250, 40, 0],
        [0, 3, 300, 3, 3],
        [0, 4, 300, 7, 1],
        [0, 3, 400, 50, 49],
        [1, 4, 998, 1, 1],
        [1, 4, 999, 2, 0],
    ];
    let log = records(
        1000,
        2,
        [[0, 0, 0], [1, 0, 0], [0, 0, 10], [1, 1, 10], [0, 7, 20], [1, 7, 20], [0, 7, 30], [0, 0, 40], [1, 7, 50], [0, 0, 999]],
        [[0, 3, 0, 5], [0, 3, 100, 5], [0, 3, 200, 5], [0, 3, 300, 4], [0, 3, 400, 5], [0, 4, 0, 5], [1, 4, 0, 5], [1, 4, 999, 5]],
        units,
    );
    let packed = records(
        1000,
        2,
        [[0, 0, 0], [1, 0, 0], [1, 1, 10], [0, 7, 20], [1, 7, 20], [0, 0, 40]],
        [[0, 3, 0, 5], [0, 3, 300, 4], [0, 3, 400, 5], [0, 4, 0, 5], [1, 4, 0, 5]],
        units,
    );
    packs(&log.log(), &packed.log());
    keeps(&log, 6, 5);
    assert_eq!(credited_units(&log.log()).unwrap()[..9], [10, 20, 40, 3, 50, 7, 1, 2, 0]);
    assert_eq!(credited_units(&packed.log()).unwrap()[..6], [70, 3, 50, 7, 3, 0]);
    // In a longer buffer it is refused, whatever is behind it; in its own, what is behind that stays.
    for behind in [&[0][..], &[0xa5], &[0; 1000], &log.log()] {
        let longer = [&log.log(), behind].concat();
        let mut buf = longer.clone();
        assert_eq!(pack_log_in_place(&mut buf), Err(Refusal { ground: Ground::Length, list: List::None, place: 0 }));
        assert!(buf == longer);
        let (own, rest) = buf.split_at_mut(log.log().len());
        assert!(pack_log_in_place(own).is_ok_and(|own| own == packed.log()) && rest == behind);
    }
}

// A day that was not scheduled, told three times, by its bytes; two days joined, of which the second's openings and two standards go; and case W, of
// which nothing does.
#[test]
fn packed_by_hand() {
    let day = [0, 0xa4, 0xcb, 0x80, 0, 0x40, 0x03, 0, 0, 0, 0x02, 0xc0, 0, 0, 0, 0, 0x02, 0xc0, 0, 0xdb, 0xba, 0, 0x02, 0xc0, 0x01, 0xb7, 0x74, 0];
    packs(&day, &idle());
    let mut days = both_days();
    days.lists[0].retain(|state| *state != [0, 18, 1000] && *state != [1, 3, 1000]);
    days.lists[1].retain(|standard| *standard != [0, 3, 1000, 4] && *standard != [1, 3, 1499, 6]);
    assert_eq!(days.count(), (9, 6));
    packs(&both_days().log(), &days.log());
    packs(&week(), &week());
}

#[test]
fn packed_each_code() {
    for (before, code) in (0..24).flat_map(|before| (0..24).map(move |code| (before, code))) {
        keeps(&records(100, 1, [[0, before, 0], [0, code, 99]], [], []), if code == before { 1 } else { 2 }, 0);
    }
}

// Of 64 modules one goes on with its code, and the others change; or one changes.
#[test]
fn packed_each_module() {
    for (own, others) in (0..64).flat_map(|own| [(own, 0), (own, 1)]) {
        let mut log = records(100, 64, [], [], []);
        log.lists[0].extend((0..64).map(|m| vec![m, m % 24, 0]));
        log.lists[0].extend((0..64).map(|m| vec![m, (m + if m == own { 1 - others } else { others }) % 24, 50]));
        keeps(&log, if others == 1 { 127 } else { 65 }, 0);
    }
}

// Two standards that differ in a single bit of their time, and two that differ in one of their module or recipe. The second is stated once more.
#[test]
fn packed_each_bit() {
    for bit in 0..27 {
        for time in [if bit == 0 { 2 } else { 1 }, greatest(27)] {
            let other = time ^ 1 << bit;
            keeps(&records(100, 1, [[0, 0, 0]], [[0, 3, 0, time], [0, 3, 1, other], [0, 3, 2, other]], []), 1, 2);
        }
    }
    let others = (0..6).map(|bit| (1 << bit, 0)).chain((0..10).map(|bit| (0, 1 << bit)));
    for (module, recipe) in others {
        let time = greatest(27);
        let mut log = records(100, 64, [], [[0, 0, 0, time], [module, recipe, 50, time], [module, recipe, 99, time]], []);
        log.lists[0].extend((0..64).map(|m| vec![m, m % 24, 0]));
        keeps(&log, 64, 2);
    }
}

// One code and one standard told over and over, at last another of each; and a log of which every record stays.
#[test]
fn packed_longest() {
    let mut log = records(6000, 1, [], [], []);
    log.lists[0].extend((0..6000).map(|time| vec![0, 5, time]));
    log.lists[1].extend((0..512).map(|i| vec![0, 1023, 2 * i, 3]));
    log.lists[2].extend((0..2000).map(|i| vec![0, 1023, 3 * i, 1, i % 2]));
    keeps(&log, 1, 1);
    log.lists[0][5999][1] = 4;
    log.lists[1][511][3] = 2;
    keeps(&log, 2, 2);
    let mut log = records(LONGEST, 64, [], [], []);
    log.lists[0].extend((0..6000).map(|i| vec![i % 64, i / 64 % 24, if i < 64 { 0 } else { LONGEST - 6000 + i }]));
    log.lists[1].extend((0..512).map(|i| vec![i / 8, 7 + i % 8 / 4, i % 4 * 1_000_000, 3 + i % 2]));
    log.lists[2].extend((0..2000).map(|i| vec![i % 64, 8, i / 64 * 1_000_000, 65535, i]));
    assert_eq!(log.log().len(), LONGEST_LOG);
    keeps(&log, 6000, 512);
}

// Few codes, recipes and times, so that many records say nothing new. At each ms each recipe has the time in force that it had.
#[test]
fn packed_random() {
    let mut seed: u64 = 20261201;
    let mut below = |bound: u64| {
        seed = seed.wrapping_mul(6364136223846793005).wrapping_add(1442695040888963407);
        (seed >> 33) % bound
    };
    for turn in 0..200 {
        let modules = 1 + below(3);
        let mut log = records(40, modules, [], [], []);
        for (time, module) in (0..40).flat_map(|time| (0..modules).map(move |module| (time, module))) {
            if time == 0 || below(4) == 0 {
                log.lists[0].push(vec![module, below(3) * (turn % 8), time]);
            }
        }
        for (module, recipe) in (0..modules).flat_map(|module| (0..3).map(move |recipe| (module, recipe))) {
            for start in 0..40 {
                if below(12) == 0 {
                    log.lists[1].push(vec![module, recipe, start, 1 + below(2)]);
                }
            }
        }
        let (whole, packed) = (log.log(), log.packed().log());
        packs(&whole, &packed);
        let in_force = |log: &[u8], m, recipe, time| standard_in_force(log, m, recipe, time).unwrap().map(|standard| standard.time);
        for (m, recipe) in (0..modules as usize).flat_map(|m| (0..3).map(move |recipe| (m, recipe))) {
            assert!((0..40).all(|time| in_force(&whole, m, recipe, time) == in_force(&packed, m, recipe, time)));
        }
    }
}

//! The sample logs and benchmarks give their expected output, and the figures that the papers print.

use difftest::credited::Credited;
use difftest::draft::Draft;
use difftest::oracle::{account, read};
use difftest::records::*;
use difftest::supplemental::{supplemental, text};
use std::fs;
use std::path::{Path, PathBuf};

fn folder() -> PathBuf {
    PathBuf::from(env!("CARGO_MANIFEST_DIR")).join("../samples")
}

/// What `toollog` has to print is in a folder of its own.
fn printed_folder() -> PathBuf {
    folder().join("toollog")
}

/// The files of a folder that have this extension.
fn files(folder: &Path, extension: &str) -> Vec<PathBuf> {
    let entries = fs::read_dir(folder).expect("a folder of samples");
    entries
        .map(|entry| entry.expect("an entry").path())
        .filter(|path| path.extension().is_some_and(|own| own == extension))
        .collect()
}

fn bytes(path: &Path) -> Vec<u8> {
    fs::read(path).unwrap_or_else(|error| panic!("{path:?}: {error}"))
}

fn log(name: &str) -> Vec<u8> {
    bytes(&folder().join(format!("{name}.log")))
}

/// What `toollog` has to print of a sample.
fn printed(sample: &Path, subcommand: &str) -> Vec<u8> {
    let name = sample.with_extension(subcommand);
    bytes(&printed_folder().join(name.file_name().expect("a name")))
}

fn output(log: &[u8]) -> String {
    match account(log) {
        Ok(account) => String::from_utf8(account.report()).expect("text"),
        Err(refusal) => refusal.line(),
    }
}

/// The report of one module, whose tool line has the same figures.
fn bench_report(figures: &str) -> String {
    format!("module avail oper rate qual oee\n0 {figures}\ntool {figures}\n")
}

#[test]
fn expected_output() {
    let samples = files(&folder(), "log");
    for path in &samples {
        let expected = bytes(&path.with_extension("txt"));
        assert_eq!(output(&bytes(path)).into_bytes(), expected, "{path:?}");
    }
    assert_eq!(samples.len(), files(&folder(), "txt").len());
}

/// The tables, and the listing, that `toollog` has to print of each accepted sample.
#[test]
fn expected_tables() {
    type Table = fn(&[u8]) -> Result<Vec<u8>, Refusal>;
    let tables: [(&str, Table); 4] = [
        ("times", |log| account(log).map(|it| it.times())),
        ("quantities", |log| account(log).map(|it| it.quantities())),
        ("losses", |log| account(log).map(|it| it.losses())),
        ("credited", listing),
    ];
    for (subcommand, table) in tables {
        let mut accepted = 0;
        for path in files(&folder(), "log") {
            if let Ok(table) = table(&bytes(&path)) {
                assert_eq!(table, printed(&path, subcommand), "{path:?}");
                accepted += 1;
            }
        }
        assert_eq!(accepted, files(&printed_folder(), subcommand).len());
    }
}

fn listing(log: &[u8]) -> Result<Vec<u8>, Refusal> {
    Credited::of(log, &account(log)).map(|credited| credited.listing())
}

/// The figures that `toollog` has to print of each slice of benchmarks, or its refusal. Its log has its name; where there is none, it is that of R1-3.
#[test]
fn expected_supplemental() {
    let samples = files(&folder(), "benchmarks");
    for path in &samples {
        let own = path.with_extension("log");
        let log = if own.exists() {
            bytes(&own)
        } else {
            log("r1-3")
        };
        let figures = supplemental(&log, &bytes(path)).map(|figures| text(&figures));
        let output = figures.unwrap_or_else(|refusal| refusal.line().into_bytes());
        assert_eq!(output, printed(path, "supplemental"), "{path:?}");
    }
    assert_eq!(
        samples.len(),
        files(&printed_folder(), "supplemental").len()
    );
}

/// 002, R1-2: the hours of module B and of the tool, in ms.
#[test]
fn hours_of_002() {
    let times = String::from_utf8(account(&log("r1-2")).unwrap().times()).expect("text");
    let lines: Vec<&str> = times.lines().collect();
    let hours = |hours: [f64; 6]| {
        hours
            .map(|h| (h * 3_600_000.0).round().to_string())
            .join(" ")
    };
    assert_eq!(
        lines[2],
        format!("1 {}", hours([148.0, 5.0, 5.0, 5.0, 5.0, 0.0]))
    );
    assert_eq!(
        lines[4],
        format!("tool {}", hours([378.0, 103.0, 8.0, 5.0, 10.0, 0.0]))
    );
}

/// 002, R1-1 and R1-2, as printed there.
#[test]
fn printed_figures_of_002() {
    assert_eq!(
        output(&log("r1-1")),
        bench_report("0.9286 0.9423 0.9841 0.9862 0.8492")
    );
    let cluster = "module avail oper rate qual oee\n\
                   0 0.9702 0.9202 0.9333 0.9321 0.7768\n\
                   1 0.9405 0.9367 0.9797 0.9586 0.8274\n\
                   2 1.0000 0.4762 0.9375 1.0000 0.4464\n\
                   tool 0.9702 0.7730 0.9524 0.9569 0.6835\n";
    assert_eq!(output(&log("r1-2")), cluster);
    assert_eq!(output(&log("case-w")), cluster);
}

/// R1-2's sums in hours, as 002 prints them.
#[test]
fn printed_sums_of_002() {
    let account = account(&log("r1-2")).expect("accepted");
    let hours = |ms: u64| ms as f64 / 3_600_000.0;
    let quantities = |sums: difftest::oracle::Sums| sums.quantities.array().map(hours);
    assert_eq!(
        quantities(account.modules[0]),
        [168.0, 163.0, 150.0, 140.0, 130.5]
    );
    assert_eq!(
        quantities(account.modules[1]),
        [168.0, 158.0, 148.0, 145.0, 139.0]
    );
    assert_eq!(
        quantities(account.modules[2]),
        [168.0, 168.0, 80.0, 75.0, 75.0]
    );
    assert_eq!(
        quantities(account.tool),
        [504.0, 489.0, 378.0, 360.0, 344.5]
    );
}

/// 003's example by 002's sums: rate 5065.8 over 6144 minutes, quality 4709 over 5065.8.
#[test]
fn guidebook_by_sums() {
    let guidebook = log("guidebook");
    assert_eq!(
        output(&guidebook),
        bench_report("0.7857 0.7758 0.8245 0.9296 0.4672")
    );
    let quantities = account(&guidebook).expect("accepted").tool.quantities;
    let tenths_of_minutes = |ms: u64| ms / 6_000;
    assert_eq!(tenths_of_minutes(quantities.actual), 50_658);
    assert_eq!(tenths_of_minutes(quantities.production), 61_440);
    assert_eq!(tenths_of_minutes(quantities.effective), 47_090);
}

/// What the new chamber shows, and what it would show by the old chambers' time.
#[test]
fn chamber_by_its_own_time() {
    let chamber = log("chamber");
    let shows = |new: &str, tool: &str| {
        format!(
            "module avail oper rate qual oee\n\
             0 0.9167 0.9091 0.7500 0.9800 0.6125\n\
             1 0.9167 0.9091 0.7500 0.9800 0.6125\n\
             2 0.9167 0.9091 {new}\n\
             tool 0.9167 0.9091 {tool}\n"
        )
    };
    assert_eq!(
        output(&chamber),
        shows("0.5000 0.9800 0.4083", "0.6667 0.9800 0.5444")
    );
    let mut one_time = Draft::of(read(&chamber).expect("well formed"));
    one_time.standards[2].theoretical = one_time.standards[0].theoretical;
    assert_eq!(
        output(&one_time.bytes()),
        shows("0.7500 0.9800 0.6125", "0.7500 0.9800 0.6125")
    );
}

/// The bars of samples/README.md. Each rounded to the nearest, the parts of the new chamber's tool would make 9,999 and those of the guidebook 10,001;
/// OEE is one above the report's, and one below it.
#[test]
fn losses_by_hand() {
    let losses = |name: &str| -> Vec<String> {
        let table = account(&log(name)).expect("accepted").losses();
        let lines = String::from_utf8(table).expect("text");
        lines.lines().skip(1).map(String::from).collect()
    };
    // A day of three modules, 259,200 s: 21,600 twice, 72,000, 2,880, 141,120. Of one, 86,400 s: 7,200 twice, 18,000, 1,080, 52,920, and 7,200
    // twice, 36,000, 720, 35,280.
    assert_eq!(
        losses("chamber"),
        [
            "0 0.0834 0.0833 0.2083 0.0125 0.6125",
            "1 0.0834 0.0833 0.2083 0.0125 0.6125",
            "2 0.0834 0.0833 0.4167 0.0083 0.4083",
            "tool 0.0833 0.0833 0.2778 0.0111 0.5445",
        ]
    );
    assert!(output(&log("chamber")).ends_with(" 0.5444\n"));
    // A week, 10,080 minutes: 2,160, 1,776, 1,078.2, 356.8, 4,709.
    let guidebook = "0.2143 0.1762 0.1070 0.0354 0.4671";
    let lines = ["0", "tool"].map(|name| format!("{name} {guidebook}"));
    assert_eq!(losses("guidebook"), lines);
    assert!(output(&log("guidebook")).ends_with(" 0.4672\n"));
}

/// What the etcher shows, and what it would show by the first standard that covers the recipe.
#[test]
fn etcher_by_each_standard() {
    let etcher = log("etcher");
    assert_eq!(
        output(&etcher),
        bench_report("0.9405 0.8861 0.7302 0.9938 0.6047")
    );
    let mut first_only = Draft::of(read(&etcher).expect("well formed"));
    first_only.standards.truncate(1);
    assert_eq!(
        output(&first_only.bytes()),
        bench_report("0.9405 0.8861 0.9524 0.9938 0.7887")
    );
}

/// The listings of samples/README.md: what each revision of the etcher's recipe judged, and each standard of the shift. A new tool has no standards.
#[test]
fn credited_by_hand() {
    let lines = |name: &str| -> Vec<String> {
        let listing = String::from_utf8(listing(&log(name)).expect("accepted")).expect("text");
        listing.lines().map(String::from).collect()
    };
    let etcher = [250 + 230, 300 + 310 + 150 + 200 + 160];
    assert_eq!(etcher, [480, 1_120]);
    assert_eq!(lines("etcher"), ["0 480", "1 1120"]);
    // 70 ahead of hour 4, 75 at it and 60 behind it; of module 2, 90 at it and 45 behind it.
    let shift = ["0 70", "1 135", "2 4", "3 105", "4 0", "5 135"];
    assert_eq!(lines("same-shift"), shift);
    assert_eq!(listing(&log("idle")), Ok(Vec::new()));
}

/// The sums of samples/README.md: those of the two days added, module by module, and each standard's units, in the joined log's sequence.
#[test]
fn joined_days_by_hand() {
    let days = ["monday", "tuesday", "two-days"].map(|name| account(&log(name)).expect("accepted"));
    let in_s = |sums: &difftest::oracle::Sums| {
        let times = sums.state_times.map(|ms| ms / 1_000);
        (times, sums.quantities.array().map(|ms| ms / 1_000))
    };
    let module_0 = days.each_ref().map(|day| in_s(&day.modules[0]));
    assert_eq!(
        module_0[0],
        (
            [75_600, 10_800, 0, 0, 0, 0],
            [86_400, 86_400, 75_600, 620 * 90, 608 * 90]
        )
    );
    assert_eq!(
        module_0[1],
        (
            [79_200, 0, 0, 7_200, 0, 0],
            [86_400, 79_200, 79_200, 71_100, 70_120]
        )
    );
    assert_eq!(
        module_0[2],
        (
            [154_800, 10_800, 0, 7_200, 0, 0],
            [172_800, 165_600, 154_800, 126_900, 124_840]
        )
    );
    let module_1 = days.each_ref().map(|day| in_s(&day.modules[1]));
    for (joined, own) in [
        (module_0[2], [module_0[0], module_0[1]]),
        (module_1[2], [module_1[0], module_1[1]]),
    ] {
        let [first, second] = own;
        assert_eq!(
            joined.0,
            std::array::from_fn(|at| first.0[at] + second.0[at])
        );
        assert_eq!(
            joined.1,
            std::array::from_fn(|at| first.1[at] + second.1[at])
        );
    }
    let lines =
        |name: &str| String::from_utf8(listing(&log(name)).expect("accepted")).expect("text");
    assert_eq!(lines("monday"), "0 620\n1 240\n2 200\n");
    assert_eq!(lines("tuesday"), "0 350\n1 420\n2 60\n3 500\n");
    assert_eq!(
        lines("two-days"),
        "0 620\n1 350\n2 420\n3 60\n4 240\n5 200\n6 500\n"
    );
    assert!(output(&log("two-days")).contains("\ntool 0.8854 0.9176 0.7169 0.9868 0.5748\n"));
}

/// As many records as a log may have, and every figure with a base: the longest log and the longest
/// report.
#[test]
fn longest_log_and_report() {
    let longest = log("longest");
    assert_eq!(longest.len(), 63_130);
    let header = Header {
        period: LONGEST_PERIOD,
        modules: MOST_MODULES,
        states: MOST_STATES,
        standards: MOST_STANDARDS,
        units: MOST_UNITS,
    };
    assert_eq!(read(&longest).expect("well formed").header, header);
    let report = output(&longest);
    assert_eq!(report.len(), 2_494);
    assert!(!report.contains('-'));
    let cut = &longest[..longest.len() - 1];
    let lengthened = [&longest[..], &[0]].concat();
    assert_eq!(output(cut), "refused 5 list 0 at 0\n");
    assert_eq!(output(&lengthened), "refused 5 list 0 at 0\n");
}

/// The shift of three modules by hand, in s: module 0 is productive for 25,200 of 28,800 and makes 70 units of 90 s, 75 and 60 of 80 s and 4 of
/// 150 s, of which 2 of 90 s and 1 of 80 s are not effective; module 1 for 23,400, 105 units of 150 s less 2; module 2 for 14,400 with 14,400 of
/// standby, 135 of 80 s less 2.
#[test]
fn same_shift() {
    assert_eq!(
        output(&log("same-shift")),
        "module avail oper rate qual oee\n\
         0 0.8750 1.0000 0.7024 0.9853 0.6056\n\
         1 0.8125 1.0000 0.6731 0.9810 0.5365\n\
         2 1.0000 0.5000 0.7500 0.9852 0.3694\n\
         tool 0.8958 0.8140 0.7024 0.9837 0.5038\n"
    );
}

/// In rising sequence, the logs of the same shift are the same bytes.
#[test]
fn same_bytes() {
    for name in ["module-sequence", "unsorted-standards", "unsorted"] {
        let other = log(&format!("refused-{name}"));
        assert_ne!(other, log("same-shift"), "{name}");
        let mut draft = Draft::of(read(&other).expect("well formed"));
        draft.sort();
        assert_eq!(draft.bytes(), log("same-shift"), "{name}");
    }
}

fn ascend<T: PartialOrd>(keys: impl Iterator<Item = T>) -> bool {
    keys.is_sorted_by(|one, next| one < next)
}

/// The lists of the accepted samples ascend.
#[test]
fn lists_in_sequence() {
    for path in files(&folder(), "log") {
        let bytes = bytes(&path);
        if account(&bytes).is_err() {
            continue;
        }
        let log = read(&bytes).expect("well formed");
        assert!(
            ascend(log.states.iter().map(|it| (it.time, it.module))),
            "{path:?}"
        );
        assert!(
            ascend(
                log.standards
                    .iter()
                    .map(|it| (it.module, it.recipe, it.start))
            ),
            "{path:?}"
        );
        assert!(
            ascend(log.units.iter().map(|it| (it.time, it.module, it.recipe))),
            "{path:?}"
        );
    }
}

/// One sample for each number from 2 to 16, one for each list in another sequence, and those of R-5.
#[test]
fn refused_by_number() {
    let lines = [
        ("period", "2 list 0 at 0"),
        ("modules", "3 list 0 at 0"),
        ("counts", "4 list 0 at 0"),
        ("cut", "5 list 0 at 0"),
        ("spare", "6 list 3 at 2"),
        ("stray-module", "7 list 3 at 1"),
        ("stray-code", "8 list 1 at 1"),
        ("outside", "9 list 3 at 1"),
        ("sequence", "10 list 1 at 2"),
        ("no-opening", "11 list 0 at 1"),
        ("no-time", "12 list 2 at 1"),
        ("twice", "13 list 2 at 1"),
        ("over-good", "14 list 3 at 0"),
        ("no-standard", "15 list 3 at 1"),
        ("too-fast", "16 list 0 at 1"),
        ("module-sequence", "10 list 1 at 1"),
        ("unsorted-standards", "19 list 2 at 2"),
        ("unsorted", "19 list 3 at 4"),
        ("standard-spare", "6 list 2 at 2"),
        ("standard-module", "7 list 2 at 1"),
        ("other-module", "15 list 3 at 1"),
    ];
    for (name, line) in lines {
        let refused = log(&format!("refused-{name}"));
        assert_eq!(output(&refused), format!("refused {line}\n"), "{name}");
    }
}

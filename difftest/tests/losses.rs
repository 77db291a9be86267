//! R-6 on its oracle: case W and bars worked out by hand, and no other five that lie nearer.

use difftest::draft::Draft;
use difftest::generator::make;
use difftest::losses::{distance, shares, Bar, WHOLE};
use difftest::oracle::{account, Account, Quantities};
use difftest::records::*;
use difftest::tally::Tally;

/// The quantities of a module or tool that these shares, in ms, make the total time of.
fn of_shares(shares: [u64; 5]) -> Quantities {
    let [_, operational, rate, quality, oee] = shares;
    let actual = quality + oee;
    let production = rate + actual;
    Quantities {
        total: shares.iter().sum(),
        uptime: operational + production,
        production,
        actual,
        effective: oee,
    }
}

fn case_w() -> Account {
    let path = concat!(env!("CARGO_MANIFEST_DIR"), "/../samples/case-w.log");
    account(&std::fs::read(path).expect("a sample")).expect("accepted")
}

/// In half hours: 336 for each module and 1,008 for the tool. The quotients' fractions, in 21sts and for the tool in 63rds.
#[test]
fn case_w_by_hand() {
    let half_hour = 1_800_000;
    let by_hand = [
        // 13, 17, 5, 10 and 18 of 21: three are missing.
        ([10, 26, 20, 19, 261], [298, 774, 595, 565, 7_768], 3),
        // 5, 5, 12, 3 and 17 of 21.
        ([20, 20, 6, 12, 278], [595, 595, 179, 357, 8_274], 2),
        // 0, 2, 13, 0 and 6 of 21.
        ([0, 176, 10, 0, 150], [0, 5_238, 298, 0, 4_464], 1),
        // 39, 24, 9, 34 and 20 of 63.
        ([30, 222, 36, 31, 689], [298, 2_202, 357, 308, 6_835], 2),
    ];
    let case_w = case_w();
    let sums = case_w.modules.iter().chain([&case_w.tool]);
    let mut bars = case_w.bars().into_iter();
    for (sums, (half_hours, parts, missing)) in sums.zip(by_hand) {
        assert_eq!(shares(&sums.quantities), half_hours.map(|n| n * half_hour));
        let bar = Bar {
            parts,
            missing,
            tie: None,
        };
        assert_eq!(bars.next(), Some(bar));
    }
    assert_eq!(bars.next(), None);

    // Off by 24, 24, 9, 29 and 20 of 63, of 10,000ths of the total time, 28,800,000 ms of it being a 63rd.
    let tool = case_w.tool.quantities;
    let parts = [298, 2_202, 357, 308, 6_835];
    assert_eq!(distance(&tool, &parts), 106 * 28_800_000);
    // By 39 and 43 where OEE gets the one of availability.
    let moved = [297, 2_202, 357, 308, 6_836];
    assert_eq!(distance(&tool, &moved), (106 + 15 + 23) * 28_800_000);
}

#[test]
fn case_w_printed() {
    let expected = "module availability operational rate quality oee\n\
                    0 0.0298 0.0774 0.0595 0.0565 0.7768\n\
                    1 0.0595 0.0595 0.0179 0.0357 0.8274\n\
                    2 0.0000 0.5238 0.0298 0.0000 0.4464\n\
                    tool 0.0298 0.2202 0.0357 0.0308 0.6835\n";
    assert_eq!(String::from_utf8(case_w().losses()).unwrap(), expected);
}

/// Shares in ms, the bar, and how many of how many equal remainders get one where others get none.
#[test]
fn bars_by_hand() {
    for (shares, parts, missing, tie) in [
        // One part is the whole; two make it exactly.
        ([7, 0, 0, 0, 0], [10_000, 0, 0, 0, 0], 0, None),
        ([0, 0, 0, 0, 7], [0, 0, 0, 0, 10_000], 0, None),
        ([1, 0, 0, 0, 1], [5_000, 0, 0, 0, 5_000], 0, None),
        // A third is 3,333 and 1/3.
        (
            [1, 1, 0, 0, 1],
            [3_334, 3_333, 0, 0, 3_333],
            1,
            Some((3, 1)),
        ),
        (
            [0, 0, 1, 1, 1],
            [0, 0, 3_334, 3_333, 3_333],
            1,
            Some((3, 1)),
        ),
        ([0, 1, 0, 2, 0], [0, 3_333, 0, 6_667, 0], 1, None),
        // A sixth is 1,666 and 2/3, two are 3,333 and 1/3, three are 5,000.
        (
            [1, 1, 0, 1, 3],
            [1_667, 1_667, 0, 1_666, 5_000],
            2,
            Some((3, 2)),
        ),
        (
            [2, 1, 1, 1, 1],
            [3_333, 1_667, 1_667, 1_667, 1_666],
            3,
            Some((4, 3)),
        ),
        (
            [1, 1, 1, 1, 2],
            [1_667, 1_667, 1_667, 1_666, 3_333],
            3,
            Some((4, 3)),
        ),
        // A seventh is 1,428 and 4/7, two are 2,857 and 1/7, three are 4,285 and 5/7: that one gets the first.
        (
            [1, 2, 3, 1, 0],
            [1_429, 2_857, 4_286, 1_428, 0],
            2,
            Some((2, 1)),
        ),
        (
            [1, 1, 1, 2, 2],
            [1_429, 1_429, 1_428, 2_857, 2_857],
            2,
            Some((3, 2)),
        ),
        // Four 17ths are 2,352 and 16/17, one is 588 and 4/17: all four equal ones get one, so none of them has to win.
        ([4, 4, 4, 4, 1], [2_353, 2_353, 2_353, 2_353, 588], 4, None),
        ([1, 4, 4, 4, 4], [588, 2_353, 2_353, 2_353, 2_353], 4, None),
        // One of 3,125 is 3 and 1/5, the rest 9,987 and 1/5; and so on.
        ([1, 1, 1, 1, 3_121], [4, 3, 3, 3, 9_987], 1, Some((5, 1))),
        ([3_121, 1, 1, 1, 1], [9_988, 3, 3, 3, 3], 1, Some((5, 1))),
        ([2, 2, 2, 2, 3_117], [7, 7, 6, 6, 9_974], 2, Some((5, 2))),
        ([3, 3, 3, 3, 3_113], [10, 10, 10, 9, 9_961], 3, Some((5, 3))),
        (
            [4, 4, 4, 4, 3_109],
            [13, 13, 13, 13, 9_948],
            4,
            Some((5, 4)),
        ),
    ] {
        let bar = Bar {
            parts,
            missing,
            tie,
        };
        assert_eq!(Bar::of(&of_shares(shares)), bar, "{shares:?}");
    }
}

/// 64 modules over the longest period. Two parts of 0.395 and a bit: 1 ms more wins, and of equal ones the earlier.
#[test]
fn by_a_millisecond() {
    let total = 64 * LONGEST_PERIOD;
    for (first, second, parts) in [
        (80_000_000, 80_000_001, [0, 1, 0, 0, 9_999]),
        (80_000_000, 80_000_000, [1, 0, 0, 0, 9_999]),
        (80_000_001, 80_000_000, [1, 0, 0, 0, 9_999]),
    ] {
        let shares = [first, second, 0, 0, total - first - second];
        assert_eq!(Bar::of(&of_shares(shares)).parts, parts);
    }
}

/// All bars of totals up to 9 ms, against every five that make 10,000 and lie between two below the quotients rounded down and
/// three above.
#[test]
fn no_other_five_nearer() {
    let four = |count: u64| {
        let digit = move |number: u64, place: u32| number / count.pow(place) % count;
        (0..count.pow(4)).map(move |number| [0, 1, 2, 3].map(|place| digit(number, place)))
    };
    let mut bars = 0;
    for total in 1..10 {
        for [a, b, c, d] in four(total + 1).filter(|four| four.iter().sum::<u64>() <= total) {
            let shares = [a, b, c, d, total - a - b - c - d];
            let quantities = of_shares(shares);
            let bar = Bar::of(&quantities);
            let own = distance(&quantities, &bar.parts.map(i128::from));
            for offsets in four(6) {
                let mut parts = shares.map(|share| i128::from(WHOLE * share / total));
                for (part, offset) in parts.iter_mut().zip(offsets) {
                    *part += i128::from(offset) - 2;
                }
                parts[4] = i128::from(WHOLE) - parts[..4].iter().sum::<i128>();
                assert!(
                    distance(&quantities, &parts) >= own,
                    "{shares:?}, {parts:?}"
                );
            }
            bars += 1;
        }
    }
    // Five whole numbers that make 9, 8 and so on.
    assert_eq!(bars, 715 + 495 + 330 + 210 + 126 + 70 + 35 + 15 + 5);
}

/// Of the generator's logs: one or two moved between any parts, all at once.
#[test]
fn none_nearer_by_ones_and_twos() {
    let moves: Vec<[i128; 5]> = (0..5_i128.pow(5))
        .map(|number| [1, 5, 25, 125, 625].map(|place| number / place % 5 - 2))
        .filter(|moves| moves.iter().sum::<i128>() == 0)
        .collect();
    assert_eq!(moves.len(), 381);
    for index in 0..1_000 {
        let Ok(account) = account(&make(14, index).bytes) else {
            continue;
        };
        for sums in account.modules.iter().chain([&account.tool]) {
            let parts = Bar::of(&sums.quantities).parts.map(i128::from);
            let own = distance(&sums.quantities, &parts);
            for moves in &moves {
                let moved: [i128; 5] = std::array::from_fn(|part| parts[part] + moves[part]);
                assert!(distance(&sums.quantities, &moved) >= own, "log {index}");
            }
        }
    }
}

/// A log of one module, productive throughout, that makes `good` units of 1 ms and as many more as are scrapped.
fn bench(period: u64, good: u64, scrapped: u64) -> Vec<u8> {
    let mut draft = Draft {
        period,
        modules: 1,
        ..Draft::default()
    };
    draft.state(0, 0, 0);
    draft.standard(0, 0, 0, 1);
    draft.unit(0, 0, 0, good + scrapped, good);
    draft.bytes()
}

#[test]
fn a_tally_of_no_bars_misses_all() {
    let mut tally = Tally::default();
    let due = tally.never_met_in_losses();
    assert_eq!(due.len(), 5 + 10 + 2);
    let mut missed = |log: &[u8]| {
        tally.count_losses(&account(log));
        tally.never_met_in_losses()
    };
    // A refused log has none.
    assert_eq!(missed(&[]), due);
    let without = |met: &[&str]| -> Vec<String> {
        let due = due.iter().filter(|name| !met.contains(&name.as_str()));
        due.cloned().collect()
    };
    let mut met = vec!["0 missing"];
    assert_eq!(missed(&bench(10, 10, 0)), without(&met));
    met.extend(["1 missing", "1 of 3 tied"]);
    assert_eq!(missed(&bench(3, 1, 1)), without(&met));
    // 312 and 1/2 of rate loss, 9,687 and 1/2 of OEE: reported are 9,688.
    met.extend(["1 of 2 tied", "OEE below the report's"]);
    assert_eq!(missed(&bench(32, 31, 0)), without(&met));
    // 2,222 and 2/9, 3,333 and 3/9, 4,444 and 4/9.
    met.push("OEE above the report's");
    assert_eq!(missed(&bench(9, 4, 3)), without(&met));
}

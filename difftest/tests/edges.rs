//! Document 01's case W and its edge cases, with the standards of R-5, on the oracle.

use difftest::draft::Draft;
use difftest::oracle::{
    account, figures, in_force, last_in_force, read, ten_thousandths, Account, Quantities,
};
use difftest::records::*;

const WEEK: u64 = 604_800_000;

fn case_w() -> Draft {
    let mut draft = Draft {
        period: WEEK,
        modules: 3,
        ..Draft::default()
    };
    for (module, code, time) in [
        (0, 0, 0),
        (1, 0, 0),
        (2, 0, 0),
        (2, 7, 288_000_000),
        (1, 7, 532_800_000),
        (0, 7, 540_000_000),
        (1, 18, 568_800_000),
        (0, 18, 586_800_000),
    ] {
        draft.state(module, code, time);
    }
    for (module, actual, effective) in [(0, 280, 261), (1, 290, 278), (2, 150, 150)] {
        draft.standard(module, 0, 0, 1_800_000);
        draft.unit(module, 0, 3_600_000, actual, effective);
    }
    draft
}

/// One productive module, one standard of 1 ms from the start on.
fn bench(period: u64) -> Draft {
    let mut draft = Draft {
        period,
        modules: 1,
        ..Draft::default()
    };
    draft.state(0, 0, 0);
    draft.standard(0, 0, 0, 1);
    draft
}

fn judged(draft: &Draft) -> Result<Account, Refusal> {
    account(&draft.bytes())
}

fn refused(draft: &Draft, number: u64, list: u64, place: usize) {
    assert_eq!(judged(draft).err(), Some(Refusal::new(number, list, place)));
}

fn report(draft: &Draft) -> String {
    String::from_utf8(judged(draft).expect("accepted").report()).expect("text")
}

#[test]
fn case_w_prints_its_report() {
    let expected = "module avail oper rate qual oee\n\
                    0 0.9702 0.9202 0.9333 0.9321 0.7768\n\
                    1 0.9405 0.9367 0.9797 0.9586 0.8274\n\
                    2 1.0000 0.4762 0.9375 1.0000 0.4464\n\
                    tool 0.9702 0.7730 0.9524 0.9569 0.6835\n";
    assert_eq!(report(&case_w()), expected);
    let whole = judged(&case_w()).unwrap();
    assert_eq!(whole.fits(183), Ok(()));
    assert_eq!(whole.fits(182), Err(Refusal::of_log(18)));
    assert_eq!(whole.module(2).map(|sums| sums.quantities.total), Ok(WEEK));
    assert_eq!(whole.module(3).err(), Some(Refusal::new(7, 0, 3)));
    assert_eq!(
        whole.module(usize::MAX).err(),
        Some(Refusal::new(7, 0, usize::MAX))
    );
}

#[test]
fn under_ten_bytes() {
    assert_eq!(account(&[]).err(), Some(Refusal::of_log(1)));
    assert_eq!(account(&[0xff; 9]).err(), Some(Refusal::of_log(1)));
}

#[test]
fn header_bounds() {
    assert!(judged(&bench(LONGEST_PERIOD)).is_ok());
    refused(&bench(LONGEST_PERIOD + 1), 2, 0, 0);
    refused(&bench(0), 2, 0, 0);

    let mut wide = bench(10);
    wide.modules = 64;
    (1..64).for_each(|module| wide.state(module, 0, 0));
    assert!(judged(&wide).is_ok());
    wide.modules = 65;
    refused(&wide, 3, 0, 0);
    wide.modules = 0;
    refused(&wide, 3, 0, 0);
}

#[test]
fn counts_and_length() {
    let mut long = bench(10_000);
    (1..6_000).for_each(|time| long.state(0, 0, time));
    assert!(judged(&long).is_ok());
    long.state(0, 0, 6_000);
    refused(&long, 4, 0, 0);

    let mut standards = bench(10_000);
    (1..512).for_each(|start| standards.standard(0, 0, start, 1));
    assert!(judged(&standards).is_ok());
    standards.standard(0, 0, 512, 1);
    refused(&standards, 4, 0, 0);

    let mut units = bench(10_000);
    (0..2_000).for_each(|time| units.unit(0, 0, time, 1, 1));
    assert!(judged(&units).is_ok());
    units.unit(0, 0, 2_000, 1, 1);
    refused(&units, 4, 0, 0);

    let length = case_w().bytes().len();
    assert_eq!(length, 121);
    // 118 bytes it would have with 9 for each standard.
    for wrong in [10, 118, length - 1, length + 1, length + 70_000] {
        refused(
            &Draft {
                length: Some(wrong),
                ..case_w()
            },
            5,
            0,
            0,
        );
    }
}

#[test]
fn the_longest_log() {
    let mut longest = bench(LONGEST_PERIOD);
    (1..6_000).for_each(|time| longest.state(0, 0, time));
    (1..512).for_each(|start| longest.standard(0, 0, start, 1));
    (0..2_000).for_each(|time| longest.unit(0, 0, time, 1, 1));
    assert_eq!(longest.bytes().len(), 63_130);
    assert!(judged(&longest).is_ok());
}

#[test]
fn no_records() {
    let empty = Draft {
        period: 1,
        modules: 1,
        ..Draft::default()
    };
    assert_eq!(empty.bytes().len(), 10);
    refused(&empty, 11, 0, 0);
}

#[test]
fn time_and_code_bounds() {
    for (time, passes) in [(9, true), (10, false)] {
        let mut draft = bench(10);
        draft.state(0, 23, time);
        if passes {
            assert!(judged(&draft).is_ok());
        } else {
            refused(&draft, 9, STATES, 1);
        }
    }
    let mut code = bench(10);
    code.state(0, 24, 5);
    refused(&code, 8, STATES, 1);
}

#[test]
fn sequence_of_states() {
    let mut twice = bench(10);
    twice.state(0, 7, 5);
    twice.state(0, 8, 5);
    refused(&twice, 10, STATES, 2);

    let mut two = bench(10);
    two.modules = 2;
    two.state(1, 0, 0);
    assert!(judged(&two).is_ok());
    two.state(1, 7, 5);
    two.state(0, 7, 4);
    refused(&two, 10, STATES, 3);
}

#[test]
fn states_of_one_time_by_module() {
    // Openings, the second module first.
    let mut openings = bench(10);
    openings.modules = 2;
    openings.states.clear();
    openings.state(1, 0, 0);
    openings.state(0, 0, 0);
    refused(&openings, 10, STATES, 1);

    // Changes of one time: modules 0 and 2 pass, module 1 behind 2 does not, though it has no other of that time.
    let mut changes = bench(10);
    changes.modules = 3;
    changes.state(1, 0, 0);
    changes.state(2, 0, 0);
    changes.state(0, 7, 5);
    changes.state(2, 7, 5);
    assert!(judged(&changes).is_ok());
    changes.state(1, 7, 5);
    refused(&changes, 10, STATES, 5);
    // A later time may be of a lower module.
    changes.states[5].time = 6;
    assert!(judged(&changes).is_ok());
    // The module's own record of that time stands further up.
    changes.states[5] = changes.states[3];
    refused(&changes, 10, STATES, 5);
    // An earlier time.
    changes.states[5].time = 4;
    refused(&changes, 10, STATES, 5);
    // 6 to 9 come ahead of 10.
    changes.states[5].code = 24;
    refused(&changes, 8, STATES, 5);
    changes.states[5].spare = 1;
    refused(&changes, 6, STATES, 5);
    // An earlier record's 10 comes ahead of those.
    changes.states.swap(3, 4);
    refused(&changes, 10, STATES, 4);
    // A missing opening comes behind it.
    openings.modules = 3;
    refused(&openings, 10, STATES, 1);
}

#[test]
fn standards_by_module_recipe_and_start() {
    let mut rising = bench(10);
    rising.modules = 3;
    rising.state(1, 0, 0);
    rising.state(2, 0, 0);
    rising.standards.clear();
    rising.standard(0, 3, 5, 1);
    rising.standard(0, 3, 6, 1);
    rising.standard(0, 4, 0, 1);
    // Recipe and start of the one before, of one further up, and below both: the module parts them.
    rising.standard(1, 4, 0, 1);
    rising.standard(2, 3, 5, 1);
    rising.standard(2, 4, 0, 1);
    assert!(judged(&rising).is_ok());

    for (module, recipe, start, number) in [
        // A lower module, with a higher recipe and a later start, with the same recipe, and with a lower one.
        (1, 5, 9, 19),
        (0, 1_023, 9, 19),
        (0, 4, 1, 19),
        (1, 3, 0, 19),
        // The same module and a lower recipe, though a later start.
        (2, 3, 9, 19),
        (2, 0, 9, 19),
        // A start that the lower recipe has not yet.
        (2, 3, 0, 19),
        // Equal to the neighbour, and to ones further up, of this module and of others.
        (2, 4, 0, 13),
        (2, 3, 5, 13),
        (1, 4, 0, 13),
        (0, 4, 0, 13),
        (0, 3, 5, 13),
        // Recipe and start of others, of a module that does not have them: 1 has neither of 3, 0 not 5 of 4.
        (1, 3, 5, 19),
        (1, 3, 6, 19),
        (0, 4, 5, 19),
    ] {
        let mut broken = rising.clone();
        broken.standard(module, recipe, start, 1);
        refused(&broken, number, STANDARDS, 6);
    }
    // The same module and recipe and an earlier start.
    let mut earlier = bench(10);
    earlier.standards[0].start = 2;
    earlier.standard(0, 0, 1, 1);
    refused(&earlier, 19, STANDARDS, 1);
    // The lower module behind the higher, recipe and start equal: no 13.
    let mut exchanged = bench(10);
    exchanged.modules = 2;
    exchanged.state(1, 0, 0);
    exchanged.standard(1, 0, 0, 1);
    assert!(judged(&exchanged).is_ok());
    exchanged.standards.swap(0, 1);
    refused(&exchanged, 19, STANDARDS, 1);

    // 19 of a standard comes ahead of a ground of the next one, also of its 13.
    let mut next = bench(10);
    next.standard(0, 5, 0, 1);
    next.standard(0, 4, 0, 1);
    next.standard(0, 4, 0, 0);
    refused(&next, 19, STANDARDS, 2);
    next.standards[3].theoretical = 1;
    refused(&next, 19, STANDARDS, 2);
    next.standards[3].module = 1;
    refused(&next, 19, STANDARDS, 2);
    next.standards[3].module = 0;
    // With that one in sequence, the next one's own is met.
    next.standards[2].recipe = 6;
    refused(&next, 19, STANDARDS, 3);
    // A unit's ground comes behind that of a standard.
    next.unit(0, 9, 0, 0, 1);
    refused(&next, 19, STANDARDS, 3);
}

/// 6, 7, 9, 12, 13 and 19 in this sequence: of two in one standard the first decides.
#[test]
fn sequence_of_a_standards_grounds() {
    let mut draft = bench(10);
    draft.standards[0].recipe = 5;
    draft.standard(0, 6, 0, 1);
    draft.standard(1, 4, 10, 0);
    draft.standards[2].spare = 2;
    refused(&draft, 6, STANDARDS, 2);
    draft.standards[2].spare = 1;
    refused(&draft, 6, STANDARDS, 2);
    draft.standards[2].spare = 0;
    refused(&draft, 7, STANDARDS, 2);
    draft.standards[2].start = 9;
    refused(&draft, 7, STANDARDS, 2);
    draft.standards[2].module = 0;
    draft.standards[2].start = 10;
    refused(&draft, 9, STANDARDS, 2);
    draft.standards[2].theoretical = 1;
    refused(&draft, 9, STANDARDS, 2);
    draft.standards[2].theoretical = 0;
    draft.standards[2].start = 0;
    refused(&draft, 12, STANDARDS, 2);
    // Equal to the first, and so out of sequence too.
    draft.standards[2].recipe = 5;
    refused(&draft, 12, STANDARDS, 2);
    draft.standards[2].theoretical = 1;
    refused(&draft, 13, STANDARDS, 2);
    draft.standards[2].start = 1;
    refused(&draft, 19, STANDARDS, 2);
    draft.standards[2].spare = 1;
    refused(&draft, 6, STANDARDS, 2);
    draft.standards[2].spare = 0;
    draft.standards[2].recipe = 6;
    assert!(judged(&draft).is_ok());
    // The standards come behind the states and ahead of the units.
    draft.standards[2].module = 1;
    draft.unit(1, 0, 0, 0, 1);
    refused(&draft, 7, STANDARDS, 2);
    draft.state(0, 0, 0);
    refused(&draft, 10, STATES, 1);
}

#[test]
fn spare_bits_and_module_of_a_standard() {
    for spare in 1..4 {
        let mut draft = bench(10);
        draft.standards[0].spare = spare;
        refused(&draft, 6, STANDARDS, 0);
    }
    for (modules, module) in [(1, 1), (1, 2), (1, 63), (3, 3), (3, 63), (63, 63)] {
        let mut draft = bench(10);
        draft.modules = modules;
        (1..modules).for_each(|module| draft.state(module, 0, 0));
        draft.standard(module, 0, 0, 1);
        refused(&draft, 7, STANDARDS, 1);
        draft.standards[1].module = modules - 1;
        draft.standards[1].start = 1;
        assert!(judged(&draft).is_ok(), "{modules}");
    }
}

/// Fields one behind the other, most significant bit first, worked out by hand.
#[test]
fn a_standard_by_hand() {
    let mut log = bench(10).bytes();
    let at = log.len() - 10;
    // Bits 0 to 5, 16 to 50 and 78 to 79.
    log[at..].copy_from_slice(&[0xfc, 0, 0xff, 0xff, 0xff, 0xff, 0xe0, 0, 0, 0x03]);
    let first = Standard {
        module: 63,
        recipe: 0,
        start: (1 << 35) - 1,
        theoretical: 0,
        spare: 3,
    };
    assert_eq!(read(&log).expect("the right length").standards, [first]);
    // Bits 6 to 15 and 51 to 77.
    log[at..].copy_from_slice(&[0x03, 0xff, 0, 0, 0, 0, 0x1f, 0xff, 0xff, 0xfc]);
    let second = Standard {
        module: 0,
        recipe: 1_023,
        start: 0,
        theoretical: (1 << 27) - 1,
        spare: 0,
    };
    assert_eq!(read(&log).expect("the right length").standards, [second]);
}

/// Modules 0 and 1 share a recipe: 0 takes 5 ms and from 50 on 4, 1 takes 3 from 10 on and 2 from 20 on. 2 has another.
fn two_chambers() -> Draft {
    let mut draft = bench(100);
    draft.modules = 3;
    draft.state(1, 0, 0);
    draft.state(2, 0, 0);
    draft.standards.clear();
    draft.standard(0, 7, 0, 5);
    draft.standard(0, 7, 50, 4);
    draft.standard(1, 7, 10, 3);
    draft.standard(1, 7, 20, 2);
    draft.standard(2, 8, 0, 1);
    draft
}

#[test]
fn each_module_by_its_own_standards() {
    let mut draft = two_chambers();
    for (time, actual) in [(10, 1), (19, 1), (20, 1), (49, 1), (50, 1)] {
        draft.unit(0, 7, time, actual, actual);
        draft.unit(1, 7, time, actual, actual);
    }
    draft.unit(2, 8, 99, 6, 0);
    let account = judged(&draft).expect("accepted");
    let actual = account.modules.iter().map(|sums| sums.quantities.actual);
    // 5 + 5 + 5 + 5 + 4, 3 + 3 + 2 + 2 + 2, 6.
    assert_eq!(actual.collect::<Vec<u64>>(), [24, 12, 6]);
    assert_eq!(account.tool.quantities.actual, 42);
    assert_eq!(account.tool.quantities.effective, 36);

    // The slower chamber's rate is its own: 12 units of 5 ms and 10 of 4 take all of its time, one more is too much.
    let mut full = two_chambers();
    full.unit(0, 7, 0, 12, 0);
    full.unit(0, 7, 50, 10, 0);
    full.unit(1, 7, 50, 50, 0);
    assert!(judged(&full).is_ok());
    full.units[0].actual = 13;
    refused(&full, 16, NO_LIST, 0);
    full.units[0].actual = 12;
    full.units[2].actual = 51;
    refused(&full, 16, NO_LIST, 1);
}

#[test]
fn no_standard_of_the_module() {
    for (module, recipe, time) in [
        // Lower modules alone have the recipe; a higher one alone.
        (2, 7, 99),
        (0, 8, 99),
        (1, 8, 99),
        // The module has other recipes alone.
        (0, 6, 99),
        (2, 9, 99),
        // It has the recipe, but that has not begun, while another's has.
        (1, 7, 9),
        (1, 7, 0),
    ] {
        let mut draft = two_chambers();
        draft.unit(module, recipe, time, 0, 0);
        refused(&draft, 15, UNITS, 0);
    }
    // A module without standards makes nothing, or is refused.
    let mut idle = two_chambers();
    idle.standards.truncate(4);
    idle.unit(1, 7, 10, 1, 1);
    assert!(judged(&idle).is_ok());
    idle.unit(2, 7, 10, 0, 0);
    refused(&idle, 15, UNITS, 1);
    // A lower and a higher module have the recipe, ahead of its own standards and behind them.
    let mut between = two_chambers();
    between.standards[2].recipe = 6;
    between.standards[3].recipe = 8;
    between.standards[4].recipe = 7;
    between.unit(1, 7, 99, 0, 0);
    refused(&between, 15, UNITS, 0);
    between.standards[3].recipe = 7;
    assert!(judged(&between).is_ok());
}

#[test]
fn units_by_time_module_and_recipe() {
    let mut rising = bench(10);
    rising.modules = 2;
    rising.state(1, 0, 0);
    rising.standard(0, 1, 0, 1);
    rising.standard(0, 2, 2, 1);
    rising.standard(1, 0, 0, 1);
    rising.standard(1, 1, 0, 1);
    rising.standard(1, 2, 2, 1);
    rising.unit(1, 0, 1, 1, 1);
    rising.unit(0, 2, 2, 1, 1);
    rising.unit(1, 0, 2, 1, 1);
    rising.unit(1, 1, 2, 1, 1);
    assert!(judged(&rising).is_ok());

    // (module, recipe, time, actual, effective) of one more record, and its refusal.
    for ((module, recipe, time, actual, effective), number) in [
        // An earlier time.
        ((1, 1, 1, 1, 1), 19),
        // The same time and a lower module, though a higher recipe.
        ((0, 2, 2, 1, 1), 19),
        // The same time and module and a lower recipe.
        ((1, 0, 2, 1, 1), 19),
        // Alike in all three, with the same counts and with others.
        ((1, 1, 2, 1, 1), 19),
        ((1, 1, 2, 5, 4), 19),
        // 14 comes ahead of 19, and 15 does.
        ((0, 0, 0, 1, 2), 14),
        ((1, 1, 2, 1, 2), 14),
        ((1, 2, 1, 1, 1), 15),
        ((0, 3, 2, 1, 1), 15),
    ] {
        let mut broken = rising.clone();
        broken.unit(module, recipe, time, actual, effective);
        refused(&broken, number, UNITS, 4);
        broken.units[4].spare = 1;
        refused(&broken, 6, UNITS, 4);
    }

    // 19 of record 1 comes ahead of a 6 of record 2 and of a 16.
    let mut two = bench(10);
    two.unit(0, 0, 5, 11, 11);
    two.unit(0, 0, 5, 3, 3);
    two.unit(0, 0, 6, 1, 1);
    refused(&two, 19, UNITS, 1);
    two.units[2].spare = 1;
    refused(&two, 19, UNITS, 1);
    // Without it the 6 is met, and without that the 16.
    two.units[1].time = 6;
    refused(&two, 6, UNITS, 2);
    two.units[2] = UnitRecord {
        time: 7,
        spare: 0,
        ..two.units[2]
    };
    refused(&two, 16, NO_LIST, 0);
}

#[test]
fn openings() {
    let mut late = bench(10);
    late.states[0].time = 1;
    refused(&late, 11, NO_LIST, 0);
    let mut missing = bench(10);
    missing.modules = 3;
    missing.state(2, 0, 0);
    refused(&missing, 11, NO_LIST, 1);
}

#[test]
fn a_unit_at_a_start() {
    let mut draft = bench(100);
    draft.standards.clear();
    draft.standard(0, 0, 20, 3);
    draft.standard(0, 0, 50, 2);
    let actual_at = |time| {
        let mut draft = draft.clone();
        draft.unit(0, 0, time, 1, 1);
        judged(&draft).map(|account| account.tool.quantities.actual)
    };
    assert_eq!(actual_at(50), Ok(2));
    assert_eq!(actual_at(49), Ok(3));
    assert_eq!(actual_at(20), Ok(3));
    assert_eq!(actual_at(19), Err(Refusal::new(15, UNITS, 0)));
}

#[test]
fn grounds_of_standards_and_units() {
    let mut late = bench(10);
    late.standard(0, 1, 10, 0);
    refused(&late, 9, STANDARDS, 1);
    let mut no_time = bench(10);
    no_time.standard(0, 0, 0, 0);
    refused(&no_time, 12, STANDARDS, 1);
    let mut twice = bench(10);
    twice.standard(0, 1, 0, 5);
    twice.standard(0, 0, 0, 5);
    refused(&twice, 13, STANDARDS, 2);

    let mut good = bench(10);
    good.unit(0, 0, 0, 3, 3);
    assert!(judged(&good).is_ok());
    good.unit(0, 0, 0, 3, 4);
    refused(&good, 14, UNITS, 1);
    good.units[1].time = 10;
    refused(&good, 9, UNITS, 1);
    good.units[1].module = 1;
    refused(&good, 7, UNITS, 1);
    good.units[1].spare = 16;
    refused(&good, 6, UNITS, 1);
    let mut none = bench(10);
    none.unit(0, 1, 0, 0, 0);
    refused(&none, 15, UNITS, 0);
}

#[test]
fn rate_of_one() {
    let mut draft = bench(10);
    draft.unit(0, 0, 0, 10, 5);
    assert_eq!(
        report(&draft),
        "module avail oper rate qual oee\n\
         0 1.0000 1.0000 1.0000 0.5000 0.5000\n\
         tool 1.0000 1.0000 1.0000 0.5000 0.5000\n"
    );
    draft.units[0].actual = 11;
    refused(&draft, 16, NO_LIST, 0);
}

#[test]
fn no_uptime() {
    let mut draft = bench(10);
    draft.states[0].code = 22;
    assert_eq!(
        report(&draft),
        "module avail oper rate qual oee\n0 0.0000 - - - 0.0000\ntool 0.0000 - - - 0.0000\n"
    );
    let doubles = figures(&judged(&draft).unwrap().tool.quantities);
    assert_eq!(doubles.efficiencies, [Some(0.0), None, None, None]);
    assert_eq!(doubles.oee.to_bits(), 0);
    assert_eq!(doubles.product.to_bits(), 0);
}

#[test]
fn printed_figures() {
    assert_eq!(ten_thousandths(1, 20_000), 1);
    assert_eq!(ten_thousandths(1, 20_001), 0);
    assert_eq!(ten_thousandths(99_996, 100_000), 10_000);
    assert_eq!(ten_thousandths(99_994, 100_000), 9_999);
    let tool = Quantities {
        total: 3 * WEEK,
        uptime: 489 * 3_600_000,
        production: 378 * 3_600_000,
        actual: 360 * 3_600_000,
        effective: 344 * 3_600_000 + 1_800_000,
    };
    assert_eq!(judged(&case_w()).unwrap().tool.quantities, tool);
}

#[test]
fn the_longest_report() {
    let mut wide = bench(10);
    wide.modules = 64;
    (1..64).for_each(|module| wide.state(module, 0, 0));
    (1..64).for_each(|module| wide.standard(module, 0, 0, 1));
    (0..64).for_each(|module| wide.unit(module, 0, 0, 1, 1));
    assert_eq!(judged(&wide).unwrap().report().len(), 2_494);
}

#[test]
fn sums_past_32_and_53_bits() {
    let mut draft = bench(LONGEST_PERIOD);
    draft.standards[0].theoretical = 134_217_727;
    (0..2_000).for_each(|time| draft.unit(0, 0, time, 65_535, 0));
    refused(&draft, 16, NO_LIST, 0);
}

/// In a list that does not rise, which a log is refused for, R-3's walk may answer another standard than the one in force.
#[test]
fn the_walk_on_a_list_that_does_not_rise() {
    let standard = |module, start, theoretical| Standard {
        module,
        recipe: 5,
        start,
        theoretical,
        spare: 0,
    };
    let unsorted = [
        standard(3, 100, 7),
        standard(3, 0, 8),
        standard(3, 0, 9),
        standard(2, 0, 6),
    ];
    assert_eq!(in_force(&unsorted, 3, 5, 200), Some(unsorted[0]));
    assert_eq!(last_in_force(&unsorted, 3, 5, 200), Some(unsorted[2]));
    assert_eq!(in_force(&unsorted, 3, 5, 50), Some(unsorted[1]));
    assert_eq!(last_in_force(&unsorted, 3, 5, 50), Some(unsorted[2]));
    assert_eq!(last_in_force(&unsorted, 3, 4, 200), None);
    assert_eq!(last_in_force(&unsorted, 1, 5, 200), None);
}

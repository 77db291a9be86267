//! Demand 3 on the oracle's doubles, in whole numbers: OEE is the nearest double, and the product
//! lies between 0 and 1, is 0 exactly when the quotient is 0, and is off by at most one part in 2^50.

use difftest::generator::make;
use difftest::oracle::{account, figures, Quantities};

const LOGS: u64 = 20_000;

/// A normal double in (0, 1] as a whole number of 53 bits over 2 to a power of at least 52.
fn parts(double: f64) -> (u128, u32) {
    let exponent = (double.to_bits() >> 52) as u32;
    assert!(
        (1..=1_023).contains(&exponent),
        "{double} is no normal double in (0, 1]"
    );
    let mantissa = double.to_bits() & ((1 << 52) - 1) | 1 << 52;
    (u128::from(mantissa), 1_075 - exponent)
}

/// The double and the quotient as numerators over one denominator, denominator times 2^power.
fn sides(double: f64, numerator: u64, denominator: u64) -> (u128, u128) {
    let (mantissa, power) = parts(double);
    let shifted = u128::from(numerator)
        .checked_mul(1 << power)
        .expect("a quotient near the double");
    (mantissa * u128::from(denominator), shifted)
}

fn is_nearest(double: f64, numerator: u64, denominator: u64) -> bool {
    if numerator == 0 {
        return double.to_bits() == 0;
    }
    let (ours, exact) = sides(double, numerator, denominator);
    let step = u128::from(denominator);
    // Below a power of two the doubles lie twice as close.
    let closer_below = parts(double).0 == 1 << 52;
    let times = if exact < ours && closer_below { 4 } else { 2 };
    times * ours.abs_diff(exact) <= step
}

fn is_within_a_part_in_2_to_50(double: f64, numerator: u64, denominator: u64) -> bool {
    if numerator == 0 {
        return double.to_bits() == 0;
    }
    let (ours, exact) = sides(double, numerator, denominator);
    // `exact` is a multiple of 2^52.
    ours.abs_diff(exact) <= exact >> 50
}

fn check(quantities: &Quantities) {
    let doubles = figures(quantities);
    let (effective, total) = (quantities.effective, quantities.total);
    assert!(
        is_nearest(doubles.oee, effective, total),
        "OEE of {quantities:?}"
    );
    assert!(
        is_within_a_part_in_2_to_50(doubles.product, effective, total),
        "product of {quantities:?}"
    );
}

#[test]
fn demand_three() {
    let mut checked = 0;
    for index in 0..LOGS {
        if let Ok(account) = account(&make(6, index).bytes) {
            account
                .modules
                .iter()
                .for_each(|module| check(&module.quantities));
            check(&account.tool.quantities);
            checked += 1;
        }
    }
    assert!(checked > LOGS / 3);
}

#[test]
fn the_check_itself_can_fail() {
    assert!(is_nearest(1.0 / 3.0, 1, 3));
    assert!(!is_nearest(
        f64::from_bits((1.0f64 / 3.0).to_bits() + 1),
        1,
        3
    ));
    assert!(!is_nearest(
        f64::from_bits((1.0f64 / 3.0).to_bits() - 1),
        1,
        3
    ));
    assert!(is_within_a_part_in_2_to_50(
        f64::from_bits((1.0f64 / 3.0).to_bits() + 2),
        1,
        3
    ));
    assert!(!is_within_a_part_in_2_to_50(
        f64::from_bits((1.0f64 / 3.0).to_bits() + 9),
        1,
        3
    ));
}

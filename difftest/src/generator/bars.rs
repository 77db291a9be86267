//! Valid logs whose bars have chosen remainders: equal ones, some that are the least bit larger, none, or any.

use super::faults::edge_or_between;
use super::valid::units_of_steps;
use crate::draft::Draft;
use crate::losses::WHOLE;
use crate::prng::Prng;
use crate::records::*;

/// Periods that are multiples of these have remainders that often repeat.
const MULTIPLES: [u64; 7] = [6, 7, 9, 11, 13, 10_000, 10_007];

/// Of a period that is a multiple of this, the fifth power of 5, five equal remainders may be above 0.
const FOR_FIVE: u64 = 3_125;

/// What each part of a bar is of the total time, in ms.
type Shares = [u64; 5];

pub fn draft(rng: &mut Prng) -> Draft {
    let multiple = match rng.below(6) {
        0 => 1,
        1..=2 => FOR_FIVE,
        _ => rng.pick(&MULTIPLES),
    };
    let period = multiple * rng.spread(LONGEST_PERIOD / multiple);
    let modules = match rng.below(8) {
        0..=3 => 1,
        4..=6 => rng.between(2, 5),
        _ => rng.between(6, MOST_MODULES),
    };
    let bars = if rng.once_in(2) {
        (0..modules).map(|_| shares(rng, period)).collect()
    } else {
        let of_tool = shares(rng, modules * period);
        poured(rng, of_tool, period)
    };
    let mut draft = Draft {
        period,
        modules,
        ..Draft::default()
    };
    for (module, shares) in (0..).zip(bars) {
        run(rng, &mut draft, module, shares);
    }
    draft.sort();
    draft
}

fn common_divisor(a: u64, b: u64) -> u64 {
    if b == 0 {
        a
    } else {
        common_divisor(b, a % b)
    }
}

/// What times `number` leaves 1 when divided by `modulus`, to which it is prime.
fn inverse(number: u64, modulus: u64) -> u64 {
    let (mut rest, mut next) = (i128::from(modulus), i128::from(number % modulus));
    let (mut factor, mut next_factor) = (0, 1);
    while next != 0 {
        let quotient = rest / next;
        (rest, next) = (next, rest - quotient * next);
        (factor, next_factor) = (next_factor, factor - quotient * next_factor);
    }
    factor.rem_euclid(i128::from(modulus)) as u64
}

/// Five that make the total. Their remainders are multiples of `least`, so many as `ranks` says; shares that differ by a
/// multiple of `step` have the same.
fn shares(rng: &mut Prng, total: u64) -> Shares {
    let least = common_divisor(WHOLE, total);
    let step = total / least;
    let factor = u128::from(inverse(WHOLE / least, step));
    loop {
        let ranks = ranks(rng, step);
        let mut shares = ranks.map(|rank| (u128::from(rank) * factor % u128::from(step)) as u64);
        let sum: u64 = shares.iter().sum();
        if sum > total {
            continue;
        }
        let mut steps = (total - sum) / step;
        let mut places = [0, 1, 2, 3, 4];
        rng.shuffle(&mut places);
        for place in &places[1..] {
            let own = edge_or_between(rng, 0, steps);
            shares[*place] += own * step;
            steps -= own;
        }
        shares[places[0]] += steps * step;
        return shares;
    }
}

/// A tie that decides is found in most of so many tries.
const TRIES: usize = 8;

/// Five below `step` that make a multiple of it: all 0, or several equal ones, some of which get a missing one and others none.
fn ranks(rng: &mut Prng, step: u64) -> [u64; 5] {
    let mut ranks = [0; 5];
    if rng.once_in(8) {
        return ranks;
    }
    for _ in 0..TRIES {
        let tied = if step.is_multiple_of(5) && rng.once_in(2) {
            5
        } else {
            rng.pick(&[2, 3, 3, 4, 4, 4])
        };
        ranks = equal_ranks(rng, step, tied);
        let above = ranks.iter().filter(|rank| **rank > ranks[0]).count();
        let missing = ranks.iter().sum::<u64>() / step;
        if (1..tied as u64).contains(&missing.saturating_sub(above as u64)) {
            break;
        }
    }
    rng.shuffle(&mut ranks);
    ranks
}

/// So many equal ones ahead, then some that are one more or less, or any; the last of four and fewer completes the multiple.
fn equal_ranks(rng: &mut Prng, step: u64, tied: usize) -> [u64; 5] {
    if tied == 5 {
        return [rng.between(1, 4) * (step / 5); 5];
    }
    let equal = edge_or_between(rng, 0, step - 1);
    let mut ranks = [equal; 5];
    for rank in &mut ranks[tied..] {
        *rank = match rng.below(3) {
            0 => (equal + rng.pick(&[1, step - 1])) % step,
            _ => rng.below(step),
        };
    }
    let sum: u64 = ranks[..4].iter().sum();
    ranks[4] = (4 * step - sum) % step;
    ranks
}

/// The tool's shares, in any sequence, one module filled behind the other.
fn poured(rng: &mut Prng, of_tool: Shares, period: u64) -> Vec<Shares> {
    let mut left = of_tool;
    let mut places = [0, 1, 2, 3, 4];
    rng.shuffle(&mut places);
    let modules = of_tool.iter().sum::<u64>() / period;
    let bars = (0..modules).map(|_| {
        let mut shares = [0; 5];
        let mut room = period;
        for place in places {
            let own = room.min(left[place]);
            shares[place] = own;
            left[place] -= own;
            room -= own;
        }
        shares
    });
    bars.collect()
}

/// State records, standards and units of a module that has these shares.
fn run(rng: &mut Prng, draft: &mut Draft, module: u64, shares: Shares) {
    let [down, idle, rate, mut scrapped, mut good] = shares;
    let mut stretches = [
        (rng.between(14, 23), down),
        (rng.between(6, 13), idle),
        (rng.below(6), rate + scrapped + good),
    ];
    rng.shuffle(&mut stretches);
    let mut time = 0;
    for (code, length) in stretches {
        if length > 0 {
            draft.state(module, code, time);
        }
        time += length;
    }
    units_of_steps(rng, draft, module, |_, theoretical| {
        let (made_bad, made_good) = (scrapped / theoretical, good / theoretical);
        scrapped -= made_bad * theoretical;
        good -= made_good * theoretical;
        (made_bad + made_good, made_good)
    });
}

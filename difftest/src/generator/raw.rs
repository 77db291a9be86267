//! Logs damaged as bytes, without regard to their records.

use crate::draft::Draft;
use crate::prng::Prng;
use crate::records::*;

pub fn damaged(rng: &mut Prng, draft: &Draft) -> Vec<u8> {
    let mut bytes = draft.bytes();
    match rng.below(10) {
        0 => bytes.truncate(rng.index(bytes.len() + 1)),
        1 => {
            for _ in 0..rng.between(1, 40) {
                bytes.push(rng.draw() as u8);
            }
        }
        2..=4 => flip_bits(rng, &mut bytes, 0),
        5..=6 => flip_bits(rng, &mut bytes, HEADER_BYTES as usize),
        7 => {
            let length = rng.index(200);
            bytes = random(rng, length);
        }
        8 => overwrite(rng, &mut bytes),
        _ => bytes = loose(rng).bytes(),
    }
    bytes
}

pub fn random(rng: &mut Prng, length: usize) -> Vec<u8> {
    (0..length).map(|_| rng.draw() as u8).collect()
}

/// Flips one to four bits from the byte `from` on.
pub fn flip_bits(rng: &mut Prng, bytes: &mut [u8], from: usize) {
    if bytes.len() <= from {
        return;
    }
    for _ in 0..rng.between(1, 4) {
        let byte = from + rng.index(bytes.len() - from);
        bytes[byte] ^= 1 << rng.below(8);
    }
}

/// Random bytes in the place of a few, now and then of all records.
fn overwrite(rng: &mut Prng, bytes: &mut [u8]) {
    let mut start = rng.index(bytes.len());
    let mut end = (start + 1 + rng.index(12)).min(bytes.len());
    if rng.once_in(6) {
        (start, end) = (HEADER_BYTES as usize, bytes.len());
    }
    for byte in &mut bytes[start..end] {
        *byte = rng.draw() as u8;
    }
}

/// A log of the right length whose records are drawn without regard to each other.
fn loose(rng: &mut Prng) -> Draft {
    let mut draft = Draft {
        period: rng.between(1, 20),
        modules: rng.between(1, 3),
        ..Draft::default()
    };
    for module in 0..draft.modules {
        draft.state(module, 0, 0);
    }
    let mut time = 0;
    for _ in 0..rng.below(4) {
        time += rng.below(4);
        let stray = u64::from(rng.once_in(8));
        let module = rng.below(draft.modules + stray);
        let code = rng.below(25);
        draft.state(module, code, time);
    }
    for _ in 0..rng.below(7) {
        let stray = u64::from(rng.once_in(16));
        let (module, recipe) = (rng.below(draft.modules + stray), rng.below(2));
        let start = rng.below(draft.period + 1);
        let theoretical = rng.below(8).min(2);
        draft.standard(module, recipe, start, theoretical);
    }
    for _ in 0..rng.below(5) {
        let (module, recipe) = (rng.below(draft.modules), rng.below(2));
        let time = rng.below(draft.period + 1);
        let actual = rng.below(4);
        let effective = rng.below(actual + 1) + u64::from(rng.once_in(8));
        draft.unit(module, recipe, time, actual, effective);
    }
    // Most of them in sequence, or little behind the states would be met.
    if !rng.once_in(4) {
        draft.sort();
    }
    draft
}

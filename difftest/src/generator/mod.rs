//! Makes logs from a seed: valid ones of every shape and damaged ones of every kind; runs of calls that write them, lookups in
//! them, benchmarks for them, pairs of logs to join, and logs to pack.

mod bars;
pub mod benchmarks;
mod faults;
pub mod lookups;
pub mod pairs;
mod raw;
pub mod repeats;
mod revisions;
pub mod runs;
mod sequences;
mod valid;

use crate::draft::Draft;
use crate::prng::Prng;
use crate::records::Refusal;

/// What the generator knows of a log, or of benchmarks for it, without reading it.
#[derive(Clone, Copy, Debug, PartialEq, Eq)]
pub enum Expected {
    Accepted,
    Refused(Refusal),
    Unknown,
}

impl Expected {
    pub fn agrees<T>(&self, verdict: &Result<T, Refusal>) -> bool {
        match (self, verdict) {
            (Expected::Unknown, _) | (Expected::Accepted, Ok(_)) => true,
            (Expected::Refused(due), Err(refusal)) => due == refusal,
            _ => false,
        }
    }
}

#[derive(Clone, Debug, PartialEq, Eq)]
pub struct Made {
    pub bytes: Vec<u8>,
    pub expected: Expected,
}

/// Once in so many logs the remainders of the losses are chosen; once in so many others standards have revisions, with units for each.
const BARS_ONCE_IN: u64 = 6;
const REVISIONS_ONCE_IN: u64 = 6;

/// The log of a seed and an index.
pub fn make(seed: u64, index: u64) -> Made {
    any(&mut Prng::new(seed, index))
}

/// The records of a valid log.
fn draft(rng: &mut Prng) -> Draft {
    if rng.once_in(BARS_ONCE_IN) {
        bars::draft(rng)
    } else if rng.once_in(REVISIONS_ONCE_IN) {
        revisions::draft(rng)
    } else {
        valid::draft(rng)
    }
}

fn any(rng: &mut Prng) -> Made {
    let draft = draft(rng);
    match rng.below(100) {
        0..=44 => Made {
            bytes: draft.bytes(),
            expected: Expected::Accepted,
        },
        45..=79 => {
            let (draft, refusal) = faults::one(rng, &draft);
            Made {
                bytes: draft.bytes(),
                expected: Expected::Refused(refusal),
            }
        }
        80..=86 => {
            let draft = faults::several(rng, &draft);
            Made {
                bytes: draft.bytes(),
                expected: Expected::Unknown,
            }
        }
        87..=90 => {
            let draft = sequences::any(rng, &draft);
            Made {
                bytes: draft.bytes(),
                expected: Expected::Unknown,
            }
        }
        _ => Made {
            bytes: raw::damaged(rng, &draft),
            expected: Expected::Unknown,
        },
    }
}

//! The records of a valid log, listed as another controller might list them.

use crate::draft::Draft;
use crate::prng::Prng;

/// A copy of the draft with one of its lists or more in any sequence.
pub fn any(rng: &mut Prng, draft: &Draft) -> Draft {
    let mut listed = draft.clone();
    let lists = rng.between(1, 7);
    if lists & 1 != 0 {
        relist(rng, &mut listed.states, |it| (it.module, it.time));
    }
    if lists & 2 != 0 {
        // For every module as it was before R-5, or by start.
        let by_recipe = rng.once_in(2);
        relist(rng, &mut listed.standards, |it| match by_recipe {
            true => (it.recipe, it.start),
            false => (it.start, it.recipe),
        });
    }
    if lists & 4 != 0 {
        relist(rng, &mut listed.units, |it| (it.module, it.time));
    }
    listed
}

/// Shuffled, falling, or rising by another key.
fn relist<T>(rng: &mut Prng, list: &mut [T], other_key: impl Fn(&T) -> (u64, u64)) {
    match rng.below(3) {
        0 => rng.shuffle(list),
        1 => list.reverse(),
        _ => list.sort_by_key(other_key),
    }
}

//! (b) The best by hand. The standards of a module and recipe rise by start and units by time, so each module's recipe keeps the
//! place of the standard found for it last, in a table by a hash of the two; where the next one has begun, that is tried, then
//! those behind it are searched by halves. Nothing is allocated.

use crate::parts::*;
use difftest::records::*;

/// Twice as many slots as there are standards.
const SLOTS: usize = 1 << SLOT_BITS;
const SLOT_BITS: u32 = 10;

/// Writes the report to the front of the buffer; its length, or the refusal.
pub fn report(log: &[u8], buffer: &mut [u8]) -> Result<usize, Refusal> {
    let (mut times, mut sums) = (Times::none(), Theoretical::none());
    let lists = add_up(log, &mut times, &mut sums)?;
    print(&lists, &times, &sums, buffer)
}

/// The lists of a log that is accepted, or the refusal.
pub fn accepted(log: &[u8]) -> Result<Lists<'_>, Refusal> {
    let (mut times, mut sums) = (Times::none(), Theoretical::none());
    let lists = add_up(log, &mut times, &mut sums)?;
    not_too_fast(&lists, &times, &sums)?;
    Ok(lists)
}

/// Every ground but 16 to 18, and the sums. Inlined it takes longer.
#[inline(never)]
fn add_up<'a>(
    log: &'a [u8],
    times: &mut Times,
    sums: &mut Theoretical,
) -> Result<Lists<'a>, Refusal> {
    let lists = split(log)?;
    add_states(&lists, times)?;
    let mut index = Index { places: [0; SLOTS] };
    let mut standards = Standards::none();
    standards.read(&lists, |pair, place| index.begin(pair, place))?;
    add_units(&lists, &standards, &mut index, sums)?;
    Ok(lists)
}

/// For each module and recipe a place of their standards, first that of the first, in the slot of their hash or, where others
/// have it, in the next free one. 0, whose key is above every other, where a slot is free.
struct Index {
    places: [u16; SLOTS],
}

impl Index {
    #[inline(always)]
    fn slot(pair: u64) -> usize {
        ((pair as u32).wrapping_mul(0x9e37_79b9) >> (32 - SLOT_BITS)) as usize
    }

    #[inline(always)]
    fn begin(&mut self, pair: u64, place: usize) {
        let mut slot = Index::slot(pair);
        while self.places[slot] != 0 {
            slot = (slot + 1) % SLOTS;
        }
        self.places[slot] = place as u16;
    }

    /// A place of no standard or of one that was read.
    #[inline(always)]
    fn place(&self, slot: usize) -> usize {
        usize::from(self.places[slot]).min(STANDARDS_MOST)
    }

    /// The slot of module and recipe, none where they have no standard in force.
    #[cold]
    fn find(&self, standards: &Standards, sought: u64) -> Option<usize> {
        let pair = sought >> PAIR_SHIFT;
        let mut slot = Index::slot(pair);
        while self.places[slot] != 0 {
            let key = standards.keys[self.place(slot)];
            if key >> PAIR_SHIFT == pair {
                return (key <= sought).then_some(slot);
            }
            slot = (slot + 1) % SLOTS;
        }
        None
    }
}

/// The last place whose key is not above the sought one. The next place has such a key.
#[inline(always)]
fn advance(standards: &Standards, place: usize, sought: u64) -> usize {
    let next = place + 1;
    if standards.keys[next + 1] > sought {
        return next;
    }
    let behind = &standards.keys[next + 1..=standards.count];
    next + behind.partition_point(|&key| key <= sought)
}

fn add_units(
    lists: &Lists,
    standards: &Standards,
    index: &mut Index,
    sums: &mut Theoretical,
) -> Result<(), Refusal> {
    let mut least = 0;
    for (place, record) in records::<11>(lists.units).iter().enumerate() {
        let unit = Unit::read(record);
        if unit.is_bad(lists) | (unit.key < least) {
            return Err(refusal(record, lists, standards, place));
        }
        least = unit.key + 1;
        let mut slot = Index::slot(unit.sought >> PAIR_SHIFT);
        let mut at = index.place(slot);
        // The keys of its module and recipe up to its time lie at most that time below the sought one, and no others do.
        if unit.sought.wrapping_sub(standards.keys[at]) > unit.time {
            let Some(found) = index.find(standards, unit.sought) else {
                return Err(Refusal::new(15, UNITS, place));
            };
            slot = found;
            at = index.place(slot);
        }
        if standards.keys[at + 1] <= unit.sought {
            at = advance(standards, at, unit.sought).min(STANDARDS_MOST);
            index.places[slot] = at as u16;
        }
        let theoretical = u64::from(standards.theoretical[at]);
        sums.actual[unit.module] += unit.actual * theoretical;
        sums.effective[unit.module] += unit.effective * theoretical;
    }
    Ok(())
}

/// The first ground that a unit record known to be bad or out of sequence meets.
#[cold]
fn refusal(record: &[u8; 11], lists: &Lists, standards: &Standards, place: usize) -> Refusal {
    let unit = Unit::read(record);
    if unit.is_bad(lists) {
        return unit.refusal(lists, place);
    }
    let keys = &standards.keys[1..=standards.count];
    let not_above = &keys[..keys.partition_point(|&key| key <= unit.sought)];
    let own = |key: &u64| key >> PAIR_SHIFT == unit.sought >> PAIR_SHIFT;
    let in_force = not_above.last().is_some_and(own);
    Refusal::new(if in_force { 19 } else { 15 }, UNITS, place)
}

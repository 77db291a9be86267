//! (a) A plain program that walks the standards for each unit record.

use crate::parts::*;
use difftest::records::*;

/// Writes the report to the front of the buffer; its length, or the refusal.
pub fn report(log: &[u8], buffer: &mut [u8]) -> Result<usize, Refusal> {
    let lists = split(log)?;
    let mut times = Times::none();
    add_states(&lists, &mut times)?;
    let mut standards = Standards::none();
    standards.read(&lists, |_, _| ())?;
    let mut sums = Theoretical::none();
    add_units(&lists, &standards, &mut sums)?;
    print(&lists, &times, &sums, buffer)
}

/// The theoretical time in force: of the standards of module and recipe the last that is not above the time.
fn in_force(standards: &Standards, sought: u64) -> Option<u64> {
    let mut found = None;
    for place in 1..=standards.count {
        let key = standards.keys[place];
        if key > sought {
            break;
        }
        if key >> PAIR_SHIFT == sought >> PAIR_SHIFT {
            found = Some(u64::from(standards.theoretical[place]));
        }
    }
    found
}

fn add_units(lists: &Lists, standards: &Standards, sums: &mut Theoretical) -> Result<(), Refusal> {
    let mut least = 0;
    for (place, record) in records::<11>(lists.units).iter().enumerate() {
        let unit = Unit::read(record);
        if unit.is_bad(lists) {
            return Err(unit.refusal(lists, place));
        }
        let Some(theoretical) = in_force(standards, unit.sought) else {
            return Err(Refusal::new(15, UNITS, place));
        };
        if unit.key < least {
            return Err(Refusal::new(19, UNITS, place));
        }
        least = unit.key + 1;
        sums.actual[unit.module] += unit.actual * theoretical;
        sums.effective[unit.module] += unit.effective * theoretical;
    }
    Ok(())
}

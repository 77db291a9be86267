//! Joining two logs by hand. Both are tested as (b) tests a log, then what they are together; then the joined log is written
//! list by list: the first's records as they are, the second's with their times moved up, the standards merged.

use crate::parts::*;
use crate::sorted::accepted;
use difftest::records::*;

/// Where the time of a state record's 48 bits is, and that of the first eight bytes of a standard or a unit record.
const STATE_TIME_SHIFT: u32 = 2;
const TIME_SHIFT: u32 = 13;

/// Writes the joined log to the front of the buffer; its length, or the refusal.
pub fn join(first: &[u8], second: &[u8], buffer: &mut [u8]) -> Result<usize, Refusal> {
    let one = accepted(first)?;
    let two = accepted(second).map_err(of_second)?;
    if one.modules != two.modules {
        return Err(Refusal::of_log(23));
    }
    let period = one.period + two.period;
    if period > LONGEST_PERIOD {
        return Err(Refusal::of_log(2));
    }
    let states = one.states.len() + two.states.len();
    let standards = one.standards.len() + two.standards.len();
    let units = one.units.len() + two.units.len();
    let counts = [
        states as u64 / STATE_BYTES,
        standards as u64 / STANDARD_BYTES,
        units as u64 / UNIT_BYTES,
    ];
    if counts[0] > MOST_STATES || counts[1] > MOST_STANDARDS || counts[2] > MOST_UNITS {
        return Err(Refusal::of_log(4));
    }
    let length = HEADER_BYTES as usize + states + standards + units;
    let Some(log) = buffer.get_mut(..length) else {
        return Err(Refusal::of_log(18));
    };
    let (header, log) = log.split_at_mut(HEADER_BYTES as usize);
    let (state_list, log) = log.split_at_mut(states);
    let (standard_list, unit_list) = log.split_at_mut(standards);
    put_header(header, period, one.modules as u64, counts);
    put_states(state_list, &one, &two);
    merge(standard_list, &one, &two);
    put_units(unit_list, &one, &two);
    Ok(length)
}

#[cold]
fn of_second(refusal: Refusal) -> Refusal {
    Refusal {
        list: refusal.list + 10,
        ..refusal
    }
}

fn put_states(list: &mut [u8], one: &Lists, two: &Lists) {
    let (front, back) = list.split_at_mut(one.states.len());
    front.copy_from_slice(one.states);
    let moved = one.period << STATE_TIME_SHIFT;
    let records = records::<6>(two.states);
    for (slot, record) in back.as_chunks_mut::<6>().0.iter_mut().zip(records) {
        let [_, _, bytes @ ..] = (state_word(record) + moved).to_be_bytes();
        *slot = bytes;
    }
}

fn put_units(list: &mut [u8], one: &Lists, two: &Lists) {
    let (front, back) = list.split_at_mut(one.units.len());
    front.copy_from_slice(one.units);
    let moved = one.period << TIME_SHIFT;
    let records = records::<11>(two.units);
    for (slot, record) in back.as_chunks_mut::<11>().0.iter_mut().zip(records) {
        *slot = *record;
        slot[..8].copy_from_slice(&(eight(record, 0) + moved).to_be_bytes());
    }
}

/// The standards of both by module, recipe and start, which their first eight bytes begin with. No two agree in all three.
fn merge(list: &mut [u8], one: &Lists, two: &Lists) {
    let (ours, theirs) = (records::<10>(one.standards), records::<10>(two.standards));
    let moved = one.period << TIME_SHIFT;
    let (mut own, mut other) = (0, 0);
    for slot in list.as_chunks_mut::<10>().0 {
        // Behind the last of a list comes what is above every standard.
        let word = ours.get(own).map_or(u64::MAX, |record| eight(record, 0));
        let their_word = theirs
            .get(other)
            .map_or(u64::MAX, |record| eight(record, 0) + moved);
        if word < their_word {
            *slot = ours[own];
            own += 1;
        } else {
            *slot = theirs[other];
            slot[..8].copy_from_slice(&their_word.to_be_bytes());
            other += 1;
        }
    }
}

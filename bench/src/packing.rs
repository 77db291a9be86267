//! Packing a log by hand, in its own buffer. It is tested as (b) tests a log; then one pass over each list moves the records that
//! say something new to its front, and the lists close up.

use crate::parts::*;
use crate::sorted::accepted;
use difftest::records::*;

/// Above every code, and above every module and recipe.
const NO_CODE: u8 = 0xff;
const NO_PAIR: u64 = u64::MAX;

/// Where the theoretical time is in the last eight bytes of a standard: above its two spare bits.
const THEORETICAL_MASK: u64 = 0x7ff_ffff << 2;

/// Packs the log that fills the buffer, with zeros behind it; its length, or the refusal.
pub fn pack(buffer: &mut [u8]) -> Result<usize, Refusal> {
    let lists = accepted(buffer)?;
    let (period, modules) = (lists.period, lists.modules as u64);
    let states_end = HEADER_BYTES as usize + lists.states.len();
    let standards_end = states_end + lists.standards.len();
    let units = (lists.units.len() as u64) / UNIT_BYTES;

    let (front, back) = buffer.split_at_mut(states_end);
    let states = keep_states(front[HEADER_BYTES as usize..].as_chunks_mut().0);
    let standards = keep_standards(back[..standards_end - states_end].as_chunks_mut().0);
    let counts = [states as u64, standards as u64, units];
    put_header(&mut front[..HEADER_BYTES as usize], period, modules, counts);

    let standards_at = (HEADER_BYTES + STATE_BYTES * counts[0]) as usize;
    let units_at = standards_at + (STANDARD_BYTES * counts[1]) as usize;
    let length = units_at + buffer.len() - standards_end;
    let kept = states_end..states_end + (units_at - standards_at);
    buffer.copy_within(kept, standards_at);
    buffer.copy_within(standards_end.., units_at);
    buffer[length..].fill(0);
    Ok(length)
}

/// Moves the state records whose code is not their module's current one to the front; how many there are.
#[inline(never)]
fn keep_states(records: &mut [[u8; 6]]) -> usize {
    let mut codes = [NO_CODE; MODULES];
    let mut kept = 0;
    for place in 0..records.len() {
        let [first, second, ..] = records[place];
        let code = (first & 3) << 3 | second >> 5;
        let current = &mut codes[usize::from(first >> 2)];
        if *current != code {
            *current = code;
            records[kept] = records[place];
            kept += 1;
        }
    }
    kept
}

/// Moves the standards whose time is not that of the one before, of the same module and recipe, to the front; how many there are.
#[inline(never)]
fn keep_standards(records: &mut [[u8; 10]]) -> usize {
    let mut before = (NO_PAIR, 0);
    let mut kept = 0;
    for place in 0..records.len() {
        let record = records[place];
        let stated = (
            eight(&record, 0) >> 48,
            eight(&record, 2) & THEORETICAL_MASK,
        );
        if stated != before {
            before = stated;
            records[kept] = record;
            kept += 1;
        }
    }
    kept
}

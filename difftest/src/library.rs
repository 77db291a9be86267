//! The linked library, called safely. Arrays go in filled, so that what a refusal leaves shows.

use crate::answer::{Answer, UNTOUCHED, UNTOUCHED_FLAG};
use crate::credited::Lookup;
use crate::records::Record;
use tool_log::c;

/// Whose sums are asked for.
#[derive(Clone, Copy, Debug, PartialEq, Eq)]
pub enum Whose {
    Module(usize),
    Tool,
}

/// Figures and whether each efficiency has a base.
pub type FiguresAndBases = ([f64; 6], [u8; 4]);

pub fn examine(log: &[u8], room: usize) -> Answer<()> {
    let mut refusal = [UNTOUCHED; 3];
    let answered = unsafe { c::tl_examine(log.as_ptr(), log.len(), room, &mut refusal) };
    Answer {
        answered,
        values: (),
        refusal,
    }
}

pub fn report(log: &[u8], buffer: &mut [u8]) -> usize {
    unsafe { c::tl_report(log.as_ptr(), log.len(), buffer.as_mut_ptr(), buffer.len()) }
}

/// A call that answers so many numbers of a module of a log.
type OfModule<const N: usize> =
    unsafe extern "C" fn(*const u8, usize, usize, *mut [u64; N], *mut [u64; 3]) -> u32;

/// The same of the tool.
type OfTool<const N: usize> =
    unsafe extern "C" fn(*const u8, usize, *mut [u64; N], *mut [u64; 3]) -> u32;

fn numbers<const N: usize>(
    log: &[u8],
    whose: Whose,
    of_module: OfModule<N>,
    of_tool: OfTool<N>,
) -> Answer<[u64; N]> {
    let (mut values, mut refusal) = ([UNTOUCHED; N], [UNTOUCHED; 3]);
    let (start, length) = (log.as_ptr(), log.len());
    let answered = match whose {
        Whose::Module(module) => unsafe {
            of_module(start, length, module, &mut values, &mut refusal)
        },
        Whose::Tool => unsafe { of_tool(start, length, &mut values, &mut refusal) },
    };
    Answer {
        answered,
        values,
        refusal,
    }
}

pub fn state_times(log: &[u8], whose: Whose) -> Answer<[u64; 6]> {
    numbers(log, whose, c::tl_module_state_times, c::tl_tool_state_times)
}

pub fn quantities(log: &[u8], whose: Whose) -> Answer<[u64; 5]> {
    numbers(log, whose, c::tl_module_quantities, c::tl_tool_quantities)
}

pub fn losses(log: &[u8], whose: Whose) -> Answer<[u64; 5]> {
    numbers(log, whose, c::tl_module_losses, c::tl_tool_losses)
}

pub fn figures(log: &[u8], whose: Whose) -> Answer<FiguresAndBases> {
    let mut figures = [f64::from_bits(UNTOUCHED); 6];
    let (mut based, mut refusal) = ([UNTOUCHED_FLAG; 4], [UNTOUCHED; 3]);
    let (start, length) = (log.as_ptr(), log.len());
    let answered = match whose {
        Whose::Module(module) => unsafe {
            c::tl_module_figures(
                start,
                length,
                module,
                &mut figures,
                &mut based,
                &mut refusal,
            )
        },
        Whose::Tool => unsafe {
            c::tl_tool_figures(start, length, &mut figures, &mut based, &mut refusal)
        },
    };
    Answer {
        answered,
        values: (figures, based),
        refusal,
    }
}

/// The tool's four supplemental figures with these benchmarks.
pub fn supplemental(log: &[u8], benchmarks: &[u8]) -> Answer<[u64; 4]> {
    let (mut values, mut refusal) = ([UNTOUCHED; 4], [UNTOUCHED; 3]);
    let answered = unsafe {
        c::tl_supplemental(
            log.as_ptr(),
            log.len(),
            benchmarks.as_ptr(),
            benchmarks.len(),
            &mut values,
            &mut refusal,
        )
    };
    Answer {
        answered,
        values,
        refusal,
    }
}

pub fn credited_units(log: &[u8]) -> Answer<[u64; 512]> {
    let (mut values, mut refusal) = ([UNTOUCHED; 512], [UNTOUCHED; 3]);
    let answered =
        unsafe { c::tl_credited_units(log.as_ptr(), log.len(), &mut values, &mut refusal) };
    Answer {
        answered,
        values,
        refusal,
    }
}

/// Writes the listing of credited units to the front of the buffer; its length.
pub fn credited_listing(log: &[u8], buffer: &mut [u8]) -> Answer<[u64; 1]> {
    let (mut length, mut refusal) = ([UNTOUCHED; 1], [UNTOUCHED; 3]);
    let answered = unsafe {
        c::tl_credited_listing(
            log.as_ptr(),
            log.len(),
            buffer.as_mut_ptr(),
            buffer.len(),
            &mut length,
            &mut refusal,
        )
    };
    Answer {
        answered,
        values: length,
        refusal,
    }
}

/// Index and theoretical time of the standard in force.
pub fn standard_in_force(log: &[u8], lookup: &Lookup) -> Answer<[u64; 2]> {
    let (mut values, mut refusal) = ([UNTOUCHED; 2], [UNTOUCHED; 3]);
    let answered = unsafe {
        c::tl_standard_in_force(
            log.as_ptr(),
            log.len(),
            lookup.module,
            lookup.recipe,
            lookup.time,
            &mut values,
            &mut refusal,
        )
    };
    Answer {
        answered,
        values,
        refusal,
    }
}

/// Writes the log joined of two to the front of the buffer; its length.
pub fn join(first: &[u8], second: &[u8], buffer: &mut [u8]) -> Answer<[u64; 1]> {
    let (mut length, mut refusal) = ([UNTOUCHED; 1], [UNTOUCHED; 3]);
    let answered = unsafe {
        c::tl_join(
            first.as_ptr(),
            first.len(),
            second.as_ptr(),
            second.len(),
            buffer.as_mut_ptr(),
            buffer.len(),
            &mut length,
            &mut refusal,
        )
    };
    Answer {
        answered,
        values: length,
        refusal,
    }
}

/// Packs the log that the buffer holds; its new length.
pub fn pack(buffer: &mut [u8]) -> Answer<[u64; 1]> {
    let (mut length, mut refusal) = ([UNTOUCHED; 1], [UNTOUCHED; 3]);
    let (start, room) = (buffer.as_mut_ptr(), buffer.len());
    let answered = unsafe { c::tl_pack(start, room, &mut length, &mut refusal) };
    Answer {
        answered,
        values: length,
        refusal,
    }
}

/// Adds a record to the buffer at the position; the next writing position.
pub fn put(buffer: &mut [u8], position: usize, record: &Record) -> Answer<[u64; 1]> {
    let (mut next, mut refusal) = ([UNTOUCHED; 1], [UNTOUCHED; 3]);
    let (start, length) = (buffer.as_mut_ptr(), buffer.len());
    let answered = match *record {
        Record::Header([period, modules, states, standards, units]) => unsafe {
            c::tl_put_header(
                start,
                length,
                position,
                period,
                modules,
                states,
                standards,
                units,
                &mut next,
                &mut refusal,
            )
        },
        Record::State([module, code, time]) => unsafe {
            c::tl_put_state(
                start,
                length,
                position,
                module,
                code,
                time,
                &mut next,
                &mut refusal,
            )
        },
        Record::Standard([module, recipe, start_time, theoretical]) => unsafe {
            c::tl_put_standard(
                start,
                length,
                position,
                module,
                recipe,
                start_time,
                theoretical,
                &mut next,
                &mut refusal,
            )
        },
        Record::Unit([module, recipe, time, actual, effective]) => unsafe {
            c::tl_put_unit(
                start,
                length,
                position,
                module,
                recipe,
                time,
                actual,
                effective,
                &mut next,
                &mut refusal,
            )
        },
    };
    Answer {
        answered,
        values: next,
        refusal,
    }
}

/// Tests the bytes of the buffer before the position.
pub fn finish(buffer: &[u8], position: usize) -> Answer<()> {
    let mut refusal = [UNTOUCHED; 3];
    let (start, length) = (buffer.as_ptr(), buffer.len());
    let answered = unsafe { c::tl_finish_log(start, length, position, &mut refusal) };
    Answer {
        answered,
        values: (),
        refusal,
    }
}

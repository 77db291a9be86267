//! Writing a log call by call, and the four adding calls by hand, with the arguments and refusals of the library's. They are
//! called through pointers, as the library's are: none is inlined, nor known to be called with less.
#![allow(clippy::too_many_arguments)]

use difftest::oracle::Log;
use difftest::records::*;
use std::slice;

/// The position handed back and the refusal.
type Next = [u64; 1];
type Refused = [u64; 3];

type OfThree = unsafe extern "C" fn(
    buf: *mut u8,
    buf_len: usize,
    at: usize,
    u64,
    u64,
    u64,
    next: *mut Next,
    refusal: *mut Refused,
) -> u32;
type OfFour = unsafe extern "C" fn(
    buf: *mut u8,
    buf_len: usize,
    at: usize,
    u64,
    u64,
    u64,
    u64,
    next: *mut Next,
    refusal: *mut Refused,
) -> u32;
type OfFive = unsafe extern "C" fn(
    buf: *mut u8,
    buf_len: usize,
    at: usize,
    u64,
    u64,
    u64,
    u64,
    u64,
    next: *mut Next,
    refusal: *mut Refused,
) -> u32;

/// The calls that add a record.
pub struct Calls {
    pub header: OfFive,
    pub state: OfThree,
    pub standard: OfFour,
    pub unit: OfFive,
}

pub const BY_HAND: Calls = Calls {
    header: put_header,
    state: put_state,
    standard: put_standard,
    unit: put_unit,
};

/// A buffer to write in, the position last handed back, and whether no call was refused. All in one cache line, or the times
/// would hang on where the stack begins.
#[repr(align(64))]
struct Writer<'a> {
    buffer: &'a mut [u8],
    next: Next,
    refusal: Refused,
    written: bool,
}

impl Writer<'_> {
    #[inline(always)]
    fn three(&mut self, call: OfThree, [a, b, c]: [u64; 3]) {
        let (buf, buf_len) = (self.buffer.as_mut_ptr(), self.buffer.len());
        let at = self.next[0] as usize;
        let (next, refusal) = (&mut self.next, &mut self.refusal);
        self.written &= unsafe { call(buf, buf_len, at, a, b, c, next, refusal) } == 1;
    }

    #[inline(always)]
    fn four(&mut self, call: OfFour, [a, b, c, d]: [u64; 4]) {
        let (buf, buf_len) = (self.buffer.as_mut_ptr(), self.buffer.len());
        let at = self.next[0] as usize;
        let (next, refusal) = (&mut self.next, &mut self.refusal);
        self.written &= unsafe { call(buf, buf_len, at, a, b, c, d, next, refusal) } == 1;
    }

    #[inline(always)]
    fn five(&mut self, call: OfFive, [a, b, c, d, e]: [u64; 5]) {
        let (buf, buf_len) = (self.buffer.as_mut_ptr(), self.buffer.len());
        let at = self.next[0] as usize;
        let (next, refusal) = (&mut self.next, &mut self.refusal);
        self.written &= unsafe { call(buf, buf_len, at, a, b, c, d, e, next, refusal) } == 1;
    }
}

impl Calls {
    /// Writes a log from position 0 on; its length, 0 where a call is refused.
    #[inline(never)]
    pub fn write(&self, log: &Log, buffer: &mut [u8]) -> usize {
        let mut writer = Writer {
            buffer,
            next: [0],
            refusal: [0; 3],
            written: true,
        };
        let Header {
            period,
            modules,
            states,
            standards,
            units,
        } = log.header;
        writer.five(self.header, [period, modules, states, standards, units]);
        for it in &log.states {
            writer.three(self.state, [it.module, it.code, it.time]);
        }
        for it in &log.standards {
            let values = [it.module, it.recipe, it.start, it.theoretical];
            writer.four(self.standard, values);
        }
        for it in &log.units {
            let values = [it.module, it.recipe, it.time, it.actual, it.effective];
            writer.five(self.unit, values);
        }
        usize::from(writer.written) * writer.next[0] as usize
    }
}

// ---------------------------------------------------------------- by hand

#[cold]
fn refuse(refusal: &mut Refused, number: u64, list: u64) -> u32 {
    *refusal = [number, list, 0];
    0
}

#[inline(always)]
fn added(at: usize, size: usize, next: &mut Next, refusal: &mut Refused) -> u32 {
    *next = [(at + size) as u64];
    *refusal = [0; 3];
    1
}

/// The N bytes of the buffer at the position, none where it ends before.
///
/// # Safety
/// The buffer is lent.
#[inline(always)]
unsafe fn room<'a, const N: usize>(
    buf: *mut u8,
    buf_len: usize,
    at: usize,
) -> Option<&'a mut [u8; N]> {
    let buffer = unsafe { slice::from_raw_parts_mut(buf, buf_len) };
    buffer.get_mut(at..)?.first_chunk_mut()
}

/// Writes eight bytes of the record from `from` on.
#[inline(always)]
fn set<const N: usize>(record: &mut [u8; N], from: usize, word: u64) {
    record[from..from + 8].copy_from_slice(&word.to_be_bytes());
}

#[inline(never)]
unsafe extern "C" fn put_header(
    buf: *mut u8,
    buf_len: usize,
    at: usize,
    period: u64,
    modules: u64,
    states: u64,
    standards: u64,
    units: u64,
    next: *mut Next,
    refusal: *mut Refused,
) -> u32 {
    let (next, refusal) = unsafe { (&mut *next, &mut *refusal) };
    if period >> 35 != 0 || modules > 127 || states > 0x3fff || standards > 0x7ff || units > 0x1fff
    {
        return refuse(refusal, 22, NO_LIST);
    }
    let Some(record) = (unsafe { room::<10>(buf, buf_len, at) }) else {
        return refuse(refusal, 18, NO_LIST);
    };
    // Bits 0 to 63, then bits 16 to 79.
    let front = period << 29 | modules << 22 | states << 8 | standards >> 3;
    set(record, 0, front);
    set(record, 2, front << 16 | (standards & 7) << 13 | units);
    added(at, 10, next, refusal)
}

#[inline(never)]
unsafe extern "C" fn put_state(
    buf: *mut u8,
    buf_len: usize,
    at: usize,
    module: u64,
    code: u64,
    time: u64,
    next: *mut Next,
    refusal: *mut Refused,
) -> u32 {
    let (next, refusal) = unsafe { (&mut *next, &mut *refusal) };
    if module > 63 || code > 31 || time >> 35 != 0 {
        return refuse(refusal, 22, STATES);
    }
    let Some(record) = (unsafe { room::<6>(buf, buf_len, at) }) else {
        return refuse(refusal, 18, NO_LIST);
    };
    // Bits 0 to 31, then bits 16 to 47.
    let word = module << 42 | code << 37 | time << 2;
    record[..4].copy_from_slice(&((word >> 16) as u32).to_be_bytes());
    record[2..].copy_from_slice(&(word as u32).to_be_bytes());
    added(at, 6, next, refusal)
}

#[inline(never)]
unsafe extern "C" fn put_standard(
    buf: *mut u8,
    buf_len: usize,
    at: usize,
    module: u64,
    recipe: u64,
    start: u64,
    theoretical: u64,
    next: *mut Next,
    refusal: *mut Refused,
) -> u32 {
    let (next, refusal) = unsafe { (&mut *next, &mut *refusal) };
    if module > 63 || recipe > 1023 || start >> 35 != 0 || theoretical > 0x7ff_ffff {
        return refuse(refusal, 22, STANDARDS);
    }
    let Some(record) = (unsafe { room::<10>(buf, buf_len, at) }) else {
        return refuse(refusal, 18, NO_LIST);
    };
    // Bits 0 to 63, then bits 16 to 79.
    let front = module << 58 | recipe << 48 | start << 13 | theoretical >> 14;
    set(record, 0, front);
    set(record, 2, start << 29 | theoretical << 2);
    added(at, 10, next, refusal)
}

#[inline(never)]
unsafe extern "C" fn put_unit(
    buf: *mut u8,
    buf_len: usize,
    at: usize,
    module: u64,
    recipe: u64,
    time: u64,
    actual: u64,
    effective: u64,
    next: *mut Next,
    refusal: *mut Refused,
) -> u32 {
    let (next, refusal) = unsafe { (&mut *next, &mut *refusal) };
    if module > 63 || recipe > 1023 || time >> 35 != 0 || actual > 0xffff || effective > 0xffff {
        return refuse(refusal, 22, UNITS);
    }
    let Some(record) = (unsafe { room::<11>(buf, buf_len, at) }) else {
        return refuse(refusal, 18, NO_LIST);
    };
    // Bits 0 to 63, then bits 24 to 87.
    let front = module << 58 | recipe << 48 | time << 13 | actual >> 3;
    set(record, 0, front);
    set(record, 3, time << 37 | actual << 21 | effective << 5);
    added(at, 11, next, refusal)
}

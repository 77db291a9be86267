//! What a call leaves, and what arrays hold ahead of it.

use crate::records::Refusal;
use std::fmt::Debug;

/// What a call leaves: its answer, the caller's array and the refusal.
#[derive(Clone, Copy, Debug)]
pub struct Answer<T> {
    pub answered: u32,
    pub values: T,
    pub refusal: [u64; 3],
}

/// What arrays hold ahead of a call: no sum, no figure and no flag that the library could answer.
pub const UNTOUCHED: u64 = 0xa5a5_a5a5_a5a5_a5a5;
pub const UNTOUCHED_FLAG: u8 = 0xa5;

/// Bytes to lend, from the offset on: their last is the last of what is allocated.
pub fn lent(bytes: &[u8], offset: usize) -> Box<[u8]> {
    let front = std::iter::repeat_n(&0xff, offset);
    front.chain(bytes).copied().collect()
}

/// Bytes on both sides of a lent buffer that must stay as they are.
pub const MARGIN: usize = 64;

/// A byte that a call must not have left so: its place in the lent buffer, what is due and what is there.
pub type WrongByte = (isize, u8, u8);

/// What a call answers that has to write these bytes to the front of a buffer with room for so many, and nothing else there or on its two sides; and the first
/// byte that differs.
pub fn writes<T>(
    bytes: &[u8],
    room: usize,
    call: impl FnOnce(&mut [u8]) -> T,
) -> (T, Option<WrongByte>) {
    let before: Vec<u8> = (0..room).map(|at| (at * 31 + room) as u8).collect();
    let mut due = before.clone();
    due[..bytes.len()].copy_from_slice(bytes);
    leaves(&before, &due, 0, call)
}

/// What a call answers that has to leave these bytes where others were, so many bytes behind a margin of the usual length, and nothing else on their two sides;
/// and the first byte that differs.
pub fn leaves<T>(
    before: &[u8],
    due: &[u8],
    offset: usize,
    call: impl FnOnce(&mut [u8]) -> T,
) -> (T, Option<WrongByte>) {
    let margin = |length: usize| (0..length).map(|at| (at * 31 + before.len()) as u8);
    let front = MARGIN + offset;
    let between = |bytes: &[u8]| {
        let mut all: Vec<u8> = margin(front).collect();
        all.extend_from_slice(bytes);
        all.extend(margin(MARGIN));
        all
    };
    let (due, mut lent) = (between(due), between(before));
    let answer = call(&mut lent[front..front + before.len()]);
    let wrong = match due == lent {
        true => None,
        false => (0..due.len()).find(|&at| due[at] != lent[at]),
    };
    let wrong = wrong.map(|at| (at as isize - front as isize, due[at], lent[at]));
    (answer, wrong)
}

/// The flag and the refusal that a call must leave.
pub fn same_verdict<T, V>(expected: &Result<T, Refusal>, answer: &Answer<V>) -> Result<(), String> {
    let due = match expected {
        Ok(_) => (1, [0, 0, 0]),
        Err(refusal) => (0, [refusal.number, refusal.list, refusal.place]),
    };
    same("verdict", &due, &(answer.answered, answer.refusal))
}

pub fn same<T: Debug + PartialEq>(what: &str, due: &T, found: &T) -> Result<(), String> {
    if due != found {
        return Err(format!("{what}: expected {due:?}, found {found:?}"));
    }
    Ok(())
}

/// What differs of a call that writes a log into a buffer and answers its length, where this log is due, or a refusal: verdict, length, and the byte found wrong.
pub fn same_written(
    due: &Result<&[u8], Refusal>,
    answer: &Answer<[u64; 1]>,
    wrong: Option<WrongByte>,
) -> Vec<String> {
    let length = due.map_or(UNTOUCHED, |bytes| bytes.len() as u64);
    let wrong = wrong.map(|(byte, due, found)| (format!("byte {byte}"), due, found));
    let compared = [
        same_verdict(due, answer),
        same("length", &length, &answer.values[0]),
        wrong.map_or(Ok(()), |(what, due, found)| same(&what, &due, &found)),
    ];
    compared.into_iter().filter_map(Result::err).collect()
}

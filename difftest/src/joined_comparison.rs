//! Compares what a call that joins two logs answers and leaves with the oracle.

use crate::answer::{lent, same_written, writes, Answer};
use crate::joined::Joined;
use crate::records::Refusal;
use std::collections::BTreeSet;

/// The longest log and more, as long as some buffers are once in so many pairs.
const LARGE_ROOMS: [usize; 2] = [63_130, 70_000];
const LARGE_ONCE_IN: u64 = 16;

/// A call that writes the log joined of two to the front of a buffer and answers its length.
pub type Call = fn(&[u8], &[u8], &mut [u8]) -> Answer<[u64; 1]>;

/// The differences of a pair of logs, and how often 18 was due.
#[derive(Default)]
pub struct JoinComparison {
    pub differences: Vec<String>,
    pub short: u64,
}

impl JoinComparison {
    /// The number says where the two logs begin, and once in so many that buffers are large.
    pub fn of(
        logs: [&[u8]; 2],
        joined: &Result<Joined, Refusal>,
        number: u64,
        call: Call,
    ) -> JoinComparison {
        let mut comparison = JoinComparison::default();
        let joined = joined.as_ref().map(|it| &it.log.bytes[..]);
        let offsets = [number / 8 % 8, number % 8].map(|offset| offset as usize);
        let [first, second] = [0, 1].map(|which| lent(logs[which], offsets[which]));
        let [first, second] = [&first[offsets[0]..], &second[offsets[1]..]];
        for room in rooms(logs, joined, number.is_multiple_of(LARGE_ONCE_IN)) {
            let due = match joined {
                Ok(bytes) if bytes.len() > room => Err(Refusal::of_log(18)),
                Ok(bytes) => Ok(bytes),
                Err(refusal) => Err(*refusal),
            };
            comparison.short += u64::from(due == Err(Refusal::of_log(18)));
            let (answer, wrong) = writes(due.unwrap_or_default(), room, |buffer| {
                call(first, second, buffer)
            });
            let unchanged = [
                unchanged("first", first == logs[0]),
                unchanged("second", second == logs[1]),
            ];
            let changed = unchanged.into_iter().filter_map(Result::err);
            let differences = same_written(&due, &answer, wrong);
            let differences = differences.into_iter().chain(changed);
            let told = differences.map(|what| format!("join with room {room}: {what}"));
            comparison.differences.extend(told);
        }
        comparison
    }
}

fn unchanged(which: &str, unchanged: bool) -> Result<(), String> {
    let changed = || format!("the {which} log is changed");
    unchanged.then_some(()).ok_or_else(changed)
}

/// Buffer lengths to try: none, up to 1 beside the joined log's, some more, and large ones. A refused join has the length that it would have.
fn rooms(
    [first, second]: [&[u8]; 2],
    joined: Result<&[u8], &Refusal>,
    large: bool,
) -> BTreeSet<usize> {
    let length = match joined {
        Ok(bytes) => bytes.len(),
        Err(_) => (first.len() + second.len()).saturating_sub(10),
    };
    let about = [length.saturating_sub(1), length, length + 1, length + 11];
    let large = large.then_some(LARGE_ROOMS);
    let all = [0].into_iter().chain(about);
    all.chain(large.into_iter().flatten()).collect()
}

/// What differs where three logs are joined in either grouping, each time into a buffer of just the length. This is their joined log.
pub fn three([first, second, third]: [&[u8]; 3], due: &[u8], call: Call) -> Vec<String> {
    let both = |first: &[u8], second: &[u8]| {
        let mut buffer = vec![0; first.len() + second.len() - 10];
        let answer = call(first, second, &mut buffer);
        (answer.answered == 1).then_some(buffer)
    };
    let groupings = [
        (
            "the first two ahead",
            both(first, second).and_then(|it| both(&it, third)),
        ),
        (
            "the last two ahead",
            both(second, third).and_then(|it| both(first, &it)),
        ),
    ];
    let differing = groupings
        .into_iter()
        .filter(|(_, joined)| joined.as_deref() != Some(due));
    let told = differing.map(|(which, _)| format!("three logs joined, {which}: another log"));
    told.collect()
}

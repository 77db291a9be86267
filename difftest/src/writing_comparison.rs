//! Compares what the library's calls that write answer and leave, in one run of them, with the oracle.

use crate::answer::{same, same_verdict, MARGIN, UNTOUCHED};
use crate::generator::runs::{Call, Position, Run};
use crate::library;
use crate::tally::Tally;
use crate::writing::{add, finish};
use std::collections::BTreeSet;
use std::ops::Range;

/// Bytes that a run may compare before it looks at all of them behind some of its calls only, and behind the others
/// at so many on both sides of the record.
const COMPARED_BYTES: usize = 1 << 20;
const BESIDE: usize = 256;

/// The first difference of a run; what follows it in that run says no more. The lent buffer begins `offset` bytes further on.
pub fn first_difference(run: &Run, offset: usize, tally: &mut Tally) -> Option<String> {
    let mut lent = Lent::new(run, MARGIN + offset);
    lent.run(run, tally)
        .err()
        .map(|what| format!("writing in a buffer of {}: {what}", run.buffer.len()))
}

/// The buffer and the margins on its two sides: as they are due and as they are.
struct Lent {
    due: Vec<u8>,
    found: Vec<u8>,
    buffer: Range<usize>,
    last: usize,
}

impl Lent {
    fn new(run: &Run, front: usize) -> Lent {
        let buffer = front..front + run.buffer.len();
        let mut due: Vec<u8> = (0..buffer.end + MARGIN)
            .map(|at| (at * 31 + buffer.end) as u8)
            .collect();
        due[buffer.clone()].copy_from_slice(&run.buffer);
        Lent {
            found: due.clone(),
            due,
            buffer,
            last: 0,
        }
    }

    fn run(&mut self, run: &Run, tally: &mut Tally) -> Result<(), String> {
        let whole_once_in = 1 + run.calls.len() * self.due.len() / COMPARED_BYTES;
        for (index, call) in run.calls.iter().enumerate() {
            let (position, added) = self.add(call, tally);
            let bytes = if index % whole_once_in == 0 {
                self.same_bytes(0..self.due.len())
            } else {
                self.same_bytes(self.beside(position))
            };
            added
                .and(bytes)
                .map_err(|what| format!("call {index}, {:?} at {position}: {what}", call.record))?;
        }
        self.same_bytes(0..self.due.len())
            .map_err(|what| format!("behind the calls: {what}"))?;
        self.as_written(run)?;
        let mut positions = BTreeSet::from([self.last]);
        positions.extend(&run.finishing);
        for position in positions {
            let finished = self.finish(position, tally);
            let bytes = self.same_bytes(0..self.due.len());
            finished
                .and(bytes)
                .map_err(|what| format!("finishing at {position}: {what}"))?;
        }
        Ok(())
    }

    /// Its position, and whether answer, position handed back and refusal are those that are due.
    fn add(&mut self, call: &Call, tally: &mut Tally) -> (usize, Result<(), String>) {
        let position = match call.position {
            Position::Last => self.last,
            Position::At(position) => position,
        };
        let expected = add(&mut self.due[self.buffer.clone()], position, &call.record);
        tally.count_adding(&call.record, &expected);
        let answer = library::put(&mut self.found[self.buffer.clone()], position, &call.record);
        let due_next = expected.map_or(UNTOUCHED, |next| next as u64);
        if expected.is_ok() {
            self.last = answer.values[0] as usize;
        }
        let compared = same_verdict(&expected, &answer).and(same(
            "position handed back",
            &due_next,
            &answer.values[0],
        ));
        (position, compared)
    }

    fn finish(&mut self, position: usize, tally: &mut Tally) -> Result<(), String> {
        let expected = finish(&self.due[self.buffer.clone()], position);
        tally.finishing.count(&expected);
        let answer = library::finish(&self.found[self.buffer.clone()], position);
        same_verdict(&expected, &answer)
    }

    /// The log that the run wrote from its own records.
    fn as_written(&self, run: &Run) -> Result<(), String> {
        let Some(log) = &run.written else {
            return Ok(());
        };
        same("position behind the log", &log.len(), &self.last)?;
        let bytes = &self.found[self.buffer.clone()][..self.last];
        if bytes != log {
            return Err(String::from("the log does not have its own bytes"));
        }
        Ok(())
    }

    /// The bytes about a position in the buffer, or about the buffer's end where it is further on.
    fn beside(&self, position: usize) -> Range<usize> {
        let at = self.buffer.start + position.min(self.buffer.len());
        at.saturating_sub(BESIDE)..(at + BESIDE).min(self.due.len())
    }

    fn same_bytes(&self, range: Range<usize>) -> Result<(), String> {
        let (due, found) = (&self.due[range.clone()], &self.found[range.clone()]);
        if due == found {
            return Ok(());
        }
        let at = (0..due.len()).find(|&at| due[at] != found[at]).unwrap_or(0);
        let byte = (range.start + at) as isize - self.buffer.start as isize;
        same(&format!("byte {byte}"), &due[at], &found[at])
    }
}

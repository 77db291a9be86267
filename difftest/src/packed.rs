//! R-9, packing a log, in plain Rust, written to be read beside it and not to be fast.

use crate::oracle::{in_force, read, Account, Log};
use crate::records::*;
use crate::writing::written;

/// A log, which of its state records and standards stay, and the log of these.
pub struct Packed {
    pub from: Log,
    pub stay: Stay,
    pub bytes: Vec<u8>,
}

/// Of each state record and of each standard, whether it stays.
pub struct Stay {
    pub states: Vec<bool>,
    pub standards: Vec<bool>,
}

impl Packed {
    /// Of bytes that were judged.
    pub fn of(bytes: &[u8], verdict: &Result<Account, Refusal>) -> Result<Packed, Refusal> {
        verdict.as_ref().map_err(|refusal| *refusal)?;
        let from = read(bytes)?;
        let stay = Stay {
            states: states_that_stay(&from),
            standards: standards_that_stay(&from),
        };
        let bytes = written(&stay.of(&from));
        Ok(Packed { from, stay, bytes })
    }

    /// State records and standards that are dropped.
    pub fn dropped(&self) -> [u64; 2] {
        [&self.stay.states, &self.stay.standards]
            .map(|list| list.iter().filter(|stays| !**stays).count() as u64)
    }

    /// What `toollog pack` prints of a log of so many bytes.
    pub fn text(&self, length: usize) -> Vec<u8> {
        let ([states, standards], after) = (self.dropped(), self.bytes.len());
        let text = format!(
            "bytes before {length}\nbytes after {after}\nstates dropped {states}\nstandards dropped {standards}\n"
        );
        text.into_bytes()
    }
}

/// A state record goes whose code its module has in the ms before.
fn states_that_stay(log: &Log) -> Vec<bool> {
    let mut own = vec![Vec::new(); log.header.modules as usize];
    for record in &log.states {
        own[record.module as usize].push(*record);
    }
    let states = log.states.iter();
    states
        .map(|it| code_before(&own[it.module as usize], it.time) != Some(it.code))
        .collect()
}

/// The code that a module with these records has in the ms before a time; none ahead of the period.
fn code_before(own: &[StateRecord], time: u64) -> Option<u64> {
    let before = time.checked_sub(1)?;
    let begun = own.partition_point(|it| it.time <= before);
    own[..begun].last().map(|it| it.code)
}

/// A standard goes whose time is in force in the ms before, for its module and recipe.
fn standards_that_stay(log: &Log) -> Vec<bool> {
    let standards = log.standards.iter();
    standards
        .map(|it| time_before(&log.standards, it) != Some(it.theoretical))
        .collect()
}

/// The time in force for a standard's module and recipe in the ms before it starts; none ahead of the period.
fn time_before(standards: &[Standard], standard: &Standard) -> Option<u64> {
    let before = standard.start.checked_sub(1)?;
    let found = in_force(standards, standard.module, standard.recipe, before);
    found.map(|it| it.theoretical)
}

impl Stay {
    /// The log of the records that stay, and of all units.
    pub fn of(&self, log: &Log) -> Log {
        let states = staying(&log.states, &self.states);
        let standards = staying(&log.standards, &self.standards);
        Log {
            header: Header {
                states: states.len() as u64,
                standards: standards.len() as u64,
                ..log.header
            },
            states,
            standards,
            units: log.units.clone(),
        }
    }
}

fn staying<T: Copy>(list: &[T], stay: &[bool]) -> Vec<T> {
    let list = list.iter().zip(stay);
    let staying = list.filter(|(_, stays)| **stays);
    staying.map(|(record, _)| *record).collect()
}

//! Which revision of a standard the units were judged by: revisions LOG. Exit status: 0 answered, 1 refused, 2 no log.
//!
//! Prints the module, recipe, start and theoretical time of each standard and the actual units credited to it, and how many these are together; or
//! the refusal in words.

mod shared;

use std::process::exit;
use tool_log::{standard_in_force, Refusal, LONGEST_LOG};

const RECIPES: usize = 1024;

// The start of a standard of this module and recipe: up to `last`, the first time at which it, or one behind it, is in force.
fn start_of(index: usize, log: &[u8], module: usize, recipe: usize, mut last: u64) -> Result<u64, Refusal> {
    let mut first = 0;
    while first < last {
        let middle = (first + last) / 2;
        if standard_in_force(log, module, recipe, middle)?.is_some_and(|standard| standard.index >= index) {
            last = middle;
        } else {
            first = middle + 1;
        }
    }
    Ok(first)
}

// The list rises by module, recipe and start, so that each recipe's standards stand behind those of the one before, up to its newest.
fn table(log: &[u8]) -> Result<(), Refusal> {
    let units = tool_log::credited_units(log)?;
    let last = tool_log::module_quantities(log, 0)?.total - 1;
    let mut next = 0;
    println!("standard module recipe    start, ms   ms a unit     units");
    for module in 0..tool_log::module_count(log)? {
        for recipe in 0..RECIPES {
            let Some(newest) = standard_in_force(log, module, recipe, last)? else { continue };
            for index in next..=newest.index {
                let start = start_of(index, log, module, recipe, last)?;
                let standard = standard_in_force(log, module, recipe, start)?.expect("it is in force at its start");
                println!("{index:8} {module:6} {recipe:6} {start:12} {:11} {:9}", standard.time, units[index]);
            }
            next = newest.index + 1;
        }
    }
    println!("{:>8} {:48}", "total", units.iter().sum::<u64>());
    Ok(())
}

fn main() {
    let log = shared::argument(1, LONGEST_LOG, "revisions LOG");
    if let Err(refusal) = table(&log) {
        println!("{refusal}");
        exit(1);
    }
}

//! The supplemental figures of a tool: supplemental LOG BENCHMARKS. Exit status: 0 answered, 1 refused, 2 no log or no benchmarks.

mod shared;

use std::process::exit;
use tool_log::{supplemental, LONGEST_BENCHMARKS, LONGEST_LOG};

fn line(name: &str, figure: u64) {
    println!("{name} {}.{:04}", figure / 10000, figure % 10000);
}

fn main() {
    let usage = "supplemental LOG BENCHMARKS";
    let log = shared::argument(1, LONGEST_LOG, usage);
    let benchmarks = shared::argument(2, LONGEST_BENCHMARKS, usage);
    let figures = supplemental(&log, &benchmarks).unwrap_or_else(|refusal| {
        println!("{refusal}");
        exit(1)
    });
    line("reference", figures.reference);
    line("optimized", figures.optimized);
    line("value-added", figures.value_added);
    line("total-effective-units", figures.total_effective_units);
}

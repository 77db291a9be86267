//! One log from consecutive ones: week RESULT LOG LOG.. Exit status: 0 joined, 1 refused, 2 no log or no result.
//!
//! Joins the logs in this sequence, writes the joined log to the file RESULT and prints its report; or prints the refusal in words, behind the name of
//! the log that it is about, and leaves RESULT alone. Where the logs so far are not to be joined with the next one, that is the next one's name.

#[path = "shared/saving.rs"]
mod saving;
mod shared;

use std::{env, process::exit};
use tool_log::{examine, join_logs, report, Refusal, LONGEST_LOG, LONGEST_REPORT};

const USAGE: &str = "week RESULT LOG LOG..";

// The answer, or the end of the program at a refusal of this log.
fn of<T>(name: &str, answer: Result<T, Refusal>) -> T {
    answer.unwrap_or_else(|refusal| {
        println!("{name}: {refusal}");
        exit(1)
    })
}

fn main() {
    let names: Vec<String> = env::args().collect();
    if names.len() < 4 {
        eprintln!("usage: {USAGE}");
        exit(2);
    }
    let mut joined = shared::argument(2, LONGEST_LOG, USAGE);
    of(&names[2], examine(&joined, LONGEST_REPORT));
    for (n, name) in names.iter().enumerate().skip(3) {
        let log = shared::argument(n, LONGEST_LOG, USAGE);
        joined = of(name, join_logs(&joined, &log));
    }
    let result = &names[1];
    saving::save(result, &joined);
    print!("{}", of(result, report(&joined)));
}

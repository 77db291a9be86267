//! A shift's log, written as a controller does: writer LOG [PERIOD]. The shift, and what its report has to say, are those of c/writer.c.
//!
//! Writes the log to the file LOG and prints its report, or prints the refusal in words and leaves the file alone. PERIOD is another length of the
//! shift than 8 hours, in ms. Exit status: 0 written, 1 refused, 2 no file.

use std::{env, fs, process::exit};
use tool_log::{Refusal, Writer};

const MINUTE: u64 = 60_000;
const HOUR: u64 = 60 * MINUTE;

// Sub-state codes.
const REGULAR: u64 = 0;
const NO_PRODUCT: u64 = 7;
const PREVENTIVE: u64 = 15;
const REPAIR: u64 = 18;

const STATES: [(u64, u64, u64); 7] = [
    (0, REGULAR, 0),
    (1, NO_PRODUCT, 0),
    (1, REGULAR, HOUR),
    (0, PREVENTIVE, 3 * HOUR),
    (0, REGULAR, 4 * HOUR),
    (1, REPAIR, 5 * HOUR),
    (0, NO_PRODUCT, 6 * HOUR + 36 * MINUTE),
];
const STANDARDS: [(u64, u64, u64, u64); 3] = [(0, 3, 0, 2 * MINUTE), (0, 3, 4 * HOUR, 3 * MINUTE / 2), (1, 3, 0, 3 * MINUTE)];
const UNITS: [(u64, u64, u64, u64, u64); 3] = [(0, 3, 3 * HOUR, 90, 81), (1, 3, 5 * HOUR, 63, 63), (0, 3, 6 * HOUR + 36 * MINUTE, 90, 81)];

fn write_log(buf: &mut [u8], period: u64) -> Result<&[u8], Refusal> {
    let mut writer = Writer::new(buf);
    writer.header(period, 2, STATES.len() as u64, STANDARDS.len() as u64, UNITS.len() as u64)?;
    for (module, code, time) in STATES {
        writer.state(module, code, time)?;
    }
    for (module, recipe, start, theoretical) in STANDARDS {
        writer.standard(module, recipe, start, theoretical)?;
    }
    for (module, recipe, time, actual, effective) in UNITS {
        writer.unit(module, recipe, time, actual, effective)?;
    }
    writer.finish()
}

fn main() {
    let usage = || -> ! {
        eprintln!("usage: writer LOG [PERIOD]");
        exit(2)
    };
    let path = env::args().nth(1).unwrap_or_else(|| usage());
    let period = env::args().nth(2).map_or(8 * HOUR, |period| period.parse().unwrap_or_else(|_| usage()));

    let mut buf = [0; tool_log::LONGEST_LOG];
    let (log, report) = match write_log(&mut buf, period).and_then(|log| Ok((log, tool_log::report(log)?))) {
        Ok(written) => written,
        Err(refusal) => {
            println!("{refusal}");
            exit(1);
        }
    };
    if let Err(e) = fs::write(&path, log) {
        eprintln!("{path}: {e}");
        exit(2);
    }
    print!("{report}");
}

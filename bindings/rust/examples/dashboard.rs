//! A dashboard's table from a log: dashboard LOG. Exit status: 0 answered, 1 refused, 2 no log.

mod shared;

use std::process::exit;
use tool_log::{Efficiency, Figures, Refusal, StateTimes, LONGEST_LOG};

fn line(name: &str, cells: &[String], width: usize) {
    print!("{name:>6}");
    for cell in cells {
        print!(" {cell:>width$}");
    }
    println!();
}

fn titles(names: &[&str]) -> Vec<String> {
    names.iter().map(|n| n.to_string()).collect()
}

fn times(t: StateTimes) -> Vec<String> {
    [t.productive, t.standby, t.engineering, t.scheduled_down, t.unscheduled_down, t.nonscheduled].map(|n| n.to_string()).to_vec()
}

fn figures(f: Figures) -> Vec<String> {
    let mut cells: Vec<String> = [f.availability, f.operational, f.rate, f.quality]
        .map(|e| match e {
            Efficiency::Ratio(x) => format!("{x:.6}"),
            Efficiency::NoBase => "-".to_string(),
        })
        .to_vec();
    cells.extend([f.oee, f.product].map(|x| format!("{x:.6}")));
    cells
}

fn tables(log: &[u8]) -> Result<(), Refusal> {
    let modules = tool_log::module_count(log)?;

    println!("state times, ms");
    line("module", &titles(&["productive", "standby", "engineering", "scheduled down", "unscheduled down", "nonscheduled"]), 16);
    for m in 0..modules {
        line(&m.to_string(), &times(tool_log::module_state_times(log, m)?), 16);
    }
    line("tool", &times(tool_log::tool_state_times(log)?), 16);

    println!("\nfigures");
    line("module", &titles(&["availability", "operational", "rate", "quality", "OEE", "product"]), 12);
    for m in 0..modules {
        line(&m.to_string(), &figures(tool_log::module_figures(log, m)?), 12);
    }
    line("tool", &figures(tool_log::tool_figures(log)?), 12);
    Ok(())
}

fn main() {
    let log = shared::argument(1, LONGEST_LOG, "dashboard LOG");
    if let Err(refusal) = tables(&log) {
        println!("{refusal}");
        exit(1);
    }
}

//! Compares what the program `toollog` prints with the oracle on the generator's logs, with benchmarks for them, what it makes of pairs of logs,
//! and what of logs to pack.
//!
//! programs SEED COUNT TOOLLOG

use difftest::arguments::two_numbers;
use difftest::credited::Credited;
use difftest::generator::{benchmarks, make, pairs, repeats};
use difftest::joined::{join, Accepted};
use difftest::oracle::{account, Account};
use difftest::packed::Packed;
use difftest::records::{Refusal, BENCHMARKS, SECOND};
use difftest::supplemental::{answer, text, words, Judged};
use difftest::tally::Tally;
use std::fs;
use std::io::{self, Write};
use std::path::PathBuf;
use std::process::{Command, ExitCode, Output, Stdio};

const TABLES: [(&str, fn(&Account) -> Vec<u8>); 4] = [
    ("report", Account::report),
    ("times", Account::times),
    ("quantities", Account::quantities),
    ("losses", Account::losses),
];

const INPUT: &str = "standard input";

fn main() -> ExitCode {
    let program = std::env::args().nth(3);
    let (Some((seed, count)), Some(program)) = (two_numbers(), program) else {
        eprintln!("usage: programs SEED COUNT TOOLLOG");
        return ExitCode::from(2);
    };
    let files = Files::new().expect("a folder for files");
    let mut tally = Tally::default();
    let mut differences = 0;
    for index in 0..count {
        let log = make(seed, index).bytes;
        let verdict = account(&log);
        tally.count(&verdict);
        tally.count_losses(&verdict);
        let mut compare = |subcommand: &str, same: bool, printed: Output| {
            if !same || !printed.status.success() {
                println!("seed {seed} log {index}: toollog {subcommand} differs: {printed:?}");
                differences += 1;
            }
        };
        let credited = Credited::of(&log, &verdict);
        tally.count_credited(&credited);
        let tables = TABLES.map(|(subcommand, table)| {
            let printed = verdict.as_ref().map(table);
            (subcommand, printed.map_err(|refusal| *refusal))
        });
        let listing = credited.map(|credited| credited.listing());
        for (subcommand, expected) in tables.into_iter().chain([("credited", listing)]) {
            let printed = run(&program, &[subcommand], &log);
            compare(subcommand, prints(&printed, INPUT, &expected), printed);
        }

        let judged = Judged::of(&log, &verdict);
        let slices = benchmarks::make(seed, index, &log, verdict.err());
        let number = index as usize % slices.len();
        let slice = &slices[number].bytes;
        let figures = answer(&judged, slice);
        tally.count_supplemental(&figures);
        let expected = figures.map(|figures| text(&figures));
        // By name; or one of them on standard input, once in four each.
        let input = [None, None, Some(0), Some(1)][index as usize / 8 % 4];
        let (printed, names) = files.supplemental(&program, [&log, slice], input);
        let [log_name, slice_name] = &names;
        let name = match &expected {
            Err(refusal) if refusal.list == BENCHMARKS => slice_name,
            _ => log_name,
        };
        let subcommand = format!("supplemental, slice {number},");
        compare(&subcommand, prints(&printed, name, &expected), printed);

        let pair = pairs::make(seed, index);
        let judged = pair.logs.each_ref().map(|log| Accepted::of(log));
        let joined = join(&judged[0], &judged[1]);
        let logs = pair.logs.each_ref().map(|log| &log[..]);
        tally.joins.count(logs, judged.each_ref(), &joined);
        let joined = joined.map(|joined| joined.log.bytes);
        // In the place of a file, or where there was none.
        let before = (index % 2 == 0).then_some(&b"old"[..]);
        let (printed, same) = files.join(&program, logs, input, before, &joined);
        compare("join", same, printed);

        let made = repeats::make(seed, index);
        let packed = Packed::of(&made.bytes, &account(&made.bytes));
        tally.packings.count(&made.bytes, &packed, made.repeats);
        let place = PLACES[index as usize % PLACES.len()];
        let (printed, same) = files.pack(&program, &made.bytes, place, &packed);
        compare(&format!("pack {place:?}"), same, printed);
    }
    let never_met = [
        tally.never_met_in_reading(),
        tally.joins.never_answered(),
        tally.packings.never_answered(),
    ]
    .concat();
    let all_met = never_met.is_empty();
    if !all_met {
        println!("never met: {never_met:?}");
    }
    println!("{count} logs, each by six subcommands of toollog, as many pairs, and as many logs to pack, {differences} differences");
    ExitCode::from(u8::from(differences > 0 || !all_met))
}

/// Where a log to pack is, and where its result goes.
#[derive(Clone, Copy, Debug, PartialEq)]
enum Place {
    IntoANewFile,
    IntoAnOldFile,
    IntoItsOwnFile,
    FromStandardInput,
}

const PLACES: [Place; 5] = [
    Place::IntoANewFile,
    Place::IntoItsOwnFile,
    Place::IntoAnOldFile,
    Place::IntoItsOwnFile,
    Place::FromStandardInput,
];

/// What it prints with bytes on standard input, of which it may leave some unread.
fn run(program: &str, arguments: &[&str], input: &[u8]) -> Output {
    let mut child = Command::new(program)
        .args(arguments)
        .stdin(Stdio::piped())
        .stdout(Stdio::piped())
        .stderr(Stdio::piped())
        .spawn()
        .expect("the program starts");
    let _ = child.stdin.take().expect("its input").write_all(input);
    child.wait_with_output().expect("the program ends")
}

/// A folder for the files, which goes when the run ends.
struct Files {
    folder: PathBuf,
}

impl Files {
    fn new() -> io::Result<Files> {
        let name = format!("toollog-programs-{}", std::process::id());
        let folder = std::env::temp_dir().join(name);
        fs::create_dir(&folder)?;
        Ok(Files { folder })
    }

    fn path(&self, name: &str) -> String {
        self.folder.join(name).display().to_string()
    }

    /// What a subcommand prints of two files, and the names that it has to call them by. One of them may be on standard input.
    fn run(
        &self,
        program: &str,
        subcommand: &str,
        files: [(&str, &[u8]); 2],
        input: Option<usize>,
        last: Option<&str>,
    ) -> (Output, [String; 2]) {
        let mut names = files.map(|(name, _)| self.path(name));
        for (name, (_, bytes)) in names.iter().zip(files) {
            fs::write(name, bytes).expect("a file that can be written");
        }
        let mut arguments = names.clone();
        if let Some(which) = input {
            arguments[which] = String::from("-");
            names[which] = String::from(INPUT);
        }
        let [one, other] = &arguments;
        let arguments: Vec<&str> = [subcommand, one, other].into_iter().chain(last).collect();
        let bytes = input.map_or(&[][..], |which| files[which].1);
        (run(program, &arguments, bytes), names)
    }

    fn supplemental(
        &self,
        program: &str,
        [log, benchmarks]: [&[u8]; 2],
        input: Option<usize>,
    ) -> (Output, [String; 2]) {
        let files = [("log", log), ("benchmarks", benchmarks)];
        self.run(program, "supplemental", files, input, None)
    }

    /// What `toollog join` prints of two logs, and whether it prints and leaves what is due where its file held this before.
    fn join(
        &self,
        program: &str,
        [first, second]: [&[u8]; 2],
        input: Option<usize>,
        before: Option<&[u8]>,
        due: &Result<Vec<u8>, Refusal>,
    ) -> (Output, bool) {
        let result = self.result(before);
        let files = [("first", first), ("second", second)];
        let (printed, names) = self.run(program, "join", files, input, Some(&result));
        let prints = match due {
            Ok(_) => prints(&printed, "", &Ok(Vec::new())),
            Err(refusal) => {
                let own = refusal.list.checked_sub(SECOND);
                let told = Refusal {
                    list: own.unwrap_or(refusal.list),
                    ..*refusal
                };
                let of_first = account(first).err() == Some(*refusal);
                let name = match own {
                    Some(_) => &names[1],
                    None if of_first => &names[0],
                    None => &result,
                };
                printed.stdout == refusal.line().as_bytes() && says(&printed.stderr, name, &told)
            }
        };
        let due = due.as_deref().ok().or(before);
        (printed, prints && holds(&result, due))
    }

    /// A file for a result, which holds this before, or is not there.
    fn result(&self, before: Option<&[u8]>) -> String {
        let result = self.path("result");
        let _ = fs::remove_file(&result);
        if let Some(before) = before {
            fs::write(&result, before).expect("a file that can be written");
        }
        result
    }

    /// What `toollog pack` prints of a log, and whether it prints and leaves what is due.
    fn pack(
        &self,
        program: &str,
        log: &[u8],
        place: Place,
        packed: &Result<Packed, Refusal>,
    ) -> (Output, bool) {
        let own = self.path("log");
        fs::write(&own, log).expect("a file that can be written");
        let (before, result) = match place {
            Place::IntoItsOwnFile => (Some(log), own.clone()),
            Place::IntoANewFile => (None, self.result(None)),
            _ => (Some(&b"old"[..]), self.result(Some(b"old"))),
        };
        let (printed, name) = match place {
            Place::FromStandardInput => (run(program, &["pack", "-", &result], log), INPUT),
            _ => (run(program, &["pack", &own, &result], &[]), &own[..]),
        };
        let text = packed.as_ref().map(|it| it.text(log.len()));
        let prints = prints(&printed, name, &text.map_err(|refusal| *refusal));
        let due = packed.as_ref().map_or(before, |it| Some(&it.bytes[..]));
        let unchanged = place == Place::IntoItsOwnFile || holds(&own, Some(log));
        (printed, prints && holds(&result, due) && unchanged)
    }
}

impl Drop for Files {
    fn drop(&mut self) {
        let _ = fs::remove_dir_all(&self.folder);
    }
}

/// Whether a file holds what is due, or is not there, and none is left beside it.
fn holds(result: &str, due: Option<&[u8]>) -> bool {
    let left = fs::read(result).ok();
    let beside = fs::exists(format!("{result}.new")).is_ok_and(|is_there| !is_there);
    left.as_deref() == due && beside
}

/// The text and nothing on standard error, or the refused line and the reason, which names what is refused.
fn prints(printed: &Output, name: &str, expected: &Result<Vec<u8>, Refusal>) -> bool {
    match expected {
        Ok(text) => printed.stdout == *text && printed.stderr.is_empty(),
        Err(refusal) => {
            printed.stdout == refusal.line().as_bytes() && says(&printed.stderr, name, refusal)
        }
    }
}

/// One line: of benchmarks in the card's words, of a log one that ends in where the refusal points to.
fn says(stderr: &[u8], name: &str, refusal: &Refusal) -> bool {
    let text = String::from_utf8_lossy(stderr);
    let Some(line) = text.strip_suffix('\n') else {
        return false;
    };
    let Some(reason) = line.strip_prefix(&format!("toollog: {name}: ")) else {
        return false;
    };
    if refusal.list == BENCHMARKS {
        return Some(reason) == words(refusal).as_deref();
    }
    let where_to = match refusal.whereabouts() {
        Some(place) => reason.ends_with(&format!(" ({place})")),
        None => !reason.contains("(record") && !reason.contains("(module"),
    };
    !reason.contains('\n') && where_to
}

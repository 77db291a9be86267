//! The packed log of a semiconductor tool, answered: state times, the quantities, efficiencies, losses and supplemental figures of SEMI E79, which
//! standards its units were judged by, and the shift report; written; joined from two consecutive ones; and rid of the records that say nothing new.
//!
//! Every function takes any bytes as a log, or as benchmarks, and answers or refuses. Times are whole milliseconds. A module is counted from 0. A
//! [`Writer`] makes a log record by record, [`join_logs`] makes it of two logs, and [`pack_log`] of one that repeats itself.

pub mod c;

use std::fmt;

/// The longest report: a buffer of this size suffices for every log.
pub const LONGEST_REPORT: usize = 2494;
/// The longest log. One byte more of a longer one is enough to decide that it is refused.
pub const LONGEST_LOG: usize = 63130;
/// The benchmarks of 512 standards, the most that a log has. Of longer ones a byte more is enough too.
pub const LONGEST_BENCHMARKS: usize = 7168;
/// A buffer of this size suffices for the listing of credited units of every log.
pub const CREDITED_LISTING_ROOM: usize = 7168;
pub const MOST_STANDARDS: usize = 512;

/// Why a log, a benchmark or a record is turned back. The numbers are those of the refused line.
#[derive(Clone, Copy, Debug, PartialEq, Eq, Hash)]
pub enum Ground {
    NoHeader = 1,
    Period,
    Modules,
    Counts,
    Length,
    Spare,
    StrayModule,
    StrayCode,
    Outside,
    Sequence,
    NoOpening,
    NoTime,
    Twice,
    OverGood,
    NoStandard,
    TooFast,
    TooGreat,
    ShortBuffer,
    Unsorted,
    AboveStandard,
    OverCounted,
    TooWide,
    UnlikeTools,
}

use Ground::*;

/// Each ground with its trade word and what it says, by number.
pub const GROUNDS: [(Ground, &str, &str); 23] = [
    (NoHeader, "no header", "under 10 bytes"),
    (Period, "period", "0 or over 366 days (31,622,400,000 ms)"),
    (Modules, "modules", "0 or over 64"),
    (Counts, "counts", "over 6,000 state records, 512 standards or 2,000 unit records"),
    (Length, "length", "bytes other than 10 + 6 states + 10 standards + 11 units; benchmarks: 14 for each standard"),
    (Spare, "spare", "a spare bit set"),
    (StrayModule, "stray module", "module at or above the module count"),
    (StrayCode, "stray code", "sub-state code above 23"),
    (Outside, "outside", "time or start at or past the period"),
    (Sequence, "sequence", "time, then module, not above the record before, or not later than its own module's last"),
    (NoOpening, "no opening", "a module whose first record is not at time 0, or that has none"),
    (NoTime, "no time", "theoretical time 0, or a time of a benchmark 0"),
    (Twice, "twice", "module, recipe and start all equal to an earlier standard's"),
    (OverGood, "over-good", "effective units above actual units"),
    (NoStandard, "no standard", "none in force for a unit record"),
    (TooFast, "too fast", "a module's actual theoretical time above its production time"),
    (TooGreat, "too great", "a tool sum above 9,007,199,254,740,991 ms"),
    (ShortBuffer, "short buffer", "report, listing or log longer than the buffer, or a record that does not fit at its position"),
    (Unsorted, "unsorted", "out of rising sequence: standards by module, recipe and start, units by time, module and recipe"),
    (AboveStandard, "above standard", "a time of a benchmark above its standard's theoretical time"),
    (OverCounted, "over-counted", "total effective units of a benchmark above the effective units judged by its standard"),
    (TooWide, "too wide", "a value does not fit its field"),
    (UnlikeTools, "unlike tools", "two logs to join whose module counts differ"),
];

/// The list that a refused record or benchmark stands in. The header is in none. The last four are those of the second of two logs to join, `Second`
/// where its own refusal has none. The numbers are those of the refused line.
#[derive(Clone, Copy, Debug, PartialEq, Eq, Hash)]
pub enum List {
    None = 0,
    States,
    Standards,
    Units,
    Benchmarks,
    Second = 10,
    SecondStates,
    SecondStandards,
    SecondUnits,
}

/// Each list with its name, by number.
pub const LISTS: [(List, &str); 9] = [
    (List::None, "none"),
    (List::States, "states"),
    (List::Standards, "standards"),
    (List::Units, "units"),
    (List::Benchmarks, "benchmarks"),
    (List::Second, "second log"),
    (List::SecondStates, "second log's states"),
    (List::SecondStandards, "second log's standards"),
    (List::SecondUnits, "second log's units"),
];

/// A log, a benchmark or a record turned back: why, in which list, and at which place: the record's or benchmark's index from 0, or the module for
/// `NoOpening`, `TooFast`, and a `StrayModule` with no list. For `TooWide` the place is 0, whichever record it is about.
#[derive(Clone, Copy, Debug, PartialEq, Eq, Hash)]
pub struct Refusal {
    pub ground: Ground,
    pub list: List,
    pub place: u64,
}

// The row of GROUNDS with this number.
fn row(number: u64) -> (Ground, &'static str, &'static str) {
    GROUNDS.into_iter().find(|row| row.0 as u64 == number).unwrap_or_else(|| panic!("the library's refusal {number} is not in GROUNDS"))
}

// The row of LISTS with this number.
fn list_row(number: u64) -> (List, &'static str) {
    LISTS.into_iter().find(|row| row.0 as u64 == number).unwrap_or_else(|| panic!("the library's list {number} is not in LISTS"))
}

impl Refusal {
    fn new([number, list, place]: [u64; 3]) -> Self {
        Refusal { ground: row(number).0, list: list_row(list).0, place }
    }
}

impl fmt::Display for Refusal {
    fn fmt(&self, f: &mut fmt::Formatter) -> fmt::Result {
        let (ground, word, says) = row(self.ground as u64);
        write!(f, "refused: {} {word}: {says} ", ground as u8)?;
        let (list, name) = list_row(self.list as u64);
        match list {
            List::None | List::States | List::Standards | List::Units => write!(f, "(list {name}, place {})", self.place),
            List::Benchmarks if ground == Length => write!(f, "(the {name})"),
            List::Benchmarks => write!(f, "(benchmark {})", self.place),
            List::Second if ground == NoOpening || ground == TooFast => write!(f, "(module {} of the {name})", self.place),
            List::Second => write!(f, "(the {name})"),
            List::SecondStates | List::SecondStandards | List::SecondUnits => write!(f, "(record {} of the {name})", self.place),
        }
    }
}

impl std::error::Error for Refusal {}

/// The six states of SEMI E10, in ms. A module's add up to the period.
#[derive(Clone, Copy, Debug, PartialEq, Eq)]
pub struct StateTimes {
    pub productive: u64,
    pub standby: u64,
    pub engineering: u64,
    pub scheduled_down: u64,
    pub unscheduled_down: u64,
    pub nonscheduled: u64,
}

/// In ms: total time, uptime, production time, and the theoretical production time for actual and for effective units.
#[derive(Clone, Copy, Debug, PartialEq, Eq)]
pub struct Quantities {
    pub total: u64,
    pub uptime: u64,
    pub production: u64,
    pub actual: u64,
    pub effective: u64,
}

/// A quotient of two quantities, or none where the denominator is 0.
#[derive(Clone, Copy, Debug, PartialEq)]
pub enum Efficiency {
    Ratio(f64),
    NoBase,
}

/// The set of doubles. The product is 0 where one of the four efficiencies has no base.
#[derive(Clone, Copy, Debug, PartialEq)]
pub struct Figures {
    pub availability: Efficiency,
    pub operational: Efficiency,
    pub rate: Efficiency,
    pub quality: Efficiency,
    pub oee: f64,
    pub product: f64,
}

/// The four losses and the OEE, in ten-thousandths of total time. They make 10,000, so this OEE may differ by 1 from the report's.
#[derive(Clone, Copy, Debug, PartialEq, Eq)]
pub struct Losses {
    pub availability: u64,
    pub operational: u64,
    pub rate: u64,
    pub quality: u64,
    pub oee: u64,
}

/// A standard: its index in the log's list, and its theoretical time in ms.
#[derive(Clone, Copy, Debug, PartialEq, Eq)]
pub struct InForce {
    pub index: usize,
    pub time: u64,
}

/// The supplemental figures of the tool, in ten-thousandths of its total time.
#[derive(Clone, Copy, Debug, PartialEq, Eq)]
pub struct Supplemental {
    pub reference: u64,
    pub optimized: u64,
    pub value_added: u64,
    pub total_effective_units: u64,
}

// SAFETY, of every call below: the pointers are those of a slice or of an array of the size that the C function has, they do not overlap, and the
// functions keep none of them.

fn answered<T>(flag: u32, refusal: [u64; 3], answer: T) -> Result<T, Refusal> {
    if flag == 0 {
        Err(Refusal::new(refusal))
    } else {
        Ok(answer)
    }
}

// The whole numbers that a function puts into an array, or why it refuses.
fn numbers<const N: usize>(call: impl FnOnce(&mut [u64; N], &mut [u64; 3]) -> u32) -> Result<[u64; N], Refusal> {
    let (mut numbers, mut refusal) = ([0; N], [0; 3]);
    let flag = call(&mut numbers, &mut refusal);
    answered(flag, refusal, numbers)
}

/// Whether the log is accepted and its report fits `room` bytes.
pub fn examine(log: &[u8], room: usize) -> Result<(), Refusal> {
    let mut refusal = [0; 3];
    let flag = unsafe { c::tl_examine(log.as_ptr(), log.len(), room, &mut refusal) };
    answered(flag, refusal, ())
}

/// Writes the report to the front of the buffer and hands that part back. No byte changes where `examine` refuses for the buffer's length.
pub fn report_into<'a>(log: &[u8], buf: &'a mut [u8]) -> Result<&'a mut [u8], Refusal> {
    let written = unsafe { c::tl_report(log.as_ptr(), log.len(), buf.as_mut_ptr(), buf.len()) };
    if written == 0 {
        examine(log, buf.len())?;
    }
    Ok(&mut buf[..written])
}

/// The shift report: a heading, a line for each module, and the tool's line.
pub fn report(log: &[u8]) -> Result<String, Refusal> {
    let mut buf = [0; LONGEST_REPORT];
    let text = report_into(log, &mut buf)?;
    Ok(String::from_utf8_lossy(text).into_owned())
}

/// How many modules the log has, from 1 to 64.
pub fn module_count(log: &[u8]) -> Result<usize, Refusal> {
    examine(log, LONGEST_REPORT)?;
    Ok((0..64).take_while(|&m| module_state_times(log, m).is_ok()).count())
}

fn state_times([productive, standby, engineering, scheduled_down, unscheduled_down, nonscheduled]: [u64; 6]) -> StateTimes {
    StateTimes { productive, standby, engineering, scheduled_down, unscheduled_down, nonscheduled }
}

pub fn module_state_times(log: &[u8], module: usize) -> Result<StateTimes, Refusal> {
    numbers(|times, refusal| unsafe { c::tl_module_state_times(log.as_ptr(), log.len(), module, times, refusal) }).map(state_times)
}

pub fn tool_state_times(log: &[u8]) -> Result<StateTimes, Refusal> {
    numbers(|times, refusal| unsafe { c::tl_tool_state_times(log.as_ptr(), log.len(), times, refusal) }).map(state_times)
}

fn quantities([total, uptime, production, actual, effective]: [u64; 5]) -> Quantities {
    Quantities { total, uptime, production, actual, effective }
}

pub fn module_quantities(log: &[u8], module: usize) -> Result<Quantities, Refusal> {
    numbers(|quantities, refusal| unsafe { c::tl_module_quantities(log.as_ptr(), log.len(), module, quantities, refusal) }).map(quantities)
}

pub fn tool_quantities(log: &[u8]) -> Result<Quantities, Refusal> {
    numbers(|quantities, refusal| unsafe { c::tl_tool_quantities(log.as_ptr(), log.len(), quantities, refusal) }).map(quantities)
}

fn figures(flag: u32, doubles: [f64; 6], based: [u8; 4], refusal: [u64; 3]) -> Result<Figures, Refusal> {
    let efficiency = |i: usize| if based[i] == 1 { Efficiency::Ratio(doubles[i]) } else { Efficiency::NoBase };
    let [.., oee, product] = doubles;
    let (availability, operational, rate, quality) = (efficiency(0), efficiency(1), efficiency(2), efficiency(3));
    answered(flag, refusal, Figures { availability, operational, rate, quality, oee, product })
}

pub fn module_figures(log: &[u8], module: usize) -> Result<Figures, Refusal> {
    let (mut doubles, mut based, mut refusal) = ([0.0; 6], [0; 4], [0; 3]);
    let flag = unsafe { c::tl_module_figures(log.as_ptr(), log.len(), module, &mut doubles, &mut based, &mut refusal) };
    figures(flag, doubles, based, refusal)
}

pub fn tool_figures(log: &[u8]) -> Result<Figures, Refusal> {
    let (mut doubles, mut based, mut refusal) = ([0.0; 6], [0; 4], [0; 3]);
    let flag = unsafe { c::tl_tool_figures(log.as_ptr(), log.len(), &mut doubles, &mut based, &mut refusal) };
    figures(flag, doubles, based, refusal)
}

fn losses([availability, operational, rate, quality, oee]: [u64; 5]) -> Losses {
    Losses { availability, operational, rate, quality, oee }
}

pub fn module_losses(log: &[u8], module: usize) -> Result<Losses, Refusal> {
    numbers(|losses, refusal| unsafe { c::tl_module_losses(log.as_ptr(), log.len(), module, losses, refusal) }).map(losses)
}

pub fn tool_losses(log: &[u8]) -> Result<Losses, Refusal> {
    numbers(|losses, refusal| unsafe { c::tl_tool_losses(log.as_ptr(), log.len(), losses, refusal) }).map(losses)
}

/// The actual units credited to each standard, by its index: to the one in force at a unit record's time. Those of standards that the log does not
/// have are 0, and all add up to the actual units of the log.
pub fn credited_units(log: &[u8]) -> Result<[u64; MOST_STANDARDS], Refusal> {
    numbers(|units, refusal| unsafe { c::tl_credited_units(log.as_ptr(), log.len(), units, refusal) })
}

/// Writes the listing of credited units to the front of the buffer and hands that part back. Where the log is refused, or the buffer is shorter, no
/// byte changes.
pub fn credited_listing_into<'a>(log: &[u8], buf: &'a mut [u8]) -> Result<&'a mut [u8], Refusal> {
    let [length] =
        numbers(|length, refusal| unsafe { c::tl_credited_listing(log.as_ptr(), log.len(), buf.as_mut_ptr(), buf.len(), length, refusal) })?;
    Ok(&mut buf[..length as usize])
}

/// A line of each standard's index and credited units. That of a log without standards is empty.
pub fn credited_listing(log: &[u8]) -> Result<String, Refusal> {
    let mut buf = [0; CREDITED_LISTING_ROOM];
    let text = credited_listing_into(log, &mut buf)?;
    Ok(String::from_utf8_lossy(text).into_owned())
}

/// The module's standard for the recipe with the latest start at or before the time, which may be past the period.
pub fn standard_in_force(log: &[u8], module: usize, recipe: usize, time: u64) -> Result<Option<InForce>, Refusal> {
    let (mut standard, mut refusal) = ([0; 2], [0; 3]);
    let flag = unsafe { c::tl_standard_in_force(log.as_ptr(), log.len(), module, recipe, time, &mut standard, &mut refusal) };
    let [index, time] = standard;
    answered(flag, refusal, (flag == 1).then_some(InForce { index: index as usize, time }))
}

/// The supplemental figures of the tool. Benchmarks are 14 bytes for each standard of the log, in the standards' sequence: reference, optimized and
/// value-added time in ms a unit and total effective units, 27 bits each, and 4 spare bits.
pub fn supplemental(log: &[u8], benchmarks: &[u8]) -> Result<Supplemental, Refusal> {
    let [reference, optimized, value_added, total_effective_units] =
        numbers(|figures, refusal| unsafe { c::tl_supplemental(log.as_ptr(), log.len(), benchmarks.as_ptr(), benchmarks.len(), figures, refusal) })?;
    Ok(Supplemental { reference, optimized, value_added, total_effective_units })
}

// Where the record ends. The library's position is within the buffer, so it is a usize.
fn position([next]: [u64; 1]) -> usize {
    next as usize
}

/// Adds a header at a position of the buffer and answers the position behind it. Where a value does not fit its field, or else the record the buffer,
/// it is refused and no byte changes. What the values mean is left to [`finish_log`]. So it is with the other three; a [`Writer`] keeps the position.
pub fn put_header(buf: &mut [u8], at: usize, period: u64, modules: u64, states: u64, standards: u64, units: u64) -> Result<usize, Refusal> {
    numbers(|next, refusal| unsafe { c::tl_put_header(buf.as_mut_ptr(), buf.len(), at, period, modules, states, standards, units, next, refusal) })
        .map(position)
}

/// Adds a state record, as [`put_header`] does a header.
pub fn put_state(buf: &mut [u8], at: usize, module: u64, code: u64, time: u64) -> Result<usize, Refusal> {
    numbers(|next, refusal| unsafe { c::tl_put_state(buf.as_mut_ptr(), buf.len(), at, module, code, time, next, refusal) }).map(position)
}

/// Adds a standard, as [`put_header`] does a header.
pub fn put_standard(buf: &mut [u8], at: usize, module: u64, recipe: u64, start: u64, theoretical: u64) -> Result<usize, Refusal> {
    numbers(|next, refusal| unsafe { c::tl_put_standard(buf.as_mut_ptr(), buf.len(), at, module, recipe, start, theoretical, next, refusal) })
        .map(position)
}

/// Adds a unit record, as [`put_header`] does a header.
pub fn put_unit(buf: &mut [u8], at: usize, module: u64, recipe: u64, time: u64, actual: u64, effective: u64) -> Result<usize, Refusal> {
    numbers(|next, refusal| unsafe { c::tl_put_unit(buf.as_mut_ptr(), buf.len(), at, module, recipe, time, actual, effective, next, refusal) })
        .map(position)
}

/// Whether the bytes before a position are a log that is accepted. Bytes from there on are not looked at.
pub fn finish_log(buf: &[u8], at: usize) -> Result<(), Refusal> {
    let mut refusal = [0; 3];
    let flag = unsafe { c::tl_finish_log(buf.as_ptr(), buf.len(), at, &mut refusal) };
    answered(flag, refusal, ())
}

/// Writes the joined log to the front of the buffer and hands that part back. Where either log is refused, the two are not to be joined, or the buffer
/// is shorter, no byte changes.
pub fn join_logs_into<'a>(first: &[u8], second: &[u8], buf: &'a mut [u8]) -> Result<&'a mut [u8], Refusal> {
    let [length] = numbers(|length, refusal| unsafe {
        c::tl_join(first.as_ptr(), first.len(), second.as_ptr(), second.len(), buf.as_mut_ptr(), buf.len(), length, refusal)
    })?;
    Ok(&mut buf[..length as usize])
}

/// One log of two consecutive ones of a tool, the earlier one first. The second's times and starts are moved up by the first's period, and no record
/// of either is left out. The second's refusals have the lists from `Second` on. With no list, `UnlikeTools` is about both together, and `Period` or
/// `Counts` may be: else it is about the first, which [`examine`] tells.
pub fn join_logs(first: &[u8], second: &[u8]) -> Result<Vec<u8>, Refusal> {
    let mut buf = [0; LONGEST_LOG];
    join_logs_into(first, second, &mut buf).map(|log| log.to_vec())
}

/// Packs the log that fills the buffer and hands the packed one back; the bytes behind it are 0 then. Where the log is refused, no byte changes: a
/// buffer with bytes behind its log is one of another length.
pub fn pack_log_in_place(buf: &mut [u8]) -> Result<&mut [u8], Refusal> {
    let [length] = numbers(|length, refusal| unsafe { c::tl_pack(buf.as_mut_ptr(), buf.len(), length, refusal) })?;
    Ok(&mut buf[..length as usize])
}

/// The log without each state record whose code is its module's current one, and without each standard whose time is the one in force just before for
/// its module and recipe. Each ms keeps its codes and its times in force, so that state times, quantities, figures, losses and the report stay. No log
/// that says the same is shorter. The units of a dropped standard are credited to the one before it.
pub fn pack_log(log: &[u8]) -> Result<Vec<u8>, Refusal> {
    pack_log_in_place(&mut log.to_vec()).map(|packed| packed.to_vec())
}

/// A log written record by record into a lent buffer: the header, then the states, standards and units that it counts, then `finish`.
///
/// Each method adds one record, or is refused and leaves the writer as it was: `TooWide` where a value does not fit its field, else `ShortBuffer`
/// where the record does not fit what is left of the buffer. What the values mean is tested by `finish` alone.
///
/// ```
/// # fn main() -> Result<(), tool_log::Refusal> {
/// let mut buf = [0; tool_log::LONGEST_LOG];
/// let mut writer = tool_log::Writer::new(&mut buf);
/// writer.header(3_600_000, 1, 2, 1, 1)?; // an hour of one module: two state records, a standard, a unit record
/// writer.state(0, 0, 0)?; // module 0 is productive (code 0) from 0 on
/// writer.state(0, 18, 2_700_000)?; // and under repair (code 18) for the last quarter
/// writer.standard(0, 3, 0, 60_000)?; // a unit of recipe 3 takes a minute at module 0
/// writer.unit(0, 3, 2_700_000, 36, 27)?; // 36 were made, 27 of them good
/// let log = writer.finish()?;
/// assert_eq!(log.len(), 43);
/// assert!(tool_log::report(log)?.ends_with("tool 0.7500 1.0000 0.8000 0.7500 0.4500\n"));
/// # Ok(())
/// # }
/// ```
#[derive(Debug)]
pub struct Writer<'a> {
    buf: &'a mut [u8],
    at: usize,
}

impl<'a> Writer<'a> {
    /// A writer at the front of the buffer. A log has at most [`LONGEST_LOG`] bytes.
    pub fn new(buf: &'a mut [u8]) -> Self {
        Writer { buf, at: 0 }
    }

    /// The period in ms, and how many modules, state records, standards and unit records there are.
    pub fn header(&mut self, period: u64, modules: u64, states: u64, standards: u64, units: u64) -> Result<(), Refusal> {
        self.at = put_header(self.buf, self.at, period, modules, states, standards, units)?;
        Ok(())
    }

    /// From this time on the module has this sub-state code.
    pub fn state(&mut self, module: u64, code: u64, time: u64) -> Result<(), Refusal> {
        self.at = put_state(self.buf, self.at, module, code, time)?;
        Ok(())
    }

    /// From this start on a unit of the recipe takes this theoretical time, in ms, at this module alone.
    pub fn standard(&mut self, module: u64, recipe: u64, start: u64, theoretical: u64) -> Result<(), Refusal> {
        self.at = put_standard(self.buf, self.at, module, recipe, start, theoretical)?;
        Ok(())
    }

    /// Units of the recipe that the module made, judged by its standard in force at this time, and how many of them are effective.
    pub fn unit(&mut self, module: u64, recipe: u64, time: u64, actual: u64, effective: u64) -> Result<(), Refusal> {
        self.at = put_unit(self.buf, self.at, module, recipe, time, actual, effective)?;
        Ok(())
    }

    /// The bytes so far, whether or not they are a log.
    pub fn written(&self) -> &[u8] {
        &self.buf[..self.at]
    }

    /// The log, or the reader's refusal.
    pub fn finish(self) -> Result<&'a [u8], Refusal> {
        finish_log(self.buf, self.at)?;
        Ok(&self.buf[..self.at])
    }
}

//! Document 01 with the rising sequence of R-1 and the standards of R-5 in plain Rust, written to be read beside them and not
//! to be fast.

use crate::losses::Bar;
use crate::records::*;

/// The greatest sum that a tool may have: 2^53 - 1.
const GREATEST_SUM: u64 = 9_007_199_254_740_991;

// ---------------------------------------------------------------- reading

/// Reads fields bit by bit, most significant first.
pub(crate) struct BitReader<'a> {
    pub(crate) bytes: &'a [u8],
    pub(crate) position: usize,
}

impl BitReader<'_> {
    fn bit(&mut self) -> u64 {
        let byte = self.bytes[self.position / 8];
        let bit = (byte >> (7 - self.position % 8)) & 1;
        self.position += 1;
        u64::from(bit)
    }

    pub(crate) fn number(&mut self, width: usize) -> u64 {
        let mut number = 0;
        for _ in 0..width {
            number = 2 * number + self.bit();
        }
        number
    }

    fn header(&mut self) -> Header {
        Header {
            period: self.number(35),
            modules: self.number(7),
            states: self.number(14),
            standards: self.number(11),
            units: self.number(13),
        }
    }

    fn state_record(&mut self) -> StateRecord {
        StateRecord {
            module: self.number(6),
            code: self.number(5),
            time: self.number(35),
            spare: self.number(2),
        }
    }

    fn standard(&mut self) -> Standard {
        Standard {
            module: self.number(6),
            recipe: self.number(10),
            start: self.number(35),
            theoretical: self.number(27),
            spare: self.number(2),
        }
    }

    fn unit_record(&mut self) -> UnitRecord {
        UnitRecord {
            module: self.number(6),
            recipe: self.number(10),
            time: self.number(35),
            actual: self.number(16),
            effective: self.number(16),
            spare: self.number(5),
        }
    }
}

/// A log whose header passed and whose length is right; its records are not tested yet.
#[derive(Clone)]
pub struct Log {
    pub header: Header,
    pub states: Vec<StateRecord>,
    pub standards: Vec<Standard>,
    pub units: Vec<UnitRecord>,
}

/// The header of a log that passes grounds 1 to 5.
pub fn header(bytes: &[u8]) -> Result<Header, Refusal> {
    let length = bytes.len() as u64;
    if length < HEADER_BYTES {
        return Err(Refusal::of_log(1));
    }
    let header = BitReader { bytes, position: 0 }.header();
    if header.period == 0 || header.period > LONGEST_PERIOD {
        return Err(Refusal::of_log(2));
    }
    if header.modules == 0 || header.modules > MOST_MODULES {
        return Err(Refusal::of_log(3));
    }
    if header.states > MOST_STATES || header.standards > MOST_STANDARDS || header.units > MOST_UNITS
    {
        return Err(Refusal::of_log(4));
    }
    let due = HEADER_BYTES
        + STATE_BYTES * header.states
        + STANDARD_BYTES * header.standards
        + UNIT_BYTES * header.units;
    if length != due {
        return Err(Refusal::of_log(5));
    }
    Ok(header)
}

/// The records behind the header.
pub fn read(bytes: &[u8]) -> Result<Log, Refusal> {
    let header = header(bytes)?;
    let position = 8 * HEADER_BYTES as usize;
    let mut reader = BitReader { bytes, position };
    Ok(Log {
        header,
        states: (0..header.states).map(|_| reader.state_record()).collect(),
        standards: (0..header.standards).map(|_| reader.standard()).collect(),
        units: (0..header.units).map(|_| reader.unit_record()).collect(),
    })
}

// ---------------------------------------------------------------- states

#[derive(Clone, Copy, Debug, PartialEq, Eq)]
pub enum State {
    Productive,
    Standby,
    Engineering,
    ScheduledDown,
    UnscheduledDown,
    Nonscheduled,
}

/// The state of a sub-state code, none above 23.
pub fn state_of(code: u64) -> Option<State> {
    match code {
        0..=5 => Some(State::Productive),
        6..=11 => Some(State::Standby),
        12..=13 => Some(State::Engineering),
        14..=17 => Some(State::ScheduledDown),
        18..=21 => Some(State::UnscheduledDown),
        22..=23 => Some(State::Nonscheduled),
        _ => None,
    }
}

/// Six times in ms, in the sequence of `State`.
pub type StateTimes = [u64; 6];

/// Records of one module, in list sequence.
fn records_of(log: &Log, module: u64) -> Vec<StateRecord> {
    log.states
        .iter()
        .copied()
        .filter(|record| record.module == module)
        .collect()
}

/// A module's state times by its stretches: each record holds until the module's next or the period's end.
fn stretched_state_times(log: &Log, module: u64) -> StateTimes {
    let mut times = [0; 6];
    let records = records_of(log, module);
    for (index, record) in records.iter().enumerate() {
        let end = match records.get(index + 1) {
            Some(next) => next.time,
            None => log.header.period,
        };
        let state = state_of(record.code).expect("a tested code");
        times[state as usize] += end - record.time;
    }
    times
}

/// A module's state times counted millisecond by millisecond, as document 01 defines them.
fn counted_state_times(log: &Log, module: u64) -> StateTimes {
    let mut times = [0; 6];
    let records = records_of(log, module);
    for moment in 0..log.header.period {
        let latest = records
            .iter()
            .filter(|record| record.time <= moment)
            .max_by_key(|record| record.time)
            .expect("a record at time 0");
        let state = state_of(latest.code).expect("a tested code");
        times[state as usize] += 1;
    }
    times
}

/// Work above which the milliseconds of a module are not counted one by one.
const COUNTED_WORK: u64 = 20_000;

fn state_times(log: &Log, module: u64) -> StateTimes {
    let times = stretched_state_times(log, module);
    if log.header.period * log.header.states <= COUNTED_WORK {
        assert_eq!(
            times,
            counted_state_times(log, module),
            "stretches and milliseconds disagree"
        );
    }
    assert_eq!(
        times.iter().sum::<u64>(),
        log.header.period,
        "the six do not add up to the period"
    );
    times
}

// ---------------------------------------------------------------- sums

/// The five quantities, in ms.
#[derive(Clone, Copy, Debug, Default, PartialEq, Eq)]
pub struct Quantities {
    pub total: u64,
    pub uptime: u64,
    pub production: u64,
    pub actual: u64,
    pub effective: u64,
}

impl Quantities {
    pub fn array(&self) -> [u64; 5] {
        [
            self.total,
            self.uptime,
            self.production,
            self.actual,
            self.effective,
        ]
    }
}

/// What is summed for one module or for the tool.
#[derive(Clone, Copy, Debug, Default, PartialEq, Eq)]
pub struct Sums {
    pub state_times: StateTimes,
    pub quantities: Quantities,
}

/// The standard in force: of the standards of the module and recipe at or before the time, the one with the latest
/// start. Of two equal starts, which only a refused log has, the first in the list.
pub fn in_force(standards: &[Standard], module: u64, recipe: u64, time: u64) -> Option<Standard> {
    let mut found: Option<Standard> = None;
    for standard in standards {
        if standard.module != module || standard.recipe != recipe || standard.start > time {
            continue;
        }
        match found {
            Some(other) if other.start >= standard.start => {}
            _ => found = Some(*standard),
        }
    }
    found
}

/// R-3's walk from the end of the list towards its front: the last standard of the module and recipe with a start
/// at or before the time.
pub fn last_in_force(
    standards: &[Standard],
    module: u64,
    recipe: u64,
    time: u64,
) -> Option<Standard> {
    let begun = |standard: &&Standard| {
        standard.module == module && standard.recipe == recipe && standard.start <= time
    };
    standards.iter().rev().find(begun).copied()
}

/// The standard of a tested unit. In the rising sequence the walk answers the one in force.
pub fn standard_of(log: &Log, unit: &UnitRecord) -> Standard {
    let standard = in_force(&log.standards, unit.module, unit.recipe, unit.time);
    assert_eq!(
        last_in_force(&log.standards, unit.module, unit.recipe, unit.time),
        standard,
        "the walk answers another standard than the one in force"
    );
    standard.expect("a tested unit")
}

fn module_sums(log: &Log, module: u64) -> Sums {
    let state_times = state_times(log, module);
    let time_in = |state: State| state_times[state as usize];
    let mut quantities = Quantities {
        total: log.header.period,
        uptime: time_in(State::Productive) + time_in(State::Standby) + time_in(State::Engineering),
        production: time_in(State::Productive),
        actual: 0,
        effective: 0,
    };
    for unit in log.units.iter().filter(|unit| unit.module == module) {
        let standard = standard_of(log, unit);
        quantities.actual += unit.actual * standard.theoretical;
        quantities.effective += unit.effective * standard.theoretical;
    }
    Sums {
        state_times,
        quantities,
    }
}

fn tool_sums(modules: &[Sums]) -> Sums {
    let mut tool = Sums::default();
    for module in modules {
        for (sum, time) in tool.state_times.iter_mut().zip(module.state_times) {
            *sum += time;
        }
        tool.quantities.total += module.quantities.total;
        tool.quantities.uptime += module.quantities.uptime;
        tool.quantities.production += module.quantities.production;
        tool.quantities.actual += module.quantities.actual;
        tool.quantities.effective += module.quantities.effective;
    }
    tool
}

// ---------------------------------------------------------------- grounds 6 to 17 and 19

fn test_state_records(log: &Log) -> Result<(), Refusal> {
    for (place, record) in log.states.iter().enumerate() {
        let refused = |number| Err(Refusal::new(number, STATES, place));
        let earlier = &log.states[..place];
        if record.spare != 0 {
            return refused(6);
        }
        if record.module >= log.header.modules {
            return refused(7);
        }
        if state_of(record.code).is_none() {
            return refused(8);
        }
        if record.time >= log.header.period {
            return refused(9);
        }
        // By time, and those of equal time by module.
        let not_above_the_one_before = earlier
            .last()
            .is_some_and(|last| (record.time, record.module) <= (last.time, last.module));
        let own_last = earlier
            .iter()
            .rev()
            .find(|other| other.module == record.module);
        let not_after_own_last = own_last.is_some_and(|last| record.time <= last.time);
        if not_above_the_one_before || not_after_own_last {
            return refused(10);
        }
    }
    Ok(())
}

fn test_openings(log: &Log) -> Result<(), Refusal> {
    for module in 0..log.header.modules {
        let opening = log.states.iter().find(|record| record.module == module);
        if opening.is_none_or(|record| record.time != 0) {
            return Err(Refusal {
                number: 11,
                list: NO_LIST,
                place: module,
            });
        }
    }
    Ok(())
}

fn test_standards(log: &Log) -> Result<(), Refusal> {
    for (place, standard) in log.standards.iter().enumerate() {
        let refused = |number| Err(Refusal::new(number, STANDARDS, place));
        if standard.spare != 0 {
            return refused(6);
        }
        if standard.module >= log.header.modules {
            return refused(7);
        }
        if standard.start >= log.header.period {
            return refused(9);
        }
        if standard.theoretical == 0 {
            return refused(12);
        }
        let alike = |other: &Standard| {
            other.module == standard.module
                && other.recipe == standard.recipe
                && other.start == standard.start
        };
        let earlier = &log.standards[..place];
        if earlier.iter().any(alike) {
            return refused(13);
        }
        // By module, then recipe, then start.
        let not_above_the_one_before = earlier.last().is_some_and(|last| {
            (standard.module, standard.recipe, standard.start)
                <= (last.module, last.recipe, last.start)
        });
        if not_above_the_one_before {
            return refused(19);
        }
    }
    Ok(())
}

fn test_unit_records(log: &Log) -> Result<(), Refusal> {
    for (place, unit) in log.units.iter().enumerate() {
        let refused = |number| Err(Refusal::new(number, UNITS, place));
        if unit.spare != 0 {
            return refused(6);
        }
        if unit.module >= log.header.modules {
            return refused(7);
        }
        if unit.time >= log.header.period {
            return refused(9);
        }
        if unit.effective > unit.actual {
            return refused(14);
        }
        if in_force(&log.standards, unit.module, unit.recipe, unit.time).is_none() {
            return refused(15);
        }
        // By time, then module, then recipe.
        let not_above_the_one_before = log.units[..place].last().is_some_and(|last| {
            (unit.time, unit.module, unit.recipe) <= (last.time, last.module, last.recipe)
        });
        if not_above_the_one_before {
            return refused(19);
        }
    }
    Ok(())
}

fn test_rates(modules: &[Sums]) -> Result<(), Refusal> {
    for (module, sums) in modules.iter().enumerate() {
        if sums.quantities.actual > sums.quantities.production {
            return Err(Refusal::new(16, NO_LIST, module));
        }
    }
    Ok(())
}

fn test_tool(tool: &Sums) -> Result<(), Refusal> {
    let too_great = |sum: &u64| *sum > GREATEST_SUM;
    if tool.quantities.array().iter().any(too_great) || tool.state_times.iter().any(too_great) {
        return Err(Refusal::of_log(17));
    }
    Ok(())
}

// ---------------------------------------------------------------- the whole log

/// The sums of an accepted log.
#[derive(Clone, Debug, PartialEq, Eq)]
pub struct Account {
    pub modules: Vec<Sums>,
    pub tool: Sums,
}

/// Every ground but 18; the sums of a log that meets none of them.
pub fn account(bytes: &[u8]) -> Result<Account, Refusal> {
    let log = read(bytes)?;
    test_state_records(&log)?;
    test_openings(&log)?;
    test_standards(&log)?;
    test_unit_records(&log)?;
    let modules: Vec<Sums> = (0..log.header.modules)
        .map(|module| module_sums(&log, module))
        .collect();
    test_rates(&modules)?;
    let tool = tool_sums(&modules);
    test_tool(&tool)?;
    Ok(Account { modules, tool })
}

impl Account {
    /// The sums of a module, or the refusal of one at or above the count.
    pub fn module(&self, module: usize) -> Result<&Sums, Refusal> {
        self.modules
            .get(module)
            .ok_or(Refusal::new(7, NO_LIST, module))
    }

    /// The whole report.
    pub fn report(&self) -> Vec<u8> {
        let mut text = String::from("module avail oper rate qual oee\n");
        for (module, sums) in self.modules.iter().enumerate() {
            text.push_str(&line(&module.to_string(), &sums.quantities));
        }
        text.push_str(&line("tool", &self.tool.quantities));
        text.into_bytes()
    }

    /// The six state times of each module and of the tool.
    pub fn times(&self) -> Vec<u8> {
        self.table(
            "productive standby engineering scheduled unscheduled nonscheduled",
            |sums| sums.state_times.to_vec(),
            |time| time.to_string(),
        )
    }

    /// The five quantities of each module and of the tool.
    pub fn quantities(&self) -> Vec<u8> {
        self.table(
            "total uptime production actual effective",
            |sums| sums.quantities.array().to_vec(),
            |quantity| quantity.to_string(),
        )
    }

    /// The four losses and OEE of each module and of the tool, as R-6 has them.
    pub fn losses(&self) -> Vec<u8> {
        self.table(
            "availability operational rate quality oee",
            |sums| Bar::of(&sums.quantities).parts.to_vec(),
            four_places,
        )
    }

    fn table(
        &self,
        columns: &str,
        numbers: impl Fn(&Sums) -> Vec<u64>,
        printed: impl Fn(u64) -> String,
    ) -> Vec<u8> {
        let mut text = format!("module {columns}\n");
        let modules = (0..).map(|module: usize| module.to_string());
        let names = modules.take(self.modules.len()).chain(["tool".to_string()]);
        for (name, sums) in names.zip(self.modules.iter().chain([&self.tool])) {
            text.push_str(&name);
            for number in numbers(sums) {
                text.push_str(&format!(" {}", printed(number)));
            }
            text.push('\n');
        }
        text.into_bytes()
    }

    /// Ground 18, of a report in a buffer with room for so many bytes.
    pub fn fits(&self, room: usize) -> Result<(), Refusal> {
        if self.report().len() > room {
            return Err(Refusal::of_log(18));
        }
        Ok(())
    }
}

// ---------------------------------------------------------------- figures

/// Numerator and denominator of availability, operational, rate, quality and OEE.
fn quotients(quantities: &Quantities) -> [(u64, u64); 5] {
    let q = quantities;
    [
        (q.uptime, q.total),
        (q.production, q.uptime),
        (q.actual, q.production),
        (q.effective, q.actual),
        (q.effective, q.total),
    ]
}

/// Ten thousand times the quotient to the nearest whole number, an exact half going up.
pub fn ten_thousandths(numerator: u64, denominator: u64) -> u64 {
    let (n, d) = (u128::from(numerator), u128::from(denominator));
    let whole = 10_000 * n / d;
    let rest = 10_000 * n - whole * d;
    let rounded = if 2 * rest >= d { whole + 1 } else { whole };
    u64::try_from(rounded).expect("a figure in 64 bits")
}

fn printed(numerator: u64, denominator: u64) -> String {
    if denominator == 0 {
        return String::from("-");
    }
    four_places(ten_thousandths(numerator, denominator))
}

/// Ten-thousandths as they are printed.
pub fn four_places(figure: u64) -> String {
    format!("{}.{:04}", figure / 10_000, figure % 10_000)
}

fn line(name: &str, quantities: &Quantities) -> String {
    let mut line = String::from(name);
    for (numerator, denominator) in quotients(quantities) {
        line.push(' ');
        line.push_str(&printed(numerator, denominator));
    }
    line.push('\n');
    line
}

/// The set of doubles; an efficiency is none where it has no base.
#[derive(Clone, Copy, Debug, PartialEq)]
pub struct Figures {
    pub efficiencies: [Option<f64>; 4],
    pub oee: f64,
    pub product: f64,
}

/// A whole number as the double that equals it.
fn exact(number: u64) -> f64 {
    let double = number as f64;
    assert_eq!(double as u64, number, "a sum that no double equals");
    double
}

fn efficiency((numerator, denominator): (u64, u64)) -> Option<f64> {
    if denominator == 0 {
        return None;
    }
    Some(exact(numerator) / exact(denominator))
}

pub fn figures(quantities: &Quantities) -> Figures {
    let [availability, operational, rate, quality, oee] = quotients(quantities).map(efficiency);
    let product = match (availability, operational, rate, quality) {
        (Some(a), Some(o), Some(r), Some(q)) => ((a * o) * r) * q,
        _ => 0.0,
    };
    Figures {
        efficiencies: [availability, operational, rate, quality],
        oee: oee.expect("the total time is above 0"),
        product,
    }
}

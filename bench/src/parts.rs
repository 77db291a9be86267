//! What the plain programs share: header, state records, standards and the printed report.

use difftest::records::*;

pub const MODULES: usize = MOST_MODULES as usize;
pub const TIME_MASK: u64 = (1 << 35) - 1;

const GREATEST_SUM: u64 = (1 << 53) - 1;

/// Productive, standby, engineering, scheduled down, unscheduled down, nonscheduled; as many
/// counters as three bits can name, so that no index needs a test.
const STATES_OF_A_MODULE: usize = 1 << STATE_BITS;
const STATE_BITS: u32 = 3;
const STATE_MASK: u64 = (1 << STATE_BITS) - 1;

const STATE_OF_CODE: [u8; 32] = [
    0, 0, 0, 0, 0, 0, 1, 1, 1, 1, 1, 1, 2, 2, 3, 3, 3, 3, 4, 4, 4, 4, 5,
    5, // 24 to 31 are stray
    7, 7, 7, 7, 7, 7, 7, 7,
];

/// Where the fields of a state record's 48 bits are.
const MODULE_SHIFT: u32 = 42;
const MODULE_BITS: u32 = 6;
const CODE_SHIFT: u32 = 37;
const TIME_SHIFT: u32 = 2;
const SPARE_MASK: u64 = 3;
/// Time and spare bits together: while the spare bits are 0, the time in quarters of a ms.
const SHIFTED_TIME_MASK: u64 = (1 << CODE_SHIFT) - 1;

#[inline(always)]
pub fn state_word(record: &[u8; 6]) -> u64 {
    let [a, b, c, d, e, f] = *record;
    u64::from(u32::from_be_bytes([a, b, c, d])) << 16 | u64::from(u16::from_be_bytes([e, f]))
}

/// The eight bytes of a record from `at` on, as a number.
#[inline(always)]
pub fn eight<const N: usize>(record: &[u8; N], at: usize) -> u64 {
    let mut bytes = [0; 8];
    bytes.copy_from_slice(&record[at..at + 8]);
    u64::from_be_bytes(bytes)
}

/// A log of the right length, its three lists apart.
pub struct Lists<'a> {
    pub period: u64,
    pub modules: usize,
    pub states: &'a [u8],
    pub standards: &'a [u8],
    pub units: &'a [u8],
}

/// Grounds 1 to 5.
pub fn split(log: &[u8]) -> Result<Lists<'_>, Refusal> {
    let Some(header) = log.first_chunk::<10>() else {
        return Err(Refusal::of_log(1));
    };
    let front = eight(header, 0);
    let back = eight(header, 2);
    let period = front >> 29;
    let modules = front >> 22 & 0x7f;
    let states = back >> 24 & 0x3fff;
    let standards = back >> 13 & 0x7ff;
    let units = back & 0x1fff;
    if period == 0 || period > LONGEST_PERIOD {
        return Err(Refusal::of_log(2));
    }
    if modules == 0 || modules > MOST_MODULES {
        return Err(Refusal::of_log(3));
    }
    if states > MOST_STATES || standards > MOST_STANDARDS || units > MOST_UNITS {
        return Err(Refusal::of_log(4));
    }
    let states_end = HEADER_BYTES + STATE_BYTES * states;
    let standards_end = states_end + STANDARD_BYTES * standards;
    let units_end = standards_end + UNIT_BYTES * units;
    if log.len() as u64 != units_end {
        return Err(Refusal::of_log(5));
    }
    Ok(Lists {
        period,
        modules: modules as usize,
        states: &log[HEADER_BYTES as usize..states_end as usize],
        standards: &log[states_end as usize..standards_end as usize],
        units: &log[standards_end as usize..units_end as usize],
    })
}

/// Writes a header of ten bytes, with the counts of the three lists.
pub fn put_header(
    header: &mut [u8],
    period: u64,
    modules: u64,
    [states, standards, units]: [u64; 3],
) {
    let front = period << 29 | modules << 22 | states << 8 | standards >> 3;
    let back = front << 16 | (standards & 7) << 13 | units;
    header[..8].copy_from_slice(&front.to_be_bytes());
    header[2..].copy_from_slice(&back.to_be_bytes());
}

/// The records of a list. Its length is a multiple of N.
#[inline(always)]
pub fn records<const N: usize>(list: &[u8]) -> &[[u8; N]] {
    list.as_chunks().0
}

/// Uptime and production of each module.
pub struct Times {
    pub uptime: [u64; MODULES],
    pub production: [u64; MODULES],
}

impl Times {
    pub fn none() -> Times {
        Times {
            uptime: [0; MODULES],
            production: [0; MODULES],
        }
    }
}

/// One pass over the state records: grounds 6 to 11 and the times. Inlined it takes longer.
#[inline(never)]
pub fn add_states(lists: &Lists, times: &mut Times) -> Result<(), Refusal> {
    let records = records::<6>(lists.states);
    let mut open = [0u64; MODULES];
    let openings = openings(lists, records, &mut open)?;
    let mut counters = [[0u64; STATES_OF_A_MODULE]; MODULES];
    let modules_end = (lists.modules as u64) << MODULE_SHIFT;
    let period_end = lists.period << TIME_SHIFT;
    let mut latest = 0;
    for (place, record) in records.iter().enumerate().skip(openings.records) {
        let word = state_word(record);
        let module = (word >> MODULE_SHIFT) as usize % MODULES;
        let code = word >> CODE_SHIFT & 31;
        let time = word & SHIFTED_TIME_MASK;
        let before = open[module];
        let since = before >> STATE_BITS;
        // By time and module; with that each module's own times rise.
        let key = time << MODULE_BITS | module as u64;
        let bad = (word >= modules_end)
            | (code > 23)
            | (time >= period_end)
            | (key <= latest)
            | (word & SPARE_MASK != 0);
        if bad {
            return Err(state_refusal(word, lists, place));
        }
        latest = key;
        counters[module][(before & STATE_MASK) as usize] += time - since;
        open[module] = time << STATE_BITS | u64::from(STATE_OF_CODE[code as usize]);
    }
    let missing = !openings.modules & (u64::MAX >> (MODULES - lists.modules));
    if missing != 0 {
        return Err(Refusal::new(11, NO_LIST, missing.trailing_zeros() as usize));
    }
    for module in 0..lists.modules {
        let own = &mut counters[module];
        let last = open[module];
        own[(last & STATE_MASK) as usize] += period_end - (last >> STATE_BITS);
        times.production[module] = own[0] >> TIME_SHIFT;
        times.uptime[module] = (own[0] + own[1] + own[2]) >> TIME_SHIFT;
    }
    Ok(())
}

/// The records at time 0, which come first: how many, and of which modules.
struct Openings {
    records: usize,
    modules: u64,
}

/// Tests the records at time 0 and opens their modules' first stretches.
fn openings(
    lists: &Lists,
    records: &[[u8; 6]],
    open: &mut [u64; MODULES],
) -> Result<Openings, Refusal> {
    let mut openings = Openings {
        records: 0,
        modules: 0,
    };
    for (place, record) in records.iter().enumerate() {
        let word = state_word(record);
        if word & (TIME_MASK << TIME_SHIFT) != 0 {
            break;
        }
        let module = (word >> MODULE_SHIFT) as usize;
        let code = word >> CODE_SHIFT & 31;
        let not_above_the_one_before = openings.modules >> module != 0;
        if word & SPARE_MASK != 0
            || module >= lists.modules
            || code > 23
            || not_above_the_one_before
        {
            return Err(state_refusal(word, lists, place));
        }
        openings.modules |= 1 << module;
        open[module] = u64::from(STATE_OF_CODE[code as usize]);
        openings.records += 1;
    }
    Ok(openings)
}

/// The first ground that a state record known to be bad meets.
#[cold]
fn state_refusal(word: u64, lists: &Lists, place: usize) -> Refusal {
    let number = if word & SPARE_MASK != 0 {
        6
    } else if (word >> MODULE_SHIFT) as usize >= lists.modules {
        7
    } else if word >> CODE_SHIFT & 31 > 23 {
        8
    } else if word >> TIME_SHIFT & TIME_MASK >= lists.period {
        9
    } else {
        10
    };
    Refusal::new(number, STATES, place)
}

pub const STANDARDS_MOST: usize = MOST_STANDARDS as usize;

/// Where the recipe of a key begins and where its module does: a standard's module, recipe and start, which its list
/// rises by; of a unit record its module, recipe and time.
pub const PAIR_SHIFT: u32 = 35;
const KEY_MODULE_SHIFT: u32 = 45;

/// The standards in list sequence, which rises. Ahead of them and behind them stands a key above every other.
pub struct Standards {
    pub count: usize,
    pub keys: [u64; STANDARDS_MOST + 2],
    pub theoretical: [u32; STANDARDS_MOST + 1],
}

impl Standards {
    pub fn none() -> Standards {
        Standards {
            count: 0,
            keys: [u64::MAX; STANDARDS_MOST + 2],
            theoretical: [0; STANDARDS_MOST + 1],
        }
    }

    /// Grounds 6, 7, 9, 12, 13 and 19. `begins` is told of each module and recipe, in one number, and its first place, from
    /// 1 on.
    #[inline(always)]
    pub fn read(
        &mut self,
        lists: &Lists,
        mut begins: impl FnMut(u64, usize),
    ) -> Result<(), Refusal> {
        let mut least = 0;
        let mut pair_before = u64::MAX;
        let modules_end = (lists.modules as u64) << KEY_MODULE_SHIFT;
        let records = records::<10>(lists.standards).iter();
        for (place, record) in records.enumerate().take(STANDARDS_MOST) {
            let key = eight(record, 0) >> 13;
            let back = eight(record, 2);
            let theoretical = (back >> 2 & 0x7ff_ffff) as u32;
            let bad = (back & SPARE_MASK != 0)
                | (key >= modules_end)
                | (key & TIME_MASK >= lists.period)
                | (theoretical == 0)
                | (key < least);
            if bad {
                let earlier = &self.keys[1..=place];
                return Err(standard_refusal(record, earlier, lists));
            }
            least = key + 1;
            self.count = place + 1;
            self.keys[place + 1] = key;
            self.theoretical[place + 1] = theoretical;
            let pair = key >> PAIR_SHIFT;
            if pair != pair_before {
                begins(pair, place + 1);
                pair_before = pair;
            }
        }
        Ok(())
    }
}

/// The first ground that a standard known to be bad meets, behind these keys.
#[cold]
fn standard_refusal(record: &[u8; 10], earlier: &[u64], lists: &Lists) -> Refusal {
    let (key, back) = (eight(record, 0) >> 13, eight(record, 2));
    let number = if back & SPARE_MASK != 0 {
        6
    } else if key >> KEY_MODULE_SHIFT >= lists.modules as u64 {
        7
    } else if key & TIME_MASK >= lists.period {
        9
    } else if back >> 2 & 0x7ff_ffff == 0 {
        12
    } else if earlier.contains(&key) {
        13
    } else {
        19
    };
    Refusal::new(number, STANDARDS, earlier.len())
}

/// A unit record's fields.
pub struct Unit {
    /// Time, module and recipe, which its list rises by.
    pub key: u64,
    /// Module, recipe and time, by which its standard is sought.
    pub sought: u64,
    pub module: usize,
    pub time: u64,
    pub actual: u64,
    pub effective: u64,
    pub spare: u64,
}

impl Unit {
    #[inline(always)]
    pub fn read(record: &[u8; 11]) -> Unit {
        let front = eight(record, 0);
        let back = eight(record, 3);
        Unit {
            key: (front >> 13 & TIME_MASK) << 16 | front >> 48,
            sought: front >> 13,
            module: (front >> 58) as usize,
            time: front >> 13 & TIME_MASK,
            actual: back >> 21 & 0xffff,
            effective: back >> 5 & 0xffff,
            spare: back & 31,
        }
    }

    /// Does it meet one of the grounds 6, 7, 9 and 14?
    #[inline(always)]
    pub fn is_bad(&self, lists: &Lists) -> bool {
        (self.spare != 0)
            | (self.module >= lists.modules)
            | (self.time >= lists.period)
            | (self.effective > self.actual)
    }

    #[cold]
    pub fn refusal(&self, lists: &Lists, place: usize) -> Refusal {
        let number = if self.spare != 0 {
            6
        } else if self.module >= lists.modules {
            7
        } else if self.time >= lists.period {
            9
        } else {
            14
        };
        Refusal::new(number, UNITS, place)
    }
}

/// Theoretical times of each module's actual and effective units.
pub struct Theoretical {
    pub actual: [u64; MODULES],
    pub effective: [u64; MODULES],
}

impl Theoretical {
    pub fn none() -> Theoretical {
        Theoretical {
            actual: [0; MODULES],
            effective: [0; MODULES],
        }
    }
}

/// Ground 16. No sum of a log that passes it meets 17.
pub fn not_too_fast(lists: &Lists, times: &Times, sums: &Theoretical) -> Result<(), Refusal> {
    let mut modules = 0..lists.modules;
    match modules.find(|&module| sums.actual[module] > times.production[module]) {
        Some(module) => Err(Refusal::new(16, NO_LIST, module)),
        None => Ok(()),
    }
}

/// The five quantities of a line.
#[derive(Clone, Copy, Default)]
struct Quantities {
    total: u64,
    uptime: u64,
    production: u64,
    actual: u64,
    effective: u64,
}

impl Quantities {
    /// Bytes of the line's five fields with the space ahead of each.
    fn width(&self) -> usize {
        let without_base = usize::from(self.uptime == 0)
            + usize::from(self.production == 0)
            + usize::from(self.actual == 0);
        5 * FIELD - without_base * (FIELD - 2)
    }
}

/// A space, a digit, a point and four digits.
const FIELD: usize = 7;
const HEADING: &[u8] = b"module avail oper rate qual oee\n";
const TOOL: &[u8] = b"tool";

/// Grounds 16 to 18, then the report at the front of the buffer; its length.
pub fn print(
    lists: &Lists,
    times: &Times,
    theoretical: &Theoretical,
    buffer: &mut [u8],
) -> Result<usize, Refusal> {
    let mut quantities = [Quantities::default(); MODULES];
    let mut tool = Quantities::default();
    let mut length = HEADING.len();
    for (module, slot) in quantities[..lists.modules].iter_mut().enumerate() {
        let own = Quantities {
            total: lists.period,
            uptime: times.uptime[module],
            production: times.production[module],
            actual: theoretical.actual[module],
            effective: theoretical.effective[module],
        };
        if own.actual > own.production {
            return Err(Refusal::new(16, NO_LIST, module));
        }
        tool.total += own.total;
        tool.uptime += own.uptime;
        tool.production += own.production;
        tool.actual += own.actual;
        tool.effective += own.effective;
        length += 1 + usize::from(module >= 10) + own.width() + 1;
        *slot = own;
    }
    // Every other sum of the tool is at most its total.
    if tool.total > GREATEST_SUM {
        return Err(Refusal::of_log(17));
    }
    length += TOOL.len() + tool.width() + 1;
    let Some(report) = buffer.get_mut(..length) else {
        return Err(Refusal::of_log(18));
    };

    let mut line = Cursor { report, at: 0 };
    line.put(HEADING);
    for (module, own) in quantities[..lists.modules].iter().enumerate() {
        let (tens, ones) = (b'0' + (module / 10) as u8, b'0' + (module % 10) as u8);
        if module >= 10 {
            line.put(&[tens, ones]);
        } else {
            line.put(&[ones]);
        }
        line.figures(own);
    }
    line.put(TOOL);
    line.figures(&tool);
    Ok(length)
}

struct Cursor<'a> {
    report: &'a mut [u8],
    at: usize,
}

impl Cursor<'_> {
    #[inline(always)]
    fn put(&mut self, bytes: &[u8]) {
        self.report[self.at..self.at + bytes.len()].copy_from_slice(bytes);
        self.at += bytes.len();
    }

    #[inline(always)]
    fn figure(&mut self, numerator: u64, denominator: u64) {
        if denominator == 0 {
            self.put(b" -");
            return;
        }
        let figure = ((20_000 * numerator + denominator) / (2 * denominator)) as u32;
        let (high, low) = (figure / 100, figure % 100);
        let digit = |value: u32| b'0' + (value % 10) as u8;
        self.put(&[
            b' ',
            digit(high / 100),
            b'.',
            digit(high / 10),
            digit(high),
            digit(low / 10),
            digit(low),
        ]);
    }

    #[inline(always)]
    fn figures(&mut self, own: &Quantities) {
        self.figure(own.uptime, own.total);
        self.figure(own.production, own.uptime);
        self.figure(own.actual, own.production);
        self.figure(own.effective, own.actual);
        self.figure(own.effective, own.total);
        self.put(b"\n");
    }
}

//! Compares what a call that packs a log answers and leaves with the oracle, and the log that it leaves with the one that it was given.

use crate::answer::{leaves, same_written, Answer};
use crate::oracle::{account as judged, header, read, Account};
use crate::packed::Packed;
use crate::records::*;
use crate::said::Said;

/// The longest log and more, as long as a buffer is once in so many logs.
const LARGE: [usize; 2] = [63_130, 70_000];
const LARGE_ONCE_IN: u64 = 32;

/// Bytes that a buffer is longer or shorter than the log, by turns; one past the log's own length is an empty buffer.
const BESIDE: [usize; 8] = [1, 6, 10, 11, 2, 14, 60, usize::MAX];

/// A call that packs the log that a buffer holds and answers its new length.
pub type Call = fn(&mut [u8]) -> Answer<[u64; 1]>;

/// The differences of a log, and what else was packed with it.
pub struct PackComparison {
    call: Call,
    /// Where buffers begin.
    offset: usize,
    pub differences: Vec<String>,
    /// The log that was left, where it is another one.
    pub left: Option<Vec<u8>>,
    /// Buffers refused with 5 that are longer than a log, and shorter.
    pub longer: u64,
    pub shorter: u64,
}

/// What a call left of a buffer up to the length that it answered, and all of the buffer.
type Left = Option<(Vec<u8>, Vec<u8>)>;

impl PackComparison {
    /// The number says where the buffer begins and how long those beside the log are.
    pub fn of(
        log: &[u8],
        verdict: &Result<Account, Refusal>,
        packed: &Result<Packed, Refusal>,
        number: u64,
        call: Call,
    ) -> PackComparison {
        let mut comparison = PackComparison::without_calls(number, call);
        let left = comparison.pack("pack", log, packed);
        if let (Some((packed, buffer)), Ok(account)) = (left, verdict) {
            comparison.again(&packed, &buffer);
            if packed != log {
                comparison.differences.extend(lost(log, account, &packed));
                comparison.left = Some(packed);
            }
        }
        for buffer in beside(log, number) {
            comparison.beside(log, &buffer);
        }
        comparison
    }

    /// What differs where a log is packed that says what another one says, which is packed to these bytes.
    pub fn alike(log: &[u8], packed: &[u8], number: u64, call: Call) -> Vec<String> {
        let mut comparison = PackComparison::without_calls(number, call);
        comparison.call("pack of a log that says the same", log, Ok(packed));
        comparison.differences
    }

    fn without_calls(number: u64, call: Call) -> PackComparison {
        PackComparison {
            call,
            offset: (number % 8) as usize,
            differences: Vec::new(),
            left: None,
            longer: 0,
            shorter: 0,
        }
    }

    /// The log that was left is packed, and with the zeros behind it it is none.
    fn again(&mut self, packed: &[u8], buffer: &[u8]) {
        self.call("packed again", packed, Ok(packed));
        if packed.len() < buffer.len() {
            let refused = Err(Refusal::of_log(5));
            self.call("packed again with the zeros", buffer, refused);
        }
    }

    /// A buffer of another length.
    fn beside(&mut self, log: &[u8], buffer: &[u8]) {
        let verdict = judged(buffer);
        let what = format!("pack in a buffer of {} bytes", buffer.len());
        self.pack(&what, buffer, &Packed::of(buffer, &verdict));
        let refused = verdict.err() == Some(Refusal::of_log(5));
        self.longer += u64::from(refused && buffer.len() > log.len());
        self.shorter += u64::from(refused && buffer.len() < log.len());
    }

    fn pack(&mut self, what: &str, before: &[u8], packed: &Result<Packed, Refusal>) -> Left {
        let due = packed.as_ref().map(|it| &it.bytes[..]);
        self.call(what, before, due.map_err(|refusal| *refusal))
    }

    /// A call on a buffer in which these bytes are due, and then zeros; or a refusal, and the bytes that it held.
    fn call(&mut self, what: &str, before: &[u8], due: Result<&[u8], Refusal>) -> Left {
        let buffer = due.map_or(before.to_vec(), |bytes| zeros_behind(bytes, before.len()));
        let mut left = Vec::new();
        let (answer, wrong) = leaves(before, &buffer, self.offset, |lent| {
            let answer = (self.call)(lent);
            left = lent.to_vec();
            answer
        });
        let differences = same_written(&due, &answer, wrong).into_iter();
        let told = differences.map(|it| format!("{what}: {it}"));
        self.differences.extend(told);
        let length = usize::try_from(answer.values[0]).ok();
        let length = length.filter(|length| answer.answered == 1 && *length <= left.len());
        length.map(|length| (left[..length].to_vec(), left))
    }
}

fn zeros_behind(bytes: &[u8], length: usize) -> Vec<u8> {
    let mut buffer = bytes.to_vec();
    buffer.resize(length, 0);
    buffer
}

/// A buffer that is longer than the log, with zeros or others behind it, and one that is shorter.
fn beside(log: &[u8], number: u64) -> [Vec<u8>; 2] {
    let by = BESIDE[(number / 8 % 8) as usize];
    let large = LARGE[(number / LARGE_ONCE_IN % 2) as usize];
    let longer = match number % LARGE_ONCE_IN {
        0 => large.max(log.len() + 1),
        _ => log.len() + by.min(200),
    };
    let filler = if number.is_multiple_of(2) { 0 } else { 0xa5 };
    let mut behind = log.to_vec();
    behind.resize(longer, filler);
    let shorter = log.len().saturating_sub(by);
    [behind, log[..shorter].to_vec()]
}

/// What an accepted log has lost in these bytes, or has too much of in them, whatever the oracle packs it to.
pub fn lost(log: &[u8], account: &Account, packed: &[u8]) -> Vec<String> {
    let left = match judged(packed) {
        Ok(left) => left,
        Err(refusal) => return vec![format!("the packed log: {}", refusal.line().trim_end())],
    };
    let [before, after] = [log, packed].map(|bytes| read(bytes).expect("an accepted log"));
    let said = Said::by(&before);
    let units = [log, packed].map(units_of);
    let counts = [after.header.states, after.header.standards];
    let compared = [
        (left.modules != account.modules, "other sums of a module"),
        (left.tool != account.tool, "other sums of the tool"),
        (left.report() != account.report(), "another report"),
        (units[0] != units[1], "other bytes of the units"),
        (counts != said.fewest(), "more records than it takes"),
    ];
    let differing = compared.into_iter().filter(|(differs, _)| *differs);
    let differing = differing.map(|(_, what)| String::from(what));
    let otherwise = said.first_difference(&Said::by(&after));
    let otherwise = otherwise.map(|what| format!("the packed log says otherwise: {what}"));
    differing.chain(otherwise).collect()
}

/// The bytes of an accepted log's unit records.
fn units_of(log: &[u8]) -> &[u8] {
    let units = header(log).expect("an accepted log").units * UNIT_BYTES;
    &log[log.len() - units as usize..]
}

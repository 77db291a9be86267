//! R-2, writing logs, with the standards of R-5, in plain Rust, written to be read beside them and not to be fast.

use crate::oracle::{account, Account, Log};
use crate::records::*;

/// What an adding call hands back, the next writing position, and what it leaves in the buffer; or the refusal, which leaves the buffer as it was.
pub fn add(buffer: &mut [u8], position: usize, record: &Record) -> Result<usize, Refusal> {
    if !record.too_wide().is_empty() {
        return Err(Refusal::new(22, record.list(), 0));
    }
    if !has_room(buffer, position, record) {
        return Err(Refusal::of_log(18));
    }
    let mut writer = BitWriter {
        bytes: buffer,
        position: 8 * position,
    };
    for (value, width) in record.values().iter().zip(record.widths()) {
        writer.number(*value, *width);
    }
    writer.number(0, record.spare());
    Ok(position + record.length())
}

/// The finishing call: the reader's verdict on the bytes before the position.
pub fn finish(buffer: &[u8], position: usize) -> Result<Account, Refusal> {
    if position > buffer.len() {
        return Err(Refusal::of_log(18));
    }
    account(&buffer[..position])
}

/// The bytes of a log, written record by record as R-2 has it.
pub fn written(log: &Log) -> Vec<u8> {
    let Header {
        period,
        modules,
        states,
        standards,
        units,
    } = log.header;
    let mut records = vec![Record::Header([period, modules, states, standards, units])];
    let states = log.states.iter();
    records.extend(states.map(|it| Record::State([it.module, it.code, it.time])));
    let standards = log.standards.iter();
    records.extend(
        standards.map(|it| Record::Standard([it.module, it.recipe, it.start, it.theoretical])),
    );
    let units = log.units.iter();
    records.extend(
        units.map(|it| Record::Unit([it.module, it.recipe, it.time, it.actual, it.effective])),
    );
    let mut bytes = vec![0xff; records.iter().map(Record::length).sum()];
    let end = records.iter().fold(0, |position, record| {
        add(&mut bytes, position, record).expect("values that fit, and room for them")
    });
    assert_eq!(end, bytes.len());
    bytes
}

/// Does the record end in the buffer? No position is so great that its end would wrap.
fn has_room(buffer: &[u8], position: usize, record: &Record) -> bool {
    let end = position as u128 + record.length() as u128;
    end <= buffer.len() as u128
}

/// Writes fields bit by bit, most significant first.
struct BitWriter<'a> {
    bytes: &'a mut [u8],
    position: usize,
}

impl BitWriter<'_> {
    fn bit(&mut self, bit: u64) {
        let mask = 1 << (7 - self.position % 8);
        let byte = &mut self.bytes[self.position / 8];
        if bit == 1 {
            *byte |= mask;
        } else {
            *byte &= !mask;
        }
        self.position += 1;
    }

    fn number(&mut self, number: u64, width: u32) {
        for place in (0..width).rev() {
            self.bit(number >> place & 1);
        }
    }
}

//! What the host calls: byte slices in, one number back.

use crate::depth;
use crate::events::{self, Event};
use crate::reader::read;
use crate::record::HEADER_BYTES;
use crate::refusal::Refusal;
use crate::table::Table;
use crate::writer::write;

pub const EVENT_BYTES: usize = 8;
const OPERAND_BYTES: usize = EVENT_BYTES - HEADER_BYTES;

const VALUE_UNIT: u64 = 256;
const LENGTH_UNIT: u64 = 16_777_216;

/// One event on an image; the new image goes to `out`. Answer + 256 times value + 16,777,216 times the new image's length.
pub fn step(image: &[u8], event: &[u8], out: &mut [u8]) -> u64 {
    result_number(try_step(image, event, out))
}

/// Writes the fresh image to `out`; the number is made as in `step`.
pub fn fresh(out: &mut [u8]) -> u64 {
    result_number(write(&Table::fresh(), out).map(|length| (0, length)))
}

/// The depth report for an entry in an image: answer + 256 times depth.
pub fn depth(image: &[u8], node: u8, object: u8) -> u64 {
    result_number(read(image).map(|table| (depth::depth(&table, node, object), 0)))
}

/// The reader's answer.
pub fn check(image: &[u8]) -> u64 {
    result_number(read(image).map(|_| (0, 0)))
}

/// The event in a record of exactly 8 bytes whose length field is 4.
pub fn event_of_record(record: &[u8]) -> Option<Event> {
    let [l0, l1, k0, k1, operands @ ..] = record else {
        return None;
    };
    let stated = usize::from(u16::from_le_bytes([*l0, *l1]));
    let operands: [u8; OPERAND_BYTES] = operands.try_into().ok()?;
    (stated == OPERAND_BYTES).then_some(Event { kind: u16::from_le_bytes([*k0, *k1]), operands })
}

fn try_step(image: &[u8], event: &[u8], out: &mut [u8]) -> Result<(u8, usize), Refusal> {
    let mut table = read(image)?;
    let event = event_of_record(event).ok_or(Refusal::Event)?;
    let value = events::step(&mut table, event)?;
    let length = write(&table, out)?;
    Ok((value, length))
}

fn result_number(result: Result<(u8, usize), Refusal>) -> u64 {
    match result {
        Ok((value, length)) => VALUE_UNIT * u64::from(value) + LENGTH_UNIT * length as u64,
        Err(refusal) => u64::from(refusal.number()),
    }
}

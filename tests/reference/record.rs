//! Records: a bit map byte, the kind, and the fields that are not 0.

use crate::steps::Step;

/// A call as a record carries it: one of the eight steps, or a recover
/// (document 01: restart).
#[derive(Clone, Copy, Debug, PartialEq, Eq)]
pub enum Record {
    Step(Step),
    Recover,
}

const KIND: u8 = 1;
const PROCESS: u8 = 2;
const CHANNEL: u8 = 4;
const BODY: u8 = 8;

/// The fields that a kind uses; none for what isn't a kind.
fn fields(kind: u8) -> Option<u8> {
    match kind {
        1 => Some(CHANNEL | BODY),
        2 | 6 => Some(CHANNEL),
        4 | 5 => Some(PROCESS),
        3 | 7 | 8 | 9 => Some(0),
        _ => None,
    }
}

/// Takes `size` bytes (lowest first) off the front; they may not make 0.
fn number(bytes: &mut &[u8], size: usize) -> Option<u32> {
    let (field, rest) = bytes.split_at_checked(size)?;
    *bytes = rest;
    let value = field.iter().rev().fold(0, |value, &byte| value << 8 | u32::from(byte));
    (value != 0).then_some(value)
}

/// The record at the front and the bytes after it, or 7.
pub fn read(bytes: &[u8]) -> Result<(Record, &[u8]), u8> {
    let mut rest = bytes;
    let record = read_front(&mut rest).ok_or(7)?;
    Ok((record, rest))
}

fn read_front(rest: &mut &[u8]) -> Option<Record> {
    let map = number(rest, 1)? as u8;
    if map & KIND == 0 || map > 15 {
        return None;
    }
    let kind = number(rest, 1)? as u8;
    if map & !KIND & !fields(kind)? != 0 {
        return None;
    }
    let mut field = |bit, size| if map & bit == 0 { Some(0) } else { number(rest, size) };
    let process = field(PROCESS, 1)? as usize;
    let channel = field(CHANNEL, 1)? as usize;
    let body = field(BODY, 4)?;
    Some(Record::Step(match kind {
        1 => Step::Send { channel, body },
        2 => Step::Receive { channel },
        3 => Step::Begin,
        4 => Step::PhysicalCheckpoint { process },
        5 => Step::LogicalCheckpoint { process },
        6 => Step::SendMarker { channel },
        7 => Step::Commit,
        8 => Step::Abort,
        _ => return Some(Record::Recover),
    }))
}

/// The kind's number, as document 01 numbers the steps; 9 is restart.
pub fn kind(record: Record) -> u8 {
    let Record::Step(step) = record else {
        return 9;
    };
    match step {
        Step::Send { .. } => 1,
        Step::Receive { .. } => 2,
        Step::Begin => 3,
        Step::PhysicalCheckpoint { .. } => 4,
        Step::LogicalCheckpoint { .. } => 5,
        Step::SendMarker { .. } => 6,
        Step::Commit => 7,
        Step::Abort => 8,
    }
}

/// The bytes of a record. Process and channel are a byte each.
pub fn write(record: Record) -> Vec<u8> {
    let (process, channel, body) = match record {
        Record::Step(Step::Send { channel, body }) => (0, channel as u8, body),
        Record::Step(Step::Receive { channel } | Step::SendMarker { channel }) => {
            (0, channel as u8, 0)
        }
        Record::Step(
            Step::PhysicalCheckpoint { process } | Step::LogicalCheckpoint { process },
        ) => (process as u8, 0, 0),
        _ => (0, 0, 0),
    };
    let mut bytes = vec![KIND, kind(record)];
    for (bit, value) in [(PROCESS, process), (CHANNEL, channel)] {
        if value != 0 {
            bytes[0] |= bit;
            bytes.push(value);
        }
    }
    if body != 0 {
        bytes[0] |= BODY;
        bytes.extend(body.to_le_bytes());
    }
    bytes
}

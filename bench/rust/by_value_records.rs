//! Records, read and written by value.

use crate::types::*;

/// A record's bytes and how many they are; 0 in the places after them.
pub struct Written {
    pub bytes: [u8; 7],
    pub count: usize,
}

/// The record that the bytes begin with and the bytes after it, or refusal 7.
pub fn read(bytes: &[u8]) -> Result<(Record, &[u8]), Refusal> {
    let (&map, rest) = bytes.split_first().ok_or(Refusal::Malformed)?;
    let (&kind, rest) = rest.split_first().ok_or(Refusal::Malformed)?;
    if map & 0xf1 != 1 {
        return Err(Refusal::Malformed);
    }
    let (process, rest) = number(rest, map & 2 != 0)?;
    let (channel, rest) = number(rest, map & 4 != 0)?;
    let (body, rest) = body(rest, map & 8 != 0)?;
    let (used, record) = match kind {
        1 => (12, Record::Call(Step::Send { channel, body })),
        2 => (4, Record::Call(Step::Receive { channel })),
        3 => (0, Record::Call(Step::Begin)),
        4 => (2, Record::Call(Step::PhysicalCheckpoint { process })),
        5 => (2, Record::Call(Step::LogicalCheckpoint { process })),
        6 => (4, Record::Call(Step::SendMarker { channel })),
        7 => (0, Record::Call(Step::Commit)),
        8 => (0, Record::Call(Step::Abort)),
        9 => (0, Record::Recover),
        _ => return Err(Refusal::Malformed),
    };
    if map & 14 & !used != 0 {
        return Err(Refusal::Malformed);
    }
    Ok((record, rest))
}

fn number(bytes: &[u8], present: bool) -> Result<(u8, &[u8]), Refusal> {
    match bytes {
        _ if !present => Ok((0, bytes)),
        [0, ..] | [] => Err(Refusal::Malformed),
        [number, rest @ ..] => Ok((*number, rest)),
    }
}

fn body(bytes: &[u8], present: bool) -> Result<(u32, &[u8]), Refusal> {
    if !present {
        return Ok((0, bytes));
    }
    let (four, rest) = bytes.split_first_chunk().ok_or(Refusal::Malformed)?;
    match u32::from_le_bytes(*four) {
        0 => Err(Refusal::Malformed),
        body => Ok((body, rest)),
    }
}

pub fn write(record: Record) -> Written {
    match record {
        Record::Call(Step::Send { channel, body }) => pack(1, 4, channel, body),
        Record::Call(Step::Receive { channel }) => pack(2, 4, channel, 0),
        Record::Call(Step::Begin) => pack(3, 0, 0, 0),
        Record::Call(Step::PhysicalCheckpoint { process }) => pack(4, 2, process, 0),
        Record::Call(Step::LogicalCheckpoint { process }) => pack(5, 2, process, 0),
        Record::Call(Step::SendMarker { channel }) => pack(6, 4, channel, 0),
        Record::Call(Step::Commit) => pack(7, 0, 0, 0),
        Record::Call(Step::Abort) => pack(8, 0, 0, 0),
        Record::Recover => pack(9, 0, 0, 0),
    }
}

fn pack(kind: u8, weight: u8, number: u8, body: u32) -> Written {
    let [a, b, c, d] = body.to_le_bytes();
    match (number, body) {
        (0, 0) => Written { bytes: [1, kind, 0, 0, 0, 0, 0], count: 2 },
        (0, _) => Written { bytes: [9, kind, a, b, c, d, 0], count: 6 },
        (_, 0) => Written { bytes: [1 + weight, kind, number, 0, 0, 0, 0], count: 3 },
        _ => Written { bytes: [9 + weight, kind, number, a, b, c, d], count: 7 },
    }
}

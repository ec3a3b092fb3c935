//! Records, read off a slice that is moved on and written into a buffer.

use crate::types::*;

/// Takes a record off the front of the bytes, or refuses them and leaves them.
pub fn read(bytes: &mut &[u8]) -> Result<Record, Refusal> {
    let mut rest = *bytes;
    let record = front(&mut rest).ok_or(Refusal::Malformed)?;
    *bytes = rest;
    Ok(record)
}

fn byte(rest: &mut &[u8]) -> Option<u8> {
    let (&first, after) = rest.split_first()?;
    *rest = after;
    Some(first)
}

fn front(rest: &mut &[u8]) -> Option<Record> {
    let map = byte(rest)?;
    if map & 0xf1 != 1 {
        return None;
    }
    let kind = byte(rest)?;
    let used = match kind {
        1 => 4 | 8,
        2 | 6 => 4,
        4 | 5 => 2,
        3 | 7..=9 => 0,
        _ => return None,
    };
    if map & 14 & !used != 0 {
        return None;
    }
    let mut number = |bit| if map & bit == 0 { Some(0) } else { byte(rest).filter(|&n| n != 0) };
    let process = number(2)?;
    let channel = number(4)?;
    let body = if map & 8 == 0 {
        0
    } else {
        let (four, after) = rest.split_first_chunk()?;
        *rest = after;
        Some(u32::from_le_bytes(*four)).filter(|&body| body != 0)?
    };
    Some(Record::Call(match kind {
        1 => Step::Send { channel, body },
        2 => Step::Receive { channel },
        3 => Step::Begin,
        4 => Step::PhysicalCheckpoint { process },
        5 => Step::LogicalCheckpoint { process },
        6 => Step::SendMarker { channel },
        7 => Step::Commit,
        8 => Step::Abort,
        _ => return Some(Record::Recover),
    }))
}

/// Writes a record's bytes to the front of the buffer, 0 after them, and tells how many they are.
pub fn write(record: Record, out: &mut [u8; 7]) -> usize {
    let (kind, weight, number, body) = match record {
        Record::Call(Step::Send { channel, body }) => (1, 4, channel, body),
        Record::Call(Step::Receive { channel }) => (2, 4, channel, 0),
        Record::Call(Step::Begin) => (3, 0, 0, 0),
        Record::Call(Step::PhysicalCheckpoint { process }) => (4, 2, process, 0),
        Record::Call(Step::LogicalCheckpoint { process }) => (5, 2, process, 0),
        Record::Call(Step::SendMarker { channel }) => (6, 4, channel, 0),
        Record::Call(Step::Commit) => (7, 0, 0, 0),
        Record::Call(Step::Abort) => (8, 0, 0, 0),
        Record::Recover => (9, 0, 0, 0),
    };
    *out = [1, kind, 0, 0, 0, 0, 0];
    let mut count = 2;
    if number != 0 {
        out[0] |= weight;
        out[count] = number;
        count += 1;
    }
    if body != 0 {
        out[0] |= 8;
        out[count..count + 4].copy_from_slice(&body.to_le_bytes());
        count += 4;
    }
    count
}

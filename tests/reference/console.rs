//! The program `console` (issue 11, item 4; issue 24, point 7; document 02, M-106):
//! bytes in, bytes out. The first byte says what is asked, M-100's part, a store
//! carried by M-102 or M-106's slow head, and the first 65,536 bytes after it are
//! what it is asked of.

use crate::migrate;
use crate::program::INPUT;
use crate::record::{self, Record};
use crate::reduce::RefusedList;
use crate::slow;
use crate::topology::Topology;
use std::fmt::Write;

/// The first byte that asks for the part of a list that matters.
pub const REDUCE: u8 = 1;
/// The first byte that asks for what the slow head prints (M-106).
pub const SLOW: u8 = 4;

/// What an input asks, and the bytes that it is asked of; 7 where it is empty.
pub fn asked(input: &[u8]) -> Result<(u8, &[u8]), String> {
    let (&first, others) = input.split_first().ok_or_else(|| refused(7))?;
    Ok((first, &others[..others.len().min(INPUT)]))
}

/// The line of a refusal.
pub fn refused(number: u8) -> String {
    format!("refused {number}\n")
}

/// The line of a refused plan.
pub fn plan_refused(number: u8) -> String {
    format!("plan {}", refused(number))
}

/// An input that a part is printed for.
pub struct Question<'a> {
    /// The bytes of the plan, and of each call.
    plan: &'a [u8],
    calls: Vec<&'a [u8]>,
    pub list: RefusedList,
}

impl Question<'_> {
    /// Reads an input, or gives the line that is printed instead of a part.
    pub fn read(input: &[u8]) -> Result<Question<'_>, String> {
        let (REDUCE, bytes) = asked(input)? else {
            return Err(refused(7));
        };
        let (topology, records) = Topology::read(bytes).map_err(plan_refused)?;
        let plan = &bytes[..bytes.len() - records.len()];
        let (calls, records) = read_all(records).map_err(refused)?;
        let list = RefusedList::new(topology, records).map_err(refused)?;
        Ok(Question { plan, calls, list })
    }

    /// What is printed for a part.
    pub fn text(&self, part: &[usize]) -> String {
        let mut text = hexadecimal(self.plan);
        for (&place, room) in part.iter().zip(self.list.rooms(part)) {
            let _ = write!(text, "\n{} # {}", hexadecimal(self.calls[place]), place + 1);
            if let Some(room) = room {
                let _ = write!(text, " sent {room}");
            }
        }
        let _ = writeln!(text, " refused {}", self.list.first.number);
        text
    }
}

/// The bytes of each record, and the records; 7 where not all bytes are records.
fn read_all(mut bytes: &[u8]) -> Result<(Vec<&[u8]>, Vec<Record>), u8> {
    let (mut calls, mut records) = (Vec::new(), Vec::new());
    while !bytes.is_empty() {
        let (record, rest) = record::read(bytes)?;
        calls.push(&bytes[..bytes.len() - rest.len()]);
        records.push(record);
        bytes = rest;
    }
    Ok((calls, records))
}

/// Upper-case digits, two a byte, and a space between bytes.
pub fn hexadecimal(bytes: &[u8]) -> String {
    let digits: Vec<String> = bytes.iter().map(|byte| format!("{byte:02X}")).collect();
    digits.join(" ")
}

/// The whole output for an input.
pub fn run(input: &[u8]) -> Vec<u8> {
    match input {
        [migrate::UPGRADE | migrate::DOWNGRADE, ..] => return migrate::text(input),
        [SLOW, bytes @ ..] => return slow::text(bytes).into_bytes(),
        _ => (),
    }
    let text = match Question::read(input) {
        Ok(question) => question.text(&question.list.reduce()),
        Err(line) => line,
    };
    text.into_bytes()
}

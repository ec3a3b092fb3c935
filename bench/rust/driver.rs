//! The work that is measured, the same for both Rust programs and for crates/speed: the input says which, how often,
//! over which topology and over what; the checksum is printed.

use crate::carry::{carry, Form};
use crate::engine::Engine;
use crate::reduce::{reduce, CallList, Found, Reduced};
use crate::rules::STORE_CELLS;
use crate::types::*;
use std::io::Read;

const STEPS: u8 = 1;
const RECOVER: u8 = 2;
const READ: u8 = 3;
const WRITE: u8 = 4;
const REDUCE: u8 = 5;
const UPGRADE: u8 = 6;
/// A step of a script: its kind, its process or channel, its body.
const SCRIPTED: usize = 6;

fn fold(sum: u32, value: u32) -> u32 {
    sum.wrapping_mul(31).wrapping_add(value)
}

fn number(b: &[u8]) -> u32 {
    u32::from_le_bytes([b[0], b[1], b[2], b[3]])
}

fn scripted(b: &[u8], turn: u32) -> Step {
    let (index, body) = (b[1], number(&b[2..6]).wrapping_add(turn));
    match b[0] {
        1 => Step::Send { channel: index, body },
        2 => Step::Receive { channel: index },
        3 => Step::Begin,
        4 => Step::PhysicalCheckpoint { process: index },
        5 => Step::LogicalCheckpoint { process: index },
        6 => Step::SendMarker { channel: index },
        7 => Step::Commit,
        _ => Step::Abort,
    }
}

fn outcome_code(outcome: Outcome) -> u32 {
    match outcome {
        Outcome::Done => 1,
        Outcome::Sent(room) => 200 + room as u32,
        Outcome::Received(body) => body,
        Outcome::ReceivedMarker => 2,
        Outcome::Refused(refusal) => 100 + refusal as u32,
        Outcome::PowerLost => 4,
    }
}

fn record_code(record: Record) -> u32 {
    match record {
        Record::Call(Step::Send { channel, body }) => fold(channel as u32, body),
        Record::Call(Step::Receive { channel }) => 1000 + channel as u32,
        Record::Call(Step::Begin) => 3,
        Record::Call(Step::PhysicalCheckpoint { process }) => 2000 + process as u32,
        Record::Call(Step::LogicalCheckpoint { process }) => 3000 + process as u32,
        Record::Call(Step::SendMarker { channel }) => 4000 + channel as u32,
        Record::Call(Step::Commit) => 7,
        Record::Call(Step::Abort) => 8,
        Record::Recover => 9,
    }
}

/// Words, channels and store.
fn checksum(sum: u32, s: &State, store: &[u32]) -> u32 {
    let mut sum = fold(sum, s.round.line);
    for &word in &s.words {
        sum = fold(sum, word);
    }
    for c in &s.channels {
        sum = fold(sum, c.count as u32);
        for i in 0..(c.count as usize).min(ROOM) {
            sum = fold(fold(sum, c.kinds[i] as u32), c.bodies[i]);
        }
    }
    store.iter().fold(sum, |sum, &cell| fold(sum, cell))
}

fn steps<E: Engine>(t: &Topology, times: u32, script: &[u8]) -> u32 {
    let mut store = [0; STORE_CELLS];
    let mut engine = E::initialize(t, &mut store);
    let mut sum = 0;
    for turn in 0..times {
        for b in script.chunks_exact(SCRIPTED) {
            let (outcome, made) = engine.step(scripted(b, turn), &mut store, u32::MAX);
            sum = fold(fold(sum, outcome_code(outcome)), made);
        }
    }
    checksum(sum, engine.state(), &store)
}

fn fill(store: &mut [u32], cells: &[u8]) {
    for (cell, b) in store.iter_mut().zip(cells.chunks_exact(4)) {
        *cell = number(b);
    }
}

fn recovers<E: Engine>(t: &Topology, times: u32, cells: &[u8]) -> u32 {
    let mut store = [0; STORE_CELLS];
    let mut engine = E::initialize(t, &mut store);
    fill(&mut store, cells);
    let mut sum = 0;
    for turn in 0..times {
        store[3] = turn;
        let _ = engine.recover(t, &store);
        let s = engine.state();
        let last = &s.channels[63];
        sum = fold(fold(sum, s.words[0]), if last.count > 7 { last.bodies[7] } else { 0 });
    }
    checksum(sum, engine.state(), &store)
}

fn reads<E: Engine>(times: u32, records: &mut [u8]) -> u32 {
    let mut sum = 0;
    for turn in 0..times {
        if let Some(body) = records.get_mut(3) {
            *body = (turn % 255) as u8 + 1;
        }
        let mut rest = &records[..];
        while let Ok(record) = E::read(&mut rest) {
            sum = fold(sum, record_code(record));
        }
        sum = fold(sum, rest.len() as u32);
    }
    sum
}

fn writes<E: Engine>(times: u32, script: &[u8]) -> u32 {
    let mut out = [0u8; 65536];
    let mut sum = 0;
    for turn in 0..times {
        let mut at = 0;
        for b in script.chunks_exact(SCRIPTED) {
            let record = Record::Call(scripted(b, turn));
            let place: &mut [u8; 7] = (&mut out[at..at + 7]).try_into().unwrap();
            at += E::write(record, place);
        }
        sum = fold(fold(sum, at as u32), out[at / 2] as u32);
    }
    out.iter().fold(sum, |sum, &b| fold(sum, b as u32))
}

fn call(b: &[u8], turn: u32) -> Record {
    match b[0] {
        9 => Record::Recover,
        _ => Record::Call(scripted(b, turn)),
    }
}

/// Place and number of the first refusal, or the number alone; then the part, and what its sends say of room.
fn reduced_sum(sum: u32, reduced: &Reduced) -> u32 {
    let sum = match reduced.found {
        Found::Failure(place, refusal) => fold(fold(sum, place as u32), refusal as u32),
        Found::Refused(refusal) => fold(sum, refusal as u32),
    };
    let part = &reduced.part;
    let bytes = part.places.iter().chain(&reduced.rooms);
    bytes.fold(fold(sum, part.count as u32), |sum, &byte| fold(sum, byte as u32))
}

fn reductions<E: Engine>(t: &Topology, times: u32, script: &[u8]) -> u32 {
    let mut sum = 0;
    for turn in 0..times {
        let list = CallList::new(script.chunks_exact(SCRIPTED).map(|b| call(b, turn)));
        sum = reduced_sum(sum, &reduce::<E>(t, &list));
    }
    sum
}

/// The sum has the refusal's number, 0 where there is none, and the first process's word.
fn carries(t: &Topology, times: u32, from: Form, to: Form, cells: &[u8]) -> u32 {
    let mut source = [0; STORE_CELLS];
    fill(&mut source, cells);
    let mut target = [0; STORE_CELLS];
    let mut sum = 0;
    for turn in 0..times {
        source[3] = turn;
        let refusal =
            carry(t, (from, &source), (to, &mut target)).map_or_else(|r| r as u32, |()| 0);
        sum = fold(fold(sum, refusal), target[1]);
    }
    target.iter().fold(sum, |sum, &cell| fold(sum, cell))
}

pub fn run<E: Engine>() {
    let mut input = Vec::new();
    std::io::stdin().read_to_end(&mut input).unwrap();
    let (mode, times) = (input[0], number(&input[1..5]));
    let channels = input[6] as usize;
    let mut t = Topology::sized(input[5], input[6]);
    for c in 0..channels {
        t.from[c] = input[7 + 2 * c];
        t.to[c] = input[8 + 2 * c];
    }
    let map = 7 + 2 * channels;
    t.late = u16::from_le_bytes([input[map], input[map + 1]]);
    let rest = &mut input[map + 2..];
    let sum = match mode {
        STEPS => steps::<E>(&t, times, rest),
        RECOVER => recovers::<E>(&t, times, rest),
        READ => reads::<E>(times, rest),
        WRITE => writes::<E>(times, rest),
        REDUCE => reductions::<E>(&t, times, rest),
        UPGRADE => carries(&t, times, Form::Old, Form::Present, rest),
        _ => carries(&t, times, Form::Present, Form::Old, rest),
    };
    println!("{sum}");
}

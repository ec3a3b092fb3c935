//! Setup and restart by value.

use crate::rules::*;
use crate::types::*;

pub struct Started {
    pub start: Result<(), Refusal>,
    pub state: State,
}

fn blank() -> State {
    State::idle(Topology::sized(0, 0), 0)
}

/// Document 01's setup.
pub fn initialize(t: Topology, store: &mut [u32]) -> Started {
    if let Err(refusal) = check(&t) {
        return Started { start: Err(refusal), state: blank() };
    }
    if store.len() < STORE_CELLS {
        return Started { start: Err(Refusal::ShortStore), state: blank() };
    }
    clear_all(store, &t);
    Started { start: Ok(()), state: State::idle(t, 0) }
}

/// Document 01's restart: it only reads the store.
pub fn recover(t: Topology, store: &[u32]) -> Started {
    if let Err(refusal) = check_store(&t, store) {
        return Started { start: Err(refusal), state: blank() };
    }
    let line = store[LINE_CELL];
    let (words, channels) = (words(t, store), channels(t, store));
    Started { start: Ok(()), state: State { words, channels, ..State::idle(t, line) } }
}

fn words(t: Topology, store: &[u32]) -> [u32; PROCESSES] {
    let line = store[LINE_CELL];
    let mut words = [0; PROCESSES];
    for p in 0..t.processes as usize {
        let word = store[physical_cell(line, p)];
        words[p] = restore(t.is_late(p), word, store, message_count_cell(line, p));
    }
    words
}

fn channels(t: Topology, store: &[u32]) -> [Channel; CHANNELS] {
    let line = store[LINE_CELL];
    let mut channels = [EMPTY; CHANNELS];
    for c in 0..t.channels as usize {
        channels[c] = filled(bodies(store, channel_count_cell(line, c)));
    }
    channels
}

/// A channel with these bodies as messages tagged 0.
fn filled(bodies: &[u32]) -> Channel {
    let mut channel = EMPTY;
    channel.bodies[..bodies.len()].copy_from_slice(bodies);
    channel.count = bodies.len() as u8;
    channel
}

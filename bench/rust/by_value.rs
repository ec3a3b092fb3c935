//! The engine with the state passed by value: each function is handed a state, a channel or counts, and answers new
//! ones. What only looks at a state has it through `&`.

use crate::rules::*;
use crate::types::*;

pub struct Answer {
    pub outcome: Outcome,
    pub made: u32,
    pub state: State,
}

fn refused(refusal: Refusal, state: State) -> Answer {
    Answer { outcome: Outcome::Refused(refusal), made: 0, state }
}

fn power_lost(budget: u32, state: State) -> Answer {
    Answer { outcome: Outcome::PowerLost, made: budget, state }
}

fn done(made: u32, state: State) -> Answer {
    Answer { outcome: Outcome::Done, made, state }
}

fn push(mut c: Channel, e: Entry) -> Channel {
    let (kind, body) = match e {
        Entry::Message { body, tag } => (tag as u8, body),
        Entry::Marker => (2, 0),
    };
    c.kinds[c.count as usize] = kind;
    c.bodies[c.count as usize] = body;
    c.count += 1;
    c
}

fn first(c: Channel) -> Entry {
    match c.kinds[0] {
        0 => Entry::Message { body: c.bodies[0], tag: false },
        1 => Entry::Message { body: c.bodies[0], tag: true },
        _ => Entry::Marker,
    }
}

fn pop(mut c: Channel) -> Channel {
    c.count -= 1;
    let last = c.count as usize;
    c.kinds.copy_within(1..=last, 0);
    c.bodies.copy_within(1..=last, 0);
    c
}

/// The messages alone, in order, with tag 0.
fn plain(c: Channel) -> Channel {
    let mut kept = EMPTY;
    for i in 0..c.count as usize {
        if c.kinds[i] < 2 {
            kept = push(kept, Entry::Message { body: c.bodies[i], tag: false });
        }
    }
    kept
}

pub fn step(state: State, step: Step, store: &mut [u32], budget: u32) -> Answer {
    if !sound(&state) {
        return refused(Refusal::Unsound, state);
    }
    if store.len() < STORE_CELLS {
        return refused(Refusal::ShortStore, state);
    }
    match step {
        Step::Send { channel, body } => send(state, channel, body),
        Step::Receive { channel } => receive(state, channel, store, budget),
        Step::Begin => begin(state, store, budget),
        Step::PhysicalCheckpoint { process } => physical_checkpoint(state, process, store, budget),
        Step::LogicalCheckpoint { process } => logical_checkpoint(state, process),
        Step::SendMarker { channel } => send_marker(state, channel),
        Step::Commit => commit(state, store, budget),
        Step::Abort => abort(state),
    }
}

fn send(mut s: State, channel: u8, body: u32) -> Answer {
    if channel >= s.topology.channels {
        return refused(Refusal::NoSuch, s);
    }
    let at = channel as usize;
    if s.channels[at].count as usize >= ROOM {
        return refused(Refusal::ChannelFull, s);
    }
    let tag = s.tags[s.topology.from[at] as usize];
    s.channels[at] = push(s.channels[at], Entry::Message { body, tag });
    Answer { outcome: Outcome::Sent(ROOM as u8 - s.channels[at].count), made: 0, state: s }
}

fn set_logical(mut s: State, process: usize) -> State {
    s.flags.logical[process] = true;
    s.tags[process] = !s.tags[process];
    s
}

fn receive(s: State, channel: u8, store: &mut [u32], budget: u32) -> Answer {
    if channel >= s.topology.channels {
        return refused(Refusal::NoSuch, s);
    }
    let at = channel as usize;
    if s.channels[at].count == 0 {
        return refused(Refusal::ChannelEmpty, s);
    }
    let Entry::Message { body, tag } = first(s.channels[at]) else {
        return marker(s, at);
    };
    message(s, at, body, tag, store, budget)
}

fn marker(mut s: State, at: usize) -> Answer {
    let to = s.topology.to[at] as usize;
    let logical = s.round.phase == Phase::Logical;
    if logical && s.flags.closed[at] {
        return refused(Refusal::MarkerOnClosed, s);
    }
    s.channels[at] = pop(s.channels[at]);
    if logical {
        s.flags.closed[at] = true;
        if !s.flags.logical[to] {
            s = set_logical(s, to);
        }
    }
    Answer { outcome: Outcome::ReceivedMarker, made: 0, state: s }
}

fn message(
    mut s: State,
    at: usize,
    body: u32,
    tag: bool,
    store: &mut [u32],
    budget: u32,
) -> Answer {
    let to = s.topology.to[at] as usize;
    let logs = logs_for(&s, at, tag);
    if any_full(&s.counts, logs) {
        return refused(Refusal::LogFull, s);
    }
    let (mut left, mut writes) = (budget, 0);
    for log in logs.into_iter().flatten() {
        left = append(&s, log, at, body, store, left);
        writes += entry_cells(log) as u32 + 1;
    }
    if budget < writes {
        return power_lost(budget, s);
    }
    for log in logs.into_iter().flatten() {
        s.counts = raised(s.counts, log);
    }
    if marks(&s, to, tag) {
        s = set_logical(s, to);
    }
    s.channels[at] = pop(s.channels[at]);
    s.words[to] = enter(s.words[to], at as u32, body);
    Answer { outcome: Outcome::Received(body), made: writes, state: s }
}

/// The entry and the raised count into the log, as far as the power lasts; what is left of it.
fn append(s: &State, log: Log, at: usize, body: u32, store: &mut [u32], budget: u32) -> u32 {
    let count = count_of(&s.counts, log);
    let cell = count_cell(s.round.line + 1, log);
    let place = cell + 1 + entry_cells(log) * count as usize;
    let mut left = budget;
    put(store, &mut left, place, body);
    if let Log::Messages(_) = log {
        put(store, &mut left, place + 1, at as u32);
    }
    put(store, &mut left, cell, count as u32 + 1);
    left
}

fn raised(mut counts: Counts, log: Log) -> Counts {
    match log {
        Log::Messages(p) => counts.messages[p] += 1,
        Log::Channel(c) => counts.channels[c] += 1,
    }
    counts
}

fn begin(mut s: State, store: &mut [u32], budget: u32) -> Answer {
    if s.round.phase != Phase::Idle {
        return refused(Refusal::NotNow, s);
    }
    if s.round.line == u32::MAX {
        return refused(Refusal::LastLine, s);
    }
    clear(store, budget, &s.topology, s.round.line + 1);
    let writes = s.topology.processes as u32 + s.topology.channels as u32;
    if budget < writes {
        return power_lost(budget, s);
    }
    s.counts = NO_COUNTS;
    done(writes, physical_from(s, 0))
}

/// The physical checkpoints go on with the first early process from this one on; where there is none, the logical phase
/// starts.
fn physical_from(mut s: State, from: u8) -> State {
    if let Some(next) = s.topology.next_early(from) {
        s.round.phase = Phase::Physical(next);
    } else {
        s.round.phase = Phase::Logical;
        s.flags = NO_FLAGS;
    }
    s
}

fn physical_checkpoint(mut s: State, process: u8, store: &mut [u32], budget: u32) -> Answer {
    if process >= s.topology.processes {
        return refused(Refusal::NoSuch, s);
    }
    if !physical_due(&s, process) {
        return refused(Refusal::NotNow, s);
    }
    let at = process as usize;
    let mut left = budget;
    put(store, &mut left, physical_cell(s.round.line + 1, at), s.words[at]);
    if budget < 1 {
        return power_lost(budget, s);
    }
    if !s.topology.is_late(at) {
        return done(1, physical_from(s, process + 1));
    }
    s.flags.saved[at] = true;
    done(1, s)
}

fn logical_checkpoint(s: State, process: u8) -> Answer {
    if process >= s.topology.processes {
        return refused(Refusal::NoSuch, s);
    }
    let at = process as usize;
    let in_turn = process == 0 || s.flags.logical[0];
    if s.round.phase != Phase::Logical || s.flags.logical[at] || !in_turn {
        return refused(Refusal::NotNow, s);
    }
    done(0, set_logical(s, at))
}

fn send_marker(mut s: State, channel: u8) -> Answer {
    if channel >= s.topology.channels {
        return refused(Refusal::NoSuch, s);
    }
    let at = channel as usize;
    let ready = s.flags.logical[s.topology.from[at] as usize];
    if s.round.phase != Phase::Logical || s.flags.sent[at] || !ready {
        return refused(Refusal::NotNow, s);
    }
    if s.channels[at].count as usize >= ROOM {
        return refused(Refusal::ChannelFull, s);
    }
    s.flags.sent[at] = true;
    s.channels[at] = push(s.channels[at], Entry::Marker);
    done(0, s)
}

fn commit(mut s: State, store: &mut [u32], budget: u32) -> Answer {
    if !through(&s) {
        return refused(Refusal::NotNow, s);
    }
    let line = s.round.line + 1;
    let mut left = budget;
    put(store, &mut left, LINE_CELL, line);
    if budget < 1 {
        return power_lost(budget, s);
    }
    s.round = Round { line, phase: Phase::Idle };
    s.flags = NO_FLAGS;
    done(1, s)
}

fn abort(mut s: State) -> Answer {
    if s.round.phase == Phase::Idle {
        return refused(Refusal::NotNow, s);
    }
    for c in 0..s.topology.channels as usize {
        s.channels[c] = plain(s.channels[c]);
    }
    s.tags = [false; PROCESSES];
    s.flags = NO_FLAGS;
    s.round.phase = Phase::Idle;
    done(0, s)
}

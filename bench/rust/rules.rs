//! What both Rust programs read alike: the layout of the store, the checks of a topology, of a state and of a store's
//! counts, the word rule and how it is undone, when a process may have its physical checkpoint and a round is through,
//! and which logs a message needs. Each looks at its arguments through `&`. A receipt is the channel and the body that
//! a receive brings; a message log has receipts, a channel log bodies.

use crate::types::*;

pub const STORE_CELLS: usize = 5313;
pub const LINE_CELL: usize = 0;
pub const MESSAGE_PLACES: u8 = 64;
pub const CHANNEL_PLACES: u8 = 8;

fn slot(line: u32) -> usize {
    1 + 2656 * (line % 2) as usize
}

pub fn physical_cell(line: u32, process: usize) -> usize {
    slot(line) + 130 * process
}

pub fn message_count_cell(line: u32, process: usize) -> usize {
    physical_cell(line, process) + 1
}

pub fn channel_count_cell(line: u32, channel: usize) -> usize {
    slot(line) + 2080 + 9 * channel
}

/// The word after a receipt.
pub fn enter(word: u32, channel: u32, body: u32) -> u32 {
    let with_channel = word.wrapping_mul(31).wrapping_add(channel);
    with_channel.wrapping_mul(31).wrapping_add(body)
}

/// The inverse of 31 modulo 2^32.
const OVER_THIRTY_ONE: u32 = 3186588639;

/// The word before a receipt entered it.
pub fn leave(word: u32, channel: u32, body: u32) -> u32 {
    let with_channel = word.wrapping_sub(body).wrapping_mul(OVER_THIRTY_ONE);
    with_channel.wrapping_sub(channel).wrapping_mul(OVER_THIRTY_ONE)
}

/// Refusals 1 to 5, in one pass over the channels: the table says which ends an earlier one has; then 19.
pub fn check(t: &Topology) -> Result<(), Refusal> {
    if !(1..=PROCESSES as u8).contains(&t.processes) {
        return Err(Refusal::ProcessCount);
    }
    if t.channels as usize > CHANNELS {
        return Err(Refusal::ChannelCount);
    }
    let mut seen = [false; PROCESSES * PROCESSES];
    for c in 0..t.channels as usize {
        let (from, to) = (t.from[c], t.to[c]);
        if from >= t.processes || to >= t.processes {
            return Err(Refusal::UnknownEnd);
        }
        if from == to {
            return Err(Refusal::SelfChannel);
        }
        let ends = PROCESSES * from as usize + to as usize;
        if seen[ends] {
            return Err(Refusal::DoubledChannel);
        }
        seen[ends] = true;
    }
    if u32::from(t.late) >> t.processes != 0 {
        return Err(Refusal::UnknownLate);
    }
    Ok(())
}

/// False where a step answers 15.
pub fn sound(s: &State) -> bool {
    if check(&s.topology).is_err() {
        return false;
    }
    let (processes, channels) = (s.topology.processes as usize, s.topology.channels as usize);
    let round = match s.round.phase {
        Phase::Idle => true,
        Phase::Physical(next) => {
            let planned = next < s.topology.processes && !s.topology.is_late(next as usize);
            planned && s.round.line != u32::MAX
        }
        Phase::Logical => s.round.line != u32::MAX,
    };
    round
        && s.channels[..channels].iter().all(|c| c.count as usize <= ROOM)
        && s.counts.messages[..processes].iter().all(|&n| n <= MESSAGE_PLACES)
        && s.counts.channels[..channels].iter().all(|&n| n <= CHANNEL_PLACES)
}

/// Refusals 1 to 5 and 19, 6, then 16: what a recover asks of a topology and a store.
pub fn check_store(t: &Topology, store: &[u32]) -> Result<(), Refusal> {
    check(t)?;
    if store.len() < STORE_CELLS {
        return Err(Refusal::ShortStore);
    }
    let line = store[LINE_CELL];
    for p in 0..t.processes as usize {
        if store[message_count_cell(line, p)] > MESSAGE_PLACES as u32 {
            return Err(Refusal::BadCount);
        }
    }
    for c in 0..t.channels as usize {
        if store[channel_count_cell(line, c)] > CHANNEL_PLACES as u32 {
            return Err(Refusal::BadCount);
        }
    }
    Ok(())
}

/// What the message log whose count stands in a cell makes of its process's physical checkpoint: receipts, each a body
/// and a channel, enter it; of a late process they leave it, the last one first.
pub fn restore(late: bool, word: u32, store: &[u32], at: usize) -> u32 {
    let (receipts, _) = store[at + 1..at + 1 + 2 * store[at] as usize].as_chunks();
    if late {
        receipts.iter().rfold(word, |word, &[body, channel]| leave(word, channel, body))
    } else {
        receipts.iter().fold(word, |word, &[body, channel]| enter(word, channel, body))
    }
}

/// The bodies of the channel log whose count stands in a cell.
pub fn bodies(store: &[u32], at: usize) -> &[u32] {
    &store[at + 1..at + 1 + store[at] as usize]
}

#[derive(Clone, Copy)]
pub enum Log {
    Messages(usize),
    Channel(usize),
}

/// Whether a process may have its physical checkpoint now: a late one once it has its logical one, one time in a round.
pub fn physical_due(s: &State, process: u8) -> bool {
    let at = process as usize;
    if s.topology.is_late(at) {
        s.round.phase == Phase::Logical && s.flags.logical[at] && !s.flags.saved[at]
    } else {
        s.round.phase == Phase::Physical(process)
    }
}

/// Whether every process has its checkpoints, and every channel is closed.
pub fn through(s: &State) -> bool {
    let (processes, channels) = (s.topology.processes as usize, s.topology.channels as usize);
    let has_physical = |p| !s.topology.is_late(p) || s.flags.saved[p];
    s.round.phase == Phase::Logical
        && (0..processes).all(|p| s.flags.logical[p] && has_physical(p))
        && s.flags.closed[..channels].iter().all(|&f| f)
}

/// Whether a message with this tag gives its receiver the logical checkpoint.
pub fn marks(s: &State, to: usize, tag: bool) -> bool {
    s.round.phase == Phase::Logical && !s.flags.logical[to] && tag != s.tags[to]
}

/// The logs that a message with this tag needs, received on the channel, in the order in which they are written: that
/// of the channel, that of the receiver.
pub fn logs_for(s: &State, channel: usize, tag: bool) -> [Option<Log>; 2] {
    let to = s.topology.to[channel] as usize;
    let late = s.topology.is_late(to);
    let (marked, differs) = (s.flags.logical[to], tag != s.tags[to]);
    let (in_channel, in_messages) = match s.round.phase {
        Phase::Idle => (false, false),
        Phase::Physical(next) => (false, to < next as usize && !late),
        Phase::Logical if late => (marked && differs, (marked || differs) && !s.flags.saved[to]),
        Phase::Logical => (marked && differs, !marked && !differs),
    };
    [in_channel.then_some(Log::Channel(channel)), in_messages.then_some(Log::Messages(to))]
}

/// Whether one of these logs has no place left.
pub fn any_full(counts: &Counts, logs: [Option<Log>; 2]) -> bool {
    logs.into_iter().flatten().any(|log| count_of(counts, log) >= room(log))
}

pub fn count_of(counts: &Counts, log: Log) -> u8 {
    match log {
        Log::Messages(p) => counts.messages[p],
        Log::Channel(c) => counts.channels[c],
    }
}

pub fn room(log: Log) -> u8 {
    match log {
        Log::Messages(_) => MESSAGE_PLACES,
        Log::Channel(_) => CHANNEL_PLACES,
    }
}

/// Cells of an entry: a message log has the body and the channel, a channel log the body alone.
pub fn entry_cells(log: Log) -> usize {
    match log {
        Log::Messages(_) => 2,
        Log::Channel(_) => 1,
    }
}

pub fn count_cell(line: u32, log: Log) -> usize {
    match log {
        Log::Messages(p) => message_count_cell(line, p),
        Log::Channel(c) => channel_count_cell(line, c),
    }
}

/// One write, if the power lasts for it.
pub fn put(store: &mut [u32], left: &mut u32, cell: usize, value: u32) {
    if *left > 0 {
        *left -= 1;
        store[cell] = value;
    }
}

/// Begin's writes.
pub fn clear(store: &mut [u32], budget: u32, t: &Topology, line: u32) {
    let mut left = budget;
    for p in 0..t.processes as usize {
        put(store, &mut left, message_count_cell(line, p), 0);
    }
    for c in 0..t.channels as usize {
        put(store, &mut left, channel_count_cell(line, c), 0);
    }
}

/// Initialize's writes.
pub fn clear_all(store: &mut [u32], t: &Topology) {
    for p in 0..t.processes as usize {
        store[physical_cell(0, p)] = 0;
        store[message_count_cell(0, p)] = 0;
    }
    for c in 0..t.channels as usize {
        store[channel_count_cell(0, c)] = 0;
    }
    store[LINE_CELL] = 0;
}

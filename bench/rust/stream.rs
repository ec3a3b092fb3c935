//! The inputs: streams of whole rounds, full stores, records. A step comes into a stream only if the engine takes it.

use crate::carry::Form;
use crate::in_place_records::write;
use crate::rules::{CHANNEL_PLACES, MESSAGE_PLACES, STORE_CELLS};
use crate::types::*;

/// A small generator of numbers (a linear congruence), so that every run has the same streams.
struct Random {
    seed: u64,
}

impl Random {
    fn below(&mut self, n: usize) -> usize {
        self.seed = self.seed.wrapping_mul(6364136223846793005).wrapping_add(1442695040888963407);
        (self.seed >> 33) as usize % n
    }
}

/// Each channel from a process to one of those after it, in a ring.
pub fn plan(processes: u8, channels: u8) -> Topology {
    let mut t = Topology::sized(processes, channels);
    for c in 0..channels {
        t.from[c as usize] = c % processes;
        t.to[c as usize] = (c % processes + 1 + c / processes) % processes;
    }
    t
}

pub fn plan_bytes(t: &Topology) -> Vec<u8> {
    let mut bytes = vec![t.processes, t.channels];
    for c in 0..t.channels as usize {
        bytes.extend([t.from[c], t.to[c]]);
    }
    bytes.extend(t.late.to_le_bytes());
    bytes
}

struct Walk {
    state: State,
    store: Vec<u32>,
    random: Random,
    steps: Vec<Record>,
}

impl Walk {
    fn new(t: &Topology) -> Walk {
        let mut store = vec![0; STORE_CELLS];
        let mut state = State::idle(*t, 0);
        let _ = state.initialize(t, &mut store);
        Walk { state, store, random: Random { seed: 7 }, steps: Vec::new() }
    }

    fn channel(&mut self) -> u8 {
        self.random.below(self.state.topology.channels as usize) as u8
    }

    /// The step, if it is accepted now.
    fn accept(&mut self, step: Step) -> bool {
        let (outcome, _) = self.state.step(step, &mut self.store, u32::MAX);
        let accepted = !matches!(outcome, Outcome::Refused(_) | Outcome::PowerLost);
        if accepted {
            self.steps.push(Record::Call(step));
        }
        accepted
    }

    /// Whether the channel's log has room for all that the channel holds and one message more, so that no round gets
    /// stuck with a full log.
    fn room(&self, channel: u8) -> bool {
        let at = channel as usize;
        let logged = match self.state.round.phase {
            Phase::Logical => self.state.counts.channels[at],
            _ => 0,
        };
        logged + self.state.channels[at].count < CHANNEL_PLACES
    }

    /// Some sends and receives.
    fn traffic(&mut self, n: usize) {
        for _ in 0..n {
            let channel = self.channel();
            let body = 1 + self.random.below(1 << 30) as u32;
            if self.random.below(2) == 0 && self.room(channel) {
                self.accept(Step::Send { channel, body });
            } else {
                self.accept(Step::Receive { channel });
            }
        }
    }

    /// A whole round among traffic: begin, the physical checkpoints, the logical ones, the markers, commit.
    fn round(&mut self) {
        let (processes, channels) = (self.state.topology.processes, self.state.topology.channels);
        self.traffic(4 * channels as usize);
        self.accept(Step::Begin);
        for process in 0..processes {
            self.accept(Step::PhysicalCheckpoint { process });
            self.traffic(4);
        }
        self.accept(Step::LogicalCheckpoint { process: 0 });
        while !self.accept(Step::Commit) {
            let (channel, process) = (self.channel(), self.random.below(processes as usize) as u8);
            self.accept(Step::SendMarker { channel });
            self.accept(Step::LogicalCheckpoint { process });
            self.accept(Step::Receive { channel });
            self.traffic(1);
        }
    }

    /// Every channel empty, so that the stream can be repeated.
    fn drain(&mut self) {
        for channel in 0..self.state.topology.channels {
            while self.accept(Step::Receive { channel }) {}
        }
    }
}

/// Whole rounds, at least so many steps, after which every channel is empty.
pub fn rounds(t: &Topology, least: usize) -> Vec<Record> {
    let mut walk = Walk::new(t);
    while walk.steps.len() < least {
        walk.round();
    }
    walk.drain();
    walk.steps
}

/// A store of a form, at line 0, whose logs are all full.
pub fn full_store(t: &Topology, form: Form) -> Vec<u8> {
    let mut random = Random { seed: 11 };
    let mut store: Vec<u32> =
        (0..form.store_cells()).map(|_| random.below(1 << 30) as u32).collect();
    store[0] = 0;
    for p in 0..t.processes as usize {
        store[form.physical_cell(0, p) + 1] = MESSAGE_PLACES as u32;
    }
    for c in 0..t.channels as usize {
        store[form.channel_count_cell(0, c)] = CHANNEL_PLACES as u32;
    }
    store.iter().flat_map(|cell| cell.to_le_bytes()).collect()
}

/// Kind, process or channel, and body of a call.
fn parts(call: Record) -> (u8, u8, u32) {
    match call {
        Record::Call(Step::Send { channel, body }) => (1, channel, body),
        Record::Call(Step::Receive { channel }) => (2, channel, 0),
        Record::Call(Step::Begin) => (3, 0, 0),
        Record::Call(Step::PhysicalCheckpoint { process }) => (4, process, 0),
        Record::Call(Step::LogicalCheckpoint { process }) => (5, process, 0),
        Record::Call(Step::SendMarker { channel }) => (6, channel, 0),
        Record::Call(Step::Commit) => (7, 0, 0),
        Record::Call(Step::Abort) => (8, 0, 0),
        Record::Recover => (9, 0, 0),
    }
}

/// The calls as the programs take a script: six bytes each.
pub fn script(calls: &[Record]) -> Vec<u8> {
    let mut bytes = Vec::new();
    for &call in calls {
        let (kind, index, body) = parts(call);
        bytes.extend([kind, index]);
        bytes.extend(body.to_le_bytes());
    }
    bytes
}

/// The calls as records, one after the other.
pub fn records(calls: &[Record]) -> Vec<u8> {
    let mut bytes = Vec::new();
    for &call in calls {
        let mut record = [0; 7];
        let count = write(call, &mut record);
        bytes.extend(&record[..count]);
    }
    bytes
}

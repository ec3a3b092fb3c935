//! The state, its soundness, initialize (document 01: setup) and recover
//! (document 01: restart).

use crate::forms::Form;
use crate::store::{self, CHANNEL_LOG, LINE, MESSAGE_LOG};
use crate::topology::{Topology, CHANNELS, PROCESSES};
use std::collections::VecDeque;

/// Most entries that a channel holds.
pub const CAPACITY: usize = 8;

/// What stands on a channel.
#[derive(Clone, Copy, Debug, PartialEq, Eq)]
pub enum Entry {
    Message {
        body: u32,
        tag: bool,
    },
    /// Document 01: note.
    Marker,
}

/// Where the round stands.
#[derive(Clone, Copy, Debug, PartialEq, Eq)]
pub enum Phase {
    Idle,
    /// Document 01: copying; `next` is the next process to copy.
    Physical {
        next: usize,
    },
    /// Document 01: marking.
    Logical,
}

#[derive(Clone, Debug, PartialEq, Eq)]
pub struct State {
    /// The form of its store.
    pub form: Form,
    pub topology: Topology,
    /// The last finished recovery line, k.
    pub line: u32,
    pub phase: Phase,
    pub words: [u32; PROCESSES],
    pub tags: [bool; PROCESSES],
    /// Processes with a logical checkpoint (document 01: mark) in this round.
    pub marked: [bool; PROCESSES],
    /// Late processes with a physical checkpoint (document 01: copy) in this
    /// round.
    pub saved: [bool; PROCESSES],
    pub channels: Vec<VecDeque<Entry>>,
    pub closed: [bool; CHANNELS],
    /// Channels on which this round's marker (document 01: note) was put.
    pub marker_sent: [bool; CHANNELS],
    pub message_counts: [usize; PROCESSES],
    pub channel_counts: [usize; CHANNELS],
}

impl State {
    /// Idle, words and tags 0, channels empty, every count 0.
    fn blank(form: Form, topology: &Topology, line: u32) -> State {
        State {
            form,
            topology: topology.clone(),
            line,
            phase: Phase::Idle,
            words: [0; PROCESSES],
            tags: [false; PROCESSES],
            marked: [false; PROCESSES],
            saved: [false; PROCESSES],
            channels: vec![VecDeque::new(); CHANNELS],
            closed: [false; CHANNELS],
            marker_sent: [false; CHANNELS],
            message_counts: [0; PROCESSES],
            channel_counts: [0; CHANNELS],
        }
    }

    /// Document 01's setup. No lost power is considered here.
    pub fn initialize(form: Form, topology: &Topology, store: &mut [u32]) -> Result<State, u8> {
        topology.check()?;
        if store.len() < form.cells {
            return Err(6);
        }
        for p in 0..topology.processes {
            store[form.physical_checkpoint(0, p)] = 0;
            store[form.message_log(0, p)] = 0;
        }
        for c in 0..topology.channels.len() {
            store[form.channel_log(0, c)] = 0;
        }
        store[LINE] = 0;
        Ok(State::blank(form, topology, 0))
    }

    /// Document 01's restart: it only reads the store.
    pub fn recover(form: Form, topology: &Topology, cells: &[u32]) -> Result<State, u8> {
        topology.check()?;
        if cells.len() < form.cells {
            return Err(6);
        }
        let line = cells[LINE];
        let mut state = State::blank(form, topology, line);
        for p in 0..topology.processes {
            let log = form.message_log(line, p);
            let log = store::read_log(cells, log, MESSAGE_LOG, form.entry)?;
            let copy = cells[form.physical_checkpoint(line, p)];
            state.words[p] = if state.late(p) {
                log.into_iter().rev().fold(copy, |word, entry| form.undone(word, entry))
            } else {
                log.into_iter().fold(copy, |word, entry| form.replayed(word, entry))
            };
        }
        for c in 0..topology.channels.len() {
            let log = store::read_log(cells, form.channel_log(line, c), CHANNEL_LOG, 1)?;
            let old = |entry: &[u32]| Entry::Message { body: entry[0], tag: false };
            state.channels[c] = log.into_iter().map(old).collect();
        }
        Ok(state)
    }

    /// False where a step answers 15.
    pub fn sound(&self) -> bool {
        if self.topology.check().is_err() {
            return false;
        }
        let (processes, channels) = (self.topology.processes, self.topology.channels.len());
        let next_planned = match self.phase {
            Phase::Physical { next } => next < processes && !self.late(next),
            Phase::Idle | Phase::Logical => true,
        };
        next_planned
            && (self.phase == Phase::Idle || self.line != u32::MAX)
            && self.channels[..channels].iter().all(|entries| entries.len() <= CAPACITY)
            && self.message_counts[..processes].iter().all(|&count| count <= MESSAGE_LOG)
            && self.channel_counts[..channels].iter().all(|&count| count <= CHANNEL_LOG)
    }

    /// Whether a process is late, by the rules of the store's form.
    pub fn late(&self, process: usize) -> bool {
        self.form.anti_messages && self.topology.is_late(process)
    }

    /// No process marked, no late one saved, no channel closed, no marker put.
    pub fn clear_round(&mut self) {
        self.marked = [false; PROCESSES];
        self.saved = [false; PROCESSES];
        self.closed = [false; CHANNELS];
        self.marker_sent = [false; CHANNELS];
    }

    /// Every planned process is marked.
    pub fn all_marked(&self) -> bool {
        self.marked[..self.topology.processes].iter().all(|&marked| marked)
    }

    /// Every late process has its physical checkpoint.
    pub fn all_saved(&self) -> bool {
        (0..self.topology.processes).all(|p| !self.late(p) || self.saved[p])
    }

    /// Every planned channel is closed.
    pub fn all_closed(&self) -> bool {
        self.closed[..self.topology.channels.len()].iter().all(|&closed| closed)
    }

    /// The bodies on a channel, in order.
    pub fn bodies(&self, channel: usize) -> Vec<u32> {
        let body = |entry: &Entry| match entry {
            Entry::Message { body, .. } => Some(*body),
            Entry::Marker => None,
        };
        self.channels[channel].iter().filter_map(body).collect()
    }
}

//! Makes a failing input smaller: whole calls go first, then channels and
//! processes with all that speaks of them, late bits, and single bytes. A store to
//! be carried is another matter (`simplify`).

use crate::plans;
use crate::simplify;
use crate::walk::{encode, Call};
use reference::console::REDUCE;
use reference::program::{read_call, Program};
use reference::record::Record;
use reference::steps::Step;
use reference::topology::Topology;
use std::time::Instant;

/// An input taken apart; bytes that don't read stand in `tail`.
#[derive(Clone)]
struct Parts {
    topology: Topology,
    calls: Vec<Call>,
    tail: Vec<u8>,
}

impl Parts {
    fn read(program: Program, bytes: &[u8]) -> Option<Parts> {
        let asked: &[u8] = if program == Program::Console { &[REDUCE] } else { &[] };
        let (topology, mut rest) = Topology::read(bytes.strip_prefix(asked)?).ok()?;
        let mut calls = Vec::new();
        while let Ok((budget, record, remaining)) = read_call(program, rest) {
            calls.push((budget as u32, record));
            rest = remaining;
        }
        Some(Parts { topology, calls, tail: rest.to_vec() })
    }

    fn write(&self, program: Program) -> Vec<u8> {
        let mut bytes = encode(program, &self.topology, &self.calls);
        bytes.extend(&self.tail);
        bytes
    }

    fn without_channel(&self, gone: usize) -> Parts {
        let mut parts = self.clone();
        parts.topology.channels.remove(gone);
        parts.calls.retain(|(_, record)| channel(*record) != Some(gone));
        for (_, record) in &mut parts.calls {
            if let Record::Step(
                Step::Send { channel, .. }
                | Step::Receive { channel }
                | Step::SendMarker { channel },
            ) = record
            {
                *channel -= usize::from(*channel > gone);
            }
        }
        parts
    }

    fn without_process(&self, gone: usize) -> Parts {
        let mut parts = self.clone();
        for c in (0..self.topology.channels.len()).rev() {
            let (from, to) = self.topology.channels[c];
            if from == gone || to == gone {
                parts = parts.without_channel(c);
            }
        }
        for (from, to) in &mut parts.topology.channels {
            *from -= usize::from(*from > gone);
            *to -= usize::from(*to > gone);
        }
        parts.topology.processes -= 1;
        let (lower, higher) = (plans::all_late(gone), !plans::all_late(gone + 1));
        let late = parts.topology.late;
        parts.topology.late = late & lower | (late & higher) >> 1;
        parts.calls.retain(|(_, record)| process(*record) != Some(gone));
        for (_, record) in &mut parts.calls {
            if let Record::Step(
                Step::PhysicalCheckpoint { process } | Step::LogicalCheckpoint { process },
            ) = record
            {
                *process -= usize::from(*process > gone);
            }
        }
        parts
    }

    fn with_early(&self, process: usize) -> Parts {
        let mut parts = self.clone();
        parts.topology.late &= !(1 << process);
        parts
    }
}

fn channel(record: Record) -> Option<usize> {
    match record {
        Record::Step(
            Step::Send { channel, .. } | Step::Receive { channel } | Step::SendMarker { channel },
        ) => Some(channel),
        _ => None,
    }
}

fn process(record: Record) -> Option<usize> {
    match record {
        Record::Step(
            Step::PhysicalCheckpoint { process } | Step::LogicalCheckpoint { process },
        ) => Some(process),
        _ => None,
    }
}

/// Looks for a smaller input that still fails, until it is time to stop.
pub struct Search<'a> {
    pub program: Program,
    pub until: Instant,
    pub fails: &'a mut dyn FnMut(&[u8]) -> bool,
}

impl Search<'_> {
    /// The smallest failing input found.
    pub fn smallest(&mut self, bytes: &[u8]) -> Vec<u8> {
        if let Some(simplest) = simplify::simplest(self, bytes) {
            return simplest;
        }
        let mut best = bytes.to_vec();
        loop {
            let before = best.len();
            if let Some(parts) = Parts::read(self.program, &best) {
                let smaller = self.fewer_parts(parts).write(self.program);
                // Other than before only by what failed without it.
                best = smaller;
            }
            best = fewer(best, &mut |bytes| self.try_one(bytes));
            if best.len() == before {
                return best;
            }
        }
    }

    /// Whether it fails; none where the time is up.
    pub fn try_one(&mut self, bytes: &[u8]) -> Option<bool> {
        (Instant::now() < self.until).then(|| (self.fails)(bytes))
    }

    fn keep(&mut self, candidate: Parts, parts: &mut Parts) {
        if self.try_one(&candidate.write(self.program)) == Some(true) {
            *parts = candidate;
        }
    }

    fn fewer_parts(&mut self, mut parts: Parts) -> Parts {
        self.keep(Parts { tail: Vec::new(), ..parts.clone() }, &mut parts);
        let mut tried = parts.clone();
        parts.calls = fewer(parts.calls, &mut |calls| {
            tried.calls = calls.to_vec();
            self.try_one(&tried.write(self.program))
        });
        for p in (0..parts.topology.processes).rev() {
            if parts.topology.processes > 1 {
                self.keep(parts.without_process(p), &mut parts);
            }
        }
        for c in (0..parts.topology.channels.len()).rev() {
            self.keep(parts.without_channel(c), &mut parts);
        }
        for p in 0..parts.topology.processes {
            if parts.topology.is_late(p) {
                self.keep(parts.with_early(p), &mut parts);
            }
        }
        parts
    }
}

/// Takes out stretches of items, long ones first, as long as it still fails and there is time.
fn fewer<T: Clone>(mut items: Vec<T>, fails: &mut impl FnMut(&[T]) -> Option<bool>) -> Vec<T> {
    let mut stretch = items.len();
    while stretch > 0 {
        let mut at = items.len();
        while at > 0 {
            let from = at.saturating_sub(stretch);
            let mut candidate = items.clone();
            candidate.drain(from..at);
            match fails(&candidate) {
                Some(true) => items = candidate,
                Some(false) => (),
                None => return items,
            }
            at = from.min(items.len());
        }
        stretch /= 2;
    }
    items
}

//! The eight steps. Each makes its refusals in document 01's order (15, 6, 8,
//! 12, 13, 10, 14, 9, 11), then its stores, and changes the state only when
//! nothing can stop it any more. Taking stands in a file of its own.

use crate::state::{Entry, Phase, State, CAPACITY};
use crate::store::{Power, Stop, LINE};

/// Document 01's steps 1 to 8, with the fields that each uses.
#[derive(Clone, Copy, Debug, PartialEq, Eq)]
pub enum Step {
    Send {
        channel: usize,
        body: u32,
    },
    /// Document 01: take.
    Receive {
        channel: usize,
    },
    Begin,
    /// Document 01: copy.
    PhysicalCheckpoint {
        process: usize,
    },
    /// Document 01: mark.
    LogicalCheckpoint {
        process: usize,
    },
    /// Document 01: note.
    SendMarker {
        channel: usize,
    },
    /// Document 01: finish.
    Commit,
    /// Document 01: give up.
    Abort,
}

/// What a call came to.
#[derive(Clone, Copy, Debug, PartialEq, Eq)]
pub enum Outcome {
    Done,
    /// M-104: a send left the channel room for so many entries.
    Sent(usize),
    /// A receive gave this body.
    Took(u32),
    /// A receive gave a marker (document 01: note).
    Marker,
    /// A recover gave this recovery line.
    Line(u32),
    Refused(u8),
    /// Document 01: cut.
    PowerLost,
}

#[derive(Clone, Copy, Debug, PartialEq, Eq)]
pub struct Answer {
    pub outcome: Outcome,
    pub stores: u64,
}

/// Refuses with a number where a condition isn't met.
pub fn require(met: bool, refusal: u8) -> Result<(), Stop> {
    if met {
        Ok(())
    } else {
        Err(Stop::Refused(refusal))
    }
}

impl State {
    /// One call of a step, with the stores that the power lasts for.
    pub fn step(&mut self, step: Step, cells: &mut [u32], budget: u64) -> Answer {
        let enough = cells.len() >= self.form.cells;
        let mut power = Power::new(cells, budget);
        let result = require(self.sound(), 15)
            .and_then(|()| require(enough, 6))
            .and_then(|()| self.perform(step, &mut power));
        let outcome = match result {
            Ok(outcome) => outcome,
            Err(Stop::Refused(number)) => Outcome::Refused(number),
            Err(Stop::PowerLost) => Outcome::PowerLost,
        };
        Answer { outcome, stores: power.made() }
    }

    fn perform(&mut self, step: Step, power: &mut Power) -> Result<Outcome, Stop> {
        match step {
            Step::Send { channel, body } => return self.send(channel, body),
            Step::Receive { channel } => return self.receive(channel, power),
            Step::Begin => self.begin(power)?,
            Step::PhysicalCheckpoint { process } => self.physical_checkpoint(process, power)?,
            Step::LogicalCheckpoint { process } => self.logical_checkpoint(process)?,
            Step::SendMarker { channel } => self.send_marker(channel)?,
            Step::Commit => self.commit(power)?,
            Step::Abort => self.abort()?,
        }
        Ok(Outcome::Done)
    }

    /// A planned channel's ends, or 8.
    pub fn ends(&self, channel: usize) -> Result<(usize, usize), Stop> {
        self.topology.channels.get(channel).copied().ok_or(Stop::Refused(8))
    }

    fn send(&mut self, channel: usize, body: u32) -> Result<Outcome, Stop> {
        let (from, _) = self.ends(channel)?;
        require(self.channels[channel].len() < CAPACITY, 9)?;
        let tag = self.tags[from];
        self.channels[channel].push_back(Entry::Message { body, tag });
        Ok(Outcome::Sent(CAPACITY - self.channels[channel].len()))
    }

    fn begin(&mut self, power: &mut Power) -> Result<(), Stop> {
        require(self.phase == Phase::Idle, 12)?;
        require(self.line != u32::MAX, 13)?;
        for p in 0..self.topology.processes {
            power.put(self.form.message_log(self.line + 1, p), 0)?;
        }
        for c in 0..self.topology.channels.len() {
            power.put(self.form.channel_log(self.line + 1, c), 0)?;
        }
        self.message_counts.fill(0);
        self.channel_counts.fill(0);
        self.copying_from(0);
        Ok(())
    }

    /// Copying goes on at the first process from here on that isn't late; where
    /// there is none, marking starts.
    fn copying_from(&mut self, process: usize) {
        match (process..self.topology.processes).find(|&p| !self.late(p)) {
            Some(next) => self.phase = Phase::Physical { next },
            None => {
                self.clear_round();
                self.phase = Phase::Logical;
            }
        }
    }

    fn physical_checkpoint(&mut self, process: usize, power: &mut Power) -> Result<(), Stop> {
        require(process < self.topology.processes, 8)?;
        require(self.may_copy(process), 12)?;
        power.put(self.form.physical_checkpoint(self.line + 1, process), self.words[process])?;
        if self.late(process) {
            self.saved[process] = true;
        } else {
            self.copying_from(process + 1);
        }
        Ok(())
    }

    /// An early process copies in its turn; a late one once marked, one time in a
    /// round.
    fn may_copy(&self, process: usize) -> bool {
        if self.late(process) {
            self.phase == Phase::Logical && self.marked[process] && !self.saved[process]
        } else {
            self.phase == Phase::Physical { next: process }
        }
    }

    fn logical_checkpoint(&mut self, process: usize) -> Result<(), Stop> {
        require(process < self.topology.processes, 8)?;
        let turn = process == 0 || self.marked[0];
        require(self.phase == Phase::Logical && !self.marked[process] && turn, 12)?;
        self.mark(process);
        Ok(())
    }

    /// Marking turns the process's tag over.
    pub fn mark(&mut self, process: usize) {
        self.marked[process] = true;
        self.tags[process] = !self.tags[process];
    }

    fn send_marker(&mut self, channel: usize) -> Result<(), Stop> {
        let (from, _) = self.ends(channel)?;
        let due = self.marked[from] && !self.marker_sent[channel];
        require(self.phase == Phase::Logical && due, 12)?;
        require(self.channels[channel].len() < CAPACITY, 9)?;
        self.channels[channel].push_back(Entry::Marker);
        self.marker_sent[channel] = true;
        Ok(())
    }

    fn commit(&mut self, power: &mut Power) -> Result<(), Stop> {
        let ready = self.all_marked() && self.all_saved() && self.all_closed();
        require(self.phase == Phase::Logical && ready, 12)?;
        power.put(LINE, self.line + 1)?;
        self.line += 1;
        self.clear_round();
        self.phase = Phase::Idle;
        Ok(())
    }

    fn abort(&mut self) -> Result<(), Stop> {
        require(self.phase != Phase::Idle, 12)?;
        let planned = self.topology.channels.len();
        for entries in &mut self.channels[..planned] {
            entries.retain(|entry| *entry != Entry::Marker);
            for entry in entries {
                if let Entry::Message { tag, .. } = entry {
                    *tag = false;
                }
            }
        }
        self.tags.fill(false);
        self.clear_round();
        self.phase = Phase::Idle;
        Ok(())
    }
}

//! The engine as one would write it today: the state is changed in place, through `&mut`.

use crate::rules::*;
use crate::types::*;

impl Channel {
    pub fn push(&mut self, e: Entry) {
        let (kind, body) = match e {
            Entry::Message { body, tag } => (tag as u8, body),
            Entry::Marker => (2, 0),
        };
        self.kinds[self.count as usize] = kind;
        self.bodies[self.count as usize] = body;
        self.count += 1;
    }

    pub fn first(&self) -> Entry {
        match self.kinds[0] {
            0 => Entry::Message { body: self.bodies[0], tag: false },
            1 => Entry::Message { body: self.bodies[0], tag: true },
            _ => Entry::Marker,
        }
    }

    pub fn pop(&mut self) {
        self.count -= 1;
        let last = self.count as usize;
        self.kinds.copy_within(1..=last, 0);
        self.bodies.copy_within(1..=last, 0);
    }

    /// The messages alone, in order, with tag 0.
    pub fn plain(&mut self) {
        let mut kept = 0;
        for i in 0..self.count as usize {
            if self.kinds[i] < 2 {
                self.bodies[kept] = self.bodies[i];
                self.kinds[kept] = 0;
                kept += 1;
            }
        }
        self.count = kept as u8;
    }
}

impl Counts {
    fn raise(&mut self, log: Log) {
        match log {
            Log::Messages(p) => self.messages[p] += 1,
            Log::Channel(c) => self.channels[c] += 1,
        }
    }
}

enum Stop {
    Refused(Refusal),
    PowerLost,
}

fn require(met: bool, refusal: Refusal) -> Result<(), Stop> {
    if met {
        Ok(())
    } else {
        Err(Stop::Refused(refusal))
    }
}

/// The store, the writes that the power still lasts for, and those made.
struct Power<'a> {
    store: &'a mut [u32],
    left: u32,
    made: u32,
}

impl Power<'_> {
    fn put(&mut self, cell: usize, value: u32) -> Result<(), Stop> {
        if self.left == 0 {
            return Err(Stop::PowerLost);
        }
        self.left -= 1;
        self.made += 1;
        self.store[cell] = value;
        Ok(())
    }
}

impl State {
    pub fn step(&mut self, step: Step, store: &mut [u32], budget: u32) -> (Outcome, u32) {
        if !sound(self) {
            return (Outcome::Refused(Refusal::Unsound), 0);
        }
        if store.len() < STORE_CELLS {
            return (Outcome::Refused(Refusal::ShortStore), 0);
        }
        let mut power = Power { store, left: budget, made: 0 };
        let outcome = match self.perform(step, &mut power) {
            Ok(outcome) => outcome,
            Err(Stop::Refused(refusal)) => Outcome::Refused(refusal),
            Err(Stop::PowerLost) => Outcome::PowerLost,
        };
        (outcome, power.made)
    }

    fn perform(&mut self, step: Step, power: &mut Power) -> Result<Outcome, Stop> {
        match step {
            Step::Send { channel, body } => return self.send(channel, body),
            Step::Receive { channel } => return self.receive(channel, power),
            Step::Begin => self.begin(power)?,
            Step::PhysicalCheckpoint { process } => self.physical_checkpoint(process, power)?,
            Step::LogicalCheckpoint { process } => self.logical_checkpoint(process)?,
            Step::SendMarker { channel } => self.send_marker(channel)?,
            Step::Commit => self.commit(power)?,
            Step::Abort => self.abort()?,
        }
        Ok(Outcome::Done)
    }

    fn send(&mut self, channel: u8, body: u32) -> Result<Outcome, Stop> {
        require(channel < self.topology.channels, Refusal::NoSuch)?;
        let at = channel as usize;
        require((self.channels[at].count as usize) < ROOM, Refusal::ChannelFull)?;
        let tag = self.tags[self.topology.from[at] as usize];
        self.channels[at].push(Entry::Message { body, tag });
        Ok(Outcome::Sent(ROOM as u8 - self.channels[at].count))
    }

    fn receive(&mut self, channel: u8, power: &mut Power) -> Result<Outcome, Stop> {
        require(channel < self.topology.channels, Refusal::NoSuch)?;
        let at = channel as usize;
        require(self.channels[at].count > 0, Refusal::ChannelEmpty)?;
        let to = self.topology.to[at] as usize;
        let logical = self.round.phase == Phase::Logical;
        let Entry::Message { body, tag } = self.channels[at].first() else {
            require(!(logical && self.flags.closed[at]), Refusal::MarkerOnClosed)?;
            if logical {
                if !self.flags.logical[to] {
                    self.set_logical(to);
                }
                self.flags.closed[at] = true;
            }
            self.channels[at].pop();
            return Ok(Outcome::ReceivedMarker);
        };
        let logs = logs_for(self, at, tag);
        require(!any_full(&self.counts, logs), Refusal::LogFull)?;
        for log in logs.into_iter().flatten() {
            self.append(log, at, body, power)?;
        }
        for log in logs.into_iter().flatten() {
            self.counts.raise(log);
        }
        if marks(self, to, tag) {
            self.set_logical(to);
        }
        self.channels[at].pop();
        self.words[to] = enter(self.words[to], at as u32, body);
        Ok(Outcome::Received(body))
    }

    /// The entry and the raised count into the log.
    fn append(&self, log: Log, at: usize, body: u32, power: &mut Power) -> Result<(), Stop> {
        let count = count_of(&self.counts, log);
        let cell = count_cell(self.round.line + 1, log);
        let cells = entry_cells(log);
        let place = cell + 1 + cells * count as usize;
        power.put(place, body)?;
        if let Log::Messages(_) = log {
            power.put(place + 1, at as u32)?;
        }
        power.put(cell, count as u32 + 1)
    }

    fn begin(&mut self, power: &mut Power) -> Result<(), Stop> {
        require(self.round.phase == Phase::Idle, Refusal::NotNow)?;
        require(self.round.line != u32::MAX, Refusal::LastLine)?;
        let line = self.round.line + 1;
        for p in 0..self.topology.processes as usize {
            power.put(message_count_cell(line, p), 0)?;
        }
        for c in 0..self.topology.channels as usize {
            power.put(channel_count_cell(line, c), 0)?;
        }
        self.counts = NO_COUNTS;
        self.physical_from(0);
        Ok(())
    }

    fn physical_checkpoint(&mut self, process: u8, power: &mut Power) -> Result<(), Stop> {
        require(process < self.topology.processes, Refusal::NoSuch)?;
        require(physical_due(self, process), Refusal::NotNow)?;
        let at = process as usize;
        power.put(physical_cell(self.round.line + 1, at), self.words[at])?;
        if self.topology.is_late(at) {
            self.flags.saved[at] = true;
        } else {
            self.physical_from(process + 1);
        }
        Ok(())
    }

    /// The physical checkpoints go on with the first early process from this one on; where there is none, the logical
    /// phase starts.
    fn physical_from(&mut self, from: u8) {
        if let Some(next) = self.topology.next_early(from) {
            self.round.phase = Phase::Physical(next);
        } else {
            self.round.phase = Phase::Logical;
            self.flags = NO_FLAGS;
        }
    }

    fn set_logical(&mut self, process: usize) {
        self.flags.logical[process] = true;
        self.tags[process] = !self.tags[process];
    }

    fn logical_checkpoint(&mut self, process: u8) -> Result<(), Stop> {
        require(process < self.topology.processes, Refusal::NoSuch)?;
        let done = self.flags.logical[process as usize];
        let in_turn = process == 0 || self.flags.logical[0];
        require(self.round.phase == Phase::Logical && !done && in_turn, Refusal::NotNow)?;
        self.set_logical(process as usize);
        Ok(())
    }

    fn send_marker(&mut self, channel: u8) -> Result<(), Stop> {
        require(channel < self.topology.channels, Refusal::NoSuch)?;
        let at = channel as usize;
        let ready = self.flags.logical[self.topology.from[at] as usize];
        let due = ready && !self.flags.sent[at];
        require(self.round.phase == Phase::Logical && due, Refusal::NotNow)?;
        require((self.channels[at].count as usize) < ROOM, Refusal::ChannelFull)?;
        self.flags.sent[at] = true;
        self.channels[at].push(Entry::Marker);
        Ok(())
    }

    fn commit(&mut self, power: &mut Power) -> Result<(), Stop> {
        require(through(self), Refusal::NotNow)?;
        power.put(LINE_CELL, self.round.line + 1)?;
        self.round = Round { line: self.round.line + 1, phase: Phase::Idle };
        self.flags = NO_FLAGS;
        Ok(())
    }

    fn abort(&mut self) -> Result<(), Stop> {
        require(self.round.phase != Phase::Idle, Refusal::NotNow)?;
        for c in &mut self.channels[..self.topology.channels as usize] {
            c.plain();
        }
        self.tags = [false; PROCESSES];
        self.flags = NO_FLAGS;
        self.round.phase = Phase::Idle;
        Ok(())
    }

    /// Document 01's setup.
    pub fn initialize(&mut self, t: &Topology, store: &mut [u32]) -> Result<(), Refusal> {
        check(t)?;
        if store.len() < STORE_CELLS {
            return Err(Refusal::ShortStore);
        }
        clear_all(store, t);
        *self = State::idle(*t, 0);
        Ok(())
    }

    /// Document 01's restart: it only reads the store.
    pub fn recover(&mut self, t: &Topology, store: &[u32]) -> Result<(), Refusal> {
        check_store(t, store)?;
        let line = store[LINE_CELL];
        *self = State::idle(*t, line);
        for p in 0..t.processes as usize {
            let word = store[physical_cell(line, p)];
            self.words[p] = restore(t.is_late(p), word, store, message_count_cell(line, p));
        }
        for c in 0..t.channels as usize {
            let bodies = bodies(store, channel_count_cell(line, c));
            self.channels[c].bodies[..bodies.len()].copy_from_slice(bodies);
            self.channels[c].count = bodies.len() as u8;
        }
        Ok(())
    }
}

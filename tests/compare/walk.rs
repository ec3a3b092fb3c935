//! A random walk over the reference's state that prefers useful steps: a round
//! driver, mixed with sends, takes, bursts that fill logs and channels, recovers
//! and calls at random.

use crate::rng::Rng;
use crate::style::Style;
use reference::console::REDUCE;
use reference::forms::{Form, NEW};
use reference::program::{call, Program};
use reference::record::{self, Record};
use reference::state::{Phase, State, CAPACITY};
use reference::steps::{Outcome, Step};
use reference::topology::Topology;

/// A call of a list: its write budget (of `drill`) and its record.
pub type Call = (u32, Record);

pub struct Walk<'a> {
    pub rng: &'a mut Rng,
    program: Program,
    style: Style,
    pub state: State,
    pub store: Vec<u32>,
    pub calls: Vec<Call>,
}

impl<'a> Walk<'a> {
    pub fn new(rng: &'a mut Rng, program: Program, topology: &Topology, style: Style) -> Walk<'a> {
        Walk::on(rng, program, NEW, topology, vec![0; NEW.cells], style)
    }

    /// On a store of this form, by the rules of that form.
    pub fn on(
        rng: &'a mut Rng,
        program: Program,
        form: Form,
        topology: &Topology,
        mut store: Vec<u32>,
        style: Style,
    ) -> Walk<'a> {
        let state = State::initialize(form, topology, &mut store).expect("a whole plan");
        Walk { rng, program, style, state, store, calls: Vec::new() }
    }

    /// Walks until the list has so many calls (or a few more).
    pub fn go(&mut self, calls: usize) {
        while self.calls.len() < calls {
            match self.rng.weighted(&self.style.weights) {
                0 => self.send(),
                1 => self.receive(),
                2 => self.drive(),
                3 => self.burst(),
                4 => self.call(Record::Recover),
                5 => self.step(Step::Abort),
                _ => self.anything(),
            }
        }
    }

    fn step(&mut self, step: Step) {
        self.call(Record::Step(step));
    }

    /// One call, with a budget that suits it or, at times, one that doesn't.
    fn call(&mut self, record: Record) {
        let budget = match self.program {
            Program::Drill => self.budget(record),
            _ => u32::MAX,
        };
        let answer = call(&mut self.state, &mut self.store, record, u64::from(budget));
        self.calls.push((budget, record));
        if answer.outcome == Outcome::PowerLost && self.rng.percent(self.style.recovers) {
            let budget = self.rng.below(3) as u32;
            call(&mut self.state, &mut self.store, Record::Recover, 0);
            self.calls.push((budget, Record::Recover));
        }
    }

    fn budget(&mut self, record: Record) -> u32 {
        let needed = self.needed(record);
        if needed > 0 && self.rng.percent(self.style.cuts) {
            return self.rng.below(needed) as u32;
        }
        match self.rng.below(4) {
            0 => u32::MAX,
            1 => (needed + self.rng.below(300)) as u32,
            _ => needed as u32,
        }
    }

    /// The stores that an accepted call makes.
    fn needed(&self, record: Record) -> usize {
        let topology = &self.state.topology;
        match record {
            Record::Step(Step::Begin) => topology.processes + topology.channels.len(),
            Record::Step(Step::PhysicalCheckpoint { .. } | Step::Commit) => 1,
            Record::Step(Step::Receive { channel }) if channel < topology.channels.len() => {
                let rule = self.state.rule(channel);
                rule.map_or(0, |rule| rule.stores(self.state.form.entry))
            }
            _ => 0,
        }
    }

    fn body(&mut self) -> u32 {
        match self.rng.below(6) {
            0 => 0,
            1 => u32::MAX - self.rng.below(2) as u32,
            2 => self.rng.next() as u32,
            _ => self.rng.below(300) as u32,
        }
    }

    /// A planned channel, mostly one of those that meet a test.
    fn channel(&mut self, test: impl Fn(&State, usize) -> bool) -> usize {
        let all: Vec<usize> = (0..self.state.topology.channels.len()).collect();
        let fit: Vec<usize> = all.iter().copied().filter(|&c| test(&self.state, c)).collect();
        let strict = self.rng.percent(94);
        let chosen =
            if strict && !fit.is_empty() { self.rng.pick(&fit) } else { self.rng.pick(&all) };
        chosen.unwrap_or(0)
    }

    fn send(&mut self) {
        let channel = self.channel(|state, c| state.channels[c].len() < CAPACITY);
        let body = self.body();
        self.step(Step::Send { channel, body });
    }

    fn receive(&mut self) {
        let channel = self.channel(|state, c| !state.channels[c].is_empty());
        self.step(Step::Receive { channel });
    }

    /// The next step of a round, drawn from those that get it on.
    fn drive(&mut self) {
        match self.state.phase {
            Phase::Idle => self.step(Step::Begin),
            Phase::Physical { next } => self.step(Step::PhysicalCheckpoint { process: next }),
            Phase::Logical => self.drive_logical(),
        }
    }

    /// In marking: the marks, late copies, markers and receives that get a round on.
    fn useful(&self) -> [Vec<Step>; 4] {
        let state = &self.state;
        let processes = || 0..state.topology.processes;
        let channels = || 0..state.topology.channels.len();
        let sender = |c: usize| state.topology.channels[c].0;
        let marks = processes().filter(|&p| !state.marked[p] && (p == 0 || state.marked[0]));
        let copies = processes().filter(|&p| between_mark_and_copy(state, p));
        let markers = channels().filter(|&c| {
            state.marked[sender(c)] && !state.marker_sent[c] && state.channels[c].len() < CAPACITY
        });
        let receives = channels().filter(|&c| !state.closed[c] && !state.channels[c].is_empty());
        [
            marks.map(|process| Step::LogicalCheckpoint { process }).collect(),
            copies.map(|process| Step::PhysicalCheckpoint { process }).collect(),
            markers.map(|channel| Step::SendMarker { channel }).collect(),
            receives.map(|channel| Step::Receive { channel }).collect(),
        ]
    }

    fn drive_logical(&mut self) {
        let through = self.state.all_marked() && self.state.all_closed();
        // At times late copies aren't waited for.
        if through && (self.state.all_saved() || self.rng.percent(20)) {
            return self.step(Step::Commit);
        }
        let [marks, copies, markers, receives] = self.useful();
        // Mostly late copies come when nothing else is left to do, so that much is
        // taken between mark and copy.
        let order = match self.rng.below(6) {
            0 | 1 => [markers, receives, marks, copies],
            2 | 3 => [receives, markers, marks, copies],
            4 => [marks, markers, receives, copies],
            _ => [copies, marks, markers, receives],
        };
        let useful = order.iter().find(|steps| !steps.is_empty());
        match useful.and_then(|steps| self.rng.pick(steps)) {
            Some(step) => self.step(step),
            None => self.step(Step::Abort),
        }
        // A full log can hold a round up for good.
        if self.rng.percent(1) {
            self.step(Step::Abort);
        }
    }

    /// Fills a log, fills a channel, or drains one.
    fn burst(&mut self) {
        let channel = self.channel(|state, c| {
            let (from, to) = state.topology.channels[c];
            match state.phase {
                Phase::Idle => true,
                Phase::Physical { next } => to < next,
                Phase::Logical => !state.marked[from] || between_mark_and_copy(state, to),
            }
        });
        match self.rng.below(4) {
            0 => {
                for _ in 0..8 + self.rng.below(2) {
                    let body = self.body();
                    self.step(Step::Send { channel, body });
                }
                if self.rng.percent(50) {
                    self.step(Step::SendMarker { channel });
                }
            }
            1 => {
                for _ in 0..self.rng.below(10) {
                    self.step(Step::Receive { channel });
                }
            }
            _ => self.pairs(channel),
        }
    }

    /// Send and receive by turns, as often as one log or the other has places.
    fn pairs(&mut self, channel: usize) {
        for _ in 0..self.rng.pick(&[3, 8, 9, 20, 64, 65]).unwrap() {
            let body = self.body();
            self.step(Step::Send { channel, body });
            self.step(Step::Receive { channel });
        }
    }

    /// Any record, also with numbers that aren't in the plan.
    fn anything(&mut self) {
        let (processes, channels) =
            (self.state.topology.processes, self.state.topology.channels.len());
        let beyond = self.rng.percent(20);
        let process = self.rng.below(processes) + if beyond { processes } else { 0 };
        let channel = self.rng.below(channels) + if beyond { channels } else { 0 };
        let body = self.body();
        let record = match self.rng.below(9) {
            0 => Record::Step(Step::Send { channel, body }),
            1 => Record::Step(Step::Receive { channel }),
            2 => Record::Step(Step::Begin),
            3 => Record::Step(Step::PhysicalCheckpoint { process }),
            4 => Record::Step(Step::LogicalCheckpoint { process }),
            5 => Record::Step(Step::SendMarker { channel }),
            6 => Record::Step(Step::Commit),
            7 => Record::Step(Step::Abort),
            _ => Record::Recover,
        };
        self.call(record);
    }
}

/// Whether what a late process takes now becomes anti-messages, and it may copy.
fn between_mark_and_copy(state: &State, process: usize) -> bool {
    state.late(process) && state.marked[process] && !state.saved[process]
}

/// The bytes of a whole input.
pub fn encode(program: Program, topology: &Topology, calls: &[Call]) -> Vec<u8> {
    let mut bytes = topology.write();
    if program == Program::Console {
        bytes.insert(0, REDUCE);
    }
    for &(budget, record) in calls {
        if program == Program::Drill {
            bytes.extend(budget.to_le_bytes());
        }
        bytes.extend(record::write(record));
    }
    bytes
}

//! A state and its store, set up and driven step by step, for the cases that are
//! tried on the reference itself.

use reference::forms::NEW;
use reference::state::State;
use reference::steps::{Outcome, Step};
use reference::topology::Topology;

/// A state and its store.
pub struct Rig {
    pub state: State,
    pub store: Vec<u32>,
}

impl Rig {
    pub fn new(processes: usize, channels: &[(usize, usize)]) -> Rig {
        Rig::on(&Topology::early(processes, channels.to_vec()))
    }

    pub fn on(topology: &Topology) -> Rig {
        let mut store = vec![u32::MAX; NEW.cells];
        let state = State::initialize(NEW, topology, &mut store).expect("a whole plan");
        Rig { state, store }
    }

    /// Two processes, with a channel each way.

    pub fn pair() -> Rig {
        Rig::new(2, &[(0, 1), (1, 0)])
    }

    pub fn step(&mut self, step: Step) -> Outcome {
        self.state.step(step, &mut self.store, u64::MAX).outcome
    }

    pub fn done(&mut self, steps: &[Step]) -> bool {
        let done = |outcome| matches!(outcome, Outcome::Done | Outcome::Sent(_));
        steps.iter().all(|&step| done(self.step(step)))
    }

    /// So many sends leave room for fewer and fewer entries, the last for so many.
    pub fn filling(&mut self, channel: usize, sends: usize, last: usize) -> bool {
        (0..sends).rev().all(|more| self.step(send(channel, 1)) == Outcome::Sent(last + more))
    }

    pub fn recovered(&self) -> State {
        State::recover(NEW, &self.state.topology, &self.store).expect("a sound store")
    }
}

pub const fn send(channel: usize, body: u32) -> Step {
    Step::Send { channel, body }
}
pub const fn receive(channel: usize) -> Step {
    Step::Receive { channel }
}
pub const fn copy(process: usize) -> Step {
    Step::PhysicalCheckpoint { process }
}
pub const fn mark(process: usize) -> Step {
    Step::LogicalCheckpoint { process }
}
pub const fn note(channel: usize) -> Step {
    Step::SendMarker { channel }
}

//! The measured work over the engine that passes its state by value.
mod by_value;
mod by_value_records;
mod by_value_start;
mod carry;
mod driver;
mod engine;
mod reduce;
mod rules;
mod types;

use types::*;

struct Held {
    answer: by_value::Answer,
}

impl engine::Engine for Held {
    fn initialize(t: &Topology, store: &mut [u32]) -> Held {
        let state = by_value_start::initialize(*t, store).state;
        Held { answer: by_value::Answer { outcome: Outcome::Done, made: 0, state } }
    }
    fn step(&mut self, step: Step, store: &mut [u32], budget: u32) -> (Outcome, u32) {
        self.answer = by_value::step(self.answer.state, step, store, budget);
        (self.answer.outcome, self.answer.made)
    }
    fn recover(&mut self, t: &Topology, store: &[u32]) -> Result<(), Refusal> {
        let started = by_value_start::recover(*t, store);
        self.answer.state = started.state;
        started.start
    }
    fn state(&self) -> &State {
        &self.answer.state
    }
    fn read(bytes: &mut &[u8]) -> Result<Record, Refusal> {
        let (record, rest) = by_value_records::read(bytes)?;
        *bytes = rest;
        Ok(record)
    }
    fn write(record: Record, out: &mut [u8; 7]) -> usize {
        let written = by_value_records::write(record);
        *out = written.bytes;
        written.count
    }
}

fn main() {
    driver::run::<Held>();
}

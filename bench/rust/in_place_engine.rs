//! The engine that changes its state in place, as the measured work asks for one.

use crate::engine::Engine;
use crate::in_place_records;
use crate::types::*;

impl Engine for State {
    fn initialize(t: &Topology, store: &mut [u32]) -> State {
        let mut s = State::idle(*t, 0);
        let _ = State::initialize(&mut s, t, store);
        s
    }
    fn step(&mut self, step: Step, store: &mut [u32], budget: u32) -> (Outcome, u32) {
        State::step(self, step, store, budget)
    }
    fn recover(&mut self, t: &Topology, store: &[u32]) -> Result<(), Refusal> {
        State::recover(self, t, store)
    }
    fn state(&self) -> &State {
        self
    }
    fn read(bytes: &mut &[u8]) -> Result<Record, Refusal> {
        in_place_records::read(bytes)
    }
    fn write(record: Record, out: &mut [u8; 7]) -> usize {
        in_place_records::write(record, out)
    }
}

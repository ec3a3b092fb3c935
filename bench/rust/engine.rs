//! What the measured work asks of an engine, whether it changes its state in place or passes it.

use crate::types::*;

pub trait Engine {
    fn initialize(t: &Topology, store: &mut [u32]) -> Self;
    fn step(&mut self, step: Step, store: &mut [u32], budget: u32) -> (Outcome, u32);
    fn recover(&mut self, t: &Topology, store: &[u32]) -> Result<(), Refusal>;
    fn state(&self) -> &State;
    fn read(bytes: &mut &[u8]) -> Result<Record, Refusal>;
    fn write(record: Record, out: &mut [u8; 7]) -> usize;
}

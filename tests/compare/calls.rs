//! The calls that fixed lists are made of, each with full power.

use crate::directed::{full, FULL};
use crate::walk::Call;
use reference::record::Record;
use reference::steps::Step;

pub const BEGIN: Call = (FULL, Record::Step(Step::Begin));
pub const COMMIT: Call = (FULL, Record::Step(Step::Commit));
pub const ABORT: Call = (FULL, Record::Step(Step::Abort));

pub fn send(channel: usize, body: u32) -> Call {
    full(Step::Send { channel, body })
}
pub fn receive(channel: usize) -> Call {
    full(Step::Receive { channel })
}
pub fn copy(process: usize) -> Call {
    full(Step::PhysicalCheckpoint { process })
}
pub fn mark(process: usize) -> Call {
    full(Step::LogicalCheckpoint { process })
}
pub fn note(channel: usize) -> Call {
    full(Step::SendMarker { channel })
}

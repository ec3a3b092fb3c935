//! M-102: a store carried from one form to the other, and what `console` and
//! `converter` print for it (issue 24, point 8): `done` and the target, which the
//! one shows as lines and the other as bytes, or the same line of a refusal.

use crate::console::{asked, plan_refused, refused};
use crate::forms::{Form, NEW, OLD};
use crate::program::{print_store, rubbish};
use crate::state::State;
use crate::store::LINE;
use crate::topology::Topology;

/// The first bytes that ask for a store of the other form.
pub const UPGRADE: u8 = 2;
pub const DOWNGRADE: u8 = 3;

/// Carries a store. Refusals: 1 to 5, 19, 6 and 16 of the source, then 6 of the
/// target.
pub fn carry(
    topology: &Topology,
    (from, source): (Form, &[u32]),
    (to, target): (Form, &mut [u32]),
) -> Result<(), u8> {
    let finished = State::recover(from, topology, source)?;
    if target.len() < to.cells {
        return Err(6);
    }
    let line = finished.line;
    for p in 0..topology.processes {
        target[to.physical_checkpoint(line, p)] = finished.words[p];
        target[to.message_log(line, p)] = 0;
    }
    for c in 0..topology.channels.len() {
        let log = to.channel_log(line, c);
        let bodies = finished.bodies(c);
        target[log + 1..][..bodies.len()].copy_from_slice(&bodies);
        target[log] = bodies.len() as u32;
    }
    target[LINE] = line;
    Ok(())
}

/// An input that asks for a store of the other form.
pub struct Carriage {
    pub from: Form,
    pub to: Form,
    pub topology: Topology,
    pub source: Vec<u32>,
}

impl Carriage {
    /// Reads an input, or gives the line that is printed instead.
    pub fn read(input: &[u8]) -> Result<Carriage, String> {
        let (first, bytes) = asked(input)?;
        let (from, to) = match first {
            UPGRADE => (OLD, NEW),
            DOWNGRADE => (NEW, OLD),
            _ => return Err(refused(7)),
        };
        let (topology, cells) = Topology::read(bytes).map_err(plan_refused)?;
        let (cells, []) = cells.as_chunks() else {
            return Err(refused(7));
        };
        let source = cells.iter().map(|&cell| u32::from_le_bytes(cell)).collect();
        Ok(Carriage { from, to, topology, source })
    }

    /// The target, from what its cells hold at first.
    pub fn onto(&self, mut target: Vec<u32>) -> Result<Vec<u32>, u8> {
        carry(&self.topology, (self.from, &self.source), (self.to, &mut target))?;
        Ok(target)
    }

    /// What `console` prints after `done`: the cells that aren't what they were.
    fn changed(&self) -> Result<Vec<u8>, u8> {
        let target = self.onto(rubbish(self.to.cells))?;
        let mut text = String::new();
        print_store(&mut text, &target);
        Ok(text.into_bytes())
    }

    /// What `converter` prints after `done`: every cell of a target that starts
    /// as zeros.
    fn cells(&self) -> Result<Vec<u8>, u8> {
        let target = self.onto(vec![0; self.to.cells])?;
        Ok(target.into_iter().flat_map(u32::to_le_bytes).collect())
    }
}

/// `done` and the target as it is shown, or the line of a refusal.
fn told(input: &[u8], shown: fn(&Carriage) -> Result<Vec<u8>, u8>) -> Result<Vec<u8>, String> {
    let target = shown(&Carriage::read(input)?).map_err(refused)?;
    Ok([b"done\n", &target[..]].concat())
}

/// The whole output of `console`, where it is asked for a store.
pub fn text(input: &[u8]) -> Vec<u8> {
    told(input, Carriage::changed).unwrap_or_else(String::into_bytes)
}

/// The whole output of `converter`.
pub fn file(input: &[u8]) -> Vec<u8> {
    told(input, Carriage::cells).unwrap_or_else(String::into_bytes)
}

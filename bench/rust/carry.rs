//! A store carried from the form of document 01 to that of M-101, and back, as one would write it today; the two Rust
//! programs do it alike, since there is no state in it.

use crate::rules::{bodies, check, restore, CHANNEL_PLACES, LINE_CELL, MESSAGE_PLACES};
use crate::types::*;

#[derive(Clone, Copy)]
pub enum Form {
    Old,
    Present,
}

impl Form {
    fn entry_cells(self) -> usize {
        match self {
            Form::Old => 1,
            Form::Present => 2,
        }
    }

    fn process_cells(self) -> usize {
        2 + MESSAGE_PLACES as usize * self.entry_cells()
    }

    fn slot_cells(self) -> usize {
        PROCESSES * self.process_cells() + CHANNELS * (1 + CHANNEL_PLACES as usize)
    }

    pub fn store_cells(self) -> usize {
        1 + 2 * self.slot_cells()
    }

    fn slot(self, line: u32) -> usize {
        1 + self.slot_cells() * (line % 2) as usize
    }

    pub fn physical_cell(self, line: u32, process: usize) -> usize {
        self.slot(line) + self.process_cells() * process
    }

    pub fn channel_count_cell(self, line: u32, channel: usize) -> usize {
        let start = self.slot(line) + PROCESSES * self.process_cells();
        start + (1 + CHANNEL_PLACES as usize) * channel
    }

    /// Refusals 1 to 5 and 19, 6, then 16.
    fn check_source(self, t: &Topology, source: &[u32]) -> Result<(), Refusal> {
        check(t)?;
        if source.len() < self.store_cells() {
            return Err(Refusal::ShortStore);
        }
        let line = source[LINE_CELL];
        for p in 0..t.processes as usize {
            if source[self.physical_cell(line, p) + 1] > MESSAGE_PLACES as u32 {
                return Err(Refusal::BadCount);
            }
        }
        for c in 0..t.channels as usize {
            if source[self.channel_count_cell(line, c)] > CHANNEL_PLACES as u32 {
                return Err(Refusal::BadCount);
            }
        }
        Ok(())
    }

    /// The word of the process whose record begins in a cell, by the form's rule: the old form's logs hold no
    /// anti-messages, whether the process is late or not.
    fn word(self, late: bool, source: &[u32], at: usize) -> u32 {
        let old_enter = |word: u32, body: &u32| word.wrapping_mul(31).wrapping_add(*body);
        match self {
            Form::Old => bodies(source, at + 1).iter().fold(source[at], old_enter),
            Form::Present => restore(late, source[at], source, at + 1),
        }
    }
}

/// The source's line into the target; nothing where it is refused.
pub fn carry(
    t: &Topology,
    (from, source): (Form, &[u32]),
    (to, target): (Form, &mut [u32]),
) -> Result<(), Refusal> {
    from.check_source(t, source)?;
    if target.len() < to.store_cells() {
        return Err(Refusal::ShortStore);
    }
    let line = source[LINE_CELL];
    for p in 0..t.processes as usize {
        let at = to.physical_cell(line, p);
        target[at] = from.word(t.is_late(p), source, from.physical_cell(line, p));
        target[at + 1] = 0;
    }
    for c in 0..t.channels as usize {
        let (read, write) = (from.channel_count_cell(line, c), to.channel_count_cell(line, c));
        let cells = 1 + source[read] as usize;
        target[write..write + cells].copy_from_slice(&source[read..read + cells]);
    }
    target[LINE_CELL] = line;
    Ok(())
}

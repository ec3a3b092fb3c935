//! The store: its logs, and writing while the power lasts. Where things stand in
//! it is a matter of its form.

/// Places of a message log (document 01: board log).
pub const MESSAGE_LOG: usize = 64;
/// Places of a channel log (document 01: wire log).
pub const CHANNEL_LOG: usize = 8;
/// The cell that holds the number of the last finished recovery line.
pub const LINE: usize = 0;

/// Why a step ends without being done.
#[derive(Clone, Copy, Debug, PartialEq, Eq)]
pub enum Stop {
    Refused(u8),
    /// Document 01: cut.
    PowerLost,
}

/// The store together with the write budget (document 01: the number of stores
/// that the current lasts for).
pub struct Power<'a> {
    store: &'a mut [u32],
    left: u64,
    made: u64,
}

impl<'a> Power<'a> {
    pub fn new(store: &'a mut [u32], budget: u64) -> Power<'a> {
        Power { store, left: budget, made: 0 }
    }

    /// Stores made so far.
    pub fn made(&self) -> u64 {
        self.made
    }

    /// One store, if the power lasts for it.
    pub fn put(&mut self, cell: usize, value: u32) -> Result<(), Stop> {
        if self.left == 0 {
            return Err(Stop::PowerLost);
        }
        self.left -= 1;
        self.made += 1;
        self.store[cell] = value;
        Ok(())
    }

    /// A logged entry: its cells at the place that the count names, then the
    /// raised count.
    pub fn append(&mut self, log: usize, count: usize, entry: &[u32]) -> Result<(), Stop> {
        let place = log + 1 + entry.len() * count;
        for (cell, &value) in (place..).zip(entry) {
            self.put(cell, value)?;
        }
        self.put(log, count as u32 + 1)
    }
}

/// The entries, so many cells each, of the log whose count stands in a cell, or
/// 16 where the count is over its places.
pub fn read_log(store: &[u32], log: usize, places: usize, entry: usize) -> Result<Vec<&[u32]>, u8> {
    let count = store[log] as usize;
    if count > places {
        return Err(16);
    }
    Ok(store[log + 1..].chunks_exact(entry).take(count).collect())
}

//! Random stores to be carried to the other form: most of them as a random run
//! by the rules of their own form leaves them, some of them damaged.

use crate::carried;
use crate::lists::List;
use crate::plans;
use crate::rng::Rng;
use crate::style::Style;
use crate::walk::Walk;
use reference::forms::{Form, NEW, OLD};
use reference::migrate::{DOWNGRADE, UPGRADE};
use reference::program::{rubbish, Program};
use reference::store::LINE;
use reference::topology::{Topology, CHANNELS, PROCESSES};

/// Sets these numbers apart from those of the other lists of a seed.
const SEED: u64 = 0x102 << 32;

/// The store of this number, for both programs; the ways by turns.
pub fn random(base: u64, number: u64) -> [List; 2] {
    let mut rng = Rng::new(base ^ SEED, number);
    let (asked, form) = if number % 2 == 0 { (UPGRADE, OLD) } else { (DOWNGRADE, NEW) };
    let mut source = reached(&mut rng, form);
    let (kind, bytes) = match rng.weighted(&[76, 4, 4, 4, 3, 3, 6]) {
        0 => ("reached", source.input(asked)),
        1 => ("a count over its places", source.over(&mut rng).input(asked)),
        2 => ("counts over their places elsewhere", source.over_elsewhere(&mut rng).input(asked)),
        3 => ("any cells", source.any_cells(&mut rng).input(asked)),
        4 => ("too short", source.short(&mut rng).input(asked)),
        5 => ("bytes over or missing", uneven(&mut rng, source.input(asked))),
        _ => ("broken plan", broken_plan(&mut rng, asked, &source)),
    };
    let list = |program| List {
        name: format!("random store {number} of seed {base} ({kind})"),
        program,
        bytes: bytes.clone(),
    };
    [Program::Console, Program::Converter].map(list)
}

pub struct Source {
    pub form: Form,
    pub topology: Topology,
    pub cells: Vec<u32>,
}

/// What a run leaves that starts on cells of any kind and loses power at times.
fn reached(rng: &mut Rng, form: Form) -> Source {
    let topology = plans::whole(rng);
    let more = if rng.percent(60) { 0 } else { 1 + rng.below(2000) };
    let cells = blank(rng, form.cells + more);
    let calls = rng.pick(&[0, 60, 150, 300, 300, 600, 1000, 1000]).unwrap();
    let style = match rng.below(4) {
        0 => Style::random(rng),
        1 => Style::bursting(),
        _ => Style::driving(rng),
    };
    let mut walk = Walk::on(rng, Program::Drill, form, &topology, cells, style);
    walk.go(calls);
    let mut cells = std::mem::take(&mut walk.store);
    if rng.percent(10) {
        // The same half for a line far on.
        cells[LINE] = cells[LINE].wrapping_sub(2 * (1 + rng.below(2) as u32));
    }
    Source { form, topology, cells }
}

/// Cells before setup.
fn blank(rng: &mut Rng, cells: usize) -> Vec<u32> {
    match rng.below(4) {
        0 => vec![0; cells],
        1 => rubbish(cells),
        2 => (0..cells).map(|_| rng.below(9) as u32).collect(),
        _ => (0..cells).map(|_| rng.next() as u32).collect(),
    }
}

impl Source {
    pub fn input(&self, asked: u8) -> Vec<u8> {
        carried::input(asked, &self.topology, &self.cells)
    }

    /// The cell of a count in the half for a line, and the count's limit: of a
    /// process if there is no channel of this range.
    fn count(
        &self,
        rng: &mut Rng,
        line: u32,
        processes: std::ops::Range<usize>,
        channels: std::ops::Range<usize>,
    ) -> Option<(usize, u32)> {
        let process = processes.start + rng.below(processes.len());
        let channel = channels.start + rng.below(channels.len());
        if !channels.is_empty() && (processes.is_empty() || rng.percent(50)) {
            Some((self.form.channel_log(line, channel), 8))
        } else {
            (!processes.is_empty()).then(|| (self.form.message_log(line, process), 64))
        }
    }

    fn put_over(&mut self, rng: &mut Rng, count: Option<(usize, u32)>) {
        if let Some((cell, limit)) = count {
            let huge = rng.next() as u32 | 1 << 31;
            self.cells[cell] = rng.pick(&[limit + 1, limit + 1, limit + 2, 256, huge]).unwrap();
        }
    }

    /// A planned count of the finished line's half over its places.
    fn over(&mut self, rng: &mut Rng) -> &Source {
        let planned = (0..self.topology.processes, 0..self.topology.channels.len());
        let count = self.count(rng, self.cells[LINE], planned.0, planned.1);
        self.put_over(rng, count);
        self
    }

    /// Counts over their places that nobody looks at: of the other half, or of
    /// what isn't planned.
    fn over_elsewhere(&mut self, rng: &mut Rng) -> &Source {
        let (line, processes) = (self.cells[LINE], self.topology.processes);
        let channels = self.topology.channels.len();
        for _ in 0..1 + rng.below(6) {
            let count = self.count(rng, line ^ 1, 0..PROCESSES, 0..CHANNELS);
            self.put_over(rng, count);
            let count = self.count(rng, line, processes..PROCESSES, channels..CHANNELS);
            self.put_over(rng, count);
        }
        self
    }

    /// Cells that no run need have left: any line, copies, entries and counts,
    /// but mostly none over its places.
    fn any_cells(&mut self, rng: &mut Rng) -> &Source {
        self.cells.fill_with(|| rng.next() as u32);
        let line = self.cells[LINE];
        for p in 0..self.topology.processes {
            self.cells[self.form.message_log(line, p)] = rng.below(65) as u32;
        }
        for c in 0..self.topology.channels.len() {
            self.cells[self.form.channel_log(line, c)] = rng.below(9) as u32;
        }
        if rng.percent(10) {
            self.over(rng);
        }
        self
    }

    /// Cells missing, and at times a count over its places.
    fn short(&mut self, rng: &mut Rng) -> &Source {
        if rng.percent(30) {
            self.over(rng);
        }
        let left = if rng.percent(60) { self.form.cells - 1 } else { rng.below(self.form.cells) };
        self.cells.truncate(left);
        self
    }
}

/// One to three bytes more or less.
fn uneven(rng: &mut Rng, mut bytes: Vec<u8>) -> Vec<u8> {
    let odd = 1 + rng.below(3);
    if rng.percent(50) {
        bytes.extend((0..odd).map(|_| rng.next() as u8));
    } else {
        bytes.truncate(bytes.len() - odd);
    }
    bytes
}

/// A broken plan before the cells, or before some of their bytes.
fn broken_plan(rng: &mut Rng, asked: u8, source: &Source) -> Vec<u8> {
    let cells: Vec<u8> = source.cells.iter().flat_map(|cell| cell.to_le_bytes()).collect();
    let kept = if rng.percent(50) { cells.len() } else { rng.below(200) };
    [&[asked], &plans::broken(rng)[..], &cells[..kept]].concat()
}

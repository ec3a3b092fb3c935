//! Makes a failing store to be carried simpler: channels, processes and late bits
//! go first, then cells past the store's, and stretches of cells become 0.

use crate::carried;
use crate::plans;
use crate::shrink::Search;
use reference::migrate::Carriage;
use reference::program::Program;
use reference::topology::Topology;

/// An input taken apart.
#[derive(Clone)]
struct Parts {
    asked: u8,
    topology: Topology,
    cells: Vec<u32>,
}

impl Parts {
    fn write(&self) -> Vec<u8> {
        carried::input(self.asked, &self.topology, &self.cells)
    }
}

/// A plan and cells that a program is asked to carry. The bytes of another
/// program's list may look like that.
fn carriage(program: Program, bytes: &[u8]) -> Option<Carriage> {
    let asked = matches!(program, Program::Console | Program::Converter);
    asked.then(|| Carriage::read(bytes).ok())?
}

/// The simplest failing input found; none where the input is no plan and cells.
pub fn simplest(search: &mut Search, bytes: &[u8]) -> Option<Vec<u8>> {
    let Carriage { from, topology, source, .. } = carriage(search.program, bytes)?;
    let mut parts = Parts { asked: bytes[0], topology, cells: source };
    while let Some(last) = parts.topology.channels.len().checked_sub(1) {
        if !keep(search, &mut parts, |parts| parts.topology.channels.truncate(last)) {
            break;
        }
    }
    while parts.topology.processes > 1 {
        if !keep(search, &mut parts, without_last) {
            break;
        }
    }
    for p in 0..parts.topology.processes {
        if parts.topology.is_late(p) {
            keep(search, &mut parts, |parts| parts.topology.late &= !(1 << p));
        }
    }
    keep(search, &mut parts, |parts| parts.cells.truncate(from.cells));
    let mut stretch = parts.cells.len();
    while stretch > 0 {
        for start in (0..parts.cells.len()).step_by(stretch) {
            let end = parts.cells.len().min(start + stretch);
            if parts.cells[start..end].iter().any(|&cell| cell != 0) {
                keep(search, &mut parts, |parts| parts.cells[start..end].fill(0));
            }
        }
        stretch /= 2;
    }
    Some(parts.write())
}

/// The last process goes, with its late bit.
fn without_last(parts: &mut Parts) {
    parts.topology.processes -= 1;
    parts.topology.late &= plans::all_late(parts.topology.processes);
}

/// Changes the parts, if they still fail and there is time.
fn keep(search: &mut Search, parts: &mut Parts, change: impl Fn(&mut Parts)) -> bool {
    let mut candidate = parts.clone();
    change(&mut candidate);
    let fails = search.try_one(&candidate.write()) == Some(true);
    if fails {
        *parts = candidate;
    }
    fails
}

/// The bytes of a text that names the cells which aren't 0; none as above.
pub fn text(program: Program, bytes: &[u8]) -> Option<String> {
    let carriage = carriage(program, bytes)?;
    let plan = reference::console::hexadecimal(&carriage.topology.write());
    let (asked, cells) = (bytes[0], carriage.source.len());
    Some(format!("{asked:02X} {plan}, then {cells} cells, 0 but for\n{}", listed(&carriage.source)))
}

/// The cells that aren't 0, a line each.
pub fn listed(cells: &[u32]) -> String {
    let cells = cells.iter().enumerate().filter(|(_, value)| **value != 0);
    let lines: Vec<String> = cells.map(|(cell, value)| format!("cell {cell} {value}")).collect();
    lines.join("\n")
}

//! Judges what `console` and `converter` print for a store that is carried
//! (M-102): restarts by the rules of both forms decide, there and back. How the
//! reference itself carries a store isn't asked.

use crate::seen::Seen;
use crate::sights;
use reference::console::{REDUCE, SLOW};
use reference::forms::Form;
use reference::migrate::{Carriage, DOWNGRADE, UPGRADE};
use reference::program::{self, rubbish, Program, Unwatched};
use reference::state::State;
use reference::topology::Topology;

/// What comes before the cells that are shown.
pub const DONE: &[u8] = b"done\n";

/// Runs the program that is judged on a further input.
pub type Run<'a> = &'a dyn Fn(&[u8]) -> Result<Vec<u8>, String>;

/// What a restart gives: the line, the words and the bodies on each channel.
type Standing = (u32, Vec<u32>, Vec<Vec<u32>>);

/// The input that asks for a store of the other form.
pub fn input(asked: u8, topology: &Topology, cells: &[u32]) -> Vec<u8> {
    let mut bytes = vec![asked];
    bytes.extend(topology.write());
    bytes.extend(cells.iter().flat_map(|cell| cell.to_le_bytes()));
    bytes
}

/// Why an output isn't right for an input; what is seen of the input counts.
pub fn judge(
    program: Program,
    input: &[u8],
    output: &[u8],
    run: Run,
    seen: &mut Seen,
) -> Result<(), String> {
    for sight in sights::of(input) {
        seen.count(program, sight);
    }
    let both_know = !matches!(input, [REDUCE | SLOW, ..]);
    if both_know && line(output) != line(&by_the_other(program, input)) {
        return Err("the other of the two programs says something else".to_string());
    }
    let Ok(carriage) = Carriage::read(input) else {
        return Ok(());
    };
    let Ok(source) = standing(carriage.from, &carriage.topology, &carriage.source) else {
        return Ok(());
    };
    there_and_back(program, input[0], &carriage, output, run, &source)?;
    seen.carried += 1;
    Ok(())
}

/// What the reference prints in the place of the other of the two programs.
fn by_the_other(program: Program, input: &[u8]) -> Vec<u8> {
    let other = if program == Program::Console { Program::Converter } else { Program::Console };
    program::run(other, input, &mut Unwatched)
}

fn line(output: &[u8]) -> Option<&[u8]> {
    output.split_inclusive(|&byte| byte == b'\n').next()
}

/// The target stands as the source does, and so does what comes back from it.
fn there_and_back(
    program: Program,
    asked: u8,
    carriage: &Carriage,
    output: &[u8],
    run: Run,
    source: &Standing,
) -> Result<(), String> {
    let topology = &carriage.topology;
    let there = target(program, carriage.to, topology, output, source)?;
    agree("there", source, standing(carriage.to, topology, &there))?;
    let return_ticket = input(UPGRADE + DOWNGRADE - asked, topology, &there);
    let output = run(&return_ticket)?;
    if output != program::run(program, &return_ticket, &mut Unwatched) {
        return Err("the way back isn't what the reference prints".to_string());
    }
    let back = target(program, carriage.from, topology, &output, source)?;
    agree("back", source, standing(carriage.from, topology, &back))
}

fn standing(form: Form, topology: &Topology, cells: &[u32]) -> Result<Standing, u8> {
    let state = State::recover(form, topology, cells)?;
    let words = state.words[..topology.processes].to_vec();
    let bodies = (0..topology.channels.len()).map(|c| state.bodies(c)).collect();
    Ok((state.line, words, bodies))
}

fn agree(way: &str, source: &Standing, target: Result<Standing, u8>) -> Result<(), String> {
    match target {
        Ok(target) if target == *source => Ok(()),
        Ok(target) => Err(format!("{way}: a restart gives {target:?}, and not {source:?}")),
        Err(number) => Err(format!("{way}: a restart is refused {number}")),
    }
}

/// The target's cells, of which none may be changed that isn't to be written.
fn target(
    program: Program,
    form: Form,
    topology: &Topology,
    output: &[u8],
    source: &Standing,
) -> Result<Vec<u32>, String> {
    let (before, cells) = if program == Program::Console {
        let before = rubbish(form.cells);
        (before.clone(), listed(before, output).ok_or("not `done` and cells, rising")?)
    } else {
        let bytes = output.strip_prefix(DONE).ok_or("not `done` and cells")?;
        (vec![0; form.cells], raw(bytes))
    };
    if cells.len() != form.cells {
        return Err(format!("{} cells, and not {}", cells.len(), form.cells));
    }
    let written = written(form, topology, source);
    let spoiled = |cell: &usize| cells[*cell] != before[*cell] && !written.contains(cell);
    match (0..form.cells).find(spoiled) {
        Some(cell) => Err(format!("cell {cell} isn't to be written")),
        None => Ok(cells),
    }
}

/// The cells that are written: copies and counts, bodies and counts, cell 0.
fn written(form: Form, topology: &Topology, (line, _, bodies): &Standing) -> Vec<usize> {
    let copies = (0..topology.processes).map(|p| form.physical_checkpoint(*line, p));
    let mut cells: Vec<usize> = copies.flat_map(|copy| [copy, copy + 1]).collect();
    for (c, bodies) in bodies.iter().enumerate() {
        let count = form.channel_log(*line, c);
        cells.extend(count..=count + bodies.len());
    }
    cells.push(0);
    cells
}

/// The cells as `console` lists those that have changed; none where it doesn't.
fn listed(mut cells: Vec<u32>, output: &[u8]) -> Option<Vec<u32>> {
    let mut lines = std::str::from_utf8(output).ok()?.strip_suffix('\n')?.split('\n');
    let mut next = 0;
    if lines.next() != Some("done") {
        return None;
    }
    for line in lines {
        let (cell, value) = line.strip_prefix("cell ")?.split_once(' ')?;
        let (cell, value): (usize, u32) = (cell.parse().ok()?, value.parse().ok()?);
        if cell < next || *cells.get(cell)? == value {
            return None;
        }
        cells[cell] = value;
        next = cell + 1;
    }
    Some(cells)
}

/// The cells as `converter` prints them after `done`.
pub fn raw(output: &[u8]) -> Vec<u32> {
    let (cells, _) = output.as_chunks();
    cells.iter().map(|&cell| u32::from_le_bytes(cell)).collect()
}

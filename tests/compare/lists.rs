//! Random lists: one input for one of the programs.

use crate::plans;
use crate::rng::Rng;
use crate::style::Style;
use crate::walk::{encode, Walk};
use reference::program::{Program, INPUT};
use reference::topology::Topology;

pub struct List {
    pub name: String,
    pub program: Program,
    pub bytes: Vec<u8>,
}

impl List {
    /// The byte that says what is asked of `console` and `converter`.
    pub fn asked(&self) -> Option<u8> {
        let asks = matches!(self.program, Program::Console | Program::Converter);
        self.bytes.first().copied().filter(|_| asks)
    }

    /// Its plan, where that passes.
    pub fn topology(&self) -> Option<Topology> {
        let bytes = &self.bytes[usize::from(self.asked().is_some())..];
        Some(Topology::read(bytes).ok()?.0)
    }
}

/// The last two of every so many lists are long enough to go past the input's end.
const LONG_EVERY: u64 = 250;

/// The list of this number; `head` and `drill` by turns.
pub fn random(base: u64, number: u64) -> List {
    let mut rng = Rng::new(base, number);
    let program = if number % 2 == 0 { Program::Head } else { Program::Drill };
    let (kind, bytes) = if number % LONG_EVERY >= LONG_EVERY - 2 {
        ("long", long(&mut rng, program))
    } else {
        match rng.weighted(&[70, 14, 6, 10]) {
            0 => ("walk", walk(&mut rng, program)),
            1 => ("damaged", damaged(&mut rng, program)),
            2 => ("cut off or continued", uneven(&mut rng, program)),
            _ => ("broken plan", broken(&mut rng, program)),
        }
    };
    List { name: format!("random list {number} of seed {base} ({kind})"), program, bytes }
}

fn walk(rng: &mut Rng, program: Program) -> Vec<u8> {
    let calls = rng.pick(&[5, 20, 60, 150, 300, 300, 600, 1000]).unwrap();
    walk_of(rng, program, calls)
}

fn walk_of(rng: &mut Rng, program: Program, calls: usize) -> Vec<u8> {
    let topology = plans::whole(rng);
    let style = Style::random(rng);
    let mut walk = Walk::new(rng, program, &topology, style);
    walk.go(calls);
    encode(program, &topology, &walk.calls)
}

/// A walk past the last byte that a program takes.
fn long(rng: &mut Rng, program: Program) -> Vec<u8> {
    let mut bytes = walk_of(rng, program, INPUT / 3);
    bytes.truncate(INPUT + rng.below(3000));
    bytes
}

/// A walk with some bytes changed, lost or put in.
fn damaged(rng: &mut Rng, program: Program) -> Vec<u8> {
    let mut bytes = walk(rng, program);
    damage(rng, &mut bytes);
    bytes
}

/// Bytes changed, lost or put in, or the end missing.
pub fn damage_or_cut(rng: &mut Rng, bytes: &mut Vec<u8>) {
    if rng.percent(70) {
        damage(rng, bytes);
    } else {
        bytes.truncate(rng.below(bytes.len()));
    }
}

/// Changes, loses or puts in some bytes, mostly late ones.
pub fn damage(rng: &mut Rng, bytes: &mut Vec<u8>) {
    for _ in 0..1 + rng.below(3) {
        let from = if rng.percent(70) { bytes.len() * 3 / 4 } else { 0 };
        let at = from + rng.below(bytes.len() - from);
        if at >= bytes.len() {
            return;
        }
        match rng.below(5) {
            0 | 1 => bytes[at] ^= 1 << rng.below(8),
            2 => bytes[at] = rng.next() as u8,
            3 => drop(bytes.remove(at)),
            _ => bytes.insert(at, rng.pick(&[0, 1, 5, 9, 13, 77]).unwrap()),
        }
    }
}

/// A walk that ends within a record, or with bytes at random.
fn uneven(rng: &mut Rng, program: Program) -> Vec<u8> {
    let mut bytes = walk(rng, program);
    if rng.percent(50) {
        bytes.truncate(rng.below(bytes.len()));
    } else {
        let more = 1 + rng.below(12);
        bytes.extend((0..more).map(|_| rng.next() as u8 & 15));
    }
    bytes
}

/// A broken plan, with records after it.
fn broken(rng: &mut Rng, program: Program) -> Vec<u8> {
    let mut bytes = plans::broken(rng);
    if rng.percent(50) {
        let calls = walk_of(rng, program, 20);
        bytes.extend(&calls[calls.len() / 2..]);
    }
    bytes
}

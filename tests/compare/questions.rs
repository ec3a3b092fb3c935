//! Random lists for `console`: mostly walks of accepted calls with a refusal
//! late in them, so that there is much to leave out.

use crate::lists::{self, List};
use crate::plans;
use crate::reductions::{first_refused, refused};
use crate::rng::Rng;
use crate::style::Style;
use crate::walk::{encode, Call, Walk};
use reference::console::REDUCE;
use reference::program::Program;
use reference::reduce::MOST;
use reference::topology::Topology;

/// The list of this number. It has nothing to do with the number's other list.
pub fn random(base: u64, number: u64) -> List {
    let mut rng = Rng::new(!base, number);
    let (kind, bytes) = match rng.weighted(&[64, 8, 6, 6, 8, 6, 2]) {
        0 => ("late refusal", late(&mut rng)),
        1 => ("walk", cut(&mut rng, 1)),
        2 => ("no refusal", accepted(&mut rng)),
        3 => ("about 256 calls or more", cut(&mut rng, 2)),
        4 => ("damaged", broken_records(&mut rng)),
        5 => ("broken plan", broken_plan(&mut rng)),
        _ => ("another question", another(&mut rng)),
    };
    let name = format!("random question {number} of seed {base} ({kind})");
    List { name, program: Program::Console, bytes }
}

fn walk(rng: &mut Rng) -> (Topology, Vec<Call>) {
    let calls = rng.pick(&[5, 20, 60, 150, 256, 300, 400, 600]).unwrap();
    let topology = plans::whole(rng);
    let style = if rng.percent(40) { Style::bursting() } else { Style::random(rng) };
    let mut walk = Walk::new(rng, Program::Console, &topology, style);
    walk.go(calls);
    let calls = std::mem::take(&mut walk.calls);
    (topology, calls)
}

/// A walk without its refused calls up to one of them, and what comes after it.
fn late(rng: &mut Rng) -> Vec<u8> {
    let (topology, calls) = walk(rng);
    let all = refused(&topology, &calls);
    let near = all.iter().enumerate().filter(|(nth, (place, _))| place - nth < MOST);
    let near: Vec<(usize, u8)> = near.map(|(_, refused)| *refused).collect();
    let mut calls = match draw(rng, &near) {
        Some(place) => first_refused(&calls, &all, place),
        None => calls,
    };
    calls.truncate(if rng.percent(97) { MOST } else { MOST + 1 });
    encode(Program::Console, &topology, &calls)
}

/// One of the places of refused calls: first the number is drawn, mostly one
/// that many calls matter to, and of its places often the last.
fn draw(rng: &mut Rng, refused: &[(usize, u8)]) -> Option<usize> {
    let weight = |number| {
        let found = refused.iter().any(|&(_, other)| other == number);
        usize::from(found) * [1, 3, 1, 6, 1][usize::from(number) - 8]
    };
    let number = rng.weighted(&[8, 9, 10, 11, 12].map(weight)) as u8 + 8;
    let alike = refused.iter().filter(|&&(_, other)| other == number);
    let places: Vec<usize> = alike.map(|&(place, _)| place).collect();
    if rng.percent(60) {
        places.last().copied()
    } else {
        rng.pick(&places)
    }
}

/// A walk as it comes, at most so many times as long as a list may be.
fn cut(rng: &mut Rng, times: usize) -> Vec<u8> {
    let (topology, mut calls) = walk(rng);
    calls.truncate(times * MOST);
    encode(Program::Console, &topology, &calls)
}

fn accepted(rng: &mut Rng) -> Vec<u8> {
    let (topology, calls) = walk(rng);
    let all = refused(&topology, &calls);
    let mut calls = first_refused(&calls, &all, calls.len());
    calls.truncate(MOST);
    encode(Program::Console, &topology, &calls)
}

fn broken_records(rng: &mut Rng) -> Vec<u8> {
    let mut bytes = if rng.percent(70) { late(rng) } else { cut(rng, 2) };
    lists::damage_or_cut(rng, &mut bytes);
    bytes
}

fn broken_plan(rng: &mut Rng) -> Vec<u8> {
    let calls = late(rng);
    let records = &calls[rng.below(calls.len())..];
    [&[REDUCE], &plans::broken(rng)[..], records].concat()
}

/// Bytes at random as what is asked, or a list with nothing asked before it.
fn another(rng: &mut Rng) -> Vec<u8> {
    let mut bytes = late(rng);
    if rng.percent(30) {
        bytes.remove(0);
    } else {
        bytes[0] = rng.next() as u8;
    }
    bytes
}

//! Lists for the slow head (M-106): those that `head`, `drill` and `console` are
//! given, some about rounds that are given up or interrupted, and random ones.

use crate::calls::{copy, mark, note, receive, send, ABORT, BEGIN, COMMIT};
use crate::directed::pair;
use crate::late::{self, with_late};
use crate::lists::{self, List};
use crate::plans;
use crate::rng::Rng;
use crate::style::Style;
use crate::walk::{encode, Call, Walk};
use reference::console::REDUCE;
use reference::program::Program;
use reference::record::{self, Record};
use reference::reduce::MOST;
use reference::topology::Topology;

/// Of the numbers of random lists one in so many has one of its own for the slow
/// head too. It takes up to 40 ms for one.
pub const EVERY: u64 = 16;

/// Sets these numbers apart from those of the other lists of a seed.
const SEED: u64 = 0x106 << 32;

const RECOVER: Call = (u32::MAX, Record::Recover);

fn list(name: String, topology: &Topology, calls: &[Call]) -> List {
    List {
        name: format!("Slow: {name}"),
        program: Program::Slow,
        bytes: encode(Program::Slow, topology, calls),
    }
}

/// Each list, and after it the same as one for the slow head: those of `head`, of
/// `drill` without their budgets, and those that `console` is to reduce.
pub fn beside(lists: impl Iterator<Item = List>) -> impl Iterator<Item = List> {
    lists.flat_map(|list| {
        let slow = of(&list);
        std::iter::once(list).chain(slow)
    })
}

fn of(list: &List) -> Option<List> {
    let bytes = match (list.program, &list.bytes[..]) {
        (Program::Head, bytes) => bytes.to_vec(),
        (Program::Drill, bytes) => without_budgets(bytes),
        (Program::Console, [REDUCE, bytes @ ..]) => bytes.to_vec(),
        _ => return None,
    };
    Some(List { name: format!("Slow, as {}", list.name), program: Program::Slow, bytes })
}

/// A list of `drill` without the four bytes before each record.
fn without_budgets(bytes: &[u8]) -> Vec<u8> {
    let mut rest = Topology::read(bytes).map_or(&[][..], |(_, rest)| rest);
    let mut list = bytes[..bytes.len() - rest.len()].to_vec();
    while let Some((_, from)) = rest.split_first_chunk::<4>() {
        let after = record::read(from).map_or(&[][..], |(_, after)| after);
        list.extend(&from[..from.len() - after.len()]);
        rest = after;
    }
    list.extend(rest);
    list
}

/// All but those that others are given, too.
pub fn all() -> Vec<List> {
    let mut lists = Vec::new();
    (0..4).for_each(|map| marked_by_note(&mut lists, map));
    full_logs(&mut lists);
    (0..4).for_each(|map| ended(&mut lists, map));
    lists
}

/// A round, then one that is given up, or interrupted by a restart, after each of
/// its calls, then a whole one; and a restart after each.
fn ended(lists: &mut Vec<List>, map: u16) {
    let round = late::round(map);
    for at in 0..=round.len() {
        for (how, end) in [("given up", ABORT), ("interrupted", RECOVER)] {
            let (first, second) = ([&round[..], &[RECOVER]].concat(), &round[..at]);
            let calls = [&first, second, &[end], &first].concat();
            let name = format!("map {map}, second round {how} after {at} calls");
            lists.push(list(name, &with_late(pair(), map), &calls));
        }
    }
}

/// A round in which a note marks its receiver, with a message behind the note.
fn marked_by_note(lists: &mut Vec<List>, map: u16) {
    let (late, early) = (0..2).partition::<Vec<usize>, _>(|board| map >> board & 1 == 1);
    let mut calls = [vec![send(1, 2), BEGIN], early.into_iter().map(copy).collect()].concat();
    calls.extend([mark(0), note(0), send(0, 7), receive(1), receive(0), receive(0), mark(1)]);
    calls.extend(late.into_iter().map(copy));
    calls.extend([note(1), receive(1), COMMIT, RECOVER]);
    lists.push(list(format!("map {map}, marked by a note"), &with_late(pair(), map), &calls));
}

/// Logs that get as much as they hold, or one message more: a board log in copying
/// and a wire log; anti-messages, eight of them beside a wire log.
fn full_logs(lists: &mut Vec<List>) {
    for more in 0..=1 {
        let pairs = |channel, number: usize| [send(channel, 3), receive(channel)].repeat(number);
        let mut calls = [vec![BEGIN, copy(0)], pairs(1, 64 + more), vec![copy(1)]].concat();
        calls.extend([vec![mark(0)], pairs(1, 8 + more), vec![mark(1)]].concat());
        calls.extend([note(0), note(1), receive(0), receive(1), receive(1), COMMIT, RECOVER]);
        lists.push(list(format!("full logs, {more} more"), &pair(), &calls));
        let one = Topology { late: 1, ..Topology::early(2, vec![(1, 0)]) };
        let mut calls = [vec![BEGIN, copy(1), mark(0)], pairs(0, 8), vec![mark(1)]].concat();
        calls.extend(pairs(0, 56 + more));
        calls.extend([note(0), receive(0), copy(0), receive(0), COMMIT, RECOVER]);
        lists.push(list(format!("full logs of a late board, {more} more"), &one, &calls));
    }
}

/// The list of this number, if it has one.
pub fn random(base: u64, number: u64) -> Option<List> {
    if number % EVERY != 0 {
        return None;
    }
    let mut rng = Rng::new(base ^ SEED, number);
    let (kind, bytes) = match rng.weighted(&[78, 6, 10, 6]) {
        0 => ("walk", walk(&mut rng, MOST)),
        1 => ("about 256 calls or more", walk(&mut rng, 2 * MOST)),
        2 => ("damaged", damaged(&mut rng)),
        _ => ("broken plan", broken_plan(&mut rng)),
    };
    let name = format!("random slow list {number} of seed {base} ({kind})");
    Some(List { name, program: Program::Slow, bytes })
}

/// A walk as it comes, of at most so many calls.
fn walk(rng: &mut Rng, most: usize) -> Vec<u8> {
    let calls = rng.pick(&[20, 60, 150, 256, 256, 600]).unwrap();
    let topology = plans::whole(rng);
    let style = if rng.percent(30) { Style::bursting() } else { Style::random(rng) };
    let mut walk = Walk::new(rng, Program::Slow, &topology, style);
    walk.go(calls);
    walk.calls.truncate(most);
    encode(Program::Slow, &topology, &walk.calls)
}

fn damaged(rng: &mut Rng) -> Vec<u8> {
    let mut bytes = walk(rng, MOST);
    lists::damage_or_cut(rng, &mut bytes);
    bytes
}

fn broken_plan(rng: &mut Rng) -> Vec<u8> {
    let calls = walk(rng, MOST);
    [&plans::broken(rng)[..], &calls[rng.below(calls.len())..]].concat()
}

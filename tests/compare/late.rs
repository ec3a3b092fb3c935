//! Fixed lists for plans with late boards (M-105): every refusal, every take, power
//! lost in each step, and full logs.

use crate::calls::{copy, mark, note, receive, send, ABORT, BEGIN, COMMIT};
use crate::directed::{begin_cuts, list, pair, BOTH, FULL};
use crate::lists::List;
use crate::plans;
use crate::walk::{encode, Call};
use reference::program::Program;
use reference::record::Record;
use reference::steps::Step;
use reference::topology::Topology;

const RECOVER: Call = (0, Record::Recover);

/// A plan with this map of late processes.
pub fn with_late(topology: Topology, late: u16) -> Topology {
    Topology { late, ..topology }
}

/// A plan and calls, with a name.
pub type Run = (String, Topology, Vec<Call>);

pub fn all() -> Vec<List> {
    let mut lists = Vec::new();
    for program in BOTH {
        for (name, topology, calls) in runs() {
            let bytes = encode(program, &topology, &calls);
            lists.push(list(format!("{program:?}: {name}"), program, bytes));
        }
    }
    for (name, topology, calls) in two_log_cuts().into_iter().chain(round_cuts()) {
        let bytes = encode(Program::Drill, &topology, &calls);
        lists.push(list(format!("Drill: {name}"), Program::Drill, bytes));
    }
    begin_cuts(&mut lists, &with_late(plans::largest(), u16::MAX));
    lists
}

/// Those whose power lasts.
pub fn runs() -> Vec<Run> {
    let mut runs = refused();
    for late in 0..4 {
        let topology = with_late(pair(), late);
        let calls = [round(late), vec![RECOVER]].concat().repeat(3);
        runs.push((format!("three rounds with map {late}"), topology.clone(), calls));
        runs.push((format!("rounds given up with map {late}"), topology, given_up(late)));
    }
    runs.extend(wire_orders());
    for rounds in 1..=2 {
        let name = format!("all boards late, every log full, rounds: {rounds}");
        runs.push((name, with_late(plans::largest(), u16::MAX), full_logs(rounds)));
    }
    runs
}

/// Those with every refusal that late boards bring about.
pub fn refused() -> Vec<Run> {
    vec![refusals(), full_board_log(7), full_board_log(8)]
}

/// Each step of a late board where it isn't due, and of an early one.
fn refusals() -> Run {
    let topology = Topology { late: 0b010, ..Topology::early(3, vec![(0, 1), (1, 2), (2, 0)]) };
    let mut calls = vec![copy(1), copy(0), BEGIN, copy(1), copy(2), copy(0), copy(1), copy(0)];
    calls.extend([mark(1), COMMIT, copy(2), copy(1), copy(0), copy(2), mark(1), COMMIT]);
    calls.extend([mark(0), copy(1), copy(0), mark(1), mark(1), copy(1), copy(1), mark(1)]);
    calls.extend([mark(2), copy(1), copy(2), note(0), note(1), note(2)]);
    calls.extend([receive(0), receive(1), COMMIT, receive(2), COMMIT, copy(1)]);
    // Everything but the late copy, and then that; board 1 is marked by a note.
    calls.extend([BEGIN, copy(0), copy(2), mark(0), note(0), receive(0), mark(2)]);
    calls.extend((1..3).flat_map(|channel| [note(channel), receive(channel)]));
    calls.extend([COMMIT, copy(1), COMMIT, RECOVER, copy(1)]);
    ("late boards, refusals".to_string(), topology, calls)
}

/// Late boards of a map, of a pair.
fn late(map: u16) -> impl Iterator<Item = usize> {
    (0..2).filter(move |process| map >> process & 1 == 1)
}

/// A round on a pair with this map, in which each board takes messages of either
/// tag before its mark, after it, and after a late copy. A take that is cut is
/// made up for before the notes.
pub fn round(map: u16) -> Vec<Call> {
    let mut round = vec![send(1, 8), BEGIN];
    round.extend((0..2).filter(|process| map >> process & 1 == 0).map(copy));
    // Before any mark.
    round.extend([receive(1), send(0, 5), send(1, 6), send(1, 2), send(0, 7), receive(0)]);
    // Old messages after board 0's mark; a new one marks board 1.
    round.extend([mark(0), receive(1), receive(0), send(0, 9), receive(0)]);
    // New messages between mark and copy, then after the copy, and an old one.
    round.extend([send(0, 3), receive(0)]);
    round.extend(late(map).map(copy));
    round.extend([send(0, 4), receive(0), receive(1), send(1, 1), receive(1)]);
    round.extend([receive(0), receive(1), receive(1), mark(1)]);
    round.extend([note(0), note(1), receive(0), receive(1)]);
    round.extend(late(map).map(copy));
    round.push(COMMIT);
    round
}

/// Rounds on a pair that are given up after each of their calls, each followed by
/// a whole one: no late board has copied, nor been marked.
fn given_up(map: u16) -> Vec<Call> {
    let whole = round(map);
    let rounds =
        (0..whole.len()).map(|at| [&whole[..at], &[ABORT], &whole[..], &[RECOVER]].concat());
    rounds.flatten().collect()
}

/// Board 0 is late and marked; so many old messages from board 1, then new ones
/// from board 2 until there are 64 anti-messages, and one of each more: the old
/// one finds the board log full, or both logs. After the copy the wire log alone
/// is needed, and has room or not.
fn full_board_log(old: usize) -> Run {
    let topology = Topology { late: 1, ..Topology::early(3, vec![(1, 0), (2, 0)]) };
    let pairs = |channel, number: usize| [send(channel, 3), receive(channel)].repeat(number);
    let mut calls = vec![BEGIN, copy(1), copy(2), mark(0)];
    calls.extend(pairs(0, old));
    // With eight the wire log alone is full, and the ninth stays where it is.
    calls.extend(pairs(0, old / 8));
    calls.push(mark(2));
    calls.extend(pairs(1, 65 - old));
    calls.extend([pairs(0, 2), vec![copy(0)], pairs(1, 1)].concat());
    calls.extend([receive(0), receive(0), receive(0), mark(1)]);
    calls.extend([note(0), note(1), receive(1), receive(0), receive(0), COMMIT]);
    calls.push(if old == 8 { ABORT } else { RECOVER });
    (format!("a full board log, {old} bodies in a wire log"), topology, calls)
}

/// Two neighbours' equal bodies, taken in either order at every place of a round
/// in which their receiver is late.
fn wire_orders() -> Vec<Run> {
    let topology = Topology { late: 1, ..Topology::early(3, vec![(1, 0), (2, 0)]) };
    let round = [BEGIN, copy(1), copy(2), mark(0), mark(1), mark(2), copy(0)];
    let closing = [note(0), note(1), receive(0), receive(1), COMMIT, RECOVER];
    let mut runs = Vec::new();
    for at in 0..=round.len() {
        for order in [[0, 1], [1, 0]] {
            let (before, after) = round.split_at(at);
            let sends = [send(0, 5), send(1, 5), send(0, 6), send(1, 6)];
            let receives = order.map(receive).repeat(2);
            let calls = [&sends, before, &receives, after, &closing].concat();
            let name = format!("wires {order:?} taken by a late board before call {at}");
            runs.push((name, topology.clone(), calls));
        }
    }
    runs
}

/// Rounds on the largest plan with all boards late, in which each log gets as much
/// as it holds: 8 bodies of every wire are 32 anti-messages of each board, and 32
/// more are new.
pub fn full_logs(rounds: u32) -> Vec<Call> {
    let channels = || 0..64;
    let pair = |channel, body| [send(channel, body), receive(channel)];
    let mut calls = Vec::new();
    for round in 0..rounds {
        let body = |i: usize| FULL - 7 * i as u32 - round;
        calls.push(BEGIN);
        calls.extend((0..512).map(|i| send(i % 64, body(i))));
        calls.extend((0..16).map(mark));
        calls.extend((0..512).map(|i| receive(i % 64)));
        calls.extend((0..512).flat_map(|i| pair(i % 64, body(i))));
        calls.extend((0..16).map(copy));
        calls.extend(channels().map(note).chain(channels().map(receive)));
        calls.push(COMMIT);
    }
    calls.push(RECOVER);
    calls
}

/// What comes after a take into two logs that was cut.
const AFTER: [&str; 5] = ["again", "copied, then again", "again and again", "restart", "given up"];

/// A take into two logs with each budget, and what comes after it: the run of the
/// wire log's count that is ahead, and the one that tells the order of the logs.
fn two_log_cuts() -> Vec<Run> {
    let topology = Topology { late: 0b10, ..Topology::early(2, vec![(0, 1)]) };
    let mut runs = Vec::new();
    for logged in [0, 1, 7] {
        for budget in 0..=5 {
            for after in AFTER {
                let mut calls = vec![send(0, 5); logged + 1];
                calls.extend([BEGIN, copy(0), mark(0), mark(1)]);
                calls.extend(vec![receive(0); logged]);
                calls.push((budget, Record::Step(Step::Receive { channel: 0 })));
                calls.extend(going_on(after));
                let name = format!("take {logged} into two logs with budget {budget}, {after}");
                runs.push((name, topology.clone(), calls));
            }
        }
    }
    runs
}

/// To the round's end, or to that of the next one.
fn going_on(after: &str) -> Vec<Call> {
    let end = [note(0), receive(0), copy(1), COMMIT, RECOVER];
    let next = [send(0, 6), BEGIN, copy(0), mark(0), mark(1), receive(0), send(0, 4), receive(0)];
    match after {
        "again" => [&[receive(0)], &end[..]].concat(),
        "copied, then again" => [&[copy(1), receive(0)], &end[..]].concat(),
        "again and again" => {
            let cuts = (0..5).map(|left| (left, receive(0).1));
            cuts.chain([receive(0)]).chain(end).collect()
        }
        "restart" => [&[RECOVER], &next[..], &end].concat(),
        _ => [&[ABORT], &next[..], &[receive(0); 8], &end].concat(),
    }
}

/// Power lost after every count of stores of each step of a second round, with
/// and without a recover after it, for each map of a pair.
fn round_cuts() -> Vec<Run> {
    let mut runs = Vec::new();
    for late in 1..4 {
        let round = round(late);
        for at in 0..round.len() {
            for budget in 0..5 {
                for recover in [false, true] {
                    let mut calls = round.repeat(2);
                    calls[round.len() + at].0 = budget;
                    if recover {
                        calls.insert(round.len() + at + 1, RECOVER);
                    }
                    calls.push(RECOVER);
                    let name = format!("map {late}, second round, call {at} with budget {budget}");
                    runs.push((name, with_late(pair(), late), calls));
                }
            }
        }
    }
    runs
}

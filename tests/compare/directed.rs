//! Fixed lists that go where chance seldom does.

use crate::lists::List;
use crate::plans;
use crate::walk::{encode, Call};
use reference::program::Program;
use reference::record::Record;
use reference::steps::Step;
use reference::topology::Topology;

pub const FULL: u32 = u32::MAX;
pub const BOTH: [Program; 2] = [Program::Head, Program::Drill];

/// Document 01's input and output.
pub const LISTING: &[u8] = b"\x02\x02\x00\x01\x01\x00\x00\x00\x01\x03\x01\x04\x03\x04\x01\
    \x0D\x01\x01\x05\x00\x00\x00\x01\x05\x09\x01\x07\x00\x00\x00\x01\x02\x05\x02\x01\
    \x01\x06\x05\x06\x01\x01\x02\x05\x02\x01\x01\x07\x01\x09";
pub const LISTING_OUTPUT: &str = "1 done 4\n2 done 1\n3 done 1\n4 sent 7 0\n5 done 0\n\
    6 sent 7 0\n7 took 7 0\n8 took 5 2\n9 done 0\n10 done 0\n11 note 0\n12 note 0\n\
    13 done 1\n14 line 1 0\nboard 0 0\nboard 1 0\nwire 0 0\nwire 1 1 5\n";

pub fn list(name: String, program: Program, bytes: Vec<u8>) -> List {
    List { name, program, bytes }
}

/// Those that are about calls: refusals, rounds, power lost in each step, which wire is first, and full logs.
pub fn calls() -> Vec<List> {
    let mut lists = Vec::new();
    for program in BOTH {
        let bytes = encode(program, &pair(), &refusals());
        lists.push(list(format!("{program:?}: refusals"), program, bytes));
        let bytes = encode(program, &pair(), &rounds(12));
        lists.push(list(format!("{program:?}: twelve rounds"), program, bytes));
    }
    begin_cuts(&mut lists, &plans::largest());
    round_cuts(&mut lists);
    for program in BOTH {
        wire_orders(&mut lists, program);
        for times in 1..=2 {
            let bytes = encode(program, &plans::largest(), &full_logs(times));
            let name = format!("{program:?}: every log full, rounds: {times}");
            lists.push(list(name, program, bytes));
        }
    }
    lists
}

pub fn pair() -> Topology {
    Topology::early(2, vec![(0, 1), (1, 0)])
}

pub fn full(step: Step) -> Call {
    (FULL, Record::Step(step))
}

/// Copies of every process: the physical phase from begin to end.
pub fn copies(processes: usize) -> impl Iterator<Item = Call> {
    let copy = |process| full(Step::PhysicalCheckpoint { process });
    std::iter::once(full(Step::Begin)).chain((0..processes).map(copy))
}

/// Marks, markers and receives that end a round, and the commit.
pub fn end_round(topology: &Topology, held: usize) -> Vec<Call> {
    let channels = 0..topology.channels.len();
    let marks = (0..topology.processes).map(|process| full(Step::LogicalCheckpoint { process }));
    let receive = |channel| full(Step::Receive { channel });
    let mut calls: Vec<Call> = marks.collect();
    calls.extend(channels.clone().flat_map(|c| std::iter::repeat_n(receive(c), held)));
    calls.extend(channels.clone().map(|channel| full(Step::SendMarker { channel })));
    calls.extend(channels.map(receive));
    calls.push(full(Step::Commit));
    calls
}

/// Rounds on a pair, without a message, and a recover after each.
fn rounds(number: usize) -> Vec<Call> {
    let round = || copies(2).chain(end_round(&pair(), 0)).chain([(0, Record::Recover)]);
    (0..number).flat_map(|_| round()).collect()
}

/// Rounds on the largest plan in which every message log gets 64 bodies and
/// every channel log 8: after two every cell of the store is written. Then a
/// recover, after one round of the half with the store's last cell.
pub fn full_logs(rounds: u32) -> Vec<Call> {
    let topology = plans::largest();
    let mut calls = Vec::new();
    for round in 0..rounds {
        calls.extend(copies(16));
        for i in 0..1024 {
            // 16 receives on each of the four channels into a process
            let channel = i % 64;
            calls.push(full(Step::Send { channel, body: FULL - i as u32 - round }));
            calls.push(full(Step::Receive { channel }));
        }
        for i in 0..512 {
            calls.push(full(Step::Send { channel: i / 8, body: FULL - 7 * i as u32 }));
        }
        calls.extend(end_round(&topology, 8));
    }
    calls.push((0, Record::Recover));
    calls
}

/// Wires and both kinds of log filled one past their places, and each step
/// where it isn't due.
fn refusals() -> Vec<Call> {
    let send = |channel| full(Step::Send { channel, body: 3 });
    let receive = |channel| full(Step::Receive { channel });
    let note = |channel| full(Step::SendMarker { channel });
    let mark = |process| full(Step::LogicalCheckpoint { process });
    let copy = |process| full(Step::PhysicalCheckpoint { process });
    let mut calls = vec![copy(0), mark(0), note(0), full(Step::Commit), full(Step::Abort)];
    calls.extend([copy(2), mark(2), note(2), send(2), receive(2), receive(0), full(Step::Begin)]);
    calls.extend([full(Step::Begin), copy(1), copy(0), mark(0), full(Step::Commit)]);
    calls.extend((0..65).flat_map(|_| [send(1), receive(1)]));
    calls.extend([copy(1), mark(1), note(0)]);
    calls.extend((0..65).flat_map(|_| [send(0), receive(0)]));
    calls.extend([full(Step::Commit), mark(0), mark(0)]);
    calls.extend((0..9).flat_map(|_| [receive(1), send(1)]));
    calls.extend((0..9).map(|_| send(0)));
    calls.extend([note(0), note(1), mark(1), full(Step::Commit), full(Step::Abort)]);
    calls
}

/// Two neighbours' equal bodies, taken in either order at every place of a round
/// before its notes. Then a recover.
fn wire_orders(lists: &mut Vec<List>, program: Program) {
    let topology = Topology::early(3, vec![(1, 0), (2, 0)]);
    let send = |channel| full(Step::Send { channel, body: 5 });
    let receive = |channel| full(Step::Receive { channel });
    let round: Vec<Call> = copies(3).chain(end_round(&topology, 0)).collect();
    let before_notes = 1 + 2 * topology.processes;
    for at in 0..=before_notes {
        for order in [[0, 1], [1, 0]] {
            let (before, after) = round.split_at(at);
            let (sends, receives) = ([0, 1].map(send), order.map(receive));
            let calls = [&sends, before, &receives, after, &[(0, Record::Recover)]].concat();
            let bytes = encode(program, &topology, &calls);
            let name = format!("{program:?}: wires {order:?} taken before call {at} of a round");
            lists.push(list(name, program, bytes));
        }
    }
}

/// Power lost after every count of stores of a begin on the largest plan, with
/// and without a recover after it.
pub fn begin_cuts(lists: &mut Vec<List>, topology: &Topology) {
    for recover in [false, true] {
        let mut calls = Vec::new();
        for budget in 0..=80 {
            calls.push((budget, Record::Step(Step::Begin)));
            calls.extend(recover.then_some((0, Record::Recover)));
        }
        let bytes = encode(Program::Drill, topology, &calls);
        let name = "Drill: begin cut after 0 to 79 stores".to_string();
        lists.push(list(name, Program::Drill, bytes));
    }
}

/// A round on a pair with a take for each log: in copying, before the mark and
/// after it. A take that is cut is made up for before the notes.
pub fn logging_round() -> Vec<Call> {
    let send = |channel, body| full(Step::Send { channel, body });
    let receive = |channel| full(Step::Receive { channel });
    let mut round: Vec<Call> = copies(2).collect();
    round.splice(2..2, [send(1, 8), receive(1)]);
    round.extend([send(0, 5), send(1, 6), send(0, 7), receive(0)]);
    round.extend([full(Step::LogicalCheckpoint { process: 0 }), receive(1)]);
    round.extend(end_round(&pair(), 2).split_off(1));
    round
}

/// Power lost after every count of stores of each step of a second round, with
/// and without a recover after it.
fn round_cuts(lists: &mut Vec<List>) {
    let round = logging_round();
    for at in 0..round.len() {
        for budget in 0..4 {
            for recover in [false, true] {
                let mut calls = round.repeat(2);
                calls[round.len() + at].0 = budget;
                if recover {
                    calls.insert(round.len() + at + 1, (0, Record::Recover));
                }
                calls.push((0, Record::Recover));
                let bytes = encode(Program::Drill, &pair(), &calls);
                let name = format!("Drill: second round, call {at} with budget {budget}");
                lists.push(list(name, Program::Drill, bytes));
            }
        }
    }
}

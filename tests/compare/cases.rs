//! The cases of document 01, tried on the reference itself, with the refusals
//! that no input of the programs can bring about; and what `console` may print.

use crate::beside;
use crate::carries;
use crate::directed::{LISTING, LISTING_OUTPUT};
use crate::late_cases;
use crate::rig::{copy, mark, note, receive, send, Rig};
use crate::verdicts;
use reference::forms::NEW;
use reference::program::{self, Program, Unwatched};
use reference::record;
use reference::state::{Entry, Phase, State};
use reference::steps::{Outcome, Step};
use reference::topology::Topology;

type Case = (&'static str, fn() -> bool);

const CASES: [Case; 46] = [
    ("the listing", listing),
    ("one board gives line 1", one_board),
    ("8th entry passes, 9th send is 9; empty wire is 10", wire_full),
    ("a send answers the room left, a note takes some", room_left),
    ("64th logged take passes, 65th is 11", message_log_full),
    ("8th logged take of a wire log passes, 9th is 11", channel_log_full),
    ("finish with 0 and 1 stores", finish_cut),
    ("begin with 3 and 4 stores", begin_cut),
    ("words", words),
    ("words by which wire was first", wire_order),
    ("a logged wire of any number", any_wire),
    ("records", records),
    ("0 and 17 boards are 1, 16 pass", boards),
    ("give up after step 6", give_up),
    ("the last line numbers: 13", last_line),
    ("a note on a closed wire: 14", note_on_closed),
    ("unsound states: 15", unsound),
    ("short stores: 6", short_store),
    ("counts over their places: 16", counts_over),
    ("order of refusals", order),
    ("3,186,588,639 times 31 is 1; a take undone", late_cases::undone),
    ("a late bit for a board not in the plan: 19", late_cases::nineteen),
    ("unsound states with late boards: 15", late_cases::unsound),
    ("a round with a late board", late_cases::round),
    ("all boards late", late_cases::all_late),
    ("a take into two logs with 0 to 5 stores", late_cases::two_logs),
    ("the wire log before the board log", late_cases::order_of_logs),
    ("anti-messages undone in reverse order", late_cases::reverse_order),
    ("a late board's log of either form", late_cases::both_forms),
    ("demand 3 of runs with late boards", late_cases::runs),
    ("lines of console", verdicts::lines),
    ("the last byte that console takes", verdicts::last_byte),
    ("right answers of console", verdicts::right),
    ("wrong answers of console", verdicts::wrong),
    ("lines of the slow head", verdicts::slow),
    ("the listing at full current", beside::listing),
    ("words by the old rule", carries::old_words),
    ("the old store's layout", carries::old_layout),
    ("demand 3 of runs by the old rules", carries::old_runs),
    ("a store to be carried: order of refusals", carries::refusals),
    ("a target with further cells", carries::longer_target),
    ("a store carried by hand", carries::right),
    ("stores carried wrongly", carries::wrong),
    ("stores carried back wrongly", carries::wrong_way_back),
    ("lines of a store that isn't carried", carries::refused_lines),
    ("the last byte of a store that is taken", carries::last_byte),
];

/// Tries every case: how many there are, or the names of those that fail.
pub fn all() -> Result<usize, Vec<&'static str>> {
    let failed: Vec<_> =
        CASES.iter().filter(|(_, holds)| !holds()).map(|(name, _)| *name).collect();
    if failed.is_empty() {
        Ok(CASES.len())
    } else {
        Err(failed)
    }
}

fn listing() -> bool {
    program::run(Program::Head, LISTING, &mut Unwatched) == LISTING_OUTPUT.as_bytes()
}

fn one_board() -> bool {
    let mut rig = Rig::new(1, &[]);
    rig.done(&[Step::Begin, copy(0), mark(0), Step::Commit]) && rig.recovered().line == 1
}

fn wire_full() -> bool {
    let mut rig = Rig::pair();
    let empty = rig.step(receive(0)) == Outcome::Refused(10);
    empty && rig.filling(0, 8, 0) && rig.step(send(0, 1)) == Outcome::Refused(9)
}

/// The other channel's entries don't count; a marker does, and what is taken is free again.
fn room_left() -> bool {
    let mut rig = Rig::pair();
    let apart = rig.filling(0, 3, 5) && rig.filling(1, 2, 6);
    let marking = rig.done(&[Step::Begin, copy(0), copy(1), mark(0), note(0)]);
    let beside = rig.filling(0, 2, 2) && rig.filling(1, 1, 5);
    let taken = rig.step(receive(0)) == Outcome::Took(1);
    apart && marking && beside && taken && rig.filling(0, 3, 0)
}

/// Sends and receives by turns; the n-th receive is the first refused, with 11.
fn fills(rig: &mut Rig, channel: usize, n: u32) -> bool {
    (1..=n).all(|i| {
        let expected = if i < n { Outcome::Took(i) } else { Outcome::Refused(11) };
        rig.done(&[send(channel, i)]) && rig.step(receive(channel)) == expected
    })
}

fn message_log_full() -> bool {
    let mut rig = Rig::pair();
    let copied = rig.done(&[Step::Begin, copy(0)]) && fills(&mut rig, 1, 65);
    copied && rig.done(&[copy(1)]) && fills(&mut rig, 0, 65)
}

fn channel_log_full() -> bool {
    let mut rig = Rig::pair();
    rig.done(&[Step::Begin, copy(0), copy(1), mark(0)]) && fills(&mut rig, 1, 9)
}

fn finish_cut() -> bool {
    let mut rig = Rig::new(1, &[]);
    let ready = rig.done(&[Step::Begin, copy(0), mark(0)]);
    let before = rig.state.clone();
    let lost = rig.state.step(Step::Commit, &mut rig.store, 0);
    let kept =
        lost.outcome == Outcome::PowerLost && rig.state == before && rig.recovered().line == 0;
    let done = rig.state.step(Step::Commit, &mut rig.store, 1);
    ready && kept && done.outcome == Outcome::Done && rig.recovered().line == 1
}

fn begin_cut() -> bool {
    let mut rig = Rig::pair();
    let lost = rig.state.step(Step::Begin, &mut rig.store, 3);
    let done = rig.state.step(Step::Begin, &mut rig.store, 4);
    (lost.outcome, lost.stores) == (Outcome::PowerLost, 3)
        && (done.outcome, done.stores) == (Outcome::Done, 4)
}

fn words() -> bool {
    let taken = |word, channel, body| NEW.taken(word, channel, body);
    taken(u32::MAX, 0, 1) == 4_294_966_336
        && taken(taken(0, 0, 2), 0, 3) == 1_925
        && taken(taken(0, 0, 3), 0, 2) == 2_885
}

/// M-101's words, as they are taken and as they are replayed.
fn wire_order() -> bool {
    [([0, 1], 4_841), ([1, 0], 34_601)].into_iter().all(|(order, word)| {
        let mut rig = Rig::new(3, &[(1, 0), (2, 0)]);
        let copied = rig.done(&[Step::Begin, copy(0), send(0, 5), send(1, 5)]);
        let logged = order.iter().all(|&channel| rig.step(receive(channel)) == Outcome::Took(5));
        let steps = [copy(1), copy(2), mark(0), mark(1), mark(2), note(0), note(1)];
        let closed = rig.done(&steps)
            && [0, 1].iter().all(|&channel| rig.step(receive(channel)) == Outcome::Marker);
        let finished = rig.done(&[Step::Commit]);
        let words = [rig.state.words[0], rig.recovered().words[0]];
        copied && logged && closed && finished && words == [word; 2]
    })
}

/// A restart looks at counts alone: it enters the wire of an entry as it stands.
fn any_wire() -> bool {
    let mut rig = Rig::pair();
    let log = NEW.message_log(0, 0);
    rig.store[log..log + 3].copy_from_slice(&[1, 5, u32::MAX]);
    rig.recovered().words[0] == 4_294_967_270
}

fn records() -> bool {
    record::read(&[5, 2, 0]) == Err(7)
        && record::read(&[1, 2]) == Ok((record::Record::Step(receive(0)), &[]))
}

fn boards() -> bool {
    let check = |processes| Topology::early(processes, Vec::new()).check();
    check(0) == Err(1) && check(17) == Err(1) && check(16) == Ok(())
}

fn give_up() -> bool {
    let mut rig = Rig::pair();
    let steps = [Step::Begin, copy(0), copy(1), send(1, 5), mark(0), send(0, 7), Step::Abort];
    let held = |body| [Entry::Message { body, tag: false }];
    rig.done(&steps) && rig.state.channels[0] == held(7) && rig.state.channels[1] == held(5)
}

fn last_line() -> bool {
    let mut rig = Rig::pair();
    rig.state.line = u32::MAX;
    let thirteen = rig.step(Step::Begin) == Outcome::Refused(13);
    rig.state.line = u32::MAX - 1;
    thirteen && rig.done(&[Step::Begin])
}

fn note_on_closed() -> bool {
    let mut rig = Rig::pair();
    rig.state.phase = Phase::Logical;
    rig.state.closed[0] = true;
    rig.state.channels[0].push_back(Entry::Marker);
    rig.step(receive(0)) == Outcome::Refused(14)
}

fn unsound() -> bool {
    let faults: [fn(&mut State); 6] = [
        |state| state.topology.processes = 0,
        |state| state.channels[1] = vec![Entry::Marker; 9].into(),
        |state| state.message_counts[1] = 65,
        |state| state.channel_counts[1] = 9,
        |state| state.phase = Phase::Physical { next: 2 },
        |state| (state.phase, state.line) = (Phase::Logical, u32::MAX),
    ];
    faults.iter().all(|fault| {
        let mut rig = Rig::pair();
        fault(&mut rig.state);
        rig.store.clear();
        rig.step(receive(9)) == Outcome::Refused(15)
    })
}

fn short_store() -> bool {
    let mut rig = Rig::pair();
    rig.store.pop();
    rig.step(receive(9)) == Outcome::Refused(6)
        && State::recover(NEW, &rig.state.topology, &rig.store) == Err(6)
        && State::initialize(NEW, &rig.state.topology, &mut rig.store) == Err(6)
}

fn counts_over() -> bool {
    let logs = [(NEW.message_log(1, 1), 65), (NEW.channel_log(1, 1), 9)];
    logs.into_iter().all(|(cell, count)| {
        let mut rig = Rig::pair();
        rig.store.fill(0);
        (rig.store[0], rig.store[cell]) = (1, count);
        let over = State::recover(NEW, &rig.state.topology, &rig.store) == Err(16);
        rig.store[cell] = count - 1;
        over && rig.recovered().line == 1
    })
}

/// 8 before 12, 12 before 9.
fn order() -> bool {
    let mut rig = Rig::pair();
    let eight =
        rig.step(note(2)) == Outcome::Refused(8) && rig.step(copy(2)) == Outcome::Refused(8);
    eight && rig.done(&[send(0, 1); 8]) && rig.step(note(0)) == Outcome::Refused(12)
}

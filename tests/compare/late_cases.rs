//! M-105 tried on the reference itself, with numbers worked out by hand.

use crate::carries;
use crate::directed::pair;
use crate::late::with_late;
use crate::plans;
use crate::rig::{copy, mark, note, receive, send, Rig};
use crate::rng::Rng;
use reference::forms::{NEW, OLD};
use reference::migrate::carry;
use reference::reduce::RefusedList;
use reference::state::{Phase, State};
use reference::steps::{Outcome, Step};
use reference::topology::Topology;

/// Two processes, a channel from 0 to 1, which is late.
fn to_a_late_one() -> Topology {
    Topology { late: 0b10, ..Topology::early(2, vec![(0, 1)]) }
}

/// What a restart of these forms' stores makes of M-101's words.
pub fn undone() -> bool {
    let entry = |channel, body| NEW.logged(channel, body);
    let whole = [0, 1, 5, 31, 4_841, 1 << 31, u32::MAX - 1, u32::MAX];
    let back = |word: u32| {
        let taken = |channel, body| NEW.taken(word, channel, body);
        let undone = |channel, body| NEW.undone(taken(channel, body), &entry(channel, body));
        [(0, 0), (0, 5), (63, u32::MAX), (7, 1 << 31)].iter().all(|&(c, b)| undone(c, b) == word)
    };
    31_u32.wrapping_mul(3_186_588_639) == 1
        && NEW.undone(34_601, &entry(0, 5)) == 36
        && NEW.undone(36, &entry(1, 5)) == 0
        && NEW.undone(0, &entry(0, 5)) == 40_223_419
        && whole.into_iter().all(back)
}

/// 19 stands after 5 and before 6, in setup, restart and the converter; in M-100
/// after 18 and before 17.
pub fn nineteen() -> bool {
    let check = |processes, late| with_late(Topology::early(processes, Vec::new()), late).check();
    let bits = (0..16).all(|board| {
        let whole = check(board + 1, 1 << board) == Ok(());
        whole && (board == 0 || check(board, 1 << board) == Err(19))
    });
    let twice = Topology { late: 4, ..Topology::early(2, vec![(0, 1), (0, 1)]) };
    let beyond = with_late(pair(), 4);
    let mut short = vec![0; 9];
    let restart = |plan: &Topology| State::recover(NEW, plan, &short).err();
    let listed = |plan: &Topology, calls| {
        let calls = vec![reference::record::Record::Recover; calls];
        RefusedList::new(plan.clone(), calls).err()
    };
    bits && twice.check() == Err(5)
        && [restart(&twice), restart(&beyond), restart(&pair())] == [Some(5), Some(19), Some(6)]
        && [listed(&beyond, 257), listed(&beyond, 0), listed(&pair(), 0)]
            == [Some(18), Some(19), Some(17)]
        && carry(&beyond, (OLD, &[]), (NEW, &mut [])) == Err(19)
        && State::initialize(NEW, &beyond, &mut short) == Err(19)
}

/// A late bit that isn't planned, and a late board as the next to copy; a late
/// board elsewhere is sound.
pub fn unsound() -> bool {
    let asked = |late, phase| {
        let mut rig = Rig::pair();
        (rig.state.topology.late, rig.state.phase) = (late, phase);
        rig.step(receive(9))
    };
    let next = |next| Phase::Physical { next };
    let unsound = [(4, Phase::Idle), (1, next(0)), (2, next(1)), (3, next(1)), (5, next(1))];
    let sound = [(3, Phase::Idle), (1, next(1)), (2, next(0)), (3, Phase::Logical)];
    unsound.into_iter().all(|(late, phase)| asked(late, phase) == Outcome::Refused(15))
        && sound.into_iter().all(|(late, phase)| asked(late, phase) == Outcome::Refused(8))
}

/// The stores of each step, and the words of a restart: what is taken before the
/// mark is in the copy and in no log, what is taken after it is undone.
pub fn round() -> bool {
    let mut rig = Rig::on(&to_a_late_one());
    let steps = [
        (send(0, 2), 0),
        (Step::Begin, 3),
        (receive(0), 0),
        (copy(0), 1),
        (send(0, 3), 0),
        (receive(0), 0),
        (send(0, 5), 0),
        (mark(0), 0),
        (mark(1), 0),
        (receive(0), 5),
        (send(0, 7), 0),
        (receive(0), 3),
        (copy(1), 1),
        (send(0, 9), 0),
        (receive(0), 0),
        (note(0), 0),
        (receive(0), 0),
        (Step::Commit, 1),
    ];
    let stores = steps.into_iter().all(|(step, stores)| {
        let answer = rig.state.step(step, &mut rig.store, u64::MAX);
        !matches!(answer.outcome, Outcome::Refused(_)) && answer.stores == stores
    });
    let recovered = rig.recovered();
    let copied = rig.store[NEW.physical_checkpoint(1, 1)];
    stores
        && recovered.words[1] == 1_925
        && copied == NEW.taken(NEW.taken(1_925, 0, 5), 0, 7)
        && recovered.bodies(0) == [5]
}

/// Begin starts marking; finish waits for each late copy, and the next round asks
/// for them again.
pub fn all_late() -> bool {
    let mut rig = Rig::on(&Topology { late: 0b11, ..Topology::early(2, Vec::new()) });
    let once = |rig: &mut Rig| {
        let marked = rig.step(copy(0)) == Outcome::Refused(12)
            && rig.done(&[Step::Begin, mark(0)])
            && rig.state.phase == Phase::Logical
            && rig.done(&[copy(0)])
            && rig.step(copy(0)) == Outcome::Refused(12)
            && rig.step(copy(1)) == Outcome::Refused(12);
        let waits = rig.done(&[mark(1)]) && rig.step(Step::Commit) == Outcome::Refused(12);
        marked && waits && rig.done(&[copy(1), Step::Commit])
    };
    once(&mut rig) && once(&mut rig) && rig.recovered().line == 2
}

/// The cells of both logs: wire log body, its count, then anti-message body, wire,
/// and its count. The state's counts change with the last store alone.
pub fn two_logs() -> bool {
    let (wire, board) = (NEW.channel_log(1, 0), NEW.message_log(1, 1));
    let written = [(wire + 1, 5), (wire, 1), (board + 1, 5), (board + 2, 0), (board, 1)];
    (0..=5).all(|budget| {
        let mut rig = Rig::on(&to_a_late_one());
        let ready = rig.done(&[send(0, 5), Step::Begin, copy(0), mark(0), mark(1)]);
        let (before, cells) = (rig.state.clone(), rig.store.clone());
        let answer = rig.state.step(receive(0), &mut rig.store, budget as u64);
        let mut expected = cells;
        for &(cell, value) in &written[..budget] {
            expected[cell] = value;
        }
        let outcome = if budget < 5 { Outcome::PowerLost } else { Outcome::Took(5) };
        let counts = (rig.state.channel_counts[0], rig.state.message_counts[1]);
        ready
            && (answer.outcome, answer.stores) == (outcome, budget as u64)
            && rig.store == expected
            && if budget < 5 { rig.state == before } else { counts == (1, 1) }
    })
}

/// A take cut after three stores, the copy, and the take again, into the wire log
/// alone: with the board log first, its count would stand and undo a take that the
/// copy doesn't have, which makes 40,223,419.
pub fn order_of_logs() -> bool {
    let mut rig = Rig::on(&to_a_late_one());
    let ready = rig.done(&[send(0, 5), Step::Begin, copy(0), mark(0), mark(1)]);
    let cut = rig.state.step(receive(0), &mut rig.store, 3).outcome == Outcome::PowerLost;
    let copied = rig.done(&[copy(1)]) && rig.step(receive(0)) == Outcome::Took(5);
    let closed = rig.done(&[note(0)]) && rig.step(receive(0)) == Outcome::Marker;
    let finished = rig.done(&[Step::Commit]);
    let recovered = rig.recovered();
    ready
        && cut
        && copied
        && closed
        && finished
        && recovered.words[1] == 0
        && recovered.bodies(0) == [5]
}

/// M-101's two words, each undone from its end: in the order logged they aren't 0.
pub fn reverse_order() -> bool {
    [([0, 1], 4_841), ([1, 0], 34_601)].into_iter().all(|(wires, word)| {
        let mut rig = Rig::on(&Topology { late: 1, ..Topology::early(3, vec![(1, 0), (2, 0)]) });
        rig.store[NEW.physical_checkpoint(0, 0)] = word;
        let log = NEW.message_log(0, 0);
        rig.store[log..log + 5].copy_from_slice(&[2, 5, wires[0], 5, wires[1]]);
        rig.recovered().words[0] == 0
    })
}

/// Demand 3 after every call of random runs with late boards, cuts among them.
pub fn runs() -> bool {
    let late = |rng: &mut Rng| {
        let topology = plans::whole(rng);
        let all = plans::all_late(topology.processes);
        let map = [all, 1, rng.next() as u16 & all, rng.next() as u16 & all];
        Topology { late: map[rng.below(4)], ..topology }
    };
    (0..60).all(|number| carries::demand_holds(NEW, &mut Rng::new(105, number), late))
}

/// By the new form a late board's log is undone on its copy, by the old one it is
/// replayed, and either way the other form's restart gives that word.
pub fn both_forms() -> bool {
    let topology = with_late(pair(), 1);
    let forms = [(NEW, OLD, 6_763, [1, 5, 1], 7), (OLD, NEW, 7, [2, 2, 3], 6_792)];
    forms.into_iter().all(|(from, to, copy, log, word)| {
        let mut source = vec![0; from.cells];
        source[from.physical_checkpoint(0, 0)] = copy;
        source[from.message_log(0, 0)..][..3].copy_from_slice(&log);
        let mut target = vec![9; to.cells];
        let carried = carry(&topology, (from, &source), (to, &mut target));
        let words = [(from, &source), (to, &target)].map(|(form, cells)| {
            State::recover(form, &topology, cells).map(|state| state.words[0])
        });
        carried == Ok(()) && words == [Ok(word); 2] && target[to.message_log(0, 0)] == 0
    })
}

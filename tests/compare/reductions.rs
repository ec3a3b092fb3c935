//! Fixed lists for `console`: each line that it prints instead of a part, every
//! kind of first refusal, and lists that are hard to make smaller.

use crate::bytes;
use crate::calls::{self, copy, mark, note, receive, ABORT, BEGIN, COMMIT};
use crate::directed::{copies, end_round, pair, LISTING};
use crate::late;
use crate::lists::List;
use crate::plans;
use crate::walk::{encode, Call};
use reference::console::REDUCE;
use reference::forms::NEW;
use reference::program::{Program, INPUT};
use reference::record::Record;
use reference::reduce::MOST;
use reference::state::State;
use reference::steps::Outcome;
use reference::topology::Topology;

const RECOVER: Call = (u32::MAX, Record::Recover);

fn list(name: &str, bytes: Vec<u8>) -> List {
    List { name: format!("Console: {name}"), program: Program::Console, bytes }
}

fn of_calls(name: &str, topology: &Topology, calls: &[Call]) -> List {
    list(name, encode(Program::Console, topology, calls))
}

/// All but those of `bytes`.
pub fn all() -> Vec<List> {
    let mut lists = Vec::new();
    asked(&mut lists);
    refused_plans(&mut lists);
    one_after_another(&mut lists);
    whole_parts(&mut lists);
    first_refusals(&mut lists);
    counts(&mut lists);
    single_calls_matter(&mut lists);
    lengths(&mut lists);
    lists
}

/// The inputs about bytes that `head` is given, each as a question.
pub fn bytes() -> Vec<List> {
    let ask = |head: List| List {
        name: head.name.replace("Head", "Console"),
        program: Program::Console,
        bytes: [&[REDUCE], &head.bytes[..]].concat(),
    };
    bytes::all().into_iter().filter(|list| list.program == Program::Head).map(ask).collect()
}

/// No input, and first bytes that ask for something or for nothing known.
fn asked(lists: &mut Vec<List>) {
    lists.push(list("no input", Vec::new()));
    for first in [0, 1, 2, 3, 4, 5, 9, 254, 255] {
        lists.push(list(&format!("only byte {first}"), vec![first]));
        lists.push(list(&format!("byte {first}, listing"), [&[first], LISTING].concat()));
    }
}

fn send(channel: usize) -> Call {
    calls::send(channel, 3)
}

/// Calls, so many times over.
fn times(number: usize, calls: &[Call]) -> Vec<Call> {
    calls.repeat(number)
}

/// The places of the calls that are refused, and their numbers.
pub fn refused(topology: &Topology, calls: &[Call]) -> Vec<(usize, u8)> {
    let mut store = vec![0; NEW.cells];
    let mut state = State::initialize(NEW, topology, &mut store).expect("a whole plan");
    let mut outcome =
        |call: &Call| reference::program::call(&mut state, &mut store, call.1, u64::MAX).outcome;
    let number = |(place, call)| match outcome(call) {
        Outcome::Refused(number) => Some((place, number)),
        _ => None,
    };
    calls.iter().enumerate().filter_map(number).collect()
}

/// The list in which a refused call of a longer one is the first refused one:
/// those refused before it are gone, which changes no state.
pub fn first_refused(calls: &[Call], refused: &[(usize, u8)], place: usize) -> Vec<Call> {
    let gone = |at: usize| at < place && refused.iter().any(|&(other, _)| other == at);
    let kept = calls.iter().enumerate().filter(|(at, _)| !gone(*at));
    kept.map(|(_, call)| *call).collect()
}

/// Every refusal of three lists and of those of late boards, each as the first one
/// of a list.
fn first_refusals(lists: &mut Vec<List>) {
    let early = [("idle", idle()), ("copying", copying()), ("marking", marking())];
    let early = early.map(|(name, calls)| (name.to_string(), pair(), calls));
    for (name, topology, calls) in early.into_iter().chain(late::refused()) {
        let places = refused(&topology, &calls);
        for &(place, number) in &places {
            let mut calls = first_refused(&calls, &places, place);
            calls.truncate(MOST);
            let name = format!("{name}, call {place} is the first refused, {number}");
            lists.push(of_calls(&name, &topology, &calls));
        }
    }
}

fn idle() -> Vec<Call> {
    let mut calls = vec![copy(0), mark(0), note(0), COMMIT, ABORT];
    calls.extend([copy(2), mark(2), note(2), send(2), receive(2), receive(0)]);
    calls.extend([RECOVER, send(1), receive(1), receive(1)]);
    calls.extend(copies(2).chain(end_round(&pair(), 0)));
    calls.extend([send(0), RECOVER, receive(0), copy(1), mark(255), send(255)]);
    calls.extend(times(9, &[send(0)]));
    calls.extend([send(1), RECOVER, ABORT]);
    calls
}

fn copying() -> Vec<Call> {
    let mut calls = vec![send(0), BEGIN, BEGIN, copy(1), copy(0), copy(0), receive(0)];
    calls.extend([mark(0), note(0), COMMIT, copy(2)]);
    calls.extend(times(65, &[send(1), receive(1)]));
    calls.extend([ABORT, ABORT, receive(0), receive(1), receive(1)]);
    calls
}

fn marking() -> Vec<Call> {
    let mut calls = vec![BEGIN, copy(0), copy(1), BEGIN, copy(0), copy(1), mark(1), note(0)];
    calls.extend([mark(2), note(2), COMMIT, receive(0)]);
    calls.extend(times(65, &[send(0), receive(0)]));
    calls.extend([mark(0), mark(0), COMMIT]);
    calls.extend(times(9, &[send(1), receive(1)]));
    calls.extend(times(8, &[send(0)]));
    calls.extend([note(0), receive(0), note(0), note(0), note(1), mark(1), COMMIT, RECOVER]);
    calls.extend([mark(0), receive(0)]);
    calls
}

/// Sixteen processes; channel 0 from 0 to 15, channel 1 from 15 to 0, channel 2
/// between others.
fn sixteen() -> Topology {
    Topology::early(16, vec![(0, 15), (15, 0), (3, 4)])
}

/// Lists whose only smallest part is the whole list, alone, with calls after
/// it, and behind calls that don't matter.
fn whole_parts(lists: &mut Vec<List>) {
    let marking = || copies(16).collect::<Vec<Call>>();
    let pairs = |number, channel| times(number, &[send(channel), receive(channel)]);
    let twice = vec![BEGIN, BEGIN];
    let full_wire = times(9, &[send(0)]);
    let full_for_note = [marking(), vec![mark(0)], times(8, &[send(0)]), vec![note(0)]].concat();
    let note_and_send = [marking(), vec![mark(0), note(0)], times(8, &[send(0)])].concat();
    let wire_log = [marking(), vec![mark(0)], pairs(9, 1)].concat();
    let board_log = [vec![BEGIN, copy(0)], pairs(65, 1)].concat();
    let last_board = [marking(), pairs(65, 0)].concat();
    let parts = [twice, full_wire, full_for_note, note_and_send, wire_log, board_log, last_board];
    for calls in parts {
        let name = format!("all of {} calls, by any way", calls.len());
        lists.push(of_calls(&name, &sixteen(), &calls));
        let tail = [calls.clone(), vec![ABORT, send(0), RECOVER, send(3)]].concat();
        lists.push(of_calls(&format!("{name}, then a tail"), &sixteen(), &tail));
        let noise = pairs((MOST - calls.len()) / 2, 2);
        lists.push(of_calls(
            &format!("{name}, behind noise"),
            &sixteen(),
            &[noise, calls].concat(),
        ));
    }
}

/// Lists of 256 calls of which no single one can be left out, though many
/// together can; and one of which 2 matter.
fn single_calls_matter(lists: &mut Vec<List>) {
    let three = Topology::early(3, vec![(0, 1)]);
    let mut calls = times(121, &[send(0), receive(0)]);
    calls.extend(copies(3));
    calls.push(mark(0));
    calls.extend(times(8, &[send(0)]));
    calls.push(note(0));
    lists.push(of_calls("256 calls: messages, then a full wire", &three, &calls));
    let one = Topology::early(1, Vec::new());
    let mut calls = vec![BEGIN, ABORT];
    calls.extend(times(63, &[BEGIN, copy(0), mark(0), COMMIT]));
    calls.extend([BEGIN, BEGIN]);
    lists.push(of_calls("256 calls: rounds, then a begin too many", &one, &calls));
    let mut calls = vec![BEGIN];
    calls.extend(times(127, &[send(0), receive(0)]));
    calls.push(BEGIN);
    lists.push(of_calls("2 of 256 calls", &pair(), &calls));
}

/// Lists in which a call can be left out only after another: an earlier one
/// after a later one (a send and its take), or a later one after an earlier one
/// (a begin and the restart that undoes it).
fn one_after_another(lists: &mut Vec<List>) {
    let nested = [times(8, &[send(0)]), times(8, &[receive(0)]), vec![send(9)]].concat();
    lists.push(of_calls("sends, their takes, and another refusal", &pair(), &nested));
    let undone: [&[Call]; 9] = [
        &[BEGIN, RECOVER],
        &[BEGIN, send(0), RECOVER],
        &[BEGIN, ABORT, BEGIN, RECOVER],
        &[BEGIN, RECOVER, BEGIN, RECOVER],
        &[send(0), receive(0), BEGIN, RECOVER],
        &[send(0), RECOVER, BEGIN, ABORT],
        &[send(0), RECOVER, send(0), receive(0)],
        &[send(0), BEGIN, send(0), RECOVER, BEGIN],
        &[BEGIN, send(0), ABORT, RECOVER, BEGIN],
    ];
    let ends = [vec![copy(0)], vec![BEGIN, BEGIN], times(9, &[send(0)])];
    for end in ends {
        for (nth, calls) in undone.iter().enumerate() {
            let name = format!("{} calls that matter, after undone ones {nth}", end.len());
            lists.push(of_calls(&name, &pair(), &[calls, &end[..]].concat()));
            let name = format!("{name}, ten times");
            lists.push(of_calls(&name, &pair(), &[times(10, calls), end.clone()].concat()));
        }
    }
    let round: Vec<Call> = copies(2).chain(end_round(&pair(), 0)).collect();
    for number in [1, 2, 20] {
        let calls = [times(number, &round), vec![BEGIN, send(1), BEGIN]].concat();
        lists.push(of_calls(&format!("{number} rounds, then begin twice"), &pair(), &calls));
    }
}

/// Lists of about 256 calls; broken records among them, after them and after
/// more than 256.
fn counts(lists: &mut Vec<List>) {
    let records = 1 + pair().write().len();
    for number in [0, 1, 254, 255, 256, 257, 258, 300, 2000] {
        let calls = times(number, &[RECOVER]);
        lists.push(of_calls(&format!("{number} restarts"), &pair(), &calls));
        let last = [&calls[..], &[send(2)]].concat();
        lists.push(of_calls(&format!("{number} restarts and a refusal"), &pair(), &last));
        let first = [&[send(2)], &calls[..]].concat();
        lists.push(of_calls(&format!("a refusal and {number} restarts"), &pair(), &first));
        for (name, calls) in [("restarts", calls), ("restarts and a refusal", last)] {
            let broken = [&encode(Program::Console, &pair(), &calls)[..], &[1, 0]].concat();
            lists.push(list(&format!("{number} {name}, broken after them"), broken.clone()));
            let broken =
                [&broken[..records], &[1, 10], &broken[records..broken.len() - 2]].concat();
            lists.push(list(&format!("{number} {name}, broken before them"), broken));
        }
    }
}

/// Refused plans before lists that would be refused for themselves: more than
/// 256 calls, none refused, bytes that aren't records.
fn refused_plans(lists: &mut Vec<List>) {
    let records: [&[u8]; 5] = [&[], &[1, 9], &[1, 9].repeat(300), &[1, 0], &[5, 2, 9]];
    for plan in plans::REFUSED {
        for records in records {
            let name = format!("plan {plan:?}, then {} bytes", records.len());
            lists.push(list(&name, [&[REDUCE], plan, records].concat()));
        }
    }
}

/// A list whose last record ends with the last byte that is taken.
pub fn longest() -> Vec<u8> {
    let bytes = [&[REDUCE, 1, 0, 0, 0][..], &[1, 9].repeat(INPUT / 2 - 2)].concat();
    assert_eq!(bytes.len(), 1 + INPUT);
    bytes
}

/// Inputs about as long as is taken, and longer: whole up to there and broken
/// after it, broken by its last byte, and whole but for where it ends.
fn lengths(lists: &mut Vec<List>) {
    let whole = longest();
    lists.push(list("as long as is taken", whole.clone()));
    lists.push(list("a byte less than is taken", whole[..INPUT].to_vec()));
    lists.push(list("whole, then broken past the end", [&whole[..], &[0; 9]].concat()));
    lists.push(list("broken by the last byte", [&whole[..INPUT], &[10]].concat()));
    let longer = [&[REDUCE, 1, 0, 0, 0, 3, 4, 1][..], &[1, 9].repeat(INPUT / 2)].concat();
    lists.push(list("broken only by the end of what is taken", longer));
}

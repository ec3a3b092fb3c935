//! The lists that are reduced: 256 calls, of which 2, 64 and all matter. Each fails at its last call.

use crate::reduce::{reduce, CallList, Found, LISTED};
use crate::stream;
use crate::types::*;
use crate::works::{work, Work};

/// A list's reduction as a work; how many calls it keeps, and how many replays it takes.
pub struct Reduction {
    pub work: Work,
    pub kept: u16,
    pub replays: u32,
}

const SEND: Record = Record::Call(Step::Send { channel: 0, body: 1 });
const RECEIVE: Record = Record::Call(Step::Receive { channel: 0 });
const BEGIN: Record = Record::Call(Step::Begin);
const COMMIT: Record = Record::Call(Step::Commit);

/// A plan with these channels.
fn plan(processes: u8, ends: &[(u8, u8)]) -> Topology {
    let mut t = Topology::sized(processes, ends.len() as u8);
    for (c, &(from, to)) in ends.iter().enumerate() {
        (t.from[c], t.to[c]) = (from, to);
    }
    t
}

/// Sends and receives, after each six of which the channel is empty.
fn traffic(count: usize) -> Vec<Record> {
    let six = [SEND, SEND, RECEIVE, SEND, RECEIVE, RECEIVE];
    six.into_iter().cycle().take(count).collect()
}

/// The same with restarts, which come in twos after each six.
fn restarts(count: usize) -> Vec<Record> {
    let eight = [SEND, SEND, RECEIVE, SEND, RECEIVE, RECEIVE, Record::Recover, Record::Recover];
    eight.into_iter().cycle().take(count).collect()
}

fn pairs(count: usize) -> Vec<Record> {
    [SEND, RECEIVE].repeat(count)
}

/// A round begun, and every physical checkpoint taken.
fn saved(processes: u8) -> Vec<Record> {
    let saves = (0..processes).map(|process| Record::Call(Step::PhysicalCheckpoint { process }));
    [BEGIN].into_iter().chain(saves).collect()
}

fn mark(process: u8) -> Record {
    Record::Call(Step::LogicalCheckpoint { process })
}

/// A marker, sent and received.
fn marker(channel: u8) -> [Record; 2] {
    [Record::Call(Step::SendMarker { channel }), Record::Call(Step::Receive { channel })]
}

/// A whole round. The last processes, as many as there are channels, are marked by the markers, the others by calls.
fn round(t: &Topology) -> Vec<Record> {
    let marks = (0..t.processes - t.channels).map(mark).collect();
    let markers = (0..t.channels).flat_map(marker).collect();
    [saved(t.processes), marks, markers, vec![COMMIT]].concat()
}

/// A round begun twice, among traffic: the second begin is refused with 12.
fn two_matter() -> (Topology, Vec<Record>) {
    (plan(2, &[(0, 1)]), [restarts(128), vec![BEGIN], traffic(126), vec![BEGIN]].concat())
}

/// Traffic, a round of 30 calls, and one in which a channel's log is full after 8 messages: the next is refused with
/// 11. The whole round before could go, but no block that is tried is just that.
fn some_matter() -> (Topology, Vec<Record>) {
    let t = plan(13, &[(1, 11), (2, 12)]);
    let full = [saved(13), vec![mark(0), mark(11)], pairs(9)].concat();
    (t, [restarts(192), round(&t), full].concat())
}

/// Five rounds of 23 calls, and one in which a process's log is full after 64 messages: the next is refused with 11.
/// Whole rounds could go, but no block has as many calls as some rounds.
fn all_matter() -> (Topology, Vec<Record>) {
    let t = plan(10, &[(8, 9)]);
    let full = [saved(10), pairs(65)].concat();
    (t, [round(&t).repeat(5), full].concat())
}

/// A list as a work; fails unless it has 256 calls, the last of which is refused, and so many are kept.
fn reduction(
    matter: u16,
    times: u32,
    (t, calls): (Topology, Vec<Record>),
) -> Result<Reduction, String> {
    let reduced = reduce::<State>(&t, &CallList::new(calls.iter().copied()));
    let kept = reduced.part.count;
    if calls.len() != LISTED || kept != matter {
        return Err(format!("of {} calls {kept} are kept instead of {matter}", calls.len()));
    }
    if !matches!(reduced.found, Found::Failure(255, _)) {
        return Err(format!("where {matter} calls matter, the last one isn't the first refused"));
    }
    let name = format!("{kept} of {} calls matter", calls.len());
    let work = work(&name, 1, times, 5, &t, &stream::script(&calls));
    Ok(Reduction { work, kept, replays: reduced.replays })
}

pub fn reductions() -> Result<Vec<Reduction>, String> {
    Ok(vec![
        reduction(2, 500, two_matter())?,
        reduction(64, 60, some_matter())?,
        reduction(256, 8, all_matter())?,
    ])
}

//! What a restart finds in the logs of the last finished line.

use crate::wanted;
use reference::state::State;
use reference::store::{self, CHANNEL_LOG, MESSAGE_LOG};
use std::cmp::Ordering;

/// A log's entries: body and channel each.
type Log<'a> = Vec<&'a [u32]>;

/// By the state that it has given, and the store.
pub fn by_restart(state: &State, cells: &[u32]) -> Vec<&'static str> {
    let log = |p: usize| {
        let log = state.form.message_log(state.line, p);
        store::read_log(cells, log, MESSAGE_LOG, state.form.entry).ok()
    };
    let logs = |late| {
        let chosen = (0..state.topology.processes).filter(move |&p| state.late(p) == late);
        chosen.filter_map(log).collect::<Vec<Log>>()
    };
    let mut found = replayed(&logs(false));
    found.extend(undone(state, &logs(true)));
    if state.channels.iter().any(|entries| entries.len() == CHANNEL_LOG) {
        found.push("wire log of 8");
    }
    found
}

/// The names whose test is met.
fn named<const N: usize>(tests: [(bool, &'static str); N]) -> Vec<&'static str> {
    tests.into_iter().filter(|(met, _)| *met).map(|(_, name)| name).collect()
}

fn replayed(logs: &[Log]) -> Vec<&'static str> {
    let equal_bodies = |order| {
        let mut twos = logs.iter().flat_map(|log| log.windows(2));
        twos.any(|two| two[0][0] == two[1][0] && two[0][1].cmp(&two[1][1]) == order)
    };
    named([
        (logs.iter().any(|log| log.len() == MESSAGE_LOG), "board log of 64"),
        (equal_bodies(Ordering::Less), wanted::LOWER_FIRST),
        (equal_bodies(Ordering::Greater), wanted::HIGHER_FIRST),
    ])
}

fn undone(state: &State, logs: &[Log]) -> Vec<&'static str> {
    let order_matters = |log: &Log| {
        let undone = |word, entry: &&[u32]| state.form.undone(word, entry);
        log.iter().fold(0, undone) != log.iter().rev().fold(0, undone)
    };
    let beside = |log: &Log| {
        let body_of = |entry: &&[u32]| state.bodies(entry[1] as usize).contains(&entry[0]);
        log.iter().any(body_of)
    };
    named([
        (logs.iter().any(|log| !log.is_empty()), wanted::UNDONE),
        (logs.iter().any(|log| log.len() == MESSAGE_LOG), wanted::UNDONE_64),
        (logs.iter().any(order_matters), wanted::UNDONE_IN_ORDER),
        (logs.iter().any(beside), wanted::UNDONE_BESIDE),
    ])
}

//! The rule that a call falls under, in document 01's words and M-105's: for a take
//! its rule of taking; for another step the condition that isn't met, if one
//! isn't, and otherwise what it does.

use crate::seen::Sight;
use crate::wanted;
use reference::record::{kind, Record};
use reference::state::{Phase, State};
use reference::steps::Step;
use reference::store::{CHANNEL_LOG, MESSAGE_LOG};
use reference::taking::Rule;

pub const KINDS: [&str; 9] =
    ["send", "take", "begin", "copy", "mark", "note", "finish", "give up", "restart"];

/// What counts as seen where a call is refused: 11 and 12 by the rule that it
/// falls under, others by its kind.
pub fn refusal(rule: &'static str, record: Record, number: u8) -> Sight {
    let what = match number {
        11 | 12 => rule,
        _ => KINDS[kind(record) as usize - 1],
    };
    ("refused", what, u64::from(number))
}

pub fn rule(state: &State, record: Record) -> &'static str {
    let Record::Step(step) = record else {
        return "restart";
    };
    match step {
        Step::Receive { channel } => taking(state, channel),
        Step::Begin => beginning(state),
        Step::PhysicalCheckpoint { process } if state.late(process) => late_copy(state, process),
        Step::PhysicalCheckpoint { process } => copy(state, process),
        Step::LogicalCheckpoint { process } => mark(state, process),
        Step::SendMarker { channel } => note(state, channel),
        Step::Commit => finish(state),
        Step::Abort if state.phase == Phase::Idle => "give up when idle",
        Step::Abort if state.saved.contains(&true) => wanted::SAVED_GIVE_UP,
        _ => KINDS[kind(record) as usize - 1],
    }
}

/// How many of the planned processes are late.
fn late(state: &State) -> usize {
    (0..state.topology.processes).filter(|&p| state.late(p)).count()
}

fn all_late(state: &State) -> bool {
    late(state) == state.topology.processes
}

fn beginning(state: &State) -> &'static str {
    match state.phase {
        Phase::Idle if all_late(state) => wanted::BEGIN_ALL_LATE,
        Phase::Idle if state.late(0) => wanted::BEGIN_LATE,
        Phase::Idle => "begin",
        _ => "begin in a round",
    }
}

fn copy(state: &State, process: usize) -> &'static str {
    match state.phase {
        Phase::Idle => "copy when idle",
        Phase::Logical => "copy of an early board in marking",
        Phase::Physical { next } if next != process => "copy out of order",
        _ if !state.late(process + 1) => "copy",
        _ if (process + 1..state.topology.processes).all(|p| state.late(p)) => {
            wanted::LAST_EARLY_COPY
        }
        _ => wanted::COPY_BEFORE_LATE,
    }
}

fn late_copy(state: &State, process: usize) -> &'static str {
    match state.phase {
        Phase::Idle => "copy of a late board when idle",
        Phase::Physical { .. } => "copy of a late board in copying",
        Phase::Logical if !state.marked[process] => "copy of a late board before its mark",
        Phase::Logical if state.saved[process] => "copy of a late board twice",
        Phase::Logical => wanted::LATE_COPY,
    }
}

fn mark(state: &State, process: usize) -> &'static str {
    let marked = |process: usize| state.marked.get(process) == Some(&true);
    if state.phase != Phase::Logical {
        "mark outside marking"
    } else if marked(process) {
        "mark twice"
    } else if process > 0 && !marked(0) {
        "mark before board 0"
    } else if state.late(process) {
        wanted::LATE_MARK
    } else {
        "mark"
    }
}

fn note(state: &State, channel: usize) -> &'static str {
    if state.phase != Phase::Logical {
        return "note outside marking";
    }
    match state.topology.channels.get(channel) {
        Some(&(from, _)) if !state.marked[from] => "note before the mark",
        Some(_) if state.marker_sent[channel] => "note twice",
        _ => "note",
    }
}

fn finish(state: &State) -> &'static str {
    if state.phase != Phase::Logical {
        "finish outside marking"
    } else if !state.all_marked() {
        "finish, board unmarked"
    } else if !state.all_closed() {
        "finish, wire open"
    } else if !state.all_saved() {
        "finish, late board not copied"
    } else if all_late(state) {
        wanted::FINISH_ALL_LATE
    } else if late(state) > 0 {
        wanted::FINISH_LATE
    } else {
        "finish"
    }
}

fn taking(state: &State, channel: usize) -> &'static str {
    let Some(&(_, to)) = state.topology.channels.get(channel) else {
        return "no wire";
    };
    let late = state.late(to);
    match state.rule(channel) {
        None => "empty wire",
        Some(Rule::MarkerDropped) => "note outside marking",
        Some(Rule::Plain) => match state.phase {
            Phase::Physical { next } if to < next => wanted::PASSED_OVER,
            Phase::Physical { .. } => wanted::PLAIN_COPYING,
            _ => wanted::PLAIN,
        },
        Some(Rule::CopiedLogs) => wanted::COPIED_LOGS,
        Some(Rule::MarkerMarks) if late => wanted::MARKER_MARKS_LATE,
        Some(Rule::MarkerMarks) => wanted::MARKER_MARKS,
        Some(Rule::MarkerCloses) => wanted::MARKER_CLOSES,
        Some(Rule::MarkerOnClosed) => "note on a closed wire",
        Some(Rule::MessageMarks) => wanted::MESSAGE_MARKS,
        Some(Rule::UnmarkedLogs) => wanted::UNMARKED_LOGS,
        Some(Rule::MarkedPlain) if late => wanted::SAVED_PLAIN,
        Some(Rule::MarkedPlain) => wanted::MARKED_PLAIN,
        Some(Rule::ChannelLogs) if late => wanted::SAVED_LOGS,
        Some(Rule::ChannelLogs) => wanted::CHANNEL_LOGS,
        Some(Rule::LatePlain) => wanted::LATE_PLAIN,
        Some(Rule::MessageMarksLate) => wanted::MESSAGE_MARKS_LATE,
        Some(Rule::AntiLogs) => wanted::ANTI_LOGS,
        Some(Rule::BothLogs) => both_logs(state, channel, to),
    }
}

/// A take into two logs, or which of them is full.
fn both_logs(state: &State, channel: usize, to: usize) -> &'static str {
    let full_wire = state.channel_counts[channel] == CHANNEL_LOG;
    let full_board = state.message_counts[to] == MESSAGE_LOG;
    match (full_wire, full_board) {
        (false, false) => wanted::BOTH_LOGS,
        (true, false) => wanted::FULL_WIRE_LOG,
        (false, true) => wanted::FULL_BOARD_LOG,
        (true, true) => wanted::FULL_LOGS,
    }
}

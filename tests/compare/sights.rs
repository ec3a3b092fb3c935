//! What is seen of an input that asks for a store of the other form (M-102), and
//! what a run must see of them.

use crate::plans;
use crate::seen::Sight;
use reference::console::asked;
use reference::forms::{Form, NEW, OLD};
use reference::migrate::{DOWNGRADE, UPGRADE};
use reference::program::{rubbish, INPUT};
use reference::state::State;
use reference::store::{CHANNEL_LOG, LINE, MESSAGE_LOG};
use reference::topology::{Topology, CHANNELS, PROCESSES};

/// One of the two ways: the forms, and the groups that it is counted in.
struct Way {
    from: Form,
    to: Form,
    done: &'static str,
    refused: &'static str,
    plan_refused: &'static str,
}

const UP: Way = Way {
    from: OLD,
    to: NEW,
    done: "upgrade",
    refused: "upgrade refused",
    plan_refused: "upgrade plan refused",
};
const DOWN: Way = Way {
    from: NEW,
    to: OLD,
    done: "downgrade",
    refused: "downgrade refused",
    plan_refused: "downgrade plan refused",
};

const UNEVEN: [&str; 3] = ["one byte over", "two bytes over", "three bytes over"];
const SHORT: [&str; 3] = ["no cell", "one cell short", "other cells short"];
const COUNTS: [&str; 3] = ["board log of 65", "wire log of 9", "a count of 2,147,483,648 or more"];
/// What a refusal is told in spite of.
const SHORT_TOO: &str = "and too short";
const OVER_TOO: &str = "and a count over its places";
const LINES: [&str; 5] = ["line 0", "line 1", "line 2", "line 3 or more", "line 4,294,967,295"];
const LOGS: [&str; 4] =
    ["board log of 1 to 63", "board log of 64", "wire log of 1 to 7", "wire log of 8"];
const ELSEWHERE: [&str; 3] = [
    "a count over its places in the other half",
    "a count over its places, of a board that isn't planned",
    "a count over its places, of a wire that isn't planned",
];
const OTHERS: [&str; 5] = [
    "16 boards, 64 wires",
    "cells past the store's",
    "a word that its cell holds before",
    "a body that its cell holds before",
    "all bytes that are taken",
];

/// Late boards: those of the old form have logs that are replayed, those of the new
/// one anti-messages (M-105).
const LATE: [&str; 5] = [
    "a late board with nothing logged",
    "a late board with a log",
    "a late board with a log of 64",
    "a late board's log that would make another word as an early one's",
    "all boards late",
];

/// Everything that a run must see.
pub fn required() -> Vec<Sight> {
    let mut sights = Vec::new();
    for way in [UP, DOWN] {
        sights.extend(plans::required(way.plan_refused));
        sights.extend(UNEVEN.map(|what| (way.refused, what, 7)));
        sights.extend([SHORT_TOO, OVER_TOO].map(|what| (way.refused, what, 7)));
        sights.extend(SHORT.map(|what| (way.refused, what, 6)));
        sights.push((way.refused, OVER_TOO, 6));
        sights.extend(COUNTS.map(|what| (way.refused, what, 16)));
        let done = [&LINES[..], &LOGS, &ELSEWHERE, &OTHERS, &LATE].concat();
        sights.extend(done.into_iter().map(|what| (way.done, what, 0)));
    }
    sights
}

/// What is seen of an input.
pub fn of(input: &[u8]) -> Vec<Sight> {
    match asked(input) {
        Ok((UPGRADE, bytes)) => UP.sights(bytes),
        Ok((DOWNGRADE, bytes)) => DOWN.sights(bytes),
        Ok(_) => vec![("nothing asked", "another first byte", 0)],
        Err(_) => vec![("nothing asked", "no input", 0)],
    }
}

/// The sights that a test names.
fn named<const N: usize>(tests: [bool; N], names: [&'static str; N]) -> Vec<&'static str> {
    tests.into_iter().zip(names).filter(|(met, _)| *met).map(|(_, name)| name).collect()
}

/// The counts in a half, as far as there are cells: of boards, then of wires.
fn counts(form: Form, line: u32, cells: &[u32]) -> (Vec<u32>, Vec<u32>) {
    let at = |cell: usize| cells.get(cell).copied().unwrap_or(0);
    let boards = (0..PROCESSES).map(|p| at(form.message_log(line, p)));
    let wires = (0..CHANNELS).map(|c| at(form.channel_log(line, c)));
    (boards.collect(), wires.collect())
}

fn over(counts: &[u32], places: usize) -> bool {
    counts.iter().any(|&count| count as usize > places)
}

impl Way {
    fn sights(&self, asked: &[u8]) -> Vec<Sight> {
        let (topology, bytes) = match Topology::read(asked) {
            Ok(read) => read,
            Err(_) => return plans::refused(self.plan_refused, asked),
        };
        let (cells, rest) = bytes.as_chunks();
        let cells: Vec<u32> = cells.iter().map(|&cell| u32::from_le_bytes(cell)).collect();
        let line = cells.get(LINE).copied().unwrap_or(0);
        let (boards, wires) = counts(self.from, line, &cells);
        let (boards, wires) = (&boards[..topology.processes], &wires[..topology.channels.len()]);
        let over = over(boards, MESSAGE_LOG) || over(wires, CHANNEL_LOG);
        let short = cells.len() < self.from.cells;
        let refused = |what: Vec<&'static str>, number| {
            what.into_iter().map(|what| (self.refused, what, number)).collect()
        };
        if !rest.is_empty() {
            let what = named([short, over], [SHORT_TOO, OVER_TOO]);
            return refused([vec![UNEVEN[rest.len() - 1]], what].concat(), 7);
        }
        if short {
            let how = [cells.is_empty(), cells.len() + 1 == self.from.cells];
            let how = how.iter().position(|&so| so).unwrap_or(2);
            return refused([vec![SHORT[how]], named([over], [OVER_TOO])].concat(), 6);
        }
        if over {
            let huge = |counts: &[u32]| counts.iter().any(|&count| count >= 1 << 31);
            let tests = [boards.contains(&65), wires.contains(&9), huge(boards) || huge(wires)];
            return refused(named(tests, COUNTS), 16);
        }
        self.done(&topology, &cells)
    }

    fn done(&self, topology: &Topology, cells: &[u32]) -> Vec<Sight> {
        let line = cells[LINE];
        let (processes, channels) = (topology.processes, topology.channels.len());
        let (boards, wires) = counts(self.from, line, cells);
        let (planned, more) = (boards.split_at(processes), wires.split_at(channels));
        let (boards, other_boards) = planned;
        let (wires, other_wires) = more;
        let (half_boards, half_wires) = counts(self.from, line ^ 1, cells);
        let lines = [line == 0, line == 1, line == 2, line > 2, line == u32::MAX];
        let logs = [
            boards.iter().any(|count| (1..64).contains(count)),
            boards.contains(&64),
            wires.iter().any(|count| (1..8).contains(count)),
            wires.contains(&8),
        ];
        let half = over(&half_boards[..processes], 64) || over(&half_wires[..channels], 8);
        let elsewhere = [half, over(other_boards, 64), over(other_wires, 8)];
        let [word, body] = self.kept(topology, cells);
        let largest = (processes, channels) == (PROCESSES, CHANNELS);
        let all = topology.write().len() + 4 * cells.len() == INPUT;
        let others = [largest, cells.len() > self.from.cells, word, body, all];
        let mut what = named(lines, LINES);
        what.extend(named(logs, LOGS));
        what.extend(named(elsewhere, ELSEWHERE));
        what.extend(named(others, OTHERS));
        what.extend(named(self.late(topology, cells, boards), LATE));
        what.into_iter().map(|what| (self.done, what, 0)).collect()
    }

    /// What is to be seen of late boards, by the planned boards' counts.
    fn late(&self, topology: &Topology, cells: &[u32], counts: &[u32]) -> [bool; 5] {
        let late: Vec<usize> = (0..counts.len()).filter(|&p| topology.is_late(p)).collect();
        let any = |test: &dyn Fn(u32) -> bool| late.iter().any(|&p| test(counts[p]));
        let words = |late| {
            let state = State::recover(NEW, &Topology { late, ..topology.clone() }, cells);
            state.map(|state| state.words)
        };
        // Of the old form it is enough that there is a log.
        let otherwise = self.from == OLD || words(topology.late) != words(0);
        let logged = any(&|count| count > 0);
        [
            any(&|count| count == 0),
            logged,
            any(&|count| count == 64),
            logged && otherwise,
            late.len() == counts.len(),
        ]
    }

    /// Whether `console` leaves out the cell of a word, or of a body, since it
    /// starts with just that.
    fn kept(&self, topology: &Topology, cells: &[u32]) -> [bool; 2] {
        let Ok(state) = State::recover(self.from, topology, cells) else {
            return [false; 2];
        };
        let before = rubbish(self.to.cells);
        let word = |p| before[self.to.physical_checkpoint(state.line, p)] == state.words[p];
        let body = |c| {
            let log = self.to.channel_log(state.line, c);
            state.bodies(c).into_iter().zip(&before[log + 1..]).any(|(body, held)| body == *held)
        };
        [(0..topology.processes).any(word), (0..topology.channels.len()).any(body)]
    }
}

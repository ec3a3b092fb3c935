//! Looks on while the reference runs: counts what is seen, keeps the histories
//! (document 01: the books), and checks demand 3 after every call.

use crate::found;
use crate::rules::{refusal, rule};
use crate::seen::{Seen, Sight};
use crate::wanted;
use reference::history::Histories;
use reference::program::{Program, Watch};
use reference::record::Record;
use reference::state::{Entry, Phase, State};
use reference::steps::{Answer, Outcome, Step};

pub struct Watcher<'a> {
    program: Program,
    seen: &'a mut Seen,
    histories: Option<Histories>,
    /// The call about to be made: what counts as seen if it is done, refused
    /// (but for the number), or loses power.
    phase: Phase,
    rule: &'static str,
    full_logs: [bool; 3],
    new_tags: bool,
    late_open: bool,
    /// A take into two logs that was cut, and is still to be made: its channel, and
    /// the stores made.
    half_logged: Option<(usize, u64)>,
    /// A late process of the round under way, and of the last finished line, was
    /// marked by a take.
    marked_by_take: [bool; 2],
    /// The last call lost power.
    lost: bool,
    /// Demand 3's premise held so far: after a lost power a recover is next.
    premise: bool,
    /// The first call after which demand 3 didn't hold, and why.
    pub fault: Option<String>,
    calls: u64,
}

impl<'a> Watcher<'a> {
    pub fn new(program: Program, seen: &'a mut Seen) -> Watcher<'a> {
        Watcher {
            program,
            seen,
            histories: None,
            phase: Phase::Idle,
            rule: "",
            full_logs: [false; 3],
            new_tags: false,
            late_open: false,
            half_logged: None,
            marked_by_take: [false; 2],
            lost: false,
            premise: true,
            fault: None,
            calls: 0,
        }
    }

    pub fn count(&mut self, sight: Sight) {
        self.seen.count(self.program, sight);
    }

    fn count_done(&mut self, record: Record) {
        match record {
            Record::Step(Step::Receive { channel }) => return self.count_take(channel),
            Record::Step(Step::Begin) => {
                self.marked_by_take[0] = false;
                if self.new_tags {
                    self.count(("round", "tags 1 at begin", 0));
                }
            }
            Record::Step(Step::Commit) => {
                self.marked_by_take[1] = self.marked_by_take[0];
                for (full, what) in self.full_logs.into_iter().zip(wanted::FULL_BEHIND) {
                    if full {
                        self.count(("finish with", what, 0));
                    }
                }
            }
            Record::Step(Step::Abort) => self.half_logged = None,
            _ => (),
        }
        self.count(("done", self.rule, 0));
    }

    fn count_take(&mut self, channel: usize) {
        self.count(("take", self.rule, 0));
        self.marked_by_take[0] |= self.rule == wanted::MESSAGE_MARKS_LATE;
        if let Some((_, stores)) = self.half_logged.take_if(|(half, _)| *half == channel) {
            let again = self.rule == wanted::BOTH_LOGS;
            let group = if again { wanted::AGAIN } else { wanted::AFTER_COPY };
            self.count((group, wanted::BOTH_LOGS, stores));
        }
    }

    fn count_cut(&mut self, record: Record, stores: u64) {
        self.count(("cut", self.rule, stores));
        if let (wanted::BOTH_LOGS, Record::Step(Step::Receive { channel })) = (self.rule, record) {
            self.half_logged = Some((channel, stores));
        }
    }

    /// A send, by whether a marker was on its channel, and the room left.
    fn count_sent(&mut self, state: &State, record: Record, room: usize) {
        if let Record::Step(Step::Send { channel, .. }) = record {
            let beside = state.channels[channel].contains(&Entry::Marker);
            let what = if beside { wanted::BESIDE_NOTE } else { wanted::NO_NOTE };
            self.count(("sent", what, room as u64));
        }
    }

    fn count_restart(&mut self, state: &State, cells: &[u32]) {
        let phase = match self.phase {
            Phase::Idle => "idle",
            Phase::Physical { .. } => "copying",
            Phase::Logical => "marking",
        };
        self.count(("restart", phase, 0));
        if self.late_open {
            self.count(("restart", "a late board marked, not copied", 0));
        }
        for what in found::by_restart(state, cells) {
            self.count(("restart from", what, 0));
        }
        if self.marked_by_take[1] {
            self.count(("restart from", wanted::UNDONE_MARKING, 0));
        }
        self.half_logged = None;
    }

    fn demand(&mut self, cells: &[u32], record: Record, answer: Answer) {
        self.calls += 1;
        let Some(histories) = &mut self.histories else {
            return;
        };
        histories.feed(record, answer.outcome);
        self.seen.demands += 1;
        self.seen.beyond += u64::from(!self.premise);
        if let Err(fault) = histories.check(cells) {
            let call = self.calls;
            self.fault.get_or_insert(format!("demand 3 after call {call}: {fault}"));
        }
    }
}

impl Watch for Watcher<'_> {
    fn started(&mut self, state: &State) {
        self.histories = Some(Histories::new(state.form, &state.topology));
    }

    fn unreadable(&mut self) {
        self.count(("refused", "record", 7));
    }

    fn before(&mut self, state: &State, record: Record) {
        self.phase = state.phase;
        self.rule = rule(state, record);
        let full = |late| (0..16).any(|p| state.late(p) == late && state.message_counts[p] == 64);
        self.full_logs = [full(false), full(true), state.channel_counts.contains(&8)];
        self.new_tags = state.tags[0];
        self.late_open = (0..16).any(|p| state.late(p) && state.marked[p] && !state.saved[p]);
    }

    fn after(&mut self, state: &State, cells: &[u32], record: Record, answer: Answer) {
        if self.lost {
            let restart = record == Record::Recover;
            self.count(("after a cut", if restart { "restart" } else { "another call" }, 0));
            self.premise &= restart;
        }
        self.lost = answer.outcome == Outcome::PowerLost;
        match answer.outcome {
            Outcome::Done | Outcome::Took(_) | Outcome::Marker => self.count_done(record),
            Outcome::Sent(room) => self.count_sent(state, record, room),
            Outcome::Line(_) => self.count_restart(state, cells),
            Outcome::Refused(number) => self.count(refusal(self.rule, record, number)),
            Outcome::PowerLost => self.count_cut(record, answer.stores),
        }
        if record == Record::Step(Step::Commit) && state.line == 10 {
            self.count(("round", "tenth line", 0));
        }
        self.demand(cells, record, answer);
    }
}

//! M-106: a slow head. It keeps no state and no store, but the list of calls with
//! their answers, and the histories (document 01: the books) that these feed.
//! Words and messages are worked out from the histories and the rest from the
//! list, each time anew; no step is called.

use crate::console::{plan_refused, refused};
use crate::forms::NEW;
use crate::history::{Event, Histories};
use crate::program::{print, print_end, INPUT};
use crate::record::{self, Record};
use crate::reduce::MOST;
use crate::state::{Phase, CAPACITY};
use crate::steps::{Answer, Outcome, Step};
use crate::store::{CHANNEL_LOG, MESSAGE_LOG};
use crate::topology::Topology;

struct SlowHead {
    topology: Topology,
    histories: Histories,
    /// The calls that were accepted, with their answers.
    past: Vec<(Record, Answer)>,
}

/// What stands on a channel: a message, and whether it was sent after its sender's
/// mark of this round; none for the marker.
type Entry = Option<(u32, bool)>;

/// Begins a round, or ends one.
fn turns(record: Record) -> bool {
    matches!(record, Record::Recover | Record::Step(Step::Begin | Step::Commit | Step::Abort))
}

fn sends_on(record: Record, channel: usize) -> bool {
    matches!(record, Record::Step(Step::Send { channel: on, .. }) if on == channel)
}

fn require(met: bool, refusal: u8) -> Result<(), u8> {
    if met {
        Ok(())
    } else {
        Err(refusal)
    }
}

impl SlowHead {
    fn new(topology: Topology) -> SlowHead {
        let histories = Histories::new(NEW, &topology);
        SlowHead { topology, histories, past: Vec::new() }
    }

    fn call(&mut self, record: Record) -> Answer {
        let answer = match record {
            Record::Step(step) => self.step(step),
            Record::Recover => Ok((Outcome::Line(self.line()), 0)),
        };
        let (outcome, stores) = answer.unwrap_or_else(|number| (Outcome::Refused(number), 0));
        let answer = Answer { outcome, stores };
        self.histories.feed(record, outcome);
        if !matches!(outcome, Outcome::Refused(_)) {
            self.past.push((record, answer));
        }
        answer
    }

    /// What is accepted since the latest call of this kind.
    fn since(&self, last: impl Fn(Record) -> bool) -> &[(Record, Answer)] {
        let start = self.past.iter().rposition(|&(record, _)| last(record));
        &self.past[start.map_or(0, |at| at + 1)..]
    }

    /// Whether a step was accepted since the round began.
    fn done(&self, step: Step) -> bool {
        self.since(turns).iter().any(|&(record, _)| record == Record::Step(step))
    }

    fn line(&self) -> u32 {
        let commits = self.past.iter().filter(|(record, _)| *record == Record::Step(Step::Commit));
        commits.count() as u32
    }

    /// By the latest call that turns the round or is an early process's copy.
    fn phase(&self) -> Phase {
        let from = |record| match record {
            Record::Step(Step::PhysicalCheckpoint { process }) => {
                (!self.topology.is_late(process)).then_some(Some(process + 1))
            }
            Record::Step(Step::Begin) => Some(Some(0)),
            _ => turns(record).then_some(None),
        };
        let latest = self.past.iter().rev().find_map(|&(record, _)| from(record));
        let Some(from) = latest.flatten() else {
            return Phase::Idle;
        };
        let early = (from..self.topology.processes).find(|&p| !self.topology.is_late(p));
        early.map_or(Phase::Logical, |next| Phase::Physical { next })
    }

    fn marked(&self, process: usize) -> bool {
        self.histories.marks[process].is_some()
    }

    fn saved(&self, process: usize) -> bool {
        self.topology.is_late(process) && self.done(Step::PhysicalCheckpoint { process })
    }

    fn closed(&self, channel: usize) -> bool {
        let taken = |&(record, answer): &(Record, Answer)| {
            let receive = record == Record::Step(Step::Receive { channel });
            receive && answer.outcome == Outcome::Marker
        };
        self.since(turns).iter().any(taken)
    }

    /// How many receives that meet a test have logged since the counts were 0, by
    /// the stores that they have made.
    fn logged(&self, stores: [u64; 2], test: impl Fn(usize) -> bool) -> usize {
        let clears = |record| matches!(record, Record::Recover | Record::Step(Step::Begin));
        let logs = |&&(record, answer): &&(Record, Answer)| match record {
            Record::Step(Step::Receive { channel }) => {
                test(channel) && stores.contains(&answer.stores)
            }
            _ => false,
        };
        self.since(clears).iter().filter(logs).count()
    }

    fn message_log(&self, process: usize) -> usize {
        self.logged([3, 5], |channel| self.topology.channels[channel].1 == process)
    }

    fn channel_log(&self, channel: usize) -> usize {
        self.logged([2, 5], |other| other == channel)
    }

    fn word(&self, process: usize) -> u32 {
        self.histories.events[process].iter().fold(0, |word, event| match *event {
            Event::Receive { channel, body } => NEW.taken(word, channel as u32, body),
            Event::Send { .. } => word,
        })
    }

    /// The sends that are not yet received.
    fn messages(&self, channel: usize) -> Vec<(u32, bool)> {
        let (from, to) = self.topology.channels[channel];
        let mark = self.histories.marks[from].unwrap_or(usize::MAX);
        let sent = |(place, event): (usize, &Event)| match *event {
            Event::Send { channel: on, body } => (on == channel).then_some((body, place >= mark)),
            Event::Receive { .. } => None,
        };
        let received =
            |event: &&Event| matches!(event, Event::Receive { channel: on, .. } if *on == channel);
        let gone = self.histories.events[to].iter().filter(received).count();
        let sends = self.histories.events[from].iter().enumerate().filter_map(sent);
        sends.skip(gone).collect()
    }

    /// These, and a marker before what was sent since it.
    fn entries(&self, channel: usize) -> Vec<Entry> {
        let mut entries: Vec<Entry> = self.messages(channel).into_iter().map(Some).collect();
        let marker = Step::SendMarker { channel };
        if self.done(marker) && !self.closed(channel) {
            let since = self.since(|record| record == Record::Step(marker));
            let behind = since.iter().filter(|(record, _)| sends_on(*record, channel)).count();
            entries.insert(entries.len() - behind, None);
        }
        entries
    }

    fn ends(&self, channel: usize) -> Result<(usize, usize), u8> {
        self.topology.channels.get(channel).copied().ok_or(8)
    }

    /// The outcome and the stores made, or the refusal.
    fn step(&self, step: Step) -> Result<(Outcome, u64), u8> {
        let (processes, channels) = (self.topology.processes, self.topology.channels.len());
        let stores = match step {
            Step::Send { channel, .. } => return self.send(channel),
            Step::Receive { channel } => return self.receive(channel),
            Step::Begin => {
                require(self.phase() == Phase::Idle, 12)?;
                processes + channels
            }
            Step::PhysicalCheckpoint { process } => {
                require(process < processes, 8)?;
                require(self.may_copy(process), 12)?;
                1
            }
            Step::LogicalCheckpoint { process } => {
                require(process < processes, 8)?;
                let first = process == 0 || self.marked(0);
                require(self.phase() == Phase::Logical && !self.marked(process) && first, 12)?;
                0
            }
            Step::SendMarker { channel } => {
                let (from, _) = self.ends(channel)?;
                let due = self.marked(from) && !self.done(step);
                require(self.phase() == Phase::Logical && due, 12)?;
                require(self.entries(channel).len() < CAPACITY, 9)?;
                0
            }
            Step::Commit => {
                require(self.phase() == Phase::Logical && self.may_commit(), 12)?;
                1
            }
            Step::Abort => {
                require(self.phase() != Phase::Idle, 12)?;
                0
            }
        };
        Ok((Outcome::Done, stores as u64))
    }

    fn send(&self, channel: usize) -> Result<(Outcome, u64), u8> {
        self.ends(channel)?;
        let held = self.entries(channel).len();
        require(held < CAPACITY, 9)?;
        Ok((Outcome::Sent(CAPACITY - held - 1), 0))
    }

    fn receive(&self, channel: usize) -> Result<(Outcome, u64), u8> {
        let (_, to) = self.ends(channel)?;
        let Some((body, new)) = *self.entries(channel).first().ok_or(10)? else {
            return Ok((Outcome::Marker, 0));
        };
        let (in_channel_log, in_message_log) = self.logs(to, new);
        require(!in_channel_log || self.channel_log(channel) < CHANNEL_LOG, 11)?;
        require(!in_message_log || self.message_log(to) < MESSAGE_LOG, 11)?;
        let stores = 2 * u64::from(in_channel_log) + 3 * u64::from(in_message_log);
        Ok((Outcome::Took(body), stores))
    }

    /// Whether what a process takes goes into the channel's log, and into its own.
    fn logs(&self, to: usize, new: bool) -> (bool, bool) {
        let (late, marked) = (self.topology.is_late(to), self.marked(to));
        match self.phase() {
            Phase::Idle => (false, false),
            Phase::Physical { next } => (false, to < next && !late),
            Phase::Logical if late => (marked && !new, (marked || new) && !self.saved(to)),
            Phase::Logical => (marked && !new, !marked && !new),
        }
    }

    fn may_copy(&self, process: usize) -> bool {
        if self.topology.is_late(process) {
            self.phase() == Phase::Logical && self.marked(process) && !self.saved(process)
        } else {
            self.phase() == Phase::Physical { next: process }
        }
    }

    fn may_commit(&self) -> bool {
        let through = |p| self.marked(p) && (self.saved(p) || !self.topology.is_late(p));
        (0..self.topology.processes).all(through)
            && (0..self.topology.channels.len()).all(|c| self.closed(c))
    }

    /// Each process's word, and each channel's bodies.
    fn standing(&self) -> (Vec<u32>, Vec<Vec<u32>>) {
        let bodies = |c| self.messages(c).into_iter().map(|(body, _)| body).collect();
        let words = (0..self.topology.processes).map(|p| self.word(p));
        (words.collect(), (0..self.topology.channels.len()).map(bodies).collect())
    }
}

/// The records up to the first that doesn't read, and whether there is one.
pub fn listed(mut bytes: &[u8]) -> (Vec<Record>, bool) {
    let mut records = Vec::new();
    while let Ok((record, rest)) = record::read(bytes) {
        records.push(record);
        bytes = rest;
    }
    (records, !bytes.is_empty())
}

/// What `console` prints for the byte 4 and these: what `head` prints for them, or
/// `refused 18` where the list has over 256 calls.
pub fn text(bytes: &[u8]) -> String {
    let (topology, rest) = match Topology::read(&bytes[..bytes.len().min(INPUT)]) {
        Ok(read) => read,
        Err(number) => return plan_refused(number),
    };
    let (records, broken) = listed(rest);
    if records.len() > MOST {
        return refused(18);
    }
    let mut head = SlowHead::new(topology);
    let mut answers: Vec<Answer> = records.into_iter().map(|record| head.call(record)).collect();
    if broken {
        answers.push(Answer { outcome: Outcome::Refused(7), stores: 0 });
    }
    let mut text = String::new();
    for (number, answer) in (1..).zip(answers) {
        print(&mut text, number, answer);
    }
    let (words, bodies) = head.standing();
    print_end(&mut text, &words, &bodies);
    text
}

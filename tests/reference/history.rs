//! The histories (document 01: the books), fed by calls and answers alone, and
//! demand 3 checked by them. Neither state, nor logs, nor store is asked, but
//! for what demand 3 itself says of a recover.

use crate::forms::Form;
use crate::record::Record;
use crate::state::{Entry, Phase, State};
use crate::steps::{Outcome, Step};
use crate::topology::Topology;

/// An entry of a process's history (document 01: book).
#[derive(Clone, Copy, Debug, PartialEq, Eq)]
pub enum Event {
    Send { channel: usize, body: u32 },
    Receive { channel: usize, body: u32 },
}

pub struct Histories {
    /// The form of the store, by whose rule the words are made.
    form: Form,
    topology: Topology,
    pub events: Vec<Vec<Event>>,
    /// The last finished recovery line: a place in each process's history.
    line: Vec<usize>,
    /// The marks of the round under way.
    pub marks: Vec<Option<usize>>,
    /// Accepted commits (document 01: finish).
    commits: u32,
}

impl Histories {
    /// After an accepted initialize.
    pub fn new(form: Form, topology: &Topology) -> Histories {
        Histories {
            form,
            topology: topology.clone(),
            events: vec![Vec::new(); topology.processes],
            line: vec![0; topology.processes],
            marks: vec![None; topology.processes],
            commits: 0,
        }
    }

    /// One call with what the histories learn of its answer.
    pub fn feed(&mut self, record: Record, outcome: Outcome) {
        if let Outcome::Refused(_) | Outcome::PowerLost = outcome {
            return;
        }
        match (record, outcome) {
            (Record::Step(Step::Send { channel, body }), _) => {
                let (from, _) = self.topology.channels[channel];
                self.events[from].push(Event::Send { channel, body });
            }
            (Record::Step(Step::Receive { channel }), Outcome::Took(body)) => {
                self.receive(channel, body);
            }
            (Record::Step(Step::Receive { channel }), _) => {
                self.mark(self.topology.channels[channel].1);
            }
            (Record::Step(Step::LogicalCheckpoint { process }), _) => self.mark(process),
            (Record::Step(Step::Commit), _) => self.commit(),
            (Record::Step(Step::Abort), _) => self.marks.fill(None),
            (Record::Recover, _) => self.recover(),
            _ => (),
        }
    }

    /// Marks a process at its history's end, where it has no mark of this round.
    fn mark(&mut self, process: usize) {
        let end = self.events[process].len();
        self.marks[process].get_or_insert(end);
    }

    fn receive(&mut self, channel: usize, body: u32) {
        let (from, to) = self.topology.channels[channel];
        let taken_on =
            |event: &&Event| matches!(event, Event::Receive { channel: c, .. } if *c == channel);
        let earlier = self.events[to].iter().filter(taken_on).count();
        let sent_on =
            |event: &Event| matches!(event, Event::Send { channel: c, .. } if *c == channel);
        let sends =
            (0..self.events[from].len()).filter(|&place| sent_on(&self.events[from][place]));
        let place = sends.skip(earlier).next();
        if let (Some(place), Some(mark)) = (place, self.marks[from]) {
            if place >= mark {
                self.mark(to);
            }
        }
        self.events[to].push(Event::Receive { channel, body });
    }

    fn commit(&mut self) {
        self.commits += 1;
        for (line, mark) in self.line.iter_mut().zip(&mut self.marks) {
            // A round that finishes has marked everyone; a mark that is missing
            // leaves the line where it was, and the check below finds it.
            *line = mark.take().unwrap_or(*line);
        }
    }

    fn recover(&mut self) {
        for (events, &line) in self.events.iter_mut().zip(&self.line) {
            events.truncate(line);
        }
        self.marks.fill(None);
    }

    /// Demand 3, were a recover to come next: what it gives, held against the
    /// histories as it would leave them. `Err` says what doesn't hold.
    pub fn check(&self, store: &[u32]) -> Result<(), String> {
        let state = State::recover(self.form, &self.topology, store)
            .map_err(|number| format!("recover refused {number}"))?;
        if state.phase != Phase::Idle || state.line != self.commits {
            return Err(format!("line {} after {} commits", state.line, self.commits));
        }
        let channels = self.topology.channels.len();
        let mut sent = vec![Vec::new(); channels];
        let mut accounted = vec![Vec::new(); channels];
        for (p, events) in self.events.iter().enumerate() {
            let mut word = 0;
            for event in &events[..self.line[p]] {
                match *event {
                    Event::Send { channel, body } => sent[channel].push(body),
                    Event::Receive { channel, body } => {
                        accounted[channel].push(body);
                        word = self.form.taken(word, channel as u32, body);
                    }
                }
            }
            if state.words[p] != word {
                return Err(format!("board {p}: word {}, its takes make {word}", state.words[p]));
            }
        }
        for c in 0..channels {
            if state.channels[c].contains(&Entry::Marker) {
                return Err(format!("wire {c} holds a note"));
            }
            accounted[c].extend(state.bodies(c));
            if sent[c] != accounted[c] {
                let (sent, accounted) = (&sent[c], &accounted[c]);
                return Err(format!("wire {c}: sent {sent:?}, taken and held {accounted:?}"));
            }
        }
        Ok(())
    }
}

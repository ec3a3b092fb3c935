//! Taking (the field: receiving): the rules of document 01, with those that M-105
//! has for a late receiver, and what each of them logs.

use crate::state::{Entry, Phase, State};
use crate::steps::{require, Outcome};
use crate::store::{Power, Stop, CHANNEL_LOG, MESSAGE_LOG};

/// The rule that a receive falls under.
#[derive(Clone, Copy, Debug, PartialEq, Eq)]
pub enum Rule {
    /// Outside marking: a note is merely removed.
    MarkerDropped,
    /// Outside marking: a message, not logged.
    Plain,
    /// In copying: a copied receiver logs in its board log.
    CopiedLogs,
    /// In marking: a note marks the receiver and closes the wire.
    MarkerMarks,
    /// In marking: a note closes the wire of a marked receiver.
    MarkerCloses,
    /// In marking: a note on a closed wire, 14.
    MarkerOnClosed,
    /// In marking, other tag, unmarked receiver: it is marked first.
    MessageMarks,
    /// In marking, equal tags, unmarked receiver: board log.
    UnmarkedLogs,
    /// In marking, equal tags, marked receiver: no log.
    MarkedPlain,
    /// In marking, other tag, marked receiver: wire log.
    ChannelLogs,
    /// In marking, equal tags, unmarked late receiver: no log.
    LatePlain,
    /// In marking, other tag, unmarked late receiver: it is marked first, and the
    /// message is its first anti-message.
    MessageMarksLate,
    /// In marking, equal tags, late receiver between mark and copy: anti-message.
    AntiLogs,
    /// In marking, other tag, late receiver between mark and copy: wire log, then
    /// anti-message.
    BothLogs,
}

impl Rule {
    /// Whether a message goes into the wire log.
    fn in_channel_log(self) -> bool {
        matches!(self, Rule::ChannelLogs | Rule::BothLogs)
    }

    /// Whether a message goes into the receiver's board log, as it is or as an
    /// anti-message.
    fn in_message_log(self) -> bool {
        let anti_message = matches!(self, Rule::MessageMarksLate | Rule::AntiLogs | Rule::BothLogs);
        anti_message || matches!(self, Rule::CopiedLogs | Rule::UnmarkedLogs)
    }

    /// The stores that an accepted receive makes, by the cells of a board log's
    /// entry.
    pub fn stores(self, entry: usize) -> usize {
        let in_message_log = if self.in_message_log() { entry + 1 } else { 0 };
        2 * usize::from(self.in_channel_log()) + in_message_log
    }
}

impl State {
    pub fn receive(&mut self, channel: usize, power: &mut Power) -> Result<Outcome, Stop> {
        let (_, to) = self.ends(channel)?;
        let rule = self.rule(channel).ok_or(Stop::Refused(10))?;
        require(rule != Rule::MarkerOnClosed, 14)?;
        if let Entry::Message { body, .. } = self.channels[channel][0] {
            self.log(rule, channel, body, power)?;
        }
        if let Rule::MarkerMarks | Rule::MessageMarks | Rule::MessageMarksLate = rule {
            self.mark(to);
        }
        match self.channels[channel].pop_front() {
            Some(Entry::Message { body, .. }) => {
                self.words[to] = self.form.taken(self.words[to], channel as u32, body);
                Ok(Outcome::Took(body))
            }
            _ => {
                self.closed[channel] |= self.phase == Phase::Logical;
                Ok(Outcome::Marker)
            }
        }
    }

    /// The rule that a receive on this planned channel falls under; none where
    /// the channel is empty.
    pub fn rule(&self, channel: usize) -> Option<Rule> {
        let (_, to) = self.topology.channels[channel];
        let first = self.channels[channel].front()?;
        Some(match (self.phase, *first) {
            (Phase::Logical, Entry::Marker) if self.closed[channel] => Rule::MarkerOnClosed,
            (Phase::Logical, Entry::Marker) if self.marked[to] => Rule::MarkerCloses,
            (Phase::Logical, Entry::Marker) => Rule::MarkerMarks,
            (_, Entry::Marker) => Rule::MarkerDropped,
            (Phase::Logical, Entry::Message { tag, .. }) => self.marking_rule(to, tag),
            (Phase::Physical { next }, _) if to < next && !self.late(to) => Rule::CopiedLogs,
            _ => Rule::Plain,
        })
    }

    /// That of a message with this tag in marking. A late receiver that is saved
    /// is in an early one's place.
    fn marking_rule(&self, to: usize, tag: bool) -> Rule {
        let undone = self.late(to) && !self.saved[to];
        match (tag == self.tags[to], self.marked[to]) {
            (true, false) if self.late(to) => Rule::LatePlain,
            (true, false) => Rule::UnmarkedLogs,
            (true, true) if undone => Rule::AntiLogs,
            (true, true) => Rule::MarkedPlain,
            (false, false) if undone => Rule::MessageMarksLate,
            (false, false) => Rule::MessageMarks,
            (false, true) if undone => Rule::BothLogs,
            (false, true) => Rule::ChannelLogs,
        }
    }

    /// Logs a message where the rule says so: 11 where a log needed is full, or
    /// the entry's stores, then the raised count, of the wire log first. The
    /// state's counts stay until both logs have theirs.
    fn log(
        &mut self,
        rule: Rule,
        channel: usize,
        body: u32,
        power: &mut Power,
    ) -> Result<(), Stop> {
        let (_, to) = self.topology.channels[channel];
        let line = self.line.wrapping_add(1);
        let (in_channel_log, in_message_log) = (rule.in_channel_log(), rule.in_message_log());
        require(!in_channel_log || self.channel_counts[channel] < CHANNEL_LOG, 11)?;
        require(!in_message_log || self.message_counts[to] < MESSAGE_LOG, 11)?;
        if in_channel_log {
            let log = self.form.channel_log(line, channel);
            power.append(log, self.channel_counts[channel], &[body])?;
        }
        if in_message_log {
            let entry = self.form.logged(channel as u32, body);
            power.append(self.form.message_log(line, to), self.message_counts[to], &entry)?;
        }
        self.channel_counts[channel] += usize::from(in_channel_log);
        self.message_counts[to] += usize::from(in_message_log);
        Ok(())
    }
}

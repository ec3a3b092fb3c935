//! The two forms of the store. The old one is document 01's; the new one is
//! M-101's, whose message logs hold each message's channel too, and with M-105 a
//! late process's anti-messages. With a form goes the rule by which a take makes
//! the word.

/// A form, by its numbers of cells.
#[derive(Clone, Copy, Debug, PartialEq, Eq)]
pub struct Form {
    /// The store's that are used; those beyond are never touched.
    pub cells: usize,
    /// A slot's (document 01: half).
    slot: usize,
    /// A process record's: checkpoint, count, 64 entries.
    process: usize,
    /// Those of a slot before its channel records.
    before_channels: usize,
    /// A message log entry's: body, and in the new form channel.
    pub entry: usize,
    /// Whether the logs of late processes are anti-messages (M-105). The heads
    /// with the old form know of no late processes.
    pub anti_messages: bool,
}

pub const OLD: Form = Form {
    cells: 3265,
    slot: 1632,
    process: 66,
    before_channels: 1056,
    entry: 1,
    anti_messages: false,
};
pub const NEW: Form = Form {
    cells: 5313,
    slot: 2656,
    process: 130,
    before_channels: 2080,
    entry: 2,
    anti_messages: true,
};

/// Times 31 it is 1, modulo 2^32 (M-105).
const INVERSE: u32 = 3_186_588_639;

/// 31 × word + number, modulo 2^32.
fn folded(word: u32, number: u32) -> u32 {
    word.wrapping_mul(31).wrapping_add(number)
}

/// The word that a number was folded into.
fn unfolded(word: u32, number: u32) -> u32 {
    word.wrapping_sub(number).wrapping_mul(INVERSE)
}

impl Form {
    /// First cell of the slot for a recovery line.
    fn slot_for(self, line: u32) -> usize {
        1 + self.slot * (line % 2) as usize
    }

    /// The cell of a process's physical checkpoint (document 01: copy).
    pub fn physical_checkpoint(self, line: u32, process: usize) -> usize {
        self.slot_for(line) + self.process * process
    }

    /// The cell of a message log's count; its entries stand in the cells after
    /// it.
    pub fn message_log(self, line: u32, process: usize) -> usize {
        self.physical_checkpoint(line, process) + 1
    }

    /// The cell of a channel log's count; its entries, a body each, stand in the
    /// cells after it.
    pub fn channel_log(self, line: u32, channel: usize) -> usize {
        self.slot_for(line) + self.before_channels + 9 * channel
    }

    /// Taking a body from a channel: document 01's rule, or that of M-101, by
    /// which the channel enters the word first.
    pub fn taken(self, word: u32, channel: u32, body: u32) -> u32 {
        if self == OLD {
            folded(word, body)
        } else {
            folded(folded(word, channel), body)
        }
    }

    /// What a message log stores of a message, a cell each.
    pub fn logged(self, channel: u32, body: u32) -> Vec<u32> {
        if self == OLD {
            vec![body]
        } else {
            vec![body, channel]
        }
    }

    /// Taking what a message log has stored. An old entry names no channel, and
    /// by the old rule none enters the word.
    pub fn replayed(self, word: u32, entry: &[u32]) -> u32 {
        match *entry {
            [body, channel] => self.taken(word, channel, body),
            _ => self.taken(word, 0, entry[0]),
        }
    }

    /// The word before a body was taken from a channel, by M-101's rule: an
    /// anti-message undone. Only the new form has them.
    pub fn undone(self, word: u32, entry: &[u32]) -> u32 {
        let [body, channel] = *entry else {
            unreachable!("an anti-message has a body and a wire");
        };
        unfolded(unfolded(word, body), channel)
    }
}

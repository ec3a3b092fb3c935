//! The types that both Rust programs share: those of crates/model, laid out as Rattle lays them out, but that a channel
//! keeps its own length, as one would write it.

pub const PROCESSES: usize = 16;
pub const CHANNELS: usize = 64;
pub const ROOM: usize = 8;

/// Bit p of `late` stands where process p is late.
#[repr(C)]
#[derive(Clone, Copy)]
pub struct Topology {
    pub processes: u8,
    pub channels: u8,
    pub from: [u8; CHANNELS],
    pub to: [u8; CHANNELS],
    pub late: u16,
}

#[derive(Clone, Copy, PartialEq)]
pub enum Phase {
    Idle,
    Physical(u8),
    Logical,
}

#[repr(C)]
#[derive(Clone, Copy)]
pub struct Round {
    pub line: u32,
    pub phase: Phase,
}

#[derive(Clone, Copy, PartialEq)]
pub enum Entry {
    Message { body: u32, tag: bool },
    Marker,
}

/// Kind 0 is a message tagged 0, kind 1 a message tagged 1, any other kind a marker.
#[repr(C)]
#[derive(Clone, Copy)]
pub struct Channel {
    pub bodies: [u32; ROOM],
    pub kinds: [u8; ROOM],
    pub count: u8,
}

#[repr(C)]
#[derive(Clone, Copy)]
pub struct Flags {
    pub logical: [bool; PROCESSES],
    pub saved: [bool; PROCESSES],
    pub closed: [bool; CHANNELS],
    pub sent: [bool; CHANNELS],
}

#[repr(C)]
#[derive(Clone, Copy)]
pub struct Counts {
    pub messages: [u8; PROCESSES],
    pub channels: [u8; CHANNELS],
}

#[repr(C)]
#[derive(Clone, Copy)]
pub struct State {
    pub topology: Topology,
    pub round: Round,
    pub words: [u32; PROCESSES],
    pub tags: [bool; PROCESSES],
    pub channels: [Channel; CHANNELS],
    pub flags: Flags,
    pub counts: Counts,
}

#[derive(Clone, Copy)]
pub enum Step {
    Send { channel: u8, body: u32 },
    Receive { channel: u8 },
    Begin,
    PhysicalCheckpoint { process: u8 },
    LogicalCheckpoint { process: u8 },
    SendMarker { channel: u8 },
    Commit,
    Abort,
}

#[derive(Clone, Copy)]
pub enum Record {
    Call(Step),
    Recover,
}

/// The refusals of documents 01 and 02, by their numbers.
#[derive(Clone, Copy, PartialEq)]
pub enum Refusal {
    ProcessCount = 1,
    ChannelCount,
    UnknownEnd,
    SelfChannel,
    DoubledChannel,
    ShortStore,
    Malformed,
    NoSuch,
    ChannelFull,
    ChannelEmpty,
    LogFull,
    NotNow,
    LastLine,
    MarkerOnClosed,
    Unsound,
    BadCount,
    NothingRefused,
    LongList,
    UnknownLate,
}

#[derive(Clone, Copy)]
pub enum Outcome {
    Done,
    Sent(u8),
    Received(u32),
    ReceivedMarker,
    Refused(Refusal),
    PowerLost,
}

pub const EMPTY: Channel = Channel { bodies: [0; ROOM], kinds: [0; ROOM], count: 0 };

pub const NO_FLAGS: Flags = Flags {
    logical: [false; PROCESSES],
    saved: [false; PROCESSES],
    closed: [false; CHANNELS],
    sent: [false; CHANNELS],
};

pub const NO_COUNTS: Counts = Counts { messages: [0; PROCESSES], channels: [0; CHANNELS] };

impl Topology {
    /// So many processes, none late, and channels, each with both ends at process 0.
    pub fn sized(processes: u8, channels: u8) -> Topology {
        Topology { processes, channels, from: [0; CHANNELS], to: [0; CHANNELS], late: 0 }
    }

    pub fn is_late(&self, process: usize) -> bool {
        self.late >> process & 1 == 1
    }

    /// The first process from this one on that isn't late.
    pub fn next_early(&self, from: u8) -> Option<u8> {
        (from..self.processes).find(|&p| !self.is_late(p as usize))
    }
}

impl State {
    /// The idle state at a line: no progress, no log counts, words and tags 0, channels empty.
    pub fn idle(topology: Topology, line: u32) -> State {
        State {
            topology,
            round: Round { line, phase: Phase::Idle },
            words: [0; PROCESSES],
            tags: [false; PROCESSES],
            channels: [EMPTY; CHANNELS],
            flags: NO_FLAGS,
            counts: NO_COUNTS,
        }
    }
}

//! What a run must see, in the words of the documents.

use crate::plans;
use crate::seen::{Sight, AS_LONG, LONGER};
use crate::sights;
use reference::program::Program;

/// Takes, by document 01's rules.
pub const PLAIN: &str = "idle, no log";
pub const PLAIN_COPYING: &str = "copying, receiver not copied, no log";
pub const COPIED_LOGS: &str = "copying, board log";
pub const MARKER_MARKS: &str = "marking, note marks the receiver";
pub const MARKER_CLOSES: &str = "marking, note on a marked receiver";
pub const MESSAGE_MARKS: &str = "marking, message marks first";
pub const UNMARKED_LOGS: &str = "marking, equal tags, board log";
pub const MARKED_PLAIN: &str = "marking, equal tags, no log";
pub const CHANNEL_LOGS: &str = "marking, different tag, wire log";

/// Takes of late boards (M-105).
pub const PASSED_OVER: &str = "copying, late receiver passed over, no log";
pub const LATE_PLAIN: &str = "marking, equal tags, late receiver before its mark, no log";
pub const MARKER_MARKS_LATE: &str = "marking, note marks a late receiver";
pub const MESSAGE_MARKS_LATE: &str = "marking, message marks a late receiver, anti-message";
pub const ANTI_LOGS: &str = "marking, equal tags, between mark and copy, anti-message";
pub const BOTH_LOGS: &str = "marking, different tag, between mark and copy, two logs";
pub const SAVED_PLAIN: &str = "marking, equal tags, late receiver after its copy, no log";
pub const SAVED_LOGS: &str = "marking, different tag, late receiver after its copy, wire log";

/// What keeps a message out of two logs.
pub const FULL_WIRE_LOG: &str = "two logs needed, the wire log full";
pub const FULL_BOARD_LOG: &str = "two logs needed, the board log full";
pub const FULL_LOGS: &str = "two logs needed, both full";

/// Takes that log, and the stores that each makes.
const LOGS: [(&str, u64); 7] = [
    (COPIED_LOGS, 3),
    (UNMARKED_LOGS, 3),
    (CHANNEL_LOGS, 2),
    (MESSAGE_MARKS_LATE, 3),
    (ANTI_LOGS, 3),
    (BOTH_LOGS, 5),
    (SAVED_LOGS, 2),
];

/// Takes that find a log full. The log of a board that a take marks is empty.
const FULL: [&str; 8] = [
    COPIED_LOGS,
    UNMARKED_LOGS,
    CHANNEL_LOGS,
    ANTI_LOGS,
    SAVED_LOGS,
    FULL_WIRE_LOG,
    FULL_BOARD_LOG,
    FULL_LOGS,
];

/// Other steps of plans with late boards.
pub const BEGIN_LATE: &str = "begin, board 0 late";
pub const BEGIN_ALL_LATE: &str = "begin, all boards late";
pub const COPY_BEFORE_LATE: &str = "copy, late boards passed over after it";
pub const LAST_EARLY_COPY: &str = "copy of the last early board, late ones after it";
pub const LATE_COPY: &str = "copy of a late board";
pub const LATE_MARK: &str = "mark of a late board";
pub const FINISH_LATE: &str = "finish, some boards late";
pub const FINISH_ALL_LATE: &str = "finish, all boards late";
pub const SAVED_GIVE_UP: &str = "give up, a late board copied";

/// Takes into two logs after a cut one of the same message, by the stores that
/// were made: in the same way, or once the receiver is copied.
pub const AGAIN: &str = "taken again after a cut";
pub const AFTER_COPY: &str = "taken after a cut and the copy";

/// Equal bodies one after the other in a board log, by their wires (M-101).
pub const LOWER_FIRST: &str = "equal bodies, from the lower wire first";
pub const HIGHER_FIRST: &str = "equal bodies, from the higher wire first";

/// Anti-messages that a restart undoes.
pub const UNDONE: &str = "anti-messages";
pub const UNDONE_64: &str = "64 anti-messages";
pub const UNDONE_IN_ORDER: &str = "anti-messages that make another word in another order";
pub const UNDONE_BESIDE: &str = "anti-messages, and bodies of theirs in a wire log";
pub const UNDONE_MARKING: &str = "an anti-message of the take that marked its board";

/// Logs that a finish leaves behind.
pub const FULL_BEHIND: [&str; 3] = ["board log of 64", UNDONE_64, "wire log of 8"];

/// Sends, by what is on the wire (M-104).
pub const NO_NOTE: &str = "no note on the wire";
pub const BESIDE_NOTE: &str = "a note on the wire";
/// Those of a part that `console` prints.
pub const IN_A_PART: &str = "in a part";

/// What 12 was the answer to.
pub const TWELVES: [&str; 19] = [
    "begin in a round",
    "copy when idle",
    "copy out of order",
    "copy of an early board in marking",
    "copy of a late board when idle",
    "copy of a late board in copying",
    "copy of a late board before its mark",
    "copy of a late board twice",
    "mark outside marking",
    "mark twice",
    "mark before board 0",
    "note outside marking",
    "note before the mark",
    "note twice",
    "finish outside marking",
    "finish, board unmarked",
    "finish, wire open",
    "finish, late board not copied",
    "give up when idle",
];

/// Lists for the slow head (M-106), by their calls.
pub const LENGTHS: [(usize, &str); 4] =
    [(0, "no call"), (1, "1 call"), (256, "256 calls"), (257, "257 calls")];
pub const TOO_LONG: Sight = ("refused", "over 256 calls", 18);
/// How rounds and restarts follow each other in such a list.
pub const ROUNDS: [&str; 4] = [
    "one given up, a later one finished",
    "one finished, a later one given up",
    "three restarts or more",
    "two restarts at different lines",
];

/// Everything that a run must see.
pub fn required(program: Program) -> Vec<Sight> {
    let asked = match program {
        Program::Head => [refusals(), calls()].concat(),
        Program::Drill => [refusals(), calls(), cuts()].concat(),
        Program::Console => [refusals(), reductions(), sights::required()].concat(),
        Program::Converter => [nothing(), sights::required()].concat(),
        Program::Slow => [refusals(), calls(), slow()].concat(),
    };
    [vec![AS_LONG, LONGER], asked].concat()
}

/// Every refusal of a plan, of bytes, and of a call; for `console` the call is
/// the first refused one of a list.
fn refusals() -> Vec<Sight> {
    let mut sights = plans::required("plan refused");
    sights.push(("refused", "record", 7));
    sights.extend(["send", "take", "copy", "mark", "note"].map(|what| ("refused", what, 8)));
    sights.extend(["send", "note"].map(|what| ("refused", what, 9)));
    sights.push(("refused", "take", 10));
    sights.extend(FULL.map(|what| ("refused", what, 11)));
    sights.extend(TWELVES.map(|what| ("refused", what, 12)));
    sights
}

/// What accepted calls come to.
fn calls() -> Vec<Sight> {
    let plain = [PLAIN, PLAIN_COPYING, MARKER_MARKS, MARKER_CLOSES, MESSAGE_MARKS, MARKED_PLAIN];
    let late = [PASSED_OVER, LATE_PLAIN, MARKER_MARKS_LATE, SAVED_PLAIN];
    let mut sights = plain.map(|what| ("take", what, 0)).to_vec();
    sights.extend(late.map(|what| ("take", what, 0)));
    sights.extend(LOGS.map(|(what, _)| ("take", what, 0)));
    let done = ["begin", "copy", "mark", "note", "finish", "give up"];
    sights.extend(done.map(|what| ("done", what, 0)));
    sights.extend([BEGIN_LATE, BEGIN_ALL_LATE].map(|what| ("done", what, 0)));
    sights.extend([COPY_BEFORE_LATE, LAST_EARLY_COPY, LATE_COPY].map(|what| ("done", what, 0)));
    sights.extend([LATE_MARK, FINISH_LATE, FINISH_ALL_LATE].map(|what| ("done", what, 0)));
    sights.push(("done", SAVED_GIVE_UP, 0));
    sights.extend((0..8).map(|room| ("sent", NO_NOTE, room)));
    sights.extend((0..7).map(|room| ("sent", BESIDE_NOTE, room)));
    sights.extend(["tenth line", "tags 1 at begin"].map(|what| ("round", what, 0)));
    [sights, restarts()].concat()
}

/// Restarts, by what they interrupt and by what they find.
fn restarts() -> Vec<Sight> {
    let phases = ["idle", "copying", "marking", "a late board marked, not copied"];
    let mut sights = phases.map(|what| ("restart", what, 0)).to_vec();
    sights.extend(FULL_BEHIND.map(|what| ("finish with", what, 0)));
    sights.extend(FULL_BEHIND.map(|what| ("restart from", what, 0)));
    sights.extend([LOWER_FIRST, HIGHER_FIRST].map(|what| ("restart from", what, 0)));
    let undone = [UNDONE, UNDONE_IN_ORDER, UNDONE_BESIDE, UNDONE_MARKING];
    sights.extend(undone.map(|what| ("restart from", what, 0)));
    sights
}

/// Lost power, and what comes after it.
fn cuts() -> Vec<Sight> {
    let mut sights: Vec<Sight> = (0..80).map(|stores| ("cut", "begin", stores)).collect();
    sights.extend((0..80).map(|stores| ("cut", BEGIN_ALL_LATE, stores)));
    sights.extend(["copy", LATE_COPY, "finish", FINISH_LATE].map(|what| ("cut", what, 0)));
    for (log, needed) in LOGS {
        sights.extend((0..needed).map(|stores| ("cut", log, stores)));
    }
    sights.extend(["restart", "another call"].map(|what| ("after a cut", what, 0)));
    for group in [AGAIN, AFTER_COPY] {
        sights.extend((0..5).map(|stores| (group, BOTH_LOGS, stores)));
    }
    sights
}

/// The other lines of `console`, and parts of every size that a list can force.
fn reductions() -> Vec<Sight> {
    let sevens = ["no input", "nothing known is asked", "record, after 256"];
    let mut sights = sevens.map(|what| ("refused", what, 7)).to_vec();
    sights.extend([("refused", "no call is refused", 17), TOO_LONG]);
    let sizes = ["1 call", "2 calls", "9 to 31 calls", "32 to 127 calls", "128 calls or more"];
    sights.extend(sizes.map(|what| ("part of", what, 0)));
    let kept = ["2 of 256 calls", "all of more than 100 calls"];
    sights.extend(kept.map(|what| ("kept", what, 0)));
    let places = ["the 256th call", "a call before the last"];
    sights.extend(places.map(|what| ("refused at", what, 0)));
    sights.extend((0..8).map(|room| ("sent", IN_A_PART, room)));
    sights
}

/// What the slow head's lists are like.
fn slow() -> Vec<Sight> {
    let mut sights = LENGTHS.map(|(_, what)| ("list of", what, 0)).to_vec();
    sights.push(TOO_LONG);
    sights.extend(ROUNDS.map(|what| ("rounds", what, 0)));
    sights
}

/// Inputs that ask `converter` nothing known.
fn nothing() -> Vec<Sight> {
    ["no input", "another first byte"].map(|what| ("nothing asked", what, 0)).to_vec()
}

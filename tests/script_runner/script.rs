//! The scripts' text. `case` and a name open a case. Each further line is a call in document 01's words, with the
//! expected answer after " = ", or with none where it has only to be accepted:
//!
//!     send WIRE BODY · take WIRE · begin · copy BOARD · mark BOARD · note WIRE · finish · give up · restart
//!     setup             a new run, with the plan
//!     record BYTE ..    the call of a record, in hexadecimal
//!     deliver N         N messages sent on wire 0 and taken, with the bodies 0, 1, ..
//!
//! or says what holds for the calls after it:
//!
//!     plan BOARDS FROM>TO ..     sizes BOARDS WIRES, all ends 0     largest: 16 boards, 64 wires
//!     plan BOARDS FROM>TO .. late BOARD ..     with late boards (M-105); in all others none is late
//!     plan bytes BYTE ..     a plan as it is read, in hexadecimal, whole or broken off
//!     current STORES    how many stores the current lasts for in each call; at first more than any needs
//!
//! or is a question:
//!
//!     board BOARD · wire WIRE · cell CELL     as the programs print them; a cell not yet stored to is `rubbish`
//!     round             the phase, and the last line finished
//!     part              what `console` keeps of the calls so far: their numbers and the refusal, or its line instead
//!     rooms             what the sends among these answer (M-104)
//!     slow              how many lines the slow head prints for the calls so far (M-106); a line alone as it is

use reference::record::{self, Record};
use reference::steps::Step;

pub enum Command {
    Plan(Vec<u8>),
    Current(u32),
    Setup,
    /// A record's bytes.
    Call(Vec<u8>),
    Deliver(u32),
    Board(usize),
    Wire(usize),
    Cell(usize),
    Round,
    Part,
    Rooms,
    Slow,
}

pub struct Line {
    pub number: usize,
    pub text: String,
    pub command: Command,
    pub expected: Option<String>,
}

pub struct Case {
    pub name: String,
    pub lines: Vec<Line>,
}

impl Case {
    pub fn limits_current(&self) -> bool {
        self.lines.iter().any(|line| matches!(line.command, Command::Current(_)))
    }
}

/// The cases of a file, or the first line that is none of the above.
pub fn read(file: &str, text: &str) -> Result<Vec<Case>, String> {
    let mut cases: Vec<Case> = Vec::new();
    for (at, line) in text.lines().enumerate() {
        let number = at + 1;
        let tell = |what: &str| format!("{file}:{number}: {what}: {line}");
        let text = line.split('#').next().unwrap_or("").trim();
        if let Some(name) = text.strip_prefix("case ") {
            cases.push(Case { name: name.to_string(), lines: Vec::new() });
        } else if !text.is_empty() {
            let case = cases.last_mut().ok_or(tell("no case yet"))?;
            case.lines.push(read_line(number, text).ok_or(tell("not a line of a script"))?);
        }
    }
    match cases.iter().find(|case| case.lines.iter().all(|line| line.expected.is_none())) {
        Some(case) => Err(format!("{file}: nothing is expected in: {}", case.name)),
        None => Ok(cases),
    }
}

fn read_line(number: usize, text: &str) -> Option<Line> {
    let (command, expected) = match text.split_once(" = ") {
        Some((command, expected)) => (command, Some(expected.trim().to_string())),
        None => (text, None),
    };
    let command = read_command(command)?;
    let expected = match (&command, expected) {
        (Command::Plan(_) | Command::Current(_) | Command::Deliver(_), Some(_)) => return None,
        (Command::Board(_) | Command::Wire(_) | Command::Round, None)
        | (Command::Part | Command::Rooms | Command::Slow, None) => return None,
        (Command::Cell(cell), Some(value)) if value == "rubbish" => Some(rubbish(*cell)),
        (Command::Cell(_), None) => return None,
        (_, expected) => expected,
    };
    Some(Line { number, text: text.to_string(), command, expected })
}

/// What a cell of `drill`'s store holds at first.
pub fn rubbish(cell: usize) -> String {
    (cell as u32).wrapping_mul(2_654_435_761).to_string()
}

fn read_command(text: &str) -> Option<Command> {
    let words: Vec<&str> = text.split_whitespace().collect();
    let (&word, rest) = words.split_first()?;
    if let ("record", false) = (word, rest.is_empty()) {
        return Some(Command::Call(read_bytes(rest)?));
    }
    if let ("plan", ["bytes", bytes @ ..]) = (word, rest) {
        return Some(Command::Plan(read_bytes(bytes)?));
    }
    if word == "plan" {
        return read_plan(rest);
    }
    let numbers: Option<Vec<usize>> = rest.iter().map(|number| number.parse().ok()).collect();
    Some(match (word, numbers.as_deref()) {
        ("give", None) if rest == ["up"] => call(Step::Abort),
        ("send", Some(&[channel, body])) => {
            call(Step::Send { channel, body: body.try_into().ok()? })
        }
        ("take", Some(&[channel])) => call(Step::Receive { channel }),
        ("begin", Some([])) => call(Step::Begin),
        ("copy", Some(&[process])) => call(Step::PhysicalCheckpoint { process }),
        ("mark", Some(&[process])) => call(Step::LogicalCheckpoint { process }),
        ("note", Some(&[channel])) => call(Step::SendMarker { channel }),
        ("finish", Some([])) => call(Step::Commit),
        ("restart", Some([])) => Command::Call(record::write(Record::Recover)),
        ("setup", Some([])) => Command::Setup,
        ("deliver", Some(&[n])) => Command::Deliver(n.try_into().ok()?),
        ("sizes", Some(&[boards, wires])) => Command::Plan(plan(boards, vec![(0, 0); wires], 0)?),
        ("largest", Some([])) => Command::Plan(plan(16, (0..64).map(largest).collect(), 0)?),
        ("current", Some(&[stores])) => Command::Current(stores.try_into().ok()?),
        ("board", Some(&[board])) => Command::Board(board),
        ("wire", Some(&[wire])) => Command::Wire(wire),
        ("cell", Some(&[cell])) => Command::Cell(cell),
        ("round", Some([])) => Command::Round,
        ("part", Some([])) => Command::Part,
        ("rooms", Some([])) => Command::Rooms,
        ("slow", Some([])) => Command::Slow,
        _ => return None,
    })
}

fn call(step: Step) -> Command {
    Command::Call(record::write(Record::Step(step)))
}

/// From each board to the four after it.
fn largest(wire: usize) -> (usize, usize) {
    (wire % 16, (wire + 1 + wire / 16) % 16)
}

fn read_bytes(words: &[&str]) -> Option<Vec<u8>> {
    words.iter().map(|byte| u8::from_str_radix(byte, 16).ok()).collect()
}

fn read_plan(words: &[&str]) -> Option<Command> {
    let (boards, rest) = words.split_first()?;
    let mut parts = rest.splitn(2, |word| *word == "late");
    let ends = parts.next()?;
    let late = read_late(parts.next())?;
    let wires = ends.iter().map(|end| {
        let (from, to) = end.split_once('>')?;
        Some((from.parse().ok()?, to.parse().ok()?))
    });
    Some(Command::Plan(plan(boards.parse().ok()?, wires.collect::<Option<_>>()?, late)?))
}

/// The map of the boards that are named; a word that isn't one of 16 has none.
fn read_late(boards: Option<&[&str]>) -> Option<u16> {
    boards.unwrap_or_default().iter().try_fold(0, |map, board| {
        let board: u32 = board.parse().ok()?;
        Some(map | 1_u16.checked_shl(board)?)
    })
}

/// A plan's bytes; none where a number takes more than one.
fn plan(boards: usize, wires: Vec<(usize, usize)>, late: u16) -> Option<Vec<u8>> {
    let mut bytes = vec![u8::try_from(boards).ok()?, u8::try_from(wires.len()).ok()?];
    for (from, to) in wires {
        bytes.extend([u8::try_from(from).ok()?, u8::try_from(to).ok()?]);
    }
    bytes.extend(late.to_le_bytes());
    Some(bytes)
}

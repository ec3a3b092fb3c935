//! A script on one side: each call is the last of an input that a program is run on, and its answer the last of the
//! program's numbered lines; a question is answered by what the program prints at its end. `console` is asked of all
//! calls so far, and answers nothing else. The slow head has a file of its own.

use crate::script::{rubbish, Case, Command, Line};
use crate::slow;
use reference::console::REDUCE;
use reference::program::Program;
use reference::record::{self, Record};
use reference::steps::Step;
use reference::topology::Topology;

/// A program and how it is run: from the input's bytes to what it prints.
pub struct Side<'a> {
    pub name: &'static str,
    pub program: Program,
    pub run: &'a dyn Fn(&[u8]) -> Result<String, String>,
}

struct Play<'a> {
    side: &'a Side<'a>,
    plan: Vec<u8>,
    current: u32,
    /// The calls so far: the input, how many they are, and what is printed for it.
    input: Vec<u8>,
    calls: usize,
    output: String,
}

/// Plays a case; the line that isn't answered as expected, and why.
pub fn play(case: &Case, side: &Side) -> Result<(), (usize, String)> {
    if side.program == Program::Slow {
        return slow::play(case, side);
    }
    let mut play = Play {
        side,
        plan: Vec::new(),
        current: u32::MAX,
        input: Vec::new(),
        calls: 0,
        output: String::new(),
    };
    for line in &case.lines {
        play.line(line)
            .map_err(|why| (line.number, format!("{}: {}: {why}", side.name, line.text)))?;
    }
    Ok(())
}

/// What stands after some first words of a line.
pub fn after<'a>(text: &'a str, words: &str) -> Option<&'a str> {
    text.lines().find_map(|line| line.strip_prefix(words)?.strip_prefix(' '))
}

/// The lines after the calls' lines, which begin with one of these words.
fn ending<'a>(text: &'a str, words: &[&str]) -> Vec<&'a str> {
    let ends = |line: &&str| words.iter().any(|word| line.starts_with(word));
    text.lines().filter(ends).collect()
}

fn accepted(answer: &str) -> bool {
    !answer.starts_with("refused") && !answer.starts_with("cut")
}

/// Why an answer isn't the one that a line expects.
pub fn check(line: &Line, answer: &str) -> Result<(), String> {
    match &line.expected {
        Some(expected) if expected != answer => Err(format!("but: {answer}")),
        None if !accepted(answer) => Err(format!("to be accepted, but: {answer}")),
        _ => Ok(()),
    }
}

/// The records of messages that are sent on wire 0 and taken.
pub fn messages(n: u32) -> impl Iterator<Item = Vec<u8>> {
    let message = |body| [Step::Send { channel: 0, body }, Step::Receive { channel: 0 }];
    (0..n).flat_map(message).map(|step| record::write(Record::Step(step)))
}

/// What stands in the lines of `console` after the calls' bytes, but for what sends say; a line alone as it is.
fn kept(text: &str) -> String {
    let call = |line: &'_ str| Some(line.split_once(" # ")?.1.split(" sent").next()?.to_string());
    let calls: Vec<String> = text.lines().filter_map(call).collect();
    if calls.is_empty() {
        text.trim_end().to_string()
    } else {
        calls.join(" ")
    }
}

/// What the sends in those lines say.
fn rooms(text: &str) -> String {
    let sends: Vec<&str> =
        text.lines().filter_map(|line| Some(line.split_once(" sent ")?.1)).collect();
    sends.join(" ")
}

/// The wires emptied, and a round from begin to finish, in which late boards copy once all are marked.
fn whole_round(topology: &Topology) -> Vec<Step> {
    let (boards, wires) = (0..topology.processes, 0..topology.channels.len());
    let copies = |late| {
        let boards = boards.clone().filter(move |&p| topology.is_late(p) == late);
        boards.map(|process| Step::PhysicalCheckpoint { process })
    };
    let mut steps: Vec<Step> =
        wires.clone().flat_map(|channel| [Step::Receive { channel }; 8]).collect();
    steps.push(Step::Begin);
    steps.extend(copies(false));
    steps.extend(boards.clone().map(|process| Step::LogicalCheckpoint { process }));
    steps.extend(copies(true));
    steps.extend(wires.clone().map(|channel| Step::SendMarker { channel }));
    steps.extend(wires.map(|channel| Step::Receive { channel }));
    steps.push(Step::Commit);
    steps
}

impl Play<'_> {
    fn line(&mut self, line: &Line) -> Result<(), String> {
        let Some(answer) = self.answer(&line.command)? else {
            return Ok(());
        };
        check(line, &answer)
    }

    /// The answer; none where a line has none, or where this side doesn't show it.
    fn answer(&mut self, command: &Command) -> Result<Option<String>, String> {
        let drill = self.side.program == Program::Drill;
        let shown = |words: String| after(&self.output, &words).map(str::to_string);
        let missing = || "not printed".to_string();
        match command {
            Command::Plan(bytes) => self.plan = bytes.clone(),
            Command::Current(stores) => self.current = *stores,
            _ if self.side.program == Program::Console => return self.question(command),
            Command::Setup => return self.setup().map(Some),
            Command::Call(bytes) => return self.call(bytes).map(Some),
            Command::Deliver(n) => self.deliver(*n)?,
            Command::Board(board) => {
                return shown(format!("board {board}")).ok_or(missing()).map(Some)
            }
            Command::Wire(wire) => return shown(format!("wire {wire}")).ok_or(missing()).map(Some),
            Command::Cell(cell) if drill => {
                return Ok(Some(shown(format!("cell {cell}")).unwrap_or(rubbish(*cell))));
            }
            Command::Round if drill => return self.round().map(Some),
            Command::Cell(_) | Command::Round => (),
            Command::Part | Command::Rooms | Command::Slow => (),
        }
        Ok(None)
    }

    /// Adds calls to the question, or asks it.
    fn question(&mut self, command: &Command) -> Result<Option<String>, String> {
        match command {
            Command::Setup => self.input = [&[REDUCE], &self.plan[..]].concat(),
            Command::Call(bytes) => self.input.extend(bytes),
            Command::Deliver(n) => self.input.extend(messages(*n).flatten()),
            Command::Part => return (self.side.run)(&self.input).map(|text| Some(kept(&text))),
            Command::Rooms => return (self.side.run)(&self.input).map(|text| Some(rooms(&text))),
            _ => (),
        }
        Ok(None)
    }

    fn setup(&mut self) -> Result<String, String> {
        self.input = self.plan.clone();
        self.calls = 0;
        self.output = (self.side.run)(&self.input)?;
        let refused = after(&self.output, "plan refused");
        Ok(refused.map_or("ready".to_string(), |number| format!("refused {number}")))
    }

    /// The input with a further call.
    fn with(&self, input: &[u8], current: u32, bytes: &[u8]) -> Vec<u8> {
        let mut input = input.to_vec();
        if self.side.program == Program::Drill {
            input.extend(current.to_le_bytes());
        }
        input.extend(bytes);
        input
    }

    /// A call. A refused one may change nothing that is printed at the end, and one cut short no board and no wire.
    fn call(&mut self, bytes: &[u8]) -> Result<String, String> {
        let input = self.with(&self.input, self.current, bytes);
        let output = (self.side.run)(&input)?;
        let number = (self.calls + 1).to_string();
        let answer = after(&output, &number).ok_or("no line for it")?.to_string();
        let kept: &[&str] = match &answer {
            refused if refused.starts_with("refused") => &["board", "wire", "cell"],
            cut if cut.starts_with("cut") => &["board", "wire"],
            _ => &[],
        };
        if ending(&output, kept) != ending(&self.output, kept) {
            return Err(format!("{answer}, and a board, a wire or a cell has changed"));
        }
        // A 7 ends the reading, so what follows it in a script is read without it.
        if answer != "refused 7 0" {
            (self.input, self.output) = (input, output);
            self.calls += 1;
        }
        Ok(answer)
    }

    fn deliver(&mut self, n: u32) -> Result<(), String> {
        for bytes in messages(n) {
            let answer = self.call(&bytes)?;
            if !accepted(&answer) {
                return Err(format!("{bytes:02X?} to be accepted, but: {answer}"));
            }
        }
        Ok(())
    }

    /// What is printed, and the last call's answer, after further calls that are then forgotten.
    fn probe(&self, current: u32, steps: &[Step]) -> Result<(String, String), String> {
        let mut input = self.input.clone();
        for &step in steps {
            input = self.with(&input, current, &record::write(Record::Step(step)));
        }
        let output = (self.side.run)(&input)?;
        let number = (self.calls + steps.len()).to_string();
        let answer = after(&output, &number).ok_or("no line for it")?.to_string();
        Ok((output, answer))
    }

    /// The phase: without current a begin is cut only when idle, and an early board's copy only in copying. The last
    /// line finished: one less than cell 0 is after a whole round.
    fn round(&self) -> Result<String, String> {
        let (topology, _) = Topology::read(&self.plan).map_err(|number| number.to_string())?;
        let lost = |step| self.probe(0, &[step]).map(|(_, answer)| answer == "cut 0");
        let idle = lost(Step::Begin)?;
        let mut copying = false;
        for process in (0..topology.processes).filter(|&p| !topology.is_late(p)) {
            copying |= lost(Step::PhysicalCheckpoint { process })?;
        }
        let mut steps = if idle { vec![] } else { vec![Step::Abort] };
        steps.extend(whole_round(&topology));
        let (output, answer) = self.probe(u32::MAX, &steps)?;
        let line: u32 = after(&output, "cell 0").and_then(|k| k.parse().ok()).unwrap_or(0);
        if answer != "done 1" || line == 0 {
            return Err(format!("a round after it doesn't finish: {answer}"));
        }
        let phase = ["marking", "copying", "idle"][usize::from(copying) + 2 * usize::from(idle)];
        Ok(format!("{phase} {}", line - 1))
    }
}

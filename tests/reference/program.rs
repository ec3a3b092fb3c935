//! The programs `head` (document 01) and `drill` (issue 4, item 4): bytes in,
//! bytes out. `console`, its slow head and `converter` stand in files of their own.

use crate::console;
use crate::forms::NEW;
use crate::migrate;
use crate::record::{self, Record};
use crate::slow;
use crate::state::State;
use crate::steps::{Answer, Outcome};
use crate::topology::Topology;
use std::fmt::Write;
use std::io::{self, Read};

/// Bytes that a program takes: of standard input, or of what comes after the
/// byte that says what is asked.
pub const INPUT: usize = 65_536;

#[derive(Clone, Copy, Debug, PartialEq, Eq, PartialOrd, Ord)]
pub enum Program {
    /// Records alone; full power for every call.
    Head,
    /// Each record is preceded by its write budget, and the store is printed.
    Drill,
    /// A byte that says what is asked, then records alone; full power. Or a
    /// plan and a store, for one of the other form.
    Console,
    /// As `console` where it is asked for a store; its cells are printed as bytes.
    Converter,
    /// What `console` is asked by the byte 4, of the bytes after it: the slow head.
    Slow,
}

impl Program {
    /// Bytes of standard input that it takes in all.
    pub fn takes(self) -> usize {
        match self {
            Program::Head | Program::Drill | Program::Slow => INPUT,
            Program::Console | Program::Converter => 1 + INPUT,
        }
    }
}

/// Looks on while a program runs.
pub trait Watch {
    fn started(&mut self, _state: &State) {}
    fn unreadable(&mut self) {}
    fn before(&mut self, _state: &State, _record: Record) {}
    fn after(&mut self, _state: &State, _store: &[u32], _record: Record, _answer: Answer) {}
}

/// Watches nothing.
pub struct Unwatched;
impl Watch for Unwatched {}

/// What so many cells hold before a program writes to them.
pub fn rubbish(cells: usize) -> Vec<u32> {
    (0..cells as u32).map(|cell| cell.wrapping_mul(2_654_435_761)).collect()
}

/// A call's write budget, the record, and the bytes after it; or 7.
pub fn read_call(program: Program, bytes: &[u8]) -> Result<(u64, Record, &[u8]), u8> {
    let (budget, bytes) = match program {
        Program::Drill => {
            let (budget, bytes) = bytes.split_first_chunk::<4>().ok_or(7)?;
            (u64::from(u32::from_le_bytes(*budget)), bytes)
        }
        _ => (u64::MAX, bytes),
    };
    let (record, rest) = record::read(bytes)?;
    Ok((budget, record, rest))
}

/// One call: a step, or a recover, which keeps the state where it is refused.
pub fn call(state: &mut State, store: &mut [u32], record: Record, budget: u64) -> Answer {
    let step = match record {
        Record::Step(step) => step,
        Record::Recover => {
            let outcome = match State::recover(state.form, &state.topology, store) {
                Ok(recovered) => {
                    *state = recovered;
                    Outcome::Line(state.line)
                }
                Err(number) => Outcome::Refused(number),
            };
            return Answer { outcome, stores: 0 };
        }
    };
    state.step(step, store, budget)
}

/// The whole output for an input. Somebody looks on while `head` or `drill` runs.
pub fn run(program: Program, input: &[u8], watch: &mut dyn Watch) -> Vec<u8> {
    match program {
        Program::Head | Program::Drill => run_calls(program, input, watch).into_bytes(),
        Program::Console => console::run(input),
        Program::Converter => migrate::file(input),
        Program::Slow => slow::text(input).into_bytes(),
    }
}

fn run_calls(program: Program, input: &[u8], watch: &mut dyn Watch) -> String {
    let mut text = String::new();
    let input = &input[..input.len().min(INPUT)];
    let mut store = rubbish(NEW.cells);
    let started = Topology::read(input).and_then(|(topology, rest)| {
        State::initialize(NEW, &topology, &mut store).map(|state| (state, rest))
    });
    let (mut state, mut rest) = match started {
        Ok(started) => started,
        Err(number) => return format!("plan refused {number}\n"),
    };
    watch.started(&state);
    let mut number = 0;
    while !rest.is_empty() {
        number += 1;
        let Ok((budget, record, remaining)) = read_call(program, rest) else {
            watch.unreadable();
            print(&mut text, number, Answer { outcome: Outcome::Refused(7), stores: 0 });
            break;
        };
        rest = remaining;
        watch.before(&state, record);
        let answer = call(&mut state, &mut store, record, budget);
        watch.after(&state, &store, record, answer);
        print(&mut text, number, answer);
    }
    print_state(&mut text, &state);
    if program == Program::Drill {
        print_store(&mut text, &store);
    }
    text
}

/// One line: the call's number, its outcome and the stores made.
pub fn print(text: &mut String, number: u32, answer: Answer) {
    let outcome = match answer.outcome {
        Outcome::Done => "done".to_string(),
        Outcome::Sent(room) => format!("sent {room}"),
        Outcome::Took(body) => format!("took {body}"),
        Outcome::Marker => "note".to_string(),
        Outcome::Line(line) => format!("line {line}"),
        Outcome::Refused(refusal) => format!("refused {refusal}"),
        Outcome::PowerLost => "cut".to_string(),
    };
    let _ = writeln!(text, "{number} {outcome} {}", answer.stores);
}

fn print_state(text: &mut String, state: &State) {
    let channels = 0..state.topology.channels.len();
    let bodies: Vec<Vec<u32>> = channels.map(|c| state.bodies(c)).collect();
    print_end(text, &state.words[..state.topology.processes], &bodies);
}

/// Each process with its word; each channel with its messages, markers left out.
pub fn print_end(text: &mut String, words: &[u32], channels: &[Vec<u32>]) {
    for (p, word) in words.iter().enumerate() {
        let _ = writeln!(text, "board {p} {word}");
    }
    for (c, bodies) in channels.iter().enumerate() {
        let _ = write!(text, "wire {c} {}", bodies.len());
        for body in bodies {
            let _ = write!(text, " {body}");
        }
        text.push('\n');
    }
}

/// Each cell that differs from what it held before.
pub fn print_store(text: &mut String, store: &[u32]) {
    for (cell, (now, before)) in store.iter().zip(rubbish(store.len())).enumerate() {
        if *now != before {
            let _ = writeln!(text, "cell {cell} {now}");
        }
    }
}

/// The program itself: standard input to standard output.
pub fn main(program: Program) -> io::Result<()> {
    let mut input = Vec::new();
    io::stdin().lock().take(program.takes() as u64).read_to_end(&mut input)?;
    let output = run(program, &input, &mut Unwatched);
    io::Write::write_all(&mut io::stdout().lock(), &output)
}

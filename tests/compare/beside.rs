//! The slow head (M-106), `console` asked by the byte 4, beside `head`, `drill` at
//! full current and the reference, byte for byte: of a list of at most 256 calls
//! all print the same, and a longer one is `refused 18`.

use crate::binaries::{Binaries, Failure};
use crate::directed::{LISTING, LISTING_OUTPUT};
use crate::plans;
use crate::runner;
use crate::seen::Seen;
use crate::wanted;
use crate::watcher::Watcher;
use reference::console::{refused, SLOW};
use reference::program::{self, Program, Unwatched, Watch, INPUT};
use reference::record::{self, Record};
use reference::reduce::MOST;
use reference::state::State;
use reference::steps::{Answer, Outcome, Step};
use reference::topology::Topology;
use std::path::Path;

/// A list through `console` at this path and the reference, and through `head` and
/// `drill`, where they aren't left out.
pub fn compare(
    binaries: &Binaries,
    console: &Path,
    bytes: &[u8],
    seen: &mut Seen,
) -> Option<Failure> {
    let run = |program, input: &[u8]| Some(runner::run(binaries.path(program)?, input));
    let got = runner::run(console, &[&[SLOW], bytes].concat());
    let list = List::read(&bytes[..bytes.len().min(INPUT)]);
    list.count(seen);
    if list.calls.len() > MOST {
        return differs(&refused(18).into_bytes(), got, None);
    }
    let (expected, why) = watched(bytes, seen);
    if why.is_some() {
        return Some(Failure { expected, got, why });
    }
    let head = || differs(&expected, run(Program::Head, bytes)?, Some("this is what head prints"));
    let drill = || {
        let printed = run(Program::Drill, &list.at_full_current())?.map(without_cells);
        differs(&expected, printed, Some("this is what drill prints at full current"))
    };
    differs(&expected, got, None).or_else(head).or_else(drill)
}

/// A failure, where an output isn't what is expected.
fn differs(expected: &[u8], got: Result<Vec<u8>, String>, why: Option<&str>) -> Option<Failure> {
    let why = why.map(str::to_string);
    (got.as_deref() != Ok(expected)).then(|| Failure { expected: expected.to_vec(), got, why })
}

/// The bytes of a list: its plan, its calls up to the first that doesn't read, and
/// the rest. A refused plan has neither.
struct List<'a> {
    plan: &'a [u8],
    calls: Vec<&'a [u8]>,
    rest: &'a [u8],
}

impl List<'_> {
    fn read(bytes: &[u8]) -> List<'_> {
        let mut rest = Topology::read(bytes).map_or(&[][..], |(_, rest)| rest);
        let plan = &bytes[..bytes.len() - rest.len()];
        let calls = std::iter::from_fn(|| {
            let (_, after) = record::read(rest).ok()?;
            let call = &rest[..rest.len() - after.len()];
            rest = after;
            Some(call)
        });
        let calls = calls.collect();
        List { plan, calls, rest }
    }

    /// For `drill`, with more current before each call than any needs.
    fn at_full_current(&self) -> Vec<u8> {
        let mut bytes = self.plan.to_vec();
        for call in self.calls.iter().chain((!self.rest.is_empty()).then_some(&self.rest)) {
            bytes.extend([0xFF; 4]);
            bytes.extend(*call);
        }
        bytes
    }

    fn count(&self, seen: &mut Seen) {
        let length = wanted::LENGTHS.iter().find(|(calls, _)| *calls == self.calls.len());
        if let Some((_, what)) = length {
            seen.count(Program::Slow, ("list of", what, 0));
        }
        if self.calls.len() > MOST {
            seen.count(Program::Slow, wanted::TOO_LONG);
        }
        for sight in plans::refused("plan refused", self.plan) {
            seen.count(Program::Slow, sight);
        }
    }
}

/// What `drill` prints before its cells.
fn without_cells(mut output: Vec<u8>) -> Vec<u8> {
    let at = output.windows(6).position(|bytes| bytes == b"\ncell ");
    output.truncate(at.map_or(output.len(), |at| at + 1));
    output
}

/// The listing at full current: `drill` prints for it what `head` does and its
/// cells. An output of another byte, or none, is a failure.
pub fn listing() -> bool {
    let drill = List::read(LISTING).at_full_current();
    let printed = program::run(Program::Drill, &drill, &mut Unwatched);
    let expected = LISTING_OUTPUT.as_bytes();
    let fails = |got| differs(expected, got, None).is_some();
    let other = |at: usize| {
        let mut output = expected.to_vec();
        output[at] ^= 1;
        Ok(output)
    };
    printed.len() > expected.len()
        && !fails(Ok(without_cells(printed.clone())))
        && fails(Ok(printed))
        && (0..expected.len()).all(|at| fails(other(at)) && fails(Ok(expected[..at].to_vec())))
        && fails(Err("the program ended with 1".to_string()))
}

/// What the reference's `head` prints, and why demand 3 doesn't hold.
fn watched(bytes: &[u8], seen: &mut Seen) -> (Vec<u8>, Option<String>) {
    let mut rounds = Rounds { watcher: Watcher::new(Program::Slow, seen), ended: Vec::new() };
    let expected = program::run(Program::Head, bytes, &mut rounds);
    rounds.count();
    (expected, rounds.watcher.fault)
}

/// How a round ended, or a restart was answered.
#[derive(Clone, Copy, PartialEq, Eq)]
enum End {
    Finished,
    GivenUp,
    Restart(u32),
}

/// Looks on, and at how rounds follow each other.
struct Rounds<'a> {
    watcher: Watcher<'a>,
    ended: Vec<End>,
}

impl Rounds<'_> {
    fn count(&mut self) {
        let ended = std::mem::take(&mut self.ended);
        let restarts = ended.iter().filter(|end| matches!(end, End::Restart(_)));
        let lines = restarts.clone().collect::<Vec<_>>();
        let followed = |first, then| {
            let at = ended.iter().position(|end| *end == first);
            at.is_some_and(|at| ended[at..].contains(&then))
        };
        let tests = [
            followed(End::GivenUp, End::Finished),
            followed(End::Finished, End::GivenUp),
            restarts.count() > 2,
            lines.windows(2).any(|two| two[0] != two[1]),
        ];
        for (met, what) in tests.into_iter().zip(wanted::ROUNDS) {
            if met {
                self.watcher.count(("rounds", what, 0));
            }
        }
    }
}

impl Watch for Rounds<'_> {
    fn started(&mut self, state: &State) {
        self.watcher.started(state);
    }

    fn unreadable(&mut self) {
        self.watcher.unreadable();
    }

    fn before(&mut self, state: &State, record: Record) {
        self.watcher.before(state, record);
    }

    fn after(&mut self, state: &State, store: &[u32], record: Record, answer: Answer) {
        self.ended.extend(match (record, answer.outcome) {
            (Record::Step(Step::Commit), Outcome::Done) => Some(End::Finished),
            (Record::Step(Step::Abort), Outcome::Done) => Some(End::GivenUp),
            (_, Outcome::Line(line)) => Some(End::Restart(line)),
            _ => None,
        });
        self.watcher.after(state, store, record, answer);
    }
}

//! M-100: the part of a list of calls that matters. What such a part is, and a
//! plain way to find one.

use crate::forms::NEW;
use crate::program::call;
use crate::record::Record;
use crate::state::State;
use crate::steps::Outcome;
use crate::topology::Topology;

/// Most calls in a list.
pub const MOST: usize = 256;

/// The first refused call of a list: its place, counted from 0, and the number.
#[derive(Clone, Copy, Debug, PartialEq, Eq)]
pub struct Refusal {
    pub place: usize,
    pub number: u8,
}

/// Runs calls from initialize, with full power and a store of its own, until
/// one is refused: the state then, and that refusal. Or 1 to 5, or 19.
fn run(
    topology: &Topology,
    calls: impl Iterator<Item = Record>,
) -> Result<(State, Option<Refusal>), u8> {
    let mut store = vec![u32::MAX; NEW.cells];
    let mut state = State::initialize(NEW, topology, &mut store)?;
    for (place, record) in calls.enumerate() {
        let answer = call(&mut state, &mut store, record, u64::MAX);
        if let Outcome::Refused(number) = answer.outcome {
            return Ok((state, Some(Refusal { place, number })));
        }
    }
    Ok((state, None))
}

/// A list with a refused call. A part of it is named by its places, counted
/// from 0.
pub struct RefusedList {
    topology: Topology,
    pub calls: Vec<Record>,
    pub first: Refusal,
    /// The state that the first refused call is made in.
    pub state: State,
}

impl RefusedList {
    /// M-100's checks: 18, then 1 to 5 and 19, then 17.
    pub fn new(topology: Topology, calls: Vec<Record>) -> Result<RefusedList, u8> {
        if calls.len() > MOST {
            return Err(18);
        }
        let (state, first) = run(&topology, calls.iter().copied())?;
        let first = first.ok_or(17)?;
        Ok(RefusedList { topology, calls, first, state })
    }

    /// Why a part isn't what M-100 asks for, but for its being smallest: a part
    /// of the list, in order, whose last call is the first refused one of the
    /// list and of the part, with the same number.
    fn loss(&self, part: &[usize]) -> Option<String> {
        if !part.is_sorted_by(|one, next| one < next) {
            return Some("its numbers don't rise".to_string());
        }
        if part.last() != Some(&self.first.place) {
            return Some(format!("it doesn't end with call {}", self.first.place + 1));
        }
        let alone = run(&self.topology, part.iter().map(|&place| self.calls[place]));
        let refusal = alone.ok().and_then(|(_, refusal)| refusal);
        let wanted = Refusal { place: part.len() - 1, ..self.first };
        (refusal != Some(wanted)).then(|| format!("run alone its first refusal is {refusal:?}"))
    }

    /// Why a part isn't a smallest one: it isn't what is asked for, or is still
    /// that without one of its calls.
    pub fn fault(&self, part: &[usize]) -> Option<String> {
        let needless = |at: &usize| self.loss(&without(part, *at, *at + 1)).is_none();
        self.loss(part).or_else(|| {
            let at = (0..part.len()).find(needless)?;
            Some(format!("call {} can be left out", part[at] + 1))
        })
    }

    /// M-104: the room that each send of a part says is left, where the part is
    /// run; none for another call and for one that is refused.
    pub fn rooms(&self, part: &[usize]) -> Vec<Option<usize>> {
        let mut store = vec![u32::MAX; NEW.cells];
        let mut state =
            State::initialize(NEW, &self.topology, &mut store).expect("a plan that was run");
        let mut answer =
            |place: &usize| call(&mut state, &mut store, self.calls[*place], u64::MAX).outcome;
        let room = |place| match answer(place) {
            Outcome::Sent(room) => Some(room),
            _ => None,
        };
        part.iter().map(room).collect()
    }

    /// A smallest part. Blocks of calls are left out, large ones first, and
    /// single calls until a whole pass takes none out.
    pub fn reduce(&self) -> Vec<usize> {
        let mut part: Vec<usize> = (0..=self.first.place).collect();
        let mut block = part.len();
        loop {
            let before = part.len();
            part = self.pass(part, block);
            if block == 1 && part.len() == before {
                return part;
            }
            block = (block / 2).max(1);
        }
    }

    /// Leaves out every block of so many calls that can be, the last first.
    fn pass(&self, mut part: Vec<usize>, block: usize) -> Vec<usize> {
        let mut end = part.len() - 1;
        while end > 0 {
            let start = end.saturating_sub(block);
            let rest = without(&part, start, end);
            if self.loss(&rest).is_none() {
                part = rest;
            }
            end = start;
        }
        part
    }
}

/// A part without the places from one index up to another.
fn without(part: &[usize], start: usize, end: usize) -> Vec<usize> {
    [&part[..start], &part[end..]].concat()
}

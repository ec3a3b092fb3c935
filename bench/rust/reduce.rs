//! The part of a list of calls that matters, by the method of crates/reduction: blocks of calls are left out while what
//! is left fails as before, large blocks first, then single calls until a whole pass leaves none out. What only looks
//! at a list or a part has it through `&`.

use crate::engine::Engine;
use crate::rules::{check, STORE_CELLS};
use crate::types::*;

/// How many calls a list can have.
pub const LISTED: usize = 256;
/// The largest block.
const BLOCK: u16 = 128;

#[repr(C)]
pub struct CallList {
    calls: [Record; LISTED],
    count: u16,
}

impl CallList {
    /// The first 256 of these calls.
    pub fn new(calls: impl Iterator<Item = Record>) -> CallList {
        let mut list = CallList { calls: [Record::Recover; LISTED], count: 0 };
        for (place, call) in list.calls.iter_mut().zip(calls) {
            *place = call;
            list.count += 1;
        }
        list
    }
}

/// The places of its calls in the list, and how many they are; 0 in the places after them.
#[repr(C)]
pub struct Part {
    pub places: [u8; LISTED],
    pub count: u16,
}

impl Part {
    /// The first calls of a list.
    fn first(count: u16) -> Part {
        let mut places = [0; LISTED];
        for (i, place) in places[..count as usize].iter_mut().enumerate() {
            *place = i as u8;
        }
        Part { places, count }
    }

    /// The part without its calls from the place `from` to before the place `to`.
    fn without(&self, from: u16, to: u16) -> Part {
        let count = self.count - (to - from);
        let mut places = [0; LISTED];
        places[..from as usize].copy_from_slice(&self.places[..from as usize]);
        places[from as usize..count as usize]
            .copy_from_slice(&self.places[to as usize..self.count as usize]);
        Part { places, count }
    }
}

/// The place of the list's first refused call, counted from 0, and its refusal; or why there is none.
pub enum Found {
    Failure(u16, Refusal),
    Refused(Refusal),
}

/// With it a smallest part that fails so, the room that each of its calls says is left, and how many replays that took,
/// the first run of the list among them.
pub struct Reduced {
    pub found: Found,
    pub part: Part,
    pub rooms: [u8; LISTED],
    pub replays: u32,
}

fn refused(refusal: Refusal, replays: u32) -> Reduced {
    let found = Found::Refused(refusal);
    Reduced { found, part: Part::first(0), rooms: [0; LISTED], replays }
}

/// One call with full power: the room that it says is left, 0 where it is no send; or why it is refused.
fn answer<E: Engine>(
    engine: &mut E,
    t: &Topology,
    call: Record,
    store: &mut [u32],
) -> Result<u8, Refusal> {
    match call {
        Record::Call(step) => match engine.step(step, store, u32::MAX).0 {
            Outcome::Refused(refusal) => Err(refusal),
            Outcome::Sent(room) => Ok(room),
            _ => Ok(0),
        },
        Record::Recover => engine.recover(t, store).map(|()| 0),
    }
}

/// How a run ends: which call of the part is refused, if one is, and its refusal; and the room that the calls before it
/// say is left.
struct Replayed {
    end: Option<(u16, Refusal)>,
    rooms: [u8; LISTED],
}

/// A part run from setup, in a store of zeros, up to its first refusal.
fn replay<E: Engine>(t: &Topology, list: &CallList, part: &Part) -> Replayed {
    let mut store = [0; STORE_CELLS];
    let mut engine = E::initialize(t, &mut store);
    let mut rooms = [0; LISTED];
    for i in 0..part.count {
        let call = list.calls[part.places[i as usize] as usize];
        match answer(&mut engine, t, call, &mut store) {
            Ok(room) => rooms[i as usize] = room,
            Err(refusal) => return Replayed { end: Some((i, refusal)), rooms },
        }
    }
    Replayed { end: None, rooms }
}

/// A list that fails with a refusal, and the replays so far.
struct Failing<'a> {
    topology: &'a Topology,
    list: &'a CallList,
    refusal: Refusal,
    replays: u32,
}

impl Failing<'_> {
    /// Whether a part's last call is its first refused one, with the same refusal.
    fn fails<E: Engine>(&mut self, part: &Part) -> bool {
        self.replays += 1;
        replay::<E>(self.topology, self.list, part).end == Some((part.count - 1, self.refusal))
    }

    /// One pass over blocks of a size, from the last to the first; the last call stays.
    fn pass<E: Engine>(&mut self, mut part: Part, size: u16) -> Part {
        let mut to = part.count - 1;
        while to > 0 {
            let from = to.saturating_sub(size);
            let fewer = part.without(from, to);
            if self.fails::<E>(&fewer) {
                part = fewer;
            }
            to = from;
        }
        part
    }

    fn shrink<E: Engine>(&mut self, mut part: Part) -> Part {
        let mut size = BLOCK;
        while size > 1 {
            part = self.pass::<E>(part, size);
            size /= 2;
        }
        loop {
            let before = part.count;
            part = self.pass::<E>(part, 1);
            if part.count == before {
                return part;
            }
        }
    }
}

pub fn reduce<E: Engine>(t: &Topology, list: &CallList) -> Reduced {
    if list.count as usize > LISTED {
        return refused(Refusal::LongList, 0);
    }
    if let Err(refusal) = check(t) {
        return refused(refusal, 0);
    }
    let Some((place, refusal)) = replay::<E>(t, list, &Part::first(list.count)).end else {
        return refused(Refusal::NothingRefused, 1);
    };
    let mut failing = Failing { topology: t, list, refusal, replays: 1 };
    let part = failing.shrink::<E>(Part::first(place + 1));
    let rooms = replay::<E>(t, list, &part).rooms;
    Reduced { found: Found::Failure(place, refusal), part, rooms, replays: failing.replays + 1 }
}

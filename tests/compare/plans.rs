//! Topologies (document 01: plans), whole and broken, mostly with late processes.

use crate::rng::Rng;
use crate::seen::Sight;
use reference::topology::Topology;

/// Every ordered pair of two of the processes.
fn pairs(processes: usize) -> Vec<(usize, usize)> {
    let all = (0..processes).flat_map(|from| (0..processes).map(move |to| (from, to)));
    all.filter(|(from, to)| from != to).collect()
}

/// Sixteen processes, sixty-four channels: the largest plan.
pub fn largest() -> Topology {
    let near = |from: usize| [1, 2, 5, 15].map(|step| (from, (from + step) % 16));
    Topology::early(16, (0..16).flat_map(near).collect())
}

/// The map in which every one of so many processes is late.
pub fn all_late(processes: usize) -> u16 {
    ((1 << processes) - 1) as u16
}

/// Plans that are refused, by each number and by the first of several: 1, 2, then
/// 3 to 5 by each wire, then 19.
pub const REFUSED: [&[u8]; 14] = [
    &[0, 0, 0, 0],
    &[17, 0, 0, 0],
    &[0, 65, 255, 255],
    &[2, 65, 0, 0],
    &[2, 1, 0, 2, 0, 0],
    &[2, 1, 1, 1, 0, 0],
    &[2, 2, 0, 1, 0, 1, 0, 0],
    &[2, 2, 0, 2, 1, 1, 0, 0],
    &[2, 1, 0, 2, 4, 0],
    &[2, 1, 1, 1, 0, 128],
    &[2, 2, 0, 1, 0, 1, 255, 255],
    &[2, 1, 0, 1, 4, 0],
    &[1, 0, 3, 0],
    &[15, 0, 0, 128],
];

/// A plan that passes; about three in four have a late process.
pub fn whole(rng: &mut Rng) -> Topology {
    let mut topology = early(rng);
    let processes = topology.processes;
    topology.late = match rng.weighted(&[24, 20, 40, 16]) {
        0 => 0,
        1 => 1 << rng.below(processes),
        2 => rng.next() as u16 & all_late(processes),
        _ => all_late(processes),
    };
    topology
}

/// A plan that passes, without late processes.
fn early(rng: &mut Rng) -> Topology {
    match rng.weighted(&[4, 30, 20, 36, 10]) {
        0 => Topology::early(1 + rng.below(16), Vec::new()),
        1 => some(rng, 2, 2),
        2 => ring(rng),
        3 => {
            let processes = 2 + rng.below(15);
            let most = 1 + rng.below(64);
            some(rng, processes, most)
        }
        _ => {
            let processes = 9 + rng.below(8);
            some(rng, processes, 64)
        }
    }
}

/// Channels drawn from all pairs, at most so many.
fn some(rng: &mut Rng, processes: usize, most: usize) -> Topology {
    let mut channels = pairs(processes);
    rng.shuffle(&mut channels);
    channels.truncate(most);
    Topology::early(processes, channels)
}

/// A ring one way, or both ways.
fn ring(rng: &mut Rng) -> Topology {
    let processes = 3 + rng.below(6);
    let mut channels: Vec<_> = (0..processes).map(|p| (p, (p + 1) % processes)).collect();
    if rng.percent(50) {
        channels.extend((0..processes).map(|p| ((p + 1) % processes, p)));
    }
    Topology::early(processes, channels)
}

/// The bytes of a plan with one or more things wrong.
pub fn broken(rng: &mut Rng) -> Vec<u8> {
    let topology = whole(rng);
    let mut bytes = topology.write();
    let (channels, map) = (topology.channels.len(), bytes.len() - 2);
    let at = 2 + 2 * rng.below(channels);
    match rng.below(11) {
        0 => bytes[0] = rng.pick(&[0, 17, 18, 255]).unwrap(),
        1 => bytes[1] = rng.pick(&[65, 66, 128, 255]).unwrap(),
        2 => bytes.truncate(rng.below(bytes.len())),
        3 => bytes[0] = 1 + rng.below(topology.processes) as u8,
        4 if channels > 0 => bytes[at + rng.below(2)] = rng.next() as u8,
        5 if channels > 0 => bytes[at + 1] = bytes[at],
        6 if channels > 1 => {
            let other = 2 + 2 * rng.below(channels);
            bytes.copy_within(other..other + 2, at);
        }
        7 => bytes.truncate(map + rng.below(2)),
        8 if topology.processes < 16 => {
            let beyond = topology.processes + rng.below(16 - topology.processes);
            bytes[map + beyond / 8] |= 1 << (beyond % 8);
        }
        9 => bytes[map..].fill_with(|| rng.next() as u8),
        _ => bytes = (0..rng.below(12)).map(|_| rng.next() as u8).collect(),
    }
    bytes
}

/// How a plan breaks off.
const BREAKS: [&str; 4] =
    ["under two bytes", "wires broken off", "map broken off", "map broken off, and a wire refused"];
/// What a wire's refusal is told in spite of.
const LATE_TOO: &str = "and a late bit for a board not in the plan";

/// Every refusal of a plan that a run must see, in this group.
pub fn required(group: &'static str) -> Vec<Sight> {
    let mut sights = [1, 2, 3, 4, 5, 19].map(|number| (group, "", number)).to_vec();
    sights.extend(BREAKS.map(|what| (group, what, 7)));
    sights.extend([3, 4, 5].map(|number| (group, LATE_TOO, number)));
    sights
}

/// What is seen of the plan that bytes begin with, in this group: how it is
/// refused, if it is.
pub fn refused(group: &'static str, bytes: &[u8]) -> Vec<Sight> {
    let Err(number) = Topology::read(bytes) else {
        return Vec::new();
    };
    let wires = bytes.get(1).map_or(0, |&wires| wires as usize);
    let ends = 2 + 2 * wires;
    let with_map = |map: [u8; 2]| Topology::read(&[&bytes[..ends], &map].concat()).err();
    let number = u64::from(number);
    match number {
        7 if bytes.len() < 2 => vec![(group, BREAKS[0], 7)],
        7 if bytes.len() < ends => vec![(group, BREAKS[1], 7)],
        7 if with_map([0, 0]).is_some() => vec![(group, BREAKS[2], 7), (group, BREAKS[3], 7)],
        7 => vec![(group, BREAKS[2], 7)],
        3..=5 if beyond(bytes[0], &bytes[ends..]) => {
            vec![(group, "", number), (group, LATE_TOO, number)]
        }
        _ => vec![(group, "", number)],
    }
}

/// Whether a map has a bit for a board that isn't among so many.
fn beyond(boards: u8, map: &[u8]) -> bool {
    u32::from(u16::from_le_bytes([map[0], map[1]])) >> boards != 0
}

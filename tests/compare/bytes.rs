//! Fixed lists that are about bytes: the listing damaged, plans, records, and the
//! input's length.

use crate::directed::{copies, list, pair, BOTH, FULL, LISTING};
use crate::lists::List;
use crate::plans;
use crate::walk::encode;
use reference::program::{Program, INPUT};
use reference::record::Record;
use reference::steps::Step;
use reference::topology::Topology;

/// All of them.
pub fn all() -> Vec<List> {
    let mut lists = Vec::new();
    for program in BOTH {
        let listing = listing(program);
        damages(&mut lists, program, &listing);
        plan_bytes(&mut lists, program);
        map_bits(&mut lists, program);
        record_bytes(&mut lists, program);
        lengths(&mut lists, program);
    }
    lists
}

/// The listing; for `drill` with full power before each record.
fn listing(program: Program) -> Vec<u8> {
    let (topology, mut rest) = Topology::read(LISTING).expect("the listing's plan");
    let mut calls = Vec::new();
    while !rest.is_empty() {
        let (record, remaining) = reference::record::read(rest).expect("the listing's records");
        calls.push((FULL, record));
        rest = remaining;
    }
    encode(program, &topology, &calls)
}

/// The listing, each of its beginnings, and each of its bits turned over.
fn damages(lists: &mut Vec<List>, program: Program, listing: &[u8]) {
    for length in 0..=listing.len() {
        let name = format!("{program:?}: first {length} bytes of the listing");
        lists.push(list(name, program, listing[..length].to_vec()));
    }
    for bit in 0..8 * listing.len() {
        let mut bytes = listing.to_vec();
        bytes[bit / 8] ^= 1 << (bit % 8);
        lists.push(list(format!("{program:?}: listing, bit {bit} turned over"), program, bytes));
    }
}

/// Numbers of boards and wires at and past their ends, with wires and maps that
/// pass, that break off, and each way to refuse them.
fn plan_bytes(lists: &mut Vec<List>, program: Program) {
    for boards in [0, 1, 2, 15, 16, 17, 255] {
        for wires in [0, 1, 2, 63, 64, 65, 255] {
            for missing in 0..=4 {
                let mut bytes = plans::largest().write();
                bytes.extend([1, 3, 1, 3]);
                (bytes[0], bytes[1]) = (boards, wires);
                let end = (4 + 2 * wires as usize).min(bytes.len());
                bytes.truncate(end - missing.min(end));
                let name =
                    format!("{program:?}: {boards} boards, {wires} wires, {missing} missing");
                lists.push(list(name, program, bytes));
            }
        }
    }
    let wires: [&[u8]; 9] = [
        &[0, 2],
        &[2, 0],
        &[2, 2],
        &[0, 0],
        &[1, 1],
        &[0, 1, 0, 1],
        &[0, 1, 1, 0, 0, 1],
        &[0, 1, 1, 1, 0, 2],
        &[0, 1, 0, 2, 0, 1],
    ];
    let maps: [&[u8]; 6] = [&[], &[3], &[4], &[3, 0], &[4, 0], &[3, 128]];
    for ends in wires {
        for map in maps {
            let bytes = [&[2, ends.len() as u8 / 2], ends, map].concat();
            lists.push(list(format!("{program:?}: wires {ends:?}, map {map:?}"), program, bytes));
        }
    }
}

/// A bit of the map for each board, alone and with those of all boards before it,
/// on plans of every size: 19 from the first board on that isn't planned. Then a
/// begin, which shows whom copying starts with.
fn map_bits(lists: &mut Vec<List>, program: Program) {
    for processes in 1..=16 {
        for board in 0..16 {
            for late in [1 << board, plans::all_late(board + 1)] {
                let topology = Topology { late, ..Topology::early(processes, Vec::new()) };
                let bytes = encode(program, &topology, &copies(processes).collect::<Vec<_>>());
                let name = format!("{program:?}: {processes} boards, map {late:016b}");
                lists.push(list(name, program, bytes));
            }
        }
    }
}

/// Every bit map with every kind, its fields not 0 or all 0, before a begin.
fn record_bytes(lists: &mut Vec<List>, program: Program) {
    for map in (0..32).chain([33, 65, 129, 255]) {
        for kind in [0, 1, 2, 3, 4, 5, 6, 7, 8, 9, 10, 255] {
            for fill in [0, 1] {
                let mut bytes = pair().write();
                let budget: &[u8] = if program == Program::Drill { &[9, 0, 0, 0] } else { &[] };
                bytes.extend(budget);
                bytes.push(map);
                let sizes = [(1, 1), (2, 1), (4, 1), (8, 4)];
                for (bit, size) in sizes.into_iter().filter(|(bit, _)| map & bit != 0) {
                    bytes.extend(std::iter::repeat_n(if bit == 1 { kind } else { fill }, size));
                }
                bytes.extend(budget);
                bytes.extend([1, 3]);
                let name = format!("{program:?}: map {map}, kind {kind}, fields {fill}");
                lists.push(list(name, program, bytes));
            }
        }
    }
}

/// Inputs about as long as a program takes, and much longer ones.
fn lengths(lists: &mut Vec<List>, program: Program) {
    for length in [INPUT - 1, INPUT, INPUT + 1, INPUT + 2, 3 * INPUT] {
        let one = Topology::early(1, Vec::new());
        let mut calls = vec![(0, Record::Step(Step::Abort)); length / 2];
        calls[5] = (FULL, Record::Step(Step::Begin));
        let mut bytes = encode(program, &one, &calls);
        bytes.truncate(length);
        lists.push(list(format!("{program:?}: {length} bytes"), program, bytes));
    }
}

//! Fixed inputs for a store of the other form (M-102): each line that is printed
//! instead of one, in its order, and stores that chance seldom makes.

use crate::directed::{full_logs, logging_round, pair, LISTING};
use crate::late;
use crate::lists::List;
use crate::plans;
use crate::sources::Source;
use crate::walk::Call;
use reference::forms::{Form, NEW, OLD};
use reference::migrate::{DOWNGRADE, UPGRADE};
use reference::program::{call, rubbish, Program, INPUT};
use reference::record;
use reference::state::State;
use reference::store::LINE;
use reference::topology::Topology;

/// A way: what asks for it, the form of its sources, and that of its targets.
type Way = (u8, Form, Form);
const WAYS: [Way; 2] = [(UPGRADE, OLD, NEW), (DOWNGRADE, NEW, OLD)];

fn list(name: &str, program: Program, bytes: Vec<u8>) -> List {
    List { name: format!("{program:?}: {name}"), program, bytes }
}

/// An input for both programs.
fn both(lists: &mut Vec<List>, name: &str, bytes: Vec<u8>) {
    lists.push(list(name, Program::Console, bytes.clone()));
    lists.push(list(name, Program::Converter, bytes));
}

/// Stores that runs leave.
pub fn reached() -> Vec<List> {
    let mut lists = Vec::new();
    for way in WAYS {
        runs(&mut lists, way);
        late_runs(&mut lists, way);
    }
    lists
}

/// Stores made by hand, and inputs that are refused.
pub fn others() -> Vec<List> {
    let mut lists = Vec::new();
    for way in WAYS {
        held_before(&mut lists, way);
        lines(&mut lists, way);
        board_counts(&mut lists, way);
        wire_counts(&mut lists, way);
        lengths(&mut lists, way);
        refused_plans(&mut lists, way);
        long_inputs(&mut lists, way);
    }
    nothing_known(&mut lists);
    lists
}

/// What `converter` isn't asked: nothing, and other first bytes before the
/// listing or a store. (`console` has such bytes among its questions.)
fn nothing_known(lists: &mut Vec<List>) {
    lists.push(list("no input, for no store", Program::Converter, Vec::new()));
    for first in [0, 1, 4, 255] {
        let listing = [&[first], LISTING].concat();
        for (name, bytes) in [("listing", listing), ("store", by_hand(OLD, 1).input(first))] {
            let name = format!("byte {first}, {name}");
            lists.push(list(&name, Program::Converter, bytes));
        }
    }
}

/// The store that calls leave on one full of rubbish.
fn left_by(form: Form, topology: &Topology, calls: &[Call]) -> Source {
    let mut cells = rubbish(form.cells);
    let mut state = State::initialize(form, topology, &mut cells).expect("a whole plan");
    for &(budget, record) in calls {
        call(&mut state, &mut cells, record, u64::from(budget));
    }
    Source { form, topology: topology.clone(), cells }
}

/// After setup, the listing, each call of two rounds that stores something, and
/// all logs full in the upper half and in both.
fn runs(lists: &mut Vec<List>, (asked, form, _): Way) {
    let one = Topology::early(1, Vec::new());
    both(lists, "store after setup, one board", left_by(form, &one, &[]).input(asked));
    both(lists, "the listing's store", left_by(form, &pair(), &listing()).input(asked));
    let rounds = logging_round().repeat(2);
    after_each(lists, "calls of two rounds", &rounds, asked, &|calls| {
        left_by(form, &pair(), calls)
    });
    let largest = plans::largest();
    for times in 1..=2 {
        let source = left_by(form, &largest, &full_logs(times));
        both(lists, &format!("store with every log full, rounds: {times}"), source.input(asked));
    }
}

/// Stores of plans with late boards: after each call of two rounds that stores
/// something, for each map of a pair, and with all boards late and all logs full.
/// By the rules of the old form no board is late, and its rounds are those of
/// early ones.
fn late_runs(lists: &mut Vec<List>, (asked, form, _): Way) {
    for map in 1..4 {
        let topology = late::with_late(pair(), map);
        let round = if form.anti_messages { late::round(map) } else { logging_round() };
        let rounds = round.repeat(2);
        let name = format!("calls of two rounds with map {map}");
        after_each(lists, &name, &rounds, asked, &|calls| left_by(form, &topology, calls));
    }
    let largest = late::with_late(plans::largest(), u16::MAX);
    for times in 1..=2 {
        let calls = if form.anti_messages { late::full_logs(times) } else { full_logs(times) };
        let source = left_by(form, &largest, &calls);
        both(
            lists,
            &format!("all boards late, every log full, rounds: {times}"),
            source.input(asked),
        );
    }
}

/// The stores that the first calls of a list leave, each where it is another one.
fn after_each(
    lists: &mut Vec<List>,
    name: &str,
    calls: &[Call],
    asked: u8,
    left: &dyn Fn(&[Call]) -> Source,
) {
    let mut before = Vec::new();
    for at in 0..=calls.len() {
        let source = left(&calls[..at]);
        if source.cells != before {
            both(lists, &format!("store after {at} {name}"), source.input(asked));
        }
        before = source.cells;
    }
}

fn listing() -> Vec<Call> {
    let (_, mut rest) = Topology::read(LISTING).expect("the listing's plan");
    let calls = std::iter::from_fn(|| {
        let (record, remaining) = record::read(rest).ok()?;
        rest = remaining;
        Some((u32::MAX, record))
    });
    calls.collect()
}

/// A store of a pair at this line: the words 7 and 9, one entry in each log.
fn by_hand(form: Form, line: u32) -> Source {
    let mut cells = rubbish(form.cells);
    cells[LINE] = line;
    for p in 0..2 {
        cells[form.physical_checkpoint(line, p)] = 7 + 2 * p as u32;
        cells[form.message_log(line, p)] = 1;
        cells[form.channel_log(line, p)] = 1;
    }
    Source { form, topology: pair(), cells }
}

/// Words and bodies that are just what `console`'s cells hold at first: it
/// doesn't list them, and `converter` has them.
fn held_before(lists: &mut Vec<List>, (asked, form, to): Way) {
    let before = rubbish(to.cells);
    for line in 0..2 {
        for p in 0..2 {
            let mut source = by_hand(form, line);
            let copy = form.physical_checkpoint(line, p);
            source.cells[copy] = before[to.physical_checkpoint(line, p)];
            source.cells[form.message_log(line, p)] = 0;
            both(lists, &format!("board {p}'s word as its cell has it"), source.input(asked));
            let mut source = by_hand(form, line);
            source.cells[form.channel_log(line, p) + 1] = before[to.channel_log(line, p) + 1];
            both(lists, &format!("wire {p}'s body as its cell has it"), source.input(asked));
        }
    }
}

fn lines(lists: &mut Vec<List>, (asked, form, _): Way) {
    for line in [0, 1, 2, 3, 4, u32::MAX / 2, u32::MAX - 1, u32::MAX] {
        both(lists, &format!("store at line {line}"), by_hand(form, line).input(asked));
    }
}

/// Counts of boards, planned or not, in either half.
fn board_counts(lists: &mut Vec<List>, (asked, form, _): Way) {
    for count in [0, 64, 65, 256, 1 << 31, u32::MAX] {
        for (line, half) in [(0, 0), (0, 1), (1, 0), (1, 1)] {
            for board in [1, 2, 15] {
                let mut source = by_hand(form, line);
                source.cells[form.message_log(half, board)] = count;
                let name = format!("line {line}, half {half}: board {board} with {count} logged");
                both(lists, &name, source.input(asked));
            }
        }
    }
}

/// Counts of wires, planned or not, in either half.
fn wire_counts(lists: &mut Vec<List>, (asked, form, _): Way) {
    for count in [0, 8, 9, 256, 1 << 31, u32::MAX] {
        for (line, half) in [(0, 0), (0, 1), (1, 0), (1, 1)] {
            for wire in [1, 2, 63] {
                let mut source = by_hand(form, line);
                source.cells[form.channel_log(half, wire)] = count;
                let name = format!("line {line}, half {half}: wire {wire} with {count} logged");
                both(lists, &name, source.input(asked));
            }
        }
    }
}

/// Stores of about the cells that either form has, with bytes over, and with
/// counts that fit and that don't: 7 before 6 before 16.
fn lengths(lists: &mut Vec<List>, (asked, form, _): Way) {
    let near = [OLD.cells, NEW.cells].map(|cells| [cells - 1, cells, cells + 1]);
    for cells in [0, 1, 100].into_iter().chain(near.concat()) {
        for over in [false, true] {
            for odd in 0..4 {
                let mut source = by_hand(form, 0);
                source.cells[form.message_log(0, 1)] = if over { 65 } else { 64 };
                source.cells.resize(cells, 0x0102_0304);
                let bytes = [&source.input(asked)[..], &[9; 3][..odd]].concat();
                let name = format!("{cells} cells, {odd} bytes over, count over: {over}");
                both(lists, &name, bytes);
            }
        }
    }
}

/// Refused plans before stores that would be refused for themselves, and before
/// one that wouldn't.
fn refused_plans(lists: &mut Vec<List>, (asked, form, _): Way) {
    let store = vec![0; 4 * form.cells];
    let broken: [&[u8]; 5] = [&[], &[2], &[2, 1, 0], &[2, 1, 0, 1], &[2, 1, 0, 2, 0]];
    for plan in broken.into_iter().chain(plans::REFUSED) {
        for bytes in [0, 1, 2, 3, 4, store.len(), store.len() - 1] {
            let store = if broken.contains(&plan) { &[] } else { &store[..bytes] };
            let name = format!("plan {plan:?}, then {} bytes", store.len());
            both(lists, &name, [&[asked], plan, store].concat());
        }
    }
    for missing in [1, 2, 127] {
        let plan = plans::largest().write();
        let name = format!("the largest plan, {missing} bytes missing");
        both(lists, &name, [&[asked], &plan[..plan.len() - missing]].concat());
    }
}

/// Inputs about as long as is taken. What is taken of a longer one is a plan and
/// whole cells where the plan has two wires, and never where it has one.
fn long_inputs(lists: &mut Vec<List>, (asked, form, _): Way) {
    let longest = 1 + INPUT;
    for wires in 1..=2 {
        for length in [longest - 4, longest - 1, longest, longest + 1, longest + 4, 2 * longest] {
            let mut source = by_hand(form, 1);
            source.topology.channels.truncate(wires);
            let mut bytes = source.input(asked);
            bytes.resize(length, 9);
            both(lists, &format!("{length} bytes, for a store with {wires} wires"), bytes);
        }
    }
}

//! M-102 tried on the reference itself: what no input of a program can show, and
//! wrong stores that the judge has to find.

use crate::carried::{self, input, DONE};
use crate::directed::pair;
use crate::plans;
use crate::rng::Rng;
use crate::seen::Seen;
use crate::style::Style;
use crate::walk::Walk;
use reference::forms::{Form, NEW, OLD};
use reference::history::Histories;
use reference::migrate::{carry, Carriage, DOWNGRADE, UPGRADE};
use reference::program::{call, rubbish, Program, Unwatched};
use reference::state::State;
use reference::topology::Topology;

/// Document 01's words, by the rule that it had before M-101.
pub fn old_words() -> bool {
    let taken = |word, body| OLD.taken(word, 63, body);
    taken(u32::MAX, 1) == 4_294_967_266
        && taken(taken(0, 2), 3) == 65
        && taken(taken(0, 3), 2) == 95
}

/// Document 01's numbers of cells: both halves, the last board and wire of each.
pub fn old_layout() -> bool {
    let (half, last) = (1 + 1_632, 1 + 2 * 1_632);
    OLD.cells == last
        && OLD.physical_checkpoint(0, 1) == 1 + 66
        && OLD.message_log(1, 15) == half + 66 * 15 + 1
        && OLD.channel_log(7, 63) == half + 1_056 + 9 * 63
        && OLD.channel_log(1, 63) + 9 == last
        && OLD.channel_log(0, 63) + 9 == half
}

/// Demand 3 after every call of random runs by the old rules.
pub fn old_runs() -> bool {
    (0..12).all(|number| demand_holds(OLD, &mut Rng::new(102, number), plans::whole))
}

/// Demand 3 after every call of a random run by the rules of this form, on a plan
/// of this kind, by the reference's own books and by nobody else's answers.
pub fn demand_holds(form: Form, rng: &mut Rng, plan: fn(&mut Rng) -> Topology) -> bool {
    let (topology, style) = (plan(rng), Style::random(rng));
    let mut walk = Walk::on(rng, Program::Drill, form, &topology, rubbish(form.cells), style);
    walk.go(300);
    let mut cells = rubbish(form.cells);
    let mut state = State::initialize(form, &topology, &mut cells).expect("a whole plan");
    let mut histories = Histories::new(form, &topology);
    walk.calls.iter().all(|&(budget, record)| {
        let answer = call(&mut state, &mut cells, record, u64::from(budget));
        histories.feed(record, answer.outcome);
        histories.check(&cells).is_ok()
    })
}

/// The order of refusals: 1, as those of a plan, then 6 and 16 of the source, then
/// 6 of the target, and no cell is touched.
pub fn refusals() -> bool {
    let unplanned = Topology::early(0, Vec::new());
    let mut over = vec![0; OLD.cells];
    over[OLD.message_log(0, 1)] = 65;
    let (short, sound) = (&over[1..], vec![0; OLD.cells]);
    let refusal = |topology: &Topology, source: &[u32]| {
        let mut target = vec![7; NEW.cells - 1];
        let refused = carry(topology, (OLD, source), (NEW, &mut target));
        (target.iter().all(|&cell| cell == 7)).then_some(refused)
    };
    refusal(&unplanned, short) == Some(Err(1))
        && refusal(&pair(), short) == Some(Err(6))
        && refusal(&pair(), &over) == Some(Err(16))
        && refusal(&pair(), &sound) == Some(Err(6))
}

/// A target longer than its form needs: its further cells aren't touched.
pub fn longer_target() -> bool {
    let mut target = vec![7; NEW.cells + 9];
    let carried = carry(&pair(), (OLD, &vec![0; OLD.cells]), (NEW, &mut target));
    carried == Ok(()) && target[NEW.cells..] == [7; 9]
}

/// An old store of a pair at line 1: copies 7 and 9, board 0 with two bodies in
/// its log, and 5 on wire 1.
fn store() -> Vec<u32> {
    let mut cells = vec![0; OLD.cells];
    cells[0] = 1;
    cells[1_633..1_637].copy_from_slice(&[7, 2, 2, 3]);
    cells[1_633 + 66] = 9;
    cells[1_633 + 1_056 + 9..][..2].copy_from_slice(&[1, 5]);
    cells
}

/// What the store becomes, in both programs' words: 31 × (31 × 7 + 2) + 3 is
/// board 0's word.
const CARRIED: [(usize, u32); 8] = [
    (0, 1),
    (2_657, 6_792),
    (2_658, 0),
    (2_657 + 130, 9),
    (2_657 + 131, 0),
    (2_657 + 2_080, 0),
    (2_657 + 2_089, 1),
    (2_657 + 2_090, 5),
];

fn text(cells: &[(usize, u32)]) -> Vec<u8> {
    let lines = cells.iter().map(|(cell, value)| format!("cell {cell} {value}\n"));
    std::iter::once("done\n".to_string()).chain(lines).collect::<String>().into_bytes()
}

fn bytes(cells: &[(usize, u32)]) -> Vec<u8> {
    let mut target = vec![0; NEW.cells];
    for &(cell, value) in cells {
        target[cell] = value;
    }
    let cells: Vec<u8> = target.into_iter().flat_map(u32::to_le_bytes).collect();
    [DONE, &cells].concat()
}

fn passes(program: Program, output: &[u8]) -> bool {
    let run = |input: &[u8]| Ok(reference::program::run(program, input, &mut Unwatched));
    let asked = input(UPGRADE, &pair(), &store());
    carried::judge(program, &asked, output, &run, &mut Seen::default()).is_ok()
}

/// A store carried by hand: the reference prints it so, and the judge lets it
/// pass.
pub fn right() -> bool {
    let asked = input(UPGRADE, &pair(), &store());
    let printed = |program| reference::program::run(program, &asked, &mut Unwatched);
    printed(Program::Console) == text(&CARRIED)
        && printed(Program::Converter) == bytes(&CARRIED)
        && passes(Program::Console, &text(&CARRIED))
        && passes(Program::Converter, &bytes(&CARRIED))
}

/// Each of its cells with another value or left out, one cell more, and outputs
/// that aren't a store.
pub fn wrong() -> bool {
    let refused = |cells: &[(usize, u32)]| {
        !passes(Program::Console, &text(cells)) && !passes(Program::Converter, &bytes(cells))
    };
    let another = (0..CARRIED.len()).all(|at| {
        let mut cells = CARRIED;
        cells[at].1 += 1;
        refused(&cells)
    });
    let left_out = (0..CARRIED.len()).all(|at| {
        let cells = [&CARRIED[..at], &CARRIED[at + 1..]].concat();
        // A count of 0 is what `converter`'s cells hold anyway.
        !passes(Program::Console, &text(&cells)) && (CARRIED[at].1 == 0 || refused(&cells))
    });
    let more = [1, 2_659, 2_657 + 2 * 130, 2_657 + 2_091, NEW.cells - 1];
    let one_more = more.into_iter().all(|cell| {
        let mut cells = [&CARRIED[..], &[(cell, 3)]].concat();
        cells.sort();
        refused(&cells)
    });
    let texts: [&[u8]; 5] =
        [b"", b"done\n", b"refused 16\n", &text(&CARRIED)[5..], &text(&CARRIED)[..20]];
    let other = texts.into_iter().all(|text| !passes(Program::Console, text));
    let falling = [&CARRIED[1..], &CARRIED[..1]].concat();
    let raw = bytes(&CARRIED);
    let lengths = [0, 4, 5, raw.len() - 1, raw.len() - 4, 5 + 4 * OLD.cells];
    let short = lengths.into_iter().all(|length| !passes(Program::Converter, &raw[..length]));
    let texts: [&[u8]; 3] = [b"refused 16\n", &raw[5..], &[b"done", &raw[5..]].concat()];
    let unsaid = texts.into_iter().all(|text| !passes(Program::Converter, text));
    let falling = !passes(Program::Console, &text(&falling));
    another && left_out && one_more && other && short && unsaid && falling
}

/// Of a refused input both programs say the same line, and no other passes.
pub fn refused_lines() -> bool {
    let mut over = store();
    over[OLD.message_log(1, 1)] = 65;
    let one = Topology::early(1, Vec::new());
    let answers: [(Vec<u8>, &str); 7] = [
        (vec![], "refused 7\n"),
        (vec![5, 1, 0], "refused 7\n"),
        (vec![UPGRADE, 0, 0], "plan refused 1\n"),
        (vec![UPGRADE, 1, 0, 2, 0], "plan refused 19\n"),
        (input(DOWNGRADE, &pair(), &store()), "refused 6\n"),
        (input(UPGRADE, &pair(), &over), "refused 16\n"),
        ([&input(UPGRADE, &one, &store())[..], &[0]].concat(), "refused 7\n"),
    ];
    let others: [&[u8]; 5] = [b"", b"refused 7", b"refused 3\n", DONE, &bytes(&[])];
    [Program::Console, Program::Converter].into_iter().all(|program| {
        let run = |input: &[u8]| Ok(reference::program::run(program, input, &mut Unwatched));
        let passes = |input: &[u8], output: &[u8]| {
            carried::judge(program, input, output, &run, &mut Seen::default()).is_ok()
        };
        answers.iter().all(|(input, line)| {
            run(input) == Ok(line.as_bytes().to_vec())
                && passes(input, line.as_bytes())
                && others.iter().all(|other| !passes(input, other))
        })
    })
}

/// A plan with two wires and 16,382 cells: the last byte that is taken completes
/// them, and none after it is seen.
pub fn last_byte() -> bool {
    let whole = input(UPGRADE, &pair(), &[0; 16_382]);
    let said = |program, input: &[u8]| {
        let output = reference::program::run(program, input, &mut Unwatched);
        output.strip_prefix(DONE).map(|cells| cells.len()).ok_or(output)
    };
    let short = Err(b"refused 7\n".to_vec());
    whole.len() == 65_537
        && said(Program::Converter, &whole) == Ok(4 * NEW.cells)
        && said(Program::Converter, &[&whole[..], &[1]].concat()) == Ok(4 * NEW.cells)
        && said(Program::Converter, &whole[..65_536]) == short
        && said(Program::Console, &whole).is_ok()
        && said(Program::Console, &whole[..65_536]) == short
}

/// A way back that gives another store is found.
pub fn wrong_way_back() -> bool {
    let asked = input(UPGRADE, &pair(), &store());
    [Program::Console, Program::Converter].into_iter().all(|program| {
        let there = reference::program::run(program, &asked, &mut Unwatched);
        let run = |input: &[u8]| {
            let mut carriage = Carriage::read(input).expect("a store to be carried");
            carriage.source[0] += 2;
            let input = carried::input(DOWNGRADE, &carriage.topology, &carriage.source);
            Ok(reference::program::run(program, &input, &mut Unwatched))
        };
        carried::judge(program, &asked, &there, &run, &mut Seen::default()).is_err()
    })
}

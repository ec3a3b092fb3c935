//! What a run must have seen, and how often it saw it.

use crate::lists::List;
use crate::wanted::{required, AFTER_COPY, AGAIN};
use reference::console::REDUCE;
use reference::migrate::DOWNGRADE;
use reference::program::Program;
use std::collections::BTreeMap;

/// What was seen: a group, what it was in the documents' words, and a number (a
/// refusal's, the room that a send left, or the stores made at a lost power).
pub type Sight = (&'static str, &'static str, u64);

/// Inputs, by what a program takes of them.
pub const AS_LONG: Sight = ("input", "as long as is taken", 0);
pub const LONGER: Sight = ("input", "longer than is taken", 0);

/// Refusals of a call that no input can bring about: 6, the store has 5,313
/// cells; 13, an input is too short for so many rounds; 14, 15 and 16, no
/// reached state or store is like that.
const NEVER: [u64; 5] = [6, 13, 14, 15, 16];

/// From so many random inputs of a kind on, more than half must have late
/// processes.
const ENOUGH: u64 = 40;

#[derive(Default)]
pub struct Seen {
    counts: BTreeMap<(Program, Sight), u64>,
    /// Calls after which demand 3 was checked, and those among them that its
    /// premise doesn't cover.
    pub demands: u64,
    pub beyond: u64,
    /// Parts of lists that M-100's definition was checked of, and the calls that
    /// they leave out.
    pub parts: u64,
    pub left_out: u64,
    /// Stores that were carried to the other form and back.
    pub carried: u64,
    /// Random inputs of a program, with what they ask, whose plans pass, and those
    /// among them that have a late process.
    random: BTreeMap<(Program, Option<u8>), [u64; 2]>,
}

impl Seen {
    pub fn count(&mut self, program: Program, sight: Sight) {
        *self.counts.entry((program, sight)).or_insert(0) += 1;
    }

    fn of(&self, program: Program, sight: Sight) -> u64 {
        self.counts.get(&(program, sight)).copied().unwrap_or(0)
    }

    /// Looks whether a random input that asks something known has a late process.
    pub fn count_random(&mut self, list: &List) {
        let known = list.asked().is_none_or(|asked| (REDUCE..=DOWNGRADE).contains(&asked));
        if let (true, Some(topology)) = (known, list.topology()) {
            let counts = self.random.entry((list.program, list.asked())).or_default();
            counts[0] += 1;
            counts[1] += u64::from(topology.late != 0);
        }
    }

    /// Prints how many random inputs had late processes; those of which too few
    /// had, where there were enough to tell.
    pub fn tell_late(&self) -> Vec<String> {
        let mut few = Vec::new();
        for (&(program, asked), &[all, late]) in &self.random {
            let asked = asked.map_or(String::new(), |asked| format!(" {asked}"));
            let what =
                format!("{}{asked}: {late} of {all} random plans with late boards", said(program));
            println!("{what}");
            if all >= ENOUGH && 2 * late <= all {
                few.push(format!("too few: {what}"));
            }
        }
        few
    }

    /// Prints what was found to hold of calls, of parts and of stores.
    pub fn tell_held(&self) {
        let (demands, beyond) = (self.demands, self.beyond);
        println!("demand 3 held after {demands} calls, {beyond} of them past its premise");
        let (parts, left_out) = (self.parts, self.left_out);
        println!("M-100's definition held of {parts} parts, which leave out {left_out} calls");
        println!("restarts agreed on {} stores carried there and back", self.carried);
    }

    /// Prints every count of these programs; the number of sights required, and
    /// what is wrong: those missing, and those that cannot be.
    pub fn report(&self, programs: impl Iterator<Item = Program>) -> (usize, Vec<String>) {
        let mut missing = Vec::new();
        let mut required_in_all = 0;
        for program in programs {
            let required = required(program);
            let never = if program == Program::Converter { 0 } else { NEVER.len() };
            required_in_all += required.len() + never;
            for sight in &required {
                let count = self.of(program, *sight);
                println!("seen {}: {count}", name(program, *sight));
                if count == 0 {
                    missing.push(format!("never seen: {}", name(program, *sight)));
                }
            }
            for (&(_, sight), _) in self.counts.iter().filter(|((p, _), _)| *p == program) {
                if sight.0 == "refused" && NEVER.contains(&sight.2) {
                    missing.push(format!("seen, but cannot be: {}", name(program, sight)));
                }
            }
        }
        (required_in_all, missing)
    }
}

fn said(program: Program) -> &'static str {
    match program {
        Program::Head => "head",
        Program::Drill => "drill",
        Program::Console => "console",
        Program::Converter => "converter",
        Program::Slow => "the slow head",
    }
}

fn name(program: Program, (group, what, number): Sight) -> String {
    let program = said(program);
    match group {
        _ if what.is_empty() => format!("{program} {group} {number}"),
        _ if group.ends_with("refused") => format!("{program} {group} {number} ({what})"),
        "cut" | "sent" | AGAIN | AFTER_COPY => format!("{program} {group} {number} ({what})"),
        _ => format!("{program} {group} ({what})"),
    }
}

//! Compares `head` and `drill` with the reference on fixed and random inputs,
//! byte for byte, and checks demand 3 after every call. Judges what `console`
//! prints on others: a line byte for byte, a part by M-100's definition. Compares
//! what `console` and `converter` print for a store to be carried, byte for byte,
//! and restarts from it, there and back. Holds M-106's slow head, `console` asked
//! by the byte 4, beside `head`, `drill` and the reference, byte for byte.
//!
//!     compare HEAD DRILL CONSOLE CONVERTER SLOW [LISTS [SEED [SECONDS]]]
//!
//! SLOW is `console` once more, in the slow head's place. A program of which `-` is
//! the name is left out, with its lists. LISTS is the number of random lists for
//! `head` and `drill`; for each five of them there are three for `console`, and two
//! stores for `console` and `converter`. The slow head has each list that the
//! others have, and some of its own. SECONDS are spent on making a failing input
//! smaller.

mod beside;
mod binaries;
mod bytes;
mod calls;
mod carried;
mod carries;
mod cases;
mod directed;
mod found;
mod judge;
mod late;
mod late_cases;
mod lists;
mod migrations;
mod plans;
mod questions;
mod reductions;
mod rig;
mod rng;
mod rules;
mod runner;
mod seen;
mod shrink;
mod sights;
mod simplify;
mod slow;
mod sources;
mod style;
mod verdicts;
mod walk;
mod wanted;
mod watcher;

use binaries::{Binaries, PROGRAMS};
use carried::DONE;
use lists::List;
use reference::console::hexadecimal;
use reference::program::Program;
use seen::Seen;
use std::path::PathBuf;
use std::process::ExitCode;
use std::time::{Duration, Instant};

/// Random lists, their seed base, and the seconds, where the caller names none.
const LISTS: u64 = 3000;
const SEED: u64 = 1;
const SECONDS: u64 = 20;
/// Lines of an output that are shown of a failing input.
const SHOWN: usize = 60;

/// What the caller asks for.
struct Order {
    binaries: Binaries,
    lists: u64,
    seed: u64,
    shrinking: Duration,
}

/// The first lines of a text.
fn beginning(text: &str) -> String {
    let mut lines: Vec<&str> = text.lines().take(SHOWN).collect();
    if text.lines().count() > SHOWN {
        lines.push("...");
    }
    lines.join("\n")
}

/// An output as lines; of raw cells those that aren't 0.
fn readable(program: Program, output: &[u8]) -> String {
    match output.strip_prefix(DONE) {
        Some(bytes) if program == Program::Converter => {
            let cells = carried::raw(bytes);
            format!("done, {} bytes\n{}", bytes.len(), simplify::listed(&cells))
        }
        _ => String::from_utf8_lossy(output).into_owned(),
    }
}

fn tell(binaries: &Binaries, list: &List, shrinking: Duration) {
    println!("compare: {}, {} bytes, fails", list.name, list.bytes.len());
    let mut fails =
        |bytes: &[u8]| binaries.compare(list.program, bytes, &mut Seen::default()).is_some();
    let until = Instant::now() + shrinking;
    let mut search = shrink::Search { program: list.program, until, fails: &mut fails };
    let bytes = search.smallest(&list.bytes);
    let Some(failure) = binaries.compare(list.program, &bytes, &mut Seen::default()) else {
        println!("compare: it fails at times only; the input was\n{}", hexadecimal(&list.bytes));
        return;
    };
    println!("smallest input found for {:?}, {} bytes:", list.program, bytes.len());
    println!("{}", simplify::text(list.program, &bytes).unwrap_or_else(|| hexadecimal(&bytes)));
    let expected = readable(list.program, &failure.expected);
    println!("the reference prints:\n{}", beginning(&expected));
    match &failure.got {
        Ok(got) => {
            let got = readable(list.program, got);
            println!("the binary prints:\n{}", beginning(&got));
            let agree = expected.lines().zip(got.lines()).take_while(|(a, b)| a == b);
            println!("the first {} lines agree", agree.count());
        }
        Err(error) => println!("the binary fails: {error}"),
    }
    if let Some(why) = failure.why {
        println!("{why}");
    }
}

/// The random lists of a number, which has a question or a store besides, and at
/// times a list for the slow head.
fn random(seed: u64, number: u64) -> impl Iterator<Item = List> {
    let mut lists = vec![lists::random(seed, number)];
    if number % 5 < 3 {
        lists.push(questions::random(seed, number));
    } else {
        lists.extend(sources::random(seed, number));
    }
    lists.extend(slow::random(seed, number));
    lists.into_iter()
}

/// Lists through both; the number of lists, or none where one fails.
fn compare_each(
    order: &Order,
    seen: &mut Seen,
    lists: impl Iterator<Item = List>,
    look: fn(&mut Seen, &List),
) -> Option<u64> {
    let mut agree = 0;
    for list in lists.filter(|list| order.binaries.path(list.program).is_some()) {
        look(seen, &list);
        if order.binaries.compare(list.program, &list.bytes, seen).is_some() {
            tell(&order.binaries, &list, order.shrinking);
            return None;
        }
        agree += 1;
    }
    Some(agree)
}

/// All lists, the many about bytes last.
fn compare_all(order: &Order, seen: &mut Seen) -> Option<u64> {
    let first: [fn() -> Vec<List>; 6] = [
        directed::calls,
        late::all,
        migrations::reached,
        reductions::all,
        slow::all,
        migrations::others,
    ];
    let first = slow::beside(first.into_iter().flat_map(|lists| lists()));
    let random = slow::beside((0..order.lists).flat_map(|number| random(order.seed, number)));
    let last = slow::beside([bytes::all(), reductions::bytes()].into_iter().flatten());
    let agree = compare_each(order, seen, first, |_, _| ())?;
    let agree = agree + compare_each(order, seen, random, Seen::count_random)?;
    Some(agree + compare_each(order, seen, last, |_, _| ())?)
}

fn arguments() -> Option<Order> {
    let arguments: Vec<String> = std::env::args().skip(1).collect();
    let number = |at: usize, default: u64| match arguments.get(at) {
        Some(text) => text.parse().ok(),
        None => Some(default),
    };
    if !(5..=8).contains(&arguments.len()) {
        return None;
    }
    let path = |name: &String| (name != "-").then(|| PathBuf::from(name));
    Some(Order {
        binaries: Binaries(arguments[..5].iter().map(path).collect()),
        lists: number(5, LISTS)?,
        seed: number(6, SEED)?,
        shrinking: Duration::from_secs(number(7, SECONDS)?),
    })
}

fn main() -> ExitCode {
    let Some(order) = arguments() else {
        eprintln!("usage: compare HEAD DRILL CONSOLE CONVERTER SLOW [LISTS [SEED [SECONDS]]]");
        return ExitCode::from(2);
    };
    for path in PROGRAMS.iter().filter_map(|&program| order.binaries.path(program)) {
        if !path.is_file() {
            eprintln!("compare: no program {}", path.display());
            return ExitCode::from(2);
        }
    }
    let cases = match cases::all() {
        Ok(cases) => cases,
        Err(names) => {
            println!("compare: the reference fails: {}", names.join("; "));
            return ExitCode::FAILURE;
        }
    };
    let mut seen = Seen::default();
    let Some(agree) = compare_all(&order, &mut seen) else {
        return ExitCode::FAILURE;
    };
    let tried = PROGRAMS.into_iter().filter(|&program| order.binaries.path(program).is_some());
    let (sights, mut missing) = seen.report(tried);
    missing.extend(seen.tell_late());
    if !missing.is_empty() {
        println!("compare: {}", missing.join("\ncompare: "));
        return ExitCode::FAILURE;
    }
    seen.tell_held();
    println!("{cases} cases of the papers, {sights} sights, {agree} lists");
    println!("passed {}", cases + sights + agree as usize);
    println!("compare: {agree} lists agree");
    ExitCode::SUCCESS
}

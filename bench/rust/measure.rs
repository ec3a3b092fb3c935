//! Measures the three programs beside each other: the proved one (crates/speed), the Rust that changes its state in
//! place and the Rust that passes it by value. The median of the turns counts. All three have to print the same
//! checksum each time. Prints the tables of docs/PERFORMANCE.md.
//!
//!     measure PROVED IN_PLACE BY_VALUE

mod carry;
mod engine;
mod in_place;
mod in_place_engine;
mod in_place_records;
mod lists;
mod reduce;
mod rules;
mod stream;
mod types;
mod works;

use lists::Reduction;
use types::*;
use works::Work;

const TURNS: usize = 9;
const SIDES: usize = 3;
const NAMES: [&str; SIDES] = ["proved", "in place", "by value"];

/// Nanoseconds a unit, for each side.
fn time(programs: &[String], work: &Work) -> Result<[f64; SIDES], String> {
    let turns = works::turns(programs, &[work; SIDES], TURNS)?;
    if turns.sums.iter().any(|sum| *sum != turns.sums[0]) {
        return Err(format!("{}: the checksums differ: {:?}", work.name, turns.sums));
    }
    Ok(std::array::from_fn(|side| works::median(turns.times.iter().map(|turn| turn[side]))))
}

/// A line of a table: the first columns, then a value for each side and the proved one's ratios to the others.
fn row(first: &[&str], values: [f64; SIDES], digits: usize) {
    let [proved, in_place, by_value] = values;
    let (to_in_place, to_by_value) = (proved / in_place, proved / by_value);
    println!(
        "| {} | {proved:.digits$} | {in_place:.digits$} | {by_value:.digits$} | {to_in_place:.2} | {to_by_value:.2} |",
        first.join(" | ")
    );
}

fn head(first: &[&str]) {
    let columns = [first, &NAMES, &["to in place", "to by value"]].concat();
    println!("\n| {} |\n|{}", columns.join(" | "), "---|".repeat(columns.len()));
}

fn instructions(programs: &[String], work: &Work) -> Result<[f64; SIDES], String> {
    let mut counts = [0.0; SIDES];
    for (count, program) in counts.iter_mut().zip(programs) {
        *count = works::instructions(program, work)?;
    }
    Ok(counts)
}

fn print_times(programs: &[String], works: &[Work]) -> Result<(), String> {
    head(&["nanoseconds a unit"]);
    let mut times = Vec::new();
    for work in works {
        times.push(time(programs, work)?);
        row(&[&work.name], times[times.len() - 1], 1);
    }
    head(&["millions of units a second"]);
    for (work, ns) in works.iter().zip(&times) {
        let [proved, in_place, by_value] = ns.map(|ns| 1e3 / ns);
        println!("| {} | {proved:.2} | {in_place:.2} | {by_value:.2} | | |", work.name);
    }
    println!("\nGrowth of a step's time from 2 to 64 channels:");
    for side in 0..SIDES {
        println!("{} {:.2} times.", NAMES[side], times[2][side] / times[0][side]);
    }
    Ok(())
}

fn print_instructions(programs: &[String], works: &[Work]) -> Result<(), String> {
    head(&["instructions a unit"]);
    for work in works {
        row(&[&work.name], instructions(programs, work)?, 0);
    }
    Ok(())
}

fn print_reductions(programs: &[String], reductions: &[Reduction]) -> Result<(), String> {
    head(&["microseconds a reduction", "calls kept", "replays"]);
    for Reduction { work, kept, replays } in reductions {
        let times = time(programs, work)?.map(|ns| ns / 1e3);
        row(&[&work.name, &kept.to_string(), &replays.to_string()], times, 0);
    }
    head(&["thousands of instructions a reduction"]);
    for Reduction { work, .. } in reductions {
        row(&[&work.name], instructions(programs, work)?.map(|count| count / 1e3), 0);
    }
    Ok(())
}

fn main() -> Result<(), String> {
    let programs: Vec<String> = std::env::args().skip(1).collect();
    assert_eq!(programs.len(), SIDES, "measure PROVED IN_PLACE BY_VALUE");
    let works = works::works();
    let reductions = lists::reductions()?;
    print!("Medians of {TURNS} turns. Units: a step, a recover, a record, a store carried. ");
    println!("All checksums are the same on the three sides.");
    print_times(&programs, &works)?;
    print_instructions(&programs, &works)?;
    print_reductions(&programs, &reductions)?;
    println!("\nA state has {} bytes.", std::mem::size_of::<State>());
    Ok(())
}

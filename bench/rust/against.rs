//! Measures the proved program of one commit beside another's, on the works of bench/run: the two in turns, the median
//! of the turns' ratios, and callgrind's counts. With a folder that the other commit's `inputs` wrote, the second
//! program does the works in it, and the first its own of the same names; without one, both do this commit's. Where
//! inputs or checksums differ, or one program fails on a work or has none of that name, what is printed says so: that
//! work is not the same on both sides.
//!
//!     against THIS THAT [DIR]

mod carry;
mod in_place;
mod in_place_records;
mod rules;
mod stream;
mod types;
mod works;

use std::path::Path;
use works::{median, Work};

const TURNS: usize = 11;

/// The works of a name, in the order of the programs.
type Pair<'a> = [&'a Work; 2];

/// A line of the first table; whether the same input has different checksums.
fn print_times(programs: &[String], pair: Pair) -> Result<bool, String> {
    let turns = works::turns(programs, &pair, TURNS)?;
    let [this, that] = [0, 1].map(|side| median(turns.times.iter().map(|turn| turn[side])));
    let ratios: Vec<f64> = turns.times.iter().map(|turn| turn[0] / turn[1]).collect();
    let least = ratios.iter().copied().fold(f64::INFINITY, f64::min);
    let most = ratios.iter().copied().fold(0.0, f64::max);
    let (said, differ) = if !pair[0].same_input(pair[1]) {
        ("other input", false)
    } else if turns.sums[0] == turns.sums[1] {
        ("the same", false)
    } else {
        ("DIFFERENT", true)
    };
    println!(
        "| {} | {this:.1} | {that:.1} | {:.3} | {least:.2} to {most:.2} | {said} |",
        pair[0].name,
        median(ratios.into_iter())
    );
    Ok(differ)
}

fn print_instructions(programs: &[String], pair: Pair) -> Result<(), String> {
    let this = works::instructions(&programs[0], pair[0])?;
    let that = works::instructions(&programs[1], pair[1])?;
    println!("| {} | {this:.0} | {that:.0} | {:.3} |", pair[0].name, this / that);
    Ok(())
}

/// Both tables; the names of the works whose input is the same and whose checksums differ.
fn print_tables<'a>(programs: &[String], pairs: &[Pair<'a>]) -> Vec<&'a str> {
    println!(
        "{TURNS} turns, each program first in every other one. Units: a step, a recover, a record, a store carried."
    );
    println!(
        "\n| nanoseconds a unit, medians | this | that | this to that | in the turns | checksums |"
    );
    println!("|---|---|---|---|---|---|");
    let mut differ = Vec::new();
    for &pair in pairs {
        match print_times(programs, pair) {
            Ok(true) => differ.push(pair[0].name.as_str()),
            Ok(false) => (),
            Err(why) => println!("| {} | not measured: {why} | | | | |", pair[0].name),
        }
    }
    println!("\n| instructions a unit | this | that | this to that |\n|---|---|---|---|");
    for &pair in pairs {
        if let Err(why) = print_instructions(programs, pair) {
            println!("| {} | not measured: {why} | | |", pair[0].name);
        }
    }
    differ
}

/// Some works' names and what is to be said of them, if there are any.
fn print_named(what: &str, names: &[&str], so: &str) {
    if !names.is_empty() {
        println!("\n{what}: {}.\n{so}", names.join("; "));
    }
}

/// The names of the works that the others have none of.
fn missing<'a>(works: &'a [Work], others: &[Work]) -> Vec<&'a str> {
    let names = works.iter().map(|work| work.name.as_str());
    names.filter(|&name| others.iter().all(|other| other.name != name)).collect()
}

fn main() -> Result<(), String> {
    let mut programs: Vec<String> = std::env::args().skip(1).collect();
    assert!(matches!(programs.len(), 2 | 3), "against THIS THAT [DIR]");
    let folder = programs.drain(2..).next();
    let these = works::works();
    let those = folder.map_or_else(|| Ok(works::works()), |dir| works::read(Path::new(&dir)))?;
    let named = |this: &Work| those.iter().find(|that| that.name == this.name);
    let pairs: Vec<Pair> = these.iter().filter_map(|this| Some([this, named(this)?])).collect();
    let differ = print_tables(&programs, &pairs);
    let other_input = pairs.iter().filter(|[this, that]| !this.same_input(that));
    let other_input: Vec<&str> = other_input.map(|[this, _]| this.name.as_str()).collect();
    print_named(
        "The inputs differ for",
        &other_input,
        "There each side got its own commit's, and their checksums are not held against each other.",
    );
    print_named(
        "The checksums differ for",
        &differ,
        "There the two programs don't do the same work, and their ratio compares different things.",
    );
    let alone = [missing(&these, &those), missing(&those, &these)].concat();
    print_named("Only one side has", &alone, "These are not measured.");
    Ok(())
}

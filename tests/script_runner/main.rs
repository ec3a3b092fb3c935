//! Runs the scripts: each case through `drill` and the reference, and those that don't limit the current through
//! `head`, `console`, its slow head and the reference's own too. A line for each case; the last says how many passed.
//!
//!     scripts HEAD DRILL CONSOLE FILE ..
//!     scripts --wrong FILE ..     tests this runner: each answer, made wrong, has to be found on the reference

mod play;
#[path = "../compare/runner.rs"]
mod runner;
mod script;
mod slow;
mod wrong;

use play::{play, Side};
use reference::console::SLOW;
use reference::program::{self, Program, Unwatched};
use script::Case;
use std::path::Path;
use std::process::ExitCode;

fn run(program: &str, input: &[u8]) -> Result<String, String> {
    let output = runner::run(Path::new(program), input)?;
    String::from_utf8(output).map_err(|error| error.to_string())
}

fn run_reference(program: Program, input: &[u8]) -> Result<String, String> {
    let output = program::run(program, input, &mut Unwatched);
    String::from_utf8(output).map_err(|error| error.to_string())
}

fn reference_head(input: &[u8]) -> Result<String, String> {
    run_reference(Program::Head, input)
}

fn reference_drill(input: &[u8]) -> Result<String, String> {
    run_reference(Program::Drill, input)
}

fn reference_console(input: &[u8]) -> Result<String, String> {
    run_reference(Program::Console, input)
}

fn reference_slow(input: &[u8]) -> Result<String, String> {
    run_reference(Program::Slow, input)
}

const REFERENCE: [Side; 4] = [
    Side { name: "the reference of drill", program: Program::Drill, run: &reference_drill },
    Side { name: "the reference of head", program: Program::Head, run: &reference_head },
    Side { name: "the reference of console", program: Program::Console, run: &reference_console },
    Side { name: "the reference's slow head", program: Program::Slow, run: &reference_slow },
];

/// Where a case isn't answered as expected, and how: the first such line on each side.
fn faults(case: &Case, sides: &[Side]) -> Vec<(usize, String)> {
    let played = |side: &&Side| side.program == Program::Drill || !case.limits_current();
    sides.iter().filter(played).filter_map(|side| play(case, side).err()).collect()
}

/// Whether every side answers a case as expected; its line is printed, and below it where and how one doesn't.
fn passes(file: &str, case: &Case, sides: &[Side]) -> bool {
    let tell = |(number, why): &(usize, String)| format!("  {file}:{number}: {why}");
    let faults: Vec<String> = faults(case, sides).iter().map(tell).collect();
    if faults.is_empty() {
        println!("ok {}", case.name);
    } else {
        println!("FAILED {}\n{}", case.name, faults.join("\n"));
    }
    faults.is_empty()
}

/// The cases of a script: how many passed and how many failed.
fn cases(file: &str, text: &str, sides: &[Side]) -> Result<(usize, usize), String> {
    let cases = script::read(file, text)?;
    let passed = cases.iter().filter(|case| passes(file, case, sides)).count();
    Ok((passed, cases.len() - passed))
}

/// The cases of the files through the programs and the reference.
fn play_all(programs: [&str; 3], files: &[String]) -> Result<(usize, usize), String> {
    if let Some(missing) = programs.iter().find(|program| !Path::new(program).is_file()) {
        return Err(format!("no program {missing}"));
    }
    let [head, drill, console] = programs;
    let run_head = |input: &[u8]| run(head, input);
    let run_drill = |input: &[u8]| run(drill, input);
    let run_console = |input: &[u8]| run(console, input);
    let run_slow = |input: &[u8]| run(console, &[&[SLOW], input].concat());
    let [reference_drill, reference_head, reference_console, reference_slow] = REFERENCE;
    let sides = [
        Side { name: "drill", program: Program::Drill, run: &run_drill },
        reference_drill,
        Side { name: "head", program: Program::Head, run: &run_head },
        reference_head,
        Side { name: "console", program: Program::Console, run: &run_console },
        reference_console,
        Side { name: "the slow head", program: Program::Slow, run: &run_slow },
        reference_slow,
    ];
    each(files, |file, text| cases(file, text, &sides))
}

/// How much passed and how much failed of what is done with each file's text.
fn each(
    files: &[String],
    work: impl Fn(&str, &str) -> Result<(usize, usize), String>,
) -> Result<(usize, usize), String> {
    let (mut passed, mut failed) = (0, 0);
    for file in files {
        let text = std::fs::read_to_string(file).map_err(|error| format!("{file}: {error}"))?;
        let (more, less) = work(file, &text)?;
        (passed, failed) = (passed + more, failed + less);
    }
    Ok((passed, failed))
}

fn main() -> ExitCode {
    let arguments: Vec<String> = std::env::args().skip(1).collect();
    let done = match &arguments[..] {
        [flag, files @ ..] if flag == "--wrong" => {
            each(files, |file, text| wrong::answers(file, text, &REFERENCE))
        }
        [head, drill, console, files @ ..] => play_all([head, drill, console], files),
        _ => {
            Err("usage: scripts HEAD DRILL CONSOLE FILE .., or scripts --wrong FILE ..".to_string())
        }
    };
    match done {
        Ok((passed, 0)) if passed > 0 => {
            println!("passed {passed}");
            ExitCode::SUCCESS
        }
        Ok((passed, failed)) => {
            println!("scripts: {failed} of {} failed", passed + failed);
            ExitCode::FAILURE
        }
        Err(why) => {
            println!("scripts: {why}");
            ExitCode::FAILURE
        }
    }
}

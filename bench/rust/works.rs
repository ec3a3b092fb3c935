//! The works that are measured, as files too, and how: programs run on their inputs one after the other, again and
//! again, and callgrind's counts.

use crate::carry::Form;
use crate::stream;
use crate::types::Topology;
use std::fs;
use std::io::Write;
use std::path::Path;
use std::process::{Command, Stdio};
use std::time::Instant;

/// A piece of work: what it is, how many units one time of it has, how often it is timed, its input after the count.
pub struct Work {
    pub name: String,
    pub units: usize,
    times: u32,
    mode: u8,
    rest: Vec<u8>,
}

impl Work {
    fn input(&self, times: u32) -> Vec<u8> {
        let mut bytes = vec![self.mode];
        bytes.extend(times.to_le_bytes());
        bytes.extend(&self.rest);
        bytes
    }

    /// Whether a program that is timed reads the same bytes.
    pub fn same_input(&self, other: &Work) -> bool {
        self.input(self.times) == other.input(other.times)
    }

    /// The file of a work: name, units and times, a line each, then its input without the count.
    fn to_file(&self) -> Vec<u8> {
        let head = format!("{}\n{}\n{}\n", self.name, self.units, self.times);
        [head.as_bytes(), &[self.mode], &self.rest].concat()
    }

    fn from_file(bytes: &[u8]) -> Option<Work> {
        let mut parts = bytes.splitn(4, |&byte| byte == b'\n');
        let mut line = || std::str::from_utf8(parts.next()?).ok();
        let (name, units, times) = (line()?, line()?, line()?);
        let (&mode, rest) = parts.next()?.split_first()?;
        Some(Work {
            name: name.to_string(),
            units: units.parse().ok()?,
            times: times.parse().ok()?,
            mode,
            rest: rest.to_vec(),
        })
    }
}

/// Works as the files of a folder, which is made where there is none.
pub fn write(works: &[Work], folder: &Path) -> Result<(), String> {
    let fault = |error| format!("{}: {error}", folder.display());
    fs::create_dir_all(folder).map_err(fault)?;
    for (number, work) in works.iter().enumerate() {
        fs::write(folder.join(number.to_string()), work.to_file()).map_err(fault)?;
    }
    Ok(())
}

/// The works of a folder, in no certain order.
pub fn read(folder: &Path) -> Result<Vec<Work>, String> {
    let fault = |error| format!("{}: {error}", folder.display());
    let mut works = Vec::new();
    for file in fs::read_dir(folder).map_err(fault)? {
        let path = file.map_err(fault)?.path();
        let work = Work::from_file(&fs::read(&path).map_err(fault)?);
        works.push(work.ok_or(format!("{} has no work", path.display()))?);
    }
    Ok(works)
}

pub fn work(name: &str, units: usize, times: u32, mode: u8, t: &Topology, data: &[u8]) -> Work {
    let mut rest = stream::plan_bytes(t);
    rest.extend(data);
    Work { name: name.to_string(), units, times, mode, rest }
}

/// The steps at three plans, the recover, the records read and written, stores carried to the present form and back.
/// All processes are early, but those of a recover that is measured beside the other.
pub fn works() -> Vec<Work> {
    let mut all = Vec::new();
    let mut last = Vec::new();
    for (processes, channels, times) in [(2, 2, 200), (8, 24, 130), (16, 64, 100)] {
        let t = stream::plan(processes, channels);
        last = stream::rounds(&t, 8000);
        let name = format!("steps at ({processes}, {channels})");
        all.push(work(&name, last.len(), times, 1, &t, &stream::script(&last)));
    }
    let t = stream::plan(16, 64);
    let full = stream::full_store(&t, Form::Present);
    all.push(work("recover, every log full", 1, 80_000, 2, &t, &full));
    let late = Topology { late: u16::MAX, ..t };
    all.push(work("recover, every log full, all late", 1, 80_000, 2, &late, &full));
    let records = stream::records(&last);
    all.push(work("records read", last.len(), 2000, 3, &t, &records));
    all.push(work("records written", last.len(), 3000, 4, &t, &stream::script(&last)));
    let old = stream::full_store(&t, Form::Old);
    all.push(work("upgrade, every log full", 1, 80_000, 6, &t, &old));
    all.push(work("downgrade, every log full", 1, 80_000, 7, &t, &full));
    all
}

/// What a program prints for an input.
fn run(command: &mut Command, input: &[u8]) -> Result<String, String> {
    let spawned = command.stdin(Stdio::piped()).stdout(Stdio::piped()).spawn();
    let mut child = spawned.map_err(|error| format!("{command:?}: {error}"))?;
    // A program may end before it has read everything; its status says whether that is a fault.
    let _ = child.stdin.take().expect("a piped standard input").write_all(input);
    let output = child.wait_with_output().map_err(|error| error.to_string())?;
    if !output.status.success() {
        return Err(format!("{command:?} ended with {}", output.status));
    }
    String::from_utf8(output.stdout).map_err(|error| error.to_string())
}

/// What the turns came to: nanoseconds a unit for each turn and each program, and the checksums of the first turn.
pub struct Turns {
    pub times: Vec<Vec<f64>>,
    pub sums: Vec<String>,
}

/// Every turn runs all programs, each on the input of its work, one after the other, and every other turn in the other
/// order. Each program has to print the same checksum in every turn.
pub fn turns(programs: &[String], works: &[&Work], count: usize) -> Result<Turns, String> {
    let inputs: Vec<Vec<u8>> = works.iter().map(|work| work.input(work.times)).collect();
    let mut all = Turns { times: Vec::new(), sums: vec![String::new(); programs.len()] };
    for turn in 0..count {
        let mut times = vec![0.0; programs.len()];
        for place in 0..programs.len() {
            let side = if turn % 2 == 0 { place } else { programs.len() - 1 - place };
            let work = works[side];
            let start = Instant::now();
            let sum = run(&mut Command::new(&programs[side]), &inputs[side])?;
            times[side] =
                start.elapsed().as_nanos() as f64 / (work.units as f64 * work.times as f64);
            if turn == 0 {
                all.sums[side] = sum;
            } else if sum != all.sums[side] {
                return Err(format!(
                    "{}: {} prints another checksum in turn {turn}",
                    work.name, programs[side]
                ));
            }
        }
        all.times.push(times);
    }
    Ok(all)
}

pub fn median(values: impl Iterator<Item = f64>) -> f64 {
    let mut values: Vec<f64> = values.collect();
    values.sort_by(f64::total_cmp);
    values[values.len() / 2]
}

/// A program's instructions a unit: what callgrind counts more for three times the work than for once. A work that is
/// timed very often is a short one, and is counted a hundred times for once.
pub fn instructions(program: &str, work: &Work) -> Result<f64, String> {
    let few = if work.times < 10_000 { 1 } else { 100 };
    let count = |times| counted(program, &work.input(times));
    Ok((count(3 * few)? - count(few)?) / (2.0 * few as f64 * work.units as f64))
}

fn counted(program: &str, input: &[u8]) -> Result<f64, String> {
    let log = std::env::temp_dir().join(format!("callgrind.{}", std::process::id()));
    let mut command = Command::new("valgrind");
    command.arg("--tool=callgrind").arg("--callgrind-out-file=/dev/null");
    command.arg(format!("--log-file={}", log.display())).arg(program);
    run(&mut command, input)?;
    let said = fs::read_to_string(&log).map_err(|error| error.to_string())?;
    fs::remove_file(&log).map_err(|error| error.to_string())?;
    let collected = said.lines().find_map(|line| line.split("Collected : ").nth(1));
    let count = collected.and_then(|count| count.trim().parse().ok());
    count.ok_or("no count in callgrind's log".to_string())
}

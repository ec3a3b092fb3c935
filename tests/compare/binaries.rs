//! The programs to be tried, and an input through one of them and the reference.

use crate::beside;
use crate::carried;
use crate::judge;
use crate::plans;
use crate::runner;
use crate::seen::{Seen, AS_LONG, LONGER};
use crate::watcher::Watcher;
use reference::console::{self, SLOW};
use reference::migrate::{DOWNGRADE, UPGRADE};
use reference::program::{self, Program, Unwatched};
use std::cmp::Ordering;
use std::path::{Path, PathBuf};

pub const PROGRAMS: [Program; 5] =
    [Program::Head, Program::Drill, Program::Console, Program::Converter, Program::Slow];

/// The programs, in that order; none where one is left out.
pub struct Binaries(pub Vec<Option<PathBuf>>);

/// How an input fails: what would be right, and what was got; why, where that
/// doesn't show it.
pub struct Failure {
    pub expected: Vec<u8>,
    pub got: Result<Vec<u8>, String>,
    pub why: Option<String>,
}

impl Binaries {
    pub fn path(&self, program: Program) -> Option<&Path> {
        self.0[program as usize].as_deref()
    }

    /// Runs the reference and the binary on an input.
    pub fn compare(&self, program: Program, bytes: &[u8], seen: &mut Seen) -> Option<Failure> {
        let path = self.path(program)?;
        match bytes.len().cmp(&program.takes()) {
            Ordering::Less => (),
            Ordering::Equal => seen.count(program, AS_LONG),
            Ordering::Greater => seen.count(program, LONGER),
        }
        match (program, bytes) {
            (Program::Head | Program::Drill, _) => hold(path, program, bytes, seen),
            (Program::Console, [UPGRADE | DOWNGRADE, ..]) | (Program::Converter, _) => {
                carry(path, program, bytes, seen)
            }
            (Program::Console, [SLOW, bytes @ ..]) | (Program::Slow, bytes) => {
                beside::compare(self, path, bytes, seen)
            }
            (Program::Console, _) => judge(path, bytes, seen),
        }
    }
}

/// Byte for byte, with demand 3.
fn hold(path: &Path, program: Program, bytes: &[u8], seen: &mut Seen) -> Option<Failure> {
    for sight in plans::refused("plan refused", bytes) {
        seen.count(program, sight);
    }
    let mut watcher = Watcher::new(program, seen);
    let expected = program::run(program, bytes, &mut watcher);
    let why = watcher.fault;
    let got = runner::run(path, bytes);
    let same = got.as_ref().is_ok_and(|got| *got == expected);
    (!same || why.is_some()).then_some(Failure { expected, got, why })
}

/// By M-100's definition.
fn judge(path: &Path, bytes: &[u8], seen: &mut Seen) -> Option<Failure> {
    let got = runner::run(path, bytes);
    let why = match &got {
        Ok(got) => Some(judge::judge(bytes, got, seen).err()?),
        Err(_) => None,
    };
    Some(Failure { expected: console::run(bytes), got, why })
}

/// Byte for byte; and a store that was carried, there and back, by restarts.
fn carry(path: &Path, program: Program, bytes: &[u8], seen: &mut Seen) -> Option<Failure> {
    let expected = program::run(program, bytes, &mut Unwatched);
    let got = runner::run(path, bytes);
    let run = |input: &[u8]| runner::run(path, input);
    let why = match &got {
        Ok(got) if *got == expected => Some(carried::judge(program, bytes, got, &run, seen).err()?),
        _ => None,
    };
    Some(Failure { expected, got, why })
}

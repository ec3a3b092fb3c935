//! Judges what `console` prints. Which smallest part comes back is left open, so
//! a part is held against M-100's definition; all else is told byte for byte.

use crate::plans;
use crate::rules;
use crate::seen::{Seen, Sight};
use crate::wanted::IN_A_PART;
use reference::console::{Question, REDUCE};
use reference::program::Program;
use reference::record;
use reference::reduce::MOST;
use reference::topology::Topology;

/// Why an output isn't right for an input; what was seen in it counts.
pub fn judge(input: &[u8], output: &[u8], seen: &mut Seen) -> Result<(), String> {
    match Question::read(input) {
        Ok(question) => {
            let part = judge_part(&question, output)?;
            count_part(&question, &part, seen);
        }
        Err(line) if line.as_bytes() == output => {
            for sight in why_refused(input, &line) {
                seen.count(Program::Console, sight);
            }
        }
        Err(line) => return Err(format!("not the line {}", line.trim_end())),
    }
    Ok(())
}

/// The part that an output names, if it is the text of a smallest one.
fn judge_part(question: &Question, output: &[u8]) -> Result<Vec<usize>, String> {
    let text = std::str::from_utf8(output).map_err(|error| error.to_string())?;
    let places: Option<Vec<usize>> = text.lines().skip(1).map(place).collect();
    let known = |places: &Vec<usize>| places.iter().all(|&at| at < question.list.calls.len());
    let part = places.filter(known).ok_or("a line has no number of a call")?;
    if question.text(&part) != text {
        return Err("not the text of the part with these numbers".to_string());
    }
    question.list.fault(&part).map_or(Ok(part), Err)
}

/// The place of a call in the list, counted from 0, by the number in its line.
fn place(line: &str) -> Option<usize> {
    let (_, number) = line.split_once(" # ")?;
    number.split(' ').next()?.parse::<usize>().ok()?.checked_sub(1)
}

/// What counts as seen where a line is printed instead of a part.
fn why_refused(input: &[u8], line: &str) -> Vec<Sight> {
    let number = line.trim_end().rsplit(' ').next().and_then(|number| number.parse().ok());
    let number = number.expect("a line ends with a number");
    let what = match (line.strip_prefix("plan "), number, input) {
        (Some(_), ..) => return plans::refused("plan refused", &input[1..]),
        (_, 7, []) => "no input",
        (_, 7, [first, ..]) if *first != REDUCE => "nothing known is asked",
        (_, 7, _) if whole_records(input) > MOST => "record, after 256",
        (_, 7, _) => "record",
        (_, 17, _) => "no call is refused",
        _ => "over 256 calls",
    };
    vec![("refused", what, number)]
}

/// How many records can be read.
fn whole_records(input: &[u8]) -> usize {
    let mut rest = Topology::read(&input[1..]).map_or(&[][..], |(_, rest)| rest);
    let records = std::iter::from_fn(|| {
        let (record, remaining) = record::read(rest).ok()?;
        rest = remaining;
        Some(record)
    });
    records.count()
}

fn count_part(question: &Question, part: &[usize], seen: &mut Seen) {
    let list = &question.list;
    let (calls, kept) = (list.calls.len(), part.len());
    let refused = list.calls[list.first.place];
    let mut count = |sight| seen.count(Program::Console, sight);
    count(rules::refusal(rules::rule(&list.state, refused), refused, list.first.number));
    count(("part of", size(kept), 0));
    for room in list.rooms(part).into_iter().flatten() {
        count(("sent", IN_A_PART, room as u64));
    }
    if list.first.place + 1 == MOST {
        count(("refused at", "the 256th call", 0));
    }
    if list.first.place + 1 < calls {
        count(("refused at", "a call before the last", 0));
    }
    if (calls, kept) == (MOST, 2) {
        count(("kept", "2 of 256 calls", 0));
    }
    if kept > 100 && kept == calls {
        count(("kept", "all of more than 100 calls", 0));
    }
    seen.parts += 1;
    seen.left_out += (calls - kept) as u64;
}

/// Of a part's sizes. No list has parts of 3 to 8 calls alone.
fn size(calls: usize) -> &'static str {
    match calls {
        1 => "1 call",
        2 => "2 calls",
        3..=8 => "3 to 8 calls",
        9..=31 => "9 to 31 calls",
        32..=127 => "32 to 127 calls",
        _ => "128 calls or more",
    }
}

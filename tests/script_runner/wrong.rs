//! Tests the runner itself: each answer that a script expects is made a wrong one, and has to be found in its line.

use crate::faults;
use crate::play::Side;
use crate::script::{self, Case};

/// How many of a script's answers, made wrong, are found where they stand, and how many aren't.
pub fn answers(file: &str, text: &str, sides: &[Side]) -> Result<(usize, usize), String> {
    let (mut found, mut missed) = (0, 0);
    for number in script::read(file, text)?.iter().flat_map(expecting) {
        let wrong = with_wrong_answer(text, number);
        let cases = script::read(file, &wrong)?;
        if cases.iter().any(|case| has_line(case, number) && is_found(case, number, sides)) {
            found += 1;
        } else {
            println!("{file}:{number}: a wrong answer is not found");
            missed += 1;
        }
    }
    println!("{file}: {found} wrong answers found");
    Ok((found, missed))
}

/// The lines of a case that have an answer.
fn expecting(case: &Case) -> Vec<usize> {
    let lines = case.lines.iter().filter(|line| line.expected.is_some());
    lines.map(|line| line.number).collect()
}

fn has_line(case: &Case, number: usize) -> bool {
    case.lines.iter().any(|line| line.number == number)
}

/// The script with another answer in a line: one digit more.
fn with_wrong_answer(text: &str, number: usize) -> String {
    let line = |(at, line): (usize, &str)| match line.split('#').next() {
        Some(words) if at + 1 == number => format!("{}1\n", words.trim_end()),
        _ => format!("{line}\n"),
    };
    text.lines().enumerate().map(line).collect()
}

/// Whether some side finds a fault, and none elsewhere than in this line.
fn is_found(case: &Case, number: usize, sides: &[Side]) -> bool {
    let faults = faults(case, sides);
    !faults.is_empty() && faults.iter().all(|(at, _)| *at == number)
}

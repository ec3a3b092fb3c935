//! A script on the slow head (M-106): one run answers all calls since setup. Of a list of over 256 calls it answers
//! none, but `refused 18`.

use crate::play::{after, check, messages, Side};
use crate::script::{Case, Command, Line};
use reference::record;
use reference::reduce::MOST;

struct SlowPlay<'a> {
    side: &'a Side<'a>,
    plan: Vec<u8>,
    /// The calls so far: the input, and how many they are.
    input: Vec<u8>,
    calls: usize,
    /// Calls whose answers are still to be looked at: their numbers and lines.
    open: Vec<(usize, &'a Line)>,
}

/// Plays a case; the line that isn't answered as expected, and why.
pub fn play(case: &Case, side: &Side) -> Result<(), (usize, String)> {
    let mut play =
        SlowPlay { side, plan: Vec::new(), input: Vec::new(), calls: 0, open: Vec::new() };
    for line in &case.lines {
        play.line(line)?;
    }
    play.look()
}

impl<'a> SlowPlay<'a> {
    fn line(&mut self, line: &'a Line) -> Result<(), (usize, String)> {
        match &line.command {
            Command::Plan(bytes) => self.plan = bytes.clone(),
            Command::Setup => return self.setup(line),
            Command::Call(bytes) if record::read(bytes).is_ok() => self.call(line, bytes),
            // It ends the reading, so what follows it in a script is read without it.
            Command::Call(bytes) => {
                return self.question(line, bytes, &(self.calls + 1).to_string())
            }
            Command::Deliver(n) => messages(*n).for_each(|bytes| self.call(line, &bytes)),
            Command::Board(board) => return self.question(line, &[], &format!("board {board}")),
            Command::Wire(wire) => return self.question(line, &[], &format!("wire {wire}")),
            Command::Slow => return self.all(line),
            _ => (),
        }
        Ok(())
    }

    fn tell(&self, line: &Line, why: String) -> (usize, String) {
        (line.number, format!("{}: {}: {why}", self.side.name, line.text))
    }

    fn run(&self, line: &Line, more: &[u8]) -> Result<String, (usize, String)> {
        (self.side.run)(&[&self.input, more].concat()).map_err(|why| self.tell(line, why))
    }

    fn check(&self, line: &Line, answer: &str) -> Result<(), (usize, String)> {
        check(line, answer).map_err(|why| self.tell(line, why))
    }

    fn setup(&mut self, line: &'a Line) -> Result<(), (usize, String)> {
        self.look()?;
        (self.input, self.calls) = (self.plan.clone(), 0);
        let text = self.run(line, &[])?;
        let refused = after(&text, "plan refused");
        let answer = refused.map_or("ready".to_string(), |number| format!("refused {number}"));
        self.check(line, &answer)
    }

    fn call(&mut self, line: &'a Line, bytes: &[u8]) {
        self.input.extend(bytes);
        self.calls += 1;
        self.open.push((self.calls, line));
    }

    /// Looks at the answers of all calls that are still open.
    fn look(&mut self) -> Result<(), (usize, String)> {
        let open = std::mem::take(&mut self.open);
        let Some(&(_, last)) = open.last() else {
            return Ok(());
        };
        let text = self.run(last, &[])?;
        if self.calls > MOST {
            return if text == "refused 18\n" { Ok(()) } else { Err(self.tell(last, text)) };
        }
        for (number, line) in open {
            let answer = after(&text, &number.to_string()).unwrap_or("no line for it");
            self.check(line, answer)?;
        }
        Ok(())
    }

    /// What stands after these words, where there are further bytes; of a list that is too long that isn't shown.
    fn question(
        &mut self,
        line: &'a Line,
        more: &[u8],
        words: &str,
    ) -> Result<(), (usize, String)> {
        self.look()?;
        if self.calls > MOST {
            return Ok(());
        }
        let text = self.run(line, more)?;
        self.check(line, after(&text, words).unwrap_or("not printed"))
    }

    /// How many lines it prints; a line alone as it is.
    fn all(&mut self, line: &'a Line) -> Result<(), (usize, String)> {
        self.look()?;
        let text = self.run(line, &[])?;
        let answer = match text.lines().count() {
            1 => text.trim_end().to_string(),
            lines => format!("{lines} lines"),
        };
        self.check(line, &answer)
    }
}

//! The line in words (request 9) as the C function gives it: what every line
//! has to be, and calls with bytes of every length that matters.

mod answers;
mod claims;
mod faults;
mod met;
mod standin;

use std::fmt;

use crate::answer::Answer;
use crate::harness::Lent;
use crate::line::LONGEST_LINE;
use crate::rng::Rng;

pub use answers::answers;
pub use claims::{ask, Ledger};
pub use faults::Fault;
pub use met::Met;
pub use standin::Standin;

/// The C function of request 9: writes the line of an answer and gives its
/// length, or 0 where the bytes do not suffice.
pub trait Lines {
    fn line(&self, answer: Answer, line: &mut [u8]) -> u32;
}

/// What to run.
#[derive(Clone, Copy, Debug)]
pub struct Settings {
    pub seed: u64,
    pub answers: u64,
    /// Whether each answer goes to standard error before its calls.
    pub trace: bool,
}

/// Asks for the lines of all answers, up to the first that is wrong.
pub fn run(settings: &Settings, theirs: &dyn Lines) -> Result<Met, Difference> {
    let mut met = Met::default();
    for (number, answer) in (0..).zip(answers(settings.answers, settings.seed)) {
        if settings.trace {
            eprintln!("answer {answer}");
        }
        let mut course = Course {
            theirs,
            answer,
            rng: Rng::for_case(settings.seed, number),
            calls: 0,
        };
        course.run(number, &mut met).map_err(|how| Difference {
            settings: *settings,
            answer,
            how,
        })?;
        met.meet(answer, course.calls);
    }
    Ok(met)
}

/// More bytes than any line has.
const PLENTY: usize = 120;

/// The calls of one answer.
struct Course<'a> {
    theirs: &'a dyn Lines,
    answer: Answer,
    rng: Rng,
    calls: u64,
}

impl Course<'_> {
    fn run(&mut self, number: u64, met: &mut Met) -> Result<(), String> {
        let line = self.line()?;
        let told = |how| format!("the line \"{}\": {how}", line.escape_ascii());
        ask(self.answer, &line).map_err(told)?;
        met.lines.meet(self.answer, &line).map_err(told)?;
        for lent in self.lengths(number, line.len()) {
            self.call(lent).ask(&line)?;
        }
        Ok(())
    }

    /// The line, with more bytes lent than it needs.
    fn line(&mut self) -> Result<Vec<u8>, String> {
        let call = self.call(PLENTY);
        let given = call.given;
        let line = match call.after.part().get(..given as usize) {
            None | Some([]) => return Err(format!("gives {given} with {PLENTY} bytes lent")),
            Some(line) => line.to_vec(),
        };
        call.ask(&line).map(|()| line)
    }

    /// How many bytes are lent: edges, lengths whose last bits say too little,
    /// and for some answers every length up to more than enough.
    fn lengths(&mut self, number: u64, length: usize) -> Vec<usize> {
        let mut lengths = vec![0, 1, length - 1, length, length + 1];
        lengths.extend([LONGEST_LINE, LONGEST_LINE + 1, PLENTY]);
        lengths.push(self.rng.below(length));
        lengths.push(256 + self.rng.below(length));
        if number.is_multiple_of(64) {
            lengths.push(65_536 + self.rng.below(length));
            lengths.extend(0..=PLENTY);
        }
        lengths
    }

    fn call(&mut self, lent: usize) -> Call {
        self.calls += 1;
        let before = Lent::noise(lent, &mut self.rng);
        let mut after = before.clone();
        Call {
            given: self.theirs.line(self.answer, after.part_mut()),
            before,
            after,
        }
    }
}

/// A call: what it gave, and the bytes before and after it.
struct Call {
    given: u32,
    before: Lent,
    after: Lent,
}

impl Call {
    /// The line and its length where the bytes suffice, else 0 and nothing.
    fn ask(&self, line: &[u8]) -> Result<(), String> {
        let (mut right, lent) = (self.before.clone(), self.before.part().len());
        let mut length = 0;
        if let Some(part) = right.part_mut().get_mut(..line.len()) {
            part.copy_from_slice(line);
            length = line.len();
        }
        let (line, given) = (line.escape_ascii(), self.given);
        let told = format!("the line \"{line}\", with {lent} bytes lent");
        if given as usize != length {
            return Err(format!("{told}: gives {given}, and not {length}"));
        }
        if self.after != right {
            let found = self.after.part().escape_ascii();
            return Err(format!(
                "{told}: gives {given}, and leaves \"{found}\", and perhaps others around them"
            ));
        }
        Ok(())
    }
}

/// An answer whose line, or one of whose calls, is wrong.
#[derive(Clone, Debug)]
pub struct Difference {
    settings: Settings,
    pub answer: Answer,
    pub how: String,
}

impl fmt::Display for Difference {
    fn fmt(&self, out: &mut fmt::Formatter<'_>) -> fmt::Result {
        let Settings { seed, answers, .. } = self.settings;
        writeln!(out, "difference at the answer {}", self.answer)?;
        writeln!(out, "{}", self.how)?;
        writeln!(out, "made again by: lines {answers} {seed}")
    }
}

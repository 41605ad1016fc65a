//! Calls made to both implementations, and what may differ.

use std::fmt;

use super::lent::Lent;
use super::met::Met;
use crate::answer::Answer;
use crate::boundary::Boundary;
use crate::hex::digits;

/// The number of calls, function by function.
#[derive(Clone, Copy, Debug, Default)]
pub struct Calls {
    pub check: u64,
    pub build: u64,
    pub start: u64,
    pub step: u64,
    pub step_all: u64,
    pub arrivals: u64,
    pub gates: u64,
}

impl Calls {
    pub fn total(&self) -> u64 {
        let on_images = self.check + self.build + self.arrivals + self.gates;
        on_images + self.start + self.step + self.step_all
    }
}

/// A call that the two implementations answer differently.
#[derive(Clone, Debug)]
pub struct Difference {
    case: u64,
    call: String,
    ours: String,
    theirs: String,
}

impl Difference {
    /// Some call wrote to the image.
    pub fn of_image(before: &[u8], after: &[u8]) -> Difference {
        Difference {
            case: 0,
            call: "any on the image, which was not lent for writing".to_string(),
            ours: hex(before),
            theirs: hex(after),
        }
    }

    pub fn in_case(self, case: u64) -> Difference {
        Difference { case, ..self }
    }
}

impl fmt::Display for Difference {
    fn fmt(&self, out: &mut fmt::Formatter<'_>) -> fmt::Result {
        writeln!(out, "difference in case {}", self.case)?;
        writeln!(out, "call: {}", self.call)?;
        writeln!(out, "ours: {}", self.ours)?;
        writeln!(out, "theirs: {}", self.theirs)
    }
}

/// Two implementations side by side.
pub struct Pair<'a> {
    ours: &'a dyn Boundary,
    theirs: &'a dyn Boundary,
    pub calls: Calls,
    pub met: Met,
}

impl<'a> Pair<'a> {
    pub fn new(ours: &'a dyn Boundary, theirs: &'a dyn Boundary) -> Pair<'a> {
        Pair {
            ours,
            theirs,
            calls: Calls::default(),
            met: Met::default(),
        }
    }

    pub fn check(&mut self, image: &[u8]) -> Result<u64, Difference> {
        self.calls.check += 1;
        let (ours, theirs) = (self.ours.check(image), self.theirs.check(image));
        if ours == theirs {
            return Ok(ours);
        }
        Err(Difference {
            case: 0,
            call: format!("check of image {}", hex(image)),
            ours: answer(ours),
            theirs: answer(theirs),
        })
    }

    pub fn build(&mut self, image: &[u8], lane: u32, words: &mut Lent) -> Result<u64, Difference> {
        self.calls.build += 1;
        let what = format_args!("build of lane {lane}");
        self.call_on(image, words, what, |of, words| of.build(image, lane, words))
    }

    pub fn build_all(&mut self, image: &[u8], words: &mut Lent) -> Result<u64, Difference> {
        self.calls.build += 1;
        let what = format_args!("build of all lanes");
        self.call_on(image, words, what, |of, words| of.build_all(image, words))
    }

    pub fn arrivals(
        &mut self,
        image: &[u8],
        frame: u32,
        ticks: &mut Lent,
    ) -> Result<u64, Difference> {
        self.calls.arrivals += 1;
        let what = format_args!("arrivals of frame {frame}");
        self.call_on(image, ticks, what, |of, ticks| {
            of.arrivals(image, frame, ticks)
        })
    }

    pub fn gates(&mut self, image: &[u8], link: u32, words: &mut Lent) -> Result<u64, Difference> {
        self.calls.gates += 1;
        let what = format_args!("gates of link {link}");
        self.call_on(image, words, what, |of, words| of.gates(image, link, words))
    }

    /// A call on an image that writes to lent bytes, which then hold what both
    /// wrote.
    fn call_on(
        &self,
        image: &[u8],
        lent: &mut Lent,
        what: fmt::Arguments,
        call: impl Fn(&dyn Boundary, &mut [u8]) -> u64,
    ) -> Result<u64, Difference> {
        let mut other = lent.clone();
        let ours = call(self.ours, lent.part_mut());
        let theirs = call(self.theirs, other.part_mut());
        if (ours, &*lent) == (theirs, &other) {
            return Ok(ours);
        }
        let length = lent.part().len();
        Err(Difference {
            case: 0,
            call: format!("{what} into {length} bytes, image {}", hex(image)),
            ours: outcome(&answer(ours), lent),
            theirs: outcome(&answer(theirs), &other),
        })
    }

    pub fn start(&mut self, cycle: u64, first: u32, state: &mut Lent) -> Result<u32, Difference> {
        self.calls.start += 1;
        let mut other = state.clone();
        let ours = self.ours.start(cycle, first, state.part_mut());
        let theirs = self.theirs.start(cycle, first, other.part_mut());
        if (ours, &*state) == (theirs, &other) {
            return Ok(ours);
        }
        let length = state.part().len();
        Err(Difference {
            case: 0,
            call: format!("start in cycle {cycle} at word {first}, {length} bytes"),
            ours: outcome(&ours.to_string(), state),
            theirs: outcome(&theirs.to_string(), &other),
        })
    }

    pub fn step(&mut self, words: &Lent, state: &mut Lent) -> Result<u32, Difference> {
        self.calls.step += 1;
        let (ours, theirs) = (self.ours, self.theirs);
        compare_steps("step", words, state, |words, state, is_ours| {
            let chosen = if is_ours { ours } else { theirs };
            chosen.step(words, state)
        })
    }

    pub fn step_all(&mut self, words: &Lent, states: &mut Lent) -> Result<u32, Difference> {
        self.calls.step_all += 1;
        let (ours, theirs) = (self.ours, self.theirs);
        compare_steps("step_all", words, states, |words, states, is_ours| {
            let chosen = if is_ours { ours } else { theirs };
            chosen.step_all(words, states)
        })
    }
}

fn compare_steps(
    name: &str,
    words: &Lent,
    states: &mut Lent,
    call: impl Fn(&[u8], &mut [u8], bool) -> u32,
) -> Result<u32, Difference> {
    let before = states.clone();
    let mut other = states.clone();
    let their_words = words.clone();
    let ours = call(words.part(), states.part_mut(), true);
    let theirs = call(their_words.part(), other.part_mut(), false);
    if (ours, &*states, words) == (theirs, &other, &their_words) {
        return Ok(ours);
    }
    let (lent, state) = (hex(words.part()), hex(before.part()));
    Err(Difference {
        case: 0,
        call: format!("{name} of states {state} over words {lent}"),
        ours: outcome(&ours.to_string(), states),
        theirs: outcome(&theirs.to_string(), &other),
    })
}

/// The answer, and the bytes as the call left them.
fn outcome(answer: &str, lent: &Lent) -> String {
    format!("{answer} leaving {}", hex(lent.part()))
}

fn answer(code: u64) -> String {
    Answer::of_code(code).to_string()
}

fn hex(bytes: &[u8]) -> String {
    format!("[{}] {}", bytes.len(), digits(bytes))
}

//! The tick timer (request 12) as the C functions have it: lists of calls on
//! one block, beside the model and beside a counter that does not wrap; and lanes
//! stepped by it.

mod aims;
mod beside;
mod calls;
mod drive;
mod faults;
mod met;
mod source;
mod standin;
mod truth;

use std::fmt;

use crate::boundary::Boundary;
use crate::rng::Rng;
use beside::{Beside, Note};

pub use calls::{Call, Outcome, Timers};
pub use faults::Fault;
pub use met::Met;
pub use source::{round, set_up, Source};
pub use standin::Standin;

/// What is asked of an implementation.
#[derive(Clone, Copy, Debug, PartialEq, Eq)]
pub enum Asked {
    All,
    /// The request's claims about the true counter, without the model.
    Claims,
    /// The steps that the timer drives alone.
    Steps,
}

/// What to run.
#[derive(Clone, Copy, Debug)]
pub struct Settings {
    pub seed: u64,
    /// The lists; each is made of the seed and its number alone.
    pub first_list: u64,
    pub lists: u64,
    pub asked: Asked,
    /// Whether each list's number goes to standard error before its calls.
    pub trace: bool,
}

/// Runs all lists, up to the first difference.
pub fn run(
    settings: &Settings,
    timers: &dyn Timers,
    lanes: &dyn Boundary,
) -> Result<Met, Difference> {
    let mut met = Met::default();
    for number in settings.first_list..settings.first_list + settings.lists {
        if settings.trace {
            eprintln!("list {number}");
        }
        let rng = &mut Rng::for_case(settings.seed, number);
        let mut list = Vec::new();
        let notes = (&mut met, &mut list);
        let outcome = match (is_of_steps(number), settings.asked) {
            (true, Asked::All | Asked::Steps) => drive::drive(timers, lanes, notes, rng),
            (false, Asked::All | Asked::Claims) => {
                let room = aims::any_room(number, rng);
                let beside = Beside::new(timers, settings.asked, room, notes, rng);
                on_block(beside, rng)
            }
            _ => Ok(()),
        };
        outcome.map_err(|how| Difference {
            seed: settings.seed,
            number,
            list,
            how,
        })?;
    }
    Ok(met)
}

/// Whether a list is one of steps driven by the timer: one in eight.
fn is_of_steps(number: u64) -> bool {
    number % 8 == 5
}

/// A list of calls on a block, fresh or of any bytes.
fn on_block(mut beside: Beside, rng: &mut Rng) -> Result<(), String> {
    beside.overwrite(&aims::any_block(rng), rng.below(3) as u64);
    for _ in 0..rng.within(20..=60) {
        aims::any_turn(&mut beside, rng)?;
    }
    Ok(())
}

/// A list whose last call is wrong.
#[derive(Clone, Debug)]
pub struct Difference {
    pub seed: u64,
    pub number: u64,
    list: Vec<Note>,
    pub how: String,
}

impl Difference {
    /// The last call, and what is wrong with it.
    pub fn last(&self) -> String {
        let call = self.list.last().map_or(String::new(), Note::to_string);
        format!("{call}; {}", self.how)
    }
}

impl fmt::Display for Difference {
    fn fmt(&self, out: &mut fmt::Formatter<'_>) -> fmt::Result {
        let (seed, number) = (self.seed, self.number);
        writeln!(out, "difference in list {number} of seed {seed}")?;
        for (at, note) in self.list.iter().enumerate() {
            writeln!(out, "{:5} {note}", at + 1)?;
        }
        writeln!(out, "the last is wrong:")?;
        writeln!(out, "{}", self.how)?;
        writeln!(out, "made again by: timers 1 {seed} {number}")
    }
}

//! Two implementations of the C boundary, called side by side.
//!
//! Every call goes to both with bytes of their own, and answers and all bytes
//! are compared, also those before and behind what was lent.

mod cases;
mod lent;
mod met;
mod pair;

use crate::boundary::Boundary;
use crate::histogram::Histogram;
use crate::rng::Rng;

pub use cases::image_of;
pub use lent::Lent;
pub use met::Met;
pub use pair::{Calls, Difference, Pair};

/// What to run.
#[derive(Clone, Copy, Debug)]
pub struct Settings {
    pub seed: u64,
    /// The cases to run; each is made of the seed and its number alone.
    pub first_case: u64,
    pub cases: u64,
    /// Whether plans with full tables and long cycles are among them.
    pub large: bool,
    /// Whether each case's number goes to standard error before it runs, to
    /// find the one in which a library ends the process.
    pub trace: bool,
}

/// What was run without a difference.
#[derive(Clone, Debug, Default)]
pub struct Summary {
    /// How many mutants each question refused first, and how many none did.
    pub mutants: Histogram,
    /// The same of all other images.
    pub others: Histogram,
    pub calls: Calls,
    /// What the calls for gate lists met.
    pub gates: Met,
}

/// Runs all cases, up to the first difference.
pub fn run(
    settings: &Settings,
    ours: &dyn Boundary,
    theirs: &dyn Boundary,
) -> Result<Summary, Difference> {
    let mut summary = Summary::default();
    let mut pair = pair::Pair::new(ours, theirs);
    for case in settings.first_case..settings.first_case + settings.cases {
        if settings.trace {
            eprintln!("case {case}");
        }
        let mut rng = Rng::for_case(settings.seed, case);
        let outcome = cases::run(case, settings.large, &mut pair, &mut rng)
            .map_err(|difference| difference.in_case(case))?;
        let images = if outcome.is_mutant {
            &mut summary.mutants
        } else {
            &mut summary.others
        };
        images.count(outcome.number);
    }
    summary.calls = pair.calls;
    summary.gates = pair.met;
    Ok(summary)
}

//! What a plan leaves open: clocks and delays.

use std::fmt;

use super::clocks::{self, Clocks};
use super::delays::{self, Delays};
use crate::image::Plan;
use crate::rng::Rng;

/// One choice of both.
#[derive(Clone, Debug, PartialEq, Eq)]
pub struct Choice {
    pub clocks: Clocks,
    pub delays: Delays,
}

impl Choice {
    /// These clocks, and each crossing as long as may be.
    pub fn of(plan: &Plan, clocks: Clocks) -> Choice {
        Choice {
            clocks,
            delays: Delays::highest(plan),
        }
    }
}

impl fmt::Display for Choice {
    fn fmt(&self, out: &mut fmt::Formatter<'_>) -> fmt::Result {
        writeln!(out, "clocks: {}", self.clocks)?;
        writeln!(out, "delays: {}", self.delays)
    }
}

/// Every choice of clocks, at most so far ahead, with the highest delays and
/// with the lowest, then with others in turn; all others are among them.
pub fn choices(plan: &Plan, most: u32, rng: &mut Rng) -> Vec<Choice> {
    let clocks = clocks::choices(plan, most, rng);
    let others = delays::others(plan, rng);
    let highest = clocks.iter().map(|clocks| Choice::of(plan, clocks.clone()));
    let lowest = clocks.iter().map(|clocks| Choice {
        clocks: clocks.clone(),
        delays: Delays::lowest(plan),
    });
    let turns = 0..clocks.len().max(others.len());
    let in_turn = turns.map(|turn| Choice {
        clocks: clocks[turn % clocks.len()].clone(),
        delays: others[turn % others.len()].clone(),
    });
    highest.chain(lowest).chain(in_turn).collect()
}

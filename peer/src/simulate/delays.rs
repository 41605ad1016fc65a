//! How long each crossing of a link takes.

use std::fmt;

use crate::image::Plan;
use crate::rng::Rng;

/// After so many cycles delays come again.
const CYCLES: usize = 4;

/// The delay of each frame in each cycle.
#[derive(Clone, Debug, PartialEq, Eq)]
pub struct Delays {
    /// By cycle, counted from the start, then by frame row.
    ticks: Vec<Vec<u32>>,
}

impl Delays {
    /// All as the links' delays.
    pub fn highest(plan: &Plan) -> Delays {
        Delays::from_fn(plan, |_, _, [_, highest]| highest)
    }

    /// All as the links' lowest delays.
    pub fn lowest(plan: &Plan) -> Delays {
        Delays::from_fn(plan, |_, _, [lowest, _]| lowest)
    }

    /// Each chosen for a cycle and a frame row, by the lowest and the highest
    /// delay of the frame's link.
    pub fn from_fn(plan: &Plan, mut delay: impl FnMut(usize, usize, [u32; 2]) -> u32) -> Delays {
        let mut ticks = vec![Vec::new(); CYCLES];
        for (cycle, ticks) in ticks.iter_mut().enumerate() {
            for (frame, &[_, _, _, link, ..]) in plan.frames.iter().enumerate() {
                let [_, _, highest, _, lowest, ..] = plan.links[link as usize];
                ticks.push(delay(cycle, frame, [lowest, highest]));
            }
        }
        Delays { ticks }
    }

    pub fn of(&self, cycle: usize, frame: usize) -> u32 {
        self.ticks[cycle % CYCLES][frame]
    }
}

impl fmt::Display for Delays {
    fn fmt(&self, out: &mut fmt::Formatter<'_>) -> fmt::Result {
        write!(out, "of frames, cycle by cycle, {:?}", self.ticks)
    }
}

/// Delays besides all highest and all lowest: both in turn, by cycle, and by
/// frame too; one of both at random; and any.
pub fn others(plan: &Plan, rng: &mut Rng) -> [Delays; 4] {
    [
        Delays::from_fn(plan, |cycle, _, bounds| bounds[cycle % 2]),
        Delays::from_fn(plan, |cycle, frame, bounds| bounds[(cycle + frame) % 2]),
        Delays::from_fn(plan, |_, _, bounds| rng.pick(&bounds)),
        Delays::from_fn(plan, |_, _, [lowest, highest]| rng.within(lowest..=highest)),
    ]
}

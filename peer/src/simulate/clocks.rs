//! How far each node's clock is ahead of a common one.

use std::fmt;

use super::reading::Tick;
use crate::image::Plan;
use crate::rng::Rng;

/// Up to so many nodes, every choice of extremes is tried.
const MOST_NODES: usize = 6;
/// So many choices of extremes where there are more nodes.
const SOME_EXTREMES: usize = 1 << MOST_NODES;
/// So many choices of any constants besides.
const ANY_CONSTANTS: usize = 4;

/// The ticks that each node's clock is ahead.
#[derive(Clone, Debug, PartialEq, Eq)]
pub struct Clocks {
    /// Node and ticks, for each node that a lane runs by.
    ahead: Vec<(u32, u32)>,
}

impl Clocks {
    /// All clocks as the common one.
    pub fn equal(plan: &Plan) -> Clocks {
        Clocks::from_fn(plan, |_| 0)
    }

    pub fn from_fn(plan: &Plan, mut ahead: impl FnMut(u32) -> u32) -> Clocks {
        let with_ticks = |node| (node, ahead(node));
        Clocks {
            ahead: nodes(plan).into_iter().map(with_ticks).collect(),
        }
    }

    fn of_node(&self, node: u32) -> u32 {
        let found = self.ahead.iter().find(|(other, _)| *other == node);
        found.map_or(0, |(_, ticks)| *ticks)
    }
}

impl fmt::Display for Clocks {
    fn fmt(&self, out: &mut fmt::Formatter<'_>) -> fmt::Result {
        let ahead = |(node, ticks): &(u32, u32)| format!("node {node} ahead by {ticks}");
        let ahead: Vec<String> = self.ahead.iter().map(ahead).collect();
        write!(out, "{}", ahead.join(", "))
    }
}

/// The nodes by whose clocks lanes run.
fn nodes(plan: &Plan) -> Vec<u32> {
    let lanes = 0..plan.lanes();
    let mut nodes: Vec<u32> = lanes.map(|lane| plan.node_of_lane(lane)).collect();
    nodes.sort_unstable();
    nodes.dedup();
    nodes
}

/// Every clock at 0 or at `most`, in all combinations or, for many nodes, in
/// some; then some constants between.
pub fn choices(plan: &Plan, most: u32, rng: &mut Rng) -> Vec<Clocks> {
    if most == 0 {
        return vec![Clocks::equal(plan)];
    }
    let nodes = nodes(plan);
    let extremes = |chosen: u64| {
        let is_ahead = |node| nodes.iter().position(|other| *other == node);
        Clocks::from_fn(plan, |node| {
            is_ahead(node).map_or(0, |place| most * (chosen >> place & 1) as u32)
        })
    };
    let mut choices: Vec<Clocks> = if nodes.len() <= MOST_NODES {
        (0..1 << nodes.len()).map(extremes).collect()
    } else {
        (0..SOME_EXTREMES).map(|_| extremes(rng.next())).collect()
    };
    for _ in 0..ANY_CONSTANTS {
        choices.push(Clocks::from_fn(plan, |_| rng.within(0..=most)));
    }
    choices
}

/// Tells the true time of ticks shown.
pub struct TrueTime {
    /// c×H
    begin: i128,
    /// By lane.
    ahead: Vec<i128>,
}

impl TrueTime {
    pub fn new(plan: &Plan, cycle: u64, clocks: &Clocks) -> TrueTime {
        let ahead = |lane| i128::from(clocks.of_node(plan.node_of_lane(lane)));
        TrueTime {
            begin: i128::from(cycle) * i128::from(plan.cycle),
            ahead: (0..plan.lanes()).map(ahead).collect(),
        }
    }

    /// When a tick begins.
    pub fn begin(&self, tick: Tick) -> i128 {
        self.begin + tick.index as i128 - self.ahead[tick.lane]
    }

    /// When a tick ends.
    pub fn end(&self, tick: Tick) -> i128 {
        self.begin(tick) + 1
    }

    /// What the clock of a lane's node reads at a true time, less c×H.
    pub fn read(&self, lane: usize, time: i128) -> i128 {
        time + self.ahead[lane] - self.begin
    }
}

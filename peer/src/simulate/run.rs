//! A list of calls, and what came of it.

use std::fmt;

use super::tables::Tables;
use crate::boundary::{read_state, Boundary, STATE};
use crate::dispatch::State;
use crate::rng::Rng;

/// What a call steps.
#[derive(Clone, Copy, Debug, PartialEq, Eq)]
pub enum Call {
    All,
    One(usize),
}

impl Call {
    pub fn steps(self, lane: usize) -> bool {
        self == Call::All || self == Call::One(lane)
    }
}

impl fmt::Display for Call {
    fn fmt(&self, out: &mut fmt::Formatter<'_>) -> fmt::Result {
        match self {
            Call::All => write!(out, "all"),
            Call::One(lane) => write!(out, "lane {lane}"),
        }
    }
}

/// A call with the number that it gave and the records that it left.
#[derive(Clone, Debug, PartialEq, Eq)]
pub struct Called {
    pub call: Call,
    pub number: u32,
    pub records: Vec<State>,
}

/// Calls after a start of every lane in one cycle.
#[derive(Clone, Debug, PartialEq, Eq)]
pub struct Run {
    /// c
    pub cycle: u64,
    /// The records before the first call.
    pub started: Vec<State>,
    pub calls: Vec<Called>,
}

impl Run {
    /// Starts every lane and makes the calls, each on the records that the
    /// last one left.
    pub fn make(by: &dyn Boundary, tables: &Tables, cycle: u64, calls: &[Call]) -> Run {
        let words = tables.bytes();
        let mut row = vec![0; tables.lanes() * STATE];
        for (record, first) in row.chunks_exact_mut(STATE).zip(&tables.firsts) {
            by.start(cycle, *first, record);
        }
        let started = states(&row);
        let mut made = Vec::new();
        for &call in calls {
            let number = match call {
                Call::All => by.step_all(&words, &mut row),
                Call::One(lane) => by.step(&words, &mut row[lane * STATE..][..STATE]),
            };
            made.push(Called {
                call,
                number,
                records: states(&row),
            });
        }
        Run {
            cycle,
            started,
            calls: made,
        }
    }

    /// Whether every call steps all lanes.
    pub fn steps_all_only(&self) -> bool {
        self.calls.iter().all(|called| called.call == Call::All)
    }

    /// The calls in a line, equal neighbours counted.
    pub fn list(&self) -> String {
        let calls: Vec<Call> = self.calls.iter().map(|called| called.call).collect();
        let same = calls.chunk_by(|a, b| a == b);
        let counted = same.map(|calls| format!("{} x {}", calls.len(), calls[0]));
        counted.collect::<Vec<String>>().join(", ")
    }
}

fn states(row: &[u8]) -> Vec<State> {
    row.as_chunks::<STATE>().0.iter().map(read_state).collect()
}

/// So many calls that step all lanes.
pub fn all_lanes(calls: usize) -> Vec<Call> {
    vec![Call::All; calls]
}

/// Calls that step all lanes or one, in any order, until every lane has moved
/// so often or more, unless the calendar ends. They end with all level.
pub fn mixed(lanes: usize, moves: usize, rng: &mut Rng) -> Vec<Call> {
    let mut list = Mixed {
        calls: Vec::new(),
        moved: vec![0; lanes],
    };
    while list.moved.iter().any(|&moved| moved < moves) {
        match rng.below(5) {
            0 => list.all(1 + rng.below(4)),
            1 => list.one(rng.below(lanes), 1),
            2 => list.one(rng.below(lanes), 1 + rng.below(7)),
            _ => list.level(rng),
        }
    }
    list.level(rng);
    list.calls
}

/// A list in the making, with how often each lane will have moved.
struct Mixed {
    calls: Vec<Call>,
    moved: Vec<usize>,
}

impl Mixed {
    fn all(&mut self, times: usize) {
        self.calls.extend(all_lanes(times));
        self.moved.iter_mut().for_each(|moved| *moved += times);
    }

    fn one(&mut self, lane: usize, times: usize) {
        self.calls.extend(vec![Call::One(lane); times]);
        self.moved[lane] += times;
    }

    /// Steps the lanes behind the foremost up to it, in any order.
    fn level(&mut self, rng: &mut Rng) {
        let foremost = self.moved.iter().copied().max().unwrap_or(0);
        let behind = self.moved.iter().enumerate();
        let behind = behind.flat_map(|(lane, moved)| vec![lane; foremost - moved]);
        let mut lanes: Vec<usize> = behind.collect();
        rng.shuffle(&mut lanes);
        for lane in lanes {
            self.one(lane, 1);
        }
    }
}

//! Stepped runs: what each step of a core's lane shows, beside a picture.

use std::ops::Range;

use super::built::Built;
use super::picture::{Asked, Change, Picture, Seen, KINDS};
use crate::boundary::{read_state, Boundary, STATE};
use crate::dispatch::State;
use crate::image::Plan;
use crate::rng::Rng;

/// What a run met.
#[derive(Clone, Copy, Debug, Default)]
pub struct Tally {
    pub of_all: u64,
    pub of_one: u64,
    pub at_end: u64,
    /// Steps of core lanes compared, by kind; those of the guest's come last.
    pub kinds: [u64; KINDS + 1],
    /// Whether a lane was in several cycles.
    pub cycles: bool,
    /// Whether lanes were started in different cycles.
    pub apart: bool,
}

/// Which call is next.
#[derive(Clone, Copy)]
enum Call {
    All,
    One(usize),
}

/// A run of one plan's tables.
pub struct Run<'a> {
    pub plan: &'a Plan,
    pub built: &'a Built,
    pub guest: u32,
    pub asked: Asked,
    /// What the other plan's cores show.
    pub picture: &'a Picture,
}

/// Why a run ended.
#[derive(Clone, Debug)]
pub enum Ended {
    /// A step shows something else.
    Changed(Change),
    /// A call that should have been done was refused.
    Refused(String),
}

impl Run<'_> {
    /// Starts every lane and makes about so many calls, of all lanes and of one.
    pub fn make(
        &self,
        by: &dyn Boundary,
        calls: usize,
        rng: &mut Rng,
        tally: &mut Tally,
    ) -> Result<(), Ended> {
        let mut records = self.started(by, rng, tally);
        let mut made = 0;
        while made < calls {
            let (call, times) = self.any_call(rng);
            for _ in 0..times {
                self.call(by, call, &mut records, tally)?;
            }
            made += times;
        }
        Ok(())
    }

    /// All lanes started, mostly in one cycle.
    fn started(&self, by: &dyn Boundary, rng: &mut Rng, tally: &mut Tally) -> Vec<u8> {
        let one = any_cycle(rng);
        tally.apart = rng.chance(25);
        let mut records = vec![0; self.built.firsts.len() * STATE];
        for (record, first) in records.chunks_exact_mut(STATE).zip(&self.built.firsts) {
            let cycle = if tally.apart { any_cycle(rng) } else { one };
            by.start(cycle, *first, record);
        }
        records
    }

    fn any_call(&self, rng: &mut Rng) -> (Call, usize) {
        let lanes = self.built.firsts.len();
        let lane = match rng.chance(70) {
            true => rng.below(self.plan.cores.len()),
            false => rng.below(lanes),
        };
        match rng.below(4) {
            0 => (Call::All, 1),
            1 => (Call::All, 1 + rng.below(30)),
            2 => (Call::One(lane), 1),
            _ => (Call::One(lane), 1 + rng.below(12)),
        }
    }

    fn call(
        &self,
        by: &dyn Boundary,
        call: Call,
        records: &mut [u8],
        tally: &mut Tally,
    ) -> Result<(), Ended> {
        let words = &self.built.words;
        let (lanes, count) = match call {
            Call::All => (0..self.built.firsts.len(), &mut tally.of_all),
            Call::One(lane) => (lane..lane + 1, &mut tally.of_one),
        };
        *count += 1;
        let before = states(records, lanes.clone());
        let number = match call {
            Call::All => by.step_all(words, records),
            Call::One(lane) => by.step(words, &mut records[lane * STATE..][..STATE]),
        };
        let is_last = |state: &State| (state.cycle, state.tick) == (u64::MAX, self.plan.cycle - 1);
        match (number, before.iter().any(is_last)) {
            (0, false) => {
                let after = states(records, lanes.clone());
                self.compare_all(lanes, &before, &after, tally)
            }
            (28, true) => {
                tally.at_end += 1;
                Ok(())
            }
            (number, _) => {
                let how = format!("a step of lanes {lanes:?} gives {number} on {before:?}");
                Err(Ended::Refused(how))
            }
        }
    }

    fn compare_all(
        &self,
        lanes: Range<usize>,
        before: &[State],
        after: &[State],
        tally: &mut Tally,
    ) -> Result<(), Ended> {
        for (lane, (before, after)) in lanes.zip(before.iter().zip(after)) {
            tally.cycles |= before.cycle != after.cycle;
            if lane < self.plan.cores.len() {
                self.compare(lane, before.tick, after, tally)?;
            }
        }
        Ok(())
    }

    /// Compares what a record was left with, by the tick that it left.
    fn compare(
        &self,
        core: usize,
        tick: u32,
        after: &State,
        tally: &mut Tally,
    ) -> Result<(), Ended> {
        let seen = Seen::of(self.plan, Some(self.guest), after.kind, after.row);
        let Some(other) = self.picture.at(core, tick) else {
            return Ok(());
        };
        let both = [seen, other];
        let change = Change {
            core,
            tick,
            seen: both,
        };
        if seen != other && change.is_of(self.asked, self.guest) {
            return Err(Ended::Changed(change));
        }
        let kind = seen.kind().map_or(KINDS, |kind| kind as usize);
        tally.kinds[kind.min(KINDS)] += 1;
        Ok(())
    }
}

fn states(records: &[u8], lanes: Range<usize>) -> Vec<State> {
    let records = records.as_chunks::<STATE>().0;
    records[lanes].iter().map(read_state).collect()
}

/// A cycle to start in, sometimes one of the last.
fn any_cycle(rng: &mut Rng) -> u64 {
    let near = rng.below(4) as u64;
    let any = rng.next();
    rng.pick(&[near, near, any, any, u64::MAX - near])
}

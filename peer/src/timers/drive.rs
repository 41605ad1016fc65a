//! Lanes stepped by the timer, as a load tool does it: an implementation's
//! steps of all lanes, its timer, and the loop between them.

use super::beside::Note;
use super::calls::{Call, Timers};
use super::met::{Met, Round};
use super::source::{round, set_up, Source};
use super::truth::TURN;
use crate::boundary::{read_state, Boundary, STATE};
use crate::dispatch::{start, State};
use crate::generate::tiny;
use crate::harness::Lent;
use crate::hex::told;
use crate::image::Plan;
use crate::rng::Rng;
use crate::simulate::Tables;
use crate::timer::{BITS, BLOCK, COUNT};

/// Steps the lanes of a tiny plan through some rounds, and asks after each
/// whether just so many steps were made as are due.
pub fn drive(
    timers: &dyn Timers,
    lanes: &dyn Boundary,
    (met, list): (&mut Met, &mut Vec<Note>),
    rng: &mut Rng,
) -> Result<(), String> {
    let plan = tiny(rng);
    let (every, cycle) = (any_every(rng), any_cycle(rng));
    let mut counter = any_first(every, rng);
    let image = told(&plan.encode());
    list.push(Note::Said(format!(
        "a step every {every} counts, from cycle {cycle} on, of the plan of {image}"
    )));
    list.push(Note::Counter(counter));
    let mut lanes = Lanes::started(&plan, lanes, cycle)?;
    let mut held = Held::fresh(timers, met, rng)?;
    set_up(&mut held, counter as u32, every)?;
    let first = counter;
    for _ in 0..rng.within(3..=12) {
        let gap = any_gap(counter - first, every, rng);
        counter += gap;
        list.push(Note::Counter(counter));
        let before = lanes.steps;
        let due = (counter - first) / u64::from(every);
        round(&mut held, counter as u32, every, || lanes.step(due))?;
        lanes.ask(due)?;
        held.ask(counter as u32)?;
        held.met.round(&Round {
            every,
            first,
            counter,
            gap,
            steps: lanes.steps - before,
            cycles: lanes.steps / lanes.cycle,
        });
    }
    Ok(())
}

/// A block as a load tool holds it. Each call has to be done.
struct Held<'a> {
    timers: &'a dyn Timers,
    met: &'a mut Met,
    block: Lent,
}

impl<'a> Held<'a> {
    /// A fresh block, where anything was before.
    fn fresh(timers: &'a dyn Timers, met: &'a mut Met, rng: &mut Rng) -> Result<Held<'a>, String> {
        let mut held = Held {
            timers,
            met,
            block: Lent::noise(BLOCK, rng),
        };
        held.call(Call::Start).map(|_| held)
    }

    fn call(&mut self, call: Call) -> Result<u32, String> {
        let gave = call.of(self.timers, self.block.part_mut());
        self.met.count(call.name(), gave.number);
        match gave.number {
            0 => Ok(gave.value),
            _ => Err(format!("{call} gives {gave}")),
        }
    }

    /// After a round the counter is brought in, and nothing is due.
    fn ask(&mut self, counter: u32) -> Result<(), String> {
        let count = self.read(COUNT)?;
        if count != counter {
            return Err(format!("count shows {count}, and not {counter}"));
        }
        match self.is_raised()? {
            true => Err("the interrupt is raised after the round".to_string()),
            false => Ok(()),
        }
    }
}

impl Source for Held<'_> {
    fn bits(&self) -> u32 {
        BITS
    }

    fn reading(&mut self, count: u32) -> Result<(), String> {
        self.call(Call::Reading { count }).map(drop)
    }

    fn read(&mut self, address: u32) -> Result<u32, String> {
        self.call(Call::Read { address })
    }

    fn write(&mut self, address: u32, value: u32) -> Result<(), String> {
        self.call(Call::Write { address, value }).map(drop)
    }

    fn is_raised(&mut self) -> Result<bool, String> {
        let gave = Call::Interrupt.of(self.timers, self.block.part_mut());
        self.met.count("interrupt", gave.number);
        Ok(gave.number == 1)
    }
}

/// The lanes of a plan, all started in one cycle.
struct Lanes<'a> {
    by: &'a dyn Boundary,
    /// H
    cycle: u64,
    /// The cycle of the start.
    from: u64,
    tables: Tables,
    words: Vec<u8>,
    records: Vec<u8>,
    steps: u64,
}

impl<'a> Lanes<'a> {
    fn started(plan: &Plan, by: &'a dyn Boundary, from: u64) -> Result<Lanes<'a>, String> {
        let tables = Tables::built(plan, by);
        let tables = tables.map_err(|answer| format!("a table is refused: {answer}"))?;
        let mut records = vec![0; tables.lanes() * STATE];
        for (record, first) in records.chunks_exact_mut(STATE).zip(&tables.firsts) {
            by.start(from, *first, record);
        }
        Ok(Lanes {
            by,
            cycle: u64::from(plan.cycle),
            from,
            words: tables.bytes(),
            tables,
            records,
            steps: 0,
        })
    }

    /// One step of all lanes, where fewer than so many were made.
    fn step(&mut self, due: u64) -> Result<(), String> {
        if self.steps == due {
            return Err(format!("a step more than the {due} that are due"));
        }
        self.steps += 1;
        match self.by.step_all(&self.words, &mut self.records) {
            0 => Ok(()),
            number => Err(format!("step {} gives {number}", self.steps)),
        }
    }

    /// Whether just so many steps were made, and all records stand there.
    fn ask(&self, due: u64) -> Result<(), String> {
        if self.steps != due {
            return Err(format!("{} steps were made, and not {due}", self.steps));
        }
        let records = self.records.as_chunks::<STATE>().0;
        for (lane, record) in records.iter().enumerate() {
            let (found, right) = (read_state(record), self.after(lane, due));
            if found != right {
                return Err(format!(
                    "after {due} steps lane {lane} stands at {found:?}, and not at {right:?}"
                ));
            }
        }
        Ok(())
    }

    /// Where a lane stands after so many steps.
    fn after(&self, lane: usize, steps: u64) -> State {
        let tick = |steps: u64| (steps % self.cycle) as usize;
        let (kind, row) = match steps.checked_sub(1) {
            None => (0, 0),
            Some(last) => self.tables.at(lane, tick(last)),
        };
        State {
            tick: tick(steps) as u32,
            entry: self.tables.entry_at(lane, tick(steps)) as u32,
            kind,
            row,
            ..start(self.from + steps / self.cycle, self.tables.firsts[lane])
        }
    }
}

/// Any cycle that is not one of the calendar's last.
fn any_cycle(rng: &mut Rng) -> u64 {
    let any = rng.next() >> 1;
    rng.pick(&[0, 1, any, u64::from(u32::MAX) - 1])
}

/// Counts from one step to the next: few, many, or nearly all that there are.
fn any_every(rng: &mut Rng) -> u32 {
    match rng.below(8) {
        0 => 1,
        1..3 => rng.within(2..=12),
        3..5 => (rng.word() >> rng.below(32)).max(1),
        5 => u32::MAX - rng.within(0..=3),
        6 => (1 << 31) - 2 + rng.within(0..=4),
        _ => rng.word() | 1 << 27,
    }
}

/// The counter at the first reading: any, or soon before it wraps.
fn any_first(every: u32, rng: &mut Rng) -> u64 {
    match rng.below(3) {
        0 => u64::from(rng.word()),
        1 => TURN - 1 - u64::from(rng.within(0..=4)),
        _ => TURN - 1 - u64::from(every.min(u32::MAX / 4)) * rng.below(4) as u64,
    }
}

/// Counts from one round to the next, below 2^32 and for some forty steps at
/// most: none, to compare or one before or past it, or any.
fn any_gap(gone: u64, every: u32, rng: &mut Rng) -> u64 {
    let every = u64::from(every);
    let most = (TURN - 1).min(40 * every);
    let left = every - gone % every;
    let gap = match rng.below(10) {
        0 => 0,
        1 => left - 1,
        2 => left,
        3 => left + 1,
        4 => left + every * rng.below(40) as u64,
        5 => most,
        6 => rng.below(every as usize) as u64,
        _ => rng.below(most as usize + 1) as u64,
    };
    gap.min(most)
}

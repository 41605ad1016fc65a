//! What a shift owes, from the list of its calls alone: which start was last,
//! how many steps were made since, and for each request the next multiple of H.
//! No record is asked where the lanes stand.

use super::calls::{Call, Room, BLOCK, PLACES};
use super::plans::{Accepted, Offer};
use crate::answer::Answer;
use crate::boundary::STATE;
use crate::dispatch::{start, State};
use crate::image::WORD;

/// Calls that gave 0.
#[derive(Clone, Copy, Debug, PartialEq, Eq)]
enum Done {
    Fresh,
    Hold { offer: usize, place: u32 },
    Start { place: u32, cycle: u64 },
    Request { place: u32 },
    Steps(u64),
}

/// A plan as it was held: its number, and the words before its tables.
#[derive(Clone, Copy, Debug, PartialEq, Eq)]
pub struct Holding {
    pub offer: usize,
    pub before: usize,
}

/// A run, as far as it has come.
#[derive(Clone, Debug)]
pub struct Since {
    /// c and H
    pub cycle: u64,
    pub length: u64,
    pub started: Holding,
    /// Steps that gave 0.
    pub steps: u64,
    /// Each request with the number of such steps before it.
    pub requests: Vec<(u64, Holding)>,
}

impl Since {
    /// The plan that the cycle c + q shows: of all requests made by the time
    /// its tick 0 is next, the last one, or what was started.
    pub fn shown(&self, q: u64) -> Holding {
        let in_time = |(steps, _): &&(u64, Holding)| steps.div_ceil(self.length) <= q;
        let last = self.requests.iter().rev().find(in_time);
        last.map_or(self.started, |(_, plan)| *plan)
    }

    /// Whether the next step would be the calendar's last tick.
    pub fn is_over(&self) -> bool {
        let [cycle, length, steps] = [self.cycle, self.length, self.steps].map(u128::from);
        cycle * length + steps == (1 << 64) * length - 1
    }
}

/// All calls that gave 0, in their order.
#[derive(Clone, Debug, Default)]
pub struct Account(Vec<Done>);

impl Account {
    /// Takes a call in that gave 0.
    pub fn done(&mut self, call: Call) {
        let done = match (call, self.0.last_mut()) {
            (Call::Step, Some(Done::Steps(steps))) => {
                *steps += 1;
                return;
            }
            (Call::Step, _) => Done::Steps(1),
            (Call::Fresh, _) => Done::Fresh,
            (Call::Hold { offer, place }, _) => Done::Hold { offer, place },
            (Call::Start { place, cycle }, _) => Done::Start { place, cycle },
            (Call::Request { place }, _) => Done::Request { place },
        };
        self.0.push(done);
    }

    /// The calls since the block was last made fresh.
    fn since_fresh(&self) -> &[Done] {
        let fresh = self.0.iter().rposition(|done| *done == Done::Fresh);
        &self.0[fresh.map_or(0, |at| at + 1)..]
    }

    /// The words that the holds took.
    fn taken(holds: &[Done], offers: &[Offer]) -> usize {
        let words = |done: &Done| match done {
            Done::Hold { offer, .. } => offers[*offer].words(),
            _ => 0,
        };
        holds.iter().map(words).sum()
    }

    /// What a place holds: the last that was held there.
    fn held(&self, at: u32, offers: &[Offer]) -> Option<Holding> {
        let calls = self.since_fresh();
        let here = |done: &Done| matches!(done, Done::Hold { place, .. } if *place == at);
        let last = calls.iter().rposition(here)?;
        match calls[last] {
            Done::Hold { offer, .. } => Some(Holding {
                offer,
                before: Account::taken(&calls[..last], offers),
            }),
            _ => None,
        }
    }

    /// The run since the last start, unless a plan was held after it.
    pub fn run(&self, offers: &[Offer]) -> Option<Since> {
        let calls = self.since_fresh();
        let is_start = |done: &Done| matches!(done, Done::Start { .. });
        let is_hold = |done: &Done| matches!(done, Done::Hold { .. });
        let (first, later) = calls[calls.iter().rposition(is_start)?..].split_first()?;
        let &Done::Start { place, cycle } = first else {
            return None;
        };
        if later.iter().any(is_hold) {
            return None;
        }
        // No place has changed since then.
        let started = self.held(place, offers)?;
        let mut run = Since {
            cycle,
            length: u64::from(accepted(started, offers).plan.cycle),
            started,
            steps: 0,
            requests: Vec::new(),
        };
        for done in later {
            match *done {
                Done::Steps(steps) => run.steps += steps,
                Done::Request { place } => {
                    run.requests.push((run.steps, self.held(place, offers)?));
                }
                _ => {}
            }
        }
        Some(run)
    }

    /// The answer that a call has to give.
    pub fn answer(&self, call: Call, room: Room, offers: &[Offer]) -> Answer {
        if room.modes != BLOCK {
            return Answer::plain(27);
        }
        let words = room.words / WORD;
        let number = match call {
            Call::Fresh => 0,
            Call::Hold { offer, place } => return self.hold(&offers[offer], place, words, offers),
            Call::Start { place, .. } => match self.held(place, offers) {
                None => 43,
                Some(plan) if !fits(plan, room, offers) => 27,
                Some(_) => 0,
            },
            Call::Request { place } => self.request(place, offers),
            Call::Step => match self.run(offers) {
                None => 27,
                Some(run) => step(&run, room, offers),
            },
        };
        Answer::plain(number)
    }

    fn hold(&self, offer: &Offer, place: u32, words: usize, offers: &[Offer]) -> Answer {
        match &offer.told {
            Err(answer) => *answer,
            Ok(_) if place as usize >= PLACES => Answer::plain(43),
            Ok(plan) if words < Account::taken(self.since_fresh(), offers) + plan.words => {
                Answer::plain(26)
            }
            Ok(_) => Answer::ACCEPTED,
        }
    }

    /// All plans of a run have what the started one has, so that this one is
    /// compared.
    fn request(&self, place: u32, offers: &[Offer]) -> u32 {
        let Some(plan) = self.held(place, offers) else {
            return 43;
        };
        let like = |held: Holding| {
            let plan = &accepted(held, offers).plan;
            [plan.cycle as usize, plan.cores.len(), plan.links.len()]
        };
        match self.run(offers) {
            Some(run) if like(run.started) == like(plan) => 0,
            _ => 44,
        }
    }

    /// The records that a call leaves that gives 0, where it writes any.
    pub fn records(&self, call: Call, offers: &[Offer]) -> Option<Vec<State>> {
        match call {
            Call::Start { place, cycle } => {
                let plan = self.held(place, offers)?;
                Some(
                    firsts(plan, offers)
                        .map(|first| start(cycle, first))
                        .collect(),
                )
            }
            Call::Step => Some(shown(&self.run(offers)?, offers)),
            _ => None,
        }
    }
}

pub fn accepted(held: Holding, offers: &[Offer]) -> &Accepted {
    let plan = offers[held.offer].told.as_ref();
    plan.expect("only accepted plans are held")
}

/// Where each lane's table begins.
fn firsts(held: Holding, offers: &[Offer]) -> impl Iterator<Item = u32> + '_ {
    let mut next = held.before as u32;
    accepted(held, offers).tables.iter().map(move |table| {
        let first = next;
        next += table.len() as u32;
        first
    })
}

/// Whether the row has one record for each lane, and the words all tables.
fn fits(held: Holding, room: Room, offers: &[Offer]) -> bool {
    let plan = accepted(held, offers);
    let end = held.before + plan.words;
    room.states == plan.tables.len() * STATE && end <= room.words / WORD
}

/// A step's number. Where the words end too soon, the lowest record says
/// whether that or the calendar's end comes first.
fn step(run: &Since, room: Room, offers: &[Offer]) -> u32 {
    let shows = run.shown(run.steps / run.length);
    let plan = accepted(shows, offers);
    let first_end = shows.before + plan.tables[0].len();
    let row = room.states == plan.tables.len() * STATE;
    match fits(shows, room, offers) {
        true if run.is_over() => 28,
        true => 0,
        false if row && run.is_over() && first_end <= room.words / WORD => 28,
        false => 27,
    }
}

/// The records after one more step: each lane shows what its table has at that
/// tick, and stands at the next.
fn shown(run: &Since, offers: &[Offer]) -> Vec<State> {
    let (cycle, tick) = (run.steps / run.length, run.steps % run.length);
    let (next_cycle, next) = ((run.steps + 1) / run.length, (run.steps + 1) % run.length);
    let plan = run.shown(cycle);
    let tables = accepted(plan, offers).tables.iter();
    let record = |(table, first): (&Vec<u32>, u32)| {
        let entries = table[2..].as_chunks::<3>().0;
        let at = |tick: u64| entries.partition_point(|entry| u64::from(entry[0]) <= tick) - 1;
        let [_, kind, row] = entries[at(tick)];
        State {
            cycle: run.cycle + next_cycle,
            tick: next as u32,
            entry: at(next) as u32,
            first,
            kind,
            row,
        }
    };
    tables.zip(firsts(plan, offers)).map(record).collect()
}

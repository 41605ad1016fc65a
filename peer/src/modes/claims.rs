//! The claims of the paper's section 'Runs', asked of each stretch of cycles
//! that shows one plan.

use super::account::{accepted, Since};
use super::plans::Offer;
use crate::dispatch::State;
use crate::image::Plan;
use crate::rng::Rng;
use crate::simulate::{examine_at, Choice, Clocks, Delays, Run, Tables, Tally};
use crate::simulate::{Call, Called};

/// The records that a start left, and all steps after it that gave 0 or 28.
#[derive(Clone, Debug)]
pub struct Steps {
    pub started: Vec<State>,
    pub calls: Vec<Called>,
}

impl Steps {
    pub fn from(started: Vec<State>) -> Steps {
        Steps {
            started,
            calls: Vec::new(),
        }
    }

    pub fn push(&mut self, number: u32, records: Vec<State>) {
        self.calls.push(Called {
            call: Call::All,
            number,
            records,
        });
    }

    /// The steps of some cycles as a run of their own.
    fn run(&self, run: &Since, [from, until]: [u64; 2]) -> Run {
        let at = |cycle: u64| (cycle * run.length) as usize;
        let last = run.steps.div_ceil(run.length);
        // What is refused at the calendar's end stands behind all others.
        let end = if until == last {
            self.calls.len()
        } else {
            at(until)
        };
        let started = match at(from) {
            0 => self.started.clone(),
            steps => self.calls[steps - 1].records.clone(),
        };
        Run {
            cycle: run.cycle.saturating_add(from),
            started,
            calls: self.calls[at(from)..end].to_vec(),
        }
    }
}

/// Asks every claim of each stretch of cycles with one plan, after some of its
/// steps and after all. Clocks are at most that plan's P ahead. Gives what was met,
/// stretch by stretch.
pub fn ask(
    run: &Since,
    steps: &Steps,
    offers: &[Offer],
    rng: &mut Rng,
) -> Result<Vec<Tally>, String> {
    let cycles = run.steps.div_ceil(run.length);
    let mut met = Vec::new();
    let mut from = 0;
    while from < cycles {
        let shows = run.shown(from);
        let same = |cycle: &u64| run.shown(*cycle) == shows;
        let until = from + (from..cycles).take_while(same).count() as u64;
        let plan = &accepted(shows, offers).plan;
        if (u64::from(plan.cycle), plan.lanes()) != (run.length, steps.started.len()) {
            let what = "is shown, which has another H or other lanes";
            return Err(format!("image {} {what}", shows.offer));
        }
        let tables = Tables::behind(shows.before, &offers[shows.offer].image);
        let part = steps.run(run, [from, until]);
        let some = rng.below(part.calls.len());
        let asked = |cut: usize| cut == some || cut + 1 >= part.calls.len();
        let report = examine_at(plan, &tables, &part, &choices(plan, rng), asked);
        if let Some(violation) = report.violations.values().next() {
            return Err(format!(
                "in the cycles from c + {from} on, which show image {}:\n{violation}",
                shows.offer
            ));
        }
        met.push(report.tally);
        from = until;
    }
    Ok(met)
}

/// Clocks at both ends of what P lets them, with the highest delays and with
/// the lowest, and any between.
fn choices(plan: &Plan, rng: &mut Rng) -> [Choice; 3] {
    let most = plan.precision;
    let mut extremes = || Clocks::from_fn(plan, |_| rng.pick(&[0, most]));
    let ends = [extremes(), extremes()];
    let any = Clocks::from_fn(plan, |_| rng.within(0..=most));
    let between = Delays::from_fn(plan, |_, _, [lowest, highest]| rng.within(lowest..=highest));
    let [highest, lowest] = ends;
    [
        Choice::of(plan, highest),
        Choice {
            clocks: lowest,
            delays: Delays::lowest(plan),
        },
        Choice {
            clocks: any,
            delays: between,
        },
    ]
}

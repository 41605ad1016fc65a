//! A brute-force simulator of runs: all that the paper's section 'Runs'
//! claims, asked tick by tick of what the lanes show.
//!
//! Starts, ends, work and arrivals are read off what is shown, after every
//! call that leaves all lanes equally often moved, under many choices of how
//! far each node's clock is ahead and of how long each crossing takes. The
//! claims never see the times of the plan's piece and frame rows.

mod choices;
mod claims;
mod clocks;
mod delays;
mod drive;
mod edges;
mod moves;
mod queues;
mod reading;
mod report;
mod rows;
mod run;
mod survey;
mod tables;

use crate::boundary::Peer;
use crate::image::Plan;

pub use choices::{choices, Choice};
pub use clocks::Clocks;
pub use delays::Delays;
pub use drive::{simulate, Failure, Settings, Summary};
pub use edges::{edges, Dial, Edge};
pub use report::{Claim, Fact, Report, Tally, Violation, FACTS};
pub use rows::rows;
pub use run::{all_lanes, mixed, Call, Called, Run};
pub use survey::{guarded, only_one_clock, only_shared_tasks, survey, Noticed, Survey, QUESTIONS};
pub use tables::Tables;

use claims::{ask_holds, ask_jobs, without_times, Messages};
use queues::Queues;
use reading::Reading;

/// Asks every claim of a run, at every cut, under each choice.
pub fn examine(plan: &Plan, tables: &Tables, run: &Run, choices: &[Choice]) -> Report {
    examine_at(plan, tables, run, choices, |_| true)
}

/// The same at some cuts alone.
pub fn examine_at(
    plan: &Plan,
    tables: &Tables,
    run: &Run,
    choices: &[Choice],
    is_asked: impl Fn(usize) -> bool,
) -> Report {
    let mut report = Report::default();
    let moves = moves::follow(plan.cycle, tables, run, &mut report);
    let mut at_end = report.clone();
    let plan = &without_times(plan);
    let queues = Queues::of(plan);
    let messages = |choice| Messages::new(plan, &tables.arrivals, &queues, run.cycle, choice);
    let messages: Vec<Messages> = choices.iter().map(messages).collect();
    for &cut in moves.cuts.iter().filter(|cut| is_asked(**cut)) {
        let reading = Reading::of(plan, &moves.shown, cut);
        ask(plan, &reading, &messages, &mut report);
    }
    if let (Some(&cut), Some(last)) = (moves.cuts.last(), messages.chunks(1).last()) {
        let reading = Reading::of(plan, &moves.shown, cut);
        ask(plan, &reading, last, &mut at_end);
        report.at_end = at_end.tally;
    }
    report
}

/// Asks every claim that is about all lanes.
fn ask(plan: &Plan, reading: &Reading, messages: &[Messages], report: &mut Report) {
    ask_jobs(plan, reading, report);
    ask_holds(plan, reading, report);
    for messages in messages {
        messages.ask(reading, report);
    }
}

/// Runs a plan for two cycles from cycle 0, without asking the check.
pub fn run_unchecked(plan: &Plan) -> (Tables, Run) {
    let tables = Tables::unasked(plan);
    let calls = all_lanes(2 * plan.cycle as usize);
    let run = Run::make(&Peer, &tables, 0, &calls);
    (tables, run)
}

/// Asks every claim of such a run.
pub fn unchecked(plan: &Plan, choices: &[Choice]) -> Report {
    let (tables, run) = run_unchecked(plan);
    examine(plan, &tables, &run, choices)
}

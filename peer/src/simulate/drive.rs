//! Many plans, their runs, and what was found.

use std::fmt;

use super::{all_lanes, choices, examine, mixed, rows};
use super::{Call, Choice, Report, Run, Tables, Tally};
use crate::boundary::Boundary;
use crate::generate;
use crate::image::Plan;
use crate::rng::Rng;

/// What to run.
#[derive(Clone, Copy, Debug)]
pub struct Settings {
    pub seed: u64,
    /// Each plan is made of the seed and its number alone.
    pub first_plan: u64,
    pub plans: u64,
}

impl Settings {
    /// The number of each plan and what to make it of.
    pub fn cases(&self) -> impl Iterator<Item = (u64, Rng)> {
        let seed = self.seed;
        let numbers = self.first_plan..self.first_plan + self.plans;
        numbers.map(move |number| (number, Rng::for_case(seed, number)))
    }
}

/// What was run without a failure.
#[derive(Clone, Debug, Default)]
pub struct Summary {
    pub plans: u64,
    pub runs: u64,
    pub calls: u64,
    /// What was met at all cuts and under all choices.
    pub tally: Tally,
    /// What was met at the ends of the runs, under one choice.
    pub at_end: Tally,
}

/// A claim that failed, a plan that was refused, or implementations that
/// differ.
#[derive(Clone, Debug)]
pub struct Failure {
    number: u64,
    /// The plan's rows.
    rows: String,
    /// The start's cycle and the calls, where there was a run.
    list: Option<String>,
    what: String,
}

impl fmt::Display for Failure {
    fn fmt(&self, out: &mut fmt::Formatter<'_>) -> fmt::Result {
        writeln!(out, "failure in plan {}", self.number)?;
        write!(out, "{}", self.rows)?;
        if let Some(list) = &self.list {
            writeln!(out, "calls: {list}")?;
        }
        writeln!(out, "{}", self.what)
    }
}

/// Runs plans on each implementation and asks every claim of each run. All
/// implementations must build and step alike.
pub fn simulate(settings: &Settings, all: &[&dyn Boundary]) -> Result<Summary, Failure> {
    let mut summary = Summary::default();
    for (number, mut rng) in settings.cases() {
        let plan = match rng.below(100) {
            0..=14 => generate::kept_core(&mut rng),
            15..=34 => generate::busy_links(&mut rng),
            _ => generate::tiny(&mut rng),
        };
        let case = Case::new(number, &plan, &mut rng);
        let tables = case.tables(all)?;
        for (cycle, calls) in lists(&plan, &mut rng) {
            case.run(all, &tables, cycle, &calls, &mut summary)?;
        }
        summary.plans += 1;
    }
    Ok(summary)
}

/// Starts and lists of calls: from cycle 0, from any and towards the
/// calendar's end, each with all lanes alone and with single ones too.
fn lists(plan: &Plan, rng: &mut Rng) -> Vec<(u64, Vec<Call>)> {
    let cycle = plan.cycle as usize;
    let mut lists = Vec::new();
    for start in [0, rng.next(), u64::MAX - rng.below(3) as u64] {
        let moves = 2 * cycle + rng.below(cycle + 1);
        lists.push((start, all_lanes(moves)));
        lists.push((start, mixed(plan.lanes(), moves, rng)));
    }
    lists
}

/// A plan that is run.
pub struct Case<'a> {
    number: u64,
    pub plan: &'a Plan,
    pub choices: Vec<Choice>,
}

impl Case<'_> {
    pub fn new<'a>(number: u64, plan: &'a Plan, rng: &mut Rng) -> Case<'a> {
        Case {
            number,
            plan,
            choices: choices(plan, plan.precision, rng),
        }
    }

    pub fn failure(&self, run: Option<&Run>, what: String) -> Failure {
        let list = |run: &Run| format!("start in cycle {}, then {}", run.cycle, run.list());
        Failure {
            number: self.number,
            rows: rows(self.plan),
            list: run.map(list),
            what,
        }
    }

    /// The tables that all implementations build.
    fn tables(&self, all: &[&dyn Boundary]) -> Result<Tables, Failure> {
        let mut built = Vec::new();
        for by in all {
            let tables = Tables::built(self.plan, *by);
            let refusal = |answer: u64| self.failure(None, format!("refused with {answer:#x}"));
            built.push(tables.map_err(refusal)?);
        }
        if built.iter().any(|tables| *tables != built[0]) {
            return Err(self.failure(None, format!("tables differ: {built:?}")));
        }
        Ok(built.swap_remove(0))
    }

    /// Makes one list of calls on every implementation.
    fn run(
        &self,
        all: &[&dyn Boundary],
        tables: &Tables,
        cycle: u64,
        calls: &[Call],
        summary: &mut Summary,
    ) -> Result<(), Failure> {
        let make = |by: &&dyn Boundary| Run::make(*by, tables, cycle, calls);
        let runs: Vec<Run> = all.iter().map(make).collect();
        for run in &runs {
            let report = examine(self.plan, tables, run, &self.choices);
            self.require_none(&report, Some(run))?;
            summary.runs += 1;
            summary.calls += calls.len() as u64;
            summary.tally.add(&report.tally);
            summary.at_end.add(&report.at_end);
        }
        match runs.iter().find(|run| **run != runs[0]) {
            None => Ok(()),
            Some(run) => Err(self.failure(Some(run), difference(&runs[0], run))),
        }
    }

    /// No claim may have failed.
    pub fn require_none(&self, report: &Report, run: Option<&Run>) -> Result<(), Failure> {
        match report.violations.values().next() {
            None => Ok(()),
            Some(violation) => Err(self.failure(run, violation.to_string())),
        }
    }
}

/// The first call in which two runs of one list differ.
fn difference(ours: &Run, theirs: &Run) -> String {
    let mut calls = ours.calls.iter().zip(&theirs.calls).enumerate();
    match calls.find(|(_, (ours, theirs))| ours != theirs) {
        None => "runs differ in their starts".to_string(),
        Some((index, (ours, theirs))) => {
            format!("runs differ in call {index}\nours: {ours:?}\ntheirs: {theirs:?}")
        }
    }
}

//! The guest that must not notice (request 11): pairs of plans that differ in
//! one VCPU, and what all other VCPUs show, by the library's tables and steps.

mod bases;
mod breaks;
mod built;
mod faults;
mod free;
mod messages;
mod met;
mod pairs;
mod picture;
mod premises;
mod rework;
mod runs;
mod standin;

use std::fmt;

use crate::boundary::Boundary;
use crate::check::check;
use crate::image::Plan;
use crate::rng::Rng;
use breaks::Shown;
use built::{Built, Way};
use met::{Facts, Noticed};
use picture::{changes, Change, Picture};
use runs::{Ended, Run, Tally};

pub use breaks::{Break, BREAKS};
pub use faults::Fault;
pub use met::Met;
pub use pairs::{pair, Pair};
pub use picture::Asked;
pub use premises::{broken, Premise};
pub use standin::Standin;

/// What to run.
#[derive(Clone, Copy, Debug)]
pub struct Settings {
    pub seed: u64,
    /// The pairs; each is made of the seed and its number alone.
    pub first_pair: u64,
    pub pairs: u64,
    pub asked: Asked,
    /// Whether each pair's number goes to standard error before its calls.
    pub trace: bool,
}

/// Asks the claim of all pairs, up to the first of which it does not hold.
pub fn run(settings: &Settings, theirs: &dyn Boundary) -> Result<Met, Difference> {
    let mut met = Met::default();
    for number in settings.first_pair..settings.first_pair + settings.pairs {
        if settings.trace {
            eprintln!("pair {number}");
        }
        let mut rng = Rng::for_case(settings.seed, number);
        let pair = pairs::of_number(number, &mut rng);
        let mut course = Course {
            theirs,
            pair: &pair,
            met: &mut met,
            asked: settings.asked,
            rng,
        };
        course.run(number).map_err(|how| Difference {
            seed: settings.seed,
            number,
            pair: Box::new(pair.clone()),
            how,
        })?;
    }
    Ok(met)
}

/// What is asked of one pair.
struct Course<'a> {
    theirs: &'a dyn Boundary,
    pair: &'a Pair,
    met: &'a mut Met,
    asked: Asked,
    rng: Rng,
}

impl Course<'_> {
    fn run(&mut self, number: u64) -> Result<(), String> {
        let [first, second] = &self.pair.plans;
        let unmet = broken(first, second, self.pair.guest);
        if !unmet.is_empty() {
            return Err(format!("the pair does not meet the premises: {unmet:?}"));
        }
        let built = self.claim_tables()?;
        for (plan, other) in [(0, 1), (1, 0)] {
            self.claim_steps(plan, &built, other)?;
        }
        let kind = &BREAKS[number as usize % BREAKS.len()];
        self.break_by(kind, &built[0])
            .map_err(|how| format!("{}: {how}", kind.name))
    }

    /// Both plans' tables, by any calls, and the claim by them.
    fn claim_tables(&mut self) -> Result<[Built; 2], String> {
        let ways = [0; 2].map(|_| self.rng.pick(&[Way::All, Way::EachLane]));
        let [first, second] = &self.pair.plans;
        let built = [self.built(first, ways[0])?, self.built(second, ways[1])?];
        let guest = self.pair.guest;
        let [one, other] = self.pictures(&built, Some(guest));
        let mut changes = changes(&one, &other).into_iter();
        if let Some(change) = changes.find(|change| change.is_of(self.asked, guest)) {
            return Err(format!("the first plan's tables, {change}"));
        }
        let whole = self.pictures(&built, None);
        let facts = Facts {
            pair: self.pair,
            shows: whole[0] != whole[1],
            ways,
            kinds: one.kinds(guest),
        };
        self.met.pair(&facts);
        Ok(built)
    }

    /// The tables of an image that both checkers accept.
    fn built(&mut self, plan: &Plan, way: Way) -> Result<Built, String> {
        let image = plan.encode();
        let answers = [check(&image).code(), self.theirs.check(&image)];
        if answers != [0, 0] {
            return Err(format!("not accepted by both: {answers:?}"));
        }
        Built::of(plan, self.theirs, way, &mut self.rng)
    }

    fn pictures(&self, built: &[Built; 2], guest: Option<u32>) -> [Picture; 2] {
        let picture = |at: usize| Picture::of(&self.pair.plans[at], guest, &built[at].tables);
        [0, 1].map(picture)
    }

    /// The claim by steps of one plan's tables, beside the other's tables.
    fn claim_steps(&mut self, plan: usize, built: &[Built; 2], other: usize) -> Result<(), String> {
        let guest = self.pair.guest;
        let plans = &self.pair.plans;
        let run = Run {
            plan: &plans[plan],
            built: &built[plan],
            guest,
            asked: self.asked,
            picture: &Picture::of(&plans[other], Some(guest), &built[other].tables),
        };
        let calls = self.calls();
        let mut tally = Tally::default();
        match run.make(self.theirs, calls, &mut self.rng, &mut tally) {
            Err(Ended::Changed(change)) => {
                let which = ["first", "second"][plan];
                return Err(format!("steps of the {which} plan's tables, {change}"));
            }
            Err(Ended::Refused(how)) => return Err(how),
            Ok(()) => {}
        }
        self.met.run(&tally);
        Ok(())
    }

    /// How long a run is: some cycles, where these are short.
    fn calls(&mut self) -> usize {
        let cycle = self.pair.plans[0].cycle as usize;
        let most = if self.rng.chance(2) { 5_000 } else { 250 };
        (4 * cycle).min(most)
    }

    /// Breaks a premise of the second plan, and sees whether that is noticed.
    fn break_by(&mut self, kind: &Break, first: &Built) -> Result<(), String> {
        let guest = self.pair.guest;
        let [plan, second] = &self.pair.plans;
        let Some(second) = kind.of(second, guest, &mut self.rng) else {
            return Ok(());
        };
        if broken(plan, &second, guest).is_empty() {
            return Err("no premise is said to be broken".to_string());
        }
        let built = self.built(&second, Way::All)?;
        let [one, other] = [
            Picture::of(plan, Some(guest), &first.tables),
            Picture::of(&second, Some(guest), &built.tables),
        ];
        let tables = changes(&one, &other);
        let step = self.step_broken(&second, &built, &one)?;
        let others = tables.iter().any(|change| change.is_others(guest));
        let noticed = Noticed {
            others,
            guest: !others && !tables.is_empty(),
            steps: step.is_some(),
        };
        self.met.broken(kind.name, noticed);
        let mut shown = tables.into_iter().chain(step);
        match shown.find(|change| change.is_of(self.asked, guest)) {
            Some(change) if kind.shown == Shown::Never => {
                Err(format!("what is in no table is shown, {change}"))
            }
            _ => Ok(()),
        }
    }

    /// What steps of a broken plan's tables show first that is not the same.
    fn step_broken(
        &mut self,
        plan: &Plan,
        built: &Built,
        picture: &Picture,
    ) -> Result<Option<Change>, String> {
        let run = Run {
            plan,
            built,
            guest: self.pair.guest,
            asked: self.asked,
            picture,
        };
        let calls = self.calls();
        match run.make(self.theirs, calls, &mut self.rng, &mut Tally::default()) {
            Err(Ended::Refused(how)) => Err(how),
            Err(Ended::Changed(change)) => Ok(Some(change)),
            Ok(()) => Ok(None),
        }
    }
}

/// A pair of which the claim does not hold.
#[derive(Clone, Debug)]
pub struct Difference {
    pub seed: u64,
    pub number: u64,
    pair: Box<Pair>,
    pub how: String,
}

impl fmt::Display for Difference {
    fn fmt(&self, out: &mut fmt::Formatter<'_>) -> fmt::Result {
        let (seed, number) = (self.seed, self.number);
        let Pair { kind, guest, .. } = *self.pair;
        writeln!(out, "difference in pair {number} of seed {seed} ({kind})")?;
        writeln!(out, "the guest is that of VCPU {guest}: {}", self.how)?;
        for (which, plan) in ["guest", "changed"].iter().zip(&self.pair.plans) {
            writeln!(
                out,
                "{} bytes made again by: generate {which} {seed} {number}",
                plan.encode().len()
            )?;
        }
        writeln!(out, "all made again by: guests 1 {seed} {number}")
    }
}

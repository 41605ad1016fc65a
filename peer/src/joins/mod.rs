//! Two plans joined to one (request 10) as the C function does it: pairs of
//! images, joined by the library and by this package side by side.

pub(crate) mod changes;
mod claim;
mod crowded;
mod faults;
mod met;
mod modes;
mod pairs;
mod standin;

use std::fmt;

use crate::answer::Answer;
use crate::check::examine;
use crate::harness::Lent;
use crate::image::{Plan, LONGEST};
use crate::join::{join, joined};
use crate::rng::Rng;
use met::{Facts, Stage};

pub use claim::{ask, Work};
pub use faults::Fault;
pub use met::{Met, RESULTS};
pub use modes::{split, Habits, Modes};
pub use pairs::{pair, Pair};
pub use standin::Standin;

/// The C function of request 10, and the tables that are built of its images.
pub trait Joins {
    /// Joins two images and gives the answer. The joined image's length, or 0,
    /// goes to the first of two words; the other one is not lent.
    fn join(
        &self,
        first: &[u8],
        second: &[u8],
        shared: u32,
        joined: &mut [u8],
        length: &mut [u32; 2],
    ) -> u64;

    /// The dispatch tables of all lanes of an image, lanes rising, if they are
    /// built.
    fn tables(&self, image: &[u8]) -> Option<Vec<Vec<u32>>>;
}

/// What to run.
#[derive(Clone, Copy, Debug)]
pub struct Settings {
    pub seed: u64,
    /// The pairs; each is made of the seed and its number alone.
    pub first_pair: u64,
    pub pairs: u64,
    /// Whether each pair's number goes to standard error before its calls.
    pub trace: bool,
}

/// Joins all pairs, up to the first difference.
pub fn run(settings: &Settings, theirs: &dyn Joins) -> Result<Met, Difference> {
    let mut met = Met::default();
    for number in settings.first_pair..settings.first_pair + settings.pairs {
        if settings.trace {
            eprintln!("pair {number}");
        }
        let mut rng = Rng::for_case(settings.seed, number);
        let pair = pairs::of_number(number, &mut rng);
        met.pair(pair.kind);
        let mut course = Course::new(theirs, &pair, &mut met, rng);
        course.run().map_err(|how| Difference {
            seed: settings.seed,
            number,
            pair: pair.clone(),
            how,
        })?;
    }
    Ok(met)
}

/// More bytes than any image has.
const PLENTY: usize = 2 * LONGEST;

/// How tasks work in an accepted plan, by the tables of the library.
struct Own {
    tasks: usize,
    work: Work,
}

/// The calls on one pair.
struct Course<'a> {
    theirs: &'a dyn Joins,
    pair: &'a Pair,
    met: &'a mut Met,
    rng: Rng,
    images: [Lent; 2],
    plans: [Result<Plan, Answer>; 2],
    /// How tasks work in either plan, once an accepted result asks for it.
    own: Option<[Own; 2]>,
}

impl<'a> Course<'a> {
    fn new(theirs: &'a dyn Joins, pair: &'a Pair, met: &'a mut Met, mut rng: Rng) -> Course<'a> {
        Course {
            theirs,
            pair,
            met,
            images: [0, 1].map(|mode: usize| Lent::of(&pair.images[mode], &mut rng)),
            rng,
            plans: [0, 1].map(|mode: usize| examine(&pair.images[mode])),
            own: None,
        }
    }

    fn run(&mut self) -> Result<(), String> {
        let images = self.images.clone();
        for shared in self.shares() {
            let [first, second] = &self.pair.images;
            let needed = joined(first, second, shared, usize::MAX).map(|image| image.len());
            let lengths = self.lengths(needed, shared);
            for (turn, lent) in lengths.into_iter().enumerate() {
                self.call(shared, lent, turn == 0)?;
            }
        }
        if self.images != images {
            return Err("an image has changed, or what is around it".to_string());
        }
        Ok(())
    }

    /// The number that is probably right first, then some others.
    fn shares(&mut self) -> Vec<u32> {
        let right = self.pair.shared;
        let mut others = vec![0, right + 1, right.wrapping_sub(1)];
        for plan in self.plans.iter().flatten() {
            let tasks = plan.tasks.len() as u32;
            others.extend([tasks, tasks + 1]);
        }
        let any = self.rng.word();
        let far = right + (1 << self.rng.within(8..=31));
        others.extend([u32::MAX, any, far, right + 256, right + 65_536]);
        let rng = &mut self.rng;
        let few = [0; 2].map(|_| rng.pick(&others));
        [&[right], &few[..]].concat()
    }

    /// How many bytes are lent: more than enough first.
    fn lengths(&mut self, needed: Result<usize, Answer>, shared: u32) -> Vec<usize> {
        let rng = &mut self.rng;
        match needed {
            Ok(needed) if shared == self.pair.shared => {
                let any = 1 + rng.below(300);
                let more = rng.pick(&[1, 2, 3, 4, any]);
                let fewer = rng.below(needed);
                let near = needed - 1 - rng.below(4);
                vec![needed + more, needed, needed - 1, near, fewer, 0]
            }
            Ok(needed) => vec![needed + rng.below(3), needed - 1],
            Err(refusal) if refusal.number == 37 => vec![PLENTY, rng.below(200)],
            Err(_) => vec![rng.pick(&[500, 2_000, PLENTY]), rng.below(200)],
        }
    }

    fn call(&mut self, shared: u32, lent: usize, is_first: bool) -> Result<(), String> {
        let mut ours = Lent::noise(lent, &mut self.rng);
        let mut theirs = ours.clone();
        let noise = [0; 2].map(|_| self.rng.word());
        let [first, second] = &self.pair.images;
        let (answer, length) = join(first, second, shared, ours.part_mut());
        let right = Outcome {
            answer: answer.code(),
            length: [length, noise[1]],
        };
        let mut found = Outcome {
            answer: 0,
            length: noise,
        };
        let [first, mut second] = [0, 1].map(|mode: usize| &self.images[mode]);
        if first.part() == second.part() && self.rng.chance(50) {
            second = first;
        }
        let part = theirs.part_mut();
        found.answer =
            self.theirs
                .join(first.part(), second.part(), shared, part, &mut found.length);
        if found != right || theirs != ours {
            return Err(format!(
                "s = {shared}, {lent} bytes lent\nright: {right}\nfound: {found}{}",
                at_byte(&ours, &theirs)
            ));
        }
        let image = &ours.part()[..length as usize];
        let joined = (length > 0).then(|| (Plan::decode(image), image.len()));
        self.meet(shared, lent, answer, joined.as_ref());
        match joined {
            Some((plan, _)) if is_first && answer.is_accepted() => self
                .claim(shared, image, &plan)
                .map_err(|how| format!("s = {shared}, {lent} bytes lent: {how}")),
            _ => Ok(()),
        }
    }

    fn meet(&mut self, shared: u32, lent: usize, answer: Answer, joined: Option<&(Plan, usize)>) {
        let stage = match &self.plans {
            [Err(_), _] => Stage::First,
            [_, Err(_)] => Stage::Second,
            _ if joined.is_none() => Stage::Own,
            _ => Stage::Result,
        };
        let plans = match &self.plans {
            [Ok(first), Ok(second)] => Some([first, second]),
            _ => None,
        };
        self.met.call(&Facts {
            plans,
            stage,
            shared,
            lent,
            answer,
            joined: joined.map(|(plan, length)| (plan, *length)),
        });
    }

    /// Asks of an accepted result how tasks work in it.
    fn claim(&mut self, shared: u32, image: &[u8], plan: &Plan) -> Result<(), String> {
        self.met.claim();
        if self.own.is_none() {
            self.own = Some([self.own_work(0)?, self.own_work(1)?]);
        }
        let work = self.work(plan, image)?;
        let [first, second] = self.own.as_ref().expect("it is there by now");
        let (first, second) = ((first.tasks, &first.work), (second.tasks, &second.work));
        ask(first, second, shared, &work)
    }

    fn own_work(&self, mode: usize) -> Result<Own, String> {
        let plan = self.plans[mode].as_ref().expect("both are accepted");
        Ok(Own {
            tasks: plan.tasks.len(),
            work: self.work(plan, &self.pair.images[mode])?,
        })
    }

    /// How tasks work, by the library's tables.
    fn work(&self, plan: &Plan, image: &[u8]) -> Result<Work, String> {
        match self.theirs.tables(image) {
            Some(tables) => Ok(Work::of(plan, &tables)),
            None => Err("no tables are built of an accepted image".to_string()),
        }
    }
}

/// What a call gives: its answer, and the words at its length.
#[derive(PartialEq, Eq)]
struct Outcome {
    answer: u64,
    length: [u32; 2],
}

impl fmt::Display for Outcome {
    fn fmt(&self, out: &mut fmt::Formatter<'_>) -> fmt::Result {
        let answer = Answer::of_code(self.answer);
        let [length, behind] = self.length;
        write!(out, "{answer}, length {length}, then {behind}")
    }
}

/// Where lent bytes differ, if they do.
fn at_byte(ours: &Lent, theirs: &Lent) -> String {
    let both = ours.part().iter().zip(theirs.part());
    match both.clone().position(|(one, other)| one != other) {
        Some(at) => {
            let (one, other) = (ours.part()[at], theirs.part()[at]);
            format!("\nthe lent bytes differ from byte {at} on: {one} is right, {other} is found")
        }
        None if ours != theirs => "\nbytes that are not lent have changed".to_string(),
        None => String::new(),
    }
}

/// A pair that is joined wrongly.
#[derive(Clone, Debug)]
pub struct Difference {
    pub seed: u64,
    pub number: u64,
    pair: Pair,
    pub how: String,
}

impl fmt::Display for Difference {
    fn fmt(&self, out: &mut fmt::Formatter<'_>) -> fmt::Result {
        let (seed, number) = (self.seed, self.number);
        let kind = self.pair.kind;
        writeln!(out, "difference in pair {number} of seed {seed} ({kind})")?;
        writeln!(out, "{}", self.how)?;
        for (which, image) in ["first", "second"].iter().zip(&self.pair.images) {
            writeln!(out, "the {which}: {} bytes", image.len())?;
            writeln!(out, "made again by: generate {which} {seed} {number}")?;
        }
        writeln!(out, "all made again by: joins 1 {seed} {number}")
    }
}

//! The rows of a shift beside the model and beside the account of its calls.

use std::rc::Rc;

use super::account::Account;
use super::calls::{Call, Modes, Room, BLOCK};
use super::claims::{self, Steps};
use super::met::{Facts, Met, Moment, Now};
use super::model::{read, Held, Model};
use super::plans::Offer;
use super::rough::Rough;
use super::rows::Buffers;
use super::Asked;
use crate::answer::Answer;
use crate::boundary::{read_words, write_words, STATE};
use crate::dispatch::State;
use crate::harness::Lent;
use crate::rng::Rng;

/// A shift as far as it has come.
#[derive(Clone, Debug)]
struct Shift {
    model: Model,
    account: Account,
    right: Buffers,
    found: Buffers,
    /// What the steps since the last start left, as found.
    steps: Option<Steps>,
    /// Steps since the last request that gave 0.
    waited: u64,
    /// Whether a start was refused since then.
    tried: bool,
    /// Whether a hold has ended the last run.
    ended: bool,
}

impl Shift {
    /// Moves all rows to other addresses.
    fn relocate(&mut self, asked: Asked, rng: &mut Rng) {
        self.found = self.found.moved(rng);
        // Where they are not compared, they need not be equal.
        if asked == Asked::All {
            self.right = self.found.clone();
        }
    }

    /// In which bytes the rows are not as the model has them, and the first
    /// lane among them.
    fn difference(&self) -> String {
        let what = self.right.differing(&self.found);
        let [right, found] = [&self.right, &self.found].map(|rows| read(rows.states.part()));
        let mut lanes = right.iter().zip(&found).enumerate();
        let lane = match lanes.find(|(_, (right, found))| right != found) {
            None => String::new(),
            Some((lane, (right, found))) => {
                format!("\nlane {lane}: right is {right:?}\n        found is {found:?}")
            }
        };
        format!("other bytes than by the model: {what}{lane}")
    }

    /// Takes down what a start or a step left. A step of another row than the
    /// start's is none that runs claim anything of.
    fn note(&mut self, call: Call, number: u32, records: Vec<State>) {
        let lanes = self.steps.as_ref().map(|steps| steps.started.len());
        match (call, number) {
            (Call::Start { .. }, 0) => self.steps = Some(Steps::from(records)),
            (Call::Step, 0 | 28) if lanes == Some(records.len()) => {
                let steps = self.steps.as_mut();
                steps.expect("there are some").push(number, records);
            }
            (Call::Step, 0) => self.steps = None,
            _ => {}
        }
    }
}

/// Whether the records are what they should be.
fn same_records(right: &[State], found: &[State]) -> Result<(), String> {
    let mut lanes = right.iter().zip(found).enumerate();
    match lanes.find(|(_, (right, found))| right != found) {
        None => Ok(()),
        Some((lane, (right, found))) => Err(format!(
            "by the account of all calls lane {lane} is {right:?}\nfound is {found:?}"
        )),
    }
}

/// An implementation, and all that is asked beside it.
pub struct Beside<'a> {
    theirs: &'a dyn Modes,
    asked: Asked,
    pub offers: Vec<Offer>,
    /// How many bytes can be lent.
    pub room: Room,
    met: &'a mut Met,
    list: &'a mut Vec<String>,
    /// Copies of the rows that go their own ways.
    shifts: Vec<Shift>,
    at: usize,
    rng: Rng,
}

impl<'a> Beside<'a> {
    /// Rows of noise, in which nothing is held.
    pub fn new(
        theirs: &'a dyn Modes,
        asked: Asked,
        offers: Vec<Offer>,
        room: Room,
        (met, list): (&'a mut Met, &'a mut Vec<String>),
        mut rng: Rng,
    ) -> Beside<'a> {
        let found = Buffers::noise(room, &mut rng);
        let shift = Shift {
            model: Model::fresh(read_words(found.words.part())),
            account: Account::default(),
            right: found.clone(),
            found,
            steps: None,
            waited: 0,
            tried: false,
            ended: false,
        };
        Beside {
            theirs,
            asked,
            offers,
            room,
            met,
            list,
            shifts: vec![shift],
            at: 0,
            rng,
        }
    }

    pub fn model(&self) -> &Model {
        &self.shifts[self.at].model
    }

    /// Where the shift stands, by the model.
    pub fn moment(&self) -> Moment {
        let shift = &self.shifts[self.at];
        let model = &shift.model;
        let is = |plan: &Rc<Held>, place: &Option<Rc<Held>>| {
            place.as_ref().is_some_and(|held| Rc::ptr_eq(held, plan))
        };
        let place = |plan: &Rc<Held>| {
            let found = model.places.iter().position(|place| is(plan, place));
            found.map(|place| place as u32)
        };
        let now = |plan: &Rc<Held>| {
            let record = read(&shift.right.states.part()[..STATE])[0];
            Now {
                plan: plan.clone(),
                place: place(plan),
                cycle: record.cycle,
                tick: record.tick,
            }
        };
        Moment {
            running: model.running.as_ref().map(now),
            requested: model.requested.clone(),
            requested_place: model.requested.as_ref().and_then(place),
            held: std::array::from_fn(|place| model.places[place].is_some()),
            taken: model.taken,
            waited: shift.waited,
            tried: shift.tried,
            ended: shift.ended,
        }
    }

    /// All bytes that can be lent, one record for each lane of the running
    /// plan or of the one at the call's place, and a block.
    pub fn fitting(&self, call: Call) -> Room {
        let model = self.model();
        let plan = match call {
            Call::Start { place, .. } => model.held(place),
            _ => model.running.as_ref(),
        };
        let lanes = plan.map_or(1, |plan| plan.lanes());
        Room {
            states: lanes * STATE,
            modes: BLOCK,
            ..self.room
        }
    }

    /// The rows, block and all, are copied; the copy goes its own way.
    pub fn copy(&mut self) {
        let mut copy = self.shifts[self.at].clone();
        copy.relocate(self.asked, &mut self.rng);
        self.list
            .push(format!("copy {} of this", self.shifts.len()));
        self.shifts.push(copy);
        self.met.copied();
    }

    pub fn copies(&self) -> usize {
        self.shifts.len()
    }

    /// Goes on with a copy.
    pub fn switch(&mut self, to: usize) {
        if to != self.at {
            self.list.push(format!("on with copy {to}"));
            self.at = to;
            self.met.switched();
        }
    }

    /// Moves all rows to other addresses.
    pub fn relocate(&mut self) {
        self.shifts[self.at].relocate(self.asked, &mut self.rng);
        self.list.push("the rows lie elsewhere now".to_string());
    }

    /// The rows as they are, with another block, for calls that no copy is
    /// changed by.
    pub fn rough(&mut self, damage: impl FnOnce(&mut [u8])) -> Rough {
        let mut rows = self.shifts[self.at].found.moved(&mut self.rng);
        damage(&mut rows.modes.part_mut()[..BLOCK]);
        Rough::of(rows)
    }

    /// A call on such rows, of which only that is asked which holds for any
    /// bytes.
    pub fn rough_call(&mut self, rough: &mut Rough, call: Call, room: Room) -> Result<(), String> {
        let image = match call {
            Call::Hold { offer, .. } => &self.offers[offer].image[..],
            _ => &[],
        };
        let told = call.told(room);
        self.list
            .push(format!("with a block of other bytes, {told}"));
        let gave = rough.call(self.theirs, call, image, room)?;
        self.met.rough(gave);
        Ok(())
    }

    /// Makes a call, and asks what came of it.
    pub fn call(&mut self, call: Call, room: Room) -> Result<(), String> {
        let before = self.moment();
        let named = call
            .place()
            .and_then(|place| self.model().held(place).cloned());
        let held_before =
            (self.asked == Asked::Account).then(|| self.shifts[self.at].found.clone());
        let gave = self.make(call, room)?;
        self.list.push(format!("{}: {gave}", call.told(room)));
        self.met.count(call.name(), gave.number);
        self.follow(call, room, gave)?;
        if let Some(held_before) = held_before.filter(|_| gave.number != 0) {
            let found = &self.shifts[self.at].found;
            if *found != held_before {
                let what = held_before.differing(found);
                return Err(format!("a refused call changes {what}"));
            }
        }
        self.account(call, room, gave)?;
        self.met.meet(&Facts {
            call,
            room,
            gave,
            offers: &self.offers,
            named,
            before,
            after: self.moment(),
        });
        Ok(())
    }

    /// The call of the implementation. An image that is lent stays as it is.
    fn make(&mut self, call: Call, room: Room) -> Result<Answer, String> {
        let image = match call {
            Call::Hold { offer, .. } => &self.offers[offer].image[..],
            _ => &[],
        };
        let lent = Lent::of(image, &mut self.rng);
        let rows = self.shifts[self.at].found.rows(room);
        let gave = call.of(self.theirs, lent.part(), rows);
        match lent.part() == image {
            true => Ok(gave),
            false => Err(format!("{call} changes the image")),
        }
    }

    /// The call of the model, and whether both came to the same.
    fn follow(&mut self, call: Call, room: Room, gave: Answer) -> Result<(), String> {
        let shift = &mut self.shifts[self.at];
        let states = &mut shift.right.states.part_mut()[..room.states];
        let runs = shift.model.running.is_some();
        let right = shift.model.call(call, room, &self.offers, states);
        match (call, right) {
            (Call::Hold { .. }, Ok(())) => {
                write_words(shift.model.words(), shift.right.words.part_mut());
                shift.ended |= runs;
            }
            (Call::Start { .. } | Call::Fresh, Ok(())) => {
                (shift.waited, shift.tried, shift.ended) = (0, false, false);
            }
            (Call::Request { .. }, Ok(())) => (shift.waited, shift.tried) = (0, false),
            (Call::Start { .. }, Err(_)) => shift.tried = true,
            (Call::Step, Ok(())) => shift.waited += 1,
            _ => {}
        }
        let right = right.err().unwrap_or(Answer::ACCEPTED);
        if self.asked != Asked::All {
            return Ok(());
        }
        if right != gave {
            return Err(format!("right is {right}, by the model"));
        }
        if gave.is_accepted() {
            // What is in the block is the implementation's own affair.
            let block = &shift.found.modes.part()[..BLOCK];
            shift.right.modes.part_mut()[..BLOCK].copy_from_slice(block);
        }
        match shift.right == shift.found {
            true => Ok(()),
            false => Err(shift.difference()),
        }
    }

    /// What the account of all calls says of this one.
    fn account(&mut self, call: Call, room: Room, gave: Answer) -> Result<(), String> {
        let offers = &self.offers;
        let shift = &mut self.shifts[self.at];
        let right = shift.account.answer(call, room, offers);
        if right != gave && self.asked != Asked::Runs {
            return Err(format!("right is {right}, by the account of all calls"));
        }
        let records: Vec<State> = read(&shift.found.states.part()[..room.states]);
        if gave.is_accepted() && self.asked != Asked::Runs {
            let right = shift.account.records(call, offers);
            same_records(&right.unwrap_or_default(), &records)?;
        }
        if gave.is_accepted() && !matches!(call, Call::Request { .. } | Call::Step) {
            self.finish()?;
        }
        let shift = &mut self.shifts[self.at];
        shift.note(call, gave.number, records);
        if gave.is_accepted() {
            shift.account.done(call);
        }
        Ok(())
    }

    /// The run of this copy is over: asks the claims of runs.
    fn finish(&mut self) -> Result<(), String> {
        let shift = &mut self.shifts[self.at];
        let run = shift.account.run(&self.offers);
        let (Some(run), Some(steps)) = (run, shift.steps.take()) else {
            return Ok(());
        };
        let met = claims::ask(&run, &steps, &self.offers, &mut self.rng)?;
        self.met.ran(&met);
        Ok(())
    }

    /// The shift is over, in all copies.
    pub fn end(&mut self) -> Result<(), String> {
        for copy in 0..self.shifts.len() {
            self.switch(copy);
            self.finish()?;
        }
        Ok(())
    }
}

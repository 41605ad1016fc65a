//! One row of words beside the model: every call goes to both, and what the
//! call may not change is compared.

use super::aims::Memory;
use super::calls::{Call, Drafts, Outcome};
use super::lent::LentWords;
use super::met::Met;
use super::model::{Draft, PLACES, WORDS};
use crate::check::check;
use crate::image::Piece;
use crate::rng::Rng;

const ONE_TOO_FEW: usize = WORDS - 1;

/// What calls came to: all went alike, or how not.
pub type Alike<T = ()> = Result<T, String>;

/// A state that the words once had.
#[derive(Clone, Debug)]
pub struct State {
    pub words: Vec<u32>,
    pub draft: Draft,
}

pub struct Beside<'a> {
    pub theirs: &'a dyn Drafts,
    pub words: LentWords,
    /// What the words are, if they are a draft.
    pub draft: Option<Draft>,
    pub memory: Memory,
    pub met: &'a mut Met,
    /// Words that the making wrote, and those that edits did.
    pub written: Vec<usize>,
    pub edited: Vec<usize>,
    pub states: Vec<State>,
    /// The calls so far, to be read.
    pub list: Vec<String>,
}

impl<'a> Beside<'a> {
    pub fn new(theirs: &'a dyn Drafts, words: LentWords, met: &'a mut Met) -> Beside<'a> {
        Beside {
            theirs,
            words,
            draft: None,
            memory: Memory::default(),
            met,
            written: Vec::new(),
            edited: Vec::new(),
            states: Vec::new(),
            list: Vec::new(),
        }
    }

    /// The draft, where it is known that there is one.
    pub fn known(&self) -> &Draft {
        self.draft.as_ref().expect("the words are a draft")
    }

    /// Makes a draft in the first so many of the words.
    pub fn make(&mut self, image: &[u8], lent: usize) -> Alike<u32> {
        let ours = Draft::make(image, lent);
        let expected = ours.as_ref().err().copied().unwrap_or(0);
        let lent_image = image.to_vec();
        let number = self.theirs.make(&lent_image, self.words.lend(lent));
        self.note(format!("make in {lent} words: {number}"));
        self.met.count("make", expected);
        if number != expected {
            return Err(format!("{expected} is right"));
        }
        if lent_image != image {
            return Err("the image is changed".to_string());
        }
        self.unchanged(number == 0)?;
        let older = self.draft.is_some();
        match ours {
            Err(number) => self.met_refused_making(number, lent, older),
            Ok(draft) => {
                if older {
                    self.met.mark("make: over an older draft");
                }
                let refused = !check(image).is_accepted();
                self.met.meet_making(&draft, refused, lent);
                self.written = self.words.settle();
                self.edited.clear();
                self.states.clear();
                self.memory = Memory::default();
                self.draft = Some(draft);
            }
        }
        Ok(number)
    }

    fn met_refused_making(&mut self, number: u32, lent: usize, older: bool) {
        if older && number != 34 {
            self.met.mark("make: refused, the older draft stays");
        }
        if number == 34 && lent == ONE_TOO_FEW {
            self.met.mark("make: a word too few");
        }
    }

    /// A call with all words lent.
    pub fn call(&mut self, call: Call) -> Alike<Outcome> {
        self.call_in(call, self.words.length())
    }

    /// A call with the first so many words lent.
    pub fn call_in(&mut self, call: Call, lent: usize) -> Alike<Outcome> {
        let mut next = self.draft.clone();
        let expected = if lent < WORDS {
            Outcome::refused(33)
        } else {
            call.of_model(next.as_mut())
        };
        let outcome = self.theirs_of(call, lent)?;
        if outcome != expected {
            return Err(format!("{expected} is right"));
        }
        self.met_call(call, &outcome, lent);
        if outcome.number == 0 {
            self.remember(call);
        }
        self.draft = next;
        Ok(outcome)
    }

    fn met_call(&mut self, call: Call, outcome: &Outcome, lent: usize) {
        match (lent, &self.draft) {
            (0, _) => self.met.mark("words: none"),
            (ONE_TOO_FEW, _) => self.met.mark("words: one too few"),
            (WORDS.., Some(draft)) => self.met.meet(call, outcome, draft, &self.memory),
            _ => {}
        }
    }

    /// A call on words of which nothing is known.
    pub fn foreign(&mut self, call: Call) -> Alike<Outcome> {
        self.theirs_of(call, self.words.length())
    }

    /// What theirs give for a call, and what every call has to leave alone.
    fn theirs_of(&mut self, call: Call, lent: usize) -> Alike<Outcome> {
        let outcome = call.of_words(self.theirs, self.words.lend(lent));
        match &outcome {
            Ok(outcome) => self.note(format!("{call}, in {lent} words: {outcome}")),
            Err(how) => self.note(format!("{call}, in {lent} words: {how}")),
        }
        let outcome = outcome?;
        self.met.count(call.name(), outcome.number);
        if outcome.number != 0 && outcome.total != 0 {
            return Err("a refused reading has total 0".to_string());
        }
        let may_write = call.is_edit() && outcome.number == 0;
        self.unchanged(may_write)?;
        if may_write {
            let changed = self.words.settle();
            self.edited.extend(changed);
            if self.edited.len() > 400 {
                self.edited.drain(..200);
            }
        }
        Ok(outcome)
    }

    /// Whether words are as before, those that the call could write aside.
    fn unchanged(&self, may_write: bool) -> Alike {
        if may_write && self.words.has_changed_past(WORDS) {
            return Err("a word past the first 32,768, or before them, is changed".to_string());
        }
        if !may_write && self.words.has_changed() {
            return Err("a word is changed".to_string());
        }
        Ok(())
    }

    fn remember(&mut self, call: Call) {
        match call {
            Call::Remove { place } => self.memory.removed.push(place),
            Call::Add { place, .. } => self.memory.removed.retain(|other| *other != place),
            _ => {}
        }
    }

    /// Writes to the list of calls.
    pub fn note(&mut self, what: String) {
        self.list.push(what);
    }

    /// Keeps the state that the words have.
    pub fn keep_state(&mut self) {
        if self.states.len() == 3 {
            self.states.remove(0);
        }
        self.states.push(State {
            words: self.words.part()[..WORDS].to_vec(),
            draft: self.known().clone(),
        });
    }

    /// Reads all places, the totals of all jobs that have a piece and those of
    /// all cores, or some of each.
    pub fn survey(&mut self, all: bool, rng: &mut Rng) -> Alike {
        let draft = self.known();
        let mut jobs = draft.jobs();
        let mut places: Vec<u32> = draft.pieces().keys().copied().collect();
        let cores = draft.plan().cores.len() as u32;
        if all {
            places = (0..=PLACES).collect();
        } else {
            rng.shuffle(&mut jobs);
            rng.shuffle(&mut places);
            jobs.truncate(8);
            places.truncate(8);
            places.extend((0..4).map(|_| rng.within(0..=PLACES - 1)));
        }
        for place in places {
            self.call(Call::Place { place, lent: 4 })?;
        }
        for [task, job] in jobs {
            self.call(Call::Job { task, job })?;
        }
        for core in 0..=cores {
            self.call(Call::Core { core })?;
        }
        Ok(())
    }

    /// Reads a place of words of which nothing is known.
    pub fn foreign_piece(&mut self, place: u32) -> Alike<Option<Piece>> {
        let outcome = self.foreign(Call::Place { place, lent: 4 })?;
        match outcome.number {
            0 => Ok(outcome.piece),
            33 => Ok(None),
            _ => Err("reading a place gives 0 or 33".to_string()),
        }
    }
}

//! Drafts with totals kept (request 6): a model, and lists of calls made of it
//! and of an implementation side by side.

mod aims;
mod beside;
mod calls;
mod faults;
mod images;
mod lent;
mod met;
mod model;
mod standin;
mod strangers;

use std::fmt;

use crate::hex::told;
use crate::rng::Rng;
use beside::{Alike, Beside};
use strangers::Now;

pub use calls::{Call, Drafts, Outcome};
pub use faults::Fault;
pub use images::{heaviest, image, loose};
pub use lent::LentWords;
pub use met::Met;
pub use model::{Asked, Draft, PLACES, WORDS};
pub use standin::Standin;

/// What to run.
#[derive(Clone, Copy, Debug)]
pub struct Settings {
    pub seed: u64,
    /// The drafts; each is made of the seed and its number alone.
    pub first_draft: u64,
    pub drafts: u64,
    /// Whether all places are read in some of them, and one in 144 is filled
    /// and emptied.
    pub all_places: bool,
    /// Whether each draft's number goes to standard error before its calls.
    pub trace: bool,
}

/// Runs all drafts, up to the first difference.
pub fn run(settings: &Settings, theirs: &dyn Drafts) -> Result<Met, Difference> {
    let mut met = Met::default();
    for number in settings.first_draft..settings.first_draft + settings.drafts {
        if settings.trace {
            eprintln!("draft {number}");
        }
        let mut rng = Rng::for_case(settings.seed, number);
        let image = images::of_number(number, &mut rng);
        let words = LentWords::noise(any_length(&mut rng), &mut rng);
        let mut course = Course {
            beside: Beside::new(theirs, words, &mut met),
            all_places: settings.all_places,
            number,
        };
        let outcome = course.run(&image, &mut rng);
        let list = std::mem::take(&mut course.beside.list);
        met.list(list.len());
        outcome.map_err(|how| Difference {
            seed: settings.seed,
            number,
            image,
            list,
            how,
        })?;
    }
    Ok(met)
}

/// How many words are lent, enough for a draft.
fn any_length(rng: &mut Rng) -> usize {
    match rng.below(4) {
        0 => WORDS,
        1 => WORDS + 1,
        2 => WORDS + rng.below(300),
        _ => 40_000,
    }
}

/// What is called on one image.
struct Course<'a> {
    beside: Beside<'a>,
    all_places: bool,
    number: u64,
}

impl Course<'_> {
    fn run(&mut self, image: &[u8], rng: &mut Rng) -> Alike {
        self.fill(rng)?;
        for lent in [0, WORDS - 1, rng.below(WORDS)] {
            if rng.chance(30) {
                self.beside.make(image, lent)?;
            }
        }
        let lent = self.beside.words.length();
        let number = self.beside.make(image, lent)?;
        if number == 0 {
            self.beside.survey(false, rng)?;
            if self.all_places && images::is_roomy(self.number) {
                self.fill_and_empty(rng)?;
            }
            self.edit(rng)?;
            let all = self.is_turn(40, 2);
            return self.beside.survey(all, rng);
        }
        if self.beside.draft.is_some() {
            return self.beside.survey(false, rng);
        }
        Ok(())
    }

    /// Whether it is this draft's turn to read all places, once in so many.
    fn is_turn(&self, every: u64, at: u64) -> bool {
        self.all_places && self.number % every == at
    }

    /// Puts something into the words: anything, or an older draft.
    fn fill(&mut self, rng: &mut Rng) -> Alike {
        let beside = &mut self.beside;
        match rng.below(20) {
            0 => {
                beside.words.overwrite(&[0; WORDS]);
                strangers::judge(beside, "all 0", Now::Unknown, &mut false, rng)
            }
            1 => {
                beside.words.overwrite(&[u32::MAX; WORDS]);
                strangers::judge(beside, "all 1", Now::Unknown, &mut false, rng)
            }
            2 => strangers::judge(beside, "noise", Now::Unknown, &mut false, rng),
            3..10 => {
                let older = images::loose(rng).encode();
                beside.note("an older draft".to_string());
                let lent = beside.words.length();
                beside.make(&older, lent).map(drop)
            }
            _ => Ok(()),
        }
    }

    /// Edits and readings, with whatever may come between.
    fn edit(&mut self, rng: &mut Rng) -> Alike {
        let calls = rng.within(30..=120);
        let mut all = self.is_turn(36, 14);
        for _ in 0..calls {
            match rng.below(100) {
                0..3 => {
                    let call = aims::any_call(self.beside.known(), &self.beside.memory, rng);
                    let lent = rng.pick(&[0, WORDS - 1, WORDS - 1, 14_000]);
                    self.beside.call_in(call, lent)?;
                }
                3..9 => strangers::visit(&mut self.beside, &mut all, rng)?,
                9 => self.beside.survey(false, rng)?,
                10..13 => self.beside.keep_state(),
                13 if rng.chance(30) => self.make_again(rng)?,
                14 => self.beside.words = self.beside.words.elsewhere(rng),
                turn => {
                    let call = aims::any_call(self.beside.known(), &self.beside.memory, rng);
                    let lent = match turn {
                        15..25 => WORDS,
                        _ => self.beside.words.length(),
                    };
                    self.beside.call_in(call, lent)?;
                }
            }
        }
        Ok(())
    }

    /// Adds pieces until there is no place, and removes all.
    fn fill_and_empty(&mut self, rng: &mut Rng) -> Alike {
        let mut places: Vec<u32> = (0..PLACES).collect();
        rng.shuffle(&mut places);
        for &place in &places {
            let draft = self.beside.known();
            let piece = (0..60).map(|_| aims::any_piece(draft, rng));
            let mut fitting = piece.filter(|piece| draft.takes(piece));
            let present = draft.pieces().values().next().copied();
            if let Some(piece) = fitting.next().or(present) {
                self.beside.call(Call::Add { place, piece })?;
            }
        }
        self.beside.survey(false, rng)?;
        rng.shuffle(&mut places);
        for (turn, &place) in places.iter().enumerate() {
            self.beside.call(Call::Remove { place })?;
            if turn % 256 == 0 {
                self.beside.survey(false, rng)?;
            }
        }
        self.beside.survey(false, rng)
    }

    /// Makes another draft in the words, or tries to.
    fn make_again(&mut self, rng: &mut Rng) -> Alike {
        let number = u64::from(rng.word());
        let image = images::of_number(number, rng);
        self.beside.note(format!("an image of {}", told(&image)));
        let lent = rng.pick(&[self.beside.words.length(), WORDS, WORDS - 1]);
        self.beside.make(&image, lent).map(drop)
    }
}

/// A call that gives something else than the model, or writes what it may not.
#[derive(Clone, Debug)]
pub struct Difference {
    pub seed: u64,
    pub number: u64,
    image: Vec<u8>,
    list: Vec<String>,
    how: String,
}

impl Difference {
    /// The last call, and what is wrong with it.
    pub fn last(&self) -> String {
        let call = self.list.last().map_or("", |call| call);
        format!("{call}; {}", self.how)
    }
}

impl fmt::Display for Difference {
    fn fmt(&self, out: &mut fmt::Formatter<'_>) -> fmt::Result {
        let (seed, number) = (self.seed, self.number);
        writeln!(out, "difference in draft {number} of seed {seed}")?;
        writeln!(out, "image: {}", told(&self.image))?;
        writeln!(out, "calls:")?;
        for (at, call) in self.list.iter().enumerate() {
            writeln!(out, "{:5} {call}", at + 1)?;
        }
        writeln!(out, "the last is wrong: {}", self.how)?;
        writeln!(out, "made again by: drafts 1 {seed} {number}")?;
        writeln!(
            out,
            "the image is made again by: generate draft {seed} {number}"
        )
    }
}

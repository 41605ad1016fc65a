//! Modes (request 14) as the C functions have them: shifts of up to eight plans,
//! beside the model and beside an account of their calls, and the claims of runs
//! asked of what is shown.

mod account;
mod aims;
mod beside;
mod calls;
mod claims;
mod faults;
mod met;
mod model;
mod plans;
mod rough;
mod rows;
mod standin;

use std::fmt;

use crate::rng::Rng;
use beside::Beside;

pub use calls::{Call, Modes, Room, BLOCK, PLACES};
pub use faults::Fault;
pub use met::Met;
pub use plans::Offer;
pub use rough::Rough;
pub use standin::Standin;

/// What is asked of an implementation.
#[derive(Clone, Copy, Debug, PartialEq, Eq)]
pub enum Asked {
    All,
    /// What the account of its calls says, without the model.
    Account,
    /// The claims of runs alone.
    Runs,
}

/// What to run.
#[derive(Clone, Copy, Debug)]
pub struct Settings {
    pub seed: u64,
    /// The shifts; each is made of the seed and its number alone.
    pub first_shift: u64,
    pub shifts: u64,
    pub asked: Asked,
    /// Whether each shift's number goes to standard error before its calls.
    pub trace: bool,
}

/// Runs all shifts, up to the first difference.
pub fn run(settings: &Settings, modes: &dyn Modes) -> Result<Met, Difference> {
    let mut met = Met::default();
    for number in settings.first_shift..settings.first_shift + settings.shifts {
        if settings.trace {
            eprintln!("shift {number}");
        }
        let mut list = Vec::new();
        let mut images = Vec::new();
        let outcome = shift(settings, number, modes, (&mut met, &mut list, &mut images));
        outcome.map_err(|how| Difference {
            seed: settings.seed,
            number,
            images,
            list,
            how,
        })?;
    }
    Ok(met)
}

/// Whether a shift has plans of long cycles, of which some ticks are shown: one
/// in a hundred.
fn is_long(number: u64) -> bool {
    number % 100 == 41
}

fn shift(
    settings: &Settings,
    number: u64,
    modes: &dyn Modes,
    (met, list, images): (&mut Met, &mut Vec<String>, &mut Vec<Vec<u8>>),
) -> Result<(), String> {
    let rng = &mut Rng::for_case(settings.seed, number);
    let long = is_long(number);
    let offers = plans::offers(long, rng);
    images.extend(offers.iter().map(|offer| offer.image.clone()));
    let room = aims::any_room(number, &offers, rng);
    met.began();
    let own = Rng::new(rng.next());
    let mut beside = Beside::new(modes, settings.asked, offers, room, (met, list), own);
    aims::begin(&mut beside, rng)?;
    let turns = if long { 12 } else { rng.within(20..=50) };
    for turn in 0..turns {
        if turn == 0 && rng.chance(80) {
            aims::start(&mut beside, rng)?;
        }
        aims::any_turn(&mut beside, rng)?;
    }
    if rng.chance(25) {
        aims::damaged(&mut beside, rng)?;
    }
    beside.end()
}

/// Makes these calls on a fresh block, with bytes that fit each, after images
/// have been held at places from 0 on.
pub fn follow(
    modes: &dyn Modes,
    offers: &[Offer],
    calls: &[Call],
    met: &mut Met,
) -> Result<(), String> {
    let rng = &mut Rng::new(1);
    let room = aims::any_room(0, offers, rng);
    let mut list = Vec::new();
    let (notes, own) = ((met, &mut list), rng.clone());
    let mut beside = Beside::new(modes, Asked::All, offers.to_vec(), room, notes, own);
    let holds = (0..offers.len()).map(|offer| Call::Hold {
        offer,
        place: offer as u32,
    });
    let before: Vec<Call> = [Call::Fresh].into_iter().chain(holds).collect();
    for call in before.iter().chain(calls) {
        let room = beside.fitting(*call);
        beside.call(*call, room)?;
    }
    beside.end()
}

/// A shift whose last call is wrong.
#[derive(Clone, Debug)]
pub struct Difference {
    pub seed: u64,
    pub number: u64,
    images: Vec<Vec<u8>>,
    list: Vec<String>,
    pub how: String,
}

impl Difference {
    /// The last call, and what is wrong with it.
    pub fn last(&self) -> String {
        let call = self.list.last().map_or("", String::as_str);
        format!("{call}; {}", self.how)
    }
}

impl fmt::Display for Difference {
    fn fmt(&self, out: &mut fmt::Formatter<'_>) -> fmt::Result {
        let (seed, number) = (self.seed, self.number);
        writeln!(out, "difference in shift {number} of seed {seed}")?;
        for (at, image) in self.images.iter().enumerate() {
            writeln!(out, "image {at}: {}", crate::hex::told(image))?;
        }
        let mut same = 1;
        for (at, note) in self.list.iter().enumerate() {
            if self.list.get(at + 1) == Some(note) {
                same += 1;
                continue;
            }
            let times = if same > 1 {
                format!(", {same} times")
            } else {
                String::new()
            };
            writeln!(out, "{:5} {note}{times}", at + 1)?;
            same = 1;
        }
        writeln!(out, "the last is wrong:")?;
        writeln!(out, "{}", self.how)?;
        writeln!(out, "made again by: modes 1 {seed} {number}")
    }
}

//! The calls on a modes block, as they are made of any implementation.

use std::fmt;

use crate::answer::Answer;

/// Bytes of a block.
pub const BLOCK: usize = 172;
/// Places for plans.
pub const PLACES: usize = 8;

/// The C functions of request 14 over rows of bytes. Words that are only read
/// are lent to be written too: whether they are is seen in what is left.
pub trait Modes {
    fn fresh(&self, modes: &mut [u8]) -> u32;
    fn hold(&self, image: &[u8], place: u32, words: &mut [u8], modes: &mut [u8]) -> u64;
    fn start(
        &self,
        place: u32,
        cycle: u64,
        words: &mut [u8],
        states: &mut [u8],
        modes: &mut [u8],
    ) -> u32;
    fn request(&self, place: u32, modes: &mut [u8]) -> u32;
    fn step(&self, words: &mut [u8], states: &mut [u8], modes: &mut [u8]) -> u32;
}

/// Any call. An image is named by its number among those of the shift.
#[derive(Clone, Copy, Debug, PartialEq, Eq)]
pub enum Call {
    Fresh,
    Hold { offer: usize, place: u32 },
    Start { place: u32, cycle: u64 },
    Request { place: u32 },
    Step,
}

use Call::*;

/// How many bytes of each row are lent.
#[derive(Clone, Copy, Debug, PartialEq, Eq)]
pub struct Room {
    pub words: usize,
    pub states: usize,
    pub modes: usize,
}

/// The rows that are lent.
pub struct Rows<'a> {
    pub words: &'a mut [u8],
    pub states: &'a mut [u8],
    pub modes: &'a mut [u8],
}

impl Call {
    pub fn name(self) -> &'static str {
        match self {
            Fresh => "fresh",
            Hold { .. } => "hold",
            Start { .. } => "start",
            Request { .. } => "request",
            Step => "step",
        }
    }

    pub fn place(self) -> Option<u32> {
        match self {
            Hold { place, .. } | Start { place, .. } | Request { place } => Some(place),
            Fresh | Step => None,
        }
    }

    /// What an implementation gives for it, and does.
    pub fn of(self, by: &dyn Modes, image: &[u8], rows: Rows) -> Answer {
        let Rows {
            words,
            states,
            modes,
        } = rows;
        let number = match self {
            Hold { place, .. } => return Answer::of_code(by.hold(image, place, words, modes)),
            Fresh => by.fresh(modes),
            Start { place, cycle } => by.start(place, cycle, words, states, modes),
            Request { place } => by.request(place, modes),
            Step => by.step(words, states, modes),
        };
        Answer::plain(number)
    }

    /// The call with the bytes lent to it.
    pub fn told(self, room: Room) -> String {
        let Room {
            words,
            states,
            modes,
        } = room;
        match self {
            Fresh | Request { .. } => format!("{self}; {modes} bytes of block"),
            Hold { .. } => format!("{self}; {words} bytes of words, {modes} of block"),
            Start { .. } | Step => {
                format!("{self}; {words} bytes of words, {states} of states, {modes} of block")
            }
        }
    }
}

impl fmt::Display for Call {
    fn fmt(&self, out: &mut fmt::Formatter<'_>) -> fmt::Result {
        let name = self.name();
        match self {
            Hold { offer, place } => write!(out, "{name} of image {offer} at place {place}"),
            Start { place, cycle } => write!(out, "{name} of place {place} in cycle {cycle}"),
            Request { place } => write!(out, "{name} of place {place}"),
            Fresh | Step => write!(out, "{name}"),
        }
    }
}

//! The calls on a draft, as they are made of an implementation and of the
//! model.

use std::fmt;

use super::model::{Asked, Draft};
use crate::image::Piece;

/// The C functions of request 6 over words whose layout is the
/// implementation's own. Readings get the words to write too: whether they
/// do is seen in what they leave.
pub trait Drafts {
    fn make(&self, image: &[u8], words: &mut [u32]) -> u32;
    fn add(&self, words: &mut [u32], place: u32, piece: Piece) -> u32;
    fn remove(&self, words: &mut [u32], place: u32) -> u32;
    fn shift(&self, words: &mut [u32], place: u32, start: u32) -> u32;
    fn job(&self, words: &mut [u32], task: u32, job: u32) -> u64;
    fn core(&self, words: &mut [u32], core: u32) -> u64;
    fn place(&self, words: &mut [u32], place: u32, piece: &mut [u32]) -> u32;
}

/// Any call but making.
#[derive(Clone, Copy, Debug, PartialEq, Eq)]
pub enum Call {
    Add {
        place: u32,
        piece: Piece,
    },
    Remove {
        place: u32,
    },
    Move {
        place: u32,
        start: u32,
    },
    Job {
        task: u32,
        job: u32,
    },
    Core {
        core: u32,
    },
    /// Reads a place, into so many lent words.
    Place {
        place: u32,
        lent: usize,
    },
}

use Call::*;

/// What a call gives: its number, and a total or a piece where it reads one.
/// A refusal's total is 0, and it reads no piece.
#[derive(Clone, Copy, Debug, PartialEq, Eq)]
pub struct Outcome {
    pub number: u32,
    pub total: u32,
    pub piece: Option<Piece>,
}

impl Outcome {
    pub fn refused(number: u32) -> Outcome {
        Outcome {
            number,
            total: 0,
            piece: None,
        }
    }

    fn of_edit(asked: Asked<()>) -> Outcome {
        Outcome::refused(asked.err().unwrap_or(0))
    }

    fn of_total(asked: Asked<u32>) -> Outcome {
        match asked {
            Err(number) => Outcome::refused(number),
            Ok(total) => Outcome {
                total,
                ..Outcome::refused(0)
            },
        }
    }

    fn of_piece(asked: Asked<Piece>) -> Outcome {
        Outcome {
            piece: asked.ok(),
            ..Outcome::refused(asked.err().unwrap_or(0))
        }
    }
}

impl Call {
    pub fn name(self) -> &'static str {
        match self {
            Add { .. } => "add",
            Remove { .. } => "remove",
            Move { .. } => "move",
            Job { .. } => "job",
            Core { .. } => "core",
            Place { .. } => "place",
        }
    }

    /// Whether it writes where it is not refused.
    pub fn is_edit(self) -> bool {
        self.edited_place().is_some()
    }

    /// The place that it edits, if it is an edit.
    pub fn edited_place(self) -> Option<u32> {
        match self {
            Add { place, .. } | Remove { place } | Move { place, .. } => Some(place),
            _ => None,
        }
    }

    /// What the model gives for it, and does. Where there is no draft, every
    /// call is refused by 33.
    pub fn of_model(self, draft: Option<&mut Draft>) -> Outcome {
        let Some(draft) = draft else {
            return Outcome::refused(33);
        };
        match self {
            Add { place, piece } => Outcome::of_edit(draft.add(place, piece)),
            Remove { place } => Outcome::of_edit(draft.remove(place)),
            Move { place, start } => Outcome::of_edit(draft.shift(place, start)),
            Job { task, job } => Outcome::of_total(draft.job_total(task, job)),
            Core { core } => Outcome::of_total(draft.core_total(core)),
            Place { place, lent } => {
                let piece = draft.piece(place);
                Outcome::of_piece(piece.and_then(|piece| match lent {
                    0..4 => Err(34),
                    _ => Ok(piece),
                }))
            }
        }
    }

    /// What an implementation gives for it, and does. The words lent for a
    /// piece lie among others, and are other ones than the piece's before;
    /// none but the piece's may change: else this says so.
    pub fn of_words(self, theirs: &dyn Drafts, words: &mut [u32]) -> Result<Outcome, String> {
        let with_total = |code: u64| Outcome {
            total: (code >> 32) as u32,
            ..Outcome::refused(code as u32)
        };
        Ok(match self {
            Add { place, piece } => Outcome::refused(theirs.add(words, place, piece)),
            Remove { place } => Outcome::refused(theirs.remove(words, place)),
            Move { place, start } => Outcome::refused(theirs.shift(words, place, start)),
            Job { task, job } => with_total(theirs.job(words, task, job)),
            Core { core } => with_total(theirs.core(words, core)),
            Place { place, lent } => return read_place(theirs, words, place, lent),
        })
    }
}

/// Words that no piece has.
const UNTOUCHED: [u32; 12] = [0xA5A5_A5A5; 12];
/// Where the words lent for a piece begin among those.
const LENT_FROM: usize = 3;
const PIECE_WORDS: usize = 4;

fn read_place(
    theirs: &dyn Drafts,
    words: &mut [u32],
    place: u32,
    lent: usize,
) -> Result<Outcome, String> {
    let mut row = UNTOUCHED;
    let number = theirs.place(words, place, &mut row[LENT_FROM..LENT_FROM + lent]);
    let written = LENT_FROM..LENT_FROM + PIECE_WORDS;
    let piece: Piece = row[written.clone()].try_into().expect("four words");
    let mut others = row;
    if number == 0 && lent >= PIECE_WORDS {
        others[written].copy_from_slice(&UNTOUCHED[..PIECE_WORDS]);
    }
    if others != UNTOUCHED {
        return Err(format!("{number}, and writes {row:x?} around the piece"));
    }
    Ok(Outcome {
        piece: (number == 0).then_some(piece),
        ..Outcome::refused(number)
    })
}

impl fmt::Display for Call {
    fn fmt(&self, out: &mut fmt::Formatter<'_>) -> fmt::Result {
        let name = self.name();
        match self {
            Add { place, piece } => {
                let [task, job, start, length] = piece;
                write!(
                    out,
                    "{name} place {place}: task {task}, job {job}, start {start}, length {length}"
                )
            }
            Remove { place } => write!(out, "{name} place {place}"),
            Move { place, start } => write!(out, "{name} place {place} to start {start}"),
            Job { task, job } => write!(out, "{name} total of task {task}, job {job}"),
            Core { core } => write!(out, "{name} total of core {core}"),
            Place { place, lent } => write!(out, "{name} {place} read into {lent} words"),
        }
    }
}

impl fmt::Display for Outcome {
    fn fmt(&self, out: &mut fmt::Formatter<'_>) -> fmt::Result {
        let Outcome {
            number,
            total,
            piece,
        } = self;
        write!(out, "{number}")?;
        if *total > 0 {
            write!(out, ", total {total}")?;
        }
        if let Some([task, job, start, length]) = piece {
            write!(out, ", piece {task} {job} {start} {length}")?;
        }
        Ok(())
    }
}

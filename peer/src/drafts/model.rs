//! A draft as the papers tell of it: the pieces present, by their places, and
//! what the image says of tasks and cores. Totals are summed anew each time
//! they are read, so that no edit can leave a wrong one.

use std::collections::BTreeMap;

use crate::check::{examine_rows, piece_in_job};
use crate::image::{Piece, Plan};

/// The words that a draft takes.
pub const WORDS: usize = 32_768;
/// Pieces have places below this one.
pub const PLACES: u32 = 2_048;

/// What a call gives, or the number of the first question answered no.
pub type Asked<T> = Result<T, u32>;

#[derive(Clone, Debug, PartialEq, Eq)]
pub struct Draft {
    /// The image's rows. Its pieces are taken out, since they are edited.
    plan: Plan,
    pieces: BTreeMap<u32, Piece>,
}

/// The calls. Each asks its questions in the order of the papers, and a
/// refused one changes nothing. That the words are a draft (the first half of
/// 33) is not asked here: this is one.
impl Draft {
    /// A draft of an image, where so many words are lent.
    pub fn make(image: &[u8], lent: usize) -> Asked<Draft> {
        let (mut plan, _) = examine_rows(image).map_err(|refusal| refusal.number)?;
        require(34, lent >= WORDS)?;
        let rows = std::mem::take(&mut plan.pieces);
        let pieces = (0..).zip(rows).collect();
        Ok(Draft { plan, pieces })
    }

    pub fn add(&mut self, place: u32, piece: Piece) -> Asked<()> {
        let [task, ..] = piece;
        require(5, self.has_task(task))?;
        require(10, piece_in_job(&self.plan, &piece))?;
        require(34, place < PLACES && self.is_free(place))?;
        self.pieces.insert(place, piece);
        Ok(())
    }

    pub fn remove(&mut self, place: u32) -> Asked<()> {
        match self.pieces.remove(&place) {
            Some(_) => Ok(()),
            None => Err(33),
        }
    }

    /// Moves a piece to another start.
    pub fn shift(&mut self, place: u32, start: u32) -> Asked<()> {
        let [task, job, _, length, ..] = self.piece(place)?;
        let moved = [task, job, start, length];
        require(10, piece_in_job(&self.plan, &moved))?;
        self.pieces.insert(place, moved);
        Ok(())
    }

    pub fn piece(&self, place: u32) -> Asked<Piece> {
        self.pieces.get(&place).copied().ok_or(33)
    }

    /// The piece total of a job, 0 without a piece.
    pub fn job_total(&self, task: u32, job: u32) -> Asked<u32> {
        require(5, self.has_task(task))?;
        require(10, job < self.plan.jobs(task))?;
        Ok(self.total(|piece| piece[..2] == [task, job]))
    }

    /// A core's total of piece ticks.
    pub fn core_total(&self, core: u32) -> Asked<u32> {
        require(5, (core as usize) < self.plan.cores.len())?;
        Ok(self.total(|piece| self.plan.core_of_task(piece[0]) == core))
    }

    /// The lengths of some pieces, task switches included. 2,048 pieces of a
    /// million ticks fit a word.
    fn total(&self, counts: impl Fn(&Piece) -> bool) -> u32 {
        let pieces = self.pieces.values().filter(|piece| counts(piece));
        pieces.map(|&[_, _, _, length, ..]| length).sum()
    }

    fn has_task(&self, task: u32) -> bool {
        (task as usize) < self.plan.tasks.len()
    }

    fn is_free(&self, place: u32) -> bool {
        !self.pieces.contains_key(&place)
    }
}

/// What tells whoever makes calls where their edges are.
impl Draft {
    /// The image's rows, without its pieces.
    pub fn plan(&self) -> &Plan {
        &self.plan
    }

    /// The pieces present, by place.
    pub fn pieces(&self) -> &BTreeMap<u32, Piece> {
        &self.pieces
    }

    /// Whether a piece meets 5 and 10.
    pub fn takes(&self, piece: &Piece) -> bool {
        self.has_task(piece[0]) && piece_in_job(&self.plan, piece)
    }

    /// The jobs that have a piece.
    pub fn jobs(&self) -> Vec<[u32; 2]> {
        jobs_of(&self.pieces)
    }
}

/// The jobs that have one of these pieces.
pub fn jobs_of(pieces: &BTreeMap<u32, Piece>) -> Vec<[u32; 2]> {
    let mut jobs: Vec<_> = pieces.values().map(|piece| [piece[0], piece[1]]).collect();
    jobs.sort_unstable();
    jobs.dedup();
    jobs
}

fn require(number: u32, yes: bool) -> Asked<()> {
    if yes {
        Ok(())
    } else {
        Err(number)
    }
}

//! The dispatch tables of all lanes in one row of words, and when frames arrive.

use crate::boundary::{read_words, write_words, Boundary};
use crate::image::{word_at, Plan, WORD};
use crate::naive;

/// The kind and row that a lane shows.
pub type Show = (u32, u32);

#[derive(Clone, Debug, PartialEq, Eq)]
pub struct Tables {
    words: Vec<u32>,
    /// Where each lane's table begins.
    pub firsts: Vec<u32>,
    /// Each frame's earliest and latest arrival.
    pub arrivals: Vec<[u32; 2]>,
}

impl Tables {
    /// The tables that an implementation builds, with the arrivals that it
    /// gives, or its first refusal.
    pub fn built(plan: &Plan, by: &dyn Boundary) -> Result<Tables, u64> {
        let image = plan.encode();
        let most_words = 2 + 3 * plan.cycle as usize;
        let build = |lane| {
            let mut lent = vec![0; most_words * WORD];
            match by.build(&image, lane, &mut lent) {
                0 => Ok(table_in(&read_words(&lent))),
                refusal => Err(refusal),
            }
        };
        let tables: Result<Vec<_>, u64> = (0..plan.lanes() as u32).map(build).collect();
        let arrivals = |frame| {
            let mut lent = [0; 2 * WORD];
            match by.arrivals(&image, frame, &mut lent) {
                0 => Ok([0, WORD].map(|byte| word_at(&lent, byte))),
                refusal => Err(refusal),
            }
        };
        let arrivals: Result<Vec<_>, u64> = (0..plan.frames.len() as u32).map(arrivals).collect();
        Ok(Tables::of(&tables?, arrivals?))
    }

    /// The tables and arrivals of a plan that no question is asked of.
    pub fn unasked(plan: &Plan) -> Tables {
        let image = plan.encode();
        let lanes = 0..plan.lanes() as u32;
        let tables: Vec<Vec<u32>> = lanes
            .map(|lane| naive::table_unasked(&image, lane))
            .collect();
        let frames = 0..plan.frames.len() as u32;
        let arrivals = frames.map(|frame| naive::arrivals_unasked(&image, frame));
        Tables::of(&tables, arrivals.collect())
    }

    /// The tables and arrivals of an accepted image, behind so many words of
    /// others.
    pub fn behind(before: usize, image: &[u8]) -> Tables {
        let tables = crate::tables(image).expect("it is accepted");
        let frames = 0..Plan::decode(image).frames.len() as u32;
        let arrivals = frames.map(|frame| naive::arrivals_unasked(image, frame));
        let mut tables = Tables::of(&tables, arrivals.collect());
        let mut words = vec![0; before];
        words.append(&mut tables.words);
        tables.words = words;
        for first in &mut tables.firsts {
            *first += before as u32;
        }
        tables
    }

    /// These tables, one behind the other.
    fn of(tables: &[Vec<u32>], arrivals: Vec<[u32; 2]>) -> Tables {
        let mut words = Vec::new();
        let mut firsts = Vec::new();
        for table in tables {
            firsts.push(words.len() as u32);
            words.extend_from_slice(table);
        }
        Tables {
            words,
            firsts,
            arrivals,
        }
    }

    pub fn lanes(&self) -> usize {
        self.firsts.len()
    }

    /// The words as bytes, to be lent.
    pub fn bytes(&self) -> Vec<u8> {
        let mut bytes = vec![0; self.words.len() * WORD];
        write_words(&self.words, &mut bytes);
        bytes
    }

    /// What a lane's table has at a tick.
    pub fn at(&self, lane: usize, tick: usize) -> Show {
        let [_, kind, row] = self.entries(lane)[self.entry_at(lane, tick)];
        (kind, row)
    }

    /// The last entry of a lane's table to begin by a tick.
    pub fn entry_at(&self, lane: usize, tick: usize) -> usize {
        let begun = |entry: &[u32; 3]| entry[0] as usize <= tick;
        self.entries(lane).iter().rposition(begun).unwrap_or(0)
    }

    fn entries(&self, lane: usize) -> &[[u32; 3]] {
        let table = &self.words[self.firsts[lane] as usize..];
        &table[2..].as_chunks().0[..table[1] as usize]
    }
}

/// The words of the table at the front of a row of words.
fn table_in(words: &[u32]) -> Vec<u32> {
    let needed = 2 + 3 * words[1] as usize;
    words[..needed.min(words.len())].to_vec()
}

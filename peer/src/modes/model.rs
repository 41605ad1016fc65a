//! A shift by request 14's sentences: what is held, what runs, what is
//! requested. The records say where the lanes stand.

use std::rc::Rc;

use super::calls::{Call, Room, BLOCK, PLACES};
use super::plans::Offer;
use crate::answer::Answer;
use crate::boundary::{read_state, write_state, STATE};
use crate::dispatch::{start, step_all, State};
use crate::image::WORD;

/// A plan as a place holds it.
#[derive(Debug, PartialEq, Eq)]
pub struct Held {
    /// The image's number.
    pub offer: usize,
    /// H
    pub cycle: u32,
    pub cores: usize,
    pub links: usize,
    /// Where each lane's table begins, and where the last one ends.
    pub firsts: Vec<u32>,
    pub end: usize,
}

impl Held {
    pub fn lanes(&self) -> usize {
        self.firsts.len()
    }

    /// What 44 compares.
    pub fn like(&self) -> (u32, usize, usize) {
        (self.cycle, self.cores, self.links)
    }
}

/// All that a modes block has to keep, and the words.
#[derive(Clone, Debug, Default)]
pub struct Model {
    pub places: [Option<Rc<Held>>; PLACES],
    /// How many words are taken.
    pub taken: usize,
    pub running: Option<Rc<Held>>,
    /// The plan requested last and not yet taken.
    pub requested: Option<Rc<Held>>,
    /// The words as the holds left them.
    words: Vec<u32>,
}

impl Model {
    /// A block that is fresh, over words of any content.
    pub fn fresh(words: Vec<u32>) -> Model {
        Model {
            words,
            ..Model::default()
        }
    }

    pub fn words(&self) -> &[u32] {
        &self.words
    }

    /// Makes a call with so many bytes lent; the records are those lent.
    pub fn call(
        &mut self,
        call: Call,
        room: Room,
        offers: &[Offer],
        states: &mut [u8],
    ) -> Result<(), Answer> {
        if room.modes != BLOCK {
            return Err(Answer::plain(27));
        }
        let words = (room.words / WORD).min(self.words.len());
        let done = match call {
            Call::Fresh => {
                *self = Model::fresh(std::mem::take(&mut self.words));
                Ok(())
            }
            Call::Hold { offer, place } => return self.hold(offer, &offers[offer], place, words),
            Call::Start { place, cycle } => self.start(place, cycle, words, states),
            Call::Request { place } => self.request(place),
            Call::Step => self.step(words, states),
        };
        done.map_err(Answer::plain)
    }

    fn hold(
        &mut self,
        number: usize,
        offer: &Offer,
        place: u32,
        words: usize,
    ) -> Result<(), Answer> {
        let plan = offer.told.as_ref().map_err(|answer| *answer)?;
        if place as usize >= PLACES {
            return Err(Answer::plain(43));
        }
        if words < self.taken + plan.words {
            return Err(Answer::plain(26));
        }
        let mut firsts = Vec::new();
        for table in &plan.tables {
            firsts.push(self.taken as u32);
            self.words[self.taken..][..table.len()].copy_from_slice(table);
            self.taken += table.len();
        }
        self.places[place as usize] = Some(Rc::new(Held {
            offer: number,
            cycle: plan.plan.cycle,
            cores: plan.plan.cores.len(),
            links: plan.plan.links.len(),
            firsts,
            end: self.taken,
        }));
        (self.running, self.requested) = (None, None);
        Ok(())
    }

    /// 43
    pub fn held(&self, place: u32) -> Option<&Rc<Held>> {
        self.places.get(place as usize)?.as_ref()
    }

    fn start(
        &mut self,
        place: u32,
        cycle: u64,
        words: usize,
        states: &mut [u8],
    ) -> Result<(), u32> {
        let plan = self.held(place).ok_or(43_u32)?.clone();
        if states.len() != plan.lanes() * STATE || plan.end > words {
            return Err(27);
        }
        let records = plan.firsts.iter().map(|first| start(cycle, *first));
        write(records, states);
        (self.running, self.requested) = (Some(plan), None);
        Ok(())
    }

    fn request(&mut self, place: u32) -> Result<(), u32> {
        let plan = self.held(place).ok_or(43_u32)?.clone();
        let like = self.running.as_ref().map(|running| running.like());
        if like != Some(plan.like()) {
            return Err(44);
        }
        self.requested = Some(plan);
        Ok(())
    }

    fn step(&mut self, words: usize, states: &mut [u8]) -> Result<(), u32> {
        let running = self.running.as_ref().ok_or(27_u32)?;
        if states.len() != running.lanes() * STATE {
            return Err(27);
        }
        let mut records: Vec<State> = read(states);
        let taken = match &self.requested {
            Some(plan) if records[0].tick == 0 => Some(plan.clone()),
            _ => None,
        };
        if let Some(plan) = &taken {
            for (record, first) in records.iter_mut().zip(&plan.firsts) {
                record.first = *first;
            }
        }
        match step_all(&self.words[..words], &mut records) {
            0 => {}
            number => return Err(number),
        }
        write(records.into_iter(), states);
        if taken.is_some() {
            (self.running, self.requested) = (taken, None);
        }
        Ok(())
    }
}

/// The whole records of a row.
pub fn read(states: &[u8]) -> Vec<State> {
    let records = states.as_chunks::<STATE>().0;
    records.iter().map(read_state).collect()
}

fn write(records: impl Iterator<Item = State>, states: &mut [u8]) {
    let row = states.as_chunks_mut::<STATE>().0;
    for (to, record) in row.iter_mut().zip(records) {
        *to = write_state(&record);
    }
}

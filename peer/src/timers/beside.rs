//! One block beside the model and beside the true counter.

use std::fmt;

use super::calls::{Call, Outcome, Timers};
use super::met::{Facts, Met};
use super::truth::{Shown, Truth};
use super::Asked;
use crate::boundary::{read_words, Peer};
use crate::harness::Lent;
use crate::hex::told;
use crate::rng::Rng;
use crate::timer::{Timer, BLOCK, REGISTERS};

/// What is on a list, to be read.
#[derive(Clone, Debug)]
pub enum Note {
    Block(Vec<u8>),
    Counter(u64),
    Call {
        call: Call,
        lent: usize,
        gave: Outcome,
    },
    Said(String),
}

impl fmt::Display for Note {
    fn fmt(&self, out: &mut fmt::Formatter<'_>) -> fmt::Result {
        match self {
            Note::Block(bytes) => write!(out, "the block is now {}", told(bytes)),
            Note::Counter(now) => write!(out, "the counter is at {now}"),
            Note::Call { call, lent, gave } => write!(out, "{call}, {lent} bytes lent: {gave}"),
            Note::Said(what) => write!(out, "{what}"),
        }
    }
}

pub struct Beside<'a> {
    theirs: &'a dyn Timers,
    asked: Asked,
    met: &'a mut Met,
    list: &'a mut Vec<Note>,
    /// The bytes as the model and as the implementation leaves them. The block
    /// is the first sixteen, so that more and fewer can be lent.
    right: Lent,
    found: Lent,
    pub truth: Truth,
}

impl<'a> Beside<'a> {
    /// A block among so many bytes, all noise.
    pub fn new(
        theirs: &'a dyn Timers,
        asked: Asked,
        room: usize,
        (met, list): (&'a mut Met, &'a mut Vec<Note>),
        rng: &mut Rng,
    ) -> Beside<'a> {
        let found = Lent::noise(room, rng);
        let truth = Truth::of(&timer_in(&found), 0);
        Beside {
            theirs,
            asked,
            met,
            list,
            right: found.clone(),
            found,
            truth,
        }
    }

    /// The registers as the bytes are.
    pub fn timer(&self) -> Timer {
        timer_in(&self.found)
    }

    /// How many bytes can be lent.
    pub fn room(&self) -> usize {
        self.found.part().len()
    }

    /// Gives the block other bytes, as no call does, and the counter their count.
    pub fn overwrite(&mut self, block: &[u8; BLOCK], turns: u64) {
        for lent in [&mut self.right, &mut self.found] {
            lent.part_mut()[..BLOCK].copy_from_slice(block);
        }
        self.list.push(Note::Block(self.found.part().to_vec()));
        self.truth = Truth::of(&self.timer(), turns);
        self.note_counter();
    }

    /// The counter goes on, unread.
    pub fn go_to(&mut self, value: u32, turns: u64) {
        self.truth.go_to(value, turns);
        self.note_counter();
    }

    fn note_counter(&mut self) {
        self.list.push(Note::Counter(self.truth.now));
    }

    /// Makes a call with the first so many bytes lent, and asks what came of it.
    pub fn call(&mut self, call: Call, lent: usize) -> Result<(), String> {
        let before = words_in(&self.found);
        let gave = self.make(call, lent)?;
        let raised = match call {
            Call::Interrupt if lent == BLOCK => gave,
            _ => self.make(Call::Interrupt, BLOCK)?,
        };
        let just_read = self.truth.is_just_read();
        let passed = self.truth.follow(call.effect(lent));
        let shown = self.shown(raised)?;
        self.truth.ask(shown)?;
        self.met.meet(&Facts {
            call,
            lent,
            gave,
            before,
            after: words_in(&self.found),
            counter: self.truth.now,
            just_read,
            passed,
        });
        Ok(())
    }

    /// Makes a call of the implementation and, where that is asked, of the model.
    fn make(&mut self, call: Call, lent: usize) -> Result<Outcome, String> {
        let gave = call.of(self.theirs, &mut self.found.part_mut()[..lent]);
        self.list.push(Note::Call { call, lent, gave });
        self.met.count(call.name(), gave.number);
        if self.asked == Asked::All {
            let right = call.of(&Peer, &mut self.right.part_mut()[..lent]);
            if (right, &self.right) != (gave, &self.found) {
                return Err(self.difference(right, gave));
            }
        }
        Ok(gave)
    }

    fn difference(&self, right: Outcome, gave: Outcome) -> String {
        let (ours, theirs) = (self.right.part(), self.found.part());
        let around = match ours == theirs && self.right != self.found {
            true => "\nbytes that are not lent have changed",
            false => "",
        };
        let (ours, theirs) = (told(ours), told(theirs));
        format!("right is {right}, leaving {ours}\nfound is {gave}, leaving {theirs}{around}")
    }

    /// What an implementation's own reads show of a copy of the block.
    fn shown(&mut self, raised: Outcome) -> Result<Shown, String> {
        let mut block: [u8; BLOCK] = self.found.part()[..BLOCK].try_into().expect("a block");
        let mut registers = [0; 4];
        for (address, value) in REGISTERS.into_iter().zip(&mut registers) {
            let gave = Call::Read { address }.of(self.theirs, &mut block);
            self.met.count("read", gave.number);
            if gave.number != 0 {
                return Err(format!("a read at {address} gives {gave}"));
            }
            *value = gave.value;
        }
        Ok(Shown {
            registers,
            raised: raised.number == 1,
        })
    }
}

fn timer_in(lent: &Lent) -> Timer {
    Timer::of_block(&lent.part()[..BLOCK]).expect("a block")
}

fn words_in(lent: &Lent) -> [u32; 4] {
    let words = read_words(&lent.part()[..BLOCK]);
    words.try_into().expect("four words")
}

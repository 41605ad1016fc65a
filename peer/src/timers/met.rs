//! What the lists met, and what they have to.

use std::collections::BTreeSet;
use std::fmt;

use super::aims::{LONGER, LONGEST};
use super::calls::{Call, Outcome};
use super::truth::{Passed, TURN};
use crate::gave::{Gave, Numbers};
use crate::timer::{BLOCK, COMPARE, COUNT, ENABLE, REGISTERS, STATUS};

/// The numbers of each call; of the interrupt, what it gives.
const NUMBERS: [Numbers; 5] = [
    ("start", &[0, 38]),
    ("reading", &[0, 38]),
    ("read", &[0, 38]),
    ("write", &[0, 38, 39]),
    ("interrupt", &[0, 1]),
];

/// A call on a block, and what came of it.
pub struct Facts {
    pub call: Call,
    pub lent: usize,
    pub gave: Outcome,
    /// The block's words.
    pub before: [u32; 4],
    pub after: [u32; 4],
    /// The true counter.
    pub counter: u64,
    /// Whether no tick had gone by since the last reading.
    pub just_read: bool,
    /// What passed before a reading, where that is known.
    pub passed: Option<Passed>,
}

/// A round of steps that the timer drove.
pub struct Round {
    pub every: u32,
    /// The true counter at the first reading and in this round.
    pub first: u64,
    pub counter: u64,
    pub gap: u64,
    pub steps: u64,
    /// Cycles completed so far.
    pub cycles: u64,
}

/// What a call, or a round, is worth making for.
type Mark<T> = (&'static str, fn(&T) -> bool);

const MARKS: [Mark<Facts>; 84] = [
    ("start: over other values", |facts| {
        facts.is_start() && facts.before.iter().all(|word| *word != 0)
    }),
    ("start: over other bits", |facts| {
        facts.is_start() && facts.has_other_bits()
    }),
    ("start: the counter at 0", |facts| {
        facts.is_start() && facts.counter % TURN == 0
    }),
    ("reading: the first, the counter was elsewhere", |facts| {
        facts.is_reading() && facts.passed.is_none()
    }),
    (
        "reading: sets the match, the third in a row or later",
        |facts| facts.sets() && facts.passed.is_some_and(|passed| passed.row >= 3),
    ),
    ("reading: leaves it not set, the third or later", |facts| {
        facts.leaves() && facts.passed.is_some_and(|passed| passed.row >= 3)
    }),
    ("reading: sets the match", Facts::sets),
    ("reading: sets the match, enabled", |facts| {
        facts.sets() && facts.is_enabled()
    }),
    ("reading: sets the match, not enabled", |facts| {
        facts.sets() && !facts.is_enabled()
    }),
    ("reading: leaves it not set", Facts::leaves),
    ("reading: a match stays, compare not come to", |facts| {
        facts.keeps() && !facts.has_come()
    }),
    ("reading: a match stays, compare come to again", |facts| {
        facts.keeps() && facts.has_come()
    }),
    ("reading: one count before compare", |facts| {
        facts.leaves() && facts.past_compare() == u32::MAX && facts.gone() > 0
    }),
    ("reading: just at compare", |facts| {
        facts.sets() && facts.past_compare() == 0
    }),
    ("reading: one count past compare", |facts| {
        facts.sets() && facts.past_compare() == 1
    }),
    ("reading: one tick, to compare", |facts| {
        facts.sets() && facts.gone() == 1
    }),
    ("reading: no tick", |facts| {
        facts.leaves() && facts.gone() == 0
    }),
    ("reading: no tick, compare is the count", |facts| {
        facts.leaves() && facts.gone() == 0 && facts.ahead() == 0
    }),
    ("reading: no tick, a match stays", |facts| {
        facts.keeps() && facts.gone() == 0
    }),
    ("reading: from compare on", |facts| {
        facts.leaves() && facts.gone() > 0 && facts.ahead() == 0
    }),
    ("reading: from compare on, 2^32 - 1 ticks", |facts| {
        facts.leaves() && facts.gone() == u32::MAX && facts.ahead() == 0
    }),
    ("reading: 2^32 - 1 ticks, to compare", |facts| {
        facts.sets() && facts.gone() == u32::MAX && facts.past_compare() == 0
    }),
    ("reading: 2^32 - 2 ticks, one before compare", |facts| {
        facts.leaves() && facts.gone() == u32::MAX - 1 && facts.past_compare() == u32::MAX
    }),
    ("reading: over the wrap, compare before it", |facts| {
        facts.sets() && facts.wraps() && facts.before[1] > facts.before[0]
    }),
    ("reading: over the wrap, compare behind it", |facts| {
        facts.sets() && facts.wraps() && facts.before[1] <= facts.after[0]
    }),
    ("reading: over the wrap, compare not come to", |facts| {
        facts.leaves() && facts.wraps()
    }),
    ("reading: over the wrap, a match stays", |facts| {
        facts.keeps() && facts.wraps()
    }),
    ("reading: up to 2^32 - 1, compare at 0", |facts| {
        facts.leaves() && facts.after[0] == u32::MAX && facts.before[1] == 0
    }),
    ("reading: to 0, compare at 0", |facts| {
        facts.sets() && facts.after[0] == 0 && facts.before[1] == 0
    }),
    ("reading: to 0, compare at 2^32 - 1", |facts| {
        facts.sets() && facts.after[0] == 0 && facts.before[1] == u32::MAX
    }),
    ("reading: no wrap, compare behind the old count", |facts| {
        facts.leaves() && facts.gone() > 0 && !facts.wraps() && facts.before[1] < facts.before[0]
    }),
    ("reading: 2^31 ticks or more, the match is set", |facts| {
        facts.sets() && facts.gone() >= HALF && facts.ahead() < HALF
    }),
    ("reading: compare 2^31 ahead or more, come to", |facts| {
        facts.sets() && facts.ahead() >= HALF
    }),
    (
        "reading: compare 2^31 ahead or more, not come to",
        |facts| facts.leaves() && facts.ahead() >= HALF && facts.gone() > 0,
    ),
    ("reading: 2^32 ticks, a match missed", |facts| {
        facts.leaves() && facts.passed.is_some_and(|passed| passed.ticks == TURN)
    }),
    ("reading: more than 2^32 ticks, a match missed", |facts| {
        facts.leaves() && facts.passed.is_some_and(|passed| passed.ticks > TURN)
    }),
    ("reading: more than 2^32 ticks, the match is set", |facts| {
        facts.sets() && facts.passed.is_some_and(|passed| passed.ticks > TURN)
    }),
    ("reading: compare written late, a match missed", |facts| {
        facts.leaves() && facts.is_late() && facts.is_caught()
    }),
    ("reading: compare written late, a match made up", |facts| {
        facts.sets() && facts.is_late() && !facts.is_caught()
    }),
    ("reading: compare written late, nothing lost", |facts| {
        facts.sets() && facts.is_late() && facts.is_caught()
    }),
    ("reading: a cleared match stays cleared", |facts| {
        facts.leaves() && facts.passed.is_some_and(|passed| passed.cleared)
    }),
    ("reading: a cleared match set again", |facts| {
        facts.sets() && facts.passed.is_some_and(|passed| passed.cleared)
    }),
    ("reading: a cleared match set again, one turn on", |facts| {
        let same = |passed: Passed| passed.cleared && passed.same_compare;
        facts.sets() && facts.passed.is_some_and(same)
    }),
    ("reading: other bits set", |facts| {
        facts.is_reading() && facts.has_other_bits()
    }),
    ("reading: other bits of status alone, no match", |facts| {
        facts.leaves() && facts.before[2] > 1
    }),
    ("read: count", |facts| facts.is_read_of(COUNT)),
    ("read: compare", |facts| facts.is_read_of(COMPARE)),
    ("read: a match", |facts| {
        facts.is_read_of(STATUS) && facts.gave.value == 1
    }),
    ("read: no match", |facts| {
        facts.is_read_of(STATUS) && facts.gave.value == 0
    }),
    ("read: status, other bits set", |facts| {
        facts.is_read_of(STATUS) && facts.before[2] > 1
    }),
    ("read: enable, 1", |facts| {
        facts.is_read_of(ENABLE) && facts.gave.value == 1
    }),
    ("read: enable, 0", |facts| {
        facts.is_read_of(ENABLE) && facts.gave.value == 0
    }),
    ("read: enable, other bits set", |facts| {
        facts.is_read_of(ENABLE) && facts.before[3] > 1
    }),
    ("read: 38 between two registers", |facts| {
        facts.is_refused_read(|address| address < BLOCK as u32)
    }),
    ("read: 38 right behind them", |facts| {
        facts.is_refused_read(|address| address == BLOCK as u32)
    }),
    ("read: 38 at 2^32 - 4", |facts| {
        facts.is_refused_read(|address| address == u32::MAX - 3)
    }),
    ("read: 38, the lowest bits a register's", |facts| {
        facts.is_refused_read(|address| address % 256 < 16 && address % 4 == 0)
    }),
    ("write: 38 between two registers", |facts| {
        facts.is_refused_write(|address| address < BLOCK as u32)
    }),
    ("write: 38 right behind count", |facts| {
        facts.is_refused_write(|address| (1..4).contains(&address))
    }),
    ("write: 38 right behind them", |facts| {
        facts.is_refused_write(|address| address == BLOCK as u32)
    }),
    ("write: 38 at 2^32 - 4", |facts| {
        facts.is_refused_write(|address| address == u32::MAX - 3)
    }),
    ("write: 38, the lowest bits count's", |facts| {
        facts.is_refused_write(|address| address % 256 == 0)
    }),
    ("write: 38, the lowest bits another register's", |facts| {
        facts.is_refused_write(|address| [4, 8, 12].contains(&(address % 256)))
    }),
    ("write: 39, another value", |facts| {
        facts.written(COUNT, |value| value != facts.before[0])
    }),
    ("write: 39, the count itself", |facts| {
        facts.written(COUNT, |value| value == facts.before[0])
    }),
    ("write: compare at the count", |facts| {
        facts.written(COMPARE, |value| value == facts.before[0])
    }),
    ("write: compare one ahead", |facts| {
        facts.written(COMPARE, |value| value.wrapping_sub(facts.before[0]) == 1)
    }),
    ("write: compare one behind", |facts| {
        facts.written(COMPARE, |value| facts.before[0].wrapping_sub(value) == 1)
    }),
    ("write: compare as it was", |facts| {
        facts.written(COMPARE, |value| value == facts.before[1])
    }),
    ("write: compare, a match stays", |facts| {
        facts.written(COMPARE, |_| facts.was_matched())
    }),
    ("write: compare right after a reading", |facts| {
        facts.written(COMPARE, |_| facts.just_read)
    }),
    ("write: compare, ticks after a reading", |facts| {
        facts.written(COMPARE, |_| !facts.just_read)
    }),
    ("write: 1 clears a match", |facts| {
        facts.written(STATUS, |value| value == 1 && facts.was_matched())
    }),
    ("write: 1 where there is no match", |facts| {
        facts.written(STATUS, |value| value == 1 && !facts.was_matched())
    }),
    ("write: 1 and other bits clear a match", |facts| {
        facts.written(STATUS, |value| {
            value > 1 && value % 2 == 1 && facts.was_matched()
        })
    }),
    ("write: 0 leaves a match", |facts| {
        facts.written(STATUS, |value| value == 0 && facts.was_matched())
    }),
    ("write: other bits leave a match", |facts| {
        facts.written(STATUS, |value| {
            value > 1 && value % 2 == 0 && facts.was_matched()
        })
    }),
    ("write: other bits where there is no match", |facts| {
        facts.written(STATUS, |value| value > 1 && !facts.was_matched())
    }),
    ("write: enabled, and the match raises it", |facts| {
        facts.written(ENABLE, |value| {
            value % 2 == 1 && !facts.is_enabled() && facts.was_matched()
        })
    }),
    ("write: not enabled, a match stays", |facts| {
        facts.written(ENABLE, |value| {
            value % 2 == 0 && facts.is_enabled() && facts.was_matched()
        })
    }),
    ("write: other bits do not enable", |facts| {
        facts.written(ENABLE, |value| value > 1 && value % 2 == 0)
    }),
    ("write: 38 by the length, at count", |facts| {
        facts.gave.number == 38
            && facts.call.name() == "write"
            && facts.call.address() == Some(COUNT)
    }),
    ("38 by the length and by the address", |facts| {
        let other = |address| !REGISTERS.contains(&address);
        facts.lent != BLOCK && facts.call.address().is_some_and(other)
    }),
    ("interrupt: none, another length, both bits 1", |facts| {
        facts.call == Call::Interrupt
            && facts.lent != BLOCK
            && facts.was_matched()
            && facts.is_enabled()
    }),
];

/// What the interrupt is asked with, after every call.
const INTERRUPTS: [Mark<[u32; 4]>; 6] = [
    ("interrupt: raised", |words| {
        words[2] % 2 == 1 && words[3] % 2 == 1
    }),
    ("interrupt: match alone", |words| {
        words[2] == 1 && words[3] == 0
    }),
    ("interrupt: enable alone", |words| {
        words[2] == 0 && words[3] == 1
    }),
    ("interrupt: neither", |words| words[2] == 0 && words[3] == 0),
    ("interrupt: other bits in both alone", |words| {
        words[2] & words[3] != 0 && words[2] % 2 == 0 && words[3] % 2 == 0
    }),
    ("interrupt: a match, other bits of enable alone", |words| {
        words[2] % 2 == 1 && words[3] > 1 && words[3] % 2 == 0
    }),
];

const ROUNDS: [Mark<Round>; 15] = [
    ("steps: no count gone by", |round| round.gap == 0),
    ("steps: none in a round", |round| {
        round.gap > 0 && round.steps == 0
    }),
    ("steps: one in a round", |round| round.steps == 1),
    ("steps: ten or more in a round", |round| round.steps >= 10),
    ("steps: a round one count before compare", |round| {
        round.past_step() == round.every - 1 && round.gap > 0
    }),
    ("steps: a round just at compare", |round| {
        round.past_step() == 0 && round.steps > 0
    }),
    ("steps: a round one count past compare", |round| {
        round.past_step() == 1 && round.steps > 0
    }),
    ("steps: a round of 2^32 - 1 counts", |round| {
        round.gap == TURN - 1
    }),
    ("steps: a round over the wrap", Round::wraps),
    ("steps: a late round over the wrap", |round| {
        round.wraps() && round.steps > 2
    }),
    ("steps: over three wraps or more", |round| {
        round.counter / TURN - round.first / TURN >= 3
    }),
    ("steps: at every count", |round| {
        round.every == 1 && round.steps > 0
    }),
    ("steps: 2^31 counts apart or more", |round| {
        round.every >= HALF && round.steps > 0
    }),
    ("steps: 2^32 - 1 counts apart", |round| {
        round.every == u32::MAX && round.steps > 0
    }),
    ("steps: over several cycles", |round| round.cycles >= 2),
];

/// Half a turn.
const HALF: u32 = 1 << 31;

impl Facts {
    fn is_taken(&self) -> bool {
        self.lent == BLOCK
    }

    fn is_start(&self) -> bool {
        self.is_taken() && self.call == Call::Start
    }

    fn is_reading(&self) -> bool {
        self.is_taken() && matches!(self.call, Call::Reading { .. })
    }

    fn has_other_bits(&self) -> bool {
        self.before[2] > 1 && self.before[3] > 1
    }

    fn was_matched(&self) -> bool {
        self.before[2] % 2 == 1
    }

    fn is_matched(&self) -> bool {
        self.after[2] % 2 == 1
    }

    fn is_enabled(&self) -> bool {
        self.before[3] % 2 == 1
    }

    fn sets(&self) -> bool {
        self.is_reading() && !self.was_matched() && self.is_matched()
    }

    fn leaves(&self) -> bool {
        self.is_reading() && !self.was_matched() && !self.is_matched()
    }

    fn keeps(&self) -> bool {
        self.is_reading() && self.was_matched() && self.is_matched()
    }

    /// Ticks gone by, modulo 2^32.
    fn gone(&self) -> u32 {
        self.after[0].wrapping_sub(self.before[0])
    }

    /// How far compare was ahead of the old count.
    fn ahead(&self) -> u32 {
        self.before[1].wrapping_sub(self.before[0])
    }

    /// How far the new count is past compare.
    fn past_compare(&self) -> u32 {
        self.after[0].wrapping_sub(self.before[1])
    }

    fn has_come(&self) -> bool {
        (1..=self.gone()).contains(&self.ahead())
    }

    fn wraps(&self) -> bool {
        self.after[0] < self.before[0]
    }

    fn is_late(&self) -> bool {
        let late = |passed: Passed| passed.written && passed.ticks < TURN;
        self.passed.is_some_and(late)
    }

    fn is_caught(&self) -> bool {
        self.passed.is_some_and(|passed| passed.caught)
    }

    fn is_read_of(&self, address: u32) -> bool {
        self.is_taken() && self.call == Call::Read { address }
    }

    fn is_refused_read(&self, at: impl Fn(u32) -> bool) -> bool {
        match self.call {
            Call::Read { address } => self.is_taken() && self.gave.number == 38 && at(address),
            _ => false,
        }
    }

    fn is_refused_write(&self, at: impl Fn(u32) -> bool) -> bool {
        match self.call {
            Call::Write { address, .. } => self.is_taken() && self.gave.number == 38 && at(address),
            _ => false,
        }
    }

    /// Whether such a value was written to a register, or was to be.
    fn written(&self, register: u32, is_such: impl Fn(u32) -> bool) -> bool {
        match self.call {
            Call::Write { address, value } => {
                self.is_taken() && address == register && is_such(value)
            }
            _ => false,
        }
    }
}

impl Round {
    /// Counts gone by since the last step, or the first reading.
    fn past_step(&self) -> u32 {
        ((self.counter - self.first) % u64::from(self.every)) as u32
    }

    fn wraps(&self) -> bool {
        self.counter / TURN > (self.counter - self.gap) / TURN
    }
}

/// What was met.
#[derive(Clone, Debug)]
pub struct Met {
    gave: Gave,
    /// Other lengths lent, by call.
    lengths: BTreeSet<(&'static str, usize)>,
    marks: [u64; MARKS.len()],
    interrupts: [u64; INTERRUPTS.len()],
    rounds: [u64; ROUNDS.len()],
    made: u64,
    steps: u64,
}

impl Default for Met {
    fn default() -> Met {
        Met {
            gave: Gave::default(),
            lengths: BTreeSet::new(),
            marks: [0; MARKS.len()],
            interrupts: [0; INTERRUPTS.len()],
            rounds: [0; ROUNDS.len()],
            made: 0,
            steps: 0,
        }
    }
}

fn tally<T>(counts: &mut [u64], marks: &[Mark<T>], facts: &T) {
    for (count, (_, is_met)) in counts.iter_mut().zip(marks) {
        *count += u64::from(is_met(facts));
    }
}

impl Met {
    /// Counts a call by what it gave.
    pub fn count(&mut self, call: &'static str, number: u32) {
        self.gave.count(call, number);
    }

    pub fn meet(&mut self, facts: &Facts) {
        if !facts.is_taken() {
            self.lengths.insert((facts.call.name(), facts.lent));
        }
        tally(&mut self.marks, &MARKS, facts);
        tally(&mut self.interrupts, &INTERRUPTS, &facts.after);
    }

    pub fn round(&mut self, round: &Round) {
        self.made += 1;
        self.steps += round.steps;
        tally(&mut self.rounds, &ROUNDS, round);
    }

    /// All calls of the timer.
    pub fn calls(&self) -> u64 {
        self.gave.total()
    }

    /// Each mark with its count.
    fn marks(&self) -> impl Iterator<Item = (&'static str, u64)> + '_ {
        let names = MARKS.iter().map(|mark| mark.0);
        let names = names.chain(INTERRUPTS.iter().map(|mark| mark.0));
        let names = names.chain(ROUNDS.iter().map(|mark| mark.0));
        let counts = self.marks.iter().chain(&self.interrupts);
        names.zip(counts.chain(&self.rounds).copied())
    }

    /// What should have been met and was not.
    pub fn missing(&self) -> Vec<String> {
        let mut missing = Vec::new();
        for numbers in NUMBERS {
            missing.extend(self.gave.missing(numbers));
            let call = numbers.0;
            let lengths = (0..=40).chain([LONGER, LONGEST]);
            let unmet = lengths.filter(|length| *length != BLOCK);
            let unmet = unmet.filter(|length| !self.lengths.contains(&(call, *length)));
            missing.extend(unmet.map(|length| format!("{call}: {length} bytes lent")));
        }
        let unmet = self.marks().filter(|(_, count)| *count == 0);
        missing.extend(unmet.map(|(mark, _)| mark.to_string()));
        missing
    }
}

impl fmt::Display for Met {
    fn fmt(&self, out: &mut fmt::Formatter<'_>) -> fmt::Result {
        writeln!(out, "calls by number:")?;
        for call in NUMBERS {
            writeln!(out, "{}", self.gave.line(call))?;
        }
        writeln!(out, "among them, and rounds of steps:")?;
        for (mark, count) in self.marks() {
            writeln!(out, "{count:8}  {mark}")?;
        }
        let (made, steps) = (self.made, self.steps);
        writeln!(out, "{made} rounds, {steps} steps of all lanes")?;
        writeln!(out, "{} calls", self.calls())
    }
}

//! The counter as it truly is, and what the request claims of a timer that
//! reads it. Nothing here subtracts modulo 2^32: the counter does not wrap,
//! and the tick at which it next comes to a value is found in 64 bits.

use super::calls::Effect;
use crate::timer::{Timer, BITS};

/// So many ticks take the counter round.
pub const TURN: u64 = 1 << BITS;

/// The first tick after one at which the counter comes to a value.
pub fn next(after: u64, value: u32) -> u64 {
    let here = after - after % TURN + u64::from(value);
    if here > after {
        here
    } else {
        here + TURN
    }
}

/// What registers and interrupt show.
#[derive(Clone, Copy, Debug, PartialEq, Eq)]
pub struct Shown {
    /// Count, compare, status and enable.
    pub registers: [u32; 4],
    pub raised: bool,
}

/// What passed between two readings.
#[derive(Clone, Copy, Debug, Default, PartialEq, Eq)]
pub struct Passed {
    pub ticks: u64,
    /// Whether compare was written meanwhile, not before the first tick.
    pub written: bool,
    /// Whether the counter came to the compare that stood in that tick.
    pub caught: bool,
    /// Whether a match was cleared and not set since, and compare not written.
    pub cleared: bool,
    pub same_compare: bool,
    /// Of how many readings in a row, this one included, the claim is asked at
    /// once; none where it is not asked.
    pub row: u64,
}

impl Passed {
    /// Whether the request claims anything of it.
    fn is_claimed(&self) -> bool {
        self.ticks < TURN && !self.written
    }
}

/// Readings in a row, of all of which the request claims something.
#[derive(Clone, Copy, Debug)]
struct Stretch {
    /// The counter at the reading before them, and the match after it.
    from: u64,
    matched: bool,
    readings: u64,
}

impl Stretch {
    fn from(from: u64, matched: bool) -> Stretch {
        Stretch {
            from,
            matched,
            readings: 0,
        }
    }
}

/// A counter of 64 bits, and what is known of a block that it is read into.
#[derive(Clone, Copy, Debug)]
pub struct Truth {
    pub now: u64,
    /// The counter at the last reading, where the block's count is its value.
    read_at: Option<u64>,
    count: u32,
    compare: u32,
    enabled: bool,
    /// What the match is, where that is known.
    matched: Option<bool>,
    stretch: Option<Stretch>,
    /// Compare was written since the last reading, not before its first tick.
    written: bool,
    /// Up to here the counter was watched; whether it came to what was compare.
    watched: u64,
    caught: bool,
    /// A match was cleared, and compare not written since.
    cleared: bool,
    same_compare: bool,
}

impl Truth {
    /// A counter that has gone round so often and stands at a block's count.
    pub fn of(block: &Timer, turns: u64) -> Truth {
        let now = turns * TURN + u64::from(block.count);
        Truth {
            now,
            read_at: Some(now),
            count: block.count,
            compare: block.compare,
            enabled: block.enabled,
            matched: Some(block.matched),
            stretch: Some(Stretch::from(now, block.matched)),
            written: false,
            watched: now,
            caught: false,
            cleared: false,
            same_compare: false,
        }
    }

    /// The counter's value as a reading brings it in.
    pub fn value(&self) -> u32 {
        self.now as u32
    }

    /// Goes on to the next tick at which the counter has a value, this one
    /// included, and so many turns further.
    pub fn go_to(&mut self, value: u32, turns: u64) {
        if value != self.value() {
            self.now = next(self.now, value);
        }
        self.now += turns * TURN;
    }

    /// Whether no tick has gone by since the last reading.
    pub fn is_just_read(&self) -> bool {
        self.read_at == Some(self.now)
    }

    /// Follows what a call did, and tells what passed before a reading.
    pub fn follow(&mut self, effect: Effect) -> Option<Passed> {
        match effect {
            Effect::Nothing => {}
            Effect::Fresh => self.start(),
            Effect::Reading(count) => {
                self.count = count;
                return self.read();
            }
            Effect::Compare(value) => self.set_compare(value),
            Effect::Clear => {
                self.cleared |= self.matched == Some(true);
                self.same_compare = true;
                self.matched = Some(false);
                self.stretch = None;
            }
            Effect::Enable(bit) => self.enabled = bit,
        }
        None
    }

    /// A fresh block's count is right where the counter is at 0.
    fn start(&mut self) {
        let turns = self.now / TURN;
        let now = self.now;
        *self = Truth::of(&Timer::fresh(BITS), turns);
        self.now = now;
        if !self.is_just_read() {
            self.read_at = None;
            self.stretch = None;
        }
    }

    fn set_compare(&mut self, value: u32) {
        self.watch();
        self.written |= !self.is_just_read();
        self.compare = value;
        self.same_compare = false;
        self.stretch = None;
    }

    fn watch(&mut self) {
        self.caught |= next(self.watched, self.compare) <= self.now;
        self.watched = self.now;
    }

    fn read(&mut self) -> Option<Passed> {
        self.watch();
        let mut passed = self.passed();
        if !passed.is_some_and(|passed| passed.is_claimed()) {
            self.stretch = None;
        }
        if let (Some(stretch), Some(passed)) = (&mut self.stretch, &mut passed) {
            stretch.readings += 1;
            passed.row = stretch.readings;
        }
        self.matched = match (self.stretch, self.matched) {
            (Some(stretch), _) => Some(stretch.matched || self.has_come_since(stretch.from)),
            // What is set stays, whatever came between.
            (None, Some(true)) => Some(true),
            (None, _) => None,
        };
        (self.read_at, self.written, self.caught) = (Some(self.now), false, false);
        passed
    }

    /// What passed since the last reading, where the counter is known.
    fn passed(&self) -> Option<Passed> {
        self.read_at.map(|at| Passed {
            ticks: self.now - at,
            written: self.written,
            caught: self.caught,
            cleared: self.cleared,
            same_compare: self.same_compare,
            row: 0,
        })
    }

    fn has_come_since(&self, from: u64) -> bool {
        next(from, self.compare) <= self.now
    }

    /// Asks the claims of what is shown after a call; from then on that is so.
    pub fn ask(&mut self, shown: Shown) -> Result<(), String> {
        let [_, _, status, _] = shown.registers;
        let matched = status == 1;
        let right = self.registers(matched);
        if shown.registers != right {
            let found = shown.registers;
            return Err(format!("the registers read {found:?}, and not {right:?}"));
        }
        if self.matched.is_some_and(|known| known != matched) {
            let how = if matched { "made up" } else { "missed" };
            return Err(format!("a match is {how}: {}", self.told()));
        }
        if shown.raised != (matched && self.enabled) {
            return Err("the interrupt is not match and enable".to_string());
        }
        self.matched = Some(matched);
        self.cleared &= !matched;
        if self.stretch.is_none() && !self.written {
            self.stretch = self.read_at.map(|from| Stretch::from(from, matched));
        }
        Ok(())
    }

    /// What the registers read, with or without a match.
    fn registers(&self, matched: bool) -> [u32; 4] {
        let bits = [matched, self.enabled].map(u32::from);
        [self.count, self.compare, bits[0], bits[1]]
    }

    fn told(&self) -> String {
        let Truth { now, compare, .. } = self;
        let counter = format!("the counter is at {now}, compare at {compare}");
        match self.stretch {
            None => format!("{counter}, and nothing has set or cleared it"),
            Some(Stretch { from, matched, .. }) => {
                let how = if matched { "set" } else { "not set" };
                format!("{counter}, and it was {how} at {from}")
            }
        }
    }
}

#[cfg(test)]
mod tests {
    use super::*;

    #[test]
    fn the_next_tick_at_a_value() {
        assert_eq!(next(0, 0), TURN);
        assert_eq!(next(0, 1), 1);
        assert_eq!(next(7, 7), TURN + 7);
        assert_eq!(next(7, 6), TURN + 6);
        assert_eq!(next(TURN - 1, 0), TURN);
        assert_eq!(next(TURN - 1, u32::MAX), 2 * TURN - 1);
        assert_eq!(next(3 * TURN + 5, 9), 3 * TURN + 9);
    }

    /// A counter at 10, just read, with compare at 20.
    fn at_ten() -> Truth {
        let mut block = Timer::fresh(BITS);
        (block.count, block.compare, block.enabled) = (10, 20, true);
        Truth::of(&block, 1)
    }

    /// What comes of registers that are right but for the match.
    fn asked(truth: &mut Truth, matched: bool) -> Result<(), String> {
        truth.ask(Shown {
            registers: truth.registers(matched),
            raised: matched && truth.enabled,
        })
    }

    fn read_at(truth: &mut Truth, value: u32, turns: u64) -> Passed {
        truth.go_to(value, turns);
        truth.follow(Effect::Reading(value)).expect("it was read")
    }

    #[test]
    fn a_match_is_not_missed_and_not_made_up() {
        for (value, matched) in [(10, false), (19, false), (20, true), (21, true), (9, true)] {
            let mut truth = at_ten();
            read_at(&mut truth, value, 0);
            assert!(asked(&mut truth.clone(), !matched).is_err(), "{value}");
            assert_eq!(asked(&mut truth, matched), Ok(()), "{value}");
        }
    }

    /// From 10 over several readings, and once round.
    #[test]
    fn what_is_cleared_stays_so_until_compare() {
        let mut truth = at_ten();
        read_at(&mut truth, 25, 0);
        assert_eq!(asked(&mut truth, true), Ok(()));
        truth.follow(Effect::Clear);
        assert!(asked(&mut truth.clone(), true).is_err());
        assert_eq!(asked(&mut truth, false), Ok(()));
        for (value, matched) in [(25, false), (u32::MAX, false), (19, false), (20, true)] {
            assert!(read_at(&mut truth, value, 0).cleared);
            assert!(asked(&mut truth.clone(), !matched).is_err(), "{value}");
            assert_eq!(asked(&mut truth, matched), Ok(()), "{value}");
        }
    }

    /// Nothing is known of a match where the premise does not hold.
    #[test]
    fn nothing_is_claimed_without_the_premise() {
        for (turns, late) in [(1, false), (0, true)] {
            for matched in [false, true] {
                let mut truth = at_ten();
                truth.go_to(12, 0);
                if late {
                    truth.follow(Effect::Compare(11));
                }
                let passed = read_at(&mut truth, 12, turns);
                assert_eq!((passed.ticks, passed.written), (turns * TURN + 2, late));
                assert_eq!(asked(&mut truth, matched), Ok(()));
                // What is set is known from then on.
                assert!(asked(&mut truth, !matched).is_err());
            }
        }
    }

    /// A compare that is written right after a reading counts from there on.
    #[test]
    fn compare_written_before_the_first_tick() {
        let mut truth = at_ten();
        truth.follow(Effect::Compare(12));
        assert_eq!(asked(&mut truth, false), Ok(()));
        assert!(!read_at(&mut truth, 12, 0).written);
        assert!(asked(&mut truth, false).is_err());
    }

    /// A fresh block is one of a counter at 0; else the first reading tells.
    #[test]
    fn a_fresh_block() {
        let mut truth = at_ten();
        truth.follow(Effect::Fresh);
        truth.go_to(30, 0);
        truth.follow(Effect::Compare(20));
        assert_eq!(truth.follow(Effect::Reading(30)), None);
        for matched in [false, true] {
            assert_eq!(asked(&mut truth.clone(), matched), Ok(()));
        }
        truth.go_to(0, 0);
        truth.follow(Effect::Fresh);
        assert!(truth.is_just_read());
        truth.follow(Effect::Compare(20));
        assert_eq!(asked(&mut truth, false), Ok(()));
        read_at(&mut truth, 30, 0);
        assert!(asked(&mut truth, false).is_err());
    }

    #[test]
    fn registers_and_interrupt() {
        let right = [10, 20, 0, 1];
        for place in 0..4 {
            let mut registers = right;
            registers[place] += 2;
            let shown = Shown {
                registers,
                raised: false,
            };
            assert!(at_ten().ask(shown).is_err(), "{place}");
        }
        for (raised, is_right) in [(false, true), (true, false)] {
            let shown = Shown {
                registers: right,
                raised,
            };
            assert_eq!(at_ten().ask(shown).is_ok(), is_right);
        }
    }
}

//! The tick timer (request 12), twice, and its registers in a block of bytes.
//!
//! `Timer` has the request's rule as it stands: ticks gone by, modulo 2^w, w
//! being the counter's width. `Stepped` follows a counter that does not wrap,
//! and sees at every single tick what it has come to. The two share no code,
//! so that on narrow counters, all of whose values can be gone through, the
//! one can be compared with the other.

use crate::boundary::{read_words, write_words, Peer};
use crate::timers::Timers;

/// Bytes of a block.
pub const BLOCK: usize = 16;

/// The registers' addresses.
pub const COUNT: u32 = 0;
pub const COMPARE: u32 = 4;
pub const STATUS: u32 = 8;
pub const ENABLE: u32 = 12;
pub const REGISTERS: [u32; 4] = [COUNT, COMPARE, STATUS, ENABLE];

/// The board's counter is so many bits wide.
pub const BITS: u32 = 32;

/// One value of a counter less another, modulo 2^w.
pub fn less(bits: u32, one: u32, other: u32) -> u32 {
    let turn = 1_u64 << bits;
    ((turn + u64::from(one) - u64::from(other)) % turn) as u32
}

/// The registers of a timer, by the request's rule.
#[derive(Clone, Copy, Debug, PartialEq, Eq)]
pub struct Timer {
    /// The counter's width, 1 to 32; count and compare are below 2^w.
    bits: u32,
    pub count: u32,
    pub compare: u32,
    /// Bit 0 of status.
    pub matched: bool,
    /// Bit 0 of enable.
    pub enabled: bool,
}

impl Timer {
    /// A fresh one: 0 everywhere.
    pub fn fresh(bits: u32) -> Timer {
        Timer {
            bits,
            count: 0,
            compare: 0,
            matched: false,
            enabled: false,
        }
    }

    pub fn bits(&self) -> u32 {
        self.bits
    }

    /// Brings in the counter's value.
    pub fn reading(&mut self, count: u32) {
        let gone = less(self.bits, count, self.count);
        let ahead = less(self.bits, self.compare, self.count);
        if (1..=gone).contains(&ahead) {
            self.matched = true;
        }
        self.count = count;
    }

    /// A register's value, or 38.
    pub fn read(&self, address: u32) -> Result<u32, u32> {
        match address {
            COUNT => Ok(self.count),
            COMPARE => Ok(self.compare),
            STATUS => Ok(u32::from(self.matched)),
            ENABLE => Ok(u32::from(self.enabled)),
            _ => Err(38),
        }
    }

    /// Writes a register, or gives 38 or 39.
    pub fn write(&mut self, address: u32, value: u32) -> Result<(), u32> {
        let bit = value % 2 == 1;
        match address {
            COUNT => return Err(39),
            COMPARE => self.compare = value,
            STATUS => self.matched &= !bit,
            ENABLE => self.enabled = bit,
            _ => return Err(38),
        }
        Ok(())
    }

    pub fn is_raised(&self) -> bool {
        self.matched && self.enabled
    }

    /// The registers of a block: all bytes are taken, and of status and enable
    /// bit 0 alone. A block of another length has none.
    pub fn of_block(block: &[u8]) -> Option<Timer> {
        if block.len() != BLOCK {
            return None;
        }
        let words = read_words(block);
        Some(Timer {
            bits: BITS,
            count: words[0],
            compare: words[1],
            matched: words[2] % 2 == 1,
            enabled: words[3] % 2 == 1,
        })
    }

    /// Writes all of a block.
    fn store(&self, block: &mut [u8]) {
        let bits = [self.matched, self.enabled].map(u32::from);
        write_words(&[self.count, self.compare, bits[0], bits[1]], block);
    }
}

/// Changes the registers of a block, which stays as it is after a refusal.
fn change(block: &mut [u8], change: impl FnOnce(&mut Timer) -> Result<(), u32>) -> u32 {
    let Some(mut timer) = Timer::of_block(block) else {
        return 38;
    };
    match change(&mut timer) {
        Err(number) => number,
        Ok(()) => {
            timer.store(block);
            0
        }
    }
}

impl Timers for Peer {
    fn fresh(&self, block: &mut [u8]) -> u32 {
        change(block, |timer| {
            *timer = Timer::fresh(BITS);
            Ok(())
        })
    }

    fn reading(&self, block: &mut [u8], count: u32) -> u32 {
        change(block, |timer| {
            timer.reading(count);
            Ok(())
        })
    }

    fn read(&self, block: &mut [u8], address: u32) -> u64 {
        let value = match Timer::of_block(block) {
            None => Err(38),
            Some(timer) => timer.read(address),
        };
        match value {
            Err(number) => u64::from(number),
            Ok(value) => u64::from(value) << 32,
        }
    }

    fn write(&self, block: &mut [u8], address: u32, value: u32) -> u32 {
        change(block, |timer| timer.write(address, value))
    }

    fn interrupt(&self, block: &mut [u8]) -> u32 {
        let timer = Timer::of_block(block);
        u32::from(timer.is_some_and(|timer| timer.is_raised()))
    }
}

/// A timer beside a counter that does not wrap, followed tick by tick.
#[derive(Clone, Debug, PartialEq, Eq)]
pub struct Stepped {
    /// How many of the counter's lowest bits are the timer's.
    bits: u32,
    counter: u64,
    /// All that the counter has come to since the last reading, each with
    /// the compare that stood in that tick.
    since: Vec<[u64; 2]>,
    /// The counter at the last reading.
    seen: u64,
    compare: u64,
    pub matched: bool,
    pub enabled: bool,
}

impl Stepped {
    /// A timer right after a reading of a counter.
    pub fn at(bits: u32, counter: u64, compare: u64) -> Stepped {
        Stepped {
            bits,
            counter,
            since: Vec::new(),
            seen: counter,
            compare,
            matched: false,
            enabled: false,
        }
    }

    /// The counter as a timer of its width has it.
    fn low(&self, counter: u64) -> u64 {
        counter & !(u64::MAX << self.bits)
    }

    /// One tick, which nobody has read yet.
    pub fn tick(&mut self) {
        self.counter += 1;
        self.since.push([self.low(self.counter), self.compare]);
    }

    /// Ticks since the last reading.
    pub fn ticks(&self) -> usize {
        self.since.len()
    }

    /// The counter's value to be read.
    pub fn value(&self) -> u64 {
        self.low(self.counter)
    }

    /// Whether one of the ticks since the last reading came to what compare
    /// is now.
    pub fn has_come(&self) -> bool {
        self.since.iter().any(|[value, _]| *value == self.compare)
    }

    /// Whether one of them came to what compare was in that tick.
    pub fn had_come(&self) -> bool {
        self.since.iter().any(|[value, compare]| value == compare)
    }

    pub fn reading(&mut self) {
        if self.has_come() {
            self.matched = true;
        }
        self.seen = self.counter;
        self.since.clear();
    }

    pub fn set_compare(&mut self, compare: u64) {
        self.compare = compare;
    }

    pub fn clear(&mut self) {
        self.matched = false;
    }

    /// Count, compare, status and enable as a program reads them.
    pub fn registers(&self) -> [u64; 4] {
        let bits = [self.matched, self.enabled].map(u64::from);
        [self.low(self.seen), self.compare, bits[0], bits[1]]
    }
}

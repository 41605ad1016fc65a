//! The timer as the source of a dispatcher's ticks: a load tool's loop.

use crate::timer::{less, Timer, COMPARE, COUNT, ENABLE, STATUS};

/// What the loop needs of a timer.
pub trait Source {
    /// The counter's width.
    fn bits(&self) -> u32;
    fn reading(&mut self, count: u32) -> Result<(), String>;
    fn read(&mut self, address: u32) -> Result<u32, String>;
    fn write(&mut self, address: u32, value: u32) -> Result<(), String>;
    fn is_raised(&mut self) -> Result<bool, String>;

    /// Compare, so many counts on from a value.
    fn set_compare(&mut self, value: u32, every: u32) -> Result<(), String> {
        let low = u64::MAX >> (64 - self.bits());
        let on = (u64::from(value) + u64::from(every)) & low;
        self.write(COMPARE, on as u32)
    }
}

/// Sets a fresh timer up: a first reading at any value of the counter, compare
/// so many counts on, and the interrupt enabled.
pub fn set_up(source: &mut dyn Source, counter: u32, every: u32) -> Result<(), String> {
    source.reading(counter)?;
    source.set_compare(counter, every)?;
    source.write(ENABLE, 1)
}

/// One round of the loop at a value of the counter. It is brought in no
/// further than compare at a time, so that a round that comes late makes all
/// steps that are due.
pub fn round(
    source: &mut dyn Source,
    counter: u32,
    every: u32,
    mut step: impl FnMut() -> Result<(), String>,
) -> Result<(), String> {
    loop {
        let (count, compare) = (source.read(COUNT)?, source.read(COMPARE)?);
        let bits = source.bits();
        let is_due = less(bits, compare, count) <= less(bits, counter, count);
        source.reading(if is_due { compare } else { counter })?;
        if !source.is_raised()? {
            return Ok(());
        }
        step()?;
        source.write(STATUS, 1)?;
        source.set_compare(compare, every)?;
    }
}

/// The request's rule, for a counter of any width.
impl Source for Timer {
    fn bits(&self) -> u32 {
        Timer::bits(self)
    }

    fn reading(&mut self, count: u32) -> Result<(), String> {
        Timer::reading(self, count);
        Ok(())
    }

    fn read(&mut self, address: u32) -> Result<u32, String> {
        Timer::read(self, address).map_err(|number| number.to_string())
    }

    fn write(&mut self, address: u32, value: u32) -> Result<(), String> {
        Timer::write(self, address, value).map_err(|number| number.to_string())
    }

    fn is_raised(&mut self) -> Result<bool, String> {
        Ok(Timer::is_raised(self))
    }
}

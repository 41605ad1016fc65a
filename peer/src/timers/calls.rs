//! The calls on a block, as they are made of any implementation.

use std::fmt;

use crate::timer::{BLOCK, COMPARE, ENABLE, STATUS};

/// The C functions of request 12 over a block of bytes. Reads and the
/// interrupt get the block to write too: whether they do is seen in what they
/// leave.
pub trait Timers {
    fn fresh(&self, block: &mut [u8]) -> u32;
    fn reading(&self, block: &mut [u8], count: u32) -> u32;
    /// The number, and 2^32 times the value.
    fn read(&self, block: &mut [u8], address: u32) -> u64;
    fn write(&self, block: &mut [u8], address: u32, value: u32) -> u32;
    /// 1 while it is raised, else 0.
    fn interrupt(&self, block: &mut [u8]) -> u32;
}

/// Any call.
#[derive(Clone, Copy, Debug, PartialEq, Eq)]
pub enum Call {
    Start,
    Reading { count: u32 },
    Read { address: u32 },
    Write { address: u32, value: u32 },
    Interrupt,
}

use Call::*;

/// What a call gives. The value is 0 where it gives a number alone.
#[derive(Clone, Copy, Debug, PartialEq, Eq)]
pub struct Outcome {
    pub number: u32,
    pub value: u32,
}

/// What a call that is not refused does to the registers.
#[derive(Clone, Copy, Debug, PartialEq, Eq)]
pub enum Effect {
    Nothing,
    Fresh,
    Reading(u32),
    Compare(u32),
    Clear,
    Enable(bool),
}

impl Call {
    pub fn name(self) -> &'static str {
        match self {
            Start => "start",
            Reading { .. } => "reading",
            Read { .. } => "read",
            Write { .. } => "write",
            Interrupt => "interrupt",
        }
    }

    /// The address that it names, if it names one.
    pub fn address(self) -> Option<u32> {
        match self {
            Read { address } | Write { address, .. } => Some(address),
            _ => None,
        }
    }

    /// What an implementation gives for it, and does.
    pub fn of(self, timers: &dyn Timers, block: &mut [u8]) -> Outcome {
        let code = match self {
            Start => u64::from(timers.fresh(block)),
            Reading { count } => u64::from(timers.reading(block, count)),
            Read { address } => timers.read(block, address),
            Write { address, value } => u64::from(timers.write(block, address, value)),
            Interrupt => u64::from(timers.interrupt(block)),
        };
        Outcome {
            number: code as u32,
            value: (code >> 32) as u32,
        }
    }

    /// What it does to a block of so many bytes, by the request's sentences.
    pub fn effect(self, lent: usize) -> Effect {
        match self {
            _ if lent != BLOCK => Effect::Nothing,
            Start => Effect::Fresh,
            Reading { count } => Effect::Reading(count),
            Write { address, value } => match address {
                COMPARE => Effect::Compare(value),
                STATUS if value & 1 == 1 => Effect::Clear,
                ENABLE => Effect::Enable(value & 1 == 1),
                _ => Effect::Nothing,
            },
            _ => Effect::Nothing,
        }
    }
}

impl fmt::Display for Call {
    fn fmt(&self, out: &mut fmt::Formatter<'_>) -> fmt::Result {
        let name = self.name();
        match self {
            Reading { count } => write!(out, "{name} of count {count} ({count:#x})"),
            Read { address } => write!(out, "{name} at {address}"),
            Write { address, value } => write!(out, "{name} at {address}: {value} ({value:#x})"),
            Start | Interrupt => write!(out, "{name}"),
        }
    }
}

impl fmt::Display for Outcome {
    fn fmt(&self, out: &mut fmt::Formatter<'_>) -> fmt::Result {
        write!(out, "{}", self.number)?;
        match self.value {
            0 => Ok(()),
            value => write!(out, ", value {value} ({value:#x})"),
        }
    }
}

//! Bytes lent to a call, among bytes that are not.

use crate::rng::Rng;

/// A row of bytes with a part that is lent.
#[derive(Clone, Debug, PartialEq, Eq)]
pub struct Lent {
    bytes: Vec<u8>,
    begin: usize,
    length: usize,
}

impl Lent {
    /// Lends noise of a length, among more noise and at any alignment.
    pub fn noise(length: usize, rng: &mut Rng) -> Lent {
        let begin = 8 + rng.below(8);
        Lent {
            bytes: rng.bytes(begin + length + 16),
            begin,
            length,
        }
    }

    /// Lends these bytes among noise.
    pub fn of(content: &[u8], rng: &mut Rng) -> Lent {
        let mut lent = Lent::noise(content.len(), rng);
        lent.part_mut().copy_from_slice(content);
        lent
    }

    pub fn part(&self) -> &[u8] {
        &self.bytes[self.begin..self.begin + self.length]
    }

    pub fn part_mut(&mut self) -> &mut [u8] {
        &mut self.bytes[self.begin..self.begin + self.length]
    }
}

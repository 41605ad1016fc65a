//! How many images each question refused first.

use std::collections::BTreeMap;
use std::fmt;

use crate::questions::QUESTIONS;

/// A count for each number that an answer had: 0, accepted, or a question's.
#[derive(Clone, Debug, Default)]
pub struct Histogram(BTreeMap<u32, u64>);

impl Histogram {
    /// Counts one image by the number of its answer.
    pub fn count(&mut self, number: u32) {
        *self.0.entry(number).or_default() += 1;
    }

    /// How many images had a number.
    pub fn of(&self, number: u32) -> u64 {
        self.0.get(&number).copied().unwrap_or(0)
    }

    pub fn total(&self) -> u64 {
        self.0.values().sum()
    }

    /// The questions that are the first to refuse less than one image in a hundred.
    pub fn rare(&self) -> Vec<u32> {
        let mut rare = QUESTIONS.to_vec();
        rare.retain(|number| 100 * self.of(*number) < self.total());
        rare
    }
}

/// A line for each number: count and share.
impl fmt::Display for Histogram {
    fn fmt(&self, out: &mut fmt::Formatter<'_>) -> fmt::Result {
        let total = self.total().max(1) as f64;
        for &number in [0].iter().chain(QUESTIONS) {
            let count = self.of(number);
            let percent = 100.0 * count as f64 / total;
            writeln!(out, "{number:2} {count:7} {percent:6.2} %")?;
        }
        Ok(())
    }
}

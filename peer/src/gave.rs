//! Calls counted by name and by the number that they gave.

use std::collections::BTreeMap;

/// A call's name, and the numbers that it can give.
pub type Numbers = (&'static str, &'static [u32]);

/// How many calls gave each number.
#[derive(Clone, Debug, Default)]
pub struct Gave(BTreeMap<(&'static str, u32), u64>);

impl Gave {
    pub fn count(&mut self, call: &'static str, number: u32) {
        *self.0.entry((call, number)).or_default() += 1;
    }

    /// All calls.
    pub fn total(&self) -> u64 {
        self.0.values().sum()
    }

    /// The numbers that a call should have given and did not.
    pub fn missing(&self, (call, numbers): Numbers) -> impl Iterator<Item = String> + '_ {
        let unmet = numbers.iter();
        let unmet = unmet.filter(move |number| !self.0.contains_key(&(call, **number)));
        unmet.map(move |number| format!("{call}: {number}"))
    }

    /// A line of all numbers that a call gave, with their counts.
    pub fn line(&self, (call, _): Numbers) -> String {
        let own = self.0.iter().filter(|((name, _), _)| *name == call);
        let counts = own.map(|((_, number), count)| format!("{number}: {count}"));
        format!("{call:>10}  {}", counts.collect::<Vec<_>>().join(", "))
    }
}

//! Which answers were met, and which have to be.

use std::collections::{BTreeMap, BTreeSet, HashMap};
use std::fmt;

use super::claims::Ledger;
use crate::answer::Answer;

/// The highest number that a question has or will have.
const HIGHEST_NUMBER: u32 = 44;
/// A table more than there are.
const HIGHEST_TABLE: u32 = 11;
const MOST_DIGITS: u32 = 10;

/// What answers can differ in.
const PLACES: [&str; 3] = ["number", "table", "row"];

/// What was met.
#[derive(Clone, Debug, Default)]
pub struct Met {
    pub lines: Ledger,
    answers: u64,
    calls: u64,
    numbers: BTreeSet<u32>,
    tables: BTreeSet<u32>,
    /// Rows, by their number of digits.
    rows: BTreeMap<u32, u64>,
    /// For each place, one answer to each pair of other words.
    one: [HashMap<[u32; 2], Answer>; 3],
    /// Whether two answers differed in this place alone.
    only_in: [bool; 3],
}

impl Met {
    pub fn meet(&mut self, answer: Answer, calls: u64) {
        let Answer { number, table, row } = answer;
        self.answers += 1;
        self.calls += calls;
        self.numbers.insert(number);
        self.tables.insert(table);
        let digits = row.checked_ilog10().unwrap_or(0) + 1;
        *self.rows.entry(digits).or_default() += 1;
        let others = [[table, row], [number, row], [number, table]];
        for (place, others) in others.into_iter().enumerate() {
            let one = *self.one[place].entry(others).or_insert(answer);
            self.only_in[place] |= one != answer;
        }
    }

    /// What should have been met and was not.
    pub fn missing(&self) -> Vec<String> {
        let numbers = (0..=HIGHEST_NUMBER).filter(|number| !self.numbers.contains(number));
        let tables = (0..=HIGHEST_TABLE).filter(|table| !self.tables.contains(table));
        let rows = (1..=MOST_DIGITS).filter(|digits| !self.rows.contains_key(digits));
        let places = (0..3).filter(|place| !self.only_in[*place]);
        numbers
            .map(|number| format!("a number {number}"))
            .chain(tables.map(|table| format!("a table {table}")))
            .chain(rows.map(|digits| format!("a row of {digits} digits")))
            .chain(
                places.map(|place| format!("answers that differ in the {} alone", PLACES[place])),
            )
            .collect()
    }
}

impl fmt::Display for Met {
    fn fmt(&self, out: &mut fmt::Formatter<'_>) -> fmt::Result {
        let (numbers, tables) = (self.numbers.len(), self.tables.len());
        writeln!(out, "different words: {numbers} numbers, {tables} tables")?;
        writeln!(out, "rows by their number of digits:")?;
        for (digits, count) in &self.rows {
            writeln!(out, "{digits:2} {count:7}")?;
        }
        let (shortest, longest) = self.lines.lengths();
        writeln!(out, "lines of {shortest} to {longest} bytes")?;
        let (answers, different) = (self.answers, self.lines.answers());
        writeln!(out, "{answers} answers, {different} of them different")?;
        writeln!(out, "{} calls", self.calls)
    }
}

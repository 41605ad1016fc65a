//! What stood in the texts, and what has to.

use std::collections::BTreeSet;
use std::fmt;

use crate::answer::Answer;
use crate::histogram::Histogram;
use crate::image::{CORE, FRAME, LINK, PIECE, ROW_BOUNDS, TABLES, WINDOW};
use crate::line::kind;
use crate::lines::Ledger;
use crate::questions::QUESTIONS;

/// What stood in the texts.
#[derive(Clone, Debug, Default)]
pub struct Met {
    pub answers: Histogram,
    /// The program's lines in words.
    pub lines: Ledger,
    /// Tables of which a row was refused.
    pub refused_tables: BTreeSet<u32>,
    pub refused_rows: Numbers,
    pub shown_rows: Numbers,
    pub first_ticks: Numbers,
    pub most_lanes: usize,
    /// The most entries of a lane.
    pub most_entries: usize,
    pub most_lines: usize,
    pub most_bytes: usize,
}

/// Numbers that stood in one place: the highest, and which lengths they had.
#[derive(Clone, Debug, Default)]
pub struct Numbers {
    pub highest: u32,
    /// Whether one had a digit, two digits and so on.
    lengths: [bool; 10],
}

impl Numbers {
    fn meet(&mut self, number: u32) {
        self.highest = self.highest.max(number);
        self.lengths[digits(number) - 1] = true;
    }

    /// The lengths, up to that of a number, that none had.
    fn lacking(&self, longest: u32) -> impl Iterator<Item = usize> + '_ {
        (1..=digits(longest)).filter(|length| !self.lengths[length - 1])
    }
}

fn digits(number: u32) -> usize {
    number.checked_ilog10().unwrap_or(0) as usize + 1
}

/// The highest row that an answer or an entry can have.
const HIGHEST_ROW: u32 = most(PIECE) as u32 - 1;
/// The highest first tick, in the longest cycle.
const HIGHEST_TICK: u32 = 999_999;
const ALL_LANES: usize = most(CORE) + most(LINK);
/// Three entries for each window (idle before, switch, the rest at its end)
/// and each piece (the rest before, switch, work), and idle at the lane's end.
const MOST_ENTRIES: usize = 3 * (most(WINDOW) + most(PIECE)) + 1;
/// The answer twice, as many entries for windows and pieces, two for each frame
/// (idle before, sending), and idle at each lane's end.
const MOST_LINES: usize = 2 + 3 * (most(WINDOW) + most(PIECE)) + 2 * most(FRAME) + ALL_LANES;

/// The highest row count of a table.
const fn most(table: u32) -> usize {
    ROW_BOUNDS[table as usize - 1].1 as usize
}

/// The answer of a text as `report` gives it.
pub fn answer_of(text: &str) -> Answer {
    let first = text.lines().next().expect("a text has lines");
    let [number, table, row] = words(first);
    Answer::at(number, table, row)
}

impl Met {
    /// Takes in a text as `report` gives it.
    pub fn meet(&mut self, text: &str) {
        let Answer { number, table, row } = answer_of(text);
        self.answers.count(number);
        if number > 0 {
            self.refused_tables.insert(table);
            self.refused_rows.meet(row);
        }
        self.meet_entries(text.lines().skip(2));
        self.most_lines = self.most_lines.max(text.lines().count());
        self.most_bytes = self.most_bytes.max(text.len());
    }

    fn meet_entries<'a>(&mut self, entries: impl Iterator<Item = &'a str>) {
        let entries: Vec<[u32; 4]> = entries.map(words).collect();
        for &[_, first_tick, _, row] in &entries {
            self.first_ticks.meet(first_tick);
            self.shown_rows.meet(row);
        }
        let lanes = || entries.chunk_by(|one, next| one[0] == next[0]);
        let longest = lanes().map(<[_]>::len).max().unwrap_or(0);
        self.most_lanes = self.most_lanes.max(lanes().count());
        self.most_entries = self.most_entries.max(longest);
    }

    /// What the texts should have had and had not.
    pub fn missing(&self) -> Vec<String> {
        let asked = QUESTIONS.iter();
        let unasked = asked.filter(|number| self.answers.of(**number) == 0);
        let tables = (1..=TABLES as u32).filter(|table| !self.refused_tables.contains(table));
        let kinds = tables.filter_map(kind);
        let refused = self.refused_rows.lacking(HIGHEST_ROW);
        let shown = self.shown_rows.lacking(HIGHEST_ROW);
        let ticks = self.first_ticks.lacking(HIGHEST_TICK);
        let mut missing: Vec<String> = unasked
            .map(|number| format!("a refusal by question {number}"))
            .chain(kinds.map(|kind| format!("a refused {kind}")))
            .chain(refused.map(|length| format!("a refused row of {length} digits")))
            .chain(shown.map(|length| format!("a shown row of {length} digits")))
            .chain(ticks.map(|length| format!("a first tick of {length} digits")))
            .collect();
        if self.most_entries < MOST_ENTRIES {
            missing.push(format!("a lane with {MOST_ENTRIES} entries"));
        }
        if self.most_lanes < ALL_LANES {
            missing.push(format!("a text with {ALL_LANES} lanes"));
        }
        if self.most_lines < MOST_LINES {
            missing.push(format!("a text of {MOST_LINES} lines"));
        }
        missing
    }
}

/// The numbers of a line.
fn words<const N: usize>(line: &str) -> [u32; N] {
    let words: Vec<u32> = line
        .split(' ')
        .map(|word| word.parse().expect("a line has numbers"))
        .collect();
    words.try_into().expect("a line has as many numbers")
}

impl fmt::Display for Met {
    fn fmt(&self, out: &mut fmt::Formatter<'_>) -> fmt::Result {
        let (images, accepted) = (self.answers.total(), self.answers.of(0));
        writeln!(out, "images by the question that refuses them first:")?;
        write!(out, "{}", self.answers)?;
        writeln!(out, "{images} images, {accepted} of them accepted")?;
        writeln!(
            out,
            "the longest text: {} lines, {} bytes; the longest lane: {} entries; the most lanes: {}",
            self.most_lines, self.most_bytes, self.most_entries, self.most_lanes
        )?;
        writeln!(
            out,
            "the highest row: {} refused, {} shown; the highest first tick: {}",
            self.refused_rows.highest, self.shown_rows.highest, self.first_ticks.highest
        )?;
        let (answers, (shortest, longest)) = (self.lines.answers(), self.lines.lengths());
        writeln!(
            out,
            "lines in words: {answers} different, of {shortest} to {longest} bytes"
        )
    }
}

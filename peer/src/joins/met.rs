//! What the calls met, and what they have to.

use std::collections::BTreeMap;
use std::fmt;

use super::crowded::APPENDED;
use crate::answer::Answer;
use crate::image::{Plan, Stream, LONGEST, ROW_BOUNDS, TASK};
use crate::join::{compose, new_number};
use crate::line::kind;
use crate::questions::QUESTIONS;

/// Whose question gave the answer.
#[derive(Clone, Copy, Debug, PartialEq, Eq, PartialOrd, Ord)]
pub enum Stage {
    First,
    Second,
    /// 35 to 37.
    Own,
    Result,
}

/// The numbers that a result of accepted plans can have: all other questions
/// are about rows of one plan, or about what both have.
pub const RESULTS: [u32; 7] = [0, 12, 13, 16, 19, 24, 41];

/// A call that both answered alike.
pub struct Facts<'a> {
    /// Both plans, where they are accepted.
    pub plans: Option<[&'a Plan; 2]>,
    pub stage: Stage,
    pub shared: u32,
    pub lent: usize,
    pub answer: Answer,
    /// The joined plan and its length, where it was written.
    pub joined: Option<(&'a Plan, usize)>,
}

/// What was met.
#[derive(Clone, Debug, Default)]
pub struct Met {
    numbers: BTreeMap<(Stage, u32), u64>,
    pairs: BTreeMap<&'static str, u64>,
    /// What makes a call worth making, besides its number.
    marks: BTreeMap<String, u64>,
    claims: u64,
}

/// What both plans must have, and the words of its rows.
const GROUND: [(&str, &[&str]); 6] = [
    ("the trailer", &["H"]),
    ("the trailer", &["P"]),
    ("cores", &["node", "d", "v"]),
    ("VCPUs", &["core"]),
    ("windows", &["VCPU", "start", "length"]),
    ("links", &["from", "to", "delay", "rate", "lowest delay"]),
];
const WORDS_OF_TASK: [&str; 5] = ["VCPU", "mask", "T", "C", "D"];

const MARKS: [&str; 23] = [
    "36 by the first's count alone",
    "36 by the second's count alone",
    "36 by both counts",
    "36 by 2^32 - 1",
    "37 by one byte",
    "37, nothing lent",
    "37 by bytes, and the result would be refused",
    "written to just enough bytes",
    "written to more bytes",
    "accepted, pieces interleave",
    "accepted, frames interleave",
    "accepted, no task shared",
    "accepted, all of the first's tasks shared",
    "accepted, all of the second's tasks shared",
    "accepted, nothing appended",
    "accepted, equal streams appended",
    "accepted, equal chains appended",
    "accepted, equal chains of the first",
    "accepted, equal streams of the first",
    "equal streams of the first, the lowest taken",
    "a frame found under another stream",
    "a frame appended under another stream",
    "the longest image",
];

/// All marks, each of which has to be met.
fn marks() -> Vec<String> {
    let mut marks: Vec<String> = MARKS.iter().map(|mark| mark.to_string()).collect();
    for (part, words) in GROUND {
        marks.extend(words.iter().map(|word| ground_word(part, word)));
    }
    marks.extend(GROUND[2..].iter().map(|(part, _)| ground_count(part)));
    marks.extend(["cores", "links"].map(ground_order));
    marks.extend(WORDS_OF_TASK.iter().map(|word| word_alone(word)));
    for table in APPENDED {
        marks.extend([too_many(table), appended(table), all_there_may_be(table)]);
    }
    marks.extend(APPENDED[1..].iter().map(|table| found(*table)));
    marks
}

fn ground_word(part: &str, word: &str) -> String {
    format!("35 by {word} of {part} alone")
}

fn ground_count(part: &str) -> String {
    format!("35 by the number of {part} alone")
}

fn ground_order(part: &str) -> String {
    format!("35 by the order of {part} alone")
}

/// In which ways rows differ; none where they do not.
fn differences<const W: usize>(
    (part, words): &(&str, &[&str]),
    one: &[[u32; W]],
    other: &[[u32; W]],
) -> Vec<String> {
    if one == other {
        return Vec::new();
    }
    if one.len() != other.len() {
        return vec![ground_count(part)];
    }
    let [mut sorted, mut others] = [one, other].map(<[_]>::to_vec);
    sorted.sort_unstable();
    others.sort_unstable();
    if sorted == others {
        return vec![ground_order(part)];
    }
    let pairs = || one.iter().zip(other);
    let differ = |column: &usize| pairs().any(|(one, other)| one[*column] != other[*column]);
    let columns = (0..W).filter(differ);
    columns
        .map(|column| ground_word(part, words[column]))
        .collect()
}

fn word_alone(word: &str) -> String {
    format!("36 by a task's {word} alone")
}

fn name(table: u32) -> &'static str {
    kind(table).expect("rows have a name")
}

fn too_many(table: u32) -> String {
    format!("37 by one {} too many", name(table))
}

fn appended(table: u32) -> String {
    format!("accepted, a {} appended", name(table))
}

fn found(table: u32) -> String {
    format!("accepted, a {} found", name(table))
}

fn all_there_may_be(table: u32) -> String {
    format!("accepted, all {}s that there may be", name(table))
}

impl Met {
    pub fn pair(&mut self, kind: &'static str) {
        *self.pairs.entry(kind).or_default() += 1;
    }

    pub fn claim(&mut self) {
        self.claims += 1;
    }

    pub fn call(&mut self, facts: &Facts) {
        let number = facts.answer.number;
        *self.numbers.entry((facts.stage, number)).or_default() += 1;
        let Some(plans) = facts.plans else {
            return;
        };
        match number {
            35 => self.meet_35(plans),
            36 => self.meet_36(plans, facts.shared),
            37 => self.meet_37(plans, facts),
            _ => {}
        }
        if let Some((joined, length)) = facts.joined {
            self.mark_if(facts.lent == length, "written to just enough bytes");
            self.mark_if(facts.lent > length, "written to more bytes");
            self.meet_frames(plans, facts.shared, joined);
            if number == 0 {
                self.meet_accepted(plans, facts.shared, joined);
            }
        }
    }

    fn mark(&mut self, what: String) {
        *self.marks.entry(what).or_default() += 1;
    }

    fn mark_if(&mut self, met: bool, what: &str) {
        if met {
            self.mark(what.to_string());
        }
    }

    fn meet_35(&mut self, [first, second]: [&Plan; 2]) {
        let [one, other] = [first, second].map(|plan| [[plan.cycle], [plan.precision]]);
        let parts = [
            differences(&GROUND[0], &one[..1], &other[..1]),
            differences(&GROUND[1], &one[1..], &other[1..]),
            differences(&GROUND[2], &first.cores, &second.cores),
            differences(&GROUND[3], &first.vcpus, &second.vcpus),
            differences(&GROUND[4], &first.windows, &second.windows),
            differences(&GROUND[5], &first.links, &second.links),
        ];
        let mut differing = parts.into_iter().filter(|marks| !marks.is_empty());
        if let (Some(alone), None) = (differing.next(), differing.next()) {
            alone.into_iter().for_each(|mark| self.mark(mark));
        }
    }

    fn meet_36(&mut self, [first, second]: [&Plan; 2], shared: u32) {
        let over = [first, second].map(|plan| shared as usize > plan.tasks.len());
        self.mark_if(over == [true, false], "36 by the first's count alone");
        self.mark_if(over == [false, true], "36 by the second's count alone");
        self.mark_if(over == [true, true], "36 by both counts");
        self.mark_if(shared == u32::MAX, "36 by 2^32 - 1");
        let pairs = || first.tasks.iter().zip(&second.tasks).take(shared as usize);
        let differ = |column: &usize| pairs().any(|(one, other)| one[*column] != other[*column]);
        let columns = (0..WORDS_OF_TASK.len()).filter(differ);
        if let ([false, false], [column]) = (over, &columns.collect::<Vec<_>>()[..]) {
            self.mark(word_alone(WORDS_OF_TASK[*column]));
        }
    }

    fn meet_37(&mut self, [first, second]: [&Plan; 2], facts: &Facts) {
        let joined = compose(first, second, facts.shared);
        let image = joined.encode();
        let counts = joined.counts();
        let over = |table: &u32| {
            let table = *table as usize - 1;
            counts[table].saturating_sub(ROW_BOUNDS[table].1 as usize)
        };
        let passed = APPENDED.iter().filter(|table| over(table) > 0);
        match passed.collect::<Vec<_>>()[..] {
            [] => {
                self.mark_if(facts.lent + 1 == image.len(), "37 by one byte");
                self.mark_if(facts.lent == 0, "37, nothing lent");
                let refused = !crate::check(&image).is_accepted();
                self.mark_if(refused, "37 by bytes, and the result would be refused");
            }
            [table] if over(table) == 1 && facts.lent >= image.len() => {
                self.mark(too_many(*table));
            }
            _ => {}
        }
    }

    fn meet_frames(&mut self, [first, second]: [&Plan; 2], shared: u32, joined: &Plan) {
        let number = |task| new_number(task, shared, first.tasks.len());
        let renumbered = |row: &Stream| {
            let mut row = *row;
            (row[0], row[1]) = (number(row[0]), number(row[1]));
            row
        };
        let among = |row: &Stream| first.streams.iter().filter(|own| *own == row).count();
        let streams = second.streams.iter().map(renumbered);
        let lowest_taken = streams.clone().any(|row| among(&row) > 1);
        self.mark_if(lowest_taken, "equal streams of the first, the lowest taken");
        for (stream, row) in streams.enumerate() {
            let known = first.streams.iter().position(|own| *own == row);
            let has_frames = second.frames.iter().any(|row| row[0] as usize == stream);
            if !has_frames || known == Some(stream) {
                continue;
            }
            match known {
                Some(_) => self.mark_if(
                    joined.frames.len() < first.frames.len() + second.frames.len(),
                    "a frame found under another stream",
                ),
                None => self.mark("a frame appended under another stream".to_string()),
            }
        }
    }

    fn meet_accepted(&mut self, [first, second]: [&Plan; 2], shared: u32, joined: &Plan) {
        let counts = [first, second, joined].map(Plan::counts);
        for table in APPENDED {
            let [of_first, of_second, of_joined] = counts.map(|counts| counts[table as usize - 1]);
            let most = ROW_BOUNDS[table as usize - 1].1 as usize;
            self.mark_if(of_joined > of_first, &appended(table));
            self.mark_if(of_joined == most, &all_there_may_be(table));
            if table != TASK {
                self.mark_if(of_joined < of_first + of_second, &found(table));
            }
        }
        let [own, others] = [first, second].map(|plan| plan.tasks.len());
        let all_own = own > 0 && shared as usize == own && others > own;
        let all_others = others > 0 && shared as usize == others && own > others;
        self.mark_if(all_own, "accepted, all of the first's tasks shared");
        self.mark_if(all_others, "accepted, all of the second's tasks shared");
        let none = shared == 0 && own > 0 && others > 0;
        self.mark_if(none, "accepted, no task shared");
        self.mark_if(joined == first, "accepted, nothing appended");
        let pieces = !joined.pieces.starts_with(&first.pieces);
        self.mark_if(pieces, "accepted, pieces interleave");
        let frames = !joined.frames.starts_with(&first.frames);
        self.mark_if(frames, "accepted, frames interleave");
        let streams = has_equal(&joined.streams[first.streams.len()..]);
        self.mark_if(streams, "accepted, equal streams appended");
        let chains = has_equal(&joined.chains[first.chains.len()..]);
        self.mark_if(chains, "accepted, equal chains appended");
        self.mark_if(
            has_equal(&first.chains),
            "accepted, equal chains of the first",
        );
        self.mark_if(
            has_equal(&first.streams),
            "accepted, equal streams of the first",
        );
        let longest = joined.encode().len() == LONGEST;
        self.mark_if(longest, "the longest image");
    }

    /// The numbers that results had.
    pub fn results(&self) -> Vec<u32> {
        let of_results = self.numbers.keys().filter(|of| of.0 == Stage::Result);
        of_results.map(|(_, number)| *number).collect()
    }

    /// All calls.
    pub fn calls(&self) -> u64 {
        self.numbers.values().sum()
    }

    /// What should have been met and was not.
    pub fn missing(&self) -> Vec<String> {
        let of = |stage, numbers: &[u32]| -> Vec<String> {
            let lacks = |number: &&u32| !self.numbers.contains_key(&(stage, **number));
            let lacking = numbers.iter().filter(lacks);
            lacking.map(|number| told(stage, *number)).collect()
        };
        let mut missing = of(Stage::First, QUESTIONS);
        missing.extend(of(Stage::Second, QUESTIONS));
        missing.extend(of(Stage::Own, &[35, 36, 37]));
        missing.extend(of(Stage::Result, &RESULTS));
        let unmarked = marks().into_iter();
        missing.extend(unmarked.filter(|mark| !self.marks.contains_key(mark)));
        missing
    }
}

fn told(stage: Stage, number: u32) -> String {
    match stage {
        Stage::First => format!("{number} of the first"),
        Stage::Second => format!("{number} of the second"),
        Stage::Own => format!("{number}"),
        Stage::Result => format!("{number} of the result"),
    }
}

/// Whether two rows are equal.
fn has_equal<const W: usize>(rows: &[[u32; W]]) -> bool {
    let mut sorted = rows.to_vec();
    sorted.sort_unstable();
    sorted.windows(2).any(|pair| pair[0] == pair[1])
}

impl fmt::Display for Met {
    fn fmt(&self, out: &mut fmt::Formatter<'_>) -> fmt::Result {
        writeln!(out, "pairs by kind:")?;
        for (kind, count) in &self.pairs {
            writeln!(out, "{count:8}  {kind}")?;
        }
        writeln!(out, "calls by number:")?;
        for stage in [Stage::First, Stage::Second, Stage::Own, Stage::Result] {
            let own = self.numbers.iter().filter(|((of, _), _)| *of == stage);
            let counts: Vec<_> = own.map(|((_, n), count)| format!("{n}: {count}")).collect();
            writeln!(out, "{:>8}  {}", format!("{stage:?}"), counts.join(", "))?;
        }
        writeln!(out, "among them:")?;
        for (mark, count) in &self.marks {
            writeln!(out, "{count:8}  {mark}")?;
        }
        writeln!(out, "{} accepted results asked how tasks work", self.claims)?;
        let pairs: u64 = self.pairs.values().sum();
        writeln!(out, "{pairs} pairs, {} calls", self.calls())
    }
}

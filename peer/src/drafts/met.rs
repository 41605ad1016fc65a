//! What the calls met, and what they have to.

use std::collections::BTreeMap;
use std::fmt;

use super::aims::Memory;
use super::calls::{Call, Outcome};
use super::model::{Draft, PLACES};
use crate::gave::{Gave, Numbers};
use crate::image::Piece;

/// The numbers of each call, 0 among them.
const NUMBERS: [Numbers; 7] = [
    ("make", &[0, 1, 2, 3, 4, 5, 32, 6, 7, 8, 9, 10, 34]),
    ("add", &[0, 33, 5, 10, 34]),
    ("remove", &[0, 33]),
    ("move", &[0, 33, 10]),
    ("job", &[0, 33, 5, 10]),
    ("core", &[0, 33, 5]),
    ("place", &[0, 33, 34]),
];

/// What was met.
#[derive(Clone, Debug, Default)]
pub struct Met {
    gave: Gave,
    /// What makes a call worth making, besides its number.
    marks: BTreeMap<&'static str, u64>,
    /// Changes by a stranger, of each kind: those that are 33 from then on, and
    /// those after which the words are a draft.
    strangers: BTreeMap<&'static str, [u64; 2]>,
    /// The longest list of calls on one draft.
    longest: usize,
}

/// All marks, each of which has to be met.
const MARKS: [&str; 47] = [
    "make: the check refuses the image",
    "make: 2,048 pieces",
    "make: 256 tasks",
    "make: 32 cores",
    "make: no piece",
    "make: no task",
    "make: equal rows",
    "make: over an older draft",
    "make: refused, the older draft stays",
    "make: a word too few",
    "make: a word more",
    "add: 10 by k alone",
    "add: 10 by the length alone",
    "add: 10 by the release alone",
    "add: 10 by the due tick alone",
    "add: 10, by one tick after the due tick",
    "add: 10, by one tick before the release",
    "add: 10, the end past 2^32",
    "add: 10, the release past 2^32",
    "add: 10, and the place is none",
    "add: 5, and the place is none",
    "add: 5, the task just past the last",
    "add: 34 by a piece there",
    "add: 34 by a place of 2,048",
    "add: 34 by a place of 2^32 - 1",
    "add: at place 2,047",
    "add: where a piece was removed",
    "add: to a job that has a piece",
    "add: over a piece of the same core",
    "add: from the release to the due tick",
    "add: one tick longer than d",
    "add: the last job of several",
    "add: the 2,048th piece",
    "remove: the last piece",
    "move: 10 by the release alone",
    "move: 10 by the due tick alone",
    "move: 10, the end past 2^32",
    "move: to its own start",
    "job: 0 without a piece",
    "job: two pieces or more",
    "job: 10 by k = H/T",
    "job: the highest total",
    "core: the highest total",
    "core: 5 by the number of cores",
    "place: two words past the piece's four",
    "words: one too few",
    "words: none",
];

impl Met {
    pub fn count(&mut self, call: &'static str, number: u32) {
        self.gave.count(call, number);
    }

    pub fn mark(&mut self, what: &'static str) {
        debug_assert!(MARKS.contains(&what), "{what}");
        *self.marks.entry(what).or_default() += 1;
    }

    fn mark_if(&mut self, met: bool, what: &'static str) {
        if met {
            self.mark(what);
        }
    }

    pub fn stranger(&mut self, kind: &'static str, is_draft: bool) {
        self.strangers.entry(kind).or_default()[usize::from(is_draft)] += 1;
    }

    pub fn list(&mut self, calls: usize) {
        self.longest = self.longest.max(calls);
    }

    /// All calls.
    pub fn calls(&self) -> u64 {
        self.gave.total()
    }

    /// Changes by a stranger that gave 33, and those that did not.
    pub fn strangers(&self) -> [u64; 2] {
        let mut sum = [0; 2];
        for [refused, draft] in self.strangers.values() {
            sum[0] += refused;
            sum[1] += draft;
        }
        sum
    }

    /// What should have been met and was not.
    pub fn missing(&self) -> Vec<String> {
        let calls = NUMBERS.into_iter();
        let mut missing: Vec<String> = calls.flat_map(|call| self.gave.missing(call)).collect();
        let unmarked = MARKS.iter().filter(|mark| !self.marks.contains_key(*mark));
        missing.extend(unmarked.map(|mark| mark.to_string()));
        for (is_draft, count) in self.strangers().into_iter().enumerate() {
            if count == 0 {
                let what = ["refused by 33", "that left a draft"][is_draft];
                missing.push(format!("a stranger's change {what}"));
            }
        }
        missing
    }

    /// What an accepted making met.
    pub fn meet_making(&mut self, draft: &Draft, check_refuses: bool, lent: usize) {
        let plan = draft.plan();
        let rows: Vec<&Piece> = draft.pieces().values().collect();
        self.mark_if(check_refuses, "make: the check refuses the image");
        self.mark_if(rows.len() == PLACES as usize, "make: 2,048 pieces");
        self.mark_if(plan.tasks.len() == 256, "make: 256 tasks");
        self.mark_if(plan.cores.len() == 32, "make: 32 cores");
        self.mark_if(rows.is_empty(), "make: no piece");
        self.mark_if(plan.tasks.is_empty(), "make: no task");
        let equal = rows.windows(2).any(|two| two[0] == two[1]);
        self.mark_if(equal, "make: equal rows");
        self.mark_if(lent == super::WORDS + 1, "make: a word more");
    }

    /// What a call on a draft, as it was before, met.
    pub fn meet(&mut self, call: Call, outcome: &Outcome, draft: &Draft, memory: &Memory) {
        match call {
            Call::Add { place, piece } => self.meet_addition(place, &piece, outcome, draft, memory),
            Call::Move { place, start } => self.meet_move(place, start, outcome, draft),
            Call::Job { task, job } => self.meet_job(task, job, outcome, draft),
            Call::Core { core } => {
                let count = draft.plan().cores.len();
                let none = core as usize == count;
                self.mark_if(none, "core: 5 by the number of cores");
                self.mark_if(outcome.total == HIGHEST_TOTAL, "core: the highest total");
            }
            Call::Place { lent, .. } => {
                let more = outcome.number == 0 && lent == 6;
                self.mark_if(more, "place: two words past the piece's four");
            }
            Call::Remove { .. } => {
                let last = outcome.number == 0 && draft.pieces().len() == 1;
                self.mark_if(last, "remove: the last piece");
            }
        }
    }

    fn meet_addition(
        &mut self,
        place: u32,
        piece: &Piece,
        outcome: &Outcome,
        draft: &Draft,
        memory: &Memory,
    ) {
        let pieces = draft.pieces();
        let is_place = place < PLACES && !pieces.contains_key(&place);
        let tasks = draft.plan().tasks.len() as u32;
        match outcome.number {
            5 => {
                self.mark_if(!is_place, "add: 5, and the place is none");
                self.mark_if(piece[0] == tasks, "add: 5, the task just past the last");
            }
            10 => {
                self.mark_if(!is_place, "add: 10, and the place is none");
                let ten = Ten::of(draft, piece);
                let k_alone = !ten.k && ten.length && ten.release && ten.due;
                let length_alone = ten.k && !ten.length && ten.release && ten.due;
                let release_alone = ten.k && ten.length && !ten.release && ten.due;
                let due_alone = ten.k && ten.length && ten.release && !ten.due;
                self.mark_if(k_alone, "add: 10 by k alone");
                self.mark_if(length_alone, "add: 10 by the length alone");
                self.mark_if(release_alone, "add: 10 by the release alone");
                self.mark_if(due_alone, "add: 10 by the due tick alone");
                let late = due_alone && ten.ticks_late == 1;
                self.mark_if(late, "add: 10, by one tick after the due tick");
                let early = release_alone && ten.ticks_late == 0 && ten.ticks_early == 1;
                self.mark_if(early, "add: 10, by one tick before the release");
                self.mark_if(ten.end_wraps, "add: 10, the end past 2^32");
                self.mark_if(ten.release_wraps, "add: 10, the release past 2^32");
            }
            34 => {
                let taken = pieces.contains_key(&place);
                self.mark_if(taken, "add: 34 by a piece there");
                self.mark_if(place == PLACES, "add: 34 by a place of 2,048");
                self.mark_if(place == u32::MAX, "add: 34 by a place of 2^32 - 1");
            }
            0 => {
                let ten = Ten::of(draft, piece);
                let again = memory.removed.contains(&place);
                let full = pieces.len() == PLACES as usize - 1;
                self.mark_if(full, "add: the 2,048th piece");
                self.mark_if(place == PLACES - 1, "add: at place 2,047");
                self.mark_if(again, "add: where a piece was removed");
                let one_job = |other: &Piece| other[..2] == piece[..2];
                let more = pieces.values().any(one_job);
                self.mark_if(more, "add: to a job that has a piece");
                let core = |piece: &Piece| draft.plan().core_of_task(piece[0]);
                let over = pieces.values().any(|other| {
                    let meet = piece[2] < other[2] + other[3] && other[2] < piece[2] + piece[3];
                    meet && core(other) == core(piece)
                });
                self.mark_if(over, "add: over a piece of the same core");
                let whole = ten.ticks_left == 0;
                self.mark_if(whole, "add: from the release to the due tick");
                self.mark_if(ten.over_d == 1, "add: one tick longer than d");
                let jobs = draft.plan().jobs(piece[0]);
                let last = jobs > 1 && piece[1] == jobs - 1;
                self.mark_if(last, "add: the last job of several");
            }
            _ => {}
        }
    }

    fn meet_move(&mut self, place: u32, start: u32, outcome: &Outcome, draft: &Draft) {
        let Some(&[task, job, from, length]) = draft.pieces().get(&place) else {
            return;
        };
        let ten = Ten::of(draft, &[task, job, start, length]);
        if outcome.number == 10 {
            let release_alone = !ten.release && ten.due;
            let due_alone = ten.release && !ten.due;
            self.mark_if(release_alone, "move: 10 by the release alone");
            self.mark_if(due_alone, "move: 10 by the due tick alone");
            self.mark_if(ten.end_wraps, "move: 10, the end past 2^32");
        } else {
            self.mark_if(start == from, "move: to its own start");
        }
    }

    fn meet_job(&mut self, task: u32, job: u32, outcome: &Outcome, draft: &Draft) {
        if outcome.number == 10 {
            let first = job == draft.plan().jobs(task);
            self.mark_if(first, "job: 10 by k = H/T");
        } else if outcome.number == 0 {
            let pieces = draft.pieces().values();
            let count = pieces.filter(|piece| piece[..2] == [task, job]).count();
            self.mark_if(count == 0, "job: 0 without a piece");
            self.mark_if(count > 1, "job: two pieces or more");
            self.mark_if(outcome.total == HIGHEST_TOTAL, "job: the highest total");
        }
    }
}

/// 2,048 pieces, each of a million ticks.
const HIGHEST_TOTAL: u32 = 2_048 * 1_000_000;

/// Question 10, part by part.
struct Ten {
    k: bool,
    length: bool,
    release: bool,
    due: bool,
    over_d: i64,
    ticks_early: i64,
    ticks_late: i64,
    /// Between release and due tick, outside the piece.
    ticks_left: i64,
    end_wraps: bool,
    release_wraps: bool,
}

impl Ten {
    fn of(draft: &Draft, piece: &Piece) -> Ten {
        let plan = draft.plan();
        let [task, k, start, length] = piece.map(i64::from);
        let [_, _, period, _, deadline] = plan.tasks[task as usize].map(i64::from);
        let over_d = length - i64::from(plan.task_switch(piece[0]));
        let release = k * period;
        let (ticks_early, ticks_late) = (release - start, start + length - release - deadline);
        Ten {
            k: piece[1] < plan.jobs(piece[0]),
            length: over_d > 0,
            release: ticks_early <= 0,
            due: ticks_late <= 0,
            over_d,
            ticks_early,
            ticks_late: ticks_late.max(0),
            ticks_left: deadline - length,
            end_wraps: start + length > i64::from(u32::MAX),
            release_wraps: release > i64::from(u32::MAX),
        }
    }
}

impl fmt::Display for Met {
    fn fmt(&self, out: &mut fmt::Formatter<'_>) -> fmt::Result {
        writeln!(out, "calls by number:")?;
        for call in NUMBERS {
            writeln!(out, "{}", self.gave.line(call))?;
        }
        writeln!(out, "among them:")?;
        for (mark, count) in &self.marks {
            writeln!(out, "{count:8}  {mark}")?;
        }
        writeln!(out, "changes by a stranger, then 33, and then a draft:")?;
        for (kind, [refused, draft]) in &self.strangers {
            writeln!(out, "{refused:8} {draft:7}  {kind}")?;
        }
        let [refused, draft] = self.strangers();
        writeln!(out, "{refused:8} {draft:7}  in all")?;
        writeln!(out, "the longest list: {} calls on one draft", self.longest)?;
        writeln!(out, "{} calls", self.calls())
    }
}

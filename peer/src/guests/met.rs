//! What the pairs met, and what they have to.

use std::collections::BTreeMap;
use std::fmt;

use super::bases::shares_core;
use super::breaks::{Shown, BREAKS};
use super::built::Way;
use super::pairs::Pair;
use super::picture::KINDS;
use super::premises::{is_guests, kept_pieces};
use super::runs::Tally;
use crate::image::{Plan, Task, Window, PIECE, ROW_BOUNDS};

/// A pair that both checkers accept, and of which the claim holds.
pub struct Facts<'a> {
    pub pair: &'a Pair,
    /// Whether the guest shows something else in some tick.
    pub shows: bool,
    /// By which calls the tables were built.
    pub ways: [Way; 2],
    /// How many stretches of each kind were compared.
    pub kinds: [u64; KINDS],
}

/// How a break was seen.
#[derive(Clone, Copy, Debug, Default)]
pub struct Noticed {
    pub others: bool,
    pub guest: bool,
    pub steps: bool,
}

/// How often a break was made and seen.
#[derive(Clone, Copy, Debug, Default)]
struct Broken {
    made: u64,
    others: u64,
    guest: u64,
    steps: u64,
}

/// What was met.
#[derive(Clone, Debug, Default)]
pub struct Met {
    /// Pairs and tries, by kind.
    pairs: BTreeMap<&'static str, [u64; 2]>,
    marks: BTreeMap<&'static str, u64>,
    tables: [u64; KINDS],
    runs: u64,
    calls: u64,
    steps: [u64; KINDS + 1],
    breaks: BTreeMap<&'static str, Broken>,
}

/// So many of a hundred tries have to give a pair.
const KEPT: u64 = 30;

/// What a pair is worth making for.
type Mark = (&'static str, fn(&Facts) -> bool);

const MARKS: [Mark; 44] = [
    ("the guest shows something else", |facts| facts.shows),
    ("the guest shows the same", |facts| !facts.shows),
    ("a piece of another in another row", other_rows),
    ("the guest shares its core with tasks of another", shares),
    ("the guest shares its core, v and d above 0", |facts| {
        let [_, d, v, ..] = facts.core();
        shares(facts) && d > 0 && v > 0
    }),
    (
        "the guest shares its core and shows something else",
        |facts| shares(facts) && facts.shows,
    ),
    ("the guest has a core of its own", |facts| {
        let core = facts.plan().core_of_vcpu(facts.pair.guest);
        let on_core = facts.plan().vcpus.iter().filter(|vcpu| vcpu[0] == core);
        on_core.count() == 1 && !facts.windows(true).is_empty()
    }),
    ("the guest has the only windows", |facts| {
        facts.windows(false).is_empty() && !facts.windows(true).is_empty()
    }),
    ("the guest has no window", |facts| {
        facts.windows(true).is_empty()
    }),
    ("the guest has no task in one plan", |facts| {
        facts.counts().contains(&0) && facts.counts() != [0, 0]
    }),
    ("the guest has no task", |facts| facts.counts() == [0, 0]),
    ("windows of the guest adjoin", |facts| {
        adjoin(&facts.windows(true), &facts.windows(true))
    }),
    (
        "windows of the guest adjoin, and it shows something else",
        |facts| adjoin(&facts.windows(true), &facts.windows(true)) && facts.shows,
    ),
    ("windows of another adjoin", |facts| {
        let others = facts.windows(false);
        let of_one = |window: &Window| -> Vec<Window> {
            let own = others.iter().filter(|other| other[0] == window[0]);
            own.copied().collect()
        };
        others
            .iter()
            .any(|window| adjoin(&[*window], &of_one(window)))
    }),
    ("another's window right behind the guest's", |facts| {
        adjoin(&facts.windows(true), &facts.windows_beside())
    }),
    ("the guest's window right behind another's", |facts| {
        adjoin(&facts.windows_beside(), &facts.windows(true))
    }),
    ("tasks added", |facts| facts.counts()[0] < facts.counts()[1]),
    ("tasks dropped", |facts| {
        facts.counts()[0] > facts.counts()[1]
    }),
    ("another mask", |facts| facts.task_differs(1)),
    ("another period", |facts| facts.task_differs(2)),
    ("another budget", |facts| facts.task_differs(3)),
    ("another deadline", |facts| facts.task_differs(4)),
    ("a changed task before another VCPU's", |facts| {
        let kept = |(_, task): &(usize, &Task)| task[0] != facts.pair.guest;
        let last = facts.plan().tasks.iter().enumerate().rev().find(kept);
        let changed = facts.common_rows().position(|[one, other]| one != other);
        changed
            .zip(last)
            .is_some_and(|(changed, (last, _))| changed < last)
    }),
    ("more pieces of the guest", |facts| {
        let [one, other] = facts.guests_pieces();
        one < other
    }),
    ("fewer pieces of the guest", |facts| {
        let [one, other] = facts.guests_pieces();
        one > other
    }),
    ("as many pieces of the guest, other ones", |facts| {
        let [one, other] = facts.guests_pieces();
        one == other && facts.differ(|plan| plan.pieces.clone())
    }),
    ("other links", |facts| {
        facts.differ(|plan| plan.links.clone())
    }),
    ("other lanes", |facts| {
        facts.differ(|plan| vec![plan.lanes()])
    }),
    ("other streams", |facts| {
        facts.differ(|plan| plan.streams.clone())
    }),
    ("other frames", |facts| {
        facts.differ(|plan| plan.frames.clone())
    }),
    ("other buffers", |facts| {
        facts.differ(|plan| plan.buffers.clone())
    }),
    ("other chains", |facts| {
        facts.differ(|plan| plan.chains.clone())
    }),
    ("other streams between kept tasks", |facts| {
        facts.kept_rows_differ(|plan| plan.streams.clone(), [0, 1])
    }),
    ("other buffers between kept tasks", |facts| {
        facts.kept_rows_differ(|plan| plan.buffers.clone(), [1, 2])
    }),
    ("other chains between kept tasks", |facts| {
        facts.kept_rows_differ(|plan| plan.chains.clone(), [0, 1])
    }),
    (
        "a message between the guest and another in one plan alone",
        |facts| facts.messages(0) != facts.messages(1),
    ),
    ("a job of another with several pieces", |facts| {
        let kept = kept_pieces(facts.plan(), facts.pair.guest);
        let mut jobs: Vec<_> = kept.iter().map(|piece| [piece[0], piece[1]]).collect();
        jobs.sort_unstable();
        jobs.windows(2).any(|pair| pair[0] == pair[1])
    }),
    ("tasks on four cores or more", |facts| {
        let tasks = 0..facts.plan().tasks.len() as u32;
        let mut cores: Vec<_> = tasks.map(|task| facts.plan().core_of_task(task)).collect();
        cores.sort_unstable();
        cores.dedup();
        cores.len() >= 4
    }),
    ("all pieces that there may be", |facts| {
        let most = ROW_BOUNDS[PIECE as usize - 1].1 as usize;
        facts
            .pair
            .plans
            .iter()
            .any(|plan| plan.pieces.len() == most)
    }),
    ("a cycle of 100,000 ticks or more", |facts| {
        facts.plan().cycle >= 100_000
    }),
    ("P above 0", |facts| facts.plan().precision > 0),
    ("both plans' tables by one call", |facts| {
        facts.ways == [Way::All; 2]
    }),
    ("both plans' tables lane by lane", |facts| {
        facts.ways == [Way::EachLane; 2]
    }),
    ("tables by one call and lane by lane", |facts| {
        facts.ways[0] != facts.ways[1]
    }),
];

/// What a run is worth making for.
type RunMark = (&'static str, fn(&Tally) -> bool);

const RUN_MARKS: [RunMark; 5] = [
    ("runs with steps of all lanes", |tally| tally.of_all > 0),
    ("runs with steps of one lane", |tally| tally.of_one > 0),
    ("runs over several cycles", |tally| tally.cycles),
    ("runs of lanes started in different cycles", |tally| {
        tally.apart
    }),
    ("runs up to the calendar's end", |tally| tally.at_end > 0),
];

fn shares(facts: &Facts) -> bool {
    shares_core(facts.plan(), facts.pair.guest)
}

/// Whether a piece that both plans have stands in another row.
fn other_rows(facts: &Facts) -> bool {
    let guest = facts.pair.guest;
    let rows = |plan: &Plan| -> Vec<usize> {
        let pieces = plan.pieces.iter().enumerate();
        let kept = pieces.filter(|(_, piece)| !is_guests(plan, guest, piece[0]));
        kept.map(|(row, _)| row).collect()
    };
    facts.differ(rows)
}

/// Whether one of the windows ends where one of the others begins.
fn adjoin(windows: &[Window], others: &[Window]) -> bool {
    let starts: Vec<u32> = others.iter().map(|window| window[1]).collect();
    let ends = windows.iter().map(|window| window[1] + window[2]);
    ends.into_iter()
        .any(|end| starts.binary_search(&end).is_ok())
}

impl Facts<'_> {
    /// The first plan, for what both have.
    fn plan(&self) -> &Plan {
        &self.pair.plans[0]
    }

    /// The guest's core.
    fn core(&self) -> [u32; 3] {
        let plan = self.plan();
        plan.cores[plan.core_of_vcpu(self.pair.guest) as usize]
    }

    /// The guest's windows, or those of all others.
    fn windows(&self, guests: bool) -> Vec<Window> {
        let windows = self.plan().windows.iter().copied();
        let own = |window: &Window| (window[0] == self.pair.guest) == guests;
        windows.filter(own).collect()
    }

    /// The windows of others on the guest's core.
    fn windows_beside(&self) -> Vec<Window> {
        let core = |vcpu| self.plan().core_of_vcpu(vcpu);
        let mut windows = self.windows(false);
        windows.retain(|window| core(window[0]) == core(self.pair.guest));
        windows
    }

    /// How many tasks the guest has in each plan.
    fn counts(&self) -> [usize; 2] {
        let own = |task: &&Task| task[0] == self.pair.guest;
        [0, 1].map(|plan| self.pair.plans[plan].tasks.iter().filter(own).count())
    }

    fn guests_pieces(&self) -> [usize; 2] {
        let guest = self.pair.guest;
        let pieces = |plan: &Plan| plan.pieces.len() - kept_pieces(plan, guest).len();
        [0, 1].map(|plan| pieces(&self.pair.plans[plan]))
    }

    fn differ<T: PartialEq>(&self, of: impl Fn(&Plan) -> T) -> bool {
        let [one, other] = &self.pair.plans;
        of(one) != of(other)
    }

    /// The rows of tasks that have one number in both plans.
    fn common_rows(&self) -> impl Iterator<Item = [&Task; 2]> {
        let [one, other] = &self.pair.plans;
        one.tasks
            .iter()
            .zip(&other.tasks)
            .map(|(one, other)| [one, other])
    }

    /// Whether such a task has another word.
    fn task_differs(&self, word: usize) -> bool {
        let mut rows = self.common_rows();
        rows.any(|[one, other]| one[word] != other[word])
    }

    /// Whether the rows differ that name two tasks of other VCPUs, in any order.
    fn kept_rows_differ<const W: usize>(
        &self,
        rows: fn(&Plan) -> Vec<[u32; W]>,
        columns: [usize; 2],
    ) -> bool {
        self.differ(|plan| {
            let is_kept = |task: u32| !is_guests(plan, self.pair.guest, task);
            let mut rows = rows(plan);
            rows.retain(|row| columns.iter().all(|column| is_kept(row[*column])));
            rows.sort_unstable();
            rows
        })
    }

    /// Whether a message goes between the guest and another VCPU.
    fn messages(&self, plan: usize) -> bool {
        let plan = &self.pair.plans[plan];
        let streams = plan.streams.iter().map(|row| [row[0], row[1]]);
        let buffers = plan.buffers.iter().map(|row| [row[1], row[2]]);
        let guests = |task| is_guests(plan, self.pair.guest, task);
        let mut messages = streams.chain(buffers);
        messages.any(|[from, to]| guests(from) != guests(to))
    }
}

impl Met {
    pub fn pair(&mut self, facts: &Facts) {
        let [pairs, tries] = self.pairs.entry(facts.pair.kind).or_default();
        *pairs += 1;
        *tries += facts.pair.tries;
        for (count, kinds) in self.tables.iter_mut().zip(facts.kinds) {
            *count += kinds;
        }
        for (mark, met) in MARKS {
            *self.marks.entry(mark).or_default() += u64::from(met(facts));
        }
    }

    pub fn run(&mut self, tally: &Tally) {
        self.runs += 1;
        self.calls += tally.of_all + tally.of_one;
        for (count, kinds) in self.steps.iter_mut().zip(tally.kinds) {
            *count += kinds;
        }
        for (mark, met) in RUN_MARKS {
            *self.marks.entry(mark).or_default() += u64::from(met(tally));
        }
    }

    pub fn broken(&mut self, name: &'static str, noticed: Noticed) {
        let broken = self.breaks.entry(name).or_default();
        broken.made += 1;
        broken.others += u64::from(noticed.others);
        broken.guest += u64::from(noticed.guest);
        broken.steps += u64::from(noticed.steps);
    }

    /// All pairs, and all tries.
    fn totals(&self) -> [u64; 2] {
        [0, 1].map(|column| self.pairs.values().map(|counts| counts[column]).sum())
    }

    /// So many of a hundred tries gave a pair.
    pub fn kept(&self) -> u64 {
        let [pairs, tries] = self.totals();
        100 * pairs / tries.max(1)
    }

    /// What should have been met and was not.
    pub fn missing(&self) -> Vec<String> {
        let names = MARKS.map(|(name, _)| name).into_iter();
        let names = names.chain(RUN_MARKS.map(|(name, _)| name));
        let unmet = names.filter(|name| self.marks.get(name).is_none_or(|count| *count == 0));
        let mut missing: Vec<String> = unmet.map(str::to_string).collect();
        for (what, counts) in [("tables", &self.tables[..]), ("steps", &self.steps[..])] {
            let kinds = (0..).zip(counts).filter(|(_, count)| **count == 0);
            missing.extend(kinds.map(|(kind, _): (u32, _)| format!("kind {kind} of {what}")));
        }
        missing.extend(BREAKS.iter().flat_map(|broken| self.unnoticed(broken)));
        if self.kept() < KEPT {
            missing.push(format!("{KEPT} pairs of a hundred tries"));
        }
        missing
    }

    /// In which ways a break was not seen that it has to be.
    fn unnoticed(&self, broken: &super::Break) -> Vec<String> {
        let name = broken.name;
        let counts = self.breaks.get(name).copied().unwrap_or_default();
        let needed = match broken.shown {
            Shown::ToOthers => vec![
                (counts.others, "seen by others"),
                (counts.steps, "seen in steps"),
            ],
            Shown::ToGuest => vec![
                (counts.guest, "seen by the guest's ticks"),
                (counts.steps, "seen in steps"),
            ],
            Shown::Never => vec![(counts.made, "made")],
        };
        let lacking = needed.into_iter().filter(|(count, _)| *count == 0);
        lacking.map(|(_, how)| format!("{name}, {how}")).collect()
    }
}

impl fmt::Display for Met {
    fn fmt(&self, out: &mut fmt::Formatter<'_>) -> fmt::Result {
        writeln!(out, "pairs by kind, and tries:")?;
        for (kind, [pairs, tries]) in &self.pairs {
            writeln!(out, "{pairs:8} {tries:8}  {kind}")?;
        }
        writeln!(out, "among them:")?;
        for (mark, count) in &self.marks {
            writeln!(out, "{count:8}  {mark}")?;
        }
        writeln!(
            out,
            "premises broken: made, seen by others, by the guest's ticks alone, in steps:"
        )?;
        for (name, broken) in &self.breaks {
            let Broken {
                made,
                others,
                guest,
                steps,
            } = broken;
            writeln!(out, "{made:8} {others:6} {guest:6} {steps:6}  {name}")?;
        }
        writeln!(out, "stretches compared, kinds 0 to 4: {:?}", self.tables)?;
        writeln!(out, "steps compared, and the guest's: {:?}", self.steps)?;
        let ([pairs, tries], kept) = (self.totals(), self.kept());
        writeln!(out, "{} runs, {} calls of steps", self.runs, self.calls)?;
        writeln!(out, "{pairs} pairs of {tries} tries, {kept} of a hundred")
    }
}

//! What request 10 claims of an accepted result: every task of either plan
//! works in the same ticks as in its own plan, and nothing else works.

use std::collections::BTreeMap;

use crate::image::Plan;
use crate::join::new_number;

/// The kind of an entry in which a piece's task works.
const WORK: u32 = 4;

/// Where a job works: lane, job, first tick, and the tick after the last.
type Stretch = [u32; 4];

/// For each task that works where it does, adjoining stretches as one.
#[derive(Clone, Debug, Default, PartialEq, Eq)]
pub struct Work(BTreeMap<u32, Vec<Stretch>>);

impl Work {
    /// As the dispatch tables of all lanes show it; pieces give their rows the
    /// names of tasks and jobs.
    pub fn of(plan: &Plan, tables: &[Vec<u32>]) -> Work {
        let mut work = Work::default();
        for (lane, table) in (0..).zip(tables) {
            let entries = table[2..].as_chunks::<3>().0;
            let ends = entries.iter().skip(1).map(|entry| entry[0]);
            for (&[first, kind, row], end) in entries.iter().zip(ends.chain([table[0]])) {
                if kind == WORK {
                    let [task, job, ..] = plan.pieces[row as usize];
                    work.add(task, [lane, job, first, end]);
                }
            }
        }
        work
    }

    fn add(&mut self, task: u32, stretch: Stretch) {
        let stretches = self.0.entry(task).or_default();
        match stretches.last_mut() {
            Some(last) if [last[0], last[1], last[3]] == stretch[..3] => last[3] = stretch[3],
            _ => stretches.push(stretch),
        }
    }

    fn of_task(&self, task: u32) -> &[Stretch] {
        self.0.get(&task).map_or(&[], Vec::as_slice)
    }
}

/// Says which task does not work in the joined plan as in its own, if one does
/// not. Of each plan there is the number of its tasks, and how they work.
pub fn ask(
    first: (usize, &Work),
    second: (usize, &Work),
    shared: u32,
    joined: &Work,
) -> Result<(), String> {
    let (tasks, others) = (first.0 as u32, second.0 as u32);
    let number = |task| new_number(task, shared, first.0);
    let own = (0..tasks).map(|task| ("first", first.1, task, task));
    let second = (0..others).map(|task| ("second", second.1, task, number(task)));
    for (whose, work, task, now) in own.chain(second) {
        let (before, after) = (work.of_task(task), joined.of_task(now));
        if before != after {
            return Err(format!(
                "task {task} of the {whose} plan works in {before:?} (lane, job, from, to), \
                 and in the joined plan, as task {now}, in {after:?}"
            ));
        }
    }
    let end = number(others);
    match joined.0.keys().find(|task| **task >= end) {
        Some(task) => Err(format!("task {task} of neither plan works")),
        None => Ok(()),
    }
}

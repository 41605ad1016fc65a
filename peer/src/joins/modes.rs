//! Two modes of one plan: parts of it that share their leading tasks.

use crate::image::Plan;
use crate::paths::Paths;
use crate::rng::Rng;

/// Two plans over the same cores and links, and how many leading tasks they
/// share.
#[derive(Clone, Debug)]
pub struct Modes {
    pub plans: [Plan; 2],
    pub shared: u32,
}

/// Whether something is in the first mode and whether it is in the second.
type In = [bool; 2];

const BOTH: In = [true, true];
const EITHER: [In; 2] = [[true, false], [false, true]];

/// How a plan is split.
#[derive(Clone, Copy, Debug)]
pub struct Habits {
    /// So many of 100 tasks, or rows, that can be in both modes are.
    pub both: usize,
    /// Whether tasks that messages join stay together, so that no message is
    /// lost.
    pub together: bool,
}

impl Habits {
    pub fn any(rng: &mut Rng) -> Habits {
        Habits {
            both: rng.pick(&[0, 20, 50, 50, 80, 100]),
            together: rng.chance(60),
        }
    }
}

/// Splits a plan. Each task and each row is in one mode or in both; messages
/// whose tasks are apart, and chains that lose their path, are in none.
pub fn split(plan: &Plan, habits: Habits, rng: &mut Rng) -> Modes {
    let tasks = place_tasks(plan, habits, rng);
    let streams = plan.streams.iter().map(|row| [row[0], row[1]]);
    let streams = place_messages(streams, &tasks, habits, rng);
    let buffers = plan.buffers.iter().map(|row| [row[1], row[2]]);
    let buffers = place_messages(buffers, &tasks, habits, rng);
    let order = order_of_tasks(&tasks, rng);
    let parts = [0, 1].map(|mode| Part {
        tasks: chosen(&order, &tasks, mode),
        streams: shuffled(&streams, mode, rng),
        buffers: shuffled(&buffers, mode, rng),
    });
    let mut plans = parts.map(|part| part.of(plan));
    place_chains(&mut plans, habits, rng);
    let shared = tasks.iter().filter(|task| **task == BOTH).count() as u32;
    Modes { plans, shared }
}

fn place_tasks(plan: &Plan, habits: Habits, rng: &mut Rng) -> Vec<In> {
    let groups = if habits.together {
        groups(plan)
    } else {
        (0..plan.tasks.len()).collect()
    };
    let places: Vec<In> = groups.iter().map(|_| place(BOTH, habits, rng)).collect();
    groups.iter().map(|group| places[*group]).collect()
}

/// For each task the lowest one that messages join it with, over others too.
fn groups(plan: &Plan) -> Vec<usize> {
    let mut groups: Vec<usize> = (0..plan.tasks.len()).collect();
    let streams = plan.streams.iter().map(|row| [row[0], row[1]]);
    let buffers = plan.buffers.iter().map(|row| [row[1], row[2]]);
    for ends in streams.chain(buffers) {
        let [one, other] = ends.map(|task| groups[task as usize]);
        let joined = groups.iter_mut().filter(|group| **group == one.max(other));
        joined.for_each(|group| *group = one.min(other));
    }
    groups
}

/// A mode, or both, of those that there may be.
fn place(may: In, habits: Habits, rng: &mut Rng) -> In {
    if may == BOTH && !rng.chance(habits.both) {
        rng.pick(&EITHER)
    } else {
        may
    }
}

fn place_messages(
    messages: impl Iterator<Item = [u32; 2]>,
    tasks: &[In],
    habits: Habits,
    rng: &mut Rng,
) -> Vec<In> {
    let mut place = |ends: [u32; 2]| {
        let [one, other] = ends.map(|task| tasks[task as usize]);
        place([one[0] && other[0], one[1] && other[1]], habits, rng)
    };
    messages.map(&mut place).collect()
}

/// Leaves each chain of the whole in those modes that it is to be in.
fn place_chains(plans: &mut [Plan; 2], habits: Habits, rng: &mut Rng) {
    let paths = [0, 1].map(|mode| Paths::of(&plans[mode]));
    let count = plans[0].chains.len();
    let mut places = Vec::new();
    for chain in 0..count {
        let may = [0, 1].map(|mode| {
            let [first, last, ..] = plans[mode].chains[chain];
            first != NONE && last != NONE && paths[mode].join(first, last)
        });
        places.push(place(may, habits, rng));
    }
    for (mode, plan) in plans.iter_mut().enumerate() {
        let rows = shuffled(&places, mode, rng);
        plan.chains = rows.iter().map(|row| plan.chains[*row]).collect();
    }
}

/// All tasks, those that are in both modes first.
fn order_of_tasks(tasks: &[In], rng: &mut Rng) -> Vec<usize> {
    let mut order: Vec<usize> = (0..tasks.len()).collect();
    if rng.chance(70) {
        rng.shuffle(&mut order);
    }
    order.sort_by_key(|task| tasks[*task] != BOTH);
    order
}

/// Those of some rows that are in a mode.
fn chosen(rows: &[usize], places: &[In], mode: usize) -> Vec<usize> {
    let rows = rows.iter().copied();
    rows.filter(|row| places[*row][mode]).collect()
}

/// The rows that are in a mode, often in another order.
fn shuffled(places: &[In], mode: usize, rng: &mut Rng) -> Vec<usize> {
    let mut rows: Vec<usize> = (0..places.len()).collect();
    if rng.chance(60) {
        rng.shuffle(&mut rows);
    }
    chosen(&rows, places, mode)
}

/// The rows of a part, in its order, by their numbers in the whole.
struct Part {
    tasks: Vec<usize>,
    streams: Vec<usize>,
    buffers: Vec<usize>,
}

/// The number of a task that a part does not have.
const NONE: u32 = u32::MAX;

impl Part {
    /// The part of a plan, still with all chains, also of tasks that it does not
    /// have.
    fn of(&self, plan: &Plan) -> Plan {
        let tasks = numbers(&self.tasks, plan.tasks.len());
        let streams = numbers(&self.streams, plan.streams.len());
        let present = |row: &[u32]| row[0] != NONE;
        let mut part = Plan {
            tasks: rows(&self.tasks, &plan.tasks, &[], &[]),
            streams: rows(&self.streams, &plan.streams, &[0, 1], &tasks),
            buffers: rows(&self.buffers, &plan.buffers, &[1, 2], &tasks),
            pieces: rows(&all(&plan.pieces), &plan.pieces, &[0], &tasks),
            frames: rows(&all(&plan.frames), &plan.frames, &[0], &streams),
            chains: rows(&all(&plan.chains), &plan.chains, &[0, 1], &tasks),
            ..plan.clone()
        };
        part.pieces.retain(|row| present(row));
        part.frames.retain(|row| present(row));
        part.in_order()
    }
}

fn all<R>(rows: &[R]) -> Vec<usize> {
    (0..rows.len()).collect()
}

/// The number in the part of each row of the whole, or `NONE`.
fn numbers(part: &[usize], whole: usize) -> Vec<u32> {
    let mut numbers = vec![NONE; whole];
    for (number, &row) in (0..).zip(part) {
        numbers[row] = number;
    }
    numbers
}

/// Some rows with the words in some columns renumbered.
fn rows<const W: usize>(
    chosen: &[usize],
    rows: &[[u32; W]],
    columns: &[usize],
    numbers: &[u32],
) -> Vec<[u32; W]> {
    let renumbered = |row: &usize| {
        let mut words = rows[*row];
        for &column in columns {
            words[column] = numbers[words[column] as usize];
        }
        words
    };
    chosen.iter().map(renumbered).collect()
}

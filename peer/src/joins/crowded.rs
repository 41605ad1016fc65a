//! Plans with many messages between few tasks, and with as many rows in one
//! table as wanted, also with more than it may have.

use crate::image::{
    row_of, rows_of, Plan, BUFFER, CHAIN, FRAME, PIECE, QUEUES, ROW_BOUNDS, STREAM, TASK,
};
use crate::order::{FRAME_START, PIECE_START};
use crate::rng::Rng;

/// The tables that a join appends to.
pub const APPENDED: [u32; 6] = [TASK, PIECE, STREAM, FRAME, BUFFER, CHAIN];

/// A group has a sender, and behind it a receiver on another node, over
/// streams, and a reader on its own node, over buffers.
const GROUP: usize = 3;
const SENDER: usize = 0;
const READER: usize = 1;
const RECEIVER: usize = 2;

/// From node 0 to node 1 and back, and to 1 by way of 2. The last link leads as
/// the first one does.
const LINKS: [[u32; 2]; 5] = [[0, 1], [1, 0], [0, 2], [2, 1], [0, 1]];

/// A plan in which all that its groups have follows each other in time; other
/// tasks come last, on every core.
struct Crowd {
    plan: Plan,
    now: u32,
}

/// How many rows there are of each table, those of one job where rows are for
/// each job, but for frames; these are as many as all hops.
struct Rows {
    jobs: usize,
    groups: usize,
    tasks: usize,
    pieces: Vec<usize>,
    hops: Vec<usize>,
    buffers: usize,
    chains: usize,
}

impl Rows {
    fn any(rng: &mut Rng) -> Rows {
        let groups = 2 + rng.below(3);
        let tasks = GROUP * groups + rng.below(5);
        let streams = groups + rng.below(6);
        Rows {
            jobs: rng.pick(&[1, 1, 2, 3]),
            groups,
            tasks,
            pieces: (0..tasks).map(|_| 1 + rng.below(3)).collect(),
            hops: (0..streams).map(|_| 1 + rng.below(3)).collect(),
            buffers: groups + rng.below(5),
            chains: rng.below(6),
        }
    }

    /// As many rows in a table as wanted, with as many jobs as that allows.
    fn with(table: u32, wanted: usize, rng: &mut Rng) -> Rows {
        let mut rows = Rows::any(rng);
        match table {
            TASK => {
                rows.tasks = wanted;
                rows.pieces = vec![1; wanted];
            }
            PIECE => {
                rows.jobs = jobs_for(wanted, &[1, 2, 3], rng);
                rows.tasks += 12;
                rows.pieces = spread(wanted / rows.jobs, rows.tasks, usize::MAX, rng);
            }
            STREAM => rows.hops = vec![1; wanted],
            FRAME => {
                rows.jobs = jobs_for(wanted, &[2, 3, 4], rng);
                let hops = wanted / rows.jobs;
                let streams = hops.div_ceil(6) + rng.below(8);
                rows.hops = spread(hops, streams, 8, rng);
            }
            BUFFER => rows.buffers = wanted,
            _ => rows.chains = wanted,
        }
        rows.add_groups();
        rows
    }

    /// As many groups as it takes for no group to have more streams than there
    /// are queues: all of a group wait at once.
    fn add_groups(&mut self) {
        let least = self.hops.len().div_ceil(QUEUES as usize);
        while self.groups < least {
            self.groups += 1;
            self.tasks += GROUP;
            self.pieces.extend([1; GROUP]);
        }
    }
}

/// One of the numbers of jobs that rows can be shared out to.
fn jobs_for(rows: usize, numbers: &[usize], rng: &mut Rng) -> usize {
    let serving = numbers.iter().copied();
    let serving: Vec<usize> = serving.filter(|jobs| rows.is_multiple_of(*jobs)).collect();
    rng.pick_any(&serving).unwrap_or(1)
}

/// A sum of so many parts from 1 up to a highest one.
fn spread(sum: usize, parts: usize, most: usize, rng: &mut Rng) -> Vec<usize> {
    let mut all = vec![1; parts];
    let mut rest = sum - parts;
    while rest > 0 {
        let part = rng.below(parts);
        if all[part] < most {
            all[part] += 1;
            rest -= 1;
        }
    }
    all
}

/// Any such plan, accepted.
pub fn crowded(rng: &mut Rng) -> Plan {
    laid(&Rows::any(rng), rng)
}

/// One with as many rows in a table as it may have, and so many more, accepted
/// but for these.
pub fn crowded_in(table: u32, more: usize, rng: &mut Rng) -> Plan {
    let most = ROW_BOUNDS[table as usize - 1].1 as usize;
    let plan = laid(&Rows::with(table, most + more, rng), rng);
    debug_assert!(plan.counts()[table as usize - 1] == most + more);
    plan
}

fn laid(rows: &Rows, rng: &mut Rng) -> Plan {
    let mut crowd = Crowd::new(rng);
    for group in 0..rows.groups {
        let share = |count: usize| (group..count).step_by(rows.groups);
        crowd.add_group(
            &rows.pieces[GROUP * group..][..GROUP],
            &share(rows.hops.len())
                .map(|stream| rows.hops[stream])
                .collect::<Vec<_>>(),
            share(rows.buffers).count(),
            rng,
        );
    }
    crowd.add_others(&rows.pieces[GROUP * rows.groups..], rng);
    crowd.add_chains(rows.chains, rows.groups, rng);
    crowd.repeated(rows.jobs as u32, rng)
}

impl Crowd {
    fn new(rng: &mut Rng) -> Crowd {
        let [d, v] = [rng.within(0..=1), rng.within(0..=2)];
        let mut plan = Plan {
            precision: rng.within(0..=1),
            cores: rows_of(&[[0, d, v], [0, d, v], [1, d, v]]),
            vcpus: rows_of(&[[0], [1], [2]]),
            ..Plan::default()
        };
        let delay = rng.within(0..=1);
        let link = |[from, to]: [u32; 2]| row_of([from, to, delay, 10_000]);
        plan.links = LINKS.iter().copied().map(link).collect();
        Crowd { plan, now: v }
    }

    /// Adds a task with so many pieces from now on, on a core of its own VCPU.
    fn add_task(&mut self, vcpu: u32, pieces: usize, rng: &mut Rng) {
        let task = self.plan.tasks.len() as u32;
        let d = self.plan.cores[vcpu as usize][1];
        let mut budget = 0;
        for _ in 0..pieces {
            let work = rng.within(1..=2);
            self.plan.pieces.push(row_of([task, 0, self.now, d + work]));
            budget += work;
            self.now += d + work + rng.pick(&[0, 0, 1]);
        }
        self.plan.tasks.push(row_of([vcpu, 7, 0, budget, 0]));
    }

    fn add_group(&mut self, pieces: &[usize], streams: &[usize], buffers: usize, rng: &mut Rng) {
        let first = self.plan.tasks.len() as u32;
        self.add_task(0, pieces[SENDER], rng);
        let sent = self.now;
        self.add_task(1, pieces[READER], rng);
        let read = self.now;
        self.now = sent;
        let receiver = first + RECEIVER as u32;
        let queue = rng.within(0..=QUEUES - 1);
        for (&hops, queue) in streams.iter().zip(queue..) {
            self.add_stream([first, receiver], hops, queue % QUEUES, rng);
        }
        self.now = self.now.max(read);
        self.add_task(2, pieces[RECEIVER], rng);
        let reader = first + READER as u32;
        let buffers = (0..buffers as u32).map(|number| row_of([number, first, reader]));
        self.plan.buffers.extend(buffers);
    }

    /// Adds a stream over so many hops, of a latency of its own.
    fn add_stream(&mut self, [sender, receiver]: [u32; 2], hops: usize, queue: u32, rng: &mut Rng) {
        let stream = self.plan.streams.len() as u32;
        let latency = 1_000_000 - stream;
        let words = [sender, receiver, latency, hops as u32, 46, queue];
        self.plan.streams.push(row_of(words));
        for hop in 0..hops {
            let link = match (hops % 2, hop) {
                (0, 0..2) => 2 + hop,
                (parity, _) => (hop + 1 + parity) % 2,
            };
            let link = if link == 0 { rng.pick(&[0, 4]) } else { link };
            let frame = [stream, 0, hop as u32, link as u32, self.now];
            self.plan.frames.push(row_of(frame));
            self.now += 1 + self.plan.links[0][2] + self.plan.precision;
        }
    }

    /// Adds tasks without messages, side by side on all cores.
    fn add_others(&mut self, pieces: &[usize], rng: &mut Rng) {
        let begin = self.now;
        let mut ends = [begin; 3];
        for &pieces in pieces {
            let vcpu = rng.below(3);
            self.now = ends[vcpu];
            self.add_task(vcpu as u32, pieces, rng);
            ends[vcpu] = self.now;
        }
        self.now = ends.into_iter().max().unwrap_or(begin);
    }

    fn add_chains(&mut self, count: usize, groups: usize, rng: &mut Rng) {
        for chain in 0..count {
            let first = GROUP * rng.below(groups);
            let last = first + rng.pick(&[READER, RECEIVER]);
            let limit = u32::MAX - chain as u32;
            let words = [first as u32, last as u32, limit];
            self.plan.chains.push(row_of(words));
        }
    }

    /// The plan with windows, and all that was laid once for each job.
    fn repeated(self, jobs: u32, rng: &mut Rng) -> Plan {
        let period = self.now + rng.within(0..=3);
        let mut plan = self.plan;
        plan.cycle = jobs * period;
        plan.windows = (0..3).map(|vcpu| row_of([vcpu, 0, plan.cycle])).collect();
        for task in &mut plan.tasks {
            (task[2], task[4]) = (period, period);
        }
        let (pieces, frames) = (plan.pieces.clone(), plan.frames.clone());
        for k in 1..jobs {
            let later = k * period;
            plan.pieces.extend(of_job(&pieces, k, PIECE_START, later));
            plan.frames.extend(of_job(&frames, k, FRAME_START, later));
        }
        plan.in_order()
    }
}

/// Rows of the first job as those of a later one.
fn of_job<const W: usize>(
    rows: &[[u32; W]],
    k: u32,
    start: usize,
    later: u32,
) -> impl Iterator<Item = [u32; W]> + '_ {
    rows.iter().map(move |row| {
        let mut row = *row;
        row[1] = k;
        row[start] += later;
        row
    })
}

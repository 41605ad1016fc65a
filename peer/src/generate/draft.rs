//! A plan in the making.

use std::cmp::Ordering;
use std::collections::BTreeMap;

use super::chains::lay_chains;
use super::timeline::Timeline;
use super::windows::lay_windows;
use crate::image::{row_of, Frame, Link, Plan, QUEUES};
use crate::rng::Rng;

/// The longest latency a stream can ask for.
const LONGEST_LATENCY: u32 = 1_000_000;

/// A plan in the making. Windows, chains, masks and the row order are still
/// open.
#[derive(Clone, Debug)]
pub struct Draft {
    pub plan: Plan,
    /// At most so many of 100 pieces of a job begin a cluster of their own.
    pub spread: usize,
    /// Whether buffers share the lowest numbers wherever their holds allow.
    pub few_numbers: bool,
    core_lines: Vec<Timeline>,
    link_lines: Vec<Timeline>,
    holds: Vec<Hold>,
    stays: Vec<Stay>,
}

/// The stay of a frame in a queue of a link.
#[derive(Clone, Copy, Debug)]
struct Stay {
    link: u32,
    queue: u32,
    from: u32,
    to: u32,
}

/// A hold of a buffer: its number, node, start and end.
#[derive(Clone, Copy, Debug)]
struct Hold {
    number: u32,
    node: u32,
    start: u32,
    end: u32,
}

/// Tasks of one period with what flows between them.
#[derive(Clone, Debug)]
pub struct Transaction {
    pub period: u32,
    pub tasks: Vec<NewTask>,
    /// Each leads from a task to a later one.
    pub flows: Vec<Flow>,
}

#[derive(Clone, Copy, Debug)]
pub struct NewTask {
    pub vcpu: u32,
    pub budget: u32,
    pub least_pieces: u32,
    pub most_pieces: u32,
    pub haste: Haste,
}

/// When a task's jobs run in their periods.
#[derive(Clone, Copy, Debug, PartialEq, Eq)]
pub enum Haste {
    /// At once.
    Early,
    /// After pauses.
    Easy,
    /// In one go, as late as may be.
    Late,
}

/// From one task of a transaction to a later one: a message if their nodes
/// differ, else a buffer.
#[derive(Clone, Copy, Debug)]
pub struct Flow {
    pub from: usize,
    pub to: usize,
    pub hops: u32,
    pub payload: u32,
}

/// First start and last end of a job.
type Span = (u32, u32);

/// A flow as rows of the plan.
#[derive(Clone, Copy)]
enum Edge {
    Stream(u32),
    Buffer(u32),
}

impl Draft {
    pub fn new(cycle: u32, precision: u32) -> Draft {
        Draft {
            plan: Plan {
                cycle,
                precision,
                ..Plan::default()
            },
            spread: 50,
            few_numbers: false,
            core_lines: Vec::new(),
            link_lines: Vec::new(),
            holds: Vec::new(),
            stays: Vec::new(),
        }
    }

    pub fn add_core(&mut self, node: u32, d: u32, v: u32) {
        self.plan.cores.push(row_of([node, d, v]));
        self.core_lines.push(Timeline::default());
    }

    pub fn add_vcpu(&mut self, core: u32) {
        self.plan.vcpus.push(row_of([core]));
    }

    pub fn add_link(&mut self, ends: [u32; 2], delay: u32, rate: u32, rng: &mut Rng) {
        self.plan.links.push(any_link(ends, delay, rate, rng));
        self.link_lines.push(Timeline::default());
    }

    pub fn node_of_vcpu(&self, vcpu: u32) -> u32 {
        self.plan.cores[self.plan.core_of_vcpu(vcpu) as usize][0]
    }

    /// Adds a transaction whole, or changes nothing where it does not fit.
    pub fn add(&mut self, transaction: &Transaction, rng: &mut Rng) -> bool {
        let mut draft = self.clone();
        if draft.try_add(transaction, rng).is_some() && draft.plan.rows_in_bounds() {
            *self = draft;
            true
        } else {
            false
        }
    }

    fn try_add(&mut self, transaction: &Transaction, rng: &mut Rng) -> Option<()> {
        let first_task = self.plan.tasks.len() as u32;
        for task in &transaction.tasks {
            let words = [task.vcpu, 0, transaction.period, task.budget, 0];
            self.plan.tasks.push(row_of(words));
        }
        let edges = self.add_edges(transaction, first_task);
        let mut spans = Vec::new();
        for job in 0..self.plan.cycle / transaction.period {
            let of_job = self.place_jobs(transaction, first_task, &edges, job, rng)?;
            spans.push(of_job);
        }
        self.set_deadlines(transaction, first_task, &spans, rng);
        for (flow, edge) in transaction.flows.iter().zip(&edges) {
            let pairs = spans.iter().map(|jobs| (jobs[flow.from], jobs[flow.to]));
            match *edge {
                Edge::Stream(row) => {
                    let ends: Vec<u32> = spans.iter().map(|jobs| jobs[flow.from].1).collect();
                    self.set_queue(row, &ends, rng)?;
                    self.set_latency(row, pairs, rng)?;
                }
                Edge::Buffer(row) => self.set_number(row, pairs.collect(), rng)?,
            }
        }
        Some(())
    }

    fn add_edges(&mut self, transaction: &Transaction, first_task: u32) -> Vec<Edge> {
        let mut edges = Vec::new();
        for flow in &transaction.flows {
            let from = first_task + flow.from as u32;
            let to = first_task + flow.to as u32;
            if self.plan.node_of_task(from) == self.plan.node_of_task(to) {
                edges.push(Edge::Buffer(self.plan.buffers.len() as u32));
                self.plan.buffers.push(row_of([0, from, to]));
            } else {
                edges.push(Edge::Stream(self.plan.streams.len() as u32));
                let stream = [from, to, 0, flow.hops, flow.payload];
                self.plan.streams.push(row_of(stream));
            }
        }
        edges
    }

    /// Places one job of each task, each after what flows to it.
    fn place_jobs(
        &mut self,
        transaction: &Transaction,
        first_task: u32,
        edges: &[Edge],
        job: u32,
        rng: &mut Rng,
    ) -> Option<Vec<Span>> {
        let mut spans: Vec<Span> = Vec::new();
        for (index, task) in transaction.tasks.iter().enumerate() {
            let mut earliest = job * transaction.period;
            for (flow, edge) in transaction.flows.iter().zip(edges) {
                if flow.to == index {
                    let (_, written) = spans[flow.from];
                    let arrival = match *edge {
                        Edge::Stream(stream) => self.place_frames(stream, job, written, rng)?,
                        Edge::Buffer(_) => written,
                    };
                    earliest = earliest.max(arrival);
                }
            }
            let row = first_task + index as u32;
            spans.push(self.place_pieces(task, row, job, earliest, rng)?);
        }
        Some(spans)
    }

    /// Places the frames of a message and gives the tick from which the
    /// receiver may start.
    fn place_frames(&mut self, stream: u32, job: u32, ready: u32, rng: &mut Rng) -> Option<u32> {
        let [sender, receiver, _, hops, ..] = self.plan.streams[stream as usize];
        let until = (job + 1) * self.plan.period(sender);
        let from = self.plan.node_of_task(sender);
        let to = self.plan.node_of_task(receiver);
        let mut earliest = ready;
        for (hop, link) in (0..).zip(self.walk(from, to, hops, rng)?) {
            let asked = earliest + slack(self.plan.period(sender), rng);
            let ticks = self.plan.frame_ticks(stream, link);
            let line = &mut self.link_lines[link as usize];
            let at_ease = line.fit(asked, until, 0, ticks);
            let start = at_ease.or_else(|| line.fit(earliest, until, 0, ticks))?;
            line.take(start, start + ticks, stream);
            let frame = [stream, job, hop, link, start];
            self.plan.frames.push(row_of(frame));
            let delay = self.plan.links[link as usize][2];
            earliest = start + ticks + delay + self.plan.precision;
        }
        Some(earliest)
    }

    /// Links of a random walk of so many hops between two nodes.
    pub fn walk(&self, from: u32, to: u32, hops: u32, rng: &mut Rng) -> Option<Vec<u32>> {
        let mut reach = vec![1_u32 << to];
        for _ in 0..hops {
            let nodes = reach[reach.len() - 1];
            let leading = self
                .plan
                .links
                .iter()
                .filter(|link| nodes >> link[1] & 1 == 1);
            reach.push(leading.fold(0, |nodes, link| nodes | 1 << link[0]));
        }
        let mut node = from;
        let mut walk = Vec::new();
        for remaining in (0..hops as usize).rev() {
            let leads_on = |link: &u32| {
                let [begin, end, ..] = self.plan.links[*link as usize];
                begin == node && reach[remaining] >> end & 1 == 1
            };
            let links = 0..self.plan.links.len() as u32;
            let choice: Vec<u32> = links.filter(leads_on).collect();
            let link = rng.pick_any(&choice)?;
            node = self.plan.links[link as usize][1];
            walk.push(link);
        }
        Some(walk)
    }

    /// Places the pieces of a job in clusters, each to lie in one window.
    fn place_pieces(
        &mut self,
        task: &NewTask,
        row: u32,
        job: u32,
        earliest: u32,
        rng: &mut Rng,
    ) -> Option<Span> {
        let period = self.plan.period(row);
        let until = (job + 1) * period;
        let most = task.most_pieces.min(task.budget);
        let count = rng.within(task.least_pieces.min(most)..=most);
        let parts = split(task.budget, count, rng);
        let mut span = (u32::MAX, earliest);
        let clusters = if task.haste == Haste::Late {
            vec![parts]
        } else {
            self.clusters(&parts, rng)
        };
        for cluster in clusters {
            let (_, begin) = span;
            let lengths = self.place_cluster(task, row, &cluster, begin, until, rng)?;
            for (start, length) in lengths {
                self.plan.pieces.push(row_of([row, job, start, length]));
                span = (span.0.min(start), start + length);
            }
        }
        Some(span)
    }

    fn clusters(&self, parts: &[u32], rng: &mut Rng) -> Vec<Vec<u32>> {
        let mut clusters: Vec<Vec<u32>> = Vec::new();
        for &part in parts {
            match clusters.last_mut() {
                Some(cluster) if !rng.chance(self.spread) => cluster.push(part),
                _ => clusters.push(vec![part]),
            }
        }
        clusters
    }

    /// Takes room for one cluster and gives its pieces' starts and lengths.
    fn place_cluster(
        &mut self,
        task: &NewTask,
        row: u32,
        parts: &[u32],
        earliest: u32,
        until: u32,
        rng: &mut Rng,
    ) -> Option<Vec<(u32, u32)>> {
        let vcpu = task.vcpu;
        let core = self.plan.core_of_vcpu(vcpu) as usize;
        let [_, d, v, ..] = self.plan.cores[core];
        let gap = if rng.chance(30) { rng.within(1..=3) } else { 0 };
        let length =
            parts.iter().map(|part| part + d).sum::<u32>() + gap * (parts.len() as u32 - 1);
        let line = &mut self.core_lines[core];
        let behind = (task.haste == Haste::Easy && rng.chance(30))
            .then(|| line.fit_behind(vcpu, earliest, until, length))
            .flatten();
        let (begin, lead) = match behind {
            Some(begin) => (begin, 0),
            None => {
                let pause = slack(self.plan.tasks[row as usize][2], rng);
                let asked = match task.haste {
                    Haste::Early => earliest,
                    Haste::Easy => earliest + pause,
                    Haste::Late => earliest.max(until.saturating_sub(length)),
                };
                let at_ease = line.fit(asked, until, v, length);
                (at_ease.or_else(|| line.fit(earliest, until, v, length))?, v)
            }
        };
        line.take(begin - lead, begin + length, vcpu);
        let mut next = begin;
        let mut pieces = Vec::new();
        for part in parts {
            pieces.push((next, part + d));
            next += part + d + gap;
        }
        Some(pieces)
    }

    fn set_deadlines(
        &mut self,
        transaction: &Transaction,
        first_task: u32,
        spans: &[Vec<Span>],
        rng: &mut Rng,
    ) {
        let period = transaction.period;
        for index in 0..transaction.tasks.len() {
            let ends = spans
                .iter()
                .zip(0..)
                .map(|(jobs, k)| jobs[index].1 - k * period);
            let least = ends.max().unwrap_or(period);
            let any = rng.within(least..=period);
            let mut choice = vec![least, period, any];
            if rng.chance(60) {
                choice.extend(self.exact_deadlines(&transaction.flows, index, spans));
                choice.retain(|deadline| (least..=period).contains(deadline));
            }
            self.plan.tasks[first_task as usize + index][4] = rng.pick(&choice);
        }
    }

    /// The deadlines with which an E or a limit of 0 from a task that leads
    /// to another one is exactly met.
    fn exact_deadlines(&self, flows: &[Flow], to: usize, spans: &[Vec<Span>]) -> Vec<u32> {
        let exact = |from: usize| {
            let taken = spans.iter().map(|jobs| jobs[to].1 - jobs[from].0);
            Some(taken.max()? + self.plan.precision)
        };
        let leading = leading_to(flows, to).into_iter();
        leading.filter_map(exact).collect()
    }

    fn set_latency(
        &mut self,
        stream: u32,
        pairs: impl Iterator<Item = (Span, Span)>,
        rng: &mut Rng,
    ) -> Option<()> {
        let deadline = self.plan.deadline(self.plan.streams[stream as usize][1]);
        let taken = pairs.map(|(sender, receiver)| receiver.1 - sender.0);
        let least = taken.max()? + self.plan.precision;
        if least > LONGEST_LATENCY {
            return None;
        }
        let any = rng.within(least..=LONGEST_LATENCY);
        let choice = match least.cmp(&deadline) {
            Ordering::Less => [least, least, 0, any],
            Ordering::Equal => [least, 0, 0, 0],
            Ordering::Greater => [least, least, least, any],
        };
        self.plan.streams[stream as usize][2] = rng.pick(&choice);
        Some(())
    }

    /// Gives a stream a queue in which no other frame stays while one of its
    /// does; its sender's jobs have these last ends.
    fn set_queue(&mut self, stream: u32, ends: &[u32], rng: &mut Rng) -> Option<()> {
        let mut queues: Vec<u32> = (0..QUEUES).collect();
        if rng.chance(50) {
            rng.shuffle(&mut queues);
        }
        let stays = stays_of(&self.plan, stream, ends);
        let is_free = |queue: &u32| {
            let mut own = stays.iter();
            own.all(|stay| {
                self.is_apart(&Stay {
                    queue: *queue,
                    ..*stay
                })
            })
        };
        queues.retain(is_free);
        let touching = queues.iter().copied().find(|queue| {
            let mut own = stays.iter();
            own.any(|stay| {
                self.touches(&Stay {
                    queue: *queue,
                    ..*stay
                })
            })
        });
        let queue = touching
            .filter(|_| rng.chance(60))
            .or(queues.first().copied())?;
        let in_queue = |stay: Stay| Stay { queue, ..stay };
        self.stays.extend(stays.into_iter().map(in_queue));
        self.plan.streams[stream as usize][5] = queue;
        Some(())
    }

    fn is_apart(&self, wanted: &Stay) -> bool {
        self.stays.iter().all(|stay| {
            let one_queue = stay.link == wanted.link && stay.queue == wanted.queue;
            !one_queue || stay.to <= wanted.from || wanted.to <= stay.from
        })
    }

    fn touches(&self, wanted: &Stay) -> bool {
        self.stays.iter().any(|stay| {
            let one_queue = stay.link == wanted.link && stay.queue == wanted.queue;
            one_queue && (stay.to == wanted.from || wanted.to == stay.from)
        })
    }

    /// Gives a buffer a number, one in use already where its holds allow.
    fn set_number(&mut self, row: u32, pairs: Vec<(Span, Span)>, rng: &mut Rng) -> Option<()> {
        let node = self.plan.node_of_task(self.plan.buffers[row as usize][1]);
        let mut numbers: Vec<u32> = (0..64).collect();
        if !self.few_numbers && rng.chance(50) {
            rng.shuffle(&mut numbers);
        }
        let holds = |number: u32| {
            let hold = move |&((start, _), (_, end)): &(Span, Span)| Hold {
                number,
                node,
                start,
                end,
            };
            pairs.iter().map(hold)
        };
        let is_free = |number: &u32| holds(*number).all(|hold| self.is_free(&hold));
        let number = numbers.into_iter().find(is_free)?;
        self.holds.extend(holds(number));
        self.plan.buffers[row as usize][0] = number;
        Some(())
    }

    fn is_free(&self, wanted: &Hold) -> bool {
        self.holds.iter().all(|hold| {
            let one_buffer = hold.number == wanted.number && hold.node == wanted.node;
            !one_buffer || hold.end <= wanted.start || wanted.end <= hold.start
        })
    }

    /// The plan with windows and chains, masks and its rows shuffled or in
    /// order; none where the windows do not come out.
    pub fn finish(self, rng: &mut Rng) -> Option<Plan> {
        self.finish_with(None, None, rng)
    }

    /// The same with so many windows and chains, if a number is wanted.
    pub fn finish_with(
        mut self,
        windows: Option<usize>,
        chains: Option<usize>,
        rng: &mut Rng,
    ) -> Option<Plan> {
        self.plan.windows = lay_windows(&self.plan, windows, rng)?;
        self.plan.chains = lay_chains(&self.plan, chains, rng)?;
        Some(shuffled(self.plan, rng))
    }
}

/// The stays of a stream's frames, still without a queue. Its sender's jobs
/// have these last ends.
fn stays_of(plan: &Plan, stream: u32, ends: &[u32]) -> Vec<Stay> {
    let own = plan.frames.iter().filter(|frame| frame[0] == stream);
    let starts: BTreeMap<(u32, u32), (u32, u32)> = own
        .clone()
        .map(|&[_, k, hop, link, start, ..]| ((k, hop), (link, start)))
        .collect();
    let stay = |&[_, k, hop, link, start, ..]: &Frame| Stay {
        link,
        queue: 0,
        from: match hop.checked_sub(1) {
            None => ends[k as usize],
            Some(before) => {
                let (link, start) = starts[&(k, before)];
                (start + plan.links[link as usize][4]).saturating_sub(plan.precision)
            }
        },
        to: start + plan.frame_ticks(stream, link),
    };
    own.map(stay).collect()
}

/// The tasks of a transaction from which flows lead to one of them.
fn leading_to(flows: &[Flow], to: usize) -> Vec<usize> {
    let mut reached = vec![to];
    for task in (0..to).rev() {
        let leads = |flow: &Flow| flow.from == task && reached.contains(&flow.to);
        if flows.iter().any(leads) {
            reached.push(task);
        }
    }
    reached.split_off(1)
}

/// A pause before something that could start at once.
fn slack(period: u32, rng: &mut Rng) -> u32 {
    match rng.below(3) {
        0 => 0,
        1 => rng.within(0..=2),
        _ => rng.within(0..=period / 24),
    }
}

/// A sum of so many parts of at least 1.
fn split(sum: u32, count: u32, rng: &mut Rng) -> Vec<u32> {
    let mut parts = vec![1; count as usize];
    let mut rest = sum - count;
    for part in parts.iter_mut().skip(1) {
        let more = rng.within(0..=rest.min(2 * sum / count));
        *part += more;
        rest -= more;
    }
    parts[0] += rest;
    rng.shuffle(&mut parts);
    parts
}

/// A link of these words; its lowest delay is none, the delay, or between.
pub fn any_link([from, to]: [u32; 2], delay: u32, rate: u32, rng: &mut Rng) -> Link {
    let any = rng.within(0..=delay);
    let lowest = rng.pick(&[0, any, delay.saturating_sub(1), delay]);
    row_of([from, to, delay, rate, lowest])
}

/// Gives masks to the tasks, shuffles the rows of most plans and puts in order
/// those that have a start.
pub fn shuffled(mut plan: Plan, rng: &mut Rng) -> Plan {
    if rng.chance(90) {
        shuffle_rows(&mut plan, rng);
    }
    for task in 0..plan.tasks.len() {
        let core = plan.core_of_task(task as u32);
        let any = rng.word();
        let others = rng.pick(&[0, 0, u32::MAX, any]);
        plan.tasks[task][1] = others | 1 << core;
    }
    plan.in_order()
}

fn shuffle_rows(plan: &mut Plan, rng: &mut Rng) {
    let cores = reorder(&mut plan.cores, rng);
    let vcpus = reorder(&mut plan.vcpus, rng);
    let tasks = reorder(&mut plan.tasks, rng);
    let links = reorder(&mut plan.links, rng);
    let streams = reorder(&mut plan.streams, rng);
    rename(&mut plan.vcpus, 0, &cores);
    rename(&mut plan.tasks, 0, &vcpus);
    rename(&mut plan.windows, 0, &vcpus);
    rename(&mut plan.pieces, 0, &tasks);
    rename(&mut plan.streams, 0, &tasks);
    rename(&mut plan.streams, 1, &tasks);
    rename(&mut plan.frames, 0, &streams);
    rename(&mut plan.frames, 3, &links);
    rename(&mut plan.buffers, 1, &tasks);
    rename(&mut plan.buffers, 2, &tasks);
    rename(&mut plan.chains, 0, &tasks);
    rename(&mut plan.chains, 1, &tasks);
    rng.shuffle(&mut plan.buffers);
    rng.shuffle(&mut plan.chains);
}

/// Shuffles rows and gives the new number of each old row.
fn reorder<const W: usize>(rows: &mut Vec<[u32; W]>, rng: &mut Rng) -> Vec<u32> {
    let mut order: Vec<usize> = (0..rows.len()).collect();
    rng.shuffle(&mut order);
    *rows = order.iter().map(|&old| rows[old]).collect();
    let mut renamed = vec![0; order.len()];
    for (new, &old) in order.iter().enumerate() {
        renamed[old] = new as u32;
    }
    renamed
}

fn rename<const W: usize>(rows: &mut [[u32; W]], column: usize, renamed: &[u32]) {
    for row in rows {
        row[column] = renamed[row[column] as usize];
    }
}

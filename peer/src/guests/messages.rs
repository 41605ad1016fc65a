//! Messages and chains of a plan: dropped with their tasks, dropped, added.

use std::collections::BTreeMap;

use crate::image::{row_of, Plan};
use crate::paths::Paths;
use crate::rng::Rng;

/// Drops the messages and chains of some tasks, and chains that lose their path.
pub fn drop_of(plan: &mut Plan, is_one: impl Fn(u32) -> bool) {
    let streams = plan.streams.iter();
    let kept: Vec<bool> = streams
        .map(|row| !is_one(row[0]) && !is_one(row[1]))
        .collect();
    keep_streams(plan, &kept);
    plan.buffers
        .retain(|row| !is_one(row[1]) && !is_one(row[2]));
    plan.chains.retain(|row| !is_one(row[0]) && !is_one(row[1]));
    drop_loose_chains(plan);
}

/// Leaves some streams, with their frames, under new numbers.
fn keep_streams(plan: &mut Plan, kept: &[bool]) {
    let mut numbers = Vec::new();
    let mut next = 0;
    for kept in kept {
        numbers.push(next);
        next += u32::from(*kept);
    }
    let mut rows = kept.iter();
    plan.streams.retain(|_| *rows.next().expect("each has one"));
    plan.frames.retain(|frame| kept[frame[0] as usize]);
    for frame in &mut plan.frames {
        frame[0] = numbers[frame[0] as usize];
    }
}

fn drop_loose_chains(plan: &mut Plan) {
    let paths = Paths::of(plan);
    plan.chains.retain(|row| paths.join(row[0], row[1]));
}

pub fn drop_stream(plan: &mut Plan, _: &Plan, rng: &mut Rng) -> Option<()> {
    let mut kept = vec![true; plan.streams.len()];
    let row = rng.below(kept.len().max(1));
    *kept.get_mut(row)? = false;
    keep_streams(plan, &kept);
    drop_loose_chains(plan);
    Some(())
}

pub fn drop_buffer(plan: &mut Plan, _: &Plan, rng: &mut Rng) -> Option<()> {
    let row = rng.below(plan.buffers.len().max(1));
    plan.buffers.get(row)?;
    plan.buffers.remove(row);
    drop_loose_chains(plan);
    Some(())
}

pub fn drop_chain(plan: &mut Plan, _: &Plan, rng: &mut Rng) -> Option<()> {
    let row = rng.below(plan.chains.len().max(1));
    plan.chains.get(row)?;
    plan.chains.remove(row);
    Some(())
}

/// Puts streams, buffers and chains in another order.
pub fn reorder(plan: &mut Plan, _: &Plan, rng: &mut Rng) -> Option<()> {
    let mut order: Vec<usize> = (0..plan.streams.len()).collect();
    rng.shuffle(&mut order);
    let mut numbers = vec![0; order.len()];
    for (new, old) in (0..).zip(&order) {
        numbers[*old] = new;
    }
    plan.streams = order.iter().map(|old| plan.streams[*old]).collect();
    for frame in &mut plan.frames {
        frame[0] = numbers[frame[0] as usize];
    }
    rng.shuffle(&mut plan.buffers);
    rng.shuffle(&mut plan.chains);
    Some(())
}

/// First start and last end of every job that has pieces, by task and job.
type Spans = BTreeMap<(u32, u32), [u32; 2]>;

fn spans(plan: &Plan) -> Spans {
    let mut spans = Spans::new();
    for &[task, job, start, length, ..] in &plan.pieces {
        let end = start + length;
        let span = spans.entry((task, job)).or_insert([start, end]);
        *span = [span[0].min(start), span[1].max(end)];
    }
    spans
}

/// Two tasks of one period of which each job of the one ends so many ticks
/// before the other's starts, on one node or on two.
fn ends_of_message(plan: &Plan, ticks: u32, one_node: bool, rng: &mut Rng) -> Option<[u32; 2]> {
    let spans = spans(plan);
    let tasks = plan.tasks.len();
    for _ in 0..12 {
        let ends = [0; 2].map(|_| rng.below(tasks.max(1)) as u32);
        plan.tasks.get(ends[0].max(ends[1]) as usize)?;
        let [from, to] = ends;
        let [node, other] = ends.map(|task| plan.node_of_task(task));
        let alike = plan.period(from) == plan.period(to) && (node == other) == one_node;
        let mut jobs = 0..plan.jobs(from);
        let in_time = |job| spans[&(from, job)][1] + ticks <= spans[&(to, job)][0];
        if from != to && alike && jobs.all(in_time) {
            return Some(ends);
        }
    }
    None
}

/// Adds a link of its own, and a stream of one hop over it.
pub fn add_stream(plan: &mut Plan, _: &Plan, rng: &mut Rng) -> Option<()> {
    let [from, to] = ends_of_message(plan, 1 + plan.precision, false, rng)?;
    let spans = spans(plan);
    let [near, far] = [from, to].map(|task| plan.node_of_task(task));
    let (link, stream) = (plan.links.len() as u32, plan.streams.len() as u32);
    plan.links.push(row_of([near, far, 0, 10_000, 0]));
    let words = [from, to, 1_000_000, 1, rng.within(46..=1_000)];
    plan.streams.push(row_of(words));
    for job in 0..plan.jobs(from) {
        let start = spans[&(from, job)][1];
        plan.frames.push(row_of([stream, job, 0, link, start]));
    }
    Some(())
}

pub fn add_buffer(plan: &mut Plan, _: &Plan, rng: &mut Rng) -> Option<()> {
    let [from, to] = ends_of_message(plan, 0, true, rng)?;
    plan.buffers.push(row_of([rng.within(0..=63), from, to]));
    Some(())
}

/// Adds a chain along one message.
pub fn add_chain(plan: &mut Plan, _: &Plan, rng: &mut Rng) -> Option<()> {
    let streams = plan.streams.iter().map(|row| [row[0], row[1]]);
    let buffers = plan.buffers.iter().map(|row| [row[1], row[2]]);
    let messages: Vec<[u32; 2]> = streams.chain(buffers).collect();
    let [first, last] = rng.pick_any(&messages)?;
    plan.chains.push(row_of([first, last, u32::MAX]));
    Some(())
}

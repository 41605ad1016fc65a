//! Chains laid along the messages of a plan.

use std::cmp::Ordering;
use std::collections::BTreeMap;

use crate::image::{row_of, Chain, Plan, CHAIN, ROW_BOUNDS};
use crate::rng::Rng;

/// For each task those that a path leads to, with the most messages that a
/// path to them takes.
type Steps = Vec<BTreeMap<u32, u32>>;

/// Chains between tasks that a path joins, with limits that they keep. There
/// are as many as wanted, or else any number in bounds.
///
/// Every message of the plan must lead from a task to one of a later row.
pub fn lay_chains(plan: &Plan, wanted: Option<usize>, rng: &mut Rng) -> Option<Vec<Chain>> {
    let steps = steps(plan);
    let leading = |task: &u32| !steps[*task as usize].is_empty();
    let leading: Vec<u32> = (0..steps.len() as u32).filter(leading).collect();
    let most = ROW_BOUNDS[CHAIN as usize - 1].1;
    let any = rng.within(0..=most);
    let few = [0, 1, 1, 2, 2, 3, rng.within(0..=8), any];
    let count = wanted.unwrap_or(rng.pick(&few) as usize);
    if leading.is_empty() {
        return (wanted.unwrap_or(0) == 0).then(Vec::new);
    }
    let spans = spans(plan);
    let exact = exact_pairs(plan, &steps, &spans);
    let chain = |_| {
        let first = rng.pick(&leading);
        let last = any_last(&steps[first as usize], rng);
        let (first, last) = match rng.pick_any(&exact) {
            Some(pair) if rng.chance(30) => pair,
            _ => (first, last),
        };
        row_of([first, last, any_limit(plan, &spans, first, last, rng)])
    };
    Some((0..count).map(chain).collect())
}

fn steps(plan: &Plan) -> Steps {
    let mut messages: Vec<(u32, u32)> = plan.streams.iter().map(|row| (row[0], row[1])).collect();
    messages.extend(plan.buffers.iter().map(|row| (row[1], row[2])));
    messages.sort_unstable();
    let mut steps: Steps = vec![BTreeMap::new(); plan.tasks.len()];
    for &(from, to) in messages.iter().rev() {
        debug_assert!(from < to);
        let mut beyond = steps[to as usize].clone();
        beyond.values_mut().for_each(|count| *count += 1);
        beyond.insert(to, 1);
        for (task, count) in beyond {
            let known = steps[from as usize].entry(task).or_insert(count);
            *known = count.max(*known);
        }
    }
    steps
}

/// Any of the tasks that a path leads to, often one that is farthest away.
fn any_last(reached: &BTreeMap<u32, u32>, rng: &mut Rng) -> u32 {
    let farthest = reached.values().copied().max().unwrap_or(0);
    let only_far = rng.chance(60);
    let serves = |(_, count): &(&u32, &u32)| !only_far || **count == farthest;
    let lasts: Vec<u32> = reached
        .iter()
        .filter(serves)
        .map(|(task, _)| *task)
        .collect();
    rng.pick(&lasts)
}

/// First start and last end of every job that has pieces.
type Spans = BTreeMap<(u32, u32), (u32, u32)>;

fn spans(plan: &Plan) -> Spans {
    let mut spans = Spans::new();
    for &[task, k, start, length, ..] in &plan.pieces {
        let end = start + length;
        let span = spans.entry((task, k)).or_insert((start, end));
        *span = (span.0.min(start), span.1.max(end));
    }
    spans
}

/// The least limit that every job keeps.
fn least_limit(plan: &Plan, spans: &Spans, first: u32, last: u32) -> u32 {
    let jobs = 0..plan.jobs(first);
    let taken = jobs.map(|k| spans[&(last, k)].1 - spans[&(first, k)].0);
    taken.max().unwrap_or(0) + plan.precision
}

/// The pairs of tasks between which a limit of 0 is exactly kept.
fn exact_pairs(plan: &Plan, steps: &Steps, spans: &Spans) -> Vec<(u32, u32)> {
    let firsts = (0..).zip(steps);
    let pairs = firsts.flat_map(|(first, reached)| reached.keys().map(move |last| (first, *last)));
    let is_exact =
        |&(first, last): &(u32, u32)| least_limit(plan, spans, first, last) == plan.deadline(last);
    pairs.filter(is_exact).collect()
}

/// A limit that every job keeps, often the least, or 0 where that is exactly
/// kept.
fn any_limit(plan: &Plan, spans: &Spans, first: u32, last: u32, rng: &mut Rng) -> u32 {
    let period = plan.period(first);
    let least = least_limit(plan, spans, first, last);
    let loose = rng.within(least..=least + period);
    let huge = u32::MAX - rng.within(0..=period);
    let limits = match least.cmp(&plan.deadline(last)) {
        Ordering::Less => [least, least, least, 0, 0, loose, huge],
        Ordering::Equal => [least, 0, 0, 0, 0, loose, huge],
        Ordering::Greater => [least, least, least, least, loose, loose, huge],
    };
    rng.pick(&limits)
}

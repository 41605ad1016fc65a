//! Changes aimed at questions 29 to 31.

use super::deadlines::{self, taken};
use super::{any_pair, any_row, any_where, insert, streams, wide, word};
use crate::image::{row_of, Chain, Plan, CHAIN};
use crate::rng::Rng;

/// Sets a chain of first task, last task and limit, in place of another or as
/// one more row.
fn put(plan: &mut Plan, words: [u32; 3], rng: &mut Rng) -> Option<()> {
    match any_row(&plan.chains, rng) {
        Some(row) if rng.chance(50) => {
            plan.chains[row] = row_of(words);
            Some(())
        }
        _ => insert(&mut plan.chains, CHAIN, words, rng),
    }
}

/// The tasks that a path leads to from each task.
fn reached(plan: &Plan) -> Vec<Vec<bool>> {
    let tasks = plan.tasks.len();
    let mut reached = vec![vec![false; tasks]; tasks];
    let streams = plan.streams.iter().map(|row| [row[0], row[1]]);
    let buffers = plan.buffers.iter().map(|row| [row[1], row[2]]);
    let messages: Vec<[usize; 2]> = streams
        .chain(buffers)
        .map(|ends| ends.map(|task| task as usize))
        .collect();
    loop {
        let mut is_new = false;
        for &[from, to] in &messages {
            let beyond = reached[to].clone();
            for (task, known) in reached[from].iter_mut().enumerate() {
                let leads = task == to || beyond[task];
                is_new |= leads && !*known;
                *known |= leads;
            }
        }
        if !is_new {
            return reached;
        }
    }
}

pub fn tasks(plan: &mut Plan, rng: &mut Rng) -> Option<()> {
    if rng.chance(25) {
        // Another chain that a later question would refuse.
        let other = if rng.chance(50) { path } else { limit };
        other(plan, rng)?;
    }
    let rows = plan.tasks.len() as u32;
    let more = rows + rng.word() % 8;
    let numbers = [rows, rows, rows + 1, more, 1 << 31, u32::MAX];
    let beyond = rng.pick(&numbers);
    let [mut first, mut last, limit, ..] = match any_row(&plan.chains, rng) {
        Some(row) => plan.chains[row],
        None => row_of([0, rows.saturating_sub(1), rng.pick(&[0, u32::MAX])]),
    };
    match rng.below(7) {
        0 | 1 => first = beyond,
        2 | 3 => last = beyond,
        4 => (first, last) = (beyond, beyond),
        5 => first = last,
        _ => last = first,
    }
    put(plan, [first, last, limit], rng)
}

pub fn path(plan: &mut Plan, rng: &mut Rng) -> Option<()> {
    if rng.chance(20) {
        // Another chain that a later question would refuse.
        limit(plan, rng)?;
    }
    match rng.below(8) {
        0 => {
            let row = any_row(&plan.chains, rng)?;
            plan.chains[row].swap(0, 1);
            Some(())
        }
        1 => cut_buffer(plan, rng),
        2 => cut_stream(plan, rng),
        _ => {
            let (first, last) = apart(plan, rng)?;
            let limit = rng.pick(&[0, 1, plan.period(first), u32::MAX, u32::MAX]);
            put(plan, [first, last, limit], rng)
        }
    }
}

/// Two tasks that no path joins, often of one period, and often so that one
/// of them is an end of many paths.
fn apart(plan: &Plan, rng: &mut Rng) -> Option<(u32, u32)> {
    let reached = reached(plan);
    let tasks = plan.tasks.len();
    let period = |task: usize| plan.period(task as u32);
    let apart = |a: usize, b: usize| a != b && !reached[a][b];
    let alike = |a: usize, b: usize| apart(a, b) && period(a) == period(b);
    let pair = match rng.below(10) {
        // Backwards.
        0 => any_pair(tasks, |a, b| apart(a, b) && reached[b][a], rng),
        // Two that one task leads to.
        1 => {
            let common = |a: usize, b: usize| (0..tasks).any(|c| reached[c][a] && reached[c][b]);
            any_pair(tasks, |a, b| alike(a, b) && common(a, b), rng)
        }
        // Two that lead to one task.
        2 => {
            let common = |a: usize, b: usize| (0..tasks).any(|c| reached[a][c] && reached[b][c]);
            any_pair(tasks, |a, b| alike(a, b) && common(a, b), rng)
        }
        // The writer of one row of a buffer and the reader of another.
        3 | 7..=9 => {
            let one_buffer = |a: u32, b: u32| plan.node_of_task(a) == plan.node_of_task(b);
            let one_number = |a: usize, b: usize| {
                let ([one, writer, ..], [other, _, reader, ..]) =
                    (plan.buffers[a], plan.buffers[b]);
                let apart = apart(writer as usize, reader as usize);
                one == other && one_buffer(writer, reader) && apart
            };
            let rows = any_pair(plan.buffers.len(), one_number, rng);
            rows.map(|(a, b)| (plan.buffers[a][1] as usize, plan.buffers[b][2] as usize))
        }
        // From where most paths begin, or to where most end.
        4 | 5 => {
            let leads_to = |task: usize| (0..tasks).filter(|to| reached[task][*to]).count();
            let led_from = |task: usize| (0..tasks).filter(|from| reached[*from][task]).count();
            if rng.chance(50) {
                let first = (0..tasks).max_by_key(|task| leads_to(*task))?;
                any_where(tasks, |last| alike(first, last), rng).map(|last| (first, last))
            } else {
                let last = (0..tasks).max_by_key(|task| led_from(*task))?;
                any_where(tasks, |first| alike(first, last), rng).map(|first| (first, last))
            }
        }
        _ => any_pair(tasks, alike, rng),
    };
    let (first, last) = pair.or_else(|| any_pair(tasks, apart, rng))?;
    Some((first as u32, last as u32))
}

/// Whether some chain's path is gone.
fn is_cut(plan: &Plan) -> bool {
    let reached = reached(plan);
    let mut chains = plan.chains.iter();
    chains.any(|&[first, last, ..]| !reached[first as usize][last as usize])
}

/// Takes out a buffer that a chain needs.
fn cut_buffer(plan: &mut Plan, rng: &mut Rng) -> Option<()> {
    let without = |row: usize| {
        let mut plan = plan.clone();
        plan.buffers.remove(row);
        plan
    };
    let row = any_where(plan.buffers.len(), |row| is_cut(&without(row)), rng)?;
    *plan = without(row);
    Some(())
}

/// Takes out a stream that a chain needs, with its frames.
fn cut_stream(plan: &mut Plan, rng: &mut Rng) -> Option<()> {
    let without = |row: usize| {
        let mut plan = plan.clone();
        plan.streams.remove(row);
        plan.frames.retain(|frame| frame[0] as usize != row);
        for frame in &mut plan.frames {
            frame[0] -= u32::from(frame[0] as usize > row);
        }
        plan
    };
    let row = any_where(plan.streams.len(), |row| is_cut(&without(row)), rng)?;
    *plan = without(row);
    Some(())
}

pub fn limit(plan: &mut Plan, rng: &mut Rng) -> Option<()> {
    match rng.below(20) {
        0..=2 => return a_deadline_and_no_more(plan, rng),
        3..=9 => return limit_of_0(plan, rng),
        _ => {}
    }
    let (first, last) = joined(plan, rng)?;
    let deadline = wide(plan.deadline(last));
    let taken = taken(plan, first, last);
    let precision = wide(plan.precision);
    let least = taken.iter().copied().max()? + precision;
    let of_first_job = taken[0] + precision;
    let limits = if least > deadline && rng.chance(60) {
        [0; 8]
    } else {
        let without = least - rng.pick(&[precision, 1]);
        let any = of_first_job + rng.pick(&[0, 0, 1]);
        [
            least - 1,
            least - 1,
            least,
            without,
            of_first_job,
            any,
            0,
            1,
        ]
    };
    let limit = rng.pick(&limits);
    put(plan, [first, last, word(limit)], rng)
}

/// A limit of 0 with deadlines for which it matters whose it is and by how
/// much. For that P may become another, where the streams are in the way
/// without them or with one alone. They get an E that is not in the way.
fn limit_of_0(plan: &mut Plan, rng: &mut Rng) -> Option<()> {
    let is_later = rng.chance(50);
    let (first, last) = match rng.below(5) {
        0 | 1 => {
            streams::leave_one(plan, is_later, rng)?;
            (plan.streams[0][0], plan.streams[0][1])
        }
        2 => {
            leave_buffers(plan);
            let [_, first, last, ..] = plan.buffers[any_row(&plan.buffers, rng)?];
            let [lowest, highest] = deadlines::telling_precisions(plan, first, last)?;
            (lowest <= highest).then_some(())?;
            plan.precision = rng.within(word(lowest)..=word(highest));
            (first, last)
        }
        _ => {
            let serves = |&(first, last): &(u32, u32)| {
                let is_telling = !is_later || deadlines::is_later(plan, first, last);
                is_telling && deadlines::can_tell(plan, first, last)
            };
            some_pairs(plan, rng).into_iter().find(serves)?
        }
    };
    plan.streams.iter_mut().for_each(|row| row[2] = 1_000_000);
    deadlines::tell(plan, first, last, rng)?;
    put(plan, [first, last, 0], rng)
}

/// Takes out the streams, and the chains that need them.
fn leave_buffers(plan: &mut Plan) {
    plan.streams.clear();
    plan.frames.clear();
    keep_joined(plan);
}

/// Takes out the chains that no path joins.
pub fn keep_joined(plan: &mut Plan) {
    let reached = reached(plan);
    let joined = |row: &Chain| reached[row[0] as usize][row[1] as usize];
    plan.chains.retain(joined);
}

/// A chain with a limit of 0 that is met exactly, or missed by a tick. For that
/// P becomes what it takes, where the streams are in the way without them.
fn a_deadline_and_no_more(plan: &mut Plan, rng: &mut Rng) -> Option<()> {
    leave_buffers(plan);
    let [_, first, last, ..] = plan.buffers[any_row(&plan.buffers, rng)?];
    let longest = taken(plan, first, last).into_iter().max()?;
    let precision = wide(plan.deadline(last)) - longest + rng.pick(&[0, 1, 1]);
    plan.precision = word(precision);
    put(plan, [first, last, 0], rng)?;
    (0..=10_000).contains(&precision).then_some(())
}

/// Two tasks that a path joins, often ones for which the limit is telling: of
/// which a later job takes longest, or that take longer than the last one's
/// deadline.
fn joined(plan: &Plan, rng: &mut Rng) -> Option<(u32, u32)> {
    if let Some(row) = any_row(&plan.chains, rng).filter(|_| rng.chance(40)) {
        let [first, last, ..] = plan.chains[row];
        return Some((first, last)).filter(|_| reached(plan)[first as usize][last as usize]);
    }
    let pairs = some_pairs(plan, rng);
    let mut some = pairs.iter().copied();
    let telling = match rng.below(3) {
        0 => some.find(|&(first, last)| deadlines::is_later(plan, first, last)),
        1 => some.find(|&(first, last)| !deadlines::bears_0(plan, first, last)),
        _ => None,
    };
    telling.or(pairs.first().copied())
}

/// Some of the pairs of tasks that a path joins, in any order.
fn some_pairs(plan: &Plan, rng: &mut Rng) -> Vec<(u32, u32)> {
    let reached = reached(plan);
    let tasks = 0..plan.tasks.len();
    let pairs = tasks.flat_map(|first| (0..plan.tasks.len()).map(move |last| (first, last)));
    let pairs = pairs.filter(|(first, last)| reached[*first][*last]);
    let mut pairs: Vec<(u32, u32)> = pairs.map(|(a, b)| (a as u32, b as u32)).collect();
    rng.shuffle(&mut pairs);
    pairs.truncate(40);
    pairs
}

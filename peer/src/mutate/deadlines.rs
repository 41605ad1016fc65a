//! Deadlines for which it matters what an E or a limit of 0 stands for. Both
//! are limits from one task's start to another one's end.

use std::ops::RangeInclusive;

use super::{both_spans, job_span, wide, word};
use crate::image::Plan;
use crate::rng::Rng;

/// The ticks from the first task's start to the last one's end, job by job.
pub fn taken(plan: &Plan, first: u32, last: u32) -> Vec<i64> {
    let spans = both_spans(plan, first, last);
    let ticks = spans.map(|[(start, _), (_, end)]| end - start);
    ticks.collect()
}

/// The least limit that every job keeps, if not written as 0.
pub fn least(plan: &Plan, first: u32, last: u32) -> Option<i64> {
    let longest = taken(plan, first, last).into_iter().max()?;
    Some(longest + wide(plan.precision))
}

/// Whether every job keeps a limit of 0.
pub fn bears_0(plan: &Plan, first: u32, last: u32) -> bool {
    let deadline = wide(plan.deadline(last));
    least(plan, first, last).is_some_and(|least| least <= deadline)
}

/// The deadlines that questions 6 and 10 leave a task.
fn room(plan: &Plan, task: u32) -> RangeInclusive<i64> {
    let [_, _, period, budget, ..] = plan.tasks[task as usize].map(wide);
    let jobs = 0..plan.jobs(task).min(2_048);
    let end = |k: u32| job_span(plan, task, k).map(|(_, end)| end - wide(k) * period);
    let ends = jobs.filter_map(end);
    ends.max().unwrap_or(period).max(budget)..=period
}

/// The lowest and the highest P with which the last task's deadline can be such
/// that a limit of 0 is missed by a tick.
pub fn telling_precisions(plan: &Plan, first: u32, last: u32) -> Option<[i64; 2]> {
    let longest = taken(plan, first, last).into_iter().max()?;
    let room = room(plan, last);
    let [lowest, highest] = [room.start(), room.end()].map(|end| end + 1 - longest);
    Some([lowest.max(0), highest.min(10_000)])
}

/// Whether it can be with the plan's own P.
pub fn can_tell(plan: &Plan, first: u32, last: u32) -> bool {
    let precisions = telling_precisions(plan, first, last);
    precisions.is_some_and(|[lowest, highest]| (lowest..=highest).contains(&wide(plan.precision)))
}

/// Whether a later job takes longer than the first.
pub fn is_later(plan: &Plan, first: u32, last: u32) -> bool {
    let taken = taken(plan, first, last);
    taken.iter().any(|ticks| *ticks > taken[0])
}

/// Gives two tasks deadlines with which a limit of 0 is exactly met or missed
/// by a tick, or missed by later jobs only; the first one's is then such that
/// the limit would be missed, or met, if that were it. Or exchanges the two.
pub fn tell(plan: &mut Plan, first: u32, last: u32, rng: &mut Rng) -> Option<()> {
    let [of_first, of_last] = [first, last].map(|task| room(plan, task));
    let [before, after] = [first, last].map(|task| wide(plan.deadline(task)));
    let is_exchange = of_first.contains(&after) && of_last.contains(&before);
    if is_exchange && before != after && rng.chance(30) {
        set(plan, first, after);
        set(plan, last, before);
        return Some(());
    }
    let least = least(plan, first, last)?;
    let of_first_job = taken(plan, first, last)[0] + wide(plan.precision);
    let choice = [least, least - 1, least - 1, of_first_job];
    let deadline = any_in(&of_last, &choice, rng)?;
    set(plan, last, deadline);
    let others = if deadline < least {
        [least, *of_first.end()]
    } else {
        [least - 1, *of_first.start()]
    };
    if let Some(other) = any_in(&of_first, &others, rng) {
        set(plan, first, other);
    }
    Some(())
}

fn set(plan: &mut Plan, task: u32, deadline: i64) {
    plan.tasks[task as usize][4] = word(deadline);
}

/// Any of the deadlines that there is room for.
fn any_in(room: &RangeInclusive<i64>, deadlines: &[i64], rng: &mut Rng) -> Option<i64> {
    let mut deadlines = deadlines.to_vec();
    deadlines.retain(|deadline| room.contains(deadline));
    rng.pick_any(&deadlines)
}

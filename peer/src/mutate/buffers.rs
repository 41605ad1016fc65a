//! Changes aimed at questions 22 to 24.

use super::charges::continues;
use super::cores::window_of;
use super::{any_pair, any_row, any_where, insert, job_span, move_to, wide, word};
use crate::image::{Piece, Plan, BUFFER};
use crate::rng::Rng;

/// Whether two tasks may share a buffer.
fn may_share(plan: &Plan, a: u32, b: u32) -> bool {
    plan.period(a) == plan.period(b) && plan.node_of_task(a) == plan.node_of_task(b)
}

pub fn sides(plan: &mut Plan, rng: &mut Rng) -> Option<()> {
    if rng.chance(40) {
        let apart = |a: usize, b: usize| !may_share(plan, a as u32, b as u32);
        let (writer, reader) = any_pair(plan.tasks.len(), apart, rng)?;
        let row = [rng.within(0..=63), writer as u32, reader as u32];
        return insert(&mut plan.buffers, BUFFER, row, rng);
    }
    let row = any_row(&plan.buffers, rng)?;
    let side = 1 + rng.below(2);
    let kept = plan.buffers[row][3 - side];
    let apart = |task: usize| task as u32 != kept && !may_share(plan, task as u32, kept);
    plan.buffers[row][side] = any_where(plan.tasks.len(), apart, rng)? as u32;
    Some(())
}

pub fn order(plan: &mut Plan, rng: &mut Rng) -> Option<()> {
    match rng.below(4) {
        0 => shift_reader(plan, rng),
        1 => {
            let choosy = rng.chance(80);
            let serves = |a: usize, b: usize| {
                let (a, b) = (a as u32, b as u32);
                may_share(plan, a, b) && (!choosy || only_first_job_waits(plan, a, b))
            };
            let (writer, reader) = any_pair(plan.tasks.len(), serves, rng)?;
            let row = [rng.within(0..=63), writer as u32, reader as u32];
            insert(&mut plan.buffers, BUFFER, row, rng)
        }
        2 => {
            let row = any_row(&plan.buffers, rng)?;
            plan.buffers[row].swap(1, 2);
            Some(())
        }
        _ => {
            let [number, writer, reader, ..] = plan.buffers[any_row(&plan.buffers, rng)?];
            insert(&mut plan.buffers, BUFFER, [number, reader, writer], rng)
        }
    }
}

/// Starts a reader's job on a core of its own a tick before the write ends,
/// or just when it ends; its window opens sooner where it must.
fn shift_reader(plan: &mut Plan, rng: &mut Rng) -> Option<()> {
    let core = |task: u32| plan.core_of_task(task);
    let apart = |row: usize| core(plan.buffers[row][1]) != core(plan.buffers[row][2]);
    let row = any_where(plan.buffers.len(), apart, rng)?;
    let [_, writer, reader, ..] = plan.buffers[row];
    let wait = |k: &u32| {
        let read = job_span(plan, reader, *k).map_or(i64::MAX, |span| span.0);
        read - job_span(plan, writer, *k).map_or(0, |span| span.1)
    };
    let k = (0..plan.jobs(writer).min(64)).min_by_key(wait)?;
    let (_, written) = job_span(plan, writer, k)?;
    let (read, _) = job_span(plan, reader, k)?;
    let is_first = |piece: &Piece| piece[..2] == [reader, k] && wide(piece[2]) == read;
    let first = plan.pieces.iter().position(is_first)?;
    let start = written - rng.pick(&[0, 1, 1, 1]);
    if let Some(window) = window_of(plan, first) {
        let [vcpu, opens, open, ..] = plan.windows[window].map(wide);
        let least = start - wide(plan.vcpu_switch(vcpu as u32));
        if opens > start || opens > least && !continues(plan, window) {
            move_to(&mut plan.windows[window], least, opens + open - least);
        }
    }
    plan.pieces[first][2] = word(start);
    Some(())
}

/// Whether a reader waits for its writer in job 0, but not in all.
fn only_first_job_waits(plan: &Plan, writer: u32, reader: u32) -> bool {
    let waits = |k: u32| {
        let written = job_span(plan, writer, k).map(|span| span.1);
        let read = job_span(plan, reader, k).map(|span| span.0);
        written <= read
    };
    waits(0) && !(0..plan.jobs(writer).min(64)).all(waits)
}

pub fn hold_clash(plan: &mut Plan, rng: &mut Rng) -> Option<()> {
    let rows = plan.buffers.len();
    let node = |row: usize| plan.node_of_task(plan.buffers[row][1]);
    let period = |row: usize| plan.period(plan.buffers[row][1]);
    let near = |a: usize, b: usize| node(a) == node(b);
    let pair = if rng.chance(50) {
        any_pair(rows, |a, b| near(a, b) && period(a) != period(b), rng)
    } else {
        None
    };
    match pair.or_else(|| any_pair(rows, near, rng)) {
        Some((a, b)) if rng.chance(80) => {
            plan.buffers[a][0] = plan.buffers[b][0];
            Some(())
        }
        _ => {
            let second = plan.buffers[any_row(&plan.buffers, rng)?];
            insert(&mut plan.buffers, BUFFER, second, rng)
        }
    }
}

//! Changes aimed at questions 4 to 13.

use super::charges::{early_piece, short_window};
use super::{any_pair, any_row, any_where, insert, job_span, move_to, set, wide, word};
use crate::image::{row_of, Plan, PIECE, TASK, WINDOW};
use crate::rng::Rng;

pub fn limits(plan: &mut Plan, rng: &mut Rng) -> Option<()> {
    if rng.chance(50) {
        plan.cycle = rng.pick(&[0, 1_000_001, 1 << 31, u32::MAX]);
    } else {
        plan.precision = rng.pick(&[10_000, 10_001, 1 << 31, u32::MAX]);
    }
    Some(())
}

pub fn row_number(plan: &mut Plan, rng: &mut Rng) -> Option<()> {
    let [cores, vcpus, tasks, _, _, links, streams, ..] = plan.counts();
    let mut beyond = |rows: usize| {
        let rows = rows as u32;
        let more = rows + rng.word() % 8;
        let numbers = [rows, rows, rows + 1, more, 1 << 31, u32::MAX];
        rng.pick(&numbers)
    };
    let [core, vcpu, task, link, stream] = [cores, vcpus, tasks, links, streams].map(&mut beyond);
    match rng.below(10) {
        0 => set(&mut plan.vcpus, 0, core, rng),
        1 => set(&mut plan.tasks, 0, vcpu, rng),
        2 => set(&mut plan.windows, 0, vcpu, rng),
        3 => set(&mut plan.pieces, 0, task, rng),
        4 => set(&mut plan.streams, 0, task, rng),
        5 => set(&mut plan.streams, 1, task, rng),
        6 => set(&mut plan.frames, 0, stream, rng),
        7 => set(&mut plan.frames, 3, link, rng),
        8 => set(&mut plan.buffers, 1, task, rng),
        _ => set(&mut plan.buffers, 2, task, rng),
    }
}

pub fn range(plan: &mut Plan, rng: &mut Rng) -> Option<()> {
    match rng.below(6) {
        0 => core_range(plan, rng),
        1 => task_range(plan, rng),
        2 | 3 => link_range(plan, rng),
        4 => stream_range(plan, rng),
        _ => buffer_range(plan, rng),
    }
}

fn core_range(plan: &mut Plan, rng: &mut Rng) -> Option<()> {
    match rng.below(3) {
        0 => set(&mut plan.cores, 0, rng.pick(&[16, u32::MAX]), rng),
        1 => set(&mut plan.cores, 1, rng.pick(&[1_001, u32::MAX]), rng),
        _ => set(&mut plan.cores, 2, rng.pick(&[1_001, u32::MAX]), rng),
    }
}

fn task_range(plan: &mut Plan, rng: &mut Rng) -> Option<()> {
    let row = any_row(&plan.tasks, rng)?;
    let [_, _, period, budget, deadline, ..] = plan.tasks[row];
    let (column, value) = match rng.below(7) {
        0 => (2, 0),
        1 => (2, period.wrapping_add(1)),
        2 => (
            2,
            rng.pick(&[plan.cycle.wrapping_mul(2), 1 << 31, u32::MAX]),
        ),
        3 => (3, 0),
        4 => (3, deadline.wrapping_add(1)),
        5 => (4, period.wrapping_add(1)),
        _ => (4, budget.wrapping_sub(1)),
    };
    plan.tasks[row][column] = value;
    Some(())
}

fn link_range(plan: &mut Plan, rng: &mut Rng) -> Option<()> {
    let row = any_row(&plan.links, rng)?;
    let [from, _, delay, _, lowest, ..] = plan.links[row];
    let above = delay.wrapping_add(1);
    let (column, value) = match rng.below(9) {
        0 => (0, rng.pick(&[16, u32::MAX])),
        1 => (1, rng.pick(&[16, u32::MAX])),
        2 => (1, from),
        3 => (2, rng.pick(&[1_000_001, u32::MAX])),
        4 => (2, lowest.wrapping_sub(1)),
        5 | 6 => (3, rng.pick(&[0, 0, 10_001, 10_001, 1 << 31, u32::MAX])),
        _ => (4, rng.pick(&[above, above, above, 1_000_000, 1 << 31])),
    };
    plan.links[row][column] = value;
    Some(())
}

fn stream_range(plan: &mut Plan, rng: &mut Rng) -> Option<()> {
    let row = any_row(&plan.streams, rng)?;
    let sender = plan.streams[row][0];
    let (column, value) = match rng.below(5) {
        0 => (1, sender),
        1 => (2, rng.pick(&[1_000_001, 1 << 31, u32::MAX])),
        2 => (3, rng.pick(&[0, 9, (1 << 30) + 1, u32::MAX])),
        _ => (4, rng.pick(&[45, 45, 1_501, 1_501, 0, 1 << 29, u32::MAX])),
    };
    plan.streams[row][column] = value;
    Some(())
}

fn buffer_range(plan: &mut Plan, rng: &mut Rng) -> Option<()> {
    let row = any_row(&plan.buffers, rng)?;
    if rng.chance(50) {
        plan.buffers[row][0] = rng.pick(&[64, 1 << 31, u32::MAX]);
    } else {
        plan.buffers[row][2] = plan.buffers[row][1];
    }
    Some(())
}

pub fn window_bounds(plan: &mut Plan, rng: &mut Rng) -> Option<()> {
    if rng.chance(50) {
        return short_window(plan, rng);
    }
    let row = any_row(&plan.windows, rng)?;
    let [vcpu, start, length, ..] = plan.windows[row];
    let v = plan.vcpu_switch(vcpu);
    let (start, length) = match rng.below(6) {
        0 => (start, v),
        1 => (start, 0),
        2 => (word(wide(plan.cycle) - wide(length) + 1), length),
        3 => (start, word(wide(plan.cycle) - wide(start) + 1)),
        4 => (0_u32.wrapping_sub(length), length),
        _ => (
            start,
            rng.pick(&[u32::MAX, 1 << 31, 0_u32.wrapping_sub(start)]),
        ),
    };
    (plan.windows[row][1], plan.windows[row][2]) = (start, length);
    Some(())
}

pub fn window_clash(plan: &mut Plan, rng: &mut Rng) -> Option<()> {
    if rng.chance(20) {
        let row = any_row(&plan.windows, rng)?;
        let window = plan.windows[row];
        return insert(&mut plan.windows, WINDOW, window, rng);
    }
    let core = |row: usize| plan.core_of_vcpu(plan.windows[row][0]);
    let one_core = |a: usize, b: usize| core(a) == core(b);
    let (a, b) = any_pair(plan.windows.len(), one_core, rng)?;
    let [_, start, length, ..] = plan.windows[a].map(wide);
    let [_, other_start, other_length, ..] = plan.windows[b].map(wide);
    let over = rng.pick(&[0, 1, 1, 1, 2]);
    let (start, length) = match rng.below(4) {
        0 => (0, wide(plan.cycle)),
        1 => (other_start, length),
        _ if start < other_start => (start, other_start + over - start),
        _ => {
            let begin = other_start + other_length - over;
            (begin, start + length - begin)
        }
    };
    move_to(&mut plan.windows[a], start, length);
    Some(())
}

pub fn mask(plan: &mut Plan, rng: &mut Rng) -> Option<()> {
    let row = any_row(&plan.tasks, rng)?;
    let bit = 1 << (plan.core_of_task(row as u32) % 32);
    let mask = plan.tasks[row][1];
    let masks = [
        mask & !bit,
        !bit,
        0,
        bit.rotate_left(1),
        bit.rotate_right(1),
    ];
    plan.tasks[row][1] = rng.pick(&masks);
    Some(())
}

pub fn piece_in_job(plan: &mut Plan, rng: &mut Rng) -> Option<()> {
    let row = any_row(&plan.pieces, rng)?;
    let [task, k, start, length, ..] = plan.pieces[row];
    let [_, _, period, budget, deadline, ..] = plan.tasks[task as usize];
    let release = wide(k) * wide(period);
    let jobs = plan.jobs(task);
    let piece = &mut plan.pieces[row];
    match rng.below(10) {
        0 => piece[1] = jobs,
        9 => {
            // The same place in the first job after the cycle.
            piece[1] = jobs;
            piece[2] = word(wide(start) - release + wide(jobs) * wide(period));
        }
        1 => piece[1] = rng.pick(&[k ^ 1, 1 << 31, u32::MAX, 0_u32.wrapping_sub(k)]),
        2 => piece[3] = 0,
        3 => {
            piece[3] = plan.cores[plan.vcpus[plan.tasks[task as usize][0] as usize][0] as usize][1]
        }
        4 => piece[2] = word(release - 1),
        5 => piece[2] = word(release + wide(deadline) - wide(length) + 1),
        6 => piece[2] = rng.pick(&[u32::MAX, 0_u32.wrapping_sub(length), 1 << 31]),
        7 => piece[3] = rng.pick(&[u32::MAX, 0_u32.wrapping_sub(start), 1 << 31]),
        _ => {
            let (_, end) = job_span(plan, task, k)?;
            let shorter = end - release - rng.pick(&[0, 1]);
            plan.tasks[task as usize][4] = word(shorter.max(wide(budget)));
        }
    }
    Some(())
}

/// The window that holds a piece.
pub fn window_of(plan: &Plan, piece: usize) -> Option<usize> {
    let [task, _, start, length, ..] = plan.pieces[piece];
    let vcpu = plan.tasks[task as usize][0];
    plan.windows.iter().position(|&[owner, opens, open, ..]| {
        let ends = wide(start) + wide(length) <= wide(opens) + wide(open);
        owner == vcpu && opens <= start && ends
    })
}

pub fn piece_in_window(plan: &mut Plan, rng: &mut Rng) -> Option<()> {
    if rng.chance(50) {
        return early_piece(plan, rng);
    }
    let row = any_row(&plan.pieces, rng)?;
    let window = window_of(plan, row)?;
    let [task, _, start, length, ..] = plan.pieces[row].map(wide);
    let [vcpu, opens, open, ..] = plan.windows[window].map(wide);
    let core = plan.core_of_vcpu(vcpu as u32);
    let v = wide(plan.cores[core as usize][2]);
    let closes = opens + open;
    match rng.below(7) {
        0 => {
            let later = start - v + rng.pick(&[0, 1, 1]);
            move_to(&mut plan.windows[window], later, closes - later);
        }
        1 => {
            let sooner = start + length - rng.pick(&[0, 1, 1]);
            plan.windows[window][2] = word(sooner - opens);
        }
        2 => {
            let on_core = |other: usize| plan.vcpus[other][0] == core && other != vcpu as usize;
            let other = any_where(plan.vcpus.len(), on_core, rng)?;
            plan.windows[window][0] = other as u32;
        }
        3 => {
            let cut = start + rng.below(length as usize) as i64;
            plan.windows[window][2] = word(cut - opens);
            let rest = [vcpu, cut, closes - cut].map(word);
            insert(&mut plan.windows, WINDOW, rest, rng)?;
        }
        4 => plan.pieces[row][2] = word(opens + v - 1),
        5 => {
            plan.windows.remove(window);
        }
        _ => {
            let on_core = |other: usize| plan.vcpus[other][0] == core;
            let other = any_where(plan.vcpus.len(), on_core, rng)?;
            plan.tasks[task as usize][0] = other as u32;
        }
    }
    Some(())
}

pub fn piece_clash(plan: &mut Plan, rng: &mut Rng) -> Option<()> {
    let row = any_row(&plan.pieces, rng)?;
    if rng.chance(30) {
        let piece = plan.pieces[row];
        return insert(&mut plan.pieces, PIECE, piece, rng);
    }
    if rng.chance(20) {
        let length = plan.pieces[row][3];
        plan.pieces[row][3] = length.wrapping_add(rng.within(1..=3));
        return Some(());
    }
    if rng.chance(30) && reach_over(plan, rng).is_some() {
        return Some(());
    }
    let [task, k, _, length, ..] = plan.pieces[row].map(wide);
    let [vcpu, _, period, _, deadline, ..] = plan.tasks[task as usize];
    let release = k * wide(period);
    let room = (release, release + wide(deadline) - length);
    let other_jobs = rng.chance(50);
    let serves = |other: usize| {
        let [other_task, other_k, ..] = plan.pieces[other];
        let one_vcpu = plan.tasks[other_task as usize][0] == vcpu;
        let differs = !other_jobs || wide(other_k) != k;
        other != row && one_vcpu && differs && clash_starts(plan, other, length, room).is_some()
    };
    let other = any_where(plan.pieces.len(), serves, rng)?;
    let (first, last) = clash_starts(plan, other, length, room)?;
    let any = first + rng.below((last - first) as usize + 1) as i64;
    plan.pieces[row][2] = word(rng.pick(&[first, first - 1, last, last + 1, any]));
    Some(())
}

/// Makes a piece reach into the next one in its window, or just up to it, over
/// rows of other cores between the two.
fn reach_over(plan: &mut Plan, rng: &mut Rng) -> Option<()> {
    let next = |row: usize| {
        let window = window_of(plan, row)?;
        (row + 1..plan.pieces.len()).find(|other| window_of(plan, *other) == Some(window))
    };
    let due = |row: usize| {
        let [task, k, ..] = plan.pieces[row].map(wide);
        let [_, _, period, _, deadline, ..] = plan.tasks[task as usize].map(wide);
        k * period + deadline
    };
    let serves = |row: usize| {
        let start = |other: usize| wide(plan.pieces[other][2]);
        next(row).is_some_and(|other| other > row + 1 && start(other) < due(row))
    };
    let row = any_where(plan.pieces.len().min(300), serves, rng)?;
    let [_, _, start, ..] = plan.pieces[row];
    let reached = plan.pieces[next(row)?][2] + rng.pick(&[0, 1, 1, 1]);
    plan.pieces[row][3] = reached.wrapping_sub(start);
    Some(())
}

/// The first and last start in some room of a piece that overlaps another.
fn clash_starts(plan: &Plan, other: usize, length: i64, room: (i64, i64)) -> Option<(i64, i64)> {
    let [_, _, start, other_length, ..] = plan.pieces[other].map(wide);
    let first = room.0.max(start - length + 1);
    let last = room.1.min(start + other_length - 1);
    (first <= last).then_some((first, last))
}

pub fn budget(plan: &mut Plan, rng: &mut Rng) -> Option<()> {
    match rng.below(7) {
        0 => plan.pieces.remove(any_row(&plan.pieces, rng)?)[3],
        1 => {
            let row = any_row(&plan.pieces, rng)?;
            plan.pieces[row][3] = plan.pieces[row][3].wrapping_sub(1);
            0
        }
        2 => {
            let vcpu = any_row(&plan.vcpus, rng)? as u32;
            let mask = 1 << (plan.core_of_vcpu(vcpu) % 32);
            let idle = [vcpu, mask, 1, 1, 1];
            return insert_task(plan, idle, rng);
        }
        3 => return many_jobs(plan, rng),
        4 => return trade_pieces(plan, rng),
        _ => {
            let row = any_row(&plan.tasks, rng)?;
            let [_, _, _, budget, deadline, ..] = plan.tasks[row];
            let other = if rng.chance(50) && budget < deadline {
                budget + 1
            } else {
                budget.wrapping_sub(1)
            };
            plan.tasks[row][3] = other;
            0
        }
    };
    Some(())
}

/// Appends a task, so that the rows that name tasks stay right.
fn insert_task<const N: usize>(plan: &mut Plan, words: [u32; N], rng: &mut Rng) -> Option<()> {
    let mut last = Vec::new();
    insert(&mut last, TASK, words, rng)?;
    plan.tasks.extend(last);
    (plan.tasks.len() <= 256).then_some(())
}

/// Up to 256 tasks with a million jobs each, and hardly a piece.
fn many_jobs(plan: &mut Plan, rng: &mut Rng) -> Option<()> {
    if !rng.chance(20) {
        return None;
    }
    let [_, d, v, ..] = plan.cores[0];
    let length = d + 1;
    *plan = Plan {
        cycle: 1_000_000,
        precision: plan.precision,
        cores: vec![row_of([0, d, v])],
        vcpus: vec![row_of([0])],
        tasks: vec![row_of([0, 1, length, 1, length]); 256],
        windows: vec![row_of([0, 0, 1_000_000])],
        ..Plan::default()
    };
    while !plan.cycle.is_multiple_of(length) {
        plan.cycle -= 1;
    }
    plan.windows[0][2] = plan.cycle;
    for k in v.div_ceil(length)..rng.within(0..=2_000) {
        let piece = [rng.within(0..=1), k, k * length, length];
        plan.pieces.push(row_of(piece));
    }
    Some(())
}

/// Two jobs of one task trade a tick of work.
fn trade_pieces(plan: &mut Plan, rng: &mut Rng) -> Option<()> {
    let rows = &plan.pieces;
    let one_task = |a: usize, b: usize| rows[a][0] == rows[b][0] && rows[a][1] != rows[b][1];
    let (a, b) = any_pair(rows.len(), one_task, rng)?;
    plan.pieces[a][3] = plan.pieces[a][3].wrapping_sub(1);
    plan.pieces[b][3] = plan.pieces[b][3].wrapping_add(1);
    Some(())
}

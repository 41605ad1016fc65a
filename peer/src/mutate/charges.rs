//! Changes aimed at questions 7 and 11 about what a window pays for the
//! switch to its VCPU.

use super::{any_where, insert, wide, word};
use crate::image::{row_of, Plan, Window, ROW_BOUNDS, VCPU, WINDOW};
use crate::rng::Rng;

fn switch(plan: &Plan, window: usize) -> i64 {
    wide(plan.vcpu_switch(plan.windows[window][0]))
}

fn end(plan: &Plan, window: usize) -> i64 {
    wide(plan.windows[window][1]) + wide(plan.windows[window][2])
}

/// Another window of the VCPU that ends where this one begins.
fn predecessor(plan: &Plan, window: usize) -> Option<usize> {
    let [vcpu, start, ..] = plan.windows[window];
    let is_it = |other: &usize| {
        let owned = plan.windows[*other][0] == vcpu;
        *other != window && owned && end(plan, *other) == wide(start)
    };
    (0..plan.windows.len()).find(is_it)
}

/// Whether a window pays nothing.
pub fn continues(plan: &Plan, window: usize) -> bool {
    plan.windows[window][1] > 0 && predecessor(plan, window).is_some()
}

/// The pieces that lie in a window, in the order of time.
fn pieces_in(plan: &Plan, window: usize) -> Vec<usize> {
    let [vcpu, start, ..] = plan.windows[window];
    let is_inside = |piece: &usize| {
        let [task, _, begin, length, ..] = plan.pieces[*piece];
        let owned = plan.tasks[task as usize][0] == vcpu;
        owned && start <= begin && wide(begin) + wide(length) <= end(plan, window)
    };
    let mut pieces: Vec<usize> = (0..plan.pieces.len()).filter(is_inside).collect();
    pieces.sort_by_key(|piece| plan.pieces[*piece][2]);
    pieces
}

/// The ticks of a window after its last piece.
fn tail(plan: &Plan, window: usize) -> i64 {
    let last = pieces_in(plan, window).pop();
    let free = last.map_or(
        wide(plan.windows[window][1]) + switch(plan, window),
        |piece| wide(plan.pieces[piece][2]) + wide(plan.pieces[piece][3]),
    );
    end(plan, window) - free
}

/// Another VCPU of the core, a new one where there is none.
fn other_vcpu(plan: &mut Plan, vcpu: u32, rng: &mut Rng) -> Option<u32> {
    let core = plan.core_of_vcpu(vcpu);
    let on_core = |other: usize| plan.vcpus[other][0] == core && other != vcpu as usize;
    let rows = plan.vcpus.len();
    if let Some(other) = any_where(rows, on_core, rng) {
        return Some(other as u32);
    }
    plan.vcpus.push(row_of([core]));
    (rows < ROW_BOUNDS[VCPU as usize - 1].1 as usize).then_some(rows as u32)
}

/// A window that pays and is no longer than its switch, or one that is as
/// short and pays nothing.
pub fn short_window(plan: &mut Plan, rng: &mut Rng) -> Option<()> {
    match rng.below(10) {
        0 | 1 => cut_tail(plan, rng),
        2 => short_at_tick_0(plan, rng),
        3 => cut_at_tick_0(plan, rng),
        4 | 5 => empty_before(plan, rng),
        6 | 7 => wrapped_before(plan, rng),
        _ => part_from_predecessor(plan, rng),
    }
}

/// The last ticks of a window, no more than v, as a window of their own. It
/// pays if it is another VCPU's, or if it does not adjoin.
fn cut_tail(plan: &mut Plan, rng: &mut Rng) -> Option<()> {
    let exact = |row: usize| {
        let v = switch(plan, row);
        v > 0 && tail(plan, row) >= v && wide(plan.windows[row][2]) > 2 * v
    };
    let any = |row: usize| switch(plan, row) > 0 && wide(plan.windows[row][2]) > switch(plan, row);
    let rows = plan.windows.len();
    let row = any_where(rows, exact, rng).or_else(|| any_where(rows, any, rng))?;
    let [vcpu, _, length, ..] = plan.windows[row];
    let v = plan.vcpu_switch(vcpu);
    let short = rng.pick(&[v, v, v, 1, v + 1]).min(length - 1);
    let start = word(end(plan, row) - wide(short));
    let kept = length - short;
    let (owner, kept) = match rng.below(4) {
        0 => (other_vcpu(plan, vcpu, rng)?, kept),
        1 => (vcpu, kept - 1),
        _ => (vcpu, kept),
    };
    plan.windows[row][2] = kept;
    insert(&mut plan.windows, WINDOW, [owner, start, short], rng)
}

/// The last window on a core of a VCPU whose switch takes time, made to end
/// with the cycle.
fn window_at_end(plan: &mut Plan, rng: &mut Rng) -> Option<usize> {
    let is_last = |row: usize| {
        let core = |row: usize| plan.core_of_vcpu(plan.windows[row][0]);
        let mut others = (0..plan.windows.len()).filter(|other| core(*other) == core(row));
        switch(plan, row) > 0 && others.all(|other| end(plan, other) <= end(plan, row))
    };
    let row = any_where(plan.windows.len(), is_last, rng)?;
    plan.windows[row][2] = word(wide(plan.cycle) - wide(plan.windows[row][1]));
    Some(row)
}

/// A window at tick 0 with at most v ticks before the first one of its core,
/// while another of its VCPU ends with the cycle.
fn short_at_tick_0(plan: &mut Plan, rng: &mut Rng) -> Option<()> {
    let row = window_at_end(plan, rng)?;
    let vcpu = plan.windows[row][0];
    let core = plan.core_of_vcpu(vcpu);
    let on_core = |window: &&Window| plan.core_of_vcpu(window[0]) == core;
    let starts = plan.windows.iter().filter(on_core).map(|window| window[1]);
    let free = starts.min()?;
    let short = plan.vcpu_switch(vcpu).min(free);
    if short == 0 {
        return None;
    }
    insert(&mut plan.windows, WINDOW, [vcpu, 0, short], rng)
}

/// A window at tick 0 is cut after v ticks, or one more; its VCPU's last one
/// ends with the cycle.
fn cut_at_tick_0(plan: &mut Plan, rng: &mut Rng) -> Option<()> {
    let row = window_at_end(plan, rng)?;
    let vcpu = plan.windows[row][0];
    let v = plan.vcpu_switch(vcpu);
    let first = rng.pick(&[v, v, v + 1]);
    let serves = |row: usize| {
        let [owner, start, length, ..] = plan.windows[row];
        plan.core_of_vcpu(owner) == plan.core_of_vcpu(vcpu) && start == 0 && length > first
    };
    let row = any_where(plan.windows.len(), serves, rng)?;
    let [owner, _, length, ..] = plan.windows[row];
    plan.windows[row][2] = first;
    insert(
        &mut plan.windows,
        WINDOW,
        [owner, first, length - first],
        rng,
    )
}

/// A window of at most v ticks, at tick 0 or later, that begins where one or
/// two empty ones do.
fn empty_before(plan: &mut Plan, rng: &mut Rng) -> Option<()> {
    let at_0 = rng.chance(50);
    let serves = |row: usize| switch(plan, row) > 0 && (plan.windows[row][1] == 0) == at_0;
    let row = any_where(plan.windows.len(), serves, rng)?;
    let [vcpu, start, ..] = plan.windows[row];
    let least = u32::from(rng.chance(80));
    plan.windows[row][2] = rng.within(least..=plan.vcpu_switch(vcpu));
    for _ in 0..rng.within(1..=2) {
        insert(&mut plan.windows, WINDOW, [vcpu, start, 0], rng)?;
    }
    Some(())
}

/// A window of at most v ticks, and a later one that ends at its start modulo
/// 2^32.
fn wrapped_before(plan: &mut Plan, rng: &mut Rng) -> Option<()> {
    let row = any_where(plan.windows.len(), |row| switch(plan, row) > 0, rng)?;
    let [vcpu, start, ..] = plan.windows[row];
    plan.windows[row][2] = rng.within(1..=plan.vcpu_switch(vcpu));
    let later = start + rng.within(1..=9);
    let length = start.wrapping_sub(later);
    insert(&mut plan.windows, WINDOW, [vcpu, later, length], rng)
}

/// A window that continues and could not pay, where there is one, and its
/// predecessor made another VCPU's or ending elsewhere.
fn part_from_predecessor(plan: &mut Plan, rng: &mut Rng) -> Option<()> {
    let is_short =
        |row: usize| continues(plan, row) && wide(plan.windows[row][2]) <= switch(plan, row);
    let row = any_where(plan.windows.len(), is_short, rng)?;
    leave(plan, row, rng)
}

/// Makes a window that continues pay, or leaves it a second predecessor.
fn leave(plan: &mut Plan, row: usize, rng: &mut Rng) -> Option<()> {
    let before = predecessor(plan, row)?;
    let [vcpu, start, length, ..] = plan.windows[before];
    match rng.below(5) {
        0 => plan.windows[before][0] = other_vcpu(plan, vcpu, rng)?,
        1 => plan.windows[before][2] = length.saturating_sub(1),
        2 => plan.windows[before][1] = start.saturating_sub(1),
        3 if length > 1 => {
            // The last tick before it is another VCPU's.
            let last = [other_vcpu(plan, vcpu, rng)?, start + length - 1, 1];
            plan.windows[before][2] = length - 1;
            insert(&mut plan.windows, WINDOW, last, rng)?;
        }
        _ => {
            plan.windows.remove(before);
        }
    }
    Some(())
}

/// A piece in the first v ticks of a window that pays, or of one that does
/// not.
pub fn early_piece(plan: &mut Plan, rng: &mut Rng) -> Option<()> {
    match rng.below(4) {
        0 => piece_at_first_tick(plan, rng),
        1 => piece_at_tick_0(plan, rng),
        2 => {
            let is_early = |row: usize| {
                let first = pieces_in(plan, row).first().copied();
                let start = wide(plan.windows[row][1]) + switch(plan, row);
                let early = first.is_some_and(|piece| wide(plan.pieces[piece][2]) < start);
                early && continues(plan, row)
            };
            let row = any_where(plan.windows.len(), is_early, rng)?;
            leave(plan, row, rng)
        }
        _ => cut_before_piece(plan, rng),
    }
}

/// The first piece of a window moves to its very first tick.
fn piece_at_first_tick(plan: &mut Plan, rng: &mut Rng) -> Option<()> {
    let serves = |row: usize| switch(plan, row) > 0 && !pieces_in(plan, row).is_empty();
    let row = any_where(plan.windows.len(), serves, rng)?;
    let piece = pieces_in(plan, row)[0];
    plan.pieces[piece][2] = plan.windows[row][1];
    Some(())
}

/// The same, or a tick before the switch is over, in a window at tick 0 while
/// another of its VCPU ends with the cycle.
fn piece_at_tick_0(plan: &mut Plan, rng: &mut Rng) -> Option<()> {
    let last = window_at_end(plan, rng)?;
    let vcpu = plan.windows[last][0];
    let serves = |row: usize| {
        let [owner, start, ..] = plan.windows[row];
        owner == vcpu && start == 0 && !pieces_in(plan, row).is_empty()
    };
    let row = any_where(plan.windows.len(), serves, rng)?;
    let piece = pieces_in(plan, row)[0];
    let v = plan.vcpu_switch(vcpu);
    plan.pieces[piece][2] = rng.pick(&[0, v - 1, v]);
    Some(())
}

/// A window is cut where a piece begins, or right before, and its first part
/// may become another VCPU's or end a tick sooner.
fn cut_before_piece(plan: &mut Plan, rng: &mut Rng) -> Option<()> {
    let serves = |row: usize| {
        let first = pieces_in(plan, row).first().copied();
        let least = wide(plan.windows[row][1]) + switch(plan, row);
        switch(plan, row) > 0 && first.is_some_and(|piece| wide(plan.pieces[piece][2]) > least)
    };
    let row = any_where(plan.windows.len(), serves, rng)?;
    let [vcpu, start, length, ..] = plan.windows[row];
    let piece = plan.pieces[pieces_in(plan, row)[0]][2];
    let least = start + plan.vcpu_switch(vcpu) + 1;
    let cut = rng.pick(&[piece, piece, piece - 1]).max(least);
    let (owner, open) = match rng.below(3) {
        0 => (other_vcpu(plan, vcpu, rng)?, cut - start),
        1 => (vcpu, cut - start - 1),
        _ => (vcpu, cut - start),
    };
    (plan.windows[row][0], plan.windows[row][2]) = (owner, open);
    // The piece lies in the window, and so the cut does.
    let rest = [vcpu, cut, start + length - cut];
    insert(&mut plan.windows, WINDOW, rest, rng)
}

//! Windows laid around the pieces of a plan.

use crate::image::{row_of, Piece, Plan, Window, ROW_BOUNDS, WINDOW};
use crate::rng::Rng;

/// A window, or a stretch of pieces that is to become one.
#[derive(Clone, Copy, Debug)]
struct Stretch {
    vcpu: u32,
    from: u32,
    to: u32,
}

/// Free ticks of a core.
#[derive(Clone, Copy, Debug)]
struct Gap {
    core: u32,
    from: u32,
    to: u32,
    /// The VCPU of the window that ends where the gap begins.
    before: Option<u32>,
}

/// What becomes of neighbouring pieces of one VCPU, so often of 100.
#[derive(Clone, Copy)]
struct Habits {
    /// A window of its own for the later one, right behind the other's.
    adjoining: usize,
    /// Else one window for both, where they may have two.
    together: usize,
}

/// Windows that hold all pieces, with spare ones in the gaps between. There
/// are as many as wanted, or else any number in bounds.
pub fn lay_windows(plan: &Plan, wanted: Option<usize>, rng: &mut Rng) -> Option<Vec<Window>> {
    let habits = Habits {
        adjoining: rng.pick(&[0, 20, 60]),
        together: rng.pick(&[30, 60, 90]),
    };
    let fewer = Habits {
        adjoining: 0,
        ..habits
    };
    try_lay(plan, wanted, habits, rng).or_else(|| try_lay(plan, wanted, fewer, rng))
}

fn try_lay(
    plan: &Plan,
    wanted: Option<usize>,
    habits: Habits,
    rng: &mut Rng,
) -> Option<Vec<Window>> {
    let most = ROW_BOUNDS[WINDOW as usize - 1].1 as usize;
    let mut windows = Vec::new();
    let mut gaps = Vec::new();
    for core in 0..plan.cores.len() as u32 {
        let mut on_core = stretches(plan, core, habits, rng);
        gaps.extend(widen(&mut on_core, plan.cycle, core, rng));
        windows.extend(on_core);
    }
    let spare = match wanted {
        Some(wanted) => wanted.checked_sub(windows.len())?,
        None if windows.len() > most => return None,
        None => rng.below(1 + gaps.len().min(most - windows.len())),
    };
    let added = fill_gaps(plan, gaps, spare, &mut windows, rng);
    let words = |window: &Stretch| row_of([window.vcpu, window.from, window.to - window.from]);
    (wanted.is_none() || added == spare).then(|| windows.iter().map(words).collect())
}

/// The pieces of a core with the VCPU switch before them, where there is one.
fn stretches(plan: &Plan, core: u32, habits: Habits, rng: &mut Rng) -> Vec<Stretch> {
    let v = plan.cores[core as usize][2];
    let mut stretches: Vec<Stretch> = Vec::new();
    for piece in pieces_on(plan, core) {
        let last = stretches.last_mut();
        let from = match last.filter(|last| last.vcpu == piece.vcpu) {
            Some(last) if rng.chance(habits.adjoining) => {
                last.to = widened(last.to, piece.from, rng);
                last.to
            }
            Some(last) if piece.from < last.to + v || rng.chance(habits.together) => {
                last.to = piece.to;
                continue;
            }
            _ => piece.from - v,
        };
        stretches.push(Stretch { from, ..piece });
    }
    stretches
}

fn pieces_on(plan: &Plan, core: u32) -> Vec<Stretch> {
    let on_core = |&[task, _, start, length, ..]: &Piece| {
        (plan.core_of_task(task) == core).then_some(Stretch {
            vcpu: plan.tasks[task as usize][0],
            from: start,
            to: start + length,
        })
    };
    let mut pieces: Vec<Stretch> = plan.pieces.iter().filter_map(on_core).collect();
    pieces.sort_unstable_by_key(|piece| piece.from);
    pieces
}

/// Widens windows into the gaps around them and gives what stays free.
fn widen(windows: &mut [Stretch], cycle: u32, core: u32, rng: &mut Rng) -> Vec<Gap> {
    let mut gaps = Vec::new();
    let mut free_from = 0;
    for next in 0..=windows.len() {
        let mut gap = Gap {
            core,
            from: free_from,
            to: windows.get(next).map_or(cycle, |window| window.from),
            before: None,
        };
        if let Some(before) = next.checked_sub(1) {
            gap.from = widened(gap.from, gap.to, rng);
            windows[before].to = gap.from;
            gap.before = Some(windows[before].vcpu);
        }
        if next < windows.len() {
            gap.to -= widened(0, gap.to - gap.from, rng);
            windows[next].from = gap.to;
            free_from = windows[next].to;
        }
        gaps.push(gap);
    }
    gaps
}

/// A tick from `from` to `to`, often one of both.
fn widened(from: u32, to: u32, rng: &mut Rng) -> u32 {
    match rng.below(5) {
        0 | 1 => from,
        2 => to,
        _ => rng.within(from..=to),
    }
}

/// Adds up to so many windows without pieces and gives how many it were.
fn fill_gaps(
    plan: &Plan,
    mut gaps: Vec<Gap>,
    spare: usize,
    windows: &mut Vec<Stretch>,
    rng: &mut Rng,
) -> usize {
    rng.shuffle(&mut gaps);
    let mut added = 0;
    while added < spare {
        let Some(gap) = gaps.pop() else { break };
        let on_core = |vcpu: &u32| plan.core_of_vcpu(*vcpu) == gap.core;
        let owners: Vec<u32> = (0..plan.vcpus.len() as u32).filter(on_core).collect();
        let any = rng.pick_any(&owners);
        let owner = if rng.chance(40) {
            gap.before.or(any)
        } else {
            any
        };
        let v = plan.cores[gap.core as usize][2];
        let Some(window) = owner.and_then(|owner| window_in(gap, v, owner, rng)) else {
            continue;
        };
        windows.push(window);
        added += 1;
        gaps.push(Gap {
            to: window.from,
            ..gap
        });
        gaps.push(Gap {
            from: window.to,
            before: Some(window.vcpu),
            ..gap
        });
        let last = gaps.len() - 1;
        gaps.swap(rng.below(last + 1), last);
    }
    added
}

/// A window in a gap that has room for one. Where it adjoins one of its own
/// VCPU it may be as short as the switch, or shorter.
fn window_in(gap: Gap, v: u32, vcpu: u32, rng: &mut Rng) -> Option<Stretch> {
    let room = gap.to - gap.from;
    let adjoins = gap.before == Some(vcpu) && rng.chance(60);
    let least = if adjoins { 1 } else { v + 1 };
    if room < least {
        return None;
    }
    let longest = room.min(least.max(room / 4));
    let any = rng.within(least..=longest);
    let (from, length) = if adjoins {
        (gap.from, rng.pick(&[1, v.clamp(1, room), any]))
    } else {
        (widened(gap.from, gap.to - any, rng), any)
    };
    Some(Stretch {
        vcpu,
        from,
        to: from + length,
    })
}

/// Cuts a window in two at a tick at which no piece runs on, where there is
/// one. The later one adjoins the other and pays no switch, so that an
/// accepted plan stays one, its rows in order again.
pub fn cut_window(plan: &mut Plan, rng: &mut Rng) -> Option<()> {
    let window = rng.below(plan.windows.len().max(1));
    let [vcpu, start, length, ..] = *plan.windows.get(window)?;
    let runs_on = |tick: &u32| {
        plan.pieces.iter().any(|&[task, _, start, length, ..]| {
            let own = plan.tasks[task as usize][0] == vcpu;
            own && start < *tick && *tick < start + length
        })
    };
    let first = start + plan.vcpu_switch(vcpu) + 1;
    let ticks = (first..start + length).take(1_000);
    let ticks: Vec<u32> = ticks.filter(|tick| !runs_on(tick)).collect();
    let cut = rng.pick_any(&ticks)?;
    plan.windows[window][2] = cut - start;
    plan.windows.push(row_of([vcpu, cut, start + length - cut]));
    plan.put_in_order();
    Some(())
}

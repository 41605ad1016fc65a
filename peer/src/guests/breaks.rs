//! Pairs in which one thing is not equal that has to be.

use super::premises::is_guests;
use super::rework::{rename, Rework};
use crate::generate::cut_window;
use crate::image::{Piece, Plan};
use crate::joins::changes::vary;
use crate::rng::Rng;

/// A way to break a premise.
pub struct Break {
    pub name: &'static str,
    how: How,
    pub shown: Shown,
}

/// Whether what is broken can be seen in what the cores show.
#[derive(Clone, Copy, Debug, PartialEq, Eq)]
pub enum Shown {
    /// By another VCPU than the guest's.
    ToOthers,
    /// By the guest's own ticks alone, and those that nobody has.
    ToGuest,
    Never,
}

/// Changes a plan with a guest, if it has what is needed.
type How = fn(&mut Plan, u32, &mut Rng) -> Option<()>;

const fn a(name: &'static str, shown: Shown, how: How) -> Break {
    Break { name, how, shown }
}

/// Every way.
pub const BREAKS: [Break; 27] = {
    use Shown::*;
    [
        a(
            "a window of the guest moved",
            ToGuest,
            |plan, guest, rng| window(plan, |vcpu| vcpu == guest, 1, rng),
        ),
        a(
            "a window of the guest resized",
            ToGuest,
            |plan, guest, rng| window(plan, |vcpu| vcpu == guest, 2, rng),
        ),
        a("a window of another moved", ToOthers, |plan, guest, rng| {
            window(plan, |vcpu| vcpu != guest, 1, rng)
        }),
        a(
            "a window of another resized",
            ToOthers,
            |plan, guest, rng| window(plan, |vcpu| vcpu != guest, 2, rng),
        ),
        a("a window cut in two", ToOthers, |plan, _, rng| {
            cut_window(plan, rng)
        }),
        a("a window of another VCPU", ToOthers, owner),
        a("v of a core", ToOthers, |plan, _, rng| {
            core_word(plan, 2, rng)
        }),
        a("d of a core, pieces to fit", ToOthers, switch_and_pieces),
        a("d of a core, budgets to fit", ToOthers, switch_and_budgets),
        a("d where only the guest works", Never, switch_of_guest),
        a("a VCPU on another core", ToOthers, other_core),
        a("another budget, pieces to fit", ToOthers, budget),
        a("another period, jobs to fit", ToOthers, period),
        a("a piece moved", ToOthers, move_piece),
        a("lengths of a job's pieces", ToOthers, lengths),
        a("a piece in two", ToOthers, split_piece),
        a("task numbers exchanged", ToOthers, |plan, guest, rng| {
            exchange(plan, guest, false, rng)
        }),
        a(
            "numbers exchanged with the guest",
            ToOthers,
            |plan, guest, rng| exchange(plan, guest, true, rng),
        ),
        a("a task of another dropped", ToOthers, drop_task),
        a("a task of another added", ToOthers, add_task),
        a("another mask", Never, |plan, guest, rng| {
            let task = others_task(plan, guest, rng)?;
            plan.tasks[task as usize][1] ^= 1 << rng.below(32);
            Some(())
        }),
        a("another deadline", Never, |plan, guest, rng| {
            let task = others_task(plan, guest, rng)?;
            near(&mut plan.tasks[task as usize][4], rng)
        }),
        a("another precision", Never, |plan, _, rng| {
            near(&mut plan.precision, rng)
        }),
        a("another cycle", Never, cycle),
        a("another node", Never, |plan, _, rng| {
            core_word(plan, 0, rng)
        }),
        a("a VCPU more", Never, |plan, _, rng| {
            let core = rng.below(plan.cores.len()) as u32;
            plan.vcpus.push([core]);
            Some(())
        }),
        a("a core more", Never, |plan, _, rng| {
            let core = rng.below(plan.cores.len());
            plan.cores.push(plan.cores[core]);
            Some(())
        }),
    ]
};

impl Break {
    /// The plan with the premise broken, accepted, if it comes to that soon.
    pub fn of(&self, plan: &Plan, guest: u32, rng: &mut Rng) -> Option<Plan> {
        let mut broken = plan.clone();
        if rng.chance(60) {
            drop_messages(&mut broken);
        }
        let how = |plan: &mut Plan, _: &Plan, rng: &mut Rng| (self.how)(plan, guest, rng);
        vary(&mut broken, plan, how, rng).then_some(broken)
    }
}

fn drop_messages(plan: &mut Plan) {
    plan.streams.clear();
    plan.frames.clear();
    plan.buffers.clear();
    plan.chains.clear();
}

/// Makes a word a little more or less.
fn near(word: &mut u32, rng: &mut Rng) -> Option<()> {
    let by = rng.pick(&[1, 1, 2, 3, 5]);
    *word = match rng.chance(50) {
        true => word.checked_add(by)?,
        false => word.checked_sub(by)?,
    };
    Some(())
}

fn window(plan: &mut Plan, serves: impl Fn(u32) -> bool, word: usize, rng: &mut Rng) -> Option<()> {
    let rows = 0..plan.windows.len();
    let rows: Vec<usize> = rows.filter(|row| serves(plan.windows[*row][0])).collect();
    let row = rng.pick_any(&rows)?;
    near(&mut plan.windows[row][word], rng)
}

/// Gives a window to another VCPU of its core.
fn owner(plan: &mut Plan, _: u32, rng: &mut Rng) -> Option<()> {
    let row = rng.below(plan.windows.len().max(1));
    let [vcpu, ..] = *plan.windows.get(row)?;
    let on_core = |other: &u32| plan.core_of_vcpu(*other) == plan.core_of_vcpu(vcpu);
    let others: Vec<u32> = (0..plan.vcpus.len() as u32).filter(on_core).collect();
    plan.windows[row][0] = rng.pick_any(&others)?;
    Some(())
}

fn core_word(plan: &mut Plan, word: usize, rng: &mut Rng) -> Option<()> {
    let core = rng.below(plan.cores.len());
    near(&mut plan.cores[core][word], rng)
}

/// Another d, and how much it is more than before.
fn other_switch(plan: &mut Plan, core: usize, rng: &mut Rng) -> Option<i64> {
    let before = plan.cores[core][1];
    near(&mut plan.cores[core][1], rng)?;
    Some(i64::from(plan.cores[core][1]) - i64::from(before))
}

/// Each piece of the core is as much longer as d is.
fn stretch_pieces(plan: &mut Plan, core: usize, by: i64) -> Option<()> {
    for row in 0..plan.pieces.len() {
        if plan.core_of_task(plan.pieces[row][0]) as usize == core {
            let length = i64::from(plan.pieces[row][3]) + by;
            plan.pieces[row][3] = u32::try_from(length).ok()?;
        }
    }
    Some(())
}

fn switch_and_pieces(plan: &mut Plan, guest: u32, rng: &mut Rng) -> Option<()> {
    let task = others_task(plan, guest, rng)?;
    let core = plan.core_of_task(task) as usize;
    let by = other_switch(plan, core, rng)?;
    stretch_pieces(plan, core, by)
}

/// Each task of the core works as much less as its switches take more, where its
/// jobs have equally many pieces.
fn switch_and_budgets(plan: &mut Plan, guest: u32, rng: &mut Rng) -> Option<()> {
    let task = others_task(plan, guest, rng)?;
    let core = plan.core_of_task(task) as usize;
    let by = other_switch(plan, core, rng)?;
    for task in 0..plan.tasks.len() as u32 {
        if plan.core_of_task(task) as usize == core {
            let pieces = plan.pieces.iter().filter(|piece| piece[0] == task).count();
            let of_job = i64::from(pieces as u32 / plan.jobs(task));
            let budget = i64::from(plan.tasks[task as usize][3]) - of_job * by;
            plan.tasks[task as usize][3] = u32::try_from(budget).ok()?;
        }
    }
    Some(())
}

/// On a core where no other VCPU has tasks.
fn switch_of_guest(plan: &mut Plan, guest: u32, rng: &mut Rng) -> Option<()> {
    let core = rng.below(plan.cores.len());
    let on_core = |task: u32| plan.core_of_task(task) as usize == core;
    let mut tasks = 0..plan.tasks.len() as u32;
    if tasks.any(|task| on_core(task) && !is_guests(plan, guest, task)) {
        return None;
    }
    let by = other_switch(plan, core, rng)?;
    stretch_pieces(plan, core, by)
}

fn other_core(plan: &mut Plan, _: u32, rng: &mut Rng) -> Option<()> {
    let vcpu = rng.below(plan.vcpus.len());
    plan.vcpus[vcpu][0] = rng.below(plan.cores.len()) as u32;
    Some(())
}

/// A task of another VCPU.
fn others_task(plan: &Plan, guest: u32, rng: &mut Rng) -> Option<u32> {
    let tasks = 0..plan.tasks.len() as u32;
    let tasks: Vec<u32> = tasks
        .filter(|task| !is_guests(plan, guest, *task))
        .collect();
    rng.pick_any(&tasks)
}

/// A piece of another VCPU.
fn others_piece(plan: &Plan, guest: u32, rng: &mut Rng) -> Option<usize> {
    let kept = |row: &usize| !is_guests(plan, guest, plan.pieces[*row][0]);
    let rows: Vec<usize> = (0..plan.pieces.len()).filter(kept).collect();
    rng.pick_any(&rows)
}

/// A tick more or less for each job, in its last piece.
fn budget(plan: &mut Plan, guest: u32, rng: &mut Rng) -> Option<()> {
    let task = others_task(plan, guest, rng)?;
    let more = rng.chance(50);
    let change = |word: &mut u32| {
        *word = if more {
            *word + 1
        } else {
            word.checked_sub(1)?
        };
        Some(())
    };
    change(&mut plan.tasks[task as usize][3])?;
    for job in 0..plan.jobs(task) {
        let mut pieces = plan.pieces.iter_mut().rev();
        let last = pieces.find(|piece| piece[..2] == [task, job])?;
        change(&mut last[3])?;
    }
    Some(())
}

/// Two jobs become one, of both budgets.
fn period(plan: &mut Plan, guest: u32, rng: &mut Rng) -> Option<()> {
    let task = others_task(plan, guest, rng)?;
    let [_, _, period, budget, deadline, ..] = &mut plan.tasks[task as usize];
    *deadline += *period;
    *period *= 2;
    *budget *= 2;
    let own = plan.pieces.iter_mut().filter(|piece| piece[0] == task);
    own.for_each(|piece| piece[1] /= 2);
    Some(())
}

fn move_piece(plan: &mut Plan, guest: u32, rng: &mut Rng) -> Option<()> {
    let row = others_piece(plan, guest, rng)?;
    near(&mut plan.pieces[row][2], rng)
}

/// A piece longer, and another of its job as much shorter.
fn lengths(plan: &mut Plan, guest: u32, rng: &mut Rng) -> Option<()> {
    let row = others_piece(plan, guest, rng)?;
    let job = plan.pieces[row];
    let of_job = |other: &usize| *other != row && plan.pieces[*other][..2] == job[..2];
    let others: Vec<usize> = (0..plan.pieces.len()).filter(of_job).collect();
    let other = rng.pick_any(&others)?;
    plan.pieces[row][3] += 1;
    plan.pieces[other][3] -= 1;
    Some(())
}

fn split_piece(plan: &mut Plan, guest: u32, rng: &mut Rng) -> Option<()> {
    let row = others_piece(plan, guest, rng)?;
    let piece: Piece = plan.pieces[row];
    let [task, _, start, length, ..] = piece;
    let switch = plan.task_switch(task);
    let work = length - switch;
    if work < 2 {
        return None;
    }
    let part = switch + rng.within(1..=work - 1);
    let mut later = piece;
    (later[2], later[3]) = (start + part + rng.within(0..=1), length + switch - part);
    plan.pieces[row][3] = part;
    plan.pieces.push(later);
    Some(())
}

/// Two tasks get each other's number: both of other VCPUs, or one the guest's.
fn exchange(plan: &mut Plan, guest: u32, with_guest: bool, rng: &mut Rng) -> Option<()> {
    let one = others_task(plan, guest, rng)?;
    let tasks = 0..plan.tasks.len() as u32;
    let serves = |task: &u32| is_guests(plan, guest, *task) == with_guest && *task != one;
    let others: Vec<u32> = tasks.filter(serves).collect();
    let other = rng.pick_any(&others)?;
    plan.tasks.swap(one as usize, other as usize);
    rename(plan, |task| match task {
        task if task == one => other,
        task if task == other => one,
        task => task,
    });
    Some(())
}

/// Drops the last task, another VCPU's.
fn drop_task(plan: &mut Plan, guest: u32, _: &mut Rng) -> Option<()> {
    let task = plan.tasks.len().checked_sub(1)? as u32;
    if is_guests(plan, guest, task) {
        return None;
    }
    drop_messages(plan);
    plan.tasks.pop();
    plan.pieces.retain(|piece| piece[0] != task);
    Some(())
}

fn add_task(plan: &mut Plan, guest: u32, rng: &mut Rng) -> Option<()> {
    let vcpu = rng.below(plan.vcpus.len()) as u32;
    if vcpu == guest {
        return None;
    }
    let mut rework = Rework::new(plan, vcpu, rng);
    rework.add_task()?;
    *plan = rework.plan;
    Some(())
}

/// Some ticks more, where there are no tasks but the guest's.
fn cycle(plan: &mut Plan, guest: u32, rng: &mut Rng) -> Option<()> {
    if plan.tasks.iter().any(|task| task[0] != guest) {
        return None;
    }
    drop_messages(plan);
    plan.tasks.clear();
    plan.pieces.clear();
    plan.cycle += rng.within(1..=9);
    Some(())
}

//! Pairs of images to be joined.

use super::changes::{
    change_ground, clear, equal_streams, grounds, vary, Change, Ground, CLASHES, ROWS,
};
use super::crowded::{crowded, crowded_in, APPENDED};
use super::modes::{split, Habits, Modes};
use crate::check::check;
use crate::generate;
use crate::image::{row_of, rows_of, set_word, word_at, Plan, Task, WORD};
use crate::join::compose;
use crate::mutate::{aim, mutant, mutate};
use crate::questions::QUESTIONS;
use crate::rng::Rng;

/// Two images, and how many leading tasks they probably share.
#[derive(Clone, Debug)]
pub struct Pair {
    pub kind: &'static str,
    pub images: [Vec<u8>; 2],
    pub shared: u32,
}

impl Pair {
    fn of(kind: &'static str, modes: &Modes) -> Pair {
        Pair {
            kind,
            images: [0, 1].map(|mode| modes.plans[mode].encode()),
            shared: modes.shared,
        }
    }
}

/// The pair of a number, made of this and the seed alone.
pub fn pair(seed: u64, number: u64) -> Pair {
    of_number(number, &mut Rng::for_case(seed, number))
}

/// Of twenty pairs four are parts of one plan, and as many are such parts of
/// which one was changed. Every thousandth is of full plans.
pub fn of_number(number: u64, rng: &mut Rng) -> Pair {
    let turn = (number / 20) as usize;
    match number % 2_000 {
        500 => return Pair::of("full", &any_modes(&generate::full(rng), rng)),
        1_500 => return Pair::of("full, itself", &itself(generate::full(rng), rng)),
        _ => {}
    }
    match number % 20 {
        0..=3 => Pair::of("parts", &any_modes(&any_plan(rng), rng)),
        4..=7 => {
            let modes = any_modes(&any_plan(rng), rng);
            Pair::of("parts, changed", &changed(modes, &ROWS, rng))
        }
        8 | 9 => Pair::of("result refused", &clash(turn, rng)),
        10 => Pair::of("itself", &itself(any_plan(rng), rng)),
        11 => Pair::of("crowded", &any_modes(&any_crowded(rng), rng)),
        12 => {
            let modes = any_modes(&any_crowded(rng), rng);
            Pair::of("crowded, changed", &changed(modes, &ROWS, rng))
        }
        13 => limits(
            APPENDED[turn % APPENDED.len()],
            turn / APPENDED.len() % 2,
            rng,
        ),
        14 | 15 => {
            let grounds = grounds();
            Pair::of("ground", &ground(grounds[turn % grounds.len()], rng))
        }
        16 => Pair::of("tasks", &tasks(rng)),
        17 => one_word(rng),
        18 => refused(turn, rng),
        _ => both_refused(turn, rng),
    }
}

/// An accepted plan, mostly with rows in every table.
fn any_plan(rng: &mut Rng) -> Plan {
    match rng.below(100) {
        0..35 => generate::small_rich(rng),
        35..60 => generate::tiny(rng),
        60..75 => generate::rich(rng),
        75..85 => generate::shared_buffer(rng),
        85..90 => generate::kept_core(rng),
        _ => generate::accepted(rng),
    }
}

/// Sometimes with streams that are equal.
fn any_crowded(rng: &mut Rng) -> Plan {
    let mut plan = crowded(rng);
    if rng.chance(40) {
        let none = Plan::default();
        vary(&mut plan, &none, equal_streams, rng);
    }
    plan
}

/// A split of a plan, its parts in either order.
fn any_modes(plan: &Plan, rng: &mut Rng) -> Modes {
    exchanged(split(plan, Habits::any(rng), rng), rng)
}

fn exchanged(mut modes: Modes, rng: &mut Rng) -> Modes {
    if rng.chance(50) {
        modes.plans.reverse();
    }
    modes
}

/// Changes one of both once or twice.
fn changed(mut modes: Modes, changes: &[Change], rng: &mut Rng) -> Modes {
    let [one, other] = &mut modes.plans;
    for _ in 0..rng.within(1..=2) {
        vary(one, other, rng.pick(changes), rng);
    }
    exchanged(modes, rng)
}

/// Parts, one of them changed, of which the result is refused, in each turn by
/// another question; if such are found soon.
fn clash(turn: usize, rng: &mut Rng) -> Modes {
    let (wanted, changes) = CLASHES[turn % CLASHES.len()];
    let mut modes = changed(any_modes(&any_plan(rng), rng), changes, rng);
    for _ in 0..20 {
        let Modes { plans, shared } = &modes;
        let result = check(&compose(&plans[0], &plans[1], *shared).encode());
        if result.number == wanted {
            break;
        }
        modes = changed(any_modes(&any_plan(rng), rng), changes, rng);
    }
    modes
}

/// A plan twice, with all tasks shared, or none, or some.
fn itself(plan: Plan, rng: &mut Rng) -> Modes {
    let tasks = plan.tasks.len() as u32;
    let some = rng.within(0..=tasks);
    Modes {
        plans: [plan.clone(), plan],
        shared: rng.pick(&[tasks, tasks, 0, some]),
    }
}

/// Parts that together have as many rows in a table as there may be, or more.
fn limits(table: u32, more: usize, rng: &mut Rng) -> Pair {
    let habits = Habits {
        both: rng.pick(&[40, 70]),
        together: true,
    };
    let modes = split(&crowded_in(table, more, rng), habits, rng);
    let kind = ["limits met", "limits passed"][more];
    Pair::of(kind, &exchanged(modes, rng))
}

/// Parts of which one has another cycle, precision, core, VCPU, window or link;
/// where its tasks do not bear it, it has none.
fn ground(ground: Ground, rng: &mut Rng) -> Modes {
    let plan = match rng.below(4) {
        0 => any_plan(rng),
        _ => generate::small_rich(rng),
    };
    let mut modes = any_modes(&plan, rng);
    let [one, other] = &mut modes.plans;
    let change = |plan: &mut Plan, _: &Plan, rng: &mut Rng| change_ground(plan, ground, rng);
    if !vary(one, other, change, rng) {
        clear(one);
        vary(one, other, change, rng);
        modes.shared = 0;
    }
    exchanged(modes, rng)
}

/// Ticks that each task has for itself in every period.
const SLOT: u32 = 4;
const SLOTS: u32 = 4;

/// Up to four tasks on two VCPUs, in the second perhaps one of them with
/// another word.
fn tasks(rng: &mut Rng) -> Modes {
    let count = rng.within(1..=SLOTS);
    let first: Vec<Task> = (0..count).map(|slot| any_task(slot, rng)).collect();
    let mut second = first.clone();
    if rng.chance(80) {
        let slot = rng.below(first.len());
        let other = any_task(slot as u32, rng);
        let column = rng.below(5);
        second[slot][column] = other[column];
    }
    if rng.chance(30) {
        second.truncate(rng.below(first.len() + 1));
    }
    let shared = first.len().min(second.len()) as u32;
    let plans = [first, second].map(in_slots);
    exchanged(Modes { plans, shared }, rng)
}

/// A task for a slot. Its words fit those of any other for that slot.
fn any_task(slot: u32, rng: &mut Rng) -> Task {
    let period = rng.pick(&[1, 2, 4]) * SLOT * SLOTS;
    let deadline = rng.within(SLOT * (slot + 1)..=SLOT * SLOTS);
    let mask = rng.word() | 3;
    row_of([rng.within(0..=1), mask, period, rng.within(1..=2), deadline])
}

/// The plan of tasks that run in their slots.
fn in_slots(tasks: Vec<Task>) -> Plan {
    let cycle = 4 * SLOT * SLOTS;
    let mut plan = Plan {
        cycle,
        cores: rows_of(&[[0, 0, 0], [0, 0, 0]]),
        vcpus: rows_of(&[[0], [1]]),
        windows: rows_of(&[[0, 0, cycle], [1, 0, cycle]]),
        tasks,
        ..Plan::default()
    };
    for (number, &[_, _, period, budget, ..]) in (0..).zip(&plan.tasks) {
        let start = |k| k * period + SLOT * number;
        let piece = |k| row_of([number, k, start(k), budget]);
        plan.pieces.extend((0..cycle / period).map(piece));
    }
    plan.in_order()
}

/// Parts of one plan with one word of one image changed, any word at all.
fn one_word(rng: &mut Rng) -> Pair {
    let mut pair = Pair::of("one word", &any_modes(&any_plan(rng), rng));
    let image = &mut pair.images[rng.below(2)];
    let at = rng.below(image.len() / WORD) * WORD;
    let (word, any) = (word_at(image, at), rng.word());
    let words = [word ^ 1, word.wrapping_add(1), word.wrapping_sub(1), 0, any];
    set_word(image, at, rng.pick(&words));
    pair
}

/// Parts of one plan, one of them refused, by each question in turn.
fn refused(turn: usize, rng: &mut Rng) -> Pair {
    let modes = broad_modes(rng);
    let mut pair = Pair::of("one refused", &modes);
    let mode = turn / QUESTIONS.len() % 2;
    pair.images[mode] = broken(&modes.plans[mode], turn, rng);
    pair
}

fn both_refused(turn: usize, rng: &mut Rng) -> Pair {
    let modes = broad_modes(rng);
    Pair {
        kind: "both refused",
        images: [turn, turn + 1].map(|turn| broken(&modes.plans[turn % 2], turn, rng)),
        shared: modes.shared,
    }
}

/// Parts with rows in most tables, so that each question has something to
/// refuse.
fn broad_modes(rng: &mut Rng) -> Modes {
    let habits = Habits {
        both: 80,
        together: true,
    };
    split(&generate::rich(rng), habits, rng)
}

/// An image that is probably refused, mostly that of the plan with a change, aimed
/// at another question in each turn.
fn broken(plan: &Plan, turn: usize, rng: &mut Rng) -> Vec<u8> {
    let question = QUESTIONS[turn % QUESTIONS.len()];
    match rng.below(40) {
        0 => Vec::new(),
        1 => {
            let length = rng.below(200);
            rng.bytes(length)
        }
        2..4 => mutant(rng),
        4..7 => mutate(plan, rng),
        _ => broken_at(question, plan, rng),
    }
}

/// The image with a change that a question is the first to refuse, or another
/// one that it is, where the plan has no rows for that.
fn broken_at(question: u32, plan: &Plan, rng: &mut Rng) -> Vec<u8> {
    let mut plan = plan.clone();
    for _ in 0..20 {
        for _ in 0..10 {
            let mut changed = plan.clone();
            let image = match aim(question, &mut changed, rng) {
                Some(()) => changed.encode(),
                None => mutate(&plan, rng),
            };
            if check(&image).number == question {
                return image;
            }
        }
        plan = generate::rich(rng);
    }
    mutate(&plan, rng)
}

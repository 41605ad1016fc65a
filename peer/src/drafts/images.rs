//! The images that drafts are made of, and those that none is made of.

use crate::check::{check, examine_rows};
use crate::generate::{self, SHAPES};
use crate::harness::image_of;
use crate::image::{row_of, rows_of, Piece, Plan};
use crate::mutate::{mutant, mutate};
use crate::questions::{asked_before, QUESTIONS};
use crate::rng::Rng;

/// The image of a numbered draft, made of this and the seed alone.
pub fn image(seed: u64, number: u64) -> Vec<u8> {
    of_number(number, &mut Rng::for_case(seed, number))
}

/// Of twelve images five are plans that meet just what a draft asks, two are
/// accepted plans of each shape in turn, two are refused by each question of
/// making in turn and one by each other question; the others are any.
pub fn of_number(number: u64, rng: &mut Rng) -> Vec<u8> {
    let turn = number as usize / 12;
    let (_, shape) = SHAPES[turn % SHAPES.len()];
    match number % 12 {
        0 if turn.is_multiple_of(8) => heaviest().encode(),
        1 if is_roomy(number) => roomy(rng).encode(),
        0..=3 => loose(rng).encode(),
        4 => nearly_loose(rng).encode(),
        5 | 6 => shape(rng).encode(),
        7 => refused_by(any_question(true, turn), rng),
        8 => refused_by(any_question(true, turn + 5), rng),
        9 => refused_later(any_question(false, turn), rng),
        10 => mutate(&shape(rng), rng),
        _ => image_of(number, rng).0,
    }
}

/// In each turn another question that making asks of the image, those up to 10
/// but for 40, or one that it does not.
fn any_question(making: bool, turn: usize) -> u32 {
    let up_to_10 = |number: u32| asked_before(number, 10) || number == 10;
    let asks = |number: &u32| up_to_10(*number) && *number != 40;
    let questions = QUESTIONS.iter().copied();
    let questions: Vec<u32> = questions.filter(|number| asks(number) == making).collect();
    questions[turn % questions.len()]
}

/// A mutant that a question is the first to refuse.
fn refused_by(question: u32, rng: &mut Rng) -> Vec<u8> {
    loop {
        let image = mutant(rng);
        if check(&image).number == question {
            return image;
        }
    }
}

/// A mutant that a question is the first to refuse, and that making takes.
fn refused_later(question: u32, rng: &mut Rng) -> Vec<u8> {
    loop {
        let image = refused_by(question, rng);
        if examine_rows(&image).is_ok() {
            return image;
        }
    }
}

/// A plan with the highest totals: every piece is one million ticks of one
/// job.
pub fn heaviest() -> Plan {
    const MILLION: u32 = 1_000_000;
    Plan {
        cycle: MILLION,
        cores: rows_of(&[[0, 0, 0], [0, 0, 0]]),
        vcpus: rows_of(&[[1]]),
        tasks: rows_of(&[[0, 2, MILLION, MILLION, MILLION]]),
        pieces: rows_of(&[[0, 0, 0, MILLION]; 2_048]),
        ..Plan::default()
    }
}

/// A plan that meets just what a draft asks: its pieces overlap, lie outside
/// all windows and sum to anything.
pub fn loose(rng: &mut Rng) -> Plan {
    let cycles = [1, 2, 7, 12, 60, 1_000, 720_720, 999_983, 1_000_000];
    let mut plan = Plan {
        cycle: rng.pick(&cycles),
        precision: rng.within(0..=10_000),
        ..Plan::default()
    };
    let most_d = rng.pick(&[0, 1, 3, 1_000]).min(plan.cycle / 2);
    for _ in 0..few_or_all(32, rng).max(1) {
        let (node, d, v) = (
            rng.within(0..=15),
            rng.within(0..=most_d),
            rng.within(0..=9),
        );
        plan.cores.push(row_of([node, d, v]));
    }
    let cores = plan.cores.len() as u32;
    for _ in 0..few_or_all(64, rng) {
        plan.vcpus.push(row_of([rng.within(0..=cores - 1)]));
    }
    if !plan.vcpus.is_empty() {
        let divisors = divisors(plan.cycle);
        for _ in 0..few_or_all(256, rng) {
            add_task(&mut plan, &divisors, rng);
        }
    }
    add_pieces(&mut plan, rng);
    plan.put_in_order();
    plan
}

/// Whether a draft is to be filled and emptied, which takes thousands of calls.
pub fn is_roomy(number: u64) -> bool {
    number % 144 == 13
}

/// A loose plan that takes pieces and has places for them.
fn roomy(rng: &mut Rng) -> Plan {
    loop {
        let plan = loose(rng);
        if plan.tasks.len() > 2 && (1..100).contains(&plan.pieces.len()) {
            return plan;
        }
    }
}

/// How many rows: mostly few, also none and as many as there may be.
fn few_or_all(most: usize, rng: &mut Rng) -> usize {
    match rng.below(30) {
        0 => 0,
        1..4 => most,
        4..7 => rng.below(most + 1),
        _ => 1 + rng.below(6),
    }
}

fn divisors(cycle: u32) -> Vec<u32> {
    let divides = |divisor: &u32| cycle.is_multiple_of(*divisor);
    let low: Vec<u32> = (1..=1_000).filter(divides).collect();
    let high = low.iter().map(|divisor| cycle / divisor);
    low.iter().copied().chain(high).collect()
}

fn add_task(plan: &mut Plan, divisors: &[u32], rng: &mut Rng) {
    let vcpu = rng.below(plan.vcpus.len()) as u32;
    let period = match rng.below(3) {
        0 => plan.cycle,
        _ => rng.pick(divisors),
    };
    let deadline = match rng.below(3) {
        0 => period,
        _ => rng.within(1..=period),
    };
    let budget = rng.within(1..=deadline);
    let mask = rng.word() | 1 << plan.core_of_vcpu(vcpu);
    let row = row_of([vcpu, mask, period, budget, deadline]);
    plan.tasks.push(row);
}

fn add_pieces(plan: &mut Plan, rng: &mut Rng) {
    let tasks: Vec<u32> = (0..plan.tasks.len() as u32)
        .filter(|task| plan.tasks[*task as usize][4] > plan.task_switch(*task))
        .collect();
    if tasks.is_empty() {
        return;
    }
    let count = match rng.below(12) {
        0 => 0,
        1 => 2_048,
        2 => 2_030 + rng.below(18),
        3 => rng.below(600),
        _ => 1 + rng.below(30),
    };
    while plan.pieces.len() < count {
        let piece = match plan.pieces.last() {
            Some(last) if rng.chance(8) => *last,
            _ => any_piece(plan, rng.pick(&tasks), rng),
        };
        plan.pieces.push(piece);
    }
}

fn any_piece(plan: &Plan, task: u32, rng: &mut Rng) -> Piece {
    let [_, _, period, _, deadline, ..] = plan.tasks[task as usize];
    let job = rng.within(0..=plan.jobs(task) - 1);
    let length = rng.within(plan.task_switch(task) + 1..=deadline);
    let start = job * period + rng.within(0..=deadline - length);
    row_of([task, job, start, length])
}

/// Such a plan with one word of a piece, task or core next to what it was, or
/// an accepted one without windows.
fn nearly_loose(rng: &mut Rng) -> Plan {
    let mut plan = loose(rng);
    let near = |word: &mut u32, rng: &mut Rng| {
        *word = word.wrapping_add(rng.pick(&[1, 2, u32::MAX, 1 << 31]));
    };
    let column = rng.below(4);
    match rng.below(4) {
        0 => {
            plan = generate::rich(rng);
            plan.windows.clear();
        }
        1 if !plan.tasks.is_empty() => {
            let row = rng.below(plan.tasks.len());
            near(&mut plan.tasks[row][1 + column], rng);
        }
        _ if !plan.pieces.is_empty() => {
            let row = rng.below(plan.pieces.len());
            near(&mut plan.pieces[row][column], rng);
        }
        _ => near(&mut plan.cores[0][1], rng),
    }
    if rng.chance(80) {
        plan.put_in_order();
    }
    plan
}

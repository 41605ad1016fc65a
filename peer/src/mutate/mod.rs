//! Images that are broken, or almost broken, in chosen places.
//!
//! Each change is aimed at one question: it is meant to be the first that is
//! answered no, or to hold by a single tick. Nothing here asks the checker.

mod buffers;
mod bytes;
mod chains;
mod charges;
mod cores;
mod deadlines;
mod order;
mod stays;
mod streams;

use crate::generate;
use crate::image::{row_of, Piece, Plan, Window, QUEUES, ROW_BOUNDS, WINDOW};
use crate::questions::QUESTIONS;
use crate::rng::Rng;

/// An image made of an accepted plan by one change, sometimes by two.
pub fn mutate(plan: &Plan, rng: &mut Rng) -> Vec<u8> {
    let first = Change::any(rng);
    changed(plan.clone(), first, rng)
}

fn changed(mut plan: Plan, first: Change, rng: &mut Rng) -> Vec<u8> {
    if let Change::Rows(question) = first {
        aim_or_near(question, &mut plan, rng);
    }
    if (first == Change::Harmless || rng.chance(12)) && is_sound(&plan) {
        let second = any_of_rows(rng);
        if first == Change::Harmless {
            harmless(&mut plan, rng);
        } else {
            aim_or_near(second, &mut plan, rng);
        }
    }
    match first {
        Change::Bytes(question) => bytes::aim(question, plan, rng),
        Change::Scattered => bytes::scatter(plan.encode(), rng),
        _ => plan.encode(),
    }
}

/// What is changed first.
#[derive(Clone, Copy, PartialEq, Eq)]
enum Change {
    Harmless,
    /// Aimed at one of the first three questions.
    Bytes(u32),
    /// Aimed at another one.
    Rows(u32),
    Scattered,
}

impl Change {
    fn any(rng: &mut Rng) -> Change {
        match rng.below(QUESTIONS.len() + 3) {
            0 => Change::Harmless,
            turn @ 1..=3 => Change::Bytes(QUESTIONS[turn - 1]),
            turn if turn <= QUESTIONS.len() => Change::Rows(any_of_rows(rng)),
            _ => Change::Scattered,
        }
    }
}

/// Any of the questions that are asked of rows, or of H and P.
fn any_of_rows(rng: &mut Rng) -> u32 {
    rng.pick(&QUESTIONS[3..])
}

/// An image made of a plan of its own, mostly one with rows in every table, or
/// with frames that wait behind each other where these are to be changed.
pub fn mutant(rng: &mut Rng) -> Vec<u8> {
    let first = Change::any(rng);
    let plan = match rng.below(100) {
        0..=59 if first == Change::Rows(41) => generate::busy_links(rng),
        0..=4 => generate::busy_links(rng),
        5..=74 => generate::rich(rng),
        _ => generate::accepted(rng),
    };
    changed(plan, first, rng)
}

/// Aims at a question, or at others where the plan has no rows for it.
fn aim_or_near(question: u32, plan: &mut Plan, rng: &mut Rng) {
    for turn in 0..40 {
        let near = if turn < 8 { question } else { any_of_rows(rng) };
        let mut changed = plan.clone();
        if aim(near, &mut changed, rng).is_some() {
            *plan = changed;
            return;
        }
    }
}

/// Changes a sound plan with a question in mind; none where it has no rows
/// that would serve. The plan may be changed in part then.
///
/// A plan in order is put in order again, but for a few and where that is what
/// is to be broken.
pub fn aim(question: u32, plan: &mut Plan, rng: &mut Rng) -> Option<()> {
    let was_in_order = plan.out_of_order().is_none();
    change(question, plan, rng)?;
    if was_in_order && question != 32 && rng.chance(96) {
        plan.put_in_order();
    }
    Some(())
}

fn change(question: u32, plan: &mut Plan, rng: &mut Rng) -> Option<()> {
    match question {
        4 => cores::limits(plan, rng),
        5 => cores::row_number(plan, rng),
        6 => cores::range(plan, rng),
        7 => cores::window_bounds(plan, rng),
        8 => cores::window_clash(plan, rng),
        9 => cores::mask(plan, rng),
        10 => cores::piece_in_job(plan, rng),
        11 => cores::piece_in_window(plan, rng),
        12 => cores::piece_clash(plan, rng),
        13 => cores::budget(plan, rng),
        14 => streams::ends(plan, rng),
        15 => streams::frame_in_job(plan, rng),
        16 => streams::frame_count(plan, rng),
        17 => streams::route(plan, rng),
        18 => streams::hop_order(plan, rng),
        19 => streams::frame_clash(plan, rng),
        20 => streams::message_order(plan, rng),
        21 => streams::latency(plan, rng),
        22 => buffers::sides(plan, rng),
        23 => buffers::order(plan, rng),
        24 => buffers::hold_clash(plan, rng),
        29 => chains::tasks(plan, rng),
        30 => chains::path(plan, rng),
        31 => chains::limit(plan, rng),
        32 => order::order(plan, rng),
        40 => stays::queue(plan, rng),
        41 => stays::stays(plan, rng),
        _ => None,
    }
}

/// Changes that most plans bear.
fn harmless(plan: &mut Plan, rng: &mut Rng) {
    match rng.below(12) {
        0 => plan.precision = plan.precision.saturating_sub(1),
        1 => plan.tasks.iter_mut().for_each(|task| task[4] = task[2]),
        2 => plan.tasks.iter_mut().for_each(|task| task[1] = u32::MAX),
        3 => plan.streams.iter_mut().for_each(|row| row[2] = 1_000_000),
        4 => rng.shuffle(&mut plan.buffers),
        5 => {
            let links = plan.links.iter_mut();
            links.for_each(|row| row[2] = row[2].saturating_sub(1).max(row[4]));
        }
        6 => rng.shuffle(&mut plan.chains),
        7 => plan.chains.iter_mut().for_each(|row| row[2] = u32::MAX),
        8 => {
            for [_, _, delay, _, lowest, ..] in &mut plan.links {
                let any = rng.within(0..=*delay);
                *lowest = rng.pick(&[0, any, *delay]);
            }
        }
        9 => write_0(plan),
        10 => {
            let by = rng.within(1..=QUEUES - 1);
            let streams = plan.streams.iter_mut();
            streams.for_each(|row| row[5] = (row[5] + by) % QUEUES);
        }
        _ if plan.windows.len() < ROW_BOUNDS[WINDOW as usize - 1].1 as usize => {
            generate::cut_window(plan, rng);
        }
        _ => {}
    }
}

/// Puts a 0 wherever an E or a limit of 0 is kept.
pub fn write_0(plan: &mut Plan) {
    for row in 0..plan.streams.len() {
        let [sender, receiver, ..] = plan.streams[row];
        if deadlines::bears_0(plan, sender, receiver) {
            plan.streams[row][2] = 0;
        }
    }
    for row in 0..plan.chains.len() {
        let [first, last, ..] = plan.chains[row];
        if deadlines::bears_0(plan, first, last) {
            plan.chains[row][2] = 0;
        }
    }
}

/// Whether the rows lead where they say and no word is huge, so that a second
/// change may follow them and count on.
fn is_sound(plan: &Plan) -> bool {
    rows_lead(plan) && words_are_moderate(plan)
}

fn words_are_moderate(plan: &Plan) -> bool {
    let moderate = |words: &[u32]| words.iter().all(|word| *word < 1 << 24);
    moderate(&[plan.cycle, plan.precision])
        && moderate(plan.cores.as_flattened())
        && plan.tasks.iter().all(|task| moderate(&task[2..]))
        && moderate(plan.windows.as_flattened())
        && moderate(plan.pieces.as_flattened())
        && moderate(plan.links.as_flattened())
        && moderate(plan.streams.as_flattened())
        && moderate(plan.frames.as_flattened())
        && moderate(plan.buffers.as_flattened())
}

fn rows_lead(plan: &Plan) -> bool {
    let [cores, vcpus, tasks, _, _, links, streams, ..] = plan.counts();
    let names = |number: u32, rows: usize| (number as usize) < rows;
    plan.vcpus.iter().all(|row| names(row[0], cores))
        && plan.tasks.iter().all(|row| names(row[0], vcpus))
        && plan.tasks.iter().all(|row| row[2] > 0)
        && plan.windows.iter().all(|row| names(row[0], vcpus))
        && plan.pieces.iter().all(|row| names(row[0], tasks))
        && plan.streams.iter().all(|row| names(row[0], tasks))
        && plan.streams.iter().all(|row| names(row[1], tasks))
        && plan.frames.iter().all(|row| names(row[0], streams))
        && plan.frames.iter().all(|row| names(row[3], links))
        && plan.buffers.iter().all(|row| names(row[1], tasks))
        && plan.buffers.iter().all(|row| names(row[2], tasks))
        && plan.chains.iter().all(|row| names(row[0], tasks))
        && plan.chains.iter().all(|row| names(row[1], tasks))
}

/// A word of a computed value; what does not fit wraps.
fn word(value: i64) -> u32 {
    value as u32
}

fn wide(word: u32) -> i64 {
    i64::from(word)
}

/// A random row number of a table, if it has rows.
fn any_row<R>(rows: &[R], rng: &mut Rng) -> Option<usize> {
    (!rows.is_empty()).then(|| rng.below(rows.len()))
}

/// A random one of the row numbers that serve.
fn any_where(rows: usize, serves: impl Fn(usize) -> bool, rng: &mut Rng) -> Option<usize> {
    let choice: Vec<usize> = (0..rows).filter(|row| serves(*row)).collect();
    rng.pick_any(&choice)
}

/// Sets one word of a random row.
fn set<const W: usize>(
    rows: &mut [[u32; W]],
    column: usize,
    value: u32,
    rng: &mut Rng,
) -> Option<()> {
    let row = any_row(rows, rng)?;
    rows[row][column] = value;
    Some(())
}

/// Puts one more row, of these words, into a table that has room for it.
fn insert<const N: usize, const W: usize>(
    rows: &mut Vec<[u32; W]>,
    table: u32,
    words: [u32; N],
    rng: &mut Rng,
) -> Option<()> {
    let most = ROW_BOUNDS[table as usize - 1].1 as usize;
    if rows.len() >= most {
        return None;
    }
    rows.insert(rng.below(rows.len() + 1), row_of(words));
    Some(())
}

/// Gives a window another start and length.
fn move_to(window: &mut Window, start: i64, length: i64) {
    (window[1], window[2]) = (word(start), word(length));
}

/// Two different rows that serve together.
fn any_pair(
    rows: usize,
    serve: impl Fn(usize, usize) -> bool,
    rng: &mut Rng,
) -> Option<(usize, usize)> {
    for _ in 0..40 {
        let (a, b) = (rng.below(rows.max(1)), rng.below(rows.max(1)));
        if a != b && serve(a, b) {
            return Some((a, b));
        }
    }
    None
}

/// First start and last end of a job that has pieces.
fn job_span(plan: &Plan, task: u32, k: u32) -> Option<(i64, i64)> {
    let of_job = |piece: &&Piece| piece[0] == task && piece[1] == k;
    let pieces = || plan.pieces.iter().filter(of_job);
    let first = pieces().map(|piece| wide(piece[2])).min()?;
    let last = pieces()
        .map(|piece| wide(piece[2]) + wide(piece[3]))
        .max()?;
    Some((first, last))
}

/// The spans of two tasks' jobs of one number, where both have pieces.
fn both_spans(plan: &Plan, first: u32, last: u32) -> impl Iterator<Item = [(i64, i64); 2]> + '_ {
    let jobs = 0..plan.jobs(first).min(2_048);
    jobs.filter_map(move |k| Some([job_span(plan, first, k)?, job_span(plan, last, k)?]))
}

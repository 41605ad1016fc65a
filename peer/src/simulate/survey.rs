//! Broken plans, run without asking the check.

use super::drive::Case;
use super::{edges, run_unchecked, unchecked, Choice, Claim, Clocks, Edge, Failure, Settings};
use crate::check::check;
use crate::generate;
use crate::image::{row_of, Buffer, Plan, CHAIN, QUEUES, ROW_BOUNDS};
use crate::jobs::Jobs;
use crate::mutate::{aim, write_0};
use crate::rng::Rng;

/// The questions that are broken.
pub const QUESTIONS: [u32; 8] = [13, 18, 19, 20, 21, 24, 31, 41];

/// The claim of runs that a question guards.
pub fn guarded(question: u32) -> Claim {
    match question {
        13 => Claim::Budget,
        18..=20 => Claim::Arrived,
        21 => Claim::Latency,
        31 => Claim::Chain,
        41 => Claim::Queue,
        _ => Claim::Hold,
    }
}

/// What became of broken plans.
#[derive(Clone, Copy, Debug, Default)]
pub struct Noticed {
    pub broken: u64,
    /// So many break the claim that their question guards, under some choice.
    pub noticed: u64,
    /// Of these, so many with all clocks equal.
    pub with_equal_clocks: u64,
    /// Of these, so many where what is passed is an E or a limit of 0.
    pub of_0: u64,
    /// So many break no claim, for the reason that `only_shared_tasks` or
    /// `only_one_clock` gives.
    pub harmless: u64,
}

/// What became of all broken plans, question by question.
#[derive(Clone, Copy, Debug, Default)]
pub struct Survey {
    /// Broken by one tick; with that tick back, no claim failed.
    pub by_a_tick: [Noticed; QUESTIONS.len()],
    /// Broken by the aimed changes of `mutate`.
    pub by_aim: [Noticed; QUESTIONS.len()],
}

/// Breaks plans, up to the first that goes unnoticed.
pub fn survey(settings: &Settings) -> Result<Survey, Failure> {
    let mut survey = Survey::default();
    for (number, mut rng) in settings.cases() {
        let mut plan = match rng.below(100) {
            0..=27 => generate::shared_buffer(&mut rng),
            28..=59 => generate::busy_links(&mut rng),
            _ => generate::tiny(&mut rng),
        };
        put_0(number, &mut plan);
        put_together(&mut plan);
        survey_edges(number, &plan, &mut survey.by_a_tick, &mut rng)?;
        survey_aims(number, &plan, &mut survey.by_aim, &mut rng)?;
    }
    Ok(survey)
}

/// Puts each stream into the lowest queue that it may be in, so that stays are
/// near each other.
fn put_together(plan: &mut Plan) {
    for row in 0..plan.streams.len() {
        let in_queue = |queue| {
            let mut plan = plan.clone();
            plan.streams[row][5] = queue;
            check(&plan.encode()).is_accepted().then_some(queue)
        };
        let lowest = (0..QUEUES).find_map(in_queue);
        plan.streams[row][5] = lowest.expect("its own is one");
    }
}

/// Whether in a plan an E or a limit of 0 is to be passed by a tick.
fn prefers_0(number: u64) -> bool {
    number % 4 < 2
}

/// Gives such a plan an E or a limit of 0 wherever it is kept, or chains with a
/// limit of 0 in place of every E of 0.
fn put_0(number: u64, plan: &mut Plan) {
    if !prefers_0(number) {
        return;
    }
    write_0(plan);
    if number % 2 == 1 {
        for [sender, receiver, latency, ..] in &mut plan.streams {
            if *latency == 0 && plan.chains.len() < ROW_BOUNDS[CHAIN as usize - 1].1 as usize {
                plan.chains.push(row_of([*sender, *receiver, 0]));
                *latency = 1_000_000;
            }
        }
    }
}

/// One plan broken by a tick for each question, where there is one: one that
/// is not harmless, where there is such, and of some plans one where an E or a
/// limit of 0 is passed.
fn survey_edges(
    number: u64,
    plan: &Plan,
    found: &mut [Noticed],
    rng: &mut Rng,
) -> Result<(), Failure> {
    let edges = edges(plan, rng);
    for (question, found) in QUESTIONS.into_iter().zip(found) {
        let of_question = edges.iter().filter(|edge| edge.question == question);
        let is_worse = |edge: &&Edge| {
            let is_harmless = question == 31 && only_one_clock(&edge.broken);
            let is_written = prefers_0(number) && !passes_0(&edge.broken);
            (is_harmless, is_written)
        };
        if let Some(edge) = of_question.min_by_key(is_worse) {
            let kept = Case::new(number, &edge.kept, rng);
            let (_, run) = run_unchecked(kept.plan);
            kept.require_none(&unchecked(kept.plan, &kept.choices), Some(&run))?;
            let broken = Case::new(number, &edge.broken, rng);
            run_broken(&broken, question, found)?;
        }
    }
    Ok(())
}

/// One plan broken by an aimed change for each question, where there is one.
fn survey_aims(
    number: u64,
    plan: &Plan,
    found: &mut [Noticed],
    rng: &mut Rng,
) -> Result<(), Failure> {
    for (question, found) in QUESTIONS.into_iter().zip(found) {
        if let Some(broken) = aimed(plan, question, rng) {
            run_broken(&Case::new(number, &broken, rng), question, found)?;
        }
    }
    Ok(())
}

/// A plan of a short cycle that a question is the first to refuse.
fn aimed(plan: &Plan, question: u32, rng: &mut Rng) -> Option<Plan> {
    for _ in 0..8 {
        let mut broken = plan.clone();
        let is_aimed = aim(question, &mut broken, rng).is_some();
        let is_short = broken.cycle == plan.cycle;
        if is_aimed && is_short && check(&broken.encode()).number == question {
            return Some(broken);
        }
    }
    None
}

/// Runs a broken plan; the claim that its question guards must fail.
fn run_broken(case: &Case, question: u32, found: &mut Noticed) -> Result<(), Failure> {
    let guarded = guarded(question);
    found.broken += 1;
    if unchecked(case.plan, &case.choices).has(guarded) {
        found.noticed += 1;
        let equal = [Choice::of(case.plan, Clocks::equal(case.plan))];
        found.with_equal_clocks += u64::from(unchecked(case.plan, &equal).has(guarded));
        found.of_0 += u64::from(passes_0(case.plan));
    } else if question == 24 && only_shared_tasks(case.plan)
        || question == 31 && only_one_clock(case.plan)
    {
        found.harmless += 1;
    } else {
        let what = format!("question {question} is broken, and {guarded:?} holds");
        let (_, run) = run_unchecked(case.plan);
        return Err(case.failure(Some(&run), what));
    }
    Ok(())
}

/// Whether the row that is refused has an E or a limit of 0.
fn passes_0(plan: &Plan) -> bool {
    let answer = check(&plan.encode());
    let row = answer.row as usize;
    match answer.number {
        21 => plan.streams[row][2] == 0,
        31 => plan.chains[row][2] == 0,
        _ => false,
    }
}

/// Whether rows of one buffer clash only where they have the same two tasks,
/// or where one row's reader is the other's writer.
///
/// Question 24 refuses both, and no run shows them: rows with the same tasks
/// have no other task, and in a chain from a to b to c, task c starts when b
/// has ended and b when a has, by question 23, so that neither a nor c runs
/// in the other's hold with b.
pub fn only_shared_tasks(plan: &Plan) -> bool {
    let Ok(jobs) = Jobs::of(plan) else {
        return false;
    };
    let clash = |a: &Buffer, b: &Buffer| {
        let (a, b) = (holds(&jobs, a), holds(&jobs, b));
        a.iter().any(|a| b.iter().any(|b| a.0 < b.1 && b.0 < a.1))
    };
    let buffer = |row: &Buffer| (row[0], plan.node_of_task(row[1]));
    let shared = |a: &Buffer, b: &Buffer| a[1..3] == b[1..3] || a[2] == b[1] || b[2] == a[1];
    let rows = plan.buffers.iter().enumerate();
    let mut pairs = rows.flat_map(|(row, a)| plan.buffers[..row].iter().map(move |b| (a, b)));
    pairs.all(|(a, b)| buffer(a) != buffer(b) || !clash(a, b) || shared(a, b))
}

/// First start and last end of the holds of a row.
fn holds(jobs: &Jobs, &[_, writer, reader, ..]: &Buffer) -> Vec<(u32, u32)> {
    let pairs = jobs.of_task(writer).iter().zip(jobs.of_task(reader));
    let hold = pairs.map(|(writer, reader)| (writer.first_start, reader.last_end));
    hold.collect()
}

/// Whether chains pass their limits only where both ends are on one node, and
/// by P at most.
///
/// Question 31 adds P there too, but one clock tells both times, and no run
/// shows it.
pub fn only_one_clock(plan: &Plan) -> bool {
    let Ok(jobs) = Jobs::of(plan) else {
        return false;
    };
    plan.chains.iter().all(|&[first, last, limit, ..]| {
        let one_node = plan.node_of_task(first) == plan.node_of_task(last);
        let limit = match limit {
            0 => plan.deadline(last),
            given => given,
        };
        let ahead = if one_node { 0 } else { plan.precision };
        let mut pairs = jobs.of_task(first).iter().zip(jobs.of_task(last));
        pairs.all(|(first, last)| last.last_end - first.first_start + ahead <= limit)
    })
}

//! Calls aimed at the edges of what they ask.

use super::calls::Call;
use super::model::{Draft, PLACES};
use crate::image::Piece;
use crate::rng::Rng;

/// What of the calls before matters for those to come.
#[derive(Clone, Debug, Default)]
pub struct Memory {
    /// Places whose piece was removed.
    pub removed: Vec<u32>,
}

/// A call with a draft in mind.
pub fn any_call(draft: &Draft, memory: &Memory, rng: &mut Rng) -> Call {
    let present = draft.pieces().len();
    // Full drafts need removals, and empty ones additions.
    let removals = match present {
        0..4 => 4,
        2_000.. => 30,
        _ => 14,
    };
    let turn = rng.below(100);
    if turn < removals {
        let place = place_to_find(draft, memory, rng);
        return Call::Remove { place };
    }
    match turn {
        0..50 => any_addition(draft, memory, rng),
        50..68 => any_move(draft, memory, rng),
        68..82 => {
            let (task, job) = any_job(draft, rng);
            Call::Job { task, job }
        }
        82..89 => Call::Core {
            core: any_core(draft, rng),
        },
        _ => Call::Place {
            place: place_to_find(draft, memory, rng),
            lent: rng.pick(&[0, 1, 2, 3, 3, 4, 4, 4, 5, 6, 6]),
        },
    }
}

/// A call that is not refused.
pub fn accepted_edit(draft: &Draft, memory: &Memory, rng: &mut Rng) -> Option<Call> {
    (0..60).find_map(|_| {
        let call = any_call(draft, memory, rng);
        let accepted = call.is_edit() && call.of_model(Some(&mut draft.clone())).number == 0;
        accepted.then_some(call)
    })
}

/// Places that are none, and the last that is one.
const EDGES: [u32; 6] = [
    PLACES - 1,
    PLACES,
    PLACES + 1,
    u32::MAX,
    u32::MAX - PLACES,
    1 << 31,
];

fn taken_place(draft: &Draft, rng: &mut Rng) -> Option<u32> {
    let present = draft.pieces().len();
    (present > 0).then(|| {
        let nth = rng.below(present);
        let mut places = draft.pieces().keys();
        *places.nth(nth).expect("as many pieces")
    })
}

fn any_place(rng: &mut Rng) -> u32 {
    match rng.below(12) {
        0..8 => rng.within(0..=PLACES - 1),
        8..11 => rng.pick(&EDGES),
        _ => rng.word(),
    }
}

/// A place for a call that wants a piece there: mostly it has one.
fn place_to_find(draft: &Draft, memory: &Memory, rng: &mut Rng) -> u32 {
    let found = match rng.below(10) {
        0 => rng.pick_any(&memory.removed),
        1..9 => taken_place(draft, rng),
        _ => None,
    };
    found.unwrap_or_else(|| any_place(rng))
}

/// A place for a call that wants none there: mostly it is free.
fn place_to_fill(draft: &Draft, memory: &Memory, rng: &mut Rng) -> u32 {
    let found = match rng.below(10) {
        0..3 => rng.pick_any(&memory.removed),
        3..5 => (0..PLACES).find(|place| !draft.pieces().contains_key(place)),
        5 => taken_place(draft, rng),
        _ => None,
    };
    found.unwrap_or_else(|| any_place(rng))
}

fn any_task(draft: &Draft, rng: &mut Rng) -> u32 {
    let count = draft.plan().tasks.len() as u32;
    let edges = [count, count + 1, 255, 256, u32::MAX, u32::MAX - 1, 1 << 31];
    if count == 0 || rng.chance(7) {
        return rng.pick(&edges);
    }
    if rng.chance(20) {
        return count - 1;
    }
    rng.within(0..=count - 1)
}

/// A task and a job of it, or nearly.
fn any_job(draft: &Draft, rng: &mut Rng) -> (u32, u32) {
    let task = any_task(draft, rng);
    if rng.chance(50) {
        if let Some(place) = taken_place(draft, rng) {
            let [task, job, ..] = draft.pieces()[&place];
            return (task, job);
        }
    }
    if task as usize >= draft.plan().tasks.len() {
        return (task, rng.pick(&[0, 1, u32::MAX]));
    }
    let (period, jobs) = (draft.plan().period(task), draft.plan().jobs(task));
    // The first job whose release is past 2^32, and one whose release would
    // wrap around to the cycle.
    let huge = u32::MAX / period;
    let edges = [
        0,
        jobs - 1,
        jobs - 1,
        jobs,
        jobs + 1,
        period,
        period - 1,
        huge,
        huge.saturating_add(1),
        u32::MAX,
    ];
    let job = match rng.below(3) {
        0 => rng.pick(&edges),
        _ => rng.within(0..=jobs - 1),
    };
    (task, job)
}

fn any_core(draft: &Draft, rng: &mut Rng) -> u32 {
    let count = draft.plan().cores.len() as u32;
    let edges = [count - 1, count, count + 1, 31, 32, u32::MAX];
    if rng.chance(30) {
        rng.pick(&edges)
    } else {
        rng.within(0..=count - 1)
    }
}

fn any_addition(draft: &Draft, memory: &Memory, rng: &mut Rng) -> Call {
    Call::Add {
        place: place_to_fill(draft, memory, rng),
        piece: any_piece(draft, rng),
    }
}

/// A piece that meets 5 and 10, or nearly.
pub fn any_piece(draft: &Draft, rng: &mut Rng) -> Piece {
    let (task, job) = any_job(draft, rng);
    if task as usize >= draft.plan().tasks.len() {
        return [task, job, rng.pick(&[0, 1, u32::MAX]), rng.within(1..=9)];
    }
    if rng.chance(6) {
        // A copy of a piece that is there, or what is nothing at all.
        return match taken_place(draft, rng) {
            Some(place) => draft.pieces()[&place],
            None => [task, job, rng.word(), rng.word()],
        };
    }
    let [_, _, _, _, deadline, ..] = draft.plan().tasks[task as usize];
    let d = draft.plan().task_switch(task);
    let length = match rng.below(12) {
        0 => d,
        1 | 2 => d + 1,
        3 => deadline,
        4 => deadline + 1,
        5 => rng.pick(&[0, 1, u32::MAX, u32::MAX - 1, 1 << 31, 1_000_000]),
        _ => rng.within(d + 1..=(d + 1).max(deadline)),
    };
    [task, job, any_start(draft, task, job, length, rng), length]
}

/// A start for a piece of a job, between release and due tick or nearly.
fn any_start(draft: &Draft, task: u32, job: u32, length: u32, rng: &mut Rng) -> u32 {
    let [_, _, period, _, deadline, ..] = draft.plan().tasks[task as usize];
    let release = u64::from(job) * u64::from(period);
    let latest = (release + u64::from(deadline)).saturating_sub(u64::from(length));
    // What is past 2^32 wraps around.
    let word = |tick: u64| tick as u32;
    let wrapped = 0u32.wrapping_sub(length);
    let edges = [
        word(release),
        word(release.wrapping_sub(1)),
        word(release + 1),
        word(latest),
        word(latest + 1),
        word(latest.wrapping_sub(1)),
    ];
    match rng.below(20) {
        0..10 => rng.pick(&edges),
        10 => {
            // The end wraps around to the release, or near it.
            let end = release + u64::from(rng.within(0..=deadline));
            wrapped.wrapping_add(word(end))
        }
        11 => rng.pick(&[wrapped, wrapped.wrapping_add(1), u32::MAX, 1 << 31]),
        12 => taken_place(draft, rng).map_or(0, |place| draft.pieces()[&place][2]),
        _ if latest > release => {
            let within = rng.within(0..=(latest - release).min(u64::from(u32::MAX)) as u32);
            word(release + u64::from(within))
        }
        _ => word(release),
    }
}

fn any_move(draft: &Draft, memory: &Memory, rng: &mut Rng) -> Call {
    let place = place_to_find(draft, memory, rng);
    let start = match draft.pieces().get(&place) {
        None => rng.pick(&[0, 1, u32::MAX]),
        Some(&[_, _, start, ..]) if rng.chance(10) => start,
        Some(&[task, job, _, length, ..]) => any_start(draft, task, job, length, rng),
    };
    Call::Move { place, start }
}

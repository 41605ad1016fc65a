//! Changes aimed at questions 40 and 41.

use super::streams::{frame_room, frame_row, latency, own_link, second_stream, ticks};
use super::{any_where, buffers, cores, job_span, set, wide, word};
use crate::image::Plan;
use crate::rng::Rng;

/// A queue past the last, sometimes beside what 6 or 7 refuses.
pub fn queue(plan: &mut Plan, rng: &mut Rng) -> Option<()> {
    match rng.below(10) {
        0 => cores::range(plan, rng)?,
        1 => cores::window_bounds(plan, rng)?,
        _ => {}
    }
    let queues = [8, 8, 8, 8, 9, 15, 16, 255, 256, 1 << 31, u32::MAX];
    set(&mut plan.streams, 5, rng.pick(&queues), rng)
}

/// Stays in one queue of a link that overlap, by a tick or more, or just do
/// not; sometimes beside what 21 or 22 refuses.
pub fn stays(plan: &mut Plan, rng: &mut Rng) -> Option<()> {
    match rng.below(12) {
        0 => latency(plan, rng)?,
        1 => buffers::sides(plan, rng)?,
        _ => {}
    }
    let ways: [Way; 10] = [
        lowest_delay,
        lowest_delay,
        lowest_delay,
        earlier_end,
        earlier_end,
        early_arrival,
        early_arrival,
        share,
        share,
        beside,
    ];
    for way in [rng.pick(&ways), share, beside] {
        let mut changed = plan.clone();
        if way(&mut changed, rng).is_some() {
            *plan = changed;
            return Some(());
        }
    }
    None
}

/// A way to change a plan; none where it has no rows that would serve.
type Way = fn(&mut Plan, &mut Rng) -> Option<()>;

/// From when a frame stays on its link, not cut at 0. None where the sender's
/// job or the hop before is missing.
fn stays_from(plan: &Plan, frame: usize) -> Option<i64> {
    let [stream, k, hop, ..] = plan.frames[frame];
    let Some(before) = hop.checked_sub(1) else {
        let (_, end) = job_span(plan, plan.streams[stream as usize][0], k)?;
        return Some(end);
    };
    let before = frame_row(plan, stream, k, before)?;
    let [_, _, _, link, start, ..] = plan.frames[before];
    let [_, _, _, _, lowest, ..] = plan.links[link as usize];
    Some(wide(start) + wide(lowest) - wide(plan.precision))
}

fn end(plan: &Plan, frame: usize) -> i64 {
    wide(plan.frames[frame][4]) + ticks(plan, frame)
}

/// Whether frames of two streams go over one link.
fn share_link(plan: &Plan, a: usize, b: usize) -> bool {
    let (a, b) = (plan.frames[a], plan.frames[b]);
    a[0] != b[0] && a[3] == b[3]
}

fn queue_of(plan: &Plan, frame: usize) -> u32 {
    plan.streams[plan.frames[frame][0] as usize][5]
}

/// Puts a frame's stream into another one's queue.
fn follow(plan: &mut Plan, frame: usize, other: usize) {
    let queue = queue_of(plan, other);
    let stream = plan.frames[frame][0] as usize;
    plan.streams[stream][5] = queue;
}

/// Two frames that serve together, sometimes of jobs of different numbers,
/// where there are such.
fn any_frames(
    plan: &Plan,
    serve: impl Fn(usize, usize) -> bool,
    rng: &mut Rng,
) -> Option<(usize, usize)> {
    let job = |frame: usize| plan.frames[frame][1];
    let apart = |a: usize, b: usize| job(a) != job(b) && serve(a, b);
    let of_two = rng.chance(40).then(|| frame_pair(plan, apart, rng));
    of_two.flatten().or_else(|| frame_pair(plan, serve, rng))
}

/// Two frames that serve together.
fn frame_pair(
    plan: &Plan,
    serve: impl Fn(usize, usize) -> bool,
    rng: &mut Rng,
) -> Option<(usize, usize)> {
    let frames = plan.frames.len();
    for _ in 0..20 {
        let one = rng.below(frames.max(1));
        let other = any_where(frames, |other| serve(one, other), rng);
        if let Some(other) = other {
            return Some((one, other));
        }
    }
    None
}

/// One queue for two streams over one link, whose stays mostly overlap.
fn share(plan: &mut Plan, rng: &mut Rng) -> Option<()> {
    let any = rng.chance(30);
    let overlap = |a: usize, b: usize| {
        let from = |frame: usize| stays_from(plan, frame).unwrap_or(0);
        from(a) < end(plan, b) && from(b) < end(plan, a)
    };
    let serve = |a: usize, b: usize| share_link(plan, a, b) && (any || overlap(a, b));
    let (one, other) = any_frames(plan, serve, rng)?;
    follow(plan, one, other);
    Some(())
}

/// Ticks by which two stays overlap; at 0 they touch.
fn overlap(rng: &mut Rng) -> i64 {
    rng.pick(&[0, 1, 1, 1, 1])
}

/// Has a later hop's stay begin where a frame before it ends, by the lowest
/// delay of the link that it came over; that is one of its own then.
fn lowest_delay(plan: &mut Plan, rng: &mut Rng) -> Option<()> {
    let by = overlap(rng);
    let lowest = |plan: &Plan, late: usize, early: usize| {
        let [stream, k, hop, ..] = plan.frames[late];
        let before = frame_row(plan, stream, k, hop.checked_sub(1)?)?;
        let start = wide(plan.frames[before][4]);
        let lowest = end(plan, early) - by + wide(plan.precision) - start;
        let highest = wide(plan.frames[late][4]) - end(plan, before) - wide(plan.precision);
        let fits = (0..=highest).contains(&lowest);
        fits.then_some((before, word(lowest), word(highest)))
    };
    let serve = |late: usize, early: usize| {
        share_link(plan, late, early)
            && end(plan, early) <= wide(plan.frames[late][4])
            && lowest(plan, late, early).is_some()
    };
    let (late, early) = frame_pair(plan, serve, rng)?;
    let (before, lowest, highest) = lowest(plan, late, early)?;
    follow(plan, late, early);
    own_link(plan, before)?;
    let any = rng.within(lowest..=highest);
    let link = plan.links.last_mut()?;
    (link[2], link[4]) = (rng.pick(&[any, highest]), lowest);
    Some(())
}

/// Moves a frame so that it ends where another one's stay begins.
fn earlier_end(plan: &mut Plan, rng: &mut Rng) -> Option<()> {
    let by = overlap(rng);
    let start = |plan: &Plan, late: usize, early: usize| {
        let start = stays_from(plan, late)?.max(0) + by - ticks(plan, early);
        let (first, last) = room(plan, early)?;
        let fits = (first..=last).contains(&start) && is_free(plan, early, start);
        fits.then_some(start)
    };
    let serve = |late: usize, early: usize| {
        share_link(plan, late, early) && start(plan, late, early).is_some()
    };
    let (late, early) = any_frames(plan, serve, rng)?;
    plan.frames[early][4] = word(start(plan, late, early)?);
    follow(plan, late, early);
    Some(())
}

/// Whether a frame could start at a tick, as far as question 19 goes.
fn is_free(plan: &Plan, frame: usize, start: i64) -> bool {
    (0..plan.frames.len()).all(|other| {
        let apart = start + ticks(plan, frame) <= wide(plan.frames[other][4]);
        let one_link = plan.frames[other][3] == plan.frames[frame][3];
        other == frame || !one_link || apart || end(plan, other) <= start
    })
}

/// The first and last start that questions 15, 18 and 20 leave a frame.
fn room(plan: &Plan, frame: usize) -> Option<(i64, i64)> {
    let [stream, k, hop, link, ..] = plan.frames[frame];
    let [sender, receiver, _, hops, ..] = plan.streams[stream as usize];
    let (mut first, mut last) = frame_room(plan, frame, link);
    if hop == 0 {
        first = first.max(job_span(plan, sender, k)?.1);
    }
    if hop + 1 == hops {
        let taken = ticks(plan, frame) + wide(plan.links[link as usize][2]);
        let (start, _) = job_span(plan, receiver, k)?;
        last = last.min(start - taken - wide(plan.precision));
    }
    Some((first, last))
}

/// A second stream in one's queue, its frames behind the other's, as far as
/// the receivers wait for them.
fn beside(plan: &mut Plan, rng: &mut Rng) -> Option<()> {
    let frames = 0..plan.frames.len();
    let late = |stream: usize| {
        let own = frames
            .clone()
            .filter(|row| plan.frames[*row][0] as usize == stream);
        let late = own.clone().map(|row| ticks(plan, row)).max()?;
        let has_room = |row: usize| {
            let start = wide(plan.frames[row][4]);
            plan.frames[row][2] + 1 < plan.streams[stream][3]
                || room(plan, row).is_some_and(|(_, last)| start + late <= last)
        };
        own.clone().all(has_room).then_some(late)
    };
    let stream = any_where(plan.streams.len(), |row| late(row).is_some(), rng)?;
    let late = word(late(stream)?);
    second_stream(plan, stream, late, 0, rng)
}

/// A stay that begins at 0, since P is more than what comes before it, beside
/// a frame of its queue. Where there is none so early, the link before has no
/// lowest delay then, and P becomes what it takes.
fn early_arrival(plan: &mut Plan, rng: &mut Rng) -> Option<()> {
    let begin = |frame: usize| {
        let [stream, k, hop, ..] = plan.frames[frame];
        let before = frame_row(plan, stream, k, hop.checked_sub(1)?)?;
        Some((before, plan.frames[before][4]))
    };
    let is_below = |frame: usize| stays_from(plan, frame).is_some_and(|from| from < 0);
    let below = |late: usize, early: usize| share_link(plan, late, early) && is_below(late);
    let is_near = |frame: usize| begin(frame).is_some_and(|(_, at)| at < plan.precision + 3);
    let near = |late: usize, early: usize| share_link(plan, late, early) && is_near(late);
    let (late, early) = frame_pair(plan, below, rng).or_else(|| frame_pair(plan, near, rng))?;
    let (before, at) = begin(late)?;
    if stays_from(plan, late)? >= 0 {
        own_link(plan, before)?;
        plan.links.last_mut()?[4] = 0;
        plan.precision = plan.precision.max(at + 1);
    }
    follow(plan, late, early);
    Some(())
}

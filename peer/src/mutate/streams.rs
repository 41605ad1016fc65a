//! Changes aimed at questions 14 to 21.

use super::{any_row, any_where, both_spans, chains, deadlines, insert, job_span, wide, word};
use crate::image::{row_of, Frame, Plan, FRAME, LINK, QUEUES, ROW_BOUNDS};
use crate::rng::Rng;

/// Any two tasks that serve.
fn task_pair(plan: &Plan, serve: impl Fn(u32, u32) -> bool, rng: &mut Rng) -> Option<(u32, u32)> {
    super::any_pair(plan.tasks.len(), |a, b| serve(a as u32, b as u32), rng)
        .map(|(a, b)| (a as u32, b as u32))
}

/// Whether two tasks may be a stream's ends.
fn may_talk(plan: &Plan, a: u32, b: u32) -> bool {
    plan.period(a) == plan.period(b) && plan.node_of_task(a) != plan.node_of_task(b)
}

pub fn ends(plan: &mut Plan, rng: &mut Rng) -> Option<()> {
    if rng.chance(40) {
        let (sender, receiver) = task_pair(plan, |a, b| !may_talk(plan, a, b), rng)?;
        return insert_stream(plan, [sender, receiver, 0, 1, rng.within(46..=1_500)]);
    }
    let row = any_row(&plan.streams, rng)?;
    let end = rng.below(2);
    let kept = plan.streams[row][1 - end];
    let task = any_where(
        plan.tasks.len(),
        |task| task as u32 != kept && !may_talk(plan, task as u32, kept),
        rng,
    )?;
    plan.streams[row][end] = task as u32;
    Some(())
}

/// Appends a stream, so that the rows that name streams stay right.
fn insert_stream<const N: usize>(plan: &mut Plan, words: [u32; N]) -> Option<()> {
    plan.streams.push(row_of(words));
    (plan.streams.len() <= 64).then_some(())
}

pub fn frame_in_job(plan: &mut Plan, rng: &mut Rng) -> Option<()> {
    let row = any_row(&plan.frames, rng)?;
    let [stream, k, _, link, ..] = plan.frames[row];
    let [sender, _, _, hops, ..] = plan.streams[stream as usize];
    let period = wide(plan.period(sender));
    let jobs = plan.jobs(sender);
    let due = (wide(k) + 1) * period;
    let (own, read) = (ticks(plan, row), read_ticks(plan, row, rng));
    let frame = &mut plan.frames[row];
    match rng.below(11) {
        0 => frame[1] = jobs,
        7 => {
            // The same place in the first job after the cycle.
            frame[1] = jobs;
            frame[4] = word(wide(frame[4]) + (wide(jobs) - wide(k)) * period);
        }
        1 => frame[1] = rng.pick(&[1 << 31, u32::MAX, jobs + 1]),
        2 => frame[2] = rng.pick(&[hops, hops + 1, 1 << 30, u32::MAX]),
        3 => frame[4] = word(wide(k) * period - 1),
        4 => frame[4] = word(due - own + rng.pick(&[0, 1, 1])),
        5 => frame[4] = rng.pick(&[u32::MAX, word(-own), 1 << 31]),
        6 => plan.links[link as usize][3] = 1,
        8 => plan.streams[stream as usize][4] = 1_500,
        9 => frame[4] = word(due - read),
        _ => {
            frame[4] = word(due - own);
            lengthen(plan, row, rng)?;
        }
    }
    Some(())
}

/// The bits of a stream's frames.
fn bits(plan: &Plan, stream: u32) -> i64 {
    8 * (wide(plan.streams[stream as usize][4]) + 42)
}

/// The ticks that so many bits take on a link. A rate of 0, which a change
/// before may have left, is taken for 1.
fn ticks_of(plan: &Plan, bits: i64, link: u32) -> i64 {
    let rate = wide(plan.links[link as usize][3]).max(1);
    (bits + rate - 1) / rate
}

fn ticks_on(plan: &Plan, stream: u32, link: u32) -> i64 {
    ticks_of(plan, bits(plan, stream), link)
}

/// The ticks that a frame takes.
pub fn ticks(plan: &Plan, frame: usize) -> i64 {
    let [stream, _, _, link, ..] = plan.frames[frame];
    ticks_on(plan, stream, link)
}

/// What one of many readings takes for the ticks of a frame: rounded down,
/// without what goes around the payload, or at the rate of another hop.
fn read_ticks(plan: &Plan, frame: usize, rng: &mut Rng) -> i64 {
    let [stream, k, hop, link, ..] = plan.frames[frame];
    let bits = bits(plan, stream);
    let near = [hop.wrapping_sub(1), hop.wrapping_add(1), 0];
    let at_rate_of = |hop: u32| {
        let frame = frame_row(plan, stream, k, hop);
        frame.map(|frame| ticks_of(plan, bits, plan.frames[frame][3]))
    };
    let own = ticks(plan, frame);
    let [before, after, first] = near.map(at_rate_of).map(|ticks| ticks.unwrap_or(own));
    let rounded_down = bits / wide(plan.links[link as usize][3]).max(1);
    let bare = ticks_of(plan, bits - 8 * 42, link);
    rng.pick(&[own, rounded_down, before, before, after, first, bare])
}

/// Makes a frame take one tick more, by the fewest bytes or the least change
/// of the rate that do.
fn lengthen(plan: &mut Plan, frame: usize, rng: &mut Rng) -> Option<()> {
    let [stream, _, _, link, ..] = plan.frames[frame];
    let own = ticks(plan, frame);
    if rng.chance(50) {
        let filled = own * wide(plan.links[link as usize][3]) / 8;
        let payload = filled + 1 - 42;
        plan.streams[stream as usize][4] = word(payload);
        (payload <= 1_500).then_some(())
    } else {
        let bits = bits(plan, stream);
        let least = (bits + own - 1) / own;
        plan.links[link as usize][3] = word(least - 1);
        (least > 1).then_some(())
    }
}

pub fn frame_count(plan: &mut Plan, rng: &mut Rng) -> Option<()> {
    if rng.chance(20) {
        let (sender, receiver) = task_pair(plan, |a, b| may_talk(plan, a, b), rng)?;
        return insert_stream(plan, [sender, receiver, 0, 1, rng.within(46..=1_500)]);
    }
    let row = any_row(&plan.frames, rng)?;
    let frame = plan.frames[row];
    let hops = plan.streams[frame[0] as usize][3];
    match rng.below(5) {
        0 => {
            plan.frames.remove(row);
        }
        1 => insert(&mut plan.frames, FRAME, frame, rng)?,
        2 if hops > 1 => plan.frames[row][2] = (frame[2] + 1) % hops,
        3 if hops < 8 => plan.streams[frame[0] as usize][3] = hops + 1,
        _ => {
            let other = any_row(&plan.frames, rng)?;
            let [_, k, _, _, start, ..] = plan.frames[other];
            (plan.frames[row][1], plan.frames[row][4]) = (k, start);
        }
    }
    Some(())
}

pub fn route(plan: &mut Plan, rng: &mut Rng) -> Option<()> {
    let row = any_row(&plan.frames, rng)?;
    let [stream, _, _, link, ..] = plan.frames[row];
    let [from, to, ..] = plan.links[link as usize];
    match rng.below(6) {
        0 => {
            let differs = |other: usize| plan.links[other][..2] != plan.links[link as usize][..2];
            let other = any_where(plan.links.len(), differs, rng)?;
            plan.frames[row][3] = other as u32;
            Some(())
        }
        1 => {
            plan.links[link as usize].swap(0, 1);
            Some(())
        }
        2 => {
            plan.streams[stream as usize].swap(0, 1);
            Some(())
        }
        3 => {
            plan.links[link as usize][1] = other_node(from, to);
            Some(())
        }
        // A detour that leaves all other hops as they are.
        detour => {
            own_link(plan, row)?;
            let end = usize::from(detour == 5);
            plan.links.last_mut()?[end] = other_node(from, to);
            Some(())
        }
    }
}

/// A node that is neither end of a link.
fn other_node(from: u32, to: u32) -> u32 {
    let node = (to + 1) % 16;
    if node == from {
        (to + 2) % 16
    } else {
        node
    }
}

/// The row of the frame of a stream, job and hop.
pub fn frame_row(plan: &Plan, stream: u32, k: u32, hop: u32) -> Option<usize> {
    let is_it = |frame: &Frame| frame[..3] == [stream, k, hop];
    plan.frames.iter().position(is_it)
}

/// A frame's end + delay + P.
fn arrival(plan: &Plan, frame: usize) -> i64 {
    arrival_after(plan, frame, ticks(plan, frame))
}

/// The same, if the frame took so many ticks.
fn arrival_after(plan: &Plan, frame: usize, ticks: i64) -> i64 {
    let [_, _, _, link, start, ..] = plan.frames[frame];
    wide(start) + ticks + wide(plan.links[link as usize][2]) + wide(plan.precision)
}

pub fn hop_order(plan: &mut Plan, rng: &mut Rng) -> Option<()> {
    let later = |row: usize| plan.frames[row][2] > 0;
    let row = any_where(plan.frames.len(), later, rng)?;
    let [stream, k, hop, _, start, ..] = plan.frames[row];
    let previous = frame_row(plan, stream, k, hop - 1)?;
    let bound = arrival(plan, previous);
    let spare = word(wide(start) - bound);
    let excess = rng.pick(&[0, 1, 1, 1]);
    match rng.below(7) {
        4 => {
            let read = read_ticks(plan, previous, rng);
            plan.frames[row][4] = word(arrival_after(plan, previous, read));
        }
        5 => {
            plan.frames[row][4] = word(bound);
            lengthen(plan, previous, rng)?;
        }
        6 => {
            let [a, b] = [previous, row].map(|frame| plan.frames[frame][3] as usize);
            let rates = [plan.links[a][3], plan.links[b][3]];
            [plan.links[b][3], plan.links[a][3]] = rates;
        }
        0 => {
            let link = plan.frames[previous][3] as usize;
            let delay = plan.links[link][2].wrapping_add(spare);
            plan.links[link][2] = delay.wrapping_add(excess);
        }
        1 => plan.precision = plan.precision.wrapping_add(spare).wrapping_add(excess),
        2 => plan.frames[row][4] = word(bound - wide(plan.precision) - wide(excess)),
        _ => plan.frames[row][4] = word(bound - wide(excess)),
    }
    Some(())
}

pub fn frame_clash(plan: &mut Plan, rng: &mut Rng) -> Option<()> {
    match rng.below(10) {
        0..=3 => {
            let frame = any_row(&plan.frames, rng)?;
            let own = word(ticks(plan, frame));
            let any = rng.within(0..=own);
            let late = rng.pick(&[own, own.saturating_sub(1), any]);
            let queues = rng.within(0..=QUEUES - 1);
            second_stream(plan, plan.frames[frame][0] as usize, late, queues, rng)
        }
        4 => {
            let frame = any_row(&plan.frames, rng)?;
            lengthen(plan, frame, rng)
        }
        5 => {
            let row = any_row(&plan.frames, rng)?;
            let ends = |link: usize| plan.links[link][..2].to_vec();
            let own = plan.frames[row][3] as usize;
            let other = any_where(plan.links.len(), |link| ends(link) == ends(own), rng)?;
            plan.frames[row][3] = other as u32;
            Some(())
        }
        _ => move_onto_frame(plan, rng),
    }
}

/// Moves a frame onto another, or next to it, where its job and the hops
/// before and after leave it room. The other's link has the same ends.
fn move_onto_frame(plan: &mut Plan, rng: &mut Rng) -> Option<()> {
    let row = any_row(&plan.frames, rng)?;
    let [stream, k, _, link, ..] = plan.frames[row];
    let ends = |link: u32| &plan.links[link as usize][..2];
    let starts = |other: usize| {
        let [_, _, _, link, start, ..] = plan.frames[other];
        let room = frame_room(plan, row, link);
        let own = ticks_on(plan, stream, link);
        let first = room.0.max(wide(start) - own + 1);
        let last = room.1.min(wide(start) + ticks(plan, other) - 1);
        (first <= last).then_some((first, last))
    };
    let other_jobs = rng.chance(50);
    let serves = |other: usize| {
        let differs = !other_jobs || plan.frames[other][1] != k;
        let beside = ends(plan.frames[other][3]) == ends(link);
        other != row && beside && differs && starts(other).is_some()
    };
    let other = any_where(plan.frames.len(), serves, rng)?;
    let (first, last) = starts(other)?;
    let any = first + rng.below((last - first) as usize + 1) as i64;
    plan.frames[row][3] = plan.frames[other][3];
    plan.frames[row][4] = word(rng.pick(&[first, first - 1, last, last + 1, any]));
    Some(())
}

/// The first and last start that questions 15 and 18 leave a frame if it is
/// sent on a link.
pub fn frame_room(plan: &Plan, row: usize, link: u32) -> (i64, i64) {
    let [stream, k, hop, ..] = plan.frames[row];
    let [sender, ..] = plan.streams[stream as usize];
    let own = ticks_on(plan, stream, link);
    let period = wide(plan.period(sender));
    let before = hop.checked_sub(1);
    let before = before.and_then(|hop| frame_row(plan, stream, k, hop));
    let after = frame_row(plan, stream, k, hop + 1);
    let first = wide(k) * period;
    let first = before.map_or(first, |before| first.max(arrival(plan, before)));
    let last = (wide(k) + 1) * period - own;
    let taken = own + wide(plan.links[link as usize][2]) + wide(plan.precision);
    let last = after.map_or(last, |after| last.min(wide(plan.frames[after][4]) - taken));
    (first, last)
}

/// A second stream beside one, its frames on the same links, so much later and
/// so many queues on.
pub fn second_stream(
    plan: &mut Plan,
    stream: usize,
    late: u32,
    queues: u32,
    rng: &mut Rng,
) -> Option<()> {
    let second = plan.streams.len() as u32;
    let mut words = plan.streams[stream];
    words[5] = (words[5] + queues) % QUEUES;
    insert_stream(plan, words)?;
    let of_stream = |frame: &&Frame| frame[0] as usize == stream;
    let frames: Vec<Frame> = plan.frames.iter().filter(of_stream).copied().collect();
    for mut frame in frames {
        (frame[0], frame[4]) = (second, frame[4].wrapping_add(late));
        insert(&mut plan.frames, FRAME, frame, rng)?;
    }
    Some(())
}

pub fn message_order(plan: &mut Plan, rng: &mut Rng) -> Option<()> {
    let stream = any_row(&plan.streams, rng)?;
    let [sender, receiver, _, hops, ..] = plan.streams[stream];
    let k = rng.below(plan.jobs(sender).max(1) as usize) as u32;
    let (sender_start, sender_end) = job_span(plan, sender, k)?;
    let (receiver_start, _) = job_span(plan, receiver, k)?;
    let first = frame_row(plan, stream as u32, k, 0)?;
    let last = frame_row(plan, stream as u32, k, hops.wrapping_sub(1))?;
    let spare = word(receiver_start - arrival(plan, last));
    let excess = rng.pick(&[0, 1, 1, 1]);
    if rng.chance(40) {
        own_link(plan, first)?;
        own_link(plan, last)?;
    }
    match rng.below(7) {
        4 => {
            let read = read_ticks(plan, last, rng);
            let late = receiver_start - arrival_after(plan, last, read);
            plan.frames[last][4] = word(wide(plan.frames[last][4]) + late);
        }
        5 => {
            let link = plan.frames[last][3] as usize;
            plan.links[link][2] = plan.links[link][2].wrapping_add(spare);
            lengthen(plan, last, rng)?;
        }
        0 => plan.frames[first][4] = word(sender_end - wide(excess)),
        1 => plan.frames[first][4] = word(sender_start),
        2 => plan.precision = plan.precision.wrapping_add(spare).wrapping_add(excess),
        3 => {
            let link = plan.frames[last][3] as usize;
            let delay = plan.links[link][2].wrapping_add(spare);
            plan.links[link][2] = delay.wrapping_add(excess);
        }
        _ => {
            let start = plan.frames[last][4].wrapping_add(spare);
            plan.frames[last][4] = start.wrapping_add(excess);
        }
    }
    Some(())
}

/// Moves a frame to a new link beside its own.
pub fn own_link(plan: &mut Plan, frame: usize) -> Option<()> {
    let beside = plan.links[plan.frames[frame][3] as usize];
    plan.frames[frame][3] = plan.links.len() as u32;
    plan.links.push(beside);
    (plan.links.len() <= ROW_BOUNDS[LINK as usize - 1].1 as usize).then_some(())
}

pub fn latency(plan: &mut Plan, rng: &mut Rng) -> Option<()> {
    if rng.chance(80) {
        return latency_of_0(plan, rng);
    }
    let stream = any_row(&plan.streams, rng)?;
    let [sender, receiver, ..] = plan.streams[stream];
    let least = word(deadlines::least(plan, sender, receiver)?);
    let bounds = [least.wrapping_sub(1), least.wrapping_sub(1), least, 1];
    plan.streams[stream][2] = rng.pick(&bounds);
    Some(())
}

/// An E of 0 that is passed already, or with deadlines for which it matters
/// whose it is and by how much.
fn latency_of_0(plan: &mut Plan, rng: &mut Rng) -> Option<()> {
    let is_passed = rng.chance(15);
    let is_later = rng.chance(50);
    let row = if is_passed || rng.chance(40) {
        let serves = |row: usize| {
            let [sender, receiver, ..] = plan.streams[row];
            if is_passed {
                return !deadlines::bears_0(plan, sender, receiver);
            }
            let is_telling = !is_later || deadlines::is_later(plan, sender, receiver);
            is_telling && deadlines::can_tell(plan, sender, receiver)
        };
        any_where(plan.streams.len(), serves, rng)?
    } else {
        leave_one(plan, is_later, rng)?;
        0
    };
    let [sender, receiver, ..] = plan.streams[row];
    plan.streams[row][2] = 0;
    if is_passed {
        return Some(());
    }
    deadlines::tell(plan, sender, receiver, rng)
}

/// Leaves one stream, each frame of one tick, without delay and as soon as may
/// be, with a P that tells; if wanted, one of which a later job takes longest.
pub fn leave_one(plan: &mut Plan, is_later: bool, rng: &mut Rng) -> Option<()> {
    let serves = |row: usize| {
        let [sender, receiver, ..] = plan.streams[row];
        let is_telling = !is_later || deadlines::is_later(plan, sender, receiver);
        is_telling && precisions_alone(plan, row).is_some()
    };
    let row = any_where(plan.streams.len(), serves, rng)?;
    let [lowest, highest] = precisions_alone(plan, row)?;
    plan.precision = rng.within(lowest..=highest);
    let [sender, receiver, latency, hops, ..] = plan.streams[row];
    plan.streams = vec![row_of([sender, receiver, latency, hops, 46])];
    chains::keep_joined(plan);
    for link in &mut plan.links {
        (link[2], link[3], link[4]) = (0, 10_000, 0);
    }
    plan.frames.retain(|frame| frame[0] as usize == row);
    for row in 0..plan.frames.len() {
        let [_, k, hop, ..] = plan.frames[row];
        let (_, sent) = job_span(plan, sender, k)?;
        let start = sent + wide(hop) * (1 + wide(plan.precision));
        (plan.frames[row][0], plan.frames[row][4]) = (0, word(start));
    }
    Some(())
}

/// The lowest and the highest P that would tell, and that a stream alone bears
/// if its frames take one tick and have no delay.
fn precisions_alone(plan: &Plan, row: usize) -> Option<[u32; 2]> {
    let [sender, receiver, _, hops, ..] = plan.streams[row];
    let [lowest, highest] = deadlines::telling_precisions(plan, sender, receiver)?;
    let each = ticks_between(plan, sender, receiver)? / wide(hops.max(1));
    let highest = highest.min(each - 1);
    (lowest <= highest).then_some([word(lowest), word(highest)])
}

/// The fewest ticks from the end of a job to the start of another task's.
fn ticks_between(plan: &Plan, sender: u32, receiver: u32) -> Option<i64> {
    let spans = both_spans(plan, sender, receiver);
    let ticks = spans.map(|[(_, end), (start, _)]| start - end);
    ticks.min()
}

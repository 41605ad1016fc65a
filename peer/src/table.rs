//! Dispatch tables: questions 25 and 26, and the entries of each lane.

use crate::answer::Answer;
use crate::charges::charges;
use crate::check::examine;
use crate::image::{Frame, Piece, Plan, Window};

/// First tick, kind, row.
pub type Entry = [u32; 3];

const IDLE: u32 = 0;
const VCPU_SWITCH: u32 = 1;
const SPARE: u32 = 2;
const TASK_SWITCH: u32 = 3;
const WORK: u32 = 4;
pub const SENDING: u32 = 5;

/// Writes a lane's table (H, n, entries) from the first word on, or gives
/// the first question answered no and changes no word.
pub fn build(image: &[u8], lane: u32, words: &mut [u32]) -> Answer {
    match try_build(image, lane, words) {
        Ok(()) => Answer::ACCEPTED,
        Err(refusal) => refusal,
    }
}

/// The entries of every lane of an accepted image, lanes rising.
pub fn lanes(image: &[u8]) -> Result<Vec<Vec<Entry>>, Answer> {
    let plan = examine(image)?;
    let charges = charges(&plan);
    let entries = |lane| lane_entries(&plan, &charges, lane);
    Ok((0..plan.lanes()).map(entries).collect())
}

/// The words of every lane's table of an accepted image, lanes rising.
pub fn tables(image: &[u8]) -> Result<Vec<Vec<u32>>, Answer> {
    let plan = examine(image)?;
    let charges = charges(&plan);
    let table = |lane| {
        let entries = lane_entries(&plan, &charges, lane);
        let head = [plan.cycle, entries.len() as u32];
        [&head, entries.as_flattened()].concat()
    };
    Ok((0..plan.lanes()).map(table).collect())
}

fn try_build(image: &[u8], lane: u32, words: &mut [u32]) -> Result<(), Answer> {
    let plan = examine(image)?;
    let lane = lane as usize;
    if lane >= plan.lanes() {
        return Err(Answer::plain(25));
    }
    let entries = lane_entries(&plan, &charges(&plan), lane);
    match words.get_mut(..2 + 3 * entries.len()) {
        None => Err(Answer::plain(26)),
        Some(table) => {
            table[0] = plan.cycle;
            table[1] = entries.len() as u32;
            table[2..].copy_from_slice(entries.as_flattened());
            Ok(())
        }
    }
}

fn lane_entries(plan: &Plan, charges: &[u32], lane: usize) -> Vec<Entry> {
    match lane.checked_sub(plan.cores.len()) {
        None => core_entries(plan, charges, lane as u32),
        Some(link) => link_entries(plan, link as u32),
    }
}

/// A lane filled from tick 0 on.
struct Lane {
    filled: u32,
    entries: Vec<Entry>,
}

impl Lane {
    fn new() -> Lane {
        Lane {
            filled: 0,
            entries: Vec::new(),
        }
    }

    /// Shows a kind and row up to a tick, if any ticks are left before it.
    fn show(&mut self, until: u32, kind: u32, row: u32) {
        if self.filled < until {
            self.entries.push([self.filled, kind, row]);
            self.filled = until;
        }
    }
}

/// What occupies a lane: start, end and row.
type Stretch = (u32, u32, u32);

fn core_entries(plan: &Plan, charges: &[u32], core: u32) -> Vec<Entry> {
    let [_, d, ..] = plan.cores[core as usize];
    let pieces = core_pieces(plan, core);
    let mut pieces = pieces.iter().peekable();
    let mut lane = Lane::new();
    for (opens, closes, window) in core_windows(plan, core) {
        lane.show(opens, IDLE, 0);
        lane.show(opens + charges[window as usize], VCPU_SWITCH, window);
        while let Some(&(start, end, piece)) = pieces.next_if(|piece| piece.0 < closes) {
            lane.show(start, SPARE, window);
            lane.show(start + d, TASK_SWITCH, piece);
            lane.show(end, WORK, piece);
        }
        lane.show(closes, SPARE, window);
    }
    lane.show(plan.cycle, IDLE, 0);
    lane.entries
}

pub fn link_entries(plan: &Plan, link: u32) -> Vec<Entry> {
    let mut lane = Lane::new();
    for (start, end, frame) in link_frames(plan, link) {
        lane.show(start, IDLE, 0);
        lane.show(end, SENDING, frame);
    }
    lane.show(plan.cycle, IDLE, 0);
    lane.entries
}

fn core_windows(plan: &Plan, core: u32) -> Vec<Stretch> {
    let on_core = |(row, &[vcpu, start, length, ..]): (usize, &Window)| {
        (plan.core_of_vcpu(vcpu) == core).then_some((start, start + length, row as u32))
    };
    sorted(plan.windows.iter().enumerate().filter_map(on_core))
}

fn core_pieces(plan: &Plan, core: u32) -> Vec<Stretch> {
    let on_core = |(row, &[task, _, start, length, ..]): (usize, &Piece)| {
        (plan.core_of_task(task) == core).then_some((start, start + length, row as u32))
    };
    sorted(plan.pieces.iter().enumerate().filter_map(on_core))
}

fn link_frames(plan: &Plan, link: u32) -> Vec<Stretch> {
    let on_link = |(row, &[stream, _, _, carrier, start, ..]): (usize, &Frame)| {
        let end = start + plan.frame_ticks(stream, carrier);
        (carrier == link).then_some((start, end, row as u32))
    };
    sorted(plan.frames.iter().enumerate().filter_map(on_link))
}

fn sorted(stretches: impl Iterator<Item = Stretch>) -> Vec<Stretch> {
    let mut stretches: Vec<_> = stretches.collect();
    stretches.sort_unstable();
    stretches
}

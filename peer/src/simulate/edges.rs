//! Plans on both sides of a question's edge: one tick apart, the one
//! accepted, the other refused.

use crate::check::check;
use crate::image::{Frame, Plan};
use crate::rng::Rng;

/// A time of the plan that can be turned tick by tick.
#[derive(Clone, Copy, Debug)]
pub enum Dial {
    Precision,
    Budget(usize),
    PieceStart(usize),
    PieceLength(usize),
    Deadline(usize),
    Delay(usize),
    LowestDelay(usize),
    Latency(usize),
    /// Turned on to where a frame takes more or fewer ticks.
    Payload(usize),
    /// The same.
    Rate(usize),
    FrameStart(usize),
    Limit(usize),
}

/// An accepted plan, and the same one tick further. The rows of both are in
/// order, so that a piece or frame that is turned may have another row in each.
#[derive(Clone, Debug)]
pub struct Edge {
    /// The first question that is answered no there.
    pub question: u32,
    pub dial: Dial,
    pub kept: Plan,
    pub broken: Plan,
}

/// Turns every dial of an accepted plan both ways until a question refuses,
/// in any order.
pub fn edges(plan: &Plan, rng: &mut Rng) -> Vec<Edge> {
    let mut turns: Vec<(Dial, i64)> = Vec::new();
    for dial in dials(plan) {
        turns.extend([(dial, 1), (dial, -1)]);
    }
    rng.shuffle(&mut turns);
    let turned = |(dial, by)| edge(plan, dial, by);
    turns.into_iter().filter_map(turned).collect()
}

fn dials(plan: &Plan) -> Vec<Dial> {
    let [_, _, tasks, _, pieces, links, streams, frames, _, chains] = plan.counts();
    let mut dials = vec![Dial::Precision];
    dials.extend((0..tasks).map(Dial::Budget));
    dials.extend((0..pieces).map(Dial::PieceStart));
    dials.extend((0..pieces).map(Dial::PieceLength));
    dials.extend((0..tasks).map(Dial::Deadline));
    dials.extend((0..links).map(Dial::Delay));
    dials.extend((0..links).map(Dial::LowestDelay));
    dials.extend((0..streams).map(Dial::Latency));
    dials.extend((0..streams).map(Dial::Payload));
    dials.extend((0..links).map(Dial::Rate));
    dials.extend((0..frames).map(Dial::FrameStart));
    dials.extend((0..chains).map(Dial::Limit));
    dials
}

/// Turns one dial until a question refuses; none where it never does. The dial
/// keeps its row, whichever row that is once they are in order.
fn edge(plan: &Plan, dial: Dial, by: i64) -> Option<Edge> {
    let mut turned = plan.clone();
    let mut kept = plan.clone();
    for _ in 0..=2 * plan.cycle {
        dial.turn(&mut turned, by)?;
        let broken = turned.clone().in_order();
        match check(&broken.encode()).number {
            0 => kept = broken,
            question => {
                return Some(Edge {
                    question,
                    dial,
                    kept,
                    broken,
                })
            }
        }
    }
    None
}

impl Dial {
    /// Turns the dial by what makes a tick. Rates and payloads stop one step
    /// after their range.
    fn turn(self, plan: &mut Plan, by: i64) -> Option<()> {
        let lengths = frame_lengths(plan);
        loop {
            let word = self.word(plan);
            *word = u32::try_from(i64::from(*word) + by).ok()?;
            let in_range = match self {
                Dial::Payload(_) => (46..=1_500).contains(word),
                Dial::Rate(_) => (1..=10_000).contains(word),
                _ => false,
            };
            if !in_range || frame_lengths(plan) != lengths {
                return Some(());
            }
        }
    }

    /// The word that the dial turns. A latency or limit of 0 is first
    /// written out.
    fn word(self, plan: &mut Plan) -> &mut u32 {
        match self {
            Dial::Precision => &mut plan.precision,
            Dial::Budget(row) => &mut plan.tasks[row][3],
            Dial::PieceStart(row) => &mut plan.pieces[row][2],
            Dial::PieceLength(row) => &mut plan.pieces[row][3],
            Dial::Deadline(row) => &mut plan.tasks[row][4],
            Dial::Delay(row) => &mut plan.links[row][2],
            Dial::LowestDelay(row) => &mut plan.links[row][4],
            Dial::Latency(row) => {
                if plan.streams[row][2] == 0 {
                    plan.streams[row][2] = plan.deadline(plan.streams[row][1]);
                }
                &mut plan.streams[row][2]
            }
            Dial::Payload(row) => &mut plan.streams[row][4],
            Dial::Rate(row) => &mut plan.links[row][3],
            Dial::FrameStart(row) => &mut plan.frames[row][4],
            Dial::Limit(row) => {
                if plan.chains[row][2] == 0 {
                    plan.chains[row][2] = plan.deadline(plan.chains[row][1]);
                }
                &mut plan.chains[row][2]
            }
        }
    }
}

/// The ticks that each frame takes.
fn frame_lengths(plan: &Plan) -> Vec<u32> {
    let ticks = |&[stream, _, _, link, ..]: &Frame| plan.frame_ticks(stream, link);
    plan.frames.iter().map(ticks).collect()
}

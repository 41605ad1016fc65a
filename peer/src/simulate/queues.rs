//! The claim about queues: in true time, no two frames are in one queue of a
//! link at once, in one cycle or in two.

use super::claims::Messages;
use super::reading::{JobId, Reading, Tick};
use super::report::{Claim, Fact, Report, Violation};
use crate::image::{Frame, Plan};

/// The frames of each queue, and where each of them comes from.
pub struct Queues {
    /// Frame rows by link and queue.
    frames: Vec<Vec<usize>>,
    /// For each frame the row of the hop before, if there is one.
    before: Vec<Option<usize>>,
}

impl Queues {
    pub fn of(plan: &Plan) -> Queues {
        let place = |frame: &Frame| (frame[3], plan.streams[frame[0] as usize][5]);
        let mut rows: Vec<usize> = (0..plan.frames.len()).collect();
        rows.sort_by_key(|row| place(&plan.frames[*row]));
        let together =
            rows.chunk_by(|one, other| place(&plan.frames[*one]) == place(&plan.frames[*other]));
        let before = |&[stream, k, hop, ..]: &Frame| {
            let previous = [stream, k, hop.checked_sub(1)?];
            plan.frames.iter().position(|frame| frame[..3] == previous)
        };
        Queues {
            frames: together.map(<[usize]>::to_vec).collect(),
            before: plan.frames.iter().map(before).collect(),
        }
    }
}

/// A frame in a queue, by true time.
#[derive(Clone, Copy)]
struct Stay {
    from: i128,
    to: i128,
    cycle: usize,
    frame: usize,
    /// Whether it is sent, else it is still there.
    is_over: bool,
}

impl Messages<'_> {
    /// Asks of every queue whether its frames follow each other.
    pub fn ask_queues(&self, reading: &Reading, report: &mut Report) {
        for frames in &self.queues.frames {
            let cycles = 0..reading.cycles();
            let all = cycles.flat_map(|cycle| frames.iter().map(move |frame| (cycle, *frame)));
            let stays = all.filter_map(|(cycle, frame)| self.stay(reading, cycle, frame));
            let mut stays: Vec<Stay> = stays.collect();
            stays.sort_by_key(|stay| (stay.from, stay.to));
            let mut last: Option<Stay> = None;
            for stay in stays {
                self.ask_stay(reading, last, stay, report);
                last = last.filter(|last| last.to > stay.to).or(Some(stay));
            }
        }
    }

    /// A stay begins no sooner than the last one before it ends.
    fn ask_stay(&self, reading: &Reading, last: Option<Stay>, stay: Stay, report: &mut Report) {
        let fact = match stay.is_over {
            true => Fact::StayOver,
            false => Fact::StayOpen,
        };
        let alone = last.is_none_or(|last| last.to <= stay.from);
        report.ask(alone, fact, || Violation {
            claim: Claim::Queue,
            after: reading.moves,
            choice: Some(self.choice.clone()),
            what: told(stay, last),
        });
        if last.is_some_and(|last| last.to == stay.from) {
            report.tally.count(Fact::StayTouches);
        }
        if self.is_before_its_cycle(stay) {
            report.tally.count(Fact::StayBeforeCycle);
        }
    }

    /// From when a frame is in its queue until it is sent, or as long as is
    /// shown. None where it is not there by then.
    fn stay(&self, reading: &Reading, cycle: usize, frame: usize) -> Option<Stay> {
        let [stream, k, hop, link, ..] = self.plan.frames[frame];
        let lane = self.plan.cores.len() + link as usize;
        let sender = self.plan.streams[stream as usize][0];
        let from = match (hop, self.queues.before[frame]) {
            (0, _) if k < self.plan.jobs(sender) => {
                let task = sender;
                self.time.end(reading.end(JobId { cycle, task, k })?)
            }
            (_, before) => {
                let first = *reading.sent(cycle, before?).first()?;
                self.time.begin(first) + i128::from(self.choice.delays.of(cycle, before?))
            }
        };
        let sent = self.last_sent(reading, cycle, frame);
        let shown = Tick {
            index: reading.moves,
            lane,
        };
        let to = sent.map_or(self.time.begin(shown), |last| self.time.end(last));
        (from < to).then_some(Stay {
            from,
            to,
            cycle,
            frame,
            is_over: sent.is_some(),
        })
    }

    /// Whether a frame is there before its cycle begins, by its link's clock.
    fn is_before_its_cycle(&self, stay: Stay) -> bool {
        let lane = self.plan.cores.len() + self.plan.frames[stay.frame][3] as usize;
        let begin = stay.cycle as i128 * i128::from(self.plan.cycle);
        self.time.read(lane, stay.from) < begin
    }
}

fn told(stay: Stay, last: Option<Stay>) -> String {
    let one = |stay: Stay| {
        let Stay {
            from,
            to,
            cycle,
            frame,
            ..
        } = stay;
        format!("frame {frame} of cycle c + {cycle} from true time {from} to {to}")
    };
    let others = last.map_or(String::new(), one);
    format!("{}, in its queue {others}", one(stay))
}

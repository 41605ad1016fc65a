//! Which frame carries each stream, job and hop, and question 16.

use crate::answer::Answer;
use crate::image::{Plan, STREAM};

/// The frame rows of all streams, jobs and hops, in this order.
#[derive(Debug)]
pub struct Routes {
    /// Where each stream's frames begin, and where the last one's end.
    begins: Vec<usize>,
    frames: Vec<u32>,
}

/// A place among the frames that no frame has taken yet.
const OPEN: u32 = u32::MAX;

impl Routes {
    /// The routes of a plan in which question 16 is answered yes.
    pub fn of(plan: &Plan) -> Result<Routes, Answer> {
        let begins = leading_begins(plan);
        let leading = begins.len() - 1;
        let mut frames = vec![OPEN; begins[leading]];
        let mut sound = leading;
        for (row, &[stream, k, hop, ..]) in plan.frames.iter().enumerate() {
            let stream = stream as usize;
            if stream < sound {
                let hops = plan.streams[stream][3] as usize;
                let place = &mut frames[begins[stream] + k as usize * hops + hop as usize];
                if *place != OPEN {
                    sound = stream;
                }
                *place = row as u32;
            }
        }
        if sound == plan.streams.len() {
            Ok(Routes { begins, frames })
        } else {
            Err(Answer::at(16, STREAM, sound as u32))
        }
    }

    /// The frame rows of one stream, by job and hop.
    pub fn of_stream(&self, stream: u32) -> &[u32] {
        let stream = stream as usize;
        &self.frames[self.begins[stream]..self.begins[stream + 1]]
    }
}

/// Where the frames begin of all streams below the first with another number
/// of frames than jobs times hops.
fn leading_begins(plan: &Plan) -> Vec<usize> {
    let mut frames = vec![0; plan.streams.len()];
    for &[stream, ..] in &plan.frames {
        frames[stream as usize] += 1;
    }
    let mut begins = vec![0];
    let mut next = 0;
    for (&[sender, _, _, hops, ..], &count) in plan.streams.iter().zip(&frames) {
        if plan.jobs(sender) as usize * hops as usize != count {
            break;
        }
        next += count;
        begins.push(next);
    }
    begins
}

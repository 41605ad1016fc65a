//! When a frame arrives, as read on the clock of the node that sends it.

use crate::answer::Answer;
use crate::check::examine;
use crate::image::FRAME;

/// Writes a frame's earliest and latest arrival to the first two words, or
/// gives the first question answered no and changes no word: those of the
/// check, 5 for a frame that there is not, 26 for fewer words.
pub fn arrivals(image: &[u8], frame: u32, ticks: &mut [u32]) -> Answer {
    match try_arrivals(image, frame, ticks) {
        Ok(()) => Answer::ACCEPTED,
        Err(refusal) => refusal,
    }
}

fn try_arrivals(image: &[u8], frame: u32, ticks: &mut [u32]) -> Result<(), Answer> {
    let plan = examine(image)?;
    let row = plan.frames.get(frame as usize);
    let &[stream, _, _, link, start, ..] = row.ok_or(Answer::at(5, FRAME, frame))?;
    let [_, _, delay, _, lowest, ..] = plan.links[link as usize];
    let end = start + plan.frame_ticks(stream, link);
    let lent = ticks.get_mut(..2).ok_or(Answer::plain(26))?;
    lent.copy_from_slice(&[end + lowest, end + delay]);
    Ok(())
}

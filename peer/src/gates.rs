//! Gate lists for the switches: question 42, and when which queue's gate of a
//! link is open.

use crate::answer::Answer;
use crate::check::examine;
use crate::image::Plan;
use crate::table::{link_entries, Entry, SENDING};

/// Octet and interval.
type Gate = [u32; 2];

/// Writes a link's gate list (m, then m pairs of octet and interval) from the
/// first word on, or gives the first question answered no and changes no word:
/// those of the check, 25 for a link that there is not, 42 for fewer words.
pub fn gates(image: &[u8], link: u32, words: &mut [u32]) -> Answer {
    match try_gates(image, link, words) {
        Ok(()) => Answer::ACCEPTED,
        Err(refusal) => refusal,
    }
}

fn try_gates(image: &[u8], link: u32, words: &mut [u32]) -> Result<(), Answer> {
    let plan = examine(image)?;
    if link as usize >= plan.links.len() {
        return Err(Answer::plain(25));
    }
    let list = gate_words(&plan, link);
    let lent = words.get_mut(..list.len()).ok_or(Answer::plain(42))?;
    lent.copy_from_slice(&list);
    Ok(())
}

/// The words of every link's gate list of an accepted image, links rising.
pub fn gate_lists(image: &[u8]) -> Result<Vec<Vec<u32>>, Answer> {
    let plan = examine(image)?;
    let links = 0..plan.links.len() as u32;
    Ok(links.map(|link| gate_words(&plan, link)).collect())
}

fn gate_words(plan: &Plan, link: u32) -> Vec<u32> {
    let list = gate_list(plan, link);
    let head = [list.len() as u32];
    [&head, list.as_flattened()].concat()
}

/// The gates as the link's dispatch table shows its frames, entry by entry;
/// equal neighbours are one.
fn gate_list(plan: &Plan, link: u32) -> Vec<Gate> {
    let entries = link_entries(plan, link);
    let ends = entries.iter().skip(1).map(|next| next[0]);
    let ends = ends.chain([plan.cycle]);
    let mut list: Vec<Gate> = Vec::new();
    for (entry, end) in entries.iter().zip(ends) {
        let (octet, interval) = (octet(plan, entry), end - entry[0]);
        match list.last_mut() {
            Some(last) if last[0] == octet => last[1] += interval,
            _ => list.push([octet, interval]),
        }
    }
    list
}

/// The bit of the queue whose frame an entry sends, or none.
fn octet(plan: &Plan, &[_, kind, row]: &Entry) -> u32 {
    if kind != SENDING {
        return 0;
    }
    let [stream, ..] = plan.frames[row as usize];
    1 << plan.streams[stream as usize][5]
}

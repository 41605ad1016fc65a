//! What the calls for gate lists met, and what they have to.

use std::collections::BTreeMap;
use std::fmt;

use crate::gave::{Gave, Numbers};
use crate::image::{QUEUES, WORD};
use crate::questions::QUESTIONS;

/// The call's name and its own numbers, besides those of the questions.
const GATES: Numbers = ("gates", &[0, 25, 42]);

/// A call for a gate list that both answered alike.
pub struct Listed<'a> {
    pub number: u32,
    pub link: u32,
    /// Cores and links of the image, where it is accepted.
    pub counts: Option<[u32; 2]>,
    /// The bytes lent.
    pub lent: usize,
    /// The words of the list, where the link is one of an accepted image.
    pub list: Option<&'a [u32]>,
    /// Whether frames of one queue touch on that link.
    pub touch: bool,
}

/// What was met.
#[derive(Clone, Debug, Default)]
pub struct Met {
    gave: Gave,
    marks: BTreeMap<String, u64>,
}

const MARKS: [&str; 12] = [
    "42, by one byte",
    "42, by one word",
    "42, no byte lent",
    "0, just enough bytes",
    "0, a part of a word more",
    "0, a word or more behind",
    "25, the link just past the last",
    "25, a number below cores plus links",
    "25, and too few words for any list",
    "m is 1, no frame",
    "m is more than 1",
    "frames of one queue touch and are one interval",
];

/// All marks, each of which has to be met.
fn marks() -> Vec<String> {
    let open = (0..QUEUES).map(open);
    MARKS.map(String::from).into_iter().chain(open).collect()
}

fn open(queue: u32) -> String {
    format!("the gate of queue {queue} open")
}

impl Met {
    pub fn count(&mut self, listed: &Listed) {
        self.gave.count(GATES.0, listed.number);
        match (listed.number, listed.list, listed.counts) {
            (0, Some(list), _) => self.meet_list(listed, list),
            (42, Some(list), _) => {
                let lacking = list.len() * WORD - listed.lent;
                self.mark_if(lacking == 1, "42, by one byte");
                self.mark_if(lacking == WORD, "42, by one word");
                self.mark_if(listed.lent == 0, "42, no byte lent");
            }
            (25, _, Some([cores, links])) => {
                self.mark_if(listed.link == links, "25, the link just past the last");
                let is_lane = listed.link < cores + links;
                self.mark_if(is_lane, "25, a number below cores plus links");
                let few = listed.lent < 3 * WORD;
                self.mark_if(few, "25, and too few words for any list");
            }
            _ => {}
        }
    }

    fn meet_list(&mut self, listed: &Listed, list: &[u32]) {
        let more = listed.lent - list.len() * WORD;
        self.mark_if(more == 0, "0, just enough bytes");
        self.mark_if((1..WORD).contains(&more), "0, a part of a word more");
        self.mark_if(more >= WORD, "0, a word or more behind");
        let octets: Vec<u32> = list[1..].iter().step_by(2).copied().collect();
        self.mark_if(octets == [0], "m is 1, no frame");
        self.mark_if(octets.len() > 1, "m is more than 1");
        let merged = "frames of one queue touch and are one interval";
        self.mark_if(listed.touch, merged);
        for queue in 0..QUEUES {
            self.mark_if(octets.contains(&(1 << queue)), &open(queue));
        }
    }

    fn mark_if(&mut self, met: bool, what: &str) {
        if met {
            *self.marks.entry(what.to_string()).or_default() += 1;
        }
    }

    /// What should have been met and was not.
    pub fn missing(&self) -> Vec<String> {
        let mut missing: Vec<String> = self.gave.missing(GATES).collect();
        missing.extend(self.gave.missing((GATES.0, QUESTIONS)));
        let unmarked = marks().into_iter();
        missing.extend(unmarked.filter(|mark| !self.marks.contains_key(mark)));
        missing
    }
}

impl fmt::Display for Met {
    fn fmt(&self, out: &mut fmt::Formatter<'_>) -> fmt::Result {
        writeln!(out, "{}", self.gave.line(GATES).trim_start())?;
        for mark in marks() {
            let count = self.marks.get(&mark).copied().unwrap_or(0);
            writeln!(out, "{count:8}  {mark}")?;
        }
        Ok(())
    }
}

//! Which tasks messages join, for question 30.

use crate::image::Plan;

/// From each task to those that read a message of it. Streams and buffers
/// both count as messages.
#[derive(Debug)]
pub struct Paths {
    /// Where each task's readers begin, and where the last one's end.
    begins: Vec<usize>,
    readers: Vec<u32>,
}

impl Paths {
    /// The paths of a plan whose messages name existing tasks.
    pub fn of(plan: &Plan) -> Paths {
        let streams = plan.streams.iter().map(|row| (row[0], row[1]));
        let buffers = plan.buffers.iter().map(|row| (row[1], row[2]));
        let mut messages: Vec<(u32, u32)> = streams.chain(buffers).collect();
        messages.sort_unstable();
        messages.dedup();
        let tasks = 0..=plan.tasks.len() as u32;
        let begin = |task| messages.partition_point(|message| message.0 < task);
        Paths {
            begins: tasks.map(begin).collect(),
            readers: messages.iter().map(|message| message.1).collect(),
        }
    }

    fn readers_of(&self, task: u32) -> &[u32] {
        let task = task as usize;
        &self.readers[self.begins[task]..self.begins[task + 1]]
    }

    /// Whether a path of messages leads from one task to another.
    pub fn join(&self, first: u32, last: u32) -> bool {
        self.search(first, last).0
    }

    /// The same, and how many messages were followed to find it. A task is
    /// marked when it is first reached and is never looked at again, however
    /// many paths lead to it.
    fn search(&self, first: u32, last: u32) -> (bool, usize) {
        let mut marked = vec![false; self.begins.len() - 1];
        let mut open = vec![first];
        let mut followed = 0;
        marked[first as usize] = true;
        while let Some(task) = open.pop() {
            for &reader in self.readers_of(task) {
                followed += 1;
                if reader == last {
                    return (true, followed);
                }
                if !marked[reader as usize] {
                    marked[reader as usize] = true;
                    open.push(reader);
                }
            }
        }
        (false, followed)
    }
}

#[cfg(test)]
mod tests {
    use super::*;
    use crate::image::{row_of, rows_of};
    use crate::rng::Rng;

    fn plan(tasks: u32, streams: &[[u32; 2]], buffers: &[[u32; 2]]) -> Plan {
        Plan {
            tasks: vec![row_of([]); tasks as usize],
            streams: rows_of(streams),
            buffers: buffers.iter().map(|&[a, b]| row_of([0, a, b])).collect(),
            ..Plan::default()
        }
    }

    #[test]
    fn streams_and_buffers_lead_on() {
        let paths = Paths::of(&plan(5, &[[0, 1], [2, 3]], &[[1, 2]]));
        let joined = |first: u32| (0..5).filter(move |last| *last != first);
        let joined = |first: u32| -> Vec<u32> {
            joined(first)
                .filter(|&last| paths.join(first, last))
                .collect()
        };
        assert_eq!(joined(0), [1, 2, 3]);
        assert_eq!(joined(1), [2, 3]);
        assert_eq!(joined(2), [3]);
        assert!(joined(3).is_empty() && joined(4).is_empty());
    }

    /// Two tasks a step, both of which write to both of the next step: 2^31
    /// paths from task 0 in 122 messages. Where none leads to the last task,
    /// each message is followed once, else at most once.
    #[test]
    fn no_message_is_followed_twice() {
        let writes = |task: u32| [2, 3].map(|next| [task, task - task % 2 + next]);
        let messages: Vec<[u32; 2]> = (0..62).filter(|&task| task != 1).flat_map(writes).collect();
        let (streams, buffers) = messages.split_at(61);
        let paths = Paths::of(&plan(65, streams, buffers));
        assert_eq!(paths.search(0, 64), (false, messages.len()));
        for last in 2..64 {
            let (joined, followed) = paths.search(0, last);
            assert!(joined && followed <= messages.len(), "{last}: {followed}");
        }
    }

    /// All pairs, by products of the matrix of messages.
    #[test]
    fn the_closure_says_the_same() {
        let mut met = [0; 2];
        for case in 0..5_000 {
            let mut rng = Rng::for_case(24, case);
            let tasks = rng.within(2..=8);
            let any = |rng: &mut Rng| {
                let rows = 0..rng.within(0..=5);
                let task = |rng: &mut Rng| rng.within(0..=tasks - 1);
                let rows = rows.map(|_| [task(rng), task(rng)]);
                rows.collect::<Vec<[u32; 2]>>()
            };
            let (streams, buffers) = (any(&mut rng), any(&mut rng));
            let mut leads = vec![vec![false; tasks as usize]; tasks as usize];
            for &[from, to] in streams.iter().chain(&buffers) {
                leads[from as usize][to as usize] = true;
            }
            for over in 0..tasks as usize {
                for from in 0..tasks as usize {
                    for to in 0..tasks as usize {
                        leads[from][to] |= leads[from][over] && leads[over][to];
                    }
                }
            }
            let paths = Paths::of(&plan(tasks, &streams, &buffers));
            for first in 0..tasks {
                for last in (0..tasks).filter(|last| *last != first) {
                    let joined = leads[first as usize][last as usize];
                    assert_eq!(paths.join(first, last), joined, "{streams:?} {buffers:?}");
                    met[usize::from(joined)] += 1;
                }
            }
        }
        assert!(met.iter().all(|&count| count > 10_000), "{met:?}");
    }
}

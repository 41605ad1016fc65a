//! What the pieces make of each job, and question 13.

use crate::answer::Answer;
use crate::image::{Plan, TASK};

/// One job over its pieces.
#[derive(Clone, Copy, Debug)]
pub struct Job {
    pub pieces: u64,
    pub ticks: u64,
    pub first_start: u32,
    pub last_end: u32,
}

const NO_PIECE: Job = Job {
    pieces: 0,
    ticks: 0,
    first_start: u32::MAX,
    last_end: 0,
};

impl Job {
    fn add(&mut self, start: u32, length: u32) {
        self.pieces += 1;
        self.ticks += u64::from(length);
        self.first_start = self.first_start.min(start);
        self.last_end = self.last_end.max(start + length);
    }
}

/// The jobs of the leading tasks, task by task in the order of k.
#[derive(Debug)]
pub struct Jobs {
    /// Where each task's jobs begin, and where the last one's end.
    begins: Vec<usize>,
    jobs: Vec<Job>,
}

impl Jobs {
    /// The jobs of a plan in which question 13 is answered yes.
    pub fn of(plan: &Plan) -> Result<Jobs, Answer> {
        let jobs = Jobs::of_leading_tasks(plan);
        let whole = |task: &usize| {
            let [_, _, _, budget, ..] = plan.tasks[*task];
            let switch = u64::from(plan.task_switch(*task as u32));
            jobs.of_task(*task as u32)
                .iter()
                .all(|job| job.ticks == u64::from(budget) + job.pieces * switch)
        };
        let sound = (0..jobs.begins.len() - 1).take_while(whole).count();
        if sound == plan.tasks.len() {
            Ok(jobs)
        } else {
            Err(Answer::at(13, TASK, sound as u32))
        }
    }

    /// The jobs of one task, in the order of k.
    pub fn of_task(&self, task: u32) -> &[Job] {
        let task = task as usize;
        &self.jobs[self.begins[task]..self.begins[task + 1]]
    }

    /// The jobs of all tasks below the first with fewer pieces than jobs.
    /// That task has a job without a piece, whatever the others are.
    fn of_leading_tasks(plan: &Plan) -> Jobs {
        let begins = leading_begins(plan);
        let leading = begins.len() - 1;
        let mut jobs = vec![NO_PIECE; begins[leading]];
        for &[task, k, start, length, ..] in &plan.pieces {
            if (task as usize) < leading {
                jobs[begins[task as usize] + k as usize].add(start, length);
            }
        }
        Jobs { begins, jobs }
    }
}

fn leading_begins(plan: &Plan) -> Vec<usize> {
    let mut pieces = vec![0; plan.tasks.len()];
    for &[task, ..] in &plan.pieces {
        pieces[task as usize] += 1;
    }
    let mut begins = vec![0];
    let mut next = 0;
    for (task, &count) in pieces.iter().enumerate() {
        let jobs = plan.jobs(task as u32) as usize;
        if jobs > count {
            break;
        }
        next += jobs;
        begins.push(next);
    }
    begins
}

//! What the ticks shown say about jobs and frames.

use super::tables::Show;
use crate::image::Plan;

const TASK_SWITCH: u32 = 3;
const WORK: u32 = 4;
const SENDING: u32 = 5;

/// A tick shown: the lane, and the number of the lane's moves before it.
#[derive(Clone, Copy, Debug, PartialEq, Eq)]
pub struct Tick {
    pub index: usize,
    pub lane: usize,
}

/// A job in one cycle: the ticks it ran in and those it worked in.
#[derive(Clone, Debug, Default)]
pub struct Job {
    pub ran: Vec<Tick>,
    pub worked: Vec<Tick>,
}

/// Which job: the cycle, counted from the start, the task and k.
#[derive(Clone, Copy, Debug)]
pub struct JobId {
    pub cycle: usize,
    pub task: u32,
    pub k: u32,
}

/// Everything read off the first so many moves of every lane.
#[derive(Debug)]
pub struct Reading<'a> {
    plan: &'a Plan,
    /// How often every lane has moved.
    pub moves: usize,
    /// Where each task's jobs begin among those of a cycle.
    begins: Vec<usize>,
    jobs_of_a_cycle: usize,
    jobs: Vec<Job>,
    /// By cycle and frame row, the ticks that show the frame.
    frames: Vec<Vec<Tick>>,
}

impl<'a> Reading<'a> {
    pub fn of(plan: &'a Plan, shown: &[Vec<Show>], moves: usize) -> Reading<'a> {
        let mut begins = Vec::new();
        let mut jobs_of_a_cycle = 0;
        for task in 0..plan.tasks.len() as u32 {
            begins.push(jobs_of_a_cycle);
            jobs_of_a_cycle += plan.jobs(task) as usize;
        }
        let cycles = moves.div_ceil(plan.cycle as usize);
        let mut reading = Reading {
            plan,
            moves,
            begins,
            jobs_of_a_cycle,
            jobs: vec![Job::default(); cycles * jobs_of_a_cycle],
            frames: vec![Vec::new(); cycles * plan.frames.len()],
        };
        for index in 0..moves {
            for (lane, shows) in shown.iter().enumerate() {
                reading.take(Tick { index, lane }, shows[index]);
            }
        }
        reading
    }

    /// Takes in one tick. Rows and jobs that there are not say nothing.
    fn take(&mut self, tick: Tick, (kind, row): Show) {
        let cycle = tick.index / self.plan.cycle as usize;
        let row = row as usize;
        match kind {
            TASK_SWITCH | WORK if row < self.plan.pieces.len() => {
                let [task, k, ..] = self.plan.pieces[row];
                if k < self.plan.jobs(task) {
                    let place = self.place(JobId { cycle, task, k });
                    self.jobs[place].ran.push(tick);
                    if kind == WORK {
                        self.jobs[place].worked.push(tick);
                    }
                }
            }
            SENDING if row < self.plan.frames.len() => {
                self.frames[cycle * self.plan.frames.len() + row].push(tick);
            }
            _ => {}
        }
    }

    fn place(&self, id: JobId) -> usize {
        id.cycle * self.jobs_of_a_cycle + self.begins[id.task as usize] + id.k as usize
    }

    /// The number of cycles of which a tick is shown.
    pub fn cycles(&self) -> usize {
        self.moves.div_ceil(self.plan.cycle as usize)
    }

    /// The number of cycles of which all ticks are shown.
    pub fn completed(&self) -> usize {
        self.moves / self.plan.cycle as usize
    }

    /// Every job of a task in the leading cycles, by cycle and k.
    pub fn ids(&self, task: u32, cycles: usize) -> impl Iterator<Item = JobId> {
        let jobs = self.plan.jobs(task);
        (0..cycles).flat_map(move |cycle| (0..jobs).map(move |k| JobId { cycle, task, k }))
    }

    pub fn job(&self, id: JobId) -> &Job {
        &self.jobs[self.place(id)]
    }

    /// The first tick that a job ran in.
    pub fn start(&self, id: JobId) -> Option<Tick> {
        self.job(id).ran.first().copied()
    }

    /// The tick at whose end a job ends: the C-th that it worked in.
    pub fn end(&self, id: JobId) -> Option<Tick> {
        let budget = self.plan.tasks[id.task as usize][3] as usize;
        self.job(id).worked.get(budget.checked_sub(1)?).copied()
    }

    /// The ticks of one cycle that show a frame.
    pub fn sent(&self, cycle: usize, frame: usize) -> &[Tick] {
        &self.frames[cycle * self.plan.frames.len() + frame]
    }
}

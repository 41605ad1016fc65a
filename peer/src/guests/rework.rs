//! Ways in which a supplier changes a guest: its tasks and pieces alone.

use super::free::Free;
use super::messages::drop_of;
use super::premises::is_guests;
use crate::check::check;
use crate::image::{row_of, Piece, Plan, Task};
use crate::rng::Rng;

/// A guest of a plan, to be changed.
pub struct Rework {
    pub plan: Plan,
    pub guest: u32,
    rng: Rng,
    /// Tasks whose messages may no longer fit.
    touched: Vec<u32>,
}

/// A way to change a guest, if it has what is needed.
pub type Way = fn(&mut Rework) -> Option<()>;

/// All ways by name.
pub const WAYS: [(&str, Way); 13] = [
    ("pieces moved", |rework| rework.some(Rework::move_piece)),
    ("a piece split", |rework| rework.some(Rework::split_piece)),
    ("pieces merged", |rework| rework.some(Rework::merge_pieces)),
    ("another budget", Rework::change_budget),
    ("another period", Rework::change_period),
    ("another deadline", Rework::change_deadline),
    ("tasks added", |rework| rework.some(Rework::add_task)),
    ("tasks dropped", |rework| rework.some(Rework::drop_task)),
    ("remade", Rework::remake),
    ("remade", Rework::remake),
    ("cleared", Rework::clear),
    ("its numbers exchanged", Rework::exchange_numbers),
    ("several changes", Rework::several),
];

/// The changes of which several are made.
const SMALL: [Way; 8] = [
    Rework::move_piece,
    Rework::split_piece,
    Rework::merge_pieces,
    Rework::change_budget,
    Rework::change_period,
    Rework::change_deadline,
    Rework::add_task,
    Rework::drop_task,
];

/// Jobs that a new task has at most.
const MOST_JOBS: u32 = 12;

impl Rework {
    pub fn new(plan: &Plan, guest: u32, rng: &mut Rng) -> Rework {
        Rework {
            plan: plan.clone(),
            guest,
            rng: Rng::new(rng.next()),
            touched: Vec::new(),
        }
    }

    /// The plan in order, if it is accepted; sometimes only without messages of
    /// tasks that were changed.
    pub fn settled(mut self) -> Option<Plan> {
        self.plan.put_in_order();
        if check(&self.plan.encode()).is_accepted() {
            return Some(self.plan);
        }
        let touched = self.touched;
        drop_of(&mut self.plan, |task| touched.contains(&task));
        check(&self.plan.encode())
            .is_accepted()
            .then_some(self.plan)
    }

    /// Once to three times, if it goes once.
    fn some(&mut self, way: Way) -> Option<()> {
        way(self)?;
        for _ in 0..self.rng.below(3) {
            way(self);
        }
        Some(())
    }

    fn several(&mut self) -> Option<()> {
        let mut made = 0;
        for _ in 0..8 {
            let way = self.rng.pick(&SMALL);
            made += u32::from(way(self).is_some());
        }
        (made > 1).then_some(())
    }

    /// The guest's tasks, by number.
    fn tasks(&self) -> Vec<u32> {
        let tasks = 0..self.plan.tasks.len() as u32;
        let own = |task: &u32| is_guests(&self.plan, self.guest, *task);
        tasks.filter(own).collect()
    }

    fn any_task(&mut self) -> Option<u32> {
        let tasks = self.tasks();
        self.rng.pick_any(&tasks)
    }

    /// The rows of the guest's pieces that serve.
    fn pieces(&self, serves: impl Fn(&Piece) -> bool) -> Vec<usize> {
        let own = |piece: &Piece| is_guests(&self.plan, self.guest, piece[0]) && serves(piece);
        let pieces = &self.plan.pieces;
        let rows = 0..pieces.len();
        rows.filter(|row| own(&pieces[*row])).collect()
    }

    fn switch(&self) -> u32 {
        self.plan.cores[self.plan.core_of_vcpu(self.guest) as usize][1]
    }

    /// From release to due tick.
    fn frame_of(&self, task: u32, job: u32) -> [u32; 2] {
        let release = job * self.plan.period(task);
        [release, release + self.plan.deadline(task)]
    }

    /// Takes a piece out.
    fn take_out(&mut self, row: usize) -> Piece {
        let piece = self.plan.pieces.remove(row);
        self.touched.push(piece[0]);
        piece
    }

    /// Puts in a piece of so much work, somewhere.
    fn put_in(&mut self, task: u32, job: u32, work: u32) -> Option<()> {
        let within = self.frame_of(task, job);
        let mut free = Free::of(&self.plan, self.guest);
        let [start, length] = free.place(within, work, &mut self.rng)?;
        self.plan.pieces.push(row_of([task, job, start, length]));
        Some(())
    }

    fn move_piece(&mut self) -> Option<()> {
        let rows = self.pieces(|_| true);
        let row = self.rng.pick_any(&rows)?;
        let [task, job, _, length, ..] = self.take_out(row);
        self.put_in(task, job, length - self.switch())
    }

    fn split_piece(&mut self) -> Option<()> {
        let switch = self.switch();
        let rows = self.pieces(|piece| piece[3] >= switch + 2);
        let row = self.rng.pick_any(&rows)?;
        let [task, job, _, length, ..] = self.plan.pieces[row];
        let work = length - switch;
        let part = self.rng.within(1..=work - 1);
        let before = self.plan.clone();
        self.take_out(row);
        let placed = self.put_in(task, job, part).is_some();
        if placed && self.put_in(task, job, work - part).is_some() {
            return Some(());
        }
        self.plan = before;
        None
    }

    /// Makes two pieces of a job one, of any job that has two, some tried.
    fn merge_pieces(&mut self) -> Option<()> {
        let mut rows = self.pieces(|_| true);
        rows.sort_by_key(|row| self.plan.pieces[*row]);
        let of_one_job = |pair: &[usize]| {
            let [one, other] = [pair[0], pair[1]].map(|row| &self.plan.pieces[row][..2]);
            (one == other).then_some([pair[0], pair[1]])
        };
        let pairs: Vec<[usize; 2]> = rows.windows(2).filter_map(of_one_job).collect();
        (0..4).find_map(|_| {
            let pair = self.rng.pick_any(&pairs)?;
            self.merge(pair)
        })
    }

    fn merge(&mut self, [row, other]: [usize; 2]) -> Option<()> {
        let before = self.plan.clone();
        let [task, job, ..] = self.plan.pieces[row];
        let both = [row.max(other), row.min(other)].map(|row| self.take_out(row)[3]);
        let merged = self.put_in(task, job, both[0] + both[1] - 2 * self.switch());
        if merged.is_none() {
            self.plan = before;
        }
        merged
    }

    /// Makes a task anew under its number, of the words that are given, or else
    /// of any; leaves all as it was where it has no room.
    fn make_task(&mut self, number: u32, period: Option<u32>, deadline: Option<u32>) -> Option<()> {
        let before = self.plan.clone();
        self.plan.pieces.retain(|piece| piece[0] != number);
        let made = (0..4).find_map(|_| self.try_task(number, period, deadline));
        if made.is_none() {
            self.plan = before;
        }
        self.touched.push(number);
        made
    }

    fn try_task(&mut self, number: u32, period: Option<u32>, deadline: Option<u32>) -> Option<()> {
        let period = period.unwrap_or_else(|| self.any_period());
        let any = self.rng.within(1..=period);
        let deadline = deadline.unwrap_or(self.rng.pick(&[period, period, any]));
        let mut free = Free::of(&self.plan, self.guest);
        let jobs = 0..self.plan.cycle / period;
        let within = |job: u32| [job * period, job * period + deadline];
        let most = jobs.clone().map(|job| free.capacity(within(job))).min()?;
        if most == 0 {
            return None;
        }
        let any = self.rng.within(1..=most);
        let budget = self.rng.pick(&[1, most.min(2), most.min(4), any]);
        let mut pieces = Vec::new();
        for job in jobs {
            let placed = free.place_job(within(job), budget, &mut self.rng)?;
            let piece = |[start, length]: [u32; 2]| row_of([number, job, start, length]);
            pieces.extend(placed.into_iter().map(piece));
        }
        self.plan.pieces.extend::<Vec<Piece>>(pieces);
        let mask = self.rng.word() | 1 << self.plan.core_of_vcpu(self.guest);
        let words: Task = row_of([self.guest, mask, period, budget, deadline]);
        match self.plan.tasks.get_mut(number as usize) {
            Some(task) => *task = words,
            None => self.plan.tasks.push(words),
        }
        Some(())
    }

    fn any_period(&mut self) -> u32 {
        let cycle = self.plan.cycle;
        let jobs: Vec<u32> = (1..=MOST_JOBS)
            .filter(|jobs| cycle.is_multiple_of(*jobs))
            .collect();
        let few = self.rng.chance(40);
        cycle / if few { 1 } else { self.rng.pick(&jobs) }
    }

    fn change_budget(&mut self) -> Option<()> {
        let task = self.any_task()?;
        let [_, _, period, budget, deadline, ..] = self.plan.tasks[task as usize];
        self.make_task(task, Some(period), Some(deadline))?;
        (self.plan.tasks[task as usize][3] != budget).then_some(())
    }

    fn change_period(&mut self) -> Option<()> {
        let task = self.any_task()?;
        let before = self.plan.period(task);
        self.make_task(task, None, None)?;
        (self.plan.period(task) != before).then_some(())
    }

    /// Deadline and mask, and nothing that is shown.
    fn change_deadline(&mut self) -> Option<()> {
        let task = self.any_task()?;
        let core = self.plan.core_of_vcpu(self.guest);
        let mask = self.rng.word() | 1 << core;
        let [_, _, period, _, deadline, ..] = self.plan.tasks[task as usize];
        let late = |piece: &&Piece| piece[0] == task;
        let ends = self.plan.pieces.iter().filter(late);
        let least = ends
            .map(|piece| piece[2] + piece[3] - piece[1] * period)
            .max()?;
        let row = &mut self.plan.tasks[task as usize];
        (row[1], row[4]) = (mask, self.rng.within(least..=period));
        self.touched.push(task);
        (self.plan.deadline(task) != deadline).then_some(())
    }

    pub fn add_task(&mut self) -> Option<()> {
        let number = self.plan.tasks.len() as u32;
        self.make_task(number, None, None)
    }

    /// Drops a task; the last of the table gets its number, which must be the
    /// guest's too.
    fn drop_task(&mut self) -> Option<()> {
        let last = self.plan.tasks.len().checked_sub(1)? as u32;
        if !is_guests(&self.plan, self.guest, last) {
            return None;
        }
        let task = self.any_task()?;
        drop_of(&mut self.plan, |other| other == task);
        self.plan.pieces.retain(|piece| piece[0] != task);
        rename(
            &mut self.plan,
            |other| if other == last { task } else { other },
        );
        self.plan.tasks.swap_remove(task as usize);
        self.touched.push(task);
        Some(())
    }

    /// Takes all of the guest's pieces and messages out, and its tasks where
    /// no other's come behind them. Gives the numbers that are left.
    fn empty(&mut self) -> Vec<u32> {
        let tasks = self.tasks();
        drop_of(&mut self.plan, |task| tasks.contains(&task));
        self.plan.pieces.retain(|piece| !tasks.contains(&piece[0]));
        let guest = self.guest;
        while self.plan.tasks.pop_if(|task| task[0] == guest).is_some() {}
        let left = self.plan.tasks.len() as u32;
        tasks.into_iter().filter(|task| *task < left).collect()
    }

    /// Makes the guest from nothing.
    fn remake(&mut self) -> Option<()> {
        let numbers = self.empty();
        for number in &numbers {
            self.make_task(*number, None, None)?;
        }
        let more = match numbers.is_empty() {
            true => 1 + self.rng.below(4),
            false => self.rng.below(3),
        };
        for turn in 0..more {
            let made = self.add_task();
            if turn == 0 && numbers.is_empty() {
                made?;
            }
        }
        Some(())
    }

    fn clear(&mut self) -> Option<()> {
        let had = self.tasks();
        (!had.is_empty() && self.empty().is_empty()).then_some(())
    }

    /// Gives the guest's tasks each other's numbers.
    fn exchange_numbers(&mut self) -> Option<()> {
        let tasks = self.tasks();
        let mut others = tasks.clone();
        self.rng.shuffle(&mut others);
        if tasks == others {
            return None;
        }
        let new = |task: u32| match tasks.iter().position(|own| *own == task) {
            Some(at) => others[at],
            None => task,
        };
        let rows = self.plan.tasks.clone();
        for task in &tasks {
            self.plan.tasks[new(*task) as usize] = rows[*task as usize];
        }
        rename(&mut self.plan, new);
        Some(())
    }
}

/// Gives tasks new numbers in all rows that name them.
pub fn rename(plan: &mut Plan, new: impl Fn(u32) -> u32) {
    let first = |task: &mut u32| *task = new(*task);
    plan.pieces.iter_mut().for_each(|row| first(&mut row[0]));
    for row in &mut plan.streams {
        row[..2].iter_mut().for_each(first);
    }
    for row in &mut plan.buffers {
        row[1..3].iter_mut().for_each(first);
    }
    for row in &mut plan.chains {
        row[..2].iter_mut().for_each(first);
    }
}

//! The claims about jobs, frames, messages, chains and holds, after some moves
//! of all lanes.

use super::choices::Choice;
use super::clocks::TrueTime;
use super::queues::Queues;
use super::reading::{JobId, Reading, Tick};
use super::report::{Claim, Fact, Report, Violation};
use crate::image::{Buffer, Frame, Plan, Window};

/// The plan without the times of its pieces and frames: these are to be read
/// off what is shown.
pub fn without_times(plan: &Plan) -> Plan {
    let mut plan = plan.clone();
    for [_, _, start, length, ..] in &mut plan.pieces {
        (*start, *length) = (0, 0);
    }
    for [_, _, _, _, start, ..] in &mut plan.frames {
        *start = 0;
    }
    plan
}

/// Asks every claim about jobs of the completed cycles.
pub fn ask_jobs(plan: &Plan, reading: &Reading, report: &mut Report) {
    for task in 0..plan.tasks.len() as u32 {
        for id in reading.ids(task, reading.completed()) {
            ask_job(plan, reading, id, report);
        }
    }
}

fn ask_job(plan: &Plan, reading: &Reading, id: JobId, report: &mut Report) {
    let budget = plan.tasks[id.task as usize][3];
    let worked = &reading.job(id).worked;
    let failure = |claim: Claim, what: String| Violation {
        claim,
        after: reading.moves,
        choice: None,
        what: format!("{} {what}", name(id)),
    };
    report.ask(worked.len() == budget as usize, Fact::JobWhole, || {
        let what = format!("worked {} ticks, C is {budget}", worked.len());
        failure(Claim::Budget, what)
    });
    for &tick in worked {
        for claim in broken_by_work(plan, id, tick) {
            let what = format!("worked on lane {} in move {}", tick.lane, tick.index);
            report.fail(failure(claim, what));
        }
        report.tally.count(Fact::TickWorked);
    }
}

/// The claims that a job breaks by working in a tick.
fn broken_by_work(plan: &Plan, id: JobId, tick: Tick) -> Vec<Claim> {
    let [vcpu, _, period, _, deadline, ..] = plan.tasks[id.task as usize];
    let at = tick.index as u32 % plan.cycle;
    let release = id.k * period;
    let in_window = plan.windows.iter().any(|window| {
        let &[owner, start, length, ..] = window;
        let is_inside = (start..start + length).contains(&at);
        owner == vcpu && is_inside && !is_switching(plan, window, at)
    });
    let mut broken = Vec::new();
    if tick.lane != plan.core_of_vcpu(vcpu) as usize {
        broken.push(Claim::Core);
    }
    if !(release..release + deadline).contains(&at) {
        broken.push(Claim::Due);
    }
    if !in_window {
        broken.push(Claim::Window);
    }
    broken
}

/// Whether a tick of a window goes to the VCPU switch: it is one of the first
/// v, and the VCPU had not kept the core until the window began. In a cycle's
/// first tick nobody has kept it.
fn is_switching(plan: &Plan, &[vcpu, start, ..]: &Window, at: u32) -> bool {
    let mut own = plan.windows.iter().filter(|window| window[0] == vcpu);
    // The window itself is not empty, and so does not end where it begins.
    let is_kept = start != 0 && own.any(|&[_, begin, length, ..]| begin + length == start);
    !is_kept && at - start < plan.vcpu_switch(vcpu)
}

fn name(id: JobId) -> String {
    let JobId { cycle, task, k } = id;
    format!("job {k} of task {task} in cycle c + {cycle}")
}

/// The frames, messages and chains of a run under one choice of clocks and
/// delays.
pub struct Messages<'a> {
    pub plan: &'a Plan,
    /// Each frame's earliest and latest arrival.
    arrivals: &'a [[u32; 2]],
    pub queues: &'a Queues,
    pub choice: &'a Choice,
    pub time: TrueTime,
}

/// One message: a stream's of one job in one cycle.
#[derive(Clone, Copy)]
struct Message {
    row: usize,
    sender: JobId,
    receiver: JobId,
}

impl<'a> Messages<'a> {
    pub fn new(
        plan: &'a Plan,
        arrivals: &'a [[u32; 2]],
        queues: &'a Queues,
        cycle: u64,
        choice: &'a Choice,
    ) -> Messages<'a> {
        Messages {
            plan,
            arrivals,
            queues,
            choice,
            time: TrueTime::new(plan, cycle, &choice.clocks),
        }
    }

    /// Asks every claim about frames, queues, messages and chains.
    pub fn ask(&self, reading: &Reading, report: &mut Report) {
        for cycle in 0..reading.cycles() {
            for frame in 0..self.plan.frames.len() {
                self.ask_crossing(reading, cycle, frame, report);
            }
        }
        self.ask_queues(reading, report);
        self.ask_messages(reading, report);
        for row in 0..self.plan.chains.len() {
            self.ask_chain(reading, row, report);
        }
    }

    /// A frame that is sent in a cycle arrives between its two arrivals there.
    fn ask_crossing(&self, reading: &Reading, cycle: usize, frame: usize, report: &mut Report) {
        let Some(arrival) = self.crossed(reading, cycle, frame) else {
            return;
        };
        let lane = self.plan.cores.len() + self.plan.frames[frame][3] as usize;
        let begin = cycle as i128 * i128::from(self.plan.cycle);
        let read = self.time.read(lane, arrival) - begin;
        let [earliest, latest] = self.arrivals[frame].map(i128::from);
        let between = (earliest..=latest).contains(&read);
        report.ask(between, Fact::FrameArrived, || Violation {
            claim: Claim::Crossed,
            after: reading.moves,
            choice: Some(self.choice.clone()),
            what: format!(
                "frame {frame} arrives at {read} of cycle c + {cycle} by its sender's clock, \
                 not from {earliest} to {latest}"
            ),
        });
        for (fact, is_met) in [
            (Fact::ArrivedEarliest, read == earliest),
            (Fact::ArrivedBetween, earliest < read && read < latest),
            (Fact::ArrivedLatest, read == latest),
        ] {
            if is_met {
                report.tally.count(fact);
            }
        }
    }

    /// The true time at which a frame arrives, once it is sent in a cycle.
    fn crossed(&self, reading: &Reading, cycle: usize, frame: usize) -> Option<i128> {
        let last = self.last_sent(reading, cycle, frame)?;
        let delay = self.choice.delays.of(cycle, frame);
        Some(self.time.end(last) + i128::from(delay))
    }

    /// The tick of a cycle with which a frame is sent, once it is.
    pub fn last_sent(&self, reading: &Reading, cycle: usize, frame: usize) -> Option<Tick> {
        let [stream, _, _, link, ..] = self.plan.frames[frame];
        let [_, _, _, _, payload, ..] = self.plan.streams[stream as usize];
        let [_, _, _, rate, ..] = self.plan.links[link as usize];
        let sent = reading.sent(cycle, frame);
        sent.get(last_tick(payload, rate)).copied()
    }

    fn ask_messages(&self, reading: &Reading, report: &mut Report) {
        for (row, &[sender, receiver, ..]) in self.plan.streams.iter().enumerate() {
            for receiver in reading.ids(receiver, reading.cycles()) {
                let message = Message {
                    row,
                    sender: JobId {
                        task: sender,
                        ..receiver
                    },
                    receiver,
                };
                self.ask_start(reading, message, report);
                self.ask_latency(reading, message, report);
            }
        }
    }

    /// The receiver's job starts only where the message has arrived.
    fn ask_start(&self, reading: &Reading, message: Message, report: &mut Report) {
        let Some(start) = reading.start(message.receiver) else {
            return;
        };
        let start = self.time.begin(start);
        let arrival = self.arrival(reading, message);
        let arrived = arrival.is_some_and(|arrival| arrival <= start);
        report.ask(arrived, Fact::ReceiverStarted, || {
            let arrival = arrival.map_or("never".to_string(), |at| format!("at {at}"));
            let what = format!("starts at true time {start}, its message arrives {arrival}");
            self.failure(Claim::Arrived, reading, message, what)
        });
        if arrival == Some(start) {
            report.tally.count(Fact::StartedAtArrival);
        }
    }

    /// The true time at which a message arrives, if every frame counts.
    fn arrival(&self, reading: &Reading, message: Message) -> Option<i128> {
        let [_, _, _, hops, ..] = self.plan.streams[message.row];
        let JobId { cycle, k, .. } = message.sender;
        let mut ready = self.time.end(reading.end(message.sender)?);
        for hop in 0..hops {
            let frame = self.frame(message.row, k, hop)?;
            let first = reading.sent(cycle, frame).first()?;
            if self.time.begin(*first) < ready {
                return None;
            }
            ready = self.crossed(reading, cycle, frame)?;
        }
        Some(ready)
    }

    fn frame(&self, stream: usize, k: u32, hop: u32) -> Option<usize> {
        let is_it = |frame: &Frame| frame[..3] == [stream as u32, k, hop];
        self.plan.frames.iter().position(is_it)
    }

    /// From the sender's start to the receiver's end it is at most E, where 0
    /// stands for the receiver's deadline.
    fn ask_latency(&self, reading: &Reading, message: Message, report: &mut Report) {
        let (sent, read) = (reading.start(message.sender), reading.end(message.receiver));
        let (Some(sent), Some(read)) = (sent, read) else {
            return;
        };
        let [_, receiver, written, ..] = self.plan.streams[message.row];
        let latency = match written {
            0 => self.plan.deadline(receiver),
            given => given,
        };
        let (start, end) = (self.time.begin(sent), self.time.end(read));
        let taken = end - start;
        let in_time = taken <= i128::from(latency);
        report.ask(in_time, Fact::ReceiverEnded, || {
            let what = format!("ends at true time {end}, {taken} after {start}; E is {latency}");
            self.failure(Claim::Latency, reading, message, what)
        });
        if taken == i128::from(latency) {
            report.tally.count(Fact::EndedAtLatency);
            if written == 0 {
                report.tally.count(Fact::EndedAtDeadline);
            }
        }
        if start < 0 {
            report.tally.count(Fact::SentBelowZero);
        }
    }

    /// From the first task's start to the last one's end it is at most the
    /// limit, where 0 stands for the last one's deadline, in every job of every
    /// cycle. A chain of tasks that there are not, or that have not equally
    /// many jobs, is nothing to be asked of.
    fn ask_chain(&self, reading: &Reading, row: usize, report: &mut Report) {
        let [first, last, written, ..] = self.plan.chains[row];
        let exists = |task: u32| (task as usize) < self.plan.tasks.len();
        if !exists(first) || !exists(last) || self.plan.jobs(first) != self.plan.jobs(last) {
            return;
        }
        let limit = match written {
            0 => self.plan.deadline(last),
            given => given,
        };
        for last in reading.ids(last, reading.cycles()) {
            let begun = reading.start(JobId {
                task: first,
                ..last
            });
            let (Some(begun), Some(ended)) = (begun, reading.end(last)) else {
                continue;
            };
            let (start, end) = (self.time.begin(begun), self.time.end(ended));
            let taken = end - start;
            let in_time = taken <= i128::from(limit);
            report.ask(in_time, Fact::ChainEnded, || {
                let last = name(last);
                let times = format!("{taken} after {start}; the limit is {limit}");
                Violation {
                    claim: Claim::Chain,
                    after: reading.moves,
                    choice: Some(self.choice.clone()),
                    what: format!("chain {row}: {last} ends at true time {end}, {times}"),
                }
            });
            if taken == i128::from(limit) {
                report.tally.count(Fact::ChainEndedAtLimit);
                if written == 0 {
                    report.tally.count(Fact::ChainEndedAtDeadline);
                }
            }
            if self.plan.node_of_task(first) == self.plan.node_of_task(last.task) {
                report.tally.count(Fact::ChainOnOneNode);
            }
        }
    }

    fn failure(
        &self,
        claim: Claim,
        reading: &Reading,
        message: Message,
        what: String,
    ) -> Violation {
        let receiver = name(message.receiver);
        Violation {
            claim,
            after: reading.moves,
            choice: Some(self.choice.clone()),
            what: format!("stream {}: {receiver} {what}", message.row),
        }
    }
}

/// Which of the ticks of a frame is its last one, counted from 0, if each
/// takes as many bits of it as the rate says.
fn last_tick(payload: u32, rate: u32) -> usize {
    let mut left = 8 * (payload + 42);
    let mut tick = 0;
    while left > rate {
        left -= rate;
        tick += 1;
    }
    tick
}

/// Asks of every hold that no other task of its buffer runs in it. Tasks that
/// have not equally many jobs have none.
pub fn ask_holds(plan: &Plan, reading: &Reading, report: &mut Report) {
    for row in 0..plan.buffers.len() {
        let others = other_tasks(plan, row);
        let [_, writer, reader, ..] = plan.buffers[row];
        if plan.jobs(writer) != plan.jobs(reader) {
            continue;
        }
        for writer in reading.ids(writer, reading.cycles()) {
            let reader = JobId {
                task: reader,
                ..writer
            };
            if let Some(start) = reading.start(writer) {
                ask_hold(reading, row, start, reader, &others, report);
            }
        }
    }
}

fn ask_hold(
    reading: &Reading,
    row: usize,
    start: Tick,
    reader: JobId,
    others: &[u32],
    report: &mut Report,
) {
    let end = reading.end(reader);
    let (until, fact) = match end {
        Some(last) => (last.index + 1, Fact::HoldOver),
        None => (reading.moves, Fact::HoldOpen),
    };
    let hold = start.index..until;
    let intruder = others.iter().find_map(|&other| {
        let ids = reading.ids(other, reading.cycles());
        let mut ran = ids.flat_map(|id| &reading.job(id).ran);
        let tick = ran.find(|tick| hold.contains(&tick.index))?;
        Some(format!("task {other} inside in move {}", tick.index))
    });
    let alone = report.ask(intruder.is_none(), fact, || Violation {
        claim: Claim::Hold,
        after: reading.moves,
        choice: None,
        what: format!(
            "buffer row {row}: held in moves {hold:?}, {}",
            intruder.unwrap_or_default()
        ),
    });
    if alone && !others.is_empty() {
        report.tally.count(Fact::HoldShared);
    }
}

/// The tasks of a row's buffer besides its own two. A buffer is a number on
/// one node.
fn other_tasks(plan: &Plan, row: usize) -> Vec<u32> {
    let buffer = |row: &Buffer| (row[0], plan.node_of_task(row[1]));
    let own = plan.buffers[row];
    let rows = plan.buffers.iter();
    let of_buffer = rows.filter(|other| buffer(other) == buffer(&own));
    let tasks = of_buffer.flat_map(|&[_, writer, reader, ..]| [writer, reader]);
    tasks.filter(|task| !own[1..3].contains(task)).collect()
}

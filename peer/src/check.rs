//! The questions of `questions`, in the papers' order.
//!
//! Each question may rely on a yes to those before it. Sums and products are
//! taken in 64 bits, where no words of 32 bits can make them wrap.

use crate::answer::Answer;
use crate::charges::charges;
use crate::image::{
    word_at, Buffer, Chain, Frame, Link, Piece, Plan, Stream, Trailer, Window, BUFFER, CHAIN, CORE,
    FRAME, LINK, LONGEST, PIECE, QUEUES, ROW_BOUNDS, STREAM, TASK, TRAILER, VCPU, WIDTHS, WINDOW,
    WORD,
};
use crate::intervals::{lowest_clash, Interval};
use crate::jobs::{Job, Jobs};
use crate::paths::Paths;
use crate::routes::Routes;

/// The first question answered no, with its table and row, or 0 0 0.
pub fn check(image: &[u8]) -> Answer {
    match examine(image) {
        Ok(_) => Answer::ACCEPTED,
        Err(refusal) => refusal,
    }
}

/// The plan of an image in which all these questions are answered yes.
pub fn examine(image: &[u8]) -> Result<Plan, Answer> {
    let plan = examine_values(image)?;
    ask(40, STREAM, &plan.streams, |stream| stream[5] < QUEUES)?;
    let charges = ask_on_cores(&plan)?;
    ask_windows_hold(&plan, &charges)?;
    let jobs = Jobs::of(&plan)?;
    ask_streams(&plan, &jobs)?;
    ask_buffers(&plan, &jobs)?;
    ask_chains(&plan, &jobs)?;
    Ok(plan)
}

/// The plan of an image in which the questions 1 to 10 are answered yes, 32
/// among them, and what each window is charged. 40 is not asked: making a
/// draft goes without it.
pub fn examine_rows(image: &[u8]) -> Result<(Plan, Vec<u32>), Answer> {
    let plan = examine_values(image)?;
    let charges = ask_on_cores(&plan)?;
    Ok((plan, charges))
}

/// The plan of an image in which the questions 1 to 5, 32 and 6 are answered
/// yes.
fn examine_values(image: &[u8]) -> Result<Plan, Answer> {
    ask_layout(image)?;
    let plan = Plan::decode(image);
    ask_references(&plan)?;
    ask_order(&plan)?;
    ask_ranges(&plan)?;
    Ok(plan)
}

/// Questions 7 to 10; gives what each window is charged.
fn ask_on_cores(plan: &Plan) -> Result<Vec<u32>, Answer> {
    let charges = charges(plan);
    ask_windows(plan, &charges)?;
    ask_masks(plan)?;
    ask(10, PIECE, &plan.pieces, |piece| piece_in_job(plan, piece))?;
    Ok(charges)
}

fn wide(word: u32) -> u64 {
    u64::from(word)
}

/// Asks a question that has no bracket.
pub fn require(number: u32, yes: bool) -> Result<(), Answer> {
    if yes {
        Ok(())
    } else {
        Err(Answer::plain(number))
    }
}

/// Asks a question over the rows of a table; the lowest no counts.
fn ask<R>(number: u32, table: u32, rows: &[R], yes: impl Fn(&R) -> bool) -> Result<(), Answer> {
    match rows.iter().position(|row| !yes(row)) {
        None => Ok(()),
        Some(row) => Err(Answer::at(number, table, row as u32)),
    }
}

/// The interval of each row, by its place, start and length.
fn intervals<R>(rows: &[R], taken: impl Fn(&R) -> (u32, u32, u32)) -> Vec<Interval> {
    let interval = |(row, (place, start, length))| Interval {
        place,
        start,
        end: start + length,
        row,
    };
    (0..).zip(rows.iter().map(taken)).map(interval).collect()
}

/// Asks whether intervals of a table never overlap.
fn ask_apart(number: u32, table: u32, intervals: &[Interval]) -> Result<(), Answer> {
    match lowest_clash(intervals) {
        None => Ok(()),
        Some(row) => Err(Answer::at(number, table, row)),
    }
}

/// Questions 1 to 4.
fn ask_layout(image: &[u8]) -> Result<(), Answer> {
    let length = image.len();
    require(1, (TRAILER..=LONGEST).contains(&length))?;
    let last_word = word_at(image, length - WORD);
    require(2, last_word as usize == length - TRAILER)?;
    let trailer = Trailer::read(image);
    require(3, tables_adjoin(&trailer, wide(last_word)))?;
    let cycle_in_range = (1..=1_000_000).contains(&trailer.cycle);
    require(4, cycle_in_range && trailer.precision <= 10_000)
}

/// Whether the row counts are in bounds and the tables lie without gaps from
/// byte 0 to the trailer's first byte.
fn tables_adjoin(trailer: &Trailer, trailer_begin: u64) -> bool {
    let mut end = 0;
    for (table, &(offset, rows)) in trailer.tables.iter().enumerate() {
        let (least, most) = ROW_BOUNDS[table];
        if !(least..=most).contains(&rows) || wide(offset) != end {
            return false;
        }
        end += wide(rows) * (WIDTHS[table] * WORD) as u64;
    }
    end == trailer_begin
}

/// Question 5.
fn ask_references(plan: &Plan) -> Result<(), Answer> {
    let [cores, vcpus, tasks, _, _, links, streams, ..] = plan.counts();
    let names = |number: u32, rows: usize| (number as usize) < rows;
    ask(5, VCPU, &plan.vcpus, |&[core, ..]| names(core, cores))?;
    ask(5, TASK, &plan.tasks, |&[vcpu, ..]| names(vcpu, vcpus))?;
    ask(5, WINDOW, &plan.windows, |&[vcpu, ..]| names(vcpu, vcpus))?;
    ask(5, PIECE, &plan.pieces, |&[task, ..]| names(task, tasks))?;
    ask(5, STREAM, &plan.streams, |&[sender, receiver, ..]| {
        names(sender, tasks) && names(receiver, tasks)
    })?;
    ask(5, FRAME, &plan.frames, |&[stream, _, _, link, ..]| {
        names(stream, streams) && names(link, links)
    })?;
    ask(5, BUFFER, &plan.buffers, |&[_, writer, reader, ..]| {
        names(writer, tasks) && names(reader, tasks)
    })
}

/// Question 32.
fn ask_order(plan: &Plan) -> Result<(), Answer> {
    match plan.out_of_order() {
        None => Ok(()),
        Some((table, row)) => Err(Answer::at(32, table, row)),
    }
}

/// Question 6.
fn ask_ranges(plan: &Plan) -> Result<(), Answer> {
    let cycle = plan.cycle;
    ask(6, CORE, &plan.cores, |&[node, d, v, ..]| {
        node <= 15 && d <= 1_000 && v <= 1_000
    })?;
    ask(6, TASK, &plan.tasks, |task| {
        let [_, _, period, budget, deadline, ..] = *task;
        let divides = 1 <= period && cycle.is_multiple_of(period);
        divides && 1 <= budget && budget <= deadline && deadline <= period
    })?;
    ask(6, LINK, &plan.links, |link| {
        let [from, to, delay, rate, lowest, ..] = *link;
        let ends = from <= 15 && to <= 15 && from != to;
        ends && lowest <= delay && delay <= 1_000_000 && (1..=10_000).contains(&rate)
    })?;
    ask(6, STREAM, &plan.streams, |stream| {
        let [sender, receiver, latency, hops, payload, ..] = *stream;
        let route = sender != receiver && (1..=8).contains(&hops);
        route && latency <= 1_000_000 && (46..=1_500).contains(&payload)
    })?;
    ask(6, BUFFER, &plan.buffers, |&[number, writer, reader, ..]| {
        number <= 63 && writer != reader
    })
}

/// Questions 7 and 8.
fn ask_windows(plan: &Plan, charges: &[u32]) -> Result<(), Answer> {
    let charged: Vec<_> = plan.windows.iter().zip(charges).collect();
    ask(7, WINDOW, &charged, |&(window, &charge)| {
        let [_, start, length, ..] = *window;
        length > charge && wide(start) + wide(length) <= wide(plan.cycle)
    })?;
    let windows = intervals(&plan.windows, |&[vcpu, start, length, ..]| {
        (plan.core_of_vcpu(vcpu), start, length)
    });
    ask_apart(8, WINDOW, &windows)
}

/// Question 9.
fn ask_masks(plan: &Plan) -> Result<(), Answer> {
    ask(9, TASK, &plan.tasks, |&[vcpu, mask, ..]| {
        mask >> plan.core_of_vcpu(vcpu) & 1 == 1
    })
}

/// Questions 11 and 12.
fn ask_windows_hold(plan: &Plan, charges: &[u32]) -> Result<(), Answer> {
    let windows = VcpuWindows::of(plan, charges);
    ask(11, PIECE, &plan.pieces, |&[task, _, start, length, ..]| {
        windows.hold(plan.tasks[task as usize][0], start, start + length)
    })?;
    let pieces = intervals(&plan.pieces, |&[task, _, start, length, ..]| {
        (plan.core_of_task(task), start, length)
    });
    ask_apart(12, PIECE, &pieces)
}

/// Question 10 for one piece of a task that exists.
pub fn piece_in_job(plan: &Plan, &[task, k, start, length, ..]: &Piece) -> bool {
    let [_, _, period, _, deadline, ..] = plan.tasks[task as usize];
    let release = wide(k) * wide(period);
    let due = release + wide(deadline);
    let end = wide(start) + wide(length);
    k < plan.jobs(task) && length > plan.task_switch(task) && release <= wide(start) && end <= due
}

/// The windows of each VCPU in the order of time; those of one VCPU lie on
/// one core and are disjoint.
struct VcpuWindows {
    /// Where each VCPU's windows begin, and where the last one's end.
    begins: Vec<usize>,
    windows: Vec<VcpuWindow>,
}

/// One of them.
struct VcpuWindow {
    vcpu: u32,
    opens: u32,
    /// The first tick after the VCPU switch.
    free: u32,
    closes: u32,
}

impl VcpuWindows {
    fn of(plan: &Plan, charges: &[u32]) -> VcpuWindows {
        let window = |(&[vcpu, start, length, ..], &charge): (&Window, &u32)| VcpuWindow {
            vcpu,
            opens: start,
            free: start + charge,
            closes: start + length,
        };
        let mut windows: Vec<_> = plan.windows.iter().zip(charges).map(window).collect();
        windows.sort_unstable_by_key(|window| (window.vcpu, window.opens));
        let vcpus = 0..=plan.vcpus.len() as u32;
        let begin = |vcpu| windows.partition_point(|window| window.vcpu < vcpu);
        VcpuWindows {
            begins: vcpus.map(begin).collect(),
            windows,
        }
    }

    /// Whether one window of the VCPU holds these ticks after its switch.
    /// Only the last to start by `start` can hold them.
    fn hold(&self, vcpu: u32, start: u32, end: u32) -> bool {
        let vcpu = vcpu as usize;
        let windows = &self.windows[self.begins[vcpu]..self.begins[vcpu + 1]];
        let started = windows.partition_point(|window| window.opens <= start);
        windows[..started]
            .last()
            .is_some_and(|window| window.free <= start && end <= window.closes)
    }
}

/// Questions 14 to 21, and 41.
fn ask_streams(plan: &Plan, jobs: &Jobs) -> Result<(), Answer> {
    ask(14, STREAM, &plan.streams, |&[sender, receiver, ..]| {
        plan.period(sender) == plan.period(receiver)
            && plan.node_of_task(sender) != plan.node_of_task(receiver)
    })?;
    ask(15, FRAME, &plan.frames, |frame| frame_in_job(plan, frame))?;
    let network = Network {
        plan,
        jobs,
        routes: Routes::of(plan)?,
    };
    network.ask_each_job(17, Network::is_walk)?;
    ask(18, FRAME, &plan.frames, |frame| network.follows(frame))?;
    ask_apart(19, FRAME, &network.frames_on_links())?;
    network.ask_each_job(20, Network::is_in_order)?;
    network.ask_each_job(21, Network::is_in_time)?;
    ask_apart(41, FRAME, &network.stays())
}

fn frame_in_job(plan: &Plan, &[stream, k, hop, link, start, ..]: &Frame) -> bool {
    let [sender, _, _, hops, ..] = plan.streams[stream as usize];
    let period = wide(plan.period(sender));
    let end = wide(start) + wide(plan.frame_ticks(stream, link));
    let (from, until) = (wide(k) * period, (wide(k) + 1) * period);
    k < plan.jobs(sender) && hop < hops && from <= wide(start) && end <= until
}

/// The plan's streams with a frame for each of their jobs and hops.
struct Network<'a> {
    plan: &'a Plan,
    jobs: &'a Jobs,
    routes: Routes,
}

/// One job of a stream.
struct Message<'a> {
    stream: Stream,
    sender: &'a Job,
    receiver: &'a Job,
    /// The frame rows, hop by hop.
    hops: &'a [u32],
}

impl Network<'_> {
    /// Asks a question of each stream over all its jobs.
    fn ask_each_job(
        &self,
        number: u32,
        yes: impl Fn(&Self, &Message) -> bool,
    ) -> Result<(), Answer> {
        let all = |stream: usize| self.messages(stream).all(|message| yes(self, &message));
        match (0..self.plan.streams.len()).position(|stream| !all(stream)) {
            None => Ok(()),
            Some(stream) => Err(Answer::at(number, STREAM, stream as u32)),
        }
    }

    fn messages(&self, row: usize) -> impl Iterator<Item = Message<'_>> {
        let stream = self.plan.streams[row];
        let [sender, receiver, _, hops, ..] = stream;
        let routes = self.routes.of_stream(row as u32);
        let senders = self.jobs.of_task(sender).iter();
        let receivers = self.jobs.of_task(receiver).iter();
        senders
            .zip(receivers)
            .zip(routes.chunks_exact(hops as usize))
            .map(move |((sender, receiver), hops)| Message {
                stream,
                sender,
                receiver,
                hops,
            })
    }

    fn link_of(&self, frame: u32) -> Link {
        self.plan.links[self.plan.frames[frame as usize][3] as usize]
    }

    /// Question 17 for one job.
    fn is_walk(&self, message: &Message) -> bool {
        let mut node = self.plan.node_of_task(message.stream[0]);
        for &frame in message.hops {
            let [from, to, ..] = self.link_of(frame);
            if from != node {
                return false;
            }
            node = to;
        }
        node == self.plan.node_of_task(message.stream[1])
    }

    /// The tick from which all clocks agree that a frame has arrived: its
    /// end + delay + P.
    fn arrival(&self, frame: u32) -> u64 {
        let [stream, _, _, link, start, ..] = self.plan.frames[frame as usize];
        let end = wide(start) + wide(self.plan.frame_ticks(stream, link));
        let delay = self.plan.links[link as usize][2];
        end + wide(delay) + wide(self.plan.precision)
    }

    /// The frame row of the hop before a frame's, if there is one.
    fn previous(&self, &[stream, k, hop, ..]: &Frame) -> Option<u32> {
        let hops = self.plan.streams[stream as usize][3];
        let place = k as usize * hops as usize + hop as usize;
        (hop > 0).then(|| self.routes.of_stream(stream)[place - 1])
    }

    /// Question 18 for one frame.
    fn follows(&self, frame: &Frame) -> bool {
        let previous = self.previous(frame);
        previous.is_none_or(|previous| self.arrival(previous) <= wide(frame[4]))
    }

    /// The stay of each frame; its place is a queue of a link. By 18 and 20 it
    /// begins no later than the frame.
    fn stays(&self) -> Vec<Interval> {
        let stay = |(row, frame): (u32, &Frame)| {
            let &[stream, _, _, link, start, ..] = frame;
            Interval {
                place: link * QUEUES + self.plan.streams[stream as usize][5],
                start: self.stays_from(frame),
                end: start + self.plan.frame_ticks(stream, link),
                row,
            }
        };
        (0..).zip(&self.plan.frames).map(stay).collect()
    }

    /// The sender job's last end, or the previous hop's start plus the lowest
    /// delay of the link that it went over, less P and never below 0.
    fn stays_from(&self, frame: &Frame) -> u32 {
        let &[stream, k, ..] = frame;
        match self.previous(frame) {
            None => {
                let [sender, ..] = self.plan.streams[stream as usize];
                self.jobs.of_task(sender)[k as usize].last_end
            }
            Some(previous) => {
                let [_, _, _, _, start, ..] = self.plan.frames[previous as usize];
                let [_, _, _, _, lowest, ..] = self.link_of(previous);
                (start + lowest).saturating_sub(self.plan.precision)
            }
        }
    }

    fn frames_on_links(&self) -> Vec<Interval> {
        let plan = self.plan;
        intervals(&plan.frames, |&[stream, _, _, link, start, ..]| {
            (link, start, plan.frame_ticks(stream, link))
        })
    }

    /// Question 20 for one job.
    fn is_in_order(&self, message: &Message) -> bool {
        let first_hop = message.hops[0];
        let last_hop = message.hops[message.hops.len() - 1];
        let sent = self.plan.frames[first_hop as usize][4];
        message.sender.last_end <= sent
            && self.arrival(last_hop) <= wide(message.receiver.first_start)
    }

    /// Question 21 for one job.
    fn is_in_time(&self, message: &Message) -> bool {
        let [_, receiver, latency, ..] = message.stream;
        let bound = match latency {
            0 => self.plan.deadline(receiver),
            given => given,
        };
        let done = wide(message.receiver.last_end) + wide(self.plan.precision);
        done <= wide(message.sender.first_start) + wide(bound)
    }
}

/// Questions 22 to 24.
fn ask_buffers(plan: &Plan, jobs: &Jobs) -> Result<(), Answer> {
    ask(22, BUFFER, &plan.buffers, |&[_, writer, reader, ..]| {
        plan.period(writer) == plan.period(reader)
            && plan.node_of_task(writer) == plan.node_of_task(reader)
    })?;
    ask(23, BUFFER, &plan.buffers, |&[_, writer, reader, ..]| {
        let pairs = jobs.of_task(writer).iter().zip(jobs.of_task(reader));
        pairs.into_iter().all(|(w, r)| w.last_end <= r.first_start)
    })?;
    ask_apart(24, BUFFER, &shared_holds(plan, jobs))
}

/// The holds of all buffers that more than one row names.
fn shared_holds(plan: &Plan, jobs: &Jobs) -> Vec<Interval> {
    let buffer = |&[number, writer, ..]: &Buffer| number * 16 + plan.node_of_task(writer);
    let mut rows_of = [0; 64 * 16];
    for row in &plan.buffers {
        rows_of[buffer(row) as usize] += 1;
    }
    let mut holds = Vec::new();
    for (row, buffer_row) in plan.buffers.iter().enumerate() {
        let place = buffer(buffer_row);
        if rows_of[place as usize] > 1 {
            let [_, writer, reader, ..] = *buffer_row;
            let pairs = jobs.of_task(writer).iter().zip(jobs.of_task(reader));
            holds.extend(pairs.map(|(writer, reader)| Interval {
                place,
                start: writer.first_start,
                end: reader.last_end,
                row: row as u32,
            }));
        }
    }
    holds
}

/// Questions 29 to 31.
fn ask_chains(plan: &Plan, jobs: &Jobs) -> Result<(), Answer> {
    let exists = |task: u32| (task as usize) < plan.tasks.len();
    ask(29, CHAIN, &plan.chains, |&[first, last, ..]| {
        exists(first) && exists(last) && first != last
    })?;
    let paths = Paths::of(plan);
    ask(30, CHAIN, &plan.chains, |&[first, last, ..]| {
        paths.join(first, last)
    })?;
    ask(31, CHAIN, &plan.chains, |chain| {
        chain_in_time(plan, jobs, chain)
    })
}

/// Question 31 for one chain. Along a path all periods are equal, by 14 and
/// 22, so that its ends have equally many jobs.
fn chain_in_time(plan: &Plan, jobs: &Jobs, &[first, last, limit, ..]: &Chain) -> bool {
    let limit = match limit {
        0 => plan.deadline(last),
        given => given,
    };
    let mut pairs = jobs.of_task(first).iter().zip(jobs.of_task(last));
    pairs.all(|(first, last)| {
        let done = wide(last.last_end) + wide(plan.precision);
        done <= wide(first.first_start) + wide(limit)
    })
}

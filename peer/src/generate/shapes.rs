//! The shapes of plans.

use super::draft::{shuffled, Draft, Flow, Haste, NewTask, Transaction};
use super::windows::cut_window;
use crate::image::{row_of, Plan};
use crate::rng::Rng;

/// How large a random plan may become.
struct Size {
    cycles: &'static [u32],
    cores: u32,
    nodes: u32,
    vcpus: u32,
    links: u32,
    transactions: usize,
    jobs: u32,
    /// The numbers of hops to choose from.
    hops: &'static [u32],
}

/// The numbers of hops that most sizes choose from.
const ANY_HOPS: &[u32] = &[1, 1, 2, 2, 3, 4, 8];

const TINY: Size = Size {
    cycles: &[10, 12, 16, 18, 20, 24, 30, 36, 40, 48, 50, 60, 60],
    cores: 5,
    nodes: 4,
    vcpus: 7,
    links: 8,
    transactions: 6,
    jobs: 4,
    hops: &[1, 2, 2, 3],
};

const SMALL: Size = Size {
    cycles: &[
        1, 2, 4, 6, 8, 10, 12, 16, 18, 20, 24, 30, 36, 40, 48, 60, 72, 97, 120,
    ],
    cores: 4,
    nodes: 3,
    vcpus: 5,
    links: 5,
    transactions: 4,
    jobs: 6,
    hops: ANY_HOPS,
};

const MEDIUM: Size = Size {
    cycles: &[96, 144, 200, 240, 360, 400, 720, 840, 1_000, 1_260, 2_520],
    cores: 8,
    nodes: 5,
    vcpus: 12,
    links: 12,
    transactions: 8,
    jobs: 12,
    hops: ANY_HOPS,
};

const LARGE: Size = Size {
    cycles: &[
        5_040, 10_000, 65_536, 99_991, 100_000, 720_720, 999_999, 1_000_000,
    ],
    cores: 32,
    nodes: 16,
    vcpus: 64,
    links: 64,
    transactions: 40,
    jobs: 40,
    hops: ANY_HOPS,
};

/// An accepted plan of any shape but the full ones.
pub fn accepted(rng: &mut Rng) -> Plan {
    match rng.below(100) {
        0..=3 => bare(rng),
        4..=6 => unit_periods(rng),
        7 => diamond(rng),
        8..=13 => kept_core(rng),
        14..=18 => busy_links(rng),
        19..=41 => small(rng),
        42..=69 => medium(rng),
        70..=95 => rich(rng),
        _ => large(rng),
    }
}

/// A plan for small cycles.
pub fn small(rng: &mut Rng) -> Plan {
    random(&SMALL, rng)
}

/// A plan for cycles of some hundred ticks.
pub fn medium(rng: &mut Rng) -> Plan {
    random(&MEDIUM, rng)
}

/// A plan for long cycles, with up to 32 cores.
pub fn large(rng: &mut Rng) -> Plan {
    random(&LARGE, rng)
}

/// A plan with rows in every table.
pub fn rich(rng: &mut Rng) -> Plan {
    let size = if rng.chance(40) { &SMALL } else { &MEDIUM };
    with_all_tables(size, rng)
}

/// A plan with rows in every table, for small cycles.
pub fn small_rich(rng: &mut Rng) -> Plan {
    with_all_tables(&SMALL, rng)
}

/// A plan with rows in every table, for cycles of at most 60 ticks: messages
/// of one to three hops, P up to 3, limits often exactly met, and buffers
/// that rows share wherever their holds let them.
pub fn tiny(rng: &mut Rng) -> Plan {
    loop {
        let mut draft = foundation(&TINY, 2, rng);
        draft.plan.precision = rng.pick(&[0, 1, 1, 2, 2, 3, 3]);
        draft.few_numbers = true;
        for _ in 0..rng.below(4) {
            let exchange = exchange(&draft, rng);
            draft.add(&exchange, rng);
        }
        if let Some(plan) = filled(draft, &TINY, rng) {
            return plan;
        }
    }
}

fn with_all_tables(size: &Size, rng: &mut Rng) -> Plan {
    loop {
        let draft = foundation(size, 2, rng);
        if let Some(plan) = filled(draft, size, rng) {
            return plan;
        }
    }
}

/// The draft with transactions, where a stream and a buffer are among them.
fn filled(mut draft: Draft, size: &Size, rng: &mut Rng) -> Option<Plan> {
    if rng.chance(40) {
        let relay = relay(&draft, size, rng);
        draft.add(&relay, rng);
    }
    let turns = rng.below(size.transactions) + 2;
    for _ in 0..turns {
        let transaction = transaction(&draft, size, rng);
        draft.add(&transaction, rng);
    }
    if draft.plan.streams.is_empty() || draft.plan.buffers.is_empty() {
        return None;
    }
    draft.finish(rng)
}

/// Cores, perhaps links, and all other tables empty.
pub fn bare(rng: &mut Rng) -> Plan {
    let cycle = rng.pick(&[1, 2, 10, 1_000, 1_000_000]);
    let mut draft = Draft::new(cycle, rng.within(0..=10_000));
    for _ in 0..rng.within(1..=3) {
        let [node, d, v] = [15, 1_000, 1_000].map(|most| rng.within(0..=most));
        draft.add_core(node, d, v);
    }
    for _ in 0..rng.within(0..=2) {
        let ends = [rng.within(0..=7), rng.within(8..=15)];
        let [delay, rate] = [rng.within(0..=1_000_000), rng.within(1..=10_000)];
        draft.add_link(ends, delay, rate, rng);
    }
    let plan = draft.finish(rng);
    plan.expect("no windows are needed")
}

/// Tasks whose jobs fill their periods, down to one tick each.
pub fn unit_periods(rng: &mut Rng) -> Plan {
    let period = rng.within(1..=3);
    let tasks = rng.within(1..=3);
    let most_jobs = rng.pick(&[8, 100, 2_048 / tasks]);
    let jobs = rng.within(1..=most_jobs);
    let mut plan = Plan {
        cycle: period * jobs,
        precision: rng.within(0..=10_000),
        ..Plan::default()
    };
    for task in 0..tasks {
        plan.cores.push(row_of([task, 0, 0]));
        plan.vcpus.push(row_of([task]));
        plan.tasks.push(row_of([task, 0, period, period, period]));
        let piece = |k| row_of([task, k, k * period, period]);
        plan.pieces.extend((0..jobs).map(piece));
        let jobs_per_window = rng.within(jobs.div_ceil(300)..=jobs);
        for first in (0..jobs).step_by(jobs_per_window as usize) {
            let count = jobs_per_window.min(jobs - first);
            let window = [task, first * period, count * period];
            plan.windows.push(row_of(window));
        }
    }
    shuffled(plan, rng)
}

/// One core with all 1,024 windows and all 2,048 pieces of the plan.
pub fn busy_core(rng: &mut Rng) -> Plan {
    let mut core = OneCore::new(256, &[0, 1, 1, 2], rng);
    while core.plan.windows.len() < 1_024 {
        core.add_window(2, rng);
    }
    let period = core.now + core.gap(rng);
    core.finish(period, 1, rng)
}

/// One core for cycles of at most 60 ticks, with few gaps and long runs of
/// windows of one VCPU, also over the ends of periods. Many pieces start with
/// their window or right after its switch.
pub fn kept_core(rng: &mut Rng) -> Plan {
    let mut core = OneCore::new(4, &[0, 0, 0, 0, 1], rng);
    let until = rng.within(1..=30);
    while core.now < until {
        let pieces = rng.within(0..=2);
        core.add_window(pieces, rng);
    }
    let period = core.now + core.gap(rng);
    let most_jobs = (60 / period).clamp(1, 3);
    let jobs = rng.within(1..=most_jobs);
    core.finish(period, jobs, rng)
}

/// The windows of one core, laid one after the other.
struct OneCore {
    plan: Plan,
    most_tasks: usize,
    /// The gaps between windows and pieces to choose from.
    gaps: &'static [u32],
    /// The VCPU of the last window.
    vcpu: u32,
    /// The first tick after it.
    now: u32,
}

impl OneCore {
    fn new(most_tasks: usize, gaps: &'static [u32], rng: &mut Rng) -> OneCore {
        let core = [15, 3, 3].map(|most| rng.within(0..=most));
        let vcpus = rng.within(1..=4);
        OneCore {
            plan: Plan {
                cores: vec![row_of(core)],
                vcpus: vec![row_of([0]); vcpus as usize],
                ..Plan::default()
            },
            most_tasks,
            gaps,
            vcpu: rng.within(0..=vcpus - 1),
            now: 0,
        }
    }

    fn gap(&self, rng: &mut Rng) -> u32 {
        rng.pick(self.gaps)
    }

    /// Adds a window with so many pieces, often of the same VCPU as before.
    fn add_window(&mut self, pieces: u32, rng: &mut Rng) {
        let [_, d, v, ..] = self.plan.cores[0];
        let any = rng.below(self.plan.vcpus.len()) as u32;
        let vcpu = rng.pick(&[self.vcpu, any]);
        let start = self.now + self.gap(rng);
        let keeps = 0 < start && start == self.now && vcpu == self.vcpu;
        let charge = if keeps { 0 } else { v };
        let mut end = start + charge + self.gap(rng);
        for _ in 0..pieces {
            let task = self.next_task(vcpu, rng);
            let work = rng.within(1..=3);
            self.plan.pieces.push(row_of([task, 0, end, d + work]));
            self.plan.tasks[task as usize][3] += work;
            end += d + work + self.gap(rng);
        }
        end = end.max(start + charge + rng.within(1..=4));
        self.plan.windows.push(row_of([vcpu, start, end - start]));
        (self.vcpu, self.now) = (vcpu, end);
    }

    /// A new task, or any of the VCPU when there are enough.
    fn next_task(&mut self, vcpu: u32, rng: &mut Rng) -> u32 {
        let tasks = &mut self.plan.tasks;
        let of_vcpu = |task: &u32| tasks[*task as usize][0] == vcpu;
        let known: Vec<u32> = (0..tasks.len() as u32).filter(of_vcpu).collect();
        match rng.pick_any(&known) {
            Some(task) if tasks.len() >= self.most_tasks => task,
            _ => {
                tasks.push(row_of([vcpu, 0, 0, 0, 0]));
                tasks.len() as u32 - 1
            }
        }
    }

    /// The plan, with all that was laid once for each job. Only in the first
    /// one the first window may pay where it does not in the others.
    fn finish(self, period: u32, jobs: u32, rng: &mut Rng) -> Plan {
        let mut plan = self.plan;
        plan.cycle = period * jobs;
        for task in &mut plan.tasks {
            (task[2], task[4]) = (period, period);
        }
        let (windows, pieces) = (plan.windows.clone(), plan.pieces.clone());
        for k in 1..jobs {
            let later = k * period;
            for mut window in windows.iter().copied() {
                window[1] += later;
                plan.windows.push(window);
            }
            for mut piece in pieces.iter().copied() {
                (piece[1], piece[2]) = (k, later + piece[2]);
                plan.pieces.push(piece);
            }
        }
        shuffled(plan, rng)
    }
}

/// One buffer that several rows share on one node, for cycles of at most 60
/// ticks: the holds of a period follow each other, often at once, and their
/// tasks run on any of the node's cores.
pub fn shared_buffer(rng: &mut Rng) -> Plan {
    let cores = rng.within(2..=3);
    let [d, v, pause] = [2, 2, 2].map(|most| rng.within(0..=most));
    let rows = rng.within(2..=4);
    let mut plan = Plan {
        cores: vec![row_of([rng.within(0..=15), d, v]); cores as usize],
        vcpus: (0..cores).map(|core| row_of([core])).collect(),
        ..Plan::default()
    };
    let mut now = v;
    for row in 0..rows {
        plan.buffers.push(row_of([7, 2 * row, 2 * row + 1]));
        for task in [2 * row, 2 * row + 1] {
            let work = rng.within(1..=2);
            let vcpu = rng.within(0..=cores - 1);
            plan.tasks.push(row_of([vcpu, 0, 0, work, 0]));
            now += rng.within(0..=pause);
            plan.pieces.push(row_of([task, 0, now, d + work]));
            now += d + work;
        }
    }
    let period = now + rng.within(0..=pause);
    let jobs = rng.within(1..=(60 / period).clamp(1, 3));
    plan.cycle = period * jobs;
    let window = |vcpu| row_of([vcpu, 0, plan.cycle]);
    plan.windows = (0..cores).map(window).collect();
    for task in &mut plan.tasks {
        (task[2], task[4]) = (period, period);
    }
    let first_jobs = plan.pieces.clone();
    for k in 1..jobs {
        for mut piece in first_jobs.iter().copied() {
            (piece[1], piece[2]) = (k, k * period + piece[2]);
            plan.pieces.push(piece);
        }
    }
    for _ in 0..rng.below(4) {
        cut_window(&mut plan, rng);
    }
    shuffled(plan, rng)
}

/// A plan with every table at its highest row count.
///
/// Its 64 transactions have four tasks, one stream and one buffer each. Where
/// they have j jobs, a job has 8/j pieces and a message 8/j hops.
pub fn full(rng: &mut Rng) -> Plan {
    loop {
        if let Some(plan) = try_full(rng) {
            return plan;
        }
    }
}

fn try_full(rng: &mut Rng) -> Option<Plan> {
    let unit = rng.pick(&[10_000, 30_000, 90_000, 125_000]);
    let mut draft = Draft::new(8 * unit, rng.within(0..=unit / 200));
    draft.spread = 15;
    let nodes = rng.within(3..=6);
    for core in 0..32 {
        let d = rng.within(0..=unit / 1_000);
        draft.add_core(core % nodes, d, rng.within(0..=unit / 500));
    }
    for vcpu in 0..64 {
        let core = if vcpu < 32 { vcpu } else { rng.within(0..=31) };
        draft.add_vcpu(core);
    }
    for link in 0..64 {
        let from = link % nodes;
        let to = (from + 1 + link / nodes % (nodes - 1)) % nodes;
        let rate = any_rate(unit / 800, rng);
        draft.add_link([from, to], rng.within(0..=unit / 200), rate, rng);
    }
    for _ in 0..64 {
        let fits = (0..20).any(|_| {
            let transaction = full_transaction(&draft, unit, rng);
            draft.add(&transaction, rng)
        });
        if !fits {
            return None;
        }
    }
    draft.finish_with(Some(1_024), Some(32), rng)
}

fn full_transaction(draft: &Draft, unit: u32, rng: &mut Rng) -> Transaction {
    let jobs = rng.pick(&[1, 2, 4, 8]);
    let each = 8 / jobs;
    let task = |vcpu: u32, rng: &mut Rng| NewTask {
        vcpu,
        budget: each + rng.within(0..=unit / 200),
        least_pieces: each,
        most_pieces: each,
        haste: Haste::Easy,
    };
    let vcpus: Vec<u32> = (0..64).collect();
    let writer = rng.pick(&vcpus);
    let node = draft.node_of_vcpu(writer);
    let is_near = |vcpu: &u32| draft.node_of_vcpu(*vcpu) == node;
    let (near, far): (Vec<u32>, Vec<u32>) = vcpus.iter().partition(|vcpu| is_near(vcpu));
    let payload = any_payload(draft, unit / 400, rng);
    Transaction {
        period: 8 * unit / jobs,
        tasks: vec![
            task(writer, rng),
            task(rng.pick(&near), rng),
            task(rng.pick(&far), rng),
            task(rng.pick(&vcpus), rng),
        ],
        flows: vec![
            Flow {
                from: 0,
                to: 1,
                hops: each,
                payload,
            },
            Flow {
                from: rng.pick(&[0, 1]),
                to: 2,
                hops: each,
                payload,
            },
        ],
    }
}

fn random(size: &Size, rng: &mut Rng) -> Plan {
    loop {
        let mut draft = foundation(size, 0, rng);
        if !draft.plan.vcpus.is_empty() {
            for _ in 0..rng.below(size.transactions + 1) {
                let transaction = transaction(&draft, size, rng);
                draft.add(&transaction, rng);
            }
        }
        if let Some(plan) = draft.finish(rng) {
            return plan;
        }
    }
}

/// Cores on at least so many nodes, and VCPUs and links.
fn foundation(size: &Size, least: u32, rng: &mut Rng) -> Draft {
    let cycle = rng.pick(size.cycles);
    let most_precision = (cycle / 50).clamp(2, 10_000);
    let precision = rng.within(0..=most_precision);
    let precision = if rng.chance(30) { 0 } else { precision };
    let mut draft = Draft::new(cycle, precision);
    draft.spread = rng.pick(&[10, 50, 90]);
    let mut nodes: Vec<u32> = (0..16).collect();
    rng.shuffle(&mut nodes);
    nodes.truncate(rng.within(least.max(1)..=size.nodes) as usize);
    add_cores(&mut draft, size, least, &nodes, rng);
    if nodes.len() > 1 {
        add_links(&mut draft, size, least, &mut nodes, rng);
    }
    draft
}

/// The first cores have the first nodes, and the first VCPUs these cores.
fn add_cores(draft: &mut Draft, size: &Size, least: u32, nodes: &[u32], rng: &mut Rng) {
    let longest_switch = (draft.plan.cycle / 60).clamp(1, 1_000);
    for core in 0..rng.within(least.max(1)..=size.cores) {
        let any = rng.pick(nodes);
        let node = if core < least {
            nodes[core as usize]
        } else {
            any
        };
        draft.add_core(node, few(longest_switch, rng), few(longest_switch, rng));
    }
    let cores = draft.plan.cores.len() as u32;
    for vcpu in 0..rng.within(least..=size.vcpus) {
        let any = rng.within(0..=cores - 1);
        draft.add_vcpu(if vcpu < least { vcpu } else { any });
    }
}

/// The first link joins the first two nodes; others often lead back where the
/// last one came from.
fn add_links(draft: &mut Draft, size: &Size, least: u32, nodes: &mut [u32], rng: &mut Rng) {
    for link in 0..rng.within(least..=size.links) {
        if link > 0 {
            rng.shuffle(nodes);
        }
        let ends = match draft.plan.links.last() {
            Some(&[from, to, ..]) if rng.chance(30) => [to, from],
            _ => [nodes[0], nodes[1]],
        };
        let most_delay = (draft.plan.cycle / 40).max(3);
        let [delay, rate] = [few(most_delay, rng), any_rate(draft.plan.cycle / 24, rng)];
        draft.add_link(ends, delay, rate, rng);
    }
}

/// The bits of the shortest frame.
const FEWEST_BITS: u32 = 8 * (46 + 42);

/// A rate at which the shortest frame takes some ticks, and seldom more than
/// so many: often just these, or one more.
fn any_rate(most_ticks: u32, rng: &mut Rng) -> u32 {
    let ticks = rng.within(1..=most_ticks.clamp(1, FEWEST_BITS));
    let (slow, fast) = (FEWEST_BITS / ticks, FEWEST_BITS.div_ceil(ticks));
    match rng.below(6) {
        0 => fast,
        1 => slow,
        2 => (fast - 1).max(1),
        3 => fast.next_multiple_of(8),
        4 => fast.max(rng.pick(&[1, 10, 100, 1_000, 2_500, 10_000])),
        _ => rng.within(fast..=10_000),
    }
}

/// A payload of which a frame takes about so many ticks, or fewer, on one of
/// the links: often one that fills its last tick there, or just does not fit.
fn any_payload(draft: &Draft, most_ticks: u32, rng: &mut Rng) -> u32 {
    let rates: Vec<u32> = draft.plan.links.iter().map(|link| link[3]).collect();
    let rate = rng.pick_any(&rates).unwrap_or(1);
    let filling = |ticks: u32| (ticks * rate / 8).saturating_sub(42).clamp(46, 1_500);
    let most = filling(most_ticks.min(100_000));
    let full = filling(rng.within(1..=most_ticks.clamp(1, 100_000)));
    let any = rng.within(46..=most);
    rng.pick(&[46, any, full, full, (full + 1).min(most), most])
}

/// Up to a number, and often none or one.
fn few(most: u32, rng: &mut Rng) -> u32 {
    match rng.below(4) {
        0 => 0,
        1 => 1.min(most),
        _ => rng.within(0..=most),
    }
}

/// A writer and its reader on one node, both done soon.
fn exchange(draft: &Draft, rng: &mut Rng) -> Transaction {
    let vcpus = 0..draft.plan.vcpus.len() as u32;
    let writer = rng.pick(&vcpus.clone().collect::<Vec<u32>>());
    let is_near = |vcpu: &u32| draft.node_of_vcpu(*vcpu) == draft.node_of_vcpu(writer);
    let near: Vec<u32> = vcpus.filter(is_near).collect();
    let task = |vcpu: u32, rng: &mut Rng| NewTask {
        vcpu,
        budget: rng.within(1..=2),
        least_pieces: 1,
        most_pieces: 1,
        haste: Haste::Early,
    };
    Transaction {
        period: any_period(draft.plan.cycle, TINY.jobs, rng),
        tasks: vec![task(writer, rng), task(rng.pick(&near), rng)],
        flows: vec![Flow {
            from: 0,
            to: 1,
            hops: 1,
            payload: 46,
        }],
    }
}

/// A period with at most so many jobs in the cycle.
fn any_period(cycle: u32, most_jobs: u32, rng: &mut Rng) -> u32 {
    let divides = |jobs: &u32| cycle.is_multiple_of(*jobs);
    let jobs: Vec<u32> = (1..=most_jobs).filter(divides).collect();
    cycle / rng.pick(&jobs)
}

fn transaction(draft: &Draft, size: &Size, rng: &mut Rng) -> Transaction {
    let fewer_jobs = rng.within(1..=size.jobs);
    let most_jobs = rng.pick(&[size.jobs, size.jobs, fewer_jobs]);
    let period = any_period(draft.plan.cycle, most_jobs, rng);
    let count = rng.within(1..=4);
    let vcpus = draft.plan.vcpus.len() as u32;
    let task = |_| NewTask {
        vcpu: rng.within(0..=vcpus - 1),
        budget: rng.within(1..=(period / (5 * count)).max(1)),
        least_pieces: 1,
        most_pieces: rng.pick(&[1, 2, 4]),
        haste: rng.pick(&[Haste::Easy, Haste::Easy, Haste::Early, Haste::Late]),
    };
    let mut tasks: Vec<NewTask> = (0..count).map(task).collect();
    if rng.chance(25) {
        // A first start and a last end as far apart as they may be.
        tasks[0].haste = Haste::Early;
        tasks[count as usize - 1].haste = Haste::Late;
    }
    let flows = flows(draft, size, period, &tasks, rng);
    Transaction {
        period,
        tasks,
        flows,
    }
}

/// Some flows between tasks, each over as many hops as the links allow.
fn flows(draft: &Draft, size: &Size, period: u32, tasks: &[NewTask], rng: &mut Rng) -> Vec<Flow> {
    let mut flows = Vec::new();
    for to in 1..tasks.len() {
        while rng.chance(65) {
            let from = rng.below(to);
            flows.extend(flow(draft, size, period, tasks, from, to, rng));
        }
    }
    flows
}

/// A flow between two tasks, where they are on one node or links lead from
/// the one to the other.
fn flow(
    draft: &Draft,
    size: &Size,
    period: u32,
    tasks: &[NewTask],
    from: usize,
    to: usize,
    rng: &mut Rng,
) -> Option<Flow> {
    let ends = [tasks[from].vcpu, tasks[to].vcpu];
    let [start, end] = ends.map(|vcpu| draft.node_of_vcpu(vcpu));
    let near = start == end;
    let leads = |hops: &u32| near || draft.walk(start, end, *hops, rng).is_some();
    let lengths: Vec<u32> = size.hops.iter().copied().filter(leads).collect();
    let hops = rng.pick_any(&lengths)?;
    Some(Flow {
        from,
        to,
        hops,
        payload: any_payload(draft, period / (8 * hops), rng),
    })
}

/// Tasks in a row, each with a message to the next where that can be, and
/// with some to others that come later.
fn relay(draft: &Draft, size: &Size, rng: &mut Rng) -> Transaction {
    let most_jobs = rng.within(1..=size.jobs.min(3));
    let period = any_period(draft.plan.cycle, most_jobs, rng);
    let count = rng.within(3..=9);
    let habit = rng.pick(&[None, None, Some(false), Some(true)]);
    let vcpus = draft.plan.vcpus.len() as u32;
    let mut vcpu = rng.within(0..=vcpus - 1);
    let task = |_| {
        vcpu = next_vcpu(draft, vcpu, habit, rng);
        NewTask {
            vcpu,
            budget: rng.within(1..=(period / (12 * count)).max(1)),
            least_pieces: 1,
            most_pieces: rng.pick(&[1, 1, 2]),
            haste: Haste::Early,
        }
    };
    let mut tasks: Vec<NewTask> = (0..count).map(task).collect();
    if rng.chance(30) {
        // A first start and a last end as far apart as they may be.
        tasks[count as usize - 1].haste = Haste::Late;
    }
    let ticks = period / count;
    let mut flows = Vec::new();
    for to in 1..tasks.len() {
        if rng.chance(90) {
            flows.extend(flow(draft, size, ticks, &tasks, to - 1, to, rng));
        }
        while rng.chance(30) {
            let from = rng.below(to);
            flows.extend(flow(draft, size, ticks, &tasks, from, to, rng));
        }
    }
    for flow in &mut flows {
        let ends = [tasks[flow.from].vcpu, tasks[flow.to].vcpu];
        let [from, to] = ends.map(|vcpu| draft.node_of_vcpu(vcpu));
        if rng.chance(60) && draft.walk(from, to, 1, rng).is_some() {
            flow.hops = 1;
        }
    }
    Transaction {
        period,
        tasks,
        flows,
    }
}

/// A VCPU to send to: any, or one on the same node, or one on a node that a
/// link leads to, where there is such.
fn next_vcpu(draft: &Draft, vcpu: u32, near: Option<bool>, rng: &mut Rng) -> u32 {
    let node = |vcpu: u32| draft.node_of_vcpu(vcpu);
    let leads_to = |other: u32| {
        let mut links = draft.plan.links.iter();
        links.any(|link| link[..2] == [node(vcpu), node(other)])
    };
    let serves = |other: &u32| match near {
        None => true,
        Some(true) => node(*other) == node(vcpu),
        Some(false) => leads_to(*other),
    };
    let vcpus: Vec<u32> = (0..draft.plan.vcpus.len() as u32).collect();
    let serving: Vec<u32> = vcpus.iter().copied().filter(serves).collect();
    rng.pick_any(&serving).unwrap_or(rng.pick(&vcpus))
}

/// Few links with many messages over one to three hops, often several of one
/// task, for cycles of at most 60 ticks. So frames wait behind each other, in
/// few queues or in many, and some arrive, as far as clocks can tell, before
/// the cycle begins.
pub fn busy_links(rng: &mut Rng) -> Plan {
    loop {
        let mut draft = three_nodes(rng);
        for _ in 0..rng.within(3..=9) {
            let messages = messages(&draft, rng);
            draft.add(&messages, rng);
        }
        for _ in 0..rng.below(3) {
            let exchange = exchange(&draft, rng);
            draft.add(&exchange, rng);
        }
        if draft.plan.streams.len() < 2 {
            continue;
        }
        if let Some(plan) = draft.finish(rng) {
            return plan;
        }
    }
}

/// Three nodes in a ring of links, sometimes with a link more.
fn three_nodes(rng: &mut Rng) -> Draft {
    let cycle = rng.pick(&[30, 36, 40, 48, 60, 60]);
    let mut draft = Draft::new(cycle, rng.pick(&[0, 1, 2, 3, 4, 5]));
    let [d, v] = [0; 2].map(|_| rng.pick(&[0, 0, 1]));
    for node in [0, 1, 2, 0, 1, 2] {
        draft.add_vcpu(draft.plan.cores.len() as u32);
        draft.add_core(node, d, v);
    }
    let mut ends = vec![[0, 1], [1, 2], [2, 0]];
    ends.extend(rng.pick(&[None, None, Some([0, 1]), Some([1, 0])]));
    for ends in ends {
        let rate = rng.pick(&[352, 704, 10_000]);
        draft.add_link(ends, rng.within(0..=3), rate, rng);
    }
    draft
}

/// A task, sometimes a long one, and one on another node that reads one to three
/// messages of it.
fn messages(draft: &Draft, rng: &mut Rng) -> Transaction {
    let sender = rng.below(draft.plan.vcpus.len()) as u32;
    let receiver = vcpu_beside(draft, sender, false, rng);
    let [from, to] = [sender, receiver].map(|vcpu| draft.node_of_vcpu(vcpu));
    let leads = |hops: &u32| draft.walk(from, to, *hops, rng).is_some();
    let lengths: Vec<u32> = [1, 2, 2, 3].into_iter().filter(leads).collect();
    let mut flows = Vec::new();
    for _ in 0..rng.pick(&[1, 1, 1, 2, 3]) {
        flows.extend(rng.pick_any(&lengths).map(|hops| Flow {
            hops,
            ..quick_flow(0, 1)
        }));
    }
    let period = draft.plan.cycle / rng.pick(&[1, 2]);
    let long = rng.within(period / 4..=2 * period / 3);
    let sender = NewTask {
        budget: rng.pick(&[1, 1, long]),
        ..quick_task(sender)
    };
    Transaction {
        period,
        tasks: vec![sender, quick_task(receiver)],
        flows,
    }
}

/// As many messages as there may be, most of them in few long rows of tasks
/// with two messages between neighbours, or with two tasks side by side that
/// both send to both of the next two. So many paths lead along them that none
/// can follow each. Some tasks of the same period have no message at all.
pub fn diamond(rng: &mut Rng) -> Plan {
    loop {
        if let Some(plan) = try_diamond(rng) {
            return plan;
        }
    }
}

fn try_diamond(rng: &mut Rng) -> Option<Plan> {
    let cycle = rng.pick(&[20_000, 60_000]);
    let mut draft = Draft::new(cycle, rng.within(0..=3));
    let nodes = rng.within(2..=3);
    for core in 0..2 * nodes {
        draft.add_core(core % nodes, rng.within(0..=2), rng.within(0..=2));
        draft.add_vcpu(core);
    }
    for from in 0..nodes {
        for to in (0..nodes).filter(|to| *to != from) {
            let [delay, rate] = [rng.within(0..=2), rng.within(352..=10_000)];
            draft.add_link([from, to], delay, rate, rng);
        }
    }
    let period = cycle / rng.pick(&[1, 1, 2]);
    let rows = rng.pick(&[1, 1, 2]);
    for _ in 0..rows {
        let transaction = if rng.chance(70) {
            row_of_tasks(&draft, period, 32 / rows, rng)
        } else {
            rows_side_by_side(&draft, period, 32 / rows, rng)
        };
        if !draft.add(&transaction, rng) {
            return None;
        }
    }
    for _ in 0..rng.within(1..=3) {
        let vcpu = rng.below(draft.plan.vcpus.len()) as u32;
        let alone = Transaction {
            period,
            tasks: vec![quick_task(vcpu)],
            flows: Vec::new(),
        };
        draft.add(&alone, rng);
    }
    draft.finish(rng)
}

fn quick_task(vcpu: u32) -> NewTask {
    NewTask {
        vcpu,
        budget: 1,
        least_pieces: 1,
        most_pieces: 1,
        haste: Haste::Early,
    }
}

fn quick_flow(from: usize, to: usize) -> Flow {
    Flow {
        from,
        to,
        hops: 1,
        payload: 46,
    }
}

/// A VCPU on the node of another, or on another node.
fn vcpu_beside(draft: &Draft, vcpu: u32, near: bool, rng: &mut Rng) -> u32 {
    let node = draft.node_of_vcpu(vcpu);
    let vcpus = 0..draft.plan.vcpus.len() as u32;
    let serves = |other: &u32| (draft.node_of_vcpu(*other) == node) == near;
    let vcpus: Vec<u32> = vcpus.filter(serves).collect();
    rng.pick(&vcpus)
}

/// Tasks with two messages from each to the next: so many times two streams,
/// and as often two buffers, in any order.
fn row_of_tasks(draft: &Draft, period: u32, of_each: usize, rng: &mut Rng) -> Transaction {
    let mut steps = [vec![true; of_each], vec![false; of_each]].concat();
    rng.shuffle(&mut steps);
    let mut vcpu = rng.below(draft.plan.vcpus.len()) as u32;
    let mut tasks = vec![quick_task(vcpu)];
    let mut flows = Vec::new();
    for (from, near) in steps.into_iter().enumerate() {
        vcpu = vcpu_beside(draft, vcpu, near, rng);
        tasks.push(quick_task(vcpu));
        flows.extend([quick_flow(from, from + 1); 2]);
    }
    Transaction {
        period,
        tasks,
        flows,
    }
}

/// Two tasks on two nodes, each of which sends to both of the next two: so
/// many steps, each of two streams and two buffers.
fn rows_side_by_side(draft: &Draft, period: u32, steps: usize, rng: &mut Rng) -> Transaction {
    let vcpu = rng.below(draft.plan.vcpus.len()) as u32;
    let other = vcpu_beside(draft, vcpu, false, rng);
    let mut tasks = Vec::new();
    let mut flows = Vec::new();
    for step in 0..=steps {
        for vcpu in [vcpu, other] {
            let vcpu = vcpu_beside(draft, vcpu, true, rng);
            tasks.push(quick_task(vcpu));
        }
        if step > 0 {
            let (from, to) = (2 * step - 2, 2 * step);
            for (from, to) in [
                (from, to),
                (from, to + 1),
                (from + 1, to),
                (from + 1, to + 1),
            ] {
                flows.push(quick_flow(from, to));
            }
        }
    }
    Transaction {
        period,
        tasks,
        flows,
    }
}

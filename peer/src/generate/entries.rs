//! Plans whose lanes, or one of whose lanes, have as many entries as can be.

use super::draft::{any_link, shuffled};
use crate::image::{row_of, Plan, QUEUES, ROW_BOUNDS, WINDOW};
use crate::rng::Rng;

/// Cores of the senders' node and of the receivers'.
const CORES: u32 = 16;
const NODES: u32 = 3;
const CYCLE: u32 = 1_000_000;
const WINDOWS: u32 = ROW_BOUNDS[WINDOW as usize - 1].1;

/// 32 cores and 64 links with all 1,024 windows, 2,048 pieces and 512 frames,
/// each with both switches and with ticks between it and the next. The senders
/// run first, on node 0, then messages go round over eight hops to node 2.
pub fn most_entries(rng: &mut Rng) -> Plan {
    let mut plan = Plan {
        cycle: CYCLE,
        precision: rng.within(0..=100),
        ..Plan::default()
    };
    for (node, from) in [(0, 100_000), (NODES - 1, 700_000)] {
        for _ in 0..CORES {
            add_core(&mut plan, node, WINDOWS / (2 * CORES), [from, 6_000], rng);
        }
    }
    add_messages(&mut plan, 400_000, rng);
    shuffled(plan, rng)
}

/// One core with all 1,024 windows and 2,048 pieces, each as above.
pub fn longest_lane(rng: &mut Rng) -> Plan {
    let mut plan = Plan {
        cycle: CYCLE,
        ..Plan::default()
    };
    add_core(&mut plan, 0, WINDOWS, [100, 970], rng);
    shuffled(plan, rng)
}

/// A core of a node with a VCPU, a task and so many windows, from a tick on
/// and so many ticks apart.
fn add_core(plan: &mut Plan, node: u32, windows: u32, [from, apart]: [u32; 2], rng: &mut Rng) {
    let core = plan.cores.len() as u32;
    let [d, v] = [rng.within(1..=9), rng.within(1..=9)];
    plan.cores.push(row_of([node, d, v]));
    plan.vcpus.push(row_of([core]));
    plan.tasks.push(row_of([core, 0, CYCLE, 0, CYCLE]));
    for window in 0..windows {
        add_window(plan, core, from + apart * window, rng);
    }
}

/// A window with two pieces, of at most 522 ticks, from some tick on.
fn add_window(plan: &mut Plan, core: u32, from: u32, rng: &mut Rng) {
    let [_, d, v, ..] = plan.cores[core as usize];
    let start = from + rng.within(0..=400);
    let mut end = start + v + rng.within(1..=99);
    for _ in 0..2 {
        let work = rng.within(1..=99);
        plan.pieces.push(row_of([core, 0, end, d + work]));
        plan.tasks[core as usize][3] += work;
        end += d + work + rng.within(1..=99);
    }
    plan.windows.push(row_of([core, start, end - start]));
}

/// 64 streams of eight hops over 64 links, hop after hop.
fn add_messages(plan: &mut Plan, from: u32, rng: &mut Rng) {
    for link in 0..64 {
        let ends = [link % NODES, (link + 1) % NODES];
        let [delay, rate] = [rng.within(0..=100), rng.within(100..=10_000)];
        plan.links.push(any_link(ends, delay, rate, rng));
    }
    for stream in 0..64 {
        let [sender, receiver] = [0, CORES].map(|first| first + rng.within(0..=CORES - 1));
        let payload = rng.within(46..=1_500);
        let words = [sender, receiver, CYCLE, 8, payload, stream % QUEUES];
        plan.streams.push(row_of(words));
    }
    for (queue, hop) in (0..QUEUES).flat_map(|queue| (0..8).map(move |hop| (queue, hop))) {
        // All streams wait at once, so that those of one queue go over links
        // of their own.
        let mut links: Vec<u32> = (hop % NODES..64).step_by(NODES as usize).collect();
        rng.shuffle(&mut links);
        for (stream, link) in (queue..64).step_by(QUEUES as usize).zip(links) {
            let start = from + 20_000 * hop + 300 * stream + rng.within(0..=99);
            plan.frames.push(row_of([stream, 0, hop, link, start]));
        }
    }
}

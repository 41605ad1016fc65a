//! Cases A and B of the plan paper, and more that are made of them.

// Each test file takes what it needs.
#![allow(dead_code)]

use peer::image::{row_of, rows_of};
use peer::Plan;

pub fn case_a() -> Plan {
    Plan {
        cycle: 10,
        precision: 0,
        cores: rows_of(&[[0, 1, 2]]),
        vcpus: rows_of(&[[0]]),
        tasks: rows_of(&[[0, 1, 10, 3, 8]]),
        windows: rows_of(&[[0, 0, 10]]),
        pieces: rows_of(&[[0, 0, 2, 4]]),
        ..Plan::default()
    }
}

pub fn case_b() -> Plan {
    Plan {
        cycle: 20,
        precision: 1,
        cores: rows_of(&[[0, 1, 2], [1, 1, 2]]),
        vcpus: rows_of(&[[0], [1]]),
        tasks: rows_of(&[[0, 3, 20, 3, 20], [1, 3, 20, 3, 20]]),
        windows: rows_of(&[[0, 0, 20], [1, 0, 20]]),
        pieces: rows_of(&[[0, 0, 2, 4], [1, 0, 10, 4]]),
        links: rows_of(&[[0, 1, 1, 352]]),
        streams: rows_of(&[[0, 1, 13, 1, 46]]),
        frames: rows_of(&[[0, 0, 0, 0, 6]]),
        ..Plan::default()
    }
}

/// Case B with a third task that reads the receiver's buffer on its node, and
/// a chain from the first to the third that is exactly met: 14 + 4 - 2 + P.
pub fn case_chain() -> Plan {
    let mut plan = case_b();
    plan.tasks.push(row_of([1, 3, 20, 3, 20]));
    plan.pieces.push(row_of([2, 0, 14, 4]));
    plan.buffers = rows_of(&[[5, 1, 2]]);
    plan.chains = rows_of(&[[0, 2, 17]]);
    plan
}

/// Case B with P = 3 and an E of 0 that is exactly kept: the receiver's piece is
/// 12 to 16, its D is 16 - 2 + P, and the sender's is its last end.
pub fn case_deadline() -> Plan {
    let mut plan = case_b();
    plan.precision = 3;
    plan.pieces[1][2] = 12;
    plan.streams[0][2] = 0;
    (plan.tasks[0][4], plan.tasks[1][4]) = (6, 17);
    plan
}

/// The same with a cycle of 30 ticks, a third task that reads the receiver's
/// buffer from 16 to 20, and a chain to it that is exactly kept by its D, 21.
pub fn case_chain_deadline() -> Plan {
    let mut plan = case_deadline();
    plan.cycle = 30;
    plan.tasks.push(row_of([1, 3, 30, 3, 21]));
    plan.tasks.iter_mut().for_each(|task| task[2] = 30);
    plan.windows.iter_mut().for_each(|window| window[2] = 30);
    plan.pieces.push(row_of([2, 0, 16, 4]));
    plan.buffers = rows_of(&[[5, 1, 2]]);
    plan.chains = rows_of(&[[0, 2, 0]]);
    plan
}

/// Two rows of one buffer on two cores of a node, without switches; the
/// second row's tasks run after the first one's.
pub fn two_rows() -> Plan {
    Plan {
        cycle: 10,
        cores: rows_of(&[[3, 0, 0]; 2]),
        vcpus: rows_of(&[[0], [1]]),
        tasks: [[0, 1], [0, 2], [1, 1], [1, 1]]
            .map(|[vcpu, budget]| row_of([vcpu, 3, 10, budget, 10]))
            .to_vec(),
        windows: rows_of(&[[0, 0, 10], [1, 0, 10]]),
        pieces: rows_of(&[[0, 0, 0, 1], [1, 0, 4, 2], [2, 0, 6, 1], [3, 0, 8, 1]]),
        buffers: rows_of(&[[7, 0, 1], [7, 2, 3]]),
        ..Plan::default()
    }
}

/// Case B over two links of different rates, with a cycle of 60 ticks: frames
/// take 1 and 8 ticks, or the other way round.
pub fn two_hops(rates: [u32; 2], second_start: u32) -> Plan {
    let mut plan = case_b();
    plan.cycle = 60;
    plan.tasks = rows_of(&[[0, 3, 60, 3, 60], [1, 3, 60, 3, 60]]);
    plan.windows = rows_of(&[[0, 0, 60], [1, 0, 60]]);
    plan.links = rows_of(&[[0, 2, 3, rates[0]], [2, 1, 5, rates[1]]]);
    plan.streams = rows_of(&[[0, 1, 0, 2, 46]]);
    plan.frames = rows_of(&[[0, 0, 0, 0, 6], [0, 0, 1, 1, second_start]]);
    plan.pieces[1][2] = 40;
    plan
}

/// Case B with a cycle of 40 ticks and its receiver at 30, over two hops of one
/// tick each: from node 0 at 6, and from node 2 at 20. A second stream, of a
/// sender on node 2 whose job ends at 6, goes over the second link at a start.
pub fn one_queue(start: u32) -> Plan {
    let mut plan = case_b();
    (plan.cycle, plan.precision) = (40, 2);
    plan.cores.push(row_of([2, 1, 2]));
    plan.vcpus.push(row_of([2]));
    plan.tasks = (0..3).map(|vcpu| row_of([vcpu, 7, 40, 3, 40])).collect();
    plan.windows = (0..3).map(|vcpu| row_of([vcpu, 0, 40])).collect();
    plan.pieces = rows_of(&[[0, 0, 2, 4], [2, 0, 2, 4], [1, 0, 30, 4]]);
    plan.links = rows_of(&[[0, 2, 6, 704, 3], [2, 1, 1, 704, 1]]);
    plan.streams = rows_of(&[[0, 1, 40, 2, 46, 4], [2, 1, 40, 1, 46, 4]]);
    plan.frames = rows_of(&[[0, 0, 0, 0, 6], [1, 0, 0, 1, start], [0, 0, 1, 1, 20]]);
    plan.in_order()
}

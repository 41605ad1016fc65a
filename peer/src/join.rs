//! Two plans joined to one, for two modes (request 10).

use std::collections::HashMap;

use crate::answer::Answer;
use crate::check::{check, examine, require};
use crate::image::Plan;

/// Writes the joined image to the first bytes, and gives the answer to its own
/// questions and its length; or gives the first question before these that is
/// answered no, and 0, and changes no byte.
pub fn join(first: &[u8], second: &[u8], shared: u32, lent: &mut [u8]) -> (Answer, u32) {
    match joined(first, second, shared, lent.len()) {
        Err(refusal) => (refusal, 0),
        Ok(image) => {
            lent[..image.len()].copy_from_slice(&image);
            (check(&image), image.len() as u32)
        }
    }
}

/// The joined image, where both inputs are accepted and 35, 36 and 37 are
/// answered yes with so many bytes lent.
pub fn joined(first: &[u8], second: &[u8], shared: u32, lent: usize) -> Result<Vec<u8>, Answer> {
    let (first, second) = (examine(first)?, examine(second)?);
    require(35, agree(&first, &second))?;
    require(36, share(&first, &second, shared))?;
    let plan = compose(&first, &second, shared);
    let image = plan.encode();
    require(37, plan.rows_in_bounds() && image.len() <= lent)?;
    Ok(image)
}

/// Question 35.
fn agree(first: &Plan, second: &Plan) -> bool {
    (first.cycle, first.precision) == (second.cycle, second.precision)
        && first.cores == second.cores
        && first.vcpus == second.vcpus
        && first.windows == second.windows
        && first.links == second.links
}

/// Question 36.
fn share(first: &Plan, second: &Plan, shared: u32) -> bool {
    let leading = |plan: &Plan| plan.tasks.get(..shared as usize).map(<[_]>::to_vec);
    leading(first).is_some() && leading(first) == leading(second)
}

/// The number in the joined plan of a task of the second, where the first has
/// so many tasks.
pub fn new_number(task: u32, shared: u32, tasks: usize) -> u32 {
    if task < shared {
        task
    } else {
        tasks as u32 + (task - shared)
    }
}

/// The joined plan of two that share their leading tasks.
pub fn compose(first: &Plan, second: &Plan, shared: u32) -> Plan {
    let task = |number| new_number(number, shared, first.tasks.len());
    let mut plan = first.clone();
    plan.tasks
        .extend_from_slice(&second.tasks[shared as usize..]);
    take_in(&mut plan.pieces, &second.pieces, &[0], task);
    let streams = take_in(&mut plan.streams, &second.streams, &[0, 1], task);
    let stream = |number| streams[number as usize];
    take_in(&mut plan.frames, &second.frames, &[0], stream);
    take_in(&mut plan.buffers, &second.buffers, &[1, 2], task);
    take_in(&mut plan.chains, &second.chains, &[0, 1], task);
    plan.in_order()
}

/// Takes in other rows, the words in some columns renumbered: as the lowest
/// equal row, if there was one before, else as a new row. Gives where each
/// went.
fn take_in<const W: usize>(
    rows: &mut Vec<[u32; W]>,
    others: &[[u32; W]],
    columns: &[usize],
    renumber: impl Fn(u32) -> u32,
) -> Vec<u32> {
    let mut lowest = HashMap::new();
    for (number, row) in (0..).zip(rows.iter()) {
        lowest.entry(*row).or_insert(number);
    }
    let place = |other: &[u32; W]| {
        let mut row = *other;
        for &column in columns {
            row[column] = renumber(row[column]);
        }
        lowest.get(&row).copied().unwrap_or_else(|| {
            rows.push(row);
            rows.len() as u32 - 1
        })
    };
    others.iter().map(place).collect()
}

//! Changes of one mode that leave it accepted, with the other one in view.

use crate::check::check;
use crate::generate::cut_window;
use crate::image::{width, Plan, CORE, LINK, QUEUES, VCPU, WINDOW};
use crate::rng::Rng;

/// Changes a plan, where it has rows for that; it may be refused then.
pub type Change = fn(&mut Plan, &Plan, &mut Rng) -> Option<()>;

/// Changes of rows that a join compares, renumbers or appends; some are made
/// more often.
pub const ROWS: [Change; 15] = [
    piece,
    piece,
    piece,
    lengths,
    frame,
    frame,
    carrier,
    stream,
    queue,
    equal_streams,
    number,
    number,
    ends,
    chain,
    task,
];

/// Those of them that are about messages and chains.
pub const MESSAGES: [Change; 8] = [
    frame,
    carrier,
    stream,
    queue,
    equal_streams,
    number,
    ends,
    chain,
];

/// The questions that can refuse a result, and changes that lead to it.
pub const CLASHES: [(u32, &[Change]); 6] = [
    (12, &[piece]),
    (13, &[piece, lengths]),
    (16, &[frame, carrier]),
    (19, &[frame, stream]),
    (24, &[number, ends]),
    (41, &[queue, frame]),
];

/// Makes a change that leaves the plan accepted, in order and not as it was; or
/// none, where several tries do not come to that. Gives whether it made one.
pub fn vary(
    plan: &mut Plan,
    other: &Plan,
    change: impl Fn(&mut Plan, &Plan, &mut Rng) -> Option<()>,
    rng: &mut Rng,
) -> bool {
    for _ in 0..20 {
        let mut changed = plan.clone();
        if change(&mut changed, other, rng).is_none() {
            continue;
        }
        changed.put_in_order();
        if changed != *plan && check(&changed.encode()).is_accepted() {
            *plan = changed;
            return true;
        }
    }
    false
}

/// A word next to another one.
fn near(word: u32, rng: &mut Rng) -> u32 {
    let by = rng.pick(&[1, 1, 2, 3]);
    rng.pick(&[word.wrapping_add(by), word.wrapping_sub(by)])
}

fn any_row<'a, R>(rows: &'a mut [R], rng: &mut Rng) -> Option<&'a mut R> {
    let row = rng.below(rows.len().max(1));
    rows.get_mut(row)
}

/// Moves a piece, often to where one of the other plan's starts, of its VCPU.
fn piece(plan: &mut Plan, other: &Plan, rng: &mut Rng) -> Option<()> {
    let vcpu_of = |plan: &Plan, task: u32| plan.tasks[task as usize][0];
    let row = rng.below(plan.pieces.len().max(1));
    let [task, _, start, ..] = *plan.pieces.get(row)?;
    let vcpu = vcpu_of(plan, task);
    let theirs = other.pieces.iter();
    let theirs = theirs.filter(|piece| vcpu_of(other, piece[0]) == vcpu);
    let starts: Vec<u32> = theirs.map(|piece| piece[2]).collect();
    plan.pieces[row][2] = match rng.pick_any(&starts) {
        Some(start) if rng.chance(40) => start,
        Some(start) if rng.chance(30) => near(start, rng),
        _ => near(start, rng),
    };
    Some(())
}

/// Makes a piece longer and another one of its job as much shorter.
fn lengths(plan: &mut Plan, _: &Plan, rng: &mut Rng) -> Option<()> {
    let row = rng.below(plan.pieces.len().max(1));
    let job = plan.pieces.get(row)?[..2].to_vec();
    let of_job = |other: &usize| *other != row && plan.pieces[*other][..2] == job;
    let others: Vec<usize> = (0..plan.pieces.len()).filter(of_job).collect();
    let other = rng.pick_any(&others)?;
    let by = rng.within(1..=3);
    plan.pieces[row][3] += by;
    plan.pieces[other][3] = plan.pieces[other][3].checked_sub(by)?;
    Some(())
}

/// Moves a frame, often to where one of the other plan's starts, on its link.
fn frame(plan: &mut Plan, other: &Plan, rng: &mut Rng) -> Option<()> {
    let [.., link, start] = any_row(&mut plan.frames, rng)?;
    let theirs = other.frames.iter().filter(|frame| frame[3] == *link);
    let starts: Vec<u32> = theirs.map(|frame| frame[4]).collect();
    *start = match rng.pick_any(&starts) {
        Some(start) if rng.chance(60) => start,
        _ => near(*start, rng),
    };
    Some(())
}

/// Sends a frame over another link between the same nodes.
fn carrier(plan: &mut Plan, _: &Plan, rng: &mut Rng) -> Option<()> {
    let [.., link, _] = any_row(&mut plan.frames, rng)?;
    let ends = |link: u32| &plan.links[link as usize][..2];
    let leads = |other: &u32| other != link && ends(*other) == ends(*link);
    let others: Vec<u32> = (0..plan.links.len() as u32).filter(leads).collect();
    *link = rng.pick_any(&others)?;
    Some(())
}

/// Changes a stream's latency or payload.
fn stream(plan: &mut Plan, _: &Plan, rng: &mut Rng) -> Option<()> {
    let row = any_row(&mut plan.streams, rng)?;
    let column = rng.pick(&[2, 4]);
    row[column] = near(row[column], rng);
    Some(())
}

/// Puts a stream into another queue, often one of the other plan's.
fn queue(plan: &mut Plan, other: &Plan, rng: &mut Rng) -> Option<()> {
    let row = any_row(&mut plan.streams, rng)?;
    let queues: Vec<u32> = other.streams.iter().map(|stream| stream[5]).collect();
    row[5] = match rng.pick_any(&queues) {
        Some(queue) if rng.chance(70) => queue,
        _ => rng.within(0..=QUEUES - 1),
    };
    Some(())
}

/// Makes two streams equal that have the same ends and hops.
pub fn equal_streams(plan: &mut Plan, _: &Plan, rng: &mut Rng) -> Option<()> {
    let row = rng.below(plan.streams.len().max(1));
    let [sender, receiver, _, hops, ..] = *plan.streams.get(row)?;
    let is_like = |other: &usize| {
        let [from, to, _, steps, ..] = plan.streams[*other];
        *other != row && [from, to, steps] == [sender, receiver, hops]
    };
    let others: Vec<usize> = (0..plan.streams.len()).filter(is_like).collect();
    plan.streams[row] = plan.streams[rng.pick_any(&others)?];
    Some(())
}

/// Gives a buffer another number, often one of the other plan's.
fn number(plan: &mut Plan, other: &Plan, rng: &mut Rng) -> Option<()> {
    let row = any_row(&mut plan.buffers, rng)?;
    let numbers: Vec<u32> = other.buffers.iter().map(|buffer| buffer[0]).collect();
    row[0] = match rng.pick_any(&numbers) {
        Some(number) if rng.chance(80) => number,
        _ => rng.within(0..=63),
    };
    Some(())
}

/// Gives a buffer another writer or reader.
fn ends(plan: &mut Plan, _: &Plan, rng: &mut Rng) -> Option<()> {
    let tasks = plan.tasks.len() as u32;
    let row = any_row(&mut plan.buffers, rng)?;
    row[rng.pick(&[1, 2])] = rng.within(0..=tasks - 1);
    Some(())
}

/// Changes a chain, or adds one that is like another, or equal.
fn chain(plan: &mut Plan, _: &Plan, rng: &mut Rng) -> Option<()> {
    let tasks = plan.tasks.len() as u32;
    let mut chain = *any_row(&mut plan.chains, rng)?;
    match rng.below(4) {
        0 => chain[rng.below(2)] = rng.within(0..=tasks - 1),
        1 | 2 => chain[2] = near(chain[2], rng),
        _ => {}
    }
    if rng.chance(50) {
        plan.chains.push(chain);
    } else {
        *any_row(&mut plan.chains, rng)? = chain;
    }
    Some(())
}

/// Changes a task's mask or deadline.
fn task(plan: &mut Plan, _: &Plan, rng: &mut Rng) -> Option<()> {
    let row = any_row(&mut plan.tasks, rng)?;
    if rng.chance(50) {
        row[1] ^= 1 << rng.within(0..=31);
    } else {
        row[4] = near(row[4], rng);
    }
    Some(())
}

/// A part of what both plans must have, and a way in which one has another.
#[derive(Clone, Copy, Debug)]
pub enum Ground {
    Cycle,
    Precision,
    Cores(Way),
    Vcpus(Way),
    Windows(Way),
    Links(Way),
}

/// A way in which rows differ.
#[derive(Clone, Copy, Debug)]
pub enum Way {
    Word(usize),
    More,
    Fewer,
    Exchanged,
}

/// Every part, in every way.
pub fn grounds() -> Vec<Ground> {
    let ways = |table: u32| {
        let words = (0..width(table)).map(Way::Word);
        words.chain([Way::More, Way::Fewer, Way::Exchanged])
    };
    let mut grounds = vec![Ground::Cycle, Ground::Precision];
    grounds.extend(ways(CORE).map(Ground::Cores));
    grounds.extend(ways(VCPU).map(Ground::Vcpus));
    grounds.extend(ways(WINDOW).map(Ground::Windows));
    grounds.extend(ways(LINK).map(Ground::Links));
    grounds
}

/// Changes a part of the ground and no other one.
pub fn change_ground(plan: &mut Plan, ground: Ground, rng: &mut Rng) -> Option<()> {
    match ground {
        Ground::Cycle => plan.cycle = near(plan.cycle, rng),
        Ground::Precision => plan.precision = near(plan.precision, rng),
        Ground::Cores(way) => change_rows(&mut plan.cores, way, rng)?,
        Ground::Vcpus(way) => change_rows(&mut plan.vcpus, way, rng)?,
        Ground::Windows(Way::More) => cut_window(plan, rng)?,
        Ground::Windows(way) => change_rows(&mut plan.windows, way, rng)?,
        Ground::Links(Way::Exchanged) => exchange_links(plan, rng)?,
        Ground::Links(way) => change_rows(&mut plan.links, way, rng)?,
    }
    Some(())
}

/// Exchanges two links, and what frames call them.
fn exchange_links(plan: &mut Plan, rng: &mut Rng) -> Option<()> {
    let count = plan.links.len().max(1);
    let [one, other] = [0; 2].map(|_| rng.below(count) as u32);
    plan.links.get(one.max(other) as usize)?;
    plan.links.swap(one as usize, other as usize);
    for [.., link, _] in &mut plan.frames {
        *link = match *link {
            link if link == one => other,
            link if link == other => one,
            link => link,
        };
    }
    Some(())
}

fn change_rows<const W: usize>(rows: &mut Vec<[u32; W]>, way: Way, rng: &mut Rng) -> Option<()> {
    let [row, other] = [0; 2].map(|_| rng.below(rows.len().max(1)));
    match way {
        Way::Word(column) => {
            let word = &mut rows.get_mut(row)?[column];
            *word = near(*word, rng);
        }
        Way::More => rows.push(*rows.get(row)?),
        Way::Fewer => drop(rows.pop()?),
        Way::Exchanged => {
            rows.get(row.max(other))?;
            rows.swap(row, other);
        }
    }
    Some(())
}

/// Takes all tasks out of a plan, and what is about them.
pub fn clear(plan: &mut Plan) {
    plan.tasks.clear();
    plan.pieces.clear();
    plan.streams.clear();
    plan.frames.clear();
    plan.buffers.clear();
    plan.chains.clear();
}

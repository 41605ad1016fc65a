//! Changes of inputs that keep the image's layout, beside libFuzzer's own.
//!
//! libFuzzer changes bytes. Most such changes of an image end at questions 2
//! and 3, so three times in five rows are changed instead, where the image
//! has any, and it is laid out anew, mostly with its rows in order: else
//! question 32 would refuse what any change of a start leaves.

use peer::image::Plan;
use peer::{check, mutate, Rng};

use crate::split;

extern "C" {
    fn LLVMFuzzerMutate(data: *mut u8, size: usize, most: usize) -> usize;
}

/// Changes an input in place and gives its new length.
///
/// # Safety
/// The pointer leads to `most` bytes, of which `size` are the input.
pub unsafe fn edit(data: *mut u8, size: usize, most: usize, rng: &mut Rng) -> usize {
    let input = std::slice::from_raw_parts_mut(data, most);
    if rng.chance(60) {
        let (image, tail) = split(&input[..size]);
        if let Some(image) = edited(image, rng) {
            let changed = [&image[..], &tail].concat();
            if changed.len() <= most {
                input[..changed.len()].copy_from_slice(&changed);
                return changed.len();
            }
        }
    }
    LLVMFuzzerMutate(data, size, most)
}

/// The image with rows changed; none where its tables do not lie as its trailer says.
fn edited(image: &[u8], rng: &mut Rng) -> Option<Vec<u8>> {
    let number = check(image).number;
    if (1..=3).contains(&number) {
        return None;
    }
    let mut plan = Plan::decode(image);
    if number == 0 && rng.chance(30) {
        return Some(mutate::mutate(&plan, rng));
    }
    for _ in 0..=rng.below(3) {
        edit_plan(&mut plan, rng);
    }
    if rng.chance(90) {
        plan.put_in_order();
    }
    Some(plan.encode())
}

/// Changes one table, or H and P.
fn edit_plan(plan: &mut Plan, rng: &mut Rng) {
    match rng.below(11) {
        0 => edit_rows(&mut plan.cores, rng),
        1 => edit_rows(&mut plan.vcpus, rng),
        2 => edit_rows(&mut plan.tasks, rng),
        3 => edit_rows(&mut plan.windows, rng),
        4 => edit_rows(&mut plan.pieces, rng),
        5 => edit_rows(&mut plan.links, rng),
        6 => edit_rows(&mut plan.streams, rng),
        7 => edit_rows(&mut plan.frames, rng),
        8 => edit_rows(&mut plan.buffers, rng),
        9 => edit_rows(&mut plan.chains, rng),
        _ => {
            let mut head = [[plan.cycle, plan.precision]];
            edit_word(&mut head, rng);
            [[plan.cycle, plan.precision]] = head;
        }
    }
}

/// Changes a word, copies a row, takes one out, or lets two change places.
fn edit_rows<const W: usize>(rows: &mut Vec<[u32; W]>, rng: &mut Rng) {
    if rows.is_empty() {
        rows.push([0; W]);
        return;
    }
    let (at, other) = (rng.below(rows.len()), rng.below(rows.len()));
    match rng.below(8) {
        0 => rows.insert(other, rows[at]),
        1 => {
            rows.remove(at);
        }
        2 => rows.swap(at, other),
        _ => edit_word(rows, rng),
    }
}

/// Moves a word by a little, takes it from another row, or makes it anything.
fn edit_word<const W: usize>(rows: &mut [[u32; W]], rng: &mut Rng) {
    let (row, other, column) = (rng.below(rows.len()), rng.below(rows.len()), rng.below(W));
    let near = rng.within(1..=3);
    let word = rows[row][column];
    rows[row][column] = match rng.below(8) {
        0..=2 => word.wrapping_add(near),
        3..=5 => word.wrapping_sub(near),
        6 => rows[other][column],
        _ => rng.pick(&[0, 1, 15, 63, 1_000, 10_000, 1_000_000, u32::MAX]),
    };
}

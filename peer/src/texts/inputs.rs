//! The images that are handed to a program.

use crate::generate::{full, SHAPES};
use crate::harness::image_of;
use crate::image::{point_back, LONGEST, TRAILER};
use crate::mutate::mutate;
use crate::rng::Rng;

/// The image of a number, made of it and the seed alone. Of ten images one
/// is raw, two are accepted plans and three mutants of each shape in turn, and
/// four are those that the harness has.
pub fn image(seed: u64, number: u64) -> Vec<u8> {
    let mut rng = Rng::for_case(seed, number);
    let turn = number as usize / 10;
    let (_, shape) = SHAPES[turn % SHAPES.len()];
    match number % 10 {
        0 => raw(turn, &mut rng),
        1..=2 => shape(&mut rng).encode(),
        3..=5 => mutate(&shape(&mut rng), &mut rng),
        _ => image_of(number, &mut rng).0,
    }
}

/// Raw inputs have every length below this one.
const SHORT: usize = TRAILER + 16;

/// Lengths around that of the longest image and around 65,536 bytes, of which
/// a program may take no more and a pipe holds no more.
const LONG: [usize; 12] = [
    LONGEST - 1,
    LONGEST,
    LONGEST + 1,
    LONGEST + 4,
    65_535,
    65_536,
    65_537,
    65_540,
    70_000,
    131_072,
    200_000,
    1_000_000,
];

/// Bytes of each short length in turn, then of each long one: noise, and a
/// full plan with noise behind it.
fn raw(turn: usize, rng: &mut Rng) -> Vec<u8> {
    let turn = turn % (SHORT + 2 * LONG.len());
    let mut image = match turn.checked_sub(SHORT) {
        None => rng.bytes(turn),
        Some(turn) if turn < LONG.len() => rng.bytes(LONG[turn]),
        Some(turn) => fullest_and_more(LONG[turn - LONG.len()], rng),
    };
    if image.len() >= TRAILER && rng.chance(50) {
        point_back(&mut image);
    }
    image
}

/// The image of a full plan with more bytes behind it, or without its end.
fn fullest_and_more(length: usize, rng: &mut Rng) -> Vec<u8> {
    let mut image = full(rng).encode();
    image.truncate(length);
    let more = rng.bytes(length - image.len());
    image.extend(more);
    image
}

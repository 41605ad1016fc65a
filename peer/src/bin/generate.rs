//! Writes an image to standard output.
//!
//! Arguments: a shape (full), or `mutant`, and a seed (1). Or `text`, a seed
//! (1) and the number (0) of an image that `texts` hands to a program. Or
//! `draft`, a seed (1) and the number (0) of a draft of `drafts`. Or `first` or
//! `second`, a seed (1) and the number (0) of a pair of `joins`. Or `guest` or
//! `changed`, a seed (1) and the number (0) of a pair of `guests`.

use std::io::{self, Write};

use peer::generate::{Shape, SHAPES};
use peer::{drafts, guests, joins, mutate, texts, Rng};

fn main() -> io::Result<()> {
    let mut arguments = std::env::args().skip(1);
    let what = arguments.next().unwrap_or_else(|| "full".to_string());
    let [seed, number] = peer::numbers(arguments, [1, 0]);
    io::stdout().write_all(&image(&what, seed, number))
}

fn image(what: &str, seed: u64, number: u64) -> Vec<u8> {
    let rng = &mut Rng::new(seed);
    match what {
        "mutant" => mutate::mutant(rng),
        "text" => texts::image(seed, number),
        "draft" => drafts::image(seed, number),
        "first" => joins::pair(seed, number).images[0].clone(),
        "second" => joins::pair(seed, number).images[1].clone(),
        "guest" => guests::pair(seed, number).plans[0].encode(),
        "changed" => guests::pair(seed, number).plans[1].encode(),
        name => shape(name)(rng).encode(),
    }
}

fn shape(name: &str) -> Shape {
    match SHAPES.iter().find(|shape| shape.0 == name) {
        Some((_, shape)) => *shape,
        None => {
            let names = SHAPES.map(|(name, _)| name).join(" ");
            panic!("shapes: {names} mutant text draft first second guest changed")
        }
    }
}

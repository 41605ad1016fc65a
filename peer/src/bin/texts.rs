//! Runs a program on many images and compares what it prints with what this
//! package prints.
//!
//! Arguments: the program's path, the number of images (3000), the seed (1),
//! the first image's number (0). The program gets an image on standard input.
//! Exits with 1 at the first difference, where the program fails, and where
//! the images did not include all that they should.

use std::process::ExitCode;

use peer::texts::{run, Met, Process, Settings};

fn main() -> ExitCode {
    let mut arguments = std::env::args_os().skip(1);
    let program = arguments.next().expect("the first argument is a program");
    let numbers = std::env::args().skip(2);
    let [images, seed, first_image] = peer::numbers(numbers, [3_000, 1, 0]);
    let settings = Settings {
        seed,
        first_image,
        images,
    };
    let process = Process(program);
    let ran = run(&settings, &|image| process.text(image));
    peer::ended(ran, "images", Met::missing)
}

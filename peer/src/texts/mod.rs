//! What a program prints beside what this package prints, byte for byte but
//! for the line in words, which has a wording of its own.

mod inputs;
mod met;
mod process;

use std::fmt;

use crate::answer::Answer;
use crate::lines::{ask, Ledger};
use crate::report::report;

pub use inputs::image;
pub use met::{Met, Numbers};
pub use process::Process;

/// What to run.
#[derive(Clone, Copy, Debug)]
pub struct Settings {
    pub seed: u64,
    /// The images; each is made of the seed and its number alone.
    pub first_image: u64,
    pub images: u64,
}

/// A program: what it writes for an image, or how it failed.
pub type Program<'a> = dyn Fn(&[u8]) -> Result<Vec<u8>, String> + 'a;

/// Has the program print for all images, up to the first difference.
pub fn run(settings: &Settings, program: &Program) -> Result<Met, Difference> {
    let mut met = Met::default();
    for number in settings.first_image..settings.first_image + settings.images {
        let image = image(settings.seed, number);
        let ours = report(&image);
        let found = program(&image).map_err(|failure| format!("the program fails: {failure}"));
        let alike = found.and_then(|theirs| compare(&ours, &theirs, &mut met.lines));
        alike.map_err(|how| Difference {
            seed: settings.seed,
            number,
            length: image.len(),
            how,
        })?;
        met.meet(&ours);
    }
    Ok(met)
}

/// An image for which the program prints something else, or fails.
#[derive(Clone, Debug)]
pub struct Difference {
    pub seed: u64,
    pub number: u64,
    length: usize,
    how: String,
}

impl fmt::Display for Difference {
    fn fmt(&self, out: &mut fmt::Formatter<'_>) -> fmt::Result {
        let Difference {
            seed,
            number,
            length,
            how,
        } = self;
        writeln!(
            out,
            "difference in image {number} of seed {seed}, {length} bytes"
        )?;
        writeln!(out, "{how}")?;
        writeln!(
            out,
            "the image is made again by: generate text {seed} {number}"
        )
    }
}

/// The second line of a text.
const IN_WORDS: usize = 2;

/// Says where and how the program's text first differs. What its line in
/// words is, is asked when all before it is right.
fn compare(ours: &str, theirs: &[u8], known: &mut Ledger) -> Result<(), String> {
    let answer = met::answer_of(ours);
    let (mut ours, mut theirs) = (lines(ours.as_bytes()), lines(theirs));
    for number in 1.. {
        let (our, their) = (ours.next(), theirs.next());
        if number == IN_WORDS {
            let told = |how| format!("line {number}, theirs: {}: {how}", quoted(their));
            ask_in_words(answer, their, known).map_err(told)?;
        } else if our != their {
            let (our, their) = (quoted(our), quoted(their));
            return Err(format!(
                "line {number}, ours: {our}\nline {number}, theirs: {their}"
            ));
        } else if our.is_none() {
            break;
        }
    }
    Ok(())
}

fn ask_in_words(answer: Answer, line: Option<&[u8]>, known: &mut Ledger) -> Result<(), String> {
    let Some(line) = line else {
        return Err("it should be there".to_string());
    };
    let Some(line) = line.strip_suffix(b"\n") else {
        return Err("it has no newline".to_string());
    };
    ask(answer, line)?;
    known.meet(answer, line)
}

fn lines(text: &[u8]) -> impl Iterator<Item = &[u8]> {
    text.split_inclusive(|byte| *byte == b'\n')
}

fn quoted(line: Option<&[u8]>) -> String {
    match line {
        None => "no such line".to_string(),
        Some(line) => format!("\"{}\"", line.escape_ascii()),
    }
}

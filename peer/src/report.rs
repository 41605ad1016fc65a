//! What the program prints.

use std::fmt::Write;

use crate::answer::Answer;
use crate::line::line;
use crate::table::lanes;

/// The answer's line, the line in words, and for an accepted image a line for
/// each entry of each lane: lane, first tick, kind, row.
pub fn report(image: &[u8]) -> String {
    let (answer, lanes) = match lanes(image) {
        Err(refusal) => (refusal, Vec::new()),
        Ok(lanes) => (Answer::ACCEPTED, lanes),
    };
    let mut text = format!("{answer}\n{}\n", line(answer));
    for (lane, entries) in lanes.iter().enumerate() {
        for [first, kind, row] in entries {
            writeln!(text, "{lane} {first} {kind} {row}").expect("a string takes all");
        }
    }
    text
}

//! The questions that are asked of an image, by number. All that goes through
//! them takes them from here.

/// In the order in which they are asked. 25 to 28 and 42 are none of them:
/// these are asked of lanes, lent words and states.
pub const QUESTIONS: &[u32] = &[
    1, 2, 3, 4, 5, 32, 6, 40, 7, 8, 9, 10, 11, 12, 13, 14, 15, 16, 17, 18, 19, 20, 21, 41, 22, 23,
    24, 29, 30, 31,
];

/// Whether a number is that of a question which is asked before another one.
pub fn asked_before(number: u32, other: u32) -> bool {
    let mut before = QUESTIONS.iter().take_while(|asked| **asked != other);
    before.any(|asked| *asked == number)
}

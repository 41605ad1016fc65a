//! The line in words (request 9): number, table and row of an answer for who
//! reads without the manual. Its wording is this package's own; what every
//! such line has to be is asked in `lines`.

use crate::answer::Answer;
use crate::image::TABLES;

/// The most bytes of a line: with its newline it has 96.
pub const LONGEST_LINE: usize = 95;

/// What the rows of each table are called, by the plan paper's list.
const KINDS: [&str; TABLES] = [
    "core", "VCPU", "task", "window", "piece", "link", "stream", "frame", "buffer", "chain",
];

/// The name of a table's rows, if it has one.
pub fn kind(table: u32) -> Option<&'static str> {
    let place = (table as usize).checked_sub(1)?;
    KINDS.get(place).copied()
}

/// The line of an answer, without a newline.
pub fn line(answer: Answer) -> String {
    let Answer { number, table, row } = answer;
    match kind(table) {
        Some(kind) => format!("answer {number}: {kind}, row {row}"),
        None => format!("answer {number}: table {table}, row {row}"),
    }
}

#[cfg(test)]
mod tests {
    use super::*;

    #[track_caller]
    fn reads(number: u32, table: u32, row: u32, expected: &str) {
        assert_eq!(line(Answer::at(number, table, row)), expected);
    }

    #[test]
    fn named_tables() {
        reads(6, 1, 0, "answer 6: core, row 0");
        reads(5, 2, 63, "answer 5: VCPU, row 63");
        reads(13, 3, 7, "answer 13: task, row 7");
        reads(7, 4, 1_023, "answer 7: window, row 1023");
        reads(10, 5, 2_047, "answer 10: piece, row 2047");
        reads(6, 6, 1, "answer 6: link, row 1");
        reads(21, 7, 10, "answer 21: stream, row 10");
        reads(15, 8, 511, "answer 15: frame, row 511");
        reads(24, 9, 2, "answer 24: buffer, row 2");
        reads(31, 10, 31, "answer 31: chain, row 31");
    }

    #[test]
    fn other_tables() {
        reads(0, 0, 0, "answer 0: table 0, row 0");
        reads(1, 0, 0, "answer 1: table 0, row 0");
        reads(44, 11, 5, "answer 44: table 11, row 5");
        let most = u32::MAX;
        let longest = "answer 4294967295: table 4294967295, row 4294967295";
        reads(most, most, most, longest);
        assert!(longest.len() <= LONGEST_LINE);
    }

    #[test]
    fn names_of_ten_tables() {
        let named = (0..1_000).filter(|table| kind(*table).is_some());
        assert!(named.eq(1..=10));
        assert_eq!(kind(u32::MAX), None);
    }
}

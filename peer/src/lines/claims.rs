//! What every line in words has to be, whoever composes it.

use std::collections::HashMap;

use crate::answer::Answer;
use crate::line::{kind, LONGEST_LINE};

/// Says what the line of an answer should be and is not. It is asked for
/// its bytes, for the name of its rows' kind, and for its numbers.
pub fn ask(answer: Answer, line: &[u8]) -> Result<(), String> {
    let text = printable(line)?;
    let numbers = &mut numbers(text);
    match kind(answer.table) {
        Some(kind) => ask_word(text, kind)?,
        None => ask_number(text, numbers, "table", answer.table)?,
    }
    ask_number(text, numbers, "row", answer.row)
}

fn printable(line: &[u8]) -> Result<&str, String> {
    match line.len() {
        0 => return Err("it is empty".to_string()),
        1..=LONGEST_LINE => {}
        length => return Err(format!("it has {length} bytes, more than {LONGEST_LINE}")),
    }
    match line.iter().find(|byte| !(32..=126).contains(*byte)) {
        Some(byte) => Err(format!("it has a byte {byte}")),
        None => Ok(std::str::from_utf8(line).expect("printable ASCII")),
    }
}

/// All numbers of a line: digits that stand together.
fn numbers(text: &str) -> Vec<&str> {
    let parts = text.split(|byte: char| !byte.is_ascii_digit());
    parts.filter(|part| !part.is_empty()).collect()
}

/// Letters that stand together are a word.
fn ask_word(text: &str, word: &str) -> Result<(), String> {
    let mut words = text.split(|byte: char| !byte.is_ascii_alphabetic());
    if words.any(|other| other == word) {
        return Ok(());
    }
    Err(format!("it has no word \"{word}\""))
}

/// A number that is the table's or the row's, and no other's. Where the line
/// calls numbers by the word for it, this must be one of them.
fn ask_number(text: &str, left: &mut Vec<&str>, word: &str, number: u32) -> Result<(), String> {
    let digits = number.to_string();
    let Some(place) = left.iter().position(|other| *other == digits) else {
        return Err(format!("it has no number {number} for the {word} alone"));
    };
    left.remove(place);
    let called = called(text, word);
    if called.is_empty() || called.contains(&&digits[..]) {
        return Ok(());
    }
    Err(format!("it calls {} the {word}", called.join(", ")))
}

/// The numbers that stand behind a word and a space.
fn called<'a>(text: &'a str, word: &str) -> Vec<&'a str> {
    let parts: Vec<&str> = text.split(' ').collect();
    let pairs = parts.windows(2).filter(|pair| ends_with(pair[0], word));
    pairs.filter_map(|pair| leading_number(pair[1])).collect()
}

fn ends_with(part: &str, word: &str) -> bool {
    let before = part.strip_suffix(word);
    before.is_some_and(|before| !before.ends_with(|byte: char| byte.is_ascii_alphabetic()))
}

fn leading_number(part: &str) -> Option<&str> {
    let end = part.find(|byte: char| !byte.is_ascii_digit());
    let digits = &part[..end.unwrap_or(part.len())];
    (!digits.is_empty()).then_some(digits)
}

/// The lines of all answers so far: two answers never have one, and an answer
/// never has two.
#[derive(Clone, Debug, Default)]
pub struct Ledger {
    lines: HashMap<Answer, Vec<u8>>,
    answers: HashMap<Vec<u8>, Answer>,
}

impl Ledger {
    /// Takes in the line of an answer, or says what it was before.
    pub fn meet(&mut self, answer: Answer, line: &[u8]) -> Result<(), String> {
        let known = self.lines.entry(answer).or_insert_with(|| line.to_vec());
        if known != line {
            return Err(format!("it was \"{}\" before", known.escape_ascii()));
        }
        let of = *self.answers.entry(line.to_vec()).or_insert(answer);
        if of != answer {
            return Err(format!("it is the line of {of} too"));
        }
        Ok(())
    }

    /// How many answers have a line.
    pub fn answers(&self) -> usize {
        self.lines.len()
    }

    /// The lengths of the shortest and the longest line.
    pub fn lengths(&self) -> (usize, usize) {
        let lengths = || self.lines.values().map(Vec::len);
        (lengths().min().unwrap_or(0), lengths().max().unwrap_or(0))
    }
}

#[cfg(test)]
mod tests {
    use super::*;
    use crate::line::line;

    fn found(answer: [u32; 3], line: &str) -> Result<(), String> {
        let [number, table, row] = answer;
        ask(Answer::at(number, table, row), line.as_bytes())
    }

    #[track_caller]
    fn right(answer: [u32; 3], line: &str) {
        assert_eq!(found(answer, line), Ok(()), "{line}");
    }

    #[track_caller]
    fn wrong(answer: [u32; 3], line: &str, how: &str) {
        assert_eq!(found(answer, line), Err(how.to_string()), "{line}");
    }

    #[test]
    fn any_wording_will_do() {
        for answer in [[0; 3], [10, 5, 104], [10, 11, 104], [u32::MAX; 3]] {
            let [number, table, row] = answer;
            right(answer, &line(Answer::at(number, table, row)));
        }
        right([10, 5, 104], "too late: piece 104");
        right([10, 5, 104], "104 (piece)");
        right([10, 5, 104], "piece104");
        right([10, 5, 10], "10? piece!10");
        right([11, 5, 7], "window row 4, VCPU row 1, piece row 7");
        right([5, 12, 7], "12/7");
        right([0, 0, 0], "0,0");
        right([0, 0, 0], "~ table 0 row 0 ~");
        right([3, 11, 7], "not the end of table 10: table 11, row 7");
    }

    #[test]
    fn bytes() {
        let long = "piece 7".to_string() + &" ".repeat(88);
        right([1, 5, 7], &long);
        let how = "it has 96 bytes, more than 95";
        wrong([1, 5, 7], &(long + " "), how);
        wrong([1, 5, 7], "", "it is empty");
        wrong([1, 5, 7], "piece 7\n", "it has a byte 10");
        wrong([1, 5, 7], "piece\t7", "it has a byte 9");
        wrong([1, 5, 7], "piece 7\u{7f}", "it has a byte 127");
        wrong([1, 5, 7], "piece\u{1f}7", "it has a byte 31");
        let bytes = ask(Answer::at(1, 5, 7), b"piece 7\xA0");
        assert_eq!(bytes, Err("it has a byte 160".to_string()));
    }

    #[test]
    fn kinds() {
        let how = "it has no word \"piece\"";
        wrong([1, 5, 7], "pieces 7", how);
        wrong([1, 5, 7], "Piece 7", how);
        wrong([1, 5, 7], "timepiece 7", how);
        wrong([1, 5, 7], "table 5, row 7", how);
        wrong([1, 2, 7], "vcpu 7", "it has no word \"VCPU\"");
    }

    #[test]
    fn numbers_of_their_own() {
        let how = "it has no number 7 for the row alone";
        wrong([1, 5, 7], "piece 17", how);
        wrong([1, 5, 7], "piece 70", how);
        wrong([1, 5, 7], "piece 007", how);
        wrong([1, 5, 7], "piece", how);
        wrong([1, 12, 7], "table 12", how);
        wrong(
            [1, 12, 7],
            "table 127",
            "it has no number 12 for the table alone",
        );
        wrong(
            [1, 12, 7],
            "row 7",
            "it has no number 12 for the table alone",
        );
        // One number is not both.
        wrong([4, 0, 0], "row 0", "it has no number 0 for the row alone");
        wrong(
            [4, 9_000, 9_000],
            "9000",
            "it has no number 9000 for the row alone",
        );
    }

    #[test]
    fn numbers_called_by_a_word() {
        wrong([1, 12, 7], "table 7, row 12", "it calls 7 the table");
        wrong([7, 5, 8], "8: piece, row 7", "it calls 7 the row");
        right([1, 12, 7], "tables 7, arrow 12");
        right([1, 12, 7], "table: 7, row: 12");
    }

    #[test]
    fn one_line_for_each_answer() {
        let (one, other) = (Answer::at(1, 5, 7), Answer::at(2, 5, 7));
        let mut ledger = Ledger::default();
        assert_eq!(ledger.meet(one, b"a"), Ok(()));
        assert_eq!(ledger.meet(one, b"a"), Ok(()));
        let found = ledger.meet(one, b"bc");
        assert_eq!(found, Err("it was \"a\" before".to_string()));
        let found = ledger.meet(other, b"a");
        assert_eq!(found, Err("it is the line of 1 5 7 too".to_string()));
        let mut ledger = Ledger::default();
        assert_eq!(ledger.meet(one, b"a"), Ok(()));
        assert_eq!(ledger.meet(other, b"bc"), Ok(()));
        assert_eq!((ledger.answers(), ledger.lengths()), (2, (1, 2)));
    }
}

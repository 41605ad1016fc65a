//! Answers: the number of the first question answered no, with its place.

use std::fmt;

/// The number of a question, a table and a row; all zero when accepted.
#[derive(Clone, Copy, Debug, PartialEq, Eq, Hash)]
pub struct Answer {
    pub number: u32,
    pub table: u32,
    pub row: u32,
}

impl Answer {
    /// All questions were answered yes.
    pub const ACCEPTED: Answer = Answer::plain(0);

    /// A no to a question that has no bracket.
    pub const fn plain(number: u32) -> Answer {
        Answer::at(number, 0, 0)
    }

    /// A no to a question in a row of a table.
    pub const fn at(number: u32, table: u32, row: u32) -> Answer {
        Answer { number, table, row }
    }

    /// The answer of one number, as at the C boundary.
    pub const fn of_code(code: u64) -> Answer {
        let low = code as u32;
        Answer::at(low & 0xFFFF, low >> 16, (code >> 32) as u32)
    }

    /// Whether this is the answer 0 0 0.
    pub fn is_accepted(self) -> bool {
        self == Answer::ACCEPTED
    }

    /// The answer as one number, as at the C boundary.
    pub fn code(self) -> u64 {
        u64::from(self.number) | u64::from(self.table) << 16 | u64::from(self.row) << 32
    }
}

impl fmt::Display for Answer {
    fn fmt(&self, out: &mut fmt::Formatter<'_>) -> fmt::Result {
        write!(out, "{} {} {}", self.number, self.table, self.row)
    }
}

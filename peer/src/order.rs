//! The order of rows that have a start, which question 32 asks for.

use crate::image::{Plan, FRAME, PIECE, WINDOW};

/// Which word of a row is its start, in the tables that are ordered.
pub const WINDOW_START: usize = 1;
pub const PIECE_START: usize = 2;
pub const FRAME_START: usize = 4;

/// What rows rise by: the start, then all words from the first on.
fn key<const W: usize>(row: &[u32; W], start: usize) -> (u32, [u32; W]) {
    (row[start], *row)
}

/// The first row that is below its predecessor.
fn first_below<const W: usize>(rows: &[[u32; W]], start: usize) -> Option<u32> {
    let falls = |pair: &[[u32; W]]| key(&pair[1], start) < key(&pair[0], start);
    let before = rows.windows(2).position(falls)?;
    Some(before as u32 + 1)
}

impl Plan {
    /// The table and row that question 32 names, lowest table first.
    pub fn out_of_order(&self) -> Option<(u32, u32)> {
        let found = [
            (WINDOW, first_below(&self.windows, WINDOW_START)),
            (PIECE, first_below(&self.pieces, PIECE_START)),
            (FRAME, first_below(&self.frames, FRAME_START)),
        ];
        let mut found = found.into_iter();
        found.find_map(|(table, row)| row.map(|row| (table, row)))
    }

    /// Puts windows, pieces and frames in order. No row names one of them, so
    /// that nothing else has to follow.
    pub fn put_in_order(&mut self) {
        self.windows.sort_by_key(|row| key(row, WINDOW_START));
        self.pieces.sort_by_key(|row| key(row, PIECE_START));
        self.frames.sort_by_key(|row| key(row, FRAME_START));
    }

    /// The plan with these rows in order.
    pub fn in_order(mut self) -> Plan {
        self.put_in_order();
        self
    }
}

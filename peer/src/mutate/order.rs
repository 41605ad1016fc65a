//! Changes aimed at question 32.

use super::{any_row, any_where, change};
use crate::image::{Plan, FRAME, PIECE, ROW_BOUNDS, WINDOW};
use crate::order::{FRAME_START, PIECE_START, WINDOW_START};
use crate::rng::Rng;

/// Brings one of the three tables out of order, or several, and sometimes
/// breaks something else before.
pub fn order(plan: &mut Plan, rng: &mut Rng) -> Option<()> {
    if rng.chance(30) {
        let other = rng.pick(&[4, 4, 5, 5, 6, 6, 7, 8, 10, 13, 15, 16, 18]);
        change(other, plan, rng)?;
        plan.put_in_order();
    }
    let one = rng.pick(&[0, 1, 1, 2, 2, 2]);
    let several = rng.chance(30);
    let mut is_changed = false;
    for table in 0..3 {
        if table == one || several && rng.chance(60) {
            is_changed |= in_table(plan, table, rng).is_some();
        }
    }
    is_changed.then_some(())
}

fn in_table(plan: &mut Plan, table: usize, rng: &mut Rng) -> Option<()> {
    let [_, vcpus, tasks, _, _, links, streams, ..] = plan.counts();
    match table {
        0 => {
            let rows = Rows {
                table: WINDOW,
                start: WINDOW_START,
                bounds: bounds([(0, vcpus)]),
            };
            rows.disorder(&mut plan.windows, rng)
        }
        1 => {
            let rows = Rows {
                table: PIECE,
                start: PIECE_START,
                bounds: bounds([(0, tasks)]),
            };
            rows.disorder(&mut plan.pieces, rng)
        }
        _ => {
            let rows = Rows {
                table: FRAME,
                start: FRAME_START,
                bounds: bounds([(0, streams), (3, links)]),
            };
            rows.disorder(&mut plan.frames, rng)
        }
    }
}

/// What there is to know of a table's rows.
struct Rows<const W: usize> {
    table: u32,
    /// The word that is the start.
    start: usize,
    /// A bound of each word that is a row number: the rows it may name.
    bounds: [usize; W],
}

/// The bounds of these words, and none of all others.
fn bounds<const N: usize, const W: usize>(given: [(usize, usize); N]) -> [usize; W] {
    let mut bounds = [usize::MAX; W];
    for (column, rows) in given {
        bounds[column] = rows;
    }
    bounds
}

impl<const W: usize> Rows<W> {
    fn disorder(&self, rows: &mut Vec<[u32; W]>, rng: &mut Rng) -> Option<()> {
        match rng.below(16) {
            0 | 1 => self.swap_neighbours(rows, rng),
            2 => self.move_one(rows, rng),
            3 => self.whole_table(rows, rng),
            4 => self.pass_neighbour(rows, rng),
            5 => self.huge_start(rows, rng),
            6 => self.double(rows, rng),
            7 | 8 => self.swap_tie(rows, rng),
            _ => self.make_tie(rows, rng),
        }
    }

    /// Two neighbours change places: often the first or the last two, and
    /// sometimes one pair more.
    fn swap_neighbours(&self, rows: &mut [[u32; W]], rng: &mut Rng) -> Option<()> {
        let differ = |row: usize| rows[row] != rows[row + 1];
        let pairs = rows.len().checked_sub(1)?;
        let any = any_where(pairs, differ, rng)?;
        let row = rng.pick(&[any, any, 0, pairs - 1]);
        rows.swap(row, row + 1);
        if rng.chance(20) {
            rows.swap(any, any + 1);
        }
        Some(())
    }

    fn move_one(&self, rows: &mut Vec<[u32; W]>, rng: &mut Rng) -> Option<()> {
        let row = rows.remove(any_row(rows, rng)?);
        rows.insert(rng.below(rows.len() + 1), row);
        Some(())
    }

    fn whole_table(&self, rows: &mut [[u32; W]], rng: &mut Rng) -> Option<()> {
        let start = self.start;
        match rng.below(5) {
            0 => rng.shuffle(rows),
            1 => rows.reverse(),
            // By the words as they stand, by start alone, and by start with
            // ties the other way round.
            2 => rows.sort_unstable(),
            3 => {
                rng.shuffle(rows);
                rows.sort_by_key(|row| row[start]);
            }
            _ => {
                rows.sort_unstable();
                rows.reverse();
                rows.sort_by_key(|row| row[start]);
            }
        }
        Some(())
    }

    /// A row starts with the next one, or a tick later.
    fn pass_neighbour(&self, rows: &mut [[u32; W]], rng: &mut Rng) -> Option<()> {
        let pairs = rows.len().checked_sub(1)?;
        let row = any_where(pairs, |_| true, rng)?;
        let next = rows[row + 1][self.start];
        rows[row][self.start] = next.wrapping_add(rng.pick(&[0, 1, 1]));
        Some(())
    }

    /// A start whose highest bit is set, often that of the last row.
    fn huge_start(&self, rows: &mut [[u32; W]], rng: &mut Rng) -> Option<()> {
        let any = any_row(rows, rng)?;
        let row = rng.pick(&[any, rows.len() - 1]);
        rows[row][self.start] = rng.pick(&[1 << 31, u32::MAX, (1 << 31) - 1]);
        Some(())
    }

    /// A row once more: right behind itself, or anywhere.
    fn double(&self, rows: &mut Vec<[u32; W]>, rng: &mut Rng) -> Option<()> {
        let row = any_row(rows, rng)?;
        let anywhere = rng.below(rows.len() + 1);
        let place = rng.pick(&[row, row + 1, row + 1, anywhere]);
        rows.insert(place, rows[row]);
        self.has_room(rows)
    }

    /// Two rows with one start change places.
    fn swap_tie(&self, rows: &mut [[u32; W]], rng: &mut Rng) -> Option<()> {
        let pairs = rows.len().checked_sub(1)?;
        let start = |row: usize| rows[row][self.start];
        let row = any_where(pairs, |row| start(row) == start(row + 1), rng)?;
        rows.swap(row, row + 1);
        Some(())
    }

    /// Two rows with one start that differ in one word first, mostly the
    /// wrong way round. The words after it may say the opposite.
    fn make_tie(&self, rows: &mut Vec<[u32; W]>, rng: &mut Rng) -> Option<()> {
        let at = any_row(rows, rng)?;
        let columns: Vec<usize> = (0..W).filter(|column| *column != self.start).collect();
        let column = rng.pick(&columns);
        let mut low = rows[at];
        let mut high = low;
        if self.bounds[column] == usize::MAX {
            high[column] = match rng.below(4) {
                0 => high[column] | 1 << 31,
                1 => u32::MAX,
                _ => high[column].wrapping_add(1),
            };
        } else if high[column] as usize + 1 < self.bounds[column] {
            high[column] += 1;
        } else {
            low[column] = low[column].checked_sub(1)?;
        }
        if rng.chance(50) {
            for later in columns.into_iter().filter(|later| *later > column) {
                if (low[later] as usize) + 1 < self.bounds[later] {
                    low[later] = low[later].wrapping_add(1);
                }
            }
        }
        let pair = if rng.chance(80) {
            [high, low]
        } else {
            [low, high]
        };
        // In place of the row, or of the row and the next one.
        let until = rng.pick(&[at + 1, (at + 2).min(rows.len())]);
        rows.splice(at..until, pair);
        self.has_room(rows)
    }

    fn has_room(&self, rows: &[[u32; W]]) -> Option<()> {
        let (_, most) = ROW_BOUNDS[self.table as usize - 1];
        (rows.len() <= most as usize).then_some(())
    }
}

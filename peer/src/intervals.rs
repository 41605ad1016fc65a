//! Overlaps among intervals at places.

use std::collections::BTreeMap;

/// Ticks `start` to `end` (not included) that a row takes at a place.
///
/// Places and ticks are below 2^20, and an interval is not empty: both hold
/// for all that questions 8, 12, 19, 24 and 41 compare, by the questions before.
#[derive(Clone, Copy, Debug)]
pub struct Interval {
    pub place: u32,
    pub start: u32,
    pub end: u32,
    pub row: u32,
}

/// The lowest row that overlaps a lower row at the same place.
///
/// The intervals come in row order; those of one row do not overlap.
pub fn lowest_clash(intervals: &[Interval]) -> Option<u32> {
    if disjoint(intervals) {
        None
    } else {
        first_clash(intervals)
    }
}

/// Whether no two intervals overlap at one place. Among intervals sorted by
/// place and start some neighbours overlap as soon as any two do.
fn disjoint(intervals: &[Interval]) -> bool {
    let mut keys: Vec<u64> = intervals.iter().map(sort_key).collect();
    keys.sort_unstable();
    keys.windows(2).all(|pair| {
        let (end, next_start) = (pair[0] & TICK, pair[1] >> 20 & TICK);
        pair[0] >> 40 != pair[1] >> 40 || end <= next_start
    })
}

const TICK: u64 = (1 << 20) - 1;

/// Place, start and end in one number that sorts in this order.
fn sort_key(interval: &Interval) -> u64 {
    debug_assert!(interval.start < interval.end && u64::from(interval.end) <= TICK);
    u64::from(interval.place) << 40 | u64::from(interval.start) << 20 | u64::from(interval.end)
}

/// The row of the first interval that overlaps one before it. Those before
/// it are disjoint, so that only its two neighbours in time can do so.
fn first_clash(intervals: &[Interval]) -> Option<u32> {
    let mut taken = BTreeMap::new();
    for interval in intervals {
        let key = (interval.place, interval.start);
        let before = taken.range(..=key).next_back();
        let after = taken.range(key..).next();
        let runs_in = before
            .is_some_and(|(&(place, _), &end)| place == interval.place && end > interval.start);
        let runs_out = after
            .is_some_and(|(&(place, start), _)| place == interval.place && start < interval.end);
        if runs_in || runs_out {
            return Some(interval.row);
        }
        taken.insert(key, interval.end);
    }
    None
}

#[cfg(test)]
mod tests {
    use super::*;
    use crate::rng::Rng;

    fn overlap(a: &Interval, b: &Interval) -> bool {
        a.place == b.place && a.start < b.end && b.start < a.end
    }

    /// All pairs, the lowest higher row first.
    fn by_pairs(intervals: &[Interval]) -> Option<u32> {
        let clashes = |high: &&Interval| {
            let lower = intervals.iter().filter(|low| low.row < high.row);
            lower.into_iter().any(|low| overlap(low, high))
        };
        intervals.iter().find(clashes).map(|high| high.row)
    }

    #[test]
    fn lowest_clash_is_that_of_all_pairs() {
        let mut clashes = 0;
        for case in 0..50_000 {
            let mut rng = Rng::for_case(20, case);
            let (places, ticks) = (rng.within(0..=2), rng.within(1..=200));
            let rows = 0..rng.within(0..=12);
            let intervals: Vec<Interval> = rows
                .map(|row| {
                    let start = rng.within(0..=ticks);
                    Interval {
                        place: rng.within(0..=places),
                        start,
                        end: start + rng.within(1..=1 + ticks / 10),
                        row,
                    }
                })
                .collect();
            let clash = lowest_clash(&intervals);
            assert_eq!(clash, by_pairs(&intervals), "{intervals:?}");
            clashes += u32::from(clash.is_some());
        }
        assert!((10_000..40_000).contains(&clashes), "{clashes}");
    }

    #[test]
    fn adjoining_intervals_do_not_clash() {
        let one = |start, row| Interval {
            place: 3,
            start,
            end: start + 5,
            row,
        };
        assert_eq!(lowest_clash(&[one(5, 0), one(0, 1), one(10, 2)]), None);
        assert_eq!(lowest_clash(&[one(5, 0), one(0, 1), one(9, 2)]), Some(2));
        assert_eq!(lowest_clash(&[one(5, 0), one(1, 1), one(9, 2)]), Some(1));
    }
}

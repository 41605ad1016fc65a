//! What each window pays for the switch to its VCPU.

use crate::image::{Plan, Window};

/// The ticks of the VCPU switch at the front of each window, by row: v of its
/// core, or 0 where another window of its VCPU ends at the tick at which it
/// begins. At tick 0 it always pays.
///
/// The rows must exist that rows name; windows may overlap, be empty and end
/// after the cycle.
pub fn charges(plan: &Plan) -> Vec<u32> {
    let ends = sorted_ends(&plan.windows);
    let charge = |window: &Window| {
        if keeps_core(&ends, window) {
            0
        } else {
            plan.vcpu_switch(window[0])
        }
    };
    plan.windows.iter().map(charge).collect()
}

/// A VCPU and a tick, which may be one after the last 32-bit word.
type Place = (u32, u64);

/// Where the windows of each VCPU end.
fn sorted_ends(windows: &[Window]) -> Vec<Place> {
    let end = |&[vcpu, start, length, ..]: &Window| (vcpu, u64::from(start) + u64::from(length));
    let mut ends: Vec<Place> = windows.iter().map(end).collect();
    ends.sort_unstable();
    ends
}

/// Whether another window of the VCPU ends where this one begins. One that is
/// empty ends there itself, and so has to find a second end.
fn keeps_core(ends: &[Place], &[vcpu, start, length, ..]: &Window) -> bool {
    let begin = (vcpu, u64::from(start));
    let first = ends.partition_point(|end| *end < begin);
    let own = usize::from(length == 0);
    start > 0 && ends.get(first + own) == Some(&begin)
}

#[cfg(test)]
mod tests {
    use super::*;
    use crate::image::rows_of;
    use crate::rng::Rng;

    /// Two VCPUs on one core, v = 3, and a third one on another, v = 4; windows
    /// of these words.
    fn plan(windows: &[[u32; 3]]) -> Plan {
        Plan {
            cycle: 20,
            cores: rows_of(&[[0, 0, 3], [0, 0, 4]]),
            vcpus: rows_of(&[[0], [0], [1]]),
            windows: rows_of(windows),
            ..Plan::default()
        }
    }

    #[track_caller]
    fn expect<const N: usize>(windows: [[u32; 3]; N], expected: [u32; N]) {
        assert_eq!(charges(&plan(&windows)), expected);
    }

    #[test]
    fn a_run_of_windows_pays_once() {
        expect([[0, 0, 5], [0, 5, 1], [0, 6, 14]], [3, 0, 0]);
        expect([[0, 6, 14], [0, 0, 5], [0, 5, 1]], [0, 3, 0]);
        expect([[2, 6, 2], [2, 8, 2], [2, 11, 2]], [4, 0, 4]);
    }

    #[test]
    fn neighbours_of_another_vcpu_pay() {
        expect([[0, 0, 5], [1, 5, 5], [0, 10, 5]], [3, 3, 3]);
        expect([[0, 0, 5], [2, 5, 5]], [3, 4]);
    }

    #[test]
    fn at_tick_0_every_window_pays() {
        expect([[0, 0, 5], [0, 15, 5]], [3, 3]);
        expect([[0, 0, 5], [0, 0, 0], [0, 0, 0]], [3, 3, 3]);
    }

    /// Before 7 and 8 are answered, windows may be anything.
    #[test]
    fn windows_of_any_kind() {
        expect([[0, 5, 0]], [3]);
        expect([[0, 5, 0], [0, 5, 0]], [0, 0]);
        expect([[0, 5, 0], [0, 5, 2]], [3, 0]);
        expect([[0, 5, 4], [0, 5, 4], [0, 9, 1], [0, 9, 1]], [3, 3, 0, 0]);
        expect([[0, 9, u32::MAX - 3], [0, 5, 1]], [3, 3]);
        expect([[0, u32::MAX, 1], [0, 0, 1]], [3, 3]);
    }

    #[test]
    fn all_pairs_say_the_same() {
        for case in 0..20_000 {
            let mut rng = Rng::for_case(21, case);
            let rows = 0..rng.within(0..=6);
            let window = |_| [2, 4, 3].map(|most| rng.within(0..=most));
            let windows: Vec<[u32; 3]> = rows.map(window).collect();
            let plan = plan(&windows);
            let by_pairs = |row: usize| {
                let [vcpu, start, _] = windows[row];
                let ends_here = |other: usize| {
                    let [owner, begin, length] = windows[other];
                    other != row && owner == vcpu && begin + length == start
                };
                match start > 0 && (0..windows.len()).any(ends_here) {
                    true => 0,
                    false => [3, 3, 4][vcpu as usize],
                }
            };
            let by_pairs: Vec<u32> = (0..windows.len()).map(by_pairs).collect();
            assert_eq!(charges(&plan), by_pairs, "{windows:?}");
        }
    }
}

//! Wrong readings of what a window pays for its VCPU switch: the mutants show
//! each of them.

#[macro_use]
mod ways;

use peer::generate::kept_core;
use peer::image::Plan;
use peer::mutate::{mutant, mutate};
use peer::{asked_before, check, Answer, Rng};

ways! {
    /// Ways to read it.
    enum Reading { Right }

    const WRONG: 17 = {
        AllPay,
        AllPayInSeven,
        AllPayInEleven,
        NonePayInSeven,
        NonePayInEleven,
        AnyVcpuOfTheCore,
        AnyWindow,
        OnlyHigherRows,
        Tick0ContinuesFromTheEnd,
        EndsWrap,
        NoOneContinuesTwice,
        OverlappingOnesContinue,
        PiecesMaySpan,
        // Now that rows are in order
        OnlyTheRowBefore,
        OnlyTheRowBeforeOfTheCore,
        OnlyTheRowBeforeOfTheVcpu,
        OnlyTheWindowStartedLast,
    };

    /// Readings that are not wrong, since rows are in order. What ends where
    /// a window begins is in a row before it, and an empty one is refused by 7
    /// before it could matter; by 8 only the last window to start can hold a
    /// piece.
    const NOT_WRONG: 4 = {
        OnlyLowerRows,
        Tick0MayContinue,
        EmptyOnesDoNotCount,
        OnlyTheWindowStartedLastOnTheCore,
    };
}

use Reading::*;

impl Reading {
    /// Whether the window of a row begins where the one of another ends.
    fn adjoins(self, plan: &Plan, row: usize, other: usize) -> bool {
        let [vcpu, start, ..] = plan.windows[row];
        let [owner, begin, length, ..] = plan.windows[other];
        let core = |vcpu| plan.core_of_vcpu(vcpu);
        let end = u64::from(begin) + u64::from(length);
        let start = u64::from(start);
        let owned = match self {
            AnyVcpuOfTheCore => core(owner) == core(vcpu),
            AnyWindow => true,
            _ => owner == vcpu,
        };
        let meets = match self {
            EndsWrap => end % (1 << 32) == start,
            Tick0ContinuesFromTheEnd => end == start || start == 0 && end == u64::from(plan.cycle),
            OverlappingOnesContinue => u64::from(begin) < start && start <= end,
            EmptyOnesDoNotCount => end == start && length > 0,
            _ => end == start,
        };
        let counts = match self {
            OnlyLowerRows => other < row,
            OnlyHigherRows => other > row,
            NoOneContinuesTwice => !(0..other).any(|third| Right.adjoins(plan, other, third)),
            OnlyTheRowBefore => other + 1 == row,
            OnlyTheRowBeforeOfTheCore => {
                let on_core = |third: &usize| core(plan.windows[*third][0]) == core(vcpu);
                (0..row).rfind(on_core) == Some(other)
            }
            OnlyTheRowBeforeOfTheVcpu => {
                let owned = |third: &usize| plan.windows[*third][0] == vcpu;
                (0..row).rfind(owned) == Some(other)
            }
            _ => true,
        };
        other != row && owned && meets && counts
    }

    fn charge(self, plan: &Plan, row: usize, question: u32) -> u64 {
        let [vcpu, start, ..] = plan.windows[row];
        let always_pays = match self {
            AllPay => true,
            AllPayInSeven => question == 7,
            AllPayInEleven => question == 11,
            Tick0MayContinue | Tick0ContinuesFromTheEnd => false,
            _ => start == 0,
        };
        let never_pays = match self {
            NonePayInSeven => question == 7,
            NonePayInEleven => question == 11,
            _ => false,
        };
        let others = 0..plan.windows.len();
        let continues = others
            .into_iter()
            .any(|other| self.adjoins(plan, row, other));
        if never_pays || !always_pays && continues {
            0
        } else {
            u64::from(plan.vcpu_switch(vcpu))
        }
    }

    /// The first row that question 7 refuses.
    fn seven(self, plan: &Plan) -> Option<usize> {
        (0..plan.windows.len()).find(|row| {
            let [_, start, length, ..] = plan.windows[*row].map(u64::from);
            length <= self.charge(plan, *row, 7) || start + length > u64::from(plan.cycle)
        })
    }

    /// The first row that question 11 refuses.
    fn eleven(self, plan: &Plan) -> Option<usize> {
        plan.pieces.iter().position(|piece| {
            let [task, _, start, length, ..] = *piece;
            let vcpu = plan.tasks[task as usize][0];
            let (start, end) = (u64::from(start), u64::from(start) + u64::from(length));
            let holds = |row: usize| {
                let [owner, opens, open, ..] = plan.windows[row];
                let (opens, closes) = (u64::from(opens), u64::from(opens) + u64::from(open));
                let reaches = end <= closes || self == PiecesMaySpan && start < closes;
                owner == vcpu && reaches && opens <= start && {
                    opens + self.charge(plan, row, 11) <= start
                }
            };
            let core = |row: usize| plan.core_of_vcpu(plan.windows[row][0]);
            let started = |row: &usize| u64::from(plan.windows[*row][1]) <= start;
            let rows = 0..plan.windows.len();
            match self {
                OnlyTheWindowStartedLast => !rows.rev().find(started).is_some_and(holds),
                OnlyTheWindowStartedLastOnTheCore => {
                    let on_core = |row: &usize| core(*row) == plan.core_of_vcpu(vcpu);
                    let last = rows.rev().find(|row| started(row) && on_core(row));
                    !last.is_some_and(holds)
                }
                _ => !rows.into_iter().any(holds),
            }
        })
    }

    /// What this reading makes of a plan that a question from 7 on refuses or
    /// none does, as far as 7 and 11 go.
    fn answer(self, plan: &Plan, right: Answer) -> Option<Answer> {
        if let Some(row) = self.seven(plan) {
            return Some(Answer::at(7, 4, row as u32));
        }
        if (8..=10).contains(&right.number) {
            return None;
        }
        let row = self.eleven(plan)?;
        Some(Answer::at(11, 5, row as u32))
    }
}

#[test]
fn mutants_show_every_wrong_reading() {
    let mut shown = [0; WRONG.len()];
    for case in 0..12_000 {
        let mut rng = Rng::for_case(22, case);
        let image = if rng.chance(30) {
            let plan = kept_core(&mut rng);
            mutate(&plan, &mut rng)
        } else {
            mutant(&mut rng)
        };
        let right = check(&image);
        if asked_before(right.number, 7) {
            continue;
        }
        let plan = Plan::decode(&image);
        let first = Some(right).filter(|answer| [7, 11].contains(&answer.number));
        assert_eq!(Right.answer(&plan, right), first, "{plan:?}");
        for (count, reading) in shown.iter_mut().zip(WRONG) {
            *count += u32::from(reading.answer(&plan, right) != first);
        }
        for reading in NOT_WRONG {
            assert_eq!(reading.answer(&plan, right), first, "{reading:?} {plan:?}");
        }
    }
    for (count, reading) in shown.into_iter().zip(WRONG) {
        println!("{reading:?}: {count}");
        assert!(count >= 3, "{reading:?}: {count}");
    }
}

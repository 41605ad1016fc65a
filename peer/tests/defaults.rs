//! Wrong readings of what an E or a limit of 0 stands for: the images that
//! `differential` runs show each of them dozens of times.

#[macro_use]
mod ways;

use std::collections::BTreeMap;

use peer::harness::image_of;
use peer::{asked_before, check, Answer, Plan, Rng};

ways! {
    /// Ways to read it. The limit is from one task's start to another one's
    /// end: the sender and the receiver, or a chain's first task and its last.
    enum Reading { Right }

    const WRONG: 14 = {
        // What 0 stands for
        TheOtherDeadline,
        Period,
        ShorterDeadline,
        LongerDeadline,
        DueTick,
        Budget,
        Cycle,
        Zero,
        NoLimit,
        // What is compared with it
        EndsByTheDueTick,
        EndsByTheOtherDueTick,
        BelowTheDeadline,
        OnlyJob0,
        WrittenOnesToo,
    };
}

use Reading::*;

/// First start and last end by task and job.
type Spans = BTreeMap<(u32, u32), (i64, i64)>;

fn spans(plan: &Plan) -> Spans {
    let mut spans = Spans::new();
    for &[task, k, start, length, ..] in &plan.pieces {
        let (start, end) = (i64::from(start), i64::from(start + length));
        let span = spans.entry((task, k)).or_insert((start, end));
        *span = (span.0.min(start), span.1.max(end));
    }
    spans
}

/// A limit between two tasks of one period.
struct Limit<'a> {
    plan: &'a Plan,
    spans: &'a Spans,
    first: u32,
    last: u32,
    written: u32,
}

impl Limit<'_> {
    /// Whether every job keeps the limit.
    fn is_kept(&self, reading: Reading) -> bool {
        let jobs = match reading {
            OnlyJob0 if self.written == 0 => 1,
            _ => self.plan.jobs(self.first),
        };
        (0..jobs).all(|k| self.is_kept_in(k, reading))
    }

    fn is_kept_in(&self, k: u32, reading: Reading) -> bool {
        let plan = self.plan;
        let [_, _, period, budget, deadline, ..] = plan.tasks[self.last as usize].map(i64::from);
        let other = i64::from(plan.deadline(self.first));
        let (start, _) = self.spans[&(self.first, k)];
        let (_, end) = self.spans[&(self.last, k)];
        let release = i64::from(k) * period;
        let taken = end - start + i64::from(plan.precision);
        // Counted from the release in place of the start.
        let after_release = taken + start - release;
        if self.written > 0 {
            let written = i64::from(self.written);
            let at_most_the_deadline = reading != WrittenOnesToo || taken <= deadline;
            return taken <= written && at_most_the_deadline;
        }
        match reading {
            TheOtherDeadline => taken <= other,
            Period => taken <= period,
            ShorterDeadline => taken <= deadline.min(other),
            LongerDeadline => taken <= deadline.max(other),
            DueTick => taken <= release + deadline,
            Budget => taken <= budget,
            Cycle => taken <= i64::from(plan.cycle),
            Zero => taken <= 0,
            NoLimit => true,
            EndsByTheDueTick => after_release <= deadline,
            EndsByTheOtherDueTick => after_release <= other,
            BelowTheDeadline => taken < deadline,
            _ => taken <= deadline,
        }
    }
}

/// The rows that question 21 asks, or 31, as limits.
fn limits<'a>(question: u32, plan: &'a Plan, spans: &'a Spans) -> Vec<Limit<'a>> {
    let limit = |[first, last, written]: [u32; 3]| Limit {
        plan,
        spans,
        first,
        last,
        written,
    };
    let rows: Vec<[u32; 3]> = match question {
        21 => plan.streams.iter().map(front).collect(),
        _ => plan.chains.iter().map(front).collect(),
    };
    rows.into_iter().map(limit).collect()
}

/// The first three words of a row.
fn front<const W: usize>(row: &[u32; W]) -> [u32; 3] {
    [row[0], row[1], row[2]]
}

/// 20,000 images of seed 1, as in `differential`; each reading is taken in 21
/// alone, and in 31 alone.
#[test]
fn images_show_every_wrong_reading() {
    let asked = [(21, 7), (31, 10)];
    let mut shown = [[0; WRONG.len()]; 2];
    for case in 0..20_000 {
        let (image, _) = image_of(case, &mut Rng::for_case(1, case));
        let right = check(&image);
        if asked_before(right.number, 21) {
            continue;
        }
        let plan = Plan::decode(&image);
        let spans = spans(&plan);
        for (shown, (question, table)) in shown.iter_mut().zip(asked) {
            if asked_before(right.number, question) {
                continue;
            }
            let limits = limits(question, &plan, &spans);
            let answer = |reading: Reading| {
                let no = limits.iter().position(|limit| !limit.is_kept(reading))?;
                Some(Answer::at(question, table, no as u32))
            };
            let first = Some(right).filter(|answer| answer.number == question);
            assert_eq!(answer(Right), first, "{plan:?}");
            for (count, reading) in shown.iter_mut().zip(WRONG) {
                *count += u32::from(answer(reading) != first);
            }
        }
    }
    for (place, reading) in WRONG.into_iter().enumerate() {
        let counts = shown.map(|counts| counts[place]);
        println!("{reading:?}: {counts:?}");
        assert!(
            counts.iter().all(|count| *count >= 36),
            "{reading:?}: {counts:?}"
        );
    }
}

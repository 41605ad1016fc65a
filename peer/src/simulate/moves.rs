//! What single calls gave and showed.

use super::report::{Claim, Fact, Report, Violation};
use super::run::{Called, Run};
use super::tables::{Show, Tables};
use crate::dispatch::{start, State};

/// What each lane showed, move by move.
#[derive(Clone, Debug)]
pub struct Moves {
    /// By lane.
    pub shown: Vec<Vec<Show>>,
    /// How often every lane had moved, each time that all had equally often.
    pub cuts: Vec<usize>,
}

/// Follows the calls of a run and asks each what it gave and showed.
pub fn follow(cycle: u32, tables: &Tables, run: &Run, report: &mut Report) -> Moves {
    let calendar = Calendar {
        cycle: u128::from(cycle),
        start: u128::from(run.cycle),
    };
    let mut moves = Moves {
        shown: vec![Vec::new(); tables.lanes()],
        cuts: vec![0],
    };
    let mut before = &run.started;
    let all_only = run.steps_all_only();
    for (index, called) in run.calls.iter().enumerate() {
        let asked = Asked {
            index,
            called,
            calendar: &calendar,
        };
        let stepped = moves.shown.iter().enumerate();
        let mut stepped = stepped.filter(|(lane, _)| called.call.steps(*lane));
        let over = stepped.any(|(_, shown)| calendar.is_over(shown.len()));
        asked.number(over, report);
        if all_only && over != calendar.is_over(index) {
            report.fail(asked.failure(Claim::Number, "not as call i gives".to_string()));
        }
        for (lane, shown) in moves.shown.iter_mut().enumerate() {
            if called.number == 0 && called.call.steps(lane) {
                asked.moved(lane, shown.len(), tables, report);
                let record = &called.records[lane];
                shown.push((record.kind, record.row));
            } else {
                asked.kept(lane, &before[lane], report);
            }
        }
        moves.note_cut();
        before = &called.records;
    }
    moves
}

impl Moves {
    fn note_cut(&mut self) {
        let moved = self.shown[0].len();
        let level = self.shown.iter().all(|shown| shown.len() == moved);
        if level && self.cuts.last() != Some(&moved) {
            self.cuts.push(moved);
        }
    }
}

/// The calendar from a run's start on.
struct Calendar {
    /// H
    cycle: u128,
    /// c
    start: u128,
}

impl Calendar {
    /// Whether a lane's i-th move is the last tick of all, or later.
    fn is_over(&self, i: usize) -> bool {
        self.start * self.cycle + i as u128 >= (1 << 64) * self.cycle - 1
    }

    /// The cycle and tick of a lane's i-th move.
    fn place(&self, i: usize) -> (u128, u128) {
        let i = i as u128;
        (self.start + i / self.cycle, i % self.cycle)
    }
}

/// A call that is asked.
struct Asked<'a> {
    index: usize,
    called: &'a Called,
    calendar: &'a Calendar,
}

impl Asked<'_> {
    fn number(&self, over: bool, report: &mut Report) {
        let number = self.called.number;
        let (expected, fact) = if over {
            (28, Fact::GaveEnd)
        } else {
            (0, Fact::GaveZero)
        };
        let what = || format!("the call gave {number}, not {expected}");
        report.ask(number == expected, fact, || {
            self.failure(Claim::Number, what())
        });
    }

    /// Asks of a lane that it showed its i-th tick and stands at the next.
    fn moved(&self, lane: usize, i: usize, tables: &Tables, report: &mut Report) {
        let record = &self.called.records[lane];
        let (_, tick) = self.calendar.place(i);
        let (shown, entry) = ((record.kind, record.row), tables.at(lane, tick as usize));
        report.ask(shown == entry, Fact::Shown, || {
            let what = format!("lane {lane} showed {shown:?} at tick {tick}, not {entry:?}");
            self.failure(Claim::Shows, what)
        });
        let next = self.next(lane, i, tables);
        let stands = State {
            kind: next.kind,
            row: next.row,
            ..*record
        };
        if stands != next {
            let what = format!("lane {lane} stands at {stands:?}, not at {next:?}");
            report.fail(self.failure(Claim::Place, what));
        }
    }

    /// The place after a lane's i-th move; what it shows is left out.
    fn next(&self, lane: usize, i: usize, tables: &Tables) -> State {
        let (cycle, tick) = self.calendar.place(i + 1);
        State {
            tick: tick as u32,
            entry: tables.entry_at(lane, tick as usize) as u32,
            ..start(cycle as u64, tables.firsts[lane])
        }
    }

    fn kept(&self, lane: usize, before: &State, report: &mut Report) {
        let after = &self.called.records[lane];
        report.ask(after == before, Fact::Kept, || {
            let what = format!("the record of lane {lane} became {after:?}, it was {before:?}");
            self.failure(Claim::Place, what)
        });
    }

    fn failure(&self, claim: Claim, what: String) -> Violation {
        let call = self.called.call;
        Violation {
            claim,
            after: self.index,
            choice: None,
            what: format!("call {} ({call}): {what}", self.index),
        }
    }
}

//! What was found on runs: facts that were counted and claims that failed.

use std::collections::BTreeMap;
use std::fmt;

use super::choices::Choice;

/// What the paper claims of runs.
#[derive(Clone, Copy, Debug, PartialEq, Eq, PartialOrd, Ord)]
pub enum Claim {
    /// A call gives 0, and 28 from the calendar's last tick on.
    Number,
    /// A move shows what the lane's table has at its tick.
    Shows,
    /// A move leads to the next tick; a record that is not moved stays.
    Place,
    /// A job of a completed cycle has worked exactly C ticks.
    Budget,
    /// It works on the lane of its VCPU's core.
    Core,
    /// It works from its release on and before its due tick.
    Due,
    /// It works in windows of its VCPU, after the ticks of their switch.
    Window,
    /// A frame arrives from its earliest to its latest arrival of the cycle,
    /// by the clock of the node that sent it.
    Crossed,
    /// The receiver's job starts only where the message has arrived.
    Arrived,
    /// It ends at most E after the sender's job started.
    Latency,
    /// A chain's last task ends at most the limit after its first started.
    Chain,
    /// No other task of its buffer runs in a hold.
    Hold,
    /// No two frames are in one queue of a link at once.
    Queue,
}

/// A claim that does not hold.
#[derive(Clone, Debug)]
pub struct Violation {
    pub claim: Claim,
    /// How often every lane had moved; for a claim about a single call, how
    /// many calls had been made before.
    pub after: usize,
    /// Clocks and delays, where they matter.
    pub choice: Option<Choice>,
    pub what: String,
}

impl fmt::Display for Violation {
    fn fmt(&self, out: &mut fmt::Formatter<'_>) -> fmt::Result {
        let unit = match self.claim {
            Claim::Number | Claim::Shows | Claim::Place => "calls",
            _ => "moves of every lane",
        };
        writeln!(out, "claim: {:?}, {}", self.claim, self.what)?;
        writeln!(out, "after: {} {unit}", self.after)?;
        match &self.choice {
            None => writeln!(out, "clocks and delays: any"),
            Some(choice) => write!(out, "{choice}"),
        }
    }
}

/// What is counted, so that one sees what the claims were asked of.
#[derive(Clone, Copy, Debug, PartialEq, Eq)]
pub enum Fact {
    GaveZero,
    GaveEnd,
    Shown,
    Kept,
    JobWhole,
    TickWorked,
    FrameArrived,
    ArrivedEarliest,
    ArrivedBetween,
    ArrivedLatest,
    ReceiverStarted,
    StartedAtArrival,
    ReceiverEnded,
    EndedAtLatency,
    EndedAtDeadline,
    SentBelowZero,
    ChainEnded,
    ChainEndedAtLimit,
    ChainEndedAtDeadline,
    ChainOnOneNode,
    HoldOver,
    HoldOpen,
    HoldShared,
    StayOver,
    StayOpen,
    StayTouches,
    StayBeforeCycle,
}

pub const FACTS: [(Fact, &str); 27] = [
    (Fact::GaveZero, "calls that gave 0"),
    (Fact::GaveEnd, "calls that gave 28"),
    (Fact::Shown, "moves that showed their table's entry"),
    (Fact::Kept, "records left as they were"),
    (Fact::JobWhole, "jobs of completed cycles with their budget"),
    (Fact::TickWorked, "ticks worked in them"),
    (Fact::FrameArrived, "frames arrived between their bounds"),
    (Fact::ArrivedEarliest, "  of these at the earliest tick"),
    (Fact::ArrivedBetween, "  of these at neither end"),
    (Fact::ArrivedLatest, "  of these at the latest tick"),
    (Fact::ReceiverStarted, "receivers started on their message"),
    (Fact::StartedAtArrival, "  of these at the very arrival"),
    (Fact::ReceiverEnded, "receivers ended within E"),
    (Fact::EndedAtLatency, "  of these exactly E after"),
    (
        Fact::EndedAtDeadline,
        "    of these by the deadline, E being 0",
    ),
    (Fact::SentBelowZero, "  of these sent before true time 0"),
    (Fact::ChainEnded, "chains ended within their limit"),
    (
        Fact::ChainEndedAtLimit,
        "  of these exactly the limit after",
    ),
    (
        Fact::ChainEndedAtDeadline,
        "    of these by the deadline, the limit being 0",
    ),
    (
        Fact::ChainOnOneNode,
        "  of these with both ends on one node",
    ),
    (Fact::HoldOver, "holds over"),
    (Fact::HoldOpen, "holds open at the last tick shown"),
    (Fact::HoldShared, "holds of a buffer with other tasks"),
    (Fact::StayOver, "frames alone in their queue until sent"),
    (
        Fact::StayOpen,
        "frames alone in their queue at the last tick shown",
    ),
    (
        Fact::StayTouches,
        "  of both from the end of another's stay on",
    ),
    (
        Fact::StayBeforeCycle,
        "  of both from before their cycle on",
    ),
];

/// How often each fact was met.
#[derive(Clone, Debug, Default, PartialEq, Eq)]
pub struct Tally([u64; FACTS.len()]);

impl Tally {
    pub fn count(&mut self, fact: Fact) {
        self.0[fact as usize] += 1;
    }

    pub fn of(&self, fact: Fact) -> u64 {
        self.0[fact as usize]
    }

    pub fn add(&mut self, other: &Tally) {
        for (sum, count) in self.0.iter_mut().zip(other.0) {
            *sum += count;
        }
    }
}

/// Everything found on a run.
#[derive(Clone, Debug, Default)]
pub struct Report {
    /// After every cut and under every choice of clocks and delays.
    pub tally: Tally,
    /// After the last cut, under the last choice.
    pub at_end: Tally,
    /// The first failure of each claim that failed.
    pub violations: BTreeMap<Claim, Violation>,
}

impl Report {
    /// Counts a fact where a claim holds, else keeps how it fails.
    pub fn ask(&mut self, yes: bool, fact: Fact, failure: impl FnOnce() -> Violation) -> bool {
        if yes {
            self.tally.count(fact);
        } else {
            self.fail(failure());
        }
        yes
    }

    pub fn has(&self, claim: Claim) -> bool {
        self.violations.contains_key(&claim)
    }

    pub fn fail(&mut self, violation: Violation) {
        self.violations.entry(violation.claim).or_insert(violation);
    }
}

//! The simulator on accepted plans, and on runs that are not as they should.

mod cases;

use cases::{case_a, case_b, case_chain, case_chain_deadline, case_deadline, two_rows};
use peer::as_peer;
use peer::boundary::{read_state, read_words, write_state, Boundary, Peer, STATE};
use peer::generate::{shared_buffer, tiny};
use peer::image::{row_of, rows_of};
use peer::naive::Naive;
use peer::simulate::{
    all_lanes, choices, examine, mixed, simulate, Call, Claim, Fact, Report, Run, Settings, Tables,
    FACTS,
};
use peer::{Plan, Rng, State};

const SETTINGS: Settings = Settings {
    seed: 1,
    first_plan: 0,
    plans: 300,
};

#[test]
fn accepted_plans_keep_every_claim() {
    let summary = simulate(&SETTINGS, &[&Peer]).unwrap_or_else(|failure| panic!("{failure}"));
    assert_eq!((summary.plans, summary.runs), (300, 1_800));
    for (fact, name) in FACTS {
        let (at_end, all) = (summary.at_end.of(fact), summary.tally.of(fact));
        println!("{at_end:9} {all:11}  {name}");
        let least = if fact == Fact::StayBeforeCycle {
            40
        } else {
            100
        };
        assert!(at_end >= least, "{name}: {at_end}");
    }
    let answered = summary.at_end.of(Fact::GaveZero) + summary.at_end.of(Fact::GaveEnd);
    assert_eq!(answered, summary.calls);
}

#[test]
fn tables_without_the_check_are_the_same() {
    for number in 0..200 {
        let plan = tiny(&mut Rng::for_case(2, number));
        assert_eq!(Tables::built(&plan, &Peer), Ok(Tables::unasked(&plan)));
    }
}

#[test]
fn mixed_lists_end_level() {
    for number in 0..200 {
        let mut rng = Rng::for_case(3, number);
        let lanes = 1 + rng.below(6);
        let calls = mixed(lanes, 50, &mut rng);
        let moved = |lane: usize| calls.iter().filter(|call| call.steps(lane)).count();
        assert!((0..lanes).all(|lane| moved(lane) == moved(0) && moved(lane) >= 50));
        assert!(calls.contains(&Call::All) && calls.contains(&Call::One(0)));
    }
}

/// Ways to be wrong.
#[derive(Clone, Copy, Debug, PartialEq)]
enum Fault {
    IdlesFromCycle1,
    FirstLaneIdlesFromCycle1,
    NeverRuns,
    ShowsNextEntry,
    ShowsEntryBefore,
    LosesAWorkTick,
    Stays,
    Skips,
    ForgetsFirstWord,
    StepsAllButTheFirst,
    MovesWhenRefused,
    EndsATickEarly,
    NeverEnds,
    Gives27,
    BuildsOtherwise,
    BuildsNothing,
    EarliestATickLate,
    LatestATickEarly,
}

use Fault::*;

/// This package's own implementation with a fault.
struct Faulty(Fault);

impl Boundary for Faulty {
    as_peer!(check, gates, start);

    fn build(&self, image: &[u8], lane: u32, words: &mut [u8]) -> u64 {
        if self.0 == BuildsNothing {
            return 25;
        }
        let answer = Peer.build(image, lane, words);
        words[12] ^= u8::from(self.0 == BuildsOtherwise);
        answer
    }

    fn arrivals(&self, image: &[u8], frame: u32, ticks: &mut [u8]) -> u64 {
        let answer = Peer.arrivals(image, frame, ticks);
        match self.0 {
            EarliestATickLate => ticks[0] += 1,
            LatestATickEarly => ticks[4] -= 1,
            _ => {}
        }
        answer
    }

    fn step(&self, words: &[u8], state: &mut [u8]) -> u32 {
        self.step_all(words, state)
    }

    fn step_all(&self, words: &[u8], states: &mut [u8]) -> u32 {
        let before = states.to_vec();
        let number = Peer.step_all(words, states);
        let words = read_words(words);
        let records = states.as_chunks_mut::<STATE>().0.iter_mut();
        let old = before.as_chunks::<STATE>().0.iter();
        for (lane, (old, record)) in old.zip(records).enumerate() {
            let mut state = read_state(record);
            self.alter(&words, lane, number, &read_state(old), &mut state);
            *record = write_state(&state);
        }
        let first = read_state(&before.as_chunks().0[0]);
        let is_late = first.cycle == u64::MAX && first.tick + 2 == words[first.first as usize];
        match self.0 {
            EndsATickEarly if is_late => {
                states.copy_from_slice(&before);
                28
            }
            NeverEnds => 0,
            Gives27 => 27,
            _ => number,
        }
    }
}

impl Faulty {
    /// Changes the record that a call left.
    fn alter(&self, words: &[u32], lane: usize, number: u32, old: &State, state: &mut State) {
        let table = &words[state.first as usize..];
        let entry = |index: u32| &table[2 + 3 * index as usize..][..3];
        match self.0 {
            MovesWhenRefused if number != 0 => state.tick = 0,
            _ if number != 0 => {}
            NeverRuns => (state.kind, state.row) = (0, 0),
            IdlesFromCycle1 if old.cycle >= 1 => (state.kind, state.row) = (0, 0),
            FirstLaneIdlesFromCycle1 if old.cycle >= 1 && lane == 0 => {
                (state.kind, state.row) = (0, 0);
            }
            ShowsNextEntry => {
                (state.kind, state.row) = (entry(state.entry)[1], entry(state.entry)[2])
            }
            ShowsEntryBefore => {
                let before = entry(old.entry.saturating_sub(1));
                (state.kind, state.row) = (before[1], before[2]);
            }
            LosesAWorkTick if state.kind == 4 && entry(old.entry)[0] == old.tick => state.kind = 3,
            StepsAllButTheFirst if lane == 0 && words.len() > 20 => *state = *old,
            Stays => {
                *state = State {
                    tick: old.tick,
                    entry: old.entry,
                    cycle: old.cycle,
                    ..*state
                }
            }
            Skips if state.tick > 0 => state.tick += 1,
            ForgetsFirstWord => state.first ^= 1,
            _ => {}
        }
    }
}

/// What is found on a run of case B.
fn found(fault: Fault, cycle: u64, calls: &[Call]) -> Report {
    found_on(&case_b(), fault, cycle, calls)
}

fn found_on(plan: &Plan, fault: Fault, cycle: u64, calls: &[Call]) -> Report {
    let tables = Tables::unasked(plan);
    let run = Run::make(&Faulty(fault), &tables, cycle, calls);
    let choices = choices(plan, plan.precision, &mut Rng::new(1));
    examine(plan, &tables, &run, &choices)
}

#[test]
fn each_fault_breaks_its_claims() {
    let last = u64::MAX - 1;
    for (fault, cycle, claims) in [
        (IdlesFromCycle1, 0, &[Claim::Shows, Claim::Budget][..]),
        (
            FirstLaneIdlesFromCycle1,
            0,
            &[Claim::Shows, Claim::Budget, Claim::Arrived],
        ),
        (NeverRuns, 0, &[Claim::Shows, Claim::Budget]),
        (ShowsNextEntry, 0, &[Claim::Shows]),
        (ShowsEntryBefore, 0, &[Claim::Shows, Claim::Arrived]),
        (
            LosesAWorkTick,
            0,
            &[Claim::Shows, Claim::Budget, Claim::Arrived],
        ),
        (Stays, 0, &[Claim::Place, Claim::Shows]),
        (Skips, 0, &[Claim::Place]),
        (ForgetsFirstWord, 0, &[Claim::Place]),
        (StepsAllButTheFirst, 0, &[Claim::Place]),
        (MovesWhenRefused, last, &[Claim::Place]),
        (EndsATickEarly, last, &[Claim::Number]),
        (NeverEnds, last, &[Claim::Number]),
        (Gives27, 0, &[Claim::Number]),
    ] {
        let report = found(fault, cycle, &all_lanes(60));
        for &claim in claims {
            assert!(report.has(claim), "{fault:?} keeps {claim:?}: {report:?}");
        }
    }
}

/// Arrivals that are a tick off, in whichever cycle a run starts.
#[test]
fn wrong_arrivals_break_their_claim() {
    let plan = case_b();
    let choices = choices(&plan, plan.precision, &mut Rng::new(1));
    for fault in [EarliestATickLate, LatestATickEarly] {
        for cycle in [0, 7, u64::MAX - 1] {
            let tables = Tables::built(&plan, &Faulty(fault)).expect("case B is accepted");
            let run = Run::make(&Peer, &tables, cycle, &all_lanes(30));
            let report = examine(&plan, &tables, &run, &choices);
            assert!(report.violations.keys().eq([&Claim::Crossed]), "{report:?}");
            assert_eq!(report.violations[&Claim::Crossed].after, 8);
        }
    }
}

/// A fault in cycle c + 1 breaks no claim before it.
#[test]
fn a_completed_cycle_stands() {
    assert!(found(IdlesFromCycle1, 0, &all_lanes(20))
        .violations
        .is_empty());
    let report = found(IdlesFromCycle1, 0, &all_lanes(39));
    let claims: Vec<&Claim> = report.violations.keys().collect();
    assert_eq!(claims, [&Claim::Shows]);
    assert!(found(IdlesFromCycle1, 0, &all_lanes(40)).has(Claim::Budget));
}

/// A hold whose reader does not run in cycle 1 stays open over the other
/// row's write, be it in the same cycle or in the next.
#[test]
fn an_open_hold_reaches_on() {
    for (other_write, other_read, after) in [(6, 8, 17), (0, 1, 21)] {
        let mut plan = two_rows();
        plan.tasks[0][0] = 1;
        plan.pieces[0][2] = 3;
        plan.pieces[2][2] = other_write;
        plan.pieces[3][2] = other_read;
        let report = found_on(&plan, FirstLaneIdlesFromCycle1, 0, &all_lanes(30));
        let violation = &report.violations[&Claim::Hold];
        assert_eq!(violation.after, after, "{}", violation.what);
    }
}

#[test]
fn implementations_are_compared() {
    let few = Settings {
        plans: 20,
        ..SETTINGS
    };
    let summary = simulate(&few, &[&Peer, &Naive]).unwrap_or_else(|failure| panic!("{failure}"));
    assert_eq!(summary.runs, 240);
    for (fault, what) in [
        (ShowsNextEntry, "claim: Shows"),
        (BuildsOtherwise, "tables differ"),
        (EarliestATickLate, "tables differ"),
        (BuildsNothing, "refused with 0x19"),
    ] {
        let failure = simulate(&few, &[&Peer, &Faulty(fault)]).expect_err("a fault");
        let text = failure.to_string();
        assert!(text.contains(what), "{text}");
    }
}

/// A failure is printed with all that it takes to see it again.
#[test]
fn failures_are_printed_whole() {
    let failure = simulate(&SETTINGS, &[&Faulty(NeverRuns)]).expect_err("nothing runs");
    let text = failure.to_string();
    for part in [
        "failure in plan 0\nH ",
        "\npiece 0: task ",
        "\nframe 0: stream ",
        "\ncalls: start in cycle 0, then ",
        "\nclaim: Shows, call ",
        "\nafter: ",
        "\nclocks and delays: any",
    ] {
        assert!(text.contains(part), "{part:?} is missing: {text}");
    }
}

/// The claims that fail where a plan's tables are run and another plan is
/// what should have been kept.
fn broken_claims(run: &Plan, promised: &Plan) -> Vec<Claim> {
    let tables = Tables::built(run, &Peer).expect("the plan that is run is accepted");
    let calls = all_lanes(2 * run.cycle as usize);
    let run = Run::make(&Peer, &tables, 0, &calls);
    let choices = choices(promised, promised.precision, &mut Rng::new(1));
    let report = examine(promised, &tables, &run, &choices);
    report.violations.into_keys().collect()
}

type Promise = fn(&mut Plan);

/// Each claim fails for a reason of its own. Case B meets its limits exactly.
#[test]
fn each_claim_fails_alone() {
    let promises: [(Promise, &[Claim]); 14] = [
        (|_| (), &[]),
        (|plan| plan.tasks[0][3] -= 1, &[Claim::Budget]),
        (|plan| plan.vcpus[1] = row_of([0]), &[Claim::Core]),
        (|plan| plan.tasks[1][4] = 13, &[Claim::Due]),
        (|plan| plan.tasks[1][4] = 14, &[]),
        (
            |plan| plan.windows[0] = row_of([0, 2, 18]),
            &[Claim::Window],
        ),
        (|plan| plan.windows[0] = row_of([0, 1, 5]), &[]),
        (
            |plan| plan.links[0][2] += 1,
            &[Claim::Crossed, Claim::Arrived],
        ),
        (|plan| plan.links[0][4] = 1, &[]),
        // A frame that is never sent whole stays in its queue.
        (
            |plan| plan.streams[0][4] += 1,
            &[Claim::Arrived, Claim::Queue],
        ),
        (
            |plan| plan.links[0][3] -= 1,
            &[Claim::Arrived, Claim::Queue],
        ),
        (|plan| plan.links[0][3] += 1, &[]),
        (|plan| plan.links[0][3] *= 2, &[Claim::Crossed]),
        (|plan| plan.streams[0][2] -= 1, &[Claim::Latency]),
    ];
    for (number, (promise, claims)) in promises.into_iter().enumerate() {
        let mut promised = case_b();
        promise(&mut promised);
        assert_eq!(broken_claims(&case_b(), &promised), claims, "{number}");
    }
}

/// A chain that is longer than was promised, and chains of each job and cycle:
/// as many end as there are jobs of completed cycles.
#[test]
fn a_chain_fails_alone() {
    let promises: [([u32; 3], &[Claim]); 5] = [
        ([0, 2, 17], &[]),
        ([0, 2, 16], &[Claim::Chain]),
        ([1, 2, 8], &[]),
        ([1, 2, 7], &[Claim::Chain]),
        ([0, 1, 12], &[Claim::Chain]),
    ];
    for (chain, claims) in promises {
        let mut promised = case_chain();
        promised.chains = rows_of(&[chain]);
        assert_eq!(broken_claims(&case_chain(), &promised), claims, "{chain:?}");
    }
    let tables = Tables::built(&case_chain(), &Peer).expect("the plan is accepted");
    let run = Run::make(&Peer, &tables, 7, &all_lanes(3 * 20 + 17));
    let choices = choices(&case_chain(), 1, &mut Rng::new(1));
    let report = examine(&case_chain(), &tables, &run, &choices);
    assert_eq!(report.at_end.of(Fact::ChainEnded), 3);
    assert!(report.violations.is_empty());
}

/// An E of 0 and a limit of 0 promise the deadline of the task that ends, which
/// both cases meet exactly, whatever the other's is.
#[test]
fn a_limit_of_0_fails_alone() {
    let promises: [(Promise, &[Claim]); 7] = [
        (|_| (), &[]),
        (|plan| plan.tasks[1][4] = 16, &[Claim::Latency]),
        (
            |plan| (plan.tasks[1][4], plan.streams[0][2]) = (16, 17),
            &[],
        ),
        (|plan| plan.tasks[2][4] = 20, &[Claim::Chain]),
        (|plan| (plan.tasks[2][4], plan.chains[0][2]) = (20, 21), &[]),
        (|plan| plan.tasks[0][4] = 30, &[]),
        (|plan| plan.chains[0] = row_of([0, 1, 0]), &[]),
    ];
    let kept = case_chain_deadline();
    for (number, (promise, claims)) in promises.into_iter().enumerate() {
        let mut promised = kept.clone();
        promise(&mut promised);
        assert_eq!(broken_claims(&kept, &promised), claims, "{number}");
    }
    for plan in [case_deadline(), kept] {
        let tables = Tables::built(&plan, &Peer).expect("the plan is accepted");
        let run = Run::make(&Peer, &tables, 7, &all_lanes(60));
        let choices = choices(&plan, plan.precision, &mut Rng::new(1));
        let tally = examine(&plan, &tables, &run, &choices).tally;
        assert!(tally.of(Fact::EndedAtDeadline) > 0);
        let is_chain = !plan.chains.is_empty();
        assert_eq!(tally.of(Fact::ChainEndedAtDeadline) > 0, is_chain);
    }
}

/// Work before the release: two jobs run, and both pieces are promised to
/// the second.
#[test]
fn work_before_the_release_is_noticed() {
    let mut plan = case_a();
    plan.cycle = 20;
    plan.windows[0][2] = 20;
    plan.pieces.push(row_of([0, 1, 12, 4]));
    let mut promised = plan.clone();
    promised.pieces[0][1] = 1;
    promised.tasks[0][4] = 10;
    assert_eq!(broken_claims(&plan, &plan), []);
    assert_eq!(broken_claims(&plan, &promised), [Claim::Budget, Claim::Due]);
}

/// A row of the same buffer that reaches over the holds of two others.
#[test]
fn a_hold_fails_alone() {
    for number in 0..50 {
        let plan = shared_buffer(&mut Rng::for_case(4, number));
        let mut promised = plan.clone();
        let start = |task: u32| {
            plan.pieces
                .iter()
                .find(|piece| piece[0] == task && piece[1] == 0)
        };
        promised
            .buffers
            .sort_by_key(|&[_, writer, ..]| start(writer).map(|piece| piece[2]));
        let [first, second] = [promised.buffers[0], promised.buffers[1]];
        let joined = [first[0], first[1], second[2]];
        promised.buffers.push(row_of(joined));
        assert_eq!(broken_claims(&plan, &plan), []);
        assert_eq!(broken_claims(&plan, &promised), [Claim::Hold]);
    }
}

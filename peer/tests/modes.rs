//! Modes (request 14) as a library gives them: a right one is not blamed, and each
//! wrong one is noticed.

mod cases;

use cases::case_a;
use peer::boundary::{read_state, STATE};
use peer::image::{row_of, rows_of};
use peer::modes::{
    follow, run, Asked, Call, Difference, Fault, Met, Modes, Offer, Settings, Standin, BLOCK,
};
use peer::Plan;

use Fault::*;

const ALL: Settings = Settings {
    seed: 1,
    first_shift: 0,
    shifts: 3_000,
    asked: Asked::All,
    trace: false,
};

/// Enough for every fault.
const SMALL: Settings = Settings { shifts: 400, ..ALL };

#[track_caller]
fn right(settings: &Settings, modes: &dyn Modes) -> Met {
    run(settings, modes).unwrap_or_else(|found| panic!("{found}"))
}

fn wrong(asked: Asked, fault: Fault) -> Option<Difference> {
    run(&Settings { asked, ..SMALL }, &Standin(Some(fault))).err()
}

#[test]
fn a_right_one_is_not_blamed() {
    for seed in 1..=2 {
        let met = right(&Settings { seed, ..ALL }, &Standin(None));
        println!("{met}");
        assert_eq!(met.missing(), Vec::<String>::new());
    }
    for asked in [Asked::Account, Asked::Runs] {
        right(&Settings { asked, ..SMALL }, &Standin(None));
    }
}

#[test]
fn too_few_shifts_are_noticed() {
    let missing = |shifts| right(&Settings { shifts, ..ALL }, &Standin(None)).missing();
    let of_none = missing(0);
    for what in [
        "fresh: 27",
        "hold: 43",
        "request: 44",
        "step: 28",
        "step: a block of 171 bytes",
        "hold: a block of 65708 bytes",
        "hold: at the running plan's place",
        "start: refused by 27, a request stands",
        "request: in the last cycle, after tick 0",
        "step: takes it after H - 1 steps",
        "step: 27, one record too few",
        "runs: a receiver started at the very arrival",
        "runs: a change from plan to plan",
    ] {
        assert!(of_none.contains(&what.to_string()), "{what}: {of_none:?}");
    }
    let of_some = missing(100);
    assert!(!of_some.is_empty() && of_some.len() < of_none.len());
}

#[test]
fn every_fault_is_noticed() {
    for fault in Fault::ALL {
        match wrong(Asked::All, *fault) {
            None => panic!("{fault:?} goes unnoticed"),
            Some(found) => println!("{fault:?}: shift {}: {}", found.number, found.last()),
        }
    }
    println!("{} faults", Fault::ALL.len());
}

/// Faults that change words which no lane shows: the model notices them, and the
/// account has no say.
const NOT_IN_ACCOUNT: [Fault; 2] = [HoldWritesAWordMore, HoldClearsRest];

/// All others are noticed by the account of all calls alone, without the model.
#[test]
fn faults_are_noticed_by_the_account() {
    for fault in Fault::ALL {
        let noticed = wrong(Asked::Account, *fault).is_some();
        assert_eq!(noticed, !NOT_IN_ACCOUNT.contains(fault), "{fault:?}");
    }
}

/// Faults that break a claim of runs.
const BY_RUNS: [Fault; 54] = [
    HoldIgnoresTaken,
    HoldWritesOverAll,
    HoldWritesOverReplaced,
    HoldKeepsReplaced,
    HoldLanesReversed,
    RefusedImageDropsRequest,
    StartKeepsRequest,
    StartKeepsOtherRequest,
    StartTakesRequested,
    Start27DropsRequest,
    Start43DropsRequest,
    Start27Runs,
    StartInCycle0,
    StartIn32Bits,
    StartInNextCycle,
    StartLeavesLastLane,
    StartLeavesFirsts,
    StartLeavesRunning,
    RequestIgnoresCycle,
    RequestIgnoresCores,
    RequestIgnoresLinks,
    RequestComparesWithRequested,
    RequestOfRunningDoesNothing,
    RequestDoesNotReplace,
    Refused43Drops,
    Refused44Drops,
    Refused44Replaces,
    RequestKeptOutside,
    NeverTaken,
    OnlyFirstTaken,
    TakenInMidCycle,
    TakenAtTick1,
    TakenForLastTick,
    TakenWithLastTick,
    TakenACycleLate,
    NotTakenAtOnce,
    DroppedInMidCycle,
    TakenBackAgain,
    TakenInEvenCycles,
    NotTakenInLastCycle,
    TakenThough28,
    TakenThough27,
    TakenOnFirstLane,
    TakenButOnLastLane,
    TakenOnCoresAlone,
    ShownLate,
    ShownIdleFirst,
    TakenLanesReversed,
    TakenIsPlace0,
    TakenStartsCycle0,
    TakenSkipsATick,
    StepNeverEnds,
    StepEndsATickEarly,
    StepMovesNothing,
];

#[test]
fn faults_are_noticed_by_the_runs() {
    for fault in BY_RUNS {
        match wrong(Asked::Runs, fault) {
            None => panic!("{fault:?} goes unnoticed"),
            Some(found) => println!("{fault:?}: shift {}: {}", found.number, found.how),
        }
    }
}

/// Two cores and a link; a task works in one tick of the first core, and in
/// all of the second where a plan has none.
fn small(cycle: u32, at: Option<u32>) -> Offer {
    let (core, start, length) = match at {
        Some(tick) => (0, tick, 1),
        None => (1, 0, cycle),
    };
    let plan = Plan {
        cycle,
        cores: rows_of(&[[0, 0, 0], [1, 0, 0]]),
        vcpus: rows_of(&[[core]]),
        tasks: rows_of(&[[0, 3, cycle, length, cycle]]),
        windows: rows_of(&[[0, start, length]]),
        pieces: rows_of(&[[0, 0, start, length]]),
        links: rows_of(&[[0, 1, 1, 352]]),
        ..Plan::default()
    };
    Offer::of(plan.encode())
}

/// Every list of so many of these calls, in turn.
fn lists(calls: &[Call], length: u32) -> impl Iterator<Item = Vec<Call>> + '_ {
    let count = calls.len();
    (0..count.pow(length)).map(move |number| {
        let digit = |place: u32| number / count.pow(place) % count;
        (0..length).map(|place| calls[digit(place)]).collect()
    })
}

/// Goes through all lists of calls on plans of a few ticks, up to the
/// calendar's end: the stand-in, the model and the account agree.
#[test]
fn all_short_lists() {
    let mut met = Met::default();
    for cycle in 1..=3 {
        let offers = [
            small(cycle, Some(cycle - 1)),
            small(cycle, None),
            small(cycle + 1, None),
        ];
        let request = |place| Call::Request { place };
        for from in [u64::MAX - 1, u64::MAX] {
            let start = |place| Call::Start { place, cycle: from };
            let many = [
                Call::Step,
                request(0),
                request(1),
                request(2),
                request(3),
                start(1),
                start(3),
            ];
            let few = [Call::Step, request(0), request(1)];
            for list in lists(&many, 4).chain(lists(&few, 7)) {
                let calls: Vec<Call> = [start(0)].into_iter().chain(list).collect();
                let done = follow(&Standin(None), &offers, &calls, &mut met);
                done.unwrap_or_else(|how| panic!("{how}\n{calls:?}"));
            }
        }
    }
    println!("{met}");
    assert!(met.calls() > 100_000);
}

/// What a block, its words and its states are, made anew for each story.
struct Shift {
    words: Vec<u8>,
    states: Vec<u8>,
    modes: Vec<u8>,
}

impl Shift {
    fn fresh() -> Shift {
        let mut shift = Shift {
            words: vec![0xAA; 400],
            states: vec![0xAA; STATE],
            modes: vec![0xAA; BLOCK],
        };
        assert_eq!(Standin(None).fresh(&mut shift.modes), 0);
        shift
    }

    fn hold(&mut self, plan: &Plan, place: u32) -> u64 {
        Standin(None).hold(&plan.encode(), place, &mut self.words, &mut self.modes)
    }

    fn start(&mut self, place: u32, cycle: u64) -> u32 {
        let (words, states) = (&mut self.words, &mut self.states);
        Standin(None).start(place, cycle, words, states, &mut self.modes)
    }

    fn request(&mut self, place: u32) -> u32 {
        Standin(None).request(place, &mut self.modes)
    }

    /// What so many steps show: each the kind, or the number that it gave
    /// where that is not 0.
    fn steps(&mut self, steps: usize) -> String {
        let shown: Vec<String> = (0..steps).map(|_| self.step().to_string()).collect();
        shown.join(" ")
    }

    fn step(&mut self) -> u32 {
        let (words, states) = (&mut self.words, &mut self.states);
        match Standin(None).step(words, states, &mut self.modes) {
            0 => read_state(states[..].try_into().expect("one record")).kind,
            number => number,
        }
    }
}

/// Case A, and with its piece one tick later.
fn two_cases() -> [Plan; 2] {
    let mut later = case_a();
    later.pieces[0][2] = 3;
    [case_a(), later]
}

const FIRST: &str = "1 1 3 4 4 4 2 2 2 2";
const LATER: &str = "1 1 2 3 4 4 4 2 2 2";

#[test]
fn a_change_at_the_next_tick_0() {
    let [first, later] = two_cases();
    let mut shift = Shift::fresh();
    assert_eq!((shift.hold(&first, 0), shift.hold(&later, 5)), (0, 0));
    assert_eq!((shift.request(5), shift.steps(1)), (44, "27".to_string()));
    assert_eq!((shift.request(1), shift.start(1, 7)), (43, 43));
    assert_eq!((shift.start(0, 7), shift.steps(10)), (0, FIRST.to_string()));
    // With nine steps between, and no sooner.
    assert_eq!(shift.steps(1), "1");
    assert_eq!(
        (shift.request(5), shift.steps(9)),
        (0, FIRST[2..].to_string())
    );
    assert_eq!(shift.steps(10), LATER);
    // With none between; what is replaced is never shown.
    assert_eq!(
        (shift.request(0), shift.request(5), shift.request(0)),
        (0, 0, 0)
    );
    assert_eq!((shift.request(8), shift.request(1)), (43, 43));
    assert_eq!(shift.steps(20), format!("{FIRST} {FIRST}"));
    // A start drops a request, and a refused one does not.
    assert_eq!((shift.request(5), shift.start(4, 0)), (0, 43));
    assert_eq!(shift.steps(10), LATER);
    assert_eq!((shift.request(0), shift.start(5, 0)), (0, 0));
    assert_eq!(shift.steps(20), format!("{LATER} {LATER}"));
    // A hold ends the run, whatever its place.
    assert_eq!(shift.hold(&first, 7), 0);
    assert_eq!((shift.request(0), shift.steps(1)), (44, "27".to_string()));
    assert_eq!((shift.start(7, 0), shift.steps(10)), (0, FIRST.to_string()));
}

#[test]
fn the_calendar_ends() {
    let [first, later] = two_cases();
    let mut shift = Shift::fresh();
    assert_eq!((shift.hold(&first, 0), shift.hold(&later, 1)), (0, 0));
    let until_end = |kinds: &str| format!("{} 28 28", &kinds[..kinds.len() - 2]);
    // At tick 0 of the last cycle a request is taken, later no more.
    assert_eq!(
        (shift.start(0, u64::MAX - 1), shift.steps(10)),
        (0, FIRST.to_string())
    );
    assert_eq!((shift.request(1), shift.steps(3)), (0, "1 1 2".to_string()));
    assert_eq!(shift.request(0), 0);
    assert_eq!(shift.steps(8), until_end(LATER)[6..]);
    assert_eq!(
        (shift.start(0, u64::MAX), shift.steps(11)),
        (0, until_end(FIRST))
    );
}

#[test]
fn a_cycle_of_one_tick_ends_at_once() {
    let mut idle = case_a();
    (idle.cycle, idle.cores[0]) = (1, row_of([0, 0, 0]));
    (idle.tasks, idle.windows, idle.pieces) = (Vec::new(), Vec::new(), Vec::new());
    let mut windowed = idle.clone();
    windowed.windows = rows_of(&[[0, 0, 1]]);
    let mut shift = Shift::fresh();
    assert_eq!((shift.hold(&idle, 0), shift.hold(&windowed, 1)), (0, 0));
    assert_eq!(shift.start(0, u64::MAX - 3), 0);
    assert_eq!((shift.steps(1), shift.request(1)), ("0".to_string(), 0));
    assert_eq!((shift.steps(1), shift.request(0)), ("2".to_string(), 0));
    assert_eq!((shift.steps(1), shift.request(1)), ("0".to_string(), 0));
    assert_eq!(shift.steps(2), "28 28");
}

#[test]
fn a_difference_tells_where() {
    let found = wrong(Asked::All, ShownLate).expect("it is wrong");
    let (number, text) = (found.number, found.to_string());
    for part in [
        format!("difference in shift {number} of seed 1\n"),
        "image 0: ".to_string(),
        "    1 fresh; 172 bytes of block: 0 0 0\n".to_string(),
        "the last is wrong:\nother bytes than by the model: states from byte ".to_string(),
        format!("made again by: modes 1 1 {number}\n"),
    ] {
        assert!(text.contains(&part), "{part}\n{text}");
    }
    let again = Settings {
        first_shift: number,
        shifts: 1,
        ..ALL
    };
    let found = run(&again, &Standin(Some(ShownLate))).expect_err("it is wrong");
    assert_eq!(found.to_string(), text);
}

#[test]
fn each_seed_has_shifts_of_its_own() {
    let met = |seed| {
        let shifts = 100;
        let settings = Settings {
            seed,
            shifts,
            ..ALL
        };
        right(&settings, &Standin(None)).to_string()
    };
    assert!(met(1) == met(1) && met(1) != met(2));
}

//! The guest that must not notice (request 11): a right library is not blamed,
//! and each wrong one is noticed.

use peer::boundary::{Boundary, Peer};
use peer::generate::SHAPES;
use peer::guests::{broken, pair, run, Asked, Fault, Premise, Settings, Standin, BREAKS};
use peer::image::{row_of, rows_of};
use peer::{check, tables, Answer, Plan, Rng};

const SMALL: Settings = Settings {
    seed: 1,
    first_pair: 0,
    pairs: 3_000,
    asked: Asked::All,
    trace: false,
};

#[test]
fn a_right_one_is_not_blamed() {
    let met = run(&SMALL, &Standin(None)).unwrap_or_else(|found| panic!("{found}"));
    println!("{met}");
    assert_eq!(met.missing(), Vec::<String>::new());
    assert!(met.kept() > 30, "{}", met.kept());
    let few = Settings { pairs: 40, ..SMALL };
    let met = run(&few, &Standin(None)).unwrap_or_else(|found| panic!("{found}"));
    for what in ["all pieces that there may be", "another cycle, made"] {
        assert!(met.missing().contains(&what.to_string()), "{what}");
    }
}

/// Without a fault the stand-in is as right as this package is.
#[test]
fn the_standin_builds_the_same_tables() {
    for (number, (name, shape)) in (0..).zip(SHAPES) {
        let rng = &mut Rng::for_case(5, number);
        for _ in 0..if name == "full" { 1 } else { 10 } {
            let plan = shape(rng);
            let image = plan.encode();
            for lane in 0..=plan.lanes() as u32 {
                let tables = [&Peer as &dyn Boundary, &Standin(None)];
                let [right, found] = tables.map(|by| by.table(&image, lane));
                assert_eq!(right, found, "{name}, lane {lane}");
            }
        }
    }
}

#[test]
fn a_difference_tells_where() {
    let wrong = Standin(Some(Fault::PieceRowOneLess));
    let found = run(&SMALL, &wrong).expect_err("it is wrong");
    let (number, text) = (found.number, found.to_string());
    assert!(
        text.starts_with(&format!("difference in pair {number} of seed 1 (")),
        "{text}"
    );
    for line in [
        format!("made again by: generate guest 1 {number}\n"),
        format!("made again by: generate changed 1 {number}\n"),
        format!("all made again by: guests 1 1 {number}\n"),
    ] {
        assert!(text.contains(&line), "{text}");
    }
    let again = Settings {
        first_pair: number,
        pairs: 1,
        ..SMALL
    };
    let found = run(&again, &wrong).expect_err("it is wrong");
    assert_eq!(found.to_string(), text);
}

#[test]
fn each_seed_has_pairs_of_its_own() {
    let plans = |seed| pair(seed, 7).plans;
    assert!(plans(1) == plans(1) && plans(1) != plans(2));
}

#[test]
fn every_pair_is_accepted_and_meets_the_premises() {
    for number in 0..2_000 {
        let pair = pair(3, number);
        let [first, second] = &pair.plans;
        for plan in [first, second] {
            assert_eq!(check(&plan.encode()), Answer::ACCEPTED, "pair {number}");
        }
        assert_eq!(broken(first, second, pair.guest), [], "pair {number}");
    }
}

/// The premises that a break may break.
fn premises_of(name: &str) -> &'static [&'static [Premise]] {
    use Premise::*;
    match name {
        name if name.contains("window") => &[&[Windows]],
        "v of a core" | "d where only the guest works" | "another node" | "a core more" => {
            &[&[Cores]]
        }
        "d of a core, pieces to fit" => &[&[Cores, Pieces]],
        "d of a core, budgets to fit" => &[&[Cores, Tasks]],
        "a VCPU on another core" | "a VCPU more" => &[&[Vcpus]],
        "a piece moved" | "lengths of a job's pieces" | "a piece in two" => &[&[Pieces]],
        "another mask" | "another deadline" => &[&[Tasks]],
        "another precision" => &[&[Precision]],
        "another cycle" => &[&[Cycle]],
        // Two tasks may have equal rows, or equal pieces on two cores.
        "task numbers exchanged" => &[&[Tasks, Pieces], &[Pieces], &[Tasks]],
        _ => &[&[Tasks, Pieces]],
    }
}

#[test]
fn each_break_breaks_what_it_says() {
    for (turn, kind) in (0..).zip(&BREAKS) {
        let mut made = 0;
        for number in 0..300 {
            let pair = pair(4, number);
            let [first, second] = &pair.plans;
            let rng = &mut Rng::for_case(turn, number);
            if let Some(second) = kind.of(second, pair.guest, rng) {
                let found = broken(first, &second, pair.guest);
                let name = kind.name;
                assert!(premises_of(name).contains(&&found[..]), "{name}: {found:?}");
                assert_eq!(check(&second.encode()), Answer::ACCEPTED, "{name}");
                made += 1;
            }
        }
        assert!(made > 0, "{}", kind.name);
    }
}

/// Two VCPUs on one core, d = 1 and v = 1: task 0 of VCPU 1 has its pieces in
/// ticks 1 to 4 and 11 to 14, and VCPU 0 its window between.
fn two_guests(tasks: &[[u32; 5]], pieces: &[[u32; 4]]) -> Plan {
    let radio = [[0, 0, 1, 3], [0, 0, 11, 3]];
    let mut plan = Plan {
        cycle: 20,
        cores: rows_of(&[[0, 1, 1]]),
        vcpus: rows_of(&[[0], [0]]),
        tasks: rows_of(&[[1, 1, 20, 4, 20]]),
        windows: rows_of(&[[1, 0, 5], [0, 5, 5], [1, 10, 5]]),
        pieces: rows_of(&radio),
        ..Plan::default()
    };
    plan.tasks
        .extend(tasks.iter().map(|task| row_of::<5, 5>(*task)));
    plan.pieces
        .extend(pieces.iter().map(|piece| row_of::<4, 4>(*piece)));
    plan.in_order()
}

/// First tick, kind and row of the core's entries.
fn entries(plan: &Plan) -> Vec<[u32; 3]> {
    let tables = tables(&plan.encode()).expect("it is accepted");
    tables[0][2..].as_chunks().0.to_vec()
}

/// The radio's second piece has another row, and shows in the same ticks.
#[test]
fn tables_by_hand() {
    let before = [
        [0, 1, 0],
        [1, 3, 0],
        [2, 4, 0],
        [4, 2, 0],
        [5, 1, 1],
        [6, 2, 1],
    ];
    let behind = |row| {
        [
            [10, 1, 2],
            [11, 3, row],
            [12, 4, row],
            [14, 2, 2],
            [15, 0, 0],
        ]
    };
    let none = two_guests(&[], &[]);
    assert_eq!(entries(&none), [&before[..], &behind(1)].concat());
    let some = two_guests(&[[0, 1, 20, 1, 20]], &[[1, 0, 7, 2]]);
    let guests = [[7, 3, 1], [8, 4, 1], [9, 2, 1]];
    assert_eq!(entries(&some), [&before[..], &guests, &behind(2)].concat());
}

#[test]
fn premises_by_hand() {
    let none = two_guests(&[], &[]);
    let some = two_guests(&[[0, 1, 20, 1, 20]], &[[1, 0, 7, 2]]);
    let [one, other] = [&none, &some];
    assert_eq!(check(&one.encode()), Answer::ACCEPTED);
    assert_eq!(check(&other.encode()), Answer::ACCEPTED);
    assert_eq!(broken(one, other, 0), []);
    assert_eq!(broken(one, other, 1), [Premise::Tasks, Premise::Pieces]);
    assert_eq!(broken(other, other, 1), []);
}

#[test]
fn every_fault_is_noticed() {
    for fault in Fault::ALL {
        match run(&SMALL, &Standin(Some(*fault))) {
            Ok(_) => panic!("{fault:?} goes unnoticed"),
            Err(found) => println!("{fault:?}: pair {}: {}", found.number, found.how),
        }
    }
    println!("{} faults", Fault::ALL.len());
}

/// Those that change the guest's ticks, its switches or idle ticks alone.
const OF_GUEST_ALONE: [Fault; 3] = [
    Fault::EmptyWindowUncharged,
    Fault::EmptyWindowIdle,
    Fault::IdleAsRest,
];

/// All others are noticed by what the request itself says, too.
#[test]
fn faults_are_noticed_by_other_vcpus() {
    let others = Settings {
        asked: Asked::Others,
        ..SMALL
    };
    for fault in Fault::ALL {
        let noticed = run(&others, &Standin(Some(*fault))).is_err();
        assert_eq!(noticed, !OF_GUEST_ALONE.contains(fault), "{fault:?}");
    }
}

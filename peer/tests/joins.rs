//! Two plans joined to one (request 10) beside an implementation: a right one
//! is not blamed, and each wrong one is noticed.

use std::collections::HashSet;

use peer::generate::SHAPES;
use peer::image::LONGEST;
use peer::joins::{pair, run, split, Fault, Habits, Joins, Modes, Settings, Standin, RESULTS};
use peer::{check, join, Answer, Plan, Rng};

const SMALL: Settings = Settings {
    seed: 1,
    first_pair: 0,
    pairs: 4_000,
    trace: false,
};

#[test]
fn a_right_one_is_not_blamed() {
    let met = run(&SMALL, &Standin(None)).unwrap_or_else(|found| panic!("{found}"));
    println!("{met}");
    assert_eq!(met.missing(), Vec::<String>::new());
    assert_eq!(met.results(), RESULTS);
    let few = Settings {
        pairs: 100,
        ..SMALL
    };
    let met = run(&few, &Standin(None)).unwrap_or_else(|found| panic!("{found}"));
    for what in ["31 of the second", "37 by one chain too many"] {
        assert!(met.missing().contains(&what.to_string()), "{what}");
    }
}

#[test]
fn a_difference_tells_where() {
    let found = run(&SMALL, &Standin(Some(Fault::NothingAppended))).expect_err("it is wrong");
    let (number, text) = (found.number, found.to_string());
    let begin = format!("difference in pair {number} of seed 1 (parts)\ns = ");
    assert!(text.starts_with(&begin), "{text}");
    for line in [
        format!("made again by: generate first 1 {number}\n"),
        format!("made again by: generate second 1 {number}\n"),
        format!("all made again by: joins 1 1 {number}\n"),
    ] {
        assert!(text.contains(&line), "{text}");
    }
    let again = Settings {
        first_pair: number,
        pairs: 1,
        ..SMALL
    };
    let found = run(&again, &Standin(Some(Fault::NothingAppended))).expect_err("it is wrong");
    assert_eq!(found.to_string(), text);
}

#[test]
fn each_seed_has_pairs_of_its_own() {
    let images = |seed| pair(seed, 7).images;
    assert!(images(1) == images(1) && images(1) != images(2));
}

fn has_equal<const W: usize>(rows: &[[u32; W]]) -> bool {
    rows.iter().collect::<HashSet<_>>().len() < rows.len()
}

/// Parts of an accepted plan are accepted, and joined they are the plan again,
/// but for the order of its rows, and for chains whose messages are in no one
/// part.
#[test]
fn parts_are_joined_to_the_whole() {
    let mut joined_again = 0;
    for (number, (name, shape)) in (0..).zip(SHAPES) {
        let rng = &mut Rng::for_case(7, number);
        let turns = if name == "full" { 2 } else { 20 };
        for _ in 0..turns {
            let plan = shape(rng);
            let habits = Habits {
                together: true,
                ..Habits::any(rng)
            };
            let Modes { plans, shared } = split(&plan, habits, rng);
            let [first, second] = plans.map(|plan| plan.encode());
            assert_eq!(check(&first), Answer::ACCEPTED, "{name}");
            assert_eq!(check(&second), Answer::ACCEPTED, "{name}");
            if has_equal(&plan.streams) {
                continue;
            }
            let mut lent = vec![0; LONGEST];
            let (answer, length) = join(&first, &second, shared, &mut lent);
            assert_eq!(answer, Answer::ACCEPTED, "{name}");
            let joined = Plan::decode(&lent[..length as usize]).counts();
            assert_eq!(joined[..9], plan.counts()[..9], "{name}");
            assert!(joined[9] <= plan.chains.len(), "{name}");
            // Joined with its own part it stays as it is.
            let joined = lent[..length as usize].to_vec();
            let tasks = Plan::decode(&first).tasks.len() as u32;
            let again = join(&joined, &first, tasks, &mut lent);
            assert_eq!(again, (answer, length), "{name}");
            assert_eq!(lent[..length as usize], joined, "{name}");
            joined_again += 1;
        }
    }
    assert!(joined_again > 200, "{joined_again}");
}

/// A right join, with tables that are changed in some images, of those that
/// have work in them.
struct OtherTables(fn(&mut Vec<Vec<u32>>, lane: usize, entry: usize));

impl Joins for OtherTables {
    fn join(
        &self,
        first: &[u8],
        second: &[u8],
        shared: u32,
        joined: &mut [u8],
        length: &mut [u32; 2],
    ) -> u64 {
        Standin(None).join(first, second, shared, joined, length)
    }

    fn tables(&self, image: &[u8]) -> Option<Vec<Vec<u32>>> {
        let mut tables = Standin(None).tables(image)?;
        let work = (0..tables.len()).find_map(|lane| {
            let entries = tables[lane][2..].chunks(3);
            let entry = entries.map(|entry| entry[1]).position(|kind| kind == 4);
            Some((lane, 2 + 3 * entry?))
        });
        if let (Some((lane, entry)), true) = (work, image.len() % 8 == 4) {
            (self.0)(&mut tables, lane, entry);
        }
        Some(tables)
    }
}

#[test]
fn work_elsewhere_is_noticed() {
    type Change = fn(&mut Vec<Vec<u32>>, usize, usize);
    let changes: [Change; 4] = [
        |tables, lane, entry| tables[lane][entry] += 1,
        |tables, lane, entry| tables[lane][entry + 1] = 2,
        |tables, lane, entry| tables[lane][entry + 2] = 0,
        |tables, _, _| tables.rotate_right(1),
    ];
    for change in changes {
        let found = run(&SMALL, &OtherTables(change)).expect_err("work is elsewhere");
        assert!(found.how.contains(" plan works in "), "{found}");
    }
}

#[test]
fn every_fault_is_noticed() {
    for fault in Fault::ALL {
        match run(&SMALL, &Standin(Some(*fault))) {
            Ok(_) => panic!("{fault:?} goes unnoticed"),
            Err(found) => println!("{fault:?}: pair {}: {}", found.number, found.how),
        }
    }
    println!("{} faults", Fault::ALL.len());
}

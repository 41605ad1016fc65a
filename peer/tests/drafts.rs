//! Drafts (request 6), call by call, and lists of calls beside an
//! implementation: a right one is not blamed, and each wrong one is noticed.

mod cases;

use cases::{case_a, case_b};
use peer::drafts::{
    heaviest, loose, run, Call, Draft, Drafts, Fault, Outcome, Settings, Standin, PLACES, WORDS,
};
use peer::image::{rows_of, Piece};
use peer::{check, Plan, Rng};

/// What making gives, for the model and for the stand-in, which leaves words
/// alone that it may not write.
#[track_caller]
fn made(image: &[u8], lent: usize) -> u32 {
    let ours = Draft::make(image, lent).err().unwrap_or(0);
    let mut words = vec![7; lent];
    assert_eq!(Standin(None).make(image, &mut words), ours);
    let untouched = if ours == 0 { WORDS } else { 0 };
    assert!(words[untouched..].iter().all(|word| *word == 7));
    ours
}

#[track_caller]
fn makes(plan: &Plan, number: u32) {
    assert_eq!(made(&plan.encode(), WORDS), number);
    assert_eq!(made(&plan.encode(), WORDS + 9), number);
    let with_too_few = if number == 0 { 34 } else { number };
    assert_eq!(made(&plan.encode(), WORDS - 1), with_too_few);
    assert_eq!(made(&plan.encode(), 0), with_too_few);
}

fn a_with(change: impl Fn(&mut Plan)) -> Plan {
    let mut plan = case_a();
    change(&mut plan);
    plan
}

#[test]
fn made_of_what_passes_up_to_10() {
    makes(&case_a(), 0);
    makes(&a_with(|plan| plan.tasks[0][4] = 6), 0);
    makes(&a_with(|plan| plan.tasks[0][4] = 5), 10);
    makes(&a_with(|plan| plan.tasks[0][1] = 2), 9);
    makes(&a_with(|plan| plan.windows = rows_of(&[[0, 0, 10]; 2])), 8);
    makes(&a_with(|plan| plan.windows[0][2] = 2), 7);
    makes(&a_with(|plan| plan.tasks[0][2] = 3), 6);
    makes(&a_with(|plan| plan.windows[0][0] = 1), 5);
    makes(&a_with(|plan| plan.pieces[0][1] = 1), 10);
    makes(&a_with(|plan| plan.cycle = 0), 4);
    let fallen = rows_of(&[[0, 0, 3, 4], [0, 0, 2, 4]]);
    makes(&a_with(|plan| plan.pieces = fallen.clone()), 32);
    assert_eq!(made(&[], 0), 1);
    let image = case_a().encode();
    assert_eq!(made(&image[4..], WORDS), 2);
}

/// These are refused by the check: 11, 11, 12, 13, 14 and 29.
#[test]
fn later_questions_are_not_asked() {
    let later = [
        (a_with(|plan| plan.pieces[0][2] = 1), 11),
        (a_with(|plan| plan.windows.clear()), 11),
        (a_with(|plan| plan.pieces = rows_of(&[[0, 0, 2, 4]; 2])), 12),
        (a_with(|plan| plan.pieces[0][3] = 3), 13),
        (a_with(|plan| plan.pieces.clear()), 13),
        (a_with(|plan| plan.chains = rows_of(&[[9, 9, 9]])), 29),
    ];
    for (plan, number) in later {
        assert_eq!(check(&plan.encode()).number, number);
        makes(&plan, 0);
    }
}

/// A draft in the model and in the words of the stand-in.
struct Trial {
    draft: Draft,
    words: Vec<u32>,
}

impl Trial {
    fn of(plan: &Plan) -> Trial {
        let mut words = vec![0xABCD; WORDS + 5];
        assert_eq!(Standin(None).make(&plan.encode(), &mut words), 0);
        Trial {
            draft: Draft::make(&plan.encode(), words.len()).expect("a draft"),
            words,
        }
    }

    #[track_caller]
    fn outcome(&mut self, call: Call) -> Outcome {
        let before = (self.draft.clone(), self.words.clone());
        let ours = call.of_model(Some(&mut self.draft));
        let theirs = call.of_words(&Standin(None), &mut self.words);
        assert_eq!(Ok(ours), theirs);
        if ours.number != 0 {
            assert!(self.draft == before.0 && self.words == before.1);
        }
        ours
    }

    #[track_caller]
    fn add(&mut self, place: u32, piece: Piece, number: u32) {
        let outcome = self.outcome(Call::Add { place, piece });
        assert_eq!(outcome, Outcome::refused(number));
    }

    #[track_caller]
    fn remove(&mut self, place: u32, number: u32) {
        let outcome = self.outcome(Call::Remove { place });
        assert_eq!(outcome, Outcome::refused(number));
    }

    #[track_caller]
    fn shift(&mut self, place: u32, start: u32, number: u32) {
        let outcome = self.outcome(Call::Move { place, start });
        assert_eq!(outcome, Outcome::refused(number));
    }

    #[track_caller]
    fn job(&mut self, task: u32, job: u32, read: Result<u32, u32>) {
        let outcome = self.outcome(Call::Job { task, job });
        let (number, total) = (read.err().unwrap_or(0), read.unwrap_or(0));
        assert_eq!((outcome.number, outcome.total), (number, total));
    }

    #[track_caller]
    fn core(&mut self, core: u32, read: Result<u32, u32>) {
        let outcome = self.outcome(Call::Core { core });
        let (number, total) = (read.err().unwrap_or(0), read.unwrap_or(0));
        assert_eq!((outcome.number, outcome.total), (number, total));
    }

    #[track_caller]
    fn place(&mut self, place: u32, read: Result<Piece, u32>) {
        for lent in [0, 3, 4, 6] {
            let outcome = self.outcome(Call::Place { place, lent });
            let read = match lent {
                0 | 3 => read.and(Err(34)),
                _ => read,
            };
            assert_eq!(outcome.number, read.err().unwrap_or(0));
            assert_eq!(outcome.piece, read.ok());
        }
    }
}

#[test]
fn a_as_made() {
    let mut a = Trial::of(&case_a());
    a.place(0, Ok([0, 0, 2, 4]));
    a.place(1, Err(33));
    a.place(2_047, Err(33));
    a.place(2_048, Err(33));
    a.place(u32::MAX, Err(33));
    a.job(0, 0, Ok(4));
    a.job(0, 1, Err(10));
    a.job(1, 0, Err(5));
    a.job(1, 1, Err(5));
    a.core(0, Ok(4));
    a.core(1, Err(5));
    a.core(u32::MAX, Err(5));
}

#[test]
fn a_with_pieces_added() {
    let mut a = Trial::of(&case_a());
    // Equal to the one that is there, from the release on, up to the due tick,
    // both, and one tick longer than d; 11 to 13 would refuse all of them.
    a.add(5, [0, 0, 2, 4], 0);
    a.add(2_047, [0, 0, 0, 2], 0);
    a.add(1, [0, 0, 4, 4], 0);
    a.add(2, [0, 0, 0, 8], 0);
    a.job(0, 0, Ok(4 + 4 + 2 + 4 + 8));
    a.core(0, Ok(22));
    // A tick past the due tick, d ticks, no ticks, and no such job.
    a.add(3, [0, 0, 5, 4], 10);
    a.add(3, [0, 0, 2, 1], 10);
    a.add(3, [0, 0, 2, 0], 10);
    a.add(3, [0, 1, 2, 4], 10);
    a.add(3, [0, u32::MAX, 2, 4], 10);
    // What would wrap around.
    a.add(3, [0, 0, u32::MAX, 4], 10);
    a.add(3, [0, 0, 2, u32::MAX], 10);
    a.add(3, [0, 0, u32::MAX - 3, 8], 10);
    a.job(0, 0, Ok(22));
    a.place(5, Ok([0, 0, 2, 4]));
    a.place(2_047, Ok([0, 0, 0, 2]));
    a.place(3, Err(33));
}

/// 5 before 10 before 34; a place beyond all is 34 here.
#[test]
fn the_order_of_adding() {
    let mut a = Trial::of(&case_a());
    let (good, late, unknown) = ([0, 0, 2, 4], [0, 0, 5, 4], [1, 1, 9, 0]);
    for place in [0, 2_048, u32::MAX] {
        a.add(place, good, 34);
        a.add(place, late, 10);
        a.add(place, unknown, 5);
    }
    a.add(1, unknown, 5);
    a.add(1, [u32::MAX; 4], 5);
    a.place(0, Ok([0, 0, 2, 4]));
}

#[test]
fn a_moved() {
    let mut a = Trial::of(&case_a());
    a.shift(0, 0, 0);
    a.place(0, Ok([0, 0, 0, 4]));
    a.shift(0, 4, 0);
    a.shift(0, 4, 0);
    a.shift(0, 5, 10);
    a.shift(0, u32::MAX, 10);
    a.shift(0, u32::MAX - 3, 10);
    a.place(0, Ok([0, 0, 4, 4]));
    a.job(0, 0, Ok(4));
    a.core(0, Ok(4));
    a.shift(1, 0, 33);
    a.shift(1, u32::MAX, 33);
    a.shift(2_048, 2, 33);
    a.shift(u32::MAX, 2, 33);
    // Onto another one.
    a.add(1, [0, 0, 0, 2], 0);
    a.shift(1, 4, 0);
    a.job(0, 0, Ok(6));
}

#[test]
fn a_removed_and_used_again() {
    let mut a = Trial::of(&case_a());
    a.remove(1, 33);
    a.remove(2_048, 33);
    a.remove(u32::MAX, 33);
    a.remove(0, 0);
    a.remove(0, 33);
    a.place(0, Err(33));
    a.job(0, 0, Ok(0));
    a.core(0, Ok(0));
    a.shift(0, 2, 33);
    a.add(0, [0, 0, 3, 2], 0);
    a.place(0, Ok([0, 0, 3, 2]));
    a.job(0, 0, Ok(2));
    a.core(0, Ok(2));
}

/// Totals are apart by job and by core. In B tasks have one job each, on
/// different cores; here they have two.
#[test]
fn totals_of_jobs_and_cores() {
    let mut plan = case_b();
    plan.cycle = 40;
    let mut b = Trial::of(&plan);
    b.core(0, Ok(4));
    b.core(1, Ok(4));
    b.core(2, Err(5));
    b.job(0, 1, Ok(0));
    b.job(0, 2, Err(10));
    b.job(0, 20, Err(10));
    b.add(7, [0, 1, 20, 5], 0);
    b.add(8, [0, 1, 39, 2], 10);
    b.add(8, [0, 1, 38, 2], 0);
    b.add(9, [1, 1, 19, 3], 10);
    b.add(9, [1, 2, 40, 3], 10);
    b.job(0, 0, Ok(4));
    b.job(0, 1, Ok(7));
    b.job(1, 0, Ok(4));
    b.core(0, Ok(11));
    b.core(1, Ok(4));
    b.remove(7, 0);
    b.job(0, 1, Ok(2));
    b.core(0, Ok(6));
}

#[test]
fn the_highest_totals() {
    let mut heavy = Trial::of(&heaviest());
    heavy.job(0, 0, Ok(2_048_000_000));
    heavy.core(1, Ok(2_048_000_000));
    heavy.core(0, Ok(0));
    heavy.add(PLACES - 1, [0, 0, 0, 1_000_000], 34);
    heavy.remove(PLACES - 1, 0);
    heavy.core(1, Ok(2_047_000_000));
    heavy.add(PLACES - 1, [0, 0, 999_999, 1], 0);
    heavy.core(1, Ok(2_047_000_001));
}

/// Without a draft, also with a word too few, every call is refused by 33,
/// before all else.
#[test]
fn no_draft() {
    let calls = [
        Call::Add {
            place: PLACES,
            piece: [u32::MAX; 4],
        },
        Call::Remove { place: 0 },
        Call::Move { place: 0, start: 2 },
        Call::Job {
            task: u32::MAX,
            job: 0,
        },
        Call::Core { core: u32::MAX },
        Call::Place { place: 0, lent: 0 },
    ];
    let a = Trial::of(&case_a());
    for call in calls {
        assert_eq!(call.of_model(None), Outcome::refused(33));
        for words in [&a.words[..WORDS - 1], &[], &[0; WORDS]] {
            let mut lent = words.to_vec();
            let outcome = call.of_words(&Standin(None), &mut lent);
            assert_eq!(outcome, Ok(Outcome::refused(33)));
            assert_eq!(lent, words);
        }
    }
}

/// Loose plans are what a draft may be made of, and hardly any is accepted.
#[test]
fn loose_plans_make_drafts() {
    let mut accepted = 0;
    for case in 0..300 {
        let plan = loose(&mut Rng::for_case(61, case));
        assert!(Draft::make(&plan.encode(), WORDS).is_ok());
        accepted += u32::from(check(&plan.encode()).is_accepted());
    }
    assert!(accepted <= 60, "{accepted}");
}

const SMALL: Settings = Settings {
    seed: 5,
    first_draft: 0,
    drafts: 140,
    all_places: false,
    trace: false,
};

#[test]
fn a_right_one_is_not_blamed() {
    let all_places = Settings {
        all_places: true,
        ..SMALL
    };
    let met = run(&all_places, &Standin(None)).unwrap_or_else(|found| panic!("{found}"));
    println!("{met}");
    assert_eq!(met.missing(), Vec::<String>::new());
    let few = Settings { drafts: 3, ..SMALL };
    let met = run(&few, &Standin(None)).unwrap_or_else(|found| panic!("{found}"));
    assert!(met.missing().contains(&"make: 1".to_string()));
}

#[test]
fn every_fault_is_noticed() {
    for fault in Fault::ALL {
        match run(&SMALL, &Standin(Some(*fault))) {
            Ok(_) => panic!("{fault:?} goes unnoticed"),
            Err(found) => println!("{fault:?}: draft {}: {}", found.number, found.last()),
        }
    }
}

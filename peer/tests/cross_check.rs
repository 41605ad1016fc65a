//! The fast implementation against its naive twin on thousands of images.

use peer::generate::{
    busy_core, diamond, full, kept_core, medium, rich, small, small_rich, unit_periods,
};
use peer::image::rows_of;
use peer::mutate::{mutant, mutate};
use peer::{build, check, naive, step, step_all, Answer, Histogram, Plan, Rng, State, QUESTIONS};

#[track_caller]
fn compare(image: &[u8]) -> Answer {
    let answer = check(image);
    if answer != naive::check(image) {
        let hex: String = image.iter().map(|byte| format!("{byte:02x}")).collect();
        panic!("{answer}, naive {}: {hex}", naive::check(image));
    }
    answer
}

#[test]
fn mutants_of_all_questions() {
    let mut refusals = Histogram::default();
    for case in 0..6_000 {
        let image = mutant(&mut Rng::for_case(10, case));
        refusals.count(compare(&image).number);
    }
    print!("{refusals}");
    let mut numbers = [0].iter().chain(QUESTIONS);
    assert!(numbers.all(|number| refusals.of(*number) >= 60));
}

#[test]
fn mutants_of_large_plans() {
    for case in 0..8 {
        let mut rng = Rng::for_case(11, case);
        let plan = match case % 4 {
            0 => full(&mut rng),
            1 => busy_core(&mut rng),
            2 => diamond(&mut rng),
            _ => unit_periods(&mut rng),
        };
        compare(&mutate(&plan, &mut rng));
    }
}

/// A plan of few rows and small words whose row numbers exist.
fn rough(rng: &mut Rng) -> Plan {
    let cycle = rng.pick(&[2, 4, 6, 8, 12]);
    let tick = |rng: &mut Rng| rng.within(0..=cycle - 1);
    let switch = |rng: &mut Rng| rng.pick(&[0, 0, 0, 1]);
    let few = |most: u32, rng: &mut Rng| 0..rng.within(1..=most);
    let cores = few(3, rng).map(|core| [core / 2, switch(rng), switch(rng)]);
    let cores: Vec<_> = cores.collect();
    let whole = rng.chance(70);
    let vcpus: Vec<_> = if whole {
        (0..cores.len() as u32).map(|core| [core]).collect()
    } else {
        few(4, rng)
            .map(|_| [rng.below(cores.len()) as u32])
            .collect()
    };
    let vcpu = |rng: &mut Rng| rng.below(vcpus.len()) as u32;
    let tasks = few(4, rng).map(|_| {
        let period = cycle / rng.pick(&[1, 1, 2]);
        let budget = rng.within(1..=2.min(period));
        let deadline = rng.within(budget.max(period / 2)..=period);
        [vcpu(rng), 7, period, budget, deadline]
    });
    let tasks: Vec<_> = tasks.collect();
    let task = |rng: &mut Rng| rng.below(tasks.len()) as u32;
    let windows: Vec<_> = if whole {
        // One window as long as the cycle for each VCPU.
        (0..vcpus.len() as u32)
            .map(|vcpu| [vcpu, 0, cycle])
            .collect()
    } else {
        let window = |rng: &mut Rng| {
            let start = tick(rng);
            [vcpu(rng), start, rng.within(1..=3.min(cycle - start))]
        };
        few(6, rng).map(|_| window(rng)).collect()
    };
    let pieces = few(8, rng).map(|_| {
        let task = task(rng);
        let [_, _, period, _, deadline] = tasks[task as usize];
        let k = rng.below((cycle / period) as usize) as u32;
        let length = rng.within(1..=2.min(deadline));
        let start = k * period + rng.within(0..=deadline - length);
        [task, k, start, length]
    });
    let pieces: Vec<_> = pieces.collect();
    Plan {
        cycle,
        precision: rng.within(0..=1),
        pieces: rows_of(&pieces),
        windows: rows_of(&windows),
        cores: rows_of(&cores),
        vcpus: rows_of(&vcpus),
        tasks: rows_of(&tasks),
        ..Plan::default()
    }
}

/// The plan, its rows in order but in one case of ten.
fn mostly_in_order(plan: Plan, rng: &mut Rng) -> Plan {
    if rng.chance(90) {
        plan.in_order()
    } else {
        plan
    }
}

#[test]
fn rough_plans() {
    let mut refusals = Histogram::default();
    for case in 0..30_000 {
        let mut rng = Rng::for_case(12, case);
        let plan = rough(&mut rng);
        let plan = mostly_in_order(plan, &mut rng);
        refusals.count(compare(&plan.encode()).number);
    }
    print!("{refusals}");
}

/// Accepted plans whose words are shaken a little, most of them in starts.
#[test]
fn shaken_plans() {
    let mut refusals = Histogram::default();
    for case in 0..8_000 {
        let mut rng = Rng::for_case(13, case);
        let mut plan = match rng.below(10) {
            0 | 1 => kept_core(&mut rng),
            2 | 3 => small(&mut rng),
            _ => rich(&mut rng),
        };
        let shaken = |value: &mut u32, rng: &mut Rng| {
            let step = rng.pick(&[1, 1, 2, 5]);
            *value = if rng.chance(50) {
                value.saturating_sub(step)
            } else {
                *value + step
            };
        };
        for _ in 0..rng.within(1..=4) {
            match rng.below(8) {
                0 => plan.pieces.iter_mut().for_each(|row| {
                    if rng.chance(10) {
                        shaken(&mut row[2], &mut rng);
                    }
                }),
                1 | 2 => plan.frames.iter_mut().for_each(|row| {
                    if rng.chance(15) {
                        shaken(&mut row[4], &mut rng);
                    }
                }),
                3 => plan.buffers.iter_mut().for_each(|row| row[0] %= 2),
                4 => plan.streams.iter_mut().for_each(|row| {
                    shaken(&mut row[rng.pick(&[2, 4])], &mut rng);
                }),
                5 => plan.links.iter_mut().for_each(|row| {
                    shaken(&mut row[rng.within(2..=4) as usize], &mut rng);
                }),
                6 => shaken(&mut plan.precision, &mut rng),
                _ => plan.windows.iter_mut().for_each(|row| {
                    if rng.chance(20) {
                        shaken(&mut row[2], &mut rng);
                    }
                }),
            }
        }
        let plan = mostly_in_order(plan, &mut rng);
        refusals.count(compare(&plan.encode()).number);
    }
    print!("{refusals}");
}

/// Accepted plans with frames anywhere in their periods, on any links, and
/// with buffers between any tasks.
#[test]
fn rough_messages() {
    let mut refusals = Histogram::default();
    for case in 0..10_000 {
        let mut rng = Rng::for_case(18, case);
        let mut plan = small_rich(&mut rng);
        plan.precision = rng.within(0..=1);
        let links = plan.links.len();
        let loose = rng.chance(60);
        for stream in &mut plan.streams {
            stream[4] = rng.pick(&[46, 46, 47, 134]);
        }
        for link in &mut plan.links {
            link[3] = rng.pick(&[704, 704, 703, 352, 10_000]);
        }
        for row in 0..plan.frames.len() {
            let [stream, k, _, link, ..] = plan.frames[row];
            let [sender, ..] = plan.streams[stream as usize];
            let period = plan.period(sender);
            if loose || rng.chance(30) {
                let room = period.saturating_sub(plan.frame_ticks(stream, link));
                plan.frames[row][4] = k * period + rng.within(0..=room);
            }
            if rng.chance(10) {
                plan.frames[row][3] = rng.below(links) as u32;
            }
        }
        let tasks = plan.tasks.len();
        for buffer in &mut plan.buffers {
            buffer[0] = rng.within(0..=1);
            if rng.chance(20) {
                buffer[rng.below(2) + 1] = rng.below(tasks) as u32;
            }
        }
        if rng.chance(30) {
            plan.streams.clear();
            plan.frames.clear();
        }
        let plan = mostly_in_order(plan, &mut rng);
        refusals.count(compare(&plan.encode()).number);
    }
    print!("{refusals}");
}

fn compare_tables(plan: &Plan) {
    let image = plan.encode();
    for lane in 0..plan.lanes() as u32 {
        let mut fast = vec![0xAAAA_AAAA; 40_000];
        let mut slow = fast.clone();
        assert_eq!(build(&image, lane, &mut fast), Answer::ACCEPTED);
        assert_eq!(naive::build(&image, lane, &mut slow), Answer::ACCEPTED);
        assert_eq!(fast, slow, "lane {lane} of {plan:?}");
        let needed = 2 + 3 * fast[1] as usize;
        for room in [needed, needed - 1, 0] {
            let mut fast = vec![5; room];
            let mut slow = vec![5; room];
            let answer = build(&image, lane, &mut fast);
            assert_eq!(answer, naive::build(&image, lane, &mut slow));
            assert_eq!(answer.is_accepted(), room >= needed);
            assert_eq!(fast, slow);
        }
    }
}

#[test]
fn tables_by_events_and_by_ticks() {
    for case in 0..400 {
        compare_tables(&small(&mut Rng::for_case(14, case)));
    }
    for case in 0..400 {
        compare_tables(&kept_core(&mut Rng::for_case(19, case)));
    }
    for case in 0..10 {
        compare_tables(&medium(&mut Rng::for_case(15, case)));
    }
    for case in 0..10 {
        let mut rng = Rng::for_case(16, case);
        let plan = unit_periods(&mut rng);
        if plan.pieces.len() < 150 {
            compare_tables(&plan);
        }
    }
}

fn compare_steps(words: &[u32], states: &[State]) -> u32 {
    for &state in states {
        let (mut fast, mut slow) = (state, state);
        let answer = step(words, &mut fast);
        assert_eq!(answer, naive::step(words, &mut slow), "{words:?} {state:?}");
        assert_eq!(fast, slow, "{words:?} {state:?}");
    }
    let (mut fast, mut slow) = (states.to_vec(), states.to_vec());
    let answer = step_all(words, &mut fast);
    assert_eq!(answer, naive::step_all(words, &mut slow));
    assert_eq!(fast, slow);
    answer
}

#[test]
fn steps_over_rough_words() {
    let mut answers = Histogram::default();
    for case in 0..200_000 {
        let mut rng = Rng::for_case(17, case);
        let mut words: Vec<u32> = (0..rng.below(14)).map(|_| rng.within(0..=3)).collect();
        if let Some(word) = words.first_mut() {
            *word = rng.pick(&[0, 1, 2, 3, 5, u32::MAX]);
        }
        if rng.chance(5) && !words.is_empty() {
            let at = rng.below(words.len());
            words[at] = rng.pick(&[u32::MAX, 1 << 31, (1 << 30) + 1]);
        }
        let state = |rng: &mut Rng| State {
            cycle: rng.pick(&[0, 7, u64::MAX - 1, u64::MAX]),
            tick: rng.pick(&[0, 1, 2, 3, u32::MAX - 1, u32::MAX]),
            entry: rng.pick(&[0, 0, 0, 1, 1, 2, u32::MAX]),
            first: rng.pick(&[0, 0, 0, 1, 2, u32::MAX, u32::MAX - 1]),
            kind: rng.word(),
            row: rng.word(),
        };
        let states: Vec<State> = (0..rng.below(3)).map(|_| state(&mut rng)).collect();
        answers.count(compare_steps(&words, &states));
    }
    println!("{answers:?}");
    assert!(answers.of(27) > 100 && answers.of(28) > 100);
}

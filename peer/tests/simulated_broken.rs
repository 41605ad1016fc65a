//! Broken plans, run without asking the check: the simulator notices.

mod cases;

use cases::{
    case_b, case_chain, case_chain_deadline, case_deadline, one_queue, two_hops, two_rows,
};
use peer::generate::{busy_links, kept_core, shared_buffer, tiny};
use peer::image::{row_of, rows_of, Piece, Window};
use peer::mutate::write_0;
use peer::simulate::{
    choices, edges, only_one_clock, survey, unchecked, Choice, Claim, Clocks, Delays, Dial, Edge,
    Fact, Noticed, Report, Settings, QUESTIONS,
};
use peer::{check, Plan, Rng};

const SETTINGS: Settings = Settings {
    seed: 1,
    first_plan: 0,
    plans: 180,
};

/// Dozens for each question, fewer where stays meet by a tick. Half of them, and more, of those that guard
/// against clocks go unnoticed while all clocks are equal.
#[test]
fn broken_plans_are_noticed() {
    let survey = survey(&SETTINGS).unwrap_or_else(|failure| panic!("{failure}"));
    println!("{survey:?}");
    for (index, question) in QUESTIONS.into_iter().enumerate() {
        let (by_a_tick, by_aim) = (survey.by_a_tick[index], survey.by_aim[index]);
        for Noticed {
            broken,
            noticed,
            harmless,
            ..
        } in [by_a_tick, by_aim]
        {
            assert_eq!(broken, noticed + harmless);
            assert!(noticed >= 12 && ([24, 31].contains(&question) || harmless == 0));
        }
        let least = if question == 41 { 15 } else { 36 };
        assert!(by_a_tick.noticed >= least, "question {question}");
        let of_0 = [by_a_tick.of_0 > 0, by_aim.of_0 > 0];
        assert_eq!(of_0, [[21, 31].contains(&question); 2]);
        let unseen = by_a_tick.noticed - by_a_tick.with_equal_clocks;
        assert_eq!(unseen > 0, [18, 20, 21, 31, 41].contains(&question));
    }
}

/// All that is found on a plan, its clocks at most so far ahead.
fn found(plan: &Plan, most_ahead: u32) -> Report {
    unchecked(plan, &choices(plan, most_ahead, &mut Rng::new(1)))
}

/// A plan that would bear one tick more of P bears clocks of P + 1, and one
/// that would not shows a violation. A chain with both ends on one node bears
/// any clocks, and is left out.
#[test]
fn clocks_beyond_the_precision() {
    let [mut tight, mut loose] = [0, 0];
    for number in 0..200 {
        let plan = tiny(&mut Rng::for_case(5, number));
        let mut wider = plan.clone();
        let node = |task: u32| plan.node_of_task(task);
        wider.chains.retain(|row| node(row[0]) != node(row[1]));
        wider.precision += 1;
        let bears = check(&wider.encode()).is_accepted();
        let report = found(&plan, plan.precision + 1);
        assert_eq!(report.violations.is_empty(), bears, "{plan:?}");
        *(if bears { &mut loose } else { &mut tight }) += 1;
    }
    assert!(tight >= 100 && loose >= 5, "{tight} {loose}");
}

/// A plan that would bear one tick more of every delay bears crossings that
/// take as long, and one that would not shows a violation. Either way frames
/// come later than the latest tick.
#[test]
fn delays_beyond_the_highest() {
    let [mut tight, mut loose] = [0, 0];
    for number in 0..200 {
        let plan = tiny(&mut Rng::for_case(9, number));
        let mut wider = plan.clone();
        wider.links.iter_mut().for_each(|link| link[2] += 1);
        let bears = check(&wider.encode()).is_accepted();
        let mut choices = choices(&plan, plan.precision, &mut Rng::new(1));
        for choice in &mut choices {
            choice.delays = Delays::from_fn(&plan, |_, _, [_, highest]| highest + 1);
        }
        let report = unchecked(&plan, &choices);
        let mut claims = vec![&Claim::Crossed];
        claims.extend((!bears).then_some(&Claim::Arrived));
        assert!(report.violations.keys().eq(claims), "{plan:?}");
        *(if bears { &mut loose } else { &mut tight }) += 1;
    }
    assert!(tight >= 100 && loose >= 5, "{tight} {loose}");
}

/// The clocks of case B with which a message is late whose crossing in one
/// cycle takes so many ticks.
fn late_clocks(cycle: usize, delay: u32) -> Vec<[u32; 2]> {
    let plan = case_b();
    let delays = Delays::from_fn(&plan, |at, _, [_, highest]| match at == cycle {
        true => delay,
        false => highest,
    });
    let is_late = |by: &[u32; 2]| {
        let choice = Choice {
            clocks: Clocks::from_fn(&plan, |node| by[node as usize]),
            delays: delays.clone(),
        };
        let report = unchecked(&plan, &[choice]);
        assert_eq!(report.has(Claim::Crossed), delay > 1);
        if let Some(late) = report.violations.get(&Claim::Arrived) {
            assert_eq!(late.after, 20 * cycle + 11, "{late}");
        }
        report.has(Claim::Arrived)
    };
    let clocks = [[0, 0], [0, 1], [1, 0], [1, 1]];
    clocks.into_iter().filter(is_late).collect()
}

/// Case B with crossings of any delay, in either cycle: from the lowest to the
/// highest the message arrives, and one tick later it comes too late, with the
/// clocks one way round.
#[test]
fn case_b_with_each_delay() {
    for cycle in [0, 1] {
        assert_eq!(late_clocks(cycle, 0), [[0; 2]; 0]);
        assert_eq!(late_clocks(cycle, 1), [[0; 2]; 0]);
        assert_eq!(late_clocks(cycle, 2), [[0, 1]]);
        assert_eq!(late_clocks(cycle, 3), [[0, 0], [0, 1], [1, 1]]);
    }
}

/// A crossing that is shorter than the lowest delay harms nobody, but comes
/// before the earliest tick.
#[test]
fn case_b_below_the_lowest_delay() {
    let mut plan = case_b();
    plan.links[0][4] = 1;
    for (delay, claims) in [(1, &[][..]), (0, &[Claim::Crossed])] {
        let choice = Choice {
            delays: Delays::from_fn(&plan, |_, _, _| delay),
            ..Choice::of(&plan, Clocks::equal(&plan))
        };
        let found = unchecked(&plan, &[choice]).violations;
        assert_eq!(found.into_keys().collect::<Vec<Claim>>(), claims);
    }
}

/// Case B and its two refusals, each seen with the clocks one way round only.
#[test]
fn case_b_with_each_choice_of_clocks() {
    let ahead = |by: [u32; 2]| Clocks::from_fn(&case_b(), |node| by[node as usize]);
    let all = [[0, 0], [0, 1], [1, 0], [1, 1]];
    let broken = |plan: &Plan, claim: Claim| {
        let report = |by: &[u32; 2]| unchecked(plan, &[Choice::of(plan, ahead(*by))]);
        let breaks = |by: &[u32; 2]| report(by).violations.keys().eq([&claim]);
        let holds = |by: &[u32; 2]| report(by).violations.is_empty();
        assert!(all.iter().all(|by| breaks(by) || holds(by)));
        all.into_iter().filter(breaks).collect::<Vec<_>>()
    };
    assert_eq!(broken(&case_b(), Claim::Hold), [[0; 2]; 0]);
    let mut late = case_b();
    late.streams[0][2] = 12;
    assert_eq!(broken(&late, Claim::Latency), [[1, 0]]);
    let mut early = case_b();
    early.pieces[1][2] = 9;
    assert_eq!(broken(&early, Claim::Arrived), [[0, 1]]);
}

/// A chain over a stream and a buffer. Where both ends are on one node no
/// clocks are between them, and P is not needed.
#[test]
fn a_chain_with_each_choice_of_clocks() {
    let ahead = |by: [u32; 2]| Clocks::from_fn(&case_chain(), |node| by[node as usize]);
    let all = [[0, 0], [0, 1], [1, 0], [1, 1]];
    for (chain, number, broken) in [
        ([0, 2, 17], 0, vec![]),
        ([0, 2, 16], 31, vec![[1, 0]]),
        ([0, 2, 15], 31, vec![[0, 0], [1, 0], [1, 1]]),
        ([0, 2, 0], 0, vec![]),
        ([1, 2, 9], 0, vec![]),
        ([1, 2, 8], 31, vec![]),
        ([1, 2, 7], 31, all.to_vec()),
    ] {
        let mut plan = case_chain();
        plan.chains = rows_of(&[chain]);
        assert_eq!(check(&plan.encode()).number, number);
        let found: Vec<[u32; 2]> = all
            .into_iter()
            .filter(|by| {
                let report = unchecked(&plan, &[Choice::of(&plan, ahead(*by))]);
                assert!(report.violations.keys().all(|claim| *claim == Claim::Chain));
                report.has(Claim::Chain)
            })
            .collect();
        assert_eq!(found, broken, "{chain:?}");
        assert_eq!(
            only_one_clock(&plan),
            broken.is_empty(),
            "what is harmless is so under all clocks"
        );
    }
}

/// An E of 0 and a limit of 0 with the clocks as far apart as they may be, and
/// a tick less: with the deadline a tick shorter, only the first is too late.
#[test]
fn deadlines_with_each_choice_of_clocks() {
    let kept = case_deadline();
    let mut late = kept.clone();
    late.tasks[1][4] -= 1;
    let kept_chain = case_chain_deadline();
    let mut late_chain = kept_chain.clone();
    late_chain.tasks[2][4] -= 1;
    for (plan, number, claims) in [
        (kept, 0, &[][..]),
        (late, 21, &[Claim::Latency]),
        (kept_chain, 0, &[]),
        (late_chain, 31, &[Claim::Chain]),
    ] {
        assert_eq!(check(&plan.encode()).number, number);
        for by in [[0, 0], [0, 3], [2, 0], [3, 1], [3, 3], [3, 0]] {
            let clocks = Clocks::from_fn(&plan, |node| by[node as usize]);
            let found = unchecked(&plan, &[Choice::of(&plan, clocks)]).violations;
            let found: Vec<Claim> = found.into_keys().collect();
            assert_eq!(found, if by == [3, 0] { claims } else { &[] }, "{by:?}");
        }
    }
}

/// The last plan that is accepted while a task's deadline becomes shorter, tick
/// by tick, and the first that is not.
fn shortest_deadline(plan: &Plan, task: usize) -> (Plan, Plan) {
    let mut kept = plan.clone();
    loop {
        let mut broken = kept.clone();
        broken.tasks[task][4] -= 1;
        if !check(&broken.encode()).is_accepted() {
            return (kept, broken);
        }
        kept = broken;
    }
}

/// Of plans with 0 wherever it is kept, those whose deadlines are as short as an
/// E or a limit of 0 lets them be: kept exactly with the clocks as far apart as
/// they may be, and too late with one tick less.
#[test]
fn deadlines_by_a_tick() {
    let mut met = [0; 2];
    for number in 0..1_200 {
        let mut plan = tiny(&mut Rng::for_case(10, number));
        write_0(&mut plan);
        if number % 2 == 1 {
            plan.streams.iter_mut().for_each(|row| row[2] = 1_000_000);
        }
        for task in 0..plan.tasks.len() {
            let (kept, broken) = shortest_deadline(&plan, task);
            let question = check(&broken.encode()).number;
            let (at, claim, exact) = match question {
                21 => (0, Claim::Latency, Fact::EndedAtDeadline),
                31 if !only_one_clock(&broken) => (1, Claim::Chain, Fact::ChainEndedAtDeadline),
                _ => continue,
            };
            let report = found(&kept, kept.precision);
            assert!(report.violations.is_empty(), "{kept:?}");
            assert!(report.tally.of(exact) > 0, "{kept:?}");
            assert!(found(&broken, broken.precision).has(claim), "{broken:?}");
            let nearer = found(&broken, broken.precision - 1);
            assert!(nearer.violations.is_empty(), "{broken:?}");
            met[at] += 1;
        }
    }
    println!("{met:?}");
    assert!(met.iter().all(|count| *count >= 36), "{met:?}");
}

/// How often every lane has moved when a claim first fails.
fn fails_after(plan: &Plan, claim: Claim) -> usize {
    found(plan, plan.precision).violations[&claim].after
}

/// A claim fails as soon as what breaks it is shown, and not at the end of
/// the cycle or of the run only.
#[test]
fn violations_show_at_once() {
    let mut early = case_b();
    early.pieces[1][2] = 9;
    assert_eq!(fails_after(&early, Claim::Arrived), 10);
    let mut late = case_b();
    late.streams[0][2] = 12;
    assert_eq!(fails_after(&late, Claim::Latency), 14);
    let mut long = case_chain();
    long.chains[0][2] = 16;
    assert_eq!(fails_after(&long, Claim::Chain), 18);
    let mut short = case_b();
    short.pieces[0][3] = 3;
    assert_eq!(fails_after(&short, Claim::Budget), 20);
    for edge in edges_of(24, 60, shared_buffer) {
        let Edge { kept, broken, .. } = edge;
        let mut pieces = broken.pieces.iter();
        let moved = pieces.find(|piece| !kept.pieces.contains(piece));
        let [task, k, start, length, ..] = *moved.expect("a piece has moved");
        let writes = broken.buffers.iter().any(|buffer| buffer[1] == task);
        // A write begins a tick too soon, or its neighbour does when a read
        // ends a tick late: either way one tick before a read is over.
        let at = if writes { start } else { start + length - 1 };
        assert_eq!(
            fails_after(&broken, Claim::Hold),
            at as usize + 1,
            "{task} {k} {broken:?}"
        );
    }
}

/// The second write in the midst of the first hold, which is still open
/// then, and in the last tick of it.
#[test]
fn holds_reach_as_far_as_shown() {
    let answer = |plan: &Plan| check(&plan.encode()).number;
    assert_eq!(answer(&two_rows()), 0);
    assert!(found(&two_rows(), 0).violations.is_empty());
    for (start, after, text) in [
        (
            2,
            3,
            "buffer row 0: held in moves 0..3, task 2 inside in move 2",
        ),
        (
            5,
            6,
            "buffer row 0: held in moves 0..6, task 2 inside in move 5",
        ),
    ] {
        let mut plan = two_rows();
        plan.pieces[2][2] = start;
        plan.put_in_order();
        assert_eq!(answer(&plan), 24);
        let violation = &found(&plan, 0).violations[&Claim::Hold];
        assert_eq!((violation.after, violation.what.as_str()), (after, text));
    }
}

type Change = fn(&mut Plan);

/// What 'Runs' does not claim: masks, nodes, routes, that a read starts when
/// its write has ended, that messages join a chain's tasks, and the order of
/// rows.
#[test]
fn questions_that_no_run_shows() {
    let unseen: [(u32, Plan, Change); 11] = [
        (9, case_b(), |plan| plan.tasks[0][1] = 2),
        (14, case_b(), |plan| plan.cores[1][0] = 0),
        (17, case_b(), |plan| plan.links[0][1] = 2),
        (22, two_rows(), |plan| {
            plan.cores[1][0] = 4;
            plan.buffers = rows_of(&[[7, 0, 3]]);
        }),
        (23, two_rows(), |plan| {
            plan.pieces[2][2] = 5;
            plan.buffers = rows_of(&[[7, 1, 2]]);
        }),
        (29, case_chain(), |plan| plan.chains[0] = row_of([0, 0, 17])),
        (29, case_chain(), |plan| plan.chains[0] = row_of([0, 3, 17])),
        (30, case_chain(), |plan| plan.chains[0] = row_of([2, 0, 17])),
        (32, case_chain(), |plan| plan.windows.reverse()),
        (32, case_chain(), |plan| plan.pieces.reverse()),
        (32, two_hops([704, 88], 11), |plan| plan.frames.reverse()),
    ];
    for (question, mut plan, change) in unseen {
        change(&mut plan);
        assert_eq!(check(&plan.encode()).number, question);
        assert!(found(&plan, plan.precision).violations.is_empty());
    }
}

/// Edges of one question, over so many plans of a shape.
fn edges_of(question: u32, plans: u64, shape: fn(&mut Rng) -> Plan) -> Vec<Edge> {
    let mut found = Vec::new();
    for number in 0..plans {
        let mut rng = Rng::for_case(6, number);
        let plan = shape(&mut rng);
        let edges = edges(&plan, &mut rng).into_iter();
        found.extend(edges.filter(|edge| edge.question == question).take(3));
    }
    found
}

/// Misreading: P is added on the last hop only. What then passes is a plan
/// without P in its hops, and it is late only between two clocks.
#[test]
fn misread_precision_on_the_last_hop() {
    let mut met = 0;
    for edge in edges_of(18, 100, tiny) {
        let mut without = edge.broken.clone();
        without.precision = 0;
        if edge.broken.precision > 0 && check(&without.encode()).is_accepted() {
            assert!(found(&edge.broken, 0).violations.is_empty());
            assert!(found(&edge.broken, edge.broken.precision).has(Claim::Arrived));
            met += 1;
        }
    }
    assert!(met >= 40, "{met}");
}

/// A window of the piece's VCPU cut in two in the midst of the piece's work.
fn cut_window(plan: &Plan, piece: usize) -> Option<Plan> {
    let [task, _, start, length, ..] = plan.pieces[piece];
    let vcpu = plan.tasks[task as usize][0];
    let cut = start + plan.task_switch(task) + 1;
    let holds =
        |window: &Window| window[0] == vcpu && (window[1]..window[1] + window[2]).contains(&start);
    let window = plan.windows.iter().position(holds)?;
    let [_, opens, open, ..] = plan.windows[window];
    let mut plan = plan.clone();
    plan.windows[window] = row_of([vcpu, opens, cut - opens]);
    plan.windows
        .push(row_of([vcpu, cut, (opens + open).checked_sub(cut)?]));
    plan.put_in_order();
    (cut < start + length && check(&plan.encode()).number == 11).then_some(plan)
}

/// Misreading: a piece may span two adjoining windows. The second one pays no
/// switch, every tick of its work lies in a window of its VCPU still, and no
/// run is harmed.
#[test]
fn misread_windows() {
    let mut harmless = 0;
    for number in 0..60 {
        let plan = tiny(&mut Rng::for_case(7, number));
        for row in 0..plan.pieces.len() {
            if let Some(broken) = cut_window(&plan, row) {
                let report = found(&broken, broken.precision);
                assert!(report.violations.is_empty());
                harmless += 1;
            }
        }
    }
    assert!(harmless >= 80, "{harmless}");
}

/// A job that works in the ticks of a switch: its window no longer adjoins
/// another of its VCPU, since that one is another VCPU's or is a tick shorter.
#[test]
fn work_in_a_switch_is_noticed() {
    let [mut by_vcpu, mut by_gap] = [0, 0];
    for number in 0..400 {
        let plan = kept_core(&mut Rng::for_case(8, number));
        for window in 0..plan.windows.len() {
            let Some(before) = idle_before(&plan, window) else {
                continue;
            };
            assert!(found(&plan, 0).violations.is_empty());
            let mut other = plan.clone();
            other.vcpus.push(row_of([0]));
            other.windows[before][0] = plan.vcpus.len() as u32;
            by_vcpu += noticed_if_eleven(&other);
            let mut gap = plan.clone();
            gap.windows[before][2] -= 1;
            by_gap += noticed_if_eleven(&gap);
        }
    }
    assert!(by_vcpu >= 20 && by_gap >= 20, "{by_vcpu} {by_gap}");
}

/// The window without pieces that ends where a window of its VCPU begins of
/// which the first v ticks are worked in.
fn idle_before(plan: &Plan, window: usize) -> Option<usize> {
    let [vcpu, start, ..] = plan.windows[window];
    let [_, d, v, ..] = plan.cores[0];
    let starts_in = |from: u32, until: u32| {
        let mut pieces = plan.pieces.iter();
        pieces.any(|piece| (from..until).contains(&piece[2]))
    };
    let ends_there = |other: &Window| other[0] == vcpu && other[1] + other[2] == start;
    let before = plan.windows.iter().position(ends_there)?;
    let is_idle = !starts_in(plan.windows[before][1], start);
    (is_idle && starts_in(start, (start + v).saturating_sub(d))).then_some(before)
}

/// 1 where question 11 is the first no; then a run shows it.
fn noticed_if_eleven(plan: &Plan) -> u32 {
    let is_broken = check(&plan.encode()).number == 11;
    if is_broken {
        let report = found(plan, 0);
        assert!(report.violations.keys().eq([&Claim::Window]), "{plan:?}");
    }
    u32::from(is_broken)
}

/// The ticks of work of a piece that a lower piece of another job number
/// hides, if there are two such on one core.
fn hidden_work(plan: &Plan) -> Option<usize> {
    let ticks = |row: usize| plan.pieces[row][2]..plan.pieces[row][2] + plan.pieces[row][3];
    let core = |row: usize| plan.core_of_task(plan.pieces[row][0]);
    let pairs = (0..plan.pieces.len()).flat_map(|high| (0..high).map(move |low| (low, high)));
    let mut clashes = pairs.filter(|&(low, high)| {
        let one_core = core(low) == core(high);
        one_core && ticks(low).any(|tick| ticks(high).contains(&tick))
    });
    let (low, high) = clashes.next()?;
    let [task, k, start, ..] = plan.pieces[high];
    let work = start + plan.task_switch(task);
    let hidden = ticks(high).filter(|tick| *tick >= work && ticks(low).contains(tick));
    (plan.pieces[low][1] != k && clashes.next().is_none()).then(|| hidden.count())
}

/// Misreading: pieces are compared within jobs of equal number. Of two that
/// overlap, the higher row's loses its budget, unless only ticks of its task
/// switch are hidden.
#[test]
fn misread_pieces_of_other_jobs() {
    let [mut harmed, mut harmless] = [0, 0];
    for edge in edges_of(12, 400, tiny) {
        let is_moved = matches!(edge.dial, Dial::PieceStart(_));
        if let Some(hidden) = hidden_work(&edge.broken).filter(|_| is_moved) {
            let report = found(&edge.broken, 0);
            assert_eq!(report.has(Claim::Budget), hidden > 0, "{:?}", edge.broken);
            *(if hidden > 0 {
                &mut harmed
            } else {
                &mut harmless
            }) += 1;
        }
    }
    assert!(harmed >= 40 && harmless >= 5, "{harmed} {harmless}");
}

/// Misreading: a hold ends when the write ends. What then passes has no two
/// writes at once, but a write while another message is still to be read.
#[test]
fn misread_holds() {
    let edges = edges_of(24, 60, shared_buffer);
    for edge in &edges {
        let plan = &edge.broken;
        let writes = |piece: &&Piece| plan.buffers.iter().any(|row| row[1] == piece[0]);
        let mut writes: Vec<&Piece> = plan.pieces.iter().filter(writes).collect();
        writes.sort_by_key(|piece| piece[2]);
        assert!(writes
            .windows(2)
            .all(|two| two[0][2] + two[0][3] <= two[1][2]));
        assert!(found(plan, 0).violations.keys().eq([&Claim::Hold]));
    }
    assert!(edges.len() >= 40, "{}", edges.len());
}

/// With which clocks, of nodes 0 and 2, and with which delay of the first
/// crossing two frames of such a plan are in one queue at once.
fn meetings(plan: &Plan) -> Vec<([u32; 2], u32)> {
    let mut met = Vec::new();
    for (one, other) in [(0, 0), (0, 2), (1, 0), (2, 0), (2, 1), (2, 2)] {
        for delay in 3..=6 {
            let choice = Choice {
                clocks: Clocks::from_fn(plan, |node| [one, 0, other][node as usize]),
                delays: Delays::from_fn(plan, |_, frame, [_, highest]| match frame {
                    0 => delay,
                    _ => highest,
                }),
            };
            let report = unchecked(plan, &[choice]);
            let mut claims = report.violations.keys();
            assert!(claims.all(|claim| *claim == Claim::Queue));
            if report.has(Claim::Queue) {
                met.push(([one, other], delay));
            }
        }
    }
    met
}

/// Stays that touch meet under no choice, and those that overlap by a tick
/// under one alone: the first node's clock as far ahead as may be, the second's
/// not at all, and the shortest crossing.
#[test]
fn queues_with_each_choice() {
    assert_eq!(check(&one_queue(6).encode()).number, 0);
    assert_eq!(meetings(&one_queue(6)), []);
    assert_eq!(check(&one_queue(7).encode()).number, 41);
    assert_eq!(meetings(&one_queue(7)), [([2, 0], 3)]);
    let two = [([1, 0], 3), ([2, 0], 3), ([2, 0], 4), ([2, 1], 3)];
    assert_eq!(meetings(&one_queue(8)), two);
    for start in [6, 7, 8] {
        let mut apart = one_queue(start);
        apart.streams[0][5] = 3;
        assert_eq!(meetings(&apart), []);
    }
}

/// A queue that is shared is told as soon as it is shown, with both frames.
#[test]
fn a_shared_queue_is_told() {
    let plan = one_queue(7);
    let found = found(&plan, plan.precision);
    let told = &found.violations[&Claim::Queue];
    assert_eq!(told.after, 8);
    assert_eq!(
        told.what,
        "frame 2 of cycle c + 0 from true time 7 to 8, \
         in its queue frame 1 of cycle c + 0 from true time 6 to 8"
    );
}

/// In accepted plans a frame that comes before its cycle, as far as clocks can
/// tell, meets none of the cycle before: every frame is sent P before its
/// cycle's end, and more.
#[test]
fn queues_are_empty_at_the_ends_of_cycles() {
    let mut early = 0;
    for number in 0..400 {
        let plan = busy_links(&mut Rng::for_case(14, number));
        let report = found(&plan, plan.precision);
        assert!(report.violations.is_empty(), "{plan:?}");
        early += u32::from(report.tally.of(Fact::StayBeforeCycle) > 0);
    }
    println!("{early}");
    assert!(early >= 40, "{early}");
}

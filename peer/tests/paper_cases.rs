//! The cases of the plan paper, for this implementation and its naive twin.

mod cases;

use cases::{case_a, case_b, case_chain, case_chain_deadline, case_deadline, two_hops, two_rows};
use peer::boundary::{Boundary, Peer};
use peer::image::{
    point_back, row_of, rows_of, set_word, width, word_at, Trailer, LINK, LONGEST, STREAM, TABLES,
    TRAILER, WORD,
};
use peer::naive::Naive;
use peer::{
    arrivals, build, check, line, naive, report, start, step, step_all, Answer, Plan, State,
};

#[track_caller]
fn expect(image: &[u8], number: u32, table: u32, row: u32) {
    let answer = Answer::at(number, table, row);
    assert_eq!(check(image), answer);
    assert_eq!(naive::check(image), answer);
    if !answer.is_accepted() {
        assert_eq!(report(image), format!("{answer}\n{}\n", line(answer)));
    }
}

#[track_caller]
fn changed(mut plan: Plan, change: impl Fn(&mut Plan), number: u32, table: u32, row: u32) {
    change(&mut plan);
    expect(&plan.encode(), number, table, row);
}

#[test]
fn a_prints_whole() {
    let image = case_a().encode();
    expect(&image, 0, 0, 0);
    let words = "answer 0: table 0, row 0\n";
    let text = format!("0 0 0\n{words}0 0 1 0\n0 2 3 0\n0 3 4 0\n0 6 2 0\n");
    assert_eq!(report(&image), text);
}

/// Request 9: a refusal prints two lines.
#[test]
fn refusals_in_words() {
    let mut late = case_a();
    late.tasks[0][4] = 5;
    let text = report(&late.encode());
    assert_eq!(text, "10 5 0\nanswer 10: piece, row 0\n");
    assert_eq!(report(&[]), "1 0 0\nanswer 1: table 0, row 0\n");
}

#[test]
fn a_changed() {
    changed(case_a(), |plan| plan.tasks[0][4] = 6, 0, 0, 0);
    changed(case_a(), |plan| plan.tasks[0][4] = 5, 10, 5, 0);
    changed(case_a(), |plan| plan.pieces[0][3] = 3, 13, 3, 0);
    changed(case_a(), |plan| plan.pieces[0][2] = 1, 11, 5, 0);
    changed(case_a(), |plan| plan.tasks[0][1] = 3, 0, 0, 0);
    changed(case_a(), |plan| plan.tasks[0][1] = 2, 9, 3, 0);
    let both = |plan: &mut Plan| {
        plan.tasks[0][1] = 2;
        plan.pieces[0][2] = 1;
    };
    changed(case_a(), both, 9, 3, 0);
    changed(case_a(), |plan| plan.windows[0][2] = 2, 7, 4, 0);
    changed(case_a(), |plan| plan.windows[0][2] = 3, 11, 5, 0);
    changed(case_a(), |plan| plan.tasks[0][2] = 3, 6, 3, 0);
    changed(case_a(), |plan| plan.windows[0][0] = 1, 5, 4, 0);
    changed(case_a(), |plan| plan.pieces[0][1] = 1, 10, 5, 0);
    changed(case_a(), |plan| plan.cycle = 0, 4, 0, 0);
}

#[test]
fn a_as_bytes() {
    let mut image = case_a().encode();
    let last_word = image.len() - WORD;
    image[last_word] -= 1;
    expect(&image, 2, 0, 0);
    expect(&[], 1, 0, 0);
}

#[test]
fn b_and_its_refusals() {
    changed(case_b(), |_| (), 0, 0, 0);
    changed(case_b(), |plan| plan.streams[0][2] = 12, 21, 7, 0);
    changed(case_b(), |plan| plan.pieces[1][2] = 9, 20, 7, 0);
}

#[test]
fn b_has_three_lanes() {
    let text = report(&case_b().encode());
    let lines: Vec<&str> = text.lines().collect();
    let sender = ["0 0 1 0", "0 2 3 0", "0 3 4 0", "0 6 2 0"];
    let receiver = ["1 0 1 1", "1 2 2 1", "1 10 3 1", "1 11 4 1", "1 14 2 1"];
    let link = ["2 0 0 0", "2 6 5 0", "2 8 0 0"];
    assert_eq!(lines[0], "0 0 0");
    assert_eq!(lines[2..6], sender);
    assert_eq!(lines[6..11], receiver);
    assert_eq!(lines[11..], link);
}

/// The table of case A's only lane.
fn table_of_a() -> Vec<u32> {
    let mut words = vec![0; 14];
    let answer = build(&case_a().encode(), 0, &mut words);
    assert_eq!(answer, Answer::ACCEPTED);
    words
}

#[test]
fn a_builds_where_the_words_suffice() {
    let image = case_a().encode();
    let table = [10, 4, 0, 1, 0, 2, 3, 0, 3, 4, 0, 6, 2, 0];
    assert_eq!(table_of_a(), table);
    let mut words = [7; 20];
    assert_eq!(build(&image, 0, &mut words), Answer::ACCEPTED);
    assert_eq!(words[..14], table);
    assert_eq!(words[14..], [7; 6]);
    let mut words = [7; 13];
    assert_eq!(build(&image, 0, &mut words), Answer::plain(26));
    assert_eq!(words, [7; 13]);
    let mut words = [7; 20];
    assert_eq!(build(&image, 1, &mut words), Answer::plain(25));
    assert_eq!(build(&image, u32::MAX, &mut words), Answer::plain(25));
    assert_eq!(build(&image[1..], 0, &mut words), Answer::plain(2));
    assert_eq!(words, [7; 20]);
}

fn at(cycle: u64, tick: u32, entry: u32) -> State {
    State {
        tick,
        entry,
        kind: 77,
        row: 78,
        ..start(cycle, 0)
    }
}

#[track_caller]
fn expect_step(words: &[u32], from: State, number: u32, to: State) {
    for stepper in [step, naive::step] {
        let mut state = from;
        assert_eq!(stepper(words, &mut state), number);
        assert_eq!(state, to);
    }
}

#[test]
fn a_steps_into_the_next_cycle() {
    let shown = State {
        kind: 2,
        row: 0,
        ..at(6, 0, 0)
    };
    expect_step(&table_of_a(), at(5, 9, 3), 0, shown);
}

#[test]
fn the_calendar_ends() {
    let last = at(u64::MAX, 9, 3);
    expect_step(&table_of_a(), last, 28, last);
    let before = at(u64::MAX, 8, 3);
    let shown = State {
        kind: 2,
        row: 0,
        ..at(u64::MAX, 9, 3)
    };
    expect_step(&table_of_a(), before, 0, shown);
}

#[test]
fn states_that_do_not_fit() {
    let words = table_of_a();
    for state in [
        at(0, 10, 3),
        at(0, 9, 4),
        at(0, 9, u32::MAX),
        at(0, u32::MAX, 3),
        at(0, 1, 1),
        at(0, 6, 2),
        at(u64::MAX, 9, 2),
        State {
            first: 1,
            ..at(0, 0, 0)
        },
        State {
            first: u32::MAX,
            ..at(0, 0, 0)
        },
    ] {
        expect_step(&words, state, 27, state);
    }
    expect_step(&words[..13], at(0, 0, 0), 27, at(0, 0, 0));
    expect_step(&words[..1], at(0, 0, 0), 27, at(0, 0, 0));
    expect_step(&[], at(0, 0, 0), 27, at(0, 0, 0));
    expect_step(&[10, u32::MAX], at(0, 0, 0), 27, at(0, 0, 0));
    expect_step(&[0, 1, 0, 0, 0], at(0, 0, 0), 27, at(0, 0, 0));
}

#[test]
fn one_refusal_stops_all() {
    let words = table_of_a();
    let (good, ended, stale) = (at(1, 0, 0), at(u64::MAX, 9, 3), at(0, 5, 0));
    for stepper in [step_all, naive::step_all] {
        assert_eq!(stepper(&words, &mut []), 0);
        for (row, number) in [
            (vec![good, ended, stale], 28),
            (vec![good, stale, ended], 27),
            (vec![good, good, ended], 28),
        ] {
            let mut states = row.clone();
            assert_eq!(stepper(&words, &mut states), number);
            assert_eq!(states, row);
        }
        let mut states = [good, good];
        assert_eq!(stepper(&words, &mut states), 0);
        assert_eq!(
            states,
            [State {
                kind: 1,
                row: 0,
                ..at(1, 1, 0)
            }; 2]
        );
    }
}

#[test]
fn a_whole_cycle_of_a() {
    let words = table_of_a();
    let mut state = start(0, 0);
    let mut kinds = Vec::new();
    for _ in 0..20 {
        assert_eq!(step(&words, &mut state), 0);
        kinds.push(state.kind);
    }
    assert_eq!(kinds[..10], [1, 1, 3, 4, 4, 4, 2, 2, 2, 2]);
    assert_eq!(kinds[10..], kinds[..10]);
    assert_eq!((state.cycle, state.tick, state.entry), (2, 0, 0));
}

/// Many jobs without pieces take no time of their own.
#[test]
fn a_million_jobs_without_a_piece() {
    let mut plan = case_a();
    plan.cycle = 1_000_000;
    plan.cores[0] = row_of([0, 0, 0]);
    plan.pieces = rows_of(&[[255, 999_999, 999_999, 1]]);
    plan.windows = rows_of(&[[0, 0, 1_000_000]]);
    plan.tasks = rows_of(&[[0, 1, 1, 1, 1]; 256]);
    for _ in 0..1_000 {
        assert_eq!(check(&plan.encode()), Answer::at(13, 3, 0));
    }
}

/// Misreadings of the paper's list.
#[test]
fn no_piece_spans_adjoining_windows() {
    let mut plan = case_a();
    plan.windows = rows_of(&[[0, 0, 5], [0, 5, 5]]);
    expect(&plan.encode(), 11, 5, 0);
}

/// Case A with a second VCPU on the core and these windows; D is T.
fn a_with(windows: &[[u32; 3]], start: u32) -> Plan {
    let mut plan = case_a();
    plan.vcpus.push(row_of([0]));
    plan.tasks[0][4] = 10;
    plan.windows = rows_of(windows);
    plan.pieces[0][2] = start;
    plan
}

#[track_caller]
fn expect_with(windows: &[[u32; 3]], start: u32, number: u32, table: u32, row: u32) {
    expect(&a_with(windows, start).encode(), number, table, row);
}

/// Request 1: a VCPU that keeps its core pays no switch.
#[test]
fn windows_that_continue_pay_nothing() {
    expect_with(&[[0, 0, 3], [0, 3, 7]], 3, 0, 0, 0);
    expect_with(&[[0, 3, 7], [0, 0, 3]], 3, 32, 4, 1);
    expect_with(&[[0, 0, 3], [0, 4, 6]], 4, 11, 5, 0);
    expect_with(&[[0, 0, 3], [0, 4, 6]], 6, 0, 0, 0);
    expect_with(&[[1, 0, 3], [0, 3, 7]], 3, 11, 5, 0);
    expect_with(&[[1, 0, 3], [0, 3, 7]], 4, 11, 5, 0);
    expect_with(&[[1, 0, 3], [0, 3, 7]], 5, 0, 0, 0);
    expect_with(&[[0, 0, 6], [0, 6, 2], [0, 8, 1]], 2, 0, 0, 0);
    expect_with(&[[0, 0, 6], [1, 6, 2]], 2, 7, 4, 1);
    expect_with(&[[0, 0, 6], [0, 7, 2]], 2, 7, 4, 1);
    expect_with(&[[0, 0, 6], [1, 6, 3]], 2, 0, 0, 0);
}

#[test]
fn windows_at_tick_0_always_pay() {
    expect_with(&[[0, 0, 2], [0, 2, 8]], 2, 7, 4, 0);
    expect_with(&[[0, 0, 6], [0, 6, 4]], 0, 11, 5, 0);
    expect_with(&[[0, 0, 6], [0, 6, 4]], 1, 11, 5, 0);
    expect_with(&[[0, 0, 6], [0, 6, 4]], 2, 0, 0, 0);
    expect_with(&[[0, 0, 0], [0, 0, 2]], 2, 7, 4, 0);
    expect_with(&[[0, 0, 2], [0, 0, 0]], 2, 32, 4, 1);
}

/// Question 7 asks of windows that overlap, are empty or do not end.
#[test]
fn windows_continue_whatever_the_other_is() {
    expect_with(&[[0, 3, 0], [0, 3, 2]], 2, 7, 4, 0);
    expect_with(&[[0, 3, 0], [0, 3, 0]], 2, 7, 4, 0);
    expect_with(&[[0, 0, 3], [0, 3, 1], [0, 3, 1]], 3, 8, 4, 2);
    expect_with(&[[0, 3, 2], [0, 4, u32::MAX]], 2, 7, 4, 0);
    expect_with(&[[0, 0, 5], [0, 5, 2], [0, 6, 9]], 2, 7, 4, 2);
}

#[test]
fn windows_that_continue_show_no_switch() {
    let text = report(&a_with(&[[0, 0, 3], [0, 3, 5], [1, 8, 2]], 3).encode());
    assert!(text.starts_with("7 4 2\n"));
    let text = report(&a_with(&[[0, 0, 3], [0, 3, 4], [1, 7, 3]], 3).encode());
    let entries = ["0 0 1 0", "0 2 2 0", "0 3 3 0", "0 4 4 0", "0 7 1 2"];
    assert!(text
        .lines()
        .skip(2)
        .eq(entries.into_iter().chain(["0 9 2 2"])));
    let text = report(&a_with(&[[0, 0, 5], [0, 5, 1], [0, 6, 4]], 6).encode());
    let entries = ["0 0 1 0", "0 2 2 0", "0 5 2 1", "0 6 3 0", "0 7 4 0"];
    assert!(text.lines().skip(2).eq(entries));
}

/// Request 2: ports of different speed. Case B has L = 2 and no tick to spare.
#[test]
fn b_at_other_rates() {
    for (rate, number, table) in [
        (0, 6, 6),
        (1, 15, 8),
        (235, 20, 7),
        (351, 20, 7),
        (352, 0, 0),
        (353, 0, 0),
        (703, 0, 0),
        (704, 0, 0),
        (10_000, 0, 0),
        (10_001, 6, 6),
        (u32::MAX, 6, 6),
    ] {
        changed(case_b(), |plan| plan.links[0][3] = rate, number, table, 0);
    }
}

#[test]
fn b_with_other_payloads() {
    for (payload, number, table) in [
        (0, 6, 7),
        (45, 6, 7),
        (46, 0, 0),
        (47, 20, 7),
        (574, 20, 7),
        (575, 15, 8),
        (1_500, 15, 8),
        (1_501, 6, 7),
        (u32::MAX, 6, 7),
        (u32::MAX - 41, 6, 7),
    ] {
        changed(
            case_b(),
            |plan| plan.streams[0][4] = payload,
            number,
            table,
            0,
        );
    }
}

/// Question 6 no longer asks for a length of at most H.
#[test]
fn a_stream_may_be_too_long_for_its_cycle() {
    let mut plan = case_b();
    plan.links[0][3] = 1;
    plan.frames.clear();
    expect(&plan.encode(), 16, 7, 0);
}

#[test]
fn each_hop_has_its_own_rate() {
    // 6 + 1 + 3 + 1, and 6 + 8 + 3 + 1.
    expect(&two_hops([704, 88], 11).encode(), 0, 0, 0);
    expect(&two_hops([704, 88], 10).encode(), 18, 8, 1);
    expect(&two_hops([88, 704], 18).encode(), 0, 0, 0);
    expect(&two_hops([88, 704], 17).encode(), 18, 8, 1);
    // 26 + 8 + 5 + 1, and 33 + 1 + 5 + 1.
    expect(&two_hops([704, 88], 26).encode(), 0, 0, 0);
    expect(&two_hops([704, 88], 27).encode(), 20, 7, 0);
    expect(&two_hops([88, 704], 33).encode(), 0, 0, 0);
    expect(&two_hops([88, 704], 34).encode(), 20, 7, 0);
    let text = report(&two_hops([704, 88], 11).encode());
    let lines: Vec<&str> = text.lines().collect();
    let links = ["2 0 0 0", "2 6 5 0", "2 7 0 0", "3 0 0 0", "3 11 5 1"];
    assert_eq!(lines[lines.len() - 6..lines.len() - 1], links);
    assert_eq!(lines[lines.len() - 1], "3 19 0 0");
}

/// The paper's sizes, which all code reckons from widths and counts. They are
/// written down here and in no other test.
#[test]
fn sizes_are_the_papers() {
    assert_eq!((TRAILER, LONGEST), (92, 65_116));
    let image = case_a().encode();
    assert_eq!(image.len(), 156);
    assert_eq!(image[152..], [64, 0, 0, 0]);
}

/// An image of case B with link rows of three words, or of four, or with stream
/// rows of five.
#[test]
fn old_rows_are_refused() {
    for (old, words) in [(LINK, 3), (LINK, 4), (STREAM, 5)] {
        let mut image = case_b().encode();
        let (begin, rows) = Trailer::read(&image).tables[old as usize - 1];
        assert_eq!(rows, 1);
        let gone = (width(old) - words) * WORD;
        let end = begin as usize + words * WORD;
        image.drain(end..end + gone);
        for table in old as usize..TABLES {
            let at = image.len() - TRAILER + WORD * (2 + 2 * table);
            let offset = word_at(&image, at) - gone as u32;
            set_word(&mut image, at, offset);
        }
        point_back(&mut image);
        expect(&image, 3, 0, 0);
    }
}

/// Request 3: chains over several messages.
#[test]
fn lengths_are_bounded() {
    expect(&[0; TRAILER - 2 * WORD], 1, 0, 0);
    expect(&[0; TRAILER - 1], 1, 0, 0);
    expect(&[0; TRAILER], 3, 0, 0);
    for (length, number) in [(LONGEST, 3), (LONGEST + 1, 1)] {
        let mut image = vec![0; length];
        point_back(&mut image);
        expect(&image, number, 0, 0);
    }
}

/// Case A as it was, with nine tables: the last word says where their trailer
/// begins.
#[test]
fn old_images_are_refused() {
    let mut image = case_a().encode();
    let tenth = image.len() - 3 * WORD;
    image.drain(tenth..tenth + 2 * WORD);
    expect(&image, 2, 0, 0);
    point_back(&mut image);
    expect(&image, 3, 0, 0);
}

#[track_caller]
fn expect_chains(chains: &[[u32; 3]], number: u32, row: u32) {
    let mut plan = case_chain();
    plan.chains = rows_of(chains);
    let table = if number == 0 { 0 } else { 10 };
    expect(&plan.encode(), number, table, row);
}

/// 2 to 6, 10 to 14 and 14 to 18 are the pieces, P is 1 and T is 20.
#[test]
fn chains_keep_their_limits() {
    expect_chains(&[], 0, 0);
    expect_chains(&[[0, 2, 17]], 0, 0);
    expect_chains(&[[0, 2, 16]], 31, 0);
    expect_chains(&[[0, 2, 0]], 0, 0);
    expect_chains(&[[0, 2, 1]], 31, 0);
    expect_chains(&[[0, 2, u32::MAX]], 0, 0);
    expect_chains(&[[0, 1, 13]], 0, 0);
    expect_chains(&[[0, 1, 12]], 31, 0);
    // P counts on one node too.
    expect_chains(&[[1, 2, 9]], 0, 0);
    expect_chains(&[[1, 2, 8]], 31, 0);
    expect_chains(&[[0, 2, 17]; 32], 0, 0);
    expect_chains(&[[0, 2, 17], [1, 2, 8], [0, 2, 16]], 31, 1);
}

#[test]
fn chains_have_tasks_and_paths() {
    for [first, last] in [[0, 3], [3, 0], [0, u32::MAX], [1 << 31, 2], [3, 3], [1, 1]] {
        expect_chains(&[[0, 2, 17], [first, last, 0]], 29, 1);
    }
    for [first, last] in [[1, 0], [2, 0], [2, 1]] {
        expect_chains(&[[0, 2, 17], [first, last, u32::MAX]], 30, 1);
    }
}

/// Each question is asked over all rows before the next.
#[test]
fn chains_are_asked_question_by_question() {
    expect_chains(&[[0, 2, 16], [2, 0, 99], [0, 9, 5]], 29, 2);
    expect_chains(&[[0, 2, 16], [2, 0, 99]], 30, 1);
    expect_chains(&[[0, 2, 16]], 31, 0);
}

/// Questions 5 and 6 pass over table 10, and all others up to 24 come first.
#[test]
fn chains_are_asked_last() {
    let mut plan = case_chain();
    plan.chains = rows_of(&[[u32::MAX; 3]]);
    expect(&plan.encode(), 29, 10, 0);
    let broken = plan.clone();
    changed(broken.clone(), |plan| plan.buffers[0][0] = 64, 6, 9, 0);
    changed(broken.clone(), |plan| plan.pieces[2][3] = 5, 13, 3, 2);
    changed(broken, |plan| plan.pieces[2][2] = 15, 29, 10, 0);
    let mut plan = two_rows();
    plan.chains = rows_of(&[[0, 3, 1]]);
    changed(plan, |plan| plan.pieces[2][2] = 5, 24, 9, 1);
    let mut plan = case_a();
    plan.tasks.clear();
    plan.pieces.clear();
    plan.chains = rows_of(&[[0, 1, 0]]);
    expect(&plan.encode(), 29, 10, 0);
}

#[test]
fn chains_are_at_most_32() {
    let mut plan = case_chain();
    plan.chains = rows_of(&[[0, 2, 17]; 33]);
    expect(&plan.encode(), 3, 0, 0);
}

/// A chain of two jobs, of which the second takes a tick longer.
#[test]
fn chains_are_asked_of_every_job() {
    let mut plan = two_rows();
    plan.cycle = 20;
    plan.windows = rows_of(&[[0, 0, 20], [1, 0, 20]]);
    plan.buffers.truncate(1);
    for mut piece in plan.pieces.clone() {
        (piece[1], piece[2]) = (1, piece[2] + 10);
        plan.pieces.push(piece);
    }
    plan.pieces[5][2] += 1;
    plan.chains = rows_of(&[[0, 1, 7]]);
    expect(&plan.encode(), 0, 0, 0);
    plan.chains = rows_of(&[[0, 1, 6]]);
    expect(&plan.encode(), 31, 10, 0);
}

/// Request 7: cable delay between two bounds. Case B has a delay of 1.
#[test]
fn b_with_a_lowest_delay() {
    for (delay, lowest, number, table) in [
        (1, 0, 0, 0),
        (1, 1, 0, 0),
        (1, 2, 6, 6),
        (1, u32::MAX, 6, 6),
        (0, 0, 0, 0),
        (0, 1, 6, 6),
        (2, 0, 20, 7),
        (2, 2, 20, 7),
        (1_000_000, 1_000_000, 20, 7),
        (1_000_000, 1_000_001, 6, 6),
        (1_000_001, 0, 6, 6),
        (1_000_001, 1_000_001, 6, 6),
    ] {
        let set = |plan: &mut Plan| (plan.links[0][2], plan.links[0][4]) = (delay, lowest);
        changed(case_b(), set, number, table, 0);
    }
}

/// Each link has bounds of its own, which are asked with all else of its row.
#[test]
fn lowest_delays_are_asked_row_by_row() {
    let with = |lowest: [u32; 2], change: fn(&mut Plan)| {
        let mut plan = two_hops([704, 88], 11);
        [plan.links[0][4], plan.links[1][4]] = lowest;
        change(&mut plan);
        plan.encode()
    };
    expect(&with([3, 5], |_| ()), 0, 0, 0);
    expect(&with([4, 5], |_| ()), 6, 6, 0);
    expect(&with([3, 6], |_| ()), 6, 6, 1);
    expect(&with([4, 6], |_| ()), 6, 6, 0);
    expect(&with([3, 6], |plan| plan.links[0][3] = 0), 6, 6, 0);
    expect(&with([4, 5], |plan| plan.links[1][3] = 0), 6, 6, 0);
    expect(&with([4, 5], |plan| plan.streams[0][4] = 45), 6, 6, 0);
    expect(&with([4, 5], |plan| plan.tasks[0][3] = 0), 6, 3, 0);
    expect(&with([4, 5], |plan| plan.frames.reverse()), 32, 8, 1);
    expect(&with([4, 5], |plan| plan.windows[0][2] = 0), 6, 6, 0);
}

/// 18 and 20 take the highest delay, whatever the lowest is.
#[test]
fn the_highest_delay_counts() {
    for lowest in [0, 2, 3] {
        let with = |start: u32| {
            let mut plan = two_hops([704, 88], start);
            [plan.links[0][4], plan.links[1][4]] = [lowest; 2];
            plan.encode()
        };
        expect(&with(11), 0, 0, 0);
        expect(&with(10), 18, 8, 1);
        expect(&with(26), 0, 0, 0);
        expect(&with(27), 20, 7, 0);
    }
}

/// The answer, and what is in four words that were all 7 before, so many of
/// them lent.
fn arrivals_in(image: &[u8], frame: u32, lent: usize) -> (Answer, [u32; 4]) {
    let [mut words, mut naive] = [[7; 4]; 2];
    let answer = arrivals(image, frame, &mut words[..lent]);
    let other = naive::arrivals(image, frame, &mut naive[..lent]);
    assert_eq!((answer, words), (other, naive));
    (answer, words)
}

/// Frames 6 to 7 and 11 to 19, delays of at most 3 and 5, P is 1.
#[test]
fn frames_arrive_between_two_ticks() {
    for (lowest, first, second) in [
        ([0, 0], [7, 10], [19, 24]),
        ([3, 5], [10, 10], [24, 24]),
        ([1, 4], [8, 10], [23, 24]),
    ] {
        let mut plan = two_hops([704, 88], 11);
        [plan.links[0][4], plan.links[1][4]] = lowest;
        let image = plan.encode();
        for (frame, [earliest, latest]) in [(0, first), (1, second)] {
            for lent in 2..=4 {
                let (answer, words) = arrivals_in(&image, frame, lent);
                assert!(answer.is_accepted());
                assert_eq!(words, [earliest, latest, 7, 7]);
            }
        }
    }
}

/// First the plan, then the frame, then the words.
#[test]
fn arrivals_are_refused_in_order() {
    let refused = |plan: &Plan, frame: u32, lent: usize, answer: Answer| {
        assert_eq!(arrivals_in(&plan.encode(), frame, lent), (answer, [7; 4]));
    };
    let mut late = case_b();
    late.streams[0][2] = 12;
    for lent in 0..=4 {
        for frame in [0, 1, u32::MAX] {
            refused(&late, frame, lent, Answer::at(21, 7, 0));
        }
        for frame in [1, 2, 1 << 30, u32::MAX] {
            refused(&case_b(), frame, lent, Answer::at(5, 8, frame));
        }
        refused(&case_a(), 0, lent, Answer::at(5, 8, 0));
    }
    for lent in 0..=1 {
        refused(&case_b(), 0, lent, Answer::plain(26));
    }
}

/// A part of a word does not count, and is not written.
#[test]
fn arrivals_are_whole_words() {
    let image = case_b().encode();
    for length in 0..=20 {
        let mut expected = vec![7; length];
        let number = match expected.get_mut(..8) {
            None => 26,
            Some(words) => {
                words.copy_from_slice(&[8, 0, 0, 0, 9, 0, 0, 0]);
                0
            }
        };
        for by in [&Peer as &dyn Boundary, &Naive] {
            let mut lent = vec![7; length];
            let answer = by.arrivals(&image, 0, &mut lent);
            assert_eq!((answer, &lent), (number, &expected));
        }
    }
}

/// Request 8: an E of 0 stands for the receiver's deadline. From the sender's
/// start at 2 to the receiver's end at 16, with P, it takes 17 ticks; T is 20.
#[test]
fn b_within_the_receivers_deadline() {
    for (latency, deadline, number, table, row) in [
        (0, 20, 0, 0, 0),
        (0, 18, 0, 0, 0),
        (0, 17, 0, 0, 0),
        (0, 16, 21, 7, 0),
        (0, 15, 10, 5, 1),
        (17, 16, 0, 0, 0),
        (16, 16, 21, 7, 0),
        (16, 20, 21, 7, 0),
        // The period written out.
        (20, 16, 0, 0, 0),
        (1_000_000, 16, 0, 0, 0),
    ] {
        let set = |plan: &mut Plan| {
            (plan.streams[0][2], plan.tasks[1][4]) = (latency, deadline);
        };
        changed(case_deadline(), set, number, table, row);
    }
}

/// Case B itself bears an E of 0 with every deadline that 10 does.
#[test]
fn b_with_an_e_of_0() {
    for (deadline, number, table) in [(20, 0, 0), (14, 0, 0), (13, 10, 5)] {
        let set = |plan: &mut Plan| {
            (plan.streams[0][2], plan.tasks[1][4]) = (0, deadline);
        };
        changed(case_b(), set, number, table, u32::from(number > 0));
    }
}

/// The sender's deadline is of no account, be it shorter or longer.
#[test]
fn the_senders_deadline_does_not_count() {
    for deadline in [6, 16, 17, 20] {
        let of_sender = |plan: &mut Plan| plan.tasks[0][4] = deadline;
        changed(case_deadline(), of_sender, 0, 0, 0);
        let mut late = case_deadline();
        late.tasks[1][4] = 16;
        changed(late, of_sender, 21, 7, 0);
    }
}

/// P counts, one tick more of it as one less of the deadline.
#[test]
fn the_deadline_holds_with_p() {
    let mut plan = case_deadline();
    plan.links[0][2] = 0;
    for (precision, deadline, number, table) in [
        (3, 17, 0, 0),
        (4, 17, 21, 7),
        (4, 18, 0, 0),
        (0, 16, 0, 0),
        (2, 16, 0, 0),
        (3, 16, 21, 7),
    ] {
        let set = |plan: &mut Plan| {
            (plan.precision, plan.tasks[1][4]) = (precision, deadline);
        };
        changed(plan.clone(), set, number, table, 0);
    }
}

/// The deadline is a number of ticks in each job, and not the tick at which it
/// is due: the second job takes 18.
#[test]
fn the_deadline_is_the_same_in_every_job() {
    let mut plan = case_deadline();
    plan.cycle = 40;
    plan.windows.iter_mut().for_each(|window| window[2] = 40);
    plan.pieces
        .extend([row_of([0, 1, 22, 4]), row_of([1, 1, 33, 4])]);
    plan.frames.push(row_of([0, 1, 0, 0, 26]));
    changed(plan.clone(), |plan| plan.tasks[1][4] = 17, 21, 7, 0);
    changed(plan.clone(), |plan| plan.tasks[1][4] = 18, 0, 0, 0);
    changed(plan, |plan| plan.streams[0][2] = 20, 0, 0, 0);
}

/// Likewise a chain's limit of 0 stands for the last task's deadline. From 2 to
/// 20, with P, it takes 21 ticks; T is 30.
#[test]
fn chains_within_the_last_deadline() {
    for (limit, deadline, number, table, row) in [
        (0, 30, 0, 0, 0),
        (0, 21, 0, 0, 0),
        (0, 20, 31, 10, 0),
        (0, 19, 10, 5, 2),
        (21, 20, 0, 0, 0),
        (20, 20, 31, 10, 0),
        // The period written out.
        (30, 20, 0, 0, 0),
        (u32::MAX, 20, 0, 0, 0),
    ] {
        for of_others in [[6, 17], [30, 30], [20, 21], [21, 20]] {
            let set = |plan: &mut Plan| {
                (plan.chains[0][2], plan.tasks[2][4]) = (limit, deadline);
                [plan.tasks[0][4], plan.tasks[1][4]] = of_others;
            };
            changed(case_chain_deadline(), set, number, table, row);
        }
    }
}

/// An E of 0 is asked first, and a limit of 0 does not loosen it.
#[test]
fn both_deadlines_hold() {
    let set = |deadlines: [u32; 2]| {
        move |plan: &mut Plan| [plan.tasks[1][4], plan.tasks[2][4]] = deadlines
    };
    changed(case_chain_deadline(), set([17, 21]), 0, 0, 0);
    changed(case_chain_deadline(), set([16, 21]), 21, 7, 0);
    changed(case_chain_deadline(), set([17, 20]), 31, 10, 0);
    changed(case_chain_deadline(), set([16, 20]), 21, 7, 0);
}

/// On one node too: from 0 to 6 with P, T is 10.
#[test]
fn chains_on_one_node_have_the_last_deadline() {
    for (limit, deadline, precision, number) in [
        (0, 10, 4, 0),
        (0, 10, 5, 31),
        (0, 8, 2, 0),
        (0, 8, 3, 31),
        (0, 6, 0, 0),
        (0, 6, 1, 31),
        (10, 6, 4, 0),
        (10, 6, 5, 31),
    ] {
        let mut plan = two_rows();
        plan.chains = rows_of(&[[0, 1, limit]]);
        plan.tasks[1][4] = deadline;
        let table = if number == 0 { 0 } else { 10 };
        changed(plan, |plan| plan.precision = precision, number, table, 0);
    }
}

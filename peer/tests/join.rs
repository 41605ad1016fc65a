//! Two plans joined to one (request 10), case by case, for this package and its
//! stand-in.

mod cases;

use cases::{case_a, case_b};
use peer::image::{row_of, rows_of};
use peer::joins::{ask, Joins, Standin, Work};
use peer::{check, join, tables, Answer, Plan};

const PATTERN: u8 = 0xA5;

/// The answer and the joined image, empty where none was written, of both
/// implementations; neither may touch a byte behind it.
#[track_caller]
fn outcome(first: &[u8], second: &[u8], shared: u32, lent: usize) -> (Answer, Vec<u8>) {
    let mut ours = vec![PATTERN; lent];
    let (answer, length) = join(first, second, shared, &mut ours);
    let mut theirs = vec![PATTERN; lent];
    let mut lengths = [7, 9];
    let code = Standin(None).join(first, second, shared, &mut theirs, &mut lengths);
    assert_eq!((code, lengths), (answer.code(), [length, 9]));
    assert_eq!(theirs, ours);
    let behind = ours.split_off(length as usize);
    assert!(behind.iter().all(|byte| *byte == PATTERN));
    (answer, ours)
}

/// More bytes than any image has.
const PLENTY: usize = 70_000;

fn at(number: u32, table: u32, row: u32) -> Answer {
    Answer::at(number, table, row)
}

#[track_caller]
fn refused_images(first: &[u8], second: &[u8], shared: u32, answer: Answer) {
    for lent in [PLENTY, 300, 0] {
        let expected = (answer, Vec::new());
        assert_eq!(outcome(first, second, shared, lent), expected);
    }
}

#[track_caller]
fn refused(first: &Plan, second: &Plan, shared: u32, number: u32) {
    let answer = Answer::plain(number);
    refused_images(&first.encode(), &second.encode(), shared, answer);
}

/// The joined plan, whatever its own answer, with bytes that suffice and that
/// do not.
#[track_caller]
fn joined(first: &Plan, second: &Plan, shared: u32, answer: Answer) -> Plan {
    let (first, second) = (first.encode(), second.encode());
    let (given, image) = outcome(&first, &second, shared, PLENTY);
    assert_eq!(given, answer);
    assert_eq!(check(&image), answer);
    for lent in [image.len(), image.len() + 1] {
        let expected = (answer, image.clone());
        assert_eq!(outcome(&first, &second, shared, lent), expected);
    }
    for lent in [image.len() - 1, image.len() - 4, 1, 0] {
        let expected = (Answer::plain(37), Vec::new());
        assert_eq!(outcome(&first, &second, shared, lent), expected);
    }
    Plan::decode(&image)
}

#[track_caller]
fn accepted(first: &Plan, second: &Plan, shared: u32) -> Plan {
    joined(first, second, shared, Answer::ACCEPTED)
}

fn with(mut plan: Plan, change: impl Fn(&mut Plan)) -> Plan {
    change(&mut plan);
    plan
}

/// Case A's core with another task, behind A's.
fn other_than_a() -> Plan {
    with(case_a(), |plan| {
        plan.tasks = rows_of(&[[0, 1, 10, 2, 10]]);
        plan.pieces = rows_of(&[[0, 0, 7, 3]]);
    })
}

fn a_and_other() -> Plan {
    with(case_a(), |plan| {
        plan.tasks.push(row_of([0, 1, 10, 2, 10]));
        plan.pieces.push(row_of([1, 0, 7, 3]));
    })
}

#[test]
fn a_and_another_task() {
    let (a, other, both) = (case_a(), other_than_a(), a_and_other());
    assert_eq!(accepted(&a, &other, 0), both);
    assert_eq!(accepted(&a, &both, 1), both);
    assert_eq!(accepted(&both, &a, 1), both);
    assert_eq!(accepted(&both, &both, 2), both);
    // Numbers go by the first: its pieces are behind the others here.
    let back = accepted(&other, &a, 0);
    assert_eq!(back.tasks, [other.tasks[0], a.tasks[0]]);
    assert_eq!(back.pieces, rows_of(&[[1, 0, 2, 4], [0, 0, 7, 3]]));
    let none = with(a.clone(), |plan| {
        plan.tasks.clear();
        plan.pieces.clear();
    });
    assert_eq!(accepted(&a, &none, 0), a);
    assert_eq!(accepted(&none, &a, 0), a);
    assert_eq!(accepted(&none, &none, 0), none);
}

#[test]
fn a_and_itself() {
    let a = case_a();
    assert_eq!(accepted(&a, &a, 1), a);
    let twice = joined(&a, &a, 0, at(12, 5, 1));
    assert_eq!(twice.tasks, [a.tasks[0]; 2]);
    assert_eq!(twice.pieces, rows_of(&[[0, 0, 2, 4], [1, 0, 2, 4]]));
    assert_eq!(twice.encode().len(), 156 + 20 + 16);
}

#[test]
fn b_and_itself() {
    let b = case_b();
    assert_eq!(accepted(&b, &b, 2), b);
    let twice = joined(&b, &b, 0, at(12, 5, 1));
    let pieces = [[0, 0, 2, 4], [2, 0, 2, 4], [1, 0, 10, 4], [3, 0, 10, 4]];
    assert_eq!(twice.pieces, rows_of(&pieces));
    assert_eq!(
        twice.streams,
        rows_of(&[[0, 1, 13, 1, 46], [2, 3, 13, 1, 46]])
    );
    assert_eq!(twice.frames, rows_of(&[[0, 0, 0, 0, 6], [1, 0, 0, 0, 6]]));
    // With a sender for both, the receiver alone is new.
    let half = joined(&b, &b, 1, at(12, 5, 2));
    assert_eq!(half.tasks.len(), 3);
    let pieces = [[0, 0, 2, 4], [1, 0, 10, 4], [2, 0, 10, 4]];
    assert_eq!(half.pieces, rows_of(&pieces));
    assert_eq!(
        half.streams,
        rows_of(&[[0, 1, 13, 1, 46], [0, 2, 13, 1, 46]])
    );
}

/// Case B in a cycle of 40 ticks, all so much later.
fn b_at(later: u32) -> Plan {
    with(case_b(), |plan| {
        plan.cycle = 40;
        plan.tasks
            .iter_mut()
            .for_each(|task| (task[2], task[4]) = (40, 40));
        plan.windows.iter_mut().for_each(|window| window[2] = 40);
        plan.pieces.iter_mut().for_each(|piece| piece[2] += later);
        plan.frames.iter_mut().for_each(|frame| frame[4] += later);
    })
}

#[test]
fn rows_are_put_in_order_again() {
    let (late, early) = (b_at(20), b_at(0));
    let both = accepted(&late, &early, 0);
    let pieces = [[2, 0, 2, 4], [3, 0, 10, 4], [0, 0, 22, 4], [1, 0, 30, 4]];
    assert_eq!(both.pieces, rows_of(&pieces));
    assert_eq!(
        both.streams,
        rows_of(&[[0, 1, 13, 1, 46], [2, 3, 13, 1, 46]])
    );
    assert_eq!(both.frames, rows_of(&[[1, 0, 0, 0, 6], [0, 0, 0, 0, 26]]));
    let both = accepted(&early, &late, 0);
    let pieces = [[0, 0, 2, 4], [1, 0, 10, 4], [2, 0, 22, 4], [3, 0, 30, 4]];
    assert_eq!(both.pieces, rows_of(&pieces));
    assert_eq!(both.frames, rows_of(&[[0, 0, 0, 0, 6], [1, 0, 0, 0, 26]]));
    // One tick later they overlap.
    joined(&early, &b_at(1), 0, at(12, 5, 1));
}

/// Streams, buffers and chains stay as they are appended, and windows as they
/// are.
#[test]
fn other_tables_are_in_no_order() {
    let chain = |limit| {
        with(b_at(0), |plan| {
            plan.chains = rows_of(&[[0, 1, limit], [0, 1, 99]])
        })
    };
    let both = accepted(&chain(30), &chain(20), 2);
    assert_eq!(both.chains, rows_of(&[[0, 1, 30], [0, 1, 99], [0, 1, 20]]));
    let late = with(b_at(20), |plan| plan.chains = rows_of(&[[0, 1, 25]]));
    let both = accepted(&chain(30), &late, 0);
    assert_eq!(both.chains, rows_of(&[[0, 1, 30], [0, 1, 99], [2, 3, 25]]));
}

/// Case A with its piece elsewhere, and a due tick that allows it.
fn a_from(start: u32) -> Plan {
    with(case_a(), |plan| {
        plan.tasks[0][4] = 10;
        plan.pieces[0][2] = start;
    })
}

#[test]
fn a_shared_task_with_other_pieces() {
    let moved = joined(&a_from(2), &a_from(6), 1, at(13, 3, 0));
    assert_eq!(moved.pieces, rows_of(&[[0, 0, 2, 4], [0, 0, 6, 4]]));
    joined(&a_from(2), &a_from(5), 1, at(12, 5, 1));
    joined(&a_from(5), &a_from(2), 1, at(12, 5, 1));
    // Not shared, they are two tasks that may both be.
    accepted(&a_from(2), &a_from(6), 0);
}

#[test]
fn other_ground() {
    let b = case_b();
    let changes: [fn(&mut Plan); 14] = [
        |plan| plan.precision = 0,
        |plan| plan.cores[1][2] = 1,
        |plan| plan.cores.push(row_of([0, 1, 2])),
        |plan| plan.vcpus.push(row_of([1])),
        |plan| plan.windows[0][2] = 19,
        |plan| plan.windows[1] = row_of([1, 1, 19]),
        |plan| plan.windows = rows_of(&[[0, 0, 20], [1, 0, 19], [1, 19, 1]]),
        |plan| plan.links[0][2] = 0,
        |plan| plan.links[0][3] = 10_000,
        |plan| plan.links[0][4] = 1,
        |plan| plan.links.push(row_of([0, 1, 1, 352])),
        |plan| plan.links.push(row_of([1, 0, 0, 1])),
        |plan| plan.vcpus.push(row_of([0])),
        |plan| plan.cores.push(row_of([1, 1, 2])),
    ];
    for (turn, change) in changes.into_iter().enumerate() {
        let other = with(b.clone(), change);
        assert!(check(&other.encode()).is_accepted(), "{turn}");
        for shared in [0, 2, 3, u32::MAX] {
            refused(&b, &other, shared, 35);
            refused(&other, &b, shared, 35);
        }
    }
    // H alone bears no task.
    let bare = |cycle| Plan {
        cycle,
        cores: rows_of(&[[0, 0, 0]]),
        ..Plan::default()
    };
    refused(&bare(10), &bare(11), 0, 35);
    refused(&bare(10), &bare(11), 1, 35);
    accepted(&bare(10), &bare(10), 0);
    // The order of rows counts.
    let two = |nodes: [u32; 2]| {
        with(bare(10), |plan| {
            plan.cores = nodes.map(|n| [n, 0, 0]).to_vec()
        })
    };
    refused(&two([0, 1]), &two([1, 0]), 0, 35);
}

#[test]
fn shared_tasks() {
    let (a, both) = (case_a(), a_and_other());
    for shared in [2, 3, 256, 65_536, 1 << 31, u32::MAX] {
        refused(&a, &a, shared, 36);
    }
    refused(&a, &both, 2, 36);
    refused(&both, &a, 2, 36);
    refused(&other_than_a(), &both, 1, 36);
    refused(&both, &other_than_a(), 1, 36);
    // A word that differs is enough.
    let masked = with(case_a(), |plan| plan.tasks[0][1] = 3);
    refused(&a, &masked, 1, 36);
    joined(&a, &masked, 0, at(12, 5, 1));
    let due = with(case_a(), |plan| plan.tasks[0][4] = 9);
    refused(&due, &a, 1, 36);
}

/// So many tasks of a tick each, from a tick on, in a cycle of 600 ticks.
fn ticks(count: u32, from: u32) -> Plan {
    Plan {
        cycle: 600,
        cores: rows_of(&[[0, 0, 0]]),
        vcpus: rows_of(&[[0]]),
        windows: rows_of(&[[0, 0, 600]]),
        tasks: rows_of(&vec![[0, 1, 600, 1, 600]; count as usize]),
        pieces: (0..count)
            .map(|task| row_of([task, 0, from + task, 1]))
            .collect(),
        ..Plan::default()
    }
}

#[test]
fn row_limits() {
    assert_eq!(
        accepted(&ticks(156, 0), &ticks(100, 300), 0).tasks.len(),
        256
    );
    refused(&ticks(156, 0), &ticks(101, 300), 0, 37);
    refused(&ticks(256, 0), &ticks(1, 300), 0, 37);
    assert_eq!(accepted(&ticks(256, 0), &ticks(256, 0), 256), ticks(256, 0));
    // Row limits are asked before the result's questions.
    refused(&ticks(256, 0), &ticks(1, 0), 0, 37);
    // Equal pieces of shared tasks are no new rows.
    let shared = accepted(&ticks(100, 0), &ticks(256, 0), 100);
    assert_eq!(shared, ticks(256, 0));
    let chains = |from: u32, count| {
        with(b_at(0), |plan| {
            plan.chains = (from..from + count).map(|limit| [0, 1, limit]).collect();
        })
    };
    assert_eq!(
        accepted(&chains(100, 20), &chains(120, 12), 2).chains.len(),
        32
    );
    assert_eq!(
        accepted(&chains(100, 20), &chains(118, 14), 2).chains.len(),
        32
    );
    refused(&chains(100, 20), &chains(120, 13), 2, 37);
    refused(&chains(100, 20), &chains(118, 15), 2, 37);
    let both = accepted(&chains(100, 32), &chains(100, 32), 2);
    assert_eq!(both, chains(100, 32));
}

#[test]
fn refused_inputs() {
    let (a, b) = (case_a().encode(), case_b().encode());
    let late = with(case_a(), |plan| plan.tasks[0][4] = 5).encode();
    let short = with(case_a(), |plan| plan.pieces[0][3] = 3).encode();
    for shared in [0, 1, 2, u32::MAX] {
        refused_images(&a, &late, shared, at(10, 5, 0));
        refused_images(&late, &a, shared, at(10, 5, 0));
        refused_images(&short, &late, shared, at(13, 3, 0));
        refused_images(&late, &short, shared, at(10, 5, 0));
        refused_images(&b, &late, shared, at(10, 5, 0));
        refused_images(&[], &late, shared, at(1, 0, 0));
        refused_images(&late, &[], shared, at(10, 5, 0));
        refused_images(&a, &[], shared, at(1, 0, 0));
        refused_images(&a, &a[4..], shared, at(2, 0, 0));
        refused_images(&[0; 1_000], &a, shared, at(2, 0, 0));
        refused_images(&a, &[0; PLENTY], shared, at(1, 0, 0));
    }
    for length in 0..a.len() {
        let answer = check(&a[..length]);
        refused_images(&a[..length], &a, 1, answer);
        refused_images(&a, &a[..length], 1, answer);
    }
}

/// Case B with its receiver later, so many equal streams, and frames of them:
/// those from 6 on over one link, others over a second one.
fn b_with(streams: usize, frames: &[[u32; 2]]) -> Plan {
    with(case_b(), |plan| {
        plan.pieces[1][2] = 14;
        plan.streams = vec![row_of([0, 1, 0, 1, 46]); streams];
        plan.links.push(plan.links[0]);
        let frame = |&[stream, start]: &[u32; 2]| {
            let link = u32::from(start > 6);
            row_of([stream, 0, 0, link, start])
        };
        plan.frames = frames.iter().map(frame).collect();
    })
}

#[test]
fn equal_streams() {
    let (none, two) = (b_with(0, &[]), b_with(2, &[[0, 6], [1, 8]]));
    // Rows of the second are looked for among those of the first alone.
    assert_eq!(accepted(&none, &two, 2), two);
    assert_eq!(accepted(&two, &none, 2), two);
    let crossed = b_with(2, &[[1, 6], [0, 8]]);
    assert_eq!(accepted(&none, &crossed, 2), crossed);
    // The lowest equal row is meant: its frame is there, the other's is not.
    assert_eq!(accepted(&two, &b_with(1, &[[0, 6]]), 2), two);
    let other = joined(&two, &b_with(1, &[[0, 8]]), 2, at(16, 7, 0));
    assert_eq!(other.streams, two.streams);
    assert_eq!(other.frames, b_with(2, &[[0, 6], [0, 8], [1, 8]]).frames);
    assert_eq!(accepted(&crossed, &b_with(1, &[[0, 8]]), 2), crossed);
    // So even a plan and itself.
    let twice = joined(&two, &two, 2, at(16, 7, 0));
    assert_eq!(twice.frames, b_with(2, &[[0, 6], [0, 8], [1, 8]]).frames);
    // Both equal rows of the second are the one row of the first.
    let one = joined(&b_with(1, &[[0, 6]]), &two, 2, at(16, 7, 0));
    assert_eq!(one.streams.len(), 1);
    assert_eq!(one.frames, b_with(1, &[[0, 6], [0, 8]]).frames);
}

/// A stream that is found under a lower number, and one that is new.
#[test]
fn frames_follow_their_streams() {
    let stream = |latency| row_of([0, 1, latency, 1, 46]);
    let first = with(b_with(1, &[[0, 8]]), |plan| plan.streams = vec![stream(20)]);
    let second = with(b_with(2, &[[0, 6], [1, 8]]), |plan| {
        plan.streams = vec![stream(19), stream(20)];
    });
    let both = accepted(&first, &second, 2);
    assert_eq!(both.streams, [stream(20), stream(19)]);
    assert_eq!(both.frames, b_with(0, &[[1, 6], [0, 8]]).frames);
    // With another frame of the stream that both have, it has two.
    let other = with(second.clone(), |plan| {
        plan.frames = b_with(0, &[[1, 6], [0, 8]]).frames
    });
    let clash = joined(&first, &other, 2, at(16, 7, 0));
    assert_eq!(clash.frames, b_with(0, &[[0, 6], [0, 8], [1, 8]]).frames);
    // A new stream's frame over that of another one.
    let third = with(b_with(1, &[[0, 8]]), |plan| plan.streams = vec![stream(19)]);
    let clash = joined(&first, &third, 2, at(19, 8, 1));
    assert_eq!(clash.frames, b_with(0, &[[0, 8], [1, 8]]).frames);
}

#[test]
fn buffers_of_both() {
    let two = cases::two_rows();
    assert_eq!(accepted(&two, &two, 4), two);
    // The same tasks over another buffer, or over this one once more.
    let number = |number| {
        with(two.clone(), |plan| {
            plan.buffers = rows_of(&[[number, 0, 1]])
        })
    };
    let both = accepted(&two, &number(8), 4);
    assert_eq!(both.buffers, rows_of(&[[7, 0, 1], [7, 2, 3], [8, 0, 1]]));
    assert_eq!(accepted(&two, &number(7), 4), two);
    let across = with(two.clone(), |plan| plan.buffers = rows_of(&[[7, 0, 2]]));
    let clash = joined(&two, &across, 4, at(24, 9, 2));
    assert_eq!(clash.buffers, rows_of(&[[7, 0, 1], [7, 2, 3], [7, 0, 2]]));
}

fn work(plan: &Plan) -> Work {
    let tables = tables(&plan.encode()).expect("the plan is accepted");
    Work::of(plan, &tables)
}

/// What is said of how tasks work in a plan that is taken for the joined one.
fn claimed(first: &Plan, second: &Plan, shared: u32, joined: &Plan) -> Result<(), String> {
    let [one, other] = [first, second].map(|plan| (plan.tasks.len(), work(plan)));
    ask((one.0, &one.1), (other.0, &other.1), shared, &work(joined))
}

#[test]
fn tasks_work_as_in_their_own_plans() {
    let (late, early) = (b_at(20), b_at(0));
    let both = accepted(&late, &early, 0);
    assert_eq!(claimed(&late, &early, 0, &both), Ok(()));
    assert_eq!(
        claimed(&case_a(), &a_and_other(), 1, &a_and_other()),
        Ok(())
    );
    // One tick elsewhere, another task's number, a task less, a task more.
    let moved = accepted(&late, &b_at(1), 0);
    let found = claimed(&late, &early, 0, &moved).expect_err("a task works later");
    assert!(
        found.starts_with("task 0 of the second plan works in "),
        "{found}"
    );
    let exchanged = accepted(&early, &late, 0);
    let found = claimed(&late, &early, 0, &exchanged).expect_err("numbers are others");
    assert!(
        found.starts_with("task 0 of the first plan works in "),
        "{found}"
    );
    assert!(claimed(&late, &early, 0, &late).is_err());
    let found = claimed(&late, &late, 2, &both).expect_err("others work");
    assert_eq!(found, "task 2 of neither plan works");
    // A shared task that works elsewhere in the second.
    assert!(claimed(&a_from(2), &a_from(6), 1, &a_from(2)).is_err());
}

//! The generator's plans are accepted, and its shapes are what they say.

use peer::generate::{
    accepted, bare, busy_core, busy_links, cut_window, diamond, full, kept_core, large,
    longest_lane, medium, most_entries, rich, shared_buffer, small, tiny, unit_periods,
};
use peer::image::{row_of, Chain, Frame, Piece, Window, LONGEST, ROW_BOUNDS};
use peer::{check, report, Answer, Plan, Rng};

fn all_accepted(count: u64, shape: fn(&mut Rng) -> Plan) {
    for seed in 0..count {
        let plan = shape(&mut Rng::for_case(1, seed));
        assert_eq!(
            check(&plan.encode()),
            Answer::ACCEPTED,
            "seed {seed}: {plan:?}"
        );
    }
}

#[test]
fn every_shape_is_accepted() {
    all_accepted(2_000, accepted);
    all_accepted(100, bare);
    all_accepted(100, unit_periods);
    all_accepted(2_000, small);
    all_accepted(2_000, tiny);
    all_accepted(500, shared_buffer);
    all_accepted(2_000, kept_core);
    all_accepted(500, medium);
    all_accepted(500, rich);
    all_accepted(100, large);
    all_accepted(10, busy_core);
    all_accepted(2_000, busy_links);
    all_accepted(100, diamond);
    all_accepted(10, most_entries);
    all_accepted(10, longest_lane);
    all_accepted(10, full);
}

/// Rows with one start are among them, in each table, and rows whose numbers
/// do not rise while their starts do.
#[test]
fn rows_with_one_start_are_met() {
    fn ties<const W: usize>(rows: &[[u32; W]], start: usize) -> bool {
        rows.windows(2).any(|two| two[0][start] == two[1][start])
    }
    fn falls<const W: usize>(rows: &[[u32; W]]) -> bool {
        rows.windows(2).any(|two| two[0][0] > two[1][0])
    }
    let features: [(&str, Feature); 6] = [
        ("windows with one start", |plan| ties(&plan.windows, 1)),
        ("pieces with one start", |plan| ties(&plan.pieces, 2)),
        ("frames with one start", |plan| ties(&plan.frames, 4)),
        ("a window of a lower VCPU behind", |plan| {
            falls(&plan.windows)
        }),
        ("a piece of a lower task behind", |plan| falls(&plan.pieces)),
        ("a frame of a lower stream behind", |plan| {
            falls(&plan.frames)
        }),
    ];
    all_met(accepted, 60, &features);
    all_met(rich, 60, &features);
    all_met(tiny, 60, &features);
}

#[test]
fn full_plans_have_every_row() {
    let plan = full(&mut Rng::new(3));
    assert_eq!(plan.counts(), ROW_BOUNDS.map(|(_, most)| most as usize));
    assert_eq!(plan.encode().len(), LONGEST);
}

/// Three for each window and piece, two for each frame, and one more for each
/// lane; the answer is two lines besides.
#[test]
fn no_plan_has_more_entries() {
    for seed in 0..10 {
        let text = report(&most_entries(&mut Rng::new(seed)).encode());
        assert_eq!(text.lines().count(), 2 + 3 * (1024 + 2048) + 2 * 512 + 96);
        let text = report(&longest_lane(&mut Rng::new(seed)).encode());
        assert_eq!(text.lines().count(), 2 + 3 * (1024 + 2048) + 1);
    }
}

/// An accepted plan stays one, however often its windows are cut where no
/// piece runs on.
#[test]
fn cut_windows_change_no_answer() {
    let mut cuts = 0;
    for seed in 0..500 {
        let mut rng = Rng::for_case(4, seed);
        let mut plan = accepted(&mut rng);
        for _ in 0..8 {
            let has_room = plan.windows.len() < 1_024;
            cuts += usize::from(has_room && cut_window(&mut plan, &mut rng).is_some());
        }
        assert_eq!(check(&plan.encode()), Answer::ACCEPTED, "{plan:?}");
    }
    assert!(cuts > 1_500, "{cuts}");
}

#[test]
fn decoding_takes_encoding_back() {
    for seed in 0..200 {
        let plan = accepted(&mut Rng::for_case(2, seed));
        assert_eq!(Plan::decode(&plan.encode()), plan);
    }
}

type Feature = fn(&Plan) -> bool;

/// Each feature is met so often among 2,000 plans of a shape.
fn all_met(shape: fn(&mut Rng) -> Plan, least: usize, features: &[(&str, Feature)]) {
    let plans: Vec<Plan> = (0..2_000)
        .map(|seed| shape(&mut Rng::for_case(3, seed)))
        .collect();
    for (name, has) in features {
        let count = plans.iter().filter(|plan| has(plan)).count();
        println!("{name}: {count} of 2000");
        assert!(count >= least, "{name}: {count}");
    }
}

#[test]
fn shapes_are_many() {
    let features: [(&str, Feature); 11] = [
        ("an empty table besides", |plan| plan.counts().contains(&0)),
        ("many cores", |plan| plan.cores.len() > 16),
        ("adjoining windows of one VCPU", |plan| {
            adjoining(plan, true)
        }),
        ("adjoining windows of two VCPUs", |plan| {
            adjoining(plan, false)
        }),
        ("a job in several pieces", has_split_job),
        ("several periods", has_several_periods),
        ("several hops with delay and P", |plan| {
            let delayed = plan.links.iter().any(|link| link[2] > 0);
            delayed && plan.precision > 0 && plan.streams.iter().any(|stream| stream[3] > 1)
        }),
        ("streams over several jobs", |plan| {
            plan.streams.iter().any(|stream| plan.jobs(stream[0]) > 1)
        }),
        ("one number twice on a node", |plan| {
            numbers_meet(plan, true)
        }),
        ("one number on two nodes", |plan| numbers_meet(plan, false)),
        ("both switches", |plan| {
            plan.cores.iter().any(|core| core[1] > 0 && core[2] > 0)
        }),
    ];
    all_met(accepted, 20, &features);
}

/// The windows of VCPUs whose switch takes time: how often one before them
/// decides on what they pay.
#[test]
fn windows_pay_or_do_not() {
    let features: [(&str, Feature); 9] = [
        ("adjoining windows of one VCPU", |plan| {
            any_window(plan, continues)
        }),
        ("a run of three", |plan| {
            any_window(plan, |plan, row| {
                predecessor(plan, row).is_some_and(|before| continues(plan, before))
            })
        }),
        ("adjoining windows of two VCPUs", |plan| {
            adjoining(plan, false)
        }),
        ("a window of at most v ticks", |plan| {
            any_window(plan, |plan, row| {
                plan.windows[row][2] <= plan.vcpu_switch(plan.windows[row][0])
            })
        }),
        ("a window at tick 0", |plan| {
            any_window(plan, |plan, row| plan.windows[row][1] == 0)
        }),
        ("the same, another ends with the cycle", |plan| {
            any_window(plan, |plan, row| {
                let [vcpu, start, ..] = plan.windows[row];
                let ends = |&[owner, begin, length, ..]: &Window| {
                    owner == vcpu && begin > 0 && begin + length == plan.cycle
                };
                start == 0 && plan.windows.iter().any(ends)
            })
        }),
        ("a piece at the first tick", |plan| {
            any_window(plan, |plan, row| {
                continues(plan, row) && piece_starts(plan, row, 0)
            })
        }),
        ("a piece in the first v ticks", |plan| {
            any_window(plan, |plan, row| {
                let v = plan.vcpu_switch(plan.windows[row][0]);
                continues(plan, row) && (0..v).any(|tick| piece_starts(plan, row, tick))
            })
        }),
        ("a piece right after v ticks that are paid", |plan| {
            any_window(plan, |plan, row| {
                let v = plan.vcpu_switch(plan.windows[row][0]);
                !continues(plan, row) && piece_starts(plan, row, v)
            })
        }),
    ];
    all_met(accepted, 60, &features);
    all_met(kept_core, 300, &features);
    all_met(tiny, 60, &features);
}

#[test]
fn rates_are_many() {
    let features: [(&str, Feature); 8] = [
        ("a frame of one tick", |plan| {
            plan.frames.iter().any(|frame| ticks(plan, frame) == 1)
        }),
        ("a frame of several ticks", |plan| {
            plan.frames.iter().any(|frame| ticks(plan, frame) > 1)
        }),
        ("a frame that fills its ticks", |plan| {
            plan.frames.iter().any(|frame| bits_over(plan, frame) == 0)
        }),
        ("the same in several ticks", |plan| {
            let mut frames = plan.frames.iter();
            frames.any(|frame| bits_over(plan, frame) == 0 && ticks(plan, frame) > 1)
        }),
        ("a frame that does not", |plan| {
            plan.frames.iter().any(|frame| bits_over(plan, frame) > 0)
        }),
        ("a byte or less too long for fewer ticks", |plan| {
            let mut frames = plan.frames.iter();
            frames.any(|frame| (1..=8).contains(&bits_over(plan, frame)) && ticks(plan, frame) > 1)
        }),
        ("one message at several rates", |plan| {
            hops_differ(plan, |plan, frame| plan.links[frame[3] as usize][3])
        }),
        ("one message of several lengths", |plan| {
            hops_differ(plan, ticks)
        }),
    ];
    all_met(accepted, 40, &features);
    all_met(tiny, 100, &features);
}

/// The lowest delays of links that frames go over.
#[test]
fn delays_are_many() {
    let features: [(&str, Feature); 6] = [
        ("no delay", |plan| any_crossing(plan, |_, delay| delay == 0)),
        ("a delay and no lowest", |plan| {
            any_crossing(plan, |lowest, delay| lowest == 0 && delay > 0)
        }),
        ("one that is known", |plan| {
            any_crossing(plan, |lowest, delay| lowest == delay && delay > 0)
        }),
        ("a lowest a tick below", |plan| {
            any_crossing(plan, |lowest, delay| lowest > 0 && lowest + 1 == delay)
        }),
        ("a lowest that is neither", |plan| {
            any_crossing(plan, |lowest, delay| lowest > 0 && lowest < delay)
        }),
        ("one message of several lowest delays", |plan| {
            hops_differ(plan, |plan, frame| plan.links[frame[3] as usize][4])
        }),
    ];
    all_met(accepted, 100, &features);
    all_met(rich, 100, &features);
    all_met(tiny, 100, &features);
}

/// Queue by queue, where frames stay: each frame's link, queue, and from when to
/// when, not cut at 0.
fn stays(plan: &Plan) -> Vec<[i64; 4]> {
    let stay = |frame: &Frame| {
        let &[stream, k, hop, link, start, ..] = frame;
        let [sender, _, _, _, _, queue, ..] = plan.streams[stream as usize];
        let from = if hop == 0 {
            let of_job = |piece: &&Piece| piece[..2] == [sender, k];
            let pieces = plan.pieces.iter().filter(of_job);
            let ends = pieces.map(|piece| i64::from(piece[2] + piece[3]));
            ends.max().expect("the job has a piece")
        } else {
            let mut frames = plan.frames.iter();
            let before = frames.find(|frame| frame[..3] == [stream, k, hop - 1]);
            let &[_, _, _, link, start, ..] = before.expect("the hop has a frame");
            i64::from(start + plan.links[link as usize][4]) - i64::from(plan.precision)
        };
        let end = i64::from(start + plan.frame_ticks(stream, link));
        [i64::from(link), i64::from(queue), from, end]
    };
    plan.frames.iter().map(stay).collect()
}

/// Whether it holds for the stays of some two frames.
fn any_stays(plan: &Plan, hold: fn(&[i64; 4], &[i64; 4]) -> bool) -> bool {
    let stays = stays(plan);
    let mut ones = stays.iter();
    ones.any(|one| stays.iter().any(|other| one != other && hold(one, other)))
}

/// Queues of links that frames stay in, alone or beside others.
#[test]
fn queues_are_many() {
    let features: [(&str, Feature); 8] = [
        ("a queue but the first", |plan| {
            plan.streams.iter().any(|stream| stream[5] > 0)
        }),
        ("the last queue", |plan| {
            plan.streams.iter().any(|stream| stream[5] == 7)
        }),
        ("stays that overlap in two queues of a link", |plan| {
            any_stays(plan, |a, b| {
                a[0] == b[0] && a[1] != b[1] && a[2] < b[3] && b[2] < a[3]
            })
        }),
        ("stays that overlap in one queue of two links", |plan| {
            any_stays(plan, |a, b| {
                a[0] != b[0] && a[1] == b[1] && a[2] < b[3] && b[2] < a[3]
            })
        }),
        ("stays in one queue, one after the other", |plan| {
            any_stays(plan, |a, b| a[..2] == b[..2] && a[3] < b[2])
        }),
        ("stays in one queue that touch", |plan| {
            any_stays(plan, |a, b| a[..2] == b[..2] && a[3] == b[2])
        }),
        ("frames of one queue that touch", |plan| {
            let queue = |frame: &Frame| plan.streams[frame[0] as usize][5];
            let place = |frame: &Frame| (frame[3], queue(frame));
            plan.frames.iter().any(|frame| {
                let end = frame[4] + ticks(plan, frame);
                let mut others = plan.frames.iter();
                others.any(|other| other[4] == end && place(other) == place(frame))
            })
        }),
        ("a stay that is cut at 0", |plan| {
            stays(plan).iter().any(|stay| stay[2] < 0)
        }),
    ];
    all_met(busy_links, 100, &features);
    all_met(tiny, 20, &features);
    all_met(rich, 5, &features);
    let short: Feature = |plan| plan.cycle <= 60;
    all_met(busy_links, 2_000, &[("at most 60 ticks", short)]);
}

/// Whether it holds for the lowest and the highest delay of some frame's link.
fn any_crossing(plan: &Plan, holds: fn(u32, u32) -> bool) -> bool {
    plan.frames.iter().any(|frame| {
        let [_, _, delay, _, lowest, ..] = plan.links[frame[3] as usize];
        holds(lowest, delay)
    })
}

fn ticks(plan: &Plan, frame: &Frame) -> u32 {
    plan.frame_ticks(frame[0], frame[3])
}

/// The bits of a frame in a tick that they do not fill.
fn bits_over(plan: &Plan, frame: &Frame) -> u32 {
    let payload = plan.streams[frame[0] as usize][4];
    8 * (payload + 42) % plan.links[frame[3] as usize][3]
}

/// Whether something differs between frames of one message.
fn hops_differ(plan: &Plan, of: fn(&Plan, &Frame) -> u32) -> bool {
    plan.frames.iter().any(|a| {
        let mut others = plan.frames.iter().filter(|b| a[..2] == b[..2]);
        others.any(|b| of(plan, a) != of(plan, b))
    })
}

/// Whether it holds for a window of a VCPU whose switch takes time.
fn any_window(plan: &Plan, holds: fn(&Plan, usize) -> bool) -> bool {
    let pays = |row: &usize| plan.vcpu_switch(plan.windows[*row][0]) > 0;
    let mut rows = (0..plan.windows.len()).filter(pays);
    rows.any(|row| holds(plan, row))
}

fn predecessor(plan: &Plan, row: usize) -> Option<usize> {
    let [vcpu, start, ..] = plan.windows[row];
    let ends_there = |other: &Window| other[0] == vcpu && other[1] + other[2] == start;
    plan.windows.iter().position(ends_there)
}

fn continues(plan: &Plan, row: usize) -> bool {
    predecessor(plan, row).is_some()
}

/// Whether a piece of the window's VCPU starts so many ticks after it does.
fn piece_starts(plan: &Plan, row: usize, after: u32) -> bool {
    let [vcpu, start, ..] = plan.windows[row];
    let owner = |task: u32| plan.tasks[task as usize][0];
    let mut pieces = plan.pieces.iter();
    pieces.any(|piece| owner(piece[0]) == vcpu && piece[2] == start + after)
}

#[test]
fn tiny_plans_are_dense() {
    let features: [(&str, Feature); 13] = [
        ("P is 0", |plan| plan.precision == 0),
        ("P is 1", |plan| plan.precision == 1),
        ("P is 2", |plan| plan.precision == 2),
        ("P is 3", |plan| plan.precision == 3),
        ("one hop", |plan| has_hops(plan, 1)),
        ("two hops", |plan| has_hops(plan, 2)),
        ("three hops", |plan| has_hops(plan, 3)),
        ("two streams", |plan| plan.streams.len() > 1),
        ("a limit exactly met", |plan| {
            let mut wider = plan.clone();
            wider.precision += 1;
            !check(&wider.encode()).is_accepted()
        }),
        ("one number twice on a node", |plan| {
            numbers_meet(plan, true)
        }),
        ("one number on two nodes", |plan| numbers_meet(plan, false)),
        ("a job in several pieces", has_split_job),
        ("several periods", has_several_periods),
    ];
    all_met(tiny, 200, &features);
    let short: Feature = |plan| plan.cycle <= 60;
    all_met(tiny, 2_000, &[("at most 60 ticks", short)]);
    all_met(shared_buffer, 2_000, &[("at most 60 ticks", short)]);
    all_met(kept_core, 2_000, &[("at most 60 ticks", short)]);
}

#[test]
fn chains_are_many() {
    let features: [(&str, Feature); 14] = [
        ("a chain of one message", |plan| {
            any_chain(plan, |plan, chain| {
                fewest(plan, chain, true, true) == Some(1)
            })
        }),
        ("streams alone, several", |plan| {
            any_chain(plan, |plan, chain| {
                let several = fewest(plan, chain, true, true) > Some(1);
                several && fewest(plan, chain, true, false).is_some()
            })
        }),
        ("buffers alone, several", |plan| {
            any_chain(plan, |plan, chain| {
                let several = fewest(plan, chain, true, true) > Some(1);
                several && fewest(plan, chain, false, true).is_some()
            })
        }),
        ("only streams and buffers together", is_mixed),
        ("three messages or more", |plan| {
            any_chain(plan, |plan, chain| {
                fewest(plan, chain, true, true) >= Some(3)
            })
        }),
        ("several messages of the first task", |plan| {
            any_chain(plan, |plan, chain| {
                messages(plan)
                    .iter()
                    .filter(|row| row[0] == chain[0])
                    .count()
                    > 1
            })
        }),
        ("two messages between the same tasks", |plan| {
            any_chain(plan, |plan, chain| {
                messages(plan)
                    .iter()
                    .filter(|row| row[..] == chain[..2])
                    .count()
                    > 1
            })
        }),
        ("several jobs", |plan| {
            any_chain(plan, |plan, chain| plan.jobs(chain[0]) > 1)
        }),
        ("several jobs, not all alike", |plan| {
            any_chain(plan, |plan, chain| {
                let taken = taken(plan, chain);
                taken.iter().any(|ticks| *ticks > taken[0])
            })
        }),
        ("both ends on one node, P not 0", |plan| {
            plan.precision > 0
                && any_chain(plan, |plan, chain| {
                    plan.node_of_task(chain[0]) == plan.node_of_task(chain[1])
                })
        }),
        ("a limit of 0", |plan| {
            any_chain(plan, |_, chain| chain[2] == 0)
        }),
        ("a limit exactly met", |plan| {
            any_chain(plan, |plan, chain| {
                let longest = taken(plan, chain).into_iter().max();
                longest.map(|ticks| ticks + plan.precision) == Some(chain[2])
            })
        }),
        ("a limit beyond the cycle", |plan| {
            any_chain(plan, |plan, chain| chain[2] > plan.cycle)
        }),
        ("more than eight chains", |plan| plan.chains.len() > 8),
    ];
    all_met(accepted, 40, &features);
    all_met(tiny, 40, &features);
    all_met(rich, 40, &features);
}

type Limit = fn(&Plan, &Chain) -> bool;

/// An E of 0 and a limit of 0: how often it is kept exactly, and what the
/// deadlines are then.
#[test]
fn limits_of_0_are_many() {
    let features: [(&str, Limit); 7] = [
        ("a limit of 0", |_, row| row[2] == 0),
        ("exactly kept", is_exact),
        ("exactly kept, D below T", |plan, row| {
            is_exact(plan, row) && plan.deadline(row[1]) < plan.period(row[1])
        }),
        ("exactly kept, the first D shorter", |plan, row| {
            is_exact(plan, row) && plan.deadline(row[0]) < plan.deadline(row[1])
        }),
        ("exactly kept, the first D longer", |plan, row| {
            is_exact(plan, row) && plan.deadline(row[0]) > plan.deadline(row[1])
        }),
        ("exactly kept, by later jobs only", |plan, row| {
            let taken = taken(plan, row);
            is_exact(plan, row) && taken.iter().any(|ticks| *ticks > taken[0])
        }),
        ("written, and taken from D to T", |plan, row| {
            let periods = plan.deadline(row[1]) + 1..=plan.period(row[1]);
            row[2] > 0 && periods.contains(&longest(plan, row))
        }),
    ];
    for shape in [accepted, rich, tiny] {
        let plans = (0..2_000).map(|seed| shape(&mut Rng::for_case(3, seed)));
        let plans: Vec<Plan> = plans.collect();
        for limits in [latencies, |plan: &Plan| plan.chains.clone()] {
            for (name, holds) in features {
                let has = |plan: &&Plan| limits(plan).iter().any(|row| holds(plan, row));
                let count = plans.iter().filter(has).count();
                println!("{name}: {count} of 2000");
                assert!(count >= 20, "{name}: {count}");
            }
        }
    }
}

/// The streams as chains of one message.
fn latencies(plan: &Plan) -> Vec<Chain> {
    let streams = plan.streams.iter();
    streams
        .map(|row| row_of([row[0], row[1], row[2]]))
        .collect()
}

/// What the longest job takes, with P.
fn longest(plan: &Plan, row: &Chain) -> u32 {
    taken(plan, row).into_iter().max().unwrap_or(0) + plan.precision
}

/// Whether it is 0, and the longest job takes as many ticks as the deadline has.
fn is_exact(plan: &Plan, row: &Chain) -> bool {
    row[2] == 0 && longest(plan, row) == plan.deadline(row[1])
}

/// Sender and reader of every message.
fn messages(plan: &Plan) -> Vec<[u32; 2]> {
    let streams = plan.streams.iter().map(|row| [row[0], row[1]]);
    let buffers = plan.buffers.iter().map(|row| [row[1], row[2]]);
    streams.chain(buffers).collect()
}

fn any_chain(plan: &Plan, holds: fn(&Plan, &Chain) -> bool) -> bool {
    plan.chains.iter().any(|chain| holds(plan, chain))
}

fn is_mixed(plan: &Plan) -> bool {
    any_chain(plan, |plan, chain| {
        let alone = fewest(plan, chain, true, false).or(fewest(plan, chain, false, true));
        alone.is_none()
    })
}

/// The fewest messages of a path from a chain's first task to its last, if
/// streams count and if buffers do.
fn fewest(plan: &Plan, &[first, last, ..]: &Chain, streams: bool, buffers: bool) -> Option<u32> {
    let mut counted = plan.clone();
    if !streams {
        counted.streams.clear();
    }
    if !buffers {
        counted.buffers.clear();
    }
    let messages = messages(&counted);
    let mut reached = vec![first];
    for count in 1..=plan.tasks.len() as u32 {
        let leads_on = |row: &&[u32; 2]| reached.contains(&row[0]);
        reached = messages.iter().filter(leads_on).map(|row| row[1]).collect();
        reached.dedup();
        if reached.contains(&last) {
            return Some(count);
        }
    }
    None
}

/// From the first task's start to the last one's end, job by job.
fn taken(plan: &Plan, &[first, last, ..]: &Chain) -> Vec<u32> {
    let of_job = |task: u32, k: u32| plan.pieces.iter().filter(move |row| row[..2] == [task, k]);
    let span = |k: u32| {
        let start = of_job(first, k).map(|row| row[2]).min().unwrap_or(0);
        let end = of_job(last, k)
            .map(|row| row[2] + row[3])
            .max()
            .unwrap_or(0);
        end - start
    };
    (0..plan.jobs(first)).map(span).collect()
}

fn has_hops(plan: &Plan, hops: u32) -> bool {
    plan.streams.iter().any(|stream| stream[3] == hops)
}

fn has_split_job(plan: &Plan) -> bool {
    let one_job = |a: &Piece, b: &Piece| a[..2] == b[..2];
    let pieces = plan.pieces.iter().enumerate();
    let mut before = pieces.map(|(row, piece)| (&plan.pieces[..row], piece));
    before.any(|(before, a)| before.iter().any(|b| one_job(a, b)))
}

fn has_several_periods(plan: &Plan) -> bool {
    plan.tasks.iter().any(|task| task[2] != plan.tasks[0][2])
}

fn adjoining(plan: &Plan, same_vcpu: bool) -> bool {
    plan.windows.iter().any(|a| {
        plan.windows.iter().any(|b| {
            let one_core = plan.core_of_vcpu(a[0]) == plan.core_of_vcpu(b[0]);
            one_core && (a[0] == b[0]) == same_vcpu && a[1] + a[2] == b[1]
        })
    })
}

fn numbers_meet(plan: &Plan, same_node: bool) -> bool {
    plan.buffers.iter().enumerate().any(|(row, a)| {
        plan.buffers[..row].iter().any(|b| {
            let one_node = plan.node_of_task(a[1]) == plan.node_of_task(b[1]);
            a[0] == b[0] && one_node == same_node
        })
    })
}

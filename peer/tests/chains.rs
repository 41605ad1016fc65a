//! Wrong readings of chains: the mutants show each of them. And so many paths
//! that none can follow each.

#[macro_use]
mod ways;

use std::collections::{BTreeMap, BTreeSet};

use peer::generate::{diamond, small_rich, tiny};
use peer::image::{self, row_of, rows_of, Chain, Plan};
use peer::mutate::{aim, mutant, mutate};
use peer::{asked_before, check, naive, Answer, Rng};

ways! {
    /// Ways to read questions 29 to 31.
    enum Reading { Right }

    const WRONG: 41 = {
        // 29
        OneMoreTask,
        FirstMayBeMissing,
        LastMayBeMissing,
        MayBeEqual,
        RowByRow,
        // 30
        NoPathAsked,
        EqualPeriodsSuffice,
        StreamsOnly,
        BuffersOnly,
        StreamsThenBuffers,
        BuffersThenStreams,
        KindsAlternate,
        Backwards,
        EitherWay,
        OneMessage,
        TwoMessagesAtMost,
        FourMessagesAtMost,
        LowestMessageOnly,
        HighestMessageOnly,
        ByBufferNumber,
        ByVcpu,
        NotBackToANode,
        RisingRowsOnly,
        // 31
        NoLimitAsked,
        WithoutP,
        PTwice,
        PBetweenNodesOnly,
        OnlyJob0,
        OnlyTheLastJob,
        OverTheWholeCycle,
        ZeroIsNoLimit,
        ZeroIsZero,
        ZeroIsH,
        ZeroIsPeriod,
        BelowTheLimit,
        FromTheFirstEnd,
        FromTheRelease,
        ToTheLastStart,
        LimitsWrap,
        LimitsAreSigned,
        LimitsAsForStreams,
    };
}

use Reading::*;

#[derive(Clone, Copy, Debug, PartialEq, Eq, PartialOrd, Ord)]
enum Kind {
    Stream,
    Buffer,
}

use Kind::*;

/// From a task to another, in the order of rows, streams first.
type Message = (u32, u32, Kind);

fn messages(plan: &Plan) -> Vec<Message> {
    let streams = plan.streams.iter().map(|row| (row[0], row[1], Stream));
    let buffers = plan.buffers.iter().map(|row| (row[1], row[2], Buffer));
    streams.chain(buffers).collect()
}

/// A plan in which questions 1 to 24 are answered yes.
struct Asked<'a> {
    plan: &'a Plan,
    /// First start and last end by task and job.
    spans: &'a BTreeMap<(u32, u32), (i64, i64)>,
    reading: Reading,
}

fn spans(plan: &Plan) -> BTreeMap<(u32, u32), (i64, i64)> {
    let mut spans = BTreeMap::new();
    for &[task, k, start, length, ..] in &plan.pieces {
        let (start, end) = (i64::from(start), i64::from(start + length));
        let span = spans.entry((task, k)).or_insert((start, end));
        *span = (span.0.min(start), span.1.max(end));
    }
    spans
}

impl Asked<'_> {
    fn twenty_nine(&self, &[first, last, ..]: &Chain) -> bool {
        let tasks = self.plan.tasks.len();
        let most = match self.reading {
            OneMoreTask => tasks,
            _ => tasks.wrapping_sub(1),
        };
        let exists = |task: u32| tasks > 0 && task as usize <= most;
        (exists(first) || self.reading == FirstMayBeMissing)
            && (exists(last) || self.reading == LastMayBeMissing)
            && (first != last || self.reading == MayBeEqual)
    }

    /// The messages that lead on.
    fn messages(&self) -> Vec<Message> {
        let plan = self.plan;
        let mut messages = messages(plan);
        let back = |&(from, to, kind): &Message| (to, from, kind);
        match self.reading {
            StreamsOnly => messages.retain(|message| message.2 == Stream),
            BuffersOnly => messages.retain(|message| message.2 == Buffer),
            Backwards => messages = messages.iter().map(back).collect(),
            EitherWay => messages.extend(messages.clone().iter().map(back)),
            RisingRowsOnly => messages.retain(|message| message.0 < message.1),
            ByBufferNumber => {
                let node = |task: u32| plan.node_of_task(task);
                for &[number, writer, ..] in &plan.buffers {
                    let one =
                        |row: &&image::Buffer| row[0] == number && node(row[1]) == node(writer);
                    let readers = plan.buffers.iter().filter(one);
                    messages.extend(readers.map(|row| (writer, row[2], Buffer)));
                }
            }
            ByVcpu => {
                let tasks = plan.tasks.iter().zip(0..);
                for (a, from) in tasks {
                    let one = |(b, _): &(&image::Task, u32)| b[..3] == [a[0], b[1], a[2]];
                    let beside = plan.tasks.iter().zip(0..).filter(one);
                    messages.extend(beside.map(|(_, to)| (from, to, Buffer)));
                }
            }
            _ => {}
        }
        messages
    }

    /// Which of the messages of a task a reading follows, by their place.
    fn follows(&self, messages: &[Message], place: usize) -> bool {
        let (from, ..) = messages[place];
        let own = |message: &Message| message.0 == from;
        match self.reading {
            LowestMessageOnly => messages.iter().position(own) == Some(place),
            HighestMessageOnly => messages.iter().rposition(own) == Some(place),
            _ => true,
        }
    }

    fn thirty(&self, &[first, last, ..]: &Chain) -> bool {
        let plan = self.plan;
        let most = match self.reading {
            NoPathAsked => return true,
            EqualPeriodsSuffice => {
                let exist = [first, last]
                    .iter()
                    .all(|task| (*task as usize) < plan.tasks.len());
                return exist && plan.period(first) == plan.period(last);
            }
            MayBeEqual if first == last => return true,
            OneMessage => 1,
            TwoMessagesAtMost => 2,
            FourMessagesAtMost => 4,
            _ => usize::MAX,
        };
        let messages = self.messages();
        let mut reached: BTreeSet<(u32, Option<Kind>)> = BTreeSet::from([(first, None)]);
        for _ in 0..most {
            let mut next = reached.clone();
            for (place, &(from, to, kind)) in messages.iter().enumerate() {
                let from_here = reached.iter().filter(|(task, _)| *task == from);
                let mut allowed = from_here.filter(|(_, before)| match self.reading {
                    StreamsThenBuffers => !(*before == Some(Buffer) && kind == Stream),
                    BuffersThenStreams => !(*before == Some(Stream) && kind == Buffer),
                    KindsAlternate => *before != Some(kind),
                    NotBackToANode => {
                        let node = |task: u32| plan.node_of_task(task);
                        kind == Buffer || node(to) != node(first)
                    }
                    _ => true,
                });
                if allowed.next().is_some() && self.follows(&messages, place) {
                    next.insert((to, Some(kind)));
                }
            }
            if next == reached {
                break;
            }
            reached = next;
        }
        reached
            .iter()
            .any(|(task, before)| *task == last && before.is_some())
    }

    fn thirty_one(&self, &[first, last, written, ..]: &Chain) -> bool {
        let plan = self.plan;
        if self.reading == NoLimitAsked {
            return true;
        }
        // Where there is no such task, or another number of jobs, a wrong
        // reading has gone on to here.
        let exist = [first, last]
            .iter()
            .all(|task| (*task as usize) < plan.tasks.len());
        if !exist {
            return true;
        }
        let limit = match (written, self.reading) {
            (0, ZeroIsNoLimit) => return true,
            (0, ZeroIsZero) => 0,
            (0, ZeroIsH) => i64::from(plan.cycle),
            (0, ZeroIsPeriod) => i64::from(plan.period(first)),
            (0, _) => i64::from(plan.deadline(last)),
            (given, LimitsAreSigned) => i64::from(given as i32),
            (1_000_001.., LimitsAsForStreams) => return false,
            (given, _) => i64::from(given),
        };
        let node = |task: u32| plan.node_of_task(task);
        let precision = match self.reading {
            WithoutP => 0,
            PTwice => 2 * i64::from(plan.precision),
            PBetweenNodesOnly if node(first) == node(last) => 0,
            _ => i64::from(plan.precision),
        };
        let jobs = plan.jobs(first).min(plan.jobs(last));
        let asked = match self.reading {
            OnlyJob0 => 0..1,
            OnlyTheLastJob => jobs - 1..jobs,
            _ => 0..jobs,
        };
        asked.into_iter().all(|k| {
            let (start, first_end) = self.spans[&(first, k)];
            let (last_start, end) = self.spans[&(last, k)];
            let (from, to) = match self.reading {
                FromTheFirstEnd => (first_end, end),
                FromTheRelease => (i64::from(k * plan.period(first)), end),
                ToTheLastStart => (start, last_start),
                OverTheWholeCycle => (self.spans[&(first, 0)].0, end),
                _ => (start, end),
            };
            let (done, bound) = (to + precision, from + limit);
            match self.reading {
                BelowTheLimit => done < bound,
                LimitsWrap => done <= bound % (1 << 32),
                _ => done <= bound,
            }
        })
    }

    /// The first no to 29, 30 and 31, all others being answered yes.
    fn answer(&self) -> Option<Answer> {
        let chains = &self.plan.chains;
        let at = |number: u32, row: usize| Answer::at(number, 10, row as u32);
        type Question = fn(&Asked<'_>, &Chain) -> bool;
        let asked: [(u32, Question); 3] = [
            (29, |asked, chain| asked.twenty_nine(chain)),
            (30, |asked, chain| asked.thirty(chain)),
            (31, |asked, chain| asked.thirty_one(chain)),
        ];
        if self.reading == RowByRow {
            let first_no = |chain| asked.iter().find(|(_, yes)| !yes(self, chain));
            let mut nos = chains.iter().map(first_no).enumerate();
            return nos.find_map(|(row, no)| no.map(|(number, _)| at(*number, row)));
        }
        asked.into_iter().find_map(|(number, yes)| {
            let no = chains.iter().position(|chain| !yes(self, chain))?;
            Some(at(number, no))
        })
    }
}

#[test]
fn mutants_show_every_wrong_reading() {
    let mut shown = [0; WRONG.len()];
    for case in 0..12_000 {
        let mut rng = Rng::for_case(25, case);
        let image = match rng.below(10) {
            0..=1 => {
                let plan = small_rich(&mut rng);
                mutate(&plan, &mut rng)
            }
            _ => mutant(&mut rng),
        };
        let right = check(&image);
        if asked_before(right.number, 29) {
            continue;
        }
        let plan = Plan::decode(&image);
        let spans = spans(&plan);
        let asked = |reading| Asked {
            plan: &plan,
            spans: &spans,
            reading,
        };
        let first = Some(right).filter(|answer| !answer.is_accepted());
        assert_eq!(asked(Right).answer(), first, "{plan:?}");
        if plan.chains.is_empty() {
            continue;
        }
        for (count, reading) in shown.iter_mut().zip(WRONG) {
            *count += u32::from(asked(reading).answer() != first);
        }
    }
    for (count, reading) in shown.into_iter().zip(WRONG) {
        println!("{reading:?}: {count}");
        assert!(count >= 10, "{reading:?}: {count}");
    }
}

/// How many paths lead from each task to others, message by message.
fn most_paths(plan: &Plan) -> u128 {
    let messages = messages(plan);
    let mut most = 0;
    for first in 0..plan.tasks.len() as u32 {
        let mut paths: BTreeMap<u32, u128> = BTreeMap::from([(first, 1)]);
        // A task is done when all that leads to it is.
        let mut open: Vec<&Message> = messages.iter().collect();
        loop {
            let waits = |task: u32, open: &[&Message]| open.iter().any(|other| other.1 == task);
            let is_ready = |message: &&Message| !waits(message.0, &open);
            let (ready, rest): (Vec<&Message>, Vec<&Message>) =
                open.iter().partition(|message| is_ready(message));
            if ready.is_empty() {
                break;
            }
            for &&(from, to, _) in &ready {
                let through = paths.get(&from).copied().unwrap_or(0);
                *paths.entry(to).or_insert(0) += through;
            }
            open = rest;
        }
        most = paths.into_values().max().unwrap_or(0).max(most);
    }
    most
}

/// Plans with many paths from task to task. That no message is followed twice
/// is counted beside the search (`no_message_is_followed_twice`).
#[test]
fn paths_are_found_among_many() {
    let mut refused = 0;
    for case in 0..60 {
        let mut rng = Rng::for_case(26, case);
        let plan = diamond(&mut rng);
        assert!(most_paths(&plan) >= 1 << 15, "{}", most_paths(&plan));
        for _ in 0..10 {
            let mut broken = plan.clone();
            if aim(30, &mut broken, &mut rng).is_none() {
                continue;
            }
            let image = broken.encode();
            let answer = check(&image);
            refused += u32::from(answer.number == 30);
            if case < 6 {
                assert_eq!(naive::check(&image), answer);
            }
        }
    }
    println!("{refused} refused");
    assert!(refused >= 300, "{refused}");
}

/// Row after row of 64 steps, each of two messages, and a task that none of
/// the 2^64 paths leads to: a search that follows each path does not end.
#[test]
fn two_to_the_64_paths() {
    let mut met = 0;
    for case in 0..40 {
        let mut plan = diamond(&mut Rng::for_case(27, case));
        if most_paths(&plan) < 1 << 64 {
            continue;
        }
        met += 1;
        let senders: Vec<u32> = messages(&plan).iter().map(|message| message.0).collect();
        let readers: Vec<u32> = messages(&plan).iter().map(|message| message.1).collect();
        let tasks = || 0..plan.tasks.len() as u32;
        let mut first = tasks().filter(|task| senders.contains(task) && !readers.contains(task));
        let mut last = tasks().filter(|task| readers.contains(task) && !senders.contains(task));
        let mut alone = tasks().filter(|task| !readers.contains(task) && !senders.contains(task));
        let (first, last) = (first.next().expect("a first"), last.next().expect("a last"));
        let alone = alone.next().expect("one alone");
        for (chain, number) in [
            ([first, last, u32::MAX], 0),
            ([first, alone, u32::MAX], 30),
            ([alone, last, u32::MAX], 30),
            ([last, first, u32::MAX], 30),
            ([first, last, 1], 31),
        ] {
            plan.chains = rows_of(&[[first, last, u32::MAX]; 31]);
            plan.chains.push(row_of(chain));
            let image = plan.encode();
            let answer = check(&image);
            assert_eq!(answer.number, number);
            assert_eq!(naive::check(&image), answer);
            if number > 0 {
                assert_eq!(answer, Answer::at(number, 10, 31));
            }
        }
    }
    assert!(met >= 5, "{met}");
}

/// Each of the aims meets its question often, also in the smallest plans.
#[test]
fn aims_meet_their_questions() {
    for question in 29..=31 {
        let mut met = 0;
        for case in 0..400 {
            let mut rng = Rng::for_case(28, case);
            let mut plan = tiny(&mut rng);
            if aim(question, &mut plan, &mut rng).is_some() {
                met += u32::from(check(&plan.encode()).number == question);
            }
        }
        println!("{question}: {met} of 400");
        assert!(met >= 120, "{question}: {met}");
    }
}

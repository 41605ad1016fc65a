//! Questions 40 and 41 (request 13), case by case, and wrong readings of them:
//! the harness notices each, and the mutants show it.

mod cases;
#[macro_use]
mod ways;

use cases::{case_b, one_queue, two_hops};
use peer::as_peer;
use peer::boundary::{Boundary, Peer};
use peer::harness::{run, Settings};
use peer::image::{row_of, rows_of, Frame, Piece};
use peer::mutate::mutant;
use peer::{asked_before, check, naive, Answer, Plan, Rng, QUESTIONS};

#[track_caller]
fn expect(plan: &Plan, number: u32, table: u32, row: u32) {
    let (image, answer) = (plan.encode(), Answer::at(number, table, row));
    assert_eq!(check(&image), answer);
    assert_eq!(naive::check(&image), answer);
}

fn with(mut plan: Plan, change: impl FnOnce(&mut Plan)) -> Plan {
    change(&mut plan);
    plan
}

#[test]
fn queues_in_range() {
    for (queue, number) in [(0, 0), (7, 0), (8, 40), (1 << 31, 40), (u32::MAX, 40)] {
        let table = if number == 0 { 0 } else { 7 };
        let plan = with(case_b(), |plan| plan.streams[0][5] = queue);
        expect(&plan, number, table, 0);
    }
}

/// 40 is asked after 6 and before 7, and names the stream.
#[test]
fn the_place_of_40() {
    let at = QUESTIONS.iter().position(|number| *number == 40);
    assert_eq!(QUESTIONS[at.unwrap() - 1..at.unwrap() + 2], [6, 40, 7]);
    let queue = |change: fn(&mut Plan)| {
        with(case_b(), |plan| {
            plan.streams = vec![plan.streams[0]; 3];
            (plan.streams[1][5], plan.streams[2][5]) = (8, 8);
            change(plan);
        })
    };
    expect(&queue(|_| ()), 40, 7, 1);
    expect(
        &queue(|plan| plan.buffers = rows_of(&[[64, 0, 1]])),
        6,
        9,
        0,
    );
    expect(&queue(|plan| plan.windows[0][2] = 2), 40, 7, 1);
    expect(&queue(|plan| plan.tasks[0][1] = 0), 40, 7, 1);
}

/// The first stream's stay on the second link is from 6 + 3 − 2 on to 21; the
/// other's from 6 on to its end.
#[test]
fn stays_by_a_tick() {
    expect(&one_queue(6), 0, 0, 0);
    // From 7 to 8: both are there in tick 7.
    expect(&one_queue(7), 41, 8, 2);
    expect(&with(one_queue(7), |plan| plan.streams[0][5] = 5), 0, 0, 0);
    expect(&with(one_queue(7), |plan| plan.links[0][4] = 4), 0, 0, 0);
    expect(&with(one_queue(7), |plan| plan.precision = 1), 0, 0, 0);
    expect(&with(one_queue(6), |plan| plan.links[0][4] = 2), 41, 8, 2);
    expect(&with(one_queue(6), |plan| plan.precision = 3), 41, 8, 2);
    // The other delays do not count.
    expect(&with(one_queue(6), |plan| plan.links[0][2] = 9), 0, 0, 0);
    expect(&with(one_queue(6), |plan| plan.links[1][4] = 0), 0, 0, 0);
    // Over a link of its own nobody is in its way.
    let own = with(one_queue(7), |plan| {
        plan.links.push(plan.links[1]);
        plan.frames[1][3] = 2;
    });
    expect(&own, 0, 0, 0);
    // Behind it: from 6 on it waits all the same.
    expect(&one_queue(21), 41, 8, 2);
}

/// A clash counts at the higher row, whichever of the two is sent first.
#[test]
fn the_row_of_41() {
    expect(&one_queue(19), 41, 8, 2);
    expect(&one_queue(22), 41, 8, 2);
    let two = with(one_queue(7), |plan| {
        plan.streams.push(plan.streams[1]);
        plan.frames.insert(2, row_of([2, 0, 0, 1, 9]));
    });
    expect(&two, 41, 8, 2);
    let other = with(two, |plan| plan.streams[1][5] = 0);
    expect(&other, 41, 8, 3);
}

/// 41 is asked after 21 and before 22.
#[test]
fn the_place_of_41() {
    let at = QUESTIONS.iter().position(|number| *number == 41);
    assert_eq!(QUESTIONS[at.unwrap() - 1..at.unwrap() + 2], [21, 41, 22]);
    expect(&with(one_queue(7), |plan| plan.streams[1][2] = 1), 21, 7, 1);
    let buffer = |plan: &mut Plan| plan.buffers = rows_of(&[[0, 0, 1]]);
    expect(&with(one_queue(7), buffer), 41, 8, 2);
    expect(&with(one_queue(6), buffer), 22, 9, 0);
}

/// The previous hop's start less P is below 0: the stay begins at 0, and a
/// frame that is there before is in the way.
#[test]
fn stays_never_begin_below_0() {
    let early = |precision: u32, start: u32| {
        with(one_queue(start), |plan| {
            plan.precision = precision;
            plan.links[0][2] = 0;
            plan.links[0][4] = 0;
            plan.cycle = 60;
            for task in &mut plan.tasks {
                (task[2], task[4]) = (60, 60);
            }
            plan.windows.iter_mut().for_each(|window| window[2] = 60);
            plan.streams.iter_mut().for_each(|stream| stream[2] = 60);
            plan.pieces[2][2] = 45;
        })
    };
    for precision in [6, 7, 8, 9] {
        expect(&early(precision, 6), 41, 8, 2);
        let apart = with(early(precision, 6), |plan| plan.streams[1][5] = 1);
        expect(&apart, 0, 0, 0);
    }
}

/// A stream whose jobs follow each other, on one link over several hops, never
/// meets itself.
#[test]
fn a_stream_alone_is_apart() {
    for (rates, start) in [([704, 88], 11), ([88, 704], 18)] {
        expect(&two_hops(rates, start), 0, 0, 0);
    }
}

ways! {
    /// Ways to read it.
    enum Reading { Right }

    /// When a stay begins and ends, and which are compared.
    const WRONG_STAYS: 26 = {
        OwnLinksDelay,
        HighestDelay,
        WithoutDelay,
        DelayTaken,
        WithoutPrecision,
        PrecisionAdded,
        PrecisionTwice,
        PrecisionOnHop0Too,
        FromPreviousEnd,
        FromHop0,
        FromOwnStart,
        Hop0FromItsStart,
        Hop0FromSendersStart,
        Hop0FromRelease,
        Hop0FromFirstJobsEnd,
        CutByWrapping,
        UntilTheStart,
        UntilTheArrival,
        TouchingStaysClash,
        LinksConfused,
        QueuesIgnored,
        QueuesModuloFour,
        OneSenderOnly,
        SameJobOnly,
        Hop0Only,
        LaterHopsOnly,
    };

    /// What is named, asked, and when.
    const WRONG_ANSWERS: 15 = {
        NamesLowerRow,
        NamesStream,
        NamesLastRow,
        NeighbouringRowsOnly,
        AskedBefore21,
        AskedBefore19,
        AskedAfter22,
        AskedLast,
        NeverAsked,
        Queue8Allowed,
        QueuesUpTo15,
        QueuesUpTo6,
        QueueAskedBefore6,
        QueueAskedAfter7,
        QueueAskedIn6,
    };
}

use Reading::*;

/// Place, first and last tick of a stay.
#[derive(Clone, Copy)]
struct Stay {
    place: (u32, u32),
    from: i64,
    to: i64,
    sender: u32,
    job: u32,
    hop: u32,
}

/// A plan in which the questions before 41 are answered yes, but perhaps for
/// 21.
struct Asked<'a> {
    plan: &'a Plan,
    reading: Reading,
}

impl Asked<'_> {
    fn frame(&self, stream: u32, job: u32, hop: u32) -> &Frame {
        let is_it = |frame: &&Frame| frame[..3] == [stream, job, hop];
        self.plan
            .frames
            .iter()
            .find(is_it)
            .expect("16 is answered yes")
    }

    fn ticks(&self, frame: &Frame) -> i64 {
        i64::from(self.plan.frame_ticks(frame[0], frame[3]))
    }

    /// First start and last end of a job.
    fn span(&self, task: u32, job: u32) -> (i64, i64) {
        let of_job = |piece: &&Piece| piece[..2] == [task, job];
        let pieces = || self.plan.pieces.iter().filter(of_job);
        let starts = pieces().map(|piece| i64::from(piece[2]));
        let ends = pieces().map(|piece| i64::from(piece[2] + piece[3]));
        (starts.min().expect("a piece"), ends.max().expect("a piece"))
    }

    fn hop0_from(&self, frame: &Frame) -> i64 {
        let &[stream, job, _, _, start, ..] = frame;
        let sender = self.plan.streams[stream as usize][0];
        let (first, last) = self.span(sender, job);
        match self.reading {
            Hop0FromItsStart | FromOwnStart => i64::from(start),
            Hop0FromSendersStart => first,
            Hop0FromRelease => i64::from(job * self.plan.period(sender)),
            Hop0FromFirstJobsEnd => self.span(sender, 0).1,
            PrecisionOnHop0Too => (last - i64::from(self.plan.precision)).max(0),
            _ => last,
        }
    }

    fn later_from(&self, frame: &Frame) -> i64 {
        let &[stream, job, hop, own, start, ..] = frame;
        let before = match self.reading {
            FromHop0 => self.frame(stream, job, 0),
            _ => self.frame(stream, job, hop - 1),
        };
        let carrier = match self.reading {
            OwnLinksDelay => own,
            _ => before[3],
        };
        let [_, _, highest, _, lowest, ..] = self.plan.links[carrier as usize];
        let delay = match self.reading {
            HighestDelay => i64::from(highest),
            WithoutDelay => 0,
            DelayTaken => -i64::from(lowest),
            _ => i64::from(lowest),
        };
        let precision = i64::from(self.plan.precision);
        let precision = match self.reading {
            WithoutPrecision => 0,
            PrecisionAdded => -precision,
            PrecisionTwice => 2 * precision,
            _ => precision,
        };
        let from = match self.reading {
            FromOwnStart => return i64::from(start),
            FromPreviousEnd => i64::from(before[4]) + self.ticks(before),
            _ => i64::from(before[4]),
        };
        match (self.reading, from + delay - precision) {
            (CutByWrapping, from) => i64::from(from as u32),
            (_, from) => from.max(0),
        }
    }

    fn stay(&self, frame: &Frame) -> Stay {
        let &[stream, job, hop, link, start, ..] = frame;
        let [sender, .., queue] = self.plan.streams[stream as usize];
        let [_, _, delay, ..] = self.plan.links[link as usize];
        let end = i64::from(start) + self.ticks(frame);
        Stay {
            place: match self.reading {
                LinksConfused => (0, queue),
                QueuesIgnored => (link, 0),
                QueuesModuloFour => (link, queue % 4),
                _ => (link, queue),
            },
            from: match hop {
                0 => self.hop0_from(frame),
                _ => self.later_from(frame),
            },
            to: match self.reading {
                UntilTheStart => i64::from(start),
                UntilTheArrival => end + i64::from(delay),
                TouchingStaysClash => end + 1,
                _ => end,
            },
            sender,
            job,
            hop,
        }
    }

    fn clash(&self, a: &Stay, b: &Stay) -> bool {
        let counts = match self.reading {
            OneSenderOnly => a.sender == b.sender,
            SameJobOnly => a.job == b.job,
            Hop0Only => a.hop == 0 && b.hop == 0,
            LaterHopsOnly => a.hop > 0 && b.hop > 0,
            _ => true,
        };
        counts && a.place == b.place && a.from < b.to && b.from < a.to
    }

    /// What 41 says.
    fn forty_one(&self) -> Answer {
        let stays: Vec<Stay> = self.plan.frames.iter().map(|row| self.stay(row)).collect();
        let least = |high: usize| match self.reading {
            NeighbouringRowsOnly => high.saturating_sub(1),
            _ => 0,
        };
        let lower = |high: usize| {
            let mut lower = least(high)..high;
            lower.find(|low| self.clash(&stays[*low], &stays[high]))
        };
        let mut rows = 0..stays.len();
        let high = match self.reading {
            NamesLastRow => rows.rfind(|high| lower(*high).is_some()),
            _ => rows.find(|high| lower(*high).is_some()),
        };
        match (high, self.reading) {
            (None, _) => Answer::ACCEPTED,
            (Some(high), NamesLowerRow) => Answer::at(41, 8, lower(high).unwrap() as u32),
            (Some(high), NamesStream) => Answer::at(41, 7, self.plan.frames[high][0]),
            (Some(high), _) => Answer::at(41, 8, high as u32),
        }
    }
}

/// The questions with some of them in other places: each number goes right
/// before the one that follows it here, or is left out.
fn moved(number: u32, before: Option<u32>) -> Vec<u32> {
    let mut questions = QUESTIONS.to_vec();
    questions.retain(|asked| *asked != number);
    if let Some(before) = before {
        let at = questions.iter().position(|asked| *asked == before);
        questions.insert(at.expect("it is asked"), number);
    }
    questions
}

/// Whether a plan is more than the slow questions here are asked of.
fn is_large(plan: &Plan) -> bool {
    plan.frames.len() > 100 || plan.pieces.len() > 200
}

/// The answer of a reading, the right one being known.
fn answer(reading: Reading, image: &[u8], right: Answer) -> Answer {
    if asked_before(right.number, 6) || is_large(&Plan::decode(image)) {
        return right;
    }
    let order = match reading {
        AskedBefore19 => moved(41, Some(19)),
        AskedBefore21 => moved(41, Some(21)),
        AskedAfter22 => moved(41, Some(23)),
        AskedLast => [moved(41, None), vec![41]].concat(),
        NeverAsked => moved(41, None),
        QueueAskedBefore6 => moved(40, Some(6)),
        QueueAskedAfter7 => moved(40, Some(8)),
        _ => QUESTIONS.to_vec(),
    };
    if order != QUESTIONS {
        return naive::ask(image, &order);
    }
    match reading {
        Queue8Allowed | QueuesUpTo15 | QueuesUpTo6 | QueueAskedIn6 => {
            other_queues(reading, image, right)
        }
        _ if asked_before(right.number, 41) => right,
        _ => {
            let plan = Plan::decode(image);
            let asked = Asked {
                plan: &plan,
                reading,
            };
            let answer = asked.forty_one();
            match answer.is_accepted() {
                true => naive::ask(image, &[22, 23, 24, 29, 30, 31]),
                false => answer,
            }
        }
    }
}

/// The answer where another range of queues is asked for, or within 6.
fn other_queues(reading: Reading, image: &[u8], right: Answer) -> Answer {
    let plan = Plan::decode(image);
    let most = match reading {
        Queue8Allowed => 8,
        QueuesUpTo15 => 15,
        QueuesUpTo6 => 6,
        _ => 7,
    };
    let out = plan.streams.iter().position(|stream| stream[5] > most);
    match (out, right) {
        (
            _,
            Answer {
                number: 6,
                table,
                row,
            },
        ) => match out {
            Some(own) if reading == QueueAskedIn6 && (7, own as u32) < (table, row) => {
                Answer::at(6, 7, own as u32)
            }
            _ => right,
        },
        (Some(own), _) if reading == QueueAskedIn6 => Answer::at(6, 7, own as u32),
        (Some(own), _) => Answer::at(40, 7, own as u32),
        (None, _) => naive::ask(image, &moved(40, None)),
    }
}

/// This implementation with such a check.
struct Misread(Reading);

impl Boundary for Misread {
    as_peer!(build, start, step, step_all, arrivals, gates);

    fn check(&self, image: &[u8]) -> u64 {
        answer(self.0, image, check(image)).code()
    }
}

#[test]
fn the_harness_notices_every_wrong_reading() {
    let settings = Settings {
        seed: 1,
        first_case: 1,
        cases: 300,
        large: true,
        trace: false,
    };
    run(&settings, &Peer, &Misread(Right)).unwrap_or_else(|difference| panic!("{difference}"));
    let many = Settings {
        cases: 8_000,
        ..settings
    };
    for reading in WRONG_STAYS.into_iter().chain(WRONG_ANSWERS) {
        match run(&many, &Peer, &Misread(reading)) {
            Ok(_) => panic!("{reading:?} goes unnoticed"),
            Err(difference) => {
                let told = difference.to_string();
                println!("{reading:?}: {}", told.lines().next().unwrap_or_default());
                assert!(told.contains("call: check of "), "{told}");
            }
        }
    }
}

#[test]
fn mutants_show_every_wrong_reading() {
    let wrong = [&WRONG_STAYS[..], &WRONG_ANSWERS].concat();
    let mut shown = vec![0; wrong.len()];
    for case in 0..12_000 {
        let image = mutant(&mut Rng::for_case(40, case));
        let right = check(&image);
        if asked_before(right.number, 6) {
            continue;
        }
        assert_eq!(answer(Right, &image, right), right);
        for (count, reading) in shown.iter_mut().zip(&wrong) {
            *count += u32::from(answer(*reading, &image, right) != right);
        }
    }
    for (count, reading) in shown.into_iter().zip(wrong) {
        println!("{reading:?}: {count}");
        assert!(count >= 5, "{reading:?}: {count}");
    }
}

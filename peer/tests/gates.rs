//! Gate lists (request 13), case by case, beside the dispatch tables, and wrong
//! implementations of the call: the harness notices each of them.

mod cases;
#[macro_use]
mod ways;

use cases::{case_a, case_b};
use peer::as_peer;
use peer::boundary::{read_words, write_words, Boundary, Peer};
use peer::generate::{accepted, busy_links, tiny};
use peer::harness::{run, Settings};
use peer::image::{row_of, rows_of};
use peer::naive::{self, Naive};
use peer::{check, gate_lists, gates, tables, Answer, Plan, Rng};

/// The gate list that both implementations give, where words enough are lent.
#[track_caller]
fn listed(plan: &Plan, link: u32) -> Vec<u32> {
    let image = plan.encode();
    let mut words = vec![u32::MAX; 60];
    assert_eq!(gates(&image, link, &mut words), Answer::ACCEPTED);
    let mut others = vec![u32::MAX; 60];
    assert_eq!(naive::gates(&image, link, &mut others), Answer::ACCEPTED);
    assert_eq!(words, others);
    let written = 1 + 2 * words[0] as usize;
    assert_eq!(words[written..], vec![u32::MAX; 60 - written]);
    words.truncate(written);
    words
}

/// The answer of both, which must leave all bytes as they were.
#[track_caller]
fn refused(plan: &Plan, link: u32, bytes: usize, answer: Answer) {
    let before: Vec<u8> = (0..bytes).map(|byte| byte as u8).collect();
    for of in [&Peer as &dyn Boundary, &Naive] {
        let mut words = before.clone();
        assert_eq!(of.gates(&plan.encode(), link, &mut words), answer.code());
        assert_eq!(words, before);
    }
}

#[test]
fn case_b_in_each_queue() {
    for queue in 0..8 {
        let mut plan = case_b();
        plan.streams[0][5] = queue;
        assert_eq!(listed(&plan, 0), [3, 0, 6, 1 << queue, 2, 0, 12]);
    }
}

#[test]
fn a_link_without_frames() {
    let mut plan = case_b();
    plan.links.push(plan.links[0]);
    assert_eq!(listed(&plan, 1), [1, 0, 20]);
    let mut plan = case_a();
    plan.links = rows_of(&[[3, 4, 9, 1]]);
    assert_eq!(listed(&plan, 0), [1, 0, 10]);
    refused(&plan, 1, 100, Answer::plain(25));
    refused(&case_a(), 0, 100, Answer::plain(25));
}

/// Case B with a second sender on a core of its own, whose job ends when the
/// first frame does, and a second stream whose frame starts so many ticks
/// later, in a queue.
fn two_senders(queue: u32, later: u32) -> Plan {
    let mut plan = case_b();
    plan.cores.push(row_of([0, 1, 2]));
    plan.vcpus.push(row_of([2]));
    plan.windows.push(row_of([2, 0, 20]));
    plan.tasks.push(row_of([2, 4, 20, 3, 20]));
    plan.pieces = rows_of(&[[0, 0, 2, 4], [2, 0, 4, 4], [1, 0, 14, 4]]);
    plan.streams = rows_of(&[[0, 1, 20, 1, 46, 3], [2, 1, 20, 1, 46, queue]]);
    plan.frames.push(row_of([1, 0, 0, 0, 8 + later]));
    plan
}

#[test]
fn frames_that_touch() {
    assert_eq!(listed(&two_senders(3, 0), 0), [3, 0, 6, 8, 4, 0, 10]);
    assert_eq!(listed(&two_senders(5, 0), 0), [4, 0, 6, 8, 2, 32, 2, 0, 10]);
    let apart = [5, 0, 6, 8, 2, 0, 1, 8, 2, 0, 9];
    assert_eq!(listed(&two_senders(3, 1), 0), apart);
}

#[test]
fn words_that_suffice() {
    let plan = two_senders(5, 0);
    for few in 0..36 {
        refused(&plan, 0, few, Answer::plain(42));
    }
    refused(&plan, 1, 400, Answer::plain(25));
    refused(&plan, 3, 400, Answer::plain(25));
    refused(&plan, 4, 0, Answer::plain(25));
    refused(&plan, u32::MAX, 0, Answer::plain(25));
    let list = listed(&plan, 0);
    for bytes in 36..48 {
        let mut lent = vec![0xA5; bytes];
        assert_eq!(Peer.gates(&plan.encode(), 0, &mut lent), 0);
        assert_eq!(read_words(&lent[..36]), list);
        assert_eq!(lent[36..], vec![0xA5; bytes - 36]);
    }
}

/// An image that is not accepted gives its own answer, whatever the link.
#[test]
fn refused_images() {
    let mut late = case_b();
    late.streams[0][2] = 12;
    let mut queue = case_b();
    queue.streams[0][5] = 8;
    for link in [0, 1, u32::MAX] {
        for bytes in [0, 3, 100] {
            refused(&late, link, bytes, Answer::at(21, 7, 0));
            refused(&queue, link, bytes, Answer::at(40, 7, 0));
        }
    }
}

/// The octet and the ticks that are left of it, tick by tick.
fn octets(list: &[u32]) -> Vec<u32> {
    let pairs = list[1..].chunks(2);
    pairs
        .flat_map(|pair| vec![pair[0]; pair[1] as usize])
        .collect()
}

/// What a link's dispatch table says of its gates, tick by tick.
fn sent(plan: &Plan, table: &[u32]) -> Vec<u32> {
    let entries: Vec<&[u32]> = table[2..].chunks(3).collect();
    let octet = |tick: u32| {
        let entry = entries.iter().rfind(|entry| entry[0] <= tick);
        let &[_, kind, row] = *entry.expect("the first is at 0") else {
            unreachable!("an entry has three words");
        };
        match kind {
            5 => 1 << plan.streams[plan.frames[row as usize][0] as usize][5],
            _ => 0,
        }
    };
    (0..table[0]).map(octet).collect()
}

/// Intervals of at least 1 that sum to H, neighbours that differ, and in every
/// tick what the dispatch table shows.
#[test]
fn lists_are_as_the_tables_show() {
    let [mut lists, mut pairs] = [0, 0];
    for (shape, count) in [(tiny as fn(&mut Rng) -> Plan, 300), (busy_links, 600)] {
        for case in 0..count {
            let plan = shape(&mut Rng::for_case(41, case));
            let image = plan.encode();
            let tables = tables(&image).expect("the plan is accepted");
            let own = gate_lists(&image).expect("the plan is accepted");
            assert_eq!(own.len(), plan.links.len());
            for (link, list) in own.iter().enumerate() {
                assert_eq!(list.len(), 1 + 2 * list[0] as usize);
                assert!(list[2..].iter().step_by(2).all(|interval| *interval > 0));
                let neighbours: Vec<u32> = list[1..].iter().step_by(2).copied().collect();
                assert!(neighbours.windows(2).all(|two| two[0] != two[1]));
                let table = &tables[plan.cores.len() + link];
                assert_eq!(octets(list), sent(&plan, table), "{plan:?}");
                lists += 1;
                pairs += list[0];
            }
        }
    }
    println!("{lists} lists, {pairs} pairs");
    assert!(lists > 2_000 && pairs > 6_000);
}

/// The fast list and the one made tick by tick.
#[test]
fn the_naive_list_is_the_same() {
    let mut compared = 0;
    for case in 0..400 {
        let plan = accepted(&mut Rng::for_case(42, case));
        if plan.cycle > 5_000 || plan.pieces.len() > 400 {
            continue;
        }
        let image = plan.encode();
        for link in 0..plan.links.len() as u32 + 1 {
            let mut words = vec![7; 2_000];
            let mut others = words.clone();
            let answer = gates(&image, link, &mut words);
            assert_eq!(answer, naive::gates(&image, link, &mut others));
            assert_eq!(words, others);
            compared += 1;
        }
    }
    assert!(compared > 600, "{compared}");
}

ways! {
    /// Ways to be wrong.
    enum Fault { None }

    /// What a list has.
    const WRONG_LISTS: 30 = {
        BitSevenLessQueue,
        QueueForItsBit,
        BitOfNextQueue,
        BitZeroAlways,
        BitOfStreamRow,
        AllGatesWhileIdle,
        OtherGatesOpen,
        OpenOneTickLonger,
        OpenOneTickTooEarly,
        OpenOneTickTooLate,
        ClosedOneTickTooEarly,
        NeighboursNotMerged,
        FramesTouchingOfTwoQueuesMerged,
        StopsAtLastFrame,
        BeginsAtFirstFrame,
        IdleLeftOut,
        EndsForIntervals,
        StartsForIntervals,
        OctetAndIntervalExchanged,
        OctetsBeforeIntervals,
        IntervalsOneLess,
        CountOneMore,
        CountOneLess,
        CountOfWords,
        CountOfFrames,
        CountLast,
        NoCount,
        CycleFirst,
        ListOfFirstLink,
        ListOfNextLink,
    };

    /// What is asked, and what is left.
    const WRONG_CALLS: 31 = {
        Gives26For42,
        Names42,
        Names25,
        Gives5For25,
        Asks25OfAllLanes,
        LinkIsALane,
        TakesLinkAtTheEnd,
        LastLinkRefused,
        TakesEightBits,
        TakesSixteenBits,
        TakesThirtyBits,
        Asks42Before25,
        Asks42First,
        Asks25First,
        ListsThoughRefused,
        ListsOf41Refused,
        NeedsTwiceM,
        NeedsTwoAndThreeTimesM,
        NeedsOneWordMore,
        NeedsThreeTimesM,
        NeedsWholeWords,
        CountsPartOfAWord,
        WritesAfter25,
        WritesAfter42,
        WritesCountAfter42,
        WritesWhatFits,
        WritesAfterRefusedImage,
        ClearsLaterWords,
        WritesOneWordMore,
        WritesPartOfAWord,
        WritesHighestByteFirst,
    };
}

use Fault::*;

/// This implementation with one fault of the call for gate lists.
struct Faulty(Fault);

/// The list as one octet for each frame or gap, still not merged.
type Gates = Vec<[u32; 2]>;

fn merged(gates: Gates) -> Gates {
    let mut all: Gates = Vec::new();
    for [octet, interval] in gates {
        match all.last_mut() {
            Some(last) if last[0] == octet => last[1] += interval,
            _ => all.push([octet, interval]),
        }
    }
    all
}

/// Makes a tick of the interval before each gate, or behind it, one of the
/// gate's, or the other way round.
fn shift(gates: &mut Gates, begin: i64, end: i64) {
    for at in 0..gates.len() {
        if gates[at][0] == 0 {
            continue;
        }
        let mut give = |to: usize, by: i64| {
            if let Some(other) = gates.get(to).copied().filter(|other| other[0] == 0) {
                let taken = by.min(i64::from(other[1]) - 1);
                gates[to][1] = (i64::from(other[1]) - taken) as u32;
                gates[at][1] = (i64::from(gates[at][1]) + taken) as u32;
            }
        };
        if begin != 0 {
            give(at.wrapping_sub(1), -begin);
        }
        if end != 0 {
            give(at + 1, end);
        }
    }
    gates.retain(|gate| gate[1] > 0);
}

impl Faulty {
    /// The gates of a link, entry by entry of its table.
    fn gates_of(&self, plan: &Plan, table: &[u32]) -> Gates {
        let entries: Vec<&[u32]> = table[2..].chunks(3).collect();
        let mut gates = Vec::new();
        for (at, entry) in entries.iter().enumerate() {
            let end = entries.get(at + 1).map_or(plan.cycle, |next| next[0]);
            gates.push([self.octet(plan, entry[1], entry[2]), end - entry[0]]);
        }
        gates
    }

    fn octet(&self, plan: &Plan, kind: u32, row: u32) -> u32 {
        if kind != 5 {
            let idle = [AllGatesWhileIdle, OtherGatesOpen].contains(&self.0);
            return if idle { 0xFF } else { 0 };
        }
        let stream = plan.frames[row as usize][0];
        let queue = plan.streams[stream as usize][5];
        match self.0 {
            BitSevenLessQueue => 1 << (7 - queue),
            QueueForItsBit => queue,
            BitOfNextQueue => 2 << queue,
            BitZeroAlways => 1,
            BitOfStreamRow => 1 << (stream % 8),
            OtherGatesOpen => 0xFF ^ 1 << queue,
            _ => 1 << queue,
        }
    }

    /// The words of a link's list.
    fn list(&self, plan: &Plan, table: &[u32]) -> Vec<u32> {
        let mut gates = self.gates_of(plan, table);
        match self.0 {
            NeighboursNotMerged => {}
            FramesTouchingOfTwoQueuesMerged => {
                gates.dedup_by(|next, before| {
                    let touch = next[0] > 0 && before[0] > 0;
                    before[1] += if touch { next[1] } else { 0 };
                    touch
                });
            }
            _ => gates = merged(gates),
        }
        match self.0 {
            OpenOneTickLonger => shift(&mut gates, 0, 1),
            OpenOneTickTooEarly => shift(&mut gates, -1, 0),
            OpenOneTickTooLate => shift(&mut gates, 1, 0),
            ClosedOneTickTooEarly => shift(&mut gates, 0, -1),
            StopsAtLastFrame if gates.len() > 1 => drop(gates.pop()),
            BeginsAtFirstFrame if gates.len() > 1 => drop(gates.remove(0)),
            IdleLeftOut if gates.len() > 1 => gates.retain(|gate| gate[0] > 0),
            IntervalsOneLess => gates.iter_mut().for_each(|gate| gate[1] -= 1),
            OctetAndIntervalExchanged => gates.iter_mut().for_each(|gate| gate.reverse()),
            EndsForIntervals | StartsForIntervals => {
                let mut end = 0;
                for gate in &mut gates {
                    let start = end;
                    end += gate[1];
                    gate[1] = if self.0 == EndsForIntervals {
                        end
                    } else {
                        start
                    };
                }
            }
            _ => {}
        }
        self.words(plan, table, &gates)
    }

    fn words(&self, plan: &Plan, table: &[u32], gates: &Gates) -> Vec<u32> {
        let count = gates.len() as u32;
        let frames = table[3..].iter().step_by(3).filter(|kind| **kind == 5);
        let count = match self.0 {
            CountOneMore => count + 1,
            CountOneLess => count - 1,
            CountOfWords => 2 * count,
            CountOfFrames => frames.count() as u32,
            _ => count,
        };
        let mut words = gates.as_flattened().to_vec();
        if self.0 == OctetsBeforeIntervals {
            let column = |column: usize| gates.iter().map(move |gate| gate[column]);
            words = column(0).chain(column(1)).collect();
        }
        match self.0 {
            CountLast => words.push(count),
            NoCount => {}
            CycleFirst => drop(words.splice(..0, [plan.cycle, count])),
            _ => words.insert(0, count),
        }
        words
    }

    /// Whether a link is taken for one that there is, and which.
    fn link(&self, plan: &Plan, link: u32) -> Option<usize> {
        let links = plan.links.len() as u32;
        let lanes = plan.lanes() as u32;
        let taken = match self.0 {
            TakesLinkAtTheEnd if link == links => link.checked_sub(1)?,
            LastLinkRefused if link + 1 == links => return Option::None,
            TakesEightBits => link & 0xFF,
            TakesSixteenBits => link & 0xFFFF,
            TakesThirtyBits => link & 0x3FFF_FFFF,
            Asks25OfAllLanes if (links..lanes).contains(&link) && links > 0 => links - 1,
            LinkIsALane => link.checked_sub(plan.cores.len() as u32)?,
            _ => link,
        };
        let taken = match self.0 {
            ListOfFirstLink if taken < links => 0,
            ListOfNextLink if taken < links => (taken + 1) % links,
            _ => taken,
        };
        (taken < links).then_some(taken as usize)
    }

    /// How many words a list of so many pairs is said to take.
    fn needed(&self, pairs: usize) -> usize {
        match self.0 {
            NeedsTwiceM => 2 * pairs,
            NeedsTwoAndThreeTimesM => 2 + 3 * pairs,
            NeedsOneWordMore => 2 + 2 * pairs,
            NeedsThreeTimesM => 1 + 3 * pairs,
            _ => 1 + 2 * pairs,
        }
    }

    /// The answer where the image is refused.
    fn refusal(&self, answer: u64, link: u32, words: &mut [u8]) -> u64 {
        match self.0 {
            WritesAfterRefusedImage if words.len() >= 4 => words[0] ^= 1,
            ListsThoughRefused => return 0,
            ListsOf41Refused if answer & 0xFFFF == 41 => return 0,
            Asks42First if words.len() < 12 => return 42,
            Asks25First if link >= 64 => return 25,
            _ => {}
        }
        answer
    }

    fn no_link(&self, link: u32, words: &mut [u8]) -> u64 {
        match self.0 {
            WritesAfter25 if words.len() >= 4 => words[0] ^= 1,
            Asks42Before25 | Asks42First if words.len() < 12 => return 42,
            Names25 => return 25 | 6 << 16 | u64::from(link) << 32,
            Gives5For25 => return 5 | 6 << 16 | u64::from(link) << 32,
            _ => {}
        }
        25
    }

    fn too_few(&self, link: u32, list: &[u32], words: &mut [u8]) -> u64 {
        match self.0 {
            WritesAfter42 if words.len() >= 4 => words[0] ^= 1,
            WritesCountAfter42 => write_words(&list[..1], words),
            WritesWhatFits => write_words(list, words),
            Gives26For42 => return 26,
            Names42 => return 42 | 6 << 16 | u64::from(link) << 32,
            _ => {}
        }
        42
    }

    fn lend(&self, list: &[u32], words: &mut [u8]) {
        let (whole, written) = (words.len() / 4 * 4, 4 * list.len());
        write_words(list, words);
        match self.0 {
            ClearsLaterWords => words[written.min(whole)..whole].fill(0),
            WritesOneWordMore if written < whole => words[written] ^= 1,
            WritesPartOfAWord if whole < words.len() => words[whole] ^= 1,
            WritesHighestByteFirst => words[..4].reverse(),
            _ => {}
        }
    }
}

impl Boundary for Faulty {
    as_peer!(check, build, start, step, step_all, arrivals);

    fn gates(&self, image: &[u8], link: u32, words: &mut [u8]) -> u64 {
        let answer = check(image);
        if !answer.is_accepted() {
            return self.refusal(answer.code(), link, words);
        }
        let plan = Plan::decode(image);
        let Some(row) = self.link(&plan, link) else {
            return self.no_link(link, words);
        };
        let tables = tables(image).expect("the plan is accepted");
        let table = &tables[plan.cores.len() + row];
        let list = self.list(&plan, table);
        let right = Faulty(None).list(&plan, table);
        let pairs = match WRONG_LISTS.contains(&self.0) {
            true => list.len() / 2,
            false => right[0] as usize,
        };
        let lent = match self.0 {
            CountsPartOfAWord => words.len().div_ceil(4),
            NeedsWholeWords if !words.len().is_multiple_of(4) => 0,
            _ => words.len() / 4,
        };
        if lent < self.needed(pairs) {
            return self.too_few(link, &list, words);
        }
        self.lend(&list, words);
        0
    }
}

const SETTINGS: Settings = Settings {
    seed: 13,
    first_case: 0,
    cases: 600,
    large: false,
    trace: false,
};

#[test]
fn each_fault_is_noticed() {
    run(&SETTINGS, &Peer, &Faulty(None)).unwrap_or_else(|difference| panic!("{difference}"));
    for fault in WRONG_LISTS.into_iter().chain(WRONG_CALLS) {
        match run(&SETTINGS, &Peer, &Faulty(fault)) {
            Ok(_) => panic!("{fault:?} goes unnoticed"),
            Err(difference) => {
                let told = difference.to_string();
                assert!(told.contains("call: gates of link "), "{fault:?}: {told}");
            }
        }
    }
}

/// A run says what it met, and what it did not.
#[test]
fn enough_is_met() {
    let summary = run(&SETTINGS, &Peer, &Peer).unwrap_or_else(|difference| panic!("{difference}"));
    println!("{}", summary.gates);
    assert_eq!(summary.gates.missing(), Vec::<String>::new());
    let few = Settings {
        cases: 3,
        ..SETTINGS
    };
    let summary = run(&few, &Peer, &Peer).unwrap_or_else(|difference| panic!("{difference}"));
    for what in [
        "gates: 41",
        "frames of one queue touch and are one interval",
    ] {
        assert!(
            summary.gates.missing().contains(&what.to_string()),
            "{what}"
        );
    }
    let none = Settings {
        cases: 0,
        ..SETTINGS
    };
    let summary = run(&none, &Peer, &Peer).unwrap_or_else(|difference| panic!("{difference}"));
    assert_eq!(summary.gates.missing().len(), 3 + 30 + 12 + 8);
}

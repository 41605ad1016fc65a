//! The cases: an image each, with what is called on it.

use super::lent::Lent;
use super::met::Listed;
use super::pair::{Difference, Pair};
use crate::boundary::{write_state, write_words, STATE};
use crate::dispatch::{start, State};
use crate::gates::gate_lists;
use crate::generate;
use crate::image::{point_back, Frame, Plan, Trailer, CORE, FRAME, LINK, TRAILER, WORD};
use crate::mutate::{aim, mutant, mutate};
use crate::rng::Rng;
use crate::table::tables;

/// What calls came to: all went alike, or not.
type Called = Result<(), Difference>;

/// What a case came to.
pub struct Outcome {
    /// The number of the question that refused its image first, or 0.
    pub number: u32,
    pub is_mutant: bool,
}

/// Runs a case.
pub fn run(case: u64, large: bool, pair: &mut Pair, rng: &mut Rng) -> Result<Outcome, Difference> {
    let (image, is_mutant) = if large {
        image_of(case, rng)
    } else {
        small_image(rng)
    };
    let lent = Lent::of(&image, rng);
    let before = lent.clone();
    let number = (pair.check(lent.part())? & 0xFFFF) as u32;
    if number == 0 {
        let tables = tables(&image).expect("our own check accepts");
        build_all(pair, lent.part(), &tables, rng)?;
        ask_arrivals(pair, lent.part(), rng)?;
        ask_gates(pair, lent.part(), rng)?;
        Run::new(pair, &tables, rng)?.run(pair, rng)?;
    } else {
        build_refused(pair, lent.part(), rng)?;
        ask_arrivals_refused(pair, lent.part(), rng)?;
        ask_gates_refused(pair, lent.part(), rng)?;
    }
    if lent != before {
        return Err(Difference::of_image(&image, lent.part()));
    }
    for _ in 0..4 {
        rough_steps(pair, rng)?;
    }
    noise_steps(pair, rng)?;
    Ok(Outcome { number, is_mutant })
}

/// An image, and whether it is a mutant. Most are.
pub type Image = (Vec<u8>, bool);

/// The image of a case where large ones are among them.
///
/// Every four thousandth image is the fullest there is: with all lanes built
/// three times, each after a check, it takes as long as a thousand others.
pub fn image_of(case: u64, rng: &mut Rng) -> Image {
    match case % 4_000 {
        0 => return (generate::full(rng).encode(), false),
        2_000 => return (mutate(&generate::full(rng), rng), true),
        _ => (),
    }
    match case % 1_000 {
        125 | 625 => (generate::large(rng).encode(), false),
        375 | 875 => (mutate(&generate::large(rng), rng), true),
        500 => (generate::busy_core(rng).encode(), false),
        750 => (mutate(&generate::busy_core(rng), rng), true),
        249 => (generate::diamond(rng).encode(), false),
        250 => (no_path(rng), true),
        _ => match rng.below(100) {
            0..=1 => (random_bytes(rng), false),
            2..=12 => (generate::accepted(rng).encode(), false),
            _ => (mutant(rng), true),
        },
    }
}

/// A chain without a path, or one that lost it, among more paths than can be
/// followed.
fn no_path(rng: &mut Rng) -> Vec<u8> {
    let plan = generate::diamond(rng);
    loop {
        let mut changed = plan.clone();
        if aim(30, &mut changed, rng).is_some() {
            return changed.encode();
        }
    }
}

/// Images as `image_of` has them, without the largest.
fn small_image(rng: &mut Rng) -> Image {
    let plan = match rng.below(100) {
        0..=29 => generate::small(rng),
        30..=49 => generate::busy_links(rng),
        _ => generate::small_rich(rng),
    };
    match rng.below(10) {
        0..=2 => (plan.encode(), false),
        3 => (random_bytes(rng), false),
        _ => (mutate(&plan, rng), true),
    }
}

fn random_bytes(rng: &mut Rng) -> Vec<u8> {
    let length = rng.below(200);
    let mut image = rng.bytes(length);
    if length >= TRAILER && rng.chance(70) {
        point_back(&mut image);
    }
    image
}

/// Bytes that are too few for so many words, just enough, and too many.
fn around(words: usize, rng: &mut Rng) -> [usize; 3] {
    let needed = words * WORD;
    let too_few = if rng.chance(80) {
        needed - 1 - rng.below(WORD)
    } else {
        rng.below(needed)
    };
    let just_enough = needed + rng.below(WORD);
    [too_few, just_enough, needed + WORD + rng.below(100)]
}

/// Builds every lane, and all of them, with too few words, just enough and too
/// many, and some lanes that are none.
fn build_all(pair: &mut Pair, image: &[u8], tables: &[Vec<u32>], rng: &mut Rng) -> Called {
    for (lane, table) in (0..).zip(tables) {
        for length in around(table.len(), rng) {
            pair.build(image, lane, &mut Lent::noise(length, rng))?;
        }
    }
    for length in around(tables.iter().map(Vec::len).sum(), rng) {
        pair.build_all(image, &mut Lent::noise(length, rng))?;
    }
    let count = tables.len() as u32;
    for lane in [count, count + rng.within(1..=9), u32::MAX, rng.word()] {
        let length = rng.below(400);
        pair.build(image, lane, &mut Lent::noise(length, rng))?;
    }
    pair.build(image, 0, &mut Lent::noise(0, rng))?;
    Ok(())
}

fn build_refused(pair: &mut Pair, image: &[u8], rng: &mut Rng) -> Called {
    for lane in [0, rng.within(0..=40), rng.word()] {
        let length = rng.below(800);
        pair.build(image, lane, &mut Lent::noise(length, rng))?;
    }
    let length = rng.below(800);
    pair.build_all(image, &mut Lent::noise(length, rng))?;
    Ok(())
}

/// Asks when frames arrive, the first, the last and any, with bytes for too few
/// words, just enough and too many; then of frames that there are not, next to
/// the last and far away, also where the lower bits are those of one that is.
fn ask_arrivals(pair: &mut Pair, image: &[u8], rng: &mut Rng) -> Called {
    let (_, frames) = Trailer::read(image).tables[FRAME as usize - 1];
    let last = frames.saturating_sub(1);
    let any = rng.within(0..=last);
    for frame in [0, any, last] {
        for length in around(2, rng) {
            pair.arrivals(image, frame, &mut Lent::noise(length, rng))?;
        }
    }
    let far = any | 1 << rng.within(16..=31);
    for frame in [frames, frames + rng.within(1..=9), far, u32::MAX] {
        let lengths = around(2, rng);
        let length = rng.pick(&lengths);
        pair.arrivals(image, frame, &mut Lent::noise(length, rng))?;
    }
    Ok(())
}

fn ask_arrivals_refused(pair: &mut Pair, image: &[u8], rng: &mut Rng) -> Called {
    for frame in [0, rng.within(0..=40), rng.word()] {
        let length = rng.below(20);
        pair.arrivals(image, frame, &mut Lent::noise(length, rng))?;
    }
    Ok(())
}

/// So many links are asked for in one plan.
const MOST_LINKS: usize = 12;

/// Asks for the gate lists of an accepted image, with bytes for too few words,
/// by a byte and by a word too, just enough and too many; then of links that
/// there are not: next to the last, where there are lanes, and far away, also
/// where the lower bits are those of one that is.
fn ask_gates(pair: &mut Pair, image: &[u8], rng: &mut Rng) -> Called {
    let lists = gate_lists(image).expect("our own check accepts");
    let mut links: Vec<u32> = (0..lists.len() as u32).collect();
    rng.shuffle(&mut links);
    for &link in links.iter().take(MOST_LINKS) {
        let needed = lists[link as usize].len() * WORD;
        let mut lengths = around(lists[link as usize].len(), rng).to_vec();
        lengths.extend([needed - 1, needed - WORD, needed, needed + 2 * WORD, 0]);
        for length in lengths {
            gates_into(pair, image, Some(&lists), link, length, rng)?;
        }
    }
    let (cores, links) = cores_and_links(image);
    let any = rng.within(0..=links);
    let far = any | 1 << rng.within(16..=31);
    let near = [links, links + 1, links + cores - 1, links + cores];
    for link in near.into_iter().chain([far, u32::MAX, rng.word()]) {
        let length = rng.pick(&[0, 1, 4, 11, 12, 400]);
        gates_into(pair, image, Some(&lists), link, length, rng)?;
    }
    Ok(())
}

fn ask_gates_refused(pair: &mut Pair, image: &[u8], rng: &mut Rng) -> Called {
    for link in [0, rng.within(0..=70), rng.word()] {
        let length = rng.below(400);
        gates_into(pair, image, None, link, length, rng)?;
    }
    Ok(())
}

fn cores_and_links(image: &[u8]) -> (u32, u32) {
    let tables = Trailer::read(image).tables;
    (tables[CORE as usize - 1].1, tables[LINK as usize - 1].1)
}

/// Asks for a gate list with so many bytes, where the image is accepted with
/// its lists, and counts what was met.
fn gates_into(
    pair: &mut Pair,
    image: &[u8],
    lists: Option<&[Vec<u32>]>,
    link: u32,
    length: usize,
    rng: &mut Rng,
) -> Called {
    let answer = pair.gates(image, link, &mut Lent::noise(length, rng))?;
    let list = lists.and_then(|lists| lists.get(link as usize));
    pair.met.count(&Listed {
        number: (answer & 0xFFFF) as u32,
        link,
        counts: lists.map(|_| cores_and_links(image).into()),
        lent: length,
        list: list.map(Vec::as_slice),
        touch: list.is_some() && frames_touch(&Plan::decode(image), link),
    });
    Ok(())
}

/// Whether a frame of a link starts where one of its queue ends.
fn frames_touch(plan: &Plan, link: u32) -> bool {
    let queue = |frame: &Frame| plan.streams[frame[0] as usize][5];
    let on_link = || plan.frames.iter().filter(|frame| frame[3] == link);
    on_link().any(|frame| {
        let end = frame[4] + plan.frame_ticks(frame[0], link);
        on_link().any(|other| other[4] == end && queue(other) == queue(frame))
    })
}

/// All lanes of an accepted plan with their tables in one row of words.
struct Run {
    words: Vec<u32>,
    firsts: Vec<u32>,
    cycle: u32,
}

impl Run {
    /// Lays the tables out in any order, with noise between them.
    fn new(pair: &mut Pair, tables: &[Vec<u32>], rng: &mut Rng) -> Result<Run, Difference> {
        let mut order: Vec<usize> = (0..tables.len()).collect();
        rng.shuffle(&mut order);
        let mut words = Vec::new();
        let mut firsts = vec![0; tables.len()];
        for lane in order {
            words.extend((0..rng.below(4)).map(|_| rng.word()));
            firsts[lane] = words.len() as u32;
            words.extend_from_slice(&tables[lane]);
        }
        for length in [0, STATE - 1, STATE + 1, 2 * STATE] {
            pair.start(rng.next(), rng.word(), &mut Lent::noise(length, rng))?;
        }
        Ok(Run {
            words,
            firsts,
            cycle: tables[0][0],
        })
    }

    fn run(&self, pair: &mut Pair, rng: &mut Rng) -> Called {
        let words = self.lent_words(rng);
        self.walk_from_start(pair, &words, rng)?;
        for _ in 0..4 {
            let states = self.states_at_any_tick(rng);
            walk_on(pair, &words, &states, rng)?;
            step_broken(pair, &words, &states, rng)?;
        }
        Ok(())
    }

    /// The words as bytes, sometimes with a part of one more.
    fn lent_words(&self, rng: &mut Rng) -> Lent {
        let mut bytes = vec![0; self.words.len() * WORD];
        write_words(&self.words, &mut bytes);
        bytes.extend((0..rng.below(WORD)).map(|_| rng.next() as u8));
        Lent::of(&bytes, rng)
    }

    /// Starts every lane and steps all of them, over the end of the cycle
    /// where it is short.
    fn walk_from_start(&self, pair: &mut Pair, words: &Lent, rng: &mut Rng) -> Called {
        let cycle = any_cycle(rng);
        let mut row = Vec::new();
        for &first in &self.firsts {
            let mut record = Lent::noise(STATE, rng);
            pair.start(cycle, first, &mut record)?;
            row.extend_from_slice(record.part());
        }
        let mut states = Lent::of(&row, rng);
        for _ in 0..self.cycle.saturating_add(3).min(self.most_steps()) {
            pair.step_all(words, &mut states)?;
        }
        Ok(())
    }

    /// Fewer steps where each compares many words.
    fn most_steps(&self) -> u32 {
        if self.words.len() < 2_000 {
            60
        } else {
            10
        }
    }

    /// A tick, often one next to the cycle's end or to where an entry begins.
    fn any_tick(&self, rng: &mut Rng) -> u32 {
        let first = rng.pick(&self.firsts) as usize;
        let entry = rng.below(self.words[first + 1] as usize);
        let begin = self.words[first + 2 + 3 * entry];
        let tick = match rng.below(5) {
            0 => self.cycle - 1,
            1 => self.cycle.saturating_sub(2),
            2 => begin,
            3 => begin.saturating_sub(1),
            _ => rng.within(0..=self.cycle - 1),
        };
        tick.min(self.cycle - 1)
    }

    /// States of all lanes that fit, most times at one tick.
    fn states_at_any_tick(&self, rng: &mut Rng) -> Vec<State> {
        let (cycle, tick) = (any_cycle(rng), self.any_tick(rng));
        let alone = rng.chance(30);
        let at = |&first: &u32| {
            let tick = if alone { self.any_tick(rng) } else { tick };
            State {
                tick,
                entry: self.entry_at(first, tick),
                kind: rng.word(),
                row: rng.word(),
                ..start(cycle, first)
            }
        };
        self.firsts.iter().map(at).collect()
    }

    /// The last entry to begin by a tick.
    fn entry_at(&self, first: u32, tick: u32) -> u32 {
        let first = first as usize;
        let count = self.words[first + 1] as usize;
        let entries = self.words[first + 2..][..3 * count].as_chunks::<3>().0;
        entries.partition_point(|entry| entry[0] <= tick) as u32 - 1
    }
}

/// Steps all lanes and single ones, in turn.
fn walk_on(pair: &mut Pair, words: &Lent, states: &[State], rng: &mut Rng) -> Called {
    let mut row = Lent::of(&records(states), rng);
    for _ in 0..4 {
        pair.step_all(words, &mut row)?;
        let lane = rng.below(states.len());
        let part = lane * STATE..(lane + 1) * STATE;
        let mut record = Lent::of(&row.part()[part.clone()], rng);
        pair.step(words, &mut record)?;
        row.part_mut()[part].copy_from_slice(record.part());
    }
    Ok(())
}

/// Steps with a record, a length or a row of words that does not fit.
fn step_broken(pair: &mut Pair, words: &Lent, states: &[State], rng: &mut Rng) -> Called {
    let mut broken = states.to_vec();
    let lane = rng.below(broken.len());
    stale(&mut broken[lane], rng);
    let mut row = Lent::of(&records(&broken), rng);
    pair.step_all(words, &mut row)?;
    pair.step(words, &mut Lent::of(&records(&broken[lane..=lane]), rng))?;
    let mut bytes = records(states);
    bytes.truncate(bytes.len() - 1 - rng.below(STATE - 1));
    pair.step_all(words, &mut Lent::of(&bytes, rng))?;
    for length in [0, rng.below(STATE), STATE + 1 + rng.below(STATE)] {
        let mut record = records(&states[lane..=lane]);
        record.resize(length, 0);
        pair.step(words, &mut Lent::of(&record, rng))?;
    }
    let fewer = &words.part()[..rng.below(words.part().len() + 1)];
    let fewer = Lent::of(fewer, rng);
    pair.step_all(&fewer, &mut Lent::of(&records(states), rng))?;
    pair.step_all(words, &mut Lent::noise(0, rng))?;
    Ok(())
}

fn any_cycle(rng: &mut Rng) -> u64 {
    let any = rng.next();
    let cycles = [0, 1, u64::from(u32::MAX), any, u64::MAX - 1, u64::MAX];
    rng.pick(&cycles)
}

fn records(states: &[State]) -> Vec<u8> {
    states.iter().flat_map(write_state).collect()
}

/// Makes one field of a state one that probably does not fit.
fn stale(state: &mut State, rng: &mut Rng) {
    let near = rng.pick(&[1, u32::MAX, 1 << 31, u32::MAX - 2]);
    match rng.below(5) {
        0 => state.tick = state.tick.wrapping_add(near),
        1 => state.entry = state.entry.wrapping_add(near),
        2 => state.first = state.first.wrapping_add(near),
        3 => state.first = u32::MAX - rng.within(0..=3),
        _ => state.cycle = u64::MAX,
    }
}

/// Steps over small tables of rough words, with states as rough.
fn rough_steps(pair: &mut Pair, rng: &mut Rng) -> Called {
    let mut words: Vec<u32> = (0..rng.below(16)).map(|_| rng.within(0..=3)).collect();
    let huge = [u32::MAX, u32::MAX - 1, 1 << 31, (1 << 30) + 1];
    if rng.chance(15) && !words.is_empty() {
        let at = rng.below(words.len());
        words[at] = rng.pick(&huge);
    }
    let mut bytes = vec![0; words.len() * WORD];
    write_words(&words, &mut bytes);
    bytes.extend((0..rng.below(WORD)).map(|_| rng.next() as u8));
    let words = Lent::of(&bytes, rng);
    let states: Vec<State> = (0..rng.below(4)).map(|_| rough_state(rng)).collect();
    let mut row = records(&states);
    if rng.chance(20) {
        row.extend((0..rng.below(STATE)).map(|_| rng.next() as u8));
    }
    let mut row = Lent::of(&row, rng);
    pair.step_all(&words, &mut row)?;
    pair.step_all(&words, &mut row)?;
    let mut record = Lent::of(&write_state(&rough_state(rng)), rng);
    pair.step(&words, &mut record)?;
    pair.step(&words, &mut record)?;
    Ok(())
}

/// Starts and steps over bytes that are nothing at all, of any lengths.
fn noise_steps(pair: &mut Pair, rng: &mut Rng) -> Called {
    let length = rng.below(200);
    let words = Lent::noise(length, rng);
    let lengths = [STATE, rng.below(2 * STATE)];
    for length in lengths {
        pair.start(rng.next(), rng.word(), &mut Lent::noise(length, rng))?;
        pair.step(&words, &mut Lent::noise(length, rng))?;
    }
    let length = rng.below(4 * STATE);
    pair.step_all(&words, &mut Lent::noise(length, rng))?;
    Ok(())
}

fn rough_state(rng: &mut Rng) -> State {
    let few = [0, 0, 0, 0, 1, 1, 2, 3, u32::MAX - 1, u32::MAX];
    State {
        cycle: any_cycle(rng),
        tick: rng.pick(&few),
        entry: rng.pick(&few),
        first: rng.pick(&few),
        kind: rng.word(),
        row: rng.word(),
    }
}

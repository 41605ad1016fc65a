//! The tick timer (request 12): the request's rule beside a timer that is
//! stepped tick by tick, on narrow counters and through all that they can do;
//! the registers of a block; and the loop that steps lanes.

use peer::boundary::Peer;
use peer::timer::{less, Stepped, Timer, BITS, COMPARE, COUNT, ENABLE, REGISTERS, STATUS};
use peer::timers::{round, set_up, Call, Outcome, Source};

/// Both timers, of one counter.
#[derive(Clone)]
struct Both {
    turn: usize,
    timer: Timer,
    stepped: Stepped,
    /// Whether compare was written since the last reading, and whether that
    /// was after a tick.
    written: bool,
    late: bool,
}

impl Both {
    /// Right after a reading; the counter has gone round once.
    fn at(bits: u32, count: u32, compare: u32) -> Both {
        let turn = 1 << bits;
        let mut timer = Timer::fresh(bits);
        (timer.count, timer.compare) = (count, compare);
        Both {
            turn,
            timer,
            stepped: Stepped::at(bits, turn as u64 + u64::from(count), u64::from(compare)),
            written: false,
            late: false,
        }
    }

    fn with_bits(mut self, matched: bool, enabled: bool) -> Both {
        (self.timer.matched, self.timer.enabled) = (matched, enabled);
        (self.stepped.matched, self.stepped.enabled) = (matched, enabled);
        self
    }

    fn ticks(&mut self, ticks: usize) {
        (0..ticks).for_each(|_| self.stepped.tick());
    }

    fn set_compare(&mut self, value: u32) {
        self.written = true;
        self.late |= self.stepped.ticks() > 0;
        self.timer.write(COMPARE, value).expect("it can be written");
        self.stepped.set_compare(u64::from(value));
    }

    fn write_status(&mut self, value: u32) {
        self.timer.write(STATUS, value).expect("it can be written");
        if value == 1 {
            self.stepped.clear();
        }
    }

    fn set_enable(&mut self, bit: bool) {
        let value = u32::from(bit);
        self.timer.write(ENABLE, value).expect("it can be written");
        self.stepped.enabled = bit;
    }

    fn registers(&self) -> [u64; 4] {
        let read = |address| self.timer.read(address).expect("it can be read");
        REGISTERS.map(|address| u64::from(read(address)))
    }

    #[track_caller]
    fn agree(&self) {
        assert_eq!(self.registers(), self.stepped.registers());
        let raised = self.stepped.matched && self.stepped.enabled;
        assert_eq!(self.timer.is_raised(), raised);
    }

    /// A reading by both. Gives whether a match was missed or made up.
    #[track_caller]
    fn reading(&mut self) -> [bool; 2] {
        let before = self.timer.matched;
        let (ticks, came) = (self.stepped.ticks(), self.stepped.has_come());
        let should = before || self.stepped.had_come();
        self.timer.reading(self.stepped.value() as u32);
        self.stepped.reading();
        let matched = self.timer.matched;
        if ticks >= self.turn {
            // However many ticks: what is set is no invention.
            assert!(!matched || before || came);
            self.stepped.matched = matched;
        }
        self.agree();
        if ticks < self.turn && !self.written {
            assert_eq!(matched, should, "the request's claim");
        }
        if ticks < self.turn && !self.late {
            assert_eq!(matched, should, "compare written before the first tick");
        }
        (self.written, self.late) = (false, false);
        [should && !matched, matched && !should]
    }
}

/// All pairs of values of a counter.
fn values(bits: u32) -> impl Iterator<Item = [u32; 2]> {
    let values = 0..1 << bits;
    values.flat_map(move |one| (0..1 << bits).map(move |other| [one, other]))
}

/// From every state of a timer, by every number of ticks that the claim allows,
/// the rule and the steps lead to the same state. As each such state is again
/// one of these, so does every list of readings.
#[test]
fn every_reading_within_a_turn() {
    for bits in 1..=6 {
        for [count, compare] in values(bits) {
            for ticks in 0..1 << bits {
                for bits_set in 0..4 {
                    let both = Both::at(bits, count, compare);
                    let mut both = both.with_bits(bits_set & 1 == 1, bits_set & 2 == 2);
                    both.ticks(ticks);
                    assert_eq!(both.reading(), [false, false]);
                }
            }
        }
    }
}

/// Whether the match is set, by width, old and new count, and compare.
type Rule = fn(u32, u32, u32, u32) -> bool;

/// Rules that were easily taken for the request's.
const WRONG_RULES: [(&str, Rule); 11] = [
    ("the old count is come to", |bits, old, new, compare| {
        less(bits, compare, old) <= less(bits, new, old)
    }),
    ("a tick late", |bits, old, new, compare| {
        (1..less(bits, new, old)).contains(&less(bits, compare, old))
    }),
    ("a tick early", |bits, old, new, compare| {
        (1..=less(bits, new, old) + 1).contains(&less(bits, compare, old))
    }),
    ("just at compare alone", |_, old, new, compare| {
        new == compare && new != old
    }),
    ("at compare without a tick", |bits, old, new, compare| {
        let ahead = less(bits, compare, old);
        new == compare || (1..=less(bits, new, old)).contains(&ahead)
    }),
    ("at compare or above", |_, _, new, compare| new >= compare),
    ("without the wrap", |_, old, new, compare| {
        old < compare && compare <= new
    }),
    ("ticks without the wrap", |bits, old, new, compare| {
        (1..=new.saturating_sub(old)).contains(&less(bits, compare, old))
    }),
    ("compare without the wrap", |bits, old, new, compare| {
        (1..=less(bits, new, old)).contains(&compare.saturating_sub(old))
    }),
    ("half a turn is behind", |bits, _, new, compare| {
        less(bits, new, compare) < 1 << (bits - 1)
    }),
    ("half a turn is back", |bits, old, new, compare| {
        let gone = less(bits, new, old);
        gone < 1 << (bits - 1) && (1..=gone).contains(&less(bits, compare, old))
    }),
];

/// The ticks tell each of them from the request's, on counters of two bits and
/// more.
#[test]
fn wrong_rules_are_told() {
    let differs = |bits, rule: Rule| {
        let readings = values(bits).flat_map(|[old, compare]| {
            let ticks = 0..1 << bits;
            ticks.map(move |ticks| {
                let mut both = Both::at(bits, old, compare);
                both.ticks(ticks);
                both.reading();
                (old, both.timer.count, compare, both.stepped.matched)
            })
        });
        let wrong = |(old, new, compare, came)| rule(bits, old, new, compare) != came;
        readings.into_iter().any(wrong)
    };
    let right: Rule =
        |bits, old, new, compare| (1..=less(bits, new, old)).contains(&less(bits, compare, old));
    for bits in 2..=5 {
        assert!(!differs(bits, right));
        for (name, rule) in WRONG_RULES {
            assert!(differs(bits, rule), "{name}, {bits} bits");
        }
    }
}

/// The premise is needed: with 2^w ticks every match is missed, with more it
/// is missed where the last turn alone would not have set it.
#[test]
fn a_turn_or_more() {
    for bits in 1..=5 {
        let turn = 1 << bits;
        for [count, compare] in values(bits) {
            for ticks in turn..=3 * turn {
                let mut both = Both::at(bits, count, compare);
                both.ticks(ticks);
                let [missed, made_up] = both.reading();
                let ahead = less(bits, compare, count) as usize;
                let set = (1..=ticks % turn).contains(&ahead);
                assert_eq!([missed, made_up], [!set, false]);
            }
        }
    }
}

/// A match that is cleared stays so until the counter comes to compare again,
/// and then is set, however the ticks until there are read.
#[test]
fn what_is_cleared_stays_cleared() {
    for bits in 1..=4 {
        let turn = 1 << bits;
        for [count, compare] in values(bits) {
            // As many ticks as lead to compare, one at least.
            let mut way = Both::at(bits, count, compare);
            while !way.stepped.has_come() {
                way.ticks(1);
            }
            let until = way.stepped.ticks();
            for first in 0..turn {
                for second in 0..turn {
                    let both = Both::at(bits, count, compare);
                    let mut both = both.with_bits(true, true);
                    both.write_status(1);
                    for (ticks, gone) in [(first, first), (second, first + second)] {
                        both.ticks(ticks);
                        both.write_status(0);
                        both.reading();
                        assert_eq!(both.timer.matched, gone >= until);
                    }
                }
            }
        }
    }
}

/// What a list is made of.
#[derive(Clone, Copy, Debug)]
enum Act {
    Ticks(usize),
    Reading,
    Compare(u32),
    Status(u32),
    Enable(bool),
}

/// How often a match was missed or made up, and by what.
#[derive(Debug, Default)]
struct Tally {
    lists: u64,
    missed_over_a_turn: u64,
    missed_by_compare: u64,
    made_up_by_compare: u64,
}

/// Goes through all lists of so many acts.
fn go_through(both: &Both, acts: &[Act], depth: u32, tally: &mut Tally) {
    if depth == 0 {
        tally.lists += 1;
        return;
    }
    for act in acts {
        let mut next = both.clone();
        match *act {
            Act::Ticks(ticks) => next.ticks(ticks),
            Act::Compare(value) => next.set_compare(value),
            Act::Status(value) => next.write_status(value),
            Act::Enable(bit) => next.set_enable(bit),
            Act::Reading => {
                let over = both.stepped.ticks() >= both.turn;
                let [missed, made_up] = next.reading();
                tally.missed_over_a_turn += u64::from(missed && over);
                tally.missed_by_compare += u64::from(missed && !over);
                tally.made_up_by_compare += u64::from(made_up && !over);
            }
        }
        next.agree();
        go_through(&next, acts, depth - 1, tally);
    }
}

/// All lists of a length, of ticks, readings and writes in any order. Matches are
/// missed and made up only where compare is written late or a turn goes by.
#[test]
fn every_list_of_calls() {
    for (bits, depth, ticks) in [
        (1, 6, &[1, 2][..]),
        (2, 6, &[1, 4]),
        (3, 5, &[1, 3, 8]),
        (4, 4, &[1, 7, 15, 16]),
    ] {
        let mut acts = vec![Act::Reading, Act::Status(0), Act::Status(1)];
        acts.extend([Act::Enable(true), Act::Enable(false)]);
        acts.extend(ticks.iter().map(|ticks| Act::Ticks(*ticks)));
        acts.extend((0..1 << bits).map(Act::Compare));
        let mut tally = Tally::default();
        for compare in [0, 1, (1 << bits) - 1] {
            go_through(&Both::at(bits, 0, compare), &acts, depth, &mut tally);
        }
        println!("{bits} bits: {tally:?}");
        assert_eq!(tally.lists, 3 * (acts.len() as u64).pow(depth));
        assert!(tally.missed_over_a_turn > 0, "{tally:?}");
        assert!(tally.missed_by_compare > 0, "{tally:?}");
        assert!(tally.made_up_by_compare > 0, "{tally:?}");
    }
}

/// A compare that is written late takes the place of the old one for all ticks
/// since the last reading.
#[test]
fn compare_written_late() {
    let late = |from, to, ticks| {
        let mut both = Both::at(4, 0, from);
        both.ticks(ticks);
        both.set_compare(to);
        let [missed, made_up] = both.reading();
        (both.timer.matched, missed, made_up)
    };
    // The counter has come to the old one, and not to the new one.
    assert_eq!(late(3, 9, 5), (false, true, false));
    // It came to the new one before this was written.
    assert_eq!(late(9, 3, 5), (true, false, true));
    assert_eq!(late(3, 4, 5), (true, false, false));
    assert_eq!(late(9, 10, 5), (false, false, false));
    // To the count, or behind it: a turn from there.
    assert_eq!(late(9, 0, 15), (false, true, false));
}

/// The loop makes just the steps that are due: for all values to begin with,
/// all steps apart, and all gaps below 2^w between the rounds.
#[test]
fn every_run_of_the_loop() {
    for (bits, rounds) in [(1, 6), (2, 5), (3, 3), (4, 2)] {
        for [first, every] in values(bits).filter(|[_, every]| *every > 0) {
            let mut timer = Timer::fresh(bits);
            set_up(&mut timer, first, every).expect("nothing is refused");
            run_on(timer, (first, every), 0, 0, rounds, false);
        }
    }
}

/// One that brings the counter in at once loses the steps of a round that comes
/// late: compare is behind the count then.
#[test]
#[should_panic(expected = "steps that are due")]
fn the_loop_without_its_care() {
    let mut timer = Timer::fresh(3);
    set_up(&mut timer, 0, 2).expect("nothing is refused");
    run_on(timer, (0, 2), 0, 0, 2, true);
}

/// All further rounds, from a number of counts and steps on.
fn run_on(timer: Timer, run: (u32, u32), gone: u32, steps: u32, rounds: u32, hasty: bool) {
    let ((first, every), bits) = (run, timer.bits());
    if rounds == 0 {
        return;
    }
    for gap in 0..1 << bits {
        let (mut timer, mut steps, gone) = (timer, steps, gone + gap);
        let counter = (first + gone) % (1 << bits);
        let step = || {
            assert!(steps < gone / every, "no more than the steps that are due");
            steps += 1;
            Ok(())
        };
        let outcome = match hasty {
            true => hasty_round(&mut timer, counter, every, step),
            false => round(&mut timer, counter, every, step),
        };
        outcome.expect("nothing is refused");
        assert_eq!(steps, gone / every, "steps that are due");
        assert_eq!((timer.count, timer.matched), (counter, false));
        run_on(timer, run, gone, steps, rounds - 1, hasty);
    }
}

fn hasty_round(
    source: &mut dyn Source,
    counter: u32,
    every: u32,
    mut step: impl FnMut() -> Result<(), String>,
) -> Result<(), String> {
    source.reading(counter)?;
    while source.is_raised()? {
        step()?;
        source.write(STATUS, 1)?;
        let compare = source.read(COMPARE)?;
        source.set_compare(compare, every)?;
        source.reading(counter)?;
    }
    Ok(())
}

/// A block, as the C functions have it.
struct Trial(Vec<u8>);

impl Trial {
    fn of(words: [u32; 4]) -> Trial {
        Trial(words.map(u32::to_le_bytes).concat())
    }

    #[track_caller]
    fn gives(&mut self, call: Call, number: u32, value: u32) {
        let gave = call.of(&Peer, &mut self.0);
        assert_eq!(gave, Outcome { number, value }, "{call}");
    }

    /// A call that is done, and the words that it leaves.
    #[track_caller]
    fn leaves(&mut self, call: Call, words: [u32; 4]) {
        self.gives(call, 0, 0);
        assert_eq!(self.0, Trial::of(words).0, "{call}");
    }

    /// A call that is refused, and changes nothing.
    #[track_caller]
    fn refuses(&mut self, call: Call, number: u32) {
        let before = self.0.clone();
        self.gives(call, number, 0);
        assert_eq!(self.0, before, "{call}");
    }

    #[track_caller]
    fn raised(&mut self, raised: bool) {
        self.gives(Call::Interrupt, u32::from(raised), 0);
    }
}

fn reading(count: u32) -> Call {
    Call::Reading { count }
}

fn write(address: u32, value: u32) -> Call {
    Call::Write { address, value }
}

#[test]
fn a_block_by_hand() {
    let mut block = Trial::of([u32::MAX; 4]);
    block.leaves(Call::Start, [0; 4]);
    block.leaves(write(COMPARE, 0x0403_0201), [0, 0x0403_0201, 0, 0]);
    assert_eq!(block.0[4..8], [1, 2, 3, 4]);
    block.leaves(write(COMPARE, 5), [0, 5, 0, 0]);
    block.leaves(reading(4), [4, 5, 0, 0]);
    block.leaves(reading(4), [4, 5, 0, 0]);
    block.leaves(reading(5), [5, 5, 1, 0]);
    block.raised(false);
    block.leaves(write(ENABLE, 3), [5, 5, 1, 1]);
    block.raised(true);
    block.leaves(write(STATUS, 0), [5, 5, 1, 1]);
    block.leaves(write(STATUS, u32::MAX - 1), [5, 5, 1, 1]);
    block.leaves(reading(6), [6, 5, 1, 1]);
    block.leaves(write(STATUS, u32::MAX), [6, 5, 0, 1]);
    block.raised(false);
    // Behind the count: only the whole way round leads there.
    block.leaves(reading(u32::MAX), [u32::MAX, 5, 0, 1]);
    block.leaves(reading(4), [4, 5, 0, 1]);
    block.leaves(reading(3), [3, 5, 1, 1]);
    block.leaves(write(ENABLE, 2), [3, 5, 1, 0]);
    block.raised(false);
    for (address, value) in [(COUNT, 3), (COMPARE, 5), (STATUS, 1), (ENABLE, 0)] {
        block.gives(Call::Read { address }, 0, value);
    }
    block.leaves(Call::Start, [0; 4]);
}

/// The old count is not come to, by whatever ticks there are before a turn.
#[test]
fn compare_at_the_old_count() {
    for count in [7, 8, 6, 0, 7 ^ 1 << 31] {
        let mut block = Trial::of([7, 7, 0, 1]);
        block.leaves(reading(count), [count, 7, 0, 1]);
    }
}

#[test]
fn other_bits() {
    let (noise, bits) = (0xFFFF_FFFE, 0x8000_0001);
    let mut block = Trial::of([7, 9, noise, bits]);
    for (address, value) in [(COUNT, 7), (COMPARE, 9), (STATUS, 0), (ENABLE, 1)] {
        block.gives(Call::Read { address }, 0, value);
    }
    block.raised(false);
    block.refuses(write(COUNT, 7), 39);
    block.refuses(write(2, 7), 38);
    assert_eq!(block.0, Trial::of([7, 9, noise, bits]).0);
    for (call, after) in [
        (reading(8), [8, 9, 0, 1]),
        (reading(9), [9, 9, 1, 1]),
        (write(COMPARE, 3), [7, 3, 0, 1]),
        (write(STATUS, 0), [7, 9, 0, 1]),
        (write(STATUS, 1), [7, 9, 0, 1]),
        (write(ENABLE, noise), [7, 9, 0, 0]),
    ] {
        Trial::of([7, 9, noise, bits]).leaves(call, after);
    }
}

/// 38 is asked first, and of a block of another length it is all there is.
#[test]
fn refusals() {
    let words = [7, 9, 1, 1];
    let others = (0..=40).filter(|address| !REGISTERS.contains(address));
    let far = [256, 65_536, 1 << 31, u32::MAX - 3, u32::MAX];
    for address in others.chain(far) {
        let mut block = Trial::of(words);
        block.refuses(Call::Read { address }, 38);
        block.refuses(write(address, 1), 38);
    }
    for value in [0, 1, 7, u32::MAX] {
        Trial::of(words).refuses(write(COUNT, value), 39);
    }
    for length in (0..=40).filter(|length| *length != 16) {
        let bytes = Trial::of(words).0.repeat(3)[..length].to_vec();
        for address in [0, 4, 8, 12, 1, 16, u32::MAX] {
            Trial(bytes.clone()).refuses(Call::Read { address }, 38);
            Trial(bytes.clone()).refuses(write(address, 1), 38);
        }
        Trial(bytes.clone()).refuses(Call::Start, 38);
        Trial(bytes.clone()).refuses(reading(9), 38);
        Trial(bytes).refuses(Call::Interrupt, 0);
    }
}

/// A word less another, as the product's processors subtract them.
#[test]
fn differences_of_words() {
    let edges = [0, 1, 2, (1 << 31) - 1, 1 << 31, u32::MAX - 1, u32::MAX];
    for one in edges {
        for other in edges {
            assert_eq!(less(BITS, one, other), one.wrapping_sub(other));
        }
    }
}

//! The harness finds no difference between this implementation and its naive
//! twin, and finds each of many faults.

#[macro_use]
mod ways;

use peer::as_peer;
use peer::boundary::{write_words, Boundary, Peer, STATE};
use peer::harness::{run, Settings};
use peer::naive::Naive;
use peer::{Plan, QUESTIONS};

const SMALL: Settings = Settings {
    seed: 5,
    first_case: 0,
    cases: 600,
    large: false,
    trace: false,
};

#[test]
fn the_naive_twin_agrees() {
    let summary = run(&SMALL, &Peer, &Naive).unwrap_or_else(|difference| panic!("{difference}"));
    println!("{summary:?}");
    println!("{}", summary.gates);
    assert!(summary.calls.total() > 20_000);
}

#[test]
fn large_plans_run_too() {
    let settings = Settings {
        cases: 130,
        large: true,
        ..SMALL
    };
    run(&settings, &Peer, &Peer).unwrap_or_else(|difference| panic!("{difference}"));
}

ways! {
    /// Ways to be wrong.
    enum Fault { NeverAsks(u64) }

    const FAULTS: 21 = {
        AcceptsAll,
        NamesRowZero,
        NamesNoTable,
        BuildsOneWordMore,
        BuildsIntoTooFew,
        BuildsPartOfAWord,
        BuildTakesLastLanesOff,
        BuildWritesBefore,
        AsksLaneFirst,
        StartTakesAnyLength,
        StartKeepsKind,
        StartAtTickOne,
        StepTakesLongStates,
        StepHasNoEnd,
        StepEndsEarly,
        StepWritesWhenRefused,
        StepAllMovesSome,
        StepAllGivesHighest,
        StepAllSkipsShortRecord,
        StepAllRefusesNone,
        CountsPartOfAWord,
    };

    /// What arrivals are written.
    const WRONG_ARRIVALS: 13 = {
        SwapsArrivals,
        LowestForBoth,
        HighestForBoth,
        LowestFromLatest,
        AddsPrecisionToLatest,
        TakesPrecisionFromEarliest,
        ArrivesFromStart,
        ArrivesInItsPeriod,
        DelaysOfFirstLink,
        DelaysOfNextFrame,
        EndOfNextFrame,
        LengthOnFirstLink,
        ArrivesAsFirstFrame,
    };

    /// What is asked before, and what is left.
    const WRONG_REFUSALS: 19 = {
        ArrivesThoughRefused,
        NamesFrameZero,
        NamesLinkTable,
        NamesNoFrame,
        GivesLaneNumber,
        TakesFrameAtTheEnd,
        TakesSixteenBits,
        TakesThirtyBits,
        AsksFrameFirst,
        AsksTicksFirst,
        AsksTicksBeforeFrame,
        NamesRowOfFewTicks,
        WantsThreeWords,
        WantsWholeWords,
        WritesForNoFrame,
        WritesOneOfTwo,
        WritesPartOfAWord,
        WritesAThirdWord,
        WritesHighestByteFirst,
    };
}

use Fault::*;

/// This implementation with one fault.
struct Faulty(Fault);

impl Faulty {
    fn changed(&self, answer: u64) -> u64 {
        match self.0 {
            AcceptsAll => 0,
            NeverAsks(number) if answer & 0xFFFF == number => 0,
            NamesRowZero => answer & 0xFFFF_FFFF,
            NamesNoTable => answer & !0xFFFF_0000,
            _ => answer,
        }
    }
}

impl Boundary for Faulty {
    as_peer!(gates);

    fn check(&self, image: &[u8]) -> u64 {
        self.changed(Peer.check(image))
    }

    fn build(&self, image: &[u8], lane: u32, words: &mut [u8]) -> u64 {
        let lane = match self.0 {
            BuildTakesLastLanesOff if lane > 2 => u32::MAX,
            _ => lane,
        };
        let whole = words.len() / 4 * 4;
        let answer = Peer.build(image, lane, words);
        match self.0 {
            BuildsOneWordMore if answer == 0 => {
                let written = 8 + 12 * usize::from(words[4]);
                if let Some(byte) = words.get_mut(written) {
                    *byte ^= 1;
                }
            }
            BuildsIntoTooFew if answer == 26 && whole > 0 => words[0] ^= 1,
            BuildsPartOfAWord if whole < words.len() => words[whole] ^= 1,
            BuildWritesBefore if answer == 25 && whole > 0 => words[0] ^= 1,
            AsksLaneFirst if lane >= 96 => return 25,
            _ => {}
        }
        answer
    }

    fn arrivals(&self, image: &[u8], frame: u32, ticks: &mut [u8]) -> u64 {
        if let Some(answer) = self.wrong_answer(image, frame, ticks) {
            return answer;
        }
        let exists = |frame: u32| Peer.arrivals(image, frame, &mut []) == 26;
        let before = frame.saturating_sub(1);
        let frame = match self.0 {
            TakesFrameAtTheEnd if exists(before) && !exists(frame) => before,
            TakesSixteenBits => frame & 0xFFFF,
            TakesThirtyBits => frame & 0x3FFF_FFFF,
            _ => frame,
        };
        let answer = Peer.arrivals(image, frame, ticks);
        let whole = ticks.len() / 4;
        match self.0 {
            WritesForNoFrame if answer & 0xFFFF == 5 && whole >= 2 => ticks[0] ^= 1,
            WritesOneOfTwo if answer == 26 && whole == 1 => ticks[0] ^= 1,
            WritesPartOfAWord if answer == 26 && ticks.len() > 4 => ticks[4] ^= 1,
            WritesAThirdWord if answer == 0 && whole >= 3 => ticks[8] ^= 1,
            WritesHighestByteFirst if answer == 0 => ticks[..4].reverse(),
            fault if answer == 0 && WRONG_ARRIVALS.contains(&fault) => {
                let words = self.arrivals_of(&Plan::decode(image), frame as usize);
                write_words(&words, ticks);
            }
            _ => {}
        }
        answer
    }

    fn start(&self, cycle: u64, first: u32, state: &mut [u8]) -> u32 {
        match self.0 {
            StartTakesAnyLength if state.len() > STATE => {
                Peer.start(cycle, first, &mut state[..STATE])
            }
            StartKeepsKind if state.len() == STATE => {
                let kind = state[20];
                let answer = Peer.start(cycle, first, state);
                state[20] = kind;
                answer
            }
            StartAtTickOne if state.len() == STATE => {
                let answer = Peer.start(cycle, first, state);
                state[8] = 1;
                answer
            }
            _ => Peer.start(cycle, first, state),
        }
    }

    fn step(&self, words: &[u8], state: &mut [u8]) -> u32 {
        let before = state.to_vec();
        let answer = match self.0 {
            StepTakesLongStates if state.len() > STATE => Peer.step(words, &mut state[..STATE]),
            CountsPartOfAWord => Peer.step(&words[..words.len().saturating_sub(1)], state),
            _ => Peer.step(words, state),
        };
        match self.0 {
            StepHasNoEnd if answer == 28 => 0,
            StepEndsEarly if before.starts_with(&[0xFF; 8]) && answer == 0 => {
                state.copy_from_slice(&before);
                28
            }
            StepWritesWhenRefused if answer != 0 && !state.is_empty() => {
                state[0] ^= 1;
                answer
            }
            _ => answer,
        }
    }

    fn step_all(&self, words: &[u8], states: &mut [u8]) -> u32 {
        let whole = states.len() / STATE * STATE;
        match self.0 {
            StepAllMovesSome => {
                let mut first_refusal = 0;
                for record in states.chunks_mut(STATE) {
                    let answer = Peer.step(words, record);
                    if first_refusal == 0 {
                        first_refusal = answer;
                    }
                }
                first_refusal
            }
            StepAllGivesHighest => {
                let answer = Peer.step_all(words, states);
                let mut highest = answer;
                for record in states.to_vec().chunks_mut(STATE) {
                    let own = Peer.step(words, record);
                    if answer != 0 && own != 0 {
                        highest = own;
                    }
                }
                highest
            }
            StepAllSkipsShortRecord => Peer.step_all(words, &mut states[..whole]),
            StepAllRefusesNone if states.is_empty() => 27,
            _ => Peer.step_all(words, states),
        }
    }
}

impl Faulty {
    /// What an accepted plan's frame is said to have for arrivals.
    fn arrivals_of(&self, plan: &Plan, frame: usize) -> [u32; 2] {
        let row = match self.0 {
            ArrivesAsFirstFrame => 0,
            _ => frame,
        };
        let next = plan.frames[(row + 1) % plan.frames.len()];
        let [stream, k, _, link, start, ..] = plan.frames[row];
        let end = match self.0 {
            ArrivesFromStart => start,
            ArrivesInItsPeriod => {
                let period = plan.period(plan.streams[stream as usize][0]);
                start + plan.frame_ticks(stream, link) - k * period
            }
            EndOfNextFrame => next[4] + plan.frame_ticks(next[0], next[3]),
            LengthOnFirstLink => start + plan.frame_ticks(stream, 0),
            _ => start + plan.frame_ticks(stream, link),
        };
        let carrier = match self.0 {
            DelaysOfFirstLink => 0,
            DelaysOfNextFrame => next[3],
            _ => link,
        };
        let [_, _, delay, _, lowest, ..] = plan.links[carrier as usize];
        let [earliest, latest] = [end + lowest, end + delay];
        match self.0 {
            SwapsArrivals => [latest, earliest],
            LowestForBoth => [earliest; 2],
            HighestForBoth => [latest; 2],
            LowestFromLatest => [latest - lowest, latest],
            AddsPrecisionToLatest => [earliest, latest + plan.precision],
            TakesPrecisionFromEarliest => [earliest.saturating_sub(plan.precision), latest],
            _ => [earliest, latest],
        }
    }

    /// The answer where the right one is not given, and nothing is written.
    fn wrong_answer(&self, image: &[u8], frame: u32, ticks: &[u8]) -> Option<u64> {
        let right = Peer.arrivals(image, frame, &mut ticks.to_vec());
        let is_accepted = Peer.check(image) == 0;
        let is_none = is_accepted && right & 0xFFFF == 5;
        let row = u64::from(frame) << 32;
        match self.0 {
            ArrivesThoughRefused if !is_accepted => Some(0),
            NamesFrameZero if is_none => Some(5 | 8 << 16),
            NamesLinkTable if is_none => Some(5 | 6 << 16 | row),
            NamesNoFrame if is_none => Some(5),
            GivesLaneNumber if is_none => Some(25),
            AsksFrameFirst if frame >= 512 => Some(5 | 8 << 16 | row),
            AsksTicksFirst if ticks.len() < 8 => Some(26),
            AsksTicksBeforeFrame if is_none && ticks.len() < 8 => Some(26),
            NamesRowOfFewTicks if right == 26 => Some(26 | 8 << 16 | row),
            WantsThreeWords if right == 0 && ticks.len() < 12 => Some(26),
            WantsWholeWords if right == 0 && !ticks.len().is_multiple_of(4) => Some(26),
            _ => None,
        }
    }
}

#[test]
fn each_fault_is_found() {
    let settings = Settings {
        cases: 3_000,
        ..SMALL
    };
    let never_asked = QUESTIONS.iter().map(|number| NeverAsks(u64::from(*number)));
    let of_arrivals = WRONG_ARRIVALS.into_iter().chain(WRONG_REFUSALS);
    for fault in FAULTS.into_iter().chain(of_arrivals).chain(never_asked) {
        let found = run(&settings, &Peer, &Faulty(fault));
        assert!(found.is_err(), "{fault:?} goes unnoticed");
    }
}

//! A stand-in for the library's modes, with a block of its own layout, which
//! can be made wrong in one way.

use std::cell::Cell;

use super::calls::{Modes, BLOCK, PLACES};
use super::faults::Fault;
use crate::boundary::{read_state, read_words, write_state, write_words, Boundary, Peer, STATE};
use crate::dispatch::start;
use crate::image::{Plan, WORD};

use Fault::*;

/// The stand-in, with a fault or without.
#[derive(Clone, Copy, Debug, Default)]
pub struct Standin(pub Option<Fault>);

/// Five words for each place, then the words taken, what runs, and what is
/// requested.
type Words = [u32; BLOCK / WORD];

const TAKEN: usize = 40;
const RUNNING: usize = 41;
const REQUESTED: usize = 42;

/// Where nothing runs or is requested; else the place and 1.
const NONE: u32 = 0;
/// Set on what runs once a request was taken, and on a request that has been
/// passed by.
const FLAG: u32 = 1 << 8;

thread_local! {
    /// Where one fault keeps its request.
    static OUTSIDE: Cell<u32> = const { Cell::new(NONE) };
}

/// A place: H, or 0 where it holds none; cores; links, and P times 2^16; the
/// first word of the first table; the word after the last.
#[derive(Clone, Copy, Debug, PartialEq, Eq)]
struct Place {
    cycle: u32,
    cores: u32,
    links: u32,
    precision: u32,
    first: u32,
    end: u32,
}

impl Place {
    fn of([cycle, cores, links, first, end]: [u32; 5]) -> Place {
        Place {
            cycle,
            cores,
            links: links & 0xFFFF,
            precision: links >> 16,
            first,
            end,
        }
    }

    fn words(self) -> [u32; 5] {
        let links = self.links | self.precision << 16;
        [self.cycle, self.cores, links, self.first, self.end]
    }

    fn lanes(self) -> usize {
        self.cores as usize + self.links as usize
    }

    /// Where each lane's table begins, for so many lanes at most: a block may
    /// say that there are more than it has records.
    fn firsts(self, words: &[u32], most: usize) -> Vec<u32> {
        let mut first = self.first;
        let mut firsts = Vec::new();
        for _ in 0..self.lanes().min(most) {
            firsts.push(first);
            let entries = words.get(first as usize + 1).copied().unwrap_or(0);
            first = first.wrapping_add(entries.wrapping_mul(3).wrapping_add(2));
        }
        firsts
    }
}

/// A block, taken apart.
struct Block(Words);

impl Block {
    fn read(bytes: &[u8]) -> Block {
        let mut words = read_words(bytes);
        words.resize(BLOCK / WORD, 0);
        Block(words.try_into().expect("as many words"))
    }

    fn write(&self, bytes: &mut [u8]) {
        write_words(&self.0, bytes);
    }

    fn held(&self, place: u32) -> Option<Place> {
        let words = self.0[..TAKEN].as_chunks::<5>().0.get(place as usize)?;
        let place = Place::of(*words);
        (place.cycle > 0).then_some(place)
    }

    fn put(&mut self, place: u32, plan: Place) {
        self.0[..TAKEN].as_chunks_mut::<5>().0[place as usize] = plan.words();
    }

    fn clear(&mut self, place: u32) {
        if let Some(words) = self.0[..TAKEN]
            .as_chunks_mut::<5>()
            .0
            .get_mut(place as usize)
        {
            *words = [0; 5];
        }
    }

    /// The place that a word names.
    fn named(&self, word: usize) -> Option<u32> {
        (self.0[word] & (FLAG - 1)).checked_sub(1)
    }

    fn running(&self) -> Option<Place> {
        self.held(self.named(RUNNING)?)
    }

    fn end_run(&mut self) {
        (self.0[RUNNING], self.0[REQUESTED]) = (NONE, NONE);
    }
}

impl Modes for Standin {
    fn fresh(&self, modes: &mut [u8]) -> u32 {
        if self.is(FreshOfAnyLength) {
            modes.fill(0);
            return 0;
        }
        if let Some(number) = self.other_length(modes) {
            return number;
        }
        let old = Block::read(&modes[..BLOCK.min(modes.len())]);
        let mut block = Block([0; BLOCK / WORD]);
        match self.0 {
            Some(FreshDoesNothing) => return 0,
            Some(FreshKeepsPlans) => block.0[..TAKEN].copy_from_slice(&old.0[..TAKEN]),
            Some(FreshKeepsTaken) => block.0[TAKEN] = old.0[TAKEN],
            Some(FreshKeepsRun) => {
                block = old;
                block.0[TAKEN] = 0;
            }
            _ => {}
        }
        block.write(modes);
        u32::from(self.is(FreshGives1))
    }

    fn hold(&self, image: &[u8], place: u32, words: &mut [u8], modes: &mut [u8]) -> u64 {
        if self.is(LengthAskedAfterImage) && Peer.check(image) != 0 {
            return Peer.check(image);
        }
        if let Some(number) = self.other_length(modes) {
            return u64::from(number);
        }
        let mut block = Block::read(&modes[..BLOCK.min(modes.len())]);
        let answer = self.hold_in(&mut block, image, place, words);
        block.write(modes);
        match self.0 {
            Some(HoldGivesNumberAlone) => answer & 0xFFFF,
            _ => answer,
        }
    }

    fn start(
        &self,
        place: u32,
        cycle: u64,
        words: &mut [u8],
        states: &mut [u8],
        modes: &mut [u8],
    ) -> u32 {
        let place = if self.is(StartModulo8) {
            place % 8
        } else {
            place
        };
        if self.is(LengthAskedAfter43) && place as usize >= PLACES {
            return 43;
        }
        if let Some(number) = self.other_length(modes) {
            return number;
        }
        let mut block = Block::read(&modes[..BLOCK.min(modes.len())]);
        let number = self.start_in(&mut block, place, cycle, words, states);
        match (self.0, number) {
            (Some(Start27DropsRequest), 27) => block.0[REQUESTED] = NONE,
            (Some(Start43DropsRequest), 43) => block.0[REQUESTED] = NONE,
            (Some(Start27EndsRun), 27) | (Some(Start43EndsRun), 43) => block.end_run(),
            (Some(Start27Runs), 27) if block.named(RUNNING).is_some() => {
                block.0[RUNNING] = place + 1;
            }
            _ => {}
        }
        block.write(modes);
        number
    }

    fn request(&self, place: u32, modes: &mut [u8]) -> u32 {
        if self.is(LengthAskedAfter43) && place as usize >= PLACES {
            return 43;
        }
        if let Some(number) = self.other_length(modes) {
            return number;
        }
        let mut block = Block::read(&modes[..BLOCK.min(modes.len())]);
        let number = self.request_in(&mut block, place);
        block.write(modes);
        number
    }

    fn step(&self, words: &mut [u8], states: &mut [u8], modes: &mut [u8]) -> u32 {
        if let Some(number) = self.other_length(modes) {
            return number;
        }
        let mut block = Block::read(&modes[..BLOCK.min(modes.len())]);
        if self.is(RequestKeptOutside) {
            block.0[REQUESTED] = OUTSIDE.get();
        }
        let number = self.step_in(&mut block, words, states);
        if self.is(RequestKeptOutside) {
            OUTSIDE.set(block.0[REQUESTED]);
            block.0[REQUESTED] = NONE;
        }
        block.write(modes);
        number
    }
}

impl Standin {
    fn is(&self, fault: Fault) -> bool {
        self.0 == Some(fault)
    }

    /// What a block of another length gives.
    fn other_length(&self, modes: &mut [u8]) -> Option<u32> {
        let length = modes.len();
        let is_taken = match self.0 {
            Some(LongerTaken) => length >= BLOCK,
            Some(ShorterTaken) => length == BLOCK || length == BLOCK - 1,
            Some(LengthModulo256) => length % 256 == BLOCK,
            Some(LengthModulo65536) => length % 65_536 == BLOCK,
            _ => length == BLOCK,
        };
        if is_taken {
            return None;
        }
        match self.0 {
            Some(OtherLengths0) => Some(0),
            Some(OtherLengths43) => Some(43),
            Some(OtherLengthsCleared) => {
                modes.fill(0);
                Some(27)
            }
            _ => Some(27),
        }
    }

    fn hold_in(&self, block: &mut Block, image: &[u8], place: u32, words: &mut [u8]) -> u64 {
        let lent = match self.0 {
            Some(HoldRoundsUp) => words.len().div_ceil(WORD),
            _ => words.len() / WORD,
        };
        match self.0 {
            Some(HoldAsks43First) if place as usize >= PLACES => return 43,
            Some(HoldAsks26First) if lent == 0 => return 26,
            _ => {}
        }
        let mut tables = match crate::tables(image) {
            Ok(tables) => tables,
            Err(refusal) => {
                self.refuse_image(block, place);
                return refusal.code();
            }
        };
        if self.is(HoldLanesReversed) {
            tables.reverse();
        }
        let tables = tables.concat();
        let place = match self.0 {
            Some(HoldAt8) if place == 8 => 0,
            Some(HoldModulo8) => place % 8,
            Some(HoldModulo256) => place % 256,
            _ => place,
        };
        let begins = self.begins(block, place);
        let suffices = self.needed(block, place, begins, tables.len()) <= lent;
        if let Some(number) = self.refused_hold(block, place, suffices) {
            if self.is(Refused26Writes) && number == 26 {
                put(&tables, begins, words);
            }
            return number;
        }
        self.write_tables(&tables, begins, words);
        let plan = Plan::decode(image);
        self.take_in(block, place, &plan, [begins, begins + tables.len()]);
        0
    }

    fn refuse_image(&self, block: &mut Block, place: u32) {
        match self.0 {
            Some(RefusedImageEndsRun) => block.end_run(),
            Some(RefusedImageEmptiesPlace) => block.clear(place),
            Some(RefusedImageDropsRequest) => block.0[REQUESTED] = NONE,
            _ => {}
        }
    }

    /// The words that a hold asks for.
    fn needed(&self, block: &Block, place: u32, begins: usize, words: usize) -> usize {
        match self.0 {
            Some(HoldNeedsOneWordMore) => begins + words + 1,
            Some(HoldNeedsOneWordLess) => begins + words - 1,
            Some(HoldIgnoresTaken) => words,
            Some(HoldFreesReplaced) => {
                let freed = block.held(place).map_or(0, |old| old.end - old.first);
                (begins + words).saturating_sub(freed as usize)
            }
            _ => begins + words,
        }
    }

    /// 43 and 26 of an accepted image.
    fn refused_hold(&self, block: &mut Block, place: u32, suffices: bool) -> Option<u64> {
        let is_place = (place as usize) < PLACES;
        let number = match self.0 {
            Some(HoldAsks26Before43) if !suffices => 26,
            Some(HoldAt8Gives25) if !is_place => 25,
            Some(HoldOnlyWhereFree) if block.held(place).is_some() => 43,
            Some(HoldRefusedInRun) if is_place && block.running().is_some() => 27,
            _ if !is_place => 43,
            _ if !suffices => 26,
            _ => return None,
        };
        match (self.0, number) {
            (Some(Refused43EndsRun), 43) | (Some(Refused26EndsRun), 26) => block.end_run(),
            (Some(Refused26EmptiesPlace), 26) => block.clear(place),
            _ => {}
        }
        Some(number)
    }

    /// Where the tables of a plan are written.
    fn begins(&self, block: &Block, place: u32) -> usize {
        let old = block.held(place);
        match (self.0, old) {
            (Some(HoldWritesOverAll), _) => 0,
            (Some(HoldWritesOverReplaced), Some(old)) => old.first as usize,
            _ => block.0[TAKEN] as usize,
        }
    }

    fn write_tables(&self, tables: &[u32], begins: usize, words: &mut [u8]) {
        match self.0 {
            Some(HoldLeavesWords) => return,
            Some(HoldWritesAWordMore) => put(&[0], begins + tables.len(), words),
            Some(HoldClearsRest) => words[WORD * begins..].fill(0),
            _ => {}
        }
        put(tables, begins, words);
    }

    fn take_in(&self, block: &mut Block, place: u32, plan: &Plan, [first, end]: [usize; 2]) {
        if self.is(HoldForgetsOthers) {
            block.0[..TAKEN].fill(0);
        }
        let keeps_run = match self.0 {
            Some(HoldKeepsRun) => true,
            Some(HoldElsewhereKeepsRun) => block.named(RUNNING) != Some(place),
            Some(HoldThereKeepsRun) => block.named(RUNNING) == Some(place),
            _ => false,
        };
        let was_held = block.held(place).is_some();
        match self.0 {
            Some(HoldKeepsReplaced) if was_held => {}
            Some(HoldForgetsReplaced) if was_held => block.clear(place),
            _ => block.put(
                place,
                Place {
                    cycle: plan.cycle,
                    cores: plan.cores.len() as u32,
                    links: plan.links.len() as u32,
                    precision: plan.precision,
                    first: first as u32,
                    end: end as u32,
                },
            ),
        }
        block.0[TAKEN] = end as u32 + u32::from(self.is(HoldTakesOneWordMore));
        if self.is(HoldWritesOverReplaced) && was_held {
            block.0[TAKEN] = block.0[TAKEN].max(end as u32);
        }
        if !keeps_run {
            block.end_run();
        }
        if self.is(HoldStarts) {
            block.0[RUNNING] = place + 1;
        }
    }

    fn start_in(
        &self,
        block: &mut Block,
        place: u32,
        cycle: u64,
        words: &[u8],
        states: &mut [u8],
    ) -> u32 {
        if self.is(StartAsks27First) && !states.len().is_multiple_of(STATE) {
            return 27;
        }
        let Some(plan) = block.held(place) else {
            return match self.0 {
                Some(StartOfNoneGives27) if (place as usize) < PLACES => 27,
                Some(StartOf8Gives27) if place as usize >= PLACES => 27,
                _ => 43,
            };
        };
        let place = match (self.0, block.named(REQUESTED)) {
            (Some(StartTakesRequested), Some(requested)) => requested,
            _ => place,
        };
        let plan = block.held(place).unwrap_or(plan);
        let running = block.running();
        match self.0 {
            Some(StartAsks44) if running.is_some_and(|now| !is_like(now, plan)) => return 44,
            Some(StartRefusedInRun) if running.is_some() => return 27,
            Some(StartNotInLastCycle) if cycle == u64::MAX => return 28,
            _ => {}
        }
        let row = match self.0 {
            Some(StartTakesFewerRecords) => states.len() <= plan.lanes() * STATE,
            Some(StartTakesMoreRecords) => states.len() >= plan.lanes() * STATE,
            Some(StartTakesUnevenRow) => states.len() / STATE == plan.lanes(),
            _ => states.len() == plan.lanes() * STATE,
        };
        let lent = match self.0 {
            Some(StartRoundsWordsUp) => words.len().div_ceil(WORD),
            _ => words.len() / WORD,
        };
        let end = match self.0 {
            Some(StartIgnoresWords) => 0,
            Some(StartAsksAllWords) => block.0[TAKEN],
            _ => plan.end,
        };
        if !row || lent < end as usize {
            return 27;
        }
        self.write_starts(plan, cycle, words, states);
        let requested = block.0[REQUESTED];
        if !self.is(StartLeavesRunning) || block.0[RUNNING] == NONE {
            block.0[RUNNING] = place + 1;
        }
        block.0[REQUESTED] = match self.0 {
            Some(StartKeepsRequest) => requested,
            Some(StartKeepsOtherRequest) if requested != place + 1 => requested,
            _ => NONE,
        };
        if self.is(RequestKeptOutside) {
            OUTSIDE.set(NONE);
        }
        0
    }

    fn write_starts(&self, plan: Place, cycle: u64, words: &[u8], states: &mut [u8]) {
        let cycle = match self.0 {
            Some(StartInCycle0) => 0,
            Some(StartIn32Bits) => cycle & 0xFFFF_FFFF,
            Some(StartInNextCycle) => cycle.saturating_add(1),
            _ => cycle,
        };
        let records = states.as_chunks_mut::<STATE>().0;
        let firsts = plan.firsts(&read_words(words), records.len());
        let lanes = firsts.len();
        for (lane, (record, first)) in records.iter_mut().zip(firsts).enumerate() {
            let old = read_state(record);
            let mut state = start(cycle, first);
            match self.0 {
                Some(StartsFirstLaneAlone) if lane > 0 => continue,
                Some(StartLeavesLastLane) if lane + 1 == lanes && lane > 0 => continue,
                Some(StartLeavesShown) => (state.kind, state.row) = (old.kind, old.row),
                Some(StartLeavesFirsts) => state.first = old.first,
                _ => {}
            }
            *record = write_state(&state);
        }
    }

    fn request_in(&self, block: &mut Block, place: u32) -> u32 {
        let place = match self.0 {
            Some(RequestModulo8) => place % 8,
            Some(RequestModulo256) => place % 256,
            _ => place,
        };
        let (running, standing) = (block.running(), block.0[REQUESTED]);
        if self.is(RequestAsks44First) && running.is_none() {
            return 44;
        }
        let Some(plan) = block.held(place) else {
            if self.is(Refused43Drops) {
                block.0[REQUESTED] = NONE;
            }
            return if self.is(RequestOfNone44) { 44 } else { 43 };
        };
        if !self.is_like_running(block, plan) {
            match self.0 {
                Some(Refused44Drops) => block.0[REQUESTED] = NONE,
                Some(Refused44Replaces) if standing != NONE => block.0[REQUESTED] = place + 1,
                Some(RequestBeforeStart43) if running.is_none() => return 43,
                Some(RequestBeforeStart27) if running.is_none() => return 27,
                _ => {}
            }
            return 44;
        }
        let is_running = block.named(RUNNING) == Some(place);
        match self.0 {
            Some(RequestOfRunning44) if is_running => return 44,
            Some(RequestOfRunningDoesNothing) if is_running => return 0,
            Some(RequestWhileOneStands44) if standing != NONE => return 44,
            Some(RequestDoesNotReplace) if standing != NONE => return 0,
            Some(RequestKeptOutside) => {
                OUTSIDE.set(place + 1);
                return 0;
            }
            _ => {}
        }
        block.0[REQUESTED] = place + 1;
        0
    }

    /// 44
    fn is_like_running(&self, block: &Block, plan: Place) -> bool {
        let Some(now) = block.running() else {
            return self.is(RequestBeforeStart);
        };
        let [cycle, cores, links] = [
            now.cycle == plan.cycle,
            now.cores == plan.cores,
            now.links == plan.links,
        ];
        let words = |place: Place| place.end - place.first;
        match self.0 {
            Some(RequestIgnoresCycle) => cores && links,
            Some(RequestIgnoresCores) => cycle && links,
            Some(RequestIgnoresLinks) => cycle && cores,
            Some(RequestComparesLanes) => cycle && now.lanes() == plan.lanes(),
            Some(RequestComparesPrecision) => {
                cycle && cores && links && now.precision == plan.precision
            }
            Some(RequestComparesWords) => cycle && cores && links && words(now) == words(plan),
            Some(RequestComparesWithRequested) => {
                let standing = block.named(REQUESTED).and_then(|place| block.held(place));
                standing.is_none_or(|standing| is_like(standing, plan))
            }
            _ => cycle && cores && links,
        }
    }

    fn step_in(&self, block: &mut Block, words: &mut [u8], states: &mut [u8]) -> u32 {
        let Some(running) = block.running() else {
            return match self.0 {
                Some(StepBeforeStart0) => 0,
                Some(StepBeforeStart28) => 28,
                _ => 27,
            };
        };
        let is_row = match self.0 {
            Some(StepTakesFewerRecords) => {
                states.len() >= STATE && states.len() <= running.lanes() * STATE
            }
            Some(StepTakesMoreRecords) => {
                states.len() >= running.lanes() * STATE && states.len().is_multiple_of(STATE)
            }
            Some(StepTakesUnevenRow) => states.len() / STATE == running.lanes(),
            Some(StepTakesNoRecords) => {
                states.is_empty() || states.len() == running.lanes() * STATE
            }
            _ => states.len() == running.lanes() * STATE,
        };
        let lent = words.len() / WORD;
        let requested = block.named(REQUESTED).and_then(|place| block.held(place));
        let refused = match self.0 {
            Some(StepAsks28First) if is_at_end(states, running.cycle) => Some(28),
            _ if !is_row => Some(27),
            Some(StepAsksAllWords) if lent < block.0[TAKEN] as usize => Some(27),
            Some(StepAsksRequestedWords) => {
                requested.and_then(|plan| (lent < plan.end as usize).then_some(27))
            }
            Some(StepEndsACycleEarly) if cycle_of(states) == u64::MAX => Some(28),
            Some(StepEndsATickEarly) if is_before_end(states, running.cycle) => Some(28),
            _ => None,
        };
        if let Some(number) = refused {
            if self.is(TakenThough27) && block.0[REQUESTED] != NONE {
                self.taken(block);
            }
            return number;
        }
        if states.is_empty() || self.is(StepMovesNothing) {
            return 0;
        }
        self.step_rows(block, running, requested, words, states)
    }

    /// Steps a row that will do.
    fn step_rows(
        &self,
        block: &mut Block,
        running: Place,
        requested: Option<Place>,
        words: &mut [u8],
        states: &mut [u8],
    ) -> u32 {
        let before = states.to_vec();
        let whole = states.len() / STATE * STATE;
        let tick = read_row(states)[0].tick;
        let is_due = self.takes(block, running, tick, cycle_of(states));
        let has_words = |plan: &Place| plan.end as usize <= words.len() / WORD;
        let goes_on = |plan: &Place| self.is(StepGoesOnWithoutWords) && !has_words(plan);
        let plan = requested.filter(|plan| is_due && !goes_on(plan));
        if let Some(plan) = plan.filter(|_| !self.is(ShownLate)) {
            self.change(block, plan, words, states);
        }
        if self.is(StepNeverEnds) && is_at_end(states, running.cycle) {
            in_cycle_0(&mut states[..whole]);
        }
        let number = Peer.step_all(words, &mut states[..whole]);
        if number != 0 {
            if !self.is(TakenThough28) || number != 28 {
                states.copy_from_slice(&before);
            }
            return self.refused_step(block, plan.is_some(), number);
        }
        match plan {
            Some(plan) => {
                if self.is(ShownLate) {
                    self.change(block, plan, words, states);
                }
                self.disturb(plan, words, states);
                self.taken(block);
            }
            None if self.is(DroppedInMidCycle) && tick > 0 => block.0[REQUESTED] = NONE,
            None if self.is(TakenWithLastTick) && tick == running.cycle - 1 => {
                if let Some(plan) = requested {
                    self.change(block, plan, words, states);
                }
            }
            None => {}
        }
        self.pass_by(block, tick);
        if self.is(StepWritesWords) {
            words[0] ^= 1;
        }
        0
    }

    /// What becomes of the block where the lanes refuse a step, and its number.
    fn refused_step(&self, block: &mut Block, is_due: bool, number: u32) -> u32 {
        match (self.0, number) {
            (Some(TakenThough28), 28) | (Some(TakenThough27), 27) if is_due => self.taken(block),
            (Some(Dropped28), 28) => block.0[REQUESTED] = NONE,
            (Some(EndEndsRun), 28) => block.end_run(),
            (Some(EndGives27), 28) => return 27,
            _ => {}
        }
        number
    }

    /// Whether a step takes what is requested.
    fn takes(&self, block: &Block, running: Place, tick: u32, cycle: u64) -> bool {
        let passed = block.0[REQUESTED] & FLAG != 0;
        let last = running.cycle - 1;
        match self.0 {
            Some(NeverTaken) => false,
            Some(OnlyFirstTaken) => tick == 0 && block.0[RUNNING] & FLAG == 0,
            Some(TakenInMidCycle | TakenAsItStands) => true,
            Some(TakenAtTick1) => tick == 1.min(last),
            Some(TakenForLastTick) => tick == last,
            Some(TakenACycleLate | NotTakenAtOnce) => tick == 0 && passed,
            Some(TakenInEvenCycles) => tick == 0 && cycle.is_multiple_of(2),
            Some(NotTakenInLastCycle) => tick == 0 && cycle != u64::MAX,
            _ => tick == 0,
        }
    }

    /// A request that a step did not take has been passed by.
    fn pass_by(&self, block: &mut Block, tick: u32) {
        let passes = match self.0 {
            Some(TakenACycleLate) => tick == 0,
            Some(NotTakenAtOnce) => true,
            _ => false,
        };
        if passes && block.0[REQUESTED] != NONE {
            block.0[REQUESTED] |= FLAG;
        }
    }

    /// The block once a request is taken.
    fn taken(&self, block: &mut Block) {
        let Some(place) = block.named(REQUESTED) else {
            return;
        };
        let old = block.0[RUNNING] & !FLAG;
        block.0[REQUESTED] = match self.0 {
            Some(TakenBackAgain) => old,
            _ => NONE,
        };
        block.0[RUNNING] = place + 1;
        if self.is(OnlyFirstTaken) {
            block.0[RUNNING] |= FLAG;
        }
    }

    /// Gives the records the tables of a plan.
    fn change(&self, block: &Block, plan: Place, words: &[u8], states: &mut [u8]) {
        let plan = match self.0 {
            Some(TakenIsPlace0) => block
                .held(0)
                .filter(|first| is_like(*first, plan))
                .unwrap_or(plan),
            _ => plan,
        };
        let words = read_words(words);
        let records = states.as_chunks_mut::<STATE>().0;
        let mut firsts = plan.firsts(&words, records.len());
        if self.is(TakenLanesReversed) {
            firsts.reverse();
        }
        let lanes = firsts.len();
        for (lane, (record, first)) in records.iter_mut().zip(firsts).enumerate() {
            match self.0 {
                Some(TakenOnFirstLane) if lane > 0 => continue,
                Some(TakenButOnLastLane) if lane + 1 == lanes && lane > 0 => continue,
                Some(TakenOnCoresAlone) if lane >= plan.cores as usize => continue,
                _ => {}
            }
            let mut state = read_state(record);
            state.first = first;
            match self.0 {
                Some(TakenInMidCycle | TakenAtTick1 | TakenForLastTick) => {
                    state.entry = entry_at(&words, first, state.tick);
                }
                Some(TakenStartsCycle0) => state.cycle = 0,
                Some(TakenSkipsACycle) => state.cycle = state.cycle.saturating_add(1),
                _ => {}
            }
            *record = write_state(&state);
        }
    }

    /// What else becomes of records that show a plan's first tick.
    fn disturb(&self, plan: Place, words: &[u8], states: &mut [u8]) {
        match self.0 {
            Some(ShownIdleFirst) => {
                for record in states.as_chunks_mut::<STATE>().0 {
                    let state = read_state(record);
                    *record = write_state(&crate::State {
                        kind: 0,
                        row: 0,
                        ..state
                    });
                }
            }
            Some(TakenSkipsATick) if plan.cycle > 1 => {
                Peer.step_all(words, states);
            }
            _ => {}
        }
    }
}

fn is_like(one: Place, other: Place) -> bool {
    let what = |place: Place| [place.cycle, place.cores, place.links];
    what(one) == what(other)
}

/// Writes words from one of them on, as far as there are any.
fn put(row: &[u32], from: usize, words: &mut [u8]) {
    if let Some(words) = words.get_mut(WORD * from..) {
        write_words(row, words);
    }
}

fn read_row(states: &[u8]) -> Vec<crate::State> {
    let records = states.as_chunks::<STATE>().0;
    records.iter().map(read_state).collect()
}

/// Puts all records back into cycle 0.
fn in_cycle_0(states: &mut [u8]) {
    for record in states.as_chunks_mut::<STATE>().0 {
        let mut state = read_state(record);
        state.cycle = 0;
        *record = write_state(&state);
    }
}

fn cycle_of(states: &[u8]) -> u64 {
    read_row(states).first().map_or(0, |state| state.cycle)
}

/// Whether the first record stands at the calendar's last tick.
fn is_at_end(states: &[u8], cycle: u32) -> bool {
    let first = read_row(states).first().copied();
    first.is_some_and(|state| state.cycle == u64::MAX && state.tick.checked_add(1) == Some(cycle))
}

/// Whether it stands one tick before that.
fn is_before_end(states: &[u8], cycle: u32) -> bool {
    let first = read_row(states).first().copied();
    first.is_some_and(|state| state.cycle == u64::MAX && state.tick.checked_add(2) == Some(cycle))
}

/// The entry of the table at a word that a tick is in.
fn entry_at(words: &[u32], first: u32, tick: u32) -> u32 {
    let table = words.get(first as usize + 2..).unwrap_or(&[]);
    let count = words.get(first as usize + 1).copied().unwrap_or(0);
    let entries = table.as_chunks::<3>().0.iter().take(count as usize);
    let begun = entries.take_while(|entry| entry[0] <= tick).count();
    begun.saturating_sub(1) as u32
}

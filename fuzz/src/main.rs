//! What libFuzzer calls: an input is run through the library and the peer,
//! and the process ends where they differ.
//!
//! An input is an image and a tail of 36 bytes: a state of 28 bytes and eight
//! bytes that choose (see `Choices`). Of a shorter one, all is image and the
//! tail is zeros.

#![no_main]

mod edit;

use peer::boundary::{Peer, STATE};
use peer::harness::{Difference, Lent, Pair};
use peer::library::Library;
use peer::modes::{self, follow, Call, Met, Offer, Rough};
use peer::{tables, Rng};

extern "C" {
    fn watch_blocks();
}

/// Bytes of the tail.
const TAIL: usize = STATE + 8;

#[no_mangle]
extern "C" fn LLVMFuzzerInitialize(_: *const i32, _: *const *const *const u8) -> i32 {
    unsafe { watch_blocks() };
    0
}

/// # Safety
/// The pointer leads to so many bytes.
#[no_mangle]
unsafe extern "C" fn LLVMFuzzerTestOneInput(data: *const u8, size: usize) -> i32 {
    let input = if size == 0 {
        &[]
    } else {
        std::slice::from_raw_parts(data, size)
    };
    if let Err(difference) = run(input) {
        eprint!("{difference}");
        std::process::abort();
    }
    0
}

/// # Safety
/// The pointer leads to `most` bytes, of which `size` are an input.
#[no_mangle]
unsafe extern "C" fn LLVMFuzzerCustomMutator(
    data: *mut u8,
    size: usize,
    most: usize,
    seed: u32,
) -> usize {
    edit::edit(data, size, most, &mut Rng::new(u64::from(seed)))
}

/// Image and tail of an input.
fn split(input: &[u8]) -> (&[u8], [u8; TAIL]) {
    match input.split_last_chunk() {
        Some((image, tail)) => (image, *tail),
        None => (input, [0; TAIL]),
    }
}

/// What the tail says.
struct Choices {
    state: [u8; STATE],
    lane: u8,
    /// Bytes lent to the build whatever the image is.
    room: u16,
    /// Bytes lent to the build of a lane, beyond what its table needs or short of it.
    spare: i8,
    steps: u8,
    /// Bytes at the end of the input that are lent as a row of states.
    row: u16,
    /// Where the state's table is said to begin.
    first: u8,
}

impl Choices {
    fn of(tail: [u8; TAIL]) -> Choices {
        let (state, rest) = tail
            .split_first_chunk()
            .expect("a tail begins with a state");
        let pair = |at: usize| u16::from_le_bytes([rest[at], rest[at + 1]]);
        Choices {
            state: *state,
            lane: rest[0],
            room: pair(1) % 1_024,
            spare: rest[3] as i8,
            steps: rest[4],
            row: pair(5) % 120,
            first: rest[7],
        }
    }
}

fn run(input: &[u8]) -> Result<(), Difference> {
    let (image, tail) = split(input);
    let choices = Choices::of(tail);
    let mut run = Run {
        pair: Pair::new(&Peer, &Library),
        rng: Rng::new(1),
        choices,
    };
    run.rough_steps(image, input)?;
    run.rough_modes(image, input);
    let lent = run.lend(image);
    let answer = run.pair.check(lent.part())?;
    let room = usize::from(run.choices.room);
    run.build(lent.part(), u32::from(run.choices.lane), room)?;
    run.build_all(lent.part(), room)?;
    run.arrivals(lent.part())?;
    run.gates(lent.part(), room)?;
    if answer == 0 {
        run.accepted(lent.part())?;
        run.modes(lent.part());
    }
    Ok(())
}

/// Ends the process where a call on a modes block is wrong. The block is the library's own: the peer has its account of the calls in its place.
fn require<T>(outcome: Result<T, String>) {
    if let Err(how) = outcome {
        eprintln!("modes: {how}");
        std::process::abort();
    }
}

/// Both implementations, and what is asked of them.
struct Run<'a> {
    pair: Pair<'a>,
    rng: Rng,
    choices: Choices,
}

impl Run<'_> {
    fn lend(&mut self, bytes: &[u8]) -> Lent {
        Lent::of(bytes, &mut self.rng)
    }

    /// Builds a lane into so many bytes of noise, and gives what they are then.
    fn build(&mut self, image: &[u8], lane: u32, room: usize) -> Result<Lent, Difference> {
        let mut words = Lent::noise(room, &mut self.rng);
        self.pair.build(image, lane, &mut words)?;
        Ok(words)
    }

    /// Builds all lanes into so many bytes of noise.
    fn build_all(&mut self, image: &[u8], room: usize) -> Result<(), Difference> {
        let mut words = Lent::noise(room, &mut self.rng);
        self.pair.build_all(image, &mut words)?;
        Ok(())
    }

    /// Asks when a frame arrives, the lane's number taken for its row, with the bytes that this needs, more or fewer.
    fn arrivals(&mut self, image: &[u8]) -> Result<(), Difference> {
        let room = 8_usize.saturating_add_signed(isize::from(self.choices.spare));
        let mut ticks = Lent::noise(room, &mut self.rng);
        self.pair
            .arrivals(image, u32::from(self.choices.lane), &mut ticks)?;
        Ok(())
    }

    /// Asks for a link's gate list, the lane's number taken for its row, with so many bytes of noise.
    fn gates(&mut self, image: &[u8], room: usize) -> Result<(), Difference> {
        let mut words = Lent::noise(room, &mut self.rng);
        self.pair
            .gates(image, u32::from(self.choices.lane), &mut words)?;
        Ok(())
    }

    /// Steps the tail's state and the row of states at the end of the input over the image's bytes, whatever they are.
    fn rough_steps(&mut self, image: &[u8], input: &[u8]) -> Result<(), Difference> {
        let words = self.lend(image);
        let mut state = self.lend(&self.choices.state.clone());
        self.pair.step(&words, &mut state)?;
        let row = usize::from(self.choices.row).min(input.len());
        let mut states = self.lend(&input[input.len() - row..]);
        self.pair.step_all(&words, &mut states)?;
        Ok(())
    }

    /// The calls on a modes block, each on what the last one left: the block is the end of the input, of a block's length or one byte more or less,
    /// the states are as for steps, and the words the image's bytes, whatever they are; then again from a fresh block.
    fn rough_modes(&mut self, image: &[u8], input: &[u8]) {
        let length = match self.choices.spare {
            -1 | 1 => modes::BLOCK.saturating_add_signed(isize::from(self.choices.spare)),
            _ => modes::BLOCK,
        };
        let mut block = vec![0; length];
        let end = length.min(input.len());
        block[..end].copy_from_slice(&input[input.len() - end..]);
        let row = usize::from(self.choices.row).min(input.len());
        let states = &input[input.len() - row..];
        let mut rough = Rough::new(image, states, &block, &mut self.rng);
        let place = u32::from(self.choices.lane % 16);
        let hold = Call::Hold { offer: 0, place };
        let start = Call::Start {
            place,
            cycle: self.cycle(),
        };
        let request = Call::Request { place };
        let calls = [
            Call::Step,
            request,
            Call::Step,
            hold,
            start,
            request,
            Call::Step,
        ];
        for call in calls.iter().chain([&Call::Fresh]).chain(&calls) {
            require(rough.call(&Library, *call, image, rough.room()));
        }
    }

    /// The cycle that the state says.
    fn cycle(&self) -> u64 {
        let cycle = self.choices.state.first_chunk().copied();
        u64::from_le_bytes(cycle.expect("a state begins with its cycle"))
    }

    /// Holds an accepted plan at two places, and changes from one to the other and back.
    fn modes(&self, image: &[u8]) {
        let offers = [0; 2].map(|_| Offer::of(image.to_vec()));
        let steps = vec![Call::Step; usize::from(self.choices.steps % 64)];
        let mut calls = vec![Call::Start {
            place: 0,
            cycle: self.cycle(),
        }];
        for place in [1, u32::from(self.choices.lane % 4), 0] {
            calls.extend(&steps);
            calls.push(Call::Request { place });
        }
        calls.extend(&steps);
        require(follow(&Library, &offers, &calls, &mut Met::default()));
    }

    /// Builds every lane of an accepted plan, then starts and steps them.
    fn accepted(&mut self, image: &[u8]) -> Result<(), Difference> {
        let tables = tables(image).expect("the peer accepts");
        let chosen = usize::from(self.choices.lane) % tables.len();
        let spare = isize::from(self.choices.spare);
        let room = (4 * tables[chosen].len()).saturating_add_signed(spare);
        self.build(image, chosen as u32, room)?;
        let mut words = Vec::new();
        let mut firsts = Vec::new();
        for (lane, table) in (0..).zip(&tables) {
            firsts.push((words.len() / 4) as u32);
            let built = self.build(image, lane, 4 * table.len())?;
            words.extend_from_slice(built.part());
        }
        self.build_all(image, words.len().saturating_add_signed(spare))?;
        self.walk(&words, &firsts)?;
        self.step_at(&words, firsts[chosen])
    }

    /// Starts all lanes in the cycle that the state says, and steps them.
    fn walk(&mut self, words: &[u8], firsts: &[u32]) -> Result<(), Difference> {
        let cycle = self.cycle();
        let mut row = Vec::new();
        for &first in firsts {
            let mut state = Lent::noise(STATE, &mut self.rng);
            self.pair.start(cycle, first, &mut state)?;
            row.extend_from_slice(state.part());
        }
        let words = self.lend(words);
        let mut states = self.lend(&row);
        for _ in 0..self.choices.steps % 64 {
            self.pair.step_all(&words, &mut states)?;
        }
        Ok(())
    }

    /// Steps the tail's state over tables as built, at the table of a lane or somewhere near it.
    fn step_at(&mut self, words: &[u8], first: u32) -> Result<(), Difference> {
        let first = first.wrapping_add_signed(i32::from(self.choices.first as i8));
        self.choices.state[16..20].copy_from_slice(&first.to_le_bytes());
        let words = self.lend(words);
        let mut state = self.lend(&self.choices.state.clone());
        for _ in 0..2 {
            self.pair.step(&words, &mut state)?;
        }
        Ok(())
    }
}

//! The library's C functions, over slices. There where RD_LIB_DIR is set.

use crate::answer::Answer;
use crate::boundary::{read_words, Boundary};
use crate::drafts::Drafts;
use crate::image::{Piece, Plan, WORD};
use crate::joins::Joins;
use crate::lines::Lines;
use crate::modes::Modes;
use crate::timers::Timers;

extern "C" {
    fn rd_check(image: *const u8, image_len: usize) -> u64;
    fn rd_build(
        image: *const u8,
        image_len: usize,
        lane: u32,
        words: *mut u8,
        words_len: usize,
    ) -> u64;
    fn rd_build_all(image: *const u8, image_len: usize, words: *mut u8, words_len: usize) -> u64;
    fn rd_start(cycle: u64, first: u32, state: *mut u8, state_len: usize) -> u32;
    fn rd_step(words: *const u8, words_len: usize, state: *mut u8, state_len: usize) -> u32;
    fn rd_step_all(words: *const u8, words_len: usize, states: *mut u8, states_len: usize) -> u32;
    fn rd_arrivals(
        image: *const u8,
        image_len: usize,
        frame: u32,
        ticks: *mut u8,
        ticks_len: usize,
    ) -> u64;
    fn rd_gates(
        image: *const u8,
        image_len: usize,
        link: u32,
        words: *mut u8,
        words_len: usize,
    ) -> u64;
    fn rd_draft_make(image: *const u8, image_len: usize, words: *mut u32, n: usize) -> u32;
    fn rd_draft_add(
        words: *mut u32,
        n: usize,
        place: u32,
        task: u32,
        job: u32,
        start: u32,
        length: u32,
    ) -> u32;
    fn rd_draft_remove(words: *mut u32, n: usize, place: u32) -> u32;
    fn rd_draft_move(words: *mut u32, n: usize, place: u32, start: u32) -> u32;
    fn rd_draft_job(words: *const u32, n: usize, task: u32, job: u32) -> u64;
    fn rd_draft_core(words: *const u32, n: usize, core: u32) -> u64;
    fn rd_draft_place(words: *const u32, n: usize, place: u32, piece: *mut u32, m: usize) -> u32;
    fn rd_line(number: u32, table: u32, row: u32, line: *mut u8, line_len: usize) -> u32;
    fn rd_join(
        first: *const u8,
        first_len: usize,
        second: *const u8,
        second_len: usize,
        shared: u32,
        joined: *mut u8,
        joined_len: usize,
        length: *mut u32,
    ) -> u64;
    fn rd_timer_start(block: *mut u8, block_len: usize) -> u32;
    fn rd_timer_reading(block: *mut u8, block_len: usize, count: u32) -> u32;
    fn rd_timer_read(block: *const u8, block_len: usize, address: u32) -> u64;
    fn rd_timer_write(block: *mut u8, block_len: usize, address: u32, value: u32) -> u32;
    fn rd_timer_interrupt(block: *const u8, block_len: usize) -> u32;
    fn rd_modes_fresh(modes: *mut u8, modes_len: usize) -> u32;
    fn rd_modes_hold(
        image: *const u8,
        image_len: usize,
        place: u32,
        words: *mut u8,
        words_len: usize,
        modes: *mut u8,
        modes_len: usize,
    ) -> u64;
    fn rd_modes_start(
        place: u32,
        cycle: u64,
        words: *const u8,
        words_len: usize,
        states: *mut u8,
        states_len: usize,
        modes: *mut u8,
        modes_len: usize,
    ) -> u32;
    fn rd_modes_request(place: u32, modes: *mut u8, modes_len: usize) -> u32;
    fn rd_modes_step(
        words: *const u8,
        words_len: usize,
        states: *mut u8,
        states_len: usize,
        modes: *mut u8,
        modes_len: usize,
    ) -> u32;
}

/// The library under test.
pub struct Library;

// Each call below lends whole slices with their lengths, and none is kept.
impl Boundary for Library {
    fn check(&self, image: &[u8]) -> u64 {
        unsafe { rd_check(image.as_ptr(), image.len()) }
    }

    fn build(&self, image: &[u8], lane: u32, words: &mut [u8]) -> u64 {
        let (at, length) = (words.as_mut_ptr(), words.len());
        unsafe { rd_build(image.as_ptr(), image.len(), lane, at, length) }
    }

    fn build_all(&self, image: &[u8], words: &mut [u8]) -> u64 {
        let (at, length) = (words.as_mut_ptr(), words.len());
        unsafe { rd_build_all(image.as_ptr(), image.len(), at, length) }
    }

    fn start(&self, cycle: u64, first: u32, state: &mut [u8]) -> u32 {
        unsafe { rd_start(cycle, first, state.as_mut_ptr(), state.len()) }
    }

    fn step(&self, words: &[u8], state: &mut [u8]) -> u32 {
        let (at, length) = (state.as_mut_ptr(), state.len());
        unsafe { rd_step(words.as_ptr(), words.len(), at, length) }
    }

    fn step_all(&self, words: &[u8], states: &mut [u8]) -> u32 {
        let (at, length) = (states.as_mut_ptr(), states.len());
        unsafe { rd_step_all(words.as_ptr(), words.len(), at, length) }
    }

    fn arrivals(&self, image: &[u8], frame: u32, ticks: &mut [u8]) -> u64 {
        let (at, length) = (ticks.as_mut_ptr(), ticks.len());
        unsafe { rd_arrivals(image.as_ptr(), image.len(), frame, at, length) }
    }

    fn gates(&self, image: &[u8], link: u32, words: &mut [u8]) -> u64 {
        let (at, length) = (words.as_mut_ptr(), words.len());
        unsafe { rd_gates(image.as_ptr(), image.len(), link, at, length) }
    }
}

// A reading's pointer, too, is one that may be written through, so that a
// library that does is seen by what it leaves.
impl Drafts for Library {
    fn make(&self, image: &[u8], words: &mut [u32]) -> u32 {
        let (at, n) = (words.as_mut_ptr(), words.len());
        unsafe { rd_draft_make(image.as_ptr(), image.len(), at, n) }
    }

    fn add(&self, words: &mut [u32], place: u32, piece: Piece) -> u32 {
        let [task, job, start, length] = piece;
        let (at, n) = (words.as_mut_ptr(), words.len());
        unsafe { rd_draft_add(at, n, place, task, job, start, length) }
    }

    fn remove(&self, words: &mut [u32], place: u32) -> u32 {
        unsafe { rd_draft_remove(words.as_mut_ptr(), words.len(), place) }
    }

    fn shift(&self, words: &mut [u32], place: u32, start: u32) -> u32 {
        unsafe { rd_draft_move(words.as_mut_ptr(), words.len(), place, start) }
    }

    fn job(&self, words: &mut [u32], task: u32, job: u32) -> u64 {
        unsafe { rd_draft_job(words.as_mut_ptr(), words.len(), task, job) }
    }

    fn core(&self, words: &mut [u32], core: u32) -> u64 {
        unsafe { rd_draft_core(words.as_mut_ptr(), words.len(), core) }
    }

    fn place(&self, words: &mut [u32], place: u32, piece: &mut [u32]) -> u32 {
        let (at, n) = (words.as_mut_ptr(), words.len());
        unsafe { rd_draft_place(at, n, place, piece.as_mut_ptr(), piece.len()) }
    }
}

impl Lines for Library {
    fn line(&self, answer: Answer, line: &mut [u8]) -> u32 {
        let Answer { number, table, row } = answer;
        let (at, length) = (line.as_mut_ptr(), line.len());
        unsafe { rd_line(number, table, row, at, length) }
    }
}

/// As many words as the tables of all lanes of any accepted plan take.
const ALL_LANES_WORDS: usize = 31_200;

impl Joins for Library {
    fn join(
        &self,
        first: &[u8],
        second: &[u8],
        shared: u32,
        joined: &mut [u8],
        length: &mut [u32; 2],
    ) -> u64 {
        let (at, lent, length) = (joined.as_mut_ptr(), joined.len(), length.as_mut_ptr());
        let (one, one_len) = (first.as_ptr(), first.len());
        let (other, other_len) = (second.as_ptr(), second.len());
        unsafe { rd_join(one, one_len, other, other_len, shared, at, lent, length) }
    }

    fn tables(&self, image: &[u8]) -> Option<Vec<Vec<u32>>> {
        let mut bytes = vec![0; ALL_LANES_WORDS * WORD];
        if self.build_all(image, &mut bytes) != 0 {
            return None;
        }
        let words = read_words(&bytes);
        let mut rest = &words[..];
        let table = |_| {
            let (table, later) = rest.split_at(2 + 3 * rest[1] as usize);
            rest = later;
            table.to_vec()
        };
        Some((0..Plan::decode(image).lanes()).map(table).collect())
    }
}

// Here, too, every pointer is one that may be written through.
impl Timers for Library {
    fn fresh(&self, block: &mut [u8]) -> u32 {
        unsafe { rd_timer_start(block.as_mut_ptr(), block.len()) }
    }

    fn reading(&self, block: &mut [u8], count: u32) -> u32 {
        unsafe { rd_timer_reading(block.as_mut_ptr(), block.len(), count) }
    }

    fn read(&self, block: &mut [u8], address: u32) -> u64 {
        unsafe { rd_timer_read(block.as_mut_ptr(), block.len(), address) }
    }

    fn write(&self, block: &mut [u8], address: u32, value: u32) -> u32 {
        unsafe { rd_timer_write(block.as_mut_ptr(), block.len(), address, value) }
    }

    fn interrupt(&self, block: &mut [u8]) -> u32 {
        unsafe { rd_timer_interrupt(block.as_mut_ptr(), block.len()) }
    }
}

// And here.
impl Modes for Library {
    fn fresh(&self, modes: &mut [u8]) -> u32 {
        unsafe { rd_modes_fresh(modes.as_mut_ptr(), modes.len()) }
    }

    fn hold(&self, image: &[u8], place: u32, words: &mut [u8], modes: &mut [u8]) -> u64 {
        let (row, row_len) = (words.as_mut_ptr(), words.len());
        let (at, length) = (modes.as_mut_ptr(), modes.len());
        unsafe { rd_modes_hold(image.as_ptr(), image.len(), place, row, row_len, at, length) }
    }

    fn start(
        &self,
        place: u32,
        cycle: u64,
        words: &mut [u8],
        states: &mut [u8],
        modes: &mut [u8],
    ) -> u32 {
        let (row, row_len) = (words.as_mut_ptr(), words.len());
        let (records, records_len) = (states.as_mut_ptr(), states.len());
        let (at, length) = (modes.as_mut_ptr(), modes.len());
        unsafe { rd_modes_start(place, cycle, row, row_len, records, records_len, at, length) }
    }

    fn request(&self, place: u32, modes: &mut [u8]) -> u32 {
        unsafe { rd_modes_request(place, modes.as_mut_ptr(), modes.len()) }
    }

    fn step(&self, words: &mut [u8], states: &mut [u8], modes: &mut [u8]) -> u32 {
        let (row, row_len) = (words.as_mut_ptr(), words.len());
        let (records, records_len) = (states.as_mut_ptr(), states.len());
        let (at, length) = (modes.as_mut_ptr(), modes.len());
        unsafe { rd_modes_step(row, row_len, records, records_len, at, length) }
    }
}

//! The C boundary over the peer's own code.

use std::slice::{from_raw_parts, from_raw_parts_mut};

use peer::boundary::{Boundary, Peer};
use peer::drafts::{self, Drafts};
use peer::guests;
use peer::joins::{self, Joins};
use peer::lines::{self, Lines};
use peer::modes::{self, Modes};
use peer::timers::{self, Timers};
use peer::Answer;

/// # Safety
/// The pointer leads to so many bytes.
#[no_mangle]
pub unsafe extern "C" fn rd_check(image: *const u8, image_len: usize) -> u64 {
    let answer = Peer.check(from_raw_parts(image, image_len));
    if cfg!(feature = "faulty") && answer & 0xFFFF == 24 {
        return 0;
    }
    answer
}

/// Tables and steps, wrong in the way that RD_GUEST_FAULT names, if it is set.
fn guests() -> guests::Standin {
    guests::Standin(fault("RD_GUEST_FAULT", guests::Fault::ALL))
}

/// # Safety
/// The pointers lead to so many bytes, apart from each other.
#[no_mangle]
pub unsafe extern "C" fn rd_build(
    image: *const u8,
    image_len: usize,
    lane: u32,
    words: *mut u8,
    words_len: usize,
) -> u64 {
    let image = from_raw_parts(image, image_len);
    guests().build(image, lane, from_raw_parts_mut(words, words_len))
}

/// # Safety
/// The pointers lead to so many bytes, apart from each other.
#[no_mangle]
pub unsafe extern "C" fn rd_build_all(
    image: *const u8,
    image_len: usize,
    words: *mut u8,
    words_len: usize,
) -> u64 {
    let image = from_raw_parts(image, image_len);
    guests().build_all(image, from_raw_parts_mut(words, words_len))
}

/// # Safety
/// The pointer leads to so many bytes.
#[no_mangle]
pub unsafe extern "C" fn rd_start(cycle: u64, first: u32, state: *mut u8, state_len: usize) -> u32 {
    guests().start(cycle, first, from_raw_parts_mut(state, state_len))
}

/// # Safety
/// The pointers lead to so many bytes, apart from each other.
#[no_mangle]
pub unsafe extern "C" fn rd_step(
    words: *const u8,
    words_len: usize,
    state: *mut u8,
    state_len: usize,
) -> u32 {
    let words = from_raw_parts(words, words_len);
    guests().step(words, from_raw_parts_mut(state, state_len))
}

/// # Safety
/// The pointers lead to so many bytes, apart from each other.
#[no_mangle]
pub unsafe extern "C" fn rd_step_all(
    words: *const u8,
    words_len: usize,
    states: *mut u8,
    states_len: usize,
) -> u32 {
    let words = from_raw_parts(words, words_len);
    guests().step_all(words, from_raw_parts_mut(states, states_len))
}

/// # Safety
/// The pointers lead to so many bytes, apart from each other.
#[no_mangle]
pub unsafe extern "C" fn rd_arrivals(
    image: *const u8,
    image_len: usize,
    frame: u32,
    ticks: *mut u8,
    ticks_len: usize,
) -> u64 {
    let image = from_raw_parts(image, image_len);
    Peer.arrivals(image, frame, from_raw_parts_mut(ticks, ticks_len))
}

/// # Safety
/// The pointers lead to so many bytes, apart from each other.
#[no_mangle]
pub unsafe extern "C" fn rd_gates(
    image: *const u8,
    image_len: usize,
    link: u32,
    words: *mut u8,
    words_len: usize,
) -> u64 {
    let image = from_raw_parts(image, image_len);
    Peer.gates(image, link, from_raw_parts_mut(words, words_len))
}

/// The fault that an environment variable names, if it is set.
fn fault<F: Copy + std::fmt::Debug>(variable: &str, all: &[F]) -> Option<F> {
    let name = std::env::var(variable).ok()?;
    let named = all.iter().find(|fault| format!("{fault:?}") == name);
    Some(*named.unwrap_or_else(|| panic!("{variable} is one of {all:?}")))
}

/// The drafts, wrong in the way that RD_DRAFT_FAULT names, if it is set.
fn drafts() -> drafts::Standin {
    drafts::Standin(fault("RD_DRAFT_FAULT", drafts::Fault::ALL))
}

/// # Safety
/// The pointers lead to so many bytes and words, apart from each other.
#[no_mangle]
pub unsafe extern "C" fn rd_draft_make(
    image: *const u8,
    image_len: usize,
    words: *mut u32,
    n: usize,
) -> u32 {
    let image = from_raw_parts(image, image_len);
    drafts().make(image, from_raw_parts_mut(words, n))
}

/// # Safety
/// The pointer leads to so many words.
#[no_mangle]
pub unsafe extern "C" fn rd_draft_add(
    words: *mut u32,
    n: usize,
    place: u32,
    task: u32,
    job: u32,
    start: u32,
    length: u32,
) -> u32 {
    let piece = [task, job, start, length];
    drafts().add(from_raw_parts_mut(words, n), place, piece)
}

/// # Safety
/// The pointer leads to so many words.
#[no_mangle]
pub unsafe extern "C" fn rd_draft_remove(words: *mut u32, n: usize, place: u32) -> u32 {
    drafts().remove(from_raw_parts_mut(words, n), place)
}

/// # Safety
/// The pointer leads to so many words.
#[no_mangle]
pub unsafe extern "C" fn rd_draft_move(words: *mut u32, n: usize, place: u32, start: u32) -> u32 {
    drafts().shift(from_raw_parts_mut(words, n), place, start)
}

/// # Safety
/// The pointer leads to so many words, which may be written.
#[no_mangle]
pub unsafe extern "C" fn rd_draft_job(words: *mut u32, n: usize, task: u32, job: u32) -> u64 {
    drafts().job(from_raw_parts_mut(words, n), task, job)
}

/// # Safety
/// The pointer leads to so many words, which may be written.
#[no_mangle]
pub unsafe extern "C" fn rd_draft_core(words: *mut u32, n: usize, core: u32) -> u64 {
    drafts().core(from_raw_parts_mut(words, n), core)
}

/// # Safety
/// The pointers lead to so many words, which may be written, apart from each
/// other.
#[no_mangle]
pub unsafe extern "C" fn rd_draft_place(
    words: *mut u32,
    n: usize,
    place: u32,
    piece: *mut u32,
    m: usize,
) -> u32 {
    let piece = from_raw_parts_mut(piece, m);
    drafts().place(from_raw_parts_mut(words, n), place, piece)
}

/// The line, wrong in the way that RD_LINE_FAULT names, if it is set.
///
/// # Safety
/// The pointer leads to so many bytes.
#[no_mangle]
pub unsafe extern "C" fn rd_line(
    number: u32,
    table: u32,
    row: u32,
    line: *mut u8,
    line_len: usize,
) -> u32 {
    let lines = lines::Standin(fault("RD_LINE_FAULT", lines::Fault::ALL));
    let answer = Answer::at(number, table, row);
    lines.line(answer, from_raw_parts_mut(line, line_len))
}

/// The join, wrong in the way that RD_JOIN_FAULT names, if it is set.
///
/// # Safety
/// The pointers lead to so many bytes, and the last to two words, apart from
/// each other.
#[no_mangle]
pub unsafe extern "C" fn rd_join(
    first: *const u8,
    first_len: usize,
    second: *const u8,
    second_len: usize,
    shared: u32,
    joined: *mut u8,
    joined_len: usize,
    length: *mut u32,
) -> u64 {
    let joins = joins::Standin(fault("RD_JOIN_FAULT", joins::Fault::ALL));
    let (first, second) = (
        from_raw_parts(first, first_len),
        from_raw_parts(second, second_len),
    );
    let joined = from_raw_parts_mut(joined, joined_len);
    joins.join(first, second, shared, joined, &mut *length.cast())
}

/// The timer, wrong in the way that RD_TIMER_FAULT names, if it is set.
fn timers() -> timers::Standin {
    timers::Standin(fault("RD_TIMER_FAULT", timers::Fault::ALL))
}

/// # Safety
/// The pointer leads to so many bytes.
#[no_mangle]
pub unsafe extern "C" fn rd_timer_start(block: *mut u8, block_len: usize) -> u32 {
    timers().fresh(from_raw_parts_mut(block, block_len))
}

/// # Safety
/// The pointer leads to so many bytes.
#[no_mangle]
pub unsafe extern "C" fn rd_timer_reading(block: *mut u8, block_len: usize, count: u32) -> u32 {
    timers().reading(from_raw_parts_mut(block, block_len), count)
}

/// # Safety
/// The pointer leads to so many bytes, which may be written.
#[no_mangle]
pub unsafe extern "C" fn rd_timer_read(block: *mut u8, block_len: usize, address: u32) -> u64 {
    timers().read(from_raw_parts_mut(block, block_len), address)
}

/// # Safety
/// The pointer leads to so many bytes.
#[no_mangle]
pub unsafe extern "C" fn rd_timer_write(
    block: *mut u8,
    block_len: usize,
    address: u32,
    value: u32,
) -> u32 {
    timers().write(from_raw_parts_mut(block, block_len), address, value)
}

/// # Safety
/// The pointer leads to so many bytes, which may be written.
#[no_mangle]
pub unsafe extern "C" fn rd_timer_interrupt(block: *mut u8, block_len: usize) -> u32 {
    timers().interrupt(from_raw_parts_mut(block, block_len))
}

/// The modes, wrong in the way that RD_MODES_FAULT names, if it is set.
fn modes() -> modes::Standin {
    modes::Standin(fault("RD_MODES_FAULT", modes::Fault::ALL))
}

/// # Safety
/// The pointer leads to so many bytes.
#[no_mangle]
pub unsafe extern "C" fn rd_modes_fresh(modes: *mut u8, modes_len: usize) -> u32 {
    self::modes().fresh(from_raw_parts_mut(modes, modes_len))
}

/// # Safety
/// The pointers lead to so many bytes, apart from each other.
#[no_mangle]
pub unsafe extern "C" fn rd_modes_hold(
    image: *const u8,
    image_len: usize,
    place: u32,
    words: *mut u8,
    words_len: usize,
    modes: *mut u8,
    modes_len: usize,
) -> u64 {
    let image = from_raw_parts(image, image_len);
    let words = from_raw_parts_mut(words, words_len);
    self::modes().hold(image, place, words, from_raw_parts_mut(modes, modes_len))
}

/// # Safety
/// The pointers lead to so many bytes, apart from each other; the words may be
/// written.
#[no_mangle]
pub unsafe extern "C" fn rd_modes_start(
    place: u32,
    cycle: u64,
    words: *mut u8,
    words_len: usize,
    states: *mut u8,
    states_len: usize,
    modes: *mut u8,
    modes_len: usize,
) -> u32 {
    let words = from_raw_parts_mut(words, words_len);
    let states = from_raw_parts_mut(states, states_len);
    let modes = from_raw_parts_mut(modes, modes_len);
    self::modes().start(place, cycle, words, states, modes)
}

/// # Safety
/// The pointer leads to so many bytes.
#[no_mangle]
pub unsafe extern "C" fn rd_modes_request(place: u32, modes: *mut u8, modes_len: usize) -> u32 {
    self::modes().request(place, from_raw_parts_mut(modes, modes_len))
}

/// # Safety
/// The pointers lead to so many bytes, apart from each other; the words may be
/// written.
#[no_mangle]
pub unsafe extern "C" fn rd_modes_step(
    words: *mut u8,
    words_len: usize,
    states: *mut u8,
    states_len: usize,
    modes: *mut u8,
    modes_len: usize,
) -> u32 {
    let words = from_raw_parts_mut(words, words_len);
    let states = from_raw_parts_mut(states, states_len);
    self::modes().step(words, states, from_raw_parts_mut(modes, modes_len))
}

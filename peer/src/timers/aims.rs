//! What is called, with which values and on which blocks.

use super::beside::Beside;
use super::calls::Call;
use crate::boundary::write_words;
use crate::rng::Rng;
use crate::timer::{Timer, BLOCK, COMPARE, COUNT, ENABLE, STATUS};

/// How many bytes there are to be lent, the block among them: mostly so many
/// that all lengths that matter can be, sometimes those whose lowest bits are a
/// block's length.
pub fn any_room(number: u64, rng: &mut Rng) -> usize {
    match number % 512 {
        7 => LONGEST + 24,
        _ if rng.chance(3) => LONGER + 24,
        _ => 40,
    }
}

pub const LONGER: usize = 256 + BLOCK;
pub const LONGEST: usize = 65_536 + BLOCK;

/// Another length than a block's.
fn any_other_length(room: usize, rng: &mut Rng) -> usize {
    let length = match rng.below(10) {
        0..4 => rng.pick(&[0, 8, 12, 15, 17, 20, 32]),
        4..7 if room > LONGEST => LONGEST,
        4..7 if room > LONGER => LONGER,
        _ => rng.below(room.min(40) + 1),
    };
    match length {
        BLOCK => BLOCK + 1,
        length => length,
    }
}

/// Any bytes, or such as calls are likely to say something of.
pub fn any_block(rng: &mut Rng) -> [u8; BLOCK] {
    let near = |value: u32, rng: &mut Rng| value.wrapping_add(rng.within(0..=8)).wrapping_sub(4);
    let count = any_count(rng);
    let words = match rng.below(8) {
        0 => [0; 4],
        1 => [u32::MAX; 4],
        2..4 => [0; 4].map(|_| rng.word()),
        _ => [count, near(count, rng), any_bits(rng), any_bits(rng)],
    };
    let mut block = [0; BLOCK];
    write_words(&words, &mut block);
    block
}

/// A counter's value, often one near its wrap.
fn any_count(rng: &mut Rng) -> u32 {
    match rng.below(4) {
        0 => rng.within(0..=4),
        1 => u32::MAX - rng.within(0..=4),
        2 => (1 << 31) - 2 + rng.within(0..=4),
        _ => rng.word(),
    }
}

/// Values for a register of which bit 0 alone counts.
const BIT_VALUES: [u32; 14] = [
    0,
    1,
    2,
    3,
    0x80,
    0x100,
    0x101,
    0x1_0000,
    0x100_0000,
    0x100_0001,
    0x8000_0000,
    0x8000_0001,
    u32::MAX,
    u32::MAX - 1,
];

fn any_bits(rng: &mut Rng) -> u32 {
    match rng.below(10) {
        0..4 => rng.pick(&[0, 1]),
        4..9 => rng.pick(&BIT_VALUES),
        _ => rng.word(),
    }
}

/// A call, with whatever comes before it: another's bytes in the block, and
/// ticks that no reading brings in yet.
pub fn any_turn(beside: &mut Beside, rng: &mut Rng) -> Result<(), String> {
    if rng.chance(2) {
        beside.overwrite(&any_block(rng), rng.below(3) as u64);
    }
    let timer = beside.timer();
    if rng.chance(10) {
        pass(&timer, beside, rng);
    }
    let call = match rng.below(100) {
        0..45 => any_reading(&timer, beside, rng),
        45..80 => any_write(&timer, beside, rng),
        80..93 => Call::Read {
            address: any_address(rng),
        },
        93..98 => Call::Interrupt,
        _ => any_start(beside, rng),
    };
    let others = if beside.room() > 40 { 40 } else { 8 };
    let lent = match rng.chance(others) {
        true => any_other_length(beside.room(), rng),
        false => BLOCK,
    };
    beside.call(call, lent)
}

/// A start, often of a counter at 0, as fresh blocks have it.
fn any_start(beside: &mut Beside, rng: &mut Rng) -> Call {
    if rng.chance(40) {
        beside.go_to(0, 0);
    }
    Call::Start
}

/// A reading, of the counter when it has any value.
fn any_reading(timer: &Timer, beside: &mut Beside, rng: &mut Rng) -> Call {
    let (count, turns) = (any_read_count(timer, beside, rng), any_turns(rng));
    beside.go_to(count, turns);
    Call::Reading { count }
}

/// The value of the counter that a reading brings in.
fn any_read_count(timer: &Timer, beside: &Beside, rng: &mut Rng) -> u32 {
    let Timer { count, compare, .. } = *timer;
    match rng.below(100) {
        0..40 => around(compare, 2, rng),
        40..52 => count.wrapping_add(rng.pick(&[0, 0, 1, 2, 3])),
        52..62 => count.wrapping_sub(rng.pick(&[1, 1, 2, 3])),
        62..70 => any_count(rng),
        70..76 => around(count.wrapping_add(1 << 31), 1, rng),
        76..84 => beside.truth.value(),
        84..92 => count.wrapping_add(rng.within(0..=1_000)),
        _ => rng.word(),
    }
}

/// A value, or one a little before it or past it.
fn around(value: u32, most: u32, rng: &mut Rng) -> u32 {
    value
        .wrapping_add(rng.within(0..=2 * most))
        .wrapping_sub(most)
}

/// How often the counter has gone round without a reading.
fn any_turns(rng: &mut Rng) -> u64 {
    match rng.below(100) {
        0..4 => 1,
        4 => 2,
        _ => 0,
    }
}

/// Ticks that no reading brings in yet: few, up to compare, or many.
fn pass(timer: &Timer, beside: &mut Beside, rng: &mut Rng) {
    let now = beside.truth.value();
    let value = match rng.below(10) {
        0..5 => now.wrapping_add(rng.within(1..=3)),
        5..8 => around(timer.compare, 1, rng),
        _ => now.wrapping_add(rng.word() >> rng.below(32)),
    };
    beside.go_to(value, 0);
}

fn any_write(timer: &Timer, beside: &Beside, rng: &mut Rng) -> Call {
    let (address, any) = (any_address(rng), rng.word());
    let value = match address {
        COMPARE => any_compare(timer, beside, rng),
        // Cleared often, or there is nothing to set.
        STATUS if rng.chance(25) => 1,
        STATUS | ENABLE => any_bits(rng),
        _ => rng.pick(&[0, 1, timer.compare, timer.count, any]),
    };
    Call::Write { address, value }
}

fn any_compare(timer: &Timer, beside: &Beside, rng: &mut Rng) -> u32 {
    match rng.below(10) {
        0..4 => around(timer.count, 2, rng),
        4..6 => around(beside.truth.value(), 2, rng),
        6 => timer.compare,
        7 => around(timer.count.wrapping_add(1 << 31), 1, rng),
        8 => any_count(rng),
        _ => rng.word(),
    }
}

/// Addresses of no register: between them, right behind them, and such as are
/// one's in their lowest bits.
const OTHERS: [u32; 26] = [
    1,
    2,
    3,
    5,
    6,
    7,
    9,
    10,
    11,
    13,
    14,
    15,
    16,
    17,
    20,
    24,
    28,
    256,
    256 + 4,
    65_536 + 8,
    1 << 31,
    (1 << 31) + 12,
    u32::MAX - 15,
    u32::MAX - 7,
    u32::MAX - 3,
    u32::MAX,
];

fn any_address(rng: &mut Rng) -> u32 {
    match rng.below(100) {
        0..85 => rng.pick(&[COUNT, COMPARE, COMPARE, STATUS, STATUS, STATUS, ENABLE]),
        85..98 => rng.pick(&OTHERS),
        _ => rng.word(),
    }
}

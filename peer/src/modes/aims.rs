//! Which calls are made, with how many bytes lent.

use super::beside::Beside;
use super::calls::{Call, Room, BLOCK, PLACES};
use super::met::{Moment, LENGTHS, LONG};
use super::plans::{Offer, SHORT};
use crate::boundary::STATE;
use crate::image::WORD;
use crate::rng::Rng;

/// How many bytes can be lent in a shift.
pub fn any_room(number: u64, offers: &[Offer], rng: &mut Rng) -> Room {
    let lanes = offers.iter().filter_map(|offer| offer.told.as_ref().ok());
    let most = lanes.map(|plan| plan.tables.len()).max().unwrap_or(1);
    let all: usize = offers.iter().map(Offer::words).sum();
    let words = all * rng.within(1..=3) as usize + rng.below(40);
    Room {
        words: WORD * words + rng.below(WORD),
        states: STATE * (most + 1) + rng.below(STATE),
        modes: if number % 64 == 9 { LONG } else { 428 },
    }
}

/// The shift's beginning: calls on a fresh block, then some plans are held.
pub fn begin(beside: &mut Beside, rng: &mut Rng) -> Result<(), String> {
    if rng.chance(4) {
        other_length(beside, Call::Fresh, rng)?;
    }
    fitting(beside, Call::Fresh)?;
    if rng.chance(10) {
        let calls = [Call::Step, any_request(beside, rng), any_start(beside, rng)];
        let call = rng.pick(&calls);
        fitting(beside, call)?;
    }
    let holds = rng.within(1..=10);
    let all = rng.chance(15);
    for turn in 0..holds.max(if all { 8 } else { 1 }) {
        let offer = any_offer(beside, rng);
        let place = match all {
            true => turn % PLACES as u32,
            false => rng.below(PLACES) as u32,
        };
        hold(beside, Call::Hold { offer, place }, rng)?;
        if rng.chance(5) {
            any_call(beside, rng)?;
        }
    }
    Ok(())
}

/// Any call, or some steps.
pub fn any_turn(beside: &mut Beside, rng: &mut Rng) -> Result<(), String> {
    if beside.copies() > 1 && rng.chance(25) {
        beside.switch(rng.below(beside.copies()));
    }
    match rng.below(100) {
        0..40 => steps(beside, rng),
        40..70 => {
            let call = any_request(beside, rng);
            fitting(beside, call)
        }
        70..78 => start(beside, rng),
        78..83 => any_hold(beside, rng),
        83..88 => refused_start(beside, rng),
        88..94 => odd_step(beside, rng),
        94..97 => {
            let call = any_of_all(beside, rng);
            other_length(beside, call, rng)
        }
        97 => fresh_again(beside, rng),
        98 if beside.copies() < 3 => {
            beside.copy();
            Ok(())
        }
        _ => {
            beside.relocate();
            Ok(())
        }
    }
}

fn any_call(beside: &mut Beside, rng: &mut Rng) -> Result<(), String> {
    let call = any_of_all(beside, rng);
    fitting(beside, call)
}

fn any_of_all(beside: &Beside, rng: &mut Rng) -> Call {
    match rng.below(5) {
        0 => Call::Fresh,
        1 => Call::Hold {
            offer: rng.below(beside.offers.len()),
            place: any_place(&beside.moment(), rng),
        },
        2 => any_start(beside, rng),
        3 => any_request(beside, rng),
        _ => Call::Step,
    }
}

/// A call with bytes that fit it.
fn fitting(beside: &mut Beside, call: Call) -> Result<(), String> {
    let room = beside.fitting(call);
    beside.call(call, room)
}

/// A call with a block of another length.
fn other_length(beside: &mut Beside, call: Call, rng: &mut Rng) -> Result<(), String> {
    let modes = match beside.room.modes {
        LONG if rng.chance(70) => LONG,
        _ => rng.pick(&LENGTHS),
    };
    let room = beside.fitting(call);
    beside.call(call, Room { modes, ..room })
}

/// All is held anew, in a fresh block.
fn fresh_again(beside: &mut Beside, rng: &mut Rng) -> Result<(), String> {
    fitting(beside, Call::Fresh)?;
    for _ in 0..rng.within(0..=4) {
        let offer = any_offer(beside, rng);
        let place = rng.below(PLACES) as u32;
        hold(beside, Call::Hold { offer, place }, rng)?;
    }
    start(beside, rng)
}

/// Some steps: to the next tick 0, to the ticks around it, or any number.
fn steps(beside: &mut Beside, rng: &mut Rng) -> Result<(), String> {
    let moment = beside.moment();
    let steps = match &moment.running {
        None => 1,
        Some(now) if now.plan.cycle > SHORT => rng.within(1..=3),
        Some(now) if now.is_last() => 1,
        Some(now) => {
            let (cycle, left) = (now.plan.cycle, now.plan.cycle - now.tick);
            match rng.below(8) {
                0 | 1 => 1,
                2 => left,
                3 => left.saturating_sub(1).max(1),
                4 => left + 1,
                5 => left + cycle * rng.within(0..=1),
                _ => rng.within(1..=cycle),
            }
        }
    };
    for _ in 0..steps {
        fitting(beside, Call::Step)?;
    }
    Ok(())
}

/// A place that holds a plan which can be changed to, or any.
fn any_request(beside: &Beside, rng: &mut Rng) -> Call {
    let moment = beside.moment();
    let model = beside.model();
    let like = moment.running.as_ref().map(|now| now.plan.like());
    let is_like = |place: &u32| {
        let held = model.held(*place);
        held.is_some_and(|plan| Some(plan.like()) == like)
    };
    let running = moment.running.as_ref().and_then(|now| now.place);
    let alike: Vec<u32> = (0..PLACES as u32).filter(is_like).collect();
    let is_other = |place: &u32| Some(*place) != running;
    let others: Vec<u32> = alike.iter().copied().filter(is_other).collect();
    let place = match (rng.below(20), rng.pick_any(&others), running) {
        (0..11, Some(place), _) => place,
        (11 | 12, _, Some(place)) => place,
        (13, _, Some(place)) => place + rng.pick(&[8, 16, 256, 65_536, 1 << 31]),
        _ => any_place(&moment, rng),
    };
    Call::Request { place }
}

/// Places that hold plans, others below 8, and such as there are not.
fn any_place(moment: &Moment, rng: &mut Rng) -> u32 {
    let places = 0..PLACES as u32;
    let held: Vec<u32> = places
        .filter(|place| moment.held[*place as usize])
        .collect();
    match (rng.below(12), rng.pick_any(&held)) {
        (0..7, Some(place)) => place,
        (7, _) => rng.pick(&[8, 8, 9, 16, 255, 256, u32::MAX, u32::MAX]),
        _ => rng.below(PLACES) as u32,
    }
}

/// Any cycle, often one of the calendar's last.
fn any_cycle(rng: &mut Rng) -> u64 {
    let any = rng.next();
    let before_end = u64::MAX - rng.below(4) as u64;
    let wraps = u64::from(u32::MAX) - rng.below(2) as u64;
    rng.pick(&[
        0,
        any,
        wraps,
        u64::MAX,
        u64::MAX - 1,
        before_end,
        before_end,
    ])
}

fn any_start(beside: &Beside, rng: &mut Rng) -> Call {
    Call::Start {
        place: any_place(&beside.moment(), rng),
        cycle: any_cycle(rng),
    }
}

/// A start that is mostly done, with all words or as many as it needs.
pub fn start(beside: &mut Beside, rng: &mut Rng) -> Result<(), String> {
    let call = any_start(beside, rng);
    let mut room = beside.fitting(call);
    let held = call.place().and_then(|place| beside.model().held(place));
    if let Some(plan) = held.filter(|_| rng.chance(40)) {
        room.words = (WORD * plan.end + rng.below(2)).min(room.words);
    }
    beside.call(call, room)?;
    if rng.chance(25) {
        let call = any_request(beside, rng);
        fitting(beside, call)?;
    }
    Ok(())
}

/// A start with a row or with words that do not fit.
fn refused_start(beside: &mut Beside, rng: &mut Rng) -> Result<(), String> {
    let call = any_start(beside, rng);
    let held = call.place().and_then(|place| beside.model().held(place));
    let end = held.map_or(0, |plan| plan.end);
    let running = beside.model().running.as_ref();
    let lanes = running.map_or(1, |plan| plan.lanes());
    let fits = beside.fitting(call);
    let mut room = fits;
    match rng.below(10) {
        0..5 => room.states = other_row(fits.states, rng),
        5 => room.states = lanes * STATE,
        6..9 => room.words = fewer(WORD * end, rng),
        _ => {
            room.states = other_row(fits.states, rng);
            room.words = fewer(WORD * end, rng);
        }
    }
    beside.call(call, within(room, beside.room))
}

/// No more than there is.
fn within(room: Room, most: Room) -> Room {
    Room {
        words: room.words.min(most.words),
        states: room.states.min(most.states),
        modes: room.modes.min(most.modes),
    }
}

/// Another length than a row should have.
fn other_row(fitting: usize, rng: &mut Rng) -> usize {
    rng.pick(&[
        fitting - STATE,
        fitting + STATE,
        fitting - 1,
        fitting + 1,
        fitting + STATE / 2,
        0,
    ])
}

/// Fewer bytes of words than suffice.
fn fewer(bytes: usize, rng: &mut Rng) -> usize {
    let any = rng.below(bytes.max(1));
    let by = rng.pick(&[1, 1, WORD, WORD, WORD + 1]);
    rng.pick(&[bytes.saturating_sub(by), bytes.saturating_sub(by), any, 0])
}

/// A step with a row that does not fit, or with words that just suffice or do
/// not. Where a request is due, the words have both plans' tables, or not the
/// requested one's: which of both a refusal is about is left open otherwise.
fn odd_step(beside: &mut Beside, rng: &mut Rng) -> Result<(), String> {
    let fits = beside.fitting(Call::Step);
    let moment = beside.moment();
    let mut room = fits;
    let Some(now) = &moment.running else {
        room.states = rng.pick(&[0, STATE, 2 * STATE, fits.states + 1]);
        return beside.call(Call::Step, within(room, beside.room));
    };
    if rng.chance(50) {
        room.states = other_row(fits.states, rng);
        return beside.call(Call::Step, within(room, beside.room));
    }
    let due = moment.requested.as_ref().filter(|_| now.tick == 0);
    if due.is_some() && now.cycle == u64::MAX && now.plan.cycle == 1 {
        return beside.call(Call::Step, room);
    }
    let end = WORD * due.map_or(now.plan.end, |plan| plan.end);
    let least = WORD * now.plan.end;
    room.words = match rng.below(6) {
        0..3 => (end + rng.below(WORD)).max(if due.is_some() { least } else { 0 }),
        3 if due.is_some() && least < end => least + rng.below(end - least),
        _ => fewer(end, rng),
    };
    beside.call(Call::Step, within(room, beside.room))
}

/// An image, mostly an accepted one.
fn any_offer(beside: &Beside, rng: &mut Rng) -> usize {
    let is_accepted = |offer: &usize| beside.offers[*offer].is_accepted();
    let accepted: Vec<usize> = (0..beside.offers.len()).filter(is_accepted).collect();
    match rng.pick_any(&accepted) {
        Some(offer) if rng.chance(92) => offer,
        _ => rng.below(beside.offers.len()),
    }
}

/// A hold between other calls, and often a start after it.
fn any_hold(beside: &mut Beside, rng: &mut Rng) -> Result<(), String> {
    let moment = beside.moment();
    let running = moment.running.as_ref().and_then(|now| now.place);
    let refused = (0..beside.offers.len())
        .rev()
        .find(|offer| !beside.offers[*offer].is_accepted());
    let offer = match (rng.below(4), refused) {
        (0, Some(offer)) => offer,
        _ => any_offer(beside, rng),
    };
    let place = match (rng.below(8), running, moment.requested_place) {
        (0 | 1, Some(place), _) => place,
        (2, _, Some(place)) => place,
        _ => any_place(&moment, rng),
    };
    hold(beside, Call::Hold { offer, place }, rng)?;
    for _ in 0..rng.below(3) {
        let calls = [Call::Step, any_request(beside, rng)];
        let call = rng.pick(&calls);
        fitting(beside, call)?;
    }
    if beside.model().running.is_none() && rng.chance(80) {
        return start(beside, rng);
    }
    Ok(())
}

/// A hold with all words, just enough, or too few.
fn hold(beside: &mut Beside, call: Call, rng: &mut Rng) -> Result<(), String> {
    let Call::Hold { offer, .. } = call else {
        return Ok(());
    };
    let need = WORD * (beside.model().taken + beside.offers[offer].words());
    let words = match rng.below(20) {
        0 | 1 => need,
        2 => need + rng.within(1..=3) as usize,
        3 => need + WORD,
        4 => need.saturating_sub(1),
        5 => need.saturating_sub(WORD),
        6 => fewer(need, rng),
        _ => beside.room.words,
    };
    let words = words.min(beside.room.words);
    let room = Room {
        words,
        states: 0,
        modes: BLOCK,
    };
    beside.call(call, room)
}

/// Calls on a block that somebody else has changed.
pub fn damaged(beside: &mut Beside, rng: &mut Rng) -> Result<(), String> {
    let mut rough = beside.rough(|block| damage(block, rng));
    for _ in 0..rng.within(2..=12) {
        let call = match any_of_all(beside, rng) {
            Call::Fresh if rng.chance(90) => Call::Step,
            call => call,
        };
        let fits = beside.fitting(call);
        let states = match rng.below(3) {
            0 => other_row(fits.states, rng),
            _ => fits.states,
        };
        let words = match rng.below(3) {
            0 => rng.below(fits.words + 1),
            _ => fits.words,
        };
        let room = Room {
            words,
            states,
            ..fits
        };
        beside.rough_call(&mut rough, call, within(room, beside.room))?;
    }
    Ok(())
}

/// Some words of a block are others, a bit is, or all is noise.
fn damage(block: &mut [u8], rng: &mut Rng) {
    match rng.below(8) {
        0 => block.copy_from_slice(&rng.bytes(BLOCK)),
        1 => block.fill(rng.pick(&[0, 0xFF])),
        2 => block[rng.below(BLOCK)] ^= 1 << rng.below(8),
        _ => {
            for _ in 0..rng.within(1..=4) {
                let any = rng.word();
                let near = rng.within(0..=40);
                let word = rng.pick(&[any, any >> 20, near, u32::MAX - near, 1 << 31, 8, 0]);
                let at = WORD * rng.below(BLOCK / WORD);
                block[at..at + WORD].copy_from_slice(&word.to_le_bytes());
            }
        }
    }
}

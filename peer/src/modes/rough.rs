//! Calls on rows of any bytes, and what holds of them all the same: the numbers
//! are the call's, a refusal changes nothing, and nothing is written but what
//! is lent for that.

use super::calls::{Call, Modes, Room, BLOCK, PLACES};
use super::rows::Buffers;
use crate::answer::Answer;
use crate::check::check;
use crate::harness::Lent;
use crate::rng::Rng;

/// Rows of any bytes.
#[derive(Clone, Debug)]
pub struct Rough(Buffers);

impl Rough {
    pub(super) fn of(rows: Buffers) -> Rough {
        Rough(rows)
    }

    /// Words, states and a block of these bytes, among noise.
    pub fn new(words: &[u8], states: &[u8], modes: &[u8], rng: &mut Rng) -> Rough {
        Rough(Buffers {
            words: Lent::of(words, rng),
            states: Lent::of(states, rng),
            modes: Lent::of(modes, rng),
        })
    }

    /// All bytes that there are.
    pub fn room(&self) -> Room {
        Room {
            words: self.0.words.part().len(),
            states: self.0.states.part().len(),
            modes: self.0.modes.part().len(),
        }
    }

    /// Makes a call on what the last one left.
    pub fn call(
        &mut self,
        by: &dyn Modes,
        call: Call,
        image: &[u8],
        room: Room,
    ) -> Result<Answer, String> {
        let mut before = self.0.clone();
        let gave = call.of(by, image, self.0.rows(room));
        if !may_give(call, room, image).contains(&gave) {
            return Err(format!("{call} gives {gave}"));
        }
        if gave.is_accepted() {
            before.take_over(call, room, &mut self.0);
        }
        match before == self.0 {
            true => Ok(gave),
            false => Err(format!(
                "{call} gives {gave} and changes {}",
                before.differing(&self.0)
            )),
        }
    }
}

impl Buffers {
    /// Takes the bytes of the rows that a call may write from others.
    fn take_over(&mut self, call: Call, room: Room, from: &mut Buffers) {
        let (to, from) = (self.rows(room), from.rows(room));
        to.modes.copy_from_slice(from.modes);
        match call {
            Call::Hold { .. } => to.words.copy_from_slice(from.words),
            Call::Start { .. } | Call::Step => to.states.copy_from_slice(from.states),
            Call::Fresh | Call::Request { .. } => {}
        }
    }
}

/// What a call can give. A block that is none may be refused by 27.
fn may_give(call: Call, room: Room, image: &[u8]) -> Vec<Answer> {
    if room.modes != BLOCK {
        return vec![Answer::plain(27)];
    }
    let numbers: &[u32] = match call {
        Call::Fresh => &[0],
        Call::Hold { place, .. } => match check(image) {
            Answer::ACCEPTED if place as usize >= PLACES => &[27, 43],
            Answer::ACCEPTED => &[0, 26, 27],
            refusal => return vec![refusal, Answer::plain(27)],
        },
        Call::Start { .. } => &[0, 27, 43],
        Call::Request { .. } => &[0, 27, 43, 44],
        Call::Step => &[0, 27, 28],
    };
    numbers.iter().copied().map(Answer::plain).collect()
}

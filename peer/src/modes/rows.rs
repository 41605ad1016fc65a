//! The rows of bytes that are lent to calls.

use super::calls::{Room, Rows};
use crate::harness::Lent;
use crate::rng::Rng;

/// The rows that are lent.
#[derive(Clone, Debug, PartialEq, Eq)]
pub struct Buffers {
    pub words: Lent,
    pub states: Lent,
    pub modes: Lent,
}

impl Buffers {
    pub fn noise(room: Room, rng: &mut Rng) -> Buffers {
        let [words, states, modes] =
            [room.words, room.states, room.modes].map(|length| Lent::noise(length, rng));
        Buffers {
            words,
            states,
            modes,
        }
    }

    /// The first so many bytes of each.
    pub fn rows(&mut self, room: Room) -> Rows<'_> {
        Rows {
            words: &mut self.words.part_mut()[..room.words],
            states: &mut self.states.part_mut()[..room.states],
            modes: &mut self.modes.part_mut()[..room.modes],
        }
    }

    /// The same content at other addresses.
    pub fn moved(&self, rng: &mut Rng) -> Buffers {
        Buffers {
            words: Lent::of(self.words.part(), rng),
            states: Lent::of(self.states.part(), rng),
            modes: Lent::of(self.modes.part(), rng),
        }
    }

    /// The rows that differ.
    pub fn differing(&self, other: &Buffers) -> String {
        let mut names = Vec::new();
        for (name, ours, theirs) in [
            ("words", &self.words, &other.words),
            ("states", &self.states, &other.states),
            ("block", &self.modes, &other.modes),
        ] {
            if ours.part() != theirs.part() {
                let bytes = ours.part().iter().zip(theirs.part());
                let at = bytes.take_while(|(ours, theirs)| ours == theirs).count();
                names.push(format!("{name} from byte {at} on"));
            } else if ours != theirs {
                names.push(format!("bytes around the {name}"));
            }
        }
        names.join(", ")
    }
}

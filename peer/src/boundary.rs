//! The functions of the C boundary over bytes, as a trait that the library
//! under test, this package and its naive twin all give.

use crate::dispatch::{self, State};
use crate::image::WORD;

/// Bytes of a state.
pub const STATE: usize = 28;

/// Calls that a boundary answers as this package's own implementation does.
#[macro_export]
macro_rules! as_peer {
    ($($call:ident),+) => { $($crate::as_peer! { @ $call })+ };
    (@ check) => { $crate::as_peer! { @ check(image: &[u8]) -> u64 } };
    (@ build) => { $crate::as_peer! { @ build(image: &[u8], lane: u32, words: &mut [u8]) -> u64 } };
    (@ start) => { $crate::as_peer! { @ start(cycle: u64, first: u32, state: &mut [u8]) -> u32 } };
    (@ step) => { $crate::as_peer! { @ step(words: &[u8], state: &mut [u8]) -> u32 } };
    (@ step_all) => { $crate::as_peer! { @ step_all(words: &[u8], states: &mut [u8]) -> u32 } };
    (@ arrivals) => { $crate::as_peer! { @ arrivals(image: &[u8], frame: u32, ticks: &mut [u8]) -> u64 } };
    (@ gates) => { $crate::as_peer! { @ gates(image: &[u8], link: u32, words: &mut [u8]) -> u64 } };
    (@ $call:ident($($name:ident: $type:ty),+) -> $answer:ty) => {
        fn $call(&self, $($name: $type),+) -> $answer {
            $crate::boundary::Boundary::$call(&$crate::boundary::Peer, $($name),+)
        }
    };
}

/// The functions over byte slices.
pub trait Boundary {
    fn check(&self, image: &[u8]) -> u64;
    fn build(&self, image: &[u8], lane: u32, words: &mut [u8]) -> u64;
    fn start(&self, cycle: u64, first: u32, state: &mut [u8]) -> u32;
    fn step(&self, words: &[u8], state: &mut [u8]) -> u32;
    fn step_all(&self, words: &[u8], states: &mut [u8]) -> u32;
    fn arrivals(&self, image: &[u8], frame: u32, ticks: &mut [u8]) -> u64;
    fn gates(&self, image: &[u8], link: u32, words: &mut [u8]) -> u64;

    /// All lanes' tables, one after another. Asks what the check asks,
    /// then 26 of all words together.
    fn build_all(&self, image: &[u8], words: &mut [u8]) -> u64 {
        let answer = self.check(image);
        if answer != 0 {
            return answer;
        }
        let tables: Vec<u8> = (0..)
            .map_while(|lane| self.table(image, lane))
            .flatten()
            .collect();
        if words.len() / WORD < tables.len() / WORD {
            return 26;
        }
        words[..tables.len()].copy_from_slice(&tables);
        0
    }

    /// A lane's table of an accepted image, as bytes, if there is such a lane.
    fn table(&self, image: &[u8], lane: u32) -> Option<Vec<u8>> {
        let mut words = vec![0; 64 * WORD];
        loop {
            match self.build(image, lane, &mut words) {
                0 => break,
                26 => words.resize(4 * words.len(), 0),
                _ => return None,
            }
        }
        let entries = read_words(&words[..2 * WORD])[1] as usize;
        words.truncate((2 + 3 * entries) * WORD);
        Some(words)
    }
}

/// This package's own implementation.
pub struct Peer;

impl Boundary for Peer {
    fn check(&self, image: &[u8]) -> u64 {
        crate::check(image).code()
    }

    fn build(&self, image: &[u8], lane: u32, words: &mut [u8]) -> u64 {
        let mut row = read_words(words);
        let answer = crate::build(image, lane, &mut row);
        write_words(&row, words);
        answer.code()
    }

    fn start(&self, cycle: u64, first: u32, state: &mut [u8]) -> u32 {
        match <&mut [u8; STATE]>::try_from(state) {
            Err(_) => 27,
            Ok(record) => {
                *record = write_state(&dispatch::start(cycle, first));
                0
            }
        }
    }

    fn step(&self, words: &[u8], state: &mut [u8]) -> u32 {
        match <&mut [u8; STATE]>::try_from(state) {
            Err(_) => 27,
            Ok(record) => {
                let mut state = read_state(record);
                let answer = dispatch::step(&read_words(words), &mut state);
                *record = write_state(&state);
                answer
            }
        }
    }

    fn step_all(&self, words: &[u8], states: &mut [u8]) -> u32 {
        let words = read_words(words);
        let (records, short) = states.as_chunks_mut::<STATE>();
        let mut row: Vec<State> = records.iter().map(read_state).collect();
        let answer = dispatch::step_all(&words, &mut row);
        if answer == 0 && !short.is_empty() {
            return 27;
        }
        for (record, state) in records.iter_mut().zip(&row) {
            *record = write_state(state);
        }
        answer
    }

    fn arrivals(&self, image: &[u8], frame: u32, ticks: &mut [u8]) -> u64 {
        let mut row = read_words(ticks);
        let answer = crate::arrivals(image, frame, &mut row);
        write_words(&row, ticks);
        answer.code()
    }

    fn gates(&self, image: &[u8], link: u32, words: &mut [u8]) -> u64 {
        let mut row = read_words(words);
        let answer = crate::gates(image, link, &mut row);
        write_words(&row, words);
        answer.code()
    }
}

/// The whole words of a row of bytes.
pub fn read_words(bytes: &[u8]) -> Vec<u32> {
    let words = bytes.as_chunks::<WORD>().0.iter();
    words.map(|&word| u32::from_le_bytes(word)).collect()
}

/// Writes words back over the bytes that they were read from.
pub fn write_words(words: &[u32], bytes: &mut [u8]) {
    for (to, word) in bytes.as_chunks_mut::<WORD>().0.iter_mut().zip(words) {
        *to = word.to_le_bytes();
    }
}

/// A state of its 28 bytes.
pub fn read_state(record: &[u8; STATE]) -> State {
    let words = read_words(record);
    State {
        cycle: u64::from(words[0]) | u64::from(words[1]) << 32,
        tick: words[2],
        entry: words[3],
        first: words[4],
        kind: words[5],
        row: words[6],
    }
}

/// The 28 bytes of a state.
pub fn write_state(state: &State) -> [u8; STATE] {
    let words = [
        state.cycle as u32,
        (state.cycle >> 32) as u32,
        state.tick,
        state.entry,
        state.first,
        state.kind,
        state.row,
    ];
    let mut record = [0; STATE];
    write_words(&words, &mut record);
    record
}

//! Words lent for a draft, among words that are not.

use crate::rng::Rng;

/// A row of words with a part that is lent. It knows how it was left, so that
/// what a call changes can be told.
#[derive(Clone, Debug)]
pub struct LentWords {
    words: Vec<u32>,
    before: Vec<u32>,
    begin: usize,
    length: usize,
}

impl LentWords {
    /// Lends noise of a length, among more noise.
    pub fn noise(length: usize, rng: &mut Rng) -> LentWords {
        let begin = 1 + rng.below(8);
        let words: Vec<u32> = (0..begin + length + 16).map(|_| rng.word()).collect();
        LentWords {
            before: words.clone(),
            words,
            begin,
            length,
        }
    }

    /// The same words, elsewhere and among other noise.
    pub fn elsewhere(&self, rng: &mut Rng) -> LentWords {
        let mut other = LentWords::noise(self.length, rng);
        other.overwrite(self.part());
        other
    }

    pub fn length(&self) -> usize {
        self.length
    }

    pub fn part(&self) -> &[u32] {
        &self.words[self.begin..self.begin + self.length]
    }

    /// The first words of the part, to be lent to a call.
    pub fn lend(&mut self, length: usize) -> &mut [u32] {
        &mut self.words[self.begin..self.begin + length]
    }

    /// Writes words from the beginning of the part on, as no call does.
    pub fn overwrite(&mut self, words: &[u32]) {
        self.words[self.begin..self.begin + words.len()].copy_from_slice(words);
        self.before.copy_from_slice(&self.words);
    }

    /// Whether any word has changed, lent or not.
    pub fn has_changed(&self) -> bool {
        self.words != self.before
    }

    /// Whether a word has changed that is none of the first so many lent.
    pub fn has_changed_past(&self, first: usize) -> bool {
        let end = self.begin + first;
        self.words[..self.begin] != self.before[..self.begin]
            || self.words[end..] != self.before[end..]
    }

    /// The lent words that have changed; from now on they have not.
    pub fn settle(&mut self) -> Vec<usize> {
        let both = self.words.iter().zip(&self.before).enumerate();
        let changed = both.filter(|(_, (now, before))| now != before);
        let changed = changed.map(|(at, _)| at - self.begin).collect();
        self.before.copy_from_slice(&self.words);
        changed
    }
}

//! An answer of the oracle: words in a list that grows.

use crate::words::Words;

/// The words of an answer about some lent bytes, of which those before `next` were read.
pub struct Answer<'b> {
    pub bytes: &'b [u8],
    pub next: usize,
    pub words: Vec<u64>,
}

impl<'b> Answer<'b> {
    pub fn new(bytes: &'b [u8], next: usize) -> Self {
        let words = Vec::new();
        Answer { bytes, next, words }
    }

    pub fn put(mut self, value: impl Words) -> Self {
        value.write(&mut self);
        self
    }

    pub fn push(&mut self, word: u64) {
        self.words.push(word);
    }
}

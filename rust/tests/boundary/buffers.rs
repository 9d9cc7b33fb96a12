//! Buffers between canaries, and awkward lengths.

use crate::independent::random::Random;

const CANARY: usize = 32;

/// A buffer with canaries on both sides, and a copy of how it was.
pub struct Guarded<T> {
    all: Vec<T>,
    before: Vec<T>,
}

impl<T: Copy + PartialEq + std::fmt::Debug> Guarded<T> {
    /// The content, between canaries.
    pub fn around(content: &[T], canary: T) -> Guarded<T> {
        let side = [canary; CANARY];
        let all = [&side[..], content, &side[..]].concat();
        Guarded { before: all.clone(), all }
    }

    pub fn content(&self) -> &[T] {
        &self.before[CANARY..self.before.len() - CANARY]
    }

    pub fn len(&self) -> usize {
        self.all.len() - 2 * CANARY
    }

    pub fn as_ptr(&self) -> *const T {
        self.all[CANARY..].as_ptr()
    }

    pub fn as_mut_ptr(&mut self) -> *mut T {
        self.all[CANARY..].as_mut_ptr()
    }

    /// Nothing has changed.
    pub fn same(&self) {
        assert!(self.all == self.before, "a buffer of {} has changed", self.len());
    }

    /// The bytes stand at the start, and nothing else has changed.
    pub fn written(&self, bytes: &[T]) {
        let end = CANARY + bytes.len();
        assert!(self.all[CANARY..end] == *bytes, "{:?} is not {bytes:?}", &self.all[CANARY..end]);
        assert!(self.all[..CANARY] == self.before[..CANARY], "written before the start");
        assert!(self.all[end..] == self.before[end..], "written past the end");
    }

    /// Only the first `count` of the content may have changed.
    pub fn free(&self, count: usize) {
        let end = CANARY + count;
        assert!(self.all[..CANARY] == self.before[..CANARY], "written before the start");
        assert!(self.all[end..] == self.before[end..], "written past the end");
    }
}

/// A buffer of random bytes.
pub fn noise(random: &mut Random, length: usize) -> Guarded<u8> {
    let canary = random.number() as u8;
    Guarded::around(&random.bytes(length), canary)
}

/// A buffer with the content.
pub fn holding(random: &mut Random, content: &[u8]) -> Guarded<u8> {
    Guarded::around(content, random.number() as u8)
}

/// The length that is needed, mostly, or one beside it.
pub fn awkward(random: &mut Random, needed: usize) -> usize {
    match random.below(12) {
        0 => 0,
        1 => 1,
        2 => needed.saturating_sub(1),
        3 => needed + 1,
        4 => needed + random.below(64),
        5 => random.below(needed + 1),
        _ => needed,
    }
}

/// The content cut or filled up to an awkward length.
pub fn cut(random: &mut Random, mut content: Vec<u8>) -> Vec<u8> {
    let length = awkward(random, content.len());
    content.resize(length, 0);
    content
}

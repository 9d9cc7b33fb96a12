//! Patterns: n packed bits, and the places of their ones.

use std::{fmt, mem};

use crate::wipe;

/// What open and read give: the pattern, and the number of ones in it. Its bytes are wiped when it is dropped.
///
/// Of a [marked reading](crate::MarkedReading) it is the differences, those at marked places included.
#[derive(Clone, PartialEq, Eq)]
pub struct Pattern {
    bytes: Vec<u8>,
    ones: u16,
}

impl Pattern {
    pub(crate) fn new(bytes: Vec<u8>, ones: u16) -> Pattern {
        Pattern { bytes, ones }
    }

    /// The packed bits: bit i has value 2^(i mod 8) in byte i div 8.
    pub fn bytes(&self) -> &[u8] {
        &self.bytes
    }

    /// The packed bits, handed over: they are the caller's to [`wipe`].
    pub fn into_bytes(mut self) -> Vec<u8> {
        mem::take(&mut self.bytes)
    }

    /// The number of ones.
    pub fn ones(&self) -> u16 {
        self.ones
    }

    /// The places of the ones, rising, from 0.
    pub fn places(&self) -> impl Iterator<Item = usize> + '_ {
        (0..8 * self.bytes.len()).filter(|i| self.bytes[i / 8] >> (i % 8) & 1 == 1)
    }
}

impl Drop for Pattern {
    fn drop(&mut self) {
        wipe(&mut self.bytes);
    }
}

/// Without the places, which are secret.
impl fmt::Debug for Pattern {
    fn fmt(&self, f: &mut fmt::Formatter<'_>) -> fmt::Result {
        f.debug_struct("Pattern").field("ones", &self.ones).finish_non_exhaustive()
    }
}

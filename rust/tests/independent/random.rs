//! A seeded generator, and random patterns and damage made with it; `drawn` has the keys.

use super::bits;
use super::key::Key;

/// SplitMix64.
pub struct Random(u64);

impl Random {
    pub fn new(seed: u64) -> Random {
        Random(seed)
    }

    pub fn number(&mut self) -> u64 {
        self.0 = self.0.wrapping_add(0x9E37_79B9_7F4A_7C15);
        let mut z = self.0;
        z = (z ^ (z >> 30)).wrapping_mul(0xBF58_476D_1CE4_E5B9);
        z = (z ^ (z >> 27)).wrapping_mul(0x94D0_49BB_1331_11EB);
        z ^ (z >> 31)
    }

    pub fn below(&mut self, limit: usize) -> usize {
        ((u128::from(self.number()) * limit as u128) >> 64) as usize
    }

    /// True once in `count` times.
    pub fn one_in(&mut self, count: usize) -> bool {
        self.below(count) == 0
    }

    pub fn pick<'a, T>(&mut self, list: &'a [T]) -> &'a T {
        &list[self.below(list.len())]
    }

    pub fn fill(&mut self, bytes: &mut [u8]) {
        for chunk in bytes.chunks_mut(8) {
            let number = self.number().to_le_bytes();
            chunk.copy_from_slice(&number[..chunk.len()]);
        }
    }

    pub fn bytes(&mut self, length: usize) -> Vec<u8> {
        let mut bytes = vec![0; length];
        self.fill(&mut bytes);
        bytes
    }

    pub fn element(&mut self, m: u8) -> u16 {
        self.below(1 << m) as u16
    }

    pub fn elements(&mut self, m: u8, count: usize) -> Vec<u16> {
        (0..count).map(|_| self.element(m)).collect()
    }

    /// A row of n random bits with filler 0.
    pub fn row(&mut self, n: usize) -> Vec<u8> {
        let mut row = self.bytes(n.div_ceil(8));
        if let used @ 1.. = n % 8 {
            row[n / 8] &= (1 << used) - 1;
        }
        row
    }

    /// A secret for patterns of n bits: mostly as it has to be, else of another length or with a filler bit set, if it has any.
    pub fn secret(&mut self, n: usize) -> Vec<u8> {
        let secret = self.row(n);
        self.mostly_fitting(n, secret)
    }

    /// The row of n bits mostly as it is, else of another length or with a filler bit set, if it has any.
    pub fn mostly_fitting(&mut self, n: usize, mut row: Vec<u8>) -> Vec<u8> {
        match self.below(8) {
            0 if n > 0 => row = self.other_length(row),
            1 if n % 8 > 0 => bits::set(&mut row, n + self.below(8 - n % 8)),
            _ => {}
        }
        row
    }

    /// A packed pattern of n bits with the given number of ones.
    pub fn pattern(&mut self, n: usize, ones: usize) -> Vec<u8> {
        let mut places: Vec<usize> = (0..n).collect();
        self.shuffle(&mut places, ones);
        bits::pack(n, places[..ones].iter().copied())
    }

    /// Puts a random choice of the list in its first `count` places.
    pub fn shuffle<T>(&mut self, list: &mut [T], count: usize) {
        for i in 0..count {
            let other = i + self.below(list.len() - i);
            list.swap(i, other);
        }
    }

    /// The key's file damaged so that load answers `number`, from 1 to 7.
    pub fn damaged(&mut self, key: &Key, number: u8) -> Vec<u8> {
        loop {
            let file = self.damage(key, number);
            if super::key::load_number(&file) == number {
                return file;
            }
        }
    }

    fn damage(&mut self, key: &Key, number: u8) -> Vec<u8> {
        let mut other = key.clone();
        match number {
            1 => other.m = self.below(256) as u8,
            2 => return self.other_length(key.file()),
            3 => self.bad_shape(&mut other),
            4 => *self.any_element(&mut other) |= 1 << (usize::from(key.m) + self.below(16 - usize::from(key.m))),
            5 => other.support[self.below(key.n)] = key.support[self.below(key.n)],
            6 => other.g = self.square(key),
            _ => other.g = self.with_root(key),
        }
        other.file()
    }

    pub(super) fn other_length(&mut self, mut file: Vec<u8>) -> Vec<u8> {
        let length = match self.below(4) {
            0 => file.len() - 1,
            1 => file.len() + 1,
            2 => 1 + self.below(file.len()),
            _ => file.len() + self.below(64),
        };
        file.resize(length, 0);
        file
    }

    /// t of 0, over 128 or with m·t ≥ n, or n over 2^m; the lists have those lengths.
    pub(super) fn bad_shape(&mut self, key: &mut Key) {
        let width = usize::from(key.m);
        match self.below(4) {
            0 => key.t = 0,
            1 => key.t = 129 + self.below(3),
            2 => key.t = key.n.div_ceil(width),
            _ => key.n = (1 << width) + 1 + self.below(3),
        }
        key.support.resize(key.n, 1);
        key.g.resize(key.t, 1);
    }

    fn any_element<'a>(&mut self, key: &'a mut Key) -> &'a mut u16 {
        let at = self.below(key.n + key.t);
        if at < key.n {
            &mut key.support[at]
        } else {
            &mut key.g[at - key.n]
        }
    }

    /// (x + a)² times a random polynomial, of degree t; only t of 2 or more has one.
    pub(super) fn square(&mut self, key: &Key) -> Vec<u16> {
        let a = self.element(key.m);
        let f = key.field();
        let mut rest = self.elements(key.m, key.t.saturating_sub(2));
        rest.push(1);
        let mut g = super::poly::multiply(f, &[f.multiply(a, a), 0, 1], &rest);
        g.truncate(key.t);
        g
    }

    /// (x + α_i) times a random polynomial, of degree t.
    pub(super) fn with_root(&mut self, key: &Key) -> Vec<u16> {
        let root = *self.pick(&key.support);
        let mut rest = self.elements(key.m, key.t - 1);
        rest.push(1);
        let mut g = super::poly::multiply(key.field(), &[root, 1], &rest);
        g.truncate(key.t);
        g
    }
}

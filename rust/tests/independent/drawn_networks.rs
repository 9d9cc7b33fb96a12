//! Random network files: of a key with spare settings of their own, damaged for each number, and with all bits drawn.

use super::key::Key;
use super::network_key::{load_network, unused, NetworkFile};
use super::poly::multiply;
use super::random::Random;

/// The numbers of a damaged network file; 5 cannot hold.
pub const DAMAGES: [u8; 7] = [1, 2, 36, 3, 4, 6, 7];

impl Random {
    /// The parts of a file of the key: the values that its support leaves come in any order.
    fn network(&mut self, key: &Key) -> NetworkFile {
        let mut others = unused(key);
        let count = others.len();
        self.shuffle(&mut others, count);
        NetworkFile::of(key, &others)
    }

    pub fn network_file(&mut self, key: &Key) -> Vec<u8> {
        self.network(key).file()
    }

    /// A file of the key's shape whose control bits and g are drawn, for keys of any kind and for 6 and 7.
    pub fn network_noise(&mut self, key: &Key) -> Vec<u8> {
        let mut parts = NetworkFile::of(key, &unused(key));
        self.fill(&mut parts.bits);
        parts.g = self.elements(key.m, key.t);
        parts.file()
    }

    /// A key whose g has one root in the support, at a place.
    pub fn key_with_root(&mut self, m: u8, n: usize, t: usize, place: usize) -> Key {
        let mut key = self.exchange_key(m, n, t);
        let rest = self.irreducible(m, t - 1);
        key.g = multiply(key.field(), &[key.support[place], 1], &rest);
        key.g.truncate(t);
        key
    }

    /// A file of the key damaged so that load_network answers `number`, one of `DAMAGES`; with t 1 no square divides g.
    pub fn damaged_network(&mut self, key: &Key, number: u8) -> Vec<u8> {
        let number = if number == 6 && key.t == 1 { 7 } else { number };
        loop {
            let file = self.damage_network(key, number);
            if load_network(&file).0 == number {
                return file;
            }
        }
    }

    fn damage_network(&mut self, key: &Key, number: u8) -> Vec<u8> {
        let mut parts = self.network(key);
        match number {
            1 => parts.m = self.number() as u8,
            2 => return self.other_length(parts.file()),
            36 => parts.count = self.other_count(parts.count),
            3 => {
                let mut other = key.clone();
                self.bad_shape(&mut other);
                (parts.n, parts.t, parts.g) = (other.n, other.t, other.g);
            }
            4 => {
                let at = self.below(key.t);
                parts.g[at] |= 1 << (usize::from(key.m) + self.below(16 - usize::from(key.m)));
            }
            6 => parts.g = self.square(key),
            _ => parts.g = self.with_root(key),
        }
        parts.file()
    }

    /// One bit turned, one more or less, or any number.
    fn other_count(&mut self, count: u32) -> u32 {
        match self.below(4) {
            0 => self.number() as u32,
            1 => count.wrapping_add(1),
            2 => count - 1,
            _ => count ^ 1 << self.below(32),
        }
    }
}

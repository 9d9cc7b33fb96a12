//! Keys, key files, and the numbers with which load refuses them.

use super::field::Field;
use super::poly::{square_divides, value, Poly};

#[derive(Clone, PartialEq, Eq, Debug)]
pub struct Key {
    pub m: u8,
    pub n: usize,
    pub t: usize,
    pub support: Vec<u16>,
    pub g: Vec<u16>,
}

/// The two bytes from `at` on, low byte first; a missing byte counts as 0.
pub(super) fn number_at(file: &[u8], at: usize) -> usize {
    let byte = |i: usize| usize::from(file.get(i).copied().unwrap_or(0));
    byte(at) + 256 * byte(at + 1)
}

pub(super) fn elements_at(file: &[u8], at: usize, count: usize) -> Vec<u16> {
    (0..count).map(|i| number_at(file, at + 2 * i) as u16).collect()
}

pub fn shape_number(m: u8, n: usize, t: usize) -> u8 {
    if Field::of(m).is_none() {
        return 1;
    }
    let width = usize::from(m);
    let allowed = (1..=128).contains(&t) && width * t < n && n <= 1 << width;
    if allowed {
        0
    } else {
        3
    }
}

impl Key {
    /// The key that the bytes spell, whether load accepts it or not; `None` where the length is wrong.
    pub fn parse(file: &[u8]) -> Option<Key> {
        let m = *file.first()?;
        let n = number_at(file, 1);
        let t = number_at(file, 3 + 2 * n);
        let key = Key { m, n, t, support: elements_at(file, 3, n), g: elements_at(file, 5 + 2 * n, t) };
        (file.len() == 5 + 2 * n + 2 * t).then_some(key)
    }

    pub fn file(&self) -> Vec<u8> {
        let two = |x: u16| x.to_le_bytes();
        let mut file = vec![self.m];
        file.extend(two(self.n as u16));
        file.extend(self.support.iter().flat_map(|x| two(*x)));
        file.extend(two(self.t as u16));
        file.extend(self.g.iter().flat_map(|x| two(*x)));
        file
    }

    pub fn field(&self) -> &'static Field {
        Field::of(self.m).expect("a width of document 01")
    }

    /// g with its leading coefficient 1.
    pub fn polynomial(&self) -> Poly {
        let mut g = self.g.clone();
        g.push(1);
        g
    }

    fn element_twice(&self) -> bool {
        let mut sorted = self.support.clone();
        sorted.sort_unstable();
        sorted.windows(2).any(|pair| pair[0] == pair[1])
    }

    /// Load's number for a key: 1, 3, 4, 5, 6, 7, or 0.
    pub fn number(&self) -> u8 {
        let shape = shape_number(self.m, self.n, self.t);
        if shape != 0 {
            return shape;
        }
        let f = self.field();
        let outside = |x: &u16| usize::from(*x) >= f.size();
        let g = self.polynomial();
        if self.support.iter().chain(&self.g).any(outside) {
            4
        } else if self.element_twice() {
            5
        } else if square_divides(f, &g) {
            6
        } else if self.support.iter().any(|x| value(f, &g, *x) == 0) {
            7
        } else {
            0
        }
    }

    pub fn capsule_bits(&self) -> usize {
        usize::from(self.m) * self.t
    }

    pub fn row_length(&self) -> usize {
        (self.n - self.capsule_bits()).div_ceil(8)
    }

    pub fn public_length(&self) -> usize {
        self.capsule_bits() * self.row_length()
    }

    pub fn work_length(&self) -> usize {
        self.capsule_bits() * self.n.div_ceil(8)
    }

    /// Of the small form, from request L9.
    pub fn small_work_length(&self) -> usize {
        2 * self.capsule_bits() * self.capsule_bits().div_ceil(8)
    }
}

/// Load's number for a file on an empty station.
pub fn load_number(file: &[u8]) -> u8 {
    let Some(m) = file.first() else { return 1 };
    if Field::of(*m).is_none() {
        return 1;
    }
    Key::parse(file).map_or(2, |key| key.number())
}

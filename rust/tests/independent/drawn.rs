//! Random keys that load accepts: exchange keys, with an irreducible g, and reading keys, whose g has a proper factor.

use super::field::Field;
use super::held::Held;
use super::key::Key;
use super::poly::{multiply, square_divides, value, Poly};
use super::random::Random;
use super::{bits, factors, matrix};

/// How a g is made that has a proper factor.
#[derive(Clone, Copy, PartialEq, Eq, Debug)]
pub enum Split {
    /// Two irreducible factors of equal degree.
    Halves,
    /// A linear factor and any other polynomial.
    Linear,
    /// Irreducible factors of degrees 1 and t - 1.
    LinearAndRest,
    /// Two irreducible factors, neither of degree 1: no roots.
    Rootless,
}

impl Split {
    pub const ALL: [Split; 4] = [Split::Halves, Split::Linear, Split::LinearAndRest, Split::Rootless];

    /// Whether there is such a g of degree t.
    pub fn has(self, t: usize) -> bool {
        match self {
            Split::Halves => t % 2 == 0,
            Split::Linear | Split::LinearAndRest => t >= 2,
            Split::Rootless => t >= 4,
        }
    }
}

/// Whether a shape has reading keys: a g of degree 2 that splits has two roots, and one of degree 3 at least one.
pub fn has_reading_keys((m, n, t): (u8, usize, usize)) -> bool {
    let roots = [2, 1].get(t.wrapping_sub(2)).copied().unwrap_or(0);
    t > 1 && n + roots <= 1 << m
}

/// Something that a call looks at, and the numbers whose conditions hold for it, in their order.
pub type Kind<T> = (T, Vec<u8>);

/// The key with its first element twice, which load refuses: a station made by hand with it answers 25.
pub fn doubled(key: &Key) -> Held {
    let mut key = key.clone();
    key.support[1] = key.support[0];
    Held::new(key)
}

/// A code word with the given number of bits turned.
pub fn near_code_word(random: &mut Random, held: &Held, errors: usize) -> Vec<u8> {
    let key = &held.key;
    let rank = key.capsule_bits();
    let mut word = vec![0; key.n.div_ceil(8)];
    if let Some(public) = held.public() {
        word = random.row(key.n);
        for i in bits::places(rank, &word) {
            word[i / 8] ^= 1 << (i % 8);
        }
        let sums = matrix::lock(key.m, key.n, key.t, public, &word);
        for (byte, sum) in word.iter_mut().zip(sums) {
            *byte ^= sum;
        }
    }
    let turned = random.pattern(key.n, errors);
    word.iter().zip(turned).map(|(byte, turn)| byte ^ turn).collect()
}

/// A code word with so many bits turned at unmarked places and so many marked bits drawn: the word, the marks, and all differences.
pub fn marked_word(random: &mut Random, held: &Held, errors: usize, marked: usize) -> [Vec<u8>; 3] {
    let n = held.key.n;
    let mut places: Vec<usize> = (0..n).collect();
    random.shuffle(&mut places, errors + marked);
    let (turned, marked) = places[..errors + marked].split_at(errors);
    let drawn: Vec<usize> = marked.iter().copied().filter(|_| random.one_in(2)).collect();
    let differences = bits::pack(n, turned.iter().chain(&drawn).copied());
    let code_word = near_code_word(random, held, 0);
    let word = code_word.iter().zip(&differences).map(|(byte, turn)| byte ^ turn).collect();
    [word, bits::pack(n, marked.iter().copied()), differences]
}

/// A marked word about where it begins to be refused: 2d + s from below 2t to above it, as far as there are places.
pub fn marked_about(random: &mut Random, held: &Held) -> [Vec<u8>; 3] {
    let (n, t) = (held.key.n, held.key.t);
    let marked = random.below((2 * t + 3).min(n + 1));
    let bound = (2 * t).saturating_sub(marked) / 2;
    let errors = match random.below(4) {
        0 => random.below(bound + 1),
        1 => bound + 1,
        _ => bound,
    };
    marked_word(random, held, errors.min(n - marked), marked)
}

fn field(m: u8) -> &'static Field {
    Field::of(m).expect("a width of document 01")
}

impl Random {
    fn monic(&mut self, m: u8, degree: usize) -> Poly {
        let mut p = self.elements(m, degree);
        p.push(1);
        p
    }

    /// By trial: about one of t polynomials of degree t is irreducible.
    pub fn irreducible(&mut self, m: u8, t: usize) -> Poly {
        loop {
            let g = self.monic(m, t);
            if !factors::by_powers(field(m), &g) {
                return g;
            }
        }
    }

    /// A g of degree t that splits so, without a square.
    pub fn split(&mut self, m: u8, t: usize, split: Split) -> Poly {
        loop {
            let (p, q) = match split {
                Split::Halves => (self.irreducible(m, t / 2), self.irreducible(m, t / 2)),
                Split::Linear => (self.monic(m, 1), self.monic(m, t - 1)),
                Split::LinearAndRest => (self.monic(m, 1), self.irreducible(m, t - 1)),
                Split::Rootless => {
                    let degree = 2 + self.below(t - 3);
                    (self.irreducible(m, degree), self.irreducible(m, t - degree))
                }
            };
            let g = multiply(field(m), &p, &q);
            if !square_divides(field(m), &g) {
                return g;
            }
        }
    }

    /// A key with g, and a support of n elements at which it is not 0; none where there are fewer.
    pub fn key_of(&mut self, m: u8, n: usize, g: &[u16]) -> Option<Key> {
        let f = field(m);
        let mut support: Vec<u16> = (0..f.size()).map(|x| x as u16).filter(|x| value(f, g, *x) != 0).collect();
        if support.len() < n {
            return None;
        }
        self.shuffle(&mut support, n);
        support.truncate(n);
        let t = g.len() - 1;
        Some(Key { m, n, t, support, g: g[..t].to_vec() })
    }

    /// A key with an irreducible g; there is none with t 1 and all elements in the support.
    pub fn exchange_key(&mut self, m: u8, n: usize, t: usize) -> Key {
        loop {
            let g = self.irreducible(m, t);
            if let Some(key) = self.key_of(m, n, &g) {
                return key;
            }
        }
    }

    /// A key whose g has a proper factor, for shapes that have one.
    pub fn reading_key(&mut self, m: u8, n: usize, t: usize) -> Key {
        assert!(has_reading_keys((m, n, t)), "no such key: {m},{n},{t}");
        loop {
            let split = *self.pick(&Split::ALL);
            if !split.has(t) {
                continue;
            }
            let g = self.split(m, t, split);
            if let Some(key) = self.key_of(m, n, &g) {
                return key;
            }
        }
    }

    /// A key of either kind.
    pub fn key(&mut self, m: u8, n: usize, t: usize) -> Key {
        if has_reading_keys((m, n, t)) && self.one_in(2) {
            self.reading_key(m, n, t)
        } else {
            self.exchange_key(m, n, t)
        }
    }

    /// An exchange key that has a public key: the support is drawn again, in another order, until it has.
    pub fn published(&mut self, m: u8, n: usize, t: usize) -> Held {
        loop {
            let mut key = self.exchange_key(m, n, t);
            for _ in 0..20 {
                let held = Held::new(key.clone());
                if held.public().is_some() {
                    return held;
                }
                self.shuffle(&mut key.support, n);
            }
        }
    }

    /// An exchange key that has no public key, drawn again until it has none.
    pub fn dependent(&mut self, m: u8, n: usize, t: usize) -> Held {
        loop {
            let held = Held::new(self.exchange_key(m, n, t));
            if held.public().is_none() {
                return held;
            }
        }
    }

    /// A key and others of its shape with each of 25 and 34, alone and together.
    pub fn kinds(&mut self, held: Held) -> Vec<Kind<Held>> {
        let Key { m, n, t, .. } = held.key;
        let unsound = doubled(&held.key);
        let mut keys = vec![(held, vec![]), (unsound, vec![25])];
        if has_reading_keys((m, n, t)) {
            let split = self.reading_key(m, n, t);
            keys.push((doubled(&split), vec![25, 34]));
            keys.push((Held::new(split), vec![34]));
        }
        keys
    }
}

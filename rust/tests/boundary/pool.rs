//! The keys of the trials, and rows that fit them.

use std::sync::Arc;

use crate::compare::small_shapes;
use crate::independent::drawn::{has_reading_keys, marked_about, near_code_word};
use crate::independent::held::Held;
use crate::independent::matrix;
use crate::independent::random::Random;

pub struct Pool {
    small: Vec<Arc<Held>>,
    large: Vec<Arc<Held>>,
}

/// Once in so many calls a large key is taken.
const LARGE: usize = 2000;

impl Pool {
    pub fn new(random: &mut Random) -> Pool {
        let mut small = vec![];
        for (m, n, t) in small_shapes() {
            for _ in 0..4 {
                let key = random.exchange_key(m, n, t);
                small.push(Arc::new(Held::new(key)));
                small.push(Arc::new(random.published(m, n, t)));
            }
            if has_reading_keys((m, n, t)) {
                let key = random.reading_key(m, n, t);
                small.push(Arc::new(Held::new(key)));
            }
        }
        let mut large = vec![];
        for (m, n, t) in [(12, 3488, 64), (13, 4608, 96), (13, 6960, 119), (13, 8192, 128), (12, 100, 5)] {
            large.push(Arc::new(random.published(m, n, t)));
        }
        for key in [random.exchange_key(13, 6688, 128), random.reading_key(13, 6688, 128)] {
            large.push(Arc::new(Held::new(key)));
        }
        Pool { small, large }
    }

    pub fn key(&self, random: &mut Random) -> Arc<Held> {
        let list = if random.one_in(LARGE) { &self.large } else { &self.small };
        Arc::clone(random.pick(list))
    }

    pub fn small(&self, random: &mut Random) -> Arc<Held> {
        Arc::clone(random.pick(&self.small))
    }
}

/// A pattern of t ones, or of one more or less.
pub fn pattern(random: &mut Random, held: &Held) -> Vec<u8> {
    let t = held.key.t;
    let ones = match random.below(6) {
        0 => t - 1,
        1 => t + 1,
        _ => t,
    };
    random.pattern(held.key.n, ones)
}

/// A capsule: of a pattern, damaged, random, or with random filler.
pub fn capsule(random: &mut Random, held: &Held) -> Vec<u8> {
    let (key, rank) = (&held.key, held.key.capsule_bits());
    match (random.below(5), held.public()) {
        (0, _) => random.row(rank),
        (1, _) => random.bytes(rank.div_ceil(8)),
        (kind, Some(public)) => {
            let mut capsule = matrix::lock(key.m, key.n, key.t, public, &pattern(random, held));
            if kind == 2 {
                let turned = random.below(rank);
                capsule[turned / 8] ^= 1 << (turned % 8);
            }
            capsule
        }
        (_, None) => random.row(rank),
    }
}

/// A word: near a code word, random, or with random filler.
pub fn word(random: &mut Random, held: &Held) -> Vec<u8> {
    let n = held.key.n;
    match random.below(6) {
        0 => random.row(n),
        1 => random.bytes(n.div_ceil(8)),
        _ => {
            let errors = random.below(held.key.t + 2);
            near_code_word(random, held, errors)
        }
    }
}

/// A word and marks: about the bound, the marks mostly fitting, or a word as for read with random marks or filler in them.
pub fn marked_word(random: &mut Random, held: &Held) -> [Vec<u8>; 2] {
    let n = held.key.n;
    match random.below(6) {
        0 => [word(random, held), random.row(n)],
        1 => [word(random, held), random.bytes(n.div_ceil(8))],
        _ => {
            let [word, marks, _] = marked_about(random, held);
            [word, random.mostly_fitting(n, marks)]
        }
    }
}

//! Reading by Sugiyama's method: the syndrome polynomial modulo g² and the extended Euclidean algorithm; with marks too, as
//! errors and erasures.

use super::bits;
use super::key::Key;
use super::poly::{add, derivative, divide, multiply, trim, value, Poly};

pub struct Reader {
    key: Key,
    /// g² as a polynomial.
    square: Poly,
    /// 1/g(α_i).
    inverse: Vec<u16>,
}

impl Reader {
    pub fn new(key: &Key) -> Reader {
        let (f, g) = (key.field(), key.polynomial());
        let inverse = |x: &u16| f.invert(value(f, &g, *x)).expect("no g(α) is 0");
        Reader { square: multiply(f, &g, &g), inverse: key.support.iter().map(inverse).collect(), key: key.clone() }
    }

    /// The sum over the places of 1/(x − α) modulo g²: (g²(x) − g²(α)) / (x − α) / g²(α) by synthetic division.
    fn syndrome(&self, places: &[usize]) -> Poly {
        let f = self.key.field();
        let degree = self.square.len() - 1;
        let mut sum = vec![0; degree];
        for i in places {
            let (alpha, inverse) = (self.key.support[*i], self.inverse[*i]);
            let factor = f.multiply(inverse, inverse);
            let mut q = 0;
            for k in (0..degree).rev() {
                q = f.multiply(q, alpha) ^ self.square[k + 1];
                sum[k] ^= f.multiply(factor, q);
            }
        }
        trim(sum)
    }

    /// The defining sums: for each s below t, the sum over the places of α^s / g(α).
    fn sums(&self, places: &[usize]) -> Vec<u16> {
        let f = self.key.field();
        let mut sums = vec![0; self.key.t];
        for i in places {
            let mut x = self.inverse[*i];
            for sum in &mut sums {
                *sum ^= x;
                x = f.multiply(x, self.key.support[*i]);
            }
        }
        sums
    }

    /// v and r with v·syndrome = r modulo g²: the first with r of degree below the one given.
    fn locator(&self, syndrome: Poly, below: usize) -> (Poly, Poly) {
        let f = self.key.field();
        let (mut r0, mut r1) = (self.square.clone(), syndrome);
        let (mut v0, mut v1) = (vec![], vec![1]);
        while r1.len() > below {
            let (quotient, rest) = divide(f, &r0, &r1);
            let next = add(&v0, &multiply(f, &quotient, &v1));
            (r0, r1) = (r1, rest);
            (v0, v1) = (v1, next);
        }
        (v1, r1)
    }

    /// The places within t that turn the word into a code word, or none.
    pub fn read(&self, word: &[u8]) -> Option<Vec<usize>> {
        let f = self.key.field();
        let ones = bits::places(self.key.n, word);
        let (locator, _) = self.locator(self.syndrome(&ones), self.key.t);
        let root = |i: &usize| value(f, &locator, self.key.support[*i]) == 0;
        let places: Vec<usize> = (0..self.key.n).filter(root).collect();
        let explained = places.len() <= self.key.t && self.sums(&places) == self.sums(&ones);
        explained.then_some(places)
    }

    /// The marked places where the word differs: those where the value of an error, r / (v·Λ'), is 1 and not 0; none where
    /// one is neither. Λ has its roots at the marked places, v at the unmarked differences.
    fn at_marks(&self, marked: &[usize], erasures: &[u16], v: &[u16], r: &[u16]) -> Option<Vec<usize>> {
        let f = self.key.field();
        let slope = derivative(erasures);
        let mut places = vec![];
        for i in marked {
            let x = self.key.support[*i];
            match (value(f, r, x), f.multiply(value(f, v, x), value(f, &slope, x))) {
                (0, 1..) => {}
                (top, bottom) if top == bottom && top != 0 => places.push(*i),
                _ => return None,
            }
        }
        Some(places)
    }

    /// The places where the word differs from the code word with 2d + s ≤ 2t, where s places are marked and d of the others
    /// differ; none where there is no such code word. The key equation is that of the syndrome times Λ.
    pub fn read_marked(&self, word: &[u8], marks: &[u8]) -> Option<Vec<usize>> {
        let (f, n) = (self.key.field(), self.key.n);
        let (ones, marked) = (bits::places(n, word), bits::places(n, marks));
        let most = (2 * self.key.t).checked_sub(marked.len())? / 2;
        let erasures = marked.iter().fold(vec![1], |p, i| multiply(f, &p, &[self.key.support[*i], 1]));
        let product = divide(f, &multiply(f, &erasures, &self.syndrome(&ones)), &self.square).1;
        let (v, r) = self.locator(product, 2 * self.key.t - most);
        let unmarked = (0..n).filter(|i| !bits::bit(marks, *i));
        let mut places: Vec<usize> = unmarked.filter(|i| value(f, &v, self.key.support[*i]) == 0).collect();
        if places.len() > most {
            return None;
        }
        places.extend(self.at_marks(&marked, &erasures, &v, &r)?);
        places.sort_unstable();
        (self.sums(&places) == self.sums(&ones)).then_some(places)
    }
}

//! Whether a polynomial has a proper factor, in two ways: by trial division, and by Ben-Or's test.

use super::field::Field;
use super::poly::{add, divide, gcd, multiply, Poly};

/// The monic polynomials of a degree.
fn monic(f: &Field, degree: usize) -> impl Iterator<Item = Poly> {
    let (size, m) = (f.size(), f.m);
    (0..size.pow(degree as u32)).map(move |number| {
        let digit = |i: usize| (number >> (i * usize::from(m)) & (size - 1)) as u16;
        (0..degree).map(digit).chain([1]).collect()
    })
}

/// Whether a polynomial of degree 1 to t/2 divides g, by all of them: of two factors one has such a degree.
pub fn by_division(f: &Field, g: &[u16]) -> bool {
    let t = g.len() - 1;
    (1..=t / 2).flat_map(|degree| monic(f, degree)).any(|p| divide(f, g, &p).1.is_empty())
}

/// h^(2^m) modulo g.
fn power(f: &Field, g: &[u16], h: Poly) -> Poly {
    (0..f.m).fold(h, |h, _| divide(f, &multiply(f, &h, &h), g).1)
}

/// Whether g shares a factor with x^(q^i) - x, the product of the irreducible ones whose degree divides i, for an i up to t/2.
pub fn by_powers(f: &Field, g: &[u16]) -> bool {
    let x = [0, 1];
    let mut h = x.to_vec();
    (1..g.len().div_ceil(2)).any(|_| {
        h = power(f, g, std::mem::take(&mut h));
        gcd(f, g, &add(&h, &x)).len() > 1
    })
}

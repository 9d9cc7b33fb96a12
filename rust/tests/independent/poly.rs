//! Polynomials over a field: coefficients from the constant one up, without zeros at the top.

use super::field::Field;

pub type Poly = Vec<u16>;

pub fn trim(mut p: Poly) -> Poly {
    while p.last() == Some(&0) {
        p.pop();
    }
    p
}

pub fn add(p: &[u16], q: &[u16]) -> Poly {
    let at = |list: &[u16], i: usize| list.get(i).copied().unwrap_or(0);
    let longest = p.len().max(q.len());
    trim((0..longest).map(|i| at(p, i) ^ at(q, i)).collect())
}

pub fn multiply(f: &Field, p: &[u16], q: &[u16]) -> Poly {
    let mut product = vec![0; p.len() + q.len()];
    for (i, a) in p.iter().enumerate() {
        for (j, b) in q.iter().enumerate() {
            product[i + j] ^= f.multiply(*a, *b);
        }
    }
    trim(product)
}

/// Quotient and remainder; q is not 0.
pub fn divide(f: &Field, p: &[u16], q: &[u16]) -> (Poly, Poly) {
    let lead = q.last().and_then(|top| f.invert(*top)).expect("a divisor other than 0, without zeros at the top");
    let mut rest = p.to_vec();
    let mut quotient = vec![0; (p.len() + 1).saturating_sub(q.len())];
    for shift in (0..quotient.len()).rev() {
        let factor = f.multiply(rest[shift + q.len() - 1], lead);
        quotient[shift] = factor;
        for (i, c) in q.iter().enumerate() {
            rest[shift + i] ^= f.multiply(factor, *c);
        }
    }
    (trim(quotient), trim(rest))
}

pub fn gcd(f: &Field, p: &[u16], q: &[u16]) -> Poly {
    let (mut a, mut b) = (trim(p.to_vec()), trim(q.to_vec()));
    while !b.is_empty() {
        let (_, rest) = divide(f, &a, &b);
        a = std::mem::replace(&mut b, rest);
    }
    a
}

/// The derivative: in characteristic 2 the odd coefficients, one place down.
pub fn derivative(p: &[u16]) -> Poly {
    let odd = |(i, c): (usize, &u16)| if i % 2 == 1 { *c } else { 0 };
    trim(p.iter().enumerate().map(odd).skip(1).collect())
}

pub fn value(f: &Field, p: &[u16], x: u16) -> u16 {
    p.iter().rev().fold(0, |sum, c| f.multiply(sum, x) ^ c)
}

/// Whether the square of a polynomial of degree 1 or more divides p: p and its derivative then share a factor.
pub fn square_divides(f: &Field, p: &[u16]) -> bool {
    gcd(f, p, &derivative(p)).len() != 1
}

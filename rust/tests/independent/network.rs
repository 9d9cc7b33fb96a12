//! The standard's switching network and the control bits of a permutation, from the text of 'Verified fast formulas for control bits
//! for permutation networks': forwards on all values, and by its recursive routine, which composes by sorting.

/// What the network on 2^m values sends out: in 2m - 1 layers pairs of places change their values where the bit is set.
pub fn permutation(m: usize, bits: &[bool]) -> Vec<usize> {
    let half = 1 << (m - 1);
    let mut values: Vec<usize> = (0..2 * half).collect();
    for layer in 0..2 * m - 1 {
        let gap = 1 << layer.min(2 * m - 2 - layer);
        for j in (0..half).filter(|j| bits[layer * half + j]) {
            let place = j % gap + 2 * gap * (j / gap);
            values.swap(place, place + gap);
        }
    }
    values
}

/// c after the inverse of a permutation: the pairs (permutation[x], c[x]) in rising order of the first.
fn composed_with_inverse(c: &[usize], permutation: &[usize]) -> Vec<usize> {
    let mut pairs: Vec<(usize, usize)> = permutation.iter().copied().zip(c.iter().copied()).collect();
    pairs.sort_unstable();
    pairs.into_iter().map(|(_, y)| y).collect()
}

fn minima(a: &[usize], b: &[usize]) -> Vec<usize> {
    a.iter().zip(b).map(|(x, y)| *x.min(y)).collect()
}

/// The least number of each cycle of x -> pi(pi^-1(x xor 1) xor 1), by doubling steps.
fn least_of_cycles(pi: &[usize]) -> Vec<usize> {
    let n = pi.len();
    let p: Vec<usize> = (0..n).map(|x| pi[x ^ 1]).collect();
    let q: Vec<usize> = (0..n).map(|x| pi[x] ^ 1).collect();
    let (mut p, mut q) = (composed_with_inverse(&p, &q), composed_with_inverse(&q, &p));
    let mut least = minima(&(0..n).collect::<Vec<_>>(), &p);
    (p, q) = (composed_with_inverse(&p, &q), composed_with_inverse(&q, &p));
    for _ in 1..n.ilog2() - 1 {
        least = minima(&least, &composed_with_inverse(&least, &q));
        (p, q) = (composed_with_inverse(&p, &q), composed_with_inverse(&q, &p));
    }
    least
}

/// The control bits of a permutation of the numbers below 2^m, m at least 1, layer after layer.
pub fn control_bits(pi: &[usize]) -> Vec<bool> {
    let n = pi.len();
    if n == 2 {
        return vec![pi[0] == 1];
    }
    let least = least_of_cycles(pi);
    let first: Vec<usize> = (0..n / 2).map(|j| least[2 * j] % 2).collect();
    let inverse = composed_with_inverse(&(0..n).collect::<Vec<_>>(), pi);
    let turned: Vec<usize> = (0..n).map(|x| x ^ first[x / 2]).collect();
    let turned_pi = composed_with_inverse(&turned, &inverse);
    let last: Vec<usize> = (0..n / 2).map(|k| turned_pi[2 * k] % 2).collect();
    let ends: Vec<usize> = (0..n).map(|y| y ^ last[y / 2]).collect();
    let middle = composed_with_inverse(&turned_pi, &ends);
    let [even, odd] =
        [0, 1].map(|parity| control_bits(&(0..n / 2).map(|j| middle[2 * j + parity] / 2).collect::<Vec<_>>()));
    let inner = even.into_iter().zip(odd).flat_map(|(a, b)| [a, b]);
    let bit = |x: usize| x == 1;
    first.into_iter().map(bit).chain(inner).chain(last.into_iter().map(bit)).collect()
}

#[cfg(test)]
mod tests {
    use super::{control_bits, permutation};
    use crate::independent::random::Random;

    /// Every permutation of up to four values, and random ones of more, come back.
    #[test]
    fn control_bits_send_out_the_permutation() {
        for pi in [[0, 1], [1, 0]] {
            assert_eq!(permutation(1, &control_bits(&pi)), pi);
        }
        let orders = (0..256_usize).map(|i| [i % 4, i / 4 % 4, i / 16 % 4, i / 64]);
        let all: Vec<[usize; 4]> = orders.filter(|pi| (0..4).all(|x| pi.contains(&x))).collect();
        assert_eq!(all.len(), 24);
        all.iter().for_each(|pi| assert_eq!(permutation(2, &control_bits(pi)), pi));
        let mut random = Random::new(700);
        for m in (3..=13).flat_map(|m| [m; 5]) {
            let mut pi: Vec<usize> = (0..1 << m).collect();
            random.shuffle(&mut pi, 1 << m);
            let bits = control_bits(&pi);
            assert_eq!(bits.len(), (2 * m - 1) << (m - 1));
            assert!(permutation(m, &bits) == pi, "2^{m} values");
        }
    }
}

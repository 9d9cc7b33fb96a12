//! The public key from the definition: matrix H, plain elimination over two elements, the remaining columns.

use super::bits;
use super::key::Key;
use super::poly::value;

type Row = Vec<u64>;

fn has(row: &Row, j: usize) -> bool {
    row[j / 64] >> (j % 64) & 1 == 1
}

/// Row s·m+k and column j: the bit of value 2^k in α_j^s / g(α_j).
fn defined(key: &Key) -> Vec<Row> {
    let f = key.field();
    let (m, g) = (usize::from(key.m), key.polynomial());
    let mut h = vec![vec![0; key.n.div_ceil(64)]; key.capsule_bits()];
    for (j, alpha) in key.support.iter().enumerate() {
        let mut x = f.invert(value(f, &g, *alpha)).expect("no g(α) is 0");
        for s in 0..key.t {
            for k in 0..m {
                h[s * m + k][j / 64] |= u64::from(x >> k & 1) << (j % 64);
            }
            x = f.multiply(x, *alpha);
        }
    }
    h
}

fn clear_column(h: &mut [Row], pivot: usize) {
    let row = h[pivot].clone();
    for (i, other) in h.iter_mut().enumerate() {
        if i != pivot && has(other, pivot) {
            for (x, y) in other.iter_mut().zip(&row) {
                *x ^= y;
            }
        }
    }
}

/// T, or none where the first m·t columns are dependent.
pub fn public_key(key: &Key) -> Option<Vec<u8>> {
    let mut h = defined(key);
    let rank = h.len();
    for column in 0..rank {
        let found = (column..rank).find(|i| has(&h[*i], column))?;
        h.swap(column, found);
        clear_column(&mut h, column);
    }
    let rest = key.n - rank;
    let packed = |row: &Row| bits::pack(rest, (0..rest).filter(|j| has(row, rank + j)));
    Some(h.iter().flat_map(packed).collect())
}

/// [I|T]·e, bit by bit.
pub fn lock(m: u8, n: usize, t: usize, public: &[u8], pattern: &[u8]) -> Vec<u8> {
    let rank = usize::from(m) * t;
    let length = (n - rank).div_ceil(8);
    let product = |i: &usize| {
        let row = &public[i * length..(i + 1) * length];
        let ones = (rank..n).filter(|j| bits::bit(pattern, *j) && bits::bit(row, j - rank));
        bits::bit(pattern, *i) ^ (ones.count() % 2 == 1)
    };
    bits::pack(rank, (0..rank).filter(product))
}

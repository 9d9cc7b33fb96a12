//! Packed rows: bit i has value 2^(i mod 8) in byte i div 8.

pub fn bit(row: &[u8], i: usize) -> bool {
    row.get(i / 8).is_some_and(|byte| byte >> (i % 8) & 1 == 1)
}

pub fn set(row: &mut [u8], i: usize) {
    row[i / 8] |= 1 << (i % 8);
}

pub fn pack(n: usize, places: impl IntoIterator<Item = usize>) -> Vec<u8> {
    let mut row = vec![0; n.div_ceil(8)];
    for i in places {
        set(&mut row, i);
    }
    row
}

pub fn places(n: usize, row: &[u8]) -> Vec<usize> {
    (0..n).filter(|i| bit(row, *i)).collect()
}

/// Whether a bit from n to the end of the last byte is set.
pub fn filler_set(n: usize, row: &[u8]) -> bool {
    (n..8 * n.div_ceil(8)).any(|i| bit(row, i))
}

//! The shortest register: Massey's algorithm as in document 004's Figure 1, and what it must fulfil.

use super::field::Field;

/// The length and the connection polynomial, 257 coefficients.
pub fn massey(f: &Field, list: &[u16]) -> (usize, Vec<u16>) {
    let mut c = vec![0; 257];
    c[0] = 1;
    let mut before = c.clone();
    let (mut length, mut since, mut last) = (0, 1, 1);
    for n in 0..list.len() {
        let d = (0..=length).fold(0, |sum, i| sum ^ f.multiply(c[i], list[n - i]));
        if d == 0 {
            since += 1;
            continue;
        }
        let old = c.clone();
        let factor = f.multiply(d, f.invert(last).expect("1, or a d other than 0"));
        for i in since..257 {
            c[i] ^= f.multiply(factor, before[i - since]);
        }
        if 2 * length > n {
            since += 1;
        } else {
            length = n + 1 - length;
            (before, last, since) = (old, d, 1);
        }
    }
    (length, c)
}

/// Whether some register of the length makes the list: its linear equations have a solution.
fn solvable(f: &Field, list: &[u16], length: usize) -> bool {
    let equation = |j: usize| -> Vec<u16> { (0..=length).map(|i| list[j - length + i]).collect() };
    let mut rows: Vec<Vec<u16>> = (length..list.len()).map(equation).collect();
    let mut rank = 0;
    for column in 0..length {
        let Some(found) = (rank..rows.len()).find(|i| rows[*i][column] != 0) else {
            continue;
        };
        rows.swap(rank, found);
        clear_below(f, &mut rows[rank..], column);
        rank += 1;
    }
    rows[rank..].iter().all(|row| row[length] == 0)
}

fn clear_below(f: &Field, rows: &mut [Vec<u16>], column: usize) {
    let Some((pivot, rest)) = rows.split_first_mut() else {
        return;
    };
    let inverse = f.invert(pivot[column]).expect("a pivot is not 0");
    for row in rest {
        let factor = f.multiply(row[column], inverse);
        for (x, y) in row.iter_mut().zip(pivot.iter()) {
            *x ^= f.multiply(factor, *y);
        }
    }
}

/// The least length for which a register makes the list.
pub fn shortest(f: &Field, list: &[u16]) -> usize {
    (0..=list.len()).find(|length| solvable(f, list, *length)).expect("a register as long as the list makes it")
}

/// Whether the polynomial (c_0 = 1, then c_1..c_length, then zeros) makes the list.
pub fn makes(f: &Field, list: &[u16], length: usize, c: &[u16]) -> bool {
    let next = |j: usize| (0..=length).fold(0, |sum, i| sum ^ f.multiply(c[i], list[j - i]));
    let zeros = c[length + 1..].iter().all(|x| *x == 0);
    c[0] == 1 && zeros && (length..list.len()).all(|j| next(j) == 0)
}

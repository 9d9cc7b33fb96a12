//! SHAKE256 on single bits, from FIPS 202: the step mappings by their formulas, the offsets of ρ by its walk over the lanes, the
//! round constants as coefficients of powers of x.

use std::array;

/// Bits of a lane and of a block.
const W: usize = 64;
const RATE: usize = 25 * W - 512;

/// The bits z of a lane, a byte for each.
type Lane = [u8; W];

/// The lanes A[x][y].
type State = [[Lane; 5]; 5];

/// The state whose bits are a formula's.
fn state(bit: impl Fn(usize, usize, usize) -> u8) -> State {
    array::from_fn(|x| array::from_fn(|y| array::from_fn(|z| bit(x, y, z))))
}

/// Each bit plus the parities of two columns, (x − 1, z) and (x + 1, z − 1).
fn theta(a: &State) -> State {
    let parity: [Lane; 5] = array::from_fn(|x| array::from_fn(|z| a[x].iter().fold(0, |sum, lane| sum ^ lane[z])));
    state(|x, y, z| a[x][y][z] ^ parity[(x + 4) % 5][z] ^ parity[(x + 1) % 5][(z + W - 1) % W])
}

/// How far ρ moves each lane: (t + 1)(t + 2)/2 at step t of the walk from (1, 0).
fn offsets() -> [[usize; 5]; 5] {
    let mut offsets = [[0; 5]; 5];
    let (mut x, mut y) = (1, 0);
    for t in 0..24 {
        offsets[x][y] = (t + 1) * (t + 2) / 2 % W;
        (x, y) = (y, (2 * x + 3 * y) % 5);
    }
    offsets
}

fn rho(a: &State, offsets: &[[usize; 5]; 5]) -> State {
    state(|x, y, z| a[x][y][(z + W - offsets[x][y]) % W])
}

fn pi(a: &State) -> State {
    state(|x, y, z| a[(x + 3 * y) % 5][x][z])
}

fn chi(a: &State) -> State {
    state(|x, y, z| a[x][y][z] ^ (1 ^ a[(x + 1) % 5][y][z]) & a[(x + 2) % 5][y][z])
}

/// rc(t): the constant coefficient of x^t modulo x^8 + x^6 + x^5 + x^4 + 1.
fn rc(t: usize) -> u8 {
    let mut power = 1_u16;
    for _ in 0..t {
        power <<= 1;
        if power & 0x100 != 0 {
            power ^= 0x171;
        }
    }
    (power & 1) as u8
}

/// Keccak-p[1600, 24].
fn permuted(mut a: State) -> State {
    let offsets = offsets();
    for round in 0..24 {
        a = chi(&pi(&rho(&theta(&a), &offsets)));
        for j in 0..7 {
            a[0][0][(1 << j) - 1] ^= rc(j + 7 * round);
        }
    }
    a
}

/// The lowest bit of each byte comes first.
fn bits_of(bytes: &[u8]) -> Vec<u8> {
    bytes.iter().flat_map(|byte| (0..8).map(move |i| byte >> i & 1)).collect()
}

/// The input's bits, 1111, and pad10*1 up to a multiple of the rate.
fn padded(input: &[u8]) -> Vec<u8> {
    let mut bits = bits_of(input);
    bits.extend([1; 5]);
    let zeros = (2 * RATE - 1 - bits.len() % RATE) % RATE;
    bits.resize(bits.len() + zeros, 0);
    bits.push(1);
    bits
}

/// The first bytes of SHAKE256 of the input. Bit A[x][y][z] stands at W(5y + x) + z of a block.
pub fn shake256(input: &[u8], length: usize) -> Vec<u8> {
    let place = |x: usize, y: usize, z: usize| W * (5 * y + x) + z;
    let mut a = state(|_, _, _| 0);
    for block in padded(input).chunks(RATE) {
        let absorbed = state(|x, y, z| a[x][y][z] ^ block.get(place(x, y, z)).unwrap_or(&0));
        a = permuted(absorbed);
    }
    let mut bits = vec![];
    while bits.len() < 8 * length {
        bits.extend((0..RATE).map(|i| a[i / W % 5][i / W / 5][i % W]));
        a = permuted(a);
    }
    let byte = |bits: &[u8]| bits.iter().rev().fold(0, |byte, bit| 2 * byte + bit);
    bits[..8 * length].chunks(8).map(byte).collect()
}

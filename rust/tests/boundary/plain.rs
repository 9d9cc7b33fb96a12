//! Trials of the calls without a station.

use shearcotter::raw;

use super::buffers::{awkward, cut, holding, noise, Guarded};
use super::pool::{pattern, Pool};
use crate::independent::calls as expected;
use crate::independent::field::Field;
use crate::independent::held::Held;
use crate::independent::random::Random;
use crate::independent::register::massey;
use crate::independent::shake;

/// A width of document 01, mostly.
fn width(random: &mut Random) -> u8 {
    match random.below(10) {
        0 => random.number() as u8,
        _ => *random.pick(&[4, 12, 13]),
    }
}

fn operand(random: &mut Random, m: u8) -> u32 {
    let limit = 1u32 << (m % 16);
    match random.below(12) {
        0 => limit,
        1 => limit - 1,
        2 => random.number() as u32,
        3 => u32::MAX,
        4 => 0,
        _ => random.below(limit as usize) as u32,
    }
}

pub fn field(random: &mut Random) -> (&'static str, u8) {
    let m = width(random);
    let (a, b) = (operand(random, m), operand(random, m));
    let (name, answer, number) = unsafe {
        match random.below(3) {
            0 => ("add", raw::shearcotter_add(m, a, b), expected::field(m, &[a, b])),
            1 => ("multiply", raw::shearcotter_multiply(m, a, b), expected::field(m, &[a, b])),
            _ => ("invert", raw::shearcotter_invert(m, a), expected::invert(m, a)),
        }
    };
    assert_eq!(answer.refused, number, "{name} {m} {a} {b}");
    let of = |f: &Field| match name {
        "add" => a as u16 ^ b as u16,
        "multiply" => f.multiply(a as u16, b as u16),
        _ => f.invert(a as u16).expect("no 0"),
    };
    let value = match Field::of(m) {
        Some(f) if number == 0 => of(f),
        _ => 0,
    };
    assert_eq!(answer.value, value, "{name} {m} {a} {b}");
    (name, number)
}

pub fn shape_at(random: &mut Random) -> (&'static str, u8) {
    let position = random.number() as u8 % if random.one_in(2) { 8 } else { 255 };
    let shapes = [(12, 3488, 64), (13, 4608, 96), (13, 6688, 128), (13, 6960, 119), (13, 8192, 128)];
    let expected = usize::from(position).checked_sub(1).and_then(|i| shapes.get(i));
    let shape = unsafe { raw::shearcotter_shape_at(position) };
    let number = if expected.is_some() { 0 } else { 3 };
    assert_eq!(shape.refused, number);
    assert_eq!((shape.m, shape.n, shape.t), *expected.unwrap_or(&(0, 0, 0)));
    ("shape_at", number)
}

fn list(random: &mut Random, m: u8) -> Vec<u16> {
    let length = match random.below(200) {
        0 => awkward(random, 256),
        1 => 258 + random.below(1000),
        _ => random.below(12),
    };
    let mut list = random.elements(m.min(15), length);
    if length > 0 && random.one_in(10) {
        let at = random.below(length);
        list[at] = random.number() as u16;
    }
    list
}

pub fn register(random: &mut Random) -> (&'static str, u8) {
    let m = width(random);
    let list = Guarded::around(&list(random, m), random.number() as u16);
    let answer = unsafe { raw::shearcotter_shortest_register(m, list.as_ptr(), list.len()) };
    list.same();
    let number = expected::register(m, list.content());
    assert_eq!(answer.refused, number, "{m} {:?}", list.content());
    let (length, c) = match Field::of(m) {
        Some(f) if number == 0 => massey(f, list.content()),
        _ => (0, vec![0; 257]),
    };
    assert_eq!((answer.length, &answer.c[..]), (length, &c[..]), "{m} {:?}", list.content());
    ("register", number)
}

/// A length beside a whole number of blocks, or any.
fn hashed(random: &mut Random) -> usize {
    match random.below(3) {
        0 => {
            let blocks = random.below(5);
            awkward(random, 136 * blocks)
        }
        _ => random.below(700),
    }
}

pub fn shake256(random: &mut Random) -> (&'static str, u8) {
    let (length, room) = (hashed(random), hashed(random));
    let (input, mut out) = (noise(random, length), noise(random, room));
    unsafe { raw::shearcotter_shake256(input.as_ptr(), input.len(), out.as_mut_ptr(), out.len()) };
    out.written(&shake::shake256(input.content(), room));
    input.same();
    ("shake256", 0)
}

/// The key's own shape, mostly, or one number of it changed.
fn shape(random: &mut Random, held: &Held) -> (u8, u16, u16) {
    let (m, n, t) = (held.key.m, held.key.n as u16, held.key.t as u16);
    match random.below(16) {
        0 => (random.number() as u8, n, t),
        1 => (m, random.number() as u16, t),
        2 => (m, n, random.number() as u16),
        3 => (*random.pick(&[4, 12, 13]), n, t),
        _ => (m, n, t),
    }
}

/// The key's T, one with random bits, or random bytes.
fn public(random: &mut Random, held: &Held) -> Vec<u8> {
    let length = held.key.public_length();
    match (random.below(4), held.public()) {
        (0, _) => random.bytes(length),
        (kind, Some(public)) if kind < 3 => public.to_vec(),
        _ => {
            let (rank, bits) = (held.key.capsule_bits(), held.key.n - held.key.capsule_bits());
            (0..rank).flat_map(|_| random.row(bits)).collect()
        }
    }
}

pub fn lock(random: &mut Random, pool: &Pool) -> (&'static str, u8) {
    let held = pool.key(random);
    let (m, n, t) = shape(random, &held);
    let mut lent = public(random, &held);
    let mut pattern = if random.one_in(8) { random.bytes(held.key.n.div_ceil(8)) } else { pattern(random, &held) };
    if random.one_in(4) {
        lent = cut(random, lent);
    }
    if random.one_in(4) {
        pattern = cut(random, pattern);
    }
    let (lent, pattern) = (holding(random, &lent), holding(random, &pattern));
    let length = awkward(random, held.key.capsule_bits().div_ceil(8));
    let mut out = noise(random, length);
    let number = unsafe {
        raw::shearcotter_lock(
            m,
            n,
            t,
            lent.as_ptr(),
            lent.len(),
            pattern.as_ptr(),
            pattern.len(),
            out.as_mut_ptr(),
            out.len(),
        )
    };
    let expected = expected::lock((m, n, t), lent.content(), pattern.content(), length);
    assert_eq!(number, expected.number, "{m} {n} {t} {:?} {length}", pattern.content());
    out.written(&expected.written);
    lent.same();
    pattern.same();
    ("lock", number)
}

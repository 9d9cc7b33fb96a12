//! What each call answers: the first number in document 01's order whose condition holds, or what is written.

use std::array;

use super::bits;
use super::field::Field;
use super::held::Held;
use super::key::{load_number, shape_number, Key};
use super::matrix;
use super::network_key;
use super::shake::shake256;

/// A number, or 0 with the bytes written from the output's start and the ones among them; of a marked reading those at unmarked
/// places.
#[derive(Clone, PartialEq, Eq, Debug, Default)]
pub struct Outcome {
    pub number: u8,
    pub ones: u16,
    pub written: Vec<u8>,
}

fn refused(number: u8) -> Outcome {
    Outcome { number, ..Outcome::default() }
}

fn written(bytes: Vec<u8>) -> Outcome {
    Outcome { written: bytes, ..Outcome::default() }
}

/// The first number of a list of conditions in order.
fn first(conditions: &[(bool, u8)]) -> u8 {
    let holds = conditions.iter().find(|(condition, _)| *condition);
    holds.map_or(0, |(_, number)| *number)
}

pub fn load(state: u8, file: &[u8]) -> u8 {
    if state != 0 {
        22
    } else {
        load_number(file)
    }
}

pub fn load_network(state: u8, file: &[u8]) -> u8 {
    if state != 0 {
        22
    } else {
        network_key::load_network(file).0
    }
}

/// A file of so many bytes of room: 10 behind the load's numbers.
fn converted(file: Vec<u8>, out: usize) -> Outcome {
    if out < file.len() {
        refused(10)
    } else {
        written(file)
    }
}

pub fn to_network(file: &[u8], out: usize) -> Outcome {
    match (load_number(file), Key::parse(file)) {
        (0, Some(key)) => converted(network_key::to_network(&key), out),
        (number, _) => refused(number),
    }
}

pub fn from_network(file: &[u8], out: usize) -> Outcome {
    match network_key::load_network(file) {
        (_, Some(key)) => converted(key.file(), out),
        (number, None) => refused(number),
    }
}

pub fn drop(state: u8) -> u8 {
    first(&[(state == 0, 21)])
}

/// 21 and 25, which all calls on a kept key ask for first.
fn held_number(state: u8, held: &Held) -> u8 {
    if state == 0 {
        21
    } else {
        first(&[(held.number() != 0, 25)])
    }
}

/// 21, 25 and 34, which every form of publish and open asks for first.
fn exchange_number(state: u8, held: &Held) -> u8 {
    match held_number(state, held) {
        0 => first(&[(held.has_factor(), 34)]),
        other => other,
    }
}

pub fn publish(state: u8, held: &Held, out: usize, work: usize) -> Outcome {
    publish_in(Key::work_length, state, held, out, work)
}

/// Request L9: only the workspace that is long enough is another.
pub fn publish_small(state: u8, held: &Held, out: usize, work: usize) -> Outcome {
    publish_in(Key::small_work_length, state, held, out, work)
}

fn publish_in(needed: fn(&Key) -> usize, state: u8, held: &Held, out: usize, work: usize) -> Outcome {
    let number = exchange_number(state, held);
    if number != 0 {
        return refused(number);
    }
    let number = first(&[(out < held.key.public_length(), 10), (work < needed(&held.key), 11)]);
    if number != 0 {
        return refused(number);
    }
    held.public().map_or(refused(23), |t| written(t.to_vec()))
}

/// 8, 9 and 10 for a row of the given number of bits.
fn row_number(held: &Held, bits: usize, row: &[u8], out: usize) -> u8 {
    first(&[(row.len() != bits.div_ceil(8), 8), (bits::filler_set(bits, row), 9), (out < held.key.n.div_ceil(8), 10)])
}

fn pattern(held: &Held, places: Option<Vec<usize>>, none: u8) -> Outcome {
    let Some(places) = places else {
        return refused(none);
    };
    Outcome { number: 0, ones: places.len() as u16, written: bits::pack(held.key.n, places) }
}

pub fn open(state: u8, held: &Held, capsule: &[u8], out: usize) -> Outcome {
    let number = match exchange_number(state, held) {
        0 if state == 1 => 24,
        0 => row_number(held, held.key.capsule_bits(), capsule, out),
        other => other,
    };
    if number != 0 {
        return refused(number);
    }
    pattern(held, held.open(capsule), 13)
}

/// The records are what open answers for each capsule, one after the other; the last may be shorter.
pub fn report(state: u8, held: &Held, capsules: &[u8], records: usize) -> Outcome {
    let number = match exchange_number(state, held) {
        0 if state == 1 => 24,
        other => other,
    };
    if number != 0 {
        return refused(number);
    }
    let parts: Vec<&[u8]> = capsules.chunks(held.key.capsule_bits().div_ceil(8)).collect();
    if records < parts.len() {
        return refused(31);
    }
    written(parts.iter().map(|capsule| open(state, held, capsule, usize::MAX).number).collect())
}

/// How often each value of a byte stands in the records.
pub fn counts(records: &[u8]) -> [usize; 256] {
    array::from_fn(|value| records.iter().filter(|record| usize::from(**record) == value).count())
}

/// The number and the session key, zeros where it is refused.
pub fn session(state: u8, held: &Held, capsule: &[u8], secret: &[u8]) -> (u8, [u8; 32]) {
    let bad_secret = || secret.len() != held.key.n.div_ceil(8) || bits::filler_set(held.key.n, secret);
    let number = match exchange_number(state, held) {
        0 if state == 1 => 24,
        0 => match row_number(held, held.key.capsule_bits(), capsule, usize::MAX) {
            0 => first(&[(bad_secret(), 33)]),
            other => other,
        },
        other => other,
    };
    if number != 0 {
        return (number, [0; 32]);
    }
    let opened = held.open(capsule).map(|places| bits::pack(held.key.n, places));
    let first = [u8::from(opened.is_some())];
    let input = [&first[..], &opened.unwrap_or_else(|| secret.to_vec()), capsule].concat();
    (0, shake256(&input, 32).try_into().expect("32 bytes"))
}

pub fn read(state: u8, held: &Held, word: &[u8], out: usize) -> Outcome {
    let number = match held_number(state, held) {
        0 => row_number(held, held.key.n, word, out),
        other => other,
    };
    if number != 0 {
        return refused(number);
    }
    pattern(held, held.read(word), 14)
}

/// As read, with 37 behind 9; the ones are the differences at unmarked places.
pub fn read_marked(state: u8, held: &Held, word: &[u8], marks: &[u8], out: usize) -> Outcome {
    let n = held.key.n;
    let bad_marks = || marks.len() != n.div_ceil(8) || bits::filler_set(n, marks);
    let number = match held_number(state, held) {
        0 => match row_number(held, n, word, usize::MAX) {
            0 => first(&[(bad_marks(), 37), (out < n.div_ceil(8), 10)]),
            other => other,
        },
        other => other,
    };
    if number != 0 {
        return refused(number);
    }
    held.read_marked(word, marks).map_or(refused(14), |(places, unmarked)| Outcome {
        number: 0,
        ones: unmarked as u16,
        written: bits::pack(n, places),
    })
}

pub fn lock(shape: (u8, u16, u16), public: &[u8], pattern: &[u8], out: usize) -> Outcome {
    let (m, n, t) = (shape.0, usize::from(shape.1), usize::from(shape.2));
    let number = shape_number(m, n, t);
    if number != 0 {
        return refused(number);
    }
    let rank = usize::from(m) * t;
    let (row, length) = ((n - rank).div_ceil(8), n.div_ceil(8));
    if public.len() != rank * row || pattern.len() != length {
        return refused(8);
    }
    let number = first(&[
        (public.chunks(row).any(|r| bits::filler_set(n - rank, r)) || bits::filler_set(n, pattern), 9),
        (bits::places(n, pattern).len() != t, 12),
        (out < rank.div_ceil(8), 10),
    ]);
    if number != 0 {
        return refused(number);
    }
    written(matrix::lock(m, n, t, public, pattern))
}

/// The number of a field call on the operands, or 0.
pub fn field(m: u8, operands: &[u32]) -> u8 {
    let Some(f) = Field::of(m) else { return 1 };
    let outside = |x: &u32| *x >= f.size() as u32;
    first(&[(operands.iter().any(outside), 4)])
}

/// The number of the inverse, or 0.
pub fn invert(m: u8, a: u32) -> u8 {
    match field(m, &[a]) {
        0 => first(&[(a == 0, 32)]),
        number => number,
    }
}

pub fn register(m: u8, list: &[u16]) -> u8 {
    let Some(f) = Field::of(m) else { return 1 };
    let outside = |x: &u16| usize::from(*x) >= f.size();
    first(&[(list.len() > 256, 2), (list.iter().any(outside), 4)])
}

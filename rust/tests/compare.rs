//! The library beside the second implementation, on random keys and words of every shape.

use shearcotter::{field, lock, register, Name, Pattern, Refusal, Shape, Station, Workspace};

use crate::independent::drawn::{has_reading_keys, near_code_word};
use crate::independent::field::Field;
use crate::independent::held::Held;
use crate::independent::random::Random;
use crate::independent::{bits, calls, poly};

pub const STANDARD: [(u8, usize, usize); 5] =
    [(12, 3488, 64), (13, 4608, 96), (13, 6688, 128), (13, 6960, 119), (13, 8192, 128)];

/// All shapes of m 4; (4, 16, 1) has no key, since every g of degree 1 has a root in the field.
pub fn small_shapes() -> Vec<(u8, usize, usize)> {
    let shapes = (1..=3).flat_map(|t| (4 * t + 1..=16).map(move |n| (4, n, t)));
    shapes.filter(|shape| *shape != (4, 16, 1)).collect()
}

fn answer(result: Result<Pattern, Refusal>) -> calls::Outcome {
    match result {
        Ok(pattern) => calls::Outcome { number: 0, ones: pattern.ones(), written: pattern.into_bytes() },
        Err(refusal) => calls::Outcome { number: refusal.number(), ..Default::default() },
    }
}

fn loaded(held: &Held) -> Station {
    let mut station = Station::fresh();
    station.load(Name::B, &held.key.file()).expect("load accepts");
    station
}

fn shape(held: &Held) -> Shape {
    Shape::new(held.key.m, held.key.n as u16, held.key.t as u16).expect("a shape")
}

/// Publishes on both sides, and with the small workspace; whether the key has a public key.
fn same_public_key(station: &mut Station, held: &Held) -> bool {
    assert_eq!(station.is_exchange_key(Name::B), Ok(!held.has_factor()), "{:?}", held.key);
    let expected = calls::publish(1, held, usize::MAX, usize::MAX);
    let public = station.publish(Name::B);
    assert!(station.publish_with(Name::B, Workspace::Small) == public, "{:?}", held.key);
    assert_eq!(public.as_ref().map_or_else(|refusal| refusal.number(), |_| 0), expected.number, "{:?}", held.key);
    assert!(public.unwrap_or_default() == expected.written, "{:?}", held.key);
    assert_eq!(station.is_published(Name::B), expected.number == 0);
    station.is_published(Name::B)
}

/// Opening, a report and a session key on a station that publish refused: 34 or 24, whatever they are lent.
fn opens_nothing(random: &mut Random, station: &Station, held: &Held) {
    let number = if held.has_factor() { 34 } else { 24 };
    let length = held.key.capsule_bits().div_ceil(8);
    for length in [0, length, length + 1] {
        let (capsule, secret) = (random.bytes(length), random.secret(held.key.n));
        assert_eq!(answer(station.open(Name::B, &capsule)).number, number, "{:?}", held.key);
        assert_eq!(station.report(Name::B, &capsule).map_err(Refusal::number), Err(number), "{:?}", held.key);
        assert_eq!(station.session(Name::B, &capsule, &secret).map_err(Refusal::number), Err(number), "{:?}", held.key);
    }
}

fn same_reading(station: &Station, held: &Held, word: &[u8]) {
    let expected = calls::read(1, held, word, word.len());
    assert_eq!(answer(station.read(Name::B, word)), expected, "{word:02x?} {:?}", held.key);
}

/// The pattern, and the session key with a secret of any kind.
fn same_opening(random: &mut Random, station: &Station, held: &Held, capsule: &[u8]) {
    let expected = calls::open(2, held, capsule, held.key.n.div_ceil(8));
    assert_eq!(answer(station.open(Name::B, capsule)), expected, "{capsule:02x?} {:?}", held.key);
    let secret = random.secret(held.key.n);
    let expected = match calls::session(2, held, capsule, &secret) {
        (0, key) => Ok(key),
        (number, _) => Err(number),
    };
    let answer = station.session(Name::B, capsule, &secret).map_err(Refusal::number);
    assert_eq!(answer, expected, "{capsule:02x?} {secret:02x?} {:?}", held.key);
}

fn same_locking(held: &Held, pattern: &[u8]) -> Vec<u8> {
    let public = held.public().expect("a public key");
    let (m, n, t) = (held.key.m, held.key.n as u16, held.key.t as u16);
    let expected = calls::lock((m, n, t), public, pattern, usize::MAX);
    let capsule = lock(shape(held), public, pattern);
    assert_eq!(capsule.clone().map_or_else(Refusal::number, |_| 0), expected.number);
    assert_eq!(capsule.unwrap_or_default(), expected.written);
    expected.written
}

/// A packed number of n bits.
fn packed(n: usize, number: usize) -> Vec<u8> {
    number.to_le_bytes()[..n.div_ceil(8)].to_vec()
}

/// All numbers of the given bits where they are few, else 256 random ones.
fn some(random: &mut Random, bits: usize) -> Vec<usize> {
    if bits <= 8 {
        return (0..1 << bits).collect();
    }
    (0..256).map(|_| random.below(1 << bits)).collect()
}

fn compare_small(random: &mut Random, held: &Held) {
    let (n, t, rank) = (held.key.n, held.key.t, held.key.capsule_bits());
    let mut station = loaded(held);
    for number in some(random, n) {
        same_reading(&station, held, &packed(n, number));
    }
    for errors in (0..=t + 1).cycle().take(40) {
        let word = near_code_word(random, held, errors);
        same_reading(&station, held, &word);
    }
    if !same_public_key(&mut station, held) {
        return opens_nothing(random, &station, held);
    }
    for number in some(random, rank) {
        same_opening(random, &station, held, &packed(rank, number));
    }
    for ones in (0..=t + 1).cycle().take(20) {
        let capsule = same_locking(held, &random.pattern(n, ones));
        assert_eq!(capsule.is_empty(), ones != t);
    }
}

#[test]
fn every_shape_of_width_4() {
    let mut random = Random::new(4);
    for (m, n, t) in small_shapes() {
        for _ in 0..2 {
            let key = random.exchange_key(m, n, t);
            compare_small(&mut random, &Held::new(key));
            let held = random.published(m, n, t);
            compare_small(&mut random, &held);
            if has_reading_keys((m, n, t)) {
                let key = random.reading_key(m, n, t);
                compare_small(&mut random, &Held::new(key));
            }
        }
    }
}

/// Words and capsules of one large key: near code words, random ones, damaged ones.
fn compare_large(random: &mut Random, held: &Held, rounds: usize) {
    let (n, t, rank) = (held.key.n, held.key.t, held.key.capsule_bits());
    let mut station = loaded(held);
    let published = same_public_key(&mut station, held);
    for errors in [0, 1, t / 2, t / 2 + 1, t - 1, t, t + 1].into_iter().cycle().take(rounds) {
        let word = near_code_word(random, held, errors.min(n));
        same_reading(&station, held, &word);
    }
    same_reading(&station, held, &random.row(n));
    if !published {
        return opens_nothing(random, &station, held);
    }
    for round in 0..rounds {
        let mut capsule = same_locking(held, &random.pattern(n, t));
        same_opening(random, &station, held, &capsule);
        if round % 3 == 0 {
            let turned = random.below(rank);
            capsule[turned / 8] ^= 1 << (turned % 8);
            same_opening(random, &station, held, &capsule);
        }
    }
    let capsule = random.row(rank);
    same_opening(random, &station, held, &capsule);
    malformed(random, &station, held);
}

/// Wrong lengths, and filler bits set where a row has filler.
fn malformed(random: &mut Random, station: &Station, held: &Held) {
    let (n, rank) = (held.key.n, held.key.capsule_bits());
    for extra in [0, 2] {
        same_reading(station, held, &random.bytes(n.div_ceil(8) + extra - 1));
        let capsule = random.bytes(rank.div_ceil(8) + extra - 1);
        same_opening(random, station, held, &capsule);
    }
    for filler in n..8 * n.div_ceil(8) {
        let mut word = random.row(n);
        bits::set(&mut word, filler);
        same_reading(station, held, &word);
    }
    for filler in rank..8 * rank.div_ceil(8) {
        let mut capsule = random.row(rank);
        bits::set(&mut capsule, filler);
        same_opening(random, station, held, &capsule);
    }
}

#[test]
fn the_standard_shapes() {
    let mut random = Random::new(12);
    for (m, n, t) in STANDARD {
        let held = random.published(m, n, t);
        compare_large(&mut random, &held, 21);
        let key = random.reading_key(m, n, t);
        compare_large(&mut random, &Held::new(key), 7);
    }
}

#[test]
fn shapes_between() {
    let mut random = Random::new(13);
    let at_the_limits = [(12, 13, 1), (13, 14, 1), (12, 4096, 1), (13, 8192, 1), (12, 1537, 128), (13, 1665, 128)];
    for (m, n, t) in at_the_limits {
        let n = if t == 1 { n.min((1 << m) - 1) } else { n };
        let key = random.exchange_key(m, n, t);
        compare_large(&mut random, &Held::new(key), 7);
        if has_reading_keys((m, n, t)) {
            let key = random.reading_key(m, n, t);
            compare_large(&mut random, &Held::new(key), 7);
        }
    }
    for _ in 0..30 {
        let m = *random.pick(&[12, 13]);
        let t = 1 + random.below(40);
        let n = usize::from(m) * t + 1 + random.below(600);
        let key = random.key(m, n, t);
        compare_large(&mut random, &Held::new(key), 7);
    }
}

#[test]
fn damaged_keys() {
    let mut random = Random::new(7);
    let mut shapes = small_shapes();
    shapes.extend(STANDARD);
    for (m, n, t) in shapes {
        let key = random.key(m, n, t);
        for number in (1..=7).filter(|number| *number != 6 || t > 1) {
            for _ in 0..if m == 4 { 8 } else { 2 } {
                let file = random.damaged(&key, number);
                let refusal = Station::fresh().load(Name::B, &file).expect_err("a damaged key");
                assert_eq!(refusal.number(), number, "{file:02x?}");
            }
        }
    }
}

#[test]
fn the_square_test_by_search() {
    let f = Field::of(4).expect("width 4");
    let divided = |g: &[u16], a: u16| {
        let square = [f.multiply(a, a), 0, 1];
        poly::divide(f, g, &square).1.is_empty()
    };
    let mut random = Random::new(6);
    for _ in 0..2000 {
        let t = 1 + random.below(3);
        let mut g = random.elements(4, t);
        g.push(1);
        // The square of a polynomial of degree 1 or more has degree 2 at least, so t below 4 leaves degree 1.
        let square = (0..16).any(|a| g.len() > 2 && divided(&g, a));
        let support: Vec<u16> = (0..16).filter(|x| poly::value(f, &g, *x) != 0).collect();
        if support.len() <= 4 * t {
            continue;
        }
        let file = crate::bench_keys::file(4, &support, &g[..t]);
        let number = Station::fresh().load(Name::B, &file).map_or_else(Refusal::number, |()| 0);
        assert_eq!(number, if square { 6 } else { 0 }, "{g:?}");
    }
}

#[test]
fn field_by_tables() {
    let mut random = Random::new(2);
    for m in [4, 12, 13] {
        let f = Field::of(m).expect("a width");
        for a in 0..f.size() as u32 {
            assert_eq!(field::invert(m, a), f.invert(a as u16).ok_or(Refusal::InverseOfZero));
            for b in [random.element(m), random.element(m), 0, 1] {
                assert_eq!(field::multiply(m, a, b.into()), Ok(f.multiply(a as u16, b)));
                assert_eq!(field::add(m, a, b.into()), Ok(a as u16 ^ b));
            }
        }
    }
}

/// The inverse of a number, or why there is none, beside the second implementation; which number it is.
fn same_inverse(m: u8, a: u32) -> u8 {
    let (answer, number) = (field::invert(m, a), calls::invert(m, a));
    assert_eq!(answer.map_or_else(Refusal::number, |_| 0), number, "{m} {a}");
    if let (Some(f), Ok(inverse)) = (Field::of(m), answer) {
        assert_eq!(f.multiply(a as u16, inverse), 1, "{m} {a}");
    }
    number
}

#[test]
fn inverses_at_each_width() {
    for m in [4, 12, 13] {
        let size = 1 << m;
        assert_eq!(same_inverse(m, 0), 32);
        assert!((1..size).all(|a| same_inverse(m, a) == 0));
        // The m low digits of these are 0 too, but they are no elements.
        let factors = (1..=300).chain((0..32 - m).map(|k| 1 << k)).chain([(1 << (32 - m)) - 1]);
        assert!(factors.map(|k| size * k).all(|a| same_inverse(m, a) == 4), "{m}");
        assert!([size + 1, 2 * size - 1, u32::MAX].into_iter().all(|a| same_inverse(m, a) == 4), "{m}");
    }
}

#[test]
fn inverses_at_no_width() {
    for m in (0..=255).filter(|m| ![4, 12, 13].contains(m)) {
        let size = 1_u32.checked_shl(m.into()).unwrap_or(0);
        let operands =
            [0, 1, 8, 16, 1 << 12, 1 << 13, 1 << 16, size, size.wrapping_sub(1), size.wrapping_mul(3), u32::MAX];
        assert!(operands.into_iter().all(|a| same_inverse(m, a) == 1), "{m}");
    }
}

#[test]
fn registers_are_shortest() {
    use crate::independent::register as independent;
    let mut random = Random::new(5);
    for round in 0..600 {
        let m = *random.pick(&[4, 12, 13]);
        let f = Field::of(m).expect("a width");
        let length = random.below(if round % 50 == 0 { 257 } else { 16 });
        let list = if round % 3 == 0 { vec![random.element(m); length] } else { random.elements(m, length) };
        let found = register(m, &list).expect("a register");
        let (expected, c) = independent::massey(f, &list);
        assert_eq!((found.length(), &found.coefficients()[..]), (expected, &c[..]));
        assert!(independent::makes(f, &list, found.length(), found.coefficients()));
        if length < 40 {
            assert_eq!(found.length(), independent::shortest(f, &list));
        }
    }
}

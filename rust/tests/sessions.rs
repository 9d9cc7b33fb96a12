//! Session keys beside the second implementation: keys and numbers, for every capsule of width 4 and with secrets of all kinds.

use shearcotter::raw::{Slot, A};
use shearcotter::{shake256, Name, Refusal, Shape};

use crate::compare::small_shapes;
use crate::independent::drawn::{has_reading_keys, Kind};
use crate::independent::held::Held;
use crate::independent::random::Random;
use crate::independent::{bits, calls, matrix};
use crate::support::raw_calls::{self, holding, placed};

/// A session beside what is expected, under each name; its number and its key.
fn same_session(slot: &Slot, held: &Held, capsule: &[u8], secret: &[u8]) -> (u8, [u8; 32]) {
    let expected = calls::session(slot.state, held, capsule, secret);
    for (name, station) in placed(*slot) {
        let derived = raw_calls::session(station, name, capsule, secret);
        let said = || format!("{name} state {} {capsule:02x?} {secret:02x?} {:?}", slot.state, held.key);
        assert_eq!((derived.refused, derived.key), expected, "{}", said());
        assert!(derived.station == station, "the station has changed: {}", said());
    }
    expected
}

fn published(held: &Held) -> Slot {
    holding(2, &held.key)
}

fn capsule_length(held: &Held) -> usize {
    held.key.capsule_bits().div_ceil(8)
}

/// Every value of so many bytes.
fn all(length: usize) -> impl Iterator<Item = Vec<u8>> {
    (0..1_usize << (8 * length)).map(move |number| number.to_le_bytes()[..length].to_vec())
}

/// All capsules of the right length and of others, filler bits set too, with a secret that fits.
#[test]
fn every_capsule_of_width_4() {
    let mut random = Random::new(61);
    for (m, n, t) in small_shapes() {
        let held = random.published(m, n, t);
        let (slot, secret, length) = (published(&held), random.row(n), capsule_length(&held));
        for capsule in all(length) {
            let filler = bits::filler_set(held.key.capsule_bits(), &capsule);
            assert_eq!(same_session(&slot, &held, &capsule, &secret).0, if filler { 9 } else { 0 });
        }
        for other in (0..8).filter(|other| *other != length) {
            assert_eq!(same_session(&slot, &held, &random.bytes(other), &secret), (8, [0; 32]));
        }
        // A key that may have no public key, on a station made by hand; and one whose g has a proper factor.
        let held = Held::new(random.exchange_key(m, n, t));
        for capsule in all(1) {
            same_session(&published(&held), &held, &capsule, &random.secret(n));
        }
        if has_reading_keys((m, n, t)) {
            let held = Held::new(random.reading_key(m, n, t));
            for capsule in all(1) {
                let answer = same_session(&published(&held), &held, &capsule, &random.secret(n));
                assert_eq!(answer, (34, [0; 32]));
            }
        }
    }
}

/// All secrets of one byte or two, for a capsule that opens and one that does not.
#[test]
fn every_secret_of_width_4() {
    let mut random = Random::new(62);
    for (n, t) in [(5, 1), (6, 1), (8, 1), (11, 2), (13, 3)] {
        let held = random.published(4, n, t);
        let slot = published(&held);
        let [opens, refused] = some_capsules(&mut random, &held);
        let opened = same_session(&slot, &held, &opens, &random.row(n));
        for secret in all(n.div_ceil(8)) {
            let fits = !bits::filler_set(n, &secret);
            let expected = if fits { opened } else { (33, [0; 32]) };
            assert_eq!(same_session(&slot, &held, &opens, &secret), expected);
            assert_eq!(same_session(&slot, &held, &refused, &secret).0, expected.0);
        }
        for length in (0..6).filter(|length| *length != n.div_ceil(8)) {
            let zeros = vec![0; length];
            assert_eq!(same_session(&slot, &held, &opens, &zeros), (33, [0; 32]));
            assert_eq!(same_session(&slot, &held, &refused, &zeros), (33, [0; 32]));
        }
    }
}

/// The capsule of a pattern, and one that no pattern has.
fn some_capsules(random: &mut Random, held: &Held) -> [Vec<u8>; 2] {
    let key = &held.key;
    let public = held.public().expect("a public key");
    let opens = matrix::lock(key.m, key.n, key.t, public, &random.pattern(key.n, key.t));
    loop {
        let refused = random.row(key.capsule_bits());
        if held.open(&refused).is_none() {
            return [opens, refused];
        }
    }
}

/// Where it opens, the key is that of the pattern whatever the secret; else it is that of the secret.
#[test]
fn the_secret_counts_exactly_where_open_gives_13() {
    let mut random = Random::new(63);
    for (m, n, t) in [(4, 16, 3), (12, 100, 5), (12, 3488, 64), (13, 4608, 96), (13, 6960, 119), (13, 8192, 128)] {
        let held = random.published(m, n, t);
        let slot = published(&held);
        let [opens, refused] = some_capsules(&mut random, &held);
        let secrets = [random.row(n), random.row(n)];
        let keys = |capsule: &[u8]| secrets.each_ref().map(|secret| same_session(&slot, &held, capsule, secret));
        let [one, other] = keys(&opens);
        assert_eq!(one, other);
        let mut out = vec![0; n.div_ceil(8)];
        let [(_, station), _] = placed(slot);
        assert_eq!(raw_calls::open(station, A, &opens, &mut out).refused, 0);
        assert_eq!(one, (0, of_parts(1, &out, &opens)));
        assert_eq!(raw_calls::open(station, A, &refused, &mut out).refused, 13);
        let expected = secrets.each_ref().map(|secret| (0, of_parts(0, secret, &refused)));
        assert_eq!(keys(&refused), expected);
        assert_ne!(expected[0], expected[1]);
    }
}

/// The first 32 bytes by the crate's own SHAKE256.
fn of_parts(first: u8, middle: &[u8], capsule: &[u8]) -> [u8; 32] {
    let mut key = [0; 32];
    shake256(&[&[first], middle, capsule].concat(), &mut key);
    key
}

/// Capsules at the standard shapes and others: of patterns with about t ones, damaged, random, with filler, of other lengths.
#[test]
fn large_shapes() {
    let mut random = Random::new(64);
    let standard = [(12, 3488, 64), (13, 4608, 96), (13, 6688, 128), (13, 6960, 119), (13, 8192, 128)];
    for (m, n, t) in standard.into_iter().chain([(12, 100, 5), (12, 13, 1), (13, 1665, 3)]) {
        let held = random.published(m, n, t);
        let (slot, rank) = (published(&held), held.key.capsule_bits());
        let public = held.public().expect("a public key");
        for round in 0..12 {
            let ones = [t, t - 1, t, t + 1][round % 4];
            let mut capsule = matrix::lock(m, n, t, public, &random.pattern(n, ones));
            match round % 5 {
                3 => capsule[0] ^= 1,
                4 if rank % 8 > 0 => bits::set(&mut capsule, rank),
                _ => {}
            }
            same_session(&slot, &held, &capsule, &random.secret(n));
        }
        let length = rank.div_ceil(8);
        for other in [0, 1, length - 1, length, length + 1] {
            same_session(&slot, &held, &random.bytes(other), &random.row(n));
        }
    }
}

/// Slots with each of the keys, in every kind of state: 21 before the key's numbers, and 24 behind them.
fn slots(keys: &[Kind<Held>]) -> Vec<Kind<(Slot, &Held)>> {
    let mut made = vec![];
    for (held, of_key) in keys {
        for state in [0, 1, 2, 3, 255] {
            let before = (state == 0).then_some(21).into_iter();
            let behind = (state == 1).then_some(24);
            let holds = before.chain(of_key.iter().copied()).chain(behind).collect();
            made.push(((holding(state, &held.key), held), holds));
        }
    }
    made
}

/// A capsule that opens, one that does not, and those with 8 and 9.
fn capsules(random: &mut Random, held: &Held) -> Vec<Kind<Vec<u8>>> {
    let rank = held.key.capsule_bits();
    let [opens, refused] = some_capsules(random, held);
    let mut filler = opens.clone();
    bits::set(&mut filler, rank);
    let shorter = opens[1..].to_vec();
    let longer = [&opens[..], &[0]].concat();
    vec![
        (opens, vec![]),
        (refused, vec![]),
        (filler, vec![9]),
        (shorter, vec![8]),
        (longer, vec![8]),
        (vec![], vec![8]),
    ]
}

/// A secret that fits, and those with 33.
fn secrets(random: &mut Random, n: usize) -> Vec<Kind<Vec<u8>>> {
    let fits = random.row(n);
    let mut filler = fits.clone();
    bits::set(&mut filler, n);
    let (shorter, longer) = (fits[1..].to_vec(), [&fits[..], &[0]].concat());
    let wrong = [filler, shorter, longer, vec![]].map(|secret| (secret, vec![33]));
    [(fits, vec![])].into_iter().chain(wrong).collect()
}

/// 21, 25, 34, 24, 8, 9, 33: each alone, and each where the later ones hold too.
#[test]
fn numbers_in_their_order() {
    let mut random = Random::new(65);
    for (m, n, t) in [(4, 6, 1), (4, 13, 3), (12, 100, 5), (13, 6957, 119)] {
        let held = random.published(m, n, t);
        let capsules = capsules(&mut random, &held);
        for ((slot, held), of_slot) in slots(&random.kinds(held)) {
            for (capsule, of_capsule) in &capsules {
                for (secret, of_secret) in secrets(&mut random, n) {
                    let (number, key) = same_session(&slot, held, capsule, &secret);
                    let first = of_slot.iter().chain(of_capsule).chain(&of_secret).next();
                    assert_eq!(number, first.copied().unwrap_or(0));
                    assert_eq!(key == [0; 32], number != 0);
                }
            }
        }
    }
}

/// The safe call's keys and refusals are the raw call's.
#[test]
fn safe_calls() {
    let mut random = Random::new(66);
    for (m, n, t) in [(4, 6, 1), (4, 13, 3), (12, 100, 5), (12, 3488, 64)] {
        let held = random.published(m, n, t);
        let mut station = shearcotter::Station::fresh();
        let secret = random.row(n);
        let [opens, refused] = some_capsules(&mut random, &held);
        assert_eq!(station.session(Name::A, &opens, &secret), Err(Refusal::NoKey));
        station.load(Name::A, &held.key.file()).expect("load accepts");
        assert_eq!(station.session(Name::A, &opens, &secret), Err(Refusal::NotPublished));
        station.publish(Name::A).expect("publish accepts");
        assert_eq!(station.shape(Name::A).map(Shape::pattern_length), Some(secret.len()));
        for capsule in [&opens[..], &refused, &opens[1..], &[]] {
            for secret in [&secret[..], &secret[1..], &[]] {
                let (number, key) = same_session(&published(&held), &held, capsule, secret);
                let expected = if number == 0 { Ok(key) } else { Err(number) };
                assert_eq!(station.session(Name::A, capsule, secret).map_err(Refusal::number), expected);
            }
        }
        assert_eq!(station.drop_key(Name::A), Ok(()));
        assert_eq!(station.session(Name::A, &opens, &secret), Err(Refusal::NoKey));
    }
}

/// Opening still refuses as before where a session key is given.
#[test]
fn opening_stays() {
    let mut random = Random::new(67);
    let held = random.published(4, 12, 2);
    let ([(_, station), _], secret) = (placed(published(&held)), random.row(12));
    let mut refused = 0;
    for capsule in all(1) {
        let mut out = [7; 2];
        let before = raw_calls::open(station, A, &capsule, &mut out);
        let derived = raw_calls::session(station, A, &capsule, &secret);
        let mut again = [7; 2];
        let after = raw_calls::open(derived.station, A, &capsule, &mut again);
        assert!(before == after && out == again);
        assert_eq!((derived.refused, after.refused == 13), (0, out == [7; 2]));
        refused += usize::from(after.refused == 13);
    }
    assert!(refused > 0 && refused < 256, "{refused}");
}

//! Keys as a switching network: the load of network files and both conversions beside the second implementation, at every length of
//! output, and what converting there and back gives.

use std::collections::BTreeSet;

use shearcotter::raw::{Converted, A, B};
use shearcotter::{from_network, from_network_into, to_network, to_network_into, Name, Refusal, Shape, Station};

use crate::bench_keys::{K1, K1_NETWORK, K3, SPLIT};
use crate::compare::small_shapes;
use crate::independent::calls::{self, Outcome};
use crate::independent::drawn_networks::DAMAGES;
use crate::independent::key::Key;
use crate::independent::network_key;
use crate::independent::random::Random;
use crate::support::raw_calls::{self, empty, fresh, holding, placed, slot, with};
use crate::support::{only_written, UNTOUCHED};

/// A conversion through C, in the crate with a buffer of its own and with a lent one, and by the second implementation.
struct Way {
    raw: fn(&[u8], &mut [u8]) -> Converted,
    own: fn(&[u8]) -> Result<Vec<u8>, Refusal>,
    lent: fn(&[u8], &mut [u8]) -> Result<usize, Refusal>,
    expected: fn(&[u8], usize) -> Outcome,
}

const TO: Way = Way { raw: raw_calls::to_network, own: to_network, lent: to_network_into, expected: calls::to_network };
const FROM: Way =
    Way { raw: raw_calls::from_network, own: from_network, lent: from_network_into, expected: calls::from_network };

impl Way {
    /// The answer and every byte of the output, with so much room.
    fn same_with(&self, file: &[u8], room: usize) -> u8 {
        let expected = (self.expected)(file, room);
        let mut out = vec![UNTOUCHED; room];
        let converted = (self.raw)(file, &mut out);
        let answer = (converted.refused, converted.length);
        assert_eq!(answer, (expected.number, expected.written.len()), "{file:02x?} {room}");
        assert!(only_written(&out, &expected.written), "{file:02x?} {room}");
        let mut out = vec![UNTOUCHED; room];
        let length = (self.lent)(file, &mut out).map_or_else(|refusal| Err(refusal.number()), Ok);
        assert_eq!(length, if expected.number == 0 { Ok(expected.written.len()) } else { Err(expected.number) });
        assert!(only_written(&out, &expected.written), "{file:02x?} {room}");
        expected.number
    }

    /// The same with room for the whole, about as much, and none; with a buffer of its own too. The numbers met.
    fn same(&self, file: &[u8]) -> [u8; 2] {
        let whole = (self.expected)(file, usize::MAX);
        let own = (self.own)(file).map_err(Refusal::number);
        assert_eq!(own, if whole.number == 0 { Ok(whole.written.clone()) } else { Err(whole.number) }, "{file:02x?}");
        let needed = whole.written.len();
        for room in [0, 1, needed / 2, needed.saturating_sub(2), needed + 1, needed + 2, needed + 40] {
            self.same_with(file, room);
        }
        [self.same_with(file, needed), self.same_with(file, needed.saturating_sub(1))]
    }
}

/// The load under both names, on an empty slot and on one that holds a key; the number on an empty one.
fn same_load(file: &[u8], held: &Key) -> u8 {
    let (number, key) = network_key::load_network(file);
    for (name, station) in placed(empty()) {
        let reply = raw_calls::load_network(station, name, file);
        assert_eq!((reply.refused, reply.ones), (number, 0), "{file:02x?}");
        let after = key.as_ref().map_or(station, |key| with(station, name, holding(1, key)));
        assert!(reply.station == after, "the station after {number}: {file:02x?}");
    }
    for (name, station) in [1, 2].into_iter().flat_map(|state| placed(holding(state, held))) {
        let reply = raw_calls::load_network(station, name, file);
        assert_eq!(reply.refused, 22, "{file:02x?}");
        assert!(reply.station == station, "the station after 22: {file:02x?}");
    }
    let mut station = Station::fresh();
    let loaded = station.recipient_mut(Name::B).load_network(file);
    assert_eq!(loaded.map_or_else(Refusal::number, |()| 0), number, "{file:02x?}");
    assert_eq!(station.shape(Name::B).is_some(), number == 0);
    number
}

/// Every shape of m 4, with spare settings of all kinds and damage for every number.
#[test]
fn files_of_every_small_shape() {
    let mut random = Random::new(701);
    let (mut to, mut from, mut loads) = (BTreeSet::new(), BTreeSet::new(), BTreeSet::new());
    for (m, n, t) in small_shapes().into_iter().flat_map(|shape| [shape; 6]) {
        let key = random.key(m, n, t);
        let mut files = vec![network_key::to_network(&key), random.network_file(&key), random.network_noise(&key)];
        files.extend(DAMAGES.map(|number| random.damaged_network(&key, number)));
        files.push(key.file());
        for file in &files {
            from.extend(FROM.same(file));
            loads.insert(same_load(file, &key));
        }
        let mut files = vec![key.file(), network_key::to_network(&key)];
        files.extend(
            [1, 2, 3, 4, 5, 6, 7].map(|number| random.damaged(&key, if t == 1 && number == 6 { 7 } else { number })),
        );
        files.iter().for_each(|file| to.extend(TO.same(file)));
    }
    assert_eq!(to, BTreeSet::from([0, 1, 2, 3, 4, 5, 6, 7, 10]));
    assert_eq!(from, BTreeSet::from([0, 1, 2, 36, 3, 4, 6, 7, 10]));
    assert_eq!(loads, BTreeSet::from([0, 1, 2, 36, 3, 4, 6, 7]));
}

/// Random bytes, and files with any byte changed.
#[test]
fn any_bytes() {
    let mut random = Random::new(702);
    let key = random.key(4, 12, 2);
    for _ in 0..2000 {
        let length = random.below(48);
        let mut file = random.bytes(length);
        if random.one_in(2) {
            file.iter_mut().take(1).for_each(|m| *m = 4);
        }
        for file in [file, changed(&mut random, key.file()), {
            let file = random.network_file(&key);
            changed(&mut random, file)
        }] {
            TO.same(&file);
            FROM.same(&file);
            same_load(&file, &key);
        }
    }
}

fn changed(random: &mut Random, mut file: Vec<u8>) -> Vec<u8> {
    let at = random.below(file.len());
    file[at] = random.number() as u8;
    file
}

/// Every length of output up to past what is needed.
#[test]
fn every_length_of_output() {
    let mut random = Random::new(703);
    for (n, t) in [(6, 1), (12, 2), (16, 3)] {
        let key = random.key(4, n, t);
        let (file, network) = (key.file(), random.network_file(&key));
        for room in 0..64 {
            assert_eq!(TO.same_with(&file, room) == 0, room >= 16 + 2 * t);
            assert_eq!(FROM.same_with(&network, room) == 0, room >= 5 + 2 * n + 2 * t);
        }
    }
}

/// Old to new and back is the same file; new to old and forward again has the same support and g, and settings that stay.
fn there_and_back(random: &mut Random, key: &Key) {
    let file = key.file();
    let shape = Shape::new(key.m, key.n as u16, key.t as u16).expect("a shape");
    let network = to_network(&file).expect("a key");
    assert_eq!(network.len(), shape.network_file_length());
    assert!(from_network(&network).as_ref() == Ok(&file), "{shape}");
    let other = random.network_file(key);
    assert!(from_network(&other).as_ref() == Ok(&file), "{shape}");
    assert!(to_network(&from_network(&other).expect("a key")).as_ref() == Ok(&network), "{shape}");
    let settings = other.len() - shape.switches().div_ceil(8);
    assert_eq!(other[..settings], network[..settings]);
    // All of them are one key.
    let loaded = [
        raw_calls::load(fresh(), A, &file),
        raw_calls::load_network(fresh(), A, &network),
        raw_calls::load_network(fresh(), A, &other),
    ];
    assert!(loaded.iter().all(|reply| reply.refused == 0 && reply.station == loaded[0].station), "{shape}");
}

#[test]
fn there_and_back_at_every_small_shape() {
    let mut random = Random::new(704);
    for (m, n, t) in small_shapes().into_iter().flat_map(|shape| [shape; 10]) {
        let key = random.key(m, n, t);
        there_and_back(&mut random, &key);
    }
}

/// Shapes of m 12 and 13: the standard's, the least, and one whose support has all elements.
#[test]
fn large_shapes_beside_the_second_implementation() {
    let mut random = Random::new(705);
    let shapes =
        [(12, 13, 1), (12, 3488, 64), (12, 4096, 100), (13, 14, 1), (13, 4608, 96), (13, 6960, 119), (13, 8192, 128)];
    for (m, n, t) in shapes {
        let key = random.exchange_key(m, n, t);
        there_and_back(&mut random, &key);
        TO.same(&key.file());
        let network = random.network_file(&key);
        FROM.same(&network);
        assert_eq!(same_load(&network, &key), 0);
        for number in DAMAGES {
            let file = random.damaged_network(&key, number);
            FROM.same_with(&file, usize::from(u16::MAX));
            same_load(&file, &key);
        }
    }
}

/// The bench keys, with the bytes that docs/FORMATS.md has of K1.
#[test]
fn bench_keys() {
    assert_eq!(to_network(&K1).as_deref(), Ok(&K1_NETWORK[..]));
    for key in [&K1[..], &K3, &SPLIT] {
        let network = to_network(key).expect("a key");
        assert_eq!(from_network(&network).as_deref(), Ok(key));
        // No file is taken in both forms.
        assert_eq!(from_network(key).map_err(Refusal::number), Err(2));
        assert_eq!(to_network(&network).map_err(Refusal::number), Err(2));
    }
}

/// A key from a network file opens and reads as the same key from its elements, beside another that stays.
#[test]
fn calls_on_a_key_of_a_network_file() {
    let mut station = Station::fresh();
    station.load(Name::A, &SPLIT).expect("load accepts");
    station.load_network(Name::B, &to_network(&K1).expect("a key")).expect("load accepts");
    assert_eq!(station.load_network(Name::B, &[]), Err(Refusal::KeyHeld));
    assert_eq!(station.load(Name::B, &K1), Err(Refusal::KeyHeld));
    assert_eq!((station.shape(Name::B), station.is_published(Name::B)), (Shape::new(4, 6, 1).ok(), false));
    assert_eq!(station.publish(Name::B).as_deref(), Ok(&[3, 1, 2, 0][..]));
    assert_eq!(station.open(Name::B, &[0x03]).expect("it opens").bytes(), [0x10]);
    assert_eq!(station.read(Name::A, &[0x11, 0x00]).expect("it reads").ones(), 2);
    station.drop_key(Name::B).expect("there is a key");
    assert_eq!(station.load_network(Name::B, &to_network(&SPLIT).expect("a key")), Ok(()));
    assert_eq!(station.is_exchange_key(Name::B), Ok(false));
}

/// 35 before all else: neither the slots nor the file count.
#[test]
fn a_name_before_all_else() {
    let mut random = Random::new(706);
    let key = random.key(4, 12, 2);
    for file in [random.network_file(&key), vec![], key.file()] {
        for (_, station) in [0, 1, 2].into_iter().flat_map(|state| placed(holding(state, &key))) {
            for name in (0..=255).filter(|name| ![A, B].contains(name)) {
                let reply = raw_calls::load_network(station, name, &file);
                assert!(reply.refused == 35 && reply.station == station, "{name}");
            }
        }
    }
    let reply = raw_calls::load_network(fresh(), A, &random.network_file(&key));
    assert!(reply.refused == 0 && *slot(&reply.station, A) == holding(1, &key));
}

//! Exchange keys, whose g is irreducible, and reading keys, whose g has a proper factor: 34 and its place among the numbers.

use shearcotter::raw::Slot;
use shearcotter::{Name, Refusal};

use crate::independent::drawn::{Kind, Split};
use crate::independent::field::Field;
use crate::independent::held::Held;
use crate::independent::key::Key;
use crate::independent::poly::Poly;
use crate::independent::random::Random;
use crate::independent::{bits, calls, factors};
use crate::support::forms::{Form, FORMS};
use crate::support::raw_calls::{self, empty, holding, placed, with};
use crate::support::{only_written, UNTOUCHED};

/// The monic polynomial with the digits of a number, to the base 2^m, as its lower coefficients.
fn numbered(m: u8, t: usize, number: usize) -> Poly {
    let digit = |i: usize| (number >> (usize::from(m) * i) & ((1 << m) - 1)) as u16;
    (0..t).map(digit).chain([1]).collect()
}

/// Both ways of the second implementation.
fn has_factor(f: &Field, g: &[u16]) -> bool {
    let found = factors::by_division(f, g);
    assert_eq!(factors::by_powers(f, g), found, "{g:?}");
    found
}

/// By Gauss there are (16^2 - 16)/2, (16^3 - 16)/3 and (16^4 - 16^2)/4 irreducible ones of degree 2, 3 and 4.
#[test]
fn two_ways_at_width_4() {
    let f = Field::of(4).expect("width 4");
    for (t, irreducible) in [(1, 16), (2, 120), (3, 1360), (4, 16320)] {
        let all = (0..1 << (4 * t)).map(|number| numbered(4, t, number));
        assert_eq!(all.filter(|g| !has_factor(f, g)).count(), irreducible, "degree {t}");
    }
    let mut random = Random::new(341);
    for t in [5, 6] {
        let g: Vec<Poly> = (0..300).map(|_| numbered(4, t, random.below(1 << (4 * t)))).collect();
        let split = g.iter().filter(|g| has_factor(f, g)).count();
        assert!(split > 100 && split < 300, "{split} of degree {t}");
    }
    assert!(Split::ALL.iter().all(|split| has_factor(f, &random.split(4, 6, *split))));
}

/// What both forms of publish answer without any room, on the loaded station; nothing changes.
fn without_room(key: &Key) -> u8 {
    let answers = placed(empty()).map(|(name, before)| {
        let station = raw_calls::load(before, name, &key.file()).station;
        assert!(station == with(before, name, holding(1, key)), "{key:?}");
        let [number, small] = FORMS.each_ref().map(|form| {
            let reply = (form.call)(station, name, &mut [], &mut []);
            assert!(reply.station == station && reply.ones == 0, "{} {key:?}", form.name);
            reply.refused
        });
        assert_eq!(number, small, "{key:?}");
        number
    });
    assert_eq!(answers[0], answers[1], "{key:?}");
    answers[0]
}

/// 34 or 10, and the crate's own answer.
fn same_kind(key: &Key, split: bool) {
    assert_eq!(without_room(key), if split { 34 } else { 10 }, "{key:?}");
    let mut station = shearcotter::Station::fresh();
    assert_eq!(station.is_exchange_key(Name::A), Err(Refusal::NoKey));
    station.load(Name::A, &key.file()).expect("load accepts");
    assert_eq!(station.is_exchange_key(Name::A), Ok(!split), "{key:?}");
    assert!(!station.is_published(Name::A));
}

/// Every g of degree 1 to 3 with which there is a key.
#[test]
fn every_g_at_width_4() {
    let (f, mut random, mut kinds) = (Field::of(4).expect("width 4"), Random::new(342), [0; 2]);
    for t in 1..=3 {
        for number in 0..1 << (4 * t) {
            let g = numbered(4, t, number);
            let Some(key) = random.key_of(4, 4 * t + 1, &g).filter(|key| key.number() == 0) else { continue };
            let split = has_factor(f, &g);
            same_kind(&key, split);
            kinds[usize::from(split)] += 1;
        }
    }
    // 16, 120 and 1360 are irreducible; of degree 2, 120 have two roots, and of degree 3, 16 times 120 have one and 560 three.
    assert_eq!(kinds, [16 + 120 + 1360, 120 + 16 * 120 + 560]);
}

/// Irreducible g of every degree up to a size, and products of all kinds.
#[test]
fn every_degree_at_the_large_widths() {
    let mut random = Random::new(343);
    for m in [12, 13] {
        for t in (1..=24).chain([32, 63, 64, 95, 96, 119, 127, 128]) {
            let n = usize::from(m) * t + 1;
            let key = random.exchange_key(m, n, t);
            same_kind(&key, false);
            for split in Split::ALL.into_iter().filter(|split| split.has(t)) {
                let g = random.split(m, t, split);
                same_kind(&random.key_of(m, n, &g).expect("a support"), true);
            }
        }
    }
}

/// Keys of a shape with each of 25 and 34, alone and together, and with none.
fn keys(random: &mut Random, (m, n, t): (u8, usize, usize)) -> Vec<Kind<Held>> {
    let held = random.published(m, n, t);
    random.kinds(held)
}

/// A slot in a state with a key: 21 stands before the key's numbers.
fn slot((held, of_key): &Kind<Held>, state: u8) -> Kind<Slot> {
    let before = (state == 0).then_some(21).into_iter();
    (holding(state, &held.key), before.chain(of_key.iter().copied()).collect())
}

/// The first of all numbers whose conditions hold; 0 for none.
fn first<'a>(holds: impl IntoIterator<Item = &'a Vec<u8>>) -> Option<u8> {
    holds.into_iter().flatten().next().copied()
}

/// 21, 25, 34, 10, 11 and 23, each where the later ones hold too; the workspace is written to only behind 11. With either workspace.
#[test]
fn numbers_of_publish_in_their_order() {
    for form in &FORMS {
        numbers_of(form);
    }
}

fn numbers_of(form: &Form) {
    let mut random = Random::new(344);
    for shape in [(4, 6, 1), (4, 9, 2), (4, 14, 3), (12, 100, 5), (13, 6957, 119)] {
        let mut keys = keys(&mut random, shape);
        keys.push((random.dependent(shape.0, shape.1, shape.2), vec![]));
        let (out, work) = (keys[0].0.key.public_length(), (form.needed)(&keys[0].0.key));
        let rooms = [(out, work, vec![]), (out, work - 1, vec![11]), (out - 1, work, vec![10]), (0, 0, vec![10, 11])];
        for (key, state) in keys.iter().flat_map(|key| [0, 1, 2, 255].map(|state| (key, state))) {
            let (slot, of_slot) = slot(key, state);
            for (out, work, of_room) in &rooms {
                let none = vec![if key.0.public().is_none() { 23 } else { 0 }];
                let number = form.same(&slot, &key.0, *out, &vec![UNTOUCHED; *work]);
                let expected = first([&of_slot, of_room, &none]);
                assert_eq!(Some(number), expected, "{} state {state} {:?}", form.name, key.0.key);
            }
        }
    }
}

/// A capsule that opens under the key, one that does not, and those with 8 and 9.
fn capsules(random: &mut Random, held: &Held) -> Vec<Kind<Vec<u8>>> {
    let (key, rank) = (&held.key, held.key.capsule_bits());
    let public = held.public().expect("a public key");
    let pattern = random.pattern(key.n, key.t);
    let opens = calls::lock((key.m, key.n as u16, key.t as u16), public, &pattern, usize::MAX).written;
    let refused = loop {
        let capsule = random.row(rank);
        if held.open(&capsule).is_none() {
            break capsule;
        }
    };
    let mut capsules = vec![(opens.clone(), vec![]), (refused, vec![13]), (vec![], vec![8])];
    capsules.push(([&opens[..], &[0]].concat(), vec![8]));
    if rank % 8 > 0 {
        let mut filler = opens;
        bits::set(&mut filler, rank);
        capsules.push((filler, vec![9]));
    }
    capsules
}

/// 21, 25, 34, 24, 8, 9, 10 and 13, each where the later ones hold too.
#[test]
fn numbers_of_open_in_their_order() {
    let mut random = Random::new(345);
    for shape in [(4, 6, 1), (4, 9, 2), (4, 14, 3), (12, 100, 5), (13, 6957, 119)] {
        let keys = keys(&mut random, shape);
        let capsules = capsules(&mut random, &keys[0].0);
        for (key, state) in keys.iter().flat_map(|key| [0, 1, 2, 255].map(|state| (key, state))) {
            let (slot, mut of_slot) = slot(key, state);
            of_slot.extend((state == 1).then_some(24));
            for (capsule, of_capsule) in &capsules {
                for room in [0, shape.1.div_ceil(8)] {
                    let short = vec![10; usize::from(room == 0)];
                    // 8 and 9 stand before 10, and 13 behind it.
                    let (early, late) = of_capsule.iter().partition(|number| **number != 13);
                    let number = same_open(&slot, &key.0, capsule, room);
                    let expected = first([&of_slot, &early, &short, &late]).unwrap_or(0);
                    assert_eq!(number, expected, "state {state} {capsule:02x?} {:?}", key.0.key);
                }
            }
        }
    }
}

/// Opening with so much room beside what is expected, under each name; its number.
fn same_open(slot: &Slot, held: &Held, capsule: &[u8], room: usize) -> u8 {
    let expected = calls::open(slot.state, held, capsule, room);
    for (name, station) in placed(*slot) {
        let mut out = vec![UNTOUCHED; room];
        let reply = raw_calls::open(station, name, capsule, &mut out);
        assert_eq!((reply.refused, reply.ones), (expected.number, expected.ones), "{:?}", held.key);
        assert!(only_written(&out, &expected.written) && reply.station == station, "{:?}", held.key);
    }
    expected.number
}

/// Words are read with a reading key, loaded or in a station made by hand with the mark, as with any other.
#[test]
fn words_are_read_all_the_same() {
    let mut random = Random::new(346);
    for (m, n, t) in [(4, 9, 2), (4, 14, 3), (12, 100, 5), (13, 8192, 128)] {
        let held = Held::new(random.reading_key(m, n, t));
        for (state, errors) in [1, 2, 255].into_iter().flat_map(|state| [0, 1, t].map(|errors| (state, errors))) {
            let word = random.pattern(n, errors);
            for (name, station) in placed(holding(state, &held.key)) {
                let mut out = vec![UNTOUCHED; word.len()];
                let reply = raw_calls::read(station, name, &word, &mut out);
                assert_eq!((reply.refused, usize::from(reply.ones), &out), (0, errors, &word), "{:?}", held.key);
            }
            assert_eq!(calls::read(state, &held, &word, word.len()).written, word);
        }
    }
}

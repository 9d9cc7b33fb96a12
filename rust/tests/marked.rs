//! Marked readings beside the second implementation: differences, d and numbers, at the bound 2d + s ≤ 2t and on both sides of it.

use shearcotter::raw::Slot;
use shearcotter::{MarkedReading, Name, Refusal, Station};

use crate::compare::small_shapes;
use crate::independent::bits;
use crate::independent::calls::{self, Outcome};
use crate::independent::drawn::{doubled, has_reading_keys, marked_about, marked_word, Kind};
use crate::independent::euclid;
use crate::independent::held::Held;
use crate::independent::random::Random;
use crate::support::raw_calls::{self, holding, placed};
use crate::support::{only_written, UNTOUCHED};

const STANDARD: [(u8, usize, usize); 5] =
    [(12, 3488, 64), (13, 4608, 96), (13, 6688, 128), (13, 6960, 119), (13, 8192, 128)];

/// A marked reading with an output of some room beside what is expected, under each name: number, d, the whole output and the
/// station.
fn same_with(slot: &Slot, held: &Held, word: &[u8], marks: &[u8], room: usize) -> Outcome {
    let expected = calls::read_marked(slot.state, held, word, marks, room);
    for (name, station) in placed(*slot) {
        let mut out = vec![UNTOUCHED; room];
        let reply = raw_calls::read_marked(station, name, word, marks, &mut out);
        let said = || format!("{name} state {} {word:02x?} {marks:02x?} {room} {:?}", slot.state, held.key);
        assert_eq!((reply.refused, reply.ones), (expected.number, expected.ones), "{}", said());
        assert!(only_written(&out, &expected.written), "{out:02x?} is not {expected:02x?}: {}", said());
        assert!(reply.station == station, "the station has changed: {}", said());
    }
    expected
}

/// The same with two bytes more than it needs.
fn same(slot: &Slot, held: &Held, word: &[u8], marks: &[u8]) -> Outcome {
    same_with(slot, held, word, marks, held.key.n.div_ceil(8) + 2)
}

/// A row of up to 16 bits from a number.
fn row(n: usize, number: usize) -> Vec<u8> {
    number.to_le_bytes()[..n.div_ceil(8)].to_vec()
}

fn ones(row: &[u8]) -> usize {
    row.iter().map(|byte| byte.count_ones() as usize).sum()
}

/// An exchange key of the shape, and a reading key where it has one.
fn keys(random: &mut Random, (m, n, t): (u8, usize, usize)) -> Vec<Held> {
    let mut keys = vec![random.published(m, n, t)];
    if has_reading_keys((m, n, t)) {
        keys.push(Held::new(random.reading_key(m, n, t)));
    }
    keys
}

/// Every word with every row of marks, filler bits set too.
#[test]
fn every_word_with_every_marks_of_the_smallest_shapes() {
    let mut random = Random::new(81);
    for n in [5, 6, 8] {
        let held = random.published(4, n, 1);
        let slot = holding(1, &held.key);
        let mut found = [0; 3];
        for (word, marks) in (0..256).flat_map(|word| (0..256).map(move |marks| (word, marks))) {
            let outcome = same(&slot, &held, &row(n, word), &row(n, marks));
            if outcome.number == 0 {
                found[ones(&row(n, marks))] += 1;
            }
        }
        assert!(found.iter().all(|count| *count > 0), "{found:?}");
    }
}

/// At every shape of width 4: random words and marks, and words about the bound, with keys of both kinds.
#[test]
fn every_shape_of_width_4() {
    let mut random = Random::new(82);
    for shape in small_shapes() {
        for held in keys(&mut random, shape) {
            let (n, slot) = (held.key.n, holding(1, &held.key));
            let mut accepted = 0;
            for _ in 0..200 {
                same(&slot, &held, &random.row(n), &random.row(n));
                let [word, marks, _] = marked_about(&mut random, &held);
                accepted += usize::from(same(&slot, &held, &word, &marks).number == 0);
            }
            assert!((50..200).contains(&accepted), "{accepted} at {shape:?}");
        }
    }
}

/// Chosen code words with d errors and s marks: at the bound and below it all differences are found, and d; above it there is what
/// the second implementation says. How many of those above were refused, and how many there were.
fn at_the_bound(random: &mut Random, held: &Held, marked: impl Iterator<Item = usize>) -> (usize, usize) {
    let (n, t, slot) = (held.key.n, held.key.t, holding(1, &held.key));
    let (mut refused, mut above) = (0, 0);
    for marked in marked.filter(|marked| *marked <= n) {
        let room = n - marked;
        if let Some(left) = (2 * t).checked_sub(marked) {
            for errors in [left / 2, random.below(left / 2 + 1)].map(|errors| errors.min(room)) {
                let [word, marks, differences] = marked_word(random, held, errors, marked);
                let outcome = same(&slot, held, &word, &marks);
                assert_eq!(outcome, Outcome { number: 0, ones: errors as u16, written: differences });
            }
        }
        let errors = (2 * t).checked_sub(marked).map_or(0, |left| left / 2 + 1).min(room);
        let [word, marks, _] = marked_word(random, held, errors, marked);
        if 2 * errors + marked > 2 * t {
            refused += usize::from(same(&slot, held, &word, &marks).number == 14);
            above += 1;
        }
    }
    (refused, above)
}

#[test]
fn the_bound_at_width_4() {
    let mut random = Random::new(83);
    let (mut refused, mut above) = (0, 0);
    for shape in small_shapes() {
        for held in keys(&mut random, shape) {
            for _ in 0..10 {
                let most = 2 * held.key.t + 2;
                let (some, all) = at_the_bound(&mut random, &held, 0..=most);
                (refused, above) = (refused + some, above + all);
            }
        }
    }
    // Near one code word there may be another; mostly there is none.
    assert!(2 * refused > above && refused < above, "{refused} of {above}");
}

/// With every number of marks to 2t + 2.
#[test]
fn the_bound_at_the_standard_shapes() {
    let mut random = Random::new(84);
    for shape in STANDARD {
        let held = random.published(shape.0, shape.1, shape.2);
        let t = held.key.t;
        assert_eq!(at_the_bound(&mut random, &held, 0..=2 * t + 2), (2 * t + 3, 2 * t + 3), "{shape:?}");
        let key = random.reading_key(shape.0, shape.1, shape.2);
        at_the_bound(&mut random, &Held::new(key), [0, 1, t, 2 * t, 2 * t + 1].into_iter());
    }
}

#[test]
fn every_number_of_marks_at_shapes_between() {
    let mut random = Random::new(85);
    for (m, n, t) in [(12, 100, 5), (12, 13, 1), (13, 14, 1), (13, 300, 20), (12, 4096, 3)] {
        let key = random.exchange_key(m, n, t);
        let held = Held::new(key);
        at_the_bound(&mut random, &held, 0..=2 * t + 2);
        let held = random.published(m, n, t);
        at_the_bound(&mut random, &held, 0..=2 * t + 2);
    }
}

/// With more than 2t marks, up to marks everywhere, no word is read; the call answers all the same.
#[test]
fn more_marks_than_2t() {
    let mut random = Random::new(86);
    for (m, n, t) in small_shapes().into_iter().chain(STANDARD) {
        let held = random.published(m, n, t);
        let slot = holding(2, &held.key);
        for marked in [2 * t + 1, n / 2, n - 1, n].into_iter().filter(|marked| (2 * t + 1..=n).contains(marked)) {
            let [word, marks, _] = marked_word(&mut random, &held, 0, marked);
            assert_eq!(ones(&marks), marked);
            assert_eq!(same(&slot, &held, &word, &marks).number, 14);
        }
        let everywhere = bits::pack(n, 0..n);
        assert_eq!(same(&slot, &held, &everywhere, &everywhere).number, 14);
    }
}

/// Whatever the marked bits are, the code word is the same, and d.
#[test]
fn marked_bits_do_not_count() {
    let mut random = Random::new(87);
    for shape in small_shapes().into_iter().chain(STANDARD) {
        let held = random.published(shape.0, shape.1, shape.2);
        let (n, t, slot) = (held.key.n, held.key.t, holding(1, &held.key));
        let [word, marks, _] = marked_word(&mut random, &held, t / 2, 2 * t - 2 * (t / 2));
        let code_word = |word: &[u8]| {
            let outcome = same(&slot, &held, word, &marks);
            let restored: Vec<u8> = word.iter().zip(&outcome.written).map(|(byte, e)| byte ^ e).collect();
            (outcome.number, outcome.ones, restored)
        };
        let expected = code_word(&word);
        assert_eq!((expected.0, usize::from(expected.1)), (0, t / 2));
        for _ in 0..4 {
            let noise = random.row(n);
            let drawn: Vec<u8> = word.iter().zip(&marks).zip(&noise).map(|((w, z), x)| w ^ (z & x)).collect();
            assert_eq!(code_word(&drawn), expected);
        }
    }
}

/// Without marks all that it hands back and writes is read's.
#[test]
fn without_marks_it_is_a_reading() {
    let mut random = Random::new(88);
    for shape in small_shapes().into_iter().chain([(12, 100, 5), (12, 3488, 64), (13, 6960, 119)]) {
        for held in keys(&mut random, shape) {
            let length = held.key.n.div_ceil(8);
            for (round, (name, station)) in
                (0..20).flat_map(|round| placed(holding(1, &held.key)).map(|at| (round, at)))
            {
                let [word, _, _] = marked_word(&mut random, &held, round % (held.key.t + 2), 0);
                let word = if round % 5 == 4 { random.bytes(length) } else { word };
                for room in [length, length - 1, length + 3] {
                    let (mut out, mut plain) = (vec![UNTOUCHED; room], vec![UNTOUCHED; room]);
                    let marked = raw_calls::read_marked(station, name, &word, &vec![0; length], &mut out);
                    let read = raw_calls::read(station, name, &word, &mut plain);
                    assert!(marked == read && out == plain, "{word:02x?} {room} {:?}", held.key);
                }
            }
        }
    }
}

/// The second implementation's two ways agree: the search over all code words, and Euclid's algorithm with erasures.
#[test]
fn two_ways_of_the_second_implementation() {
    let mut random = Random::new(89);
    for shape in small_shapes() {
        for held in keys(&mut random, shape) {
            let (n, reader) = (held.key.n, euclid::Reader::new(&held.key));
            for round in 0..300 {
                let [word, marks] = match round % 2 {
                    0 => [random.row(n), random.row(n)],
                    _ => {
                        let [word, marks, _] = marked_about(&mut random, &held);
                        [word, marks]
                    }
                };
                let by_search = held.read_marked(&word, &marks).map(|(places, _)| places);
                assert_eq!(reader.read_marked(&word, &marks), by_search, "{word:02x?} {marks:02x?} {:?}", held.key);
            }
        }
    }
}

/// Slots with a key in every kind of state: 21 before 25, which a key that load refuses has.
fn slots(held: &Held) -> Vec<Kind<(Slot, Held)>> {
    let mut made = vec![];
    for (key, of_key) in [(held.key.clone(), None), (doubled(&held.key).key, Some(25))] {
        for state in [0, 1, 2, 3, 255] {
            let before = (state == 0).then_some(21).into_iter();
            made.push(((holding(state, &key), Held::new(key.clone())), before.chain(of_key).collect()));
        }
    }
    made
}

/// The row as it is, with a filler bit set, shorter, longer, and none: the last three have a number of their own.
fn rows(n: usize, row: &[u8], filler: u8, length: u8) -> Vec<Kind<Vec<u8>>> {
    let mut set = row.to_vec();
    bits::set(&mut set, n);
    let (shorter, longer) = (row[1..].to_vec(), [row, &[0]].concat());
    let wrong = [shorter, longer, vec![]].map(|row| (row, vec![length]));
    [(row.to_vec(), vec![]), (set, vec![filler])].into_iter().chain(wrong).collect()
}

/// 21, 25, 8, 9, 37, 10, 14: each alone, and each where the later ones hold too; nothing is changed by any.
#[test]
fn numbers_in_their_order() {
    let mut random = Random::new(90);
    for (m, n, t) in [(4, 6, 1), (4, 13, 3), (12, 100, 5), (13, 6957, 119)] {
        let held = random.published(m, n, t);
        let [word, marks, _] = marked_word(&mut random, &held, t - 1, 2);
        let far = bits::pack(n, 0..2 * t + 1);
        let needed = n.div_ceil(8);
        let mut met = std::collections::BTreeSet::new();
        for ((slot, held), of_slot) in slots(&held) {
            for (word, of_word) in rows(n, &word, 9, 8) {
                for (marks, of_marks) in [rows(n, &marks, 37, 37), vec![(far.clone(), vec![])]].concat() {
                    for room in [needed, needed - 1, 0, needed + 1] {
                        let of_room = (room < needed).then_some(10);
                        let at_last = (marks == far).then_some(14);
                        let holds =
                            of_slot.iter().chain(&of_word).chain(&of_marks).copied().chain(of_room).chain(at_last);
                        let first = holds.min_by_key(|number| ORDER.iter().position(|x| x == number)).unwrap_or(0);
                        assert_eq!(same_with(&slot, &held, &word, &marks, room).number, first);
                        met.insert(first);
                    }
                }
            }
        }
        assert_eq!(met.len(), 1 + ORDER.len(), "{met:?}");
    }
}

const ORDER: [u8; 7] = [21, 25, 8, 9, 37, 10, 14];

fn number(answer: Result<MarkedReading, Refusal>) -> u8 {
    answer.map_or_else(Refusal::number, |_| 0)
}

/// The safe calls' answers are the raw call's; the ones of the differences are counted, and are not d.
#[test]
fn safe_calls() {
    let mut random = Random::new(91);
    for (m, n, t) in [(4, 6, 1), (4, 13, 3), (12, 100, 5), (12, 3488, 64)] {
        let held = random.published(m, n, t);
        let (mut station, slot) = (Station::fresh(), holding(1, &held.key));
        let [word, marks, differences] = marked_word(&mut random, &held, t - 1, 2);
        assert_eq!(number(station.read_marked(Name::B, &word, &marks)), 21);
        station.load(Name::B, &held.key.file()).expect("load accepts");
        assert_eq!(number(station.read_marked(Name::A, &word, &marks)), 21);
        for word in [&word[..], &word[1..], &[]] {
            for marks in [&marks[..], &vec![0; marks.len()], &marks[1..], &[]] {
                let expected = same(&slot, &held, word, marks);
                let answer = station.read_marked(Name::B, word, marks);
                assert_eq!(answer.as_ref().map_err(|refusal| refusal.number()).err().unwrap_or(0), expected.number);
                let Ok(reading) = answer else { continue };
                assert_eq!((reading.unmarked(), reading.differences().bytes()), (expected.ones, &expected.written[..]));
                assert_eq!(usize::from(reading.differences().ones()), ones(&expected.written));
                assert_eq!(reading.clone().into_differences().into_bytes(), expected.written);
            }
        }
        let office = station.recipient(Name::B);
        let reading = office.read_marked(&word, &marks).expect("it reads");
        assert_eq!((reading.differences().bytes(), usize::from(reading.unmarked())), (&differences[..], t - 1));
        let mut out = vec![UNTOUCHED; word.len() + 1];
        assert_eq!(office.read_marked_into(&word, &marks, &mut out[1..=1][..0]), Err(Refusal::ShortOutput));
        assert!(only_written(&out, &[]));
        assert_eq!(office.read_marked_into(&word, &marks, &mut out), Ok(t as u16 - 1));
        assert!(only_written(&out, &differences));
        assert_eq!(station.drop_key(Name::B), Ok(()));
        assert_eq!(number(station.read_marked(Name::B, &word, &marks)), 21);
    }
}

/// K1 of docs/FORMATS.md: with two marks the words 13 and 06 are read, and d is not the number of differences.
#[test]
fn the_bench_key() {
    let mut station = Station::fresh();
    station.load(Name::A, &crate::bench_keys::K1).expect("load accepts");
    let read = |word: u8, marks: u8| {
        let answer = station.read_marked(Name::A, &[word], &[marks]);
        answer.map(|reading| (reading.differences().bytes()[0], reading.unmarked())).map_err(Refusal::number)
    };
    assert_eq!(read(0x13, 0x12), Ok((0x00, 0)));
    assert_eq!(read(0x24, 0x00), Ok((0x01, 1)));
    assert_eq!(read(0x06, 0x30), Ok((0x30, 0)));
    assert_eq!(read(0x06, 0x00), Err(14));
    assert_eq!(read(0x13, 0x07), Err(14));
    assert_eq!(read(0x13, 0x52), Err(37));
    assert_eq!(read(0x53, 0x52), Err(9));
    let shown = format!("{:?}", station.read_marked(Name::A, &[0x06], &[0x30]).expect("it reads"));
    assert_eq!(shown, "MarkedReading { differences: Pattern { ones: 2, .. }, unmarked: 0 }");
}

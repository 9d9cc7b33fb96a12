//! Reports beside the second implementation: records, counts and numbers, with every room for the records.

use shearcotter::raw::Slot;
use shearcotter::{Name, Refusal};

use crate::compare::small_shapes;
use crate::independent::drawn::{doubled, has_reading_keys};
use crate::independent::held::Held;
use crate::independent::random::Random;
use crate::independent::{calls, matrix};
use crate::support::raw_calls::{self, holding, placed};
use crate::support::{only_written, UNTOUCHED};

/// A report with room for so many records, beside what is expected, under each name; its number.
fn same_report(slot: &Slot, held: &Held, capsules: &[u8], room: usize) -> u8 {
    let expected = calls::report(slot.state, held, capsules, room);
    for (name, station) in placed(*slot) {
        let mut records = vec![UNTOUCHED; room];
        let reported = raw_calls::report(station, name, capsules, &mut records);
        let said = || format!("{name} state {} room {room} {capsules:02x?} {:?}", slot.state, held.key);
        assert_eq!(reported.refused, expected.number, "{}", said());
        assert!(only_written(&records, &expected.written), "{records:02x?} is not {expected:02x?}: {}", said());
        assert_eq!(reported.counts, calls::counts(&expected.written), "{}", said());
        assert!(reported.station == station, "the station has changed: {}", said());
    }
    expected.number
}

fn published(held: &Held) -> Slot {
    holding(2, &held.key)
}

fn capsule_length(held: &Held) -> usize {
    held.key.capsule_bits().div_ceil(8)
}

/// How many capsules stand in so many bytes.
fn count(held: &Held, length: usize) -> usize {
    length.div_ceil(capsule_length(held))
}

/// Every value that the bytes of a capsule can have, filler bits set too.
fn all_capsules(held: &Held) -> Vec<u8> {
    let length = capsule_length(held);
    (0..1_usize << (8 * length)).flat_map(|number| number.to_le_bytes()[..length].to_vec()).collect()
}

#[test]
fn every_capsule_of_width_4() {
    let mut random = Random::new(31);
    for (m, n, t) in small_shapes() {
        let held = random.published(m, n, t);
        let capsules = all_capsules(&held);
        let total = count(&held, capsules.len());
        assert_eq!(same_report(&published(&held), &held, &capsules, total), 0);
        assert_eq!(same_report(&published(&held), &held, &capsules, total - 1), 31);
        // A key that may have no public key, on a station made by hand; and one whose g has a proper factor.
        let held = Held::new(random.exchange_key(m, n, t));
        assert_eq!(same_report(&published(&held), &held, &capsules, total), 0);
        if has_reading_keys((m, n, t)) {
            let held = Held::new(random.reading_key(m, n, t));
            assert_eq!(same_report(&published(&held), &held, &capsules, total), 34);
        }
    }
}

#[test]
fn every_buffer_of_two_bytes() {
    let mut random = Random::new(32);
    for (n, t) in [(6, 1), (12, 2), (14, 3)] {
        let held = random.published(4, n, t);
        let slot = published(&held);
        assert_eq!(same_report(&slot, &held, &[], 0), 0);
        for number in 0..=u16::MAX {
            let bytes = number.to_le_bytes();
            assert_eq!(same_report(&slot, &held, &bytes, 2), 0);
            assert_eq!(same_report(&slot, &held, &bytes[..1], 1), 0);
        }
    }
}

/// 31 exactly where the room is less than the number of capsules, a tail included.
#[test]
fn every_tail_at_every_room() {
    let mut random = Random::new(33);
    for (n, t) in [(6, 1), (15, 3)] {
        let held = random.published(4, n, t);
        let capsules = random.bytes(12);
        for length in 0..=capsules.len() {
            let total = count(&held, length);
            for room in 0..=total + 3 {
                let number = same_report(&published(&held), &held, &capsules[..length], room);
                assert_eq!(number, if room < total { 31 } else { 0 });
            }
        }
    }
}

/// Capsules of patterns with about t ones, damaged and random ones, and filler where there is some.
fn some_capsules(random: &mut Random, held: &Held, rounds: usize) -> Vec<u8> {
    let (key, rank) = (&held.key, held.key.capsule_bits());
    let public = held.public().expect("a public key");
    let mut capsules = vec![];
    for round in 0..rounds {
        let ones = [key.t, key.t - 1, key.t, key.t + 1][round % 4];
        let mut capsule = matrix::lock(key.m, key.n, key.t, public, &random.pattern(key.n, ones));
        match round % 5 {
            3 => capsule[0] ^= 1,
            4 if rank % 8 > 0 => capsule[rank / 8] |= 0x80,
            _ => {}
        }
        capsules.extend(capsule);
    }
    capsules.extend(random.row(rank));
    capsules
}

#[test]
fn standard_shapes() {
    let mut random = Random::new(34);
    for (m, n, t) in [(12, 3488, 64), (13, 4608, 96), (13, 6688, 128), (13, 6960, 119), (13, 8192, 128)] {
        let held = random.published(m, n, t);
        let (slot, length) = (published(&held), capsule_length(&held));
        let capsules = some_capsules(&mut random, &held, 9);
        for room in [9, 10, 11, 40] {
            assert_eq!(same_report(&slot, &held, &capsules, room), if room < 10 { 31 } else { 0 });
        }
        for tail in [1, 2, length / 2, length - 1] {
            let cut = &capsules[..2 * length + tail];
            for room in [2, 3, 4] {
                assert_eq!(same_report(&slot, &held, cut, room), if room < 3 { 31 } else { 0 });
            }
            assert_eq!(same_report(&slot, &held, &capsules[..tail], 1), 0);
        }
        for (cut, room) in [(0, 0), (length - 1, 1), (length, 1), (length + 1, 2)] {
            assert_eq!(same_report(&slot, &held, &capsules[..cut], room), 0);
            assert_eq!(
                same_report(&slot, &held, &capsules[..cut], room.saturating_sub(1)),
                if cut > 0 { 31 } else { 0 }
            );
        }
    }
}

/// 21, then 25, then 34, then 24, then 31: each where the later ones hold too.
#[test]
fn numbers_in_their_order() {
    let mut random = Random::new(35);
    for (m, n, t) in [(4, 9, 2), (4, 14, 3), (12, 100, 5), (13, 8192, 128)] {
        let held = random.published(m, n, t);
        let split = Held::new(random.reading_key(m, n, t));
        let (unsound, both) = (doubled(&held.key), doubled(&split.key));
        let capsules = some_capsules(&mut random, &held, 2);
        let total = count(&held, capsules.len());
        for (length, room) in
            [(0, 0), (0, 5), (capsules.len(), 0), (capsules.len(), total - 1), (capsules.len(), total)]
        {
            let capsules = &capsules[..length];
            assert_eq!(same_report(&holding(0, &held.key), &held, capsules, room), 21);
            assert_eq!(same_report(&holding(0, &unsound.key), &unsound, capsules, room), 21);
            assert_eq!(same_report(&holding(0, &both.key), &both, capsules, room), 21);
            assert_eq!(same_report(&holding(0, &split.key), &split, capsules, room), 21);
            for state in [1, 2, 3, 255] {
                assert_eq!(same_report(&holding(state, &unsound.key), &unsound, capsules, room), 25);
                assert_eq!(same_report(&holding(state, &both.key), &both, capsules, room), 25);
                assert_eq!(same_report(&holding(state, &split.key), &split, capsules, room), 34);
            }
            assert_eq!(same_report(&holding(1, &held.key), &held, capsules, room), 24);
            let short = room < count(&held, length);
            for state in [2, 3, 255] {
                assert_eq!(same_report(&holding(state, &held.key), &held, capsules, room), if short { 31 } else { 0 });
            }
        }
    }
}

/// The safe calls' records and counts are the raw call's.
#[test]
fn safe_calls() {
    let mut random = Random::new(36);
    for (m, n, t) in [(4, 6, 1), (4, 13, 3), (12, 3488, 64)] {
        let held = random.published(m, n, t);
        let mut station = shearcotter::Station::fresh();
        station.load(Name::A, &held.key.file()).expect("load accepts");
        station.publish(Name::A).expect("publish accepts");
        let capsules = some_capsules(&mut random, &held, 7);
        for length in [0, 1, capsules.len() - 1, capsules.len()] {
            let expected = calls::report(2, &held, &capsules[..length], usize::MAX).written;
            let report = station.report(Name::A, &capsules[..length]).expect("a report");
            assert_eq!(report.records(), expected);
            let counts = calls::counts(&expected);
            assert!((0..=255).all(|number| report.counts().of(number) == counts[usize::from(number)]));
            let mut records = vec![UNTOUCHED; expected.len() + 1];
            assert_eq!(station.report_into(Name::A, &capsules[..length], &mut records).as_ref(), Ok(report.counts()));
            assert!(only_written(&records, &expected), "{records:02x?} is not {expected:02x?}");
            if let Some(short) = expected.len().checked_sub(1) {
                records.fill(UNTOUCHED);
                let refused = station.report_into(Name::A, &capsules[..length], &mut records[..short]);
                assert_eq!(refused, Err(Refusal::ShortRecords));
                assert!(only_written(&records, &[]), "{records:02x?} under refusal");
            }
        }
    }
}

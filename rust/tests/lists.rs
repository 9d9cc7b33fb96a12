//! Random lists of calls for both recipients beside a ledger: every answer, and after every call the whole station. Then what
//! leaving out one recipient's calls changes, and calls that name neither.

use std::collections::BTreeMap;

use shearcotter::raw::{Slot, Station, A, B};

use crate::bench_keys::K3;
use crate::independent::held::Held;
use crate::independent::key::Key;
use crate::independent::named::Drawing;
use crate::independent::random::Random;
use crate::independent::recipients::{Answer, Call, Ledger, Named};
use crate::support::named::{make, same};
use crate::support::raw_calls::{empty, fresh, holding, placed, slot, with};

/// All calls, and how often they are drawn.
const CALLS: [&str; 22] = [
    "load",
    "load",
    "load_network",
    "load_network",
    "publish",
    "publish",
    "publish",
    "publish_small",
    "publish_small",
    "open",
    "open",
    "open",
    "read",
    "read",
    "read_marked",
    "read_marked",
    "report",
    "report",
    "session",
    "session",
    "session",
    "drop",
];

/// Exchange keys with a public key, one without and one perhaps without, and reading keys.
fn keys(random: &mut Random) -> Vec<Held> {
    let mut keys: Vec<Held> = [(6, 1), (7, 1), (12, 2), (14, 3)].map(|(n, t)| random.published(4, n, t)).into();
    let others = [random.exchange_key(4, 16, 3), random.reading_key(4, 14, 2), random.reading_key(4, 15, 3)];
    keys.extend(others.map(Held::new));
    keys.push(Held::new(Key::parse(&K3).expect("a key")));
    keys
}

fn drawing<'a>(random: &'a mut Random, keys: &'a [Held]) -> Drawing<'a> {
    Drawing { random, keys, unknown: 12, damages: &[1, 2, 3, 4, 5, 6, 7], longest: usize::MAX }
}

/// How many calls of each kind, under which name, had which number.
type Met = BTreeMap<(&'static str, u8, u8), usize>;

/// Every number of the list was met, under both names.
fn all_met(met: &Met, numbers: &[(&'static str, &[u8])]) {
    for (call, numbers) in numbers {
        for (name, number) in [A, B].into_iter().flat_map(|name| numbers.iter().map(move |number| (name, *number))) {
            assert!(met.contains_key(&(*call, name, number)), "{call} of {name} never answered {number}: {met:?}");
        }
    }
}

#[test]
fn answers_and_stations_of_random_lists() {
    let mut random = Random::new(21);
    let (keys, mut met) = (keys(&mut random), Met::new());
    for _ in 0..300 {
        let (mut station, mut ledger) = (fresh(), Ledger::blank());
        for named in drawing(&mut random, &keys).list(100, &CALLS) {
            let (after, answer) = same(station, &mut ledger, &named);
            station = after;
            let name = if [A, B].contains(&named.name) { named.name } else { 0 };
            *met.entry((named.call.kind(), name, answer.number)).or_default() += 1;
        }
    }
    all_met(
        &met,
        &[
            ("load", &[0, 22, 1, 2, 3, 4, 5, 6, 7]),
            ("load_network", &[0, 22, 1, 2, 36, 3, 4, 6, 7]),
            ("publish", &[0, 21, 34, 10, 11, 23]),
            ("publish_small", &[0, 21, 34, 10, 11, 23]),
            ("open", &[0, 21, 34, 24, 8, 9, 10, 13]),
            ("report", &[0, 21, 34, 24, 31]),
            ("session", &[0, 21, 34, 24, 8, 9, 33]),
            ("read", &[0, 21, 8, 9, 10, 14]),
            ("read_marked", &[0, 21, 8, 9, 37, 10, 14]),
            ("drop", &[0, 21]),
        ],
    );
    let unknown = met.iter().filter(|((_, name, number), _)| *name == 0 || *number == 35);
    assert!(unknown.clone().all(|((_, name, number), _)| (*name, *number) == (0, 35)), "{met:?}");
    assert_eq!(unknown.count(), 10, "{met:?}");
}

/// The answers to the calls of a list, and the station behind each.
fn run(mut station: Station, calls: &[Named]) -> Vec<(Answer, Station)> {
    let step = |named: &Named| {
        let made = make(station, named);
        station = made.station;
        (made.answer, made.station)
    };
    calls.iter().map(step).collect()
}

/// Without the calls that name one recipient, on a station where that one has another slot: all answers that are left, the other's
/// slot behind each call, and that the left-out one's slot stays.
fn left_out(calls: &[Named], out: u8, stranger: Slot) {
    let other = A + B - out;
    let (kept, left): (Vec<Named>, Vec<Named>) = calls.iter().cloned().partition(|named| named.name != out);
    assert!(!kept.is_empty() && !left.is_empty());
    let whole = run(fresh(), calls);
    let expected = calls.iter().zip(&whole).filter(|(named, _)| named.name != out).map(|(_, made)| made);
    let shorter = run(with(fresh(), out, stranger), &kept);
    assert_eq!(shorter.len(), expected.clone().count());
    for ((named, (answer, station)), (before, of_all)) in kept.iter().zip(&shorter).zip(expected) {
        assert_eq!(answer, before, "{named:02x?}");
        assert!(slot(station, other) == slot(of_all, other), "the slot of {other} after {named:02x?}");
        assert!(*slot(station, out) == stranger, "the slot of {out} after {named:02x?}");
    }
    let ends = [&whole, &shorter].map(|made| *made.last().map_or(&fresh(), |(_, station)| station));
    assert!(slot(&ends[0], other) == slot(&ends[1], other), "the slot of {other} at the end");
}

#[test]
fn leaving_out_one_recipient_changes_nothing_for_the_other() {
    let mut random = Random::new(22);
    let keys = keys(&mut random);
    for _ in 0..200 {
        let calls = drawing(&mut random, &keys).list(60, &CALLS);
        let [(_, beside), _] = placed(empty());
        for (out, stranger) in [A, B].into_iter().flat_map(|out| [(out, empty()), (out, beside.b)]) {
            left_out(&calls, out, stranger);
        }
    }
}

/// A call of each kind, with what the key needs and with buffers of no length; the last ones are refused or accepted by a name.
fn of_each_kind(random: &mut Random, held: &Held) -> Vec<Call> {
    let key = &held.key;
    let lengths = [key.public_length(), key.work_length(), key.small_work_length(), key.n.div_ceil(8)];
    let [public, work, small, row] = lengths.map(|length| vec![7; length]);
    let (capsule, word) = (random.row(key.capsule_bits()), random.row(key.n));
    vec![
        Call::Load { file: key.file() },
        Call::Load { file: vec![] },
        Call::LoadNetwork { file: random.network_file(key) },
        Call::LoadNetwork { file: vec![] },
        Call::Publish { out: public.clone(), work },
        Call::Publish { out: vec![], work: vec![] },
        Call::PublishSmall { out: public, work: small },
        Call::PublishSmall { out: vec![], work: vec![] },
        Call::Open { capsule: capsule.clone(), out: row.clone() },
        Call::Open { capsule: vec![], out: vec![] },
        Call::Read { word: word.clone(), out: row.clone() },
        Call::Read { word: vec![], out: vec![] },
        Call::ReadMarked { word: word.clone(), marks: word.clone(), out: row },
        Call::ReadMarked { word: vec![], marks: vec![], out: vec![] },
        Call::Report { capsules: capsule.clone(), out: vec![7] },
        Call::Report { capsules: capsule.clone(), out: vec![] },
        Call::Session { capsule, secret: word },
        Call::Session { capsule: vec![], secret: vec![] },
        Call::Drop,
    ]
}

/// 35 before all else, whatever the slots hold; station, output and workspace stay.
#[test]
fn every_other_name_is_refused_before_all_else() {
    let mut random = Random::new(23);
    let held = random.published(4, 12, 2);
    let calls = of_each_kind(&mut random, &held);
    let mut slots: Vec<Slot> = [1, 2, 255].map(|state| holding(state, &held.key)).into();
    let [(_, stranger), _] = placed(empty());
    slots.extend([empty(), holding(1, &random.reading_key(4, 14, 2)), stranger.b]);
    for name in (0..=255).filter(|name| ![A, B].contains(name)) {
        for (a, b) in slots.iter().flat_map(|a| slots.iter().map(move |b| (*a, *b))) {
            let before = Station { a, b };
            for call in &calls {
                let named = Named { name, call: call.clone() };
                let made = make(before, &named);
                assert_eq!(made.answer, Answer::refused(35, call), "{named:02x?}");
                assert!(made.work == call.work() && made.station == before, "{named:02x?}");
                assert_eq!(Ledger::blank().call(&named), made.answer);
            }
        }
    }
}

//! named.txt: lists of calls for both recipients, written by the second implementation alone. The file is what that says, and
//! the calls answer so.

use std::collections::BTreeSet;
use std::fmt::Write;
use std::fs;
use std::path::Path;

use shearcotter::raw::{Slot, Station};

use super::calls::run;
use super::number;
use crate::independent::drawn::has_reading_keys;
use crate::independent::held::Held;
use crate::independent::key::Key;
use crate::independent::named::Drawing;
use crate::independent::random::Random;
use crate::independent::recipients::{Answer, Call, Entry, Ledger, Named, NAMES};
use crate::support::raw_calls::{empty, fresh, holding, open};
use crate::support::{bytes, vectors::cases_of};

/// The file that the program call_vectors reads.
const FILE: &str = include_str!("../../../crates/call_vectors/data/named.txt");
const NAME: &str = concat!(env!("CARGO_MANIFEST_DIR"), "/../crates/call_vectors/data/named.txt");

/// The most bytes of a key file or a secret, and of all: what that program has room for.
const LONGEST: usize = 60;
const MOST: usize = 120_000;

/// The numbers of damaged key files; with 6 they are in lists.rs.
const DAMAGES: [u8; 6] = [1, 2, 3, 4, 5, 7];

/// The calls, and how often they are drawn.
const CALLS: [&str; 20] = [
    "load", "load", "load", "publish", "publish", "publish", "publish", "open", "open", "open", "open", "read", "read",
    "read", "report", "report", "session", "session", "session", "drop",
];

/// Keys with t up to 3 and n up to 16: two of each shape with a public key, one that may have none, and reading keys.
fn keys(random: &mut Random) -> Vec<Held> {
    let mut keys = vec![];
    for (n, t) in [(5, 1), (8, 1), (13, 1), (9, 2), (12, 2), (14, 2), (14, 3), (16, 3)] {
        keys.extend([random.published(4, n, t), random.published(4, n, t)]);
        keys.push(Held::new(random.exchange_key(4, n, t)));
        if has_reading_keys((4, n, t)) {
            keys.push(Held::new(random.reading_key(4, n, t)));
        }
    }
    keys
}

/// Bytes in hexadecimal; `-` is none.
fn hex(bytes: &[u8]) -> String {
    match bytes {
        [] => "-".to_owned(),
        _ => bytes.iter().map(|byte| format!("{byte:02x}")).collect(),
    }
}

/// What a call is lent: bytes of inputs, lengths of the others.
fn lent(call: &Call) -> String {
    match call {
        Call::Load { file } | Call::LoadNetwork { file } => format!(" {}", hex(file)),
        Call::Publish { out, work } | Call::PublishSmall { out, work } => format!(" {} {}", out.len(), work.len()),
        Call::Open { capsule: row, out } | Call::Read { word: row, out } | Call::Report { capsules: row, out } => {
            format!(" {} {}", hex(row), out.len())
        }
        Call::ReadMarked { word, marks, out } => format!(" {} {} {}", hex(word), hex(marks), out.len()),
        Call::Session { capsule, secret } => format!(" {} {}", hex(capsule), hex(secret)),
        Call::Drop => String::new(),
    }
}

/// What it answers; the key is that of the recipient that it names.
fn said(call: &Call, answer: &Answer, key: Option<&Key>) -> String {
    match (answer.number, call, key) {
        (0, Call::Publish { .. } | Call::PublishSmall { .. }, Some(key)) => {
            format!("ok {}", hex(&answer.out[..key.public_length()]))
        }
        (0, Call::Open { .. } | Call::Read { .. } | Call::ReadMarked { .. }, Some(key)) => {
            format!("ok {} {}", hex(&answer.out[..key.n.div_ceil(8)]), answer.ones)
        }
        (0, Call::Report { capsules, .. }, Some(key)) => {
            let records = capsules.len().div_ceil(key.capsule_bits().div_ceil(8));
            format!("ok {}", hex(&answer.out[..records]))
        }
        (0, Call::Session { .. }, _) => format!("ok {}", hex(&answer.key)),
        (0, _, _) => "ok".to_owned(),
        (number, _, _) => format!("refused {number}"),
    }
}

/// The file of a recipient's key, and whether it is published.
fn end(entry: &Entry) -> String {
    match entry.state {
        0 => " - 0".to_owned(),
        state => format!(" {} {}", hex(&entry.held.key.file()), state - 1),
    }
}

fn list(text: &mut String, number: usize, calls: &[Named]) {
    let mut ledger = Ledger::blank();
    writeln!(text, "list {number}").expect("a line");
    for named in calls {
        let Named { name, call } = named;
        let answer = ledger.call(named);
        let key = ledger.entry(*name).map(|entry| &entry.held.key);
        writeln!(text, "{name} {}{} -> {}", call.kind(), lent(call), said(call, &answer, key)).expect("a line");
    }
    let ends = NAMES.map(|name| end(ledger.entry(name).expect("a name")));
    writeln!(text, "end{}", ends.concat()).expect("a line");
}

/// All lists: 80 of 20 calls, and one of 300.
fn text() -> String {
    let mut random = Random::new(606);
    let (keys, mut text) = (keys(&mut random), String::new());
    for (number, length) in [20; 80].into_iter().chain([300]).enumerate() {
        let mut drawing =
            Drawing { random: &mut random, keys: &keys, unknown: 14, damages: &DAMAGES, longest: LONGEST };
        list(&mut text, number, &drawing.list(length, &CALLS));
    }
    text
}

#[test]
#[ignore = "writes named.txt again"]
fn write_the_file() {
    fs::write(Path::new(NAME), text()).expect("the file is written");
}

#[test]
fn the_file_is_what_the_second_implementation_says() {
    assert!(FILE.len() <= MOST, "{} bytes", FILE.len());
    let (expected, found) = (cases_of(&text()), cases_of(FILE));
    for (expected, found) in expected.iter().zip(&found) {
        assert_eq!(found, expected, "write it again: cargo test -- --ignored write_the_file");
    }
    assert_eq!(found.len(), expected.len());
    assert!(text() == FILE);
}

/// The slot that an end describes.
fn slot(file: &str, published: &str) -> Slot {
    match file {
        "-" => empty(),
        _ => holding(1 + u8::from(published == "1"), &Key::parse(&bytes(file)).expect("a key")),
    }
}

/// A name, a call or what a call is about, and a number that was met there.
type Met = BTreeSet<(u8, String, u8)>;

/// Adds what a line meets: its number, a report's records, and what open answers for the capsule of a session key.
fn meet(met: &mut Met, station: Station, name: u8, case: &[String]) {
    let arrow = case.iter().position(|part| part == "->").expect("an arrow");
    let (call, said) = (case[0].as_str(), &case[arrow + 1..]);
    met.insert((name, call.to_owned(), number(said)));
    match (call, said[0].as_str()) {
        ("report", "ok") => met.extend(bytes(&said[1]).into_iter().map(|record| (name, "record".to_owned(), record))),
        ("session", "ok") => {
            let opened = open(station, name, &bytes(&case[1]), &mut [0; 2]).refused;
            met.insert((name, "capsule of a session key".to_owned(), opened));
        }
        _ => {}
    }
}

#[test]
fn the_calls_answer_so() {
    let (mut station, mut lists, mut calls, mut met) = (fresh(), 0, 0, Met::new());
    for case in cases_of(FILE) {
        match case[0].as_str() {
            "list" => {
                station = fresh();
                lists += 1;
            }
            "end" => {
                let [a, b] = [1, 3].map(|i| slot(&case[i], &case[i + 1]));
                assert!(station == Station { a, b }, "{case:?}");
            }
            name => {
                let name = name.parse().expect("a name");
                meet(&mut met, station, name, &case[1..]);
                station = run(station, name, &case[1..]);
                calls += 1;
            }
        }
    }
    assert_eq!((lists, calls), (81, 1900));
    all_met(&met);
}

/// Every number of every call, and every record, was met under both names, and 35 by every call under others alone.
fn all_met(met: &Met) {
    for (what, expected) in [
        ("load", &[0, 22, 1, 2, 3, 4, 5, 7][..]),
        ("publish", &[0, 21, 34, 10, 11, 23]),
        ("open", &[0, 21, 34, 24, 8, 9, 10, 13]),
        ("read", &[0, 21, 8, 9, 10, 14]),
        ("report", &[0, 21, 34, 24, 31]),
        ("record", &[0, 8, 9, 13]),
        ("session", &[0, 21, 34, 24, 8, 9, 33]),
        ("capsule of a session key", &[0, 13]),
        ("drop", &[0, 21]),
    ] {
        for (name, number) in NAMES.iter().flat_map(|name| expected.iter().map(move |number| (*name, *number))) {
            assert!(met.contains(&(name, what.to_owned(), number)), "{what} of {name}: never {number}");
        }
    }
    let unknown = met.iter().filter(|(name, _, number)| !NAMES.contains(name) || *number == 35);
    assert!(unknown.clone().all(|(name, _, number)| !NAMES.contains(name) && *number == 35), "{met:?}");
    let calls: BTreeSet<&String> = unknown.map(|(_, call, _)| call).collect();
    assert_eq!(calls.len(), 7, "{calls:?} answer 35");
}

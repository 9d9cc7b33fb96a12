//! The customer's vectors for document 01 and the requests.

mod calls;
mod fields;
mod irreducible;
mod keys;
mod marked;
mod named;
mod networks;
mod program;
mod sessions;
mod shake;
mod standard;
mod words;

use shearcotter::{raw, Name, Pattern, Refusal, Station};

use crate::independent;
use crate::support::raw_calls::{self, held, placed};
use crate::support::vectors::file;
use crate::support::{bytes, UNTOUCHED};

/// The folders of the standard's published keys; those ending in f have keys whose support was moved for a public key.
const STANDARD: [&str; 10] = [
    "mceliece348864",
    "mceliece348864f",
    "mceliece460896",
    "mceliece460896f",
    "mceliece6688128",
    "mceliece6688128f",
    "mceliece6960119",
    "mceliece6960119f",
    "mceliece8192128",
    "mceliece8192128f",
];

/// A file of such a folder, of count 0.
fn at(name: &str, part: &str) -> Vec<u8> {
    file(&format!("{name}/count0/{part}"))
}

/// What a case says: `ok` and its fields, or `refused` and the number.
fn expected(case: &[String]) -> Result<Vec<&str>, u8> {
    match case[0].as_str() {
        "ok" => Ok(case[1..].iter().map(String::as_str).collect()),
        "refused" => Err(case[1].parse().expect("a number")),
        other => panic!("neither ok nor refused: {other}"),
    }
}

/// A reading or opening beside what the case says: the pattern, and where it is given the number of ones.
fn same_pattern(answer: Result<Pattern, Refusal>, case: &[String]) {
    match (answer, expected(case)) {
        (Ok(pattern), Ok(fields)) => {
            assert_eq!(pattern.bytes(), bytes(fields[0]), "{case:?}");
            assert_eq!(usize::from(pattern.ones()), pattern.places().count(), "{case:?}");
            if let Some(ones) = fields.get(1) {
                assert_eq!(pattern.ones().to_string(), *ones, "{case:?}");
            }
        }
        (Err(refusal), Err(number)) => assert_eq!(refusal.number(), number, "{case:?}"),
        (answer, _) => panic!("{answer:?} where the case says {case:?}"),
    }
}

/// A report on the capsules of all `open` cases, back to back, has their numbers as records; how many. Of those with a
/// wrong length only a shorter one can stand there, as the tail: each in turn.
fn same_records(slot: &raw::Slot, cases: &[Vec<String>]) -> usize {
    let length = held(slot).capsule_bits().div_ceil(8);
    let open = cases.iter().filter(|case| case[0] == "open").map(|case| (bytes(&case[1]), number(&case[2..])));
    let (whole, other): (Vec<_>, Vec<_>) = open.partition(|(capsule, _)| capsule.len() == length);
    let (capsules, numbers): (Vec<_>, Vec<_>) = whole.into_iter().unzip();
    let short = other.into_iter().filter(|(capsule, _)| (1..length).contains(&capsule.len()));
    for (tail, last) in short.chain([(vec![], 0)]) {
        let expected: Vec<u8> = numbers.iter().copied().chain((!tail.is_empty()).then_some(last)).collect();
        for (name, station) in placed(*slot) {
            let mut records = vec![UNTOUCHED; expected.len()];
            let reported = raw_calls::report(station, name, &[&capsules.concat()[..], &tail].concat(), &mut records);
            assert_eq!((reported.refused, &records), (0, &expected));
            assert_eq!(reported.counts, independent::calls::counts(&expected));
        }
    }
    numbers.len()
}

/// The lines of the folders of words were made before request L5: with a g that has a proper factor, publishing and opening
/// are refused with 34, and reading and locking stay.
fn with_a_factor(case: &[String]) -> Vec<String> {
    let kept = match case[0].as_str() {
        "publish" => 1,
        "open" => 2,
        _ => return case.to_vec(),
    };
    let refused = ["refused", "34"].map(str::to_owned);
    case[..kept].iter().cloned().chain(refused).collect()
}

/// The number that a case says; 0 for `ok`.
fn number(case: &[String]) -> u8 {
    expected(case).map_or_else(|number| number, |_| 0)
}

fn loaded(file: &[u8]) -> Station {
    let mut station = Station::fresh();
    station.load(Name::A, file).expect("load accepts");
    station
}

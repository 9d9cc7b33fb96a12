//! marked.txt: readings with marks, with one key a folder of words.

use shearcotter::{Name, Refusal};

use super::{expected, loaded};
use crate::independent::calls::{self, Outcome};
use crate::independent::held::Held;
use crate::independent::key::Key;
use crate::support::raw_calls::{self, holding, placed};
use crate::support::vectors::{cases, exists, file, names};
use crate::support::{bytes, only_written, UNTOUCHED};

/// What a line says behind its marks: a number, or the differences and d.
fn outcome(case: &[String]) -> Outcome {
    match expected(case) {
        Ok(fields) => Outcome { number: 0, ones: fields[1].parse().expect("a number"), written: bytes(fields[0]) },
        Err(number) => Outcome { number, ..Outcome::default() },
    }
}

/// The lines of a folder; how many there are, and how many of them are refused.
fn same_lines(folder: &str) -> (usize, usize) {
    let key = file(&format!("{folder}/key.bin"));
    let (station, held) = (loaded(&key), Held::new(Key::parse(&key).expect("a key")));
    let (slot, length) = (holding(1, &held.key), held.key.n.div_ceil(8));
    let (lines, mut refused) = (cases(&format!("{folder}/marked.txt")), 0);
    for case in &lines {
        assert_eq!(case[0], "marked");
        let (word, marks, expected) = (bytes(&case[1]), bytes(&case[2]), outcome(&case[3..]));
        for (name, station) in placed(slot) {
            let mut out = vec![UNTOUCHED; length + 1];
            let reply = raw_calls::read_marked(station, name, &word, &marks, &mut out);
            assert_eq!((reply.refused, reply.ones), (expected.number, expected.ones), "{case:?}");
            assert!(only_written(&out, &expected.written) && reply.station == station, "{case:?}");
        }
        let answer = station.read_marked(Name::A, &word, &marks);
        match (&answer, expected.number) {
            (Ok(reading), 0) => {
                assert_eq!((reading.differences().bytes(), reading.unmarked()), (&expected.written[..], expected.ones));
            }
            (Err(refusal), number) => assert_eq!(refusal.number(), number, "{case:?}"),
            (Ok(_), number) => panic!("accepted, not {number}: {case:?}"),
        }
        refused += usize::from(answer == Err(Refusal::NoCodeWord));
        assert_eq!(
            calls::read_marked(1, &held, &word, &marks, length),
            expected,
            "the second implementation: {case:?}"
        );
    }
    (lines.len(), refused)
}

fn run_all(wanted: impl Fn(&str) -> bool) -> (usize, usize, usize) {
    let folders = names("words").into_iter().filter(|name| wanted(name)).map(|name| format!("words/{name}"));
    let with_lines = folders.filter(|folder| exists(&format!("{folder}/marked.txt")));
    with_lines.fold((0, 0, 0), |(folders, all, refused), folder| {
        let (lines, of_folder) = same_lines(&folder);
        (folders + 1, all + lines, refused + of_folder)
    })
}

#[test]
fn small() {
    assert_eq!(run_all(|name| name.starts_with("m4-")), (23, 4548, 2339));
}

#[test]
fn large() {
    assert_eq!(run_all(|name| name.starts_with("mceliece")), (3, 63, 27));
}

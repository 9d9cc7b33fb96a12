//! Session keys of the standard's folders, those ending in f too, and the lines of the folders of words.

use shearcotter::{Name, Refusal, Station};

use super::{at, loaded, STANDARD};
use crate::independent::held::Held;
use crate::independent::key::Key;
use crate::independent::{calls, shake};
use crate::support::bytes;
use crate::support::raw_calls::{self, holding, placed};
use crate::support::vectors::{cases, exists, file, names};

/// Both session keys of a folder, and that only the one for a capsule that does not open goes by the secret.
fn same_keys(name: &str, station: &Station) {
    let at = |part: &str| at(name, part);
    let (secret, capsule, refused) = (at("secret.bin"), at("capsule.bin"), at("capsule_reject.bin"));
    let session = |capsule: &[u8], secret: &[u8]| station.session(Name::A, capsule, secret).expect("a key");
    let [expected, of_secret] = ["session.bin", "session_capsule_reject.bin"].map(at);
    assert_eq!(session(&capsule, &secret), expected[..], "{name}");
    assert_eq!(session(&refused, &secret), of_secret[..], "{name}");
    assert_eq!(station.open(Name::A, &refused), Err(Refusal::NoPattern), "{name}");
    let other: Vec<u8> = secret.iter().rev().copied().collect();
    assert_eq!(session(&capsule, &other), expected[..], "{name}");
    assert_ne!(session(&refused, &other), of_secret[..], "{name}");
    let held = Held::new(Key::parse(&at("key.bin")).expect("a key"));
    for (capsule, key) in [(&capsule, &expected), (&refused, &of_secret)] {
        let second = calls::session(2, &held, capsule, &secret);
        assert_eq!((second.0, &second.1[..]), (0, &key[..]), "the second implementation: {name}");
    }
    assert_eq!(station.session(Name::A, &capsule, &secret[1..]), Err(Refusal::BadSecret), "{name}");
}

/// A folder's key, loaded and published. Of the public keys of folders ending in f there is only the SHAKE256 of their bytes.
fn published(name: &str) -> Station {
    let mut station = loaded(&at(name, "key.bin"));
    let public = station.publish(Name::A).expect("publish accepts");
    if name.ends_with('f') {
        assert_eq!(shake::shake256(&public, 32), at(name, "public_shake256.bin"), "public key of {name}");
        let pattern = station.open(Name::A, &at(name, "capsule.bin")).expect("it opens");
        assert_eq!(pattern.bytes(), at(name, "pattern.bin"), "{name}");
    } else {
        assert!(public == at(name, "public.bin"), "public key of {name}");
    }
    station
}

#[test]
fn every_standard_folder() {
    for name in STANDARD {
        same_keys(name, &published(name));
    }
}

/// The `session` lines of a folder of words: whether all are refused with 34 since request L5, and how many there are.
fn same_lines(folder: &str) -> (bool, usize) {
    let key = file(&format!("{folder}/key.bin"));
    let (mut station, held) = (loaded(&key), Held::new(Key::parse(&key).expect("a key")));
    let split = held.has_factor();
    assert_eq!(station.publish(Name::A).err(), split.then_some(Refusal::ReducibleKey), "{folder}");
    let marked = holding(2, &held.key);
    let lines = cases(&format!("{folder}/session.txt"));
    for case in &lines {
        let [capsule, secret, key] = [1, 2, 3].map(|i| bytes(&case[i]));
        assert_eq!((case[0].as_str(), case.len()), ("session", 4), "{case:?}");
        let expected = if split { (34, [0; 32]) } else { (0, key.try_into().expect("32 bytes")) };
        for (name, station) in placed(marked) {
            let derived = raw_calls::session(station, name, &capsule, &secret);
            assert_eq!((derived.refused, derived.key), expected, "{case:?}");
        }
        let answer = station.session(Name::A, &capsule, &secret).map_err(Refusal::number);
        assert_eq!(answer, if split { Err(34) } else { Ok(expected.1) }, "{case:?}");
        assert_eq!(calls::session(2, &held, &capsule, &secret), expected, "the second implementation: {case:?}");
    }
    (split, lines.len())
}

#[test]
fn every_folder_of_words() {
    let folders = names("words").into_iter().map(|name| format!("words/{name}"));
    let with_lines = folders.filter(|folder| exists(&format!("{folder}/session.txt")));
    let counts: Vec<(bool, usize)> = with_lines.map(|folder| same_lines(&folder)).collect();
    let of = |kind: bool| counts.iter().filter(|(split, _)| *split == kind).map(|(_, count)| count).sum::<usize>();
    assert!(counts.len() >= 18 && of(false) > 2_000 && of(true) > 100, "{counts:?}");
}

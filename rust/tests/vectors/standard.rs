//! The standard's published keys and capsules, count 0 of each shape.

use shearcotter::{lock, Name, Refusal, Shape, Workspace};

use super::{at, loaded, same_pattern, same_records, STANDARD};
use crate::independent::key::Key;
use crate::support::bytes;
use crate::support::raw_calls::holding;
use crate::support::vectors::cases;

fn published_vector(shape: Shape) {
    let name = shape.name().expect("a name");
    let at = |part: &str| at(&name, part);
    let (public, capsule, pattern) = (at("public.bin"), at("capsule.bin"), at("pattern.bin"));
    let mut station = loaded(&at("key.bin"));
    assert_eq!(station.shape(Name::A), Some(shape));
    assert!(station.publish(Name::A).expect("publish accepts") == public, "public key of {name}");
    assert_eq!(lock(shape, &public, &pattern), Ok(capsule.clone()));
    let opened = station.open(Name::A, &capsule).expect("it opens");
    assert_eq!((opened.bytes(), opened.ones()), (&pattern[..], shape.t()));
    assert_eq!(station.open(Name::A, &at("capsule_reject.bin")), Err(Refusal::NoPattern));
    let cases = cases(&format!("{name}/count0/many.txt"));
    for case in &cases {
        assert_eq!(case[0], "open");
        same_pattern(station.open(Name::A, &bytes(&case[1])), &case[2..]);
    }
    let raw = holding(2, &Key::parse(&at("key.bin")).expect("a key"));
    assert!(same_records(&raw, &cases) > 10, "{name}");
}

/// With the small workspace, those ending in f too, whose public keys stand in no file here: as with the other, where `sessions`
/// compares their SHAKE256.
#[test]
fn public_keys_with_a_small_workspace() {
    for name in STANDARD {
        let mut station = loaded(&at(name, "key.bin"));
        let expected = if name.ends_with('f') {
            loaded(&at(name, "key.bin")).publish(Name::A).expect("publish accepts")
        } else {
            at(name, "public.bin")
        };
        let public = station.publish_with(Name::A, Workspace::Small).expect("publish accepts");
        assert!(public == expected, "public key of {name}");
        let opened = station.open(Name::A, &at(name, "capsule.bin")).expect("it opens");
        assert_eq!(opened.bytes(), at(name, "pattern.bin"), "{name}");
    }
}

#[test]
fn mceliece348864() {
    published_vector(Shape::MCELIECE348864);
}

#[test]
fn mceliece460896() {
    published_vector(Shape::MCELIECE460896);
}

#[test]
fn mceliece6688128() {
    published_vector(Shape::MCELIECE6688128);
}

#[test]
fn mceliece6960119() {
    published_vector(Shape::MCELIECE6960119);
}

#[test]
fn mceliece8192128() {
    published_vector(Shape::MCELIECE8192128);
}

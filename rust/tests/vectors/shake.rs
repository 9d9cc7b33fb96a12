//! shake.txt, and the hash vectors of the standard's folders.

use shearcotter::shake256;

use super::{at, STANDARD};
use crate::independent::shake;
use crate::support::bytes;
use crate::support::vectors::cases;

/// The crate's bytes and the second implementation's are those expected.
fn same(input: &[u8], expected: &[u8]) {
    let mut out = vec![0xA5; expected.len()];
    shake256(input, &mut out);
    assert!(out == expected, "{} bytes of {input:02x?}", out.len());
    assert!(
        shake::shake256(input, out.len()) == expected,
        "the second implementation: {} bytes of {input:02x?}",
        out.len()
    );
}

#[test]
fn inputs_and_outputs() {
    let cases = cases("shake.txt");
    assert!(cases.len() > 70);
    for case in cases {
        let (input, expected) = (bytes(&case[0]), bytes(&case[2]));
        assert_eq!(expected.len(), case[1].parse().expect("a length"));
        same(&input, &expected);
    }
}

/// The byte 0, the secret and a capsule that opens: no session key, but a hash; and both session keys as hashes of their parts.
#[test]
fn parts_of_the_standard() {
    for name in STANDARD {
        let at = |part: &str| at(name, part);
        let hashed = |first: u8, middle: &str, capsule: &str, expected: &str| {
            same(&[vec![first], at(middle), at(capsule)].concat(), &at(expected));
        };
        hashed(0, "secret.bin", "capsule.bin", "session_reject.bin");
        hashed(1, "pattern.bin", "capsule.bin", "session.bin");
        hashed(0, "secret.bin", "capsule_reject.bin", "session_capsule_reject.bin");
    }
}
